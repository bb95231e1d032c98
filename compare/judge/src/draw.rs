//! Drawn numbers, by sort.

use crate::random::Random;

/// The numbers that break a careless rule.
pub const SPECIAL: [u64; 24] = [
    0x0000000000000000, // zeros
    0x8000000000000000,
    0x0000000000000001, // smallest and largest subnormal
    0x8000000000000001,
    0x000fffffffffffff,
    0x800fffffffffffff,
    0x0010000000000000, // smallest normal
    0x8010000000000000,
    0x3ff0000000000000, // 1 and its neighbours
    0xbff0000000000000,
    0x3ff0000000000001,
    0x3fefffffffffffff,
    0x4014000000000000, // 5
    0xc014000000000000,
    0x5fe0000000000000, // the squares of these overflow, and come out subnormal
    0x1e60000000000000,
    0x7fefffffffffffff, // largest finite
    0xffefffffffffffff,
    0x7ff0000000000000, // infinities
    0xfff0000000000000,
    0x7ff8000000000000, // NaNs, the last signalling
    0xfff8000000000000,
    0x7fffffffffffffff,
    0x7ff0000000000001,
];

#[derive(Clone, Copy, Debug, PartialEq)]
pub enum Sort {
    /// Between 2^-12 and 2^13.
    Ordinary,
    /// Whole, from -9 to 9, both zeros among them.
    Whole,
    /// Normal, but products vanish.
    Tiny,
    Subnormal,
    /// Finite, but products overflow.
    Huge,
    /// Zeros of both signs.
    Zeros,
    /// Out of SPECIAL.
    Special,
    /// Any pattern.
    Wild,
    /// Each number of a sort of its own.
    Mixed,
}

pub const SORTS: [Sort; 9] = [
    Sort::Ordinary,
    Sort::Whole,
    Sort::Tiny,
    Sort::Subnormal,
    Sort::Huge,
    Sort::Zeros,
    Sort::Special,
    Sort::Wild,
    Sort::Mixed,
];

/// A pattern with this exponent field, its sign and digits drawn.
fn with_exponent(random: &mut Random, low: usize, high: usize) -> f64 {
    let exponent = random.within(low, high) as u64;
    f64::from_bits((random.word() & 0x800fffffffffffff) | exponent << 52)
}

pub fn number(random: &mut Random, sort: Sort) -> f64 {
    match sort {
        Sort::Ordinary => with_exponent(random, 1023 - 12, 1023 + 12),
        Sort::Whole => {
            let size = random.below(10) as f64;
            if random.one_in(2) {
                -size
            } else {
                size
            }
        }
        Sort::Tiny => with_exponent(random, 1, 480),
        Sort::Subnormal => {
            let digits = random.word() >> 12 >> random.below(52);
            f64::from_bits(random.word() & 1 << 63 | digits)
        }
        Sort::Huge => with_exponent(random, 1540, 2046),
        Sort::Zeros => f64::from_bits(random.word() & 1 << 63),
        Sort::Special => f64::from_bits(random.pick(&SPECIAL)),
        Sort::Wild => f64::from_bits(random.word()),
        Sort::Mixed => {
            let sort = random.pick(&SORTS[..8]);
            number(random, sort)
        }
    }
}

pub fn numbers(random: &mut Random, sort: Sort, count: usize) -> Vec<f64> {
    (0..count).map(|_| number(random, sort)).collect()
}

/// A factor such as alpha or beta: special as often as not.
pub fn factor(random: &mut Random) -> f64 {
    if random.one_in(2) {
        number(random, Sort::Special)
    } else {
        number(random, Sort::Ordinary)
    }
}
