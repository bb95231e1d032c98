//! The list of roots: x and the root of x.

use std::collections::HashSet;
use std::path::Path;

use crate::original::root;
use crate::random::Random;
use crate::words::{word, write_list};

/// Drawn patterns, each once, in the order drawn.
struct Drawn {
    patterns: Vec<u64>,
    known: HashSet<u64>,
    counts: Vec<(&'static str, usize)>,
}

impl Drawn {
    fn push(&mut self, x: u64) {
        if self.known.insert(x) {
            self.patterns.push(x);
        }
    }

    /// x and the two patterns beside it.
    fn push_with_neighbours(&mut self, x: u64) {
        self.push(x - 1);
        self.push(x);
        self.push(x + 1);
    }

    fn end_group(&mut self, name: &'static str) {
        let before: usize = self.counts.iter().map(|(_, n)| n).sum();
        self.counts.push((name, self.patterns.len() - before));
    }
}

/// digits · 2^power, for 53-bit digits (the first bit set) and a power that keeps it normal.
fn normal(digits: u64, power: i32) -> u64 {
    assert!(digits >> 52 == 1);
    let exponent = power + 52 + 1023;
    assert!((1..=2046).contains(&exponent));
    (exponent as u64) << 52 | digits & 0xfffffffffffff
}

/// The odd Q below 2^bits with Q·Q = a modulo 2^bits; a is 1 modulo 8.
fn roots_modulo(a: i64, bits: u32) -> [u64; 4] {
    let mask = (1u64 << bits) - 1;
    let mut q: u64 = 1;
    // One more bit of q·q comes right each round.
    for bit in 3..bits {
        if (q.wrapping_mul(q) ^ a as u64) >> bit & 1 == 1 {
            q = q.wrapping_add(1 << (bit - 1));
        }
    }
    let half = 1u64 << (bits - 1);
    [
        q,
        q.wrapping_neg(),
        q.wrapping_add(half),
        q.wrapping_neg().wrapping_add(half),
    ]
    .map(|q| q & mask)
}

/// The x whose root lies nearest a midpoint between two numbers. With Q odd of 54 bits, Q/2 is
/// such a midpoint, and X·2^s = (Q·Q - a)/4 has a root off it by about a/(4Q).
fn beside_midpoints(drawn: &mut Drawn, random: &mut Random) {
    for i in -400i64..400 {
        let a = 8 * i + 1;
        for s in [52, 53] {
            for q in roots_modulo(a, s + 2) {
                let digits = ((q as i128 * q as i128 - a as i128) >> (s + 2)) as u64;
                if q >> 53 == 1 && digits >> 52 == 1 {
                    let even = 2 * random.below(480) as i32 - 480;
                    drawn.push(normal(digits, s as i32 - 106 + even));
                }
            }
        }
    }
    drawn.end_group("roots a hair from a midpoint");

    for _ in 0..600 {
        // The numbers on both sides of (q + 1/2)^2, q drawn and odd.
        let q = (1 << 52 | random.word() >> 12 | 1) as u128;
        let square = q * q + q;
        let s = 128 - square.leading_zeros() - 53;
        let even = 2 * random.below(480) as i32 - 480;
        let below = normal((square >> s) as u64, s as i32 - 106 + even);
        drawn.push(below);
        drawn.push(below + 1);
    }
    drawn.end_group("beside the square of a midpoint");
}

fn patterns(seed: u64) -> Drawn {
    let mut random = Random::new(seed);
    let mut drawn = Drawn {
        patterns: Vec::new(),
        known: HashSet::new(),
        counts: Vec::new(),
    };
    let digits = (1u64 << 52) - 1;
    let sign = 1u64 << 63;
    let infinity = 0x7ff0000000000000u64;

    for x in [0, sign, infinity, infinity | sign] {
        drawn.push(x);
    }
    for payload in [1, 2, 1 << 50, 1 << 51, (1 << 51) + 1, digits - 1, digits] {
        drawn.push(infinity | payload);
        drawn.push(infinity | payload | sign);
    }
    drawn.end_group("zeros, infinities, NaN");

    for x in [
        1,
        2,
        digits,
        1 << 52,
        0x3ff0000000000000,
        0x4000000000000000,
        0x7fefffffffffffff,
    ] {
        drawn.push(sign | x);
    }
    for _ in 0..40 {
        drawn.push(sign | (random.word() % infinity));
    }
    drawn.end_group("below zero");

    for x in [1, 2, 3, 4, 5, 6, 7, 8, 9, digits - 1, digits] {
        drawn.push(x);
    }
    for lead in 0..52 {
        let first = 1u64 << lead;
        drawn.push(first);
        drawn.push(first | first >> 1);
        drawn.push(first + (first - 1));
        drawn.push(first | 1);
        for _ in 0..12 {
            drawn.push(first | random.word() & (first - 1));
        }
    }
    drawn.end_group("subnormal");

    for exponent in 1..2047u64 {
        let low = exponent << 52;
        for d in [0, 1, 1 << 51, digits - 1, digits] {
            drawn.push(low | d);
        }
        for _ in 0..7 {
            drawn.push(low | random.word() & digits);
        }
    }
    // Exponent 1023 + e stands for 2^e: the neighbours of these powers fill the ends of ranges.
    for e in -8..=8i64 {
        drawn.push_with_neighbours(((1023 + e) as u64) << 52);
    }
    drawn.end_group("each exponent, ends of ranges");

    for k in 1..=600u64 {
        drawn.push_with_neighbours(((k * k) as f64).to_bits());
    }
    drawn.end_group("squares of 1 to 600, and neighbours");

    for _ in 0..1200 {
        // 26 bits: the square is exact.
        let r = (1u64 << 25 | random.word() >> 39) as f64;
        let scale = f64::from_bits((random.within(600, 1400) as u64) << 52);
        drawn.push_with_neighbours((r * scale * (r * scale)).to_bits());
    }
    drawn.end_group("exact squares, and neighbours");

    for _ in 0..1600 {
        let r = f64::from_bits((random.within(520, 1500) as u64) << 52 | random.word() & digits);
        drawn.push_with_neighbours((r * r).to_bits());
    }
    drawn.end_group("rounded squares, and neighbours");

    beside_midpoints(&mut drawn, &mut random);
    drawn
}

pub fn make(seed: u64, path: &Path) -> std::io::Result<()> {
    let drawn = patterns(seed);
    let mut words = Vec::new();
    for x in &drawn.patterns {
        let x = f64::from_bits(*x);
        words.push(x.to_bits());
        words.push(word(root(x)));
    }
    write_list(path, drawn.patterns.len(), &words)?;
    println!(
        "roots: {} records, {} bytes",
        drawn.patterns.len(),
        8 + 8 * words.len()
    );
    for (name, count) in &drawn.counts {
        println!("  {count:6} {name}");
    }
    Ok(())
}

#[cfg(test)]
mod tests {
    use super::*;

    /// A finite number above zero as digits · 2^power.
    fn parts(x: f64) -> (u128, i32) {
        let bits = x.to_bits();
        match bits >> 52 {
            0 => (bits.into(), -1074),
            e => ((bits & 0xfffffffffffff | 1 << 52).into(), e as i32 - 1075),
        }
    }

    /// Over whole numbers: the root of every x lies between the midpoints beside the answer.
    #[test]
    fn every_root_is_nearest() {
        for x in patterns(1).patterns {
            let x = f64::from_bits(x);
            let r = root(x);
            if x > 0.0 && x.is_finite() {
                let (mut xd, mut xp) = parts(x);
                let (rd, rp) = parts(r);
                assert_eq!(rd >> 52, 1);
                // x = xd · 2^xp and r = rd · 2^rp: with xp brought to 2·rp - 2, compare
                // 4·x with (2·r ± one unit of r's last place)^2.
                while xp > 2 * rp - 2 {
                    xd *= 2;
                    xp -= 1;
                }
                assert_eq!(xp, 2 * rp - 2, "{x:e}");
                assert!((2 * rd - 1) * (2 * rd - 1) < xd, "{x:e}");
                assert!(xd < (2 * rd + 1) * (2 * rd + 1), "{x:e}");
            } else if x == 0.0 {
                assert_eq!(r.to_bits(), x.to_bits());
            } else if x == f64::INFINITY {
                assert_eq!(r, x);
            } else {
                assert!(r.is_nan());
            }
        }
    }

    #[test]
    fn some_roots_are_very_near_a_midpoint() {
        let mut drawn = Drawn {
            patterns: Vec::new(),
            known: HashSet::new(),
            counts: Vec::new(),
        };
        beside_midpoints(&mut drawn, &mut Random::new(1));
        let hair = drawn.counts[0].1;
        assert!(hair > 500);
        let near = drawn.patterns[..hair].iter().filter(|x| {
            let (xd, xp) = parts(f64::from_bits(**x));
            let (rd, rp) = parts(root(f64::from_bits(**x)));
            let x4 = (xd << (xp - 2 * rp + 2)) as i128;
            let (low, high) = (2 * rd as i128 - 1, 2 * rd as i128 + 1);
            (x4 - low * low).min(high * high - x4) < 4000
        });
        assert_eq!(near.count(), hair);
    }
}
