//! A problem as a card file, by document 02 (i): bits, the most significant first.

use crate::handed::{raised, stored, work_places, Handed, Vector};
use crate::problem::{Answer, Problem};
use crate::words::word;

pub const SHORT: u64 = 1;
pub const EDITION: u64 = 2;
pub const LARGE: u64 = 3;
pub const PADDING: u64 = 4;
pub const LEFT_OVER: u64 = 5;

/// The largest n and m of a card.
pub const MOST_SIZE: usize = 32;

/// All that a card says; numbers are patterns.
#[derive(Clone, Debug, PartialEq)]
pub struct Card {
    pub packed: bool,
    pub n: usize,
    pub m: usize,
    pub words: Vec<u16>,
    pub max_iter: u64,
    pub sweep_limit: u64,
    pub eps_acc: u64,
    pub eps_inf: u64,
    pub eps_zero: u64,
    pub c: Vec<u64>,
    pub a: Vec<u64>,
    pub b: Vec<u64>,
}

// Reading.

struct Bits<'a> {
    bytes: &'a [u8],
    at: usize,
}

impl Bits<'_> {
    fn left(&self) -> usize {
        self.bytes.len() * 8 - self.at
    }

    /// The next field, if it is whole.
    fn take(&mut self, width: usize) -> Result<u64, u64> {
        if self.left() < width {
            return Err(SHORT);
        }
        let mut value = 0;
        for _ in 0..width {
            let bit = self.bytes[self.at / 8] >> (7 - self.at % 8) & 1;
            value = value << 1 | u64::from(bit);
            self.at += 1;
        }
        Ok(value)
    }

    fn take_all(&mut self, width: usize, count: usize) -> Result<Vec<u64>, u64> {
        (0..count).map(|_| self.take(width)).collect()
    }

    /// n or m.
    fn size(&mut self) -> Result<usize, u64> {
        let size = self.take(6)? as usize;
        if size > MOST_SIZE {
            return Err(LARGE);
        }
        Ok(size)
    }
}

/// What a card says, or its first fault.
pub fn read(bytes: &[u8]) -> Result<Card, u64> {
    let mut bits = Bits { bytes, at: 0 };
    if bits.take(4)? != 1 {
        return Err(EDITION);
    }
    let packed = bits.take(1)? == 1;
    let n = bits.size()?;
    let m = bits.size()?;
    let count = bits.take(6)? as usize;
    let words = bits
        .take_all(16, count)?
        .iter()
        .map(|w| *w as u16)
        .collect();
    let card = Card {
        packed,
        n,
        m,
        words,
        max_iter: bits.take(20)?,
        sweep_limit: bits.take(7)?,
        eps_acc: bits.take(64)?,
        eps_inf: bits.take(64)?,
        eps_zero: bits.take(64)?,
        c: bits.take_all(64, n)?,
        a: bits.take_all(64, stored(packed, m, n))?,
        b: bits.take_all(64, m)?,
    };
    let to_the_byte = (8 - bits.at % 8) % 8;
    if bits.take(to_the_byte)? != 0 {
        return Err(PADDING);
    }
    if bits.left() > 0 {
        return Err(LEFT_OVER);
    }
    Ok(card)
}

// Writing.

/// The fields as bits, whatever they hold: the low bits of each.
#[derive(Default)]
struct Written {
    bits: Vec<bool>,
}

impl Written {
    fn put(&mut self, width: usize, value: u64) {
        self.bits
            .extend((0..width).rev().map(|i| value >> i & 1 == 1));
    }

    fn bytes(&self) -> Vec<u8> {
        let byte = |part: &[bool]| {
            let bit = |i: usize| u8::from(*part.get(i).unwrap_or(&false));
            (0..8).fold(0, |value, i| value << 1 | bit(i))
        };
        self.bits.chunks(8).map(byte).collect()
    }
}

impl Card {
    pub fn of(p: &Handed) -> Card {
        let patterns = |v: &Vector| v.numbers().iter().map(|x| x.to_bits()).collect();
        Card {
            packed: p.packed,
            n: p.n,
            m: p.m,
            words: p.words.clone(),
            max_iter: p.max_iter,
            sweep_limit: p.sweep_limit,
            eps_acc: p.eps_acc.to_bits(),
            eps_inf: p.eps_inf.to_bits(),
            eps_zero: p.eps_zero.to_bits(),
            c: patterns(&p.c),
            a: patterns(&p.a),
            b: patterns(&p.b),
        }
    }

    pub fn bytes(&self) -> Vec<u8> {
        self.bytes_with(1, self.n, self.m)
    }

    /// The card with its fields of edition, n and m saying something else.
    pub fn bytes_with(&self, edition: u64, n: usize, m: usize) -> Vec<u8> {
        let mut to = Written::default();
        to.put(4, edition);
        to.put(1, u64::from(self.packed));
        to.put(6, n as u64);
        to.put(6, m as u64);
        to.put(6, self.words.len() as u64);
        for word in &self.words {
            to.put(16, u64::from(*word));
        }
        to.put(20, self.max_iter);
        to.put(7, self.sweep_limit);
        for number in [self.eps_acc, self.eps_inf, self.eps_zero] {
            to.put(64, number);
        }
        for number in [&self.c, &self.a, &self.b].into_iter().flatten() {
            to.put(64, *number);
        }
        to.bytes()
    }

    /// How many bits are left of the last byte.
    pub fn padding(&self) -> usize {
        let numbers = 3 + self.c.len() + self.a.len() + self.b.len();
        let bits = 4 + 1 + 6 + 6 + 6 + 16 * self.words.len() + 20 + 7 + 64 * numbers;
        (8 - bits % 8) % 8
    }

    /// The same, with −0 for a finite eps_acc or eps_inf below zero.
    pub fn raised(&self) -> Card {
        let of_pattern = |eps| raised(f64::from_bits(eps)).to_bits();
        Card {
            eps_acc: of_pattern(self.eps_acc),
            eps_inf: of_pattern(self.eps_inf),
            ..self.clone()
        }
    }

    /// The problem, with enough of both buffers for any card.
    pub fn handed(&self) -> Handed {
        let numbers = |v: &[u64]| Vector::whole(v.iter().map(|x| f64::from_bits(*x)).collect());
        Handed {
            max_iter: self.max_iter,
            sweep_limit: self.sweep_limit,
            eps_acc: f64::from_bits(self.eps_acc),
            eps_inf: f64::from_bits(self.eps_inf),
            eps_zero: f64::from_bits(self.eps_zero),
            packed: self.packed,
            n: self.n,
            m: self.m,
            words: self.words.clone(),
            c: numbers(&self.c),
            a: numbers(&self.a),
            b: numbers(&self.b),
            twice: false,
            edition: 1,
            work: work_places(MOST_SIZE, MOST_SIZE),
            cone_work: MOST_SIZE + MOST_SIZE * MOST_SIZE,
            fill: 0.0,
        }
    }
}

// Answering.

/// What becomes of a card.
pub enum Told {
    Fault(u64),
    Refused(u64),
    Ended(Box<Problem>, Answer),
}

pub fn told(bytes: &[u8]) -> Told {
    let card = match read(bytes) {
        Ok(card) => card,
        Err(fault) => return Told::Fault(fault),
    };
    let handed = card.handed();
    match handed.refusal() {
        Some(number) => Told::Refused(number),
        None => {
            let problem = handed.problem();
            let answer = problem.solve();
            Told::Ended(Box::new(problem), answer)
        }
    }
}

impl Told {
    /// The program's whole output.
    pub fn text(&self) -> String {
        let (problem, answer) = match self {
            Told::Fault(number) => return format!("Card {number}\n"),
            Told::Refused(number) => return format!("Refused {number}\n"),
            Told::Ended(problem, answer) => (problem, answer),
        };
        let mut text = format!("{} {} {}\n", answer.ending.name(), answer.k, answer.q);
        for x in &answer.work[..problem.n() + problem.m()] {
            text += &format!("{:016x}\n", word(*x));
        }
        text
    }
}

#[cfg(test)]
mod tests {
    use super::*;
    use crate::lists::cards::empty;

    /// 50 bits and three tolerances, in 31 bytes.
    #[test]
    fn the_empty_problem() {
        let bytes = empty().bytes();
        assert_eq!(bytes.len(), 31);
        assert_eq!(bytes[..4], [0x10, 0x00, 0x00, 0x00]);
        assert_eq!(read(&bytes), Ok(empty()));
        assert_eq!(told(&bytes).text(), "Converged 1 0\n");
    }

    /// The fields of the head, bit by bit: 0001 1 000011 000101 000010, then 0x2003 and 0x4002.
    #[test]
    fn the_head() {
        let mut card = empty();
        (card.packed, card.n, card.m) = (true, 3, 5);
        card.words = vec![0x2003, 0x4002];
        card.c = vec![0; 3];
        card.a = vec![0; 6];
        card.b = vec![0x7ff8000000000123; 5];
        let bytes = card.bytes();
        assert_eq!(bytes[..3], [0b00011000, 0b01100010, 0b10000100]);
        assert_eq!(
            bytes[3..7],
            [0b01000000, 0b00000110, 0b10000000, 0b00000100]
        );
        assert_eq!(read(&bytes), Ok(card));
        // packed, and m is not n
        assert_eq!(told(&bytes).text(), "Refused 3\n");
    }

    /// A list in groups is answered as its plain blocks are.
    #[test]
    fn a_list_in_groups() {
        let answer = |words: &[u16]| {
            let mut card = empty();
            (card.n, card.m, card.words) = (1, 2, words.to_vec());
            card.c = vec![1.0f64.to_bits()];
            card.a = vec![(-1.0f64).to_bits(); 2];
            card.b = vec![(-3.0f64).to_bits(); 2];
            told(&card.bytes()).text()
        };
        let plain = answer(&[0x2001, 0x4001]);
        assert!(plain.starts_with("Converged "));
        assert_eq!(answer(&[0xe003, 0xe000, 0x2001, 0x4001]), plain);
        assert_eq!(answer(&[0x2001, 0xe001, 0x4001]), plain);
        assert_eq!(answer(&[0x2001, 0xe002, 0x4001]), "Refused 4\n");
    }

    #[test]
    fn the_first_fault_met() {
        let card = empty();
        let good = card.bytes();
        for length in 0..31 {
            assert_eq!(read(&good[..length]), Err(SHORT));
        }
        assert_eq!(read(&card.bytes_with(2, 40, 40)[..1]), Err(EDITION));
        assert_eq!(read(&card.bytes_with(1, 33, 0)[..1]), Err(SHORT));
        assert_eq!(read(&card.bytes_with(1, 33, 0)[..2]), Err(LARGE));
        assert_eq!(read(&card.bytes_with(1, 32, 33)[..2]), Err(SHORT));
        assert_eq!(read(&card.bytes_with(1, 32, 33)[..3]), Err(LARGE));
        let mut padded = good.clone();
        padded[30] |= 1;
        assert_eq!(read(&padded), Err(PADDING));
        padded.push(0);
        assert_eq!(read(&padded), Err(PADDING));
        let mut longer = good.clone();
        longer.push(0);
        assert_eq!(read(&longer), Err(LEFT_OVER));
    }
}
