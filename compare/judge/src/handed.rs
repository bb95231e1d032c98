//! What the hub hands over, not yet checked, and document 01's table of refusals.

use totsu_core::MatType;

use crate::cone_list::{work_len, Block};
use crate::groups;
use crate::problem::Problem;

/// Number i of a vector is given[i mod count].
#[derive(Clone, Debug)]
pub struct Vector {
    pub length: usize,
    pub given: Vec<f64>,
}

impl Vector {
    /// All of its numbers are given.
    pub fn whole(given: Vec<f64>) -> Vector {
        Vector {
            length: given.len(),
            given,
        }
    }

    pub fn numbers(&self) -> Vec<f64> {
        let given = self.given.iter().copied().cycle();
        given.take(self.length).collect()
    }
}

#[derive(Clone, Debug)]
pub struct Handed {
    pub max_iter: u64,
    pub sweep_limit: u64,
    pub eps_acc: f64,
    pub eps_inf: f64,
    pub eps_zero: f64,
    pub packed: bool,
    pub n: usize,
    pub m: usize,
    pub words: Vec<u16>,
    pub c: Vector,
    pub a: Vector,
    pub b: Vector,
    /// Whether a is half of a dense A, whose other columns are the same once more.
    pub twice: bool,
    /// The edition of sums.
    pub edition: u32,
    /// Places lent of work and of cone work, and what each of them holds.
    pub work: usize,
    pub cone_work: usize,
    pub fill: f64,
}

/// The largest n and m, and the most cone words, by request (vii) of document 02.
pub const LIMIT: usize = 1024;
pub const MOST_WORDS: usize = 128;

/// What the table goes by where it asks for the cone list.
#[derive(Clone, Copy)]
pub struct ListRule {
    pub most_words: usize,
    /// The plain words of a list, in order; none if the list is bad.
    pub plain: fn(&[u16]) -> Option<Vec<u16>>,
}

/// By requests (vii) and (viii) of document 02.
pub const LIST_RULE: ListRule = ListRule {
    most_words: MOST_WORDS,
    plain: groups::plain,
};

impl ListRule {
    /// As it was before request (viii): each word is plain, and one of kind 7 is no block.
    pub const fn without_groups(most_words: usize) -> ListRule {
        ListRule {
            most_words,
            plain: |words| Some(words.to_vec()),
        }
    }
}

pub const BAD_PARAM: u64 = 1;
pub const TOO_LARGE: u64 = 2;
pub const INVALID_OP: u64 = 3;
pub const BAD_CONE: u64 = 4;
pub const NOT_FINITE: u64 = 5;
pub const WORK_SHORTAGE: u64 = 6;

/// −0, which is taken, for a finite tolerance below zero; any other as it is.
pub fn raised(eps: f64) -> f64 {
    if eps.is_finite() && eps < 0.0 {
        -0.0
    } else {
        eps
    }
}

/// The places of work that a run of m rows and n columns needs.
pub fn work_places(m: usize, n: usize) -> usize {
    6 * n + 10 * m + 6
}

/// How many numbers A has.
pub fn stored(packed: bool, m: usize, n: usize) -> usize {
    if packed {
        n * (n + 1) / 2
    } else {
        m * n
    }
}

impl Handed {
    /// "When the hub is turned away": the first number that applies.
    pub fn refusal(&self) -> Option<u64> {
        self.refusal_by(LIST_RULE)
    }

    /// The same by a table that has another rule of the cone list.
    pub fn refusal_by(&self, rule: ListRule) -> Option<u64> {
        let table: [(u64, &dyn Fn(&Handed) -> bool); 6] = [
            (BAD_PARAM, &Handed::bad_param),
            (TOO_LARGE, &|p| p.too_large(rule)),
            (INVALID_OP, &Handed::invalid_op),
            (BAD_CONE, &|p| p.bad_cone(rule)),
            (NOT_FINITE, &Handed::not_finite),
            (WORK_SHORTAGE, &|p| p.work_shortage(rule)),
        ];
        table.iter().find(|(_, test)| test(self)).map(|(no, _)| *no)
    }

    /// Row 1, with requests (ii) and (xi) of document 02: each tolerance is finite and not below zero, the edition one or two.
    fn bad_param(&self) -> bool {
        [self.eps_acc, self.eps_inf, self.eps_zero]
            .iter()
            .any(|eps| !eps.is_finite() || *eps < 0.0)
            || self.max_iter > 1_000_000
            || !(1..=64).contains(&self.sweep_limit)
            || !(1..=2).contains(&self.edition)
    }

    /// Every word of the list counts, a group's too.
    fn too_large(&self, rule: ListRule) -> bool {
        self.n > LIMIT || self.m > LIMIT || self.words.len() > rule.most_words
    }

    /// All of A.
    fn a_numbers(&self) -> Vec<f64> {
        self.a.numbers().repeat(self.times())
    }

    /// How often A has the numbers of a.
    fn times(&self) -> usize {
        1 + usize::from(self.twice)
    }

    fn invalid_op(&self) -> bool {
        self.c.length != self.n
            || self.a.length * self.times() != stored(self.packed, self.m, self.n)
            || self.b.length != self.m
            || self.packed && self.m != self.n
    }

    /// The plain blocks of the list, in order, if no group and no plain word is bad.
    fn blocks(&self, rule: ListRule) -> Option<Vec<Block>> {
        let words = (rule.plain)(&self.words)?;
        words.iter().map(|word| Block::read(*word)).collect()
    }

    fn bad_cone(&self, rule: ListRule) -> bool {
        self.blocks(rule)
            .is_none_or(|blocks| blocks.iter().map(|b| b.size).sum::<usize>() != self.m)
    }

    fn not_finite(&self) -> bool {
        let numbers = [&self.c, &self.a, &self.b].map(Vector::numbers);
        !numbers.iter().flatten().all(|x| x.is_finite())
    }

    fn work_shortage(&self, rule: ListRule) -> bool {
        let blocks = self.blocks(rule).expect("a list that is not bad");
        self.work < work_places(self.m, self.n) || self.cone_work < work_len(&blocks)
    }

    pub fn needed_cone_work(&self) -> usize {
        work_len(&self.blocks(LIST_RULE).expect("a list that is not bad"))
    }

    /// The same, with −0 for a finite eps_acc or eps_inf below zero.
    pub fn raised(&self) -> Handed {
        Handed {
            eps_acc: raised(self.eps_acc),
            eps_inf: raised(self.eps_inf),
            ..self.clone()
        }
    }

    /// Whether eps_acc or eps_inf is finite and below zero.
    pub fn is_below_zero(&self) -> bool {
        let patterns = |p: &Handed| [p.eps_acc, p.eps_inf].map(f64::to_bits);
        patterns(self) != patterns(&self.raised())
    }

    /// What the original is run on: the plain blocks, and an eps_zero of −0 is read as +0.
    pub fn problem(&self) -> Problem {
        assert_eq!(self.refusal(), None);
        Problem {
            a_type: if self.packed {
                MatType::SymPack(self.n)
            } else {
                MatType::General(self.m, self.n)
            },
            c: self.c.numbers(),
            a: self.a_numbers(),
            b: self.b.numbers(),
            blocks: self.blocks(LIST_RULE).expect("a list that is not bad"),
            max_iter: self.max_iter as usize,
            sweep_limit: self.sweep_limit as usize,
            eps_acc: self.eps_acc,
            eps_inf: self.eps_inf,
            eps_zero: self.eps_zero + 0.0,
            edition: self.edition,
        }
    }
}

#[cfg(test)]
mod tests {
    use super::*;

    /// n = 2, m = 3, a nonnegative place and a second-order block of 2.
    fn accepted() -> Handed {
        Handed {
            max_iter: 10,
            sweep_limit: 64,
            eps_acc: 1e-6,
            eps_inf: 1e-6,
            eps_zero: 1e-12,
            packed: false,
            n: 2,
            m: 3,
            words: vec![0x2001, 0x4002],
            c: Vector::whole(vec![1.0; 2]),
            a: Vector::whole(vec![1.0; 6]),
            b: Vector::whole(vec![1.0; 3]),
            twice: false,
            edition: 1,
            work: 48,
            cone_work: 0,
            fill: f64::NAN,
        }
    }

    fn changed(change: impl Fn(&mut Handed)) -> Option<u64> {
        let mut p = accepted();
        change(&mut p);
        p.refusal()
    }

    /// Zeros of n columns and m rows, nonnegative.
    fn sized(m: usize, n: usize) -> Option<u64> {
        let zeros = |length| Vector {
            length,
            given: vec![0.0],
        };
        changed(|p| {
            (p.m, p.n, p.work) = (m, n, work_places(m, n));
            (p.c, p.a, p.b) = (zeros(n), zeros(m * n), zeros(m));
            p.words = vec![1 << 13 | m as u16];
        })
    }

    #[test]
    fn limits_of_the_parameters() {
        assert_eq!(accepted().refusal(), None);
        assert_eq!(changed(|p| p.max_iter = 1_000_000), None);
        assert_eq!(changed(|p| p.max_iter = 1_000_001), Some(1));
        for (sweep_limit, answer) in [(0, Some(1)), (1, None), (64, None), (65, Some(1))] {
            assert_eq!(changed(|p| p.sweep_limit = sweep_limit), answer);
        }
        for (edition, answer) in [(0, Some(1)), (1, None), (2, None), (3, Some(1))] {
            assert_eq!(changed(|p| p.edition = edition), answer);
        }
        assert_eq!(changed(|p| p.edition = u32::MAX), Some(1));
        let each_is = |eps: f64, answer| {
            assert_eq!(changed(|p| p.eps_acc = eps), answer);
            assert_eq!(changed(|p| p.eps_inf = eps), answer);
            assert_eq!(changed(|p| p.eps_zero = eps), answer);
        };
        for eps in [f64::NAN, f64::INFINITY, f64::NEG_INFINITY] {
            each_is(eps, Some(1));
        }
        for eps in [f64::MIN, -1.0, -f64::from_bits(1)] {
            each_is(eps, Some(1));
        }
        for eps in [-0.0, 0.0, f64::from_bits(1), f64::MAX] {
            each_is(eps, None);
        }
    }

    #[test]
    fn raised_to_minus_0() {
        let mut p = accepted();
        assert!(!p.is_below_zero());
        (p.eps_acc, p.eps_inf) = (-1.0, f64::NEG_INFINITY);
        assert!(p.is_below_zero());
        let q = p.raised();
        assert!(!q.is_below_zero());
        assert_eq!(q.eps_acc.to_bits(), (-0.0f64).to_bits());
        assert_eq!(q.eps_inf, f64::NEG_INFINITY);
    }

    #[test]
    fn limits_of_the_sizes() {
        assert_eq!(sized(257, 257), None);
        assert_eq!(sized(1024, 1024), None);
        assert_eq!(sized(1025, 0), Some(2));
        assert_eq!(sized(0, 1025), Some(2));
        assert_eq!(changed(|p| p.words.resize(33, 0)), None);
        assert_eq!(changed(|p| p.words.resize(128, 0)), None);
        assert_eq!(changed(|p| p.words.resize(129, 0)), Some(2));
    }

    #[test]
    fn a_matrix_of_two_halves() {
        let mut p = accepted();
        (p.n, p.c, p.twice) = (4, Vector::whole(vec![1.0; 4]), true);
        p.work = work_places(3, 4);
        p.a = Vector::whole(vec![1.0, 2.0, 3.0, 4.0, 5.0, 6.0]);
        assert_eq!(p.refusal(), None);
        assert_eq!(
            p.problem().a,
            [1, 2, 3, 4, 5, 6, 1, 2, 3, 4, 5, 6].map(f64::from)
        );
        p.a.length = 12;
        assert_eq!(p.refusal(), Some(3));
    }

    #[test]
    fn what_does_not_fit() {
        assert_eq!(changed(|p| p.c.length = 1), Some(3));
        assert_eq!(changed(|p| p.a.length = 7), Some(3));
        assert_eq!(changed(|p| p.b.length = 4), Some(3));
        assert_eq!(changed(|p| (p.packed, p.a.length) = (true, 3)), Some(3));
        assert_eq!(changed(|p| p.words = vec![0xa003]), Some(4));
        assert_eq!(
            changed(|p| (p.words, p.cone_work) = (vec![0x8003], 6)),
            None
        );
        assert_eq!(changed(|p| p.words = vec![0x8002, 0x2001]), Some(4));
        assert_eq!(changed(|p| p.words[0] = 0x2002), Some(4));
        assert_eq!(changed(|p| p.a.given[5] = f64::INFINITY), Some(5));
        assert_eq!(changed(|p| p.work = 47), Some(6));
        assert_eq!(changed(|p| p.words = vec![0x8003]), Some(6));
    }

    /// The places and the cone work of a list in groups are those of its plain blocks; its words are all counted.
    #[test]
    fn groups_of_blocks() {
        let in_a_group = vec![0xe002, 0x2001, 0x4002];
        assert_eq!(changed(|p| p.words = in_a_group.clone()), None);
        assert_eq!(changed(|p| p.words = vec![0xe003, 0x2001, 0x4002]), Some(4));
        assert_eq!(changed(|p| p.words = vec![0xe001, 0x2002]), Some(4));
        assert_eq!(changed(|p| p.words = vec![0xe001, 0xa003]), Some(4));
        assert_eq!(changed(|p| p.words = vec![0xe001, 0xc003]), Some(4));
        let semidefinite = vec![0xe002, 0xe001, 0x8003];
        let lent = |cone_work| {
            let words = semidefinite.clone();
            changed(|p| (p.words, p.cone_work) = (words.clone(), cone_work))
        };
        assert_eq!((lent(6), lent(5)), (None, Some(6)));
        let with_empty = |count| changed(|p| p.words.resize(count, 0xe000));
        assert_eq!((with_empty(128), with_empty(129)), (None, Some(2)));
        let mut p = accepted();
        p.words = vec![0xe000, 0xe001, 0x2001, 0x4002];
        let words: Vec<u16> = p.problem().blocks.iter().map(|b| b.word()).collect();
        assert_eq!(words, [0x2001, 0x4002]);
        let before = ListRule::without_groups(MOST_WORDS);
        assert_eq!((p.refusal(), p.refusal_by(before)), (None, Some(4)));
    }

    #[test]
    fn the_first_that_applies() {
        assert_eq!(changed(|p| (p.n, p.sweep_limit) = (1025, 0)), Some(1));
        assert_eq!(changed(|p| (p.n, p.eps_inf) = (1025, -1.0)), Some(1));
        assert_eq!(changed(|p| (p.n, p.edition) = (1025, 3)), Some(1));
        assert_eq!(changed(|p| (p.n, p.work) = (1025, 0)), Some(2));
        assert_eq!(changed(|p| (p.c.length, p.work) = (3, 0)), Some(3));
        let nan = f64::NAN;
        assert_eq!(changed(|p| (p.words[0], p.b.given[0]) = (0, nan)), Some(4));
        assert_eq!(changed(|p| (p.work, p.b.given[0]) = (0, nan)), Some(5));
        // A group that runs past the list, among words that are too many, beside a wrong length, and before the rest.
        assert_eq!(changed(|p| p.words.resize(129, 0xffff)), Some(2));
        assert_eq!(changed(|p| (p.words[0], p.c.length) = (0xffff, 3)), Some(3));
        assert_eq!(changed(|p| (p.words[0], p.work) = (0xffff, 0)), Some(4));
    }
}
