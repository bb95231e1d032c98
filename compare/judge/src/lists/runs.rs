//! The list of runs: a whole problem, what is lent with it, and what document 01's table or the
//! original answers. The layout of each record is in compare/README.md.

mod grouped;
mod large_norms;
pub(super) mod refusals;
mod term;

use std::collections::BTreeMap;
use std::path::Path;

use crate::cone_list::Block;
use crate::draw::{numbers, Sort};
use crate::families::{of_size, small, Family};
use crate::handed::{work_places, Handed, Vector};
use crate::original::Kind;
use crate::problem::{Answer, Ending, Problem};
use crate::random::Random;
use crate::words::{words, write_list};

// The listed differences that a record meets, added up.
const EPS_ZERO: u64 = 1;
const SWEEP_LIMIT: u64 = 2;
const ZEROS: u64 = 4;
const STOPS: u64 = 8;
const BELOW_ZERO: u64 = 16;
const LARGE_NORM: u64 = 32;

/// What the answer's first word is, from 1 to 6 for refusals.
pub(super) const NAMES: [(u64, &str); 12] = [
    (1, "BadParam"),
    (2, "TooLarge"),
    (3, "InvalidOp"),
    (4, "BadCone"),
    (5, "NotFinite"),
    (6, "WorkShortage"),
    (7, "Converged"),
    (8, "ExcessIter, scaled"),
    (9, "ExcessIter, unscaled"),
    (10, "Unbounded"),
    (11, "Infeasible"),
    (12, "ConeFailure"),
];

pub(super) const DIFFERENCES: [(u64, &str); 6] = [
    (EPS_ZERO, "eps_zero of -0"),
    (SWEEP_LIMIT, "a sweep limit reached"),
    (ZEROS, "a larger or smaller of -0 and +0"),
    (STOPS, "an empty matrix on which the original stops"),
    (BELOW_ZERO, "refused for a tolerance below zero alone"),
    (
        LARGE_NORM,
        "a norm whose plain sum is infinite, of finite numbers",
    ),
];

#[derive(Default)]
struct Records {
    words: Vec<u64>,
    counts: BTreeMap<u64, usize>,
    differences: BTreeMap<u64, usize>,
    steps: u64,
    rotations: u64,
    /// Steps times m·n.
    products: u64,
    most_words: usize,
    /// Each problem with a finite eps_acc or eps_inf below zero, with −0 for it.
    raised: Vec<Handed>,
}

pub(super) fn ending_number(ending: &Ending) -> u64 {
    match ending {
        Ending::Converged(_) => 7,
        Ending::ExcessIter(_) => 8,
        Ending::ExcessIterUnscaled(_) => 9,
        Ending::Unbounded(_) => 10,
        Ending::Infeasible(_) => 11,
        Ending::ConeFailure(_) => 12,
    }
}

/// Three words: the criteria, or the failed block, and 0 where there are fewer.
fn carried(ending: &Ending) -> [u64; 3] {
    let mut all = [0; 3];
    match ending {
        Ending::ConeFailure(block) => all[0] = *block as u64,
        _ => {
            for (word, criterion) in all.iter_mut().zip(words(ending.criteria())) {
                *word = criterion;
            }
        }
    }
    all
}

/// The watching must have changed nothing, nor the request's norm where no norm was large.
pub fn same_over_plain(p: &Problem, answer: &Answer) {
    if !answer.has_plain_form() {
        return;
    }
    let plain = p.plain_form(answer);
    let verdict = match answer.ending {
        Ending::Converged(_) => None,
        Ending::Unbounded(_) => Some("Unbounded"),
        Ending::Infeasible(_) => Some("Infeasible"),
        _ => Some("ExcessIter"),
    };
    let told = plain.verdict.err().map(|e| format!("{e:?}"));
    assert_eq!(told.as_deref(), verdict);
    assert_eq!(plain.progress.steps, answer.k);
    assert_eq!(words(&plain.work), words(&answer.work));
    assert_eq!(words(&plain.cone_work), words(&answer.cone_work));
}

/// The problem, and what is lent with it.
pub(super) fn asked(p: &Handed) -> Vec<u64> {
    let mut all = vec![p.max_iter, p.sweep_limit];
    all.extend([p.eps_acc, p.eps_inf, p.eps_zero].map(f64::to_bits));
    let storage = if p.twice { 2 } else { u64::from(p.packed) };
    all.extend([storage, p.n as u64, p.m as u64]);
    all.push(p.words.len() as u64);
    all.extend(p.words.iter().map(|w| u64::from(*w)));
    for v in [&p.c, &p.a, &p.b] {
        all.extend([v.length as u64, v.given.len() as u64]);
        all.extend(v.given.iter().map(|x| x.to_bits()));
    }
    all.extend([p.work as u64, p.cone_work as u64, p.fill.to_bits()]);
    all
}

/// What comes of a problem: the differences met, the answer's words, and the answer if it was run.
pub(super) struct Judged {
    pub(super) tag: u64,
    pub(super) told: Vec<u64>,
    pub(super) answer: Option<Answer>,
}

pub(super) fn judged(p: &Handed) -> Judged {
    match p.refusal() {
        Some(number) => refused(p, number),
        None => run(p),
    }
}

/// A refusal. One for an eps_acc or eps_inf below zero alone is tagged: the original would run it.
fn refused(p: &Handed, number: u64) -> Judged {
    Judged {
        tag: match p.raised().refusal() {
            None => BELOW_ZERO,
            Some(_) => 0,
        },
        told: vec![number, 0, 0, 0, 0, 0, 0, 0],
        answer: None,
    }
}

/// Runs the original.
fn run(p: &Handed) -> Judged {
    let problem = p.problem();
    let mut tag = 0;
    if p.eps_zero.to_bits() == (-0.0f64).to_bits() {
        tag += EPS_ZERO;
    }
    if problem.stops() {
        tag += STOPS;
    }
    let answer = problem.solve();
    same_over_plain(&problem, &answer);
    if answer.unlike_zeros > 0 {
        tag += ZEROS;
    }
    if answer.large_norms > 0 {
        tag += LARGE_NORM;
    }
    if matches!(answer.ending, Ending::ConeFailure(_)) {
        tag += SWEEP_LIMIT;
    }
    Judged {
        tag,
        told: told(p, &answer),
        answer: Some(answer),
    }
}

/// The words of an answer.
pub(super) fn told(p: &Handed, answer: &Answer) -> Vec<u64> {
    let number = ending_number(&answer.ending);
    let mut told = vec![number, answer.k, answer.q];
    told.extend(carried(&answer.ending));
    told.extend([work_places(p.m, p.n) as u64, p.needed_cone_work() as u64]);
    if !matches!(answer.ending, Ending::ConeFailure(_)) {
        told.extend(words(&answer.work));
        told.extend(words(&answer.cone_work));
    }
    told
}

impl Records {
    fn push(&mut self, p: &Handed, tag: u64, answer: &[u64]) {
        let asked = asked(p);
        let length = asked.len() + answer.len();
        self.words.extend([tag, length as u64]);
        self.words.extend(asked);
        self.words.extend(answer);
        self.most_words = self.most_words.max(length);
        *self.counts.entry(answer[0]).or_default() += 1;
        for (difference, _) in DIFFERENCES {
            if tag & difference > 0 {
                *self.differences.entry(difference).or_default() += 1;
            }
        }
    }

    /// What comes of a problem. One with a finite eps_acc or eps_inf below zero is kept, to be had with −0 as well.
    fn take(&mut self, p: &Handed) {
        if p.is_below_zero() {
            self.raised.push(p.raised());
        }
        let judged = judged(p);
        if let Some(answer) = &judged.answer {
            self.steps += answer.k;
            self.rotations += answer.q;
            self.products += answer.k * (p.m * p.n) as u64;
        }
        self.push(p, judged.tag, &judged.told);
    }

    fn take_all(&mut self, problems: Vec<Handed>) {
        for p in &problems {
            self.take(p);
        }
    }
}

// The draws.

/// Sizes of 64, 128 and 256, on one side or both.
fn large(all: &mut Records, random: &mut Random) {
    let shapes = [
        (false, 64, 64, 6),
        (true, 64, 64, 6),
        (false, 64, 2, 6),
        (false, 3, 64, 6),
        (false, 128, 128, 3),
        (true, 128, 128, 3),
        (false, 128, 1, 3),
        (false, 2, 128, 3),
        (false, 256, 256, 2),
        (true, 256, 256, 2),
        (false, 256, 1, 2),
        (false, 1, 256, 2),
        (false, 0, 256, 1),
        (false, 256, 0, 1),
    ];
    for (packed, m, n, times) in shapes {
        for _ in 0..times {
            let family = random.pick(&[Family::Drawn, Family::Solvable, Family::LargeEpsZero]);
            let mut p = repeating(of_size(random, family, packed, m, n));
            p.max_iter = random.pick(&[1, 2, 3, 5, 8]);
            all.take(&p);
        }
    }
}

/// The problem with few numbers in each vector, which repeat.
pub(super) fn repeating(mut p: Handed) -> Handed {
    p.c.given.truncate(29);
    p.a.given.truncate(97);
    p.b.given.truncate(31);
    p
}

/// Two steps on one block of so many places, and two columns.
pub(super) fn of_one_block(
    random: &mut Random,
    kind: Kind,
    size: usize,
    sweep_limit: u64,
) -> Handed {
    let mut p = of_size(random, Family::Drawn, false, size, 2);
    p.c = Vector::whole(vec![1.0, -2.0]);
    p.a.given = numbers(random, Sort::Ordinary, 41);
    p.b.given = numbers(random, Sort::Whole, 37);
    p.words = vec![Block { kind, size }.word()];
    p.cone_work = p.needed_cone_work() + 1;
    (p.max_iter, p.sweep_limit, p.eps_zero) = (2, sweep_limit, 1e-12);
    p
}

/// Semidefinite blocks up to order 22; `term` has larger ones.
fn large_blocks(all: &mut Records, random: &mut Random) {
    for order in [10, 15, 20, 22] {
        let m = order * (order + 1) / 2;
        for sweep_limit in [3, 64] {
            all.take(&of_one_block(random, Kind::Semidefinite, m, sweep_limit));
        }
    }
}

/// The largest max_iter, on problems that end early all the same, and lists of 32 words; `term` has longer ones.
fn at_the_limits(all: &mut Records, random: &mut Random) {
    let mut met = 0;
    while met < 40 {
        let mut p = small(random, Family::Solvable);
        (p.eps_acc, p.eps_inf) = (1e300, 1e300);
        p.max_iter = 100;
        if p.problem().solve_before().k < 100 {
            p.max_iter = 1_000_000;
            all.take(&p);
            met += 1;
        }
    }
    for _ in 0..40 {
        let mut p = small(random, Family::Drawn);
        let empty = random.pick(&[0x0000, 0x2000, 0x4000, 0x6000, 0x8000]);
        p.words.resize(32, empty);
        all.take(&p);
    }
}

/// Tight tolerances and many steps.
fn long(all: &mut Records, random: &mut Random) {
    for _ in 0..120 {
        let mut p = small(random, Family::Solvable);
        p.max_iter = if p.m * p.n > 40 { 300 } else { 3000 };
        p.sweep_limit = 64;
        (p.eps_acc, p.eps_inf) = random.pick(&[(1e-6, 1e-6), (1e-9, 1e-9), (1e-4, 1e-6)]);
        p.eps_zero = 1e-12;
        all.take(&p);
    }
}

/// Tolerances below zero, of a problem that is accepted but for them, and with a fault of each later row.
fn below_zero(all: &mut Records, random: &mut Random) {
    for eps in [-1.0, -1e-12, -f64::from_bits(1), f64::MIN] {
        for (eps_acc, eps_inf) in [(eps, 1e-6), (1e-6, eps), (eps, eps)] {
            for row in 1..=6 {
                let mut p = match row {
                    1 => refusals::base(random),
                    _ => refusals::one(random, row),
                };
                (p.eps_acc, p.eps_inf) = (eps_acc, eps_inf);
                all.take(&p);
            }
        }
    }
}

fn records(seed: u64) -> Records {
    let mut random = Random::new(seed);
    let mut all = Records::default();
    for (family, times) in [
        (Family::Drawn, 1100),
        (Family::Solvable, 800),
        (Family::Contradictory, 600),
        (Family::Falling, 600),
        (Family::FewSweeps, 500),
        (Family::LargeEpsZero, 350),
    ] {
        for _ in 0..times {
            let p = small(&mut random, family);
            all.take(&p);
        }
    }
    long(&mut all, &mut random);
    at_the_limits(&mut all, &mut random);
    large(&mut all, &mut random);
    large_blocks(&mut all, &mut random);
    for number in 1..=6 {
        for _ in 0..110 {
            all.take(&refusals::one(&mut random, number));
        }
    }
    // Each two rows of the table at once, and each three.
    for first in 1..=6 {
        for second in first + 1..=6 {
            for _ in 0..15 {
                all.take(&refusals::several(&mut random, &[first, second]));
            }
            for third in second + 1..=6 {
                for _ in 0..4 {
                    all.take(&refusals::several(&mut random, &[first, second, third]));
                }
            }
        }
    }
    below_zero(&mut all, &mut random);
    for p in std::mem::take(&mut all.raised) {
        all.take(&p);
    }
    term::all(&mut all, &mut random);
    grouped::all(&mut all, &mut random);
    large_norms::all(&mut all, &mut random);
    all
}

pub fn make(seed: u64, path: &Path) -> std::io::Result<()> {
    let all = records(seed);
    let total = all.counts.values().sum();
    write_list(path, total, &all.words)?;
    println!("runs: {total} records, {} bytes", 8 + 8 * all.words.len());
    for (number, name) in NAMES {
        let count = all.counts.get(&number).unwrap_or(&0);
        println!("  {count:6} {number:2} {name}");
    }
    println!("of these, meeting a listed difference:");
    for (number, name) in DIFFERENCES {
        let count = all.differences.get(&number).unwrap_or(&0);
        println!("  {count:6} {name}");
    }
    println!(
        "{} steps, {} rotations, {} steps times m·n; at most {} words to a record",
        all.steps, all.rotations, all.products, all.most_words
    );
    Ok(())
}

#[cfg(test)]
mod tests {
    use super::*;
    use crate::handed::{LIMIT, MOST_WORDS};

    /// Each record names its own end, a seed draws the same list again, and no answer is rare.
    #[test]
    fn records_follow_one_another() {
        let all = records(1);
        // What crates/replay_runs has room for.
        let room = work_places(LIMIT + 16, LIMIT + 16) as u64 + 512;
        let (mut at, mut met) = (0, 0);
        while at < all.words.len() {
            assert!(all.words[at] < 64);
            assert!(all.words[at + 1] <= room);
            assert!(all.words[at + 10] <= MOST_WORDS as u64 + 8);
            at += 2 + all.words[at + 1] as usize;
            met += 1;
        }
        assert_eq!(at, all.words.len());
        assert_eq!(met, all.counts.values().sum::<usize>());
        assert_eq!(all.words, records(1).words);
        assert!(all.words.len() * 8 <= 10_000_000);
        for (number, name) in NAMES {
            assert!(all.counts[&number] >= 100, "{name}");
        }
    }

    /// What is refused has no steps, and the places of both buffers are left out.
    #[test]
    fn a_refusal_is_eight_words() {
        let mut all = Records::default();
        let mut random = Random::new(1);
        let p = refusals::one(&mut random, 3).raised();
        all.take(&p);
        assert_eq!(all.words[..2], [0, asked(&p).len() as u64 + 8]);
        assert_eq!(all.words[all.words.len() - 8..], [3, 0, 0, 0, 0, 0, 0, 0]);
    }

    /// The finding of docs/FINDINGS.md, 8, meets the difference, and the same with a reading whose square is finite does not.
    #[test]
    fn a_large_norm_is_told() {
        use crate::lists::large_norms::{finding, BELOW};
        for (reading, tag, answer) in [(-1e200, LARGE_NORM, [7, 1]), (-BELOW, 0, [9, 1000])] {
            let mut all = Records::default();
            let mut p = finding();
            p.b.given[0] = reading;
            all.take(&p);
            assert_eq!(all.words[0], tag);
            assert_eq!(all.words[2 + asked(&p).len()..][..2], answer);
        }
    }

    /// The difference is met where nothing else speaks against the problem.
    #[test]
    fn a_tolerance_below_zero_is_told() {
        let mut random = Random::new(1);
        let taken = refusals::base(&mut random).raised();
        let mut other = taken.clone();
        other.words.push(5 << 13);
        for (mut p, tag, answers) in [(taken, BELOW_ZERO, 1), (other, 0, 4)] {
            let mut all = Records::default();
            p.eps_inf = -1.0;
            all.take(&p);
            assert_eq!(all.words[0], tag);
            assert_eq!(all.words[all.words.len() - 8..], [1, 0, 0, 0, 0, 0, 0, 0]);
            assert_eq!(all.raised.len(), 1);
            let raised = all.raised[0].refusal();
            assert_eq!(raised, (answers > 1).then_some(answers));
        }
    }

    /// A run of no numbers: Converged at once, all criteria +0, and six places of work.
    #[test]
    fn the_empty_problem() {
        let mut all = Records::default();
        let mut p = of_size(&mut Random::new(1), Family::Drawn, false, 0, 0);
        (p.eps_acc, p.eps_inf, p.eps_zero) = (1e-6, 1e-6, -0.0);
        (p.max_iter, p.words) = (1, vec![]);
        all.take(&p);
        assert_eq!(all.words[0], EPS_ZERO);
        let answer = &all.words[2 + asked(&p).len()..];
        let infinite = f64::INFINITY.to_bits();
        assert_eq!(answer[..8], [9, 1, 0, infinite, infinite, 0, 6, 0]);
        assert_eq!(answer.len(), 14);
    }
}
