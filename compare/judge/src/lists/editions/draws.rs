//! The problems of the list.

use super::{in_edition, Records};
use crate::draw::{number, numbers, Sort};
use crate::families::{lengthen, nonnegative, of_size, small, Family, FAMILIES};
use crate::group_shapes::grouped;
use crate::handed::{Handed, Vector, BAD_PARAM, MOST_WORDS, WORK_SHORTAGE};
use crate::lists::large_norms::{
    self, alone, chain, change, contradicted, enlarged, finding, one_block, one_by_one, sums,
    vectors, with_b, with_c, Change, BELOW, EDGE,
};
use crate::lists::runs::{ending_number, of_one_block, refusals, repeating};
use crate::original::Kind;
use crate::problem::Answer;
use crate::random::Random;
use crate::ruled_norm::power_of_2;
use crate::words::words;

const CONVERGED: u64 = 7;
const CONE_FAILURE: u64 = 12;

// Problems.

/// A problem of few rows and columns, with no tolerance below zero. Sums of three terms and more tell the editions apart.
fn tiny(random: &mut Random, family: Family) -> Handed {
    if family == Family::FewSweeps {
        let (m, n) = (random.within(3, 8), random.within(1, 3));
        return of_size(random, family, false, m, n).raised();
    }
    let packed = random.one_in(3);
    let n = random.pick(&[1, 2, 3, 3, 4, 5, 6]);
    let m = if packed {
        n
    } else {
        random.pick(&[1, 2, 2, 3, 3, 4, 5])
    };
    of_size(random, family, packed, m, n).raised()
}

/// The families in which an ending is found soon.
fn families(number: u64) -> &'static [Family] {
    match number {
        7 => &[Family::Solvable, Family::Solvable, Family::Drawn],
        8 => &[Family::Solvable, Family::Drawn, Family::FewSweeps],
        9 => &[Family::Drawn, Family::LargeEpsZero, Family::Contradictory],
        10 => &[Family::Falling],
        11 => &[Family::Contradictory],
        _ => &[Family::FewSweeps],
    }
}

/// What comes of a problem in edition one, and in edition two.
fn both(p: &Handed) -> [Answer; 2] {
    [1, 2].map(|edition| in_edition(p, edition).problem().solve())
}

/// Whether any number that is answered or left is another.
fn are_unlike([one, two]: &[Answer; 2]) -> bool {
    let all = |a: &Answer| {
        let mut all = words(a.ending.criteria());
        all.extend([ending_number(&a.ending), a.k, a.q]);
        all.extend(words(&a.work));
        all.extend(words(&a.cone_work));
        all
    };
    all(one) != all(two)
}

/// Draws until one is wanted.
fn wanted(
    mut draw: impl FnMut() -> Handed,
    is_wanted: impl Fn(&Handed, &[Answer; 2]) -> bool,
) -> Handed {
    loop {
        let p = draw();
        if is_wanted(&p, &both(&p)) {
            return p;
        }
    }
}

/// A tiny problem with this ending in edition two, with another answer in edition one if so wanted.
fn ending_in(random: &mut Random, number: u64, unlike: bool) -> Handed {
    if unlike && number == CONE_FAILURE {
        return unlike_failure(random);
    }
    let draw = || {
        let family = random.pick(families(number));
        tiny(random, family)
    };
    wanted(draw, |_, both| {
        ending_number(&both[1].ending) == number && (!unlike || are_unlike(both))
    })
}

/// A tiny problem that fails in edition two, and in edition one does not, or at another step or after other rotations. A failure has no other numbers, so eps_zero is where the
/// last places of numbers tell whether a pair is rotated.
fn unlike_failure(random: &mut Random) -> Handed {
    loop {
        let p = tiny(random, Family::FewSweeps);
        let with = |eps_zero: f64| Handed {
            eps_zero,
            ..p.clone()
        };
        let rotated = |eps_zero: f64| {
            let answer = in_edition(&with(eps_zero), 2).problem().solve();
            (answer.k, answer.q)
        };
        // Next to each other, and the outcome of the first is not that of the second.
        let (mut low, mut high) = (1e-12f64.to_bits(), 0.1f64.to_bits());
        let first = rotated(1e-12);
        if rotated(0.1) == first {
            continue;
        }
        while high - low > 1 {
            let middle = low + (high - low) / 2;
            if rotated(f64::from_bits(middle)) == first {
                low = middle;
            } else {
                high = middle;
            }
        }
        for eps_zero in [low, high] {
            let p = with(f64::from_bits(eps_zero));
            let both = both(&p);
            if ending_number(&both[1].ending) == CONE_FAILURE && are_unlike(&both) {
                return p;
            }
        }
    }
}

// The draws.

/// Each ending: so many with another answer in edition one, and so many of any.
fn endings(all: &mut Records, random: &mut Random) {
    for (number, unlike, others) in [
        (7, 80, 15),
        (8, 70, 15),
        (9, 70, 15),
        (10, 60, 15),
        (11, 60, 15),
        (12, 24, 24),
    ] {
        for turn in 0..unlike + others {
            all.take_two(&ending_in(random, number, turn < unlike));
        }
    }
}

/// The problem with a tolerance at the criterion that it ends with in edition two, or one place below, and an allowance of so many steps.
fn at_the_edge(p: &Handed, answer: &Answer, below: u64, steps: u64) -> Option<Handed> {
    let mut p = p.clone();
    let number = ending_number(&answer.ending);
    let criteria = answer.ending.criteria().iter();
    let most = criteria.fold(0.0, |most: f64, x| x.max(most));
    if !(most > 0.0 && most.is_finite()) {
        return None;
    }
    let eps = f64::from_bits(most.to_bits() - below);
    match number {
        7 => p.eps_acc = eps,
        10 | 11 => p.eps_inf = eps,
        _ => return None,
    }
    p.max_iter = steps;
    Some(p)
}

/// Another ending, and another step: the criteria of the editions lie on both sides of a tolerance.
fn other_endings(all: &mut Records, random: &mut Random) {
    for (what, count) in [(Change::Verdict, 16), (Change::Steps, 16)] {
        for number in [7, 10, 11] {
            let mut met = 0;
            while met < count {
                let p = ending_in(random, number, true);
                let answer = in_edition(&p, 2).problem().solve();
                let steps = match what {
                    Change::Verdict => answer.k,
                    _ => answer.k + 300,
                };
                let below = met % 2;
                let Some(p) = at_the_edge(&p, &answer, below, steps) else {
                    continue;
                };
                let [one, two] = both(&p);
                if change(&one, &two).2 == what {
                    all.take_two(&p);
                    met += 1;
                }
            }
        }
    }
}

/// −0 among few numbers: no sum has more than two terms, and a range of one is its term.
fn minus_zeros(all: &mut Records, random: &mut Random) {
    for _ in 0..36 {
        let draw = || {
            let (m, n) = (random.within(1, 2), random.within(1, 2));
            let mut p = of_size(random, Family::Drawn, false, m, n).raised();
            for v in [&mut p.c, &mut p.a, &mut p.b] {
                let length = v.length;
                let sort = random.pick(&[Sort::Zeros, Sort::Zeros, Sort::Whole, Sort::Ordinary]);
                *v = Vector::whole(numbers(random, sort, length));
            }
            p.max_iter = random.pick(&[1, 1, 2, 3, 10]);
            p
        };
        let p = wanted(draw, |_, both| are_unlike(both));
        all.take_two(&p);
    }
}

/// Each length of a range up to 33, of rows, of columns and of both.
fn lengths(all: &mut Records, random: &mut Random) {
    for length in 1..=33 {
        for side in 0..3 {
            let few = random.within(1, 2);
            let (packed, m, n) = match side {
                0 => (false, length, few),
                1 => (false, few, length),
                _ if length % 3 == 2 => (true, length, length),
                _ => continue,
            };
            let sums_are_long = length > 3;
            let draw = || {
                let family = random.pick(&[Family::Solvable, Family::Drawn, Family::LargeEpsZero]);
                let mut p = of_size(random, family, packed, m, n).raised();
                p.a.given.truncate(97);
                p.max_iter = random.pick(&[1, 2, 3, 5, 30]);
                p
            };
            let p = wanted(draw, |_, both| are_unlike(both) || !sums_are_long);
            all.take_two(&p);
        }
    }
}

/// A side of 64 and more, on one side or both, with few numbers that repeat.
fn large(all: &mut Records, random: &mut Random) {
    for (packed, m, n) in [
        (true, 64, 64),
        (true, 129, 129),
        (false, 128, 128),
        (false, 100, 150),
        (false, 255, 3),
        (false, 257, 1),
        (false, 3, 255),
        (false, 2, 256),
        (false, 1, 257),
        (false, 512, 1),
        (false, 1, 511),
        (false, 1, 1024),
    ] {
        let draw = || {
            let family = random.pick(&[Family::Drawn, Family::Solvable]);
            let mut p = repeating(of_size(random, family, packed, m, n).raised());
            (p.max_iter, p.sweep_limit) = (random.pick(&[2, 3, 5, 20]), 64);
            p
        };
        let p = wanted(draw, |_, both| are_unlike(both));
        all.take_two(&p);
    }
    for (m, n) in [(0, 100), (100, 0)] {
        let p = of_size(random, Family::Drawn, false, m, n).raised();
        all.take_two(&repeating(p));
    }
}

/// One long second-order or rotated block.
fn long_blocks(all: &mut Records, random: &mut Random) {
    for (kind, size) in [
        (Kind::SecondOrder, 33),
        (Kind::SecondOrder, 64),
        (Kind::SecondOrder, 127),
        (Kind::SecondOrder, 300),
        (Kind::Rotated, 34),
        (Kind::Rotated, 65),
        (Kind::Rotated, 101),
        (Kind::Rotated, 200),
        (Kind::Semidefinite, 55),
        (Kind::Semidefinite, 120),
    ] {
        let mut p = of_one_block(random, kind, size, 64).raised();
        p.max_iter = random.pick(&[3, 5, 30]);
        all.take_two(&p);
    }
}

/// Offset and drift of so many marks whose largest miss is least, in two rows to a mark.
fn fit(all: &mut Records, random: &mut Random) {
    let (marks, days) = (64, 98.0);
    let mut p = of_size(random, Family::Drawn, false, 2 * marks, 3).raised();
    let (mut offsets, mut drifts, mut b) = (vec![], vec![], vec![]);
    for mark in 0..marks {
        let day = days * mark as f64 / marks as f64;
        let seconds = 0.5 + day / 16.0 + number(random, Sort::Whole) / 256.0;
        for sign in [1.0, -1.0] {
            offsets.push(sign);
            drifts.push(sign * day / 32.0);
            b.push(sign * seconds);
        }
    }
    let misses = vec![-1.0; 2 * marks];
    p.a = Vector::whole([offsets, drifts, misses].concat());
    (p.c, p.b) = (Vector::whole(vec![0.0, 0.0, 1.0]), Vector::whole(b));
    p.words = nonnegative(2 * marks, 1);
    (p.max_iter, p.sweep_limit) = (20_000, 64);
    (p.eps_acc, p.eps_inf, p.eps_zero) = (1e-3, 1e-6, 1e-12);
    all.take_two(&p);
}

/// Many steps.
fn long(all: &mut Records, random: &mut Random) {
    for turn in 0..24 {
        let draw = || {
            let mut p = tiny(random, Family::Solvable);
            (p.max_iter, p.sweep_limit, p.eps_zero) = (3000, 64, 1e-12);
            (p.eps_acc, p.eps_inf) = random.pick(&[(1e-9, 1e-9), (0.0, 0.0), (1e-6, 1e-6)]);
            p
        };
        let p = wanted(draw, |_, both| {
            let is_end = turn % 2 == 1 || ending_number(&both[1].ending) == CONVERGED;
            both[1].k >= 300 && is_end && are_unlike(both)
        });
        all.take_two(&p);
    }
    for _ in 0..4 {
        let mut p = ending_in(random, CONVERGED, true);
        p.max_iter = 1_000_000;
        all.take_two(&p);
    }
}

/// Numbers whose squares add up to an infinite sum in the one edition, and to a finite one in the other; the first is the largest whose square is finite.
fn sums_apart() -> Vec<Vec<f64>> {
    let half_a_place = power_of_2(485);
    let more = half_a_place * (1.0 + power_of_2(-40));
    let of = |small: f64, count: usize| [&[BELOW][..], &vec![small; count]].concat();
    vec![
        of(half_a_place, 4),
        of(half_a_place, 5),
        of(half_a_place, 9),
        of(more, 2),
        of(-more, 2),
    ]
}

/// Very large numbers (request (ix) of document 02).
fn large_norms(all: &mut Records, random: &mut Random) {
    all.take_two(&finding());
    for size in [1e200, BELOW, EDGE] {
        for p in one_by_one(size) {
            all.take_two(&p);
        }
    }
    for kind in [Kind::SecondOrder, Kind::Rotated] {
        for p in one_block(kind) {
            all.take_two(&p);
        }
    }
    for x in sums_apart() {
        for p in alone(x.clone()) {
            all.take_two(&p);
        }
        for p in [with_b(x.clone()), with_c(x.clone()), contradicted(&x)] {
            all.take_two(&p);
        }
    }
    for x in vectors().into_iter().chain(large_norms::ties()) {
        for p in alone(x.clone()) {
            all.take_two(&p);
        }
    }
    for count in [3, 4, 5, 8] {
        for p in sums(count) {
            all.take_two(&p);
        }
    }
    all.take_two(&chain(Kind::SecondOrder, 48, 15, 1600));
    for turn in 0..80 {
        let most = if turn % 2 == 0 { 4 } else { 7 };
        let p = wanted(
            || enlarged(random, most),
            |_, both| both[1].large_norms > 0 && (turn >= 60 || are_unlike(both)),
        );
        all.take_two(&p);
    }
}

/// Lists in groups, and long lists.
fn lists(all: &mut Records, random: &mut Random) {
    for number in CONVERGED..=CONE_FAILURE {
        for turn in 0..6 {
            let unlike = turn < 5 && number < CONE_FAILURE;
            let mut p = ending_in(random, number, unlike);
            p.words = grouped(random, &p.words, 20);
            all.take_two(&p);
        }
    }
    for count in [33, MOST_WORDS] {
        let mut p = ending_in(random, CONVERGED, true);
        lengthen(random, &mut p.words, count);
        all.take_two(&p);
    }
}

/// No rows, no columns, or neither.
fn empty(all: &mut Records, random: &mut Random) {
    for (packed, m, n) in [
        (false, 0, 0),
        (true, 0, 0),
        (false, 0, 4),
        (false, 4, 0),
        (false, 1, 0),
        (false, 0, 1),
    ] {
        for _ in 0..5 {
            let family = random.pick(&FAMILIES);
            let p = of_size(random, family, packed, m, n).raised();
            all.take_two(&p);
        }
    }
}

/// Half of a dense matrix for both halves.
fn halves(all: &mut Records, random: &mut Random) {
    for turn in 0..16 {
        let draw = || {
            let (m, n) = (random.within(1, 5), 2 * random.within(1, 6));
            let mut p = of_size(random, Family::Drawn, false, m, n).raised();
            p.a.length /= 2;
            p.a.given.truncate(p.a.length);
            p.twice = true;
            p
        };
        let p = wanted(draw, |_, both| turn >= 12 || are_unlike(both));
        all.take_two(&p);
    }
}

/// More rows and columns, up to 32.
fn larger(all: &mut Records, random: &mut Random) {
    for _ in 0..18 {
        let draw = || {
            let family = random.pick(&[Family::Drawn, Family::Solvable, Family::LargeEpsZero]);
            let mut p = small(random, family).raised();
            p.max_iter = p.max_iter.min(100);
            p
        };
        let p = wanted(draw, |p, both| p.m.max(p.n) >= 8 && are_unlike(both));
        all.take_two(&p);
    }
}

/// Problems that stand twice, in edition one and in edition two.
fn in_both(all: &mut Records, random: &mut Random) {
    for number in CONVERGED..=CONE_FAILURE {
        for turn in 0..8 {
            let unlike = turn < 6 && number < CONE_FAILURE;
            let p = ending_in(random, number, unlike);
            all.take(&in_edition(&p, 1));
            all.take_two(&p);
        }
    }
    for p in [finding(), with_b(sums_apart().remove(0))] {
        all.take(&in_edition(&p, 1));
    }
}

/// A problem that is refused by this row of the table, and has no tolerance below zero besides.
fn refused(random: &mut Random, number: u64) -> Handed {
    loop {
        let p = refusals::one(random, number).raised();
        if p.refusal() == Some(number) {
            return p;
        }
    }
}

/// Editions that there are not, alone and beside a fault of each row; and the faults alone, in edition two and in edition one.
fn turned_away(all: &mut Records, random: &mut Random) {
    for edition in [0, 3, 4, 5, 255, 258, 65537, 1 << 31, u32::MAX - 1, u32::MAX] {
        for _ in 0..3 {
            let p = refusals::base(random).raised();
            all.take(&in_edition(&p, edition));
        }
    }
    for number in BAD_PARAM..=WORK_SHORTAGE {
        for edition in [0, 3, 3, u32::MAX] {
            let p = refused(random, number);
            all.take(&in_edition(&p, edition));
        }
        for turn in 0..12 {
            let p = refused(random, number);
            all.take(&in_edition(&p, if turn < 10 { 2 } else { 1 }));
        }
    }
    // A tolerance below zero, which the original takes.
    for _ in 0..4 {
        let mut p = ending_in(random, CONVERGED, true);
        p.eps_inf = -1.0;
        all.take_two(&p);
    }
}

pub fn all(all: &mut Records, random: &mut Random) {
    endings(all, random);
    other_endings(all, random);
    minus_zeros(all, random);
    lengths(all, random);
    large(all, random);
    long_blocks(all, random);
    fit(all, random);
    long(all, random);
    large_norms(all, random);
    lists(all, random);
    empty(all, random);
    halves(all, random);
    larger(all, random);
    in_both(all, random);
    turned_away(all, random);
}
