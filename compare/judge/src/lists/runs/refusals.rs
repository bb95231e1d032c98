//! What document 01 turns away: an accepted problem with one fault of a row of the table, or with
//! several at once, so that the order of the rows tells. Some have an eps_acc or eps_inf
//! below zero besides.

use crate::cone_list::Block;
use crate::draw::{numbers, Sort};
use crate::families::{of_size, small, Family};
use crate::handed::{
    stored, work_places, Handed, ListRule, Vector, LIMIT, MOST_WORDS, TOO_LARGE, WORK_SHORTAGE,
};
use crate::original::Kind;
use crate::random::Random;

/// The most numbers of A that the replay has room for.
pub const MOST_OF_A: usize = LIMIT * (LIMIT + 1) / 2;

/// What is drawn here is judged by the table as it was before request (viii): a fault of row 4 may be a word of kind 7, which
/// is a group since then, and the list has what the new table answers.
const BEFORE: ListRule = ListRule::without_groups(MOST_WORDS);

/// A problem of n and m up to 5.
pub fn base(random: &mut Random) -> Handed {
    loop {
        let p = small(random, Family::Drawn);
        if p.n <= 5 && p.m <= 5 {
            return p;
        }
    }
}

fn not_finite(random: &mut Random) -> f64 {
    f64::from_bits(random.pick(&[
        0x7ff0000000000000,
        0xfff0000000000000,
        0x7ff8000000000000,
        0xfff8000000000000,
        0x7ff0000000000001,
        0x7fffffffffffffff,
    ]))
}

fn bad_param(random: &mut Random, p: &mut Handed) {
    match random.below(6) {
        0 => p.eps_acc = not_finite(random),
        1 => p.eps_inf = not_finite(random),
        2 => p.eps_zero = not_finite(random),
        3 => p.eps_zero = random.pick(&[-1.0, -1e-12, -5e-324, f64::MIN]),
        4 => p.max_iter = random.pick(&[1_000_001, 1 << 32, 1 << 63, u64::MAX]),
        _ => p.sweep_limit = random.pick(&[0, 65, 66, 1 << 32, u64::MAX]),
    }
}

/// The problem with these sizes, all else fitting; but of a matrix that the replay has no room for there is no number.
pub fn resized(random: &mut Random, p: &mut Handed, m: usize, n: usize) {
    p.packed = p.packed && m == n;
    (p.m, p.n) = (m, n);
    let vector = |random: &mut Random, length: usize| Vector {
        length,
        given: numbers(random, Sort::Whole, length.min(3)),
    };
    p.c = vector(random, n);
    p.a = vector(random, stored(p.packed, m, n));
    if p.a.length > MOST_OF_A {
        p.a = Vector::whole(vec![]);
    }
    p.b = vector(random, m);
    let size = m;
    let kind = Kind::Nonnegative;
    p.words = vec![Block { kind, size }.word()];
    (p.work, p.cone_work) = (work_places(m, n), 0);
}

fn too_large(random: &mut Random, p: &mut Handed) {
    let small = random.within(0, 3);
    match random.below(7) {
        0 => resized(random, p, small, LIMIT + 1),
        1 => resized(random, p, LIMIT + 1, small),
        2 => {
            p.packed = random.one_in(2);
            resized(random, p, LIMIT + 1, LIMIT + 1);
        }
        3 => resized(random, p, LIMIT, LIMIT + 1),
        // Sizes whose products and sums would wrap, with the lengths of others.
        4 => p.n = random.pick(&[1 << 32, 1 << 63, usize::MAX]),
        5 => p.m = random.pick(&[1 << 32, 1 << 63, usize::MAX]),
        // Words of size 0.
        _ => p.words.resize(
            random.within(MOST_WORDS + 1, MOST_WORDS + 4),
            random.pick(&[0x0000, 0x4000, 0x8000]),
        ),
    }
}

/// One number more, or one fewer where there is one.
fn off_by_one(random: &mut Random, v: &mut Vector) {
    if v.length > 0 && random.one_in(2) {
        v.length -= 1;
        v.given.truncate(v.length);
    } else {
        v.length += 1;
        if v.given.is_empty() {
            v.given.push(1.0);
        }
    }
}

fn invalid_op(random: &mut Random, p: &mut Handed) {
    match random.below(5) {
        0 => off_by_one(random, &mut p.c),
        1 => off_by_one(random, &mut p.a),
        2 => off_by_one(random, &mut p.b),
        3 => {
            // Packed, and m is not n; A fits one of the two.
            let (m, n) = (random.within(0, 5), random.within(0, 5));
            resized(random, p, m, n);
            p.packed = true;
            p.a.length = stored(true, n, n);
            if m == n {
                p.b.length += 1;
                p.b.given = vec![2.0];
            }
            p.a.given = if p.a.length > 0 { vec![1.0] } else { vec![] };
        }
        _ => {
            // Rows and columns swapped.
            (p.m, p.n) = (p.n, p.m);
            if p.m == p.n {
                off_by_one(random, &mut p.c);
            }
        }
    }
}

fn bad_cone(random: &mut Random, p: &mut Handed) {
    let at = random.within(0, p.words.len());
    match random.below(6) {
        0 => {
            let kind = random.within(5, 7) as u16;
            p.words.insert(at, kind << 13);
        }
        1 => {
            let kind = random.within(5, 7) as u16;
            p.words.insert(at, kind << 13 | p.m as u16 & 0x1fff);
        }
        2 => {
            let size = random.pick(&[2, 4, 5, 7, 8, 9, 11, 8190]);
            p.words.insert(at, 4 << 13 | size);
        }
        3 => {
            let kind = random.below(4) as u16;
            p.words.insert(at, kind << 13 | 1);
        }
        4 if p.words.iter().any(|word| *word & 0x1fff > 0) => {
            let kept = p.words.iter().position(|word| word & 0x1fff > 0).unwrap();
            // One place fewer: of a semidefinite block, mostly no triangle.
            p.words[kept] -= 1;
        }
        _ => p.words.insert(at, random.pick(&[0x1fff, 0x3fff, 0x9fff])),
    }
}

fn one_not_finite(random: &mut Random, p: &mut Handed) {
    let x = not_finite(random);
    let all = [&mut p.c, &mut p.a, &mut p.b];
    let mut some: Vec<&mut Vector> = all.into_iter().filter(|v| !v.given.is_empty()).collect();
    if some.is_empty() {
        return;
    }
    let which = random.below(some.len());
    let given = &mut some[which].given;
    let last = given.len() - 1;
    let at = match random.below(3) {
        0 => 0,
        1 => last,
        _ => random.within(0, last),
    };
    given[at] = x;
}

fn work_shortage(random: &mut Random, p: &mut Handed) {
    let most = LIMIT + 1;
    let needed = work_places(p.m.min(most), p.n.min(most));
    match random.below(4) {
        0 | 1 => p.work = needed - 1,
        2 => p.work = random.within(0, needed - 1),
        _ => {
            let blocks: Option<Vec<Block>> = p.words.iter().map(|w| Block::read(*w)).collect();
            let needed = blocks.map_or(0, |blocks| crate::cone_list::work_len(&blocks));
            if needed > 0 {
                p.cone_work = if random.one_in(2) {
                    needed - 1
                } else {
                    random.within(0, needed - 1)
                };
            } else {
                p.work = 0;
            }
        }
    }
}

const FAULTS: [fn(&mut Random, &mut Handed); 6] = [
    bad_param,
    too_large,
    invalid_op,
    bad_cone,
    one_not_finite,
    work_shortage,
];

/// A problem with one fault, that this number answers where neither eps_acc nor eps_inf is below zero.
pub fn one(random: &mut Random, number: u64) -> Handed {
    loop {
        let mut p = if number == WORK_SHORTAGE && random.one_in(2) {
            let places = random.pick(&[1, 3, 6, 10]);
            of_size(random, Family::FewSweeps, false, places, 2)
        } else {
            base(random)
        };
        FAULTS[number as usize - 1](random, &mut p);
        if p.raised().refusal_by(BEFORE) == Some(number) {
            return p;
        }
    }
}

/// A problem with a fault of each of these rows, that the first of them answers where neither eps_acc
/// nor eps_inf is below zero.
pub fn several(random: &mut Random, rows: &[u64]) -> Handed {
    let mut order = rows.to_vec();
    // Sizes come first: they make the problem anew.
    order.sort_by_key(|row| *row != TOO_LARGE);
    loop {
        let mut p = base(random);
        for row in &order {
            FAULTS[*row as usize - 1](random, &mut p);
        }
        if p.raised().refusal_by(BEFORE) == rows.iter().min().copied() {
            return p;
        }
    }
}
