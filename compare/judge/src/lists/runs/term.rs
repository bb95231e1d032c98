//! Request (vii) of document 02, a whole term in one fit: sizes from 257 to 1,024, and lists of 33 to 128 words.

use super::{of_one_block, refusals, repeating, Records};
use crate::cone_list::Block;
use crate::draw::{number, Sort};
use crate::families::{lengthen, nonnegative, of_size, small, Family};
use crate::handed::{stored, work_places, Handed, Vector, LIMIT, MOST_WORDS};
use crate::original::Kind;
use crate::random::Random;

/// A few steps on repeated numbers.
fn few_steps(random: &mut Random, p: Handed) -> Handed {
    let mut p = repeating(p);
    (p.max_iter, p.sweep_limit) = (random.pick(&[2, 3, 5]), 64);
    p.raised()
}

/// Sizes from the first that only now fit to the largest, on one side or both.
fn sizes(all: &mut Records, random: &mut Random) {
    for (packed, m, n) in [
        (false, 257, 257),
        (true, 257, 257),
        (false, 257, 1),
        (false, 2, 257),
        (false, 300, 400),
        (false, 512, 512),
        (true, 512, 512),
        (false, 1023, 5),
        (false, 4, 1023),
        (false, 1024, 1),
        (false, 1, 1024),
        (false, 1024, 3),
        (false, 3, 1024),
        (false, 1024, 0),
        (false, 0, 1024),
        (false, 1024, 512),
        (false, 512, 1024),
        (true, 1024, 1024),
    ] {
        assert!(stored(packed, m, n) <= refusals::MOST_OF_A);
        // In large problems numbers of any kind soon make everything 0 or NaN.
        let family = match m.min(n) {
            0..=256 => random.pick(&[Family::Drawn, Family::Solvable, Family::LargeEpsZero]),
            _ => Family::Solvable,
        };
        let p = of_size(random, family, packed, m, n);
        all.take(&few_steps(random, p));
    }
}

/// The largest dense matrix: half of it, twice.
fn largest(all: &mut Records, random: &mut Random) {
    for _ in 0..2 {
        let p = of_size(random, Family::Solvable, false, LIMIT, LIMIT / 2);
        let mut p = few_steps(random, p);
        (p.n, p.c.length, p.twice) = (LIMIT, LIMIT, true);
        p.work = work_places(LIMIT, LIMIT);
        all.take(&p);
    }
}

/// Narrow problems with all their numbers, which end before their allowance: in each of the four ways.
fn to_an_end(all: &mut Records, random: &mut Random) {
    for (family, m, n, wanted) in [
        (Family::Contradictory, 1024, 2, "Infeasible"),
        (Family::Contradictory, 600, 4, "Infeasible"),
        (Family::Falling, 1024, 1, "Unbounded"),
        (Family::Falling, 600, 3, "Unbounded"),
        (Family::Solvable, 1024, 2, "Converged"),
        (Family::Solvable, 3, 600, "Converged"),
        (Family::FewSweeps, 700, 2, "ConeFailure"),
    ] {
        loop {
            let p = of_size(random, family, false, m, n).raised();
            if p.problem().solve_before().ending.name() == wanted {
                all.take(&p);
                break;
            }
        }
    }
}

/// A term's sync marks: offset and drift whose largest miss is least, in two rows to a mark.
fn fit(all: &mut Records, random: &mut Random) {
    let marks = LIMIT / 2;
    let mut p = of_size(random, Family::Drawn, false, LIMIT, 3);
    let (mut offsets, mut drifts, mut b) = (vec![], vec![], vec![]);
    for mark in 0..marks {
        let day = 98.0 * mark as f64 / marks as f64;
        let seconds = 0.5 + day / 16.0 + number(random, Sort::Whole) / 256.0;
        for sign in [1.0, -1.0] {
            offsets.push(sign);
            drifts.push(sign * day / 32.0);
            b.push(sign * seconds);
        }
    }
    let misses = vec![-1.0; LIMIT];
    p.a = Vector::whole([offsets, drifts, misses].concat());
    (p.c, p.b) = (Vector::whole(vec![0.0, 0.0, 1.0]), Vector::whole(b));
    p.words = nonnegative(LIMIT, 1);
    (p.max_iter, p.sweep_limit) = (20_000, 64);
    (p.eps_acc, p.eps_inf, p.eps_zero) = (1e-3, 1e-6, 1e-12);
    assert_eq!(p.problem().solve().ending.name(), "Converged");
    all.take(&p);
}

/// Places of a semidefinite block.
fn triangle(order: usize) -> usize {
    order * (order + 1) / 2
}

/// One block of sizes that only now fit, up to the largest.
fn large_blocks(all: &mut Records, random: &mut Random) {
    for (kind, size, sweep_limit) in [
        (Kind::Semidefinite, triangle(23), 64),
        (Kind::Semidefinite, triangle(31), 3),
        (Kind::Semidefinite, triangle(44), 3),
        (Kind::Semidefinite, triangle(44), 64),
        (Kind::SecondOrder, 1024, 64),
        (Kind::Rotated, 1024, 64),
    ] {
        let p = of_one_block(random, kind, size, sweep_limit);
        all.take(&p.raised());
    }
}

/// Lists that only now fit: blocks of size 0 among the others, or no block of size 0.
fn many_words(all: &mut Records, random: &mut Random) {
    for count in [33, 64, 127, MOST_WORDS] {
        for family in [Family::Drawn, Family::Solvable, Family::FewSweeps] {
            for _ in 0..6 {
                let mut p = small(random, family).raised();
                lengthen(random, &mut p.words, count);
                all.take(&p);
            }
        }
    }
    for (m, n) in [(128, 2), (1024, 1)] {
        let p = of_size(random, Family::Contradictory, false, m, n);
        let mut p = few_steps(random, p);
        p.words = nonnegative(m, MOST_WORDS);
        all.take(&p);
    }
}

/// What is still refused: one place, word or number away from what is taken, or an order.
fn just_refused(all: &mut Records, random: &mut Random) {
    let mut at_the_limit = |packed: bool, m: usize, n: usize, change: &dyn Fn(&mut Handed)| {
        let mut p = refusals::base(random).raised();
        p.packed = packed;
        refusals::resized(random, &mut p, m, n);
        change(&mut p);
        all.take(&p);
    };
    for (packed, m, n) in [(true, LIMIT, LIMIT), (false, LIMIT, 1), (false, 1, LIMIT)] {
        at_the_limit(packed, m, n, &|p| p.work -= 1);
        at_the_limit(packed, m, n, &|p| p.a.length -= 1);
        at_the_limit(packed, m, n, &|p| p.words[0] -= 1);
        at_the_limit(packed, m, n, &|p| p.words.resize(MOST_WORDS + 1, 0));
    }
    // Semidefinite blocks of order 44, with a place of cone work missing, and of order 45, of too many places.
    let (taken, more, cone_work) = (triangle(44), triangle(45), 44 + 44 * 44);
    for (m, size, cone_work) in [
        (taken, taken, cone_work - 1),
        (LIMIT, more, cone_work),
        (more, more, cone_work),
    ] {
        let kind = Kind::Semidefinite;
        let words = vec![Block { kind, size }.word()];
        at_the_limit(false, m, 1, &|p| {
            (p.words, p.cone_work) = (words.clone(), cone_work)
        });
    }
}

pub fn all(all: &mut Records, random: &mut Random) {
    sizes(all, random);
    largest(all, random);
    to_an_end(all, random);
    fit(all, random);
    large_blocks(all, random);
    many_words(all, random);
    just_refused(all, random);
}
