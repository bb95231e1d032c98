//! Request (ix) of document 02, norms of very large readings: runs that meet such a norm, and runs at its edges.

use super::{repeating, Records};
use crate::families::{of_size, Family};
use crate::handed::Vector;
use crate::lists::large_norms::{
    self, alone, chain, change, contradicted, dense, finding, is_large_later, just_missed,
    one_block, one_by_one, search, sums, vectors, with_b, with_c, Change, SIZES,
};
use crate::original::Kind;
use crate::random::Random;
use crate::ruled_norm::power_of_2;

/// One column and more rows, whose b is large in the first, in the last or in all of them.
fn more_rows(all: &mut Records) {
    for m in [2, 3, 5, 8] {
        let mut first = vec![1.0; m];
        first[0] = -1e200;
        let mut last = vec![-1.0; m];
        last[m - 1] = 1e200;
        for b in [first, last, vec![-1e200; m]] {
            let list = [(Kind::Zero, 1), (Kind::Nonnegative, m - 1)];
            let mut p = dense(&list, vec![0.0], vec![1.0; m], b);
            p.max_iter = 100;
            all.take(&p);
        }
    }
}

/// Numbers at the edges as b and as c; 255 and 256 that add up to just below the largest number, and to just more.
fn edges(all: &mut Records) {
    for x in vectors() {
        all.take(&with_b(x.clone()));
        all.take(&with_c(x));
    }
    for count in [3, 4, 5, 6, 8] {
        all.take_all(sums(count).to_vec());
    }
    for count in [255, 256] {
        let numbers = || Vector {
            length: count,
            given: vec![power_of_2(508)],
        };
        let mut p = with_b(vec![1.0; count]);
        (p.b, p.max_iter) = (numbers(), 3);
        p.a.given.truncate(1);
        all.take(&p);
        let mut p = with_c(vec![1.0; count]);
        (p.c, p.max_iter) = (numbers(), 3);
        p.a.given.truncate(2);
        all.take(&p);
    }
}

/// More rows and columns, with few numbers that repeat.
fn large(all: &mut Records, random: &mut Random) {
    for (packed, m, n) in [
        (false, 64, 2),
        (false, 2, 64),
        (true, 64, 64),
        (false, 256, 1),
        (false, 1, 256),
    ] {
        for scaled in 0..2 {
            let mut p = repeating(of_size(random, Family::Solvable, packed, m, n).raised());
            let v = if scaled == 0 { &mut p.b } else { &mut p.c };
            v.given.iter_mut().for_each(|x| *x *= 1e160);
            p.max_iter = random.pick(&[2, 3, 5]);
            all.take(&p);
        }
    }
}

/// Projections of a second-order or rotated block that meet a large norm.
fn chains(all: &mut Records) {
    for (kind, length, bits, max_iter) in [
        (Kind::SecondOrder, 48, 15, 1600),
        (Kind::Rotated, 48, 15, 2000),
        (Kind::SecondOrder, 64, 11, 780),
        (Kind::Rotated, 64, 11, 800),
    ] {
        all.take(&chain(kind, length, bits, max_iter));
    }
}

/// So many of each: the ending before, the ending now, and what differs.
const WANTED: [(usize, &str, &str, Change); 20] = [
    (10, "ExcessIter", "Converged", Change::Verdict),
    (10, "unscaled", "Converged", Change::Verdict),
    (4, "ExcessIter", "Unbounded", Change::Verdict),
    (4, "ExcessIter", "Infeasible", Change::Verdict),
    (5, "unscaled", "Unbounded", Change::Verdict),
    (5, "unscaled", "Infeasible", Change::Verdict),
    (5, "Unbounded", "Converged", Change::Verdict),
    (5, "Infeasible", "Converged", Change::Verdict),
    (5, "ConeFailure", "Converged", Change::Verdict),
    (5, "Converged", "Converged", Change::Steps),
    (2, "Unbounded", "Unbounded", Change::Steps),
    (2, "Infeasible", "Infeasible", Change::Steps),
    (8, "ExcessIter", "ExcessIter", Change::Criteria),
    (8, "unscaled", "unscaled", Change::Criteria),
    (3, "ConeFailure", "ConeFailure", Change::None),
    (3, "Converged", "Converged", Change::None),
    (3, "Unbounded", "Unbounded", Change::None),
    (3, "Infeasible", "Infeasible", Change::None),
    (3, "ExcessIter", "ExcessIter", Change::None),
    (3, "unscaled", "unscaled", Change::None),
];

fn searched(all: &mut Records, random: &mut Random) {
    for (count, before, after, what) in WANTED {
        all.take_all(search(random, 5, count, |_, was, now| {
            change(was, now) == (before, after, what)
        }));
    }
    // The Frobenius norms are not large, but a later norm is.
    all.take_all(search(random, 8, 8, |p, was, now| {
        is_large_later(p) && change(was, now).2 != Change::None
    }));
    // A NaN or an infinity arises besides.
    all.take_all(search(random, 8, 6, |_, _, now| {
        now.work.iter().any(|x| x.is_nan())
    }));
    all.take_all(search(random, 8, 4, |_, _, now| {
        now.work.iter().any(|x| x.is_infinite())
    }));
}

/// Chains of ties as b and as c. Those at the edge tell by their first step, whether their Frobenius norm is infinite; the norm of the others is
/// in a later criterion.
fn ties(all: &mut Records) {
    let [finite, _, edge, beyond] = large_norms::ties();
    for x in [edge, beyond] {
        all.take_all(alone(x.clone()).to_vec());
        for mut p in [with_b(x.clone()), with_c(x)] {
            p.max_iter = 1;
            all.take(&p);
        }
    }
    for p in [with_c(finite.clone()), contradicted(&finite)] {
        all.take(&p);
    }
    all.take(&just_missed(with_c(finite)));
}

pub fn all(all: &mut Records, random: &mut Random) {
    all.take(&finding());
    for size in SIZES {
        all.take_all(one_by_one(size));
    }
    more_rows(all);
    all.take_all(one_block(Kind::SecondOrder));
    all.take_all(one_block(Kind::Rotated));
    edges(all);
    large(all, random);
    chains(all);
    searched(all, random);
    ties(all);
}
