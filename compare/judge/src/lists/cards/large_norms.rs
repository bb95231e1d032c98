//! Cards with norms of very large readings, by request (ix) of document 02.

use super::Cards;
use crate::lists::large_norms::{
    alone, change, finding, is_large_later, just_missed, one_block, one_by_one, search, sums, ties,
    vectors, with_b, with_c, Change,
};
use crate::original::Kind;
use crate::random::Random;

/// The ending before, the ending now, and what differs.
const WANTED: [(&str, &str, Change); 13] = [
    ("ExcessIter", "Converged", Change::Verdict),
    ("unscaled", "Converged", Change::Verdict),
    ("ExcessIter", "Unbounded", Change::Verdict),
    ("ExcessIter", "Infeasible", Change::Verdict),
    ("unscaled", "Unbounded", Change::Verdict),
    ("unscaled", "Infeasible", Change::Verdict),
    ("Unbounded", "Converged", Change::Verdict),
    ("Infeasible", "Converged", Change::Verdict),
    ("ConeFailure", "Converged", Change::Verdict),
    ("Converged", "Converged", Change::Steps),
    ("ExcessIter", "ExcessIter", Change::Criteria),
    ("Unbounded", "Unbounded", Change::None),
    ("Infeasible", "Infeasible", Change::None),
];

pub fn all(all: &mut Cards, random: &mut Random) {
    all.good(&finding());
    all.all_good(one_by_one(1e200));
    for kind in [Kind::SecondOrder, Kind::Rotated] {
        for p in &one_block(kind)[..3] {
            all.good(p);
        }
    }
    for x in vectors().into_iter().skip(3).step_by(6) {
        all.good(&with_b(x.clone()));
        all.good(&with_c(x));
    }
    for count in [3, 4, 5] {
        all.all_good(sums(count).to_vec());
    }
    for (before, after, what) in WANTED {
        all.all_good(search(random, 4, 1, |_, was, now| {
            change(was, now) == (before, after, what)
        }));
    }
    all.all_good(search(random, 4, 2, |p, was, now| {
        is_large_later(p) && change(was, now).2 != Change::None
    }));
    let [finite, _, edge, beyond] = ties();
    all.all_good(alone(edge).to_vec());
    all.all_good(alone(beyond).to_vec());
    all.good(&just_missed(with_c(finite)));
}
