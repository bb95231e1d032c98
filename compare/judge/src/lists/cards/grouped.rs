//! Cards with lists in groups, by request (viii) of document 02.

use super::{of_most, Cards};
use crate::families::{of_size, Family, FAMILIES};
use crate::group_shapes::{
    all_groups, bad_blocks, deep, empties, fitting_ends, full, grouped, overrun_ends, side_by_side,
};
use crate::groups::DEEPEST;
use crate::lists::grouped::{base, each, failing_in_groups, with_no_triangle_first};
use crate::random::Random;

/// The most words of a card.
const MOST_WORDS: usize = 63;

pub fn all(all: &mut Cards, random: &mut Random) {
    for depth in 1..DEEPEST {
        let p = each(random, base, |_, words| deep(words, depth));
        all.good(&p[depth % p.len()]);
    }
    for depth in [DEEPEST, DEEPEST + 1] {
        all.all_good(each(random, base, |_, words| deep(words, depth)));
    }
    for ways in [side_by_side, empties, fitting_ends, overrun_ends] {
        all.all_good(each(random, base, |_, words| ways(words)));
    }
    for (least, depth) in [(0, 0), (1, 1), (2, 4), (1, DEEPEST)] {
        all.good(&failing_in_groups(random, least == 1, least, depth));
    }
    all.all_good(each(random, base, |random, words| {
        full(random, words, MOST_WORDS)
    }));
    let no_rows = |random: &mut Random| of_size(random, Family::Drawn, false, 0, 2).raised();
    all.all_good(each(random, no_rows, |_, _| all_groups(MOST_WORDS)));
    all.all_good(each(random, with_no_triangle_first, |_, words| {
        bad_blocks(words, 2)
    }));
    for family in FAMILIES {
        let mut p = of_most(random, family, 8).raised();
        p.words = grouped(random, &p.words, MOST_WORDS);
        all.good(&p);
    }
}
