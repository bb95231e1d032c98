//! Request (viii) of document 02, cones in groups: the lists of drawn problems in groups, as they fit and as they don't.

use super::{refusals, Records};
use crate::cone_list::Block;
use crate::families::{nonnegative, of_size, small, Family, FAMILIES};
use crate::group_shapes::{
    all_groups, altered, among, bad_blocks, deep, empties, fitting_ends, full, full_and_bad,
    group_word, grouped, items, overrun_ends, places_of_groups, side_by_side, wrapped, written,
    EMPTY,
};
use crate::groups::DEEPEST;
use crate::handed::{
    BAD_CONE, BAD_PARAM, INVALID_OP, MOST_WORDS, NOT_FINITE, TOO_LARGE, WORK_SHORTAGE,
};
use crate::lists::grouped::{base, each, failing_in_groups, with_no_triangle_first};
use crate::original::Kind;
use crate::random::Random;

/// One to nine deep, and deep groups side by side.
fn depths(all: &mut Records, random: &mut Random) {
    for depth in 1..=DEEPEST + 1 {
        all.take_all(each(random, base, |_, words| deep(words, depth)));
    }
    for _ in 0..2 {
        all.take_all(each(random, base, |_, words| side_by_side(words)));
    }
}

/// Empty groups among blocks, and alone.
fn empty_groups(all: &mut Records, random: &mut Random) {
    all.take_all(each(random, base, |_, words| empties(words)));
    for (packed, m, n) in [
        (false, 0, 0),
        (true, 0, 0),
        (false, 0, 3),
        (false, 2, 1),
        (true, 1, 1),
    ] {
        for list in [
            vec![EMPTY],
            vec![EMPTY; 5],
            written(&wrapped(vec![], DEEPEST)),
        ] {
            let mut p = of_size(random, Family::Drawn, packed, m, n).raised();
            p.words = list;
            all.take(&p);
        }
    }
}

/// Groups that end at, before and past the end of their list, and groups of another size than was drawn.
fn ends(all: &mut Records, random: &mut Random) {
    for _ in 0..2 {
        all.take_all(each(random, base, |_, words| fitting_ends(words)));
        all.take_all(each(random, base, |_, words| overrun_ends(words)));
    }
    for _ in 0..20 {
        let mut p = base(random);
        p.words = grouped(random, &p.words, 40);
        altered(random, &mut p.words);
        all.take(&p);
    }
}

/// Failing blocks in groups, of each depth.
fn failures(all: &mut Records, random: &mut Random) {
    for depth in 0..=DEEPEST {
        for least in 0..4 {
            all.take(&failing_in_groups(random, least % 2 == 1, least, depth));
        }
    }
}

/// Lists of 128 words and of 129: groups mostly; bad ones; and groups around as many blocks as there is room for.
fn at_the_limit(all: &mut Records, random: &mut Random) {
    for count in [MOST_WORDS, MOST_WORDS + 1] {
        all.take_all(each(random, base, |random, words| {
            full(random, words, count)
        }));
        let no_rows = |random: &mut Random| of_size(random, Family::Drawn, false, 0, 2).raised();
        all.take_all(each(random, no_rows, |_, _| all_groups(count)));
        all.take_all(each(random, base, |_, words| full_and_bad(words, count)));
        for depth in [1, DEEPEST] {
            let m = count - depth;
            let mut p = of_size(random, Family::Contradictory, false, m, 1).raised();
            p.words = written(&wrapped(items(&nonnegative(m, m)), depth));
            p.max_iter = 2;
            all.take(&p);
        }
    }
}

/// Blocks in groups that are bad wherever they stand, and sums that are m only with the groups' sizes.
fn bad_in_groups(all: &mut Records, random: &mut Random) {
    for depth in [1, 3, DEEPEST] {
        all.take_all(each(random, with_no_triangle_first, |_, words| {
            bad_blocks(words, depth)
        }));
    }
    for m in [3, 5] {
        let of_rows = |random: &mut Random| of_size(random, Family::Drawn, false, m, 2).raised();
        all.take_all(each(random, of_rows, |_, _| places_of_groups(m)));
    }
}

/// Cone work for semidefinite blocks in groups: enough, and too little.
fn cone_work(all: &mut Records, random: &mut Random) {
    let size = |order: usize| order * (order + 1) / 2;
    let word = |order: usize| {
        let (kind, size) = (Kind::Semidefinite, size(order));
        Block { kind, size }.word()
    };
    let mut lent = |m: usize, list: Vec<u16>, cone_work: usize| {
        let mut p = of_size(random, Family::FewSweeps, false, m, 2).raised();
        (p.words, p.cone_work, p.sweep_limit) = (list, cone_work, 64);
        all.take(&p);
    };
    for order in 1..=4 {
        let needed = order + order * order;
        for depth in [1, DEEPEST] {
            for cone_work in [needed, needed - 1] {
                let list = written(&wrapped(items(&[word(order)]), depth));
                lent(size(order), list, cone_work);
            }
        }
    }
    // Orders 2 and 3: the larger decides, wherever it stands.
    let (two, three) = (word(2), word(3));
    for list in [
        vec![two, group_word(1), three],
        vec![group_word(1), three, two],
        vec![group_word(1), two, group_word(1), three],
    ] {
        for cone_work in [12, 11, 6] {
            lent(size(2) + size(3), list.clone(), cone_work);
        }
    }
}

/// Problems of every family in groups, and some that end before their allowance.
fn families(all: &mut Records, random: &mut Random) {
    for family in FAMILIES {
        for _ in 0..10 {
            let mut p = small(random, family).raised();
            p.words = grouped(random, &p.words, MOST_WORDS);
            all.take(&p);
        }
    }
    for (family, wanted) in [
        (Family::Contradictory, "Infeasible"),
        (Family::Falling, "Unbounded"),
        (Family::Solvable, "Converged"),
    ] {
        let mut met = 0;
        while met < 6 {
            let mut p = small(random, family).raised();
            p.words = grouped(random, &p.words, MOST_WORDS);
            if p.m <= 8 && p.n <= 8 && p.problem().solve_before().ending.name() == wanted {
                all.take(&p);
                met += 1;
            }
        }
    }
}

/// Lists in groups that fit, and such that don't, each with a fault of another row.
fn beside_other_faults(all: &mut Records, random: &mut Random) {
    for row in [BAD_PARAM, TOO_LARGE, INVALID_OP, NOT_FINITE, WORK_SHORTAGE] {
        for turn in 0..6 {
            let mut p = loop {
                let p = refusals::one(random, row).raised();
                if p.words.len() <= 12 {
                    break p;
                }
            };
            let past = p.words.len() + 1;
            p.words = match turn {
                0 => among(&p.words, &[(0, past)]),
                1 => among(&p.words, &[(0, 1), (0, 1)]),
                2 => written(&wrapped(items(&p.words), DEEPEST + 1)),
                _ => grouped(random, &p.words, 60),
            };
            let answer = if turn <= 2 { row.min(BAD_CONE) } else { row };
            assert_eq!(p.refusal(), Some(answer));
            all.take(&p);
        }
    }
}

pub fn all(all: &mut Records, random: &mut Random) {
    depths(all, random);
    empty_groups(all, random);
    ends(all, random);
    failures(all, random);
    at_the_limit(all, random);
    bad_in_groups(all, random);
    cone_work(all, random);
    families(all, random);
    beside_other_faults(all, random);
}
