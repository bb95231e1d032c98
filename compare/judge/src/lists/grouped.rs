//! Problems whose lists are put into groups (request (viii) of document 02), for the runs and the cards.

use crate::families::{of_size, small, Family};
use crate::group_shapes::{in_groups, items, wrapped, written, Item};
use crate::groups::DEEPEST;
use crate::handed::Handed;
use crate::original::order;
use crate::problem::Ending;
use crate::random::Random;

/// A problem of at most 5 rows and columns and 3 words or more, for a few steps.
pub fn base(random: &mut Random) -> Handed {
    loop {
        let mut p = small(random, Family::Drawn).raised();
        if p.n <= 5 && p.m <= 5 && p.words.len() >= 3 {
            p.max_iter = p.max_iter.min(30);
            return p;
        }
    }
}

/// The same, and its first block is not semidefinite and has no triangle's size.
pub fn with_no_triangle_first(random: &mut Random) -> Handed {
    loop {
        let p = base(random);
        let (kind, size) = (p.words[0] >> 13, p.words[0] & 0x1fff);
        if kind < 4 && order(usize::from(size)).is_none() {
            return p;
        }
    }
}

/// Each way to put a list into groups, with a problem of its own.
pub fn each(
    random: &mut Random,
    base: impl Fn(&mut Random) -> Handed,
    ways: impl Fn(&mut Random, &[u16]) -> Vec<Vec<u16>>,
) -> Vec<Handed> {
    let mut all = Vec::new();
    loop {
        let mut p = base(random);
        match ways(random, &p.words).get(all.len()) {
            Some(list) => p.words = list.clone(),
            None => return all,
        }
        all.push(p);
    }
}

/// A problem that ends at a failing block of this number or a later one, and the number.
fn failing(random: &mut Random, packed: bool, least: usize) -> (Handed, usize) {
    loop {
        let p = if packed {
            let size = random.within(3, 6);
            of_size(random, Family::FewSweeps, true, size, size)
        } else {
            small(random, Family::FewSweeps)
        };
        let p = p.raised();
        match p.problem().solve_before().ending {
            Ending::ConeFailure(block) if block >= least && p.words.len() <= 12 => {
                return (p, block)
            }
            _ => {}
        }
    }
}

/// A problem whose failing block, of this number or a later one, is so deep in groups, with blocks beside it, and groups before and after.
/// Before it stands a group, mostly one that is empty.
pub fn failing_in_groups(random: &mut Random, packed: bool, least: usize, depth: usize) -> Handed {
    let (mut p, block) = failing(random, packed, least);
    let from = random.within(0, block);
    let to = random.within(block + 1, p.words.len());
    let mut list = in_groups(random, &p.words[..from], DEEPEST);
    if depth == 0 || !random.one_in(3) {
        list.insert(0, Item::Group(vec![]));
    }
    list.extend(wrapped(items(&p.words[from..to]), depth));
    list.extend(in_groups(random, &p.words[to..], DEEPEST));
    p.words = written(&list);
    assert_eq!(
        p.problem().solve_before().ending,
        Ending::ConeFailure(block)
    );
    p
}
