//! Cone lists in groups, as they are drawn: the words of a list, and groups around them.

use crate::families::{lengthen, nonnegative};
use crate::groups::{DEEPEST, GROUP};
use crate::random::Random;

/// A plain word, or a group of items.
#[derive(Clone, Debug)]
pub enum Item {
    Plain(u16),
    Group(Vec<Item>),
}

/// The word of a group of so many words.
pub fn group_word(size: usize) -> u16 {
    GROUP << 13 | size as u16
}

/// An empty group.
pub const EMPTY: u16 = GROUP << 13;

/// The largest size that a word can say.
const MOST_SIZE: usize = 0x1fff;

pub fn items(words: &[u16]) -> Vec<Item> {
    words.iter().map(|word| Item::Plain(*word)).collect()
}

/// The words of a list of items.
pub fn written(list: &[Item]) -> Vec<u16> {
    let mut words = Vec::new();
    for item in list {
        match item {
            Item::Plain(word) => words.push(*word),
            Item::Group(inner) => {
                let inner = written(inner);
                words.push(group_word(inner.len()));
                words.extend(inner);
            }
        }
    }
    words
}

/// A list in so many groups, one in another.
pub fn wrapped(list: Vec<Item>, times: usize) -> Vec<Item> {
    (0..times).fold(list, |inner, _| vec![Item::Group(inner)])
}

/// The words, and groups among them: each after so many of the words, and of such a size, whether it fits or not.
pub fn among(words: &[u16], groups: &[(usize, usize)]) -> Vec<u16> {
    let mut all = Vec::new();
    for at in 0..=words.len() {
        let here = groups.iter().filter(|(after, _)| *after == at);
        all.extend(here.map(|(_, size)| group_word(*size)));
        all.extend(words.get(at));
    }
    all
}

// Each way to do it.

/// A word before each group, an empty group after it.
fn words_before(words: &[u16], depth: usize) -> Vec<Item> {
    match words.split_first() {
        Some((first, rest)) if depth > 0 => vec![
            Item::Plain(*first),
            Item::Group(words_before(rest, depth - 1)),
            Item::Group(vec![]),
        ],
        None if depth > 0 => vec![Item::Group(words_before(words, depth - 1))],
        _ => items(words),
    }
}

/// A word after each group, an empty group before it.
fn words_after(words: &[u16], depth: usize) -> Vec<Item> {
    match words.split_last() {
        Some((last, rest)) if depth > 0 => vec![
            Item::Group(vec![]),
            Item::Group(words_after(rest, depth - 1)),
            Item::Plain(*last),
        ],
        None if depth > 0 => vec![Item::Group(words_after(words, depth - 1))],
        _ => items(words),
    }
}

/// Groups so deep: all words in the innermost, or it is empty, at the front, among the words and at the end; words on every level.
pub fn deep(words: &[u16], depth: usize) -> Vec<Vec<u16>> {
    let (front, back) = words.split_at(words.len() / 2);
    let empty = wrapped(vec![], depth);
    [
        wrapped(items(words), depth),
        [empty.clone(), items(words)].concat(),
        [items(front), empty.clone(), items(back)].concat(),
        [items(words), empty].concat(),
        words_before(words, depth),
        words_after(words, depth),
    ]
    .map(|list| written(&list))
    .to_vec()
}

/// Deepest groups one after another, which is not too deep; and with one more in the last.
pub fn side_by_side(words: &[u16]) -> Vec<Vec<u16>> {
    let (front, back) = words.split_at(words.len() / 2);
    let halves = |deeper: usize| {
        let front = wrapped(items(front), DEEPEST);
        [front, wrapped(items(back), DEEPEST + deeper)].concat()
    };
    let many = wrapped(vec![Item::Group(vec![]); 5], DEEPEST - 1);
    [
        halves(0),
        halves(1),
        [many.clone(), items(words), many].concat(),
    ]
    .map(|list| written(&list))
    .to_vec()
}

/// Empty groups before, among and after the words, one or several, and in groups.
pub fn empties(words: &[u16]) -> Vec<Vec<u16>> {
    let n = words.len();
    let everywhere: Vec<(usize, usize)> = (0..=n).map(|at| (at, 0)).collect();
    let twice: Vec<(usize, usize)> = everywhere.repeat(2);
    [
        &[(0, 0)][..],
        &[(n / 2, 0)],
        &[(n, 0)],
        &[(0, 0); 3],
        &[(n / 2, 0); 4],
        &[(n, 0); 2],
        &everywhere,
        &twice,
        &[(0, n + 1), (0, 0)],
        &[(0, n + 1), (n, 0)],
        &[(0, 3), (0, 2), (0, 1), (0, 0)],
        &[(n, 2), (n, 0), (n, 0)],
    ]
    .map(|groups| among(words, groups))
    .to_vec()
}

/// Groups that end where their list does, or before.
pub fn fitting_ends(words: &[u16]) -> Vec<Vec<u16>> {
    let n = words.len();
    [
        &[(0, n)][..],
        &[(1, n - 1)],
        &[(0, n - 1)],
        &[(0, 1)],
        &[(0, n + 1), (0, n)],
        &[(0, n + 1), (0, n - 1)],
        &[(0, n + 1), (1, n - 1)],
        &[(0, n), (0, n - 1)],
        &[(0, 2), (0, 1)],
        &[(0, 2), (1, 0)],
        &[(0, 1), (0, 0)],
        &[(0, n + 2), (0, 1), (1, n - 1)],
    ]
    .map(|groups| among(words, groups))
    .to_vec()
}

/// Groups that run past the list that they stand in: past the whole list, and past another group while words remain after it.
pub fn overrun_ends(words: &[u16]) -> Vec<Vec<u16>> {
    let n = words.len();
    let whole = [
        &[(0, n + 1)][..],
        &[(0, n + 7)],
        &[(0, MOST_SIZE)],
        &[(1, n)],
        &[(n, 1)],
        &[(n, MOST_SIZE)],
        &[(0, n + 2), (0, n)],
        &[(0, n + 1), (0, n + 1)],
    ];
    let enclosing = [
        &[(0, 1), (0, 1)][..],
        &[(0, 1), (0, n)],
        &[(1, 1), (1, 1)],
        &[(0, 2), (0, 2)],
        &[(0, 2), (1, 1)],
        &[(0, 2), (1, n - 1)],
        &[(0, 2), (1, MOST_SIZE)],
        &[(0, 3), (0, 1), (0, 1)],
        &[(0, n + 2), (0, 1), (0, 1)],
        &[(0, n + 2), (0, 2), (1, 1)],
        &[(0, n + 2), (0, 2), (1, n - 1)],
    ];
    let all = whole.iter().chain(&enclosing);
    all.map(|groups| among(words, groups)).collect()
}

/// The words of groups, one in another, that hold all the rest of a list of so many words.
fn around(count: usize, depth: usize) -> Vec<u16> {
    (1..=depth).map(|i| group_word(count - i)).collect()
}

/// Lists of so many words: empty groups after the words, before them and with them in a group; groups as deep as may be, of nothing and
/// of all else; each word in a group of its own; and one group around blocks, sizes of 0 among them.
pub fn full(random: &mut Random, words: &[u16], count: usize) -> Vec<Vec<u16>> {
    let more = count - words.len();
    let deep = written(&wrapped(vec![], DEEPEST)).repeat(more / DEEPEST);
    let each: Vec<u16> = words.iter().flat_map(|w| [group_word(1), *w]).collect();
    let mut longer = |count: usize| {
        let mut words = words.to_vec();
        lengthen(random, &mut words, count);
        words
    };
    let mut lists = vec![
        words.to_vec(),
        [vec![EMPTY; more], words.to_vec()].concat(),
        [around(count, 1), words.to_vec()].concat(),
        [deep, words.to_vec()].concat(),
        each,
        [around(count, DEEPEST), longer(count - DEEPEST)].concat(),
        [around(count, 1), longer(count - 1)].concat(),
    ];
    for list in &mut lists {
        list.resize(count, EMPTY);
    }
    lists
}

/// Lists of nothing but groups, so many of them: empty, as deep as may be, and in one group.
pub fn all_groups(count: usize) -> Vec<Vec<u16>> {
    let deep = written(&wrapped(vec![], DEEPEST)).repeat(count / DEEPEST);
    let mut lists = vec![vec![], deep, around(count, 1)];
    for list in &mut lists {
        list.resize(count, EMPTY);
    }
    lists
}

/// Lists of so many words that are bad by their last groups: one past the end, one too deep, and all that are left one in another.
pub fn full_and_bad(words: &[u16], count: usize) -> Vec<Vec<u16>> {
    let more = count - words.len();
    let past = among(words, &[(words.len(), 1)]);
    let too_deep = [words, &written(&wrapped(vec![], DEEPEST + 1))].concat();
    let far_too_deep = [words, &around(more, more)].concat();
    [past, too_deep, far_too_deep]
        .map(|list| [vec![EMPTY; count - list.len()], list].concat())
        .to_vec()
}

/// Lists that are bad by a block in groups so deep: kinds 5 and 6, with and without places and in a group's place; no triangle; a sum
/// that is off by one. The first word must not be of kind 4, and its size not of a triangle.
pub fn bad_blocks(words: &[u16], depth: usize) -> Vec<Vec<u16>> {
    let inside = |words: Vec<u16>| written(&wrapped(items(&words), depth));
    let with = |word: u16| inside([words, &[word]].concat());
    let first_is = |word: u16| inside([&[word], &words[1..]].concat());
    // The innermost group's word, of another kind.
    let group_is = |kind: u16| {
        let mut list = inside(words.to_vec());
        list[depth - 1] = kind << 13 | list[depth - 1] & 0x1fff;
        list
    };
    let size = words[0] & 0x1fff;
    vec![
        with(5 << 13),
        with(6 << 13),
        first_is(5 << 13 | size),
        first_is(6 << 13 | size),
        group_is(5),
        group_is(6),
        first_is(4 << 13 | size),
        first_is(words[0] - 1),
        first_is(words[0] + 1),
    ]
}

/// Lists that have m places, which is 3 or more, only where the sizes of groups are counted.
pub fn places_of_groups(m: usize) -> Vec<Vec<u16>> {
    vec![
        among(&nonnegative(m - 1, 1), &[(0, 1)]),
        among(&nonnegative(m - 1, 2), &[(1, 1)]),
        among(&nonnegative(m - 3, 1), &[(0, 2), (0, 1)]),
    ]
}

// Drawn ways.

/// The words in groups, at most so deep, empty ones among them.
pub fn in_groups(random: &mut Random, words: &[u16], deepest: usize) -> Vec<Item> {
    let mut list = Vec::new();
    let mut rest = words;
    while !rest.is_empty() || random.one_in(4) {
        if deepest > 0 && (rest.is_empty() || random.one_in(2)) {
            let count = random.within(0, rest.len());
            list.push(Item::Group(in_groups(random, &rest[..count], deepest - 1)));
            rest = &rest[count..];
        } else if let Some((first, after)) = rest.split_first() {
            list.push(Item::Plain(*first));
            rest = after;
        }
    }
    list
}

/// The words with groups around them, up to so many words.
pub fn grouped(random: &mut Random, words: &[u16], most: usize) -> Vec<u16> {
    loop {
        let list = written(&in_groups(random, words, DEEPEST));
        if (words.len() + 1..=most).contains(&list.len()) {
            return list;
        }
    }
}

/// One group's size made smaller or larger.
pub fn altered(random: &mut Random, words: &mut [u16]) {
    let groups = words.iter_mut().filter(|word| **word >> 13 == GROUP);
    let mut groups: Vec<&mut u16> = groups.collect();
    let at = random.below(groups.len());
    let size = i32::from(*groups[at] & 0x1fff) + random.pick(&[-2, -1, -1, 1, 1, 1, 2, 3, 50]);
    *groups[at] = group_word(size.max(0) as usize);
}

#[cfg(test)]
mod tests {
    use super::*;
    use crate::groups::plain;

    const WORDS: [u16; 5] = [0x2001, 0x0002, 0x4003, 0x8003, 0x6000];

    /// Whether each of the lists is read as the five words, or is bad.
    fn all_are(lists: &[Vec<u16>], taken: bool) {
        for list in lists {
            let expected = taken.then(|| WORDS.to_vec());
            assert_eq!(plain(list), expected, "{list:04x?}");
        }
    }

    #[test]
    fn each_way_is_read_as_meant() {
        for depth in 1..=8 {
            all_are(&deep(&WORDS, depth), true);
        }
        all_are(&deep(&WORDS, 9), false);
        all_are(&deep(&WORDS, 10), false);
        all_are(&empties(&WORDS), true);
        all_are(&fitting_ends(&WORDS), true);
        all_are(&overrun_ends(&WORDS), false);
        let beside = side_by_side(&WORDS);
        all_are(&[beside[0].clone(), beside[2].clone()], true);
        all_are(&[beside[1].clone()], false);
    }

    #[test]
    fn full_lists_are_read() {
        let mut random = Random::new(1);
        for count in [63, 128, 129] {
            let lists = full(&mut random, &WORDS, count);
            assert!(lists.iter().all(|list| list.len() == count));
            all_are(&lists[..5], true);
            assert!(lists[5..].iter().all(|list| plain(list).is_some()));
            all_are(&full_and_bad(&WORDS, count), false);
            for list in all_groups(count) {
                assert_eq!((list.len(), plain(&list)), (count, Some(vec![])));
            }
        }
    }

    #[test]
    fn drawn_groups_are_read_as_their_words() {
        let mut random = Random::new(1);
        let mut deepest = 0;
        for _ in 0..2000 {
            let list = grouped(&mut random, &WORDS, 60);
            assert_eq!(plain(&list).as_deref(), Some(&WORDS[..]));
            let in_a_row = list.split(|word| word >> 13 != GROUP).map(<[u16]>::len);
            deepest = deepest.max(in_a_row.max().unwrap_or(0));
        }
        assert!(deepest >= 4);
    }
}
