//! Readers of a cone list that have request (viii) of document 02 otherwise: each has another answer than the stored lists, somewhere.
//! Whatever they make of groups, the plain words come in order, so they differ by what they refuse or by a block's number.

mod stored;

use judge::groups::GROUP;
use judge::handed::{Handed, ListRule, LIST_RULE, MOST_WORDS};

/// The plain words of a list, if it is not bad.
type Reader = fn(&[u16]) -> Option<Vec<u16>>;

fn is_group(word: u16) -> bool {
    word >> 13 == GROUP
}

fn size(word: u16) -> usize {
    usize::from(word & 0x1fff)
}

/// All plain words, if the reader came to the end.
fn plain_if(fits: bool, words: &[u16]) -> Option<Vec<u16>> {
    let plain = words.iter().copied().filter(|word| !is_group(*word));
    fits.then(|| plain.collect())
}

// Readers by the end of each group. They say where a list ends, if it does.

/// When a group that ends beyond its list is refused.
#[derive(Clone, Copy, PartialEq)]
enum Past {
    Always,
    /// Only if it ends beyond the whole list.
    WholeList,
    /// Never: it ends where its list does.
    Never,
}

fn by_ends(words: &[u16], from: usize, end: usize, deepest: usize, past: Past) -> Option<usize> {
    let mut at = from;
    while at < end {
        let word = words[at];
        at += 1;
        if is_group(word) {
            let most = if past == Past::WholeList {
                words.len()
            } else {
                end
            };
            let asked = at + size(word);
            if deepest == 0 || asked > most && past != Past::Never {
                return None;
            }
            at = by_ends(words, at, asked.min(most), deepest - 1, past)?;
        }
    }
    Some(at)
}

fn read_by_ends(words: &[u16], deepest: usize, past: Past) -> Option<Vec<u16>> {
    let end = by_ends(words, 0, words.len(), deepest, past);
    plain_if(end.is_some(), words)
}

fn as_the_rule(words: &[u16]) -> Option<Vec<u16>> {
    read_by_ends(words, 8, Past::Always)
}

fn nine_deep(words: &[u16]) -> Option<Vec<u16>> {
    read_by_ends(words, 9, Past::Always)
}

fn seven_deep(words: &[u16]) -> Option<Vec<u16>> {
    read_by_ends(words, 7, Past::Always)
}

fn past_the_whole_list(words: &[u16]) -> Option<Vec<u16>> {
    read_by_ends(words, 8, Past::WholeList)
}

fn clipped(words: &[u16]) -> Option<Vec<u16>> {
    read_by_ends(words, 8, Past::Never)
}

// Readers that count something else than words.

/// Where so many plain blocks end.
fn by_blocks(words: &[u16], from: usize, blocks: usize, depth: usize) -> Option<usize> {
    let (mut at, mut met) = (from, 0);
    while met < blocks {
        let word = *words.get(at)?;
        at += 1;
        if is_group(word) {
            at = by_blocks(words, at, size(word), depth + 1)?;
            met += size(word);
        } else {
            met += 1;
        }
    }
    (met == blocks && depth <= 8).then_some(at)
}

fn blocks_counted(words: &[u16]) -> Option<Vec<u16>> {
    let mut at = 0;
    while at < words.len() {
        at = match words[at] {
            word if is_group(word) => by_blocks(words, at + 1, size(word), 1)?,
            _ => at + 1,
        };
    }
    plain_if(true, words)
}

/// Where an item ends.
fn by_items(words: &[u16], from: usize, depth: usize) -> Option<usize> {
    let word = *words.get(from)?;
    let mut at = from + 1;
    if is_group(word) {
        if depth == 8 {
            return None;
        }
        for _ in 0..size(word) {
            at = by_items(words, at, depth + 1)?;
        }
    }
    Some(at)
}

fn own_level_counted(words: &[u16]) -> Option<Vec<u16>> {
    let mut at = 0;
    while at < words.len() {
        at = by_items(words, at, 0)?;
    }
    plain_if(true, words)
}

// Readers that refuse more.

fn no_empty_group(words: &[u16]) -> Option<Vec<u16>> {
    as_the_rule(words).filter(|_| !words.iter().any(|word| is_group(*word) && size(*word) == 0))
}

fn eight_groups_in_all(words: &[u16]) -> Option<Vec<u16>> {
    as_the_rule(words).filter(|plain| words.len() - plain.len() <= 8)
}

/// The readers that refuse other lists.
const READERS: [(&str, Reader); 8] = [
    ("a size counts plain blocks", blocks_counted),
    (
        "a size counts the words of its own level",
        own_level_counted,
    ),
    ("nine deep", nine_deep),
    ("seven deep", seven_deep),
    ("past the whole list alone is refused", past_the_whole_list),
    ("clipped", clipped),
    ("an empty group is refused", no_empty_group),
    ("eight groups in all", eight_groups_in_all),
];

fn with(plain: Reader) -> ListRule {
    ListRule { plain, ..LIST_RULE }
}

/// Group words don't count toward the limit.
fn plain_words_limited(p: &Handed) -> ListRule {
    let groups = p.words.iter().filter(|word| is_group(**word)).count();
    ListRule {
        most_words: MOST_WORDS + groups,
        ..LIST_RULE
    }
}

/// The problem and the number of its refusal, if any, of each run and of each card.
fn answered() -> [Vec<(Handed, Option<u64>)>; 2] {
    let runs = stored::runs();
    let runs = runs.into_iter().map(|run| {
        let refusal = Some(run.number).filter(|number| *number <= 6);
        (run.handed, refusal)
    });
    let cards = stored::cards();
    let cards = cards.into_iter().map(|(card, answer)| {
        let refusal = answer.strip_prefix("Refused ");
        let number = refusal.map(|number| number.trim().parse().unwrap());
        (card.handed(), number)
    });
    [runs.collect(), cards.collect()]
}

#[test]
fn the_rule_has_every_stored_refusal() {
    for (p, refusal) in answered().iter().flatten() {
        assert_eq!(p.refusal(), *refusal, "{:04x?}", p.words);
        assert_eq!(p.refusal_by(with(as_the_rule)), *refusal);
    }
}

#[test]
fn every_other_reader_is_told() {
    let [runs, cards] = answered();
    for (name, plain) in READERS {
        let told = |list: &[(Handed, Option<u64>)]| {
            let others = list
                .iter()
                .filter(|(p, no)| p.refusal_by(with(plain)) != *no);
            others.count()
        };
        let (of_runs, of_cards) = (told(&runs), told(&cards));
        println!("{name}: {of_runs} runs, {of_cards} cards");
        assert!(of_runs >= 10 && of_cards >= 3, "{name}");
    }
    let others = runs
        .iter()
        .filter(|(p, no)| p.refusal_by(plain_words_limited(p)) != *no);
    let others = others.count();
    println!("group words don't count toward the limit: {others} runs");
    assert!(others >= 10);
}

/// A failed block's place among all words is not its number wherever a group stands before it.
#[test]
fn numbers_that_count_groups_are_told() {
    let failed = stored::runs().into_iter().filter(|run| run.number == 12);
    let others = failed.filter(|run| {
        let words = run.handed.words.iter().enumerate();
        let mut blocks = words.filter(|(_, word)| !is_group(**word));
        let (place, _) = blocks.nth(run.block as usize).expect("a block");
        place as u64 != run.block
    });
    let others = others.count();
    println!("groups counted in a block's number: {others} runs");
    assert!(others >= 30);
}

/// What the readers make of lists worked by hand.
#[test]
fn readers_by_hand() {
    let inner_past = [0xe001, 0xe001, 0x2001];
    assert!(as_the_rule(&inner_past).is_none());
    assert!(past_the_whole_list(&inner_past).is_some());
    assert!(blocks_counted(&inner_past).is_some());
    assert!(own_level_counted(&inner_past).is_some());
    let past_all = [0xe002, 0x2001];
    assert!(past_the_whole_list(&past_all).is_none());
    assert!(clipped(&past_all).is_some());
    // A group and its block are two words, one block and one item.
    let nested = [0xe002, 0xe001, 0x2001];
    assert!(as_the_rule(&nested).is_some());
    assert!(blocks_counted(&nested).is_none());
    assert!(own_level_counted(&nested).is_none());
    let two_blocks = [0xe002, 0xe002, 0x2001, 0x2001];
    assert!(blocks_counted(&two_blocks).is_some());
    assert!(own_level_counted(&two_blocks).is_none());
}

/// One group in another: by words each holds all that follows, by blocks and by items each holds one.
#[test]
fn how_deep_the_readers_go() {
    let by_words = |groups: u16| {
        let around = (1..=groups).rev().map(|words| 0xe000 + words);
        around.chain([0x2001]).collect::<Vec<u16>>()
    };
    let by_one = |groups: usize| [vec![0xe001; groups], vec![0x2001]].concat();
    assert!(as_the_rule(&by_words(8)).is_some() && as_the_rule(&by_words(9)).is_none());
    assert!(nine_deep(&by_words(9)).is_some() && nine_deep(&by_words(10)).is_none());
    assert!(seven_deep(&by_words(7)).is_some() && seven_deep(&by_words(8)).is_none());
    assert!(blocks_counted(&by_one(8)).is_some() && blocks_counted(&by_one(9)).is_none());
    assert!(own_level_counted(&by_one(8)).is_some() && own_level_counted(&by_one(9)).is_none());
}
