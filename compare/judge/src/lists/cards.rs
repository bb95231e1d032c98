//! The list of cards: card files, good and damaged, and what a program writes for each. Standard input
//! has the number of cards and then each with its length before it; standard output the answers, one
//! after another.

mod grouped;
mod large_norms;

use std::collections::BTreeMap;
use std::fs;
use std::io::{Error, Result};
use std::path::Path;

use crate::card::{read, told, Card, Told};
use crate::cone_list::Block;
use crate::draw::{numbers, Sort};
use crate::families::{lengthen, nonnegative, of_size, small, Family};
use crate::handed::{stored, Handed, ListRule, Vector};
use crate::lists::runs::same_over_plain;
use crate::original::Kind;
use crate::random::Random;

/// The cards of the folder cards/ that tell a story.
const STORIES: [&str; 3] = ["fit", "contradiction", "no-bound"];

/// Up to 32 words were taken before request (vii) of document 02, and no group before request (viii). Cards with more words, or with one of
/// kind 7, were drawn as refused ones, and still are drawn so.
const BEFORE: ListRule = ListRule::without_groups(32);

/// A run of more steps is not drawn by damaging a card.
const MOST_STEPS: u64 = 1000;

#[derive(Default)]
struct Cards {
    /// Each with its length before it.
    bytes: Vec<u8>,
    answers: String,
    counts: BTreeMap<&'static str, usize>,
    cards: usize,
    largest: usize,
    /// Each card with a finite eps_acc or eps_inf below zero, with −0 for it.
    raised: Vec<Card>,
    /// With a larger or smaller of −0 and +0.
    unlike_zeros: usize,
    /// With a norm of finite numbers whose plain sum is infinite.
    large_norms: usize,
}

/// What is counted, in the order in which it is printed.
const NAMES: [&str; 14] = [
    "Card 1",
    "Card 2",
    "Card 3",
    "Card 4",
    "Card 5",
    "Refused 1",
    "Refused 3",
    "Refused 4",
    "Refused 5",
    "Converged",
    "ExcessIter",
    "Unbounded",
    "Infeasible",
    "ConeFailure",
];

impl Cards {
    fn push(&mut self, bytes: &[u8]) {
        if let Ok(card) = read(bytes) {
            if card != card.raised() {
                self.raised.push(card.raised());
            }
        }
        let answer = told(bytes);
        let name = match &answer {
            Told::Fault(number) => NAMES[*number as usize - 1],
            Told::Refused(1) => "Refused 1",
            Told::Refused(3) => "Refused 3",
            Told::Refused(4) => "Refused 4",
            Told::Refused(5) => "Refused 5",
            Told::Refused(number) => panic!("a card refused by {number}"),
            Told::Ended(problem, answer) => {
                same_over_plain(problem, answer);
                self.unlike_zeros += usize::from(answer.unlike_zeros > 0);
                self.large_norms += usize::from(answer.large_norms > 0);
                answer.ending.name()
            }
        };
        *self.counts.entry(name).or_default() += 1;
        self.cards += 1;
        self.largest = self.largest.max(bytes.len());
        self.bytes.extend((bytes.len() as u64).to_be_bytes());
        self.bytes.extend(bytes);
        self.answers += &answer.text();
    }

    fn good(&mut self, p: &Handed) {
        let bytes = Card::of(p).bytes();
        assert_eq!(read(&bytes), Ok(Card::of(p)));
        self.push(&bytes);
    }

    fn all_good(&mut self, problems: Vec<Handed>) {
        for p in &problems {
            self.good(p);
        }
    }

    fn input(&self) -> Vec<u8> {
        let mut all = (self.cards as u64).to_be_bytes().to_vec();
        all.extend(&self.bytes);
        all
    }
}

// Good cards.

/// The default problem of no numbers.
pub fn empty() -> Card {
    Card {
        packed: false,
        n: 0,
        m: 0,
        words: vec![],
        max_iter: 1000,
        sweep_limit: 64,
        eps_acc: 1e-6f64.to_bits(),
        eps_inf: 1e-6f64.to_bits(),
        eps_zero: 1e-12f64.to_bits(),
        c: vec![],
        a: vec![],
        b: vec![],
    }
}

/// A drawn problem of n and m up to this size.
fn of_most(random: &mut Random, family: Family, most: usize) -> Handed {
    loop {
        let p = small(random, family);
        if p.n <= most && p.m <= most {
            return p;
        }
    }
}

/// Sizes of 32, as many words, a semidefinite block of order 7, and the largest max_iter.
fn at_the_limits(all: &mut Cards, random: &mut Random) {
    for (packed, m, n) in [
        (false, 32, 32),
        (true, 32, 32),
        (false, 32, 1),
        (false, 2, 32),
        (false, 32, 0),
        (false, 0, 32),
        (false, 31, 32),
        (true, 31, 31),
    ] {
        for family in [Family::Drawn, Family::Solvable] {
            let mut p = of_size(random, family, packed, m, n);
            p.max_iter = p.max_iter.min(30);
            all.good(&p);
        }
    }
    for sweep_limit in [2, 64] {
        let mut p = of_size(random, Family::Solvable, false, 32, 2);
        p.words = [(Kind::Semidefinite, 28), (Kind::Nonnegative, 4)]
            .map(|(kind, size)| Block { kind, size }.word())
            .to_vec();
        (p.max_iter, p.sweep_limit) = (5, sweep_limit);
        all.good(&p);
    }
    for _ in 0..20 {
        let mut p = of_most(random, Family::Drawn, 8);
        let empty = random.pick(&[0x0000, 0x2000, 0x4000, 0x6000, 0x8000]);
        p.words.resize(32, empty);
        all.good(&p);
    }
    let mut met = 0;
    while met < 10 {
        let mut p = of_most(random, Family::Solvable, 8);
        (p.eps_acc, p.eps_inf) = (1e300, 1e300);
        p.max_iter = 100;
        if p.problem().solve_before().k < 100 {
            p.max_iter = 1_000_000;
            all.good(&p);
            met += 1;
        }
    }
}

/// Endings that the families seldom come to.
fn rare(all: &mut Cards, random: &mut Random) {
    for (family, wanted) in [
        (Family::Contradictory, "Infeasible"),
        (Family::Falling, "Unbounded"),
        (Family::FewSweeps, "ConeFailure"),
        (Family::Solvable, "Converged"),
    ] {
        let mut met = 0;
        while met < 40 {
            let p = of_most(random, family, 8);
            if p.raised().problem().solve_before().ending.name() == wanted {
                all.good(&p);
                met += 1;
            }
        }
    }
}

// Cards that are read and refused.

fn not_finite(random: &mut Random) -> u64 {
    random.pick(&[
        0x7ff0000000000000,
        0xfff0000000000000,
        0x7ff8000000000000,
        0xfff8000000000000,
        0x7ff0000000000001,
        0x7fffffffffffffff,
    ])
}

fn bad_param(random: &mut Random, k: &mut Card) {
    let below = [-1.0, -1e-12, -5e-324, f64::MIN].map(f64::to_bits);
    match random.below(6) {
        0 => k.eps_acc = not_finite(random),
        1 => k.eps_inf = not_finite(random),
        2 => k.eps_zero = not_finite(random),
        3 => k.eps_zero = random.pick(&below),
        4 => k.max_iter = random.pick(&[1_000_001, 1_000_002, (1 << 20) - 1]),
        _ => k.sweep_limit = random.pick(&[0, 65, 66, 127]),
    }
}

fn many_words(random: &mut Random, k: &mut Card) {
    let count = random.pick(&[33, 33, 34, 48, 62, 63]);
    let more = random.pick(&[0x0000, 0x4000, 0x8000, 0xffff]);
    k.words.resize(count, more);
}

fn packed_not_square(random: &mut Random, k: &mut Card) {
    k.packed = true;
    while k.n == k.m {
        k.m = random.within(0, 5);
        k.b = vec![1.0f64.to_bits(); k.m];
    }
    k.a = vec![2.0f64.to_bits(); stored(true, k.m, k.n)];
}

fn bad_cone(random: &mut Random, k: &mut Card) {
    let at = random.within(0, k.words.len());
    let word = match random.below(4) {
        0 => (random.within(5, 7) as u16) << 13,
        1 => 4 << 13 | random.pick(&[2, 4, 5, 7, 8, 9, 11, 8190]),
        2 => (random.below(4) as u16) << 13 | 1,
        _ => random.pick(&[0x1fff, 0x3fff, 0x9fff]),
    };
    k.words.insert(at, word);
}

fn one_not_finite(random: &mut Random, k: &mut Card) {
    let x = not_finite(random);
    let mut all: Vec<&mut u64> = [&mut k.c, &mut k.a, &mut k.b]
        .into_iter()
        .flatten()
        .collect();
    if !all.is_empty() {
        let at = random.below(all.len());
        *all[at] = x;
    }
}

const REFUSED: [fn(&mut Random, &mut Card); 5] = [
    bad_param,
    many_words,
    packed_not_square,
    bad_cone,
    one_not_finite,
];

/// A card with a fault of each of these rows of document 01's table, that the first of them answers where
/// neither eps_acc nor eps_inf is below zero. For row 2, which answers no card, it has 33 words or more.
fn with_faults(random: &mut Random, rows: &[usize]) -> Card {
    loop {
        let mut card = Card::of(&of_most(random, Family::Drawn, 5));
        // The shape first: it makes A anew. The longest list last: it is of any words.
        for row in [3, 1, 4, 5, 2] {
            if rows.contains(&row) {
                REFUSED[row - 1](random, &mut card);
            }
        }
        let first = card.raised().handed().refusal_by(BEFORE);
        if first == rows.first().map(|row| *row as u64) {
            return card;
        }
    }
}

fn refusals(all: &mut Cards, random: &mut Random) {
    for first in 1..=5 {
        for _ in 0..24 {
            all.push(&with_faults(random, &[first]).bytes());
        }
        for second in first + 1..=5 {
            for _ in 0..6 {
                all.push(&with_faults(random, &[first, second]).bytes());
            }
            for third in second + 1..=5 {
                all.push(&with_faults(random, &[first, second, third]).bytes());
            }
        }
    }
}

// Damaged cards.

/// A packed card of n = 2 and one of m = 3 with words of all kinds.
fn plain_cards(random: &mut Random) -> Vec<Card> {
    let packed = of_size(random, Family::Solvable, true, 2, 2);
    let mut dense = of_size(random, Family::Solvable, false, 3, 1);
    dense.words = vec![0x0001, 0x2001, 0x4001, 0x6000, 0x8000];
    [packed, dense]
        .into_iter()
        .map(|mut p| {
            p.max_iter = 20;
            Card::of(&p)
        })
        .chain([empty()])
        .collect()
}

/// Every front part of a card.
fn cut(all: &mut Cards, bytes: &[u8]) {
    for length in 0..bytes.len() {
        all.push(&bytes[..length]);
    }
}

/// Every wrong edition; n and m from 33 to 63; all of these at once; each cut where it tells.
fn wrong_heads(all: &mut Cards, card: &Card) {
    for edition in (0..16).filter(|edition| *edition != 1) {
        all.push(&card.bytes_with(edition, card.n, card.m));
        let other = card.bytes_with(edition, 33, 63);
        all.push(&other);
        all.push(&other[..1]);
    }
    for size in 33..64 {
        for other in [
            card.bytes_with(1, size, card.m),
            card.bytes_with(1, card.n, size),
            card.bytes_with(1, size, 96 - size),
        ] {
            all.push(&other);
            all.push(&other[..1]);
            all.push(&other[..2]);
            all.push(&other[..3]);
        }
    }
    // 32 is not too large, but its numbers are missing.
    for (n, m) in [(32, card.m), (card.n, 32), (32, 32)] {
        all.push(&card.bytes_with(1, n, m));
    }
}

/// Every other padding, and bytes left over, alone and after a wrong head or padding.
fn wrong_ends(all: &mut Cards, random: &mut Random, card: &Card) {
    let good = card.bytes();
    let last = good.len() - 1;
    assert_eq!(card.padding(), 6);
    for padding in 1..64 {
        let mut padded = good.clone();
        padded[last] |= padding;
        all.push(&padded);
        if padding % 9 == 0 {
            // the last byte is missing, or there is one more
            all.push(&padded[..last]);
            padded.push(random.word() as u8);
            all.push(&padded);
        }
    }
    for more in [1, 1, 2, 3, 7, 8, 64] {
        for mut longer in [
            good.clone(),
            card.bytes_with(2, card.n, card.m),
            card.bytes_with(1, 40, card.m),
            card.bytes_with(1, card.n, 40),
        ] {
            longer.extend((0..more).map(|_| random.pick(&[0, 0, 1, 128, 255])));
            all.push(&longer);
        }
    }
    // As long as a card may be, and one byte longer.
    for length in [8861, 8862] {
        let mut longer = good.clone();
        longer.resize(length, 0);
        all.push(&longer);
    }
}

/// The longest card that there is, and one byte less and more.
fn longest(all: &mut Cards, random: &mut Random) {
    let mut p = of_size(random, Family::Drawn, false, 32, 32);
    p.words.resize(63, 0);
    p.a = Vector::whole(numbers(random, Sort::Whole, 32 * 32));
    let mut bytes = Card::of(&p).bytes();
    assert_eq!(bytes.len(), 8861);
    all.push(&bytes);
    all.push(&bytes[..8860]);
    bytes.push(0);
    all.push(&bytes);
}

/// Whether the original was to answer soon, with −0 for an eps_acc or eps_inf below zero: a card with more words than were taken before was
/// refused, and is taken whatever its max_iter.
fn is_short(bytes: &[u8]) -> bool {
    match read(bytes) {
        Ok(card) => {
            let refusal = card.raised().handed().refusal_by(BEFORE);
            refusal.is_some() || card.max_iter <= MOST_STEPS
        }
        Err(_) => true,
    }
}

/// One bit of a card turned, or a byte of its head drawn anew.
fn turned(all: &mut Cards, random: &mut Random) {
    let mut met = 0;
    while met < 300 {
        let mut p = of_most(random, Family::Drawn, 6);
        p.max_iter = p.max_iter.min(30);
        let mut bytes = Card::of(&p).bytes();
        if random.one_in(2) {
            let at = random.below(8 * bytes.len());
            bytes[at / 8] ^= 1 << (at % 8);
        } else {
            let at = random.below(8.min(bytes.len()));
            bytes[at] = random.word() as u8;
        }
        if is_short(&bytes) {
            all.push(&bytes);
            met += 1;
        }
    }
}

/// Bytes of any kind, of edition 1 mostly.
fn any_bytes(all: &mut Cards, random: &mut Random) {
    let mut met = 0;
    while met < 100 {
        let length = random.within(0, 120);
        let mut bytes: Vec<u8> = (0..length).map(|_| random.word() as u8).collect();
        if let Some(first) = bytes.first_mut().filter(|_| !random.one_in(8)) {
            *first = 0x10 | *first & 0x0a;
        }
        if is_short(&bytes) {
            all.push(&bytes);
            met += 1;
        }
    }
}

/// Tolerances below zero, of a card that is taken but for them, and with a fault of each later row.
fn below_zero(all: &mut Cards, random: &mut Random) {
    for eps in [-1.0, -1e-12, -f64::from_bits(1), f64::MIN] {
        for (eps_acc, eps_inf) in [(eps, 1e-6), (1e-6, eps), (eps, eps)] {
            for rows in [&[][..], &[2], &[3], &[4], &[5]] {
                let mut card = with_faults(random, rows);
                (card.eps_acc, card.eps_inf) = (eps_acc.to_bits(), eps_inf.to_bits());
                all.push(&card.bytes());
            }
        }
    }
}

/// 33 to 63 words that sum to m: blocks of size 0 anywhere among the others, or among 32 blocks of one place.
fn longer_lists(all: &mut Cards, random: &mut Random) {
    for count in [33, 34, 48, 62, 63] {
        for family in [Family::Drawn, Family::Solvable, Family::FewSweeps] {
            for most in [8, 8, 8, 32] {
                let mut p = of_most(random, family, most).raised();
                p.max_iter = p.max_iter.min(100);
                lengthen(random, &mut p.words, count);
                all.good(&p);
            }
        }
        let mut p = of_size(random, Family::Contradictory, false, 32, 3).raised();
        p.words = nonnegative(32, 32);
        lengthen(random, &mut p.words, count);
        all.good(&p);
    }
}

fn drawn(seed: u64, all: &mut Cards) {
    let mut random = Random::new(seed);
    all.push(&empty().bytes());
    for (family, times) in [
        (Family::Drawn, 200),
        (Family::Solvable, 120),
        (Family::Contradictory, 60),
        (Family::Falling, 60),
        (Family::FewSweeps, 60),
        (Family::LargeEpsZero, 60),
    ] {
        for _ in 0..times {
            let most = if random.one_in(8) { 32 } else { 8 };
            let p = of_most(&mut random, family, most);
            all.good(&p);
        }
    }
    rare(all, &mut random);
    at_the_limits(all, &mut random);
    refusals(all, &mut random);
    let plain = plain_cards(&mut random);
    for card in &plain {
        cut(all, &card.bytes());
        wrong_ends(all, &mut random, card);
    }
    wrong_heads(all, &plain[0]);
    wrong_heads(all, &plain[1]);
    longest(all, &mut random);
    turned(all, &mut random);
    any_bytes(all, &mut random);
    below_zero(all, &mut random);
    for card in std::mem::take(&mut all.raised) {
        all.push(&card.bytes());
    }
    longer_lists(all, &mut random);
    grouped::all(all, &mut random);
    large_norms::all(all, &mut random);
}

/// Writes standard input and output of the program in `folder`; the cards that tell a story are in
/// `stories`.
pub fn make(seed: u64, folder: &Path, stories: &Path) -> Result<()> {
    let mut all = Cards::default();
    for name in STORIES {
        let file = stories.join(name).with_extension("card");
        let bytes = fs::read(&file).map_err(|e| Error::other(format!("{file:?}: {e}")))?;
        all.push(&bytes);
    }
    drawn(seed, &mut all);
    let input = all.input();
    fs::create_dir_all(folder)?;
    fs::write(folder.join("stdin"), &input)?;
    fs::write(folder.join("stdout"), &all.answers)?;
    println!(
        "cards: {} cards, {} bytes, the largest {}; answers: {} bytes",
        all.cards,
        input.len(),
        all.largest,
        all.answers.len()
    );
    for name in NAMES {
        println!("  {:6} {name}", all.counts.get(name).unwrap_or(&0));
    }
    println!("{} with a larger or smaller of -0 and +0", all.unlike_zeros);
    println!(
        "{} with a norm whose plain sum is infinite, of finite numbers",
        all.large_norms
    );
    Ok(())
}

#[cfg(test)]
mod tests {
    use super::*;

    /// Each card names its own end, and no answer is rare.
    #[test]
    fn cards_follow_one_another() {
        let mut all = Cards::default();
        drawn(1, &mut all);
        let (mut at, mut met) = (0, 0);
        while at < all.bytes.len() {
            let length = u64::from_be_bytes(all.bytes[at..at + 8].try_into().unwrap());
            assert!(length <= 8862);
            at += 8 + length as usize;
            met += 1;
        }
        assert_eq!((at, met), (all.bytes.len(), all.cards));
        for name in NAMES {
            assert!(all.counts[name] >= 20, "{name}");
        }
        let mut again = Cards::default();
        drawn(1, &mut again);
        assert_eq!(all.bytes, again.bytes);
        assert!(all.bytes.len() + all.answers.len() < 2_000_000);
    }
}
