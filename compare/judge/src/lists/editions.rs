//! The list of editions (request (xi) of document 02): a record as in the list of runs, with the edition of sums before the problem. The layout is in
//! compare/README.md.

mod draws;

use std::path::Path;

use super::runs::{asked, judged, Judged, DIFFERENCES, NAMES};
use crate::handed::Handed;
use crate::random::Random;
use crate::words::write_list;

/// Added to the listed differences that a record meets: edition one has another answer.
const UNLIKE_ONE: u64 = 64;

/// What is counted of a record.
struct Entry {
    number: u64,
    tag: u64,
    edition: u32,
    packed: bool,
    most: usize,
    k: u64,
    words: usize,
    /// The first word of the answer that is another in edition one.
    unlike: Option<usize>,
}

/// Words of an answer by what they are: each up to and without its number.
const PARTS: [(usize, &str); 5] = [
    (1, "another ending"),
    (2, "the same at another step"),
    (3, "the same after other rotations"),
    (6, "the same with other criteria"),
    (usize::MAX, "the same but for places of the buffers"),
];

impl Entry {
    fn has(&self, difference: u64) -> bool {
        self.tag & difference > 0
    }

    fn is_run(&self) -> bool {
        self.number > 6
    }
}

#[derive(Default)]
struct Records {
    words: Vec<u64>,
    entries: Vec<Entry>,
}

/// The problem in this edition.
fn in_edition(p: &Handed, edition: u32) -> Handed {
    Handed {
        edition,
        ..p.clone()
    }
}

impl Records {
    /// What comes of a problem in its edition.
    fn take(&mut self, p: &Handed) {
        let Judged {
            mut tag,
            told,
            answer,
        } = judged(p);
        let mut unlike = None;
        if answer.is_some() {
            let one = judged(&in_edition(p, 1)).told;
            unlike = one.iter().zip(&told).position(|(one, two)| one != two);
            assert_eq!(unlike.is_some(), one != told);
        }
        if unlike.is_some() {
            tag += UNLIKE_ONE;
        }
        let mut record = vec![u64::from(p.edition)];
        record.extend(asked(p));
        record.extend(&told);
        self.words.extend([tag, record.len() as u64]);
        self.entries.push(Entry {
            number: told[0],
            tag,
            edition: p.edition,
            packed: p.packed,
            most: p.m.max(p.n),
            k: told[1],
            words: record.len(),
            unlike,
        });
        self.words.extend(record);
    }

    /// What comes of a problem in edition two.
    fn take_two(&mut self, p: &Handed) {
        self.take(&in_edition(p, 2));
    }

    fn count(&self, is: impl Fn(&Entry) -> bool) -> usize {
        self.entries.iter().filter(|entry| is(entry)).count()
    }

    fn print(&self, name: &str, is: impl Fn(&Entry) -> bool) {
        println!("  {:6} {name}", self.count(is));
    }
}

fn records(seed: u64) -> Records {
    let mut all = Records::default();
    draws::all(&mut all, &mut Random::new(seed));
    all
}

pub fn make(seed: u64, path: &Path) -> std::io::Result<()> {
    let all = records(seed);
    let total = all.entries.len();
    write_list(path, total, &all.words)?;
    println!(
        "editions: {total} records, {} bytes",
        8 + 8 * all.words.len()
    );
    for (number, name) in NAMES {
        all.print(&format!("{number:2} {name}"), |e| e.number == number);
    }
    println!("of these, meeting a listed difference:");
    for (difference, name) in DIFFERENCES {
        all.print(name, |e| e.has(difference));
    }
    println!("by edition:");
    all.print("one", |e| e.edition == 1);
    all.print("two", |e| e.edition == 2);
    all.print("another", |e| !(1..=2).contains(&e.edition));
    println!("of the runs in edition two:");
    let two = |e: &Entry| e.is_run() && e.edition == 2;
    all.print("all", two);
    all.print("another answer than edition one's", |e| e.has(UNLIKE_ONE));
    for (number, name) in &NAMES[6..] {
        let (met, unlike) = (
            all.count(|e| two(e) && e.number == *number),
            all.count(|e| e.has(UNLIKE_ONE) && e.number == *number),
        );
        println!("         {name}: {unlike} of {met}");
    }
    println!("beside edition one:");
    let mut from = 0;
    for (to, name) in PARTS {
        all.print(name, |e| {
            e.unlike.is_some_and(|at| (from..to).contains(&at))
        });
        from = to;
    }
    println!("by size:");
    all.print("packed", |e| two(e) && e.packed);
    all.print("a side of 64 or more", |e| two(e) && e.most >= 64);
    all.print("a side of 200 or more", |e| two(e) && e.most >= 200);
    println!(
        "{} steps; at most {} words to a record",
        all.entries.iter().map(|e| e.k).sum::<u64>(),
        all.entries.iter().map(|e| e.words).max().unwrap_or(0),
    );
    Ok(())
}

#[cfg(test)]
mod tests {
    use super::*;
    use crate::handed::BAD_PARAM;

    /// Each record names its own end, a seed draws the same list again, nothing that is told apart is rare, and most runs in edition two
    /// have another answer than edition one's.
    #[test]
    fn records_follow_one_another() {
        let all = records(1);
        let mut at = 0;
        for entry in &all.entries {
            assert_eq!(all.words[at], entry.tag);
            assert_eq!(all.words[at + 2], u64::from(entry.edition));
            at += 2 + all.words[at + 1] as usize;
            // What crates/replay_editions has room for.
            assert!(entry.words <= 8192);
        }
        assert_eq!(at, all.words.len());
        assert_eq!(all.words, records(1).words);
        assert!(all.words.len() * 8 <= 1_500_000);
        for (number, name) in NAMES {
            assert!(all.count(|e| e.number == number) >= 10, "{name}");
            let unlike = all.count(|e| e.number == number && e.has(UNLIKE_ONE));
            assert!(unlike >= 20 || number <= 6, "{name}");
        }
        assert!(all.count(|e| e.edition == 1) >= 50);
        let runs = all.count(|e| e.is_run() && e.edition == 2);
        let unlike = all.count(|e| e.has(UNLIKE_ONE));
        assert!(2 * unlike > runs);
        let large = |e: &Entry| e.has(UNLIKE_ONE) && e.has(32);
        assert!(all.count(large) >= 20);
    }

    /// Any other edition is refused by 1, whatever else is wrong, and edition one is never unlike itself.
    #[test]
    fn by_the_edition() {
        let all = records(1);
        for e in &all.entries {
            match e.edition {
                1 => assert!(!e.has(UNLIKE_ONE)),
                2 => {}
                _ => assert_eq!((e.number, e.tag), (BAD_PARAM, 0)),
            }
        }
    }
}
