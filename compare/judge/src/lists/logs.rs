//! The list of progress records (request (x) of document 02): a record as in the list of runs, then the period, the log that is lent, and
//! what is written there. The layout is in compare/README.md.

mod draws;

use std::path::Path;

use super::runs::{asked, judged, told, Judged, DIFFERENCES, NAMES};
use crate::handed::Handed;
use crate::log_rows::Log;
use crate::random::Random;
use crate::words::{words, write_list};

/// What is counted of a record.
struct Entry {
    number: u64,
    tag: u64,
    k: u64,
    log: Log,
    written: usize,
    dropped: u64,
    /// Rows of convergence criteria, and of the two others.
    kinds: [usize; 2],
    /// Rows with a NaN, with an infinite number among tau and the convergence criteria, and with a tau of +0.
    special: [usize; 3],
}

#[derive(Default)]
struct Records {
    words: Vec<u64>,
    most_words: usize,
    entries: Vec<Entry>,
}

impl Records {
    /// What comes of a problem with this log. Without the log it must come to the same.
    fn take(&mut self, p: &Handed, log: Log) {
        let Judged {
            tag,
            told: answer,
            answer: run,
        } = judged(p);
        let (mut rows, mut dropped, mut k) = (vec![], 0, 0);
        if run.is_some() {
            let logged = p.problem().solve_logged(&log);
            assert_eq!(told(p, &logged.answer), answer);
            (rows, dropped, k) = (logged.rows, logged.dropped, logged.answer.k);
        }
        let mut record = asked(p);
        record.extend(&answer);
        record.extend([u64::from(log.period), log.places as u64, log.fill.to_bits()]);
        record.extend([rows.len() as u64, dropped]);
        record.extend(words(rows.as_flattened()));
        self.words.extend([tag, record.len() as u64]);
        self.most_words = self.most_words.max(record.len());
        self.words.extend(record);

        let count = |is: &dyn Fn(&[f64; 4]) -> bool| rows.iter().filter(|row| is(row)).count();
        let eps_zero = p.eps_zero;
        let convergence = count(&|row| row[0] > eps_zero);
        self.entries.push(Entry {
            number: answer[0],
            tag,
            k,
            log,
            written: rows.len(),
            dropped,
            kinds: [convergence, rows.len() - convergence],
            special: [
                count(&|row| row.iter().any(|x| x.is_nan())),
                count(&|row| row[0] > eps_zero && row.iter().any(|x| x.is_infinite())),
                count(&|row| row[0] == 0.0),
            ],
        });
    }

    fn count(&self, is: impl Fn(&Entry) -> bool) -> usize {
        self.entries.iter().filter(|entry| is(entry)).count()
    }

    fn print(&self, name: &str, is: impl Fn(&Entry) -> bool) {
        println!("  {:6} {name}", self.count(is));
    }
}

/// The periods that are told apart, by name; the first that fits.
fn period_name(entry: &Entry) -> &'static str {
    let period = u64::from(entry.log.period);
    match period {
        0 => "0",
        1 => "1",
        2 => "2",
        3 => "3",
        5 => "5",
        7 => "7",
        0x80000000 => "2^31",
        0xffffffff => "2^32 - 1",
        _ if period + 1 == entry.k => "k - 1",
        _ if period == entry.k => "k",
        _ if period == entry.k + 1 => "k + 1",
        _ => "another",
    }
}

const PERIODS: [&str; 12] = [
    "0", "1", "2", "3", "5", "7", "2^31", "2^32 - 1", "k - 1", "k", "k + 1", "another",
];

fn length_name(entry: &Entry) -> &'static str {
    let places = entry.log.places;
    let rows = entry.written + entry.dropped as usize;
    if rows == 0 {
        return "of any length, and no row is due";
    }
    match places {
        0 => "none",
        1..=3 => "1 to 3, no row fits",
        _ if entry.dropped > 0 && places % 4 == 0 => "whole rows, but not all",
        _ if entry.dropped > 0 => "whole rows, but not all, and 1 to 3 places more",
        _ if places == 4 * rows => "all rows, and no more",
        _ if places < 4 * rows + 4 => "all rows, and 1 to 3 places more",
        _ => "all rows, and more",
    }
}

const LENGTHS: [&str; 8] = [
    "of any length, and no row is due",
    "none",
    "1 to 3, no row fits",
    "whole rows, but not all",
    "whole rows, but not all, and 1 to 3 places more",
    "all rows, and no more",
    "all rows, and 1 to 3 places more",
    "all rows, and more",
];

fn records(seed: u64) -> Records {
    let mut all = Records::default();
    draws::all(&mut all, &mut Random::new(seed));
    all
}

pub fn make(seed: u64, path: &Path) -> std::io::Result<()> {
    let all = records(seed);
    let total = all.entries.len();
    write_list(path, total, &all.words)?;
    println!("logs: {total} records, {} bytes", 8 + 8 * all.words.len());
    for (number, name) in NAMES {
        all.print(&format!("{number:2} {name}"), |e| e.number == number);
    }
    println!("of these, meeting a listed difference:");
    for (difference, name) in DIFFERENCES {
        all.print(name, |e| e.tag & difference > 0);
    }
    println!("by period:");
    for name in PERIODS {
        all.print(name, |e| period_name(e) == name);
    }
    println!("by the log's places:");
    for name in LENGTHS {
        all.print(name, |e| length_name(e) == name);
    }
    println!("of the runs:");
    all.print("rows of both kinds", |e| e.kinds[0] > 0 && e.kinds[1] > 0);
    all.print("a row with a NaN", |e| e.special[0] > 0);
    all.print("a row of convergence criteria with an infinity", |e| {
        e.special[1] > 0
    });
    all.print("a row with a tau of 0", |e| e.special[2] > 0);
    let is_due = |e: &Entry| e.log.is_due(e.k);
    all.print("ConeFailure at a step that is due", |e| {
        e.number == 12 && is_due(e)
    });
    all.print("ConeFailure at a step that is not due", |e| {
        e.number == 12 && !is_due(e)
    });
    all.print("ConeFailure after a written row", |e| {
        e.number == 12 && e.written > 0
    });
    all.print("another ending at a step that is due", |e| {
        (7..12).contains(&e.number) && is_due(e)
    });
    let sum = |of: &dyn Fn(&Entry) -> u64| all.entries.iter().map(of).sum::<u64>();
    println!(
        "{} rows written, {} and {} of the two kinds, {} dropped; at most {} written in one record, and {} words to a record; {} steps",
        sum(&|e| e.written as u64),
        sum(&|e| e.kinds[0] as u64),
        sum(&|e| e.kinds[1] as u64),
        sum(&|e| e.dropped),
        all.entries.iter().map(|e| e.written).max().unwrap_or(0),
        all.most_words,
        sum(&|e| e.k),
    );
    Ok(())
}

#[cfg(test)]
mod tests {
    use super::*;

    /// Each record names its own end, a seed draws the same list again, and nothing that is told apart is rare.
    #[test]
    fn records_follow_one_another() {
        let all = records(1);
        let mut at = 0;
        for entry in &all.entries {
            assert_eq!(all.words[at], entry.tag);
            at += 2 + all.words[at + 1] as usize;
        }
        assert_eq!(at, all.words.len());
        assert_eq!(all.words, records(1).words);
        assert!(all.words.len() * 8 <= 1_500_000);
        for (number, name) in NAMES {
            assert!(all.count(|e| e.number == number) >= 10, "{name}");
        }
        for name in PERIODS {
            assert!(all.count(|e| period_name(e) == name) >= 10, "{name}");
        }
        for name in LENGTHS {
            assert!(all.count(|e| length_name(e) == name) >= 10, "{name}");
        }
    }

    /// After a refusal the log's five words stand alone.
    #[test]
    fn a_refusal_writes_nothing() {
        let mut all = Records::default();
        let mut random = Random::new(1);
        let p = super::super::runs::refusals::one(&mut random, 3).raised();
        let log = Log {
            period: 1,
            places: 9,
            fill: 7.0,
        };
        all.take(&p, log);
        let seven = 7f64.to_bits();
        let last = [3, 0, 0, 0, 0, 0, 0, 0, 1, 9, seven, 0, 0];
        assert_eq!(all.words[all.words.len() - 13..], last);
        assert_eq!(all.words[1] as usize, asked(&p).len() + 13);
    }
}
