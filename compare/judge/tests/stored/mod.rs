//! The stored lists of kernels, cones, runs, logs, editions and cards, read back.

// Each test reads some of them.
#![allow(dead_code)]

use std::fs;

use judge::card::{self, Card};
use judge::cone_list::Block;
use judge::handed::{Handed, Vector};
use judge::log_rows::Log;
use judge::original::Kind;
use judge::problem::{Answer, Ending};
use judge::words::words;

pub struct Run {
    pub handed: Handed,
    /// The answer's number, and the failed block of a ConeFailure.
    pub number: u64,
    pub block: u64,
    /// The listed differences that it meets, and the whole answer.
    pub tag: u64,
    pub answer: Vec<u64>,
}

/// A record of the list of logs.
pub struct LoggedRun {
    pub run: Run,
    pub log: Log,
    pub written: u64,
    pub dropped: u64,
    pub rows: Vec<u64>,
}

struct Words<'a> {
    left: &'a [u64],
}

impl Words<'_> {
    fn take(&mut self) -> u64 {
        self.take_all(1)[0]
    }

    fn size(&mut self) -> usize {
        self.take() as usize
    }

    fn take_all(&mut self, count: usize) -> Vec<u64> {
        let (taken, left) = self.left.split_at(count);
        self.left = left;
        taken.to_vec()
    }

    fn number(&mut self) -> f64 {
        f64::from_bits(self.take())
    }

    fn vector(&mut self) -> Vector {
        let (length, count) = (self.size(), self.size());
        let given = self.take_all(count);
        Vector {
            length,
            given: given.into_iter().map(f64::from_bits).collect(),
        }
    }

    /// The problem of a record, and what is lent with it.
    fn handed(&mut self) -> Handed {
        let (max_iter, sweep_limit) = (self.take(), self.take());
        let (eps_acc, eps_inf, eps_zero) = (self.number(), self.number(), self.number());
        let (storage, n, m, count) = (self.take(), self.size(), self.size(), self.size());
        let words = self.take_all(count);
        Handed {
            max_iter,
            sweep_limit,
            eps_acc,
            eps_inf,
            eps_zero,
            packed: storage == 1,
            n,
            m,
            words: words.into_iter().map(|word| word as u16).collect(),
            c: self.vector(),
            a: self.vector(),
            b: self.vector(),
            twice: storage == 2,
            edition: 1,
            work: self.size(),
            cone_work: self.size(),
            fill: self.number(),
        }
    }

    /// A record after its first two words.
    fn run(&mut self, tag: u64) -> Run {
        let handed = self.handed();
        let answer = self.left.to_vec();
        Run {
            handed,
            number: answer[0],
            block: answer[3],
            tag,
            answer,
        }
    }
}

impl Words<'_> {
    /// A record of the list of logs after its first two words: a run's answer says how long it is.
    fn logged(&mut self, tag: u64) -> LoggedRun {
        let handed = self.handed();
        let mut answer = self.take_all(8);
        if answer[0] != 12 {
            let left = self.take_all((answer[6] + answer[7]) as usize);
            answer.extend(left);
        }
        let log = Log {
            period: u32::try_from(self.take()).unwrap(),
            places: self.size(),
            fill: self.number(),
        };
        let (written, dropped) = (self.take(), self.take());
        let rows = self.take_all(4 * written as usize);
        assert!(self.left.is_empty());
        LoggedRun {
            run: Run {
                handed,
                number: answer[0],
                block: answer[3],
                tag,
                answer,
            },
            log,
            written,
            dropped,
            rows,
        }
    }
}

fn stored(file: &str) -> Vec<u8> {
    let crates = concat!(env!("CARGO_MANIFEST_DIR"), "/../../crates");
    fs::read(format!("{crates}/{file}")).unwrap()
}

fn word(bytes: &[u8]) -> u64 {
    u64::from_be_bytes(bytes[..8].try_into().unwrap())
}

pub fn runs() -> Vec<Run> {
    let records = records("replay_runs/stdin").into_iter();
    records
        .map(|(tag, record)| Words { left: &record }.run(tag))
        .collect()
}

/// Before each problem stands its edition.
pub fn editions() -> Vec<Run> {
    let records = records("replay_editions/stdin").into_iter();
    records
        .map(|(tag, record)| {
            let mut run = Words { left: &record[1..] }.run(tag);
            run.handed.edition = u32::try_from(record[0]).unwrap();
            run
        })
        .collect()
}

pub fn logs() -> Vec<LoggedRun> {
    let records = records("replay_logs/stdin").into_iter();
    records
        .map(|(tag, record)| Words { left: &record }.logged(tag))
        .collect()
}

/// Number, k, q, what is carried and both buffers.
pub fn told(answer: &Answer) -> Vec<u64> {
    let number = match answer.ending {
        Ending::Converged(_) => 7,
        Ending::ExcessIter(_) => 8,
        Ending::ExcessIterUnscaled(_) => 9,
        Ending::Unbounded(_) => 10,
        Ending::Infeasible(_) => 11,
        Ending::ConeFailure(_) => 12,
    };
    let mut carried = match answer.ending {
        Ending::ConeFailure(block) => vec![block as u64],
        _ => words(answer.ending.criteria()),
    };
    carried.resize(3, 0);
    let mut all = vec![number, answer.k, answer.q];
    all.extend(carried);
    all.extend([answer.work.len() as u64, answer.cone_work.len() as u64]);
    if number != 12 {
        all.extend(words(&answer.work));
        all.extend(words(&answer.cone_work));
    }
    all
}

/// The first word of each record, and the words after its length.
fn records(file: &str) -> Vec<(u64, Vec<u64>)> {
    let words: Vec<u64> = stored(file).chunks(8).map(word).collect();
    let (mut left, mut all) = (&words[1..], Vec::new());
    while !left.is_empty() {
        let (record, after) = left[2..].split_at(left[1] as usize);
        all.push((left[0], record.to_vec()));
        left = after;
    }
    assert_eq!(all.len() as u64, words[0]);
    all
}

fn numbers(words: &[u64]) -> Vec<f64> {
    words.iter().map(|word| f64::from_bits(*word)).collect()
}

/// Each norm of the list of kernels: the numbers, and the answer.
pub fn norms() -> Vec<(Vec<f64>, u64)> {
    let norms = records("replay_kernels/stdin").into_iter();
    let norms = norms.filter(|(operation, _)| *operation == 1);
    norms
        .map(|(_, record)| match &record[..] {
            [_, x @ .., norm] => (numbers(x), *norm),
            _ => panic!("a norm"),
        })
        .collect()
}

/// A second-order or rotated block or a product of the list of cones.
pub struct Projected {
    pub blocks: Vec<Block>,
    pub dual: bool,
    pub sweep_limit: usize,
    pub eps_zero: f64,
    pub fill: f64,
    pub x: Vec<f64>,
    /// The failed block's number plus 1, or 0.
    pub failed: u64,
    pub answer: Vec<u64>,
}

pub fn projected() -> Vec<Projected> {
    let all = records("replay_cones/stdin").into_iter();
    let all = all.filter_map(|(operation, record)| {
        let mut words = Words { left: &record };
        let kind = match operation {
            3 => Some(Kind::SecondOrder),
            4 => Some(Kind::Rotated),
            6 => None,
            _ => return None,
        };
        let dual = words.take() == 1;
        Some(match kind {
            Some(kind) => {
                let size = words.size();
                Projected {
                    blocks: vec![Block { kind, size }],
                    dual,
                    sweep_limit: 1,
                    eps_zero: 0.0,
                    fill: 0.0,
                    x: numbers(&words.take_all(size)),
                    failed: 0,
                    answer: words.take_all(size),
                }
            }
            None => {
                let sweep_limit = words.size();
                let (eps_zero, fill) = (words.number(), words.number());
                let (blocks, places) = (words.size(), words.size());
                let block = |word: &u64| Block::read(*word as u16).unwrap();
                let blocks = words.take_all(blocks).iter().map(block).collect();
                let x = numbers(&words.take_all(places));
                let failed = words.take();
                words.take();
                Projected {
                    blocks,
                    dual,
                    sweep_limit,
                    eps_zero,
                    fill,
                    x,
                    failed,
                    answer: words.take_all(places),
                }
            }
        })
    });
    all.collect()
}

/// Each card that is one, and its answer.
pub fn cards() -> Vec<(Card, String)> {
    let bytes = stored("replay_cards/stdin");
    let answers = String::from_utf8(stored("replay_cards/stdout")).unwrap();
    let is_first = |line: &str| line.starts_with(|c: char| c.is_ascii_uppercase());
    let mut told: Vec<String> = Vec::new();
    for line in answers.lines() {
        if is_first(line) {
            told.push(String::new());
        }
        let last = told.last_mut().unwrap();
        *last += line;
        *last += "\n";
    }
    let mut answers = told.into_iter();
    let (mut left, mut all) = (&bytes[8..], Vec::new());
    while !left.is_empty() {
        let (bytes, after) = left[8..].split_at(word(left) as usize);
        let answer = answers.next().unwrap();
        all.extend(card::read(bytes).ok().map(|card| (card, answer)));
        left = after;
    }
    assert_eq!(answers.next(), None);
    all
}
