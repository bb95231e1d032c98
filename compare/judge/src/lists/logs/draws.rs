//! The problems of the list, and the logs that are lent with them.

use super::Records;
use crate::families::{fill, of_size, small, Family, FAMILIES};
use crate::group_shapes::grouped;
use crate::handed::{Handed, BAD_PARAM, WORK_SHORTAGE};
use crate::lists::large_norms::{finding, one_by_one, search};
use crate::lists::runs::{ending_number, refusals};
use crate::log_rows::Log;
use crate::problem::{Criteria, Line};
use crate::random::Random;

/// So many rows are written at most, but for the longest logs.
const MOST_ROWS: usize = 32;

const CONVERGED: u64 = 7;
const CONE_FAILURE: u64 = 12;

// Problems.

/// A problem of few rows and columns, with no tolerance below zero.
fn tiny(random: &mut Random, family: Family) -> Handed {
    if family == Family::FewSweeps {
        let (m, n) = (random.within(3, 8), random.within(1, 3));
        return of_size(random, family, false, m, n).raised();
    }
    let sizes = [0, 1, 1, 1, 2, 2, 2, 3, 3, 4, 5];
    let packed = random.one_in(3);
    let n = random.pick(&sizes);
    let m = if packed { n } else { random.pick(&sizes) };
    of_size(random, family, packed, m, n).raised()
}

/// The families in which an ending is found soon.
fn families(number: u64) -> &'static [Family] {
    match number {
        7 => &[Family::Solvable, Family::Solvable, Family::Drawn],
        8 => &[Family::Solvable, Family::Drawn, Family::FewSweeps],
        9 => &[Family::Drawn, Family::LargeEpsZero, Family::Contradictory],
        10 => &[Family::Falling],
        11 => &[Family::Contradictory],
        _ => &[Family::FewSweeps],
    }
}

/// How a problem ends, and after how many steps.
fn ending(p: &Handed) -> (u64, u64) {
    let answer = p.problem().solve();
    (ending_number(&answer.ending), answer.k)
}

/// A problem with this ending, and its steps.
fn ending_in(random: &mut Random, number: u64) -> (Handed, u64) {
    loop {
        let family = random.pick(families(number));
        let p = tiny(random, family);
        let (ends, k) = ending(&p);
        if ends == number {
            return (p, k);
        }
    }
}

// Logs.

/// How many ways there are to pick a period, and a length.
const PERIODS: usize = 12;
const LENGTHS: usize = 15;

/// A period for a run of k steps.
fn period(random: &mut Random, way: usize, k: u64) -> u32 {
    let k = k as u32;
    match way % PERIODS {
        0 => 0,
        1 => 1,
        2 => 2,
        3 => 3,
        4 => 5,
        5 => 7,
        6 => k.saturating_sub(1),
        7 => k,
        8 => k + 1,
        9 => 1 << 31,
        10 => u32::MAX,
        _ if random.one_in(4) => random.word() as u32,
        _ => random.within(1, k.max(2) as usize) as u32,
    }
}

/// How many places a log of so many rows has.
fn places(random: &mut Random, way: usize, rows: usize) -> usize {
    let whole = 4 * rows;
    match way % LENGTHS {
        way @ 0..=5 => way,
        6 => 7,
        7 => 8,
        8 => whole.saturating_sub(1),
        way @ 9..=12 => whole + way - 9,
        13 => whole + random.within(20, 60),
        _ => random.within(0, whole + 8),
    }
}

/// How many steps of k are due, if the last one succeeds.
fn rows(period: u32, k: u64) -> usize {
    match period {
        0 => 0,
        _ => k.div_ceil(u64::from(period)) as usize,
    }
}

/// A log for a run of so many steps. Where too many rows would be written it is shorter.
fn log(random: &mut Random, ways: (usize, usize), k: u64) -> Log {
    let period = period(random, ways.0, k);
    let rows = rows(period, k);
    let mut places = places(random, ways.1, rows);
    if rows.min(places / 4) > MOST_ROWS {
        places = random.within(0, 4 * MOST_ROWS + 3);
    }
    Log {
        period,
        places,
        fill: fill(random),
    }
}

/// A log with this period, with room for so many rows and up to three places more.
fn log_of(random: &mut Random, period: u32, rows: usize) -> Log {
    Log {
        period,
        places: 4 * rows + random.within(0, 3),
        fill: fill(random),
    }
}

// The draws.

/// Each ending with each way to pick a period; lengths take turns.
fn endings(all: &mut Records, random: &mut Random) {
    let mut turn = 0;
    for (number, times) in [(7, 8), (8, 8), (9, 8), (10, 8), (11, 8), (12, 6)] {
        for way in 0..PERIODS {
            for _ in 0..times {
                let (p, k) = ending_in(random, number);
                let log = log(random, (way, turn), k);
                all.take(&p, log);
                turn += 1;
            }
        }
    }
}

/// Failures after so many steps that are due, and after such that are not. None is at the first step, which projects zeros.
fn failures(all: &mut Records, random: &mut Random) {
    for due in [true, false] {
        for turn in 0..16 {
            let least = if turn < 6 { 2 } else { 4 };
            let (p, k) = loop {
                let (p, k) = ending_in(random, CONE_FAILURE);
                if k >= least {
                    break (p, k);
                }
            };
            let before = k - 1;
            let periods: Vec<u32> = (1..=k as u32)
                .filter(|period| (before % u64::from(*period) == 0) == due)
                .collect();
            let period = random.pick(&periods);
            // The rows before it, and the one that it would be: exactly the former, one more, or one fewer.
            let rows = rows(period, before);
            let room = match turn % 4 {
                0 => rows,
                3 => rows.saturating_sub(1),
                _ => rows + 1,
            };
            let log = log_of(random, period, room.min(MOST_ROWS));
            all.take(&p, log);
        }
    }
}

/// A problem that is refused by this row of the table, and has no tolerance below zero besides.
fn refused(random: &mut Random, number: u64) -> Handed {
    loop {
        let p = refusals::one(random, number).raised();
        if p.refusal() == Some(number) {
            return p;
        }
    }
}

/// Each row of the table of refusals, with logs of all lengths.
fn turned_away(all: &mut Records, random: &mut Random) {
    for number in BAD_PARAM..=WORK_SHORTAGE {
        for turn in 0..12 {
            let p = refused(random, number);
            let log = log(random, (turn + 1, turn + number as usize), 9);
            all.take(&p, log);
        }
    }
    // A tolerance below zero, which the original takes.
    for turn in 0..4 {
        let (mut p, k) = ending_in(random, CONVERGED);
        p.eps_inf = -1.0;
        let log = log(random, (1, 8 + turn), k);
        all.take(&p, log);
    }
}

/// How often a row of one kind is followed by one of the other, among the first rows of a run with this period.
fn changes(lines: &[Line], log: &Log) -> usize {
    let due = lines.iter().filter(|line| log.is_due(line.step));
    let kinds: Vec<bool> = due
        .map(|line| matches!(line.criteria, Criteria::Convergence(_)))
        .take(log.room())
        .collect();
    kinds.windows(2).filter(|pair| pair[0] != pair[1]).count()
}

/// tau passes eps_zero within the rows, from above once, or several times.
fn both_kinds(all: &mut Records, random: &mut Random) {
    for (least, count) in [(1, 40), (2, 16), (4, 8)] {
        let mut met = 0;
        while met < count {
            let family = random.pick(&[
                Family::LargeEpsZero,
                Family::LargeEpsZero,
                Family::Falling,
                Family::Contradictory,
            ]);
            let p = tiny(random, family);
            let period = random.pick(&[1, 1, 1, 2, 3, 5]);
            let room = random.within(3, MOST_ROWS);
            let log = log_of(random, period, room);
            let (_, lines) = p.problem().heard(period as usize);
            if changes(&lines, &log) >= least {
                all.take(&p, log);
                met += 1;
            }
        }
    }
}

/// Numbers of any sort, with a NaN or an infinity in a row.
fn not_finite(all: &mut Records, random: &mut Random) {
    type Test = fn(&[f64; 4], f64) -> bool;
    let wanted: [(usize, Test); 4] = [
        (12, |row, _| row[1..].iter().any(|x| x.is_nan())),
        (12, |row, eps_zero| {
            row[0] > eps_zero && row[1..].iter().any(|x| x.is_infinite())
        }),
        (6, |row, eps_zero| {
            row[0] <= eps_zero && row[1..].iter().any(|x| x.is_nan())
        }),
        (6, |row, _| row[0].is_infinite()),
    ];
    for (count, is_wanted) in wanted {
        let mut met = 0;
        while met < count {
            let family = random.pick(&[Family::Drawn, Family::LargeEpsZero]);
            let p = tiny(random, family);
            let period = random.pick(&[1, 1, 2, 3]);
            let room = random.within(1, 8);
            let log = log_of(random, period, room);
            let logged = p.problem().solve_logged(&log);
            if logged.rows.iter().any(|row| is_wanted(row, p.eps_zero)) {
                all.take(&p, log);
                met += 1;
            }
        }
    }
}

/// Very large numbers (request (ix) of document 02).
fn large_norms(all: &mut Records, random: &mut Random) {
    let mut problems = vec![finding()];
    problems.extend(one_by_one(1e200));
    problems.extend(search(random, 4, 10, |_, was, now| was.k == now.k));
    problems.extend(search(random, 4, 20, |_, was, now| was.k != now.k));
    for (turn, p) in problems.iter().enumerate() {
        let (_, k) = ending(p);
        let log = log(random, ([1, 2, 3, 6][turn % 4], 8 + turn % 7), k);
        all.take(p, log);
    }
}

/// Lists in groups.
fn groups(all: &mut Records, random: &mut Random) {
    for number in CONVERGED..=CONE_FAILURE {
        for turn in 0..6 {
            let (mut p, k) = ending_in(random, number);
            p.words = grouped(random, &p.words, 20);
            let log = log(random, (1 + turn, 8 + turn), k);
            all.take(&p, log);
        }
    }
}

/// No rows, no columns, or neither.
fn empty(all: &mut Records, random: &mut Random) {
    for (packed, m, n) in [
        (false, 0, 0),
        (true, 0, 0),
        (false, 0, 3),
        (false, 3, 0),
        (false, 1, 0),
    ] {
        for turn in 0..6 {
            let family = random.pick(&FAMILIES);
            let p = of_size(random, family, packed, m, n).raised();
            let (_, k) = ending(&p);
            let log = log(random, ([1, 0, 10, 7, 6, 2][turn], 4 + 2 * turn), k);
            all.take(&p, log);
        }
    }
}

/// Half of a dense matrix for both halves.
fn halves(all: &mut Records, random: &mut Random) {
    for turn in 0..6 {
        let (m, n) = (random.within(1, 4), 2 * random.within(1, 2));
        let mut p = of_size(random, Family::Drawn, false, m, n).raised();
        p.a.length /= 2;
        p.a.given.truncate(p.a.length);
        p.twice = true;
        let (_, k) = ending(&p);
        let log = log(random, (1 + turn, 8 + turn), k);
        all.take(&p, log);
    }
}

/// Many steps with long periods, and the largest allowance.
fn long(all: &mut Records, random: &mut Random) {
    for turn in 0..8 {
        let (p, k) = loop {
            let mut p = tiny(random, Family::Solvable);
            (p.max_iter, p.sweep_limit, p.eps_zero) = (3000, 64, 1e-12);
            (p.eps_acc, p.eps_inf) = random.pick(&[(1e-9, 1e-9), (0.0, 0.0), (1e-6, 1e-6)]);
            let (_, k) = ending(&p);
            if k >= 400 {
                break (p, k);
            }
        };
        let period = [100, 128, 499, 500, 999, 1000, k as u32 - 1, k as u32][turn];
        let rows = rows(period, k).min(MOST_ROWS);
        let log = log_of(random, period, rows);
        all.take(&p, log);
    }
    for turn in 0..6 {
        let (p, k) = loop {
            let (mut p, k) = ending_in(random, CONVERGED);
            if k >= 10 {
                p.max_iter = 1_000_000;
                break (p, k);
            }
        };
        let log = log(random, (turn + 1, 13), k);
        all.take(&p, log);
    }
}

/// More rows and columns, up to 32.
fn larger(all: &mut Records, random: &mut Random) {
    for turn in 0..12 {
        let (p, k) = loop {
            let family = random.pick(&[Family::Drawn, Family::Solvable, Family::LargeEpsZero]);
            let mut p = small(random, family).raised();
            p.max_iter = p.max_iter.min(100);
            if p.m.max(p.n) >= 8 {
                let (_, k) = ending(&p);
                break (p, k);
            }
        };
        let log = log(random, (1 + turn, 7 + turn), k);
        all.take(&p, log);
    }
}

/// Logs of many rows.
fn many_rows(all: &mut Records, random: &mut Random) {
    for least in [60, 100, 200] {
        let (p, k) = loop {
            let (p, k) = ending_in(random, CONVERGED);
            if (least..least + 60).contains(&k) {
                break (p, k);
            }
        };
        let log = log_of(random, 1, k as usize);
        all.take(&p, log);
    }
}

pub fn all(all: &mut Records, random: &mut Random) {
    endings(all, random);
    failures(all, random);
    turned_away(all, random);
    both_kinds(all, random);
    not_finite(all, random);
    large_norms(all, random);
    groups(all, random);
    empty(all, random);
    halves(all, random);
    long(all, random);
    larger(all, random);
    many_rows(all, random);
}
