//! Readers of request (x) of document 02, a progress record, that have it otherwise: each has other rows or other counts than the stored list,
//! somewhere. The rows of other steps are asked of the original anew.

mod stored;

use std::cell::RefCell;
use std::collections::BTreeMap;

use judge::log_rows::Log;
use judge::problem::Problem;
use judge::words::{word, words};

use stored::LoggedRun;

const CONE_FAILURE: u64 = 12;

/// A stored record, and the rows that were asked for it.
struct Case {
    stored: LoggedRun,
    /// None of a refusal.
    problem: Option<Problem>,
    rows: RefCell<BTreeMap<u64, [u64; 4]>>,
}

/// Rows written, rows dropped and every place of the log.
type Outcome = (u64, u64, Vec<u64>);

impl Case {
    fn log(&self) -> Log {
        self.stored.log
    }

    fn period(&self) -> u64 {
        u64::from(self.stored.log.period)
    }

    fn failed(&self) -> bool {
        self.stored.run.number == CONE_FAILURE
    }

    /// Steps that came to their end; of a refusal none.
    fn done(&self) -> u64 {
        self.stored.run.answer[1] - u64::from(self.failed())
    }

    fn eps_zero(&self) -> f64 {
        self.stored.run.handed.eps_zero
    }

    fn row(&self, step: u64) -> [u64; 4] {
        let mut rows = self.rows.borrow_mut();
        *rows.entry(step).or_insert_with(|| {
            let problem = self.problem.as_ref().expect("a run");
            problem.row_at(step).map(word)
        })
    }

    fn tau(&self, step: u64) -> f64 {
        f64::from_bits(self.row(step)[0])
    }

    /// Whether the step's criteria are those of convergence.
    fn is_convergence(&self, step: u64) -> bool {
        self.tau(step) > self.eps_zero()
    }

    /// The log before the run.
    fn before(&self) -> Vec<u64> {
        vec![word(self.log().fill); self.log().places]
    }

    /// What the list has.
    fn stored(&self) -> Outcome {
        let mut log = self.before();
        log[..self.stored.rows.len()].copy_from_slice(&self.stored.rows);
        (self.stored.written, self.stored.dropped, log)
    }

    fn is_due(&self, step: u64) -> bool {
        self.log().is_due(step)
    }

    fn due(&self) -> Vec<u64> {
        (1..=self.done())
            .filter(|step| self.is_due(*step))
            .collect()
    }

    /// The rows of these steps one after another, as far as they fit.
    fn written(&self, steps: &[u64], row: impl Fn(u64) -> [u64; 4]) -> Outcome {
        let mut log = self.before();
        let fit = steps.len().min(log.len() / 4);
        for (place, step) in log.chunks_mut(4).zip(&steps[..fit]) {
            place.copy_from_slice(&row(*step));
        }
        (fit as u64, (steps.len() - fit) as u64, log)
    }

    fn at(&self, steps: &[u64]) -> Outcome {
        self.written(steps, |step| self.row(step))
    }

    /// The steps up to the last that are wanted.
    fn at_those(&self, is_wanted: impl Fn(u64) -> bool) -> Outcome {
        let steps: Vec<u64> = (1..=self.done()).filter(|step| is_wanted(*step)).collect();
        self.at(&steps)
    }

    /// The due steps' rows, altered.
    fn altered(&self, alter: impl Fn(u64, [u64; 4]) -> [u64; 4]) -> Outcome {
        self.written(&self.due(), |step| alter(step, self.row(step)))
    }

    fn by_the_rule(&self) -> Outcome {
        self.at(&self.due())
    }
}

fn cases() -> Vec<Case> {
    let all = stored::logs().into_iter().map(|stored| Case {
        problem: (stored.run.number > 6).then(|| stored.run.handed.problem()),
        stored,
        rows: RefCell::default(),
    });
    all.collect()
}

const ONE: u64 = 0x3ff0000000000000;

type Reader = fn(&Case) -> Outcome;

// Which steps.

fn multiples(case: &Case) -> Outcome {
    case.at_those(|step| case.period() > 0 && step % case.period() == 0)
}

fn from_period_plus_1(case: &Case) -> Outcome {
    case.at_those(|step| step > 1 && case.is_due(step))
}

fn not_the_last(case: &Case) -> Outcome {
    case.at_those(|step| step < case.stored.run.answer[1] && case.is_due(step))
}

/// As the original's log has it.
fn always_the_last(case: &Case) -> Outcome {
    case.at_those(|step| step == case.stored.run.answer[1] || case.is_due(step))
}

/// The same where there is a period.
fn the_last_with_a_period(case: &Case) -> Outcome {
    if case.period() == 0 {
        return case.by_the_rule();
    }
    always_the_last(case)
}

fn zero_is_one(case: &Case) -> Outcome {
    case.at_those(|step| case.period() == 0 || case.is_due(step))
}

fn zero_is_the_first(case: &Case) -> Outcome {
    case.at_those(|step| case.period() == 0 && step == 1 || case.is_due(step))
}

/// The period has a sign.
fn below_2_to_31(case: &Case) -> Outcome {
    case.at_those(|step| case.period() < 1 << 31 && case.is_due(step))
}

/// The next due step is kept in 32 bits.
fn wrapping(case: &Case) -> Outcome {
    let mut next = 1u32;
    let mut steps = vec![];
    for step in 1..=case.done() {
        if case.period() > 0 && step >= u64::from(next) {
            steps.push(step);
            next = next.wrapping_add(case.log().period);
        }
    }
    case.at(&steps)
}

// What a row holds.

fn tau_scaled(case: &Case) -> Outcome {
    case.altered(|step, mut row| {
        if case.is_convergence(step) {
            row[0] = word(case.tau(step) * case.tau(step).recip());
        }
        row
    })
}

fn tau_is_one(case: &Case) -> Outcome {
    case.altered(|step, mut row| {
        if case.is_convergence(step) {
            row[0] = ONE;
        }
        row
    })
}

fn last_tau_scaled(case: &Case) -> Outcome {
    case.altered(|step, mut row| {
        if case.is_convergence(step) && step == case.stored.run.answer[1] {
            row[0] = ONE;
        }
        row
    })
}

/// tau is 1 before the first step.
fn tau_before(case: &Case) -> Outcome {
    case.altered(|step, mut row| {
        row[0] = if step == 1 {
            ONE
        } else {
            case.row(step - 1)[0]
        };
        row
    })
}

/// At the first step there are none before, and it has its own.
fn criteria_before(case: &Case) -> Outcome {
    case.altered(|step, mut row| {
        if step > 1 {
            row[1..].copy_from_slice(&case.row(step - 1)[1..]);
        }
        row
    })
}

fn third(case: &Case, place: u64) -> Outcome {
    case.altered(|step, mut row| {
        if !case.is_convergence(step) {
            row[3] = place;
        }
        row
    })
}

fn third_is_nan(case: &Case) -> Outcome {
    third(case, word(f64::NAN))
}

fn third_is_kept(case: &Case) -> Outcome {
    third(case, word(case.log().fill))
}

fn third_is_minus_zero(case: &Case) -> Outcome {
    third(case, word(-0.0))
}

fn infeasible_first(case: &Case) -> Outcome {
    case.altered(|step, mut row| {
        if !case.is_convergence(step) {
            row.swap(1, 2);
        }
        row
    })
}

fn dual_first(case: &Case) -> Outcome {
    case.altered(|step, mut row| {
        if case.is_convergence(step) {
            row.swap(1, 2);
        }
        row
    })
}

fn tau_last(case: &Case) -> Outcome {
    case.altered(|_, mut row| {
        row.rotate_left(1);
        row
    })
}

// What does not fit.

fn partly(case: &Case) -> Outcome {
    let (written, dropped, mut log) = case.by_the_rule();
    if dropped > 0 {
        let from = 4 * written as usize;
        let row = case.row(case.due()[written as usize]);
        let left = log.len() - from;
        log[from..].copy_from_slice(&row[..left]);
    }
    (written, dropped, log)
}

fn dropped_is_written(case: &Case) -> Outcome {
    let (written, dropped, log) = case.by_the_rule();
    (written + dropped, 0, log)
}

fn dropped_once(case: &Case) -> Outcome {
    let (written, dropped, log) = case.by_the_rule();
    (written, dropped.min(1), log)
}

fn dropped_untold(case: &Case) -> Outcome {
    let (written, _, log) = case.by_the_rule();
    (written, 0, log)
}

/// Round to the front; each place then has its last row.
fn round(case: &Case) -> Outcome {
    let (written, dropped, mut log) = case.by_the_rule();
    if written > 0 && dropped > 0 {
        for (i, step) in case.due().iter().enumerate().skip(dropped as usize) {
            let at = i % written as usize * 4;
            log[at..at + 4].copy_from_slice(&case.row(*step));
        }
    }
    (written, dropped, log)
}

/// The last due step's row stands in the last place of a row.
fn over_the_last(case: &Case) -> Outcome {
    let (written, dropped, mut log) = case.by_the_rule();
    if written > 0 && dropped > 0 {
        let at = 4 * (written as usize - 1);
        let last = *case.due().last().unwrap();
        log[at..at + 4].copy_from_slice(&case.row(last));
    }
    (written, dropped, log)
}

/// The last place of a log is left free.
fn one_place_short(case: &Case) -> Outcome {
    let (written, dropped, mut log) = case.by_the_rule();
    if written > 0 && 4 * written as usize == log.len() {
        let from = log.len() - 4;
        log[from..].fill(word(case.log().fill));
        return (written - 1, dropped + 1, log);
    }
    (written, dropped, log)
}

// What is not written.

fn cleared_first(case: &Case) -> Outcome {
    let (written, dropped, mut log) = case.by_the_rule();
    if case.stored.run.number > 6 {
        log[4 * written as usize..].fill(0);
    }
    (written, dropped, log)
}

fn end_cleared(case: &Case) -> Outcome {
    let (written, dropped, mut log) = case.by_the_rule();
    if case.stored.run.number > 6 {
        let whole = log.len() / 4 * 4;
        log[whole..].fill(0);
    }
    (written, dropped, log)
}

fn refusal_clears(case: &Case) -> Outcome {
    let (written, dropped, mut log) = case.by_the_rule();
    if case.stored.run.number <= 6 {
        log.fill(0);
    }
    (written, dropped, log)
}

// Failures.

fn is_failing_due(case: &Case) -> bool {
    case.failed() && case.is_due(case.stored.run.answer[1])
}

fn failure_is_dropped(case: &Case) -> Outcome {
    let (written, dropped, log) = case.by_the_rule();
    (written, dropped + u64::from(is_failing_due(case)), log)
}

/// A row of zeros, as the other buffers.
fn failure_is_a_row(case: &Case) -> Outcome {
    let (mut written, mut dropped, mut log) = case.by_the_rule();
    if is_failing_due(case) {
        let from = 4 * written as usize;
        if from + 4 <= log.len() {
            log[from..from + 4].fill(0);
            written += 1;
        } else {
            dropped += 1;
        }
    }
    (written, dropped, log)
}

fn failure_clears_rows(case: &Case) -> Outcome {
    let (written, dropped, mut log) = case.by_the_rule();
    if case.failed() {
        log[..4 * written as usize].fill(0);
    }
    (written, dropped, log)
}

fn failure_clears_all(case: &Case) -> Outcome {
    let (written, dropped, mut log) = case.by_the_rule();
    if case.failed() {
        log.fill(0);
    }
    (written, dropped, log)
}

fn failure_has_no_rows(case: &Case) -> Outcome {
    if case.failed() {
        return (0, 0, case.before());
    }
    case.by_the_rule()
}

const READERS: [(&str, Reader); 35] = [
    ("rows at steps period, 2·period and so on", multiples),
    ("the first row at step 1 + period", from_period_plus_1),
    ("the last step has no row", not_the_last),
    ("the last step always has a row", always_the_last),
    ("the same, but not of period 0", the_last_with_a_period),
    ("period 0 is as 1", zero_is_one),
    ("period 0 has the first step's row", zero_is_the_first),
    ("a period of 2^31 or more is none", below_2_to_31),
    ("the next due step is kept in 32 bits", wrapping),
    ("tau times 1/tau", tau_scaled),
    ("tau as 1", tau_is_one),
    ("tau as 1 where the run ends", last_tau_scaled),
    ("tau of before the step", tau_before),
    ("criteria of the step before", criteria_before),
    ("NaN in place of +0", third_is_nan),
    ("the last place kept in place of +0", third_is_kept),
    ("-0 in place of +0", third_is_minus_zero),
    ("infeasible before unbounded", infeasible_first),
    ("dual before primal", dual_first),
    ("tau last", tau_last),
    ("a row written in part", partly),
    ("a dropped row counted as written", dropped_is_written),
    ("dropped rows counted as one", dropped_once),
    ("dropped rows not counted", dropped_untold),
    ("round to the front", round),
    ("over the last row", over_the_last),
    ("a row that ends with the log is dropped", one_place_short),
    ("what no row takes is +0", cleared_first),
    ("the places after the last whole row are +0", end_cleared),
    ("a refusal clears the log", refusal_clears),
    (
        "a failing step that is due counts as dropped",
        failure_is_dropped,
    ),
    (
        "a failing step that is due has a row of +0",
        failure_is_a_row,
    ),
    ("rows are +0 after a failure", failure_clears_rows),
    ("the log is +0 after a failure", failure_clears_all),
    ("no rows after a failure", failure_has_no_rows),
];

#[test]
fn the_rule_has_every_stored_record() {
    for case in cases() {
        assert_eq!(case.by_the_rule(), case.stored());
        let problem = case.problem.as_ref();
        assert_eq!(
            case.stored.run.handed.refusal().is_none(),
            problem.is_some()
        );
    }
}

/// The whole answer is that of a run without a log.
#[test]
fn the_log_changes_nothing() {
    for case in cases() {
        let Some(problem) = &case.problem else {
            assert_eq!(case.stored.run.answer[1..], [0; 7]);
            continue;
        };
        let answer = problem.solve();
        let stored = &case.stored.run.answer;
        assert_eq!([answer.k, answer.q], stored[1..3]);
        if !case.failed() {
            let left = [words(&answer.work), words(&answer.cone_work)].concat();
            assert_eq!(left, stored[8..]);
        }
    }
}

#[test]
fn every_other_reader_is_told() {
    let cases = cases();
    for (name, read) in READERS {
        let others = cases.iter().filter(|case| read(case) != case.stored());
        let others = others.count();
        println!("{name}: {others} records");
        assert!(others >= 5, "{name}");
    }
}
