//! A progress record, request (x) of document 02. The original has the period and the criteria: its debug lines are the rows, but for tau, which
//! stands in no line. tau is taken out of work after a run that is allowed no more steps than that; it is never scaled.

use crate::problem::{Answer, Criteria, Problem};
use crate::words::words;

/// The period, and the third buffer: its places, and what each of them holds.
#[derive(Clone, Copy, Debug)]
pub struct Log {
    pub period: u32,
    pub places: usize,
    pub fill: f64,
}

/// What a run leaves of it.
pub struct Logged {
    pub answer: Answer,
    pub rows: Vec<[f64; 4]>,
    pub dropped: u64,
}

impl Log {
    /// Steps 1, 1 + period, 1 + 2·period and so on; of period 0 none.
    pub fn is_due(&self, step: u64) -> bool {
        self.period > 0 && (step - 1) % u64::from(self.period) == 0
    }

    /// So many rows fit whole.
    pub fn room(&self) -> usize {
        self.places / 4
    }
}

fn row(tau: f64, criteria: Criteria) -> [f64; 4] {
    match criteria {
        Criteria::Convergence([primal, dual, gap]) => [tau, primal, dual, gap],
        Criteria::Others([unbounded, infeasible]) => [tau, unbounded, infeasible, 0.0],
    }
}

impl Problem {
    /// The row of a step that the run comes to: what a run of no more steps ends with.
    pub fn row_at(&self, step: u64) -> [f64; 4] {
        let shorter = Problem {
            max_iter: step as usize,
            ..self.clone()
        };
        let (answer, lines) = shorter.heard(0);
        let line = lines.last().expect("the last step's line");
        assert_eq!((answer.k, line.step), (step, step));
        let tau = answer.work[self.n() + 2 * self.m()];
        let is_convergence = matches!(line.criteria, Criteria::Convergence(_));
        assert_eq!(is_convergence, tau > self.eps_zero);
        row(tau, line.criteria)
    }

    /// The watched run with this log. The rows are those of the original's own lines that are due; that each has the criteria of the run that
    /// tau is taken from, is asked.
    pub fn solve_logged(&self, log: &Log) -> Logged {
        let (answer, mut lines) = self.heard(log.period as usize);
        lines.retain(|line| log.is_due(line.step));
        let written = lines.len().min(log.room());
        let mut rows = Vec::new();
        for line in &lines[..written] {
            let [tau, criteria @ ..] = self.row_at(line.step);
            let heard = row(tau, line.criteria);
            assert_eq!(words(&criteria), words(&heard[1..]));
            rows.push(heard);
        }
        Logged {
            answer,
            rows,
            dropped: (lines.len() - written) as u64,
        }
    }
}

#[cfg(test)]
mod tests {
    use super::*;
    use crate::cone_list::Block;
    use crate::original::Kind;
    use crate::problem::Ending;
    use totsu_core::MatType;

    /// One row and one column: x = 3 for c = −1, and the default tolerances.
    fn bounded(a: f64, max_iter: usize) -> Problem {
        let (kind, size) = (Kind::Nonnegative, 1);
        Problem {
            a_type: MatType::General(1, 1),
            c: vec![-1.0],
            a: vec![a],
            b: vec![3.0],
            blocks: vec![Block { kind, size }],
            max_iter,
            sweep_limit: 64,
            eps_acc: 1e-6,
            eps_inf: 1e-6,
            eps_zero: 1e-12,
            edition: 1,
        }
    }

    fn log(period: u32, places: usize) -> Log {
        Log {
            period,
            places,
            fill: 7.0,
        }
    }

    #[test]
    fn due_steps() {
        let due = |period: u32| (1..=9).filter(move |step| log(period, 0).is_due(*step));
        assert_eq!(due(0).count(), 0);
        assert_eq!(due(1).count(), 9);
        assert!(due(2).eq([1, 3, 5, 7, 9]));
        assert!(due(4).eq([1, 5, 9]));
        assert!(due(8).eq([1, 9]));
        assert!(due(9).eq([1]));
        assert!(due(u32::MAX).eq([1]));
    }

    /// Written as far as they fit whole, the others dropped; the last step is a row only if it is due.
    #[test]
    fn rows_that_fit() {
        let p = bounded(1.0, 10);
        for (period, places, written, dropped) in [
            (0, 100, 0, 0),
            (1, 100, 10, 0),
            (1, 40, 10, 0),
            (1, 39, 9, 1),
            (1, 3, 0, 10),
            (1, 0, 0, 10),
            (3, 100, 4, 0),
            (3, 15, 3, 1),
            (4, 100, 3, 0),
            (9, 8, 2, 0),
            (10, 8, 1, 0),
            (u32::MAX, 7, 1, 0),
        ] {
            let logged = p.solve_logged(&log(period, places));
            assert_eq!((logged.rows.len(), logged.dropped), (written, dropped));
            assert!(matches!(logged.answer.ending, Ending::ExcessIter(_)));
            assert_eq!(logged.answer.k, 10);
            let rows = logged.rows.iter().enumerate();
            for (i, row) in rows {
                let step = 1 + i as u64 * u64::from(period);
                assert_eq!(words(row), words(&p.row_at(step)));
            }
        }
    }

    /// The first step of this problem by hand. tau is not scaled: it starts as 1 and is so after step 1.
    #[test]
    fn the_first_row_by_hand() {
        // x = y = s = 0 and tau = 1 before, and the dual vector is 0, so nothing moves: p = −b, d = c, and no gap.
        let [tau, primal, dual, gap] = bounded(1.0, 1).row_at(1);
        assert_eq!((tau, primal, dual, gap), (1.0, 3.0 / 4.0, 1.0 / 2.0, 0.0));
    }

    /// With a falling objective tau comes to 0: rows of both kinds, and the third place of the second kind is +0.
    #[test]
    fn rows_of_both_kinds() {
        let logged = bounded(-1.0, 1000).solve_logged(&log(1, 4000));
        assert!(matches!(logged.answer.ending, Ending::Unbounded(_)));
        assert_eq!(logged.rows.len() as u64, logged.answer.k);
        let last = logged.rows.last().unwrap();
        assert_eq!((last[0], last[3].to_bits()), (0.0, 0));
        assert!(last[1] <= 1e-6);
        assert!(logged.rows[0][0] > 1e-12);
    }
}
