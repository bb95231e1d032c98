//! A whole problem, and the run of the original on it.

use totsu_core::solver::{Solver, SolverError};
use totsu_core::{FloatGeneric, MatOp, MatType};

use crate::cone_list::{work_len, Block, ConeList, Progress};
use crate::halved_sums::HalvedSums;
use crate::original::{stops_on_column_sums, stops_on_row_sums};
use crate::ruled_norm::{Algebra, RuledNorm};
use crate::ruled_sums::RuledSums;
use crate::seen::{sight, watch, Number, Seen};

#[derive(Clone)]
pub struct Problem {
    pub a_type: MatType,
    pub c: Vec<f64>,
    pub a: Vec<f64>,
    pub b: Vec<f64>,
    pub blocks: Vec<Block>,
    pub max_iter: usize,
    pub sweep_limit: usize,
    pub eps_acc: f64,
    pub eps_inf: f64,
    pub eps_zero: f64,
    /// The edition of sums, one or two.
    pub edition: u32,
}

#[derive(Clone, Copy, Debug, PartialEq)]
pub enum Ending {
    Converged([f64; 3]),
    /// tau > eps_zero: x and y are scaled.
    ExcessIter([f64; 3]),
    ExcessIterUnscaled([f64; 2]),
    Unbounded(f64),
    Infeasible(f64),
    ConeFailure(usize),
}

pub struct Answer {
    pub ending: Ending,
    /// Steps taken, and rotations made.
    pub k: u64,
    pub q: u64,
    pub work: Vec<f64>,
    pub cone_work: Vec<f64>,
    /// Larger and smaller of −0 and +0: those that the machine has otherwise, and all. See `seen`.
    pub other_zeros: u64,
    pub unlike_zeros: u64,
    /// Norms of finite numbers whose plain sum is infinite: the original's own norm is another, and so may its run be.
    pub large_norms: u64,
}

impl Answer {
    /// Whether a run over plain f64 must come to the same: it ends, and the machine has each
    /// zero as the standard has it.
    pub fn has_plain_form(&self) -> bool {
        !matches!(self.ending, Ending::ConeFailure(_)) && self.other_zeros == 0
    }
}

/// What the original itself says.
pub struct Bare {
    pub verdict: Result<(), SolverError>,
    pub progress: Progress,
    pub work: Vec<f64>,
    pub cone_work: Vec<f64>,
}

impl Problem {
    pub fn n(&self) -> usize {
        self.a_type.size().1
    }

    pub fn m(&self) -> usize {
        self.a_type.size().0
    }

    /// The original stops on this one: its A is empty in a way its sums don't bear. Here it is run
    /// with the rule's sums of that matrix.
    pub fn stops(&self) -> bool {
        stops_on_column_sums(self.a_type) || stops_on_row_sums(self.a_type)
    }

    /// One run over zeroed work. With plain f64 it may never come back: Jacobi has no limit.
    /// The solver is run over the linear algebra L, its cone list over C. The period is that of the original's log.
    pub fn run<F: Number, L: Algebra<F>, C: Algebra<F>>(&self, log_period: usize) -> Bare {
        let (m, n) = self.a_type.size();
        let of = |xs: &[f64]| xs.iter().map(|x| F::of(*x)).collect::<Vec<F>>();
        let plain = |xs: Vec<F>| xs.into_iter().map(F::plain).collect();
        let (c, a, b) = (of(&self.c), of(&self.a), of(&self.b));

        let work_places = Solver::<L>::query_worklen((m, n));
        let mut work = vec![F::zero(); work_places];
        let mut cone_work = vec![F::zero(); work_len(&self.blocks)];
        let mut progress = Progress::default();

        let verdict = Solver::<L>::new()
            .par(|p| {
                p.max_iter = Some(self.max_iter);
                p.eps_acc = F::of(self.eps_acc);
                p.eps_inf = F::of(self.eps_inf);
                p.eps_zero = F::of(self.eps_zero);
                p.log_period = log_period;
            })
            .solve((
                MatOp::new(MatType::General(n, 1), &c),
                RuledSums::new(self.a_type, &a),
                MatOp::new(MatType::General(m, 1), &b),
                ConeList::<F, C>::new(
                    &self.blocks,
                    &mut cone_work,
                    F::of(self.eps_zero),
                    &mut progress,
                ),
                &mut work,
            ))
            .map(|_| ());
        Bare {
            verdict,
            progress,
            work: plain(work),
            cone_work: plain(cone_work),
        }
    }

    /// The original as it is, over plain f64.
    pub fn original(&self) -> Bare {
        self.run::<f64, FloatGeneric<f64>, FloatGeneric<f64>>(0)
    }

    /// The watched run in its edition, with all that an ending carries.
    pub fn solve(&self) -> Answer {
        self.heard(0).0
    }

    /// As it was before request (ix) of document 02, with the original's own norm. What was drawn by its ending still is.
    pub fn solve_before(&self) -> Answer {
        self.solve_over::<FloatGeneric<Seen>, FloatGeneric<Seen>>()
    }

    /// The run over plain f64 that must come to this answer: in edition one the original's own where no norm was large.
    pub fn plain_form(&self, answer: &Answer) -> Bare {
        match (self.edition, answer.large_norms) {
            (1, 0) => self.original(),
            (1, _) => self.run::<f64, RuledNorm<f64>, RuledNorm<f64>>(0),
            _ => self.run::<f64, HalvedSums<f64>, HalvedSums<f64>>(0),
        }
    }

    pub fn solve_over<L: Algebra<Seen>, C: Algebra<Seen>>(&self) -> Answer {
        self.heard_over::<L, C>(0).0
    }

    /// The watched run with this period of the original's log, and the log's lines in order. The original writes one at each step that is due
    /// and at the one that ends the run.
    pub fn heard(&self, log_period: usize) -> (Answer, Vec<Line>) {
        match self.edition {
            1 => self.heard_over::<RuledNorm<Seen>, RuledNorm<Seen>>(log_period),
            _ => self.heard_over::<HalvedSums<Seen>, HalvedSums<Seen>>(log_period),
        }
    }

    fn heard_over<L: Algebra<Seen>, C: Algebra<Seen>>(
        &self,
        log_period: usize,
    ) -> (Answer, Vec<Line>) {
        watch(self.sweep_limit);
        log::listen();
        let mut run = self.run::<Seen, L, C>(log_period);
        let heard = log::heard();
        let seen = sight();
        let lines: Vec<Line> = heard.iter().filter_map(|line| Line::read(line)).collect();
        let last = lines.last().map(|line| line.criteria);

        let ending = match (&run.verdict, last) {
            (Ok(()), Some(Criteria::Convergence(all))) => Ending::Converged(all),
            (Err(SolverError::ExcessIter), Some(Criteria::Convergence(all))) => {
                Ending::ExcessIter(all)
            }
            (Err(SolverError::ExcessIter), Some(Criteria::Others(both))) => {
                Ending::ExcessIterUnscaled(both)
            }
            (Err(SolverError::Unbounded), Some(Criteria::Others([unbounded, _]))) => {
                Ending::Unbounded(unbounded)
            }
            (Err(SolverError::Infeasible), Some(Criteria::Others([_, infeasible]))) => {
                Ending::Infeasible(infeasible)
            }
            (Err(SolverError::ConeFailure), _) => {
                // The rule clears both buffers; the original leaves them where it stood.
                run.work.fill(0.0);
                run.cone_work.fill(0.0);
                Ending::ConeFailure(run.progress.failed.expect("a failed block"))
            }
            (Err(e), _) => panic!("the problem doesn't fit: {e}"),
            (Ok(()), _) => panic!("no line of a run that converged"),
        };
        let answer = Answer {
            ending,
            k: run.progress.steps,
            q: seen.rotations,
            work: run.work,
            cone_work: run.cone_work,
            other_zeros: seen.other_zeros,
            unlike_zeros: seen.unlike_zeros,
            large_norms: seen.large_norms,
        };
        (answer, lines)
    }
}

#[derive(Clone, Copy, Debug, PartialEq)]
pub enum Criteria {
    /// Primal, dual and gap.
    Convergence([f64; 3]),
    /// Unbounded and infeasible.
    Others([f64; 2]),
}

/// A line of the original's log.
pub struct Line {
    /// The original counts its steps from 0, here they are counted from 1.
    pub step: u64,
    pub criteria: Criteria,
}

impl Line {
    /// A line such as "0: pri_dual_gap 3ff0... 0000... 0000..."; none if it is not about a step.
    fn read(text: &str) -> Option<Line> {
        let criteria = if let Some((_, tail)) = text.split_once(" pri_dual_gap ") {
            Criteria::Convergence(criteria(tail))
        } else {
            let (_, tail) = text.split_once(" unbdd_infeas ")?;
            Criteria::Others(criteria(tail))
        };
        let (number, _) = text.split_once(':').expect("a step's number");
        let before: u64 = number.parse().expect("a step's number");
        let step = before + 1;
        Some(Line { step, criteria })
    }
}

/// The criteria at the end of a line.
fn criteria<const N: usize>(tail: &str) -> [f64; N] {
    let mut values = tail.split_whitespace();
    let all = std::array::from_fn(|_| {
        let hex = values.next().expect("a criterion");
        f64::from_bits(u64::from_str_radix(hex, 16).expect("a pattern"))
    });
    assert!(values.next().is_none());
    all
}

impl Ending {
    pub fn name(&self) -> &'static str {
        match self {
            Ending::Converged(_) => "Converged",
            Ending::ExcessIter(_) | Ending::ExcessIterUnscaled(_) => "ExcessIter",
            Ending::Unbounded(_) => "Unbounded",
            Ending::Infeasible(_) => "Infeasible",
            Ending::ConeFailure(_) => "ConeFailure",
        }
    }

    /// The criteria carried, in order; none for a failed block.
    pub fn criteria(&self) -> &[f64] {
        match self {
            Ending::Converged(c) | Ending::ExcessIter(c) => c,
            Ending::ExcessIterUnscaled(c) => c,
            Ending::Unbounded(c) | Ending::Infeasible(c) => std::slice::from_ref(c),
            Ending::ConeFailure(_) => &[],
        }
    }
}
