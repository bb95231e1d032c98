//! The cases worked by hand in document 01 that the original can answer, and what the judge
//! relies on.

use num_traits::Float;
use std::panic::catch_unwind;
use totsu_core::{FloatGeneric, MatType};

use judge::cone_list::Block;
use judge::original::{self as ask, Kind};
use judge::problem::{Ending, Problem};
use judge::seen::{sight, watch, Seen};
use judge::words::words;

fn projected(kind: Kind, dual: bool, x: &[f64]) -> Vec<f64> {
    let mut x = x.to_vec();
    ask::proj::<f64, ask::L>(kind, dual, &mut x, &mut [], 1e-12).unwrap();
    x
}

/// A semidefinite projection under a sweep limit: its outcome, the numbers, the rotations.
fn semidefinite(x: &[f64], limit: usize) -> (Result<(), ()>, Vec<f64>, u64) {
    let mut x: Vec<Seen> = x.iter().map(|v| Seen(*v)).collect();
    watch(limit);
    let outcome = ask::proj::<Seen, FloatGeneric<Seen>>(
        Kind::Semidefinite,
        false,
        &mut x,
        &mut [Seen(0.0); 20],
        Seen(1e-12),
    );
    (outcome, x.iter().map(|v| v.0).collect(), sight().rotations)
}

#[test]
fn roots() {
    assert_eq!(ask::root(4.0), 2.0);
    assert_eq!(ask::root(-0.0).to_bits(), (-0.0f64).to_bits());
    assert_eq!(
        ask::root(f64::from_bits(1)),
        f64::from_bits((1023 - 537) << 52)
    );
    assert_eq!(ask::root(2.0).to_bits(), 0x3ff6a09e667f3bcd);
    assert!(ask::root(-1.0).is_nan());
}

#[test]
fn larger_and_smaller() {
    assert_eq!(ask::larger(f64::NAN, 0.0).to_bits(), 0);
    assert_eq!(ask::smaller(1.0, f64::NAN), 1.0);
    assert_eq!(ask::larger(1.0, 2.0), 2.0);
}

/// As request (iv) of document 02 mends it: the original, lent the standard's zeros.
#[test]
fn larger_and_smaller_of_zeros() {
    for (a, b) in [(-0.0, 0.0), (0.0, -0.0)] {
        assert_eq!(Seen(a).min(Seen(b)).0.to_bits(), 1 << 63);
        assert_eq!(Seen(a).max(Seen(b)).0.to_bits(), 0);
    }
}

#[test]
fn defaults() {
    let p = totsu_core::solver::SolverParam::<f64>::default();
    assert_eq!(p.eps_acc.to_bits(), 0x3eb0c6f7a0b5ed8d);
    assert_eq!(p.eps_inf.to_bits(), 1e-6f64.to_bits());
    assert_eq!(p.eps_zero.to_bits(), 1e-12f64.to_bits());
}

#[test]
fn dense_two_by_two() {
    let (typ, a) = (MatType::General(2, 2), [1.0, 2.0, 3.0, 4.0]);
    assert_eq!(
        ask::op(typ, &a, 1.0, &[1.0, 1.0], 0.0, vec![0.0; 2]),
        [4.0, 6.0]
    );
    assert_eq!(
        ask::trans_op(typ, &a, 1.0, &[1.0, 1.0], 0.0, vec![0.0; 2]),
        [3.0, 7.0]
    );
}

#[test]
fn packed_absolute_sums() {
    let (typ, a) = (MatType::SymPack(2), [-1.0, 2.0, -3.0]);
    assert_eq!(ask::absadd_cols(typ, &a, vec![0.0; 2]), [3.0, 5.0]);
    assert_eq!(ask::absadd_rows(typ, &a, vec![0.0; 2]), [3.0, 5.0]);
}

#[test]
fn beta_of_zero_does_not_clear() {
    let y = ask::op(
        MatType::General(1, 1),
        &[-1.0],
        0.0,
        &[1.0],
        0.0,
        vec![-5.0],
    );
    assert_eq!(words(&y), words(&[-0.0]));
}

#[test]
fn step_of_zero_sums_nothing() {
    assert_eq!(ask::abssum(&[1.0, 2.0], 0).to_bits(), 0);
    assert_eq!(ask::abssum(&[1.0, -2.0, 4.0], 2), 5.0);
}

#[test]
fn empty_matrices_stop_the_original() {
    let stops = |typ: MatType, rows: bool| {
        let y = vec![0.0; if rows { typ.size().0 } else { typ.size().1 }];
        catch_unwind(|| {
            if rows {
                ask::absadd_rows(typ, &[], y)
            } else {
                ask::absadd_cols(typ, &[], y)
            }
        })
        .is_err()
    };
    for typ in [
        MatType::SymPack(0),
        MatType::General(0, 0),
        MatType::General(0, 3),
        MatType::General(1, 0),
        MatType::General(2, 0),
        MatType::General(3, 0),
    ] {
        assert_eq!(stops(typ, false), ask::stops_on_column_sums(typ), "{typ:?}");
        assert_eq!(stops(typ, true), ask::stops_on_row_sums(typ), "{typ:?}");
    }
}

#[test]
fn second_order() {
    assert_eq!(
        projected(Kind::SecondOrder, false, &[0.0, 3.0, 4.0]),
        [2.5, 1.5, 2.0]
    );
    assert_eq!(
        projected(Kind::SecondOrder, false, &[5.0, 3.0, 4.0]),
        [5.0, 3.0, 4.0]
    );
    let apex = projected(Kind::SecondOrder, false, &[-5.0, -3.0, 4.0]);
    assert_eq!(words(&apex), words(&[0.0, -0.0, 0.0]));
}

#[test]
fn other_cones() {
    let x = [-2.0, f64::NAN, 3.0];
    assert_eq!(projected(Kind::Nonnegative, true, &x), [0.0, 0.0, 3.0]);
    assert_eq!(words(&projected(Kind::Zero, true, &x)), words(&x));
    assert_eq!(
        words(&projected(Kind::Zero, false, &[-2.0, 3.0])),
        words(&[-0.0, 0.0])
    );
    assert_eq!(projected(Kind::Rotated, false, &[-1.0]), [0.0]);
    for kind in [
        Kind::Zero,
        Kind::Nonnegative,
        Kind::SecondOrder,
        Kind::Rotated,
        Kind::Semidefinite,
    ] {
        assert!(projected(kind, false, &[]).is_empty());
    }
}

#[test]
fn groups() {
    let smallest = |x: &mut [f64]| {
        let least = x.iter().fold(x[0], |a, b| ask::smaller(a, *b));
        x.fill(least);
    };
    for (kind, expected) in [
        (Kind::Zero, [3.0, 1.0, 2.0]),
        (Kind::Nonnegative, [3.0, 1.0, 2.0]),
        (Kind::SecondOrder, [1.0; 3]),
        (Kind::Rotated, [1.0; 3]),
        (Kind::Semidefinite, [1.0; 3]),
    ] {
        let mut x = [3.0, 1.0, 2.0];
        ask::product_group::<f64, ask::L>(kind, &mut x, smallest);
        assert_eq!(x, expected, "{kind:?}");
    }
}

#[test]
fn semidefinite_without_a_rotation() {
    let (outcome, x, rotations) = semidefinite(&[5.0, 0.0, -5.0], 1);
    assert_eq!((outcome, rotations), (Ok(()), 0));
    assert!((x[0] - 5.0).abs() <= 1e-6 && x[1] == 0.0 && x[2] == 0.0);
}

#[test]
fn semidefinite_sweep_limit() {
    let (outcome, _, rotations) = semidefinite(&[0.0, 1.0, 0.0], 1);
    assert_eq!((outcome, rotations), (Err(()), 1));
    let (outcome, x, rotations) = semidefinite(&[0.0, 1.0, 0.0], 2);
    assert_eq!((outcome, rotations), (Ok(()), 1));
    assert!(x
        .iter()
        .zip([0.35355, 0.5, 0.35355])
        .all(|(a, b)| (a - b).abs() < 1e-4));
    // Three by three: more than one pair to a sweep.
    let (outcome, _, rotations) = semidefinite(&[1.0, 2.0, -3.0, 4.0, 5.0, 6.0], 1);
    assert_eq!((outcome, rotations), (Err(()), 3));
}

/// The cone adds to the kernel the scaling by the root of 2, and nothing else.
#[test]
fn semidefinite_is_the_eigenvalue_map() {
    let x = [1.0, 2.0, -3.0, 4.0, 5.0, 6.0];
    let (_, projected, rotations) = semidefinite(&x, 64);
    let mut mapped = x.map(Seen);
    watch(64);
    let scale = Some(Seen(ask::root(2.0)));
    ask::map_eig(&mut mapped, scale, Seen(1e-12), &mut [Seen(0.0); 12]).unwrap();
    assert_eq!(words(&mapped.map(|v| v.0)), words(&projected));
    assert_eq!(sight().rotations, rotations);
}

/// The original was still rotating this one after a million sweeps; the limit ends it.
#[test]
fn endless_sweeps_are_cut_off() {
    let x = [0.0, 1e100, 0.0, 0.0, 1e150, 0.0, 1e300, 1e200, 0.0, -1e100];
    for limit in [64, 5000] {
        let (outcome, _, rotations) = semidefinite(&x, limit);
        assert!(outcome.is_err() && rotations >= limit as u64);
    }
}

fn empty(eps_zero: f64, max_iter: usize) -> Problem {
    Problem {
        a_type: MatType::General(0, 0),
        c: vec![],
        a: vec![],
        b: vec![],
        blocks: vec![],
        max_iter,
        sweep_limit: 64,
        eps_acc: 1e-6,
        eps_inf: 1e-6,
        eps_zero,
        edition: 1,
    }
}

#[test]
fn empty_problem() {
    let answer = empty(1e-12, 1000).solve();
    assert_eq!(answer.ending, Ending::Converged([0.0; 3]));
    assert_eq!((answer.k, answer.q, answer.work.len()), (1, 0, 6));
}

/// A diagonal of 1/0 makes tau a NaN, and the larger of it and 0 is 0.
#[test]
fn empty_problem_without_tolerance() {
    let answer = empty(0.0, 1).solve();
    assert_eq!(
        answer.ending,
        Ending::ExcessIterUnscaled([f64::INFINITY; 2])
    );
}

/// The packed matrix of order 0, on which the original stops, is as good as the dense one.
#[test]
fn empty_packed_problem() {
    for (eps_zero, max_iter) in [(1e-12, 1000), (0.0, 1)] {
        let dense = empty(eps_zero, max_iter).solve();
        let packed = Problem {
            a_type: MatType::SymPack(0),
            ..empty(eps_zero, max_iter)
        };
        let answer = packed.solve();
        assert!(packed.stops());
        assert_eq!((answer.ending, answer.k), (dense.ending, dense.k));
        assert_eq!(words(&answer.work), words(&dense.work));
    }
}

/// Request (ix) of document 02: a reading of −10^200, and no objective. The residual's norm is 10^200 and b's Frobenius norm infinite. With the
/// original's own norm both are infinite, and the criterion is NaN.
#[test]
fn a_very_large_reading() {
    let problem = Problem {
        a_type: MatType::General(1, 1),
        c: vec![0.0],
        a: vec![1.0],
        b: vec![-1e200],
        blocks: vec![Block {
            kind: Kind::Nonnegative,
            size: 1,
        }],
        ..empty(1e-12, 1)
    };
    let answer = problem.solve();
    assert_eq!(answer.ending, Ending::Converged([0.0; 3]));
    assert_eq!((answer.k, answer.large_norms), (1, 2));
    assert!(problem.plain_form(&answer).verdict.is_ok());
    let before = problem.solve_before();
    assert!(matches!(before.ending, Ending::ExcessIter([pri, ..]) if pri.is_nan()));
    assert_eq!(before.large_norms, 0);
}

#[test]
fn cone_failure_names_its_block() {
    let block = |kind, size| Block { kind, size };
    let problem = Problem {
        a_type: MatType::General(4, 1),
        c: vec![1.0],
        a: vec![1.0, 2.0, 3.0, 4.0],
        b: vec![1.0, 2.0, 3.0, 5.0],
        blocks: vec![
            block(Kind::Nonnegative, 1),
            block(Kind::Zero, 0),
            block(Kind::Semidefinite, 3),
        ],
        max_iter: 1000,
        sweep_limit: 1,
        eps_acc: 1e-6,
        eps_inf: 1e-6,
        eps_zero: 1e-12,
        edition: 1,
    };
    let answer = problem.solve();
    assert_eq!(answer.ending, Ending::ConeFailure(2));
    assert!(answer.k >= 1 && answer.q >= 1);
    assert!(answer.work.iter().all(|w| w.to_bits() == 0));
}

#[test]
fn cone_words() {
    let block = Block::read(0x4003).unwrap();
    assert_eq!(
        block,
        Block {
            kind: Kind::SecondOrder,
            size: 3
        }
    );
    assert_eq!(block.word(), 0x4003);
    assert_eq!(Block::read(0xa000), None);
    assert!(Block::read(0x8003).is_some() && Block::read(0x8004).is_none());
}
