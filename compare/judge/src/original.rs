//! Single helpers and kernels, answered by the original.

use num_traits::Float;
use std::panic::{catch_unwind, resume_unwind, AssertUnwindSafe};
use totsu_core::solver::{Cone, LinAlg, Operator};
use totsu_core::{
    ConePSD, ConeRPos, ConeRotSOC, ConeSOC, ConeZero, FloatGeneric, LinAlgEx, MatOp, MatType,
};

use crate::ruled_norm::Algebra;
use crate::seen::{Number, SweepLimit};

pub type L = FloatGeneric<f64>;

// Float helpers: through the trait, as the original calls them.

pub fn root(x: f64) -> f64 {
    Float::sqrt(x)
}

pub fn magnitude(x: f64) -> f64 {
    Float::abs(x)
}

pub fn larger(a: f64, b: f64) -> f64 {
    Float::max(a, b)
}

pub fn smaller(a: f64, b: f64) -> f64 {
    Float::min(a, b)
}

pub fn reciprocal(x: f64) -> f64 {
    Float::recip(x)
}

// Kernels: what is changed in place is given by value and handed back.

pub fn norm(x: &[f64]) -> f64 {
    L::norm(x)
}

pub fn copy(x: &[f64], mut y: Vec<f64>) -> Vec<f64> {
    L::copy(x, &mut y);
    y
}

pub fn scale(alpha: f64, mut x: Vec<f64>) -> Vec<f64> {
    L::scale(alpha, &mut x);
    x
}

pub fn add(alpha: f64, x: &[f64], mut y: Vec<f64>) -> Vec<f64> {
    L::add(alpha, x, &mut y);
    y
}

pub fn adds(s: f64, mut y: Vec<f64>) -> Vec<f64> {
    L::adds(s, &mut y);
    y
}

pub fn abssum(x: &[f64], step: usize) -> f64 {
    L::abssum(x, step)
}

pub fn transform_di(alpha: f64, mat: &[f64], x: &[f64], beta: f64, mut y: Vec<f64>) -> Vec<f64> {
    L::transform_di(alpha, mat, x, beta, &mut y);
    y
}

pub fn transform_ge(
    transpose: bool,
    (rows, cols): (usize, usize),
    alpha: f64,
    mat: &[f64],
    x: &[f64],
    beta: f64,
    mut y: Vec<f64>,
) -> Vec<f64> {
    L::transform_ge(transpose, rows, cols, alpha, mat, x, beta, &mut y);
    y
}

pub fn transform_sp(
    n: usize,
    alpha: f64,
    mat: &[f64],
    x: &[f64],
    beta: f64,
    mut y: Vec<f64>,
) -> Vec<f64> {
    L::transform_sp(n, alpha, mat, x, beta, &mut y);
    y
}

// The matrix operator.

pub fn op(
    typ: MatType,
    mat: &[f64],
    alpha: f64,
    x: &[f64],
    beta: f64,
    mut y: Vec<f64>,
) -> Vec<f64> {
    MatOp::<L>::new(typ, mat).op(alpha, x, beta, &mut y);
    y
}

pub fn trans_op(
    typ: MatType,
    mat: &[f64],
    alpha: f64,
    x: &[f64],
    beta: f64,
    mut y: Vec<f64>,
) -> Vec<f64> {
    MatOp::<L>::new(typ, mat).trans_op(alpha, x, beta, &mut y);
    y
}

pub fn absadd_cols(typ: MatType, mat: &[f64], mut y: Vec<f64>) -> Vec<f64> {
    MatOp::<L>::new(typ, mat).absadd_cols(&mut y);
    y
}

pub fn absadd_rows(typ: MatType, mat: &[f64], mut y: Vec<f64>) -> Vec<f64> {
    MatOp::<L>::new(typ, mat).absadd_rows(&mut y);
    y
}

/// The empty matrices on whose column sums the original stops.
pub fn stops_on_column_sums(typ: MatType) -> bool {
    matches!(typ, MatType::SymPack(0))
}

/// The empty matrices on whose row sums the original stops.
pub fn stops_on_row_sums(typ: MatType) -> bool {
    matches!(typ, MatType::SymPack(0)) || matches!(typ, MatType::General(2.., 0))
}

// Cones.

#[derive(Clone, Copy, Debug, PartialEq)]
pub enum Kind {
    Zero,
    Nonnegative,
    SecondOrder,
    Rotated,
    Semidefinite,
}

pub const KINDS: [Kind; 5] = [
    Kind::Zero,
    Kind::Nonnegative,
    Kind::SecondOrder,
    Kind::Rotated,
    Kind::Semidefinite,
];

/// The order d of a semidefinite block of this size, if the size is d(d+1)/2.
pub fn order(size: usize) -> Option<usize> {
    (0..=size)
        .find(|d| d * (d + 1) / 2 >= size)
        .filter(|d| d * (d + 1) / 2 == size)
}

/// One block's projection, over the original's own linear algebra or one with another norm. `work` serves semidefinite blocks alone. With a watched number the
/// sweep limit in force makes it fail; with a plain f64 a Jacobi loop without end stays so.
pub fn proj<F: Number, L: Algebra<F>>(
    kind: Kind,
    dual: bool,
    x: &mut [F],
    work: &mut [F],
    eps_zero: F,
) -> Result<(), ()> {
    match kind {
        Kind::Zero => ConeZero::<L>::new().proj(dual, x),
        Kind::Nonnegative => ConeRPos::<L>::new().proj(dual, x),
        Kind::SecondOrder => ConeSOC::<L>::new().proj(dual, x),
        Kind::Rotated => ConeRotSOC::<L>::new().proj(dual, x),
        Kind::Semidefinite => {
            let order = order(x.len()).expect("a triangular size");
            within_sweep_limit::<F>(order, || ConePSD::<L>::new(work, eps_zero).proj(dual, x))
        }
    }
}

/// The kernel below the semidefinite cone, with the cone's own map: eigenvalues above 0 stay.
pub fn map_eig<F: Number>(
    mat: &mut [F],
    scale_diag: Option<F>,
    eps_zero: F,
    work: &mut [F],
) -> Result<(), ()> {
    let order = order(mat.len()).expect("a triangular size");
    within_sweep_limit::<F>(order, || {
        FloatGeneric::<F>::map_eig(mat, scale_diag, eps_zero, work, |e| {
            Some(e).filter(|e| *e > F::zero())
        });
        Ok(())
    })
}

fn within_sweep_limit<F: Number>(
    order: usize,
    f: impl FnOnce() -> Result<(), ()>,
) -> Result<(), ()> {
    F::jacobi_begins(order);
    match catch_unwind(AssertUnwindSafe(f)) {
        Ok(answer) => answer,
        Err(cause) if cause.is::<SweepLimit>() => Err(()),
        Err(cause) => resume_unwind(cause),
    }
}

/// One block's grouping, by the group function the solver gives.
pub fn product_group<F: Number, L: Algebra<F>>(
    kind: Kind,
    dp_tau: &mut [F],
    group: impl Fn(&mut [F]) + Copy,
) {
    match kind {
        Kind::Zero => ConeZero::<L>::new().product_group(dp_tau, group),
        Kind::Nonnegative => ConeRPos::<L>::new().product_group(dp_tau, group),
        Kind::SecondOrder => ConeSOC::<L>::new().product_group(dp_tau, group),
        Kind::Rotated => ConeRotSOC::<L>::new().product_group(dp_tau, group),
        Kind::Semidefinite => ConePSD::<L>::new(&mut [], F::zero()).product_group(dp_tau, group),
    }
}
