//! The original's linear algebra, but for the norm: request (ix) of document 02, norms of very large readings. All else of a run is the
//! original's, which is generic over it. `halved_sums` has other products of matrices besides.

use std::marker::PhantomData;
use totsu_core::solver::LinAlg;
use totsu_core::{FloatGeneric, LinAlgEx};

use crate::seen::Number;

/// A linear algebra over slices of a number: the original's own, or one with another norm.
pub trait Algebra<F>: LinAlgEx<F = F, Sl = [F]> {}

impl<F, L: LinAlgEx<F = F, Sl = [F]>> Algebra<F> for L {}

/// A way to take norms.
pub trait Norm: Clone {
    fn norm<F: Number>(x: &[F]) -> F;
}

/// A way to take the products of a matrix, dense and packed: alpha times the matrix times x, and beta times y.
pub trait Products: Clone {
    /// Rows and columns are those of the matrix as it is stored.
    fn dense<F: Number>(
        transpose: bool,
        shape: (usize, usize),
        alpha: F,
        mat: &[F],
        x: &[F],
        beta: F,
        y: &mut [F],
    );

    fn packed<F: Number>(order: usize, alpha: F, mat: &[F], x: &[F], beta: F, y: &mut [F]);
}

/// The original's own products.
#[derive(Clone)]
pub struct Own;

impl Products for Own {
    fn dense<F: Number>(
        transpose: bool,
        (rows, cols): (usize, usize),
        alpha: F,
        mat: &[F],
        x: &[F],
        beta: F,
        y: &mut [F],
    ) {
        FloatGeneric::transform_ge(transpose, rows, cols, alpha, mat, x, beta, y);
    }

    fn packed<F: Number>(order: usize, alpha: F, mat: &[F], x: &[F], beta: F, y: &mut [F]) {
        FloatGeneric::transform_sp(order, alpha, mat, x, beta, y);
    }
}

/// The original's in everything but the norm, and the products where others are named.
#[derive(Clone)]
pub struct With<N, F, P = Own> {
    parts: PhantomData<(N, F, P)>,
}

/// The request's norm.
#[derive(Clone)]
pub struct Ruled;

/// With the request's norm.
pub type RuledNorm<F> = With<Ruled, F>;

/// 2^600 and 2^−600.
pub const UP: f64 = power_of_2(600);
pub const DOWN: f64 = power_of_2(-600);

pub const fn power_of_2(exponent: i64) -> f64 {
    f64::from_bits(((1023 + exponent) as u64) << 52)
}

/// The squares, added up from 0 in order.
pub fn plain_sum<F: Number>(x: &[F]) -> F {
    x.iter().fold(F::zero(), |sum, u| sum + *u * *u)
}

/// Whether the request speaks: the plain sum is infinite while all entries are finite.
pub fn is_large<F: Number>(x: &[F]) -> bool {
    plain_sum(x).plain().is_infinite() && x.iter().all(|u| u.plain().is_finite())
}

/// The plain norm of the entries times `down`, times `up`.
pub fn scaled_norm<F: Number>(x: &[F], down: f64, up: f64) -> F {
    let entries: Vec<F> = x.iter().map(|u| *u * F::of(down)).collect();
    FloatGeneric::norm(&entries) * F::of(up)
}

impl Norm for Ruled {
    fn norm<F: Number>(x: &[F]) -> F {
        if is_large(x) {
            F::large_norm();
            scaled_norm(x, DOWN, UP)
        } else {
            FloatGeneric::norm(x)
        }
    }
}

/// The request's norm of plain numbers.
pub fn norm(x: &[f64]) -> f64 {
    Ruled::norm(x)
}

impl<N: Norm, F: Number, P: Products> LinAlg for With<N, F, P> {
    type F = F;
    type Sl = [F];

    fn norm(x: &[F]) -> F {
        N::norm(x)
    }

    fn copy(x: &[F], y: &mut [F]) {
        FloatGeneric::copy(x, y);
    }

    fn scale(alpha: F, x: &mut [F]) {
        FloatGeneric::scale(alpha, x);
    }

    fn add(alpha: F, x: &[F], y: &mut [F]) {
        FloatGeneric::add(alpha, x, y);
    }

    fn adds(s: F, y: &mut [F]) {
        FloatGeneric::adds(s, y);
    }

    fn abssum(x: &[F], incx: usize) -> F {
        FloatGeneric::abssum(x, incx)
    }

    fn transform_di(alpha: F, mat: &[F], x: &[F], beta: F, y: &mut [F]) {
        FloatGeneric::transform_di(alpha, mat, x, beta, y);
    }
}

impl<N: Norm, F: Number, P: Products> LinAlgEx for With<N, F, P> {
    fn transform_ge(
        transpose: bool,
        n_row: usize,
        n_col: usize,
        alpha: F,
        mat: &[F],
        x: &[F],
        beta: F,
        y: &mut [F],
    ) {
        P::dense(transpose, (n_row, n_col), alpha, mat, x, beta, y);
    }

    fn transform_sp(n: usize, alpha: F, mat: &[F], x: &[F], beta: F, y: &mut [F]) {
        P::packed(n, alpha, mat, x, beta, y);
    }

    fn map_eig_worklen(n: usize) -> usize {
        FloatGeneric::<F>::map_eig_worklen(n)
    }

    fn map_eig<M: Fn(F) -> Option<F>>(
        mat: &mut [F],
        scale_diag: Option<F>,
        eps_zero: F,
        work: &mut [F],
        map: M,
    ) {
        FloatGeneric::map_eig(mat, scale_diag, eps_zero, work, map);
    }
}

#[cfg(test)]
mod tests {
    use super::*;
    use crate::original as ask;
    use crate::seen::{sight, watch, Seen};
    use crate::words::word;

    const MAX: f64 = f64::MAX;

    fn is(x: &[f64], norm: f64) {
        assert_eq!(word(super::norm(x)), word(norm), "{x:?}");
    }

    #[test]
    fn factors() {
        assert_eq!((UP, DOWN), (2f64.powi(600), 2f64.powi(-600)));
    }

    #[test]
    fn by_hand() {
        is(&[1e200], 1e200);
        is(&[-1e200, 0.0], 1e200);
        is(&[3.0 * UP, 4.0 * UP], 5.0 * UP);
        is(&[-5.0 * UP, 12.0 * UP], 13.0 * UP);
        is(&[MAX], MAX);
        is(&[-MAX, 1e292, 1.0], MAX);
        is(&[power_of_2(512)], power_of_2(512));
        is(&[power_of_2(512); 4], power_of_2(513));
        // 2^−1100 and 2^−1074 of the entries are 0 or the smallest number; either way the square is 0.
        is(&[power_of_2(512), power_of_2(-500)], power_of_2(512));
        is(&[power_of_2(512), power_of_2(-474)], power_of_2(512));
        // The largest number times 2^−600, twice, is the root of 2 times it, which 2^600 takes past the largest.
        is(&[MAX, MAX], f64::INFINITY);
        is(&[MAX, MAX / 2.0], f64::INFINITY);
        is(
            &[power_of_2(1023), power_of_2(1023)],
            2f64.sqrt() * power_of_2(1023),
        );
    }

    /// The scaling is exact for the large entries, and the plain norm rounds as it does near 1.
    #[test]
    fn as_near_1() {
        for x in [[1.1, 1.3], [1e-9, 1.7], [1.0 + 1e-15, 1e-8]] {
            let large = x.map(|u| u * power_of_2(700));
            is(&large, ask::norm(&x) * power_of_2(700));
        }
    }

    /// Where an entry is infinite or NaN, or the plain sum is finite, the norm is the original's.
    #[test]
    fn otherwise_unchanged() {
        let below = f64::from_bits(power_of_2(512).to_bits() - 1);
        for x in [
            &[][..],
            &[0.0],
            &[3.0, 4.0],
            &[1e-200],
            &[f64::INFINITY, 1e200],
            &[1e200, f64::NEG_INFINITY],
            &[f64::NAN, 1e200],
            &[f64::INFINITY, f64::NAN],
            &[below],
            &[below, 1e100],
            &[power_of_2(511); 2],
            &[power_of_2(511), power_of_2(511), power_of_2(511)],
        ] {
            assert!(!is_large(x), "{x:?}");
            is(x, ask::norm(x));
        }
        is(&[f64::INFINITY, 1e200], f64::INFINITY);
        is(&[f64::NAN, 1e200], f64::NAN);
        // The scaled norm of these is another.
        assert_eq!(scaled_norm(&[3.0, 4.0], DOWN, UP), 0.0);
    }

    /// The border: four times 2^511 is 2^1024, and three times is finite.
    #[test]
    fn the_border() {
        assert!(is_large(&[power_of_2(512)]));
        assert!(is_large(&[power_of_2(511); 4]));
        assert!(!is_large(&[power_of_2(511); 3]));
        // An addition that rounds up to 2^1024, and one that does not.
        let below = f64::from_bits(power_of_2(512).to_bits() - 1);
        assert!(is_large(&[below, power_of_2(486)]));
        assert!(!is_large(&[below, power_of_2(485)]));
    }

    #[test]
    fn calls_are_counted() {
        watch(1);
        let of = |x: [f64; 2]| Ruled::norm(&x.map(Seen)).0;
        assert_eq!(of([3.0, 4.0]), 5.0);
        assert_eq!(of([f64::INFINITY, 1e200]), f64::INFINITY);
        assert_eq!(sight().large_norms, 0);
        assert_eq!(of([3e200, 4e200]), of([4e200, 3e200]));
        assert_eq!(of([MAX, MAX]), f64::INFINITY);
        assert_eq!(sight().large_norms, 3);
    }
}
