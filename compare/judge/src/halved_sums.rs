//! The original's linear algebra, but for norms and matrix products, which add up a range by halves: request (xi) of document 02, a second edition of sums. Absolute sums,
//! grouping and all of a semidefinite block stay the original's.

use std::marker::PhantomData;

use crate::ruled_norm::{Norm, Products, With, DOWN, UP};
use crate::seen::Number;

/// A way to add up a range.
pub trait Adding: Clone {
    fn sum<F: Number>(terms: &[F]) -> F;
}

/// The request's.
#[derive(Clone)]
pub struct Halves;

impl Adding for Halves {
    fn sum<F: Number>(terms: &[F]) -> F {
        match terms {
            [] => F::zero(),
            [term] => *term,
            _ => {
                let (first, rest) = terms.split_at(terms.len() / 2);
                Self::sum(first) + Self::sum(rest)
            }
        }
    }
}

/// Norms and products in this way of adding.
#[derive(Clone)]
pub struct By<A> {
    adding: PhantomData<A>,
}

/// With the request's norms and products.
pub type HalvedSums<F> = With<By<Halves>, F, By<Halves>>;

fn sum_of_squares<A: Adding, F: Number>(x: &[F]) -> F {
    let squares: Vec<F> = x.iter().map(|u| *u * *u).collect();
    A::sum(&squares)
}

/// Request (ix) asks and takes sums in the same way.
impl<A: Adding> Norm for By<A> {
    fn norm<F: Number>(x: &[F]) -> F {
        let sum = sum_of_squares::<A, F>(x);
        if sum.plain().is_infinite() && x.iter().all(|u| u.plain().is_finite()) {
            F::large_norm();
            let entries: Vec<F> = x.iter().map(|u| *u * F::of(DOWN)).collect();
            sum_of_squares::<A, F>(&entries).sqrt() * F::of(UP)
        } else {
            sum.sqrt()
        }
    }
}

/// Each row, of these entries, by a way of adding.
fn transformed<A: Adding, F: Number>(
    entry: impl Fn(usize, usize) -> F,
    alpha: F,
    x: &[F],
    beta: F,
    y: &mut [F],
) {
    for (row, v) in y.iter_mut().enumerate() {
        let numbers = x.iter().enumerate();
        let terms: Vec<F> = numbers.map(|(col, u)| entry(row, col) * *u).collect();
        *v = alpha * A::sum(&terms) + beta * *v;
    }
}

impl<A: Adding> Products for By<A> {
    fn dense<F: Number>(
        transpose: bool,
        (rows, cols): (usize, usize),
        alpha: F,
        mat: &[F],
        x: &[F],
        beta: F,
        y: &mut [F],
    ) {
        assert_eq!(mat.len(), rows * cols);
        if transpose {
            assert_eq!((x.len(), y.len()), (rows, cols));
            transformed::<A, F>(|row, col| mat[row * rows + col], alpha, x, beta, y);
        } else {
            assert_eq!((x.len(), y.len()), (cols, rows));
            transformed::<A, F>(|row, col| mat[col * rows + row], alpha, x, beta, y);
        }
    }

    fn packed<F: Number>(order: usize, alpha: F, mat: &[F], x: &[F], beta: F, y: &mut [F]) {
        assert_eq!(mat.len(), order * (order + 1) / 2);
        assert_eq!((x.len(), y.len()), (order, order));
        let entry = |row: usize, col: usize| {
            let (low, high) = (row.min(col), row.max(col));
            mat[high * (high + 1) / 2 + low]
        };
        transformed::<A, F>(entry, alpha, x, beta, y);
    }
}

#[cfg(test)]
mod tests {
    use super::*;
    use crate::draw::{factor, numbers, SORTS};
    use crate::families::{small, FAMILIES};
    use crate::original as ask;
    use crate::random::Random;
    use crate::ruled_norm::{is_large, norm, power_of_2, RuledNorm};
    use crate::seen::{sight, watch, Seen};
    use crate::words::{word, words};
    use totsu_core::solver::{LinAlg, Operator};
    use totsu_core::{LinAlgEx, MatOp, MatType};

    type L = HalvedSums<f64>;

    /// The original's way: from +0, by rising index.
    #[derive(Clone)]
    struct InOrder;

    impl Adding for InOrder {
        fn sum<F: Number>(terms: &[F]) -> F {
            terms.iter().fold(F::zero(), |sum, term| sum + *term)
        }
    }

    fn halved(terms: &[f64]) -> u64 {
        word(Halves::sum(terms))
    }

    /// The ranges of the request's sentence, written out.
    fn is_written_out(t: &[f64; 8]) {
        let [a, b, c, d, e, f, g, h] = *t;
        assert_eq!(halved(&[]), 0);
        assert_eq!(halved(&[a]), word(a));
        assert_eq!(halved(&[a, b]), word(a + b));
        assert_eq!(halved(&[a, b, c]), word(a + (b + c)));
        assert_eq!(halved(&[a, b, c, d]), word((a + b) + (c + d)));
        assert_eq!(halved(&[a, b, c, d, e]), word((a + b) + (c + (d + e))));
        let six = (a + (b + c)) + (d + (e + f));
        assert_eq!(halved(&[a, b, c, d, e, f]), word(six));
        let seven = (a + (b + c)) + ((d + e) + (f + g));
        assert_eq!(halved(&[a, b, c, d, e, f, g]), word(seven));
        let eight = ((a + b) + (c + d)) + ((e + f) + (g + h));
        assert_eq!(halved(t), word(eight));
    }

    #[test]
    fn up_to_eight() {
        let mut random = Random::new(1);
        for sort in SORTS {
            for _ in 0..200 {
                let terms = numbers(&mut random, sort, 8);
                is_written_out(&terms.try_into().unwrap());
            }
        }
    }

    #[test]
    fn zeros_of_one_term() {
        let minus = word(-0.0);
        assert_eq!(halved(&[-0.0]), minus);
        assert_eq!(halved(&[-0.0, -0.0]), minus);
        assert_eq!(halved(&[-0.0, 0.0]), 0);
        assert_eq!(word(InOrder::sum(&[-0.0])), 0);
    }

    #[test]
    fn another_than_in_order() {
        // 2^53 takes up two ones together, and neither by itself.
        let terms = [power_of_2(53), 1.0, 1.0];
        assert_eq!(Halves::sum(&terms), power_of_2(53) + 2.0);
        assert_eq!(InOrder::sum(&terms), power_of_2(53));
        let terms = [1.0, power_of_2(53), -power_of_2(53)];
        assert_eq!((Halves::sum(&terms), InOrder::sum(&terms)), (1.0, 0.0));
        // Ones of any count are exact.
        for count in 0..300 {
            assert_eq!(Halves::sum(&vec![1.0; count]), count as f64);
        }
    }

    #[test]
    fn norms() {
        let of = |x: &[f64]| word(L::norm(x));
        assert_eq!(of(&[]), 0);
        assert_eq!(of(&[-0.0]), 0);
        assert_eq!(of(&[3.0, 4.0]), word(5.0));
        assert_eq!(of(&[2.0, 3.0, 6.0]), word(7.0));
        let x = [power_of_2(27), 1.5, 1.5];
        assert_ne!(of(&x), word(norm(&x)));
        assert_eq!(of(&[f64::INFINITY, 1e200]), word(f64::INFINITY));
        assert_eq!(of(&[f64::NAN, 1e200]), word(f64::NAN));
        assert_eq!(of(&[3e200, 4e200]), word(norm(&[3e200, 4e200])));
        assert_eq!(of(&[1e200]), word(1e200));
    }

    /// Sums of squares that are infinite in the one way and finite in the other: each edition asks its own.
    #[test]
    fn the_rescue_asks_its_own_sum() {
        let below = f64::from_bits(power_of_2(512).to_bits() - 1);
        // The square of the first is one place below the largest number, that of each other half a place: in order each of these is lost in a tie.
        let lost = [&[below][..], &[power_of_2(485); 4]].concat();
        assert!(!is_large(&lost));
        assert!(norm(&lost) < power_of_2(512));
        watch(1);
        let seen: Vec<Seen> = lost.iter().map(|x| Seen(*x)).collect();
        assert_eq!(By::<Halves>::norm(&seen).0, power_of_2(512));
        assert_eq!(sight().large_norms, 1);
        // Here each is just more than half a place: in order the sum is taken up twice, by halves once.
        let more = power_of_2(485) * (1.0 + power_of_2(-40));
        let taken = [below, more, more];
        assert!(is_large(&taken));
        let seen = taken.map(Seen);
        assert_eq!(By::<Halves>::norm(&seen).0, f64::MAX.sqrt());
        assert_eq!(sight().large_norms, 1);
    }

    /// The rescued sum is by halves too.
    #[test]
    fn the_rescue_takes_its_own_sum() {
        let mut random = Random::new(2);
        let mut unlike = 0;
        for count in 1..40 {
            let x = numbers(&mut random, crate::draw::Sort::Ordinary, count);
            let large: Vec<f64> = x.iter().map(|u| u * power_of_2(700)).collect();
            let near_1 = L::norm(&x) * power_of_2(700);
            assert_eq!(word(L::norm(&large)), word(near_1));
            unlike += usize::from(word(norm(&large)) != word(near_1));
        }
        assert!(unlike > 5);
    }

    #[test]
    fn products_by_hand() {
        // Rows (2^53, 1, 1) and (1, 2^53, −2^53).
        let large = power_of_2(53);
        let mat = [large, 1.0, 1.0, large, 1.0, -large];
        let mut y = [1.0, 1.0];
        L::transform_ge(false, 2, 3, 1.0, &mat, &[1.0; 3], 0.0, &mut y);
        assert_eq!(y, [large + 2.0, 1.0]);
        // Columns.
        let mut y = [5.0, 5.0, 5.0];
        L::transform_ge(true, 2, 3, -1.0, &mat, &[1.0; 2], 2.0, &mut y);
        assert_eq!(y, [10.0 - (large + 1.0), 10.0 - (large + 1.0), 9.0 + large]);
        // Packed, with the rows (1, 2^53, −2^53), (2^53, 1, 1), (−2^53, 1, 1).
        let packed = [1.0, large, 1.0, -large, 1.0, 1.0];
        let mut y = [0.0; 3];
        L::transform_sp(3, 1.0, &packed, &[1.0; 3], 0.0, &mut y);
        assert_eq!(y, [1.0, large + 2.0, -large + 2.0]);
    }

    /// beta multiplies even when it is 0, and a range of one is its term: with c = −0 and 1 as x the row is −0.
    #[test]
    fn signs_of_one_column() {
        let c = [-0.0, 0.0, 3.0];
        let of = |y: f64| {
            let mut y = [y; 3];
            MatOp::<L>::new(MatType::General(3, 1), &c).op(1.0, &[1.0], 0.0, &mut y);
            words(&y)
        };
        assert_eq!(of(-5.0), words(&[-0.0, 0.0, 3.0]));
        assert_eq!(of(5.0), words(&[0.0, 0.0, 3.0]));
        let typ = MatType::General(3, 1);
        let before = ask::op(typ, &c, 1.0, &[1.0], 0.0, vec![-5.0; 3]);
        assert_eq!(words(&before), words(&[0.0, 0.0, 3.0]));
        // A matrix with no rows or no columns only scales.
        let mut y = [-5.0, f64::NAN];
        MatOp::<L>::new(MatType::General(2, 0), &[]).op(1.0, &[], 0.0, &mut y);
        assert_eq!(words(&y), words(&[-0.0, f64::NAN]));
    }

    /// Taken in order, norms and products are those of edition one, in every kernel and every run: nothing but the way of adding is lent.
    #[test]
    fn in_order_is_edition_one() {
        type Same<F> = With<By<InOrder>, F, By<InOrder>>;
        let mut random = Random::new(3);
        for turn in 0..2000 {
            let sort = SORTS[turn % SORTS.len()];
            let (rows, cols) = (random.within(0, 9), random.within(0, 9));
            let packed = random.one_in(3);
            let (rows, cols) = if packed { (rows, rows) } else { (rows, cols) };
            let typ = match packed {
                true => MatType::SymPack(rows),
                false => MatType::General(rows, cols),
            };
            let mat = numbers(&mut random, sort, typ.len());
            let (alpha, beta) = (factor(&mut random), factor(&mut random));
            let u = numbers(&mut random, sort, cols);
            let v = numbers(&mut random, sort, rows);
            let op = MatOp::<Same<f64>>::new(typ, &mat);
            let mut y = v.clone();
            op.op(alpha, &u, beta, &mut y);
            let own = ask::op(typ, &mat, alpha, &u, beta, v.clone());
            assert_eq!(words(&y), words(&own));
            let mut y = u.clone();
            op.trans_op(alpha, &v, beta, &mut y);
            let own = ask::trans_op(typ, &mat, alpha, &v, beta, u.clone());
            assert_eq!(words(&y), words(&own));
            assert_eq!(word(Same::<f64>::norm(&u)), word(norm(&u)));
        }
        for turn in 0..300 {
            let p = small(&mut random, FAMILIES[turn % FAMILIES.len()]).raised();
            let problem = p.problem();
            let one = problem.solve();
            let same = problem.solve_over::<Same<Seen>, Same<Seen>>();
            assert_eq!((one.k, one.q), (same.k, same.q));
            assert_eq!(words(&one.work), words(&same.work));
            assert_eq!(words(&one.cone_work), words(&same.cone_work));
            assert_eq!(one.large_norms, same.large_norms);
        }
    }

    /// A problem says in which edition it is run.
    #[test]
    fn runs_of_both_editions() {
        let mut random = Random::new(4);
        let mut unlike = 0;
        for turn in 0..200 {
            let family = FAMILIES[turn % FAMILIES.len()];
            let mut p = small(&mut random, family).raised();
            p.edition = 2;
            let two = p.problem().solve();
            p.edition = 1;
            let one = p.problem().solve();
            let by_norm = p.problem().solve_over::<RuledNorm<Seen>, RuledNorm<Seen>>();
            assert_eq!(words(&one.work), words(&by_norm.work));
            unlike += usize::from(words(&one.work) != words(&two.work));
        }
        assert!(unlike > 50);
    }
}
