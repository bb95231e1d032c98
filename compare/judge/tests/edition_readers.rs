//! Readers of request (xi) of document 02, a second edition of sums, that have it otherwise: each has another answer than the stored list, somewhere.

mod stored;

use std::marker::PhantomData;
use totsu_core::solver::LinAlg;
use totsu_core::LinAlgEx;

use judge::halved_sums::{Adding, By, HalvedSums, Halves};
use judge::handed::Handed;
use judge::original::order;
use judge::ruled_norm::{
    is_large, scaled_norm, Algebra, Norm, Own, Products, Ruled, RuledNorm, With, DOWN, UP,
};
use judge::seen::{Number, Seen};

use stored::{told, Run};

// Other ways to add up a range.

macro_rules! ways {
    ($($name:ident, |$terms:ident| $sum:expr;)*) => {
        $(
            #[derive(Clone)]
            struct $name;

            impl Adding for $name {
                fn sum<F: Number>($terms: &[F]) -> F {
                    $sum
                }
            }
        )*
    };
}

fn in_order<F: Number>(terms: &[F]) -> F {
    terms.iter().fold(F::zero(), |sum, term| sum + *term)
}

/// The term of a range of one; else the two parts that this place cuts it in, each added up by A.
fn cut<A: Adding, F: Number>(terms: &[F], at: usize) -> F {
    match terms {
        [] => F::zero(),
        [term] => *term,
        _ => {
            let (first, rest) = terms.split_at(at);
            A::sum(first) + A::sum(rest)
        }
    }
}

ways! {
    InOrder, |terms| in_order(terms);
    Backward, |terms| terms.iter().rev().fold(F::zero(), |sum, term| sum + *term);
    LargerFirst, |terms| cut::<Self, F>(terms, terms.len().div_ceil(2));
    PowerOfTwo, |terms| cut::<Self, F>(terms, terms.len().div_ceil(2).next_power_of_two());
    InEights, |terms| match terms.len() {
        2..=8 => in_order(terms),
        length => cut::<Self, F>(terms, length / 2),
    };
    FromZero, |terms| match terms {
        [term] => F::zero() + *term,
        _ => cut::<Self, F>(terms, terms.len() / 2),
    };
    OnceFromZero, |terms| F::zero() + Halves::sum(terms);
    EmptyIsMinus, |terms| match terms {
        [] => -F::zero(),
        _ => Halves::sum(terms),
    };
    OneCut, |terms| match terms.len() {
        0 | 1 => Halves::sum(terms),
        length => in_order(&terms[..length / 2]) + in_order(&terms[length / 2..]),
    };
}

// Other norms.

fn halved_squares<F: Number>(x: &[F]) -> F {
    let squares: Vec<F> = x.iter().map(|u| *u * *u).collect();
    Halves::sum(&squares)
}

fn halved_scaled<F: Number>(x: &[F]) -> F {
    let entries: Vec<F> = x.iter().map(|u| *u * F::of(DOWN)).collect();
    halved_squares(&entries).sqrt() * F::of(UP)
}

fn is_large_by_halves<F: Number>(x: &[F]) -> bool {
    halved_squares(x).plain().is_infinite() && x.iter().all(|u| u.plain().is_finite())
}

macro_rules! norms {
    ($($name:ident, |$x:ident| $norm:expr;)*) => {
        $(
            #[derive(Clone)]
            struct $name;

            impl Norm for $name {
                fn norm<F: Number>($x: &[F]) -> F {
                    $norm
                }
            }
        )*
    };
}

norms! {
    NoRescue, |x| halved_squares(x).sqrt();
    AsksInOrder, |x| match is_large(x) {
        true => halved_scaled(x),
        false => halved_squares(x).sqrt(),
    };
    TakesInOrder, |x| match is_large_by_halves(x) {
        true => scaled_norm(x, DOWN, UP),
        false => halved_squares(x).sqrt(),
    };
}

// Other products.

type ByHalves = By<Halves>;

macro_rules! products {
    ($($name:ident, |$transpose:ident, $cols:ident| $dense:expr, packed $packed:expr;)*) => {
        $(
            /// By halves where this says so, else in order.
            #[derive(Clone)]
            struct $name;

            impl Products for $name {
                fn dense<F: Number>(
                    $transpose: bool,
                    shape: (usize, usize),
                    alpha: F,
                    mat: &[F],
                    x: &[F],
                    beta: F,
                    y: &mut [F],
                ) {
                    let $cols = shape.1;
                    if $dense {
                        ByHalves::dense($transpose, shape, alpha, mat, x, beta, y);
                    } else {
                        Own::dense($transpose, shape, alpha, mat, x, beta, y);
                    }
                }

                fn packed<F: Number>(n: usize, alpha: F, mat: &[F], x: &[F], beta: F, y: &mut [F]) {
                    if $packed {
                        ByHalves::packed(n, alpha, mat, x, beta, y);
                    } else {
                        Own::packed(n, alpha, mat, x, beta, y);
                    }
                }
            }
        )*
    };
}

products! {
    // c and b are matrices of one column.
    NotOneColumn, |_transpose, cols| cols > 1, packed true;
    OneColumnAlone, |_transpose, cols| cols == 1, packed false;
    NotTransposed, |transpose, _cols| !transpose, packed true;
    TransposedAlone, |transpose, _cols| transpose, packed true;
    NotPacked, |_transpose, _cols| true, packed false;
}

/// 0 where beta is, whatever y is.
#[derive(Clone)]
struct ClearsByZero;

impl Products for ClearsByZero {
    fn dense<F: Number>(
        transpose: bool,
        shape: (usize, usize),
        alpha: F,
        mat: &[F],
        x: &[F],
        beta: F,
        y: &mut [F],
    ) {
        if beta.plain() == 0.0 {
            y.fill(F::zero());
        }
        ByHalves::dense(transpose, shape, alpha, mat, x, beta, y);
    }

    fn packed<F: Number>(n: usize, alpha: F, mat: &[F], x: &[F], beta: F, y: &mut [F]) {
        if beta.plain() == 0.0 {
            y.fill(F::zero());
        }
        ByHalves::packed(n, alpha, mat, x, beta, y);
    }
}

/// Absolute sums by halves as well, or the sums that build a semidefinite block anew.
#[derive(Clone)]
struct Also<const ABSSUM: bool, const BUILT: bool, F> {
    number: PhantomData<F>,
}

type AlsoAbssum = Also<true, false, Seen>;
type AlsoBuilt = Also<false, true, Seen>;

type H<F> = HalvedSums<F>;

impl<const ABSSUM: bool, const BUILT: bool, F: Number> LinAlg for Also<ABSSUM, BUILT, F> {
    type F = F;
    type Sl = [F];

    fn norm(x: &[F]) -> F {
        H::norm(x)
    }

    fn copy(x: &[F], y: &mut [F]) {
        H::copy(x, y);
    }

    fn scale(alpha: F, x: &mut [F]) {
        H::scale(alpha, x);
    }

    fn add(alpha: F, x: &[F], y: &mut [F]) {
        H::add(alpha, x, y);
    }

    fn adds(s: F, y: &mut [F]) {
        H::adds(s, y);
    }

    fn abssum(x: &[F], incx: usize) -> F {
        if !ABSSUM {
            return H::abssum(x, incx);
        }
        let terms: Vec<F> = match incx {
            0 => vec![],
            _ => x.iter().step_by(incx).map(|u| u.abs()).collect(),
        };
        Halves::sum(&terms)
    }

    fn transform_di(alpha: F, mat: &[F], x: &[F], beta: F, y: &mut [F]) {
        H::transform_di(alpha, mat, x, beta, y);
    }
}

impl<const ABSSUM: bool, const BUILT: bool, F: Number> LinAlgEx for Also<ABSSUM, BUILT, F> {
    fn transform_ge(
        transpose: bool,
        n_row: usize,
        n_col: usize,
        alpha: F,
        mat: &[F],
        x: &[F],
        beta: F,
        y: &mut [F],
    ) {
        H::transform_ge(transpose, n_row, n_col, alpha, mat, x, beta, y);
    }

    fn transform_sp(n: usize, alpha: F, mat: &[F], x: &[F], beta: F, y: &mut [F]) {
        H::transform_sp(n, alpha, mat, x, beta, y);
    }

    fn map_eig_worklen(n: usize) -> usize {
        H::<F>::map_eig_worklen(n)
    }

    fn map_eig<M: Fn(F) -> Option<F>>(
        mat: &mut [F],
        scale_diag: Option<F>,
        eps_zero: F,
        work: &mut [F],
        map: M,
    ) {
        H::map_eig(mat, scale_diag, eps_zero, work, &map);
        if BUILT {
            built_by_halves(mat, scale_diag, work, map);
        }
    }
}

/// Builds the block anew from the eigenvalues and vectors in work.
fn built_by_halves<F: Number>(
    mat: &mut [F],
    scale_diag: Option<F>,
    work: &[F],
    map: impl Fn(F) -> Option<F>,
) {
    let order = order(mat.len()).expect("a triangular size");
    let (values, vectors) = work.split_at(order);
    let mapped = || (0..order).filter_map(|i| Some((map(values[i])?, &vectors[i * order..])));
    let mut at = 0;
    for col in 0..order {
        for row in 0..=col {
            let terms: Vec<F> = mapped().map(|(e, z)| e * z[row] * z[col]).collect();
            mat[at] = Halves::sum(&terms);
            if let Some(scale) = scale_diag.filter(|_| row == col) {
                mat[at] = mat[at] * scale.recip();
            }
            at += 1;
        }
    }
}

// What a reading makes of the list.

/// A run of more steps is had by no other reading: it may not end.
const MOST_STEPS: usize = 20_000;

const REFUSED: u64 = 6;

/// The records of runs in edition two.
fn runs() -> Vec<Run> {
    let all = stored::editions().into_iter();
    all.filter(|run| run.handed.edition == 2 && run.number > REFUSED)
        .collect()
}

/// How many have another answer, with this linear algebra in the solver and this one in the blocks.
fn differing<L: Algebra<Seen>, C: Algebra<Seen>>(runs: &[Run]) -> usize {
    let unlike = runs.iter().filter(|run| {
        let problem = run.handed.problem();
        problem.max_iter <= MOST_STEPS && told(&problem.solve_over::<L, C>()) != run.answer
    });
    unlike.count()
}

#[test]
fn the_rule_has_every_stored_answer() {
    type Request = HalvedSums<Seen>;
    assert_eq!(differing::<Request, Request>(&runs()), 0);
    for run in stored::editions() {
        match run.handed.refusal() {
            Some(number) => assert_eq!(run.number, number),
            None => assert_eq!(run.answer, told(&run.handed.problem().solve())),
        }
    }
}

#[test]
fn every_other_reader_is_told() {
    let runs = runs();
    macro_rules! told {
        ($($name:expr, $solver:ty, $blocks:ty, $least:expr;)*) => {
            $(
                let met = differing::<$solver, $blocks>(&runs);
                println!("{met} {}", $name);
                assert!(met >= $least, "{}: {met}", $name);
            )*
        };
    }
    macro_rules! ways {
        ($($name:expr, $way:ty, $least:expr;)*) => {
            told! { $($name, With<By<$way>, Seen, By<$way>>, With<By<$way>, Seen, By<$way>>, $least;)* }
        };
    }
    ways! {
        "in order, as in edition one", InOrder, 700;
        "in order from the last", Backward, 500;
        "the larger half first", LargerFirst, 300;
        "cut at a power of two", PowerOfTwo, 100;
        "cut once", OneCut, 100;
        "in order up to eight terms", InEights, 500;
        "a range of one is +0 and its term", FromZero, 20;
        "each sum is added to +0", OnceFromZero, 20;
        "an empty range is -0", EmptyIsMinus, 4;
    }
    type Halved = HalvedSums<Seen>;
    type NormsInOrder = With<Ruled, Seen, ByHalves>;
    type Products<P> = With<ByHalves, Seen, P>;
    type Norms<N> = With<N, Seen, ByHalves>;
    told! {
        "products in order", Products<Own>, Halved, 500;
        "norms in order", NormsInOrder, RuledNorm<Seen>, 100;
        "norms of blocks in order", Halved, RuledNorm<Seen>, 20;
        "norms of the criteria in order", NormsInOrder, Halved, 100;
        "products with b and c in order", Products<NotOneColumn>, Halved, 100;
        "products with A in order", Products<OneColumnAlone>, Halved, 100;
        "transposed products in order", Products<NotTransposed>, Halved, 100;
        "products that are not transposed in order", Products<TransposedAlone>, Halved, 100;
        "packed products in order", Products<NotPacked>, Halved, 50;
        "beta of 0 clears", Products<ClearsByZero>, Halved, 20;
        "no norm is scaled", Norms<NoRescue>, Norms<NoRescue>, 50;
        "no norm of a block is scaled", Halved, Norms<NoRescue>, 1;
        "the sum in order tells whether a norm is scaled", Norms<AsksInOrder>, Norms<AsksInOrder>, 5;
        "a scaled norm is added up in order", Norms<TakesInOrder>, Norms<TakesInOrder>, 8;
        "absolute sums by halves", AlsoAbssum, Halved, 100;
        "semidefinite blocks built by halves", Halved, AlsoBuilt, 8;
    }
}

/// The editions that another reading would take, or would refuse by another row.
#[test]
fn every_other_edition_is_told() {
    let all = stored::editions();
    let count = |name: &str, least: usize, read: &dyn Fn(&Handed) -> Option<u64>| {
        let met = all.iter().filter(|run| {
            let number = (run.number <= REFUSED).then_some(run.number);
            read(&run.handed) != number
        });
        let met = met.count();
        println!("{met} {name}");
        assert!(met >= least, "{name}: {met}");
    };
    let with = |p: &Handed, edition: u32| Handed {
        edition,
        ..p.clone()
    };
    count("any edition is taken", 20, &|p| with(p, 1).refusal());
    count("edition 0 is edition one", 3, &|p| {
        with(p, p.edition.max(1)).refusal()
    });
    count("above two is edition two", 20, &|p| {
        with(p, p.edition.min(2)).refusal()
    });
    count("the last eight bits tell", 3, &|p| {
        with(p, p.edition & 0xff).refusal()
    });
    count("the last 16 bits tell", 3, &|p| {
        with(p, p.edition & 0xffff).refusal()
    });
    count("every other row comes first", 10, &|p| {
        with(p, 1).refusal().or(p.refusal())
    });
    count("edition two is refused", 900, &|p| match p.edition {
        2 => Some(1),
        _ => p.refusal(),
    });
}
