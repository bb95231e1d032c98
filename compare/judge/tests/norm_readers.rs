//! Norms that have request (ix) of document 02 otherwise: each has another answer than the stored lists, somewhere, or is the same for all
//! numbers.

mod stored;

use std::cell::Cell;
use totsu_core::solver::{Cone, LinAlg};
use totsu_core::FloatGeneric;

use judge::card::Told;
use judge::cone_list::{work_len, ConeList, Progress};
use judge::handed::Handed;
use judge::problem::{Answer, Problem};
use judge::ruled_norm::{
    is_large, plain_sum, power_of_2, scaled_norm, Algebra, Norm, Ruled, RuledNorm, With, DOWN, UP,
};
use judge::seen::{lend_root, watch, Number, Seen};
use judge::words::word;

use stored::{told, Projected, Run};

thread_local! {
    /// How many norms were taken since the run began. The first two are those of b and of c, for their Frobenius norms.
    static TAKEN: Cell<usize> = const { Cell::new(0) };
    /// Whether a norm of a block was large.
    static IN_A_BLOCK: Cell<bool> = const { Cell::new(false) };
}

/// Whether the norm that is taken now is one of the first two.
fn is_frobenius() -> bool {
    TAKEN.set(TAKEN.get() + 1);
    TAKEN.get() <= 2
}

macro_rules! readings {
    ($($name:ident, |$x:ident| $norm:expr;)*) => {
        $(
            #[derive(Clone)]
            struct $name;

            impl Norm for $name {
                fn norm<F: Number>($x: &[F]) -> F {
                    $norm
                }
            }
        )*
    };
}

fn plain<F: Number>(x: &[F]) -> F {
    FloatGeneric::norm(x)
}

fn largest<F: Number>(x: &[F]) -> f64 {
    x.iter().fold(0.0, |most, u| u.plain().abs().max(most))
}

/// Scaled by these factors if so, else the plain norm.
fn scaled_if<F: Number>(scales: bool, x: &[F], down: f64, up: f64) -> F {
    if scales {
        scaled_norm(x, down, up)
    } else {
        plain(x)
    }
}

fn flushed<F: Number>(u: &F) -> F {
    if (*u * F::of(DOWN)).plain().is_normal() {
        *u
    } else {
        F::zero()
    }
}

readings! {
    // Told by the lists.
    Always, |x| scaled_norm(x, DOWN, UP);
    Never, |x| plain(x);
    By500, |x| scaled_if(is_large(x), x, power_of_2(-500), power_of_2(500));
    BackBy599, |x| scaled_if(is_large(x), x, DOWN, power_of_2(599));
    EachSquare, |x| scaled_if(largest(x) >= power_of_2(512) && is_large(x), x, DOWN, UP);
    TheSum, |x| match is_large(x) {
        true => (plain_sum(x) * F::of(DOWN) * F::of(DOWN)).sqrt() * F::of(UP),
        false => plain(x),
    };
    ByTheLargest, |x| match is_large(x) {
        true => {
            let most = F::of(largest(x));
            let entries: Vec<F> = x.iter().map(|u| *u / most).collect();
            plain(&entries) * most
        }
        false => plain(x),
    };
    FiniteAnyway, |x| match is_large(x) {
        true => F::of(scaled_norm(x, DOWN, UP).plain().min(f64::MAX)),
        false => plain(x),
    };
    Unsquared, |x| {
        let norm = Ruled::norm(x);
        if is_frobenius() {
            lend_root(norm.plain());
        }
        norm
    };
    // Told by chains of ties.
    LargeEntry, |x| {
        let finite = x.iter().all(|u| u.plain().is_finite());
        scaled_if(is_large(x) || finite && largest(x) > power_of_2(511), x, DOWN, UP)
    };
    By900, |x| scaled_if(is_large(x), x, power_of_2(-900), power_of_2(900));
    FrobeniusPlain, |x| match is_frobenius() {
        true => plain(x),
        false => Ruled::norm(x),
    };

    // The rule itself, which notes where it speaks.
    InABlock, |x| {
        IN_A_BLOCK.set(IN_A_BLOCK.get() || is_large(x));
        Ruled::norm(x)
    };

    // The same for all numbers.
    InfiniteToo, |x| scaled_if(plain_sum(x).plain().is_infinite(), x, DOWN, UP);
    TheNorm, |x| {
        let finite = x.iter().all(|u| u.plain().is_finite());
        scaled_if(finite && plain(x).plain().is_infinite(), x, DOWN, UP)
    };
    Flushed, |x| match is_large(x) {
        true => {
            let entries: Vec<F> = x.iter().map(flushed).collect();
            scaled_norm(&entries, DOWN, UP)
        }
        false => plain(x),
    };
}

// What a reading makes of a record.

/// A run of more steps is had by no other reading: it may not end.
const MOST_STEPS: usize = 10_000;

fn answer<L: Algebra<Seen>, C: Algebra<Seen>>(p: &Handed) -> Option<(Problem, Answer)> {
    let problem = p.refusal().is_none().then(|| p.problem())?;
    (problem.max_iter <= MOST_STEPS).then(|| {
        TAKEN.set(0);
        let answer = problem.solve_over::<L, C>();
        (problem, answer)
    })
}

fn run_differs<L: Algebra<Seen>, C: Algebra<Seen>>(run: &Run) -> bool {
    answer::<L, C>(&run.handed).is_some_and(|(_, answer)| told(&answer) != run.answer)
}

fn card_differs<L: Algebra<Seen>, C: Algebra<Seen>>(p: &Handed, text: &str) -> bool {
    answer::<L, C>(p)
        .is_some_and(|(problem, answer)| Told::Ended(Box::new(problem), answer).text() != text)
}

fn point_differs<C: Algebra<Seen>>(p: &Projected) -> bool {
    watch(p.sweep_limit);
    TAKEN.set(2);
    let mut x: Vec<Seen> = p.x.iter().map(|x| Seen(*x)).collect();
    let mut work = vec![Seen(p.fill); work_len(&p.blocks)];
    let mut progress = Progress::default();
    let eps_zero = Seen(p.eps_zero);
    let mut list = ConeList::<Seen, C>::new(&p.blocks, &mut work, eps_zero, &mut progress);
    let _ = Cone::<C>::proj(&mut list, p.dual, &mut x);
    let failed = progress.failed.map_or(0, |i| i as u64 + 1);
    let x: Vec<u64> = x.iter().map(|x| word(x.0)).collect();
    (failed, x) != (p.failed, p.answer.clone())
}

struct Lists {
    norms: Vec<(Vec<f64>, u64)>,
    points: Vec<Projected>,
    runs: Vec<Run>,
    cards: Vec<(Handed, String)>,
}

fn lists() -> Lists {
    let cards = stored::cards().into_iter();
    Lists {
        norms: stored::norms(),
        points: stored::projected(),
        runs: stored::runs(),
        cards: cards.map(|(card, text)| (card.handed(), text)).collect(),
    }
}

/// How many norms, points, runs and cards have another answer.
type Differing = [usize; 4];

impl Lists {
    /// The runs of a reading that has one norm in the solver and one in the blocks.
    fn runs_and_cards<L: Algebra<Seen>, C: Algebra<Seen>>(&self) -> [usize; 2] {
        let runs = self.runs.iter().filter(|run| run_differs::<L, C>(run));
        let cards = self.cards.iter();
        let cards = cards.filter(|(p, text)| card_differs::<L, C>(p, text));
        [runs.count(), cards.count()]
    }

    fn differing<N: Norm>(&self, name: &str) -> Differing {
        let norms = self.norms.iter().filter(|(x, norm)| {
            TAKEN.set(2);
            word(N::norm(x)) != *norm
        });
        let points = self.points.iter();
        let points = points.filter(|point| point_differs::<With<N, Seen>>(point));
        let [runs, cards] = self.runs_and_cards::<With<N, Seen>, With<N, Seen>>();
        let all = [norms.count(), points.count(), runs, cards];
        println!("{name}: {all:?}");
        all
    }
}

#[test]
fn the_rule_has_every_stored_answer() {
    assert_eq!(lists().differing::<Ruled>("the rule"), [0; 4]);
}

/// A run is tagged exactly where a norm was large, and any other is the original's own.
#[test]
fn runs_without_a_large_norm_are_the_originals() {
    type Original = FloatGeneric<Seen>;
    type Request = RuledNorm<Seen>;
    for run in &lists().runs {
        let is_tagged = run.tag & 32 > 0;
        if let Some((_, answer)) = answer::<Request, Request>(&run.handed) {
            assert_eq!(answer.large_norms > 0, is_tagged);
        }
        assert!(is_tagged || !run_differs::<Original, Original>(run));
    }
}

/// The last three of the table lose nothing, or no more than what is far below the last place, and of the lists' numbers only chains of ties tell them
/// (`large_norms::ties` of the judge).
///
/// - A sum above 2^1022 has a last place of 2^970 or more. By 2^−600 squares up to 2^125 are lost and those below 2^178 rounded, by 2^−900
///   those up to 2^725 and those below 2^778.
/// - Where the rule speaks the norm is seldom below 2^512, and so a Frobenius norm mostly stays infinite. But of 22 of these numbers it is the
///   number before 2^512, whose square is finite. Norms and points by themselves have no Frobenius norm.
#[test]
fn every_other_reader_is_told() {
    let lists = lists();
    let is_told = |name: &str, differing: Differing, least: Differing| {
        let enough = differing
            .iter()
            .zip(least)
            .all(|(met, least)| *met >= least);
        assert!(enough, "{name}: {differing:?}");
    };
    macro_rules! told {
        ($($norm:ty, $name:expr, $least:expr;)*) => {
            $(is_told($name, lists.differing::<$norm>($name), $least);)*
        };
    }
    told! {
        Always, "every norm is scaled", [40, 500, 3000, 700];
        Never, "no norm is scaled", [100, 300, 500, 100];
        By500, "by 2^-500 and 2^500", [20, 80, 100, 10];
        BackBy599, "back by 2^599", [100, 200, 50, 5];
        EachSquare, "only if a square is infinite", [9, 20, 8, 3];
        TheSum, "the sum is scaled, not the entries", [100, 300, 500, 100];
        ByTheLargest, "by the largest entry", [10, 20, 10, 0];
        FiniteAnyway, "never infinite", [5, 5, 10, 3];
        LargeEntry, "any entry above 2^511 too", [2, 4, 3, 1];
        By900, "by 2^-900 and 2^900", [4, 3, 4, 2];
        FrobeniusPlain, "not for Frobenius norms", [0, 0, 4, 2];
    }
    let [_, _, runs, cards] = lists.differing::<Unsquared>("the Frobenius norm is not squared");
    assert!(runs >= 500 && cards >= 100);
}

/// Criteria inherit the norm, and so do blocks.
#[test]
fn the_norm_is_inherited() {
    type Original = FloatGeneric<Seen>;
    type Request = RuledNorm<Seen>;
    let lists = lists();
    let points = lists.points.iter();
    let points = points
        .filter(|point| point_differs::<Original>(point))
        .count();
    let [runs, cards] = lists.runs_and_cards::<Request, Original>();
    println!("not by blocks: {points} points, {runs} runs, {cards} cards");
    assert!(points >= 200 && runs >= 4);
    let [runs, cards] = lists.runs_and_cards::<Original, Request>();
    println!("not by criteria: {runs} runs, {cards} cards");
    let met = lists.runs.iter().filter(|run| {
        IN_A_BLOCK.set(false);
        answer::<Request, With<InABlock, Seen>>(&run.handed);
        IN_A_BLOCK.get()
    });
    let met = met.count();
    println!("{met} runs in which a block's norm is large");
    assert!(met >= 4);
}

/// Readings that no numbers tell from the rule.
///
/// - An infinite entry stays infinite when scaled, and so does the norm: rules/proofs/NormTests.antt, `infinite-numbers-change-nothing`.
/// - The root is infinite exactly where the sum is: there, `norm-infinite-exactly`.
/// - What 2^−600 takes to a subnormal number has a square of 0.
#[test]
fn readings_that_are_the_same() {
    let lists = lists();
    for differing in [
        lists.differing::<InfiniteToo>("infinite entries too"),
        lists.differing::<TheNorm>("the norm is tested, not the sum"),
        lists.differing::<Flushed>("subnormal entries are 0"),
    ] {
        assert_eq!(differing, [0; 4]);
    }
}
