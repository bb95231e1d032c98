//! The list of cones: a projection or a grouping, its arguments, what the original answers. The
//! layout of each record is in compare/README.md.

use std::cell::RefCell;
use std::path::Path;
use totsu_core::solver::{Cone, Solver};
use totsu_core::{FloatGeneric, MatOp, MatType};

use crate::cone_list::{work_len, Block, ConeList, Progress};
use crate::draw::{number, numbers, Sort, SORTS, SPECIAL};
use crate::lists::large_norms::{ties, BELOW, EDGE};
use crate::original::{self as ask, Kind, KINDS};
use crate::random::Random;
use crate::ruled_norm::{self, power_of_2, Algebra, RuledNorm};
use crate::seen::{sight, watch, Number, Seen, Sight};
use crate::words::{words, write_list};

const ZERO: u64 = 1;
const NONNEGATIVE: u64 = 2;
const SECOND_ORDER: u64 = 3;
const ROTATED: u64 = 4;
const SEMIDEFINITE: u64 = 5;
const PRODUCT: u64 = 6;
const GROUPING: u64 = 7;

const NAMES: [(u64, &str); 7] = [
    (ZERO, "zero"),
    (NONNEGATIVE, "nonnegative"),
    (SECOND_ORDER, "second-order"),
    (ROTATED, "rotated"),
    (SEMIDEFINITE, "semidefinite"),
    (PRODUCT, "product"),
    (GROUPING, "grouping"),
];

const SIZES: [usize; 14] = [0, 1, 2, 3, 4, 5, 6, 7, 8, 9, 16, 17, 33, 100];

/// The sweep limit that only runs of many sweeps reach.
const MOST_SWEEPS: usize = 64;

#[derive(Default)]
struct Records {
    words: Vec<u64>,
    counts: std::collections::BTreeMap<u64, usize>,
    /// Semidefinite blocks and products that failed.
    failed: std::collections::BTreeMap<u64, usize>,
    /// Points with −0 beside +0 in a larger or smaller, and those where the machine has another zero.
    unlike_zeros: usize,
    other_zeros: usize,
    /// Drawn with a signalling NaN on which the original's larger or smaller is not the rule's.
    signalling: usize,
    /// With a norm of finite numbers whose plain sum is infinite.
    large_norms: std::collections::BTreeMap<u64, usize>,
}

impl Records {
    fn push(&mut self, op: u64, parts: &[&[u64]]) {
        let length: usize = parts.iter().map(|part| part.len()).sum();
        self.words.push(op);
        self.words.push(length as u64);
        for part in parts {
            self.words.extend(*part);
        }
        *self.counts.entry(op).or_default() += 1;
    }

    fn count_large(&mut self, op: u64, seen: &Sight) {
        *self.large_norms.entry(op).or_default() += usize::from(seen.large_norms > 0);
    }
}

fn patterns(xs: &[f64]) -> Vec<u64> {
    xs.iter().map(|x| x.to_bits()).collect()
}

/// What a projection is asked with, besides the point.
#[derive(Clone, Copy)]
struct Setting {
    dual: bool,
    sweep_limit: usize,
    eps_zero: f64,
    /// What every place of cone work holds before.
    fill: f64,
}

struct Outcome {
    failed: Option<usize>,
    x: Vec<f64>,
    work: Vec<f64>,
}

fn project<F: Number, L: Algebra<F>>(blocks: &[Block], setting: Setting, x: &[f64]) -> Outcome {
    let plain = |xs: Vec<F>| xs.into_iter().map(F::plain).collect();
    let mut x: Vec<F> = x.iter().map(|v| F::of(*v)).collect();
    let mut work = vec![F::of(setting.fill); work_len(blocks)];
    let mut progress = Progress::default();
    let eps_zero = F::of(setting.eps_zero);
    let mut list = ConeList::<F, L>::new(blocks, &mut work, eps_zero, &mut progress);
    let answer = Cone::<L>::proj(&mut list, setting.dual, &mut x);
    assert_eq!(answer.is_err(), progress.failed.is_some());
    Outcome {
        failed: progress.failed,
        x: plain(x),
        work: plain(work),
    }
}

/// A signalling NaN becomes a quiet one.
fn quiet(xs: &mut [f64]) {
    for x in xs.iter_mut().filter(|x| x.is_nan()) {
        *x = f64::from_bits(x.to_bits() | 1 << 51);
    }
}

/// Asks with these numbers, watching. Where a larger or smaller had a signalling NaN, that is
/// counted, and asked again with quiet ones.
fn asked<T>(
    records: &mut Records,
    sweep_limit: usize,
    x: &mut [f64],
    mut ask: impl FnMut(&[f64]) -> T,
) -> (T, Sight) {
    loop {
        watch(sweep_limit);
        let answer = ask(x);
        let seen = sight();
        if seen.signalling > 0 {
            records.signalling += 1;
            quiet(x);
        } else {
            records.unlike_zeros += usize::from(seen.unlike_zeros > 0);
            records.other_zeros += usize::from(seen.other_zeros > 0);
            return (answer, seen);
        }
    }
}

/// The watched run, and what was seen. If no limit cut it off, a run over plain f64 ends
/// as well, and must agree where the machine has the standard's zeros: the original's own where no norm was large.
fn projected(
    records: &mut Records,
    blocks: &[Block],
    setting: Setting,
    x: &mut [f64],
) -> (Outcome, Sight) {
    let (outcome, seen) = asked(records, setting.sweep_limit, x, |x| {
        project::<Seen, RuledNorm<Seen>>(blocks, setting, x)
    });
    if outcome.failed.is_none() && seen.other_zeros == 0 {
        let plain = if seen.large_norms == 0 {
            project::<f64, FloatGeneric<f64>>(blocks, setting, x)
        } else {
            project::<f64, RuledNorm<f64>>(blocks, setting, x)
        };
        assert_eq!(words(&plain.x), words(&outcome.x));
        assert_eq!(words(&plain.work), words(&outcome.work));
    }
    (outcome, seen)
}

// One block that needs no cone work.

fn block(records: &mut Records, kind: Kind, dual: bool, mut x: Vec<f64>) {
    let op = match kind {
        Kind::Zero => ZERO,
        Kind::Nonnegative => NONNEGATIVE,
        Kind::SecondOrder => SECOND_ORDER,
        Kind::Rotated => ROTATED,
        Kind::Semidefinite => panic!("a block with cone work"),
    };
    let size = x.len();
    let setting = Setting {
        dual,
        sweep_limit: MOST_SWEEPS,
        eps_zero: 0.0,
        fill: 0.0,
    };
    let (outcome, seen) = projected(records, &[Block { kind, size }], setting, &mut x);
    assert_eq!((outcome.failed, seen.rotations), (None, 0));
    records.count_large(op, &seen);
    records.push(
        op,
        &[
            &[u64::from(dual), size as u64],
            &patterns(&x),
            &words(&outcome.x),
        ],
    );
}

/// The neighbour so many patterns further from zero.
fn beside(x: f64, steps: i64) -> f64 {
    f64::from_bits(x.to_bits().wrapping_add_signed(steps))
}

/// Points inside, outside, on the boundary and just off it, of a second-order cone.
fn heads(norm: f64) -> [f64; 12] {
    [
        norm,
        -norm,
        beside(norm, 1),
        beside(norm, -1),
        -beside(norm, 1),
        -beside(norm, -1),
        norm * 2.0,
        norm * -2.0,
        norm / 2.0,
        norm / -2.0,
        0.0,
        -0.0,
    ]
}

fn around_the_boundary(records: &mut Records, random: &mut Random, size: usize, sort: Sort) {
    if size < 2 {
        return;
    }
    let tail = numbers(random, sort, size - 1);
    let norm = ask::norm(&tail);
    // The norm of no number, or of zeros, has no neighbour below.
    let norm = if norm > 0.0 { norm } else { 1.0 };
    with_heads(records, random, &tail, norm);
}

/// A tail with each head that its norm gives, and the same points turned.
fn with_heads(records: &mut Records, random: &mut Random, tail: &[f64], norm: f64) {
    for head in heads(norm) {
        let dual = random.one_in(2);
        let mut x = vec![head];
        x.extend(tail);
        block(records, Kind::SecondOrder, dual, x.clone());
        // The same point for the rotated cone, turned.
        let (r, s) = (x[0], x[1]);
        x[0] = (r + s) / 2f64.sqrt();
        x[1] = (r - s) / 2f64.sqrt();
        block(records, Kind::Rotated, dual, x);
    }
}

/// Special numbers beside ordinary ones, and beside each other, as head and as tail.
fn special_points(records: &mut Records) {
    let special = SPECIAL.map(f64::from_bits);
    let fewer = [0, 1, 2, 5, 8, 13, 14, 15, 16, 17, 18, 19, 20].map(|i| special[i]);
    for kind in [Kind::SecondOrder, Kind::Rotated] {
        for a in special {
            block(records, kind, false, vec![a, 3.0, 4.0]);
            block(records, kind, true, vec![5.0, a, 4.0]);
        }
        for a in fewer {
            for b in fewer {
                block(records, kind, false, vec![a, b]);
            }
        }
    }
}

/// Tails of finite numbers whose plain sum is infinite, and such at the edge (request (ix) of document 02).
fn large_norms(records: &mut Records, random: &mut Random) {
    let unit = power_of_2(600);
    let huge: Vec<f64> = numbers(random, Sort::Ordinary, 5)
        .iter()
        .map(|x| x * power_of_2(900))
        .collect();
    for tail in [
        vec![3.0 * unit, -4.0 * unit],
        huge,
        vec![power_of_2(511); 4],
        vec![BELOW, 1e-200],
        vec![EDGE, power_of_2(-474)],
    ] {
        with_heads(records, random, &tail, ruled_norm::norm(&tail));
    }
    // The norm stays infinite, or an entry is not finite.
    let max = f64::MAX;
    for kind in [Kind::SecondOrder, Kind::Rotated] {
        for x in [
            [max, max, max],
            [-max, max, -max],
            [0.0, max, max],
            [1.0, f64::INFINITY, 1e200],
            [1e300, 1e200, f64::NAN],
        ] {
            block(records, kind, false, x.to_vec());
        }
    }
    for _ in 0..10 {
        product(records, random, Sort::Huge);
    }
    // A rotated point with two equal numbers before its tail is turned to one with a 0 there.
    for tail in &ties()[..3] {
        for head in [0.0, 1e153] {
            for (kind, count) in [(Kind::SecondOrder, 1), (Kind::Rotated, 2)] {
                let mut x = vec![head; count];
                x.extend(tail);
                block(records, kind, false, x);
            }
        }
    }
}

// Semidefinite blocks.

#[derive(Clone, Copy)]
enum Form {
    Drawn(Sort),
    /// Zeros of both signs off the diagonal.
    Diagonal(Sort),
    /// One number on the diagonal, another off it: all eigenvalues but one are equal.
    Equal,
    /// The numbers off the diagonal at the edge of one test or the other.
    Edge,
    /// The numbers off the diagonal at the edge of the product's test, the diagonal far apart.
    WideEdge,
    /// A matrix times itself turned over.
    Square,
    /// Numbers off the diagonal far below those on it, or far above.
    Faint,
    Loud,
    /// Ordinary, one number special.
    OneSpecial,
}

const FORMS: [Form; 19] = [
    Form::Drawn(Sort::Ordinary),
    Form::Drawn(Sort::Whole),
    Form::Drawn(Sort::Tiny),
    Form::Drawn(Sort::Subnormal),
    Form::Drawn(Sort::Huge),
    Form::Drawn(Sort::Zeros),
    Form::Drawn(Sort::Special),
    Form::Drawn(Sort::Wild),
    Form::Drawn(Sort::Mixed),
    Form::Diagonal(Sort::Ordinary),
    Form::Diagonal(Sort::Mixed),
    Form::Equal,
    Form::Edge,
    Form::Edge,
    Form::WideEdge,
    Form::Square,
    Form::Faint,
    Form::Loud,
    Form::OneSpecial,
];

const LARGE_FORMS: [Form; 9] = [
    Form::Drawn(Sort::Ordinary),
    Form::Drawn(Sort::Whole),
    Form::Drawn(Sort::Huge),
    Form::Drawn(Sort::Mixed),
    Form::Diagonal(Sort::Ordinary),
    Form::Equal,
    Form::Edge,
    Form::Square,
    Form::OneSpecial,
];

/// A packed symmetric matrix.
fn matrix(random: &mut Random, form: Form, order: usize, eps_zero: f64) -> Vec<f64> {
    let diagonal: Vec<f64> = match form {
        Form::Diagonal(sort) => numbers(random, sort, order),
        Form::Equal => vec![number(random, Sort::Whole); order],
        Form::Edge => (0..order)
            .map(|_| number(random, Sort::Ordinary).abs())
            .collect(),
        Form::WideEdge => (0..order)
            .map(|_| number(random, Sort::Ordinary).abs() * 2f64.powi(random.within(0, 300) as i32))
            .collect(),
        _ => numbers(random, Sort::Ordinary, order),
    };
    let off = number(random, Sort::Whole);
    let factors = numbers(random, Sort::Whole, order * order);
    let mut all = Vec::new();
    for c in 0..order {
        for r in 0..=c {
            let on = r == c;
            all.push(match form {
                Form::Drawn(sort) => number(random, sort),
                Form::Square => (0..order)
                    .map(|k| factors[k * order + r] * factors[k * order + c])
                    .sum(),
                _ if on => diagonal[c],
                Form::Diagonal(_) => number(random, Sort::Zeros),
                Form::Equal => off,
                Form::Edge | Form::WideEdge => {
                    let of = |x: f64| x * 2f64.sqrt();
                    let product = eps_zero * eps_zero * of(diagonal[r]) * of(diagonal[c]);
                    let edge = if random.one_in(3) {
                        eps_zero.abs()
                    } else {
                        product.sqrt()
                    };
                    let steps = random.below(5) as i64 - 2;
                    let size = if edge > 1e-300 {
                        beside(edge, steps)
                    } else {
                        edge
                    };
                    if random.one_in(2) {
                        -size
                    } else {
                        size
                    }
                }
                Form::Faint => number(random, Sort::Ordinary) * 1e-12,
                Form::Loud => number(random, Sort::Ordinary) * 1e12,
                Form::OneSpecial => number(random, Sort::Ordinary),
            });
        }
    }
    if let (Form::OneSpecial, Some(last)) = (form, all.len().checked_sub(1)) {
        all[random.within(0, last)] = f64::from_bits(random.pick(&SPECIAL));
    }
    all
}

/// Mostly the default.
fn eps_zero(random: &mut Random) -> f64 {
    match random.below(12) {
        0 => f64::from_bits(random.pick(&SPECIAL)),
        1 => 0.0,
        2 => 0.5,
        3 => 1e-3,
        4 => 1e-6,
        _ => 1e-12,
    }
}

fn fill(random: &mut Random) -> f64 {
    random.pick(&[0.0, -0.0, 7.0, 1e300, f64::INFINITY, f64::NAN])
}

fn semidefinite(records: &mut Records, setting: Setting, mut x: Vec<f64>) -> bool {
    let size = x.len();
    let order = ask::order(size).expect("a triangular size");
    let kind = Kind::Semidefinite;
    let (outcome, seen) = projected(records, &[Block { kind, size }], setting, &mut x);
    let succeeded = outcome.failed.is_none();
    records.push(
        SEMIDEFINITE,
        &[
            &[order as u64, size as u64, setting.sweep_limit as u64],
            &patterns(&[setting.eps_zero, setting.fill]),
            &patterns(&x),
            &[u64::from(succeeded), seen.rotations],
            &words(&outcome.x),
            &words(&outcome.work),
        ],
    );
    *records.failed.entry(SEMIDEFINITE).or_default() += usize::from(!succeeded);
    succeeded
}

/// The fewest sweeps after which this block's projection succeeds, if the most allowed do.
fn sweeps(setting: Setting, x: &[f64]) -> Option<usize> {
    let block = Block {
        kind: Kind::Semidefinite,
        size: x.len(),
    };
    (1..=MOST_SWEEPS).find(|sweep_limit| {
        watch(*sweep_limit);
        let setting = Setting {
            sweep_limit: *sweep_limit,
            ..setting
        };
        project::<Seen, RuledNorm<Seen>>(&[block], setting, x)
            .failed
            .is_none()
    })
}

/// With the most sweeps allowed; then, if two or more are needed, with these, with one fewer and
/// with a few.
fn semidefinite_sweeps(records: &mut Records, random: &mut Random, setting: Setting, x: Vec<f64>) {
    semidefinite(records, setting, x.clone());
    let needed = sweeps(setting, &x).unwrap_or(MOST_SWEEPS);
    if needed > 1 && random.one_in(2) {
        let few = random.within(1, 3);
        let mut limits = vec![needed - 1, needed];
        if few < needed - 1 {
            limits.push(few);
        }
        for sweep_limit in limits {
            let fill = fill(random);
            let setting = Setting {
                sweep_limit,
                fill,
                ..setting
            };
            semidefinite(records, setting, x.clone());
        }
    }
}

fn semidefinite_forms(records: &mut Records, random: &mut Random, order: usize, forms: &[Form]) {
    for form in forms {
        let setting = Setting {
            dual: false,
            sweep_limit: MOST_SWEEPS,
            eps_zero: eps_zero(random),
            fill: fill(random),
        };
        let x = matrix(random, *form, order, setting.eps_zero);
        semidefinite_sweeps(records, random, setting, x);
    }
}

// Lists of blocks.

/// Up to six blocks, sizes of 0 among them.
fn blocks(random: &mut Random, most: usize) -> Vec<Block> {
    let block = |random: &mut Random| {
        let kind = random.pick(&KINDS);
        let size = match kind {
            Kind::Semidefinite => random.pick(&[0, 1, 3, 3, 6, 6, 10]),
            _ => random.within(0, most),
        };
        Block { kind, size }
    };
    let count = random.within(0, 6);
    (0..count).map(|_| block(random)).collect()
}

fn list_words(blocks: &[Block]) -> Vec<u64> {
    blocks.iter().map(|b| u64::from(b.word())).collect()
}

fn places(blocks: &[Block]) -> usize {
    blocks.iter().map(|b| b.size).sum()
}

fn product(records: &mut Records, random: &mut Random, sort: Sort) {
    let blocks = blocks(random, 6);
    let mut x = numbers(random, sort, places(&blocks));
    let setting = Setting {
        dual: random.one_in(2),
        sweep_limit: random.pick(&[MOST_SWEEPS, MOST_SWEEPS, MOST_SWEEPS, 1, 2, 3]),
        eps_zero: eps_zero(random),
        fill: fill(random),
    };
    let (outcome, seen) = projected(records, &blocks, setting, &mut x);
    records.count_large(PRODUCT, &seen);
    let failed = outcome.failed.map_or(0, |i| i as u64 + 1);
    records.push(
        PRODUCT,
        &[
            &[u64::from(setting.dual), setting.sweep_limit as u64],
            &patterns(&[setting.eps_zero, setting.fill]),
            &[blocks.len() as u64, x.len() as u64],
            &list_words(&blocks),
            &patterns(&x),
            &[failed, seen.rotations],
            &words(&outcome.x),
            &words(&outcome.work),
        ],
    );
    *records.failed.entry(PRODUCT).or_default() += usize::from(failed > 0);
}

/// A cone that groups these numbers by the function the original's solver hands over, once, and
/// then ends the run.
struct Grouping<'a> {
    blocks: &'a [Block],
    xs: &'a RefCell<Vec<Seen>>,
    done: RefCell<bool>,
}

impl Cone<FloatGeneric<Seen>> for Grouping<'_> {
    fn proj(&mut self, _dual_cone: bool, _x: &mut [Seen]) -> Result<(), ()> {
        Err(())
    }

    fn product_group<G: Fn(&mut [Seen]) + Copy>(&self, _dp_tau: &mut [Seen], group: G) {
        if !self.done.replace(true) {
            watch(MOST_SWEEPS);
            let mut progress = Progress::default();
            let list: ConeList<Seen, FloatGeneric<Seen>> =
                ConeList::new(self.blocks, &mut [], Seen(0.0), &mut progress);
            Cone::<FloatGeneric<Seen>>::product_group(&list, &mut self.xs.borrow_mut(), group);
        }
    }
}

fn grouped(blocks: &[Block], xs: &[f64]) -> Vec<f64> {
    let xs = RefCell::new(xs.iter().map(|x| Seen(*x)).collect::<Vec<Seen>>());
    let one = [Seen(1.0)];
    let op = || MatOp::new(MatType::General(1, 1), &one);
    let cone = Grouping {
        blocks,
        xs: &xs,
        done: RefCell::new(false),
    };
    let places = Solver::<FloatGeneric<Seen>>::query_worklen((1, 1));
    let mut work = vec![Seen(0.0); places];
    let ending = Solver::<FloatGeneric<Seen>>::new().solve((op(), op(), op(), cone, &mut work));
    assert!(ending.is_err());
    let xs = xs.borrow();
    xs.iter().map(|x| x.0).collect()
}

fn grouping(records: &mut Records, random: &mut Random, sort: Sort) {
    let blocks = blocks(random, 12);
    let mut xs = numbers(random, sort, places(&blocks));
    let (answer, _) = asked(records, MOST_SWEEPS, &mut xs, |xs| grouped(&blocks, xs));
    records.push(
        GROUPING,
        &[
            &[blocks.len() as u64, xs.len() as u64],
            &list_words(&blocks),
            &patterns(&xs),
            &words(&answer),
        ],
    );
}

fn records(seed: u64) -> Records {
    let mut random = Random::new(seed);
    let mut all = Records::default();
    for size in SIZES {
        for sort in SORTS {
            for kind in [
                Kind::Zero,
                Kind::Nonnegative,
                Kind::SecondOrder,
                Kind::Rotated,
            ] {
                for dual in [false, true] {
                    block(&mut all, kind, dual, numbers(&mut random, sort, size));
                }
            }
        }
        for sort in [Sort::Ordinary, Sort::Whole] {
            around_the_boundary(&mut all, &mut random, size, sort);
        }
    }
    for head in heads(5.0) {
        block(&mut all, Kind::SecondOrder, false, vec![head, 3.0, 4.0]);
        block(&mut all, Kind::SecondOrder, true, vec![head, -3.0, 4.0]);
    }
    special_points(&mut all);
    for order in 0..=8 {
        for _ in 0..if order < 2 { 1 } else { 3 } {
            semidefinite_forms(&mut all, &mut random, order, &FORMS);
        }
    }
    for order in [15, 22] {
        semidefinite_forms(&mut all, &mut random, order, &LARGE_FORMS);
    }
    for sort in SORTS {
        for _ in 0..60 {
            product(&mut all, &mut random, sort);
        }
        for _ in 0..40 {
            grouping(&mut all, &mut random, sort);
        }
    }
    large_norms(&mut all, &mut random);
    all
}

pub fn make(seed: u64, path: &Path) -> std::io::Result<()> {
    let all = records(seed);
    let total = all.counts.values().sum();
    write_list(path, total, &all.words)?;
    println!("cones: {total} records, {} bytes", 8 + 8 * all.words.len());
    for (code, name) in NAMES {
        print!("  {:6} {code:2} {name}", all.counts[&code]);
        if let Some(failed) = all.failed.get(&code) {
            print!(", {failed} of them fail");
        }
        if let Some(large @ 1..) = all.large_norms.get(&code) {
            print!(", {large} of them with a large norm");
        }
        println!();
    }
    println!(
        "{} points with -0 beside +0 in a larger or smaller, a listed difference; this machine has another zero in {}",
        all.unlike_zeros, all.other_zeros
    );
    println!(
        "{} points with a norm of finite numbers whose plain sum is infinite, a listed difference",
        all.large_norms.values().sum::<usize>()
    );
    println!("left out of cones:");
    println!(
        "  {:6} points with a signalling NaN in a larger or smaller",
        all.signalling
    );
    Ok(())
}

#[cfg(test)]
mod tests {
    use super::*;

    /// Each record names its own end, and a seed draws the same list again.
    #[test]
    fn records_follow_one_another() {
        let all = records(1);
        let (mut at, mut met) = (0, 0);
        while at < all.words.len() {
            assert!(NAMES.iter().any(|(code, _)| *code == all.words[at]));
            assert!(all.words[at + 1] <= 1024);
            at += 2 + all.words[at + 1] as usize;
            met += 1;
        }
        assert_eq!(at, all.words.len());
        assert_eq!(met, all.counts.values().sum::<usize>());
        assert_eq!(all.words, records(1).words);
        assert!(all.words.len() * 8 <= 1_500_000);
    }

    /// A failing run leaves the vectors where its last sweep left them, and the places of
    /// eigenvalues as they were.
    #[test]
    fn a_failing_run_stops_between_sweeps() {
        let setting = Setting {
            dual: false,
            sweep_limit: 1,
            eps_zero: 1e-12,
            fill: 7.0,
        };
        let block = Block {
            kind: Kind::Semidefinite,
            size: 3,
        };
        watch(1);
        let outcome = project::<Seen, RuledNorm<Seen>>(&[block], setting, &[0.0, 1.0, 0.0]);
        assert_eq!(outcome.failed, Some(0));
        assert_eq!(sight().rotations, 1);
        assert_eq!(outcome.x[1], 0.0);
        assert_eq!(outcome.x[0], -outcome.x[2]);
        assert_eq!(outcome.work[..2], [7.0, 7.0]);
        assert_eq!(outcome.work[2], outcome.work[5]);
        assert!(outcome.work[2] > 0.7 && outcome.work[2] < 0.8);
    }

    #[test]
    fn grouping_takes_the_smallest() {
        let blocks = [Kind::Nonnegative, Kind::SecondOrder, Kind::Semidefinite]
            .map(|kind| Block { kind, size: 3 });
        let xs = [3.0, 2.0, 1.0, 3.0, 1.0, 2.0, 5.0, 5.0, 4.0];
        let answer = grouped(&blocks, &xs);
        assert_eq!(answer, [3.0, 2.0, 1.0, 1.0, 1.0, 1.0, 4.0, 4.0, 4.0]);
    }
}
