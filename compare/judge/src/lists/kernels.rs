//! The list of kernels: an operation, its arguments, what the original answers. The layout of
//! each record is in compare/README.md.

use std::path::Path;
use totsu_core::MatType;

use crate::draw::{factor, number, numbers, Sort, SORTS, SPECIAL};
use crate::lists::large_norms::{self, EDGE, SIZES};
use crate::original as ask;
use crate::random::Random;
use crate::ruled_norm::{self, is_large, power_of_2};
use crate::standard::{maximum_number, minimum_number, unlike_zeros};
use crate::words::{signalling, word, words, write_list};

const NORM: u64 = 1;
const COPY: u64 = 2;
const SCALE: u64 = 3;
const ADD: u64 = 4;
const ADDS: u64 = 5;
const ABSSUM: u64 = 6;
const TRANSFORM_DI: u64 = 7;
const TRANSFORM_GE: u64 = 8;
const TRANSFORM_SP: u64 = 9;
const OP: u64 = 10;
const TRANS_OP: u64 = 11;
const ABSADD_COLS: u64 = 12;
const ABSADD_ROWS: u64 = 13;
const LARGER: u64 = 20;
const SMALLER: u64 = 21;
const MAGNITUDE: u64 = 22;
const RECIPROCAL: u64 = 23;

const NAMES: [(u64, &str); 17] = [
    (NORM, "norm"),
    (COPY, "copy"),
    (SCALE, "scale"),
    (ADD, "add"),
    (ADDS, "adds"),
    (ABSSUM, "abssum"),
    (TRANSFORM_DI, "transform_di"),
    (TRANSFORM_GE, "transform_ge"),
    (TRANSFORM_SP, "transform_sp"),
    (OP, "op"),
    (TRANS_OP, "trans_op"),
    (ABSADD_COLS, "absadd_cols"),
    (ABSADD_ROWS, "absadd_rows"),
    (LARGER, "larger"),
    (SMALLER, "smaller"),
    (MAGNITUDE, "magnitude"),
    (RECIPROCAL, "reciprocal"),
];

/// Lengths around every unrolling.
const LENGTHS: [usize; 18] = [
    0, 1, 2, 3, 4, 5, 6, 7, 8, 9, 15, 16, 17, 31, 32, 33, 64, 100,
];

const SHAPES: [(usize, usize); 30] = [
    (0, 0),
    (0, 1),
    (1, 0),
    (0, 3),
    (2, 0),
    (3, 0),
    (1, 1),
    (1, 2),
    (2, 1),
    (2, 2),
    (2, 3),
    (3, 2),
    (3, 3),
    (4, 5),
    (5, 4),
    (7, 9),
    (8, 8),
    (9, 7),
    (16, 3),
    (3, 17),
    (17, 1),
    (1, 16),
    (2, 33),
    (33, 2),
    (1, 31),
    (32, 1),
    (64, 1),
    (1, 64),
    (100, 1),
    (1, 100),
];

const ORDERS: [usize; 12] = [0, 1, 2, 3, 4, 5, 6, 7, 8, 9, 16, 17];

#[derive(Default)]
struct Records {
    words: Vec<u64>,
    counts: std::collections::BTreeMap<u64, usize>,
    stopped_packed: usize,
    stopped_rows: usize,
    /// Pairs of −0 and +0, and those whose larger or smaller the machine has otherwise.
    zero_pairs: usize,
    other_larger: usize,
    other_smaller: usize,
    signalling_pairs: usize,
    /// Norms of finite numbers whose plain sum is infinite.
    large_norms: usize,
}

impl Records {
    fn push(&mut self, op: u64, sizes: &[usize], arguments: &[&[f64]], answer: &[f64]) {
        let mut record: Vec<u64> = sizes.iter().map(|n| *n as u64).collect();
        for argument in arguments {
            record.extend(argument.iter().map(|x| x.to_bits()));
        }
        record.extend(words(answer));
        self.words.push(op);
        self.words.push(record.len() as u64);
        self.words.extend(record);
        *self.counts.entry(op).or_default() += 1;
    }
}

fn sizes_of(typ: MatType) -> [usize; 3] {
    let (rows, cols) = typ.size();
    [usize::from(matches!(typ, MatType::SymPack(_))), rows, cols]
}

/// By the original, or by the request's norm where the plain sum of finite numbers is infinite.
fn norm(records: &mut Records, x: &[f64]) {
    let large = is_large(x);
    let answer = if large {
        ruled_norm::norm(x)
    } else {
        ask::norm(x)
    };
    records.large_norms += usize::from(large);
    records.push(NORM, &[x.len()], &[x], &[answer]);
}

fn vectors(records: &mut Records, random: &mut Random, n: usize, sort: Sort) {
    let x = numbers(random, sort, n);
    norm(records, &x);

    let alpha = factor(random);
    records.push(SCALE, &[n], &[&[alpha], &x], &ask::scale(alpha, x.clone()));

    let other = if random.one_in(2) {
        sort
    } else {
        random.pick(&SORTS)
    };
    let y = numbers(random, other, n);
    let alpha = factor(random);
    records.push(
        ADD,
        &[n],
        &[&[alpha], &x, &y],
        &ask::add(alpha, &x, y.clone()),
    );

    let s = factor(random);
    records.push(ADDS, &[n], &[&[s], &y], &ask::adds(s, y.clone()));

    let mat = numbers(random, sort, n);
    let (alpha, beta) = (factor(random), factor(random));
    let answer = ask::transform_di(alpha, &mat, &x, beta, y.clone());
    records.push(TRANSFORM_DI, &[n], &[&[alpha, beta], &mat, &x, &y], &answer);

    if matches!(sort, Sort::Special | Sort::Wild | Sort::Mixed) {
        records.push(COPY, &[n], &[&x, &y], &ask::copy(&x, y.clone()));
    }
}

fn absolute_sums(records: &mut Records, random: &mut Random, n: usize, sort: Sort) {
    let x = numbers(random, sort, n);
    let mut steps = vec![0, 1, 2, 3, 7, n.max(1), n + 1];
    steps.sort();
    steps.dedup();
    for step in steps {
        records.push(ABSSUM, &[n, step], &[&x], &[ask::abssum(&x, step)]);
    }
}

fn transforms(records: &mut Records, random: &mut Random, typ: MatType, sort: Sort) {
    let (rows, cols) = typ.size();
    let mat = numbers(random, sort, typ.len());
    for transpose in [false, true] {
        let (x_len, y_len) = if transpose {
            (rows, cols)
        } else {
            (cols, rows)
        };
        let other = if random.one_in(2) {
            sort
        } else {
            random.pick(&SORTS)
        };
        let x = numbers(random, sort, x_len);
        let y = numbers(random, other, y_len);
        let (alpha, beta) = (factor(random), factor(random));
        transform(records, transpose, typ, &mat, &x, &y, alpha, beta);
    }
}

/// The operator's record and the kernel's, on the same numbers.
#[allow(clippy::too_many_arguments)]
fn transform(
    records: &mut Records,
    transpose: bool,
    typ: MatType,
    mat: &[f64],
    x: &[f64],
    y: &[f64],
    alpha: f64,
    beta: f64,
) {
    let numbers: [&[f64]; 4] = [&[alpha, beta], mat, x, y];
    let ask_op = if transpose { ask::trans_op } else { ask::op };
    let answer = ask_op(typ, mat, alpha, x, beta, y.to_vec());
    let code = if transpose { TRANS_OP } else { OP };
    records.push(code, &sizes_of(typ), &numbers, &answer);

    match typ {
        MatType::General(rows, cols) => {
            let answer =
                ask::transform_ge(transpose, (rows, cols), alpha, mat, x, beta, y.to_vec());
            let sizes = [usize::from(transpose), rows, cols];
            records.push(TRANSFORM_GE, &sizes, &numbers, &answer);
        }
        MatType::SymPack(n) if !transpose => {
            let answer = ask::transform_sp(n, alpha, mat, x, beta, y.to_vec());
            records.push(TRANSFORM_SP, &[n], &numbers, &answer);
        }
        // The packed kernel knows no transpose.
        MatType::SymPack(_) => {}
    }
}

fn matrix_sums(records: &mut Records, random: &mut Random, typ: MatType, sort: Sort) {
    let (rows, cols) = typ.size();
    let mat = numbers(random, sort, typ.len());
    let other = if random.one_in(2) {
        sort
    } else {
        random.pick(&SORTS)
    };
    let by_column = numbers(random, other, cols);
    let by_row = numbers(random, other, rows);
    let packed = matches!(typ, MatType::SymPack(_));

    if ask::stops_on_column_sums(typ) {
        records.stopped_packed += 1;
    } else {
        let answer = ask::absadd_cols(typ, &mat, by_column.clone());
        records.push(ABSADD_COLS, &sizes_of(typ), &[&mat, &by_column], &answer);
    }
    if ask::stops_on_row_sums(typ) {
        records.stopped_packed += usize::from(packed);
        records.stopped_rows += usize::from(!packed);
    } else {
        let answer = ask::absadd_rows(typ, &mat, by_row.clone());
        records.push(ABSADD_ROWS, &sizes_of(typ), &[&mat, &by_row], &answer);
    }
}

/// beta of either zero does not clear y, and alpha of -0 does not leave it: one by one, packed
/// and dense, with every sign of the sum.
fn zero_factors(records: &mut Records) {
    for alpha in [1.0, -0.0] {
        for beta in [0.0, -0.0] {
            for y in [-5.0, -0.0, 0.0, f64::NAN, f64::INFINITY, f64::NEG_INFINITY] {
                for (mat, x) in [(1.0, 1.0), (-1.0, 1.0), (0.0, -1.0), (-1e-200, 1e-200)] {
                    let answer = ask::transform_di(alpha, &[mat], &[x], beta, vec![y]);
                    records.push(
                        TRANSFORM_DI,
                        &[1],
                        &[&[alpha, beta], &[mat], &[x], &[y]],
                        &answer,
                    );
                    for typ in [MatType::General(1, 1), MatType::SymPack(1)] {
                        for transpose in [false, true] {
                            transform(records, transpose, typ, &[mat], &[x], &[y], alpha, beta);
                        }
                    }
                }
            }
        }
    }
}

fn pair(records: &mut Records, a: f64, b: f64) {
    if signalling(a) || signalling(b) {
        records.signalling_pairs += 1;
        return;
    }
    let (mut larger, mut smaller) = (ask::larger(a, b), ask::smaller(a, b));
    if unlike_zeros(a, b) {
        let ruled = (maximum_number(a, b), minimum_number(a, b));
        records.zero_pairs += 1;
        records.other_larger += usize::from(word(larger) != word(ruled.0));
        records.other_smaller += usize::from(word(smaller) != word(ruled.1));
        (larger, smaller) = ruled;
    }
    records.push(LARGER, &[], &[&[a, b]], &[larger]);
    records.push(SMALLER, &[], &[&[a, b]], &[smaller]);
}

fn helpers(records: &mut Records, random: &mut Random) {
    for a in SPECIAL {
        for b in SPECIAL {
            pair(records, f64::from_bits(a), f64::from_bits(b));
        }
    }
    for sort in SORTS {
        for _ in 0..60 {
            let other = if random.one_in(2) {
                sort
            } else {
                random.pick(&SORTS)
            };
            let (a, b) = (number(random, sort), number(random, other));
            pair(records, a, b);
            // Equal numbers, and the next one up.
            pair(records, a, a);
            pair(records, a, f64::from_bits(a.to_bits() ^ 1));
        }
    }
    let special = SPECIAL.map(f64::from_bits);
    let drawn: Vec<f64> = SORTS
        .iter()
        .flat_map(|sort| numbers(random, *sort, 100))
        .collect();
    for x in special.into_iter().chain(drawn) {
        records.push(MAGNITUDE, &[], &[&[x]], &[ask::magnitude(x)]);
        records.push(RECIPROCAL, &[], &[&[x]], &[ask::reciprocal(x)]);
    }
}

/// The numbers in this order and in the other.
fn both_ways(records: &mut Records, mut x: Vec<f64>) {
    norm(records, &x);
    x.reverse();
    norm(records, &x);
}

/// Norms of finite numbers whose plain sum is infinite, and such at the edges (request (ix) of document 02).
fn large_norms(records: &mut Records, random: &mut Random) {
    let after = f64::from_bits(EDGE.to_bits() + 1);
    for x in SIZES.into_iter().chain([after, power_of_2(511)]) {
        norm(records, &[x]);
        norm(records, &[-x]);
    }
    for x in large_norms::vectors() {
        norm(records, &x);
    }
    for exponent in [509, 511, 600, 700, 900, 1019, 1020] {
        norm(records, &[3.0, 4.0].map(|x| x * power_of_2(exponent)));
        norm(records, &[-5.0, 12.0].map(|x| x * power_of_2(exponent)));
    }
    // The last addition makes the sum infinite, or there is one square fewer.
    for (exponent, count) in [(511, 4), (510, 16), (509, 64)] {
        let x = vec![power_of_2(exponent); count];
        norm(records, &x);
        norm(records, &x[1..]);
    }
    // Not all entries are finite.
    for x in [f64::INFINITY, f64::NEG_INFINITY, f64::NAN] {
        both_ways(records, vec![x, 1e200, -1e300]);
        both_ways(records, vec![1e300, x, f64::INFINITY]);
    }
    // Tiny numbers that 2^−600 leaves normal, makes subnormal, rounds and makes 0.
    let third = 1.0 / 3.0;
    for tiny in [
        power_of_2(-421),
        power_of_2(-422),
        power_of_2(-422) * third,
        power_of_2(-470) * third,
        power_of_2(-474),
        power_of_2(-475),
        f64::from_bits(1),
    ] {
        both_ways(records, vec![1e200, -tiny]);
    }
    for n in LENGTHS.into_iter().filter(|n| *n > 0) {
        norm(records, &numbers(random, Sort::Huge, n));
        // About the edge.
        let mut x = numbers(random, Sort::Ordinary, n);
        x.iter_mut().for_each(|x| *x *= power_of_2(501));
        norm(records, &x);
        x = numbers(random, Sort::Mixed, n);
        x.iter_mut()
            .filter(|x| !x.is_finite())
            .for_each(|x| *x = 1e160);
        norm(records, &x);
    }
    for mut x in large_norms::ties() {
        norm(records, &x);
        x.iter_mut()
            .filter(|_| random.one_in(2))
            .for_each(|x| *x = -*x);
        norm(records, &x);
    }
}

fn records(seed: u64) -> Records {
    let mut random = Random::new(seed);
    let mut all = Records::default();
    helpers(&mut all, &mut random);
    zero_factors(&mut all);
    for n in LENGTHS {
        for sort in SORTS {
            vectors(&mut all, &mut random, n, sort);
        }
        for sort in [Sort::Ordinary, Sort::Whole, Sort::Huge, Sort::Mixed] {
            absolute_sums(&mut all, &mut random, n, sort);
        }
    }
    let dense = SHAPES.map(|(rows, cols)| MatType::General(rows, cols));
    let packed = ORDERS.map(MatType::SymPack);
    for typ in dense.into_iter().chain(packed) {
        for sort in [
            Sort::Ordinary,
            Sort::Whole,
            Sort::Tiny,
            Sort::Huge,
            Sort::Zeros,
            Sort::Mixed,
        ] {
            transforms(&mut all, &mut random, typ, sort);
        }
        for sort in [Sort::Ordinary, Sort::Huge, Sort::Zeros, Sort::Mixed] {
            matrix_sums(&mut all, &mut random, typ, sort);
        }
    }
    for typ in [MatType::General(33, 17), MatType::SymPack(33)] {
        transforms(&mut all, &mut random, typ, Sort::Ordinary);
        matrix_sums(&mut all, &mut random, typ, Sort::Ordinary);
    }
    large_norms(&mut all, &mut random);
    all
}

pub fn make(seed: u64, path: &Path) -> std::io::Result<()> {
    let all = records(seed);
    let total = all.counts.values().sum();
    write_list(path, total, &all.words)?;
    println!(
        "kernels: {total} records, {} bytes",
        8 + 8 * all.words.len()
    );
    for (code, name) in NAMES {
        println!("  {:6} {code:2} {name}", all.counts[&code]);
    }
    println!(
        "{} pairs of -0 and +0, a listed difference; this machine has another larger of {}, another smaller of {}",
        all.zero_pairs, all.other_larger, all.other_smaller
    );
    println!(
        "{} norms of finite numbers whose plain sum is infinite, a listed difference",
        all.large_norms
    );
    println!("left out of kernels:");
    println!(
        "  {:6} sums of an empty packed matrix: the original stops",
        all.stopped_packed
    );
    println!(
        "  {:6} row sums, no columns, two or more rows: the original stops",
        all.stopped_rows
    );
    println!(
        "  {:6} pairs with a signalling NaN: the original's answer is not the rule's",
        all.signalling_pairs
    );
    Ok(())
}

#[cfg(test)]
mod tests {
    use super::*;

    /// Each record names its own end, and a seed draws the same list again.
    #[test]
    fn records_follow_one_another() {
        let all = records(1);
        let (mut at, mut met) = (0, 0);
        while at < all.words.len() {
            assert!(NAMES.iter().any(|(code, _)| *code == all.words[at]));
            at += 2 + all.words[at + 1] as usize;
            met += 1;
        }
        assert_eq!(at, all.words.len());
        assert_eq!(met, all.counts.values().sum::<usize>());
        assert_eq!(all.words, records(1).words);
        assert!(all.words.len() * 8 <= 1_500_000);
    }

    /// No answer is a NaN of another pattern.
    #[test]
    fn answers_hold_one_nan() {
        assert_eq!(
            crate::words::word(f64::from_bits(0xfff0000000000001)),
            crate::words::NAN
        );
        assert_eq!(
            words(&ask::scale(1.0, vec![f64::from_bits(0xfff8000000000003)])),
            [crate::words::NAN]
        );
    }
}
