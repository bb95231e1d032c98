//! Problems with very large numbers (request (ix) of document 02), for the runs and the cards.

use crate::cone_list::Block;
use crate::families::{of_size, FAMILIES};
use crate::group_shapes::grouped;
use crate::handed::{work_places, Handed, Vector};
use crate::original::Kind;
use crate::problem::{Answer, Ending};
use crate::random::Random;
use crate::ruled_norm::{plain_sum, power_of_2};
use crate::words::words;

/// The largest number whose square is finite, and the smallest whose square is not.
pub const BELOW: f64 = f64::from_bits(EDGE.to_bits() - 1);
pub const EDGE: f64 = power_of_2(512);

/// A dense problem with the default tolerances, columns of A one after another.
pub fn dense(list: &[(Kind, usize)], c: Vec<f64>, a: Vec<f64>, b: Vec<f64>) -> Handed {
    let (n, m) = (c.len(), b.len());
    let block = |(kind, size): &(Kind, usize)| Block {
        kind: *kind,
        size: *size,
    };
    Handed {
        max_iter: 30,
        sweep_limit: 64,
        eps_acc: 1e-6,
        eps_inf: 1e-6,
        eps_zero: 1e-12,
        packed: false,
        n,
        m,
        words: list.iter().map(|part| block(part).word()).collect(),
        c: Vector::whole(c),
        a: Vector::whole(a),
        b: Vector::whole(b),
        twice: false,
        edition: 1,
        work: work_places(m, n),
        cone_work: 0,
        fill: f64::NAN,
    }
}

/// The finding of docs/FINDINGS.md, 8: a reading of −10^200. The Frobenius norm of b is infinite and the residual's norm is not, so the first criterion is 0; the others are since c is.
pub fn finding() -> Handed {
    let mut p = dense(
        &[(Kind::Nonnegative, 1)],
        vec![0.0],
        vec![1.0],
        vec![-1e200],
    );
    p.max_iter = 1000;
    p
}

/// Sizes on both sides of the one whose square is the first to be infinite.
pub const SIZES: [f64; 11] = [
    1e150,
    1e154,
    BELOW,
    EDGE,
    1e155,
    1e160,
    1e200,
    1e250,
    1e300,
    1e308,
    f64::MAX,
];

/// One row and one column, with numbers of this size in b, in c, in both, and in A.
pub fn one_by_one(size: f64) -> Vec<Handed> {
    let of = |c: f64, a: f64, b: f64| dense(&[(Kind::Nonnegative, 1)], vec![c], vec![a], vec![b]);
    vec![
        of(0.0, 1.0, -size),
        of(1.0, -1.0, size),
        of(size, -1.0, 0.0),
        of(-size, -1.0, 0.0),
        of(-size, 1.0, -size),
        of(1.0, size, -1.0),
    ]
}

/// Numbers whose squares add up to just below the largest number, or to just more; large beside tiny, which 2^−600 takes to a subnormal
/// number or to 0; and such whose norm stays infinite.
pub fn vectors() -> Vec<Vec<f64>> {
    let power = power_of_2;
    vec![
        vec![BELOW],
        vec![EDGE],
        vec![BELOW, power(485)],
        vec![BELOW, power(486)],
        vec![power(486), BELOW],
        vec![power(511); 3],
        vec![power(511); 4],
        vec![power(511); 5],
        vec![power(511), -power(511), 0.0, -power(511), power(510)],
        vec![1e200, power(-422), power(-430), power(-474)],
        vec![power(-475), power(-474), power(-430), -1e200],
        vec![1.0, 1e-300, 1e160, 1e-10],
        vec![EDGE, power(485), 1.0],
        vec![EDGE, power(486), 1.0],
        vec![3.0 * power(600), 4.0 * power(600)],
        vec![f64::MAX, 1e290],
        vec![f64::MAX, f64::MAX],
        vec![-1e308; 4],
        vec![1e308, 1e308, -1e308],
    ]
}

/// Chains of ties. Most squares are about 2^50 times the one before, and what was added up so far lies at the middle between two places of the
/// next sum, or just off it: so the first square decides the last place of all. Of a first number of 2^62 a scaling by 2^−600 loses it, of one
/// of 2^362 a scaling by 2^−900.
///
/// - 19 from 2^62, whose plain sum is finite. Scaled, they would have the norm one place below.
/// - 7 from 2^362, whose plain sum is infinite. By 2^−900 they would have the norm one place below.
/// - 22 from 2^62, whose plain sum is infinite by their first alone. Their norm is the number before 2^512, and its square finite.
/// - 10 from 2^362, whose norm is 2^512. By 2^−900 it would be the number before.
pub fn ties() -> [Vec<f64>; 4] {
    let of = |first: [u64; 2], from: u64, to: u64, last: &[u64]| {
        let between = (from..=to).step_by(25 << 52);
        let all = first.into_iter().chain(between).chain(last.to_vec());
        all.map(f64::from_bits).collect()
    };
    let at_the_edge = [
        0x5e57fffffffffffc,
        0x5cb0000000000000,
        0x5e40000000000000,
        0x5e40000000000000,
        0x5feffffffffffffd,
    ];
    [
        of(
            [0x43d0000000000000, 0x4558000000000000],
            0x46e7fffffffffffd,
            0x5e57fffffffffffd,
            &[0x5fe8000000000001],
        ),
        of(
            [0x5690000000000000, 0x5828000000000000],
            0x59b7fffffffffffd,
            0x5e67fffffffffffd,
            &[0x5ff8000000000001],
        ),
        of(
            [0x43d0000000000000, 0x4558000000000000],
            0x46e7fffffffffffd,
            0x5cc7fffffffffffd,
            &at_the_edge,
        ),
        of(
            [0x5690000000000000, 0x5818000000000000],
            0x59a7fffffffffffd,
            0x5cc7fffffffffffd,
            &at_the_edge,
        ),
    ]
}

/// These numbers as b, with c of ones.
pub fn with_b(b: Vec<f64>) -> Handed {
    let m = b.len();
    dense(&[(Kind::Nonnegative, m)], vec![1.0], vec![-1.0; m], b)
}

/// These numbers as c, with two rows.
pub fn with_c(c: Vec<f64>) -> Handed {
    let n = c.len();
    let a = [1.0, -1.0].repeat(n);
    dense(&[(Kind::Nonnegative, 2)], c, a, vec![1.0, 1.0])
}

/// As the finding, but no square is infinite: the sum of four or more is. So many rows, or so many columns.
pub fn sums(count: usize) -> [Handed; 2] {
    let large = power_of_2(511);
    let list = [(Kind::Nonnegative, count)];
    let rows = dense(&list, vec![0.0], vec![1.0; count], vec![-large; count]);
    let list = [(Kind::Nonnegative, 1)];
    let columns = dense(&list, vec![large; count], vec![1.0; count], vec![0.0]);
    [rows, columns]
}

/// Two columns and four rows of one block, whose b has a large head, a large tail, or both.
pub fn one_block(kind: Kind) -> Vec<Handed> {
    let of = |b: [f64; 4]| {
        let a = vec![1.0, 0.0, 0.0, 1.0, 0.0, -1.0, 1.0, 0.0];
        dense(&[(kind, 4)], vec![1.0, -1.0], a, b.to_vec())
    };
    vec![
        of([1e200, 1.0, 2.0, 2.0]),
        of([1.0, 1e200, 2e200, -2e200]),
        of([3e200, 1e200, -2e200, 2e200]),
        of([-3e200, 2e200, 1e200, 2e200]),
        of([1e308, 1e308, 1e308, 1e308]),
        of([EDGE, BELOW, 0.0, 1e-200]),
    ]
}

/// A chain from c to the last place of a block of this kind: each row and column has one number far above all others, and so hands on what
/// it reads, which grows along the chain. Else no projection of a run was seen to meet a large norm: the diagonals are 1 over the sums of rows
/// and columns, so a step moves each place by no more than the largest that it reads.
pub fn chain(kind: Kind, length: usize, bits: i64, max_iter: u64) -> Handed {
    let (n, m) = (length, length + 1);
    let link = |number: usize| power_of_2(505 - bits * number as i64);
    let mut a = vec![0.0; n * m];
    for column in 0..n {
        // The row before the last is the block's head.
        let row = if column == n - 1 { column + 1 } else { column };
        a[column * m + row] = link(2 * column + 1);
        if column > 0 {
            a[column * m + column - 1] = link(2 * column);
        }
    }
    let mut c = vec![0.0; n];
    c[0] = link(0);
    let mut p = dense(&[(Kind::Zero, m - 2), (kind, 2)], c, a, vec![0.0; m]);
    (p.max_iter, p.eps_acc, p.eps_inf, p.eps_zero) = (max_iter, 0.0, 0.0, 0.0);
    p
}

/// These numbers as b without an objective, and as c without readings: all criteria of the first step but one are 0.
pub fn alone(x: Vec<f64>) -> [Handed; 2] {
    let count = x.len();
    let list = [(Kind::Nonnegative, count)];
    let rows = dense(&list, vec![0.0], vec![1.0; count], x.clone());
    let list = [(Kind::Nonnegative, 1)];
    let columns = dense(&list, x, vec![1.0; count], vec![0.0]);
    [rows, columns]
}

/// These numbers, below 0, as a b that rows contradict.
pub fn contradicted(x: &[f64]) -> Handed {
    let (m, b) = (x.len(), x.iter().map(|x| -x).collect());
    let a = (0..m).map(|row| if row % 2 == 0 { 1.0 } else { -1.0 });
    dense(&[(Kind::Nonnegative, m)], vec![1.0], a.collect(), b)
}

/// The problem with an eps_inf one place below the smallest criterion that it ends with: by a norm that is smaller it is met.
pub fn just_missed(mut p: Handed) -> Handed {
    let answer = p.problem().solve();
    let criteria = answer.ending.criteria().iter();
    let least = criteria.fold(f64::INFINITY, |least, x| x.min(least));
    p.eps_inf = f64::from_bits(least.to_bits() - 1);
    p
}

// Drawn problems.

fn factor(random: &mut Random) -> f64 {
    match random.below(4) {
        0 => 1.0,
        1 => power_of_2(random.within(490, 530) as i64),
        2 => power_of_2(random.within(530, 1010) as i64),
        _ => power_of_2(-(random.within(300, 600) as i64)),
    }
}

/// All numbers times a drawn factor, or one of them; but not past the largest number.
fn enlarge(random: &mut Random, v: &mut Vector) {
    let factor = factor(random);
    let one = random.one_in(3);
    let at = random.below(v.given.len());
    for (i, x) in v.given.iter_mut().enumerate() {
        if (!one || i == at) && (*x * factor).is_finite() {
            *x *= factor;
        }
    }
}

/// A problem of up to so many rows and columns of any family, its numbers enlarged, some with their list in groups.
pub fn enlarged(random: &mut Random, most: usize) -> Handed {
    let family = random.pick(&FAMILIES);
    let packed = random.one_in(4);
    let n = random.within(1, most);
    let m = if packed { n } else { random.within(1, most) };
    let mut p = of_size(random, family, packed, m, n).raised();
    for v in [&mut p.c, &mut p.a, &mut p.b] {
        enlarge(random, v);
    }
    p.max_iter = random.pick(&[1, 2, 3, 10, 30, 100, 300]);
    p.eps_acc = random.pick(&[1e-6, 1e-6, 1e-3, 0.0]);
    p.eps_inf = random.pick(&[1e-6, 1e-3, 1.0, 1e100, 1e300]);
    p.eps_zero = random.pick(&[1e-12, 1e-12, 0.0, 0.5, 1.0, 1e-300]);
    if random.one_in(6) {
        p.words = grouped(random, &p.words, 20);
    }
    p
}

/// How a run differs from what it was before the request.
#[derive(Clone, Copy, PartialEq)]
pub enum Change {
    Verdict,
    Steps,
    Criteria,
    None,
}

/// Both endings by their names, and what differs between them.
pub fn change(before: &Answer, after: &Answer) -> (&'static str, &'static str, Change) {
    let names = [before, after].map(|answer| match answer.ending {
        Ending::ExcessIterUnscaled(_) => "unscaled",
        ref other => other.name(),
    });
    let change = if names[0] != names[1] {
        Change::Verdict
    } else if before.k != after.k {
        Change::Steps
    } else if words(before.ending.criteria()) != words(after.ending.criteria()) {
        Change::Criteria
    } else {
        Change::None
    };
    (names[0], names[1], change)
}

/// Draws until so many problems are found that meet the difference and are wanted.
pub fn search(
    random: &mut Random,
    most: usize,
    count: usize,
    is_wanted: impl Fn(&Handed, &Answer, &Answer) -> bool,
) -> Vec<Handed> {
    let mut met = Vec::new();
    while met.len() < count {
        let p = enlarged(random, most);
        let problem = p.problem();
        let after = problem.solve();
        if after.large_norms > 0 && is_wanted(&p, &problem.solve_before(), &after) {
            met.push(p);
        }
    }
    met
}

/// Whether the plain sums of b and c are finite, so that other norms of the run are large.
pub fn is_large_later(p: &Handed) -> bool {
    [&p.c, &p.b]
        .iter()
        .all(|v| plain_sum(&v.numbers()).is_finite())
}

#[cfg(test)]
mod tests {
    use super::*;
    use crate::ruled_norm::{is_large, norm, scaled_norm};
    use crate::words::word;

    /// What each comes to by the rule, scaled by 2^−600, and scaled by 2^−900.
    #[test]
    fn chains_of_ties() {
        let before = BELOW.to_bits();
        let edge = EDGE.to_bits();
        let five = 0x5fe8000000000005;
        let place = 1 << 52;
        let [finite, infinite, at_the_edge, beyond] = ties();
        let lengths = [&finite, &infinite, &at_the_edge, &beyond].map(|x| x.len());
        assert_eq!(lengths, [19, 7, 22, 10]);
        for (x, large, norms) in [
            (&finite, false, [five, five - 1, five - 1]),
            (&infinite, true, [five, five, five - 1].map(|u| u + place)),
            (&at_the_edge, true, [before; 3]),
            (&beyond, true, [edge, edge, before]),
        ] {
            let by = |bits: i64| scaled_norm(x, power_of_2(-bits), power_of_2(bits));
            assert_eq!(is_large(x), large);
            assert_eq!([norm(x), by(600), by(900)].map(word), norms);
        }
        assert!(!is_large(&at_the_edge[1..]));
        assert!((BELOW * BELOW).is_finite());
    }
}
