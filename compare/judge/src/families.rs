//! Problems that are accepted, but for a tolerance below zero of some, drawn in families.

use totsu_core::MatType;

use crate::cone_list::{work_len, Block};
use crate::draw::{number, numbers, Sort};
use crate::handed::{stored, work_places, Handed, Vector};
use crate::original::{op, proj, trans_op, Kind, KINDS, L};
use crate::random::Random;

#[derive(Clone, Copy, Debug, PartialEq)]
pub enum Family {
    /// Numbers of any sort.
    Drawn,
    /// With an optimum.
    Solvable,
    /// Nonnegative rows, the second the opposite of the first with too little room between them.
    Contradictory,
    /// An objective that falls along a ray of the cone.
    Falling,
    /// Semidefinite blocks, and few sweeps allowed.
    FewSweeps,
    /// Numbers of any sort, and an eps_zero that is large beside tau.
    LargeEpsZero,
}

pub const FAMILIES: [Family; 6] = [
    Family::Drawn,
    Family::Solvable,
    Family::Contradictory,
    Family::Falling,
    Family::FewSweeps,
    Family::LargeEpsZero,
];

impl Family {
    /// Whether a ray shows it to be unbounded or infeasible, mostly.
    fn has_ray(self) -> bool {
        matches!(self, Family::Contradictory | Family::Falling)
    }
}

/// What every place of a lent buffer holds.
pub fn fill(random: &mut Random) -> f64 {
    let negative_nan = f64::from_bits(0xfff8000000000123);
    random.pick(&[
        0.0,
        -0.0,
        7.0,
        -1e300,
        f64::INFINITY,
        f64::NEG_INFINITY,
        f64::NAN,
        negative_nan,
    ])
}

/// Finite numbers of a sort.
fn finite(random: &mut Random, sort: Sort, count: usize) -> Vec<f64> {
    let mut all = numbers(random, sort, count);
    for x in all.iter_mut().filter(|x| !x.is_finite()) {
        *x = number(random, Sort::Whole);
    }
    all
}

fn sort(random: &mut Random, family: Family) -> Sort {
    if family == Family::Solvable || family.has_ray() {
        return random.pick(&[Sort::Whole, Sort::Whole, Sort::Ordinary]);
    }
    random.pick(&[
        Sort::Whole,
        Sort::Whole,
        Sort::Whole,
        Sort::Whole,
        Sort::Ordinary,
        Sort::Ordinary,
        Sort::Ordinary,
        Sort::Tiny,
        Sort::Subnormal,
        Sort::Huge,
        Sort::Zeros,
        Sort::Special,
        Sort::Wild,
        Sort::Mixed,
    ])
}

// Cones.

/// A list of up to 31 words that covers so many places, blocks of size 0 among them.
fn blocks(random: &mut Random, mut places: usize, kinds: &[Kind]) -> Vec<Block> {
    let most = if places > 32 { places / 3 } else { 5 };
    let mut list = Vec::new();
    while places > 0 || random.one_in(8) {
        let mut kind = random.pick(kinds);
        let order = random.pick(&[0, 1, 2, 2, 2, 3, 3, 4]);
        let mut size = match kind {
            Kind::Semidefinite => order * (order + 1) / 2,
            _ => random.within(0, most),
        };
        // The last word takes what is left.
        if list.len() == 30 {
            (kind, size) = (Kind::Nonnegative, places);
        }
        if size <= places {
            list.push(Block { kind, size });
            places -= size;
        }
        if list.len() == 31 {
            break;
        }
    }
    list
}

fn list_of(random: &mut Random, family: Family, m: usize) -> Vec<Block> {
    if family.has_ray() && random.one_in(2) {
        let kind = Kind::Nonnegative;
        return vec![Block { kind, size: m }];
    }
    if family == Family::FewSweeps {
        let kinds = [Kind::Semidefinite, Kind::Semidefinite, Kind::Zero];
        return blocks(random, m, &kinds);
    }
    blocks(random, m, &KINDS)
}

/// A point of the cone, or of its dual; of a semidefinite block, a diagonal matrix.
fn inside(random: &mut Random, list: &[Block], dual: bool) -> Vec<f64> {
    let mut all = Vec::new();
    for block in list {
        let mut part = numbers(random, Sort::Whole, block.size);
        if block.kind == Kind::Semidefinite {
            part.fill(0.0);
            let (mut at, mut next) = (0, 2);
            while at < part.len() {
                part[at] = random.below(6) as f64;
                at += next;
                next += 1;
            }
        } else {
            proj::<f64, L>(block.kind, dual, &mut part, &mut [], 0.0).unwrap();
        }
        all.extend(part);
    }
    all
}

// c, A and b.

struct Data {
    typ: MatType,
    c: Vec<f64>,
    a: Vec<f64>,
    b: Vec<f64>,
}

/// b = A·x + s and c = -Aᵀ·y: with s in the cone and y in its dual, an optimum exists.
fn make_solvable(random: &mut Random, list: &[Block], data: &mut Data) {
    let (m, n) = data.typ.size();
    let x = numbers(random, Sort::Whole, n);
    let s = inside(random, list, false);
    let y = inside(random, list, true);
    if m > 0 && n > 0 {
        data.b = op(data.typ, &data.a, 1.0, &x, 1.0, s);
        data.c = trans_op(data.typ, &data.a, -1.0, &y, 0.0, vec![0.0; n]);
    }
}

fn make_contradictory(random: &mut Random, data: &mut Data) {
    if let MatType::General(m @ 2.., n) = data.typ {
        for col in 0..n {
            data.a[col * m + 1] = -data.a[col * m];
        }
        data.b[1] = -data.b[0] - random.within(1, 9) as f64;
    }
}

/// With d all ones: A·d + s = 0 for an s in the cone, and c·d is below 0.
fn make_falling(random: &mut Random, list: &[Block], data: &mut Data) {
    let s = inside(random, list, false);
    if let MatType::General(m, n @ 1..) = data.typ {
        for row in 0..m {
            let others: f64 = (1..n).map(|col| data.a[col * m + row]).sum();
            data.a[row] = -s[row] - others;
        }
    }
    for x in &mut data.c {
        *x = -x.abs() - 1.0;
    }
}

fn data(random: &mut Random, family: Family, typ: MatType, list: &[Block]) -> Data {
    let (m, n) = typ.size();
    let sort = sort(random, family);
    let mut data = Data {
        typ,
        c: finite(random, sort, n),
        a: finite(random, sort, typ.len()),
        b: finite(random, sort, m),
    };
    match family {
        Family::Solvable => make_solvable(random, list, &mut data),
        Family::Contradictory => make_contradictory(random, &mut data),
        Family::Falling => make_falling(random, list, &mut data),
        _ => {}
    }
    data
}

// Parameters.

fn max_iter(random: &mut Random, family: Family) -> u64 {
    if family.has_ray() {
        random.pick(&[3, 30, 100, 300, 1000])
    } else if family == Family::Solvable {
        random.pick(&[2, 10, 100, 1000, 1000])
    } else {
        random.pick(&[0, 1, 1, 2, 3, 5, 8, 13, 30, 100, 100, 300])
    }
}

fn sweep_limit(random: &mut Random, family: Family) -> u64 {
    if family == Family::FewSweeps {
        random.pick(&[1, 1, 1, 2, 2, 3, 4])
    } else {
        random.pick(&[1, 2, 3, 5, 10, 64, 64, 64, 64, 64])
    }
}

fn eps_acc(random: &mut Random, family: Family) -> f64 {
    if family == Family::Solvable {
        random.pick(&[1e-1, 1e-2, 1e-3, 1e-4, 1e-6])
    } else {
        tolerance(random)
    }
}

/// Tight or loose, met by few runs; or below zero, and refused.
fn tolerance(random: &mut Random) -> f64 {
    random.pick(&[1e-6, 1e-6, 1e-6, 1e-3, 1e-3, 1e-9, 0.5, 0.0, -0.0, -1.0])
}

fn eps_inf(random: &mut Random, family: Family) -> f64 {
    if family.has_ray() {
        random.pick(&[1e-6, 1e-3, 0.1, 0.5, 1.0, 3.0, 1e3, 1e300])
    } else {
        tolerance(random)
    }
}

fn eps_zero(random: &mut Random, family: Family) -> f64 {
    if family.has_ray() || family == Family::LargeEpsZero {
        random.pick(&[1e-12, 1e-3, 0.1, 0.3, 0.5, 0.9, 1.0, 2.0, 0.0])
    } else {
        let least = f64::from_bits(1);
        random.pick(&[
            1e-12, 1e-12, 1e-12, 1e-12, 1e-6, 1e-3, 0.0, 0.0, -0.0, least,
        ])
    }
}

// Problems.

/// A problem of m rows and n columns, packed only if both are the same.
pub fn of_size(random: &mut Random, family: Family, packed: bool, m: usize, n: usize) -> Handed {
    let typ = if packed {
        MatType::SymPack(n)
    } else {
        MatType::General(m, n)
    };
    assert_eq!((typ.size(), typ.len()), ((m, n), stored(packed, m, n)));
    let list = list_of(random, family, m);
    let data = data(random, family, typ, &list);
    Handed {
        max_iter: max_iter(random, family),
        sweep_limit: sweep_limit(random, family),
        eps_acc: eps_acc(random, family),
        eps_inf: eps_inf(random, family),
        eps_zero: eps_zero(random, family),
        packed,
        n,
        m,
        words: list.iter().map(|b| b.word()).collect(),
        c: Vector::whole(data.c),
        a: Vector::whole(data.a),
        b: Vector::whole(data.b),
        twice: false,
        edition: 1,
        work: work_places(m, n) + random.pick(&[0, 0, 0, 1, 2, 5]),
        cone_work: work_len(&list) + random.pick(&[0, 0, 0, 1, 3]),
        fill: fill(random),
    }
}

/// Puts blocks of size 0, of any kind, anywhere into a list until it has so many words.
pub fn lengthen(random: &mut Random, words: &mut Vec<u16>, count: usize) {
    while words.len() < count {
        let at = random.within(0, words.len());
        let kind = random.pick(&KINDS);
        words.insert(at, Block { kind, size: 0 }.word());
    }
}

/// So many nonnegative blocks for so many places: of one place each, and the last one of the rest.
pub fn nonnegative(places: usize, count: usize) -> Vec<u16> {
    let sizes = (1..count).map(|_| 1).chain([places + 1 - count]);
    let kind = Kind::Nonnegative;
    sizes.map(|size| Block { kind, size }.word()).collect()
}

/// Most sizes are small, none is above 32.
fn size(random: &mut Random) -> usize {
    match random.below(24) {
        0..=16 => random.within(0, 6),
        17..=22 => random.within(5, 11),
        _ => random.within(12, 32),
    }
}

/// A problem of sizes up to 32.
pub fn small(random: &mut Random, family: Family) -> Handed {
    if family == Family::FewSweeps {
        let (m, n) = (random.within(3, 12), random.within(1, 4));
        return of_size(random, family, false, m, n);
    }
    let packed = random.one_in(3);
    let n = size(random);
    let m = if packed { n } else { size(random) };
    let mut p = of_size(random, family, packed, m, n);
    if p.a.length > 144 {
        p.a.given.truncate(97);
    }
    p
}
