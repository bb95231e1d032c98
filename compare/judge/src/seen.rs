//! An f64 that is watched while the original computes with it. The original is generic over its
//! number, so what it keeps to itself can be seen from below, its text unchanged: the rotations
//! made, the sweeps taken (and a stop when they pass the limit), the criteria in full,
//! every larger or smaller of −0 and +0, or of a signalling NaN, and every large norm. Of −0 and +0 it hands the original
//! the standard's zero, whichever the machine has, and counts where the machine has the other.

use num_traits::{Float, NumCast, One, ToPrimitive, Zero};
use std::cell::Cell;
use std::cmp::Ordering;
use std::fmt;
use std::ops::{Add, Div, Mul, Neg, Sub};
use std::panic::resume_unwind;

use crate::standard::{maximum_number, minimum_number, unlike_zeros};
use crate::words::{signalling, word};

/// What the judge runs the original over: plain f64, or watched.
pub trait Number: Float + fmt::Debug + fmt::LowerExp + 'static {
    fn of(x: f64) -> Self;
    fn plain(self) -> f64;
    /// Said before each semidefinite projection.
    fn jacobi_begins(order: usize);
    /// Said of each norm of finite numbers whose plain sum is infinite.
    fn large_norm();
}

impl Number for f64 {
    fn of(x: f64) -> f64 {
        x
    }
    fn plain(self) -> f64 {
        self
    }
    fn jacobi_begins(_order: usize) {}
    fn large_norm() {}
}

#[derive(Clone, Copy)]
pub struct Seen(pub f64);

/// What unwinds the original out of a Jacobi loop.
pub struct SweepLimit;

/// The comparison that Jacobi makes next. For each pair: d·d > tol·a·b, if so d·d > tol,
/// if so the rotation's zeta > 0. No other comparison stands between.
#[derive(Clone, Copy, PartialEq)]
enum Next {
    None,
    First,
    Second,
    Zeta,
}

#[derive(Clone, Copy)]
struct Watch {
    limit: usize,
    rotations: u64,
    other_zeros: u64,
    unlike_zeros: u64,
    signalling: u64,
    large_norms: u64,
    lent_root: Option<f64>,
    // The semidefinite projection under way.
    next: Next,
    pairs: usize,
    left: usize,
    sweep: usize,
    rotated: bool,
}

const IDLE: Watch = Watch {
    limit: usize::MAX,
    rotations: 0,
    other_zeros: 0,
    unlike_zeros: 0,
    signalling: 0,
    large_norms: 0,
    lent_root: None,
    next: Next::None,
    pairs: 0,
    left: 0,
    sweep: 0,
    rotated: false,
};

thread_local! {
    static WATCH: Cell<Watch> = const { Cell::new(IDLE) };
}

/// What was seen since `watch`.
pub struct Sight {
    pub rotations: u64,
    /// How often the machine's own larger or smaller of -0 and +0 was not the standard's.
    pub other_zeros: u64,
    /// How often there was a larger or smaller of -0 and +0.
    pub unlike_zeros: u64,
    /// How often a larger or smaller had a signalling NaN.
    pub signalling: u64,
    /// How often a norm of finite numbers had an infinite plain sum.
    pub large_norms: u64,
}

/// Starts the counts anew, with this sweep limit.
pub fn watch(sweep_limit: usize) {
    WATCH.set(Watch {
        limit: sweep_limit,
        ..IDLE
    });
}

/// The next root is this number, whatever it is taken of. For a reading of the rules that has no such root (tests/norm_readers.rs).
pub fn lend_root(root: f64) {
    WATCH.set(Watch {
        lent_root: Some(root),
        ..WATCH.get()
    });
}

pub fn sight() -> Sight {
    let w = WATCH.get();
    Sight {
        rotations: w.rotations,
        other_zeros: w.other_zeros,
        unlike_zeros: w.unlike_zeros,
        signalling: w.signalling,
        large_norms: w.large_norms,
    }
}

impl Watch {
    fn pair_done(&mut self) {
        self.left -= 1;
        self.next = Next::First;
        if self.left == 0 {
            if self.rotated {
                self.sweep += 1;
                self.left = self.pairs;
                self.rotated = false;
            } else {
                self.next = Next::None;
            }
        }
    }

    fn compared(&mut self, greater: bool) {
        match (self.next, greater) {
            (Next::None, _) => {}
            (Next::First, true) => self.next = Next::Second,
            (Next::Second, true) => {
                self.rotations += 1;
                self.rotated = true;
                self.next = Next::Zeta;
            }
            _ => self.pair_done(),
        }
    }
}

impl Number for Seen {
    fn of(x: f64) -> Seen {
        Seen(x)
    }
    fn plain(self) -> f64 {
        self.0
    }
    fn jacobi_begins(order: usize) {
        let mut w = WATCH.get();
        w.pairs = order * order.saturating_sub(1) / 2;
        w.left = w.pairs;
        w.sweep = 1;
        w.rotated = false;
        w.next = if w.pairs > 0 { Next::First } else { Next::None };
        WATCH.set(w);
    }
    fn large_norm() {
        let mut w = WATCH.get();
        w.large_norms += 1;
        WATCH.set(w);
    }
}

impl PartialEq for Seen {
    fn eq(&self, other: &Seen) -> bool {
        self.0 == other.0
    }
}

impl PartialOrd for Seen {
    fn partial_cmp(&self, other: &Seen) -> Option<Ordering> {
        self.0.partial_cmp(&other.0)
    }

    fn gt(&self, other: &Seen) -> bool {
        let greater = self.0 > other.0;
        let mut w = WATCH.get();
        if w.next != Next::None {
            // The first comparison past the last allowed sweep: all its rotations are whole.
            if w.sweep > w.limit {
                w.next = Next::None;
                WATCH.set(w);
                resume_unwind(Box::new(SweepLimit));
            }
            w.compared(greater);
            WATCH.set(w);
        }
        greater
    }
}

/// The standard's answer, which is the machine's wherever −0 does not stand beside +0. Counts where it
/// does, and what a signalling NaN had part in, which the machine answers.
fn chosen(a: f64, b: f64, machine: f64, standard: f64) -> Seen {
    let mut w = WATCH.get();
    let answer = if signalling(a) || signalling(b) {
        w.signalling += 1;
        machine
    } else if unlike_zeros(a, b) {
        w.unlike_zeros += 1;
        w.other_zeros += u64::from(word(machine) != word(standard));
        standard
    } else {
        assert_eq!(word(machine), word(standard));
        machine
    };
    WATCH.set(w);
    Seen(answer)
}

impl Float for Seen {
    fn infinity() -> Seen {
        Seen(f64::INFINITY)
    }
    fn sqrt(self) -> Seen {
        let mut w = WATCH.get();
        let root = w.lent_root.take();
        WATCH.set(w);
        Seen(root.unwrap_or_else(|| Float::sqrt(self.0)))
    }
    fn abs(self) -> Seen {
        Seen(Float::abs(self.0))
    }
    fn max(self, other: Seen) -> Seen {
        let (a, b) = (self.0, other.0);
        chosen(a, b, Float::max(a, b), maximum_number(a, b))
    }
    fn min(self, other: Seen) -> Seen {
        let (a, b) = (self.0, other.0);
        chosen(a, b, Float::min(a, b), minimum_number(a, b))
    }
    fn recip(self) -> Seen {
        Seen(Float::recip(self.0))
    }
    fn powi(self, n: i32) -> Seen {
        Seen(Float::powi(self.0, n))
    }
}

impl Add for Seen {
    type Output = Seen;
    fn add(self, other: Seen) -> Seen {
        Seen(self.0 + other.0)
    }
}

impl Sub for Seen {
    type Output = Seen;
    fn sub(self, other: Seen) -> Seen {
        Seen(self.0 - other.0)
    }
}

impl Mul for Seen {
    type Output = Seen;
    fn mul(self, other: Seen) -> Seen {
        Seen(self.0 * other.0)
    }
}

impl Div for Seen {
    type Output = Seen;
    fn div(self, other: Seen) -> Seen {
        Seen(self.0 / other.0)
    }
}

impl Neg for Seen {
    type Output = Seen;
    fn neg(self) -> Seen {
        Seen(-self.0)
    }
}

impl Zero for Seen {
    fn zero() -> Seen {
        Seen(0.0)
    }
}

impl One for Seen {
    fn one() -> Seen {
        Seen(1.0)
    }
}

impl ToPrimitive for Seen {
    fn to_usize(&self) -> Option<usize> {
        self.0.to_usize()
    }
    fn to_f64(&self) -> Option<f64> {
        Some(self.0)
    }
}

impl NumCast for Seen {
    fn from<T: ToPrimitive>(n: T) -> Option<Seen> {
        n.to_f64().map(Seen)
    }
}

impl fmt::Debug for Seen {
    fn fmt(&self, f: &mut fmt::Formatter) -> fmt::Result {
        self.0.fmt(f)
    }
}

/// The original writes its criteria in this form: here, all their bits.
impl fmt::LowerExp for Seen {
    fn fmt(&self, f: &mut fmt::Formatter) -> fmt::Result {
        write!(f, "{:016x}", word(self.0))
    }
}

#[cfg(test)]
mod tests {
    use super::*;

    /// Whichever zero the machine has, the original is handed the standard's.
    #[test]
    fn the_standards_zero() {
        watch(1);
        assert_eq!(word(chosen(0.0, -0.0, -0.0, 0.0).0), 0);
        assert_eq!((sight().unlike_zeros, sight().other_zeros), (1, 1));
        assert_eq!(word(chosen(0.0, -0.0, 0.0, 0.0).0), 0);
        assert_eq!((sight().unlike_zeros, sight().other_zeros), (2, 1));
        assert_eq!(word(chosen(-0.0, -0.0, -0.0, -0.0).0), 1 << 63);
        assert_eq!((sight().unlike_zeros, sight().other_zeros), (2, 1));
    }
}
