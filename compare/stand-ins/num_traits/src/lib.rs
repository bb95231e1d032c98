//! Stand-in for the crate num_traits: the traits the original asks for, with the methods it
//! calls and no others. Every f64 answer is the standard library's own.

use std::ops::{Add, Div, Mul, Neg, Sub};

pub trait Zero: Sized {
    fn zero() -> Self;
}

pub trait One: Sized {
    fn one() -> Self;
}

pub trait ToPrimitive {
    fn to_usize(&self) -> Option<usize>;
    fn to_f64(&self) -> Option<f64>;
}

pub trait NumCast: Sized + ToPrimitive {
    fn from<T: ToPrimitive>(n: T) -> Option<Self>;
}

pub fn cast<T: ToPrimitive, U: NumCast>(n: T) -> Option<U> {
    U::from(n)
}

pub trait Float:
    Zero
    + One
    + NumCast
    + Copy
    + PartialOrd
    + Add<Output = Self>
    + Sub<Output = Self>
    + Mul<Output = Self>
    + Div<Output = Self>
    + Neg<Output = Self>
{
    fn infinity() -> Self;
    fn sqrt(self) -> Self;
    fn abs(self) -> Self;
    fn max(self, other: Self) -> Self;
    fn min(self, other: Self) -> Self;
    fn recip(self) -> Self;
    fn powi(self, n: i32) -> Self;
}

impl Zero for f64 {
    fn zero() -> f64 {
        0.0
    }
}

impl One for f64 {
    fn one() -> f64 {
        1.0
    }
}

impl ToPrimitive for f64 {
    fn to_usize(&self) -> Option<usize> {
        // The whole part, if a usize can hold it: 2^64 is the first that does not fit.
        let whole = self.trunc();
        if whole > -1.0 && whole < 18446744073709551616.0 {
            Some(whole as usize)
        } else {
            None
        }
    }
    fn to_f64(&self) -> Option<f64> {
        Some(*self)
    }
}

impl ToPrimitive for usize {
    fn to_usize(&self) -> Option<usize> {
        Some(*self)
    }
    fn to_f64(&self) -> Option<f64> {
        Some(*self as f64)
    }
}

impl ToPrimitive for i32 {
    fn to_usize(&self) -> Option<usize> {
        usize::try_from(*self).ok()
    }
    fn to_f64(&self) -> Option<f64> {
        Some((*self).into())
    }
}

impl NumCast for f64 {
    fn from<T: ToPrimitive>(n: T) -> Option<f64> {
        n.to_f64()
    }
}

impl Float for f64 {
    #[inline]
    fn infinity() -> f64 {
        f64::INFINITY
    }
    #[inline]
    fn sqrt(self) -> f64 {
        f64::sqrt(self)
    }
    #[inline]
    fn abs(self) -> f64 {
        f64::abs(self)
    }
    #[inline]
    fn max(self, other: f64) -> f64 {
        f64::max(self, other)
    }
    #[inline]
    fn min(self, other: f64) -> f64 {
        f64::min(self, other)
    }
    #[inline]
    fn recip(self) -> f64 {
        f64::recip(self)
    }
    #[inline]
    fn powi(self, n: i32) -> f64 {
        f64::powi(self, n)
    }
}
