//! The number type that 000 is generic over. Only `f64` is one.

use std::fmt::Debug;
use std::ops::{Add, Div, Mul, Neg, Sub};

pub trait Real:
    Copy
    + Debug
    + PartialOrd
    + From<f64>
    + Add<Output = Self>
    + Sub<Output = Self>
    + Mul<Output = Self>
    + Div<Output = Self>
    + Neg<Output = Self>
{
    /// 01 §8: clears the sign.
    fn abs(self) -> Self;

    /// 01 §3 Square root: correctly rounded.
    fn sqrt(self) -> Self;

    fn zero() -> Self {
        Self::from(0.0)
    }

    fn one() -> Self {
        Self::from(1.0)
    }

    fn two() -> Self {
        Self::from(2.0)
    }

    fn four() -> Self {
        Self::from(4.0)
    }

    fn fuzzy_epsilon() -> Self {
        Self::from(1e-8)
    }

    /// 01 §3 Within e.
    fn fuzzy_eq_eps(self, other: Self, eps: Self) -> bool {
        (self - other).abs() < eps
    }

    /// 01 §3 Radius collapses: `self < other + 1e-8`.
    fn fuzzy_lt(self, other: Self) -> bool {
        self < other + Self::fuzzy_epsilon()
    }
}

impl Real for f64 {
    fn abs(self) -> Self {
        f64::abs(self)
    }

    fn sqrt(self) -> Self {
        f64::sqrt(self)
    }
}
