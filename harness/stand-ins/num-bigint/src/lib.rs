//! Stand-in for `num_bigint`: a number of 128 bits that panics where it would wrap. The sums of 16 tables need 101 bits at most.
use std::fmt;
use std::ops::{Add, Mul};

#[derive(Clone, Copy, Debug, PartialEq, Eq, PartialOrd, Ord)]
pub struct BigUint(pub u128);

impl BigUint {
    pub const ZERO: Self = Self(0);
}

impl From<u64> for BigUint {
    fn from(n: u64) -> Self {
        Self(n.into())
    }
}

impl From<usize> for BigUint {
    fn from(n: usize) -> Self {
        Self(n as u128)
    }
}

impl Add for BigUint {
    type Output = Self;

    fn add(self, other: Self) -> Self {
        Self(self.0.checked_add(other.0).expect("the stand-in for BigUint has 128 bits"))
    }
}

impl Mul for BigUint {
    type Output = Self;

    fn mul(self, other: Self) -> Self {
        Self(self.0.checked_mul(other.0).expect("the stand-in for BigUint has 128 bits"))
    }
}

impl fmt::Display for BigUint {
    fn fmt(&self, f: &mut fmt::Formatter<'_>) -> fmt::Result {
        self.0.fmt(f)
    }
}
