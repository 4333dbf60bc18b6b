//! Stand-in for `p3_field`: the traits of fields as far as the crate uses them, and the functions over them.
use std::fmt::{Debug, Display};
use std::hash::Hash;
use std::iter::Sum;
use std::ops::{Add, AddAssign, Mul, MulAssign, Neg, Sub, SubAssign};

use num_bigint::BigUint;

pub trait PrimeCharacteristicRing:
    Sized
    + Clone
    + Debug
    + Add<Output = Self>
    + AddAssign
    + Sub<Output = Self>
    + SubAssign
    + Mul<Output = Self>
    + MulAssign
    + Neg<Output = Self>
    + Sum
{
    const ZERO: Self;
    const ONE: Self;

    fn from_i32(n: i32) -> Self;

    fn from_bool(b: bool) -> Self {
        if b { Self::ONE } else { Self::ZERO }
    }

    fn exp_u64(&self, n: u64) -> Self {
        let (mut result, mut square, mut rest) = (Self::ONE, self.clone(), n);
        while rest > 0 {
            if rest % 2 == 1 {
                result *= square.clone();
            }
            square *= square.clone();
            rest /= 2;
        }
        result
    }

    fn powers(&self) -> Powers<Self> {
        Powers { base: self.clone(), current: Self::ONE }
    }

    fn zero_vec(len: usize) -> Vec<Self> {
        vec![Self::ZERO; len]
    }
}

/// 1, base, base², ..
pub struct Powers<R> {
    base: R,
    current: R,
}

impl<R: PrimeCharacteristicRing> Powers<R> {
    pub fn collect_n(self, n: usize) -> Vec<R> {
        let Self { base, mut current } = self;
        (0..n)
            .map(|_| {
                let next = current.clone() * base.clone();
                std::mem::replace(&mut current, next)
            })
            .collect()
    }
}

/// A ring that holds another, and works with its elements directly.
pub trait Algebra<R>:
    PrimeCharacteristicRing
    + From<R>
    + Add<R, Output = Self>
    + AddAssign<R>
    + Sub<R, Output = Self>
    + SubAssign<R>
    + Mul<R, Output = Self>
    + MulAssign<R>
{
}

impl<R: PrimeCharacteristicRing> Algebra<R> for R {}

pub trait Field: PrimeCharacteristicRing + Copy + Default + Eq + Hash + Display + Send + Sync + 'static {
    type PrimeSubfield: Field;

    fn try_inverse(&self) -> Option<Self>;
    fn order() -> BigUint;
    fn bits() -> usize;

    fn is_zero(&self) -> bool {
        *self == Self::ZERO
    }

    fn inverse(&self) -> Self {
        self.try_inverse().expect("Tried to invert zero")
    }
}

pub trait ExtensionField<F: Field>: Field + Algebra<F> {}

impl<F: Field> ExtensionField<F> for F {}

pub fn dot_product<S, LI, RI>(li: LI, ri: RI) -> S
where
    LI: Iterator,
    RI: Iterator,
    LI::Item: Mul<RI::Item>,
    S: Sum<<LI::Item as Mul<RI::Item>>::Output>,
{
    li.zip(ri).map(|(l, r)| l * r).sum()
}

/// By one inversion of the product of all. Panics where one of the elements is zero.
pub fn batch_multiplicative_inverse<F: Field>(elements: &[F]) -> Vec<F> {
    // The products of the elements before each one.
    let mut inverses = Vec::with_capacity(elements.len());
    let mut product = F::ONE;
    for x in elements {
        inverses.push(product);
        product *= *x;
    }
    let mut rest = product.inverse();
    for (inverse, x) in inverses.iter_mut().zip(elements).rev() {
        *inverse *= rest;
        rest *= *x;
    }
    inverses
}
