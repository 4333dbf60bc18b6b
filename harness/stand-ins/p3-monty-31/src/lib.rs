//! Stand-in for `p3_monty_31`: prime fields of 31 bits and their extensions of degree 4, for any prime P and any value W of X⁴. Plain
//! formulas, apart from those of the port: inverses are powers, and no word is kept in Montgomery's form.
use std::fmt;
use std::iter::Sum;
use std::ops::{Add, AddAssign, Mul, MulAssign, Neg, Sub, SubAssign};

use num_bigint::BigUint;
use p3_field::{Algebra, ExtensionField, Field, PrimeCharacteristicRing};

#[derive(Clone, Copy, Default, PartialEq, Eq, Hash)]
pub struct MontyField31<const P: u32>(u32);

/// c0 + c1·X + c2·X² + c3·X³, where X⁴ is W.
#[derive(Clone, Copy, Default, PartialEq, Eq, Hash)]
pub struct Quartic<const P: u32, const W: u32>(pub [MontyField31<P>; 4]);

impl<const P: u32> MontyField31<P> {
    /// `word` must be below the prime.
    pub fn new(word: u32) -> Self {
        assert!(word < P);
        Self(word)
    }

    pub fn word(self) -> u32 {
        self.0
    }

    fn of(n: u64) -> Self {
        Self((n % u64::from(P)) as u32)
    }
}

impl<const P: u32> Add for MontyField31<P> {
    type Output = Self;

    fn add(self, b: Self) -> Self {
        Self::of(u64::from(self.0) + u64::from(b.0))
    }
}

impl<const P: u32> Sub for MontyField31<P> {
    type Output = Self;

    fn sub(self, b: Self) -> Self {
        Self::of(u64::from(self.0) + u64::from(P) - u64::from(b.0))
    }
}

impl<const P: u32> Mul for MontyField31<P> {
    type Output = Self;

    fn mul(self, b: Self) -> Self {
        Self::of(u64::from(self.0) * u64::from(b.0))
    }
}

impl<const P: u32> Neg for MontyField31<P> {
    type Output = Self;

    fn neg(self) -> Self {
        Self::of(u64::from(P - self.0))
    }
}

impl<const P: u32, const W: u32> Add for Quartic<P, W> {
    type Output = Self;

    fn add(self, b: Self) -> Self {
        Self(std::array::from_fn(|i| self.0[i] + b.0[i]))
    }
}

impl<const P: u32, const W: u32> Sub for Quartic<P, W> {
    type Output = Self;

    fn sub(self, b: Self) -> Self {
        Self(std::array::from_fn(|i| self.0[i] - b.0[i]))
    }
}

impl<const P: u32, const W: u32> Mul for Quartic<P, W> {
    type Output = Self;

    /// The product of two polynomials, where Xⁱ⁺⁴ counts as W·Xⁱ.
    fn mul(self, b: Self) -> Self {
        let mut product = [0; 7];
        for (i, x) in self.0.iter().enumerate() {
            for (j, y) in b.0.iter().enumerate() {
                product[i + j] = (product[i + j] + u64::from(x.0) * u64::from(y.0)) % u64::from(P);
            }
        }
        Self(std::array::from_fn(|i| MontyField31::of(product[i] + product.get(i + 4).map_or(0, |high| u64::from(W) * high))))
    }
}

impl<const P: u32, const W: u32> Neg for Quartic<P, W> {
    type Output = Self;

    fn neg(self) -> Self {
        Self(self.0.map(Neg::neg))
    }
}

impl<const P: u32, const W: u32> From<MontyField31<P>> for Quartic<P, W> {
    fn from(word: MontyField31<P>) -> Self {
        Self([word, MontyField31(0), MontyField31(0), MontyField31(0)])
    }
}

impl<const P: u32, const W: u32> Add<MontyField31<P>> for Quartic<P, W> {
    type Output = Self;

    fn add(self, b: MontyField31<P>) -> Self {
        self + Self::from(b)
    }
}

impl<const P: u32, const W: u32> Sub<MontyField31<P>> for Quartic<P, W> {
    type Output = Self;

    fn sub(self, b: MontyField31<P>) -> Self {
        self - Self::from(b)
    }
}

impl<const P: u32, const W: u32> Mul<MontyField31<P>> for Quartic<P, W> {
    type Output = Self;

    fn mul(self, b: MontyField31<P>) -> Self {
        Self(self.0.map(|a| a * b))
    }
}

macro_rules! assigning {
    ([$($number:ident),*] $left:ty, $right:ty) => {
        impl<$(const $number: u32),*> AddAssign<$right> for $left {
            fn add_assign(&mut self, b: $right) {
                *self = *self + b;
            }
        }

        impl<$(const $number: u32),*> SubAssign<$right> for $left {
            fn sub_assign(&mut self, b: $right) {
                *self = *self - b;
            }
        }

        impl<$(const $number: u32),*> MulAssign<$right> for $left {
            fn mul_assign(&mut self, b: $right) {
                *self = *self * b;
            }
        }
    };
}

assigning!([P] MontyField31<P>, MontyField31<P>);
assigning!([P, W] Quartic<P, W>, Quartic<P, W>);
assigning!([P, W] Quartic<P, W>, MontyField31<P>);

impl<const P: u32> Sum for MontyField31<P> {
    fn sum<I: Iterator<Item = Self>>(elements: I) -> Self {
        elements.fold(Self::ZERO, Add::add)
    }
}

impl<const P: u32, const W: u32> Sum for Quartic<P, W> {
    fn sum<I: Iterator<Item = Self>>(elements: I) -> Self {
        elements.fold(Self::ZERO, Add::add)
    }
}

impl<const P: u32> PrimeCharacteristicRing for MontyField31<P> {
    const ZERO: Self = Self(0);
    const ONE: Self = Self(1);

    fn from_i32(n: i32) -> Self {
        Self(i64::from(n).rem_euclid(i64::from(P)) as u32)
    }
}

impl<const P: u32, const W: u32> PrimeCharacteristicRing for Quartic<P, W> {
    const ZERO: Self = Self([MontyField31(0); 4]);
    const ONE: Self = Self([MontyField31(1), MontyField31(0), MontyField31(0), MontyField31(0)]);

    fn from_i32(n: i32) -> Self {
        MontyField31::from_i32(n).into()
    }
}

impl<const P: u32> Field for MontyField31<P> {
    type PrimeSubfield = Self;

    fn try_inverse(&self) -> Option<Self> {
        (self.0 != 0).then(|| self.exp_u64(u64::from(P) - 2))
    }

    fn order() -> BigUint {
        BigUint::from(u64::from(P))
    }

    fn bits() -> usize {
        31
    }
}

impl<const P: u32, const W: u32> Field for Quartic<P, W> {
    type PrimeSubfield = MontyField31<P>;

    /// a·(its three conjugates) is a word, the norm. Conjugation sends X to z·X, where z² = -1.
    fn try_inverse(&self) -> Option<Self> {
        if *self == Self::ZERO {
            return None;
        }
        let z = MontyField31::of(W.into()).exp_u64((P - 1) as u64 / 4);
        let conjugate = |a: Self| {
            let [a0, a1, a2, a3] = a.0;
            Self([a0, a1 * z, a2 * z * z, a3 * z * z * z])
        };
        let (first, second) = (conjugate(*self), conjugate(conjugate(*self)));
        let others = first * second * conjugate(second);
        let norm = (*self * others).0[0];
        Some(others * norm.inverse())
    }

    fn order() -> BigUint {
        let p = BigUint::from(u64::from(P));
        p * p * p * p
    }

    fn bits() -> usize {
        124
    }
}

impl<const P: u32, const W: u32> Algebra<MontyField31<P>> for Quartic<P, W> {}
impl<const P: u32, const W: u32> ExtensionField<MontyField31<P>> for Quartic<P, W> {}

impl<const P: u32> fmt::Display for MontyField31<P> {
    fn fmt(&self, f: &mut fmt::Formatter<'_>) -> fmt::Result {
        self.0.fmt(f)
    }
}

impl<const P: u32> fmt::Debug for MontyField31<P> {
    fn fmt(&self, f: &mut fmt::Formatter<'_>) -> fmt::Result {
        self.0.fmt(f)
    }
}

impl<const P: u32, const W: u32> fmt::Display for Quartic<P, W> {
    fn fmt(&self, f: &mut fmt::Formatter<'_>) -> fmt::Result {
        fmt::Debug::fmt(self, f)
    }
}

impl<const P: u32, const W: u32> fmt::Debug for Quartic<P, W> {
    fn fmt(&self, f: &mut fmt::Formatter<'_>) -> fmt::Result {
        self.0.fmt(f)
    }
}
