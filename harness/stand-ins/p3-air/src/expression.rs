//! Expressions as trees that share their parts. Degrees are those of docs/SPECIFICATION.md: constants are not folded.
use std::iter::Sum;
use std::ops::{Add, AddAssign, Mul, MulAssign, Neg, Sub, SubAssign};
use std::sync::Arc;

use p3_field::{Algebra, Field, PrimeCharacteristicRing};

use crate::{AirBuilder, WindowAccess};

#[derive(Clone, Debug)]
pub struct SymbolicExpression<F>(Part<F>);

/// `Literal` because a trait asks for the constants 0 and 1 at compile time.
#[derive(Clone, Debug)]
enum Part<F> {
    Literal(F),
    Shared(Arc<Tree<F>>),
}

#[derive(Debug)]
enum Tree<F> {
    Constant(F),
    Main { next: bool, column: usize },
    Preprocessed { next: bool, column: usize },
    PublicValue(usize),
    FirstRow,
    LastRow,
    Transition,
    Sum(SymbolicExpression<F>, SymbolicExpression<F>),
    Difference(SymbolicExpression<F>, SymbolicExpression<F>),
    Product(SymbolicExpression<F>, SymbolicExpression<F>),
    Negation(SymbolicExpression<F>),
}

fn made<F>(tree: Tree<F>) -> SymbolicExpression<F> {
    SymbolicExpression(Part::Shared(Arc::new(tree)))
}

impl<F> SymbolicExpression<F> {
    pub fn constant(value: F) -> Self {
        made(Tree::Constant(value))
    }

    pub fn main(next: bool, column: usize) -> Self {
        made(Tree::Main { next, column })
    }

    pub fn preprocessed(next: bool, column: usize) -> Self {
        made(Tree::Preprocessed { next, column })
    }

    pub fn public_value(index: usize) -> Self {
        made(Tree::PublicValue(index))
    }

    pub fn first_row() -> Self {
        made(Tree::FirstRow)
    }

    pub fn last_row() -> Self {
        made(Tree::LastRow)
    }

    pub fn transition() -> Self {
        made(Tree::Transition)
    }

    /// Whether two are the same part, not merely equal ones.
    pub fn is(&self, other: &Self) -> bool {
        match (&self.0, &other.0) {
            (Part::Shared(a), Part::Shared(b)) => Arc::ptr_eq(a, b),
            _ => false,
        }
    }

    fn tree(&self) -> Result<&Tree<F>, &F> {
        match &self.0 {
            Part::Literal(value) => Err(value),
            Part::Shared(tree) => Ok(tree),
        }
    }

    /// The word of a constant, and what a negation negates: the crate's `Count` makes these two.
    pub fn as_constant(&self) -> Option<&F> {
        match self.tree() {
            Err(value) | Ok(Tree::Constant(value)) => Some(value),
            Ok(_) => None,
        }
    }

    pub fn as_negation(&self) -> Option<&Self> {
        match self.tree() {
            Ok(Tree::Negation(operand)) => Some(operand),
            _ => None,
        }
    }

    pub fn degree_multiple_with_transition(&self, transition: usize) -> usize {
        let degree = |e: &Self| e.degree_multiple_with_transition(transition);
        let Ok(tree) = self.tree() else { return 0 };
        match tree {
            Tree::Constant(_) | Tree::PublicValue(_) => 0,
            Tree::Main { .. } | Tree::Preprocessed { .. } | Tree::FirstRow | Tree::LastRow => 1,
            Tree::Transition => transition,
            Tree::Sum(a, b) | Tree::Difference(a, b) => degree(a).max(degree(b)),
            Tree::Product(a, b) => degree(a) + degree(b),
            Tree::Negation(a) => degree(a),
        }
    }

    pub fn resolve<AB: AirBuilder<F = F>>(&self, builder: &AB) -> AB::Expr
    where
        F: Field,
    {
        let cell = |window: &dyn WindowAccess<AB::Var>, next: bool, column: usize| {
            let row = if next { window.next_slice() } else { window.current_slice() };
            row[column].into()
        };
        let tree = match self.tree() {
            Ok(tree) => tree,
            Err(value) => return (*value).into(),
        };
        match tree {
            Tree::Constant(value) => (*value).into(),
            Tree::Main { next, column } => cell(&builder.main(), *next, *column),
            Tree::Preprocessed { next, column } => cell(builder.preprocessed(), *next, *column),
            Tree::PublicValue(index) => builder.public_values()[*index].into(),
            Tree::FirstRow => builder.is_first_row(),
            Tree::LastRow => builder.is_last_row(),
            Tree::Transition => builder.is_transition(),
            Tree::Sum(a, b) => a.resolve(builder) + b.resolve(builder),
            Tree::Difference(a, b) => a.resolve(builder) - b.resolve(builder),
            Tree::Product(a, b) => a.resolve(builder) * b.resolve(builder),
            Tree::Negation(a) => -a.resolve(builder),
        }
    }
}

impl<F> Add for SymbolicExpression<F> {
    type Output = Self;

    fn add(self, b: Self) -> Self {
        made(Tree::Sum(self, b))
    }
}

impl<F> Sub for SymbolicExpression<F> {
    type Output = Self;

    fn sub(self, b: Self) -> Self {
        made(Tree::Difference(self, b))
    }
}

impl<F> Mul for SymbolicExpression<F> {
    type Output = Self;

    fn mul(self, b: Self) -> Self {
        made(Tree::Product(self, b))
    }
}

impl<F> Neg for SymbolicExpression<F> {
    type Output = Self;

    fn neg(self) -> Self {
        made(Tree::Negation(self))
    }
}

impl<F> From<F> for SymbolicExpression<F> {
    fn from(value: F) -> Self {
        Self::constant(value)
    }
}

macro_rules! operations {
    ($Op:ident, $op:ident, $Assign:ident, $assign:ident) => {
        impl<F> $Op<F> for SymbolicExpression<F> {
            type Output = Self;

            fn $op(self, b: F) -> Self {
                $Op::$op(self, Self::constant(b))
            }
        }

        impl<F: Clone> $Assign for SymbolicExpression<F> {
            fn $assign(&mut self, b: Self) {
                *self = $Op::$op(self.clone(), b);
            }
        }

        impl<F: Clone> $Assign<F> for SymbolicExpression<F> {
            fn $assign(&mut self, b: F) {
                *self = $Op::$op(self.clone(), Self::constant(b));
            }
        }
    };
}

operations!(Add, add, AddAssign, add_assign);
operations!(Sub, sub, SubAssign, sub_assign);
operations!(Mul, mul, MulAssign, mul_assign);

impl<F: Field> Sum for SymbolicExpression<F> {
    fn sum<I: Iterator<Item = Self>>(expressions: I) -> Self {
        expressions.fold(Self::constant(F::ZERO), Add::add)
    }
}

impl<F: Field> PrimeCharacteristicRing for SymbolicExpression<F> {
    const ZERO: Self = Self(Part::Literal(F::ZERO));
    const ONE: Self = Self(Part::Literal(F::ONE));

    fn from_i32(n: i32) -> Self {
        Self::constant(F::from_i32(n))
    }
}

impl<F: Field> Algebra<F> for SymbolicExpression<F> {}
