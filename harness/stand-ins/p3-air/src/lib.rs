//! Stand-in for `p3_air`: builders, windows of two rows, and expressions.
use p3_field::{Algebra, ExtensionField, Field, PrimeCharacteristicRing};

mod expression;
pub mod symbolic;

pub use expression::SymbolicExpression;

/// Two rows, the current one and the next.
pub trait WindowAccess<T> {
    fn current_slice(&self) -> &[T];
    fn next_slice(&self) -> &[T];

    fn current(&self, column: usize) -> Option<T>
    where
        T: Clone,
    {
        self.current_slice().get(column).cloned()
    }

    fn next(&self, column: usize) -> Option<T>
    where
        T: Clone,
    {
        self.next_slice().get(column).cloned()
    }
}

#[derive(Clone, Copy, Debug)]
pub struct RowWindow<'a, T> {
    current: &'a [T],
    next: &'a [T],
}

impl<'a, T> RowWindow<'a, T> {
    pub fn from_two_rows(current: &'a [T], next: &'a [T]) -> Self {
        Self { current, next }
    }
}

impl<T> WindowAccess<T> for RowWindow<'_, T> {
    fn current_slice(&self) -> &[T] {
        self.current
    }

    fn next_slice(&self) -> &[T] {
        self.next
    }
}

pub trait AirBuilder: Sized {
    type F: Field;
    type Expr: Algebra<Self::F> + From<Self::Var> + From<Self::PublicVar>;
    type Var: Copy;
    type PreprocessedWindow: WindowAccess<Self::Var>;
    type MainWindow: WindowAccess<Self::Var>;
    type PublicVar: Copy;
    type PeriodicVar;

    fn main(&self) -> Self::MainWindow;
    fn preprocessed(&self) -> &Self::PreprocessedWindow;
    fn is_first_row(&self) -> Self::Expr;
    fn is_last_row(&self) -> Self::Expr;
    fn is_transition(&self) -> Self::Expr;
    fn assert_zero<I: Into<Self::Expr>>(&mut self, x: I);
    fn public_values(&self) -> &[Self::PublicVar];

    fn assert_zeros<const N: usize, I: Into<Self::Expr>>(&mut self, array: [I; N]) {
        for x in array {
            self.assert_zero(x);
        }
    }

    fn when(&mut self, condition: Self::Expr) -> FilteredAirBuilder<'_, Self> {
        FilteredAirBuilder { inner: self, condition }
    }

    fn when_first_row(&mut self) -> FilteredAirBuilder<'_, Self> {
        let condition = self.is_first_row();
        self.when(condition)
    }

    fn when_transition(&mut self) -> FilteredAirBuilder<'_, Self> {
        let condition = self.is_transition();
        self.when(condition)
    }

    fn when_last_row(&mut self) -> FilteredAirBuilder<'_, Self> {
        let condition = self.is_last_row();
        self.when(condition)
    }
}

pub trait ExtensionBuilder: AirBuilder {
    type EF: ExtensionField<Self::F>;
    type ExprEF: PrimeCharacteristicRing + From<Self::Expr>;
    type VarEF: Into<Self::ExprEF> + Copy;

    fn assert_zero_ext<I: Into<Self::ExprEF>>(&mut self, x: I);
}

pub trait PermutationAirBuilder: ExtensionBuilder {
    type MP: WindowAccess<Self::VarEF>;
    type RandomVar: Into<Self::ExprEF> + Copy;
    type PermutationVar: Into<Self::ExprEF> + Clone;

    fn permutation(&self) -> Self::MP;
    fn permutation_randomness(&self) -> &[Self::RandomVar];
    fn permutation_values(&self) -> &[Self::PermutationVar];
}

/// A builder whose assertions are multiplied by a condition.
pub struct FilteredAirBuilder<'a, AB: AirBuilder> {
    inner: &'a mut AB,
    condition: AB::Expr,
}

impl<AB: AirBuilder> AirBuilder for FilteredAirBuilder<'_, AB> {
    type F = AB::F;
    type Expr = AB::Expr;
    type Var = AB::Var;
    type PreprocessedWindow = AB::PreprocessedWindow;
    type MainWindow = AB::MainWindow;
    type PublicVar = AB::PublicVar;
    type PeriodicVar = AB::PeriodicVar;

    fn main(&self) -> Self::MainWindow {
        self.inner.main()
    }

    fn preprocessed(&self) -> &Self::PreprocessedWindow {
        self.inner.preprocessed()
    }

    fn is_first_row(&self) -> Self::Expr {
        self.inner.is_first_row()
    }

    fn is_last_row(&self) -> Self::Expr {
        self.inner.is_last_row()
    }

    fn is_transition(&self) -> Self::Expr {
        self.inner.is_transition()
    }

    fn assert_zero<I: Into<Self::Expr>>(&mut self, x: I) {
        self.inner.assert_zero(self.condition.clone() * x.into());
    }

    fn public_values(&self) -> &[Self::PublicVar] {
        self.inner.public_values()
    }
}

impl<AB: ExtensionBuilder> ExtensionBuilder for FilteredAirBuilder<'_, AB> {
    type EF = AB::EF;
    type ExprEF = AB::ExprEF;
    type VarEF = AB::VarEF;

    fn assert_zero_ext<I: Into<Self::ExprEF>>(&mut self, x: I) {
        let condition = AB::ExprEF::from(self.condition.clone());
        self.inner.assert_zero_ext(condition * x.into());
    }
}

pub trait Air<AB: AirBuilder> {
    fn eval(&self, builder: &mut AB);
}

/// Only named by the crate, which gives it two more traits; never built here.
pub struct DebugConstraintBuilder<'a, F, EF> {
    window: RowWindow<'a, F>,
    extension: std::marker::PhantomData<EF>,
}

impl<'a, F: Field, EF: ExtensionField<F>> AirBuilder for DebugConstraintBuilder<'a, F, EF> {
    type F = F;
    type Expr = F;
    type Var = F;
    type PreprocessedWindow = RowWindow<'a, F>;
    type MainWindow = RowWindow<'a, F>;
    type PublicVar = F;
    type PeriodicVar = F;

    fn main(&self) -> Self::MainWindow {
        self.window
    }

    fn preprocessed(&self) -> &Self::PreprocessedWindow {
        &self.window
    }

    fn is_first_row(&self) -> F {
        F::ZERO
    }

    fn is_last_row(&self) -> F {
        F::ZERO
    }

    fn is_transition(&self) -> F {
        F::ZERO
    }

    fn assert_zero<I: Into<F>>(&mut self, _x: I) {}

    fn public_values(&self) -> &[F] {
        &[]
    }
}
