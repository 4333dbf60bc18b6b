//! Stand-in for the crate's `symbolic`: a builder that records interactions. It has no columns; its expressions are made elsewhere.
use std::marker::PhantomData;

use p3_air::symbolic::AirLayout;
use p3_air::{AirBuilder, RowWindow, SymbolicExpression};
use p3_field::{ExtensionField, Field};

use crate::builder::{
    InteractionBuilder, SymbolicExclusiveBranch, SymbolicExclusiveInteraction, SymbolicInteraction, SymbolicLocalInteraction,
};
use crate::count::Count;

pub struct InteractionSymbolicBuilder<F: Field, EF> {
    globals: Vec<SymbolicInteraction<F>>,
    locals: Vec<SymbolicLocalInteraction<F>>,
    exclusives: Vec<SymbolicExclusiveInteraction<F>>,
    window: RowWindow<'static, F>,
    extension: PhantomData<EF>,
}

impl<F: Field, EF: ExtensionField<F>> InteractionSymbolicBuilder<F, EF> {
    pub fn new(_layout: AirLayout) -> Self {
        let window = RowWindow::from_two_rows(&[], &[]);
        Self { globals: vec![], locals: vec![], exclusives: vec![], window, extension: PhantomData }
    }

    pub fn global_interactions(&self) -> &[SymbolicInteraction<F>] {
        &self.globals
    }

    pub fn local_interactions(&self) -> &[SymbolicLocalInteraction<F>] {
        &self.locals
    }

    pub fn exclusive_interactions(&self) -> &[SymbolicExclusiveInteraction<F>] {
        &self.exclusives
    }
}

impl<F: Field, EF: ExtensionField<F>> AirBuilder for InteractionSymbolicBuilder<F, EF> {
    type F = F;
    type Expr = SymbolicExpression<F>;
    type Var = F;
    type PreprocessedWindow = RowWindow<'static, F>;
    type MainWindow = RowWindow<'static, F>;
    type PublicVar = F;
    type PeriodicVar = F;

    fn main(&self) -> Self::MainWindow {
        self.window
    }

    fn preprocessed(&self) -> &Self::PreprocessedWindow {
        &self.window
    }

    fn is_first_row(&self) -> Self::Expr {
        SymbolicExpression::first_row()
    }

    fn is_last_row(&self) -> Self::Expr {
        SymbolicExpression::last_row()
    }

    fn is_transition(&self) -> Self::Expr {
        SymbolicExpression::transition()
    }

    fn assert_zero<I: Into<Self::Expr>>(&mut self, _x: I) {}

    fn public_values(&self) -> &[F] {
        &[]
    }
}

impl<F: Field, EF: ExtensionField<F>> InteractionBuilder for InteractionSymbolicBuilder<F, EF> {
    fn push_interaction<E: Into<Self::Expr>>(
        &mut self,
        bus_name: &str,
        fields: impl IntoIterator<Item = E>,
        count: impl Into<Count<Self::Expr>>,
    ) {
        let (count, count_weight) = count.into().into_parts();
        let fields = fields.into_iter().map(Into::into).collect();
        self.globals.push(SymbolicInteraction { bus_name: bus_name.into(), fields, count, count_weight });
    }

    fn push_local_interaction(&mut self, tuples: impl IntoIterator<Item = (Vec<Self::Expr>, Count<Self::Expr>)>) {
        self.locals.push(SymbolicLocalInteraction { tuples: tuples.into_iter().collect() });
    }

    fn push_exclusive_interaction(
        &mut self,
        bus_name: &str,
        branches: impl IntoIterator<Item = (Self::Expr, Count<Self::Expr>, Vec<Self::Expr>)>,
    ) {
        let branches = branches.into_iter().map(|(flag, count, fields)| {
            let (count, count_weight) = count.into_parts();
            SymbolicExclusiveBranch { flag, count, fields, count_weight }
        });
        self.exclusives.push(SymbolicExclusiveInteraction { bus_name: bus_name.into(), branches: branches.collect() });
    }
}
