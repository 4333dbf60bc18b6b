//! The oracle: p3-lookup's own source, run on a table in the field of its words. A panic comes back as its message.
use std::borrow::Cow;
use std::cell::Cell;
use std::marker::PhantomData;
use std::panic::{self, AssertUnwindSafe};
use std::sync::Once;

use p3_air::{Air, AirBuilder, ExtensionBuilder, PermutationAirBuilder, RowWindow, SymbolicExpression};
use p3_field::PrimeCharacteristicRing;
use p3_lookup::builder::InteractionBuilder;
use p3_lookup::challenges::Challenges;
use p3_lookup::count::Count;
use p3_lookup::debug_util::{LookupDebugInstance, check_lookups};
use p3_lookup::logup::LogUpGadget;
use p3_lookup::protocol::LookupProtocol;
use p3_lookup::symbolic::InteractionSymbolicBuilder;
use p3_lookup::types::{self, Kind, LookupError, LookupTerminal, Lookups};
use p3_matrix::dense::RowMajorMatrix;
use p3_monty_31::{MontyField31, Quartic};
use serde::Transparent;

use crate::model::{self, Rule};
use crate::plain::{Ext, Field};
use crate::table::{Interaction, Lookup, NODE_WORDS, Part, Table, chosen_of, word};

type Expression<const P: u32> = SymbolicExpression<MontyField31<P>>;

/// What the crate answers, or the message of its panic.
pub type Run<T> = Result<T, String>;

thread_local! {
    static CATCHING: Cell<bool> = const { Cell::new(false) };
}

/// Runs the crate; a panic is caught without a message on the screen.
fn caught<T>(run: impl FnOnce() -> T) -> Run<T> {
    static HOOK: Once = Once::new();
    HOOK.call_once(|| {
        let usual = panic::take_hook();
        panic::set_hook(Box::new(move |info| {
            if !CATCHING.get() {
                usual(info);
            }
        }));
    });
    CATCHING.set(true);
    let result = panic::catch_unwind(AssertUnwindSafe(run));
    CATCHING.set(false);
    result.map_err(|payload| match payload.downcast::<String>() {
        Ok(message) => *message,
        Err(payload) => payload.downcast::<&str>().map_or_else(|_| "a panic".into(), |message| message.to_string()),
    })
}

/// Whether the crate can be given this table: the lists fit, each word is an element, each node, list and weight has a meaning. Limits aside, but
/// the columns that are added must have numbers.
pub fn takes(t: &Table) -> bool {
    let meant = || model::nodes_known(t) && model::lookups_agree(t) && model::weights_within(t);
    let narrow = t.main_width.max(t.pre_width) <= 1 << 31;
    t.fits() && narrow && model::traces_below(t) && model::constants_below(t) && meant() && trees_small(t)
}

/// The crate's expressions are trees; a table of nodes can stand for one that is too large to walk.
fn trees_small(t: &Table) -> bool {
    let mut sizes: Vec<u64> = vec![];
    for i in 0..t.node_count() {
        let [kind, a, b] = t.node(i);
        let of = |n: u32| sizes[n as usize];
        let size = match kind {
            9..=11 => of(a).saturating_add(of(b)).saturating_add(1),
            12 => of(a).saturating_add(1),
            _ => 1,
        };
        sizes.push(size);
    }
    sizes.iter().all(|size| *size <= 5_000)
}

// The crate's functions, each in the field of its table, or in the one that is given.

/// Calls a function of `Over` for a field.
macro_rules! in_field {
    ($field:expr, $function:ident($($argument:expr),*)) => {
        match $field {
            Field::BabyBear => Over::<p3_baby_bear::Quartic>::$function($($argument),*),
            Field::KoalaBear => Over::<p3_koala_bear::Quartic>::$function($($argument),*),
        }
    };
}

/// The table that the crate is given. Its expressions read the current and the next row alone: for each node that looks further ahead the trace
/// has one more column, with the words that the node sees, and the node reads that column of the current row. Nodes keep their numbers, and no
/// function of the crate looks at how many columns there are.
fn widened(t: &Table) -> Cow<'_, Table> {
    let mut given = Cow::Borrowed(t);
    for i in 0..t.node_count() {
        let [kind @ (1 | 3), column, offset @ (2 | 3)] = t.node(i) else { continue };
        let Table { main, main_width, preprocessed, pre_width, nodes, .. } = given.to_mut();
        let (trace, width) = if kind == 1 { (main, main_width) } else { (preprocessed, pre_width) };
        *trace = with_column_ahead(trace, *width as usize, column as usize, offset as usize, t.height as usize);
        nodes[NODE_WORDS * i..NODE_WORDS * (i + 1)].copy_from_slice(&[kind, *width as u32, 0]);
        *width += 1;
    }
    given
}

/// The rows of a trace, each with one word more: that of a column so many rows ahead, around the end of main. It is 0 in rows past main's height,
/// which nothing reads, and where the trace is too short for main.
fn with_column_ahead(words: &[u32], width: usize, column: usize, offset: usize, height: usize) -> Vec<u32> {
    let seen = |row: usize| if row < height { words.get((row + offset) % height * width + column).copied() } else { None };
    let row = |(row, own): (usize, &[u32])| [own, &[seen(row).unwrap_or(0)]].concat();
    words.chunks_exact(width).enumerate().flat_map(row).collect()
}

fn all_widened(tables: &[Table]) -> Vec<Cow<'_, Table>> {
    tables.iter().map(widened).collect()
}

/// The table that generation and constraints are given. The crate has rule 1 alone: for rule 2 it is fed each tuple reversed.
fn fed(t: &Table) -> Cow<'_, Table> {
    match t.rule {
        Rule::One => widened(t),
        Rule::Two => Cow::Owned(widened(t).reversed()),
    }
}

/// `generate_permutation`: the trace's words and the terminal.
pub fn generate(t: &Table, challenges: &[u32]) -> Run<(Vec<u32>, Option<Ext>)> {
    in_field!(t.field, generate(&fed(t), challenges))
}

/// `eval_all` on every row: the first row and place whose value is not zero. Without rows it runs once, on empty ones.
pub fn constraints(t: &Table, challenges: &[u32], width: u64, trace: &[u32], terminal: Option<Ext>) -> Run<Option<(usize, usize)>> {
    in_field!(t.field, constraints(&fed(t), challenges, width, trace, terminal))
}

pub fn degree(t: &Table, lookup: usize, transition: usize) -> Run<u64> {
    in_field!(t.field, degree(&widened(t), lookup, transition))
}

pub fn pack(t: &Table, limit: u64) -> Run<Vec<Lookup>> {
    in_field!(t.field, pack(&widened(t), limit))
}

/// `from_interactions`, reached through `from_air`.
pub fn build(t: &Table, interactions: &[Interaction]) -> Run<Vec<Lookup>> {
    in_field!(t.field, build(&widened(t), interactions))
}

/// The widest bus tuple, or the two widths that differ.
pub fn widths(tables: &[Table]) -> Run<Result<u64, (u64, u64)>> {
    in_field!(chosen_of(tables).field, widths(&all_widened(tables)))
}

/// Accepted, or the sum that is too large.
pub fn height_bound(tables: &[Table], heights: &[u64]) -> Run<Result<(), u128>> {
    in_field!(chosen_of(tables).field, height_bound(&all_widened(tables), heights))
}

/// Whether the sum of the terminals is zero.
pub fn terminals(field: Field, terminals: &[Option<Ext>]) -> Run<bool> {
    in_field!(field, terminals(terminals))
}

pub fn prefixes(field: Field, alpha: Ext, beta: Ext, width: u64, count: u64) -> Run<Vec<Ext>> {
    in_field!(field, prefixes(alpha, beta, width, count))
}

/// `Count` from a number: the words of its constant's node, and its weight.
pub fn count_from(field: Field, n: i32) -> Run<([u32; 3], u32)> {
    in_field!(field, count_from(n))
}

/// The negation of a count: the words of its node, and its weight.
pub fn count_negated(t: &Table, node: u32, weight: u32) -> Run<([u32; 3], u32)> {
    in_field!(t.field, count_negated(&widened(t), node, weight))
}

pub fn count_bounded(t: &Table, node: u32, weight: u32) -> Run<(u32, u32)> {
    in_field!(t.field, count_bounded(&widened(t), node, weight))
}

pub fn count_provided(t: &Table, node: u32) -> Run<(u32, u32)> {
    in_field!(t.field, count_provided(&widened(t), node))
}

/// `check_lookups`: its panic's message where something is not balanced.
pub fn balance(tables: &[Table]) -> Run<()> {
    in_field!(chosen_of(tables).field, balance(&all_widened(tables)))
}

/// How the crate names a group in the message of a panic.
pub fn group_label(tables: &[Table], group: &[(usize, usize)]) -> String {
    let (table, lookup) = group[0];
    match &tables[table].records()[lookup].bus {
        None => format!("instance {table} local lookup {lookup}"),
        Some(name) => format!("global lookup '{}'", bus_name(name)),
    }
}

/// A bus name need not be a text: each byte becomes the character of its number.
fn bus_name(bytes: &[u8]) -> String {
    bytes.iter().map(|b| char::from(*b)).collect()
}

/// The crate over one field, which is known by its extension. It is generic itself: so are all functions here.
struct Over<Q>(PhantomData<Q>);

/// A table's traces and public values in the crate's types.
struct Traces<const P: u32> {
    main: RowMajorMatrix<MontyField31<P>>,
    preprocessed: Option<RowMajorMatrix<MontyField31<P>>>,
    public_values: Vec<MontyField31<P>>,
}

/// Translation.
impl<const P: u32, const W: u32> Over<Quartic<P, W>> {
    fn element(words: &[u32]) -> Quartic<P, W> {
        Quartic(std::array::from_fn(|i| MontyField31::new(words[i])))
    }

    fn elements(words: &[u32]) -> Vec<Quartic<P, W>> {
        words.chunks_exact(4).map(Self::element).collect()
    }

    fn words(element: Quartic<P, W>) -> Ext {
        element.0.map(MontyField31::word)
    }

    fn of_words(words: &[u32]) -> Vec<MontyField31<P>> {
        words.iter().map(|w| MontyField31::new(*w)).collect()
    }

    /// The expression of each node of a table that is widened.
    fn expressions(t: &Table) -> Vec<Expression<P>> {
        let mut made: Vec<Expression<P>> = vec![];
        for i in 0..t.node_count() {
            let [kind, a, b] = t.node(i);
            let of = |n: u32| made[n as usize].clone();
            let column = a as usize;
            let expression = match kind {
                0 => Expression::constant(MontyField31::new(a)),
                1 => Expression::main(b == 1, column),
                2 => Expression::main(true, column),
                3 => Expression::preprocessed(b == 1, column),
                4 => Expression::preprocessed(true, column),
                5 => Expression::public_value(column),
                6 => Expression::first_row(),
                7 => Expression::last_row(),
                8 => Expression::transition(),
                9 => of(a) + of(b),
                10 => of(a) - of(b),
                11 => of(a) * of(b),
                _ => -of(a),
            };
            made.push(expression);
        }
        made
    }

    /// The number of the node that an expression is.
    fn node_of(nodes: &[Expression<P>], expression: &Expression<P>) -> u32 {
        nodes.iter().position(|node| node.is(expression)).expect("an expression of the table") as u32
    }

    /// Weights have 32 bits there: a larger one is held at the largest.
    fn lookups(t: &Table, nodes: &[Expression<P>]) -> Vec<types::Lookup<MontyField31<P>>> {
        let listed = |numbers: &[u32]| -> Vec<Expression<P>> { numbers.iter().map(|n| nodes[*n as usize].clone()).collect() };
        let lookup = |r: &Lookup| types::Lookup {
            kind: r.bus.as_deref().map_or(Kind::Local, |name| Kind::Global(bus_name(name))),
            elements: r.tuples.iter().map(|tuple| listed(tuple)).collect(),
            multiplicities: listed(&r.multiplicities),
            count_weight: word(r.weight),
            column: r.column as usize,
            flags: r.exclusive.then(|| listed(&r.flags)),
        };
        t.records().iter().map(lookup).collect()
    }

    /// Back again: an expression is the node that it was made from.
    fn records(lookups: &[types::Lookup<MontyField31<P>>], nodes: &[Expression<P>]) -> Vec<Lookup> {
        let numbers = |list: &[Expression<P>]| -> Vec<u32> { list.iter().map(|e| Self::node_of(nodes, e)).collect() };
        let record = |l: &types::Lookup<MontyField31<P>>| Lookup {
            bus: match &l.kind {
                Kind::Local => None,
                Kind::Global(name) => Some(name.chars().map(|c| c as u8).collect()),
            },
            weight: l.count_weight.into(),
            column: l.column as u32,
            exclusive: l.flags.is_some(),
            tuples: l.elements.iter().map(|tuple| numbers(tuple)).collect(),
            multiplicities: numbers(&l.multiplicities),
            flags: l.flags.as_deref().map(numbers).unwrap_or_default(),
        };
        lookups.iter().map(record).collect()
    }

    fn wrapped(t: &Table, nodes: &[Expression<P>]) -> Lookups<MontyField31<P>> {
        Lookups::wrap(Self::lookups(t, nodes))
    }

    fn all_wrapped(tables: &[Cow<Table>]) -> Vec<Lookups<MontyField31<P>>> {
        tables.iter().map(|t| Self::wrapped(t, &Self::expressions(t))).collect()
    }

    fn traces(t: &Table) -> Traces<P> {
        let matrix = |words: &[u32], width: u64| RowMajorMatrix::new(Self::of_words(words), width as usize);
        Traces {
            main: matrix(&t.main, t.main_width),
            preprocessed: (0 < t.pre_width).then(|| matrix(&t.preprocessed, t.pre_width)),
            public_values: Self::of_words(&t.public_values),
        }
    }
}

/// A concrete row: each asserted value is kept.
struct RowBuilder<'a, const P: u32, const W: u32> {
    main: RowWindow<'a, MontyField31<P>>,
    preprocessed: RowWindow<'a, MontyField31<P>>,
    permutation: RowWindow<'a, Quartic<P, W>>,
    public_values: &'a [MontyField31<P>],
    challenges: &'a [Quartic<P, W>],
    terminal: &'a [Quartic<P, W>],
    row: usize,
    height: usize,
    asserted: Vec<Quartic<P, W>>,
}

impl<'a, const P: u32, const W: u32> AirBuilder for RowBuilder<'a, P, W> {
    type F = MontyField31<P>;
    type Expr = MontyField31<P>;
    type Var = MontyField31<P>;
    type PreprocessedWindow = RowWindow<'a, MontyField31<P>>;
    type MainWindow = RowWindow<'a, MontyField31<P>>;
    type PublicVar = MontyField31<P>;
    type PeriodicVar = MontyField31<P>;

    fn main(&self) -> Self::MainWindow {
        self.main
    }

    fn preprocessed(&self) -> &Self::PreprocessedWindow {
        &self.preprocessed
    }

    fn is_first_row(&self) -> Self::Expr {
        Self::Expr::from_bool(self.row == 0)
    }

    fn is_last_row(&self) -> Self::Expr {
        Self::Expr::from_bool(self.row + 1 == self.height)
    }

    fn is_transition(&self) -> Self::Expr {
        Self::Expr::from_bool(self.row + 1 < self.height)
    }

    fn assert_zero<I: Into<Self::Expr>>(&mut self, x: I) {
        self.asserted.push(x.into().into());
    }

    fn public_values(&self) -> &[Self::PublicVar] {
        self.public_values
    }
}

impl<const P: u32, const W: u32> ExtensionBuilder for RowBuilder<'_, P, W> {
    type EF = Quartic<P, W>;
    type ExprEF = Quartic<P, W>;
    type VarEF = Quartic<P, W>;

    fn assert_zero_ext<I: Into<Self::ExprEF>>(&mut self, x: I) {
        self.asserted.push(x.into());
    }
}

impl<'a, const P: u32, const W: u32> PermutationAirBuilder for RowBuilder<'a, P, W> {
    type MP = RowWindow<'a, Quartic<P, W>>;
    type RandomVar = Quartic<P, W>;
    type PermutationVar = Quartic<P, W>;

    fn permutation(&self) -> Self::MP {
        self.permutation
    }

    fn permutation_randomness(&self) -> &[Self::RandomVar] {
        self.challenges
    }

    fn permutation_values(&self) -> &[Self::PermutationVar] {
        self.terminal
    }
}

/// Two rows of a matrix; a row that is not there is empty.
fn window<T>(values: &[T], width: u64, row: usize, next: usize) -> RowWindow<'_, T> {
    let width = width as usize;
    let part = |row: usize| values.get(row * width..(row + 1) * width).unwrap_or(&[]);
    RowWindow::from_two_rows(part(row), part(next))
}

/// An AIR that says just these interactions.
struct Spoken<'a, const P: u32> {
    interactions: &'a [Interaction],
    nodes: &'a [Expression<P>],
}

impl<const P: u32> Spoken<'_, P> {
    fn node(&self, n: u32) -> Expression<P> {
        self.nodes[n as usize].clone()
    }

    fn fields(&self, part: &Part) -> Vec<Expression<P>> {
        part.elements.iter().map(|n| self.node(*n)).collect()
    }

    fn count(&self, part: &Part) -> Count<Expression<P>> {
        Count::bounded(self.node(part.multiplicity), part.weight)
    }
}

impl<const P: u32, const W: u32> Air<InteractionSymbolicBuilder<MontyField31<P>, Quartic<P, W>>> for Spoken<'_, P> {
    fn eval(&self, builder: &mut InteractionSymbolicBuilder<MontyField31<P>, Quartic<P, W>>) {
        for interaction in self.interactions {
            match interaction {
                Interaction::Local(parts) => builder.push_local_interaction(parts.iter().map(|p| (self.fields(p), self.count(p)))),
                Interaction::Global(bus, part) => builder.push_interaction(&bus_name(bus), self.fields(part), self.count(part)),
                Interaction::Exclusive(bus, branches) => {
                    let branch = |(flag, part): &(u32, Part)| (self.node(*flag), self.count(part), self.fields(part));
                    builder.push_exclusive_interaction(&bus_name(bus), branches.iter().map(branch));
                }
            }
        }
    }
}

/// The functions.
impl<const P: u32, const W: u32> Over<Quartic<P, W>> {
    fn generate(t: &Table, challenges: &[u32]) -> Run<(Vec<u32>, Option<Ext>)> {
        let (traces, challenges) = (Self::traces(t), Self::elements(challenges));
        let lookups = Self::lookups(t, &Self::expressions(t));
        caught(|| {
            let Traces { main, preprocessed, public_values } = &traces;
            let (trace, terminal) = LogUpGadget::new().generate_permutation(main, preprocessed, public_values, &lookups, &challenges);
            (trace.values.into_iter().flat_map(Self::words).collect(), terminal.map(|LookupTerminal(e)| Self::words(e)))
        })
    }

    fn constraints(t: &Table, challenges: &[u32], width: u64, trace: &[u32], terminal: Option<Ext>) -> Run<Option<(usize, usize)>> {
        let (traces, challenges) = (Self::traces(t), Self::elements(challenges));
        let lookups = Self::lookups(t, &Self::expressions(t));
        let (trace, terminal): (_, Vec<_>) = (Self::elements(trace), terminal.iter().map(|e| Self::element(e)).collect());
        let height = t.height as usize;
        let preprocessed = traces.preprocessed.as_ref().map_or(&[][..], |m| &m.values);
        caught(|| {
            for row in 0..height.max(1) {
                let next = (row + 1) % height.max(1);
                let mut builder = RowBuilder {
                    main: window(&traces.main.values, t.main_width, row, next),
                    preprocessed: window(preprocessed, t.pre_width, row, next),
                    permutation: window(&trace, width, row, next),
                    public_values: &traces.public_values,
                    challenges: &challenges,
                    terminal: &terminal,
                    row,
                    height,
                    asserted: vec![],
                };
                LogUpGadget::new().eval_all(&mut builder, &lookups);
                if let Some(place) = builder.asserted.iter().position(|value| *value != Quartic::ZERO) {
                    return Some((row, place));
                }
            }
            None
        })
    }

    fn degree(t: &Table, lookup: usize, transition: usize) -> Run<u64> {
        let lookups = Self::lookups(t, &Self::expressions(t));
        caught(|| LogUpGadget::new().constraint_degree_with_transition(&lookups[lookup], transition) as u64)
    }

    fn pack(t: &Table, limit: u64) -> Run<Vec<Lookup>> {
        let nodes = Self::expressions(t);
        let lookups = Self::wrapped(t, &nodes);
        let limit = usize::try_from(limit).unwrap_or(usize::MAX);
        caught(|| Self::records(&lookups.pack_same_bus(&LogUpGadget::new(), limit), &nodes))
    }

    fn build(t: &Table, interactions: &[Interaction]) -> Run<Vec<Lookup>> {
        let nodes = Self::expressions(t);
        let air = Spoken { interactions, nodes: &nodes };
        caught(|| Self::records(&Lookups::from_air::<Quartic<P, W>, _>(&air), &nodes))
    }

    fn widths(tables: &[Cow<Table>]) -> Run<Result<u64, (u64, u64)>> {
        let lookups = Self::all_wrapped(tables);
        caught(|| match types::check_bus_widths(&lookups) {
            Ok(widest) => Ok(widest as u64),
            Err(LookupError::BusWidthMismatch { expected, actual, .. }) => Err((expected as u64, actual as u64)),
            Err(other) => panic!("{other}"),
        })
    }

    fn height_bound(tables: &[Cow<Table>], heights: &[u64]) -> Run<Result<(), u128>> {
        let lookups = Self::all_wrapped(tables);
        let heights: Vec<usize> = heights.iter().map(|h| *h as usize).collect();
        caught(|| match types::check_multiplicity_height_bound(&lookups, &heights) {
            Ok(()) => Ok(()),
            Err(LookupError::MultiplicityHeightBoundExceeded { weighted_height_sum, .. }) => Err(weighted_height_sum.0),
            Err(other) => panic!("{other}"),
        })
    }

    fn terminals(terminals: &[Option<Ext>]) -> Run<bool> {
        let terminals: Vec<_> = terminals.iter().map(|t| t.map(|e| LookupTerminal(Self::element(&e)))).collect();
        caught(|| LogUpGadget::new().verify_terminal_sum(&terminals).is_ok())
    }

    fn prefixes(alpha: Ext, beta: Ext, width: u64, count: u64) -> Run<Vec<Ext>> {
        let (alpha, beta) = (Self::element(&alpha), Self::element(&beta));
        caught(|| Challenges::new(alpha, beta, width as usize, count as usize).bus_prefix.iter().map(|e| Self::words(*e)).collect())
    }

    fn count_from(n: i32) -> Run<([u32; 3], u32)> {
        caught(|| {
            let (expression, weight) = Count::<Expression<P>>::from(n).into_parts();
            ([0, expression.as_constant().expect("a constant").word(), 0], weight)
        })
    }

    fn count_negated(t: &Table, node: u32, weight: u32) -> Run<([u32; 3], u32)> {
        let nodes = Self::expressions(t);
        caught(|| {
            let (negated, weight) = (-Count::bounded(nodes[node as usize].clone(), weight)).into_parts();
            ([12, Self::node_of(&nodes, negated.as_negation().expect("a negation")), 0], weight)
        })
    }

    fn count_bounded(t: &Table, node: u32, weight: u32) -> Run<(u32, u32)> {
        let nodes = Self::expressions(t);
        caught(|| {
            let (expression, weight) = Count::bounded(nodes[node as usize].clone(), weight).into_parts();
            (Self::node_of(&nodes, &expression), weight)
        })
    }

    fn count_provided(t: &Table, node: u32) -> Run<(u32, u32)> {
        let nodes = Self::expressions(t);
        caught(|| {
            let (expression, weight) = Count::provided(nodes[node as usize].clone()).into_parts();
            (Self::node_of(&nodes, &expression), weight)
        })
    }

    fn balance(tables: &[Cow<Table>]) -> Run<()> {
        let traces: Vec<Traces<P>> = tables.iter().map(|t| Self::traces(t)).collect();
        let lookups: Vec<_> = tables.iter().map(|t| Self::lookups(t, &Self::expressions(t))).collect();
        let instance = |(t, lookups)| {
            let t: &Traces<P> = t;
            let lookups: &Vec<_> = lookups;
            LookupDebugInstance {
                main_trace: &t.main,
                preprocessed_trace: &t.preprocessed,
                public_values: &t.public_values,
                lookups,
                permutation_challenges: &[],
            }
        };
        let instances: Vec<_> = traces.iter().zip(&lookups).map(instance).collect();
        caught(|| check_lookups(&instances))
    }
}
