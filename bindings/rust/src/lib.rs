//! A safe wrapper of Delmatik's exported functions. Each takes any words, and answers a [`Refusal`] where the table in
//! docs/SPECIFICATION.md asks for one; this crate lends the slices, sizes the outputs and hands back types of its own.
//!
//! The functions on bytes are in the module `bytes`, with the feature of that name.
//!
//! ```
//! use delmatik::{Choices, Field, Lookup, Rule, Table};
//!
//! // One row, 3; one lookup on the bus "mem" with the tuple (3), multiplicity 1. Nodes: the column, then the constant 1.
//! let table = Table {
//!     main_width: 1,
//!     height: 1,
//!     main: vec![3],
//!     nodes: vec![1, 0, 0, 0, 1, 0],
//!     ..Table::default()
//! }
//! .with(&[Lookup { bus: Some(b"mem".to_vec()), weight: 1, tuples: vec![vec![0]], multiplicities: vec![1], ..Lookup::default() }]);
//!
//! // Field 1 and the cabinet's limits; alpha 5, beta 0. The fraction is 1 / 2.
//! let choices = Choices::default();
//! let generated = table.generate(choices, Rule::One, &[[5, 0, 0, 0], [0, 0, 0, 0]]).unwrap();
//! let terminal = generated.terminal.unwrap();
//! assert_eq!(terminal.0, [1006632961, 0, 0, 0]);
//! assert_eq!(table.constraints(choices, Rule::One, &[[5, 0, 0, 0], [0, 0, 0, 0]], 2, &generated.trace, Some(terminal)), Ok(()));
//!
//! // Field 2.
//! let choices = Choices { field: Field::KoalaBear, ..Choices::default() };
//! let generated = table.generate(choices, Rule::One, &[[5, 0, 0, 0], [0, 0, 0, 0]]).unwrap();
//! assert_eq!(generated.terminal.unwrap().0, [1065353217, 0, 0, 0]);
//! ```
#[cfg(feature = "bytes")]
pub mod bytes;
pub mod sys;

use std::hash::{BuildHasher, RandomState};

/// Four words below p: c0 + c1 X + c2 X^2 + c3 X^3. The prime p and the value of X^4 are those of the call's [`Field`].
pub type Ext = [u32; 4];

/// The field in which a call computes: all words of its tables and challenges are of it.
#[derive(Clone, Copy, Debug, Default, PartialEq, Eq)]
pub enum Field {
    /// p = 2013265921 = 2^31 - 2^27 + 1, and X^4 = 11.
    #[default]
    BabyBear = 1,
    /// p = 2130706433 = 2^31 - 2^24 + 1, and X^4 = 3.
    KoalaBear = 2,
}

impl Field {
    /// The prime that words of the field are below.
    ///
    /// ```
    /// use delmatik::{Field, Refusal, inverse};
    ///
    /// // The prime of field 1 is a word of field 2, and not zero there.
    /// let p = Field::BabyBear.prime();
    /// assert_eq!(inverse(Field::BabyBear, [p, 0, 0, 0]), Err(Refusal { number: 2, details: [0; 3] }));
    /// assert_ne!(inverse(Field::KoalaBear, [p, 0, 0, 0]), Ok([0; 4]));
    /// assert!(p < Field::KoalaBear.prime());
    /// ```
    pub const fn prime(self) -> u32 {
        match self {
            Field::BabyBear => 2013265921,
            Field::KoalaBear => 2130706433,
        }
    }
}

/// The limits that a call keeps, those of docs/SPECIFICATION.md, section 11; what passes one is refusal 1. A call that the gateway does not
/// refuse by 1 has the same answer and outputs in the cabinet.
///
/// ```
/// use delmatik::{Choices, Lookup, Profile, Refusal, Table, widths};
///
/// let table = |lookups: usize| {
///     let lookup = Lookup { bus: Some(b"mem".to_vec()), tuples: vec![vec![0; 4]], multiplicities: vec![0], ..Lookup::default() };
///     [Table { main_width: 1, nodes: vec![1, 0, 0], ..Table::default() }.with(&vec![lookup; lookups])]
/// };
/// let (cabinet, gateway) = (Choices::default(), Choices { profile: Profile::Gateway, ..Choices::default() });
/// assert_eq!(widths(gateway, &table(8)), Ok(4));
/// assert_eq!(widths(gateway, &table(9)), Err(Refusal { number: 1, details: [0; 3] }));
/// assert_eq!(widths(cabinet, &table(9)), Ok(4));
/// ```
#[derive(Clone, Copy, Debug, Default, PartialEq, Eq)]
#[non_exhaustive]
pub enum Profile {
    /// At most 64 lookups in a table, 8 words in a tuple and a height of 2^20.
    #[default]
    Cabinet = 1,
    /// For less memory: at most 8 lookups in a table, 4 words in a tuple, and a height of 4,096, of the preprocessed trace too. All other limits
    /// are the cabinet's.
    Gateway = 2,
}

/// How generation and constraints combine the elements of a tuple. Nothing else depends on the rule, and no other function takes one.
///
/// ```
/// use delmatik::{Choices, Lookup, Refusal, Rule, Table};
///
/// // One row with the tuple (3, 7), multiplicity 1. Nodes: the two columns, then the constant 1.
/// let lookup = Lookup { bus: Some(b"mem".to_vec()), weight: 1, tuples: vec![vec![0, 1]], multiplicities: vec![2], ..Lookup::default() };
/// let table = Table { main_width: 2, height: 1, main: vec![3, 7], nodes: vec![1, 0, 0, 1, 1, 0, 0, 1, 0], ..Table::default() }.with(&[lookup]);
///
/// // With beta 10 it combines to 37 by rule 1 and to 73 by rule 2. With that alpha the denominator is 0, and with one more 1.
/// let generate = |rule, alpha| table.generate(Choices::default(), rule, &[[alpha, 0, 0, 0], [10, 0, 0, 0]]);
/// for (rule, combined) in [(Rule::One, 37), (Rule::Two, 73)] {
///     assert_eq!(generate(rule, combined), Err(Refusal { number: 15, details: [0; 3] }));
///     assert_eq!(generate(rule, combined + 1).unwrap().terminal.unwrap().0, [1, 0, 0, 0]);
/// }
/// ```
#[derive(Clone, Copy, Debug, Default, PartialEq, Eq)]
#[non_exhaustive]
pub enum Rule {
    /// The first element goes with the highest power of beta, the last with beta^0.
    #[default]
    One = 1,
    /// The first element goes with beta^0, the last with the highest power of beta.
    Two = 2,
}

/// What every function that can refuse takes first. By default field 1 and the cabinet's limits.
#[derive(Clone, Copy, Debug, Default, PartialEq, Eq)]
pub struct Choices {
    pub field: Field,
    pub profile: Profile,
}

/// The sum of all fractions of a table. It is no challenge: hence a type of its own.
#[derive(Clone, Copy, Debug, PartialEq, Eq)]
pub struct LookupTerminal(pub Ext);

/// The number of a refusal, 1 to 20, and its three details, zero unless docs/SPECIFICATION.md names them.
#[derive(Clone, Copy, Debug, PartialEq, Eq)]
pub struct Refusal {
    pub number: u32,
    pub details: [u64; 3],
}

/// One lookup; its nodes by number.
///
/// ```
/// use delmatik::{Choices, Lookup, Refusal, Table, height_bound};
///
/// // A local of two tuples, on three rows.
/// let bound = |weight| {
///     let local = Lookup { weight, tuples: vec![vec![0]; 2], multiplicities: vec![0; 2], ..Lookup::default() };
///     let table = Table { main_width: 1, nodes: vec![1, 0, 0], ..Table::default() }.with(&[local]);
///     height_bound(Choices::default(), &[table], &[3])
/// };
/// let most = 2 * u64::from(u32::MAX);
/// assert_eq!(bound(most), Err(Refusal { number: 19, details: [3 * most, 0, 0] }));
/// assert_eq!(bound(most + 1), Err(Refusal { number: 1, details: [0; 3] }));
/// ```
#[derive(Clone, Debug, Default, PartialEq, Eq)]
pub struct Lookup {
    /// The name of its bus; a local has none.
    pub bus: Option<Vec<u8>>,
    /// At most 2^32 - 1 on a bus; of a local 2^32 - 1 for each of its tuples, and without tuples 2^32 - 1. A larger one is refusal 1.
    pub weight: u64,
    pub column: u32,
    pub exclusive: bool,
    pub tuples: Vec<Vec<u32>>,
    pub multiplicities: Vec<u32>,
    pub flags: Vec<u32>,
}

/// A signed multiplicity (`Count`): the node that has it, and its weight, a bound on its magnitude.
///
/// ```
/// use delmatik::{Choices, Count};
///
/// // A node is three words: kind, a, b. The constant -2, and its negation.
/// let (choices, mut nodes) = (Choices::default(), vec![]);
/// let minus_two = Count::from_i32(choices, &mut nodes, -2).unwrap();
/// assert_eq!(minus_two, Count { node: 0, weight: 2 });
/// let two = minus_two.negated(choices, &mut nodes).unwrap();
/// assert_eq!(two, Count { node: 1, weight: 2 });
/// assert_eq!(nodes, [0, 2013265919, 0, 12, 0, 0]);
/// ```
#[derive(Clone, Copy, Debug, PartialEq, Eq)]
pub struct Count {
    pub node: u32,
    pub weight: u32,
}

/// A tuple before its lookup is built: its nodes, its multiplicity's node and its weight.
#[derive(Clone, Debug, Default, PartialEq, Eq)]
pub struct Part {
    pub elements: Vec<u32>,
    pub multiplicity: u32,
    pub weight: u32,
}

/// What lookups are built from. A branch of an exclusive has a flag's node beside its tuple.
#[derive(Clone, Debug, PartialEq, Eq)]
pub enum Interaction {
    Local(Vec<Part>),
    Global(Vec<u8>, Part),
    Exclusive(Vec<u8>, Vec<(u32, Part)>),
}

/// A table in flat words, as the exported functions take it.
///
/// A node is three words, and has a value on each row:
///
/// | kind | value | a | b |
/// |---|---|---|---|
/// | 0 | a constant | the word | |
/// | 1 | a word of main | its column | its row offset, 0 to 3 |
/// | 2 | a word of main on the next row | its column | |
/// | 3 | a preprocessed word | its column | its row offset, 0 to 3 |
/// | 4 | a preprocessed word on the next row | its column | |
/// | 5 | a public value | its number | |
/// | 6, 7, 8 | 1 on the first row; on the last; on all but the last; else 0 | | |
/// | 9, 10, 11 | a sum, difference or product | a lower node | a lower node |
/// | 12 | a negation | a lower node | |
///
/// At offset o a node sees row (r + o) modulo the height of main on row r, in the preprocessed trace too: rows are counted around the end of
/// the table. A larger offset is refusal 3, used or not. A word that is not named may be any, such as b of kinds 2 and 4.
///
/// ```
/// use delmatik::{Choices, Lookup, Table, balance};
///
/// // Four rows, and a tuple of the word at this offset. Nodes: that word, then the constant 1.
/// let table = |offset| {
///     let lookup = Lookup { tuples: vec![vec![0]], multiplicities: vec![1], ..Lookup::default() };
///     [Table { main_width: 1, height: 4, main: vec![5, 6, 7, 8], nodes: vec![1, 0, offset, 0, 1, 0], ..Table::default() }.with(&[lookup])]
/// };
/// // None of the tuples is balanced; the workspace holds them, row by row.
/// let mut workspace = [0; 40];
/// assert_eq!(balance(Choices::default(), &table(3), &mut workspace).unwrap_err().number, 18);
/// assert_eq!(workspace.chunks_exact(10).map(|slot| slot[1]).collect::<Vec<u32>>(), [8, 5, 6, 7]);
/// assert_eq!(balance(Choices::default(), &table(4), &mut workspace).unwrap_err().number, 3);
/// ```
#[derive(Clone, Debug, Default, PartialEq, Eq)]
pub struct Table {
    pub main_width: usize,
    pub height: usize,
    pub pre_width: usize,
    pub pre_height: usize,
    pub main: Vec<u32>,
    pub preprocessed: Vec<u32>,
    pub public_values: Vec<u32>,
    /// kind, a, b of each node; a main or preprocessed word has its row offset in b
    pub nodes: Vec<u32>,
    /// scope (0 local, else bus), name length, weight (its low half), column, exclusive, tuples, multiplicities, flags of each lookup, and the
    /// high half of its weight
    pub lookups: Vec<u32>,
    pub names: Vec<u8>,
    /// the width of each tuple
    pub tuples: Vec<u32>,
    pub multiplicities: Vec<u32>,
    pub flags: Vec<u32>,
    pub elements: Vec<u32>,
}

/// The words of a lookup.
const LOOKUP_WORDS: usize = 9;

/// What generation hands back: the trace, row by row, four words an element; no terminal without lookups.
#[derive(Clone, Debug, PartialEq, Eq)]
pub struct Generated {
    pub trace: Vec<u32>,
    pub terminal: Option<LookupTerminal>,
}

/// Calls an exported function with these choices, a rule after them where it takes one, and with slices as pointers and lengths. Safe, since
/// it reads and writes the lent slices alone, whatever they hold. Braces around the call keep its layout: rustfmt would give each argument a
/// line.
macro_rules! call {
    ($choices:ident $($rule:ident)?, $function:ident($($arguments:tt)*)) => {{
        let mut details = [0; 3];
        let number = call!(@ $function details ($choices.field as u32, $choices.profile as u32, $($rule as u32,)?) $($arguments)*);
        if number == 0 { Ok(()) } else { Err(Refusal { number, details }) }
    }};
    (@ $function:ident $details:ident ($($done:tt)*) [mut $slice:expr], $($rest:tt)*) => {
        call!(@ $function $details ($($done)* $slice.as_mut_ptr(), $slice.len(),) $($rest)*)
    };
    (@ $function:ident $details:ident ($($done:tt)*) [$slice:expr], $($rest:tt)*) => {
        call!(@ $function $details ($($done)* $slice.as_ptr(), $slice.len(),) $($rest)*)
    };
    (@ $function:ident $details:ident ($($done:tt)*) $argument:expr, $($rest:tt)*) => {
        call!(@ $function $details ($($done)* $argument,) $($rest)*)
    };
    (@ $function:ident $details:ident ($($done:tt)*)) => { unsafe { sys::$function($($done)* &mut $details) } };
}
#[cfg(feature = "bytes")]
pub(crate) use call;

impl Count {
    /// A count that the table's constraints keep within a bound.
    pub fn bounded(node: u32, weight: u32) -> Count {
        let mut count = [0; 2];
        unsafe { sys::delmatik_count_bounded(node, weight, &mut count) };
        Count::of(count)
    }

    /// A provided entry, which the height bound leaves out.
    pub fn provided(node: u32) -> Count {
        let mut count = [0; 2];
        unsafe { sys::delmatik_count_provided(node, &mut count) };
        Count::of(count)
    }

    /// The count of a number: a constant is added to the table's nodes, three words each.
    pub fn from_i32(choices: Choices, nodes: &mut Vec<u32>, x: i32) -> Result<Count, Refusal> {
        with_node(nodes, |nodes, used| {
            let mut count = [0; 2];
            call! { choices, delmatik_count_from_i32([mut nodes], used, x, &mut count,) }?;
            Ok(Count::of(count))
        })
    }

    /// The count with the other sign: a negation is added to the table's nodes, three words each.
    pub fn negated(self, choices: Choices, nodes: &mut Vec<u32>) -> Result<Count, Refusal> {
        with_node(nodes, |nodes, used| {
            let mut count = [0; 2];
            call! { choices, delmatik_count_negated([mut nodes], used, self.node, self.weight, &mut count,) }?;
            Ok(Count::of(count))
        })
    }

    fn of([node, weight]: [u32; 2]) -> Count {
        Count { node, weight }
    }
}

/// Lends a function the nodes with room for one more, and how many there are. Where it refuses, they are what they were.
fn with_node<T>(nodes: &mut Vec<u32>, add: impl FnOnce(&mut [u32], usize) -> Result<T, Refusal>) -> Result<T, Refusal> {
    let (words, used) = (nodes.len(), nodes.len() / 3);
    nodes.resize(3 * used + 3, 0);
    let added = add(nodes, used);
    if added.is_err() {
        nodes.truncate(words);
    }
    added
}

impl Interaction {
    /// Its place in the order of building.
    fn kind(&self) -> usize {
        match self {
            Interaction::Local(_) => 0,
            Interaction::Global(..) => 1,
            Interaction::Exclusive(..) => 2,
        }
    }

    fn name(&self) -> &[u8] {
        match self {
            Interaction::Local(_) => &[],
            Interaction::Global(name, _) | Interaction::Exclusive(name, _) => name,
        }
    }

    fn parts(&self) -> Vec<&Part> {
        match self {
            Interaction::Local(parts) => parts.iter().collect(),
            Interaction::Global(_, part) => vec![part],
            Interaction::Exclusive(_, branches) => branches.iter().map(|(_, part)| part).collect(),
        }
    }

    fn flags(&self) -> Vec<u32> {
        match self {
            Interaction::Exclusive(_, branches) => branches.iter().map(|(flag, _)| *flag).collect(),
            _ => vec![],
        }
    }
}

impl Table {
    /// The same table with these lookups.
    pub fn with(mut self, lookups: &[Lookup]) -> Table {
        self.lookups.clear();
        self.names.clear();
        self.tuples.clear();
        self.multiplicities.clear();
        self.flags.clear();
        self.elements.clear();
        for l in lookups {
            let name = l.bus.as_deref().unwrap_or_default();
            let lengths = [l.tuples.len(), l.multiplicities.len(), l.flags.len()].map(|n| n as u32);
            self.lookups.extend([l.bus.is_some().into(), name.len() as u32, l.weight as u32, l.column, l.exclusive.into()]);
            self.lookups.extend(lengths);
            self.lookups.push((l.weight >> 32) as u32);
            self.names.extend(name);
            self.tuples.extend(l.tuples.iter().map(|t| t.len() as u32));
            self.multiplicities.extend(&l.multiplicities);
            self.flags.extend(&l.flags);
            self.elements.extend(l.tuples.iter().flatten());
        }
        self
    }

    pub fn lookup_count(&self) -> usize {
        self.lookups.len() / LOOKUP_WORDS
    }

    /// How many words the trace has; at most what the cabinet allows, beyond which generation refuses in any profile, whatever the buffer.
    fn trace_words(&self) -> usize {
        if self.lookups.is_empty() { 0 } else { 4 * self.height.min(1 << 20) * (self.lookup_count().min(64) + 1) }
    }

    /// `generate_permutation`: two challenges for each lookup, alpha then beta.
    pub fn generate(&self, choices: Choices, rule: Rule, challenges: &[Ext]) -> Result<Generated, Refusal> {
        let mut trace = vec![0; self.trace_words()];
        let terminal = self.generate_into(choices, rule, challenges.as_flattened(), &mut trace)?;
        Ok(Generated { trace, terminal })
    }

    /// The same with the challenges as words, into a lent buffer, which may be longer than the trace.
    pub fn generate_into(
        &self,
        choices: Choices,
        rule: Rule,
        challenges: &[u32],
        trace: &mut [u32],
    ) -> Result<Option<LookupTerminal>, Refusal> {
        let mut terminal = [0; 5];
        call! { choices rule, delmatik_generate(
            self.main_width, self.height, self.pre_width, self.pre_height, [self.main], [self.preprocessed], [self.public_values],
            [self.nodes], [self.lookups], [self.names], [self.tuples], [self.multiplicities], [self.flags], [self.elements], [challenges],
            [mut trace], &mut terminal,
        ) }?;
        let [present, words @ ..] = terminal;
        Ok((present == 1).then_some(LookupTerminal(words)))
    }

    /// `eval_all` over every row of a trace of `width` elements a row.
    pub fn constraints(
        &self,
        choices: Choices,
        rule: Rule,
        challenges: &[Ext],
        width: usize,
        trace: &[u32],
        terminal: Option<LookupTerminal>,
    ) -> Result<(), Refusal> {
        self.constraints_on(choices, rule, challenges.as_flattened(), width, trace, terminal)
    }

    /// The same with the challenges as words.
    pub fn constraints_on(
        &self,
        choices: Choices,
        rule: Rule,
        challenges: &[u32],
        width: usize,
        trace: &[u32],
        terminal: Option<LookupTerminal>,
    ) -> Result<(), Refusal> {
        let LookupTerminal([t0, t1, t2, t3]) = terminal.unwrap_or(LookupTerminal([0; 4]));
        call! { choices rule, delmatik_constraints(
            self.main_width, self.height, self.pre_width, self.pre_height, [self.main], [self.preprocessed], [self.public_values],
            [self.nodes], [self.lookups], [self.names], [self.tuples], [self.multiplicities], [self.flags], [self.elements], [challenges],
            width, [trace], terminal.is_some().into(), t0, t1, t2, t3,
        ) }
    }

    /// `constraint_degree_with_transition` of one lookup.
    pub fn degree(&self, choices: Choices, lookup: usize, transition: u32) -> Result<u64, Refusal> {
        let mut degree = 0;
        call! { choices, delmatik_degree(
            self.main_width, self.pre_width, self.public_values.len(), [self.nodes], [self.lookups], [self.names], [self.tuples],
            [self.multiplicities], [self.flags], [self.elements], lookup, transition, &mut degree,
        ) }?;
        Ok(degree)
    }

    /// `pack_same_bus`: the table with its lookups merged up to this degree. Locals keep their weights.
    pub fn pack(&self, choices: Choices, limit: u64) -> Result<Table, Refusal> {
        let mut packed = self.clone();
        let Table { lookups, names, tuples, multiplicities, flags, elements, .. } = &mut packed;
        let mut used = [0; 6];
        call! { choices, delmatik_pack(
            limit, self.main_width, self.pre_width, self.public_values.len(), [self.nodes], [self.lookups], [self.names], [self.tuples],
            [self.multiplicities], [self.flags], [self.elements], [mut lookups], [mut names], [mut tuples], [mut multiplicities],
            [mut flags], [mut elements], &mut used,
        ) }?;
        let [l, n, t, m, f, e] = used.map(|n: u64| n as usize);
        lookups.truncate(l);
        names.truncate(n);
        tuples.truncate(t);
        multiplicities.truncate(m);
        flags.truncate(f);
        elements.truncate(e);
        Ok(packed)
    }

    /// `from_interactions`: the table with lookups of these interactions, locals first, then globals, then exclusives.
    ///
    /// ```
    /// use delmatik::{Choices, Interaction, Part, Refusal, Table};
    ///
    /// let choices = Choices::default();
    /// let table = Table { main_width: 1, nodes: vec![1, 0, 0], ..Table::default() };
    /// let part = |width, weight| Part { elements: vec![0; width], multiplicity: 0, weight };
    /// // A local weighs what its tuples weigh together: here 2^32 + 1, in two words.
    /// let built = table.build(choices, &[Interaction::Local(vec![part(2, u32::MAX), part(2, 2)])]).unwrap();
    /// assert_eq!(built.lookups, [0, 0, 1, 0, 0, 2, 2, 0, 1]);
    /// // The tuples of a local are of one width.
    /// let refused = table.build(choices, &[Interaction::Local(vec![part(2, 1), part(3, 1)])]);
    /// assert_eq!(refused, Err(Refusal { number: 6, details: [0, 2, 3] }));
    /// ```
    pub fn build(&self, choices: Choices, interactions: &[Interaction]) -> Result<Table, Refusal> {
        let mut built = self.clone().with(&[]);
        let (mut kinds, mut words, mut weights) = ([0; 3], vec![], vec![]);
        let mut sorted: Vec<&Interaction> = interactions.iter().collect();
        sorted.sort_by_key(|i| i.kind());
        for i in sorted {
            kinds[i.kind()] += 1;
            let (name, parts) = (i.name(), i.parts());
            words.extend([word(name.len()), word(parts.len())]);
            weights.extend(parts.iter().map(|part| part.weight));
            built.names.extend(name);
            built.tuples.extend(parts.iter().map(|part| word(part.elements.len())));
            built.multiplicities.extend(parts.iter().map(|part| part.multiplicity));
            built.flags.extend(i.flags());
            built.elements.extend(parts.iter().flat_map(|part| &part.elements));
        }
        built.lookups = vec![0; LOOKUP_WORDS * interactions.len()];
        let Table { lookups, names, tuples, multiplicities, flags, elements, .. } = &mut built;
        let ([locals, globals, exclusives], mut used) = (kinds, 0);
        call! { choices, delmatik_build(
            self.main_width, self.pre_width, self.public_values.len(), [self.nodes], locals, globals, exclusives, [words], [weights],
            [names], [tuples], [multiplicities], [flags], [elements], [mut lookups], &mut used,
        ) }?;
        lookups.truncate(used as usize);
        Ok(built)
    }

    /// The 14 sizes that a function over several tables takes.
    pub fn sizes(&self) -> [u32; 14] {
        let shape = [self.main_width, self.height, self.pre_width, self.pre_height];
        let lists = [self.main.len(), self.preprocessed.len(), self.public_values.len(), self.nodes.len() / 3, self.lookup_count()];
        let more = [self.names.len(), self.tuples.len(), self.multiplicities.len(), self.flags.len(), self.elements.len()];
        let mut sizes = [0; 14];
        for (to, n) in sizes.iter_mut().zip(shape.into_iter().chain(lists).chain(more)) {
            *to = word(n);
        }
        sizes
    }
}

/// Row `row` of a trace of so many lookups and rows: its accumulator and its fractions, four words each. It is empty past the last row or the
/// words, and without lookups.
///
/// ```
/// // One lookup, two rows: fractions 6 and 7.
/// let trace = [0, 0, 0, 0, 6, 0, 0, 0, 6, 0, 0, 0, 7, 0, 0, 0];
/// assert_eq!(delmatik::row(&trace, 1, 2, 1), [6, 0, 0, 0, 7, 0, 0, 0]);
/// assert_eq!(delmatik::row(&trace, 1, 2, 2), []);
/// ```
pub fn row(trace: &[u32], lookups: usize, height: usize, row: u64) -> &[u32] {
    let mut part = [0; 2];
    unsafe { sys::delmatik_row(trace.as_ptr(), trace.len(), lookups, height, row, &mut part) };
    let [start, words] = part.map(|n: u64| n as usize);
    &trace[start..start + words]
}

/// A number as a word; one that is no word is over every limit all the same.
fn word(n: usize) -> u32 {
    n.try_into().unwrap_or(u32::MAX)
}

/// A list of all tables, one table after the other.
fn joined<T, W: Copy>(tables: &[T], list: fn(&T) -> &[W]) -> Vec<W> {
    tables.iter().flat_map(list).copied().collect()
}

/// `check_bus_widths`: the widest bus tuple.
pub fn widths(choices: Choices, tables: &[Table]) -> Result<u64, Refusal> {
    let (lookups, names, tuples) = (joined(tables, |t| &t.lookups), joined(tables, |t| &t.names), joined(tables, |t| &t.tuples));
    let size = |t: &Table| [word(t.lookup_count()), word(t.names.len()), word(t.tuples.len())];
    let sizes: Vec<u32> = tables.iter().flat_map(size).collect();
    let mut widest = 0;
    call! { choices, delmatik_widths([lookups], [names], [tuples], [sizes], &mut widest,) }?;
    Ok(widest)
}

/// The height bound: the sum of weight × height over all lookups, of whole weights, is below the prime of the field.
pub fn height_bound(choices: Choices, tables: &[Table], heights: &[usize]) -> Result<(), Refusal> {
    let lookups = joined(tables, |t| &t.lookups);
    let counts: Vec<u32> = tables.iter().map(|t| word(t.lookup_count())).collect();
    let heights: Vec<u32> = heights.iter().map(|h| word(*h)).collect();
    call! { choices, delmatik_height_bound([lookups], [counts], [heights],) }
}

/// `verify_terminal_sum`: absent ones are skipped.
pub fn terminals(choices: Choices, terminals: &[Option<LookupTerminal>]) -> Result<(), Refusal> {
    let five = |t: &Option<LookupTerminal>| t.map_or([0; 5], |LookupTerminal([a, b, c, d])| [1, a, b, c, d]);
    let words: Vec<u32> = terminals.iter().flat_map(five).collect();
    call! { choices, delmatik_terminals([words],) }
}

/// `Challenges::new`: prefix i is alpha + (i + 1) × beta^width.
pub fn prefixes(choices: Choices, alpha: Ext, beta: Ext, width: usize, count: usize) -> Result<Vec<Ext>, Refusal> {
    // More than 256 are refused whatever the room.
    let mut out = vec![0; 4 * count.min(257)];
    call! { choices, delmatik_prefixes([alpha], [beta], width, count, [mut out],) }?;
    Ok(out.chunks_exact(4).map(|e| e.try_into().unwrap()).collect())
}

/// A seed of balance that nobody knows who chose the traces, drawn as the keys of a `HashMap` are.
pub(crate) fn drawn_seed() -> u64 {
    RandomState::new().hash_one(())
}

/// `check_lookups`: the workspace, of ten words a slot, holds the last group visited afterwards. The seed of the search is drawn for each
/// call, so that tuples chosen beforehand are spread like any others.
pub fn balance(choices: Choices, tables: &[Table], workspace: &mut [u32]) -> Result<(), Refusal> {
    balance_with_seed(choices, tables, drawn_seed(), workspace)
}

/// [`balance`] with any number as the seed, which changes the time and never the answer.
pub fn balance_with_seed(choices: Choices, tables: &[Table], seed: u64, workspace: &mut [u32]) -> Result<(), Refusal> {
    let sizes: Vec<u32> = tables.iter().flat_map(|t| t.sizes()).collect();
    let (main, preprocessed) = (joined(tables, |t| &t.main), joined(tables, |t| &t.preprocessed));
    let (public_values, nodes) = (joined(tables, |t| &t.public_values), joined(tables, |t| &t.nodes));
    let (lookups, names, tuples) = (joined(tables, |t| &t.lookups), joined(tables, |t| &t.names), joined(tables, |t| &t.tuples));
    let (multiplicities, flags) = (joined(tables, |t| &t.multiplicities), joined(tables, |t| &t.flags));
    let elements = joined(tables, |t| &t.elements);
    call! { choices, delmatik_balance(
        [main], [preprocessed], [public_values], [nodes], [lookups], [names], [tuples], [multiplicities], [flags], [elements], [sizes],
        seed, [mut workspace],
    ) }
}

/// The answer of a function on one element, which has no details.
fn element(number: u32, out: Ext) -> Result<Ext, Refusal> {
    if number == 0 { Ok(out) } else { Err(Refusal { number, details: [0; 3] }) }
}

/// `a` to the power `n`.
pub fn power(field: Field, a: Ext, n: u32) -> Result<Ext, Refusal> {
    let mut out = [0; 4];
    element(unsafe { sys::delmatik_power(field as u32, a.as_ptr(), 4, n, out.as_mut_ptr(), 4) }, out)
}

/// 1 ÷ `a`, and 0 where `a` is 0.
pub fn inverse(field: Field, a: Ext) -> Result<Ext, Refusal> {
    let mut out = [0; 4];
    element(unsafe { sys::delmatik_inverse(field as u32, a.as_ptr(), 4, out.as_mut_ptr(), 4) }, out)
}
