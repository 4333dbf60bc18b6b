//! The specification once more, as a plain program: an independent reading, to which the port and the crate are compared. It is written for
//! reading, not for speed.
use std::ops::Range;

use crate::plain::{self, Ext, Field};
use crate::table::{Entry, LOOKUP_WORDS, Lookup, NODE_WORDS, Plan, SIZES, Table, Widths, chosen_of, front, halves};

/// A refusal's number and three details; number 0 where the call is accepted.
#[derive(Clone, Copy, Debug, Default, PartialEq, Eq)]
pub struct Answer {
    pub number: u32,
    pub details: [u64; 3],
}

pub const ACCEPTED: Answer = Answer { number: 0, details: [0; 3] };

pub fn refused(number: u32) -> Answer {
    Answer { number, details: [0; 3] }
}

fn with_details(number: u32, details: [usize; 3]) -> Answer {
    Answer { number, details: details.map(|d| d as u64) }
}

/// The numbers that choose how a call is read: field, profile and, for generation and constraints, the tuple rule. An unknown one is refusal
/// 1, before anything else is read.
#[derive(Clone, Copy, Debug, PartialEq, Eq)]
pub struct Choices {
    pub field: u32,
    pub profile: u32,
    pub rule: u32,
}

/// What known numbers choose. A field alone chooses the cabinet and rule 1.
#[derive(Clone, Copy, Debug, Default, PartialEq, Eq)]
pub struct Chosen {
    pub field: Field,
    pub profile: Profile,
    /// Only generation and constraints look at it.
    pub rule: Rule,
}

/// Whose limits a call keeps.
#[derive(Clone, Copy, Debug, Default, PartialEq, Eq, PartialOrd, Ord)]
pub enum Profile {
    #[default]
    Cabinet = 1,
    Gateway = 2,
}

/// Which power of beta goes with each element of a tuple: the highest with the first element, or with the last.
#[derive(Clone, Copy, Debug, Default, PartialEq, Eq, PartialOrd, Ord)]
pub enum Rule {
    #[default]
    One = 1,
    Two = 2,
}

impl Choices {
    /// Those of a call in this field and profile, by this rule.
    pub fn of(chosen: impl Into<Chosen>) -> Choices {
        let Chosen { field, profile, rule } = chosen.into();
        Choices { field: field.number(), profile: profile.number(), rule: rule.number() }
    }

    /// Where field and profile are known, for a function that takes no rule.
    pub fn known(self) -> Option<Chosen> {
        let rule = Rule::numbered(self.rule).unwrap_or_default();
        Some(Chosen { field: Field::numbered(self.field)?, profile: Profile::numbered(self.profile)?, rule })
    }

    /// The same for a function that takes the rule.
    pub fn known_with_rule(self) -> Option<Chosen> {
        self.known().filter(|chosen| chosen.rule.number() == self.rule)
    }
}

impl From<Field> for Chosen {
    fn from(field: Field) -> Chosen {
        Chosen { field, ..Chosen::default() }
    }
}

impl Profile {
    pub const ALL: [Profile; 2] = [Profile::Cabinet, Profile::Gateway];

    pub fn number(self) -> u32 {
        self as u32
    }

    pub fn numbered(number: u32) -> Option<Profile> {
        Profile::ALL.into_iter().find(|profile| profile.number() == number)
    }

    pub fn limits(self) -> &'static Limits {
        match self {
            Profile::Cabinet => &CABINET,
            Profile::Gateway => &GATEWAY,
        }
    }
}

impl Rule {
    pub const ALL: [Rule; 2] = [Rule::One, Rule::Two];

    pub fn number(self) -> u32 {
        self as u32
    }

    pub fn numbered(number: u32) -> Option<Rule> {
        Rule::ALL.into_iter().find(|rule| rule.number() == number)
    }
}

/// How much of each a call may have. The height is that of either trace.
#[derive(Debug)]
pub struct Limits {
    pub tables: usize,
    pub lookups: usize,
    pub tuples: usize,
    pub tuple_words: u32,
    pub nodes: usize,
    pub main_columns: u64,
    pub pre_columns: u64,
    pub public_values: usize,
    pub height: u64,
    pub name_bytes: u32,
    pub degree: u64,
    pub prefixes: u64,
    pub prefix_width: u64,
}

pub const CABINET: Limits = Limits {
    tables: 16,
    lookups: 64,
    tuples: 64,
    tuple_words: 8,
    nodes: 1024,
    main_columns: 256,
    pre_columns: 64,
    public_values: 64,
    height: 1 << 20,
    name_bytes: 16,
    degree: 255,
    prefixes: 256,
    prefix_width: 255,
};

/// A machine with less memory.
pub const GATEWAY: Limits = Limits { lookups: 8, tuple_words: 4, height: 4096, ..CABINET };

/// The first number whose test fails, or 0. Tests are tried in the order given, so none sees words that an earlier one refuses.
fn first_refused(tests: &[(u32, &dyn Fn() -> bool)]) -> u32 {
    tests.iter().find(|(_, holds)| !holds()).map_or(0, |(number, _)| *number)
}

// Refusal 1.

fn plan_sizes_fit(t: &Table) -> bool {
    let limits = t.profile.limits();
    0 < t.main_width
        && t.main_width <= limits.main_columns
        && t.pre_width <= limits.pre_columns
        && t.public_values.len() <= limits.public_values
        && t.nodes.len().is_multiple_of(NODE_WORDS)
        && t.node_count() <= limits.nodes
        && lookup_sizes_fit(t)
}

/// The most that a lookup of so many tuples weighs: 2^32 - 1 on a bus; of a local as much for each tuple, and without tuples once.
pub fn weight_limit(on_bus: bool, tuples: u32) -> u64 {
    let times = if on_bus { 1 } else { tuples.max(1) };
    u64::from(times) * u64::from(u32::MAX)
}

pub fn weights_within(t: &Table) -> bool {
    t.entries().iter().all(|e| e.weight <= weight_limit(e.on_bus, e.tuples))
}

/// What the lookups' words alone show.
fn words_within(t: &Table) -> bool {
    let (limits, entries) = (t.profile.limits(), t.entries());
    t.lookups.len().is_multiple_of(LOOKUP_WORDS)
        && entries.len() <= limits.lookups
        && entries.iter().all(|e| e.name_length <= limits.name_bytes)
        && weights_within(t)
        && entries.iter().map(|e| u64::from(e.tuples)).sum::<u64>() <= limits.tuples as u64
}

/// What they show with the names and the tuples' widths.
fn widths_within(t: &Table) -> bool {
    let entries = t.entries();
    let total = |field: fn(&Entry) -> u32| entries.iter().map(|e| field(e) as usize).sum::<usize>();
    words_within(t)
        && t.tuples.iter().all(|w| *w <= t.profile.limits().tuple_words)
        && t.names.len() == total(|e| e.name_length)
        && t.tuples.len() == total(|e| e.tuples)
}

fn lookup_sizes_fit(t: &Table) -> bool {
    let entries = t.entries();
    let total = |field: fn(&Entry) -> u32| entries.iter().map(|e| u64::from(field(e))).sum::<u64>();
    let is = |length: usize, n: u64| length as u64 == n;
    widths_within(t)
        && is(t.multiplicities.len(), total(|e| e.multiplicities))
        && is(t.flags.len(), total(|e| e.flags))
        && is(t.elements.len(), t.tuples.iter().map(|w| u64::from(*w)).sum())
}

fn sizes_fit(t: &Table) -> bool {
    plan_sizes_fit(t)
        && t.height <= t.profile.limits().height
        && t.pre_height <= t.profile.limits().height
        && t.main.len() as u64 == t.main_width * t.height
        && t.preprocessed.len() as u64 == t.pre_width * t.pre_height
}

// Refusals 2 to 5 and 9.

fn words_below(field: Field, words: &[u32]) -> bool {
    words.iter().all(|w| *w < field.prime())
}

pub fn constants_below(t: &Table) -> bool {
    (0..t.node_count()).all(|i| t.node(i)[0] != 0 || t.node(i)[1] < t.field.prime())
}

pub fn traces_below(t: &Table) -> bool {
    [&t.main, &t.preprocessed, &t.public_values].iter().all(|words| words_below(t.field, words))
}

/// How many rows ahead of the current one a node looks at most.
pub const MOST_AHEAD: u32 = 3;

pub fn nodes_known(t: &Table) -> bool {
    (0..t.node_count()).all(|i| {
        let [kind, a, b] = t.node(i);
        let lower = |n: u32| (n as usize) < i;
        match kind {
            0 | 6 | 7 | 8 => true,
            1 => b <= MOST_AHEAD && u64::from(a) < t.main_width,
            2 => u64::from(a) < t.main_width,
            3 => b <= MOST_AHEAD && u64::from(a) < t.pre_width,
            4 => u64::from(a) < t.pre_width,
            5 => (a as usize) < t.public_values.len(),
            9..=11 => lower(a) && lower(b),
            12 => lower(a),
            _ => false,
        }
    })
}

/// The degree of each node; sums of degrees stay below 2^64 by saturating.
pub fn degrees(t: &Table, transition: u64) -> Vec<u64> {
    let mut degrees: Vec<u64> = vec![];
    for i in 0..t.node_count() {
        let [kind, a, b] = t.node(i);
        let of = |n: u32| degrees[n as usize];
        let degree = match kind {
            0 | 5 => 0,
            8 => transition,
            9 | 10 => of(a).max(of(b)),
            11 => of(a).saturating_add(of(b)),
            12 => of(a),
            _ => 1,
        };
        degrees.push(degree);
    }
    degrees
}

fn degrees_low(t: &Table) -> bool {
    degrees(t, 1).iter().all(|d| *d <= t.profile.limits().degree)
}

fn list_lengths_agree(t: &Table) -> bool {
    t.entries().iter().all(|e| e.multiplicities == e.tuples && e.flags == if e.exclusive { e.tuples } else { 0 })
}

fn nodes_present(t: &Table) -> bool {
    let present = |list: &[u32]| list.iter().all(|n| (*n as usize) < t.node_count());
    present(&t.multiplicities) && present(&t.flags) && present(&t.elements)
}

pub fn lookups_agree(t: &Table) -> bool {
    list_lengths_agree(t) && nodes_present(t)
}

pub fn columns_in_position(t: &Table) -> bool {
    t.entries().iter().enumerate().all(|(i, e)| e.column as usize == i)
}

pub fn preprocessed_enough(t: &Table) -> bool {
    t.lookup_count() == 0 || t.pre_width == 0 || t.height <= t.pre_height
}

fn rows_enough(t: &Table) -> bool {
    t.lookup_count() == 0 || (0 < t.height && preprocessed_enough(t))
}

// Rows.

/// The value of each node on a row.
pub fn node_values(t: &Table, row: usize) -> Vec<u32> {
    let height = t.height as usize;
    // Rows are counted around the end of main, those of the preprocessed trace too.
    let ahead = |offset: u32| (row + offset as usize) % height;
    let main = |column: u32, offset: u32| t.main[ahead(offset) * t.main_width as usize + column as usize];
    let preprocessed = |column: u32, offset: u32| t.preprocessed[ahead(offset) * t.pre_width as usize + column as usize];
    let mut values: Vec<u32> = vec![];
    for i in 0..t.node_count() {
        let [kind, a, b] = t.node(i);
        let of = |n: u32| values[n as usize];
        let value = match kind {
            0 => a,
            1 => main(a, b),
            2 => main(a, 1),
            3 => preprocessed(a, b),
            4 => preprocessed(a, 1),
            5 => t.public_values[a as usize],
            6 => (row == 0).into(),
            7 => (row + 1 == height).into(),
            8 => (row + 1 < height).into(),
            9 => t.field.add_word(of(a), of(b)),
            10 => t.field.sub_word(of(a), of(b)),
            11 => t.field.mul_word(of(a), of(b)),
            _ => t.field.neg_word(of(a)),
        };
        values.push(value);
    }
    values
}

/// The sum of element j × beta^(k - 1 - j) by rule 1, and of element j × beta^j by rule 2.
pub fn combined(field: Field, rule: Rule, tuple: &[u32], beta: Ext) -> Ext {
    let k = tuple.len();
    let exponent = |j: usize| match rule {
        Rule::One => k - 1 - j,
        Rule::Two => j,
    };
    let term = |j: usize| field.scale(tuple[j], field.power(beta, exponent(j) as u32));
    sum(field, (0..k).map(term))
}

fn sum(field: Field, elements: impl Iterator<Item = Ext>) -> Ext {
    elements.fold([0; 4], |a, b| field.add(a, b))
}

/// A lookup with the values of its nodes on one row, and its challenges.
struct Place<'a> {
    field: Field,
    rule: Rule,
    lookup: &'a Lookup,
    values: &'a [u32],
    alpha: Ext,
    beta: Ext,
}

impl Place<'_> {
    fn value(&self, node: u32) -> u32 {
        self.values[node as usize]
    }

    fn tuple(&self, k: usize) -> Vec<u32> {
        self.lookup.tuples[k].iter().map(|n| self.value(*n)).collect()
    }

    fn multiplicity(&self, k: usize) -> u32 {
        self.value(self.lookup.multiplicities[k])
    }

    fn flag(&self, k: usize) -> u32 {
        self.value(self.lookup.flags[k])
    }

    fn denominator(&self, k: usize) -> Ext {
        self.field.sub(self.alpha, combined(self.field, self.rule, &self.tuple(k), self.beta))
    }

    fn branches(&self) -> std::ops::Range<usize> {
        0..self.lookup.tuples.len()
    }

    /// The tuples whose denominators are used: those with a multiplicity, or the chosen branch.
    fn used(&self) -> Vec<usize> {
        self.branches().filter(|k| if self.lookup.exclusive { self.flag(*k) == 1 } else { self.multiplicity(*k) != 0 }).collect()
    }

    /// 13, 14, 15, or 0.
    fn fault(&self) -> u32 {
        let flag = |k: usize| if self.lookup.exclusive { self.flag(k) } else { 0 };
        if self.branches().any(|k| 1 < flag(k)) {
            13
        } else if 1 < self.branches().filter(|k| flag(*k) == 1).count() {
            14
        } else if self.used().iter().any(|k| self.denominator(*k) == [0; 4]) {
            15
        } else {
            0
        }
    }

    fn fraction(&self) -> Ext {
        let quotient = |k: usize| self.field.scale(self.multiplicity(k), self.field.inverse(self.denominator(k)));
        sum(self.field, self.used().into_iter().map(quotient))
    }

    /// Numerator and denominator as the constraints have them.
    fn terms(&self) -> (Ext, Ext) {
        let (field, one) = (self.field, plain::lift(1));
        let product = |branches: &mut dyn Iterator<Item = usize>| branches.fold(one, |a, k| field.mul(a, self.denominator(k)));
        if self.lookup.exclusive {
            let mut numerator = 0;
            let mut denominator = one;
            for k in self.branches() {
                let flag = self.flag(k);
                numerator = field.add_word(numerator, field.mul_word(flag, self.multiplicity(k)));
                denominator = field.add(denominator, field.scale(flag, field.sub(self.denominator(k), one)));
            }
            return (plain::lift(numerator), denominator);
        }
        let mut numerator = [0; 4];
        for k in self.branches() {
            let others = product(&mut self.branches().filter(|j| *j != k));
            numerator = field.add(numerator, field.scale(self.multiplicity(k), others));
        }
        (numerator, product(&mut self.branches()))
    }
}

/// Lookup i of a table, with its own pair of the challenges.
fn placed<'a>(t: &Table, lookup: &'a Lookup, values: &'a [u32], challenges: &[u32], i: usize) -> Place<'a> {
    let (alpha, beta) = (element(challenges, 2 * i), element(challenges, 2 * i + 1));
    Place { field: t.field, rule: t.rule, lookup, values, alpha, beta }
}

fn element(words: &[u32], i: usize) -> Ext {
    words[4 * i..4 * i + 4].try_into().unwrap()
}

/// Every fault of generation with its row and lookup, row by row, lookup by lookup.
pub fn faults(t: &Table, challenges: &[u32]) -> Vec<(u32, usize, usize)> {
    let records = t.records();
    let mut faults = vec![];
    for row in 0..t.height as usize {
        let values = node_values(t, row);
        for (i, lookup) in records.iter().enumerate() {
            let place = placed(t, lookup, &values, challenges, i);
            let fault = place.fault();
            if fault != 0 {
                faults.push((fault, row, i));
            }
        }
    }
    faults
}

/// A trace and terminal that pass the constraints wherever no denominator is zero, also with flags that generation refuses.
pub fn satisfying(t: &Table, challenges: &[u32]) -> (Vec<u32>, Ext) {
    let records = t.records();
    let (mut trace, mut accumulator) = (vec![], [0; 4]);
    for row in 0..t.height as usize {
        let values = node_values(t, row);
        trace.extend(accumulator);
        for (i, lookup) in records.iter().enumerate() {
            let place = placed(t, lookup, &values, challenges, i);
            let (numerator, denominator) = place.terms();
            let fraction = t.field.mul(numerator, t.field.inverse(denominator));
            trace.extend(fraction);
            accumulator = t.field.add(accumulator, fraction);
        }
    }
    (trace, accumulator)
}

// The functions that the port exports.

/// Generation: the trace buffer is written, the terminal given back.
pub fn generate(t: &Table, challenges: &[u32], trace: &mut [u32]) -> (Answer, Option<Ext>) {
    let n = t.lookup_count();
    let used = || t.height * (n as u64 + 1) * 4;
    let number = first_refused(&[
        (1, &|| sizes_fit(t) && challenges.len().is_multiple_of(4)),
        (2, &|| traces_below(t) && constants_below(t) && words_below(t.field, challenges)),
        (3, &|| nodes_known(t)),
        (4, &|| degrees_low(t)),
        (5, &|| lookups_agree(t) && columns_in_position(t)),
        (8, &|| n == 0 || challenges.len() == 8 * n),
        (9, &|| rows_enough(t)),
        (10, &|| n == 0 || used() <= trace.len() as u64),
    ]);
    if number != 0 {
        return (refused(number), None);
    }
    if n == 0 {
        return (ACCEPTED, None);
    }
    let trace = &mut trace[..used() as usize];
    let records = t.records();
    let mut accumulator = [0; 4];
    for (row, words) in trace.chunks_exact_mut(4 * (n + 1)).enumerate() {
        let values = node_values(t, row);
        words[..4].copy_from_slice(&accumulator);
        for (i, lookup) in records.iter().enumerate() {
            let place = placed(t, lookup, &values, challenges, i);
            let fault = place.fault();
            if fault != 0 {
                trace.fill(0);
                return (with_details(fault, [row, i, 0]), None);
            }
            let fraction = place.fraction();
            words[4 * (i + 1)..4 * (i + 2)].copy_from_slice(&fraction);
            accumulator = t.field.add(accumulator, fraction);
        }
    }
    (ACCEPTED, Some(accumulator))
}

pub fn constraints(t: &Table, challenges: &[u32], width: u64, trace: &[u32], terminal: Option<Ext>) -> Answer {
    let n = t.lookup_count();
    let number = first_refused(&[
        (1, &|| sizes_fit(t) && challenges.len().is_multiple_of(4) && trace.len() as u128 == u128::from(width) * u128::from(t.height) * 4),
        (2, &|| {
            let words = [challenges, trace, &terminal.unwrap_or_default()];
            traces_below(t) && constants_below(t) && words.iter().all(|words| words_below(t.field, words))
        }),
        (3, &|| nodes_known(t)),
        (4, &|| degrees_low(t)),
        (5, &|| lookups_agree(t) && columns_in_position(t)),
        (8, &|| n == 0 || 8 * n <= challenges.len()),
        (9, &|| rows_enough(t)),
        (10, &|| n == 0 || (n as u64) < width),
        (11, &|| terminal.is_some() == (0 < n)),
    ]);
    if number != 0 {
        return refused(number);
    }
    let Some(terminal) = terminal else {
        return ACCEPTED;
    };
    let records = t.records();
    let cell = |row: usize, column: usize| element(trace, row * width as usize + column);
    let last = t.height as usize - 1;
    for row in 0..=last {
        let values = node_values(t, row);
        let mut sum = cell(row, 0);
        let mut must_vanish = vec![];
        for (i, lookup) in records.iter().enumerate() {
            let place = placed(t, lookup, &values, challenges, i);
            let (numerator, denominator) = place.terms();
            must_vanish.push((i, t.field.sub(t.field.mul(denominator, cell(row, i + 1)), numerator)));
            sum = t.field.add(sum, cell(row, i + 1));
        }
        if row == 0 {
            must_vanish.push((n, cell(0, 0)));
        }
        if row < last {
            must_vanish.push((n + 1, t.field.sub(cell(row + 1, 0), sum)));
        } else {
            must_vanish.push((n + 2, t.field.sub(terminal, sum)));
        }
        if let Some((place, _)) = must_vanish.iter().find(|(_, value)| *value != [0; 4]) {
            return with_details(17, [row, *place, 0]);
        }
    }
    ACCEPTED
}

/// Refusals 1 to 5 of the functions that take a table's widths, public values, nodes and lookups, but no traces.
fn plan_refusal(t: &Table) -> u32 {
    first_refused(&[
        (1, &|| plan_sizes_fit(t)),
        (2, &|| constants_below(t)),
        (3, &|| nodes_known(t)),
        (4, &|| degrees_low(t)),
        (5, &|| lookups_agree(t)),
    ])
}

fn lookup_degree(lookup: &Lookup, degrees: &[u64]) -> u64 {
    let of = |node: &u32| degrees[*node as usize];
    let combined: Vec<u64> = lookup.tuples.iter().map(|tuple| tuple.iter().map(of).max().unwrap_or(0)).collect();
    let multiplicities: Vec<u64> = lookup.multiplicities.iter().map(of).collect();
    let (denominator, numerators): (u64, Vec<u64>) = if lookup.exclusive {
        let flags: Vec<u64> = lookup.flags.iter().map(of).collect();
        (
            flags.iter().zip(&combined).map(|(f, d)| f + d).max().unwrap_or(0),
            flags.iter().zip(&multiplicities).map(|(f, m)| f + m).collect(),
        )
    } else {
        let all: u64 = combined.iter().sum();
        (all, multiplicities.iter().zip(&combined).map(|(m, d)| m + (all - d)).collect())
    };
    numerators.into_iter().fold(1 + denominator, u64::max)
}

pub fn degree(t: &Table, lookup: u64, transition: u64) -> (Answer, u64) {
    let number = if 1 < transition || t.lookup_count() as u64 <= lookup { 1 } else { plan_refusal(t) };
    if number != 0 {
        return (refused(number), 0);
    }
    (ACCEPTED, lookup_degree(&t.records()[lookup as usize], &degrees(t, transition)))
}

/// The different buses of a list, by first appearance.
fn buses<'a>(buses_of: impl Iterator<Item = &'a Option<Vec<u8>>>) -> Vec<&'a [u8]> {
    let mut buses: Vec<&[u8]> = vec![];
    for name in buses_of.filter_map(|bus| bus.as_deref()) {
        if !buses.contains(&name) {
            buses.push(name);
        }
    }
    buses
}

/// Refusal 6 over a table: each bus, then its tuples. `seen` holds the widths of buses in tables before it.
fn widths_differ(lookups: &[Widths], seen: &mut Vec<(Vec<u8>, usize)>) -> Option<Answer> {
    for bus in buses(lookups.iter().map(|l| &l.bus)) {
        for (i, lookup) in lookups.iter().enumerate().filter(|(_, l)| l.bus.as_deref() == Some(bus)) {
            for actual in lookup.widths.iter().map(|w| *w as usize) {
                match seen.iter().find(|(name, _)| name == bus) {
                    None => seen.push((bus.to_vec(), actual)),
                    Some((_, expected)) if *expected != actual => return Some(with_details(6, [i, *expected, actual])),
                    Some(_) => (),
                }
            }
        }
    }
    None
}

pub fn pack(t: &Table, limit: u64) -> (Answer, Vec<Lookup>) {
    let number = plan_refusal(t);
    if number != 0 {
        return (refused(number), vec![]);
    }
    let records = t.records();
    if let Some(answer) = widths_differ(&t.widths(), &mut vec![]) {
        return (answer, vec![]);
    }
    let degrees = degrees(t, 0);
    let additive = |r: &&Lookup| r.bus.is_some() && !r.exclusive;
    let mut columns: Vec<Lookup> = records.iter().filter(|r| !additive(r)).cloned().collect();
    for bus in buses(records.iter().filter(additive).map(|r| &r.bus)) {
        let first = columns.len();
        for member in records.iter().filter(additive).filter(|r| r.bus.as_deref() == Some(bus)) {
            let merged = columns.get(first..).and_then(<[Lookup]>::last).map(|open| Lookup {
                tuples: [&open.tuples[..], &member.tuples].concat(),
                multiplicities: [&open.multiplicities[..], &member.multiplicities].concat(),
                ..open.clone()
            });
            match merged.filter(|merged| lookup_degree(merged, &degrees) <= limit) {
                Some(merged) => {
                    let weight = merged.weight + member.weight;
                    if u64::from(u32::MAX) < weight {
                        return (refused(7), vec![]);
                    }
                    *columns.last_mut().unwrap() = Lookup { weight, ..merged };
                }
                None => columns.push(member.clone()),
            }
        }
    }
    for (i, column) in columns.iter_mut().enumerate() {
        column.column = i as u32;
    }
    (ACCEPTED, columns)
}

/// Building for a table, into a list of so many words: the lists of the lookups that are built, which are tested by 1 to 5 as the table's own
/// are, then the locals by 6.
pub fn build(t: &Table, plan: &Plan, room: usize) -> (Answer, Table) {
    let Plan { kinds: [locals, globals, exclusives], interactions, weights, lists } = plan;
    let count = kinds_sum(plan);
    let tuples = |i: usize| u64::from(interactions[2 * i + 1]);
    let fits = count <= t.profile.limits().lookups as u128
        && interactions.len() as u128 == 2 * count
        && (0..count as usize).map(tuples).sum::<u64>() == lists.tuples.len() as u64
        && weights.len() == lists.tuples.len()
        && (*locals..locals + globals).all(|i| tuples(i as usize) == 1)
        && LOOKUP_WORDS as u128 * count <= room as u128;
    if !fits {
        return (refused(1), Table::default());
    }
    let mut built =
        Table { main_width: t.main_width, pre_width: t.pre_width, nodes: t.nodes.clone(), ..lists.over(t.chosen()).into_owned() };
    built.public_values = t.public_values.clone();
    built.lookups = vec![];
    let mut weights = &weights[..];
    for i in 0..(locals + globals + exclusives) as u32 {
        let (local, exclusive) = (u64::from(i) < *locals, locals + globals <= u64::from(i));
        let (name, tuples) = (interactions[2 * i as usize], interactions[2 * i as usize + 1]);
        let own = front(&mut weights, tuples).iter().map(|w| u64::from(*w));
        let [low, high] = halves(if local { own.sum() } else { own.max().unwrap_or(0) });
        let name = if local { 0 } else { name };
        let flags = if exclusive { tuples } else { 0 };
        built.lookups.extend([u32::from(!local), name, low, i, exclusive.into(), tuples, tuples, flags, high]);
    }
    let number = plan_refusal(&built);
    if number != 0 {
        return (refused(number), Table::default());
    }
    for (i, local) in built.records().iter().enumerate().take(*locals as usize) {
        let widths: Vec<usize> = local.tuples.iter().map(Vec::len).collect();
        if let Some(other) = widths.iter().find(|w| **w != widths[0]) {
            return (with_details(6, [i, widths[0], *other]), Table::default());
        }
    }
    (ACCEPTED, built)
}

fn kinds_sum(plan: &Plan) -> u128 {
    plan.kinds.iter().map(|n| u128::from(*n)).sum()
}

/// The word of a count's constant node, and its weight.
pub fn count_of(field: Field, n: i32) -> (u32, u32) {
    let p = i64::from(field.prime());
    (((i64::from(n) % p + p) % p) as u32, n.unsigned_abs())
}

/// Whether node `used` can be added to a list of so many words.
pub fn room_for_node(limits: &Limits, nodes: usize, used: u64) -> bool {
    used < limits.nodes as u64 && used < (nodes / NODE_WORDS) as u64
}

/// Where a row of the trace begins and how many words it has; zeros where it is not there.
pub fn row(trace: usize, lookups: u64, height: u64, row: u64) -> [u64; 2] {
    let width = 4 * (u128::from(lookups) + 1);
    let start = u128::from(row) * width;
    let there = lookups != 0 && row < height && start + width <= trace as u128;
    if there { [start as u64, width as u64] } else { [0; 2] }
}

/// a to the power n, by squares.
pub fn power(field: Field, a: Ext, n: u128) -> Ext {
    let square = |e: Ext| field.mul(e, e);
    match n {
        0 => plain::lift(1),
        _ if n.is_multiple_of(2) => square(power(field, a, n / 2)),
        _ => field.mul(a, square(power(field, a, n / 2))),
    }
}

/// The inverse, after Fermat; 0 where a is 0.
pub fn inverse(field: Field, a: Ext) -> Ext {
    power(field, a, u128::from(field.prime()).pow(4) - 2)
}

/// The limits of the call that these tables are of.
fn limits_of(tables: &[Table]) -> &'static Limits {
    chosen_of(tables).profile.limits()
}

/// The widest bus tuple. The function has the lookups' words, names and widths only: of 5 it tests what these words show.
pub fn widths(tables: &[Table]) -> (Answer, u64) {
    let number = first_refused(&[
        (1, &|| tables.len() <= limits_of(tables).tables && tables.iter().all(widths_within)),
        (5, &|| tables.iter().all(list_lengths_agree)),
    ]);
    if number != 0 {
        return (refused(number), 0);
    }
    let mut seen = vec![];
    for t in tables {
        if let Some(answer) = widths_differ(&t.widths(), &mut seen) {
            return (answer, 0);
        }
    }
    (ACCEPTED, seen.iter().map(|(_, width)| *width as u64).max().unwrap_or(0))
}

/// The sum of weight × height. The function has the lookups' words only.
pub fn height_bound(tables: &[Table], heights: &[u64]) -> Answer {
    let limits = limits_of(tables);
    let fit = || heights.len() == tables.len() && heights.iter().all(|h| *h <= limits.height);
    let number = first_refused(&[
        (1, &|| tables.len() <= limits.tables && fit() && tables.iter().all(words_within)),
        (5, &|| tables.iter().all(list_lengths_agree)),
    ]);
    if number != 0 {
        return refused(number);
    }
    let weight = |t: &Table| t.entries().iter().map(|e| e.weight).sum::<u64>();
    let sum: u64 = tables.iter().zip(heights).map(|(t, h)| weight(t) * h).sum();
    let below = tables.iter().all(|t| sum < t.field.prime().into());
    if below { ACCEPTED } else { Answer { number: 19, details: [sum, 0, 0] } }
}

pub fn terminals(Chosen { field, profile, .. }: Chosen, terminals: &[Option<Ext>]) -> Answer {
    if profile.limits().tables < terminals.len() {
        return refused(1);
    }
    let present = || terminals.iter().flatten();
    if !present().all(|t| words_below(field, t)) {
        return refused(2);
    }
    if sum(field, present().copied()) == [0; 4] { ACCEPTED } else { refused(20) }
}

pub fn prefixes(Chosen { field, profile, .. }: Chosen, alpha: Ext, beta: Ext, width: u64, count: u64) -> (Answer, Vec<Ext>) {
    let number = first_refused(&[
        (1, &|| width <= profile.limits().prefix_width && count <= profile.limits().prefixes),
        (2, &|| words_below(field, &alpha) && words_below(field, &beta)),
        (12, &|| width != 0),
    ]);
    if number != 0 {
        return (refused(number), vec![]);
    }
    let gamma = field.power(beta, width as u32);
    (ACCEPTED, (1..=count).map(|i| field.add(alpha, field.scale(i as u32, gamma))).collect())
}

// Balance.

pub const SLOT_WORDS: usize = 10;

// The tables that flat lists of several tables hold.

/// The sizes of a table's shape, and the part of each list that is its own.
struct Own<const LISTS: usize> {
    shape: Vec<u32>,
    parts: [Range<usize>; LISTS],
}

/// The sizes of each table: those of its shape, then how many records of each list it has. A list is given by the words of a record and its
/// length. Nothing, where the tables' parts are not the whole lists.
fn split<const LISTS: usize>(sizes: &[u32], shape: usize, lists: [(usize, usize); LISTS]) -> Option<Vec<Own<LISTS>>> {
    let mut ends = [0; LISTS];
    let mut tables = vec![];
    if !sizes.len().is_multiple_of(shape + LISTS) {
        return None;
    }
    for record in sizes.chunks_exact(shape + LISTS) {
        let starts = ends;
        for (end, (n, (words, length))) in ends.iter_mut().zip(record[shape..].iter().zip(lists)) {
            *end += *n as usize * words;
            if length < *end {
                return None;
            }
        }
        tables.push(Own { shape: record[..shape].to_vec(), parts: std::array::from_fn(|i| starts[i]..ends[i]) });
    }
    (ends == lists.map(|(_, length)| length)).then_some(tables)
}

/// The tables of bus widths, of which there are lookups, names and tuples.
pub fn bus_tables(all: &Table, sizes: &[u32]) -> Option<Vec<Table>> {
    let own = split(sizes, 0, [(LOOKUP_WORDS, all.lookups.len()), (1, all.names.len()), (1, all.tuples.len())])?;
    let table = |Own { parts: [lookups, names, tuples], .. }| Table {
        field: all.field,
        profile: all.profile,
        lookups: all.lookups[lookups].to_vec(),
        names: all.names[names].to_vec(),
        tuples: all.tuples[tuples].to_vec(),
        ..Table::default()
    };
    Some(own.into_iter().map(table).collect())
}

/// The tables of the height bound, of which there are lookups.
pub fn weighed_tables(Chosen { field, profile, .. }: Chosen, lookups: &[u32], counts: &[u32]) -> Option<Vec<Table>> {
    let own = split(counts, 0, [(LOOKUP_WORDS, lookups.len())])?;
    let table = |Own { parts: [part], .. }| Table { field, profile, lookups: lookups[part].to_vec(), ..Table::default() };
    Some(own.into_iter().map(table).collect())
}

/// The tables of balance.
pub fn whole_tables(all: &Table, sizes: &[u32]) -> Option<Vec<Table>> {
    let [lookups, names, tuples, multiplicities, flags, elements] = all.lengths();
    let lists = [
        (1, all.main.len()),
        (1, all.preprocessed.len()),
        (1, all.public_values.len()),
        (NODE_WORDS, all.nodes.len()),
        (LOOKUP_WORDS, lookups),
        (1, names),
        (1, tuples),
        (1, multiplicities),
        (1, flags),
        (1, elements),
    ];
    const LISTS: usize = SIZES - 4;
    let table = |Own { shape, parts }: Own<LISTS>| {
        let [main, preprocessed, public_values, nodes, lookups, names, tuples, multiplicities, flags, elements] = parts;
        Table {
            field: all.field,
            profile: all.profile,
            rule: all.rule,
            main_width: shape[0].into(),
            height: shape[1].into(),
            pre_width: shape[2].into(),
            pre_height: shape[3].into(),
            main: all.main[main].to_vec(),
            preprocessed: all.preprocessed[preprocessed].to_vec(),
            public_values: all.public_values[public_values].to_vec(),
            nodes: all.nodes[nodes].to_vec(),
            lookups: all.lookups[lookups].to_vec(),
            names: all.names[names].to_vec(),
            tuples: all.tuples[tuples].to_vec(),
            multiplicities: all.multiplicities[multiplicities].to_vec(),
            flags: all.flags[flags].to_vec(),
            elements: all.elements[elements].to_vec(),
        }
    };
    Some(split(sizes, 4, lists)?.into_iter().map(table).collect())
}

/// A group's lookups as (table, lookup): each local alone, then each bus over all tables by first appearance.
pub fn groups(tables: &[Table]) -> Vec<Vec<(usize, usize)>> {
    let records: Vec<Vec<Lookup>> = tables.iter().map(Table::records).collect();
    let places = || (0..tables.len()).flat_map(|t| (0..records[t].len()).map(move |i| (t, i)));
    let locals = places().filter(|(t, i)| records[*t][*i].bus.is_none()).map(|place| vec![place]);
    let names = buses(records.iter().flatten().map(|r| &r.bus));
    let on_bus = names.iter().map(|name| places().filter(|(t, i)| records[*t][*i].bus.as_deref() == Some(name)).collect());
    locals.chain(on_bus).collect()
}

/// Whether a tuple comes before another by the decimal texts of its words.
fn before(a: &[u32], b: &[u32]) -> bool {
    let texts = |tuple: &[u32]| tuple.iter().map(u32::to_string).collect::<Vec<_>>();
    texts(a) < texts(b)
}

pub fn balance(tables: &[Table], workspace: &mut [u32]) -> Answer {
    let number = first_refused(&[
        (1, &|| tables.len() <= limits_of(tables).tables && tables.iter().all(sizes_fit)),
        (2, &|| tables.iter().all(|t| traces_below(t) && constants_below(t))),
        (3, &|| tables.iter().all(nodes_known)),
        (4, &|| tables.iter().all(degrees_low)),
        (5, &|| tables.iter().all(lookups_agree)),
        (9, &|| tables.iter().all(preprocessed_enough)),
    ]);
    if number != 0 {
        return refused(number);
    }
    let records: Vec<Vec<Lookup>> = tables.iter().map(Table::records).collect();
    workspace.fill(0);
    for (group, places) in groups(tables).into_iter().enumerate() {
        let mut nets: Vec<(Vec<u32>, u32)> = vec![];
        for (t, i) in places {
            for row in 0..tables[t].height as usize {
                let values = node_values(&tables[t], row);
                let field = tables[t].field;
                // The tuples are not combined: rule and challenges do not matter.
                let place = Place { field, rule: Rule::One, lookup: &records[t][i], values: &values, alpha: [0; 4], beta: [0; 4] };
                for k in place.branches() {
                    let flag = if place.lookup.exclusive { place.flag(k) } else { 1 };
                    let count = field.mul_word(place.multiplicity(k), flag);
                    let tuple = place.tuple(k);
                    if count == 0 {
                        continue;
                    }
                    match nets.iter_mut().find(|(seen, _)| *seen == tuple) {
                        Some((_, net)) => *net = field.add_word(*net, count),
                        None => nets.push((tuple, count)),
                    }
                }
            }
        }
        workspace.fill(0);
        if workspace.len() / SLOT_WORDS < nets.len() {
            return refused(16);
        }
        for (slot, (tuple, net)) in workspace.chunks_exact_mut(SLOT_WORDS).zip(&nets) {
            slot[0] = tuple.len() as u32;
            slot[1..=tuple.len()].copy_from_slice(tuple);
            slot[9] = *net;
        }
        let unbalanced = nets.iter().enumerate().filter(|(_, (_, net))| *net != 0);
        let first = unbalanced.reduce(|least, other| if before(&other.1.0, &least.1.0) { other } else { least });
        if let Some((slot, (_, net))) = first {
            return with_details(18, [group, slot, *net as usize]);
        }
    }
    ACCEPTED
}
