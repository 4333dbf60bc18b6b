//! Random tables in either field and profile by either rule with what each function needs besides, damaged copies of them, and a fixed list of
//! tables at the limits.
use std::fmt;

use crate::model::{self, Choices, Chosen, Limits, Profile, Rule};
use crate::plain::{self, Ext, Field, Random};
use crate::table::{Interaction, LOOKUP_WORDS, Lookup, NODE_WORDS, Part, Table, halves, line};

/// One input for each function. Those of one table take the first.
#[derive(Clone, Debug, PartialEq)]
pub struct Case {
    /// The numbers of the exported functions. They name the tables' field, profile and rule, or one of them is unknown.
    pub choices: Choices,
    /// All of one field, one profile and one rule.
    pub tables: Vec<Table>,
    pub challenges: Vec<u32>,
    /// The words of generation's trace buffer.
    pub buffer: usize,
    /// How many more columns the constraints' trace has than it needs.
    pub extra_columns: u64,
    /// What is added to words of the constraints' trace and terminal: place (modulo the length) and addend. One that is no word of the field
    /// takes the word's place.
    pub changes: Vec<(usize, u32)>,
    /// How many words the constraints' trace lacks.
    pub missing_words: usize,
    /// The constraints get a terminal where none belongs, and none where one does.
    pub terminal_misplaced: bool,
    /// Packing's degree limit.
    pub limit: u64,
    pub transition: u64,
    /// The words of balance's workspace.
    pub workspace: usize,
    pub heights: Vec<u64>,
    pub terminals: Vec<Option<Ext>>,
    pub prefix_width: u64,
    pub prefixes: u64,
    pub interactions: Vec<Interaction>,
    /// A count's number, and the count (node and weight) that is negated.
    pub count: i32,
    pub negated: [u32; 2],
    /// How many nodes the table of a count has.
    pub counted: u64,
    /// Lookups, height and row for the row reader.
    pub reader: [u64; 3],
    pub exponent: u32,
    /// Balance's.
    pub seed: u64,
    /// What is at odds in the lists that a function is lent beside the tables' own.
    pub edits: Vec<(List, Edit)>,
}

/// A list that a function is lent: one that is made of several tables, of words that stand for something else, or to be written to.
#[derive(Clone, Copy, Debug, PartialEq, Eq)]
pub enum List {
    /// The 14 sizes of each table, the 3 of bus widths, and the height bound's lookup counts and heights.
    Sizes,
    BusSizes,
    Counts,
    Heights,
    Terminals,
    Alpha,
    Beta,
    Prefixes,
    /// The operand and the output of powers and inverses.
    Element,
    ElementOut,
    /// The six outputs of packing.
    Packed(usize),
    Interactions,
    Weights,
    Built,
    /// The nodes that a count is added to.
    Nodes,
    /// A list of bytes, by its place among those of a function, and the two rooms.
    Bytes(usize),
    Read,
    Written,
}

#[derive(Clone, Copy, Debug, PartialEq, Eq)]
pub enum Edit {
    Push(u32),
    Pop,
    Set(usize, u32),
}

const BABYBEAR: u32 = Field::BabyBear.prime();
const KOALABEAR: u32 = Field::KoalaBear.prime();

/// Words at the primes. Those at the first are inside the second field.
pub const AT_PRIMES: [u32; 6] = [BABYBEAR - 1, BABYBEAR, BABYBEAR + 1, KOALABEAR - 1, KOALABEAR, KOALABEAR + 1];

/// How many lists of bytes a function has at most.
pub const BYTE_LISTS: usize = 12;

impl List {
    fn any(random: &mut Random) -> List {
        use List::*;
        let single = [Sizes, Sizes, BusSizes, Counts, Heights, Terminals, Alpha, Beta, Prefixes, Element, ElementOut];
        let more = [Interactions, Weights, Built, Nodes, Read, Written];
        match random.below(4) {
            0 => Packed(random.below(6) as usize),
            1 => Bytes(random.below(BYTE_LISTS as u64) as usize),
            _ => random.pick(&[&single[..], &more].concat()),
        }
    }
}

impl Edit {
    fn any(random: &mut Random) -> Edit {
        let at_prime = random.at_prime();
        let word = random.pick(&[0, 1, 2, 3, 5, 9, 16, 64, 65, 4096, 4097, at_prime, at_prime, u32::MAX]);
        match random.below(4) {
            0 => Edit::Push(word),
            1 => Edit::Pop,
            _ => Edit::Set(random.draw() as usize, word),
        }
    }
}

/// Words, and bytes as the least of a word's.
pub trait OfWord {
    fn of_word(word: u32) -> Self;
}

impl OfWord for u32 {
    fn of_word(word: u32) -> u32 {
        word
    }
}

impl OfWord for u8 {
    fn of_word(word: u32) -> u8 {
        word as u8
    }
}

impl Case {
    pub fn field(&self) -> Field {
        self.tables[0].field
    }

    pub fn chosen(&self) -> Chosen {
        self.tables[0].chosen()
    }

    /// The same case in the cabinet.
    pub fn in_cabinet(&self) -> Case {
        let mut case = self.clone();
        case.choices.profile = Profile::Cabinet.number();
        case.tables.iter_mut().for_each(|t| t.profile = Profile::Cabinet);
        case
    }

    /// The same case by rule 1 with each tuple reversed, of one by rule 2.
    pub fn by_rule_1(&self) -> Option<Case> {
        let by_rule_2 = self.choices.rule == Rule::Two.number();
        by_rule_2.then(|| {
            let mut case = self.clone();
            case.choices.rule = Rule::One.number();
            case.tables.iter_mut().for_each(|t| *t = Table { rule: Rule::One, ..t.reversed() });
            case
        })
    }

    /// A list with this case's edits of it.
    pub fn edited<W: OfWord>(&self, list: List, mut words: Vec<W>) -> Vec<W> {
        for (_, edit) in self.edits.iter().filter(|(edited, _)| *edited == list) {
            match edit {
                Edit::Push(word) => words.push(W::of_word(*word)),
                Edit::Pop => shorten(&mut words),
                Edit::Set(..) if words.is_empty() => (),
                Edit::Set(place, word) => {
                    let place = place % words.len();
                    words[place] = W::of_word(*word);
                }
            }
        }
        words
    }

    /// Challenge i, or some element where there is none.
    pub fn challenge(&self, i: usize) -> Ext {
        self.challenges.get(4 * i..4 * i + 4).map_or([1, 2, 3, 4], |words| words.try_into().unwrap())
    }
}

/// The tables and challenges in lines, then what else there is.
impl fmt::Display for Case {
    fn fmt(&self, f: &mut fmt::Formatter<'_>) -> fmt::Result {
        writeln!(f, "{:?}", self.choices)?;
        self.tables.iter().try_for_each(|t| t.fmt(f))?;
        f.write_str(&line("challenges", &self.challenges))?;
        f.write_str(&line("heights", &self.heights))?;
        writeln!(f, "buffer {}, workspace {}, limit {}, t {}", self.buffer, self.workspace, self.limit, self.transition)?;
        let Case { extra_columns, missing_words, terminal_misplaced, changes, .. } = self;
        writeln!(
            f,
            "constraints: {extra_columns} more columns, {missing_words} words less, changes {changes:?}, misplaced {terminal_misplaced}"
        )?;
        writeln!(f, "terminals {:?}", self.terminals)?;
        writeln!(f, "prefixes {} of width {}, exponent {}, seed {}", self.prefixes, self.prefix_width, self.exponent, self.seed)?;
        let Case { count, negated, counted, reader, .. } = self;
        writeln!(f, "count {count} or the negation of {negated:?} after {counted} nodes; reader {reader:?}; edits {:?}", self.edits)?;
        writeln!(f, "interactions {:?}", self.interactions)
    }
}

impl Random {
    fn one_in(&mut self, n: u64) -> bool {
        self.below(n) == 0
    }

    fn pick<T: Clone>(&mut self, list: &[T]) -> T {
        list[self.below(list.len() as u64) as usize].clone()
    }

    fn at_prime(&mut self) -> u32 {
        self.pick(&AT_PRIMES)
    }

    /// A word of the field at either prime.
    fn high(&mut self, field: Field) -> u32 {
        let word = self.at_prime();
        if word < field.prime() { word } else { field.prime() - 1 - self.below(2) as u32 }
    }

    /// Mostly small, so that tuples meet and denominators vanish.
    fn word(&mut self, field: Field) -> u32 {
        match self.below(12) {
            0..=7 => self.below(3) as u32,
            8 => self.high(field),
            9 => self.below(120) as u32,
            _ => self.below(field.prime().into()) as u32,
        }
    }

    fn challenge(&mut self, field: Field) -> Ext {
        match self.below(12) {
            0..=7 => self.element(field),
            8 => std::array::from_fn(|_| self.high(field)),
            9 | 10 => plain::lift(self.word(field)),
            _ => std::array::from_fn(|_| self.below(2) as u32),
        }
    }

    fn weight(&mut self) -> u32 {
        match self.below(8) {
            0..=4 => self.below(3) as u32,
            5 => u32::MAX - self.below(2) as u32,
            6 => self.at_prime(),
            _ => self.draw() as u32,
        }
    }

    fn name(&mut self) -> Vec<u8> {
        let names: [&[u8]; 7] = [b"mem", b"mem", b"mem", b"a", b"a\0", b"", b"\xff\xfe0123456789abcd"];
        self.pick(&names).to_vec()
    }
}

const MOST_IN_TREE: u64 = 60;
const MOST_DEGREE: u64 = 40;

/// A table in the making: how large each node is as a tree, and its degree, stand beside it.
struct Maker<'a> {
    random: &'a mut Random,
    table: Table,
    sizes: Vec<(u64, u64)>,
    /// Tuples of any width on any bus.
    loose: bool,
}

impl Maker<'_> {
    /// A node without operands. The second word is a row offset in kinds 1 and 3, mostly one that the crate has; other kinds do not use it.
    fn leaf(&mut self, kind: u32, a: u32) -> u32 {
        let degree = if matches!(kind, 0 | 5) { 0 } else { 1 };
        self.sizes.push((1, degree));
        let b = match kind {
            1 | 3 => self.random.pick(&[0, 1, 2, 0, 1, 3]),
            _ => self.random.pick(&[0, 1, 2, 0, 1, 4, 0, 1, u32::MAX, 0, 1, 2]),
        };
        self.table.add_node(kind, a, b)
    }

    fn constant(&mut self, word: u32) -> u32 {
        self.leaf(0, word)
    }

    /// A sum, difference, product or negation, unless it would be large.
    fn combine(&mut self) {
        let kind = 9 + self.random.below(4) as u32;
        let n = self.sizes.len() as u64;
        let (a, b) = (self.random.below(n) as u32, self.random.below(n) as u32);
        let ((size_a, degree_a), (size_b, degree_b)) = (self.sizes[a as usize], self.sizes[b as usize]);
        let degree = if kind == 11 { degree_a + degree_b } else { degree_a.max(degree_b) };
        if size_a + size_b < MOST_IN_TREE && degree <= MOST_DEGREE {
            self.sizes.push((1 + size_a + size_b, degree));
            self.table.add_node(kind, a, b);
        }
    }

    fn negation(&mut self, node: u32) -> u32 {
        let size = self.sizes[node as usize];
        self.sizes.push((size.0 + 1, size.1));
        self.table.add_node(12, node, 0)
    }

    fn any_node(&mut self) -> u32 {
        self.random.below(self.sizes.len() as u64) as u32
    }

    fn traces(&mut self) {
        let r = &mut *self.random;
        let height = match r.below(400) {
            0 => r.pick(&[1023, 1024, 1025, 2047, 2048, 2049, 3072]),
            1..=8 => 0,
            9..=60 => 1,
            _ => 2 + r.below(6),
        };
        let t = &mut self.table;
        t.height = height;
        t.main_width = 1 + r.below(3);
        t.pre_width = r.below(5).saturating_sub(2);
        t.pre_height = if t.pre_width == 0 { r.below(3) } else { height + r.below(6).saturating_sub(3) };
        t.main = (0..t.main_width * height).map(|_| r.word(t.field)).collect();
        t.preprocessed = (0..t.pre_width * t.pre_height).map(|_| r.word(t.field)).collect();
        t.public_values = (0..r.below(3)).map(|_| r.word(t.field)).collect();
    }

    /// Leaves of each kind, then some larger expressions.
    fn nodes(&mut self) {
        for column in 0..self.table.main_width as u32 {
            self.leaf(1, column);
            // Half of the columns once more, at an offset of its own or on the next row.
            match self.random.below(4) {
                0 => _ = self.leaf(1, column),
                2 => _ = self.leaf(2, column),
                _ => (),
            }
        }
        for column in 0..self.table.pre_width as u32 {
            self.leaf(3, column);
            self.leaf(4, column);
        }
        for value in 0..self.table.public_values.len() as u32 {
            self.leaf(5, value);
        }
        for kind in 6..9 {
            if self.random.one_in(2) {
                self.leaf(kind, 0);
            }
        }
        for _ in 0..self.random.below(7) {
            self.combine();
        }
    }

    /// Flags for an exclusive lookup: mostly columns of their own with at most one 1 on a row.
    fn flags(&mut self, branches: usize) -> Vec<u32> {
        match self.random.below(8) {
            0 => (0..branches).map(|_| self.any_node()).collect(),
            1 => (0..branches)
                .map(|k| {
                    let word = u32::from(k == 0);
                    self.constant(word)
                })
                .collect(),
            2 if branches <= 2 => (0..branches as u32).map(|k| self.leaf(6 + k, 0)).collect(),
            _ => {
                let first = self.selectors(branches);
                let flags: Vec<u32> = (first..first + branches as u32).map(|column| self.leaf(1, column)).collect();
                // All of one row: there at most one of them is 1.
                let offsets: Vec<usize> = flags.iter().map(|flag| NODE_WORDS * *flag as usize + 2).collect();
                offsets.iter().for_each(|place| self.table.nodes[*place] = self.table.nodes[offsets[0]]);
                flags
            }
        }
    }

    /// New columns of the main trace, of which at most one is 1 on a row, a fault now and then aside.
    fn selectors(&mut self, branches: usize) -> u32 {
        let first = self.table.main_width as u32;
        self.table.main_width += branches as u64;
        let faulty = self.random.one_in(12);
        for row in 0..self.table.height {
            let chosen = self.random.below(branches as u64 + 1) as usize;
            let row_end = (row as usize + 1) * self.table.main_width as usize - branches;
            for k in 0..branches {
                let fault = faulty && self.random.one_in(8);
                let flag = if fault { self.random.below(3) as u32 } else { u32::from(k == chosen) };
                self.table.main.insert(row_end + k, flag);
            }
        }
        first
    }

    fn multiplicity(&mut self) -> u32 {
        match self.random.below(10) {
            0..=3 => self.constant(1),
            4 => self.constant(self.table.field.prime() - 1),
            5 => self.constant(0),
            6 => {
                let word = self.random.word(self.table.field);
                self.constant(word)
            }
            _ => self.any_node(),
        }
    }

    fn lookup(&mut self) -> Lookup {
        let bus = (!self.random.one_in(4)).then(|| self.random.name());
        // Mostly one width for each bus.
        let usual = bus.as_ref().map_or(1, Vec::len).min(self.table.profile.limits().tuple_words as usize) as u64;
        let width = if self.loose || self.random.one_in(12) { self.random.below(5) } else { usual };
        let exclusive = self.random.one_in(3);
        let branches = self.random.pick(&[0, 1, 1, 1, 1, 2, 2, 3]);
        let odd_one = self.random.one_in(40);
        let mut lookup = Lookup { bus, weight: self.random.weight().into(), exclusive, ..Lookup::default() };
        if exclusive {
            lookup.flags = self.flags(branches);
        }
        for _ in 0..branches {
            let width = if odd_one { self.random.below(4) } else { width };
            lookup.tuples.push((0..width).map(|_| self.any_node()).collect());
            let multiplicity = self.multiplicity();
            lookup.multiplicities.push(multiplicity);
        }
        lookup
    }

    /// The same entries with the opposite sign.
    fn opposite(&mut self, lookup: &Lookup) -> Lookup {
        let multiplicities = lookup.multiplicities.iter().map(|m| self.negation(*m)).collect();
        Lookup { multiplicities, weight: self.random.weight().into(), ..lookup.clone() }
    }

    /// Lookups, most of them with an opposite, so that balance passes often.
    fn lookups(&mut self) -> Vec<Lookup> {
        let mut lookups = vec![];
        let many = self.random.below(60);
        let count = if self.random.one_in(200) { many } else { self.random.pick(&[0, 1, 1, 1, 2, 2, 3, 4]) };
        for _ in 0..count {
            let lookup = self.lookup();
            let opposite = self.random.below(3);
            if opposite != 0 {
                let opposite = self.opposite(&lookup);
                if lookup.bus.is_some() {
                    lookups.push(opposite);
                    lookups.push(lookup);
                } else {
                    // A local balances alone.
                    lookups.push(Lookup {
                        tuples: [lookup.tuples, opposite.tuples].concat(),
                        multiplicities: [lookup.multiplicities, opposite.multiplicities].concat(),
                        flags: [lookup.flags, opposite.flags].concat(),
                        ..opposite
                    });
                }
            } else {
                lookups.push(lookup);
            }
        }
        // In any order.
        for i in (1..lookups.len()).rev() {
            let j = self.random.below(i as u64 + 1) as usize;
            lookups.swap(i, j);
        }
        lookups
    }
}

fn number_columns(lookups: &mut [Lookup]) {
    for (i, lookup) in lookups.iter_mut().enumerate() {
        lookup.column = i as u32;
    }
}

/// Brings one size of a table to the limit of its profile, or one over it.
fn to_limit(random: &mut Random, t: &mut Table) {
    let (limits, over) = (t.profile.limits(), random.below(2));
    let mut records = t.records();
    match random.below(8) {
        0..=2 => records = records.iter().cycle().take(limits.lookups + over as usize).cloned().collect(),
        3..=5 => {
            let words = limits.tuple_words as usize + over as usize;
            records.iter_mut().flat_map(|r| &mut r.tuples).for_each(|tuple| tuple.resize(words, 0));
        }
        rows => {
            // The preprocessed trace alone, or both.
            t.pre_height = limits.height + over;
            t.height = if rows == 6 { t.height } else { t.pre_height };
            t.main.resize((t.main_width * t.height) as usize, 0);
            t.preprocessed.resize((t.pre_width * t.pre_height) as usize, 0);
        }
    }
    number_columns(&mut records);
    t.set_records(&records);
}

/// A table that none of refusals 1 to 5 meets, unless it has more than the limits of something.
pub fn table(random: &mut Random, Chosen { field, profile, rule }: Chosen) -> Table {
    let loose = random.one_in(15);
    let mut maker = Maker { random, table: Table { field, profile, rule, ..Table::default() }, sizes: vec![], loose };
    maker.traces();
    maker.nodes();
    let mut lookups = maker.lookups();
    number_columns(&mut lookups);
    let mut table = maker.table;
    table.set_records(&lookups);
    // The cabinet's limits are left to the list below: tables of that size take long.
    if profile == Profile::Gateway && maker.random.one_in(16) {
        to_limit(maker.random, &mut table);
    }
    // A mark word other than 0 counts as 1.
    for entry in table.lookups.chunks_exact_mut(LOOKUP_WORDS) {
        for mark in [0, 4] {
            if entry[mark] == 1 && maker.random.one_in(20) {
                entry[mark] = maker.random.draw() as u32 | 2;
            }
        }
    }
    table
}

/// A table whose bus entries are the opposites of another's.
fn mirror(random: &mut Random, table: &Table) -> Table {
    let mut mirror = table.clone();
    let mut lookups = mirror.records();
    lookups.retain(|lookup| lookup.bus.is_some());
    for lookup in &mut lookups {
        lookup.weight = random.weight().into();
        for multiplicity in &mut lookup.multiplicities {
            *multiplicity = mirror.add_node(12, *multiplicity, 0);
        }
    }
    number_columns(&mut lookups);
    mirror.set_records(&lookups);
    mirror
}

fn interactions(random: &mut Random, t: &Table) -> Vec<Interaction> {
    let nodes = t.node_count();
    if nodes == 0 {
        return vec![];
    }
    // Of the gateway's now and then one more than it takes.
    let (most, widest) = match t.profile {
        Profile::Cabinet => (5, 2),
        Profile::Gateway => (model::GATEWAY.lookups as u64 + 1, u64::from(model::GATEWAY.tuple_words) + 1),
    };
    let odd_one = random.one_in(10);
    let part = |random: &mut Random| {
        let node = |random: &mut Random| random.below(nodes as u64) as u32;
        let width = if odd_one { random.below(widest + 1) } else { 2 };
        Part { elements: (0..width).map(|_| node(random)).collect(), multiplicity: node(random), weight: random.weight() }
    };
    let interaction = |random: &mut Random| match random.below(3) {
        0 => Interaction::Local((0..random.below(4)).map(|_| part(random)).collect()),
        1 => Interaction::Global(random.name(), part(random)),
        _ => {
            let flag = |random: &mut Random| random.below(nodes as u64) as u32;
            Interaction::Exclusive(random.name(), (0..random.below(4)).map(|_| (flag(random), part(random))).collect())
        }
    };
    (0..random.below(most + 1)).map(|_| interaction(random)).collect()
}

fn terminals(random: &mut Random, field: Field) -> Vec<Option<Ext>> {
    let mut terminals: Vec<Option<Ext>> = (0..random.below(4)).map(|_| (!random.one_in(3)).then(|| random.challenge(field))).collect();
    if random.one_in(2) {
        let sum = terminals.iter().flatten().fold([0; 4], |sum, t| field.add(sum, *t));
        terminals.push(Some(field.sub([0; 4], sum)));
    }
    terminals
}

/// The words that a table's trace has.
fn used(t: &Table) -> usize {
    if t.lookup_count() == 0 { 0 } else { t.height as usize * (t.lookup_count() + 1) * 4 }
}

/// Makes an alpha the combined value of one of its lookup's tuples on some row, so that a denominator is zero.
fn meet_tuple(random: &mut Random, t: &Table, challenges: &mut [u32]) {
    let lookup = random.below(t.lookup_count() as u64) as usize;
    let tuples = &t.records()[lookup].tuples;
    if !tuples.is_empty() {
        let values = model::node_values(t, random.below(t.height) as usize);
        let tuple: Vec<u32> = random.pick(tuples).iter().map(|n| values[*n as usize]).collect();
        let pair = &mut challenges[8 * lookup..8 * lookup + 8];
        let alpha = model::combined(t.field, t.rule, &tuple, pair[4..].try_into().unwrap());
        pair[..4].copy_from_slice(&alpha);
    }
}

/// Mostly a row of the table's trace; now and then past its end, or of another width.
fn reader(random: &mut Random, t: &Table) -> [u64; 3] {
    let extremes = [0, 1, t.height, t.height.wrapping_sub(1), 1 << 32, 1 << 61, 1 << 62, 1 << 63, u64::MAX - 1, u64::MAX];
    let mut reader = [t.lookup_count() as u64, t.height, random.below(t.height + 2)];
    if random.one_in(4) {
        reader[random.below(3) as usize] = random.pick(&extremes);
    }
    reader
}

/// An output that is longer than what is written to it.
fn longer(random: &mut Random) -> (List, Edit) {
    let packed = List::Packed(random.below(6) as usize);
    (random.pick(&[packed, packed, List::Built, List::Prefixes, List::Nodes]), Edit::Push(random.draw() as u32))
}

/// The choices of a call in this field and profile, by this rule; now and then one of them is unknown, or all.
fn choices(random: &mut Random, chosen: Chosen) -> Choices {
    let mut choices = Choices::of(chosen);
    if random.one_in(16) {
        let (unknown, rule) = (random.pick(&[0, 3, 257, 1 << 31, u32::MAX]), random.pick(&[0, 3, 257, 258, u32::MAX]));
        match random.below(4) {
            0 => choices.field = unknown,
            1 => choices.profile = unknown,
            2 => choices.rule = rule,
            _ => choices = Choices { field: unknown, profile: unknown, rule },
        }
    }
    choices
}

/// The tables with inputs for each function that none of refusals 1 to 12 meets, unknown choices aside.
fn case_of(random: &mut Random, tables: Vec<Table>) -> Case {
    let (chosen, n) = (tables[0].chosen(), tables[0].lookup_count());
    let Chosen { field, profile, .. } = chosen;
    let shared = random.one_in(2).then(|| [random.challenge(field), random.challenge(field)].concat());
    let pair = |random: &mut Random| shared.clone().unwrap_or_else(|| [random.challenge(field), random.challenge(field)].concat());
    let mut challenges: Vec<u32> = (0..n).flat_map(|_| pair(random)).collect();
    if 0 < n && 0 < tables[0].height && random.one_in(10) {
        meet_tuple(random, &tables[0], &mut challenges);
    }
    let workspace = if random.one_in(6) { random.below(60) } else { 640 + random.below(12) };
    // Numbers of its own, so that the tables that are drawn do not depend on these.
    let apart = &mut Random(random.0 ^ 0x9E3779B97F4A7C15 | 1);
    Case {
        choices: choices(apart, chosen),
        buffer: used(&tables[0]) + random.below(8).saturating_sub(5) as usize,
        challenges,
        extra_columns: random.below(8).saturating_sub(5),
        changes: (0..random.below(6).saturating_sub(3))
            .map(|_| (random.draw() as usize, 1 + random.word(field) % (field.prime() - 1)))
            .collect(),
        missing_words: 0,
        terminal_misplaced: false,
        limit: random.below(9),
        transition: random.below(2),
        workspace: if tables[0].height > 100 { 100_000 } else { workspace as usize },
        heights: tables.iter().map(|t| if random.one_in(3) { random.below(profile.limits().height) } else { t.height }).collect(),
        terminals: terminals(random, field),
        prefix_width: 1 + random.below(9),
        prefixes: random.below(6),
        interactions: interactions(random, &tables[0]),
        count: match random.below(6) {
            0 => i32::MIN,
            1 => i32::MAX,
            2 => -(random.below(4) as i32),
            3 => random.at_prime() as i32 * random.pick(&[1, -1]),
            _ => random.draw() as i32,
        },
        negated: [apart.below(tables[0].node_count() as u64 + 1) as u32, apart.weight()],
        counted: tables[0].node_count() as u64,
        reader: reader(apart, &tables[0]),
        exponent: if apart.one_in(8) { apart.below(1 << 32) as u32 } else { apart.below(40) as u32 },
        seed: apart.pick(&[0, 1, (1 << 31) - 1, u64::MAX, apart.0, apart.0, apart.0]),
        edits: if apart.one_in(2) { vec![longer(apart)] } else { vec![] },
        tables,
    }
}

/// The most that a lookup of these words may weigh.
fn weight_limit(entry: &[u32]) -> u64 {
    model::weight_limit(entry[0] != 0, entry[5])
}

fn set_weight(entry: &mut [u32], weight: u64) {
    [entry[2], entry[8]] = halves(weight);
}

/// Makes a third of the locals heavy: at their limits, near 2^32, or between.
fn weigh_locals(random: &mut Random, t: &mut Table) {
    for entry in t.lookups.chunks_exact_mut(LOOKUP_WORDS).filter(|entry| entry[0] == 0) {
        if random.one_in(3) {
            let limit = weight_limit(entry);
            let (near, any) = (u64::from(u32::MAX) + random.below(3), 1 + random.below(limit));
            set_weight(entry, random.pick(&[limit, limit - 1, near, any]).min(limit));
        }
    }
}

/// A case in either field by either rule, a third of them in the gateway.
pub fn case(random: &mut Random) -> Case {
    let profile = if random.one_in(3) { Profile::Gateway } else { Profile::Cabinet };
    let field = random.pick(&Field::ALL);
    // Numbers of its own, so that the tables that are drawn do not depend on it.
    let rule = Random(random.0 ^ 0xD1342543DE82EF95 | 1).pick(&Rule::ALL);
    let mut case = case_in(random, Chosen { field, profile, rule });
    case.tables.iter_mut().for_each(|t| weigh_locals(random, t));
    case
}

pub fn case_in(random: &mut Random, chosen: impl Into<Chosen>) -> Case {
    let chosen = chosen.into();
    let mut tables = vec![table(random, chosen)];
    for _ in 0..random.pick(&[0, 0, 1, 1, 2]) {
        let last = tables.last().unwrap().clone();
        let next = if random.one_in(3) { table(random, chosen) } else { mirror(random, &last) };
        tables.push(next);
    }
    case_of(random, tables)
}

/// Takes the last of a list, if there is one.
pub fn shorten<T>(list: &mut Vec<T>) {
    list.truncate(list.len().saturating_sub(1));
}

/// Breaks something: a word, a length, a size, or one of the functions' own inputs.
pub fn damage(random: &mut Random, case: &mut Case) {
    for _ in 0..1 + random.below(2) {
        match random.below(24) {
            0..=8 => {
                let table = random.below(case.tables.len() as u64) as usize;
                damage_table(random, &mut case.tables[table]);
            }
            9 => damage_list(random, &mut case.challenges),
            10 => {
                case.buffer = case.buffer.saturating_sub(1 + random.below(2) as usize);
                case.terminal_misplaced = random.one_in(2);
            }
            11 => {
                case.prefix_width = random.pick(&[0, 255, 256, u64::MAX]);
                case.prefixes = random.pick(&[0, 256, 257, u64::MAX]);
                case.transition = random.pick(&[0, 1, 2, u64::MAX]);
                case.limit = random.pick(&[0, 1, u64::MAX]);
            }
            12 => case.workspace = random.below(40) as usize,
            16..=20 => case.edits.push((List::any(random), Edit::any(random))),
            21 => case.counted = random.pick(&[0, 1, case.counted.saturating_sub(1), case.counted + 1, 1023, 1024, u64::MAX]),
            22 => case.negated[0] = random.pick(&[0, case.counted as u32, 1023, 1024, u32::MAX]),
            13 => {
                // Whole challenges more or fewer.
                let words = (case.challenges.len() + 12).saturating_sub(4 * random.below(6) as usize);
                case.challenges.resize(words, 1);
            }
            14 => match random.below(3) {
                0 => case.missing_words = 1 + random.below(4) as usize,
                1 => case.terminals.push(Some([1, 2, random.at_prime(), 4])),
                _ => case.terminals.resize(16 + random.below(2) as usize, None),
            },
            _ => {
                let height = random.pick(&[0, 1, 4096, 4097, 1 << 20, (1 << 20) + 1, u64::MAX]);
                match random.below(3) {
                    0 => case.heights.push(height),
                    1 => shorten(&mut case.heights),
                    _ => case.heights.fill(height),
                }
                case.changes.push((random.draw() as usize, random.at_prime()));
            }
        }
    }
}

fn damage_table(random: &mut Random, t: &mut Table) {
    match random.below(24) {
        0 => damage_list(random, &mut t.main),
        1 => damage_list(random, &mut t.preprocessed),
        2 => damage_list(random, &mut t.public_values),
        3..=6 => damage_list(random, &mut t.nodes),
        7..=10 => damage_list(random, &mut t.lookups),
        11 => damage_list(random, &mut t.tuples),
        12 => damage_list(random, &mut t.multiplicities),
        13 => damage_list(random, &mut t.flags),
        14 => damage_list(random, &mut t.elements),
        15 => t.names.push(random.draw() as u8),
        16 => shorten(&mut t.names),
        // Rows go or come with their words, unless they were made too wide before.
        17 if t.fits() && t.pre_width <= model::CABINET.pre_columns => {
            t.pre_height = t.pre_height.saturating_sub(random.below(3)).saturating_add(random.below(2));
            t.preprocessed.resize((t.pre_width * t.pre_height) as usize, 1);
        }
        18 if t.fits() && t.main_width <= model::CABINET.main_columns => {
            t.height = t.height.saturating_sub(random.below(2)) + random.below(2);
            t.main.resize((t.main_width * t.height) as usize, 1);
        }
        19 | 20 => look_too_far(random, t),
        21 | 22 => weigh_too_much(random, t),
        _ => {
            let size = random.pick(&[0, 1, 64, 65, 256, 257, 4096, 4097, 1 << 20, (1 << 20) + 1, 1 << 32, 1 << 63, u64::MAX]);
            let place = random.below(4);
            *[&mut t.main_width, &mut t.height, &mut t.pre_width, &mut t.pre_height][place as usize] = size;
        }
    }
}

/// Gives a node a larger offset than there is: one of the table's own, or a new one, which nothing names. Now and then its column is absent too.
fn look_too_far(random: &mut Random, t: &mut Table) {
    let own: Vec<usize> = (0..t.node_count()).filter(|i| matches!(t.node(*i)[0], 1 | 3)).collect();
    let node = if own.is_empty() || random.one_in(3) { t.add_node(1, 0, 0) as usize } else { random.pick(&own) };
    t.nodes[NODE_WORDS * node + 2] = random.pick(&[4, 4, 5, 256, 1 << 31, u32::MAX, u32::MAX]);
    if random.one_in(4) {
        t.nodes[NODE_WORDS * node + 1] = random.pick(&[t.main_width as u32, u32::MAX]);
    }
}

/// Makes a lookup one heavier than it may be, or as heavy; now and then as if it had a tuple more.
fn weigh_too_much(random: &mut Random, t: &mut Table) {
    let place = random.below(t.lookup_count().max(1) as u64) as usize;
    if let Some(entry) = t.lookups.chunks_exact_mut(LOOKUP_WORDS).nth(place) {
        let limit = weight_limit(entry);
        set_weight(entry, random.pick(&[limit, limit + 1, limit + 1, limit + u64::from(u32::MAX), u64::MAX]));
    }
}

fn damage_list(random: &mut Random, list: &mut Vec<u32>) {
    let (special, at_prime) = (random.below(20) as u32, random.at_prime());
    let word = random.pick(&[0, 1, 2, 3, 13, at_prime, at_prime, at_prime, u32::MAX, special]);
    match random.below(8) {
        0 => list.push(word),
        1 => shorten(list),
        _ if list.is_empty() => (),
        _ => {
            let place = random.below(list.len() as u64) as usize;
            list[place] = word;
        }
    }
}

/// One lookup ("mem", one tuple of one column, multiplicity 1) over a main column.
fn plain_table(Chosen { field, profile, rule }: Chosen, height: u64) -> Table {
    let mut t = Table { field, profile, rule, main_width: 1, height, ..Table::default() };
    t.main = (0..height as u32).map(|row| row % 5).collect();
    t.nodes = vec![1, 0, 0, 0, 1, 0, 12, 1, 0];
    t.set_records(&[on_bus(0, vec![0], 1)]);
    t
}

fn on_bus(column: u32, tuple: Vec<u32>, multiplicity: u32) -> Lookup {
    Lookup { bus: Some(b"mem".to_vec()), weight: 1, column, tuples: vec![tuple], multiplicities: vec![multiplicity], ..Lookup::default() }
}

/// A local of so many tuples of one column, each with multiplicity 1.
fn local(column: u32, tuples: usize, weight: u64) -> Lookup {
    Lookup { weight, column, tuples: vec![vec![0]; tuples], multiplicities: vec![1; tuples], ..Lookup::default() }
}

/// A local that weighs as much as it may, and so much more.
fn heavy_local(column: u32, tuples: usize, more: usize) -> Lookup {
    local(column, tuples, model::weight_limit(false, tuples as u32) + more as u64)
}

/// As many locals as the limits allow, each as heavy as it may be, the last by so much more: no lookups weigh more together. The first has all
/// tuples.
fn heaviest_table(chosen: Chosen, more: usize) -> Table {
    let limits = chosen.profile.limits();
    let last = limits.lookups as u32 - 1;
    let others = (1..=last).map(|column| heavy_local(column, 0, if column == last { more } else { 0 }));
    let mut t = plain_table(chosen, 2);
    t.set_records(&std::iter::once(heavy_local(0, limits.tuples, 0)).chain(others).collect::<Vec<Lookup>>());
    t
}

/// Interactions at building's limits, or one over, for a table of three nodes.
fn to_build(limits: &Limits, over: usize) -> Vec<(String, Vec<Interaction>)> {
    let part = |width: usize, weight: u32| Part { elements: vec![0; width], multiplicity: 1, weight };
    let global = |bytes: usize, part: Part| Interaction::Global(vec![b'x'; bytes], part);
    let (lookups, tuples) = (limits.lookups + over, limits.tuples + over);
    let (words, bytes) = (limits.tuple_words as usize + over, limits.name_bytes as usize + over);
    let (weight, node) = (u32::MAX - 1 + over as u32, 2 + over as u32);
    vec![
        (format!("{lookups} globals to build"), vec![global(0, part(1, 1)); lookups]),
        (format!("a local of {tuples} tuples to build"), vec![Interaction::Local(vec![part(1, u32::MAX); tuples])]),
        (format!("{words} words a tuple to build"), vec![global(1, part(words, 1))]),
        (format!("{bytes} bytes a name to build"), vec![global(bytes, part(1, 1))]),
        (format!("weights {weight} and 1 in a local to build"), vec![Interaction::Local(vec![part(1, weight), part(1, 1)])]),
        (
            format!("weights {} and {} in a local to build, then the same in an exclusive", u32::MAX, 1 + over),
            vec![
                Interaction::Local(vec![]),
                Interaction::Local(vec![part(1, u32::MAX), part(1, 1 + over as u32)]),
                Interaction::Exclusive(vec![], vec![(0, part(1, u32::MAX)), (1, part(1, 1 + over as u32))]),
            ],
        ),
        (format!("widths 2 and {} in a local to build", 2 + over), vec![Interaction::Local(vec![part(2, 1), part(2 + over, 1)])]),
        (format!("node {node} to build"), vec![Interaction::Exclusive(vec![], vec![(node, part(1, 1))])]),
    ]
}

/// Tables that meet one limit of a table each, or pass it by one.
fn tables_at_limits(chosen: Chosen, over: usize) -> Vec<(String, Table)> {
    let limits = chosen.profile.limits();
    let mut tables = vec![];
    let mut add = |name: String, change: &dyn Fn(&mut Table)| {
        let mut t = plain_table(chosen, 3);
        change(&mut t);
        tables.push((name, t));
    };
    let n = limits.lookups + over;
    add(format!("{n} lookups"), &|t| t.set_records(&(0..n as u32).map(|i| on_bus(i, vec![0], 1 + i % 2)).collect::<Vec<_>>()));
    let n = limits.tuples + over;
    let many = Lookup { tuples: vec![vec![0]; n], multiplicities: vec![1; n], ..on_bus(0, vec![], 1) };
    add(format!("{n} tuples"), &|t| t.set_records(std::slice::from_ref(&many)));
    let n = limits.tuple_words as usize + over;
    add(format!("{n} words a tuple"), &|t| t.set_records(&[on_bus(0, vec![0; n], 1)]));
    let n = limits.nodes + over;
    add(format!("{n} nodes"), &|t| {
        while t.node_count() < n {
            let last = t.node_count() as u32 - 1;
            t.add_node(9, last, 0);
        }
        t.set_records(&[on_bus(0, vec![t.node_count() as u32 - 1], 1)]);
    });
    let n = limits.main_columns + over as u64;
    add(format!("{n} main columns"), &|t| {
        t.main_width = n;
        t.main = (0..3 * n as u32).collect();
        t.nodes[1] = n as u32 - 1;
    });
    let n = limits.pre_columns + over as u64;
    add(format!("{n} preprocessed columns"), &|t| {
        (t.pre_width, t.pre_height) = (n, 3);
        t.preprocessed = (0..3 * n as u32).collect();
        t.nodes[0] = 4;
        t.nodes[1] = n as u32 - 1;
    });
    let n = limits.public_values + over;
    add(format!("{n} public values"), &|t| {
        t.public_values = vec![2; n];
        t.nodes[0] = 5;
        t.nodes[1] = n as u32 - 1;
    });
    let n = limits.height + over as u64;
    add(format!("height {n}"), &|t| *t = plain_table(chosen, n));
    add(format!("preprocessed height {n}"), &|t| (t.pre_width, t.pre_height, t.preprocessed) = (1, n, vec![1; n as usize]));
    add(format!("preprocessed height {n} without columns"), &|t| t.pre_height = n);
    for tuples in [0, 1, 2, limits.tuples] {
        let heavy = heavy_local(0, tuples, over);
        add(format!("a local of {tuples} tuples that weighs {}", heavy.weight), &|t| t.set_records(std::slice::from_ref(&heavy)));
    }
    let exclusive = Lookup { exclusive: true, flags: vec![1, 2], ..heavy_local(0, 2, over) };
    add(format!("an exclusive local of 2 tuples that weighs {}", exclusive.weight), &|t| t.set_records(std::slice::from_ref(&exclusive)));
    // Each is as heavy as it may be; one of them is heavier.
    for heavier in 0..=2 * over {
        let more = |place: usize| if place == heavier { over } else { 0 };
        let locals = [1, 3, 0].into_iter().enumerate().map(|(i, tuples)| heavy_local(i as u32, tuples, more(i)));
        add(format!("locals of 1, 3 and 0 tuples, {over} more in {heavier}"), &|t| t.set_records(&locals.clone().collect::<Vec<_>>()));
    }
    let weight = u64::from(u32::MAX) + over as u64;
    let pair = Lookup { tuples: vec![vec![0]; 2], multiplicities: vec![1; 2], ..on_bus(0, vec![], 1) };
    add(format!("weight {weight} on a bus"), &|t| t.set_records(&[Lookup { weight, ..on_bus(0, vec![0], 1) }]));
    add(format!("weight {weight} of 2 tuples on a bus"), &|t| t.set_records(&[Lookup { weight, ..pair.clone() }]));
    let n = limits.name_bytes as usize + over;
    add(format!("{n} bytes a name"), &|t| t.set_records(&[Lookup { bus: Some(vec![b'x'; n]), ..on_bus(0, vec![0], 1) }]));
    add(format!("degree {}", 255 + over), &|t| {
        // Degrees 2, 4, .., 128 from node 3 on; their product with the column has degree 255.
        for last in [0, 3, 4, 5, 6, 7, 8] {
            t.add_node(11, last, last);
        }
        for (a, b) in [(9, 8), (10, 7), (11, 6), (12, 5), (13, 4), (14, 3), (15, 0)] {
            t.add_node(11, a, b);
        }
        let last = t.node_count() as u32 - 1;
        t.add_node(if over == 1 { 11 } else { 9 }, last, 0);
        t.set_records(&[on_bus(0, vec![last + 1], 1)]);
    });
    tables
}

/// Adds a case of these tables, with a change.
type Add<'a> = dyn FnMut(String, Vec<Table>, &dyn Fn(&mut Case)) + 'a;

/// The limits of docs/SPECIFICATION.md in each field and profile, each met and passed by one, weights and row offsets likewise, words at the primes,
/// unknown choices, and tuples and rows ahead by both rules, with a name. By rule 2 there is only what generation and constraints read.
pub fn boundaries() -> Vec<(String, Case)> {
    let chosen = |rule| Profile::ALL.into_iter().flat_map(move |profile| Field::ALL.map(|field| Chosen { field, profile, rule }));
    let by_rule_1 = chosen(Rule::One).flat_map(|chosen| named(chosen, at_limits));
    let by_rule_2 = chosen(Rule::Two).flat_map(|chosen| named(chosen, at_limits_of_rows));
    let both = |chosen| [named(chosen, tuples), named(chosen, met_tuples), named(chosen, rows_ahead)].concat();
    let by_both = Rule::ALL.into_iter().flat_map(chosen).flat_map(both);
    by_both.chain(by_rule_2).chain(by_rule_1).collect()
}

/// The cases that are added for these choices.
fn named(chosen: Chosen, added: fn(&mut Add, Chosen)) -> Vec<(String, Case)> {
    let choices = Choices::of(chosen);
    let mut random = Random(7);
    let mut cases = vec![];
    let mut add = |name: String, tables: Vec<Table>, change: &dyn Fn(&mut Case)| {
        let mut case = case_of(&mut random, tables);
        case.choices = choices;
        case.workspace = 640;
        case.challenges = (0..2 * case.tables[0].lookup_count()).flat_map(|_| random.element(chosen.field)).collect();
        case.heights = case.tables.iter().map(|t| t.height).collect();
        change(&mut case);
        let Choices { field, profile, rule } = choices;
        cases.push((format!("{name}, field {field}, profile {profile}, rule {rule}"), case));
    };
    added(&mut add, chosen);
    cases
}

/// A record of another length, and weights that fill both words.
fn records_at_odds(add: &mut Add, chosen: Chosen) {
    let mut add = |name: String, change: &dyn Fn(&mut Table)| {
        let mut t = plain_table(chosen, 3);
        change(&mut t);
        add(name, vec![t], &|_| ());
    };
    for words in [LOOKUP_WORDS - 1, LOOKUP_WORDS + 1] {
        add(format!("a lookup of {words} words"), &|t| t.lookups.resize(words, 0));
    }
    let tuples = chosen.profile.limits().tuples;
    for weight in [u64::from(u32::MAX) << 32, u64::MAX] {
        add(format!("a local of {tuples} tuples that weighs {weight}"), &|t| t.set_records(&[local(0, tuples, weight)]));
        add(format!("weight {weight} on a bus"), &|t| t.set_records(&[Lookup { weight, ..on_bus(0, vec![0], 1) }]));
    }
}

/// What all functions read.
fn at_limits(add: &mut Add, chosen: Chosen) {
    let limits = chosen.profile.limits();
    let same = |_: &mut Case| ();
    for over in 0..2 {
        let table = |change: &dyn Fn(&mut Table)| {
            let mut t = plain_table(chosen, 3);
            change(&mut t);
            vec![t]
        };
        let n = limits.tables + over;
        add(format!("{n} tables"), vec![plain_table(chosen, 2); n], &same);
        add(format!("{n} terminals"), table(&|_| ()), &|c| c.terminals = vec![None; n]);
        for (name, t) in tables_at_limits(chosen, over) {
            // Functions over several tables read the limits of each. The tallest stand alone.
            if !tall(&t) {
                let mut before = plain_table(chosen, 3);
                before.set_records(&[]);
                add(format!("{name}, in the second table"), vec![before, t.clone()], &same);
            }
            add(name, vec![t], &same);
        }
        let n = limits.height + over as u64;
        add(format!("height {n} for the height bound alone"), table(&|_| ()), &|c| c.heights = vec![n]);
        let n = limits.nodes + over;
        add(format!("a count as node {}", n - 1), table(&|t| t.nodes.resize(NODE_WORDS * n, 0)), &|c| c.counted = n as u64 - 1);
        // Not named by any lookup; squared so often, the degree of a tree passes every number.
        for times in [7 + over, 100] {
            add(
                format!("a column squared {times} times, unused"),
                table(&|t| {
                    for _ in 0..times {
                        let last = if t.node_count() == 3 { 0 } else { t.node_count() as u32 - 1 };
                        t.add_node(11, last, last);
                    }
                }),
                &same,
            );
        }
        let n = over as u64;
        add(format!("{} prefixes", 256 + n), table(&|_| ()), &|c| c.prefixes = 256 + n);
        add(format!("prefix width {}", 255 + n), table(&|_| ()), &|c| c.prefix_width = 255 + n);
        add(format!("prefix width {n}"), table(&|_| ()), &|c| c.prefix_width = n);
        add(format!("transition degree {}", 1 + n), table(&|_| ()), &|c| c.transition = 1 + n);
        let weight = u64::from(u32::MAX) - 1 + over as u64;
        let heavy = Lookup { weight, ..on_bus(0, vec![0], 1) };
        add(format!("weights {weight} and 1 on a bus"), table(&|t| t.set_records(&[heavy.clone(), on_bus(1, vec![0], 2)])), &|c| {
            c.limit = 9
        });
        // Locals are no merges, whatever they weigh together.
        let beside = [heavy, local(1, 2, 1 << 32), on_bus(2, vec![0], 2), local(3, 3, 2 << 32), heavy_local(4, 0, 0)];
        add(format!("weights {weight} and 1 on a bus, heavy locals beside them"), table(&|t| t.set_records(&beside)), &|c| c.limit = 9);
        let full = |last: Table| [vec![heaviest_table(chosen, 0); limits.tables - 1], vec![last]].concat();
        for height in [0, limits.height] {
            let name = format!("{} tables of the heaviest locals, {over} more in the last, height {height}", limits.tables);
            add(name, full(heaviest_table(chosen, over)), &|c| c.heights = vec![height; limits.tables]);
        }
        for (name, interactions) in to_build(limits, over) {
            add(name, table(&|_| ()), &|c| c.interactions = interactions.clone());
        }
        let built = Interaction::Local(vec![Part { elements: vec![0], multiplicity: 1, weight: 1 }]);
        add(format!("room to build short by {over}"), table(&|_| ()), &|c| {
            c.interactions = vec![built.clone()];
            c.edits = vec![(List::Built, if over == 1 { Edit::Pop } else { Edit::Push(5) })];
        });
        // A lent list that is too short is found before a node that is absent.
        for (i, absent) in (0..6).flat_map(|i| [(i, 0), (i, 9)]) {
            let flagged = Lookup { exclusive: true, flags: vec![1 + absent], ..on_bus(1, vec![0], 1) };
            let short = move |c: &mut Case| c.edits = vec![(List::Packed(i), if over == 1 { Edit::Pop } else { Edit::Push(5) })];
            let name = format!("packed list {i} short by {over}, flag {}", 1 + absent);
            add(name, table(&|t| t.set_records(&[on_bus(0, vec![0], 1), flagged.clone()])), &short);
        }
        add(format!("{} words for 3 slots", 30 - over), table(&|t| t.set_records(&[on_bus(0, vec![0], 1), on_bus(1, vec![0], 2)])), &|c| {
            c.workspace = 30 - over
        });
        rows_and_buffers(add, chosen, over);
    }
    records_at_odds(add, chosen);
    heights(add, chosen);
    farthest_rows(add, chosen);
    for word in AT_PRIMES {
        at_prime_in_rows(add, chosen, word);
        at_prime(add, chosen, word);
    }
    unknown_choices(add, chosen);
}

/// What generation and constraints read, the tallest tables left out.
fn at_limits_of_rows(add: &mut Add, chosen: Chosen) {
    for over in 0..2 {
        for (name, t) in tables_at_limits(chosen, over).into_iter().filter(|(_, t)| !tall(t)) {
            add(name, vec![t], &|_| ());
        }
        rows_and_buffers(add, chosen, over);
    }
    records_at_odds(add, chosen);
    heights(add, chosen);
    farthest_rows(add, chosen);
    for word in AT_PRIMES {
        at_prime_in_rows(add, chosen, word);
    }
    unknown_choices(add, chosen);
}

/// Whether a table takes long.
fn tall(t: &Table) -> bool {
    10_000 <= t.main.len().max(t.preprocessed.len())
}

/// Enough words and rows, or one too few.
fn rows_and_buffers(add: &mut Add, chosen: Chosen, short: usize) {
    add(format!("trace buffer of {} words", 24 - short), vec![plain_table(chosen, 3)], &|c| c.buffer = 24 - short);
    add(format!("height {short}"), vec![plain_table(chosen, short as u64)], &|_| ());
    let mut t = plain_table(chosen, 3);
    (t.pre_width, t.pre_height, t.preprocessed) = (1, 3 - short as u64, vec![1; 3 - short]);
    add(format!("preprocessed height {}", 3 - short), vec![t], &|_| ());
}

fn heights(add: &mut Add, chosen: Chosen) {
    for height in [1023, 1024, 1025, 2048, 2049] {
        add(format!("height {height}"), vec![plain_table(chosen, height)], &|_| ());
    }
}

fn unknown_choices(add: &mut Add, chosen: Chosen) {
    for choices in unknown(chosen) {
        // Accepted but for the choices; without lookups; and such as 1, 2 or 5 refuses by itself.
        let mut add = |name: &str, change: fn(&mut Table)| {
            add(format!("{choices:?}, {name}"), vec![plain_table(chosen, 3)], &|c| {
                c.choices = choices;
                change(&mut c.tables[0]);
            });
        };
        add("a table", |_| ());
        add("no lookups", |t| t.set_records(&[]));
        add("a word too few", |t| shorten(&mut t.main));
        add("high words", |t| (t.main[0], t.nodes[4]) = (u32::MAX, u32::MAX));
        add("two multiplicities", |t| t.set_records(&[Lookup { multiplicities: vec![1, 1], ..on_bus(0, vec![0], 1) }]));
    }
}

/// Choices that are known but for a number.
fn unknown(chosen: Chosen) -> Vec<Choices> {
    let known = Choices::of(chosen);
    let fields = [0, 3, u32::MAX].map(|field| Choices { field, ..known });
    let profiles = [0, 3, u32::MAX].map(|profile| Choices { profile, ..known });
    let unknown = match chosen.rule {
        Rule::One => [0, 3, u32::MAX],
        Rule::Two => [257, 258, 1 << 31],
    };
    [fields, profiles, unknown.map(|rule| Choices { rule, ..known })].concat()
}

/// A word, wherever the prime decides in generation and constraints.
fn at_prime_in_rows(add: &mut Add, chosen: Chosen, word: u32) {
    let same = |_: &mut Case| ();
    let table = |change: &dyn Fn(&mut Table)| {
        let mut t = plain_table(chosen, 3);
        change(&mut t);
        vec![t]
    };
    add(format!("{word} in main"), table(&|t| t.main[1] = word), &same);
    add(
        format!("{word} in a preprocessed row that is not read"),
        table(&|t| (t.pre_width, t.pre_height, t.preprocessed) = (1, 4, vec![0, 0, 0, word])),
        &same,
    );
    add(format!("a public value {word}"), table(&|t| t.public_values = vec![word]), &same);
    add(format!("a constant {word}"), table(&|t| t.nodes[4] = word), &same);
    add(
        format!("an unused constant {word}"),
        table(&|t| {
            t.add_node(0, word, 0);
        }),
        &same,
    );
    add(format!("a challenge word {word}"), table(&|_| ()), &|c| c.challenges[7] = word);
    add(format!("the challenges' first words {word}"), table(&|_| ()), &|c| (c.challenges[0], c.challenges[4]) = (word, word));
    add(format!("a trace word {word}"), table(&|_| ()), &|c| c.changes = vec![(2, word)]);
}

/// The same in the other functions.
fn at_prime(add: &mut Add, chosen: Chosen, word: u32) {
    let (same, table) = (|_: &mut Case| (), || vec![plain_table(chosen, 3)]);
    add(format!("a terminal word {word}"), table(), &|c| c.terminals = vec![Some([1, 2, 3, word]), None]);
    add(format!("count {word}"), table(), &|c| c.count = word as i32);
    add(format!("count -{word}"), table(), &|c| c.count = -(word as i32));
    let heavy = |weight: u32| {
        let mut t = plain_table(chosen, 1);
        t.set_records(&[Lookup { weight: weight.into(), ..on_bus(0, vec![0], 1) }]);
        t
    };
    add(format!("height sum {word}"), vec![heavy(word)], &same);
    add(format!("height sum {word} of two tables"), vec![heavy(word - 7), heavy(7)], &same);
    add(format!("height sum {word} beside heavy locals without rows"), vec![heaviest_table(chosen, 0), heavy(word)], &|c| {
        c.heights = vec![0, 1]
    });
}

/// The nodes of the tables below after their eight columns: two constants, and the mark of the first row.
const ZERO: u32 = 8;
const ONE: u32 = 9;
const FIRST_ROW: u32 = 10;

/// Three rows of eight columns, with different words throughout.
fn of_columns(chosen: Chosen, lookups: &[Lookup]) -> Table {
    let mut t = Table { main_width: 8, main: (2..26).collect(), ..plain_table(chosen, 3) };
    t.nodes = (0..8).flat_map(|column| [1, column, 0]).chain([0, 0, 0, 0, 1, 0, 6, 0, 0]).collect();
    t.set_records(lookups);
    t
}

/// Tuples of each width, of several widths in one lookup, and as many as the limits allow.
fn tuples(add: &mut Add, chosen: Chosen) {
    let limits = chosen.profile.limits();
    let mut add = |name: String, lookups: &[Lookup]| add(name, vec![of_columns(chosen, lookups)], &|_| ());
    let lookup = |column: u32, tuples: &[Vec<u32>]| Lookup {
        tuples: tuples.to_vec(),
        multiplicities: vec![ONE; tuples.len()],
        ..on_bus(column, vec![], ONE)
    };
    for width in 0..=limits.tuple_words {
        add(format!("a tuple of {width} columns"), &[lookup(0, &[(0..width).collect()])]);
    }
    let several = [vec![0, 1, 2], vec![], vec![3], vec![4, 5], vec![6, 7, 0, 1]];
    let flags = vec![ZERO, ZERO, ZERO, FIRST_ROW, ZERO];
    add("tuples of several widths".into(), &[lookup(0, &several), lookup(1, &several[3..])]);
    add("tuples of several widths, exclusive".into(), &[Lookup { exclusive: true, flags, ..lookup(0, &several) }]);
    let (count, width) = (limits.tuples as u32, limits.tuple_words);
    let all: Vec<Vec<u32>> = (0..count).map(|k| (0..width).map(|j| (3 * k + j) % 8).collect()).collect();
    for lookups in [1, limits.lookups] {
        let records: Vec<Lookup> = (0..).zip(all.chunks(limits.tuples / lookups)).map(|(i, tuples)| lookup(i, tuples)).collect();
        add(format!("{count} tuples of {width} columns in {lookups} lookups"), &records);
    }
}

/// An alpha that meets a tuple of two columns on the last row by one of the rules, whichever rule the call has. For beta 1 it does so by both.
fn met_tuples(add: &mut Add, chosen: Chosen) {
    let pair = |multiplicity: u32| on_bus(0, vec![0, 1], multiplicity);
    let branch = |flag: u32| Lookup { exclusive: true, flags: vec![flag], ..pair(ONE) };
    let lookups = [("used", pair(ONE)), ("with multiplicity 0", pair(ZERO)), ("chosen", branch(ONE)), ("not chosen", branch(ZERO))];
    for beta in [0, 1, 10, chosen.field.prime() - 1] {
        for rule in Rule::ALL {
            let beta = plain::lift(beta);
            let alpha = model::combined(chosen.field, rule, &[18, 19], beta);
            for (name, lookup) in &lookups {
                let name = format!("alpha {} and beta {}, a tuple {name} (18, 19)", alpha[0], beta[0]);
                let t = of_columns(chosen, std::slice::from_ref(lookup));
                add(name, vec![t], &|c| c.challenges = [alpha, beta].concat());
            }
        }
    }
}

/// The node of the tables below that looks ahead.
const AHEAD: u32 = 3;

/// Different words on rows near each other, of main and of a preprocessed trace, which has so many rows more. A node, beside the current row, is
/// an element of two tuples and a multiplicity.
fn looking_ahead(chosen: Chosen, height: u64, more: u64, node: [u32; 3]) -> Table {
    let mut t = plain_table(chosen, height);
    t.main = (0..height as u32).map(|row| 10 + row % 7).collect();
    (t.pre_width, t.pre_height) = (1, height + more);
    t.preprocessed = (0..t.pre_height as u32).map(|row| 20 + row % 7).collect();
    t.nodes.extend(node);
    t.set_records(&[on_bus(0, vec![0, AHEAD], 1), on_bus(1, vec![AHEAD, 0], AHEAD)]);
    t
}

/// Every offset where the rows are gone around, up to three times, and the largest at the ends of parts of 1,024 rows. Then second words that are
/// not used.
fn rows_ahead(add: &mut Add, chosen: Chosen) {
    let mut add = |name: String, height: u64, more: u64, node: [u32; 3]| {
        add(format!("{name}, height {height}, {more} preprocessed rows more"), vec![looking_ahead(chosen, height, more, node)], &|_| ());
    };
    for (height, offset) in (1..=4).flat_map(|height| (0..=model::MOST_AHEAD).map(move |offset| (height, offset))) {
        add(format!("main at offset {offset}"), height, 1, [1, 0, offset]);
        for more in [0, 5] {
            add(format!("preprocessed at offset {offset}"), height, more, [3, 0, offset]);
        }
    }
    for (kind, height) in [1, 3].into_iter().flat_map(|kind| [1024, 1025, 1026, 1027, 2049].map(|height| (kind, height))) {
        add(format!("kind {kind} at offset 3"), height, 2, [kind, 0, model::MOST_AHEAD]);
    }
    for (kind, unused) in [0, 2, 4, 6, 7, 8, 12].into_iter().flat_map(|kind| [3, 4, u32::MAX].map(|unused| (kind, unused))) {
        add(format!("kind {kind} with the second word {unused}"), 3, 1, [kind, 0, unused]);
    }
}

/// A table of two rows with a node of this kind and offset, which its lookups use or not.
struct Farthest {
    kind: u32,
    offset: u32,
    used: bool,
}

impl Farthest {
    fn name(&self) -> String {
        format!("kind {} at offset {}, {}", self.kind, self.offset, if self.used { "used" } else { "unused" })
    }

    /// Adds the case with a change of the table, and other tables before it. Building has the node in a tuple, where it is used.
    fn add(&self, add: &mut Add, chosen: Chosen, name: &str, before: &[Table], change: fn(&mut Table)) {
        let mut t = looking_ahead(chosen, 2, 1, [self.kind, 0, 0]);
        if !self.used {
            t.set_records(&[on_bus(0, vec![0], 1)]);
        }
        let part = Part { elements: vec![if self.used { AHEAD } else { 0 }], multiplicity: 1, weight: 1 };
        add(format!("{}{name}", self.name()), [before, &[t]].concat(), &|c| {
            let t = c.tables.last_mut().unwrap();
            t.nodes[NODE_WORDS * AHEAD as usize + 2] = self.offset;
            change(t);
            c.interactions = vec![Interaction::Global(b"mem".to_vec(), part.clone())];
        });
    }
}

/// The largest offset, and larger ones; one over it with another fault too, of which some come first.
fn farthest_rows(add: &mut Add, chosen: Chosen) {
    let squared = |t: &mut Table| {
        for _ in 0..8 {
            let last = t.node_count() as u32 - 1;
            t.add_node(11, last, last);
        }
    };
    for (kind, used) in [(1, true), (1, false), (3, true), (3, false)] {
        for offset in [model::MOST_AHEAD, model::MOST_AHEAD + 1, u32::MAX] {
            let farthest = Farthest { kind, offset, used };
            farthest.add(add, chosen, "", &[], |_| ());
            farthest.add(add, chosen, ", no lookups", &[], |t| t.set_records(&[]));
            // Balance, which takes no rule, reads more tables than one.
            if chosen.rule == Rule::One {
                farthest.add(add, chosen, ", in the second table", &[plain_table(chosen, 3)], |_| ());
            }
        }
        let too_far = Farthest { kind, offset: model::MOST_AHEAD + 1, used };
        too_far.add(add, chosen, ", column 1 of 1", &[], |t| t.nodes[NODE_WORDS * AHEAD as usize + 1] = 1);
        too_far.add(add, chosen, ", no preprocessed trace", &[], |t| (t.pre_width, t.pre_height, t.preprocessed) = (0, 0, vec![]));
        too_far.add(add, chosen, ", a high constant", &[], |t| _ = t.add_node(0, u32::MAX, 0));
        too_far.add(add, chosen, ", a high degree", &[], squared);
        too_far.add(add, chosen, ", an absent node", &[], |t| t.elements[0] = u32::MAX);
    }
}
