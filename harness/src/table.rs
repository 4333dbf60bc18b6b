//! A table in the port's flat words, and its lookups as records.
use std::borrow::Cow;
use std::fmt;

use crate::model::{Chosen, Profile, Rule};
use crate::plain::Field;

/// The lists are words, or the bytes of words.
#[derive(Clone, Debug, Default, PartialEq, Eq)]
pub struct Table<W = u32> {
    /// The field that its words are of, the profile whose limits it is to keep, and the rule by which generation and constraints combine its
    /// tuples. The tables of one call have the same three.
    pub field: Field,
    pub profile: Profile,
    pub rule: Rule,
    pub main_width: u64,
    pub height: u64,
    pub pre_width: u64,
    pub pre_height: u64,
    pub main: Vec<W>,
    pub preprocessed: Vec<W>,
    pub public_values: Vec<W>,
    /// kind, a, b of each node; b is the row offset in kinds 1 and 3
    pub nodes: Vec<W>,
    /// scope (0 local, else bus), name length, weight (its low half), column, exclusive, tuples, multiplicities, flags of each lookup, and the
    /// high half of its weight
    pub lookups: Vec<W>,
    pub names: Vec<u8>,
    /// the width of each tuple
    pub tuples: Vec<W>,
    pub multiplicities: Vec<W>,
    pub flags: Vec<W>,
    pub elements: Vec<W>,
}

/// One lookup, its nodes by number.
#[derive(Clone, Debug, Default, PartialEq, Eq)]
pub struct Lookup {
    /// The name of its bus; a local has none.
    pub bus: Option<Vec<u8>>,
    pub weight: u64,
    pub column: u32,
    pub exclusive: bool,
    pub tuples: Vec<Vec<u32>>,
    pub multiplicities: Vec<u32>,
    pub flags: Vec<u32>,
}

/// The bus of one lookup and the widths of its tuples.
pub struct Widths {
    pub bus: Option<Vec<u8>>,
    pub widths: Vec<u32>,
}

/// What building takes: tuples with their weights, in one of the three kinds of interaction.
#[derive(Clone, Debug, PartialEq, Eq)]
pub enum Interaction {
    Local(Vec<Part>),
    Global(Vec<u8>, Part),
    Exclusive(Vec<u8>, Vec<(u32, Part)>),
}

/// A tuple's nodes, its multiplicity's node and its weight.
#[derive(Clone, Debug, PartialEq, Eq)]
pub struct Part {
    pub elements: Vec<u32>,
    pub multiplicity: u32,
    pub weight: u32,
}

/// What building is lent to read: how many locals, globals and exclusives there are, two words for each (length of its name, number of its
/// tuples), a weight for each tuple, and the lists that the lookups will have.
#[derive(Clone, Debug, Default, PartialEq, Eq)]
pub struct Plan {
    pub kinds: [u64; 3],
    pub interactions: Vec<u32>,
    pub weights: Vec<u32>,
    pub lists: Table,
}

impl Interaction {
    /// Its place in the order of building.
    fn kind(&self) -> usize {
        match self {
            Interaction::Local(_) => 0,
            Interaction::Global(..) => 1,
            Interaction::Exclusive(..) => 2,
        }
    }

    fn name(&self) -> &[u8] {
        match self {
            Interaction::Local(_) => &[],
            Interaction::Global(name, _) | Interaction::Exclusive(name, _) => name,
        }
    }

    /// Its tuples, each with its flag in an exclusive.
    fn parts(&self) -> Vec<(Option<u32>, &Part)> {
        match self {
            Interaction::Local(parts) => parts.iter().map(|part| (None, part)).collect(),
            Interaction::Global(_, part) => vec![(None, part)],
            Interaction::Exclusive(_, branches) => branches.iter().map(|(flag, part)| (Some(*flag), part)).collect(),
        }
    }

    /// Every node that it names.
    pub fn nodes(&self) -> Vec<u32> {
        self.parts().into_iter().flat_map(|(flag, part)| part.elements.iter().copied().chain([part.multiplicity]).chain(flag)).collect()
    }
}

impl Plan {
    /// The words of some interactions: locals first, then globals, then exclusives.
    pub fn of(interactions: &[Interaction]) -> Plan {
        let mut sorted: Vec<&Interaction> = interactions.iter().collect();
        sorted.sort_by_key(|i| i.kind());
        let mut plan = Plan::default();
        let Plan { kinds, interactions, weights, lists } = &mut plan;
        for i in sorted {
            kinds[i.kind()] += 1;
            interactions.extend([i.name().len() as u32, i.parts().len() as u32]);
            lists.names.extend(i.name());
            for (flag, part) in i.parts() {
                weights.push(part.weight);
                lists.tuples.push(part.elements.len() as u32);
                lists.multiplicities.push(part.multiplicity);
                lists.flags.extend(flag);
                lists.elements.extend(&part.elements);
            }
        }
        plan
    }
}

impl<W> Table<W> {
    pub fn chosen(&self) -> Chosen {
        Chosen { field: self.field, profile: self.profile, rule: self.rule }
    }
}

pub const LOOKUP_WORDS: usize = 9;
pub const NODE_WORDS: usize = 3;

/// The words of one lookup, by their names.
pub struct Entry {
    pub on_bus: bool,
    pub name_length: u32,
    pub weight: u64,
    pub column: u32,
    pub exclusive: bool,
    pub tuples: u32,
    pub multiplicities: u32,
    pub flags: u32,
}

impl Table {
    /// The same words in this field and profile, by this rule.
    pub fn over(&self, chosen: Chosen) -> Cow<'_, Table> {
        let Chosen { field, profile, rule } = chosen;
        if self.chosen() == chosen { Cow::Borrowed(self) } else { Cow::Owned(Table { field, profile, rule, ..self.clone() }) }
    }

    /// The same with each tuple reversed. Where the widths say more than there are elements, the last tuple is what is left.
    pub fn reversed(&self) -> Table {
        let (mut elements, mut rest) = (vec![], &self.elements[..]);
        for width in &self.tuples {
            let width = rest.len().min(*width as usize) as u32;
            elements.extend(front(&mut rest, width).iter().rev());
        }
        elements.extend(rest);
        Table { elements, ..self.clone() }
    }

    pub fn entries(&self) -> Vec<Entry> {
        let entry = |words: &[u32]| Entry {
            on_bus: words[0] != 0,
            // A local has no name.
            name_length: if words[0] != 0 { words[1] } else { 0 },
            weight: u64::from(words[2]) + (u64::from(words[8]) << 32),
            column: words[3],
            exclusive: words[4] != 0,
            tuples: words[5],
            multiplicities: words[6],
            flags: words[7],
        };
        self.lookups.chunks_exact(LOOKUP_WORDS).map(entry).collect()
    }

    pub fn lookup_count(&self) -> usize {
        self.lookups.len() / LOOKUP_WORDS
    }

    pub fn node_count(&self) -> usize {
        self.nodes.len() / NODE_WORDS
    }

    pub fn node(&self, i: usize) -> [u32; 3] {
        [self.nodes[3 * i], self.nodes[3 * i + 1], self.nodes[3 * i + 2]]
    }

    /// Whether it has a node that sees a row after the next.
    pub fn looks_far(&self) -> bool {
        (0..self.node_count()).any(|i| matches!(self.node(i), [1 | 3, _, 2 | 3]))
    }

    /// Whether it has a local that weighs more than 2^32 - 1.
    pub fn has_heavy_local(&self) -> bool {
        self.entries().iter().any(|e| !e.on_bus && u64::from(u32::MAX) < e.weight)
    }

    pub fn add_node(&mut self, kind: u32, a: u32, b: u32) -> u32 {
        self.nodes.extend([kind, a, b]);
        self.node_count() as u32 - 1
    }

    /// Whether all lists have the lengths that the sizes and the lookups' words say, whatever the limits.
    pub fn fits(&self) -> bool {
        let entries = self.entries();
        let total = |field: fn(&Entry) -> u32| entries.iter().map(|e| field(e) as usize).sum::<usize>();
        let product = |a: u64, b: u64| u128::from(a) * u128::from(b);
        0 < self.main_width
            && self.main.len() as u128 == product(self.main_width, self.height)
            && self.preprocessed.len() as u128 == product(self.pre_width, self.pre_height)
            && self.nodes.len().is_multiple_of(NODE_WORDS)
            && self.lookups.len().is_multiple_of(LOOKUP_WORDS)
            && self.names.len() == total(|e| e.name_length)
            && self.tuples.len() == total(|e| e.tuples)
            && self.multiplicities.len() == total(|e| e.multiplicities)
            && self.flags.len() == total(|e| e.flags)
            && self.elements.len() == self.tuples.iter().map(|w| *w as usize).sum::<usize>()
    }

    /// The lookups. The lists must have the lengths that the lookups' words say.
    pub fn records(&self) -> Vec<Lookup> {
        let (mut names, mut widths, mut elements) = (&self.names[..], &self.tuples[..], &self.elements[..]);
        let (mut multiplicities, mut flags) = (&self.multiplicities[..], &self.flags[..]);
        let mut records = vec![];
        for e in self.entries() {
            let name = front(&mut names, e.name_length).to_vec();
            records.push(Lookup {
                bus: e.on_bus.then_some(name),
                weight: e.weight,
                column: e.column,
                exclusive: e.exclusive,
                tuples: front(&mut widths, e.tuples).iter().map(|w| front(&mut elements, *w).to_vec()).collect(),
                multiplicities: front(&mut multiplicities, e.multiplicities).to_vec(),
                flags: front(&mut flags, e.flags).to_vec(),
            });
        }
        records
    }

    /// The buses and widths of the lookups. The names and tuples must have the lengths that the lookups' words say.
    pub fn widths(&self) -> Vec<Widths> {
        let (mut names, mut widths) = (&self.names[..], &self.tuples[..]);
        let entry = |e: Entry| {
            let name = front(&mut names, e.name_length).to_vec();
            Widths { bus: e.on_bus.then_some(name), widths: front(&mut widths, e.tuples).to_vec() }
        };
        self.entries().into_iter().map(entry).collect()
    }

    pub fn set_records(&mut self, records: &[Lookup]) {
        self.lookups.clear();
        self.names.clear();
        self.tuples.clear();
        self.multiplicities.clear();
        self.flags.clear();
        self.elements.clear();
        for r in records {
            let name = r.bus.as_deref().unwrap_or_default();
            let lengths = [r.tuples.len(), r.multiplicities.len(), r.flags.len()].map(|n| n as u32);
            let [low, high] = halves(r.weight);
            self.lookups.extend([r.bus.is_some().into(), name.len() as u32, low, r.column, r.exclusive.into()]);
            self.lookups.extend(lengths);
            self.lookups.push(high);
            self.names.extend(name);
            self.tuples.extend(r.tuples.iter().map(|t| t.len() as u32));
            self.multiplicities.extend(&r.multiplicities);
            self.flags.extend(&r.flags);
            self.elements.extend(r.tuples.iter().flatten());
        }
    }
}

/// The sizes of a table that balance takes, as words: one that is no word is over every limit all the same.
pub const SIZES: usize = 14;

impl Table {
    pub fn sizes(&self) -> [u32; SIZES] {
        let Table { main, preprocessed, public_values, names, tuples, multiplicities, flags, elements, .. } = self;
        let shape = [self.main_width, self.height, self.pre_width, self.pre_height];
        let lists = [main.len(), preprocessed.len(), public_values.len(), self.node_count(), self.lookup_count(), names.len()];
        let more = [tuples.len(), multiplicities.len(), flags.len(), elements.len()];
        let mut sizes = shape.into_iter().chain(lists.into_iter().chain(more).map(|n| n as u64));
        std::array::from_fn(|_| word(sizes.next().unwrap()))
    }

    /// The lengths of the six lists of the lookups, in the order in which they are lent.
    pub fn lengths(&self) -> [usize; 6] {
        let Table { lookups, names, tuples, multiplicities, flags, elements, .. } = self;
        [lookups.len(), names.len(), tuples.len(), multiplicities.len(), flags.len(), elements.len()]
    }

    /// The lists of all tables, one table after the other.
    pub fn joined(tables: &[Table]) -> Table {
        let words = |list: fn(&Table) -> &[u32]| tables.iter().flat_map(list).copied().collect();
        let Chosen { field, profile, rule } = chosen_of(tables);
        Table {
            field,
            profile,
            rule,
            main: words(|t| &t.main),
            preprocessed: words(|t| &t.preprocessed),
            public_values: words(|t| &t.public_values),
            nodes: words(|t| &t.nodes),
            lookups: words(|t| &t.lookups),
            names: tables.iter().flat_map(|t| &t.names).copied().collect(),
            tuples: words(|t| &t.tuples),
            multiplicities: words(|t| &t.multiplicities),
            flags: words(|t| &t.flags),
            elements: words(|t| &t.elements),
            ..Table::default()
        }
    }

    /// The bytes of each list, the least byte of a word first.
    pub fn bytes(&self) -> Table<u8> {
        Table {
            field: self.field,
            profile: self.profile,
            rule: self.rule,
            main_width: self.main_width,
            height: self.height,
            pre_width: self.pre_width,
            pre_height: self.pre_height,
            main: bytes_of(&self.main),
            preprocessed: bytes_of(&self.preprocessed),
            public_values: bytes_of(&self.public_values),
            nodes: bytes_of(&self.nodes),
            lookups: bytes_of(&self.lookups),
            names: self.names.clone(),
            tuples: bytes_of(&self.tuples),
            multiplicities: bytes_of(&self.multiplicities),
            flags: bytes_of(&self.flags),
            elements: bytes_of(&self.elements),
        }
    }
}

impl Table<u8> {
    /// The words of each list; bytes past the last whole word are left out.
    pub fn words(&self) -> Table {
        Table {
            field: self.field,
            profile: self.profile,
            rule: self.rule,
            main_width: self.main_width,
            height: self.height,
            pre_width: self.pre_width,
            pre_height: self.pre_height,
            main: words_of(&self.main),
            preprocessed: words_of(&self.preprocessed),
            public_values: words_of(&self.public_values),
            nodes: words_of(&self.nodes),
            lookups: words_of(&self.lookups),
            names: self.names.clone(),
            tuples: words_of(&self.tuples),
            multiplicities: words_of(&self.multiplicities),
            flags: words_of(&self.flags),
            elements: words_of(&self.elements),
        }
    }
}

pub fn word(n: u64) -> u32 {
    n.try_into().unwrap_or(u32::MAX)
}

/// A number as two words, the low half first.
pub fn halves(n: u64) -> [u32; 2] {
    [n as u32, (n >> 32) as u32]
}

pub fn bytes_of(words: &[u32]) -> Vec<u8> {
    words.iter().flat_map(|w| w.to_le_bytes()).collect()
}

pub fn words_of(bytes: &[u8]) -> Vec<u32> {
    bytes.as_chunks().0.iter().map(|b| u32::from_le_bytes(*b)).collect()
}

/// A key and numbers, separated by blanks; nothing for an empty list.
pub fn line<T: fmt::Display>(key: &str, numbers: &[T]) -> String {
    if numbers.is_empty() {
        return String::new();
    }
    let texts: Vec<String> = numbers.iter().map(ToString::to_string).collect();
    format!("{key} {}\n", texts.join(" "))
}

impl Table {
    /// The lists of the lookups, a line for each.
    pub fn lookup_lines(&self, before: &str) -> String {
        let key = |name: &str| format!("{before}{name}");
        [
            line(&key("lookups"), &self.lookups),
            line(&key("names"), &self.names),
            line(&key("tuples"), &self.tuples),
            line(&key("multiplicities"), &self.multiplicities),
            line(&key("flags"), &self.flags),
            line(&key("elements"), &self.elements),
        ]
        .concat()
    }
}

impl fmt::Display for Table {
    fn fmt(&self, f: &mut fmt::Formatter<'_>) -> fmt::Result {
        let lines = [
            line("field", &[self.field.number()]),
            line("profile", &[self.profile.number()]),
            line("rule", &[self.rule.number()]),
            line("table", &[self.main_width, self.height, self.pre_width, self.pre_height]),
            line("main", &self.main),
            line("preprocessed", &self.preprocessed),
            line("public", &self.public_values),
            line("nodes", &self.nodes),
            self.lookup_lines(""),
        ];
        f.write_str(&lines.concat())
    }
}

/// The field, profile and rule of the tables of a call, any where there is none.
pub fn chosen_of(tables: &[Table]) -> Chosen {
    tables.first().map_or_else(Chosen::default, Table::chosen)
}

/// Takes so many words from the front of a list.
pub fn front<'a, T>(list: &mut &'a [T], n: u32) -> &'a [T] {
    let (taken, rest) = list.split_at(n as usize);
    *list = rest;
    taken
}
