//! The same functions for a caller that holds bytes: each list of words is a byte slice, four bytes a word, the least byte first. A function decodes them
//! into two rooms of words, which this module lends it.
//!
//! ```
//! use delmatik::{Choices, Lookup, Refusal, Rule, Table, bytes};
//!
//! // The table of the crate's first example: one row, 3, looked up once.
//! let lookup = Lookup { bus: Some(b"mem".to_vec()), weight: 1, tuples: vec![vec![0]], multiplicities: vec![1], ..Lookup::default() };
//! let words = Table { main_width: 1, height: 1, main: vec![3], nodes: vec![1, 0, 0, 0, 1, 0], ..Table::default() }.with(&[lookup]);
//! let mut table = bytes::Table::from(&words);
//! let challenges = bytes::of(&[5, 0, 0, 0, 0, 0, 0, 0]);
//!
//! let (choices, mut trace) = (Choices::default(), [7; 36]);
//! let terminal = table.generate_into(choices, Rule::One, &challenges, &mut trace).unwrap().unwrap();
//! assert_eq!(terminal.0, [1006632961, 0, 0, 0]);
//! assert_eq!(trace[16..20], 1006632961_u32.to_le_bytes());
//! // Bytes past the trace are as they were.
//! assert_eq!(trace[32..], [7; 4]);
//!
//! // Five bytes are no words: refusal 1, and nothing is written.
//! table.main.push(0);
//! let mut trace = [7; 36];
//! assert_eq!(table.generate_into(choices, Rule::One, &challenges, &mut trace), Err(Refusal { number: 1, details: [0; 3] }));
//! assert_eq!(trace, [7; 36]);
//! ```
use crate::{Choices, LookupTerminal, Refusal, Rule, call, drawn_seed, joined, sys};

/// The lists of a [`crate::Table`] as bytes; the names are bytes in any case.
#[derive(Clone, Debug, Default, PartialEq, Eq)]
pub struct Table {
    pub main_width: usize,
    pub height: usize,
    pub pre_width: usize,
    pub pre_height: usize,
    pub main: Vec<u8>,
    pub preprocessed: Vec<u8>,
    pub public_values: Vec<u8>,
    pub nodes: Vec<u8>,
    pub lookups: Vec<u8>,
    pub names: Vec<u8>,
    pub tuples: Vec<u8>,
    pub multiplicities: Vec<u8>,
    pub flags: Vec<u8>,
    pub elements: Vec<u8>,
}

/// The bytes of some words.
pub fn of(words: &[u32]) -> Vec<u8> {
    words.iter().flat_map(|w| w.to_le_bytes()).collect()
}

impl From<&crate::Table> for Table {
    fn from(t: &crate::Table) -> Table {
        Table {
            main_width: t.main_width,
            height: t.height,
            pre_width: t.pre_width,
            pre_height: t.pre_height,
            main: of(&t.main),
            preprocessed: of(&t.preprocessed),
            public_values: of(&t.public_values),
            nodes: of(&t.nodes),
            lookups: of(&t.lookups),
            names: t.names.clone(),
            tuples: of(&t.tuples),
            multiplicities: of(&t.multiplicities),
            flags: of(&t.flags),
            elements: of(&t.elements),
        }
    }
}

/// A room of a word for each four bytes of the lists.
fn room(lists: &[&[u8]]) -> Vec<u32> {
    vec![0; lists.iter().map(|l| l.len() / 4).sum()]
}

impl Table {
    /// `generate_permutation`, into a lent buffer, which may be longer than the trace.
    pub fn generate_into(
        &self,
        choices: Choices,
        rule: Rule,
        challenges: &[u8],
        trace: &mut [u8],
    ) -> Result<Option<LookupTerminal>, Refusal> {
        let Table { main, preprocessed, public_values, nodes, lookups, names, tuples, multiplicities, flags, elements, .. } = self;
        let mut read = room(&[main, preprocessed, public_values, nodes, lookups, tuples, multiplicities, flags, elements, challenges]);
        let mut written = room(&[&*trace]);
        let mut terminal = [0; 5];
        call! { choices rule, delmatik_generate_bytes(
            self.main_width, self.height, self.pre_width, self.pre_height, [main], [preprocessed], [public_values], [nodes], [lookups],
            [names], [tuples], [multiplicities], [flags], [elements], [challenges], [mut trace], [mut read],
            [mut written], &mut terminal,
        ) }?;
        let [present, words @ ..] = terminal;
        Ok((present == 1).then_some(LookupTerminal(words)))
    }

    /// `pack_same_bus`: the table with its lookups merged up to this degree.
    pub fn pack(&self, choices: Choices, limit: u64) -> Result<Table, Refusal> {
        let Table { nodes, lookups, names, tuples, multiplicities, flags, elements, .. } = self;
        let mut packed = self.clone();
        let out = &mut packed;
        let mut read = room(&[nodes, lookups, tuples, multiplicities, flags, elements]);
        let mut written = room(&[&out.lookups, &out.tuples, &out.multiplicities, &out.flags, &out.elements]);
        let mut used = [0; 6];
        call! { choices, delmatik_pack_bytes(
            limit, self.main_width, self.pre_width, self.public_values.len() / 4, [nodes], [lookups], [names], [tuples], [multiplicities],
            [flags], [elements], [mut out.lookups], [mut out.names], [mut out.tuples], [mut out.multiplicities], [mut out.flags],
            [mut out.elements], [mut read], [mut written], &mut used,
        ) }?;
        let [l, n, t, m, f, e] = used.map(|n: u64| n as usize);
        out.lookups.truncate(4 * l);
        out.names.truncate(n);
        out.tuples.truncate(4 * t);
        out.multiplicities.truncate(4 * m);
        out.flags.truncate(4 * f);
        out.elements.truncate(4 * e);
        Ok(packed)
    }
}

/// [`crate::balance`], with a seed drawn for the call: `sizes` are fourteen words for each table, as [`crate::Table::sizes`] gives them.
pub fn balance(choices: Choices, tables: &[Table], sizes: &[u8], workspace: &mut [u8]) -> Result<(), Refusal> {
    balance_with_seed(choices, tables, sizes, drawn_seed(), workspace)
}

/// [`balance`] with any number as the seed, which changes the time and never the answer.
pub fn balance_with_seed(choices: Choices, tables: &[Table], sizes: &[u8], seed: u64, workspace: &mut [u8]) -> Result<(), Refusal> {
    let (main, preprocessed) = (joined(tables, |t| &t.main), joined(tables, |t| &t.preprocessed));
    let (public_values, nodes) = (joined(tables, |t| &t.public_values), joined(tables, |t| &t.nodes));
    let (lookups, names, tuples) = (joined(tables, |t| &t.lookups), joined(tables, |t| &t.names), joined(tables, |t| &t.tuples));
    let (multiplicities, flags) = (joined(tables, |t| &t.multiplicities), joined(tables, |t| &t.flags));
    let elements = joined(tables, |t| &t.elements);
    let mut read = room(&[&main, &preprocessed, &public_values, &nodes, &lookups, &tuples, &multiplicities, &flags, &elements, sizes]);
    let mut written = room(&[&*workspace]);
    call! { choices, delmatik_balance_bytes(
        [main], [preprocessed], [public_values], [nodes], [lookups], [names], [tuples], [multiplicities], [flags], [elements], [sizes],
        seed, [mut workspace], [mut read], [mut written],
    ) }
}
