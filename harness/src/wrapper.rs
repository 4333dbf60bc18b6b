//! The safe functions of bindings/rust, over the harness's own tables: a value, or the refusal. The wrapper has them, the model as a reference, and
//! the wrong wrappers of the tests. Its types have known fields, profiles and rules alone; those of a call are its table's own.
use crate::exports::{Exports, Model};
use crate::model::{self, ACCEPTED, Answer, Chosen};
use crate::plain::{Ext, Field};
use crate::table::{Interaction, LOOKUP_WORDS, Lookup, NODE_WORDS, Plan, SIZES, Table, bytes_of, words_of};

pub type Refused<T> = Result<T, Answer>;

pub trait Wrapper {
    fn with(&self, t: &Table, lookups: &[Lookup]) -> Table;
    fn lookup_count(&self, t: &Table) -> usize;
    fn sizes(&self, t: &Table) -> [u32; SIZES];
    fn generate(&self, t: &Table, challenges: &[Ext]) -> Refused<(Vec<u32>, Option<Ext>)>;
    fn generate_into(&self, t: &Table, challenges: &[u32], trace: &mut [u32]) -> Refused<Option<Ext>>;
    fn constraints(&self, t: &Table, challenges: &[Ext], width: u64, trace: &[u32], terminal: Option<Ext>) -> Refused<()>;
    fn constraints_on(&self, t: &Table, challenges: &[u32], width: u64, trace: &[u32], terminal: Option<Ext>) -> Refused<()>;
    fn degree(&self, t: &Table, lookup: u64, transition: u32) -> Refused<u64>;
    fn pack(&self, t: &Table, limit: u64) -> Refused<Table>;
    fn build(&self, t: &Table, interactions: &[Interaction]) -> Refused<Table>;
    fn widths(&self, tables: &[Table]) -> Refused<u64>;
    fn height_bound(&self, tables: &[Table], heights: &[u64]) -> Refused<()>;
    fn terminals(&self, chosen: Chosen, terminals: &[Option<Ext>]) -> Refused<()>;
    fn prefixes(&self, chosen: Chosen, alpha: Ext, beta: Ext, width: u64, count: u64) -> Refused<Vec<Ext>>;
    fn balance(&self, tables: &[Table], workspace: &mut [u32]) -> Refused<()>;
    fn balance_with_seed(&self, tables: &[Table], seed: u64, workspace: &mut [u32]) -> Refused<()>;
    fn power(&self, field: Field, a: Ext, n: u32) -> Refused<Ext>;
    fn inverse(&self, field: Field, a: Ext) -> Refused<Ext>;

    /// A count is its node and its weight.
    fn count_bounded(&self, node: u32, weight: u32) -> [u32; 2];
    fn count_provided(&self, node: u32) -> [u32; 2];
    fn count_from_i32(&self, chosen: Chosen, nodes: &mut Vec<u32>, x: i32) -> Refused<[u32; 2]>;
    fn count_negated(&self, chosen: Chosen, nodes: &mut Vec<u32>, of: [u32; 2]) -> Refused<[u32; 2]>;
    fn row(&self, trace: &[u32], lookups: u64, height: u64, row: u64) -> Vec<u32>;

    fn bytes_of(&self, words: &[u32]) -> Vec<u8>;
    fn generate_bytes(&self, t: &Table<u8>, challenges: &[u8], trace: &mut [u8]) -> Refused<Option<Ext>>;
    fn pack_bytes(&self, t: &Table<u8>, limit: u64) -> Refused<Table<u8>>;
    fn balance_bytes(&self, tables: &[Table], workspace: &mut [u8]) -> Refused<()>;
    fn balance_bytes_with_seed(&self, tables: &[Table], seed: u64, workspace: &mut [u8]) -> Refused<()>;
}

/// The value, where nothing is refused.
pub fn unless_refused<T>(answer: Answer, value: T) -> Refused<T> {
    if answer == ACCEPTED { Ok(value) } else { Err(answer) }
}

fn elements(challenges: &[Ext]) -> &[u32] {
    challenges.as_flattened()
}

impl Wrapper for Model {
    fn with(&self, t: &Table, lookups: &[Lookup]) -> Table {
        let mut t = t.clone();
        t.set_records(lookups);
        t
    }

    fn lookup_count(&self, t: &Table) -> usize {
        t.lookups.len() / LOOKUP_WORDS
    }

    fn sizes(&self, t: &Table) -> [u32; SIZES] {
        t.sizes()
    }

    fn generate(&self, t: &Table, challenges: &[Ext]) -> Refused<(Vec<u32>, Option<Ext>)> {
        // As many words as any table within the limits needs.
        let limits = t.profile.limits();
        let rows = if t.lookups.is_empty() { 0 } else { t.height.min(limits.height) as usize };
        let mut trace = vec![0; 4 * rows * (t.lookup_count().min(limits.lookups) + 1)];
        let (answer, terminal) = model::generate(t, elements(challenges), &mut trace);
        unless_refused(answer, (trace, terminal))
    }

    fn generate_into(&self, t: &Table, challenges: &[u32], trace: &mut [u32]) -> Refused<Option<Ext>> {
        let (answer, terminal) = model::generate(t, challenges, trace);
        unless_refused(answer, terminal)
    }

    fn constraints(&self, t: &Table, challenges: &[Ext], width: u64, trace: &[u32], terminal: Option<Ext>) -> Refused<()> {
        unless_refused(model::constraints(t, elements(challenges), width, trace, terminal), ())
    }

    fn constraints_on(&self, t: &Table, challenges: &[u32], width: u64, trace: &[u32], terminal: Option<Ext>) -> Refused<()> {
        unless_refused(model::constraints(t, challenges, width, trace, terminal), ())
    }

    fn degree(&self, t: &Table, lookup: u64, transition: u32) -> Refused<u64> {
        let (answer, degree) = model::degree(t, lookup, transition.into());
        unless_refused(answer, degree)
    }

    fn pack(&self, t: &Table, limit: u64) -> Refused<Table> {
        let (answer, packed) = model::pack(t, limit);
        unless_refused(answer, Wrapper::with(self, t, &packed))
    }

    fn build(&self, t: &Table, interactions: &[Interaction]) -> Refused<Table> {
        let plan = Plan::of(interactions);
        let (answer, built) = model::build(t, &plan, LOOKUP_WORDS * interactions.len());
        let Table { lookups, names, tuples, multiplicities, flags, elements, .. } = built;
        unless_refused(answer, Table { lookups, names, tuples, multiplicities, flags, elements, ..t.clone() })
    }

    fn widths(&self, tables: &[Table]) -> Refused<u64> {
        let (answer, widest) = model::widths(tables);
        unless_refused(answer, widest)
    }

    fn height_bound(&self, tables: &[Table], heights: &[u64]) -> Refused<()> {
        unless_refused(model::height_bound(tables, heights), ())
    }

    fn terminals(&self, chosen: Chosen, terminals: &[Option<Ext>]) -> Refused<()> {
        unless_refused(model::terminals(chosen, terminals), ())
    }

    fn prefixes(&self, chosen: Chosen, alpha: Ext, beta: Ext, width: u64, count: u64) -> Refused<Vec<Ext>> {
        let (answer, prefixes) = model::prefixes(chosen, alpha, beta, width, count);
        unless_refused(answer, prefixes)
    }

    fn balance(&self, tables: &[Table], workspace: &mut [u32]) -> Refused<()> {
        unless_refused(model::balance(tables, workspace), ())
    }

    fn balance_with_seed(&self, tables: &[Table], _seed: u64, workspace: &mut [u32]) -> Refused<()> {
        Wrapper::balance(self, tables, workspace)
    }

    fn power(&self, field: Field, a: Ext, n: u32) -> Refused<Ext> {
        let mut out = [0; 4];
        unless_refused(model::refused(Exports::power(self, field.number(), &a, n, &mut out)), out)
    }

    fn inverse(&self, field: Field, a: Ext) -> Refused<Ext> {
        let mut out = [0; 4];
        unless_refused(model::refused(Exports::inverse(self, field.number(), &a, &mut out)), out)
    }

    fn count_bounded(&self, node: u32, weight: u32) -> [u32; 2] {
        [node, weight]
    }

    fn count_provided(&self, node: u32) -> [u32; 2] {
        [node, 0]
    }

    fn count_from_i32(&self, chosen: Chosen, nodes: &mut Vec<u32>, x: i32) -> Refused<[u32; 2]> {
        let (word, weight) = model::count_of(chosen.field, x);
        added(chosen, nodes, [0, word, 0]).map(|node| [node, weight])
    }

    fn count_negated(&self, chosen: Chosen, nodes: &mut Vec<u32>, [node, weight]: [u32; 2]) -> Refused<[u32; 2]> {
        let there = (node as usize) < nodes.len() / NODE_WORDS;
        if !there && nodes.len() / NODE_WORDS < chosen.profile.limits().nodes {
            return Err(model::refused(3));
        }
        added(chosen, nodes, [12, node, 0]).map(|node| [node, weight])
    }

    fn row(&self, trace: &[u32], lookups: u64, height: u64, row: u64) -> Vec<u32> {
        let [start, words] = model::row(trace.len(), lookups, height, row).map(|n| n as usize);
        trace[start..start + words].to_vec()
    }

    fn bytes_of(&self, words: &[u32]) -> Vec<u8> {
        bytes_of(words)
    }

    fn generate_bytes(&self, t: &Table<u8>, challenges: &[u8], trace: &mut [u8]) -> Refused<Option<Ext>> {
        let lists = [&t.main, &t.preprocessed, &t.public_values, &t.nodes];
        let whole = |list: &[u8]| list.len().is_multiple_of(4);
        if !lists.iter().all(|list| whole(list)) || !whole_lookups(t) || !whole(challenges) || !whole(trace) {
            return Err(model::refused(1));
        }
        let mut words = words_of(trace);
        let result = self.generate_into(&t.words(), &words_of(challenges), &mut words);
        trace.copy_from_slice(&bytes_of(&words));
        result
    }

    fn pack_bytes(&self, t: &Table<u8>, limit: u64) -> Refused<Table<u8>> {
        if !whole_lookups(t) || !t.nodes.len().is_multiple_of(4) {
            return Err(model::refused(1));
        }
        let packed = Wrapper::pack(self, &t.words(), limit)?.bytes();
        let Table { lookups, names, tuples, multiplicities, flags, elements, .. } = packed;
        Ok(Table { lookups, names, tuples, multiplicities, flags, elements, ..t.clone() })
    }

    fn balance_bytes_with_seed(&self, tables: &[Table], _seed: u64, workspace: &mut [u8]) -> Refused<()> {
        Wrapper::balance_bytes(self, tables, workspace)
    }

    fn balance_bytes(&self, tables: &[Table], workspace: &mut [u8]) -> Refused<()> {
        if !workspace.len().is_multiple_of(4) {
            return Err(model::refused(1));
        }
        let mut words = words_of(workspace);
        let answer = model::balance(tables, &mut words);
        workspace.copy_from_slice(&bytes_of(&words));
        unless_refused(answer, ())
    }
}

/// The number of a node that is added to a table of nodes; words that make no whole node give way to it.
fn added(chosen: Chosen, nodes: &mut Vec<u32>, node: [u32; 3]) -> Refused<u32> {
    let used = nodes.len() / NODE_WORDS;
    if chosen.profile.limits().nodes <= used {
        return Err(model::refused(1));
    }
    nodes.truncate(NODE_WORDS * used);
    nodes.extend(node);
    Ok(used as u32)
}

fn whole_lookups(t: &Table<u8>) -> bool {
    [&t.lookups, &t.tuples, &t.multiplicities, &t.flags, &t.elements].iter().all(|list| list.len().is_multiple_of(4))
}
