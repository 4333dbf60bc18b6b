//! Makes a failing case small: tries smaller cases, keeps each that still fails in the same way, until none does.
use crate::generator::{Case, shorten};
use crate::model::{Choices, MOST_AHEAD};
use crate::table::{Interaction, Lookup, NODE_WORDS, Part, Table};

const MOST_TRIALS: usize = 20_000;

pub fn shrink(case: &Case, still_fails: &dyn Fn(&Case) -> bool) -> Case {
    let mut small = case.clone();
    let mut trials = 0;
    'again: loop {
        for smaller in smaller_cases(&small) {
            trials += 1;
            if trials > MOST_TRIALS {
                return small;
            }
            if smaller != small && still_fails(&smaller) {
                small = smaller;
                continue 'again;
            }
        }
        return small;
    }
}

fn smaller_cases(case: &Case) -> Vec<Case> {
    let mut cases = vec![];
    let mut with = |change: &dyn Fn(&mut Case)| {
        let mut smaller = case.clone();
        change(&mut smaller);
        cases.push(smaller);
    };
    if 1 < case.tables.len() {
        for i in 0..case.tables.len() {
            with(&|c| {
                c.tables.remove(i);
                if i < c.heights.len() {
                    c.heights.remove(i);
                }
            });
        }
    }
    for (i, table) in case.tables.iter().enumerate() {
        for (smaller, dropped) in smaller_tables(table) {
            with(&|c| {
                c.tables[i] = smaller.clone();
                // The challenges of a lookup go with it.
                if let (0, Some(lookup)) = (i, dropped)
                    && 8 * lookup + 8 <= c.challenges.len()
                {
                    c.challenges.drain(8 * lookup..8 * lookup + 8);
                }
            });
        }
    }
    with(&|c| c.choices = Choices::of(c.chosen()));
    with(&|c| *c = c.in_cabinet());
    with(&|c| *c = c.by_rule_1().unwrap_or_else(|| c.clone()));
    with(&|c| c.interactions.clear());
    with(&|c| shorten(&mut c.interactions));
    with(&|c| c.interactions.iter_mut().for_each(of_node_0));
    with(&|c| c.changes.clear());
    with(&|c| shorten(&mut c.changes));
    with(&|c| shorten(&mut c.terminals));
    with(&|c| (c.prefixes, c.prefix_width) = (0, 1));
    with(&|c| c.extra_columns = 0);
    with(&|c| c.edits.clear());
    for i in 0..case.edits.len() {
        with(&|c| _ = c.edits.remove(i));
    }
    with(&|c| (c.count, c.negated, c.counted) = (0, [0; 2], 0));
    with(&|c| c.counted = 0);
    // A node less before the place of a count.
    with(&|c| {
        let nodes = &mut c.tables[0].nodes;
        nodes.drain(..NODE_WORDS.min(nodes.len()));
        c.counted = c.counted.saturating_sub(1);
    });
    with(&|c| (c.reader, c.exponent, c.seed) = ([0; 3], 0, 0));
    with(&|c| c.limit /= 2);
    with(&|c| c.workspace = 640);
    with(&|c| c.heights = c.tables.iter().map(|t| t.height).collect());
    with(&|c| c.challenges.fill(0));
    for i in 0..case.challenges.len().min(64) {
        with(&|c| c.challenges[i] = 0);
    }
    cases
}

/// The interaction with node 0 in place of each of its nodes.
fn of_node_0(interaction: &mut Interaction) {
    let part = |part: &mut Part| {
        part.elements.fill(0);
        part.multiplicity = 0;
    };
    match interaction {
        Interaction::Local(parts) => parts.iter_mut().for_each(part),
        Interaction::Global(_, p) => part(p),
        Interaction::Exclusive(_, branches) => branches.iter_mut().for_each(|(flag, p)| {
            *flag = 0;
            part(p);
        }),
    }
}

/// Smaller tables, each with the lookup that it lost, if any.
fn smaller_tables(t: &Table) -> Vec<(Table, Option<usize>)> {
    let mut tables = vec![];
    let mut with = |dropped: Option<usize>, change: &dyn Fn(&mut Table)| {
        let mut smaller = t.clone();
        change(&mut smaller);
        tables.push((smaller, dropped));
    };
    if t.fits() {
        for height in [t.height / 2, t.height.saturating_sub(1)] {
            with(None, &|t| {
                t.height = height;
                t.main.truncate((t.main_width * height) as usize);
            });
            with(None, &|t| {
                t.pre_height = height.min(t.pre_height);
                t.preprocessed.truncate((t.pre_width * t.pre_height) as usize);
            });
        }
        for i in 0..t.lookup_count() {
            with(Some(i), &|t| change_records(t, &|records| drop(records.remove(i))));
            with(None, &|t| change_records(t, &|records| records[i].weight = 0));
            with(None, &|t| change_records(t, &|records| records[i].weight = records[i].weight.min(1 << 32)));
            for k in 0..t.records()[i].tuples.len() {
                with(None, &|t| change_records(t, &|records| drop_tuple(&mut records[i], k)));
                with(None, &|t| change_records(t, &|records| shorten(&mut records[i].tuples[k])));
            }
        }
        with(None, &drop_last_column);
        with(None, &drop_last_preprocessed_column);
    } else {
        // The lists are at odds with each other: each is cut by itself.
        for (i, length) in lists(&mut t.clone()).into_iter().map(|list| list.len()).enumerate() {
            for length in [length / 2, length.saturating_sub(1)] {
                with(None, &|t| lists(t)[i].truncate(length));
            }
        }
    }
    with(None, &|t| t.set_records(&[]));
    with(None, &|t| (t.main_width, t.height, t.main) = (1, 0, vec![]));
    with(None, &|t| (t.pre_width, t.pre_height, t.preprocessed) = (0, 0, vec![]));
    with(None, &|t| shorten(&mut t.public_values));
    for i in (0..t.node_count()).rev() {
        with(None, &|t| drop_node(t, i));
        with(None, &|t| t.nodes[NODE_WORDS * i..NODE_WORDS * (i + 1)].fill(0));
        with(None, &|t| t.nodes[NODE_WORDS * i + 2] = 0);
        // An offset that is too large becomes the least such, then lower by one.
        if let [1 | 3, _, offset] = t.node(i) {
            with(None, &|t| t.nodes[NODE_WORDS * i + 2] = offset.saturating_sub(1).min(MOST_AHEAD + 1));
        }
    }
    for i in 0..t.main.len().min(64) {
        with(None, &|t| t.main[i] = 0);
    }
    for i in 0..t.preprocessed.len().min(64) {
        with(None, &|t| t.preprocessed[i] = 0);
    }
    tables
}

/// All lists of words.
fn lists(t: &mut Table) -> [&mut Vec<u32>; 9] {
    let Table { main, preprocessed, public_values, nodes, lookups, tuples, multiplicities, flags, elements, .. } = t;
    [main, preprocessed, public_values, nodes, lookups, tuples, multiplicities, flags, elements]
}

fn change_records(t: &mut Table, change: &dyn Fn(&mut Vec<Lookup>)) {
    let mut records = t.records();
    change(&mut records);
    for (i, record) in records.iter_mut().enumerate() {
        record.column = i as u32;
    }
    t.set_records(&records);
}

fn drop_tuple(lookup: &mut Lookup, k: usize) {
    lookup.tuples.remove(k);
    for list in [&mut lookup.multiplicities, &mut lookup.flags] {
        if k < list.len() {
            list.remove(k);
        }
    }
}

/// The rows of a trace without the last of their columns.
fn narrowed(words: &[u32], width: u64) -> Vec<u32> {
    words.chunks_exact(width as usize).flat_map(|row| &row[..width as usize - 1]).copied().collect()
}

fn drop_last_column(t: &mut Table) {
    if 1 < t.main_width {
        t.main = narrowed(&t.main, t.main_width);
        t.main_width -= 1;
    }
}

fn drop_last_preprocessed_column(t: &mut Table) {
    if 1 < t.pre_width {
        t.preprocessed = narrowed(&t.preprocessed, t.pre_width);
        t.pre_width -= 1;
    }
}

/// Takes out a node that nothing names, and lowers the numbers above it.
fn drop_node(t: &mut Table, i: usize) {
    let operands = |kind: u32| match kind {
        9..=11 => 2,
        12 => 1,
        _ => 0,
    };
    let named = |n: &u32| *n as usize == i;
    let in_nodes = t.nodes.chunks_exact(NODE_WORDS).any(|node| node[1..=operands(node[0])].iter().any(named));
    if in_nodes || [&t.multiplicities, &t.flags, &t.elements].iter().any(|list| list.iter().any(named)) {
        return;
    }
    let lower = |n: &mut u32| *n -= u32::from(*n as usize > i);
    t.nodes.drain(NODE_WORDS * i..NODE_WORDS * (i + 1));
    for node in t.nodes.chunks_exact_mut(NODE_WORDS) {
        let last = operands(node[0]);
        node[1..=last].iter_mut().for_each(lower);
    }
    for list in [&mut t.multiplicities, &mut t.flags, &mut t.elements] {
        list.iter_mut().for_each(lower);
    }
}
