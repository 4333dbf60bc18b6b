//! The exported functions over lent words: what a call reads is borrowed, and every word that it may write is lent to be written. The port
//! has them, the model as a reference, and the wrong ports of the tests.
use crate::model::{self, ACCEPTED, Answer, Choices, Chosen, refused};
use crate::plain::{Ext, Field};
use crate::table::{LOOKUP_WORDS, NODE_WORDS, Plan, Table, bytes_of, words_of};

/// The two rooms of a function on bytes: for the lists that are read, and for those that are written.
#[derive(Clone, Debug, PartialEq, Eq)]
pub struct Rooms {
    pub read: Vec<u32>,
    pub written: Vec<u32>,
}

/// Each gives the number and details of its answer, by the field and profile of its choices, `generate`, `constraints` and `generate_bytes` by
/// their rule too: a table's own are not looked at. A terminal is five words, a mark and four words. The lists of several tables are one
/// table, whose own sizes are not looked at. `power` and `inverse` have no details and take the field's number alone.
pub trait Exports {
    fn generate(&self, choices: Choices, t: &Table, challenges: &[u32], trace: &mut [u32], terminal: &mut [u32; 5]) -> Answer;
    fn constraints(&self, choices: Choices, t: &Table, challenges: &[u32], width: u64, trace: &[u32], terminal: [u32; 5]) -> Answer;
    fn degree(&self, choices: Choices, t: &Table, lookup: u64, transition: u32, degree: &mut u64) -> Answer;
    fn pack(&self, choices: Choices, t: &Table, limit: u64, out: &mut Table, used: &mut [u64; 6]) -> Answer;
    fn build(&self, choices: Choices, t: &Table, plan: &Plan, lookups: &mut [u32], used: &mut u64) -> Answer;
    fn widths(&self, choices: Choices, all: &Table, sizes: &[u32], widest: &mut u64) -> Answer;
    fn height_bound(&self, choices: Choices, lookups: &[u32], counts: &[u32], heights: &[u32]) -> Answer;
    fn terminals(&self, choices: Choices, terminals: &[u32]) -> Answer;
    fn prefixes(&self, choices: Choices, alpha: &[u32], beta: &[u32], width: u64, count: u64, out: &mut [u32]) -> Answer;
    fn balance(&self, choices: Choices, all: &Table, sizes: &[u32], seed: u64, workspace: &mut [u32]) -> Answer;

    fn generate_bytes(
        &self,
        choices: Choices,
        t: &Table<u8>,
        challenges: &[u8],
        trace: &mut [u8],
        rooms: &mut Rooms,
        terminal: &mut [u32; 5],
    ) -> Answer;
    fn pack_bytes(
        &self,
        choices: Choices,
        t: &Table<u8>,
        limit: u64,
        out: &mut Table<u8>,
        rooms: &mut Rooms,
        used: &mut [u64; 6],
    ) -> Answer;
    fn balance_bytes(&self, choices: Choices, all: &Table<u8>, sizes: &[u8], seed: u64, workspace: &mut [u8], rooms: &mut Rooms) -> Answer;

    fn count_from_i32(&self, choices: Choices, nodes: &mut [u32], used: u64, x: i32, count: &mut [u32; 2]) -> Answer;
    fn count_negated(&self, choices: Choices, nodes: &mut [u32], used: u64, of: [u32; 2], count: &mut [u32; 2]) -> Answer;
    fn count_bounded(&self, node: u32, weight: u32, count: &mut [u32; 2]);
    fn count_provided(&self, node: u32, count: &mut [u32; 2]);
    fn row(&self, trace: &[u32], lookups: u64, height: u64, row: u64, part: &mut [u64; 2]);

    fn power(&self, field: u32, a: &[u32], n: u32, out: &mut [u32]) -> u32;
    fn inverse(&self, field: u32, a: &[u32], out: &mut [u32]) -> u32;
}

/// The functions as the specification has them. An unknown number is refusal 1 before anything else is read. Refusals 1 to 12 leave every lent
/// output as it was; after 13 to 15 the terminal is five zeros.
pub struct Model;

/// A terminal as five words.
pub fn marked(terminal: Option<Ext>) -> [u32; 5] {
    terminal.map_or([0; 5], |[a, b, c, d]| [1, a, b, c, d])
}

/// The words at the front of a lent list.
fn put<W: Copy>(words: &[W], lent: &mut [W]) {
    lent[..words.len()].copy_from_slice(words);
}

/// One element, of four words below p.
fn element(field: Field, words: &[u32]) -> Result<Ext, u32> {
    let element: Ext = words.try_into().map_err(|_| 1u32)?;
    if element.iter().all(|w| *w < field.prime()) { Ok(element) } else { Err(2) }
}

/// The words of these lists of bytes, one list after the other; none where one is not whole words or the room is of another length.
fn decoded(lists: &[&[u8]], room: &[u32]) -> Option<Vec<u32>> {
    let words: Vec<u32> = lists.iter().flat_map(|list| words_of(list)).collect();
    (lists.iter().all(|list| list.len().is_multiple_of(4)) && words.len() == room.len()).then_some(words)
}

/// The five lists of a table's lookups that are bytes only for a caller that holds bytes.
fn lookup_lists(t: &Table<u8>) -> [&[u8]; 5] {
    [&t.lookups, &t.tuples, &t.multiplicities, &t.flags, &t.elements]
}

impl Exports for Model {
    fn generate(&self, choices: Choices, t: &Table, challenges: &[u32], trace: &mut [u32], terminal: &mut [u32; 5]) -> Answer {
        let Some(chosen) = choices.known_with_rule() else { return refused(1) };
        let (answer, given) = model::generate(&t.over(chosen), challenges, trace);
        if !(1..=12).contains(&answer.number) {
            *terminal = marked(given);
        }
        answer
    }

    fn constraints(
        &self,
        choices: Choices,
        t: &Table,
        challenges: &[u32],
        width: u64,
        trace: &[u32],
        [mark, words @ ..]: [u32; 5],
    ) -> Answer {
        let Some(chosen) = choices.known_with_rule() else { return refused(1) };
        model::constraints(&t.over(chosen), challenges, width, trace, (mark != 0).then_some(words))
    }

    fn degree(&self, choices: Choices, t: &Table, lookup: u64, transition: u32, degree: &mut u64) -> Answer {
        let Some(chosen) = choices.known() else { return refused(1) };
        let (answer, found) = model::degree(&t.over(chosen), lookup, transition.into());
        if answer == ACCEPTED {
            *degree = found;
        }
        answer
    }

    /// A lent list that is shorter than the table's own is 1, as any size at odds.
    fn pack(&self, choices: Choices, t: &Table, limit: u64, out: &mut Table, used: &mut [u64; 6]) -> Answer {
        let Some(chosen) = choices.known() else { return refused(1) };
        if out.lengths().iter().zip(t.lengths()).any(|(lent, own)| *lent < own) {
            return refused(1);
        }
        let (answer, packed) = model::pack(&t.over(chosen), limit);
        if answer == ACCEPTED {
            let mut lists = Table::default();
            lists.set_records(&packed);
            put(&lists.lookups, &mut out.lookups);
            put(&lists.names, &mut out.names);
            put(&lists.tuples, &mut out.tuples);
            put(&lists.multiplicities, &mut out.multiplicities);
            put(&lists.flags, &mut out.flags);
            put(&lists.elements, &mut out.elements);
            *used = lists.lengths().map(|n| n as u64);
        }
        answer
    }

    fn build(&self, choices: Choices, t: &Table, plan: &Plan, lookups: &mut [u32], used: &mut u64) -> Answer {
        let Some(chosen) = choices.known() else { return refused(1) };
        let (answer, built) = model::build(&t.over(chosen), plan, lookups.len());
        if answer == ACCEPTED {
            put(&built.lookups, lookups);
            *used = built.lookups.len() as u64;
        }
        answer
    }

    fn widths(&self, choices: Choices, all: &Table, sizes: &[u32], widest: &mut u64) -> Answer {
        let Some(tables) = choices.known().and_then(|chosen| model::bus_tables(&all.over(chosen), sizes)) else { return refused(1) };
        let (answer, width) = model::widths(&tables);
        if answer == ACCEPTED {
            *widest = width;
        }
        answer
    }

    fn height_bound(&self, choices: Choices, lookups: &[u32], counts: &[u32], heights: &[u32]) -> Answer {
        let Some(tables) = choices.known().and_then(|chosen| model::weighed_tables(chosen, lookups, counts)) else { return refused(1) };
        model::height_bound(&tables, &heights.iter().map(|h| u64::from(*h)).collect::<Vec<u64>>())
    }

    fn terminals(&self, choices: Choices, terminals: &[u32]) -> Answer {
        let (Some(chosen), (each, [])) = (choices.known(), terminals.as_chunks::<5>()) else { return refused(1) };
        model::terminals(chosen, &each.iter().map(|[mark, words @ ..]| (*mark != 0).then_some(*words)).collect::<Vec<Option<Ext>>>())
    }

    fn prefixes(&self, choices: Choices, alpha: &[u32], beta: &[u32], width: u64, count: u64, out: &mut [u32]) -> Answer {
        let (Some(chosen), Ok(alpha), Ok(beta)) = (choices.known(), alpha.try_into(), beta.try_into()) else { return refused(1) };
        if (out.len() as u128) < 4 * u128::from(count) {
            return refused(1);
        }
        let (answer, prefixes) = model::prefixes(chosen, alpha, beta, width, count);
        put(prefixes.as_flattened(), out);
        answer
    }

    fn balance(&self, choices: Choices, all: &Table, sizes: &[u32], _seed: u64, workspace: &mut [u32]) -> Answer {
        let tables = choices.known().and_then(|chosen| model::whole_tables(&all.over(chosen), sizes));
        tables.map_or(refused(1), |tables| model::balance(&tables, workspace))
    }

    fn generate_bytes(
        &self,
        choices: Choices,
        t: &Table<u8>,
        challenges: &[u8],
        trace: &mut [u8],
        rooms: &mut Rooms,
        terminal: &mut [u32; 5],
    ) -> Answer {
        let lists = [&[&t.main, &t.preprocessed, &t.public_values, &t.nodes, challenges][..], &lookup_lists(t)].concat();
        let decoded = (choices.known_with_rule(), decoded(&lists, &rooms.read), decoded(&[trace], &rooms.written));
        let (Some(_), Some(read), Some(mut written)) = decoded else { return refused(1) };
        let answer = self.generate(choices, &t.words(), &words_of(challenges), &mut written, terminal);
        trace.copy_from_slice(&bytes_of(&written));
        *rooms = Rooms { read, written };
        answer
    }

    fn pack_bytes(
        &self,
        choices: Choices,
        t: &Table<u8>,
        limit: u64,
        out: &mut Table<u8>,
        rooms: &mut Rooms,
        used: &mut [u64; 6],
    ) -> Answer {
        let lists = [&[&t.nodes[..]][..], &lookup_lists(t)].concat();
        let decoded = (choices.known(), decoded(&lists, &rooms.read), decoded(&lookup_lists(out), &rooms.written));
        let (Some(_), Some(read), Some(_)) = decoded else { return refused(1) };
        let mut lent = out.words();
        let answer = self.pack(choices, &t.words(), limit, &mut lent, used);
        *out = lent.bytes();
        rooms.read = read;
        rooms.written = [lent.lookups, lent.tuples, lent.multiplicities, lent.flags, lent.elements].concat();
        answer
    }

    fn balance_bytes(&self, choices: Choices, all: &Table<u8>, sizes: &[u8], seed: u64, workspace: &mut [u8], rooms: &mut Rooms) -> Answer {
        let lists = [&[&all.main, &all.preprocessed, &all.public_values, &all.nodes, sizes][..], &lookup_lists(all)].concat();
        let decoded = (choices.known(), decoded(&lists, &rooms.read), decoded(&[workspace], &rooms.written));
        let (Some(_), Some(read), Some(mut written)) = decoded else { return refused(1) };
        let answer = self.balance(choices, &all.words(), &words_of(sizes), seed, &mut written);
        workspace.copy_from_slice(&bytes_of(&written));
        *rooms = Rooms { read, written };
        answer
    }

    fn count_from_i32(&self, choices: Choices, nodes: &mut [u32], used: u64, x: i32, count: &mut [u32; 2]) -> Answer {
        let Some(chosen) = with_room(choices, nodes, used) else { return refused(1) };
        let (word, weight) = model::count_of(chosen.field, x);
        put(&[0, word, 0], &mut nodes[NODE_WORDS * used as usize..]);
        *count = [used as u32, weight];
        ACCEPTED
    }

    fn count_negated(&self, choices: Choices, nodes: &mut [u32], used: u64, [node, weight]: [u32; 2], count: &mut [u32; 2]) -> Answer {
        if with_room(choices, nodes, used).is_none() {
            return refused(1);
        }
        if used <= u64::from(node) {
            return refused(3);
        }
        put(&[12, node, 0], &mut nodes[NODE_WORDS * used as usize..]);
        *count = [used as u32, weight];
        ACCEPTED
    }

    fn count_bounded(&self, node: u32, weight: u32, count: &mut [u32; 2]) {
        *count = [node, weight];
    }

    fn count_provided(&self, node: u32, count: &mut [u32; 2]) {
        *count = [node, 0];
    }

    fn row(&self, trace: &[u32], lookups: u64, height: u64, row: u64, part: &mut [u64; 2]) {
        *part = model::row(trace.len(), lookups, height, row);
    }

    fn power(&self, field: u32, a: &[u32], n: u32, out: &mut [u32]) -> u32 {
        on_element(field, a, out, |field, a| model::power(field, a, n.into()))
    }

    fn inverse(&self, field: u32, a: &[u32], out: &mut [u32]) -> u32 {
        on_element(field, a, out, model::inverse)
    }
}

/// What is chosen, where the numbers are known and node `used` can be added.
fn with_room(choices: Choices, nodes: &[u32], used: u64) -> Option<Chosen> {
    choices.known().filter(|chosen| model::room_for_node(chosen.profile.limits(), nodes.len(), used))
}

fn on_element(field: u32, a: &[u32], out: &mut [u32], function: impl Fn(Field, Ext) -> Ext) -> u32 {
    let Some(field) = Field::numbered(field).filter(|_| out.len() == 4) else { return 1 };
    match element(field, a) {
        Ok(a) => {
            put(&function(field, a), out);
            0
        }
        Err(number) => number,
    }
}

/// The words that a table's lookups take in the list that building is lent.
pub fn built_words(plan: &Plan) -> usize {
    LOOKUP_WORDS * plan.kinds.iter().sum::<u64>() as usize
}
