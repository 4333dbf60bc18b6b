//! Each function on one case: the model beside the crate, and beside the port where it is linked.
use std::collections::BTreeMap;
use std::fmt::Debug;

use crate::exports::{Exports, Model, Rooms, built_words, marked};
use crate::generator::{Case, List};
use crate::model::{self, Answer, Choices, Profile, Rule};
use crate::plain::{Ext, Field};
use crate::port::Port;
use crate::table::{Plan, Table, bytes_of, word};
use crate::wrapper::{Refused, Wrapper};

/// How a function's answer was compared.
#[derive(Clone, Copy, Debug, PartialEq, Eq, PartialOrd, Ord)]
pub enum Compared {
    /// The crate answers the same, or panics where the model refuses.
    Same,
    /// It answers the same but for weights over 2^32 - 1: they are held there, in what it is given and in what it gives.
    Held,
    /// Both refuse, but the crate meets another of several faults first.
    Choice,
    /// The crate has no such limit: it goes on.
    Limit,
    /// The crate cannot be given these words, or has no such notion.
    Untaken,
}

#[derive(Debug)]
pub struct Disagreement {
    pub function: &'static str,
    pub text: String,
}

/// How many tables there were in each field and profile, with nodes at offset 2 or 3, and with a local over 2^32 - 1; how many cases by each rule and
/// with an unknown choice; how often each function gave each number, was compared with the port, and was called once more: in the cabinet, or by
/// rule 1.
#[derive(Default)]
pub struct Tally {
    pub fields: BTreeMap<Field, u64>,
    pub profiles: BTreeMap<Profile, u64>,
    pub far: u64,
    pub heavy: u64,
    pub rules: BTreeMap<Rule, u64>,
    pub unknown: u64,
    pub counts: BTreeMap<(&'static str, u32, Compared), u64>,
    pub ported: BTreeMap<&'static str, u64>,
    pub repeated: BTreeMap<&'static str, u64>,
    pub reversed: BTreeMap<&'static str, u64>,
}

type Checked = Result<Compared, String>;

pub fn check(case: &Case, port: Option<Port>, tally: &mut Tally) -> Result<(), Disagreement> {
    *tally.fields.entry(case.field()).or_default() += case.tables.len() as u64;
    *tally.profiles.entry(case.chosen().profile).or_default() += case.tables.len() as u64;
    tally.far += case.tables.iter().filter(|t| t.looks_far()).count() as u64;
    tally.heavy += case.tables.iter().filter(|t| t.has_heavy_local()).count() as u64;
    *tally.rules.entry(case.chosen().rule).or_default() += 1;
    tally.unknown += u64::from(case.choices.known_with_rule().is_none());
    let mut run = |function: &'static str, (answer, compared): (Answer, Checked)| match compared {
        Ok(compared) => {
            *tally.counts.entry((function, answer.number, compared)).or_default() += 1;
            Ok(())
        }
        Err(text) => Err(Disagreement { function, text: format!("the model has {answer:?}; {text}") }),
    };
    run("generation", generation(case))?;
    for lookup in 0..case.tables[0].lookup_count().min(4) + 1 {
        run("degree", degree(case, lookup))?;
    }
    run("constraints", constraints(case))?;
    run("constraints", narrow_constraints(case))?;
    run("packing", packing(case))?;
    run("building", building(case))?;
    run("count", count(case))?;
    run("widths", widths(case))?;
    run("height bound", height_bound(case))?;
    run("terminals", terminals(case))?;
    run("prefixes", prefixes(case))?;
    run("balance", balance(case))?;
    match port {
        Some(port) => check_port(case, port, tally),
        None => Ok(()),
    }
}

/// The trace and terminal that the constraints are asked about: what passes, where that can be made, with the case's changes.
pub fn asked(case: &Case) -> (u64, Vec<u32>, Option<Ext>) {
    let t = &case.tables[0];
    let n = t.lookup_count();
    let width = n as u64 + 1 + case.extra_columns;
    let challenges = &case.challenges[..case.challenges.len().min(8 * n)];
    let mut buffer = vec![0; if t.fits() { 4 * (n + 1) * t.height as usize } else { 0 }];
    let (answer, terminal) = model::generate(t, challenges, &mut buffer);
    let (rows, terminal) = match answer.number {
        0 => (buffer, terminal),
        13..=15 => {
            let (rows, terminal) = model::satisfying(t, challenges);
            (rows, Some(terminal))
        }
        _ => (vec![], (0 < n).then_some([0; 4])),
    };
    // Of the length that the sizes say, also where one is over a limit: the limit alone refuses it then.
    let cells = if t.fits() { width as usize * t.height as usize * 4 } else { 0 };
    let mut trace = vec![5; cells];
    let needed = 4 * (n + 1);
    for (to, from) in trace.chunks_exact_mut(4 * width as usize).zip(rows.chunks_exact(needed)) {
        to[..needed].copy_from_slice(from);
    }
    let mut terminal = if case.terminal_misplaced { terminal.map_or(Some([0; 4]), |_| None) } else { terminal };
    for (place, addend) in &case.changes {
        let end = trace.len();
        let place = place % (end + 4);
        let word = if place < end { trace.get_mut(place) } else { terminal.as_mut().map(|t| &mut t[place - end]) };
        if let Some(word) = word {
            *word = if *addend < t.field.prime() { t.field.add_word(*word, *addend) } else { *addend };
        }
    }
    trace.truncate(trace.len() - case.missing_words.min(trace.len()));
    (width, trace, terminal)
}

/// The same with rows of one column too few.
fn asked_narrow(case: &Case) -> (u64, Vec<u32>, Option<Ext>) {
    let (width, mut trace, terminal) = asked(case);
    let narrow = case.tables[0].lookup_count();
    trace.truncate(trace.len() / width as usize * narrow);
    (narrow as u64, trace, terminal)
}

#[cfg(not(source))]
mod against_crate {
    //! Without the crate's source there is nothing to compare with.
    use super::*;

    macro_rules! untaken {
        ($($function:ident),*) => {
            $(pub fn $function(_case: &Case) -> (Answer, Checked) {
                (model::ACCEPTED, Ok(Compared::Untaken))
            })*
        };
    }

    untaken!(generation, constraints, narrow_constraints, packing, building, count, widths, height_bound, terminals, prefixes, balance);

    pub fn degree(_case: &Case, _lookup: usize) -> (Answer, Checked) {
        (model::ACCEPTED, Ok(Compared::Untaken))
    }
}

#[cfg(source)]
mod against_crate {
    //! The model beside the crate's own source.
    use super::*;
    use crate::oracle::{self, Run};
    use crate::table::Lookup;

    /// The crate must panic, with a message that holds this text.
    fn panics<T: Debug>(run: Run<T>, text: &str) -> Checked {
        match run {
            Err(message) if message.contains(text) => Ok(Compared::Same),
            other => Err(format!("the crate, which should panic with {text:?}, gives {other:?}")),
        }
    }

    fn answers<T: PartialEq + Debug>(run: Run<T>, expected: T) -> Checked {
        match run {
            Ok(answer) if answer == expected => Ok(Compared::Same),
            other => Err(format!("the crate, which should answer {expected:?}, gives {other:?}")),
        }
    }

    /// Lookups with each weight as the crate has it.
    fn held(lookups: &[Lookup]) -> Vec<Lookup> {
        lookups.iter().map(|l| Lookup { weight: word(l.weight).into(), ..l.clone() }).collect()
    }

    /// The crate must give these lookups, their weights held.
    fn gives(run: Run<Vec<Lookup>>, lookups: &[Lookup]) -> Checked {
        but_for_weights(answers(run, held(lookups)), held(lookups) != lookups)
    }

    fn but_for_weights(checked: Checked, others: bool) -> Checked {
        checked.map(|same| if others { Compared::Held } else { same })
    }

    fn below_p(field: Field, words: &[u32]) -> bool {
        words.iter().all(|w| *w < field.prime())
    }

    fn takes_all(tables: &[Table]) -> bool {
        tables.iter().all(oracle::takes)
    }

    pub fn generation(case: &Case) -> (Answer, Checked) {
        let t = &case.tables[0];
        let n = t.lookup_count();
        let mut trace = vec![7; case.buffer];
        let (answer, terminal) = model::generate(t, &case.challenges, &mut trace);
        if !oracle::takes(t) || !case.challenges.len().is_multiple_of(4) || !below_p(t.field, &case.challenges) {
            return (answer, Ok(Compared::Untaken));
        }
        let run = || oracle::generate(t, &case.challenges);
        let checked = match answer.number {
            0 => {
                let used = if n == 0 { 0 } else { t.height as usize * (n + 1) * 4 };
                if trace[used..].iter().any(|w| *w != 7) {
                    Err("words past the used part are written".into())
                } else {
                    answers(run(), (trace[..used].to_vec(), terminal))
                }
            }
            5 => panics(run(), "lookup slot index"),
            8 if case.challenges.len() < 8 * n => panics(run(), ""),
            9 => panics(run(), ""),
            13..=15 => {
                let fault = crate_fault(t, &case.challenges);
                let same = panics(run(), fault_text(fault));
                if fault == answer.number { same } else { same.map(|_| Compared::Choice) }
            }
            _ => Ok(Compared::Limit),
        };
        (answer, checked)
    }

    /// Which fault the crate meets first: it goes by 1,024 rows, and inverts the denominators of all of them at the end.
    fn crate_fault(t: &Table, challenges: &[u32]) -> u32 {
        let faults = model::faults(t, challenges);
        let part = faults[0].1 / 1024;
        let mut first_part = faults.iter().filter(|(_, row, _)| row / 1024 == part).map(|(fault, ..)| *fault);
        first_part.find(|fault| *fault != 15).unwrap_or(15)
    }

    fn fault_text(fault: u32) -> &'static str {
        match fault {
            13 => "exclusive flag must be boolean",
            14 => "exclusive flags must sum to at most one per row",
            _ => "Tried to invert zero",
        }
    }

    pub fn constraints(case: &Case) -> (Answer, Checked) {
        let t = &case.tables[0];
        let (width, trace, terminal) = asked(case);
        let answer = model::constraints(t, &case.challenges, width, &trace, terminal);
        let words = [&case.challenges[..], &trace, &terminal.unwrap_or_default()].concat();
        let whole = || case.challenges.len().is_multiple_of(4) && trace.len() as u64 == 4 * width * t.height;
        if !oracle::takes(t) || !whole() || !below_p(t.field, &words) {
            return (answer, Ok(Compared::Untaken));
        }
        let run = || oracle::constraints(t, &case.challenges, width, &trace, terminal);
        let checked = match answer.number {
            0 => answers(run(), None),
            17 => answers(run(), Some((answer.details[0] as usize, answer.details[1] as usize))),
            8 | 11 if 0 < t.height || t.lookup_count() == 0 => panics(run(), ""),
            // The run over a whole trace is not the crate's.
            9 => Ok(Compared::Untaken),
            _ => Ok(Compared::Limit),
        };
        (answer, checked)
    }

    /// A trace with one column too few: the crate panics where the port refuses.
    pub fn narrow_constraints(case: &Case) -> (Answer, Checked) {
        let t = &case.tables[0];
        let (width, trace, terminal) = asked_narrow(case);
        let answer = model::constraints(t, &case.challenges, width, &trace, terminal);
        if answer.number != 10 || !oracle::takes(t) {
            return (answer, Ok(Compared::Untaken));
        }
        (answer, panics(oracle::constraints(t, &case.challenges, width, &trace, terminal), ""))
    }

    pub fn degree(case: &Case, lookup: usize) -> (Answer, Checked) {
        let t = &case.tables[0];
        let (answer, degree) = model::degree(t, lookup as u64, case.transition);
        if answer.number != 0 || !oracle::takes(t) {
            let limit = oracle::takes(t) && lookup < t.lookup_count();
            return (answer, Ok(if limit { Compared::Limit } else { Compared::Untaken }));
        }
        (answer, answers(oracle::degree(t, lookup, case.transition as usize), degree))
    }

    pub fn packing(case: &Case) -> (Answer, Checked) {
        let t = &case.tables[0];
        let (answer, packed) = model::pack(t, case.limit);
        if !oracle::takes(t) {
            return (answer, Ok(Compared::Untaken));
        }
        let [_, expected, actual] = answer.details;
        let run = || oracle::pack(t, case.limit);
        let checked = match answer.number {
            0 => gives(run(), &packed),
            6 => panics(run(), &format!("tuple widths {expected} and {actual} differ")),
            7 => panics(run(), "count_weight overflow"),
            _ => Ok(Compared::Limit),
        };
        (answer, checked)
    }

    pub fn building(case: &Case) -> (Answer, Checked) {
        let t = &case.tables[0];
        let plan = Plan::of(&case.interactions);
        let (answer, built) = model::build(t, &plan, built_words(&plan));
        if !oracle::takes(t) || case.interactions.iter().any(|i| !i.nodes().iter().all(|n| (*n as usize) < t.node_count())) {
            return (answer, Ok(Compared::Untaken));
        }
        let [_, expected, actual] = answer.details;
        let run = || oracle::build(t, &case.interactions);
        let checked = match answer.number {
            0 => gives(run(), &built.records()),
            6 => panics(run(), &format!("local lookup: tuple widths {expected} and {actual} differ")),
            _ => Ok(Compared::Limit),
        };
        (answer, checked)
    }

    /// `Count` from a number, its negation, a bounded and a provided one: the node that is added, or the node itself, and the weight.
    pub fn count(case: &Case) -> (Answer, Checked) {
        let t = &case.tables[0];
        let [node, weight] = case.negated;
        let (word, magnitude) = model::count_of(t.field, case.count);
        let mut checked = answers(oracle::count_from(t.field, case.count), ([0, word, 0], magnitude));
        if oracle::takes(t) && (node as usize) < t.node_count() {
            let negated = answers(oracle::count_negated(t, node, weight), ([12, node, 0], weight));
            let bounded = answers(oracle::count_bounded(t, node, weight), (node, weight));
            let provided = answers(oracle::count_provided(t, node), (node, 0));
            checked = checked.and(negated).and(bounded).and(provided);
        }
        (model::ACCEPTED, checked)
    }

    pub fn widths(case: &Case) -> (Answer, Checked) {
        let (answer, widest) = model::widths(&case.tables);
        if !takes_all(&case.tables) {
            return (answer, Ok(Compared::Untaken));
        }
        let [_, expected, actual] = answer.details;
        let run = || oracle::widths(&case.tables);
        let checked = match answer.number {
            0 => answers(run(), Ok(widest)),
            6 => answers(run(), Err((expected, actual))),
            _ => Ok(Compared::Limit),
        };
        (answer, checked)
    }

    pub fn height_bound(case: &Case) -> (Answer, Checked) {
        let answer = model::height_bound(&case.tables, &case.heights);
        if !takes_all(&case.tables) {
            return (answer, Ok(Compared::Untaken));
        }
        let run = || oracle::height_bound(&case.tables, &case.heights);
        let checked = match answer.number {
            0 => answers(run(), Ok(())),
            19 => {
                let by_held = model::height_bound(&all_held(&case.tables), &case.heights);
                but_for_weights(answers(run(), Err(by_held.details[0].into())), by_held != answer)
            }
            _ if case.heights.len() != case.tables.len() => panics(run(), "lookups and heights must be aligned"),
            _ => Ok(Compared::Limit),
        };
        (answer, checked)
    }

    fn all_held(tables: &[Table]) -> Vec<Table> {
        let mut tables = tables.to_vec();
        tables.iter_mut().for_each(|t| t.set_records(&held(&t.records())));
        tables
    }

    pub fn terminals(case: &Case) -> (Answer, Checked) {
        let answer = model::terminals(case.chosen(), &case.terminals);
        let checked = match answer.number {
            0 | 20 => answers(oracle::terminals(case.field(), &case.terminals), answer.number == 0),
            _ => Ok(Compared::Untaken),
        };
        (answer, checked)
    }

    pub fn prefixes(case: &Case) -> (Answer, Checked) {
        let (alpha, beta) = (case.challenge(0), case.challenge(1));
        let (answer, prefixes) = model::prefixes(case.chosen(), alpha, beta, case.prefix_width, case.prefixes);
        let run = || oracle::prefixes(case.field(), alpha, beta, case.prefix_width, case.prefixes);
        let checked = match answer.number {
            0 => answers(run(), prefixes),
            12 => panics(run(), "max_message_width must be non-zero"),
            1 => Ok(Compared::Limit),
            _ => Ok(Compared::Untaken),
        };
        (answer, checked)
    }

    pub fn balance(case: &Case) -> (Answer, Checked) {
        let mut workspace = vec![7; case.workspace];
        let answer = model::balance(&case.tables, &mut workspace);
        if !takes_all(&case.tables) {
            return (answer, Ok(Compared::Untaken));
        }
        let [group, slot, net] = answer.details;
        let run = || oracle::balance(&case.tables);
        let checked = match answer.number {
            0 => answers(run(), ()),
            9 => panics(run(), ""),
            18 => {
                let words = &workspace[model::SLOT_WORDS * slot as usize..];
                let tuple: Vec<String> = words[1..=words[0] as usize].iter().map(u32::to_string).collect();
                let label = oracle::group_label(&case.tables, &model::groups(&case.tables)[group as usize]);
                panics(run(), &format!("Lookup mismatch ({label}): tuple {tuple:?} has net multiplicity {net}. "))
            }
            _ => Ok(Compared::Limit),
        };
        (answer, checked)
    }
}

pub use against_crate::{
    balance, building, constraints, count, degree, generation, height_bound, narrow_constraints, packing, prefixes, terminals, widths,
};

/// Lent words hold something before the call, each something else.
fn lent(n: usize) -> Vec<u32> {
    (0..n as u32).map(|i| (i + 1).wrapping_mul(0x9E3779B1)).collect()
}

fn lent_bytes(n: usize) -> Vec<u8> {
    lent(n).into_iter().map(|w| (w >> 24) as u8).collect()
}

fn lent_words<const N: usize>() -> [u32; N] {
    lent(N).try_into().unwrap()
}

fn lent_numbers<const N: usize>() -> [u64; N] {
    std::array::from_fn(|i| 0xFEDCBA9876543210 + i as u64)
}

/// What a call gives back: its answer, and all that was lent to it to be written, as it is afterwards.
trait Given: PartialEq + Debug {
    fn number(&self) -> u32;
}

impl Given for Answer {
    fn number(&self) -> u32 {
        self.number
    }
}

impl<T: PartialEq + Debug> Given for Refused<T> {
    fn number(&self) -> u32 {
        self.as_ref().err().map_or(0, |answer| answer.number)
    }
}

impl<A: Given, L: PartialEq + Debug> Given for (A, L) {
    fn number(&self) -> u32 {
        self.0.number()
    }
}

const MODEL: Port = Port { exports: &Model, wrapper: &Model };

/// The model and the port, beside each other.
struct Beside<'a> {
    case: &'a Case,
    /// The same in the cabinet, of a case in the gateway.
    in_cabinet: Option<Case>,
    /// The same by rule 1 with each tuple reversed, of a case by rule 2.
    by_rule_1: Option<Case>,
    port: Port<'a>,
    tally: &'a mut Tally,
}

/// The model beside the port, on every input, the gateway beside the cabinet, and rule 2 beside rule 1: the answer, and every word that was lent to
/// be written.
pub fn check_port(case: &Case, port: Port, tally: &mut Tally) -> Result<(), Disagreement> {
    let in_cabinet = (case.chosen().profile == Profile::Gateway).then(|| case.in_cabinet());
    let mut beside = Beside { case, in_cabinet, by_rule_1: case.by_rule_1(), port, tally };
    beside.of_one_table()?;
    beside.of_several_tables()?;
    beside.of_words()?;
    beside.on_bytes()?;
    beside.wrapper()
}

impl Beside<'_> {
    fn exported<T: Given>(&mut self, function: &'static str, call: impl Fn(&dyn Exports, &Case) -> T) -> Result<(), Disagreement> {
        self.called(function, |port, case| call(port.exports, case))
    }

    fn wrapped<T: Given>(&mut self, function: &'static str, call: impl Fn(&dyn Wrapper, &Case) -> T) -> Result<(), Disagreement> {
        self.called(function, |port, case| call(port.wrapper, case))
    }

    /// A function that takes a profile: that of the choices, or in the wrapper that of the tables, of the case that the call is given. What the
    /// gateway does not refuse by 1 is called once more in the cabinet, on the same lent memory.
    fn called<T: Given>(&mut self, function: &'static str, call: impl Fn(Port, &Case) -> T) -> Result<(), Disagreement> {
        let (model, port) = (call(MODEL, self.case), call(self.port, self.case));
        self.beside_model(function, &model, &port)?;
        match &self.in_cabinet {
            Some(case) if port.number() != 1 => {
                *self.tally.repeated.entry(function).or_default() += 1;
                same(function, "gateway and cabinet", &port, &call(self.port, case))
            }
            _ => Ok(()),
        }
    }

    /// A function that takes a rule: by rule 2 it gives what it gives by rule 1 where each tuple is reversed.
    fn ruled<T: PartialEq + Debug>(&mut self, function: &'static str, call: impl Fn(&dyn Exports, &Case) -> T) -> Result<(), Disagreement> {
        let (Some(case), port) = (&self.by_rule_1, self.port.exports) else { return Ok(()) };
        *self.tally.reversed.entry(function).or_default() += 1;
        same(function, "rule 2 and rule 1 on reversed tuples", &call(port, self.case), &call(port, case))
    }

    /// A function that takes no profile.
    fn unprofiled<T: PartialEq + Debug>(&mut self, function: &'static str, call: impl Fn(Port) -> T) -> Result<(), Disagreement> {
        self.beside_model(function, &call(MODEL), &call(self.port))
    }

    fn beside_model<T: PartialEq + Debug>(&mut self, function: &'static str, model: &T, port: &T) -> Result<(), Disagreement> {
        *self.tally.ported.entry(function).or_default() += 1;
        same(function, "model and port", model, port)
    }

    fn of_one_table(&mut self) -> Result<(), Disagreement> {
        let (case, t) = (self.case, &self.case.tables[0]);
        let generation = |port: &dyn Exports, case: &Case| {
            let (mut trace, mut terminal) = (lent(case.buffer), lent_words());
            let answer = port.generate(case.choices, &case.tables[0], &case.challenges, &mut trace, &mut terminal);
            (answer, (terminal, trace))
        };
        self.exported("generation", generation)?;
        self.ruled("generation", generation)?;
        for (width, trace, terminal) in [asked(case), asked_narrow(case)] {
            // An absent terminal's words are not read; any mark but 0 says that it is there.
            let mut terminal = terminal.map_or([0, u32::MAX, 1, 2, 3], |t| marked(Some(t)));
            terminal[0] *= case.seed as u32 | 1;
            let constraints = |port: &dyn Exports, case: &Case| {
                port.constraints(case.choices, &case.tables[0], &case.challenges, width, &trace, terminal)
            };
            self.exported("constraints", constraints)?;
            self.ruled("constraints", constraints)?;
        }
        for lookup in 0..t.lookup_count() as u64 + 1 {
            self.exported("degree", |port, case| {
                let [mut degree] = lent_numbers();
                (port.degree(case.choices, t, lookup, word(case.transition), &mut degree), degree)
            })?;
        }
        let [lookups, names, tuples, multiplicities, flags, elements] = t.lengths();
        let packed = |i: usize, n: usize| case.edited(List::Packed(i), lent(n));
        self.exported("packing", |port, case| {
            let mut used = lent_numbers();
            let mut out = Table {
                lookups: packed(0, lookups),
                names: case.edited(List::Packed(1), lent_bytes(names)),
                tuples: packed(2, tuples),
                multiplicities: packed(3, multiplicities),
                flags: packed(4, flags),
                elements: packed(5, elements),
                ..Table::default()
            };
            (port.pack(case.choices, t, case.limit, &mut out, &mut used), (used, out))
        })?;
        let mut plan = Plan::of(&case.interactions);
        let room = built_words(&plan);
        plan.interactions = case.edited(List::Interactions, plan.interactions);
        plan.weights = case.edited(List::Weights, plan.weights);
        self.exported("building", |port, case| {
            let (mut lookups, [mut used]) = (case.edited(List::Built, lent(room)), lent_numbers());
            (port.build(case.choices, t, &plan, &mut lookups, &mut used), (used, lookups))
        })
    }

    fn of_several_tables(&mut self) -> Result<(), Disagreement> {
        let (case, tables) = (self.case, &self.case.tables);
        let all = Table::joined(tables);
        let three = |t: &Table| [t.lookup_count(), t.names.len(), t.tuples.len()].map(|n| n as u32);
        let sizes = case.edited(List::BusSizes, tables.iter().flat_map(three).collect());
        self.exported("widths", |port, case| {
            let [mut widest] = lent_numbers();
            (port.widths(case.choices, &all, &sizes, &mut widest), widest)
        })?;
        let counts = case.edited(List::Counts, tables.iter().map(|t| t.lookup_count() as u32).collect());
        let heights = case.edited(List::Heights, case.heights.iter().map(|h| word(*h)).collect());
        self.exported("height bound", |port, case| port.height_bound(case.choices, &all.lookups, &counts, &heights))?;
        let sizes = case.edited(List::Sizes, tables.iter().flat_map(Table::sizes).collect());
        self.exported("balance", |port, case| {
            let mut workspace = lent(case.workspace);
            (port.balance(case.choices, &all, &sizes, case.seed, &mut workspace), workspace)
        })
    }

    fn of_words(&mut self) -> Result<(), Disagreement> {
        let case = self.case;
        let mut given = case.edited(List::Terminals, case.terminals.iter().flat_map(|t| marked(*t)).collect());
        // Any mark but 0 says that a terminal is there.
        given.iter_mut().step_by(5).for_each(|mark| *mark = mark.wrapping_mul(case.seed as u32 | 1));
        self.exported("terminals", |port, case| port.terminals(case.choices, &given))?;

        let (alpha, beta) = (case.edited(List::Alpha, case.challenge(0).into()), case.edited(List::Beta, case.challenge(1).into()));
        let room = 4 * case.prefixes.min(model::CABINET.prefixes + 1) as usize;
        self.exported("prefixes", |port, case| {
            let mut out = case.edited(List::Prefixes, lent(room));
            (port.prefixes(case.choices, &alpha, &beta, case.prefix_width, case.prefixes, &mut out), out)
        })?;
        let element = case.edited(List::Element, case.challenge(0).into());
        self.unprofiled("power", |port| {
            let mut out = case.edited(List::ElementOut, lent(4));
            (port.exports.power(case.choices.field, &element, case.exponent, &mut out), out)
        })?;
        self.unprofiled("inverse", |port| {
            let mut out = case.edited(List::ElementOut, lent(4));
            (port.exports.inverse(case.choices.field, &element, &mut out), out)
        })?;

        let nodes = case.edited(List::Nodes, [&case.tables[0].nodes[..], &lent(3)].concat());
        self.exported("count from a number", |port, case| {
            let (mut nodes, mut count) = (nodes.clone(), lent_words());
            (port.count_from_i32(case.choices, &mut nodes, case.counted, case.count, &mut count), (count, nodes))
        })?;
        self.exported("negated count", |port, case| {
            let (mut nodes, mut count) = (nodes.clone(), lent_words());
            (port.count_negated(case.choices, &mut nodes, case.counted, case.negated, &mut count), (count, nodes))
        })?;
        let [node, weight] = case.negated;
        self.unprofiled("bounded and provided counts", |port| {
            let (mut bounded, mut provided) = (lent_words(), lent_words());
            port.exports.count_bounded(node, weight, &mut bounded);
            port.exports.count_provided(node, &mut provided);
            (bounded, provided)
        })?;
        let (trace, [lookups, height, row]) = (lent(case.buffer), case.reader);
        self.unprofiled("row", |port| {
            let mut part = lent_numbers();
            port.exports.row(&trace, lookups, height, row, &mut part);
            part
        })
    }

    fn on_bytes(&mut self) -> Result<(), Disagreement> {
        let case = self.case;
        let edited = |i: usize, words: &[u32]| case.edited(List::Bytes(i), bytes_of(words));
        let rooms = |read: usize, written: usize| Rooms {
            read: case.edited(List::Read, lent(read)),
            written: case.edited(List::Written, lent(written)),
        };
        let (t, challenges) = (table_bytes(case, &case.tables[0]), edited(9, &case.challenges));
        let generation = |port: &dyn Exports, choices: Choices, t: &Table<u8>| {
            let (mut trace, mut terminal) = (edited(10, &lent(case.buffer)), lent_words());
            let mut rooms = rooms(trace_words(t) + t.nodes.len() / 4 + challenges.len() / 4 + lookup_words(t), trace.len() / 4);
            (port.generate_bytes(choices, t, &challenges, &mut trace, &mut rooms, &mut terminal), (terminal, trace, rooms))
        };
        self.exported("generation on bytes", |port, case| generation(port, case.choices, &t))?;
        // An edit of widths or elements would reach other tuples of the reversed ones.
        if !case.edits.iter().any(|(list, _)| matches!(list, List::Bytes(TUPLES | ELEMENTS))) {
            self.ruled("generation on bytes", |port, case| {
                let (answer, (terminal, trace, rooms)) = generation(port, case.choices, &table_bytes(case, &case.tables[0]));
                // The other room holds the elements as they were lent.
                (answer, terminal, trace, rooms.written)
            })?;
        }
        let lengths = case.tables[0].lengths();
        self.exported("packing on bytes", |port, case| {
            let mut used = lent_numbers();
            let mut out = Table {
                lookups: edited(11, &lent(lengths[0])),
                names: case.edited(List::Packed(1), lent_bytes(lengths[1])),
                tuples: bytes_of(&lent(lengths[2])),
                multiplicities: bytes_of(&lent(lengths[3])),
                flags: bytes_of(&lent(lengths[4])),
                elements: bytes_of(&lent(lengths[5])),
                ..Table::default()
            };
            let mut rooms = rooms(t.nodes.len() / 4 + lookup_words(&t), lookup_words(&out));
            (port.pack_bytes(case.choices, &t, case.limit, &mut out, &mut rooms, &mut used), (used, out, rooms))
        })?;
        let all = table_bytes(case, &Table::joined(&case.tables));
        let sizes = edited(9, case.tables.iter().map(Table::sizes).collect::<Vec<_>>().as_flattened());
        self.exported("balance on bytes", |port, case| {
            let mut workspace = edited(10, &lent(case.workspace));
            let read = trace_words(&all) + all.nodes.len() / 4 + sizes.len() / 4 + lookup_words(&all);
            let mut rooms = rooms(read, workspace.len() / 4);
            (port.balance_bytes(case.choices, &all, &sizes, case.seed, &mut workspace, &mut rooms), (workspace, rooms))
        })
    }

    /// Every function of the safe wrapper: the value or the refusal, and what is lent to be written.
    fn wrapper(&mut self) -> Result<(), Disagreement> {
        let (case, t, field) = (self.case, &self.case.tables[0], self.case.field());
        let plan = Plan::of(&case.interactions);
        let built = model::build(t, &plan, built_words(&plan)).1.records();
        let records = if t.fits() { t.records() } else { built.clone() };
        self.unprofiled("wrapper: with", |port| [&records, &built].map(|lookups| port.wrapper.with(t, lookups)))?;
        self.unprofiled("wrapper: lookup_count", |port| port.wrapper.lookup_count(t))?;
        self.unprofiled("wrapper: sizes", |port| port.wrapper.sizes(t))?;
        let (width, trace, terminal) = asked(case);
        if let (challenges, []) = case.challenges.as_chunks() {
            self.wrapped("wrapper: generate", |w, case| w.generate(&case.tables[0], challenges))?;
            self.wrapped("wrapper: constraints", |w, case| w.constraints(&case.tables[0], challenges, width, &trace, terminal))?;
        }
        self.wrapped("wrapper: generate_into", |w, case| {
            let mut trace = lent(case.buffer);
            (w.generate_into(&case.tables[0], &case.challenges, &mut trace), trace)
        })?;
        self.wrapped("wrapper: constraints_on", |w, case| w.constraints_on(&case.tables[0], &case.challenges, width, &trace, terminal))?;
        self.wrapped("wrapper: degree", |w, case| w.degree(&case.tables[0], case.seed % 3, word(case.transition)))?;
        self.wrapped("wrapper: pack", |w, case| w.pack(&case.tables[0], case.limit).map(handed_back))?;
        self.wrapped("wrapper: build", |w, case| w.build(&case.tables[0], &case.interactions).map(handed_back))?;
        self.wrapped("wrapper: widths", |w, case| w.widths(&case.tables))?;
        self.wrapped("wrapper: height_bound", |w, case| w.height_bound(&case.tables, &case.heights))?;
        self.wrapped("wrapper: terminals", |w, case| w.terminals(case.chosen(), &case.terminals))?;
        let (alpha, beta) = (case.challenge(0), case.challenge(1));
        self.wrapped("wrapper: prefixes", |w, case| w.prefixes(case.chosen(), alpha, beta, case.prefix_width, case.prefixes))?;
        self.unprofiled("wrapper: power", |port| port.wrapper.power(field, alpha, case.exponent))?;
        self.unprofiled("wrapper: inverse", |port| [alpha, [0; 4]].map(|a| port.wrapper.inverse(field, a)))?;
        self.wrapped("wrapper: balance", |w, case| {
            let mut workspace = lent(case.workspace);
            (w.balance(&case.tables, &mut workspace), workspace)
        })?;
        self.wrapped("wrapper: balance_with_seed", |w, case| {
            let mut workspace = lent(case.workspace);
            (w.balance_with_seed(&case.tables, case.seed, &mut workspace), workspace)
        })?;

        let [node, weight] = case.negated;
        self.unprofiled("wrapper: Count::bounded", |port| port.wrapper.count_bounded(node, weight))?;
        self.unprofiled("wrapper: Count::provided", |port| port.wrapper.count_provided(node))?;
        self.wrapped("wrapper: Count::from_i32", |w, case| {
            let mut nodes = t.nodes.clone();
            (w.count_from_i32(case.chosen(), &mut nodes, case.count), nodes)
        })?;
        self.wrapped("wrapper: Count::negated", |w, case| {
            let mut nodes = t.nodes.clone();
            (w.count_negated(case.chosen(), &mut nodes, case.negated), nodes)
        })?;
        let (trace, [lookups, height, row]) = (lent(case.buffer), case.reader);
        self.unprofiled("wrapper: row", |port| port.wrapper.row(&trace, lookups, height, row))?;

        self.unprofiled("wrapper: bytes::of", |port| port.wrapper.bytes_of(&case.challenges))?;
        self.wrapped("wrapper: bytes::generate_into", |w, case| {
            let mut trace = case.edited(List::Bytes(10), lent_bytes(4 * case.buffer));
            (w.generate_bytes(&table_bytes(case, &case.tables[0]), &bytes_of(&case.challenges), &mut trace), trace)
        })?;
        self.wrapped("wrapper: bytes::pack", |w, case| w.pack_bytes(&table_bytes(case, &case.tables[0]), case.limit).map(handed_back))?;
        self.wrapped("wrapper: bytes::balance", |w, case| {
            let mut workspace = case.edited(List::Bytes(10), lent_bytes(4 * case.workspace));
            (w.balance_bytes(&case.tables, &mut workspace), workspace)
        })?;
        self.wrapped("wrapper: bytes::balance_with_seed", |w, case| {
            let mut workspace = case.edited(List::Bytes(10), lent_bytes(4 * case.workspace));
            (w.balance_bytes_with_seed(&case.tables, case.seed, &mut workspace), workspace)
        })
    }
}

fn same<T: PartialEq + Debug>(function: &'static str, whose: &str, one: &T, other: &T) -> Result<(), Disagreement> {
    let text = || format!("{whose} differ:\n{one:?}\n{other:?}");
    if one == other { Ok(()) } else { Err(Disagreement { function, text: text() }) }
}

/// A table that is handed back, without the profile of the table that it came from.
fn handed_back<W>(table: Table<W>) -> Table<W> {
    Table { profile: Profile::default(), ..table }
}

/// The places of two lists among those of bytes.
const TUPLES: usize = 5;
const ELEMENTS: usize = 8;

/// The lists of a table as bytes, with the case's edits.
fn table_bytes(case: &Case, t: &Table) -> Table<u8> {
    let mut b = t.bytes();
    let Table { main, preprocessed, public_values, nodes, lookups, tuples, multiplicities, flags, elements, .. } = &mut b;
    for (i, list) in [main, preprocessed, public_values, nodes, lookups, tuples, multiplicities, flags, elements].into_iter().enumerate() {
        *list = case.edited(List::Bytes(i), std::mem::take(list));
    }
    b
}

/// How many words the lists of bytes hold: those of the traces with the public values, and those of the lookups.
fn trace_words(t: &Table<u8>) -> usize {
    [&t.main, &t.preprocessed, &t.public_values].iter().map(|list| list.len() / 4).sum()
}

fn lookup_words(t: &Table<u8>) -> usize {
    [&t.lookups, &t.tuples, &t.multiplicities, &t.flags, &t.elements].iter().map(|list| list.len() / 4).sum()
}
