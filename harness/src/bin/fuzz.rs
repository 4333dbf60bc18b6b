//! Calls every exported function with good, damaged and random words, in both fields and profiles, by both rules and with unknown choices, in
//! memory that notices reads and writes outside what is lent. After each call: the number is one of the function's, and 1 where a choice is
//! unknown; details are zero unless docs/SPECIFICATION.md names them; nothing beside the lists and no input was written; refusals 1 to 12 left all
//! outputs as they were, the small ones too, and an unknown choice also the rooms.
//!
//!     cargo run --release --offline --features port --bin fuzz -- --cases 100000 --seed 1
use std::collections::BTreeMap;
use std::process::ExitCode;
use std::time::Instant;

use delmatik::sys;
use harness::generator::{self, AT_PRIMES, Case};
use harness::lent::{Kept, Lender};
use harness::model::Choices;
use harness::plain::{Field, Random};
use harness::table::{Lookup, Table};

/// How many details docs/SPECIFICATION.md names for a refusal.
fn named(number: u32) -> usize {
    match number {
        6 | 18 => 3,
        13..=15 | 17 => 2,
        19 => 1,
        _ => 0,
    }
}

struct Fuzz {
    lender: Lender,
    random: Random,
    /// Of the case that is run.
    choices: Choices,
    counts: BTreeMap<(&'static str, u32), u64>,
}

/// The choices that a function takes.
#[derive(Clone, Copy)]
enum Takes {
    None,
    Field,
    FieldAndProfile,
    Rule,
}

/// A size now and then replaced by an extreme one.
fn size(random: &mut Random, n: u64) -> usize {
    let extremes = [0, 1, 9, 65, 4096, 4097, 1 << 20, (1 << 20) + 1, 1 << 31, 1 << 32, 1 << 61, 1 << 62, 1 << 63, u64::MAX];
    if random.below(12) == 0 { extremes[random.below(extremes.len() as u64) as usize] as usize } else { n as usize }
}

/// A list now and then with extreme words, cut, or grown.
fn list(random: &mut Random, words: &[u32]) -> Vec<u32> {
    let mut words = words.to_vec();
    let [a, b, c, d, e, f] = AT_PRIMES;
    let extremes = [0, 1, 4, 5, 8, 9, 64, 65, 4096, 4097, a, b, c, d, e, f, 1 << 31, u32::MAX - 7, u32::MAX];
    let count = extremes.len() as u32;
    match random.below(24) {
        0 => words.truncate(random.below(words.len() as u64 + 1) as usize),
        1 => words.extend((0..random.below(9)).map(|i| extremes[i as usize])),
        2 => words.iter_mut().for_each(|w| *w = extremes[(*w % count) as usize]),
        3..=5 if !words.is_empty() => {
            let at = random.below(words.len() as u64) as usize;
            words[at] = extremes[random.below(count.into()) as usize];
        }
        6 => words.iter_mut().for_each(|w| *w = random.draw() as u32),
        _ => (),
    }
    words
}

/// The words in bytes, the least first; now and then a byte more or less.
fn bytes(random: &mut Random, words: &[u32]) -> Vec<u8> {
    let mut bytes: Vec<u8> = words.iter().flat_map(|w| w.to_le_bytes()).collect();
    match random.below(60) {
        0 => bytes.push(1),
        1 => drop(bytes.pop()),
        _ => (),
    }
    bytes
}

/// A room for the words of these lists of bytes; now and then of another length.
fn room(random: &mut Random, lists: &[Vec<u8>]) -> Vec<u32> {
    let n = lists.iter().map(|list| list.len() / 4).sum::<usize>();
    vec![5; if random.below(60) == 0 { n + 2 - random.below(3) as usize } else { n }]
}

/// Expands to a call with the case's field and profile, and for a function after `ruled` its rule: `[list]` is lent to be read, `[mut list]` to
/// be written, `[room list]` to be written unless a choice is unknown, `(out list)` is a pointer to numbers that are written unless the call
/// is refused; the three details come last.
macro_rules! call {
    ($fuzz:ident, ruled $function:ident($($arguments:tt)*)) => { call!($fuzz, Rule, $function(rule)($($arguments)*)) };
    ($fuzz:ident, $function:ident($($arguments:tt)*)) => { call!($fuzz, FieldAndProfile, $function()($($arguments)*)) };
    ($fuzz:ident, $takes:ident, $function:ident($($rule:ident)?)($($arguments:tt)*)) => {{
        let high = $fuzz.random.below(2) == 0;
        $fuzz.lender.start(high);
        let (details, choices) = ($fuzz.lender.answer(&[7u64; 3]), $fuzz.choices);
        let number = call!(@ $fuzz $function details (choices.field, choices.profile, $(choices.$rule,)?) $($arguments)*);
        $fuzz.judge(stringify!($function), Takes::$takes, number)
    }};
    (@ $fuzz:ident $function:ident $details:ident ($($done:tt)*) [mut $list:expr], $($rest:tt)*) => {{
        let lent = $fuzz.lender.write($list);
        call!(@ $fuzz $function $details ($($done)* lent.0, lent.1,) $($rest)*)
    }};
    (@ $fuzz:ident $function:ident $details:ident ($($done:tt)*) [room $list:expr], $($rest:tt)*) => {{
        let lent = $fuzz.lender.room($list);
        call!(@ $fuzz $function $details ($($done)* lent.0, lent.1,) $($rest)*)
    }};
    (@ $fuzz:ident $function:ident $details:ident ($($done:tt)*) [$list:expr], $($rest:tt)*) => {{
        let lent = $fuzz.lender.read($list);
        call!(@ $fuzz $function $details ($($done)* lent.0, lent.1,) $($rest)*)
    }};
    (@ $fuzz:ident $function:ident $details:ident ($($done:tt)*) (out $list:expr), $($rest:tt)*) => {{
        let lent = $fuzz.lender.write($list).0;
        call!(@ $fuzz $function $details ($($done)* lent.cast(),) $($rest)*)
    }};
    (@ $fuzz:ident $function:ident $details:ident ($($done:tt)*) $argument:expr, $($rest:tt)*) => {{
        let argument = $argument;
        call!(@ $fuzz $function $details ($($done)* argument,) $($rest)*)
    }};
    (@ $fuzz:ident $function:ident $details:ident ($($done:tt)*)) => { unsafe { sys::$function($($done)* $details.cast()) } };
}

impl Fuzz {
    fn judge(&mut self, function: &'static str, takes: Takes, number: u32) -> Result<(), String> {
        *self.counts.entry((function, number)).or_default() += 1;
        let unknown = match takes {
            Takes::None => false,
            Takes::Field => Field::numbered(self.choices.field).is_none(),
            Takes::FieldAndProfile => self.choices.known().is_none(),
            Takes::Rule => self.choices.known_with_rule().is_none(),
        };
        if 20 < number || unknown && number != 1 {
            return Err(format!("{function} answers {number} to {:?}", self.choices));
        }
        // The details are list 0.
        let details = self.lender.list(0).as_chunks::<8>().0;
        if details[named(number)..].iter().any(|d| *d != [0; 8]) {
            return Err(format!("{function}, {number}: details {details:?}"));
        }
        let kept = if unknown {
            Kept::OutputsAndRooms
        } else if (1..=12).contains(&number) {
            Kept::Outputs
        } else {
            Kept::Nothing
        };
        self.lender.check(kept).map_err(|text| format!("{function}, {number}: {text}"))
    }

    /// The functions of one table.
    fn table(&mut self, case: &Case) -> Result<(), String> {
        let t = self.spoiled(&case.tables[0]);
        let r = &mut self.random;
        let [width, height, pre_width, pre_height] = [t.main_width, t.height, t.pre_width, t.pre_height].map(|n| size(r, n));
        let challenges = list(r, &case.challenges);
        let trace = list(r, &vec![9; case.buffer.min(1 << 14)]);
        call!(self, ruled delmatik_generate(
            width, height, pre_width, pre_height, [&t.main], [&t.preprocessed], [&t.public_values], [&t.nodes], [&t.lookups], [&t.names],
            [&t.tuples], [&t.multiplicities], [&t.flags], [&t.elements], [&challenges], [mut &trace], (out &[7u32; 5]),
        ))?;
        let r = &mut self.random;
        let words = [
            &t.main,
            &t.preprocessed,
            &t.public_values,
            &t.nodes,
            &t.lookups,
            &t.tuples,
            &t.multiplicities,
            &t.flags,
            &t.elements,
            &challenges,
            &trace,
        ];
        let b = words.map(|list| bytes(r, list));
        let (read, written) = (room(r, &b[..10]), room(r, &b[10..]));
        call!(self, ruled delmatik_generate_bytes(
            width, height, pre_width, pre_height, [&b[0]], [&b[1]], [&b[2]], [&b[3]], [&b[4]], [&t.names], [&b[5]], [&b[6]], [&b[7]],
            [&b[8]], [&b[9]], [mut &b[10]], [room &read], [room &written], (out &[7u32; 5]),
        ))?;
        let r = &mut self.random;
        let columns = size(r, (t.lookup_count() as u64 + 1).wrapping_add(case.extra_columns));
        let [present, c0, c1, c2, c3] = [1, 1, 1, 1, 1].map(|n| size(r, n) as u32);
        call!(self, ruled delmatik_constraints(
            width, height, pre_width, pre_height, [&t.main], [&t.preprocessed], [&t.public_values], [&t.nodes], [&t.lookups], [&t.names],
            [&t.tuples], [&t.multiplicities], [&t.flags], [&t.elements], [&challenges], columns, [&trace], present, c0, c1, c2, c3,
        ))?;
        let r = &mut self.random;
        let (lookup, transition, publics) = (r.below(4) as usize, size(r, case.transition) as u32, size(r, t.public_values.len() as u64));
        call!(
            self,
            delmatik_degree(
                width,
                pre_width,
                publics,
                [&t.nodes],
                [&t.lookups],
                [&t.names],
                [&t.tuples],
                [&t.multiplicities],
                [&t.flags],
                [&t.elements],
                lookup,
                transition,
                (out & [7u64]),
            )
        )?;
        let r = &mut self.random;
        let (lookups, tuples, multiplicities) = (list(r, &t.lookups), list(r, &t.tuples), list(r, &t.multiplicities));
        let (flags, elements) = (list(r, &t.flags), list(r, &t.elements));
        call!(self, delmatik_pack(
            case.limit, width, pre_width, publics, [&t.nodes], [&t.lookups], [&t.names], [&t.tuples], [&t.multiplicities], [&t.flags],
            [&t.elements], [mut &lookups], [mut &t.names], [mut &tuples], [mut &multiplicities], [mut &flags], [mut &elements],
            (out &[7u64; 6]),
        ))?;
        let r = &mut self.random;
        let words = [
            &t.nodes,
            &t.lookups,
            &t.tuples,
            &t.multiplicities,
            &t.flags,
            &t.elements,
            &lookups,
            &tuples,
            &multiplicities,
            &flags,
            &elements,
        ];
        let b = words.map(|list| bytes(r, list));
        let (read, written) = (room(r, &b[..6]), room(r, &b[6..]));
        call!(self, delmatik_pack_bytes(
            case.limit, width, pre_width, publics, [&b[0]], [&b[1]], [&t.names], [&b[2]], [&b[3]], [&b[4]], [&b[5]], [mut &b[6]],
            [mut &t.names], [mut &b[7]], [mut &b[8]], [mut &b[9]], [mut &b[10]], [room &read], [room &written],
            (out &[7u64; 6]),
        ))
    }

    /// The interactions that the lookups of the first table would come from: the additive ones on a bus as globals.
    fn building(&mut self, case: &Case) -> Result<(), String> {
        let t = self.spoiled(&case.tables[0]);
        let mut records = if case.tables[0].fits() { case.tables[0].records() } else { vec![] };
        let kind = |l: &Lookup| if l.bus.is_none() { 0 } else { 1 + usize::from(l.exclusive) };
        records.sort_by_key(kind);
        let mut kinds = [0u64; 3];
        records.iter().for_each(|l| kinds[kind(l)] += 1);
        let mut sorted = Table::default();
        sorted.set_records(&records);
        let words: Vec<u32> = records.iter().flat_map(|l| [l.bus.as_ref().map_or(0, Vec::len) as u32, l.tuples.len() as u32]).collect();
        let weights: Vec<u32> = sorted.tuples.iter().map(|w| w.wrapping_mul(0x9E3779B9)).collect();
        let r = &mut self.random;
        let [locals, globals, exclusives] = kinds.map(|n| size(r, n));
        let (words, weights, room) = (list(r, &words), list(r, &weights), list(r, &vec![9; sorted.lookups.len()]));
        let [width, pre_width, publics] = [t.main_width, t.pre_width, t.public_values.len() as u64].map(|n| size(r, n));
        call!(self, delmatik_build(
            width, pre_width, publics, [&t.nodes], locals, globals, exclusives, [&words], [&weights], [&sorted.names], [&sorted.tuples],
            [&sorted.multiplicities], [&sorted.flags], [&sorted.elements], [mut &room], (out &[7u64]),
        ))
    }

    /// The functions over several tables.
    fn tables(&mut self, case: &Case) -> Result<(), String> {
        let all: Vec<Table> = case.tables.iter().map(|t| self.spoiled(t)).collect();
        let joined = |of: fn(&Table) -> &[u32]| -> Vec<u32> { all.iter().flat_map(of).copied().collect() };
        let names: Vec<u8> = all.iter().flat_map(|t| &t.names).copied().collect();
        let (lookups, tuples) = (joined(|t| &t.lookups), joined(|t| &t.tuples));
        let count = |t: &Table| t.lookup_count() as u32;
        let three: Vec<u32> = all.iter().flat_map(|t| [count(t), t.names.len() as u32, t.tuples.len() as u32]).collect();
        let r = &mut self.random;
        let three = list(r, &three);
        call!(self, delmatik_widths([&lookups], [&names], [&tuples], [&three], (out & [7u64]),))?;
        let r = &mut self.random;
        let counts = list(r, &all.iter().map(count).collect::<Vec<u32>>());
        let heights = list(r, &case.heights.iter().map(|h| *h as u32).collect::<Vec<u32>>());
        call!(self, delmatik_height_bound([&lookups], [&counts], [&heights],))?;
        let sizes = |t: &Table| {
            let shape = [t.main_width, t.height, t.pre_width, t.pre_height].map(|n| n as u32);
            let lists = [t.main.len(), t.preprocessed.len(), t.public_values.len(), t.node_count(), t.lookup_count(), t.names.len()];
            let more = [t.tuples.len(), t.multiplicities.len(), t.flags.len(), t.elements.len()];
            shape.into_iter().chain(lists.into_iter().chain(more).map(|n| n as u32)).collect::<Vec<u32>>()
        };
        let sizes: Vec<u32> = all.iter().flat_map(sizes).collect();
        let r = &mut self.random;
        let sizes = list(r, &sizes);
        let workspace = list(r, &vec![9; case.workspace.min(1 << 14)]);
        let (main, preprocessed, publics) = (joined(|t| &t.main), joined(|t| &t.preprocessed), joined(|t| &t.public_values));
        let (nodes, multiplicities) = (joined(|t| &t.nodes), joined(|t| &t.multiplicities));
        let (flags, elements) = (joined(|t| &t.flags), joined(|t| &t.elements));
        let seed = self.random.draw();
        call!(self, delmatik_balance(
            [&main], [&preprocessed], [&publics], [&nodes], [&lookups], [&names], [&tuples], [&multiplicities], [&flags], [&elements],
            [&sizes], size(&mut self.random, seed) as u64, [mut &workspace],
        ))?;
        let r = &mut self.random;
        let words = [&main, &preprocessed, &publics, &nodes, &lookups, &tuples, &multiplicities, &flags, &elements, &sizes, &workspace];
        let b = words.map(|list| bytes(r, list));
        let (read, written) = (room(r, &b[..10]), room(r, &b[10..]));
        call!(self, delmatik_balance_bytes(
            [&b[0]], [&b[1]], [&b[2]], [&b[3]], [&b[4]], [&names], [&b[5]], [&b[6]], [&b[7]], [&b[8]], [&b[9]], !seed, [mut &b[10]],
            [room &read], [room &written],
        ))
    }

    /// The functions on challenges and terminals.
    fn words(&mut self, case: &Case) -> Result<(), String> {
        let r = &mut self.random;
        let five = |t: &Option<[u32; 4]>| t.map_or([0; 5], |[a, b, c, d]| [1, a, b, c, d]);
        let terminals = list(r, &case.terminals.iter().flat_map(five).collect::<Vec<u32>>());
        call!(self, delmatik_terminals([&terminals],))?;
        let r = &mut self.random;
        let (alpha, beta) = (list(r, &case.challenge(0)), list(r, &case.challenge(1)));
        let (width, count) = (size(r, case.prefix_width), size(r, case.prefixes));
        let out = list(r, &vec![9; 4 * (case.prefixes as usize).min(300)]);
        call!(self, delmatik_prefixes([&alpha], [&beta], width, count, [mut &out],))
    }

    /// Counts, and the functions without details: on an element, bounded and provided counts, rows.
    fn others(&mut self, case: &Case) -> Result<(), String> {
        let r = &mut self.random;
        let nodes = list(r, &[&case.tables[0].nodes[..], &[9; 4]].concat());
        let (used, [node, weight]) = (size(r, case.counted), case.negated);
        call!(self, delmatik_count_from_i32([mut &nodes], used, case.count, (out & [7u32; 2]),))?;
        call!(self, delmatik_count_negated([mut &nodes], used, node, weight, (out & [7u32; 2]),))?;

        let r = &mut self.random;
        let (a, out) = (list(r, &case.challenge(0)), list(r, &[9; 4]));
        self.start();
        let (lent, room) = (self.lender.read(&a), self.lender.write(&out));
        let number = unsafe { sys::delmatik_power(self.choices.field, lent.0, lent.1, case.exponent, room.0, room.1) };
        self.judge("delmatik_power", Takes::Field, number)?;
        self.start();
        let (lent, room) = (self.lender.read(&a), self.lender.write(&out));
        let number = unsafe { sys::delmatik_inverse(self.choices.field, lent.0, lent.1, room.0, room.1) };
        self.judge("delmatik_inverse", Takes::Field, number)?;

        self.start();
        let count = self.lender.write(&[7u32; 2]).0;
        unsafe { sys::delmatik_count_bounded(node, weight, count.cast()) };
        self.judge("delmatik_count_bounded", Takes::None, 0)?;
        self.start();
        let count = self.lender.write(&[7u32; 2]).0;
        unsafe { sys::delmatik_count_provided(node, count.cast()) };
        self.judge("delmatik_count_provided", Takes::None, 0)?;

        let r = &mut self.random;
        let trace = vec![9u32; case.buffer.min(1 << 14)];
        let ([lookups, height, _], row) = (case.reader.map(|n| size(r, n)), size(r, case.reader[2]) as u64);
        self.start();
        let (lent, part) = (self.lender.read(&trace), self.lender.write(&[7u64; 2]).0);
        unsafe { sys::delmatik_row(lent.0, lent.1, lookups, height, row, part.cast()) };
        // What a caller would take is a part of the trace.
        let [start, words] = unsafe { [*part, *part.add(1)] };
        if start.checked_add(words).is_none_or(|end| (trace.len() as u64) < end) {
            return Err(format!("delmatik_row: words {start} and the {words} after it of {}", trace.len()));
        }
        self.judge("delmatik_row", Takes::None, 0)
    }

    /// Before a function that has no details: they are zeros.
    fn start(&mut self) {
        let high = self.random.below(2) == 0;
        self.lender.start(high);
        self.lender.read(&[0u64; 3]);
    }

    /// Each list now and then damaged.
    fn spoiled(&mut self, t: &Table) -> Table {
        let r = &mut self.random;
        let mut t = t.clone();
        for words in [
            &mut t.main,
            &mut t.preprocessed,
            &mut t.public_values,
            &mut t.nodes,
            &mut t.lookups,
            &mut t.tuples,
            &mut t.multiplicities,
            &mut t.flags,
            &mut t.elements,
        ] {
            if r.below(8) == 0 {
                *words = list(r, words);
            }
        }
        t
    }
}

fn argument(name: &str, otherwise: u64) -> u64 {
    let arguments: Vec<String> = std::env::args().collect();
    let place = arguments.iter().position(|a| a == name);
    place.map_or(otherwise, |i| arguments.get(i + 1).and_then(|n| n.parse().ok()).unwrap_or_else(|| panic!("{name} takes a number")))
}

fn main() -> ExitCode {
    let (cases, seed) = (argument("--cases", 100_000), argument("--seed", 1));
    let start = Instant::now();
    let mut source = Random(seed.wrapping_mul(0x9E3779B97F4A7C15) | 1);
    let random = Random(source.draw() | 1);
    let mut fuzz = Fuzz { lender: Lender::new(32), random, choices: Choices::of(Field::default()), counts: BTreeMap::new() };
    for i in 0..cases {
        let mut case = generator::case(&mut source);
        if i % 2 == 0 {
            generator::damage(&mut source, &mut case);
        }
        // The tallest tables are left to the oracle: their lists are larger than a place.
        if case.tables.iter().any(|t| 100_000 < t.main.len().max(t.preprocessed.len())) {
            continue;
        }
        fuzz.choices = case.choices;
        let parts = [Fuzz::table, Fuzz::building, Fuzz::tables, Fuzz::words, Fuzz::others];
        if let Err(text) = parts.iter().try_for_each(|part| part(&mut fuzz, &case)) {
            println!("case {i} of seed {seed}: {text}\n{case}");
            return ExitCode::FAILURE;
        }
    }
    for ((function, number), count) in &fuzz.counts {
        println!("{function}, {number}: {count}");
    }
    let calls: u64 = fuzz.counts.values().sum();
    println!("{cases} cases of seed {seed}, {calls} calls, nothing outside what was lent, {:.1} s", start.elapsed().as_secs_f64());
    ExitCode::SUCCESS
}
