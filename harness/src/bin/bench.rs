//! Times the port's exported functions beside the same work in Rust, interleaved in one run, and compares every result: row evaluation beside the same
//! loop; generation beside the crate's own source and beside a version tuned by hand (src/tuned.rs); constraints and balance beside the crate's
//! source, balance beside a hash map as well, also on tuples that were chosen to be slow; and generation at growing heights. Counts the
//! instructions of generation and constraints, by valgrind's callgrind. Generation and constraints are measured in both fields, a table for
//! each; all else is in field 1. Prints tables; `--only PART` runs one part: evaluation, generation, constraints, instructions, growth, balance
//! or collisions; `--rounds N` repeats long work N times in the place of 3; `--rule 2` is the tuple rule in the place of 1; `--side port` times
//! the port alone, which is all that `turns` reads. Whatever the crate's source would be compared with is measured without it too.
//!
//!     cargo run --release --offline --features port --bin bench
use std::collections::HashMap;
use std::fmt::Debug;
use std::process::Command;

use delmatik::{Choices, LookupTerminal, Rule};
use harness::clock::timed;
use harness::plain::{BabyBear, Ext, Field, PrimeField, Random};
use harness::port::{choices, wrapped};
use harness::report::{argument, grouped, heading};
use harness::table::{Lookup, Table};
use harness::tuned::{self, Product};

/// The field of all parts that are measured in one.
const FIELD: Field = Field::BabyBear;
const P: u32 = FIELD.prime();
const ROWS: usize = 1 << 16;
/// Instructions are counted over fewer rows: callgrind takes some fifty times as long.
const COUNTED_ROWS: usize = 1 << 12;

type Side<'a, A> = Box<dyn FnMut() -> A + 'a>;

/// How often work on so many rows is repeated: short work more often.
fn rounds(rows: usize) -> usize {
    let given = argument("--rounds").map_or(3, |n| n.parse().expect("--rounds takes a number"));
    if rows <= 1 << 14 { given.max(31) } else { given }
}

/// The tuple rule of generation and constraints.
fn rule() -> Rule {
    match argument("--rule").as_deref() {
        None | Some("1") => Rule::One,
        Some("2") => Rule::Two,
        Some(other) => panic!("--rule takes 1 or 2, not {other}"),
    }
}

/// Whether the port is timed beside nothing.
fn port_alone() -> bool {
    match argument("--side").as_deref() {
        None => false,
        Some("port") => true,
        Some(other) => panic!("--side takes port, not {other}"),
    }
}

/// The medians of the sides, in nanoseconds a row, one round of each after the other; the first is the port.
fn race<A: PartialEq + Debug>(rows: usize, mut sides: Vec<Side<'_, A>>) -> Vec<f64> {
    if port_alone() {
        sides.truncate(1);
    }
    let mut times = vec![vec![]; sides.len()];
    for _ in 0..rounds(rows) {
        let mut results = vec![];
        for (work, times) in sides.iter_mut().zip(&mut times) {
            let (result, seconds) = timed(work);
            results.push(result);
            times.push(seconds * 1e9 / rows as f64);
        }
        assert!(results.iter().all(|r| *r == results[0]));
    }
    times.into_iter().map(median).collect()
}

fn median(mut times: Vec<f64>) -> f64 {
    times.sort_by(f64::total_cmp);
    times[times.len() / 2]
}

/// A line of a table: the port's time or count, then each other's with the ratio to it.
fn report(name: &str, costs: &[f64], unit: &str) {
    if let [alone] = costs {
        // In tenths: a nanosecond is more than a hundredth of the shortest.
        return println!("| {name} | {alone:.1}{unit} |");
    }
    let others: String = costs[1..].iter().map(|c| format!(" {}{unit} | {:.2} |", grouped(*c), costs[0] / c)).collect();
    println!("| {name} | {}{unit} |{others}", grouped(costs[0]));
}

/// A kind of table: so many lookups, each on a bus of its own, of so many tuples of so many elements.
struct Shape {
    name: &'static str,
    columns: u32,
    nodes: u32,
    lookups: u32,
    tuples: u32,
    width: u32,
    /// Of each four lookups so many are exclusive.
    exclusive: u32,
}

const SHAPES: [Shape; 6] = [
    Shape { name: "1 lookup, 1 tuple of 2, 6 nodes", columns: 4, nodes: 6, lookups: 1, tuples: 1, width: 2, exclusive: 0 },
    Shape { name: "4 lookups, 1 tuple of 3, 20 nodes", columns: 4, nodes: 20, lookups: 4, tuples: 1, width: 3, exclusive: 0 },
    Shape { name: "16 lookups, 1 tuple of 4, 100 nodes", columns: 4, nodes: 100, lookups: 16, tuples: 1, width: 4, exclusive: 0 },
    Shape { name: "8 lookups, 4 tuples of 4, 60 nodes", columns: 4, nodes: 60, lookups: 8, tuples: 4, width: 4, exclusive: 0 },
    Shape {
        name: "8 lookups, half exclusive, 4 tuples of 4, 60 nodes",
        columns: 4,
        nodes: 60,
        lookups: 8,
        tuples: 4,
        width: 4,
        exclusive: 2,
    },
    Shape { name: "256 columns, 1 lookup, 1 tuple of 2, 6 nodes", columns: 256, nodes: 6, lookups: 1, tuples: 1, width: 2, exclusive: 0 },
];

impl Shape {
    /// Nodes: four columns, the constant 1, sums and products of a column and the node before, then 0.
    fn table(&self, random: &mut Random, field: Field, rows: usize) -> Table {
        let mut nodes: Vec<u32> = (0..4).flat_map(|k| [1, k * (self.columns / 4), 0]).collect();
        nodes.extend([0, 1, 0]);
        for n in 5..self.nodes {
            nodes.extend([if n % 2 == 0 { 9 } else { 11 }, n - 1, n % 4]);
        }
        nodes.extend([10, 4, 4]);
        let node = |i: u32, k: u32, j: u32| (7 * i + 3 * k + j) % self.nodes;
        let lookup = |i: u32| {
            let exclusive = i % 4 < self.exclusive;
            Lookup {
                bus: Some(format!("bus {i}").into_bytes()),
                weight: 1,
                column: i,
                exclusive,
                tuples: (0..self.tuples).map(|k| (0..self.width).map(|j| node(i, k, j)).collect()).collect(),
                multiplicities: vec![4; self.tuples as usize],
                // The first branch is chosen: node 4 is 1, the last node 0.
                flags: if exclusive { (0..self.tuples).map(|k| if k == 0 { 4 } else { self.nodes }).collect() } else { vec![] },
            }
        };
        let mut t = Table { field, main_width: self.columns.into(), height: rows as u64, nodes, ..Table::default() };
        t.main = (0..self.columns as usize * rows).map(|_| random.below(field.prime().into()) as u32).collect();
        t.set_records(&(0..self.lookups).map(lookup).collect::<Vec<Lookup>>());
        t
    }
}

/// What generation gives, by the port.
fn generated(choices: Choices, rule: Rule, t: &delmatik::Table, challenges: &[Ext]) -> (Vec<u32>, Option<Ext>) {
    let g = t.generate(choices, rule, challenges).unwrap();
    (g.trace, g.terminal.map(|LookupTerminal(e)| e))
}

fn evaluation(random: &mut Random) {
    let shape = Shape { name: "", columns: 4, nodes: 20, lookups: 1, tuples: 0, width: 0, exclusive: 0 };
    let t = shape.table(random, FIELD, ROWS);
    let port = wrapped(&t);
    let same_loop = || {
        let mut trace = vec![0; 8 * ROWS];
        for (row, out) in t.main.chunks_exact(4).zip(trace.chunks_exact_mut(8)) {
            let mut values = [0u32; 1024];
            for (i, node) in t.nodes.chunks_exact(3).enumerate() {
                let (a, b) = (node[1] as usize, node[2] as usize);
                values[i] = match node[0] {
                    0 => node[1],
                    1 => row[a],
                    9 => BabyBear::add_word(values[a], values[b]),
                    10 => BabyBear::sub_word(values[a], values[b]),
                    _ => BabyBear::mul_word(values[a], values[b]),
                };
            }
            out[4] = std::hint::black_box(values)[1023];
        }
        trace
    };
    heading(&["row evaluation", "port", "the same loop in Rust", "ratio"]);
    let by_port = || generated(choices(FIELD), Rule::One, &port, &[[1, 0, 0, 0], [0; 4]]).0;
    let times = race(ROWS, vec![Box::new(by_port), Box::new(same_loop)]);
    report("20 nodes, in a table with an empty lookup", &times, " ns");
}

fn challenges(random: &mut Random, field: Field, count: u32) -> Vec<Ext> {
    (0..2 * count).map(|_| random.element(field)).collect()
}

/// A table with its challenges and its rule.
struct Job {
    port: delmatik::Table,
    /// The same for the other sides. They have rule 1 alone: by rule 2 each tuple is reversed, which is as much work.
    table: Table,
    rule: Rule,
    challenges: Vec<Ext>,
}

impl Job {
    fn new(shape: &Shape, random: &mut Random, field: Field, rows: usize) -> Self {
        let (mut table, rule) = (shape.table(random, field, rows), rule());
        let port = wrapped(&table);
        if rule == Rule::Two {
            let mut records = table.records();
            records.iter_mut().flat_map(|lookup| &mut lookup.tuples).for_each(|tuple| tuple.reverse());
            table.set_records(&records);
        }
        Job { port, table, rule, challenges: challenges(random, field, shape.lookups) }
    }

    fn generated(&self) -> (Vec<u32>, Option<Ext>) {
        generated(choices(self.table.field), self.rule, &self.port, &self.challenges)
    }

    /// The port, the tuned version, with either way to invert, and the crate, where its source is at hand.
    fn generation(&self) -> Vec<Side<'_, (Vec<u32>, Option<Ext>)>> {
        let (t, words) = (&self.table, self.challenges.as_flattened());
        let mut sides: Vec<Side<'_, _>> = vec![
            Box::new(|| self.generated()),
            Box::new(move || tuned::generate(t, words, Product::Denominators)),
            Box::new(move || tuned::generate(t, words, Product::Norms)),
        ];
        sides.extend(crate_generation(t, words));
        sides
    }

    /// The constraints of the generated trace and terminal, by the port and by the crate, where its source is at hand. Neither may refuse them.
    fn constraints<'a>(&'a self, trace: &'a [u32], terminal: Option<Ext>) -> Vec<Side<'a, ()>> {
        let (choices, columns) = (choices(self.table.field), self.challenges.len() / 2 + 1);
        let wrapped = terminal.map(LookupTerminal);
        let mut sides: Vec<Side<'_, _>> =
            vec![Box::new(move || self.port.constraints(choices, self.rule, &self.challenges, columns, trace, wrapped).unwrap())];
        sides.extend(crate_constraints(&self.table, self.challenges.as_flattened(), columns, trace, terminal));
        sides
    }
}

#[cfg(source)]
fn crate_generation<'a>(t: &'a Table, words: &'a [u32]) -> Option<Side<'a, (Vec<u32>, Option<Ext>)>> {
    Some(Box::new(|| harness::oracle::generate(t, words).unwrap()))
}

#[cfg(source)]
fn crate_constraints<'a>(t: &'a Table, words: &'a [u32], width: usize, trace: &'a [u32], terminal: Option<Ext>) -> Option<Side<'a, ()>> {
    Some(Box::new(move || assert!(harness::oracle::constraints(t, words, width as u64, trace, terminal).unwrap().is_none())))
}

#[cfg(not(source))]
fn crate_generation<'a>(_t: &'a Table, _words: &'a [u32]) -> Option<Side<'a, (Vec<u32>, Option<Ext>)>> {
    None
}

#[cfg(not(source))]
fn crate_constraints<'a>(_: &'a Table, _: &'a [u32], _: usize, _: &'a [u32], _: Option<Ext>) -> Option<Side<'a, ()>> {
    None
}

/// What is measured in both fields.
#[derive(Clone, Copy)]
enum Part {
    Generation,
    Constraints,
}

impl Part {
    const ALL: [Part; 2] = [Part::Generation, Part::Constraints];

    fn heading(self, field: Field) {
        let (name, others) = match self {
            Part::Generation => ("generation", ["tuned Rust", "ratio", "by norms too", "ratio", "the crate", "ratio"].as_slice()),
            Part::Constraints => ("constraints", ["the crate", "ratio"].as_slice()),
        };
        heading(&[&[format!("{name}, field {}, rule {}", field.number(), rule() as u32).as_str(), "port"], others].concat());
    }

    /// The times of all sides, for a row.
    fn times(self, job: &Job) -> Vec<f64> {
        match self {
            Part::Generation => race(ROWS, job.generation()),
            Part::Constraints => {
                let (trace, terminal) = job.generated();
                race(ROWS, job.constraints(&trace, terminal))
            }
        }
    }

    /// Runs one side once, for `instructions` to count; tells how many sides there are.
    fn count(self, job: &Job, side: usize) -> usize {
        match self {
            Part::Generation => count(job.generation(), side),
            Part::Constraints => {
                let (trace, terminal) = job.generated();
                count(job.constraints(&trace, terminal), side)
            }
        }
    }
}

fn timing(part: Part, random: &mut Random) {
    for field in Field::ALL {
        part.heading(field);
        for shape in &SHAPES {
            report(shape.name, &part.times(&Job::new(shape, random, field, ROWS)), " ns");
        }
    }
}

/// What callgrind counts the instructions of, by this name.
#[unsafe(no_mangle)]
#[inline(never)]
fn counted_work(work: &mut dyn FnMut()) {
    work();
}

fn count<A>(mut sides: Vec<Side<'_, A>>, side: usize) -> usize {
    let mut result = None;
    counted_work(&mut || result = Some(sides[side]()));
    assert!(result.is_some());
    sides.len()
}

/// The instructions of each side for a row. This program is run once more for each of them, under callgrind.
fn instructions(random: &mut Random) {
    for (number, part) in Part::ALL.into_iter().enumerate() {
        for field in Field::ALL {
            part.heading(field);
            for (i, shape) in SHAPES.iter().enumerate() {
                let counted = |side: usize| {
                    let run = Command::new("valgrind")
                        .args(["--tool=callgrind", "--callgrind-out-file=/dev/null", "--toggle-collect=counted_work"])
                        .arg(std::env::current_exe().unwrap())
                        .args(["--rule", &(rule() as u32).to_string(), "--count", &format!("{number} {} {i} {side}", field.number())])
                        .output()
                        .expect("valgrind is at hand");
                    let said = String::from_utf8_lossy(&run.stderr).into_owned();
                    let counted =
                        said.lines().find_map(|line| line.split_once("Collected : ")).and_then(|(_, n)| n.trim().parse::<f64>().ok());
                    counted.unwrap_or_else(|| panic!("callgrind said: {said}")) / COUNTED_ROWS as f64
                };
                let sides = part.count(&Job::new(shape, random, field, COUNTED_ROWS), 0);
                report(shape.name, &(0..sides).map(counted).collect::<Vec<f64>>(), "");
            }
        }
    }
}

/// Four lookups at heights from 2^10 to 2^20, by the port and by the first tuned version.
fn growth(random: &mut Random) {
    heading(&["generation, 4 lookups", "port", "tuned Rust", "ratio"]);
    for bits in (10..=20).step_by(2) {
        let job = Job::new(&SHAPES[1], random, FIELD, 1 << bits);
        let sides = job.generation().into_iter().take(2).collect();
        report(&format!("2^{bits} rows"), &race(1 << bits, sides), " ns");
    }
}

#[cfg(source)]
fn crate_balance(t: &Table) -> Option<Side<'_, bool>> {
    Some(Box::new(|| harness::oracle::balance(std::slice::from_ref(t)).is_ok()))
}

#[cfg(not(source))]
fn crate_balance(_t: &Table) -> Option<Side<'_, bool>> {
    None
}

/// Random rows of four words. The tuple of the first so many of them is sent and received once on every row: all nets are zero.
fn opposites(random: &mut Random, rows: usize, width: u32) -> Table {
    let side = |multiplicity: u32| Lookup {
        bus: Some(b"mem".to_vec()),
        weight: 1,
        tuples: vec![(0..width).collect()],
        multiplicities: vec![multiplicity],
        ..Lookup::default()
    };
    let mut t = Shape { name: "", columns: 4, nodes: 5, lookups: 0, tuples: 0, width: 0, exclusive: 0 }.table(random, FIELD, rows);
    let minus = t.add_node(12, 4, 0);
    t.set_records(&[side(4), side(minus)]);
    t
}

/// Whether all nets are zero: by the port, by a hash map, and by the crate where it is asked for and at hand.
fn race_balance(name: &str, t: &Table, width: usize, with_crate: bool) {
    let rows = t.height as usize;
    let port = [wrapped(t)];
    let mut workspace = vec![0; 10 * rows];
    let by_map = || {
        let mut nets: HashMap<Vec<u32>, u32> = HashMap::new();
        for sign in [1, P - 1] {
            for row in t.main.chunks_exact(4) {
                let net = nets.entry(row[..width].to_vec()).or_default();
                *net = BabyBear::add_word(*net, sign);
            }
        }
        nets.values().all(|net| *net == 0)
    };
    let mut sides: Vec<Side<'_, bool>> =
        vec![Box::new(|| delmatik::balance(choices(FIELD), &port, &mut workspace).is_ok()), Box::new(by_map)];
    sides.extend(crate_balance(t).filter(|_| with_crate));
    report(name, &race(rows, sides), " ns");
}

fn balance(random: &mut Random) {
    heading(&["balance, different tuples", "port", "a hash map", "ratio", "the crate", "ratio"]);
    for rows in [1_000, 10_000, 100_000] {
        race_balance(&rows.to_string(), &opposites(random, rows, 2), 2, true);
    }
}

/// The hash that balance had without a seed: for each word h = h · M + word modulo 2^32, and then the highest 15 bits of h · M.
const M: u32 = 2654435769;

/// Different tuples of four words for which it is 0: the last word is chosen so that h · M is below 2^17.
fn of_one_fixed_hash(random: &mut Random, rows: usize) -> Vec<u32> {
    let inverse = (0..5).fold(M, |x, _| x.wrapping_mul(2u32.wrapping_sub(M.wrapping_mul(x))));
    let mut row = |i: usize| {
        let front = [i as u32, random.below(P.into()) as u32, random.below(P.into()) as u32];
        let h = front.iter().fold(0u32, |h, word| h.wrapping_mul(M).wrapping_add(*word));
        let last = std::iter::repeat_with(|| (random.below(1 << 17) as u32).wrapping_mul(inverse).wrapping_sub(h.wrapping_mul(M)));
        [front[0], front[1], front[2], last.into_iter().find(|word| *word < P).unwrap()]
    };
    (0..rows).flat_map(&mut row).collect()
}

/// Different tuples of four words that differ by multiples of 2^27, at most 2^16 of them: a multiplier modulo 2^32 keeps them so.
fn of_multiples(rows: usize) -> Vec<u32> {
    (0..rows as u32).flat_map(|i| [0, 4, 8, 12].map(|bits| (i >> bits & 15) << 27)).collect()
}

/// Balance on rows that were chosen to be slow, beside random ones, and on as many rows as the limits allow.
fn collisions(random: &mut Random) {
    const CHOSEN: usize = 60_000;
    heading(&["balance, tuples of four", "port", "a hash map", "ratio"]);
    let mut line = |name: &str, rows: usize, main: Option<Vec<u32>>| {
        let t = opposites(random, rows, 4);
        race_balance(name, &Table { main: main.unwrap_or_else(|| t.main.clone()), ..t }, 4, false);
    };
    let one_hash = of_one_fixed_hash(&mut Random(1), CHOSEN);
    line("60,000 random tuples", CHOSEN, None);
    line("60,000 of one hash before it had a seed", CHOSEN, Some(one_hash));
    line("60,000 that differ by multiples of 2^27", CHOSEN, Some(of_multiples(CHOSEN)));
    line("2^20 random tuples", 1 << 20, None);
}

fn main() {
    let mut random = Random(0x9E3779B97F4A7C15);
    if let Some(which) = argument("--count") {
        let numbers: Vec<usize> = which.split(' ').map(|n| n.parse().unwrap()).collect();
        let field = Field::numbered(numbers[1] as u32).unwrap();
        Part::ALL[numbers[0]].count(&Job::new(&SHAPES[numbers[2]], &mut random, field, COUNTED_ROWS), numbers[3]);
        return;
    }
    let only = argument("--only");
    let wanted = |part: &str| only.as_deref().is_none_or(|only| only == part);
    println!("Processor time of one thread for a row; medians of {} rounds, of {} up to 2^14 rows.", rounds(usize::MAX), rounds(0));
    if wanted("evaluation") {
        evaluation(&mut random);
    }
    if wanted("generation") {
        timing(Part::Generation, &mut random);
    }
    if wanted("constraints") {
        timing(Part::Constraints, &mut random);
    }
    if wanted("instructions") {
        instructions(&mut random);
    }
    if wanted("growth") {
        growth(&mut random);
    }
    if wanted("balance") {
        balance(&mut random);
    }
    if wanted("collisions") {
        collisions(&mut random);
    }
}
