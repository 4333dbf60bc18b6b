//! How much memory a largest call of each exported function takes, in each profile and by either rule: the stack that it writes, and what it is
//! lent. Then the peak of the resident memory of a process that makes one call of generation. Prints tables (docs/BENCHMARKS.md).
//!
//!     cargo run --release --offline --features port --bin memory
use std::process::Command;

use delmatik::sys;
use harness::model::{self, Limits, Profile, Rule};
use harness::plain::{Field, Random};
use harness::report::{argument, grouped, heading};
use harness::table::{self, Interaction, Lookup, Plan, Table, bytes_of};

/// What is measured in one field: the code is the same for both.
const FIELD: Field = Field::BabyBear;

/// How deep the stack grows: the part below this frame is painted first, and looked at afterwards.
fn stack_of(work: impl FnOnce() + Send) -> usize {
    const PAINTED: usize = 1 << 20;
    const PAINT: u8 = 0x5A;
    let measure = || {
        let here = 0u8;
        // The next page is left to this frame and to what paints.
        let top = (&raw const here as usize - 4096) as *mut u8;
        (1..=PAINTED).for_each(|i| unsafe { top.wrapping_sub(i).write_volatile(PAINT) });
        work();
        let clean = (1..=PAINTED).rev().take_while(|i| unsafe { top.wrapping_sub(*i).read_volatile() } == PAINT).count();
        PAINTED - clean + 4096
    };
    std::thread::scope(|s| std::thread::Builder::new().stack_size(4 * PAINTED).spawn_scoped(s, measure).unwrap().join().unwrap())
}

/// A call that is ready to be made: the bytes of all that it is lent, and the call itself.
struct Call<'a> {
    lent: usize,
    make: Box<dyn FnOnce() + Send + 'a>,
}

/// Makes ready a call of an exported function, which must answer this number. `[list]` is lent as a pointer and a length, `[mut list]` to be
/// written; `{value}` are numbers of a fixed count that it writes.
macro_rules! call {
    ($number:expr, $function:ident($($arguments:tt)*)) => { call!(@ $number, $function () (0) $($arguments)*) };
    (@ $number:expr, $function:ident ($($done:tt)*) ($($lent:tt)*) [mut $list:expr], $($rest:tt)*) => {
        call!(@ $number, $function ($($done)* $list.as_mut_ptr(), $list.len(),) ($($lent)* + size_of_val(&$list[..])) $($rest)*)
    };
    (@ $number:expr, $function:ident ($($done:tt)*) ($($lent:tt)*) [$list:expr], $($rest:tt)*) => {
        call!(@ $number, $function ($($done)* $list.as_ptr(), $list.len(),) ($($lent)* + size_of_val(&$list[..])) $($rest)*)
    };
    (@ $number:expr, $function:ident ($($done:tt)*) ($($lent:tt)*) {$value:expr}, $($rest:tt)*) => {
        call!(@ $number, $function ($($done)* &mut $value,) ($($lent)* + size_of_val(&$value)) $($rest)*)
    };
    (@ $number:expr, $function:ident ($($done:tt)*) ($($lent:tt)*) $argument:expr, $($rest:tt)*) => {
        call!(@ $number, $function ($($done)* $argument,) ($($lent)*) $($rest)*)
    };
    (@ $number:expr, $function:ident ($($done:tt)*) ($($lent:tt)*)) => {
        Call { lent: $($lent)*, make: Box::new(move || assert_eq!(unsafe { sys::$function($($done)*) }, $number)) }
    };
}

/// What a call takes, in bytes: the stack that it writes, and what it is lent.
#[derive(Clone, Copy, Default)]
struct Need {
    stack: usize,
    lent: usize,
}

impl Need {
    fn of(call: Call<'_>) -> Need {
        Need { lent: call.lent, stack: stack_of(call.make) }
    }

    fn or(self, other: Need) -> Need {
        Need { stack: self.stack.max(other.stack), lent: self.lent.max(other.lent) }
    }
}

/// Nodes of the largest table: the constants 0 and 1.
const ZERO: u32 = 707;
const ONE: u32 = 708;

/// As many nodes as the limit allows: rows of both traces at each offset, public values, the three marks of rows, two constants, then nodes of
/// nodes.
fn largest_nodes() -> Vec<u32> {
    let node = |n: u32| match n {
        0..256 => [1, n, n % 4],
        256..512 => [2, n - 256, 0],
        512..576 => [3, n - 512, n % 4],
        576..640 => [4, n - 576, 0],
        640..704 => [5, n - 640, 0],
        704..ZERO => [n - 698, 0, 0],
        ZERO | ONE => [0, n - ZERO, 0],
        _ => [9 + n % 4, n - 256, n - 512],
    };
    (0..1024).flat_map(node).collect()
}

/// The lookups of the largest table, all exclusive or all additive, on one bus: as many tuples as the limit allows, of different columns. One
/// branch of an exclusive lookup is chosen.
fn largest_lookups(limits: &Limits, exclusive: bool) -> Vec<Lookup> {
    let (lookups, width) = (limits.lookups as u32, limits.tuple_words);
    let tuples = limits.tuples as u32 / lookups;
    let tuple = |k: u32| (k * width..(k + 1) * width).collect();
    let lookup = |i: u32| Lookup {
        bus: Some(vec![b'b'; limits.name_bytes as usize]),
        weight: 1,
        column: i,
        exclusive,
        tuples: (i * tuples..(i + 1) * tuples).map(tuple).collect(),
        multiplicities: vec![ONE; tuples as usize],
        flags: if exclusive { (0..tuples).map(|k| if k == 0 { ONE } else { ZERO }).collect() } else { vec![] },
    };
    (0..lookups).map(lookup).collect()
}

/// A table of so many rows whose lists are otherwise as long as the limits allow; additive lookups have no flags.
fn largest_table(profile: Profile, random: &mut Random, rows: usize, exclusive: bool) -> Table {
    let limits = profile.limits();
    let (main_width, pre_width, height) = (limits.main_columns, limits.pre_columns, rows as u64);
    let mut words = |n: usize| (0..n).map(|_| random.below(FIELD.prime().into()) as u32).collect();
    let mut t = Table {
        field: FIELD,
        profile,
        main_width,
        height,
        pre_width,
        pre_height: height,
        main: words(main_width as usize * rows),
        preprocessed: words(pre_width as usize * rows),
        public_values: words(limits.public_values),
        nodes: largest_nodes(),
        ..Table::default()
    };
    assert_eq!(t.node_count(), limits.nodes);
    t.set_records(&largest_lookups(limits, exclusive));
    t
}

/// The largest calls of one table. A function takes the numbers of field and profile and the four sizes before its lists.
struct OfTable {
    chosen: [u32; 2],
    sizes: [usize; 4],
    table: Table,
    challenges: Vec<u32>,
}

impl OfTable {
    fn new(profile: Profile, random: &mut Random, rows: usize, exclusive: bool) -> Self {
        let table = largest_table(profile, random, rows, exclusive);
        OfTable {
            chosen: [FIELD.number(), profile.number()],
            sizes: [table.main_width, table.height, table.pre_width, table.pre_height].map(|n| n as usize),
            challenges: (0..2 * table.lookup_count()).flat_map(|_| random.element(FIELD)).collect(),
            table,
        }
    }

    /// A buffer for the trace.
    fn buffer(&self) -> Vec<u32> {
        vec![0; 4 * (self.table.lookup_count() + 1) * self.sizes[1]]
    }

    fn generation<'a>(&'a self, rule: Rule, trace: &'a mut [u32], terminal: &'a mut [u32; 5]) -> Call<'a> {
        let (t, [field, profile], [width, height, pre_width, pre_height]) = (&self.table, self.chosen, self.sizes);
        call! { 0, delmatik_generate(
            field, profile, rule.number(), width, height, pre_width, pre_height, [t.main], [t.preprocessed], [t.public_values], [t.nodes], [t.lookups],
            [t.names], [t.tuples], [t.multiplicities], [t.flags], [t.elements], [self.challenges], [mut trace], {*terminal}, {[0u64; 3]},
        ) }
    }

    fn generation_on_bytes(&self, rule: Rule) -> Need {
        let ([field, profile], [width, height, pre_width, pre_height]) = (self.chosen, self.sizes);
        let (t, challenges, mut written) = (self.table.bytes(), bytes_of(&self.challenges), self.buffer());
        let mut trace = bytes_of(&written);
        let mut read = room(&[&t.main, &t.preprocessed, &t.public_values, &t.nodes, &challenges], &t);
        Need::of(call! { 0, delmatik_generate_bytes(
            field, profile, rule.number(), width, height, pre_width, pre_height, [t.main], [t.preprocessed], [t.public_values], [t.nodes], [t.lookups],
            [t.names], [t.tuples], [t.multiplicities], [t.flags], [t.elements], [challenges], [mut trace], [mut read], [mut written],
            {[0u32; 5]}, {[0u64; 3]},
        ) })
    }

    fn constraints(&self, rule: Rule, trace: &[u32], [mark, t0, t1, t2, t3]: [u32; 5]) -> Need {
        let (t, [field, profile], [width, height, pre_width, pre_height]) = (&self.table, self.chosen, self.sizes);
        let columns = t.lookup_count() + 1;
        Need::of(call! { 0, delmatik_constraints(
            field, profile, rule.number(), width, height, pre_width, pre_height, [t.main], [t.preprocessed], [t.public_values], [t.nodes], [t.lookups],
            [t.names], [t.tuples], [t.multiplicities], [t.flags], [t.elements], [self.challenges], columns, [trace], mark, t0, t1, t2, t3,
            {[0u64; 3]},
        ) })
    }

    /// The last row.
    fn row(&self, trace: &[u32]) -> Need {
        let (lookups, rows) = (self.table.lookup_count(), self.sizes[1]);
        let read = move || {
            let mut part = [0; 2];
            unsafe { sys::delmatik_row(trace.as_ptr(), trace.len(), lookups, rows, rows as u64 - 1, &mut part) };
            assert_eq!(part[0] + part[1], trace.len() as u64);
        };
        Need::of(Call { lent: size_of_val(trace) + size_of::<[u64; 2]>(), make: Box::new(read) })
    }

    fn degree(&self) -> Need {
        let (t, [field, profile], [width, _, pre_width, _]) = (&self.table, self.chosen, self.sizes);
        Need::of(call! { 0, delmatik_degree(
            field, profile, width, pre_width, t.public_values.len(), [t.nodes], [t.lookups], [t.names], [t.tuples], [t.multiplicities],
            [t.flags], [t.elements], 0, 1, {0u64}, {[0u64; 3]},
        ) })
    }

    /// All lookups of a bus in one column, where they are additive.
    fn packing(&self) -> Need {
        let ([field, profile], [width, _, pre_width, _]) = (self.chosen, self.sizes);
        let (t, mut out) = (&self.table, self.table.clone());
        Need::of(call! { 0, delmatik_pack(
            field, profile, 255, width, pre_width, t.public_values.len(), [t.nodes], [t.lookups], [t.names], [t.tuples], [t.multiplicities],
            [t.flags], [t.elements], [mut out.lookups], [mut out.names], [mut out.tuples], [mut out.multiplicities], [mut out.flags],
            [mut out.elements], {[0u64; 6]}, {[0u64; 3]},
        ) })
    }

    fn packing_on_bytes(&self) -> Need {
        let ([field, profile], [width, _, pre_width, _]) = (self.chosen, self.sizes);
        let (t, mut out) = (self.table.bytes(), self.table.bytes());
        let (mut read, mut written) = (room(&[&t.nodes], &t), room(&[], &out));
        Need::of(call! { 0, delmatik_pack_bytes(
            field, profile, 255, width, pre_width, t.public_values.len() / 4, [t.nodes], [t.lookups], [t.names], [t.tuples],
            [t.multiplicities], [t.flags], [t.elements], [mut out.lookups], [mut out.names], [mut out.tuples], [mut out.multiplicities],
            [mut out.flags], [mut out.elements], [mut read], [mut written], {[0u64; 6]}, {[0u64; 3]},
        ) })
    }

    /// Exclusives from exclusive lookups, locals, without names, from additive ones.
    fn building(&self) -> Need {
        let interaction = |l: &Lookup| {
            let part = |elements: &Vec<u32>| table::Part { elements: elements.clone(), multiplicity: ONE, weight: 1 };
            let parts = l.tuples.iter().map(part);
            match &l.bus {
                Some(bus) if l.exclusive => Interaction::Exclusive(bus.clone(), l.flags.iter().copied().zip(parts).collect()),
                _ => Interaction::Local(parts.collect()),
            }
        };
        let (t, [field, profile], [width, _, pre_width, _]) = (&self.table, self.chosen, self.sizes);
        let Plan { kinds, interactions, weights, lists } = Plan::of(&t.records().iter().map(interaction).collect::<Vec<Interaction>>());
        let ([locals, globals, exclusives], mut lookups) = (kinds.map(|n| n as usize), vec![0; t.lookups.len()]);
        Need::of(call! { 0, delmatik_build(
            field, profile, width, pre_width, t.public_values.len(), [t.nodes], locals, globals, exclusives, [interactions], [weights],
            [lists.names], [lists.tuples], [lists.multiplicities], [lists.flags], [lists.elements], [mut lookups], {0u64}, {[0u64; 3]},
        ) })
    }

    /// The last node is to be added.
    fn counts(&self) -> Need {
        let ([field, profile], used) = (self.chosen, self.table.node_count() - 1);
        let (mut nodes, mut more) = (self.table.nodes.clone(), self.table.nodes.clone());
        let from_i32 = call! { 0, delmatik_count_from_i32(field, profile, [mut nodes], used, -1, {[0u32; 2]}, {[0u64; 3]},) };
        let negated = call! { 0, delmatik_count_negated(field, profile, [mut more], used, 0, 1, {[0u32; 2]}, {[0u64; 3]},) };
        Need::of(from_i32).or(Need::of(negated))
    }
}

/// A room for these lists and those of the lookups.
fn room(lists: &[&[u8]], t: &Table<u8>) -> Vec<u32> {
    let lookups: [&[u8]; 5] = [&t.lookups, &t.tuples, &t.multiplicities, &t.flags, &t.elements];
    vec![0; lists.iter().chain(&lookups).map(|list| list.len() / 4).sum()]
}

/// The largest calls over several tables, with all lookups on one bus.
struct OfTables {
    chosen: [u32; 2],
    tables: Vec<Table>,
    all: Table,
}

impl OfTables {
    fn new(profile: Profile, random: &mut Random, rows: usize, exclusive: bool) -> Self {
        let tables: Vec<Table> = (0..profile.limits().tables).map(|_| largest_table(profile, random, rows, exclusive)).collect();
        OfTables { chosen: [FIELD.number(), profile.number()], all: Table::joined(&tables), tables }
    }

    fn sizes(&self) -> Vec<u32> {
        self.tables.iter().flat_map(Table::sizes).collect()
    }

    /// Ten words for each tuple on each row: no call within the limits has more different tuples in a group.
    fn workspace(&self) -> Vec<u32> {
        vec![0; self.tables.iter().map(|t| 10 * t.tuples.len() * t.height as usize).sum()]
    }

    /// No net is zero, so the answer is 18; it would be 16 with a workspace that is too small.
    fn balance(&self) -> Need {
        let ([field, profile], all, sizes, mut workspace) = (self.chosen, &self.all, self.sizes(), self.workspace());
        Need::of(call! { 18, delmatik_balance(
            field, profile, [all.main], [all.preprocessed], [all.public_values], [all.nodes], [all.lookups], [all.names], [all.tuples],
            [all.multiplicities], [all.flags], [all.elements], [sizes], 0, [mut workspace], {[0u64; 3]},
        ) })
    }

    fn balance_on_bytes(&self) -> Need {
        let ([field, profile], all, sizes, mut written) = (self.chosen, self.all.bytes(), bytes_of(&self.sizes()), self.workspace());
        let mut workspace = bytes_of(&written);
        let mut read = room(&[&all.main, &all.preprocessed, &all.public_values, &all.nodes, &sizes], &all);
        Need::of(call! { 18, delmatik_balance_bytes(
            field, profile, [all.main], [all.preprocessed], [all.public_values], [all.nodes], [all.lookups], [all.names], [all.tuples],
            [all.multiplicities], [all.flags], [all.elements], [sizes], 0, [mut workspace], [mut read], [mut written], {[0u64; 3]},
        ) })
    }

    fn widths(&self) -> Need {
        let ([field, profile], all) = (self.chosen, &self.all);
        let size = |t: &Table| [t.lookup_count(), t.names.len(), t.tuples.len()].map(|n| n as u32);
        let sizes: Vec<u32> = self.tables.iter().flat_map(size).collect();
        Need::of(call! { 0, delmatik_widths(field, profile, [all.lookups], [all.names], [all.tuples], [sizes], {0u64}, {[0u64; 3]},) })
    }

    fn height_bound(&self) -> Need {
        let counts: Vec<u32> = self.tables.iter().map(|t| t.lookup_count() as u32).collect();
        let heights: Vec<u32> = self.tables.iter().map(|t| t.height as u32).collect();
        let ([field, profile], lookups) = (self.chosen, &self.all.lookups);
        Need::of(call! { 0, delmatik_height_bound(field, profile, [lookups], [counts], [heights], {[0u64; 3]},) })
    }
}

/// Terminals, prefixes, powers and inverses.
fn of_elements(profile: Profile) -> Need {
    let (limits, field, profile, element) = (profile.limits(), FIELD.number(), profile.number(), [1, 2, 3, 4]);
    let (width, count) = (limits.prefix_width as usize, limits.prefixes as usize);
    let (terminals, mut prefixes, mut power, mut inverse) = (vec![1; 5 * limits.tables], vec![0; 4 * count], [0; 4], [0; 4]);
    let calls = [
        call! { 20, delmatik_terminals(field, profile, [terminals], {[0u64; 3]},) },
        call! { 0, delmatik_prefixes(field, profile, [element], [element], width, count, [mut prefixes], {[0u64; 3]},) },
        call! { 0, delmatik_power(field, [element], u32::MAX, [mut power],) },
        call! { 0, delmatik_inverse(field, [element], [mut inverse],) },
    ];
    calls.into_iter().map(Need::of).fold(Need::default(), Need::or)
}

/// The needs of the largest calls on so many rows, by the functions' names, with all lookups exclusive or all additive: where there is a rule, of
/// the one that takes more.
fn needs_of(profile: Profile, random: &mut Random, rows: usize, exclusive: bool) -> Vec<(&'static str, Need)> {
    let one = OfTable::new(profile, random, rows, exclusive);
    let (mut trace, mut terminal) = (one.buffer(), [0; 5]);
    let [mut generation, mut on_bytes, mut constraints] = [Need::default(); 3];
    for rule in Rule::ALL {
        generation = generation.or(Need::of(one.generation(rule, &mut trace, &mut terminal)));
        on_bytes = on_bytes.or(one.generation_on_bytes(rule));
        constraints = constraints.or(one.constraints(rule, &trace, terminal));
    }
    let all = OfTables::new(profile, random, rows, exclusive);
    vec![
        ("generation", generation),
        ("generation on bytes", on_bytes),
        ("constraints", constraints),
        ("row reader", one.row(&trace)),
        ("degree", one.degree()),
        ("packing", one.packing()),
        ("packing on bytes", one.packing_on_bytes()),
        ("building", one.building()),
        ("bus widths, 16 tables", all.widths()),
        ("balance, 16 tables", all.balance()),
        ("balance on bytes, 16 tables", all.balance_on_bytes()),
        (
            "height bound, terminals, prefixes, counts, power, inverse: the most",
            all.height_bound().or(of_elements(profile)).or(one.counts()),
        ),
    ]
}

/// The larger need of each: exclusive lookups have longer lists, and the two are computed by different code.
fn needs(profile: Profile, random: &mut Random, rows: usize) -> Vec<(&'static str, Need)> {
    let [exclusive, additive] = [true, false].map(|exclusive| needs_of(profile, random, rows, exclusive));
    exclusive.into_iter().zip(additive).map(|((name, need), (_, other))| (name, need.or(other))).collect()
}

/// Few rows; a call is made on twice as many too.
const FEW: usize = 8;

/// What is lent at a height, in bytes, from calls on few rows and on twice as many: every row more takes as many bytes more.
fn lent_at(height: u64, few: Need, twice: Need) -> usize {
    few.lent + (twice.lent - few.lent) / FEW * (height as usize - FEW)
}

const LEGEND: &str = "
The largest calls that the limits allow, by the rule that takes more; balance has a slot for each tuple on each row. Stack: how deep a call
writes, a page of 4 KiB that is not looked at included. Lent: the bytes of all that it is lent to read or write.
Measured: all stack, the cabinet's on 8 and 16 rows; what the gateway's calls are lent, at full height; what the cabinet's are lent where
there are no rows. Computed: what else the cabinet's are lent, from the bytes that a row takes. For the gateway this gives what is measured.";

/// The stack that the largest calls write, and what they are lent. The gateway's are made at full height, the cabinet's on few rows.
fn needs_of_all(random: &mut Random) {
    let [(cabinet, twice), (few, more)] = Profile::ALL.map(|profile| (needs(profile, random, FEW), needs(profile, random, 2 * FEW)));
    let gateway = needs(Profile::Gateway, random, model::GATEWAY.height as usize);
    println!("{LEGEND}");
    heading(&["function", "cabinet: stack", "cabinet: lent", "gateway: stack", "gateway: lent"]);
    for (i, (name, full)) in gateway.iter().enumerate() {
        assert_eq!(lent_at(model::GATEWAY.height, few[i].1, more[i].1), full.lent);
        let (few, twice) = (cabinet[i].1, twice[i].1);
        let computed = if few.lent == twice.lent { "" } else { ", computed" };
        let lent = lent_at(model::CABINET.height, few, twice);
        println!("| {name} | {} | {}{computed} | {} | {} |", kib(few.or(twice).stack), bytes(lent), kib(full.stack), bytes(full.lent));
    }
}

fn kib(bytes: usize) -> String {
    format!("{:.0} KiB", bytes as f64 / 1024.0)
}

fn bytes(n: usize) -> String {
    grouped(n as f64)
}

/// A number of a file of /proc, in bytes: it stands there in units of 1,024.
fn proc_bytes(file: &str, key: &str) -> usize {
    let text = std::fs::read_to_string(file).expect("Linux has the file");
    let line = text.lines().find_map(|line| line.strip_prefix(key)).expect("the file has the key");
    1024 * line.trim_matches(|c: char| !c.is_ascii_digit()).parse::<usize>().expect("a number")
}

/// The peak of the resident memory of a process that makes one call of generation, by rule 2: this program, run once more for each profile.
fn peaks() {
    heading(&["process with one call of generation", "rows", "lent", "peak of resident memory before the call", "after it"]);
    for profile in Profile::ALL {
        let number = profile.number().to_string();
        let run = Command::new(std::env::current_exe().unwrap()).args(["--peak", &number]).output().expect("this program runs");
        assert!(run.status.success(), "{}", String::from_utf8_lossy(&run.stderr));
        print!("{}", String::from_utf8_lossy(&run.stdout));
    }
}

/// That process, on as many rows as the limit and half of the machine's free memory allow. The buffer is written before the call: memory that
/// nobody wrote to is not resident.
fn peak(random: &mut Random, profile: Profile) {
    let limits = profile.limits();
    let row = 4 * (limits.main_columns as usize + limits.pre_columns as usize + 4 * (limits.lookups + 1));
    let rows = (limits.height as usize).min(proc_bytes("/proc/meminfo", "MemAvailable:") / 2 / row);
    let one = OfTable::new(profile, random, rows, true);
    let (mut trace, mut terminal) = (one.buffer(), [0; 5]);
    trace.fill(7);
    let Call { lent, make } = one.generation(Rule::Two, &mut trace, &mut terminal);
    let resident = || proc_bytes("/proc/self/status", "VmHWM:");
    let before = resident();
    make();
    let [rows, lent, before, after] = [rows, lent, before, resident()].map(bytes);
    println!("| {} | {rows} | {lent} | {before} | {after} |", format!("{profile:?}").to_lowercase());
}

fn main() {
    let mut random = Random(0x9E3779B97F4A7C15);
    match argument("--peak") {
        Some(number) => peak(&mut random, number.parse().ok().and_then(Profile::numbered).expect("--peak takes a profile's number")),
        None => {
            needs_of_all(&mut random);
            peaks();
        }
    }
}
