//! Prints the cases that the program `program_cases` replays: the worked cases and refusal examples of docs/SPECIFICATION.md with the answers that it names, then
//! small tables with the answers of p3-lookup's own source. docs/VECTORS.md says how the text reads.
//!
//!     cargo run --release --offline --bin vectors > ../crates/program_cases/stdin
use std::fmt::{Display, Write};
use std::process::ExitCode;

use harness::compare::{self, Compared};
use harness::exports::{Exports, Model, built_words, marked};
use harness::generator::{self, Case};
use harness::model::{self, Answer, Choices, Rule};
use harness::plain::{Ext, Field, Random, lift};
use harness::table::{Interaction, LOOKUP_WORDS, Lookup, Part, Plan, Table};

const P: u32 = Field::BabyBear.prime();
const SECOND: u32 = Field::KoalaBear.prime();

/// The largest weight of one word.
const MOST: u64 = u32::MAX as u64;

/// What all that is lent to be written holds before a call; a refusal by 1 to 12 leaves it so.
const BEFORE: u32 = 7;

struct Text {
    lines: String,
    /// Field, profile and rule of the cases that follow.
    choices: [u32; 3],
}

impl Text {
    fn comment(&mut self, comment: &str) {
        writeln!(self.lines, "# {comment}").unwrap();
    }

    /// A new case, with the choices where they are not all 1.
    fn case(&mut self, title: &str) {
        let choices = self.choices;
        writeln!(self.lines, "case {title}").unwrap();
        if choices != [1; 3] {
            self.list("choices", &choices);
        }
    }

    /// The cases that are written so have these choices.
    fn with(&mut self, choices: [u32; 3], cases: impl FnOnce(&mut Text)) {
        let before = std::mem::replace(&mut self.choices, choices);
        cases(self);
        self.choices = before;
    }

    /// The calls that follow in the case are by this rule.
    fn by(&mut self, rule: u32) {
        let [field, profile, _] = self.choices;
        self.list("choices", &[field, profile, rule]);
    }

    /// A case in the second field.
    fn case_in_second(&mut self, title: &str) {
        self.with([2, 1, 1], |text| text.case(&format!("field 2: {title}")));
    }

    fn list<T: Display>(&mut self, key: &str, numbers: &[T]) {
        let numbers: String = numbers.iter().map(|n| format!(" {n}")).collect();
        writeln!(self.lines, "{key}{numbers}").unwrap();
    }

    fn answer(&mut self, function: &str, answer: Answer, more: &[u64]) {
        self.list(function, &[&[u64::from(answer.number)], &answer.details[..], more].concat());
    }

    /// The lists of one table.
    fn table(&mut self, table: &Table) {
        self.tables(std::slice::from_ref(table));
    }

    /// The lists of all tables, one table after the other; empty ones are left out.
    fn tables(&mut self, tables: &[Table]) {
        let size = |t: &Table| {
            let counts = [t.main.len(), t.preprocessed.len(), t.public_values.len(), t.node_count(), t.lookup_count(), t.names.len()];
            let more = [t.tuples.len(), t.multiplicities.len(), t.flags.len(), t.elements.len()];
            let shape = [t.main_width, t.height, t.pre_width, t.pre_height];
            [&shape[..], &counts.map(|n| n as u64), &more.map(|n| n as u64)].concat()
        };
        self.list("sizes", &tables.iter().flat_map(size).collect::<Vec<u64>>());
        self.words(tables, "main", |t| &t.main);
        self.words(tables, "preprocessed", |t| &t.preprocessed);
        self.words(tables, "public", |t| &t.public_values);
        self.words(tables, "nodes", |t| &t.nodes);
        self.lookups(tables, "");
    }

    fn lookups(&mut self, tables: &[Table], before: &str) {
        let key = |name: &str| format!("{before}{name}");
        self.words(tables, &key("lookups"), |t| &t.lookups);
        self.words(tables, &key("names"), |t| &t.names);
        self.words(tables, &key("tuples"), |t| &t.tuples);
        self.words(tables, &key("multiplicities"), |t| &t.multiplicities);
        self.words(tables, &key("flags"), |t| &t.flags);
        self.words(tables, &key("elements"), |t| &t.elements);
    }

    fn words<T: Display + Copy>(&mut self, tables: &[Table], key: &str, list: fn(&Table) -> &[T]) {
        let words: Vec<T> = tables.iter().flat_map(list).copied().collect();
        // A list that was given before in the same case is given again, if only as an empty one.
        if !words.is_empty() || key.starts_with("packed") {
            self.list(key, &words);
        }
    }

    fn generate(&mut self, answer: Answer, trace: &[u32], terminal: Option<Ext>) {
        self.list("trace", trace);
        self.list("terminal", &if (1..=12).contains(&answer.number) { [BEFORE; 5] } else { marked(terminal) });
        self.answer("generate", answer, &[]);
    }

    fn constraints(&mut self, answer: Answer, width: u64, rows: &[u32], terminal: Option<Ext>) {
        self.list("rows", rows);
        self.list("claimed", &terminal.unwrap_or_default());
        self.answer("constraints", answer, &[width, terminal.is_some().into()]);
    }

    /// What the outputs hold afterwards: the packed lookups, and what they held before. They are as long as the table's own lists.
    fn pack(&mut self, table: &Table, answer: Answer, limit: u64, packed: &[Lookup]) {
        let mut t = table.clone();
        t.names.fill(BEFORE as u8);
        for list in [&mut t.lookups, &mut t.tuples, &mut t.multiplicities, &mut t.flags, &mut t.elements] {
            list.fill(BEFORE);
        }
        let mut used = [BEFORE as usize; 6];
        if answer.number == 0 {
            let (lent, mut written) = (t.clone(), Table::default());
            written.set_records(packed);
            used = written.lengths();
            t.lookups = [&written.lookups, &lent.lookups[used[0]..]].concat();
            t.names = [&written.names, &lent.names[used[1]..]].concat();
            t.tuples = [&written.tuples, &lent.tuples[used[2]..]].concat();
            t.multiplicities = [&written.multiplicities, &lent.multiplicities[used[3]..]].concat();
            t.flags = [&written.flags, &lent.flags[used[4]..]].concat();
            t.elements = [&written.elements, &lent.elements[used[5]..]].concat();
        }
        self.lookups(&[t], "packed-");
        self.list("used", &used);
        self.answer("pack", answer, &[limit]);
    }

    /// The interactions with the lists that their lookups will have. The list that building is lent holds `lookups` afterwards, of which it
    /// wrote the first `used` words.
    fn build(&mut self, interactions: &[Interaction], answer: Answer, lookups: &[u32], used: usize) {
        let Plan { kinds: [locals, globals, exclusives], interactions, weights, lists } = Plan::of(interactions);
        self.list("interactions", &interactions);
        self.list("weights", &weights);
        self.list("names", &lists.names);
        self.list("tuples", &lists.tuples);
        self.list("multiplicities", &lists.multiplicities);
        self.list("flags", &lists.flags);
        self.list("elements", &lists.elements);
        self.list("lookups", lookups);
        self.answer("build", answer, &[locals, globals, exclusives, used as u64]);
    }

    fn widths(&mut self, tables: &[Table], answer: Answer, widest: u64) {
        let size = |t: &Table| [t.lookup_count(), t.names.len(), t.tuples.len()];
        self.list("lists", &tables.iter().flat_map(size).collect::<Vec<usize>>());
        self.answer("widths", answer, &[if answer.number == 0 { widest } else { BEFORE.into() }]);
    }

    fn bound(&mut self, tables: &[Table], heights: &[u64], answer: Answer) {
        self.list("counts", &tables.iter().map(Table::lookup_count).collect::<Vec<usize>>());
        self.list("heights", heights);
        self.answer("bound", answer, &[]);
    }

    fn prefixes(&mut self, (alpha, beta): (Ext, Ext), width: u64, count: u64, answer: Answer, prefixes: &[Ext]) {
        self.list("element", &[alpha, beta].concat());
        self.list("written", &prefixes.concat());
        self.answer("prefixes", answer, &[width, count]);
    }

    fn balance(&mut self, answer: Answer, workspace: &[u32]) {
        self.list("workspace", workspace);
        self.answer("balance", answer, &[]);
    }

    /// The nodes, with room for those that are to come, before and after, and the count.
    fn count(&mut self, nodes: &[u32], after: &[u32], count: [u32; 2]) {
        self.list("nodes", nodes);
        self.list("nodes-after", after);
        self.list("count", &count);
    }

    fn count_of(&mut self, used: u64, x: i32, answer: Answer) {
        self.answer("from-i32", answer, &[used, (x as u32).into()]);
    }

    fn negated(&mut self, used: u64, [node, weight]: [u32; 2], answer: Answer) {
        self.answer("negated", answer, &[used, node.into(), weight.into()]);
    }

    /// The reader's part of a trace, whose words are their places.
    fn row(&mut self, words: u32, lookups: u64, height: u64, row: u64, part: [u32; 2]) {
        self.list("rows", &(0..words).collect::<Vec<u32>>());
        self.list("part", &part);
        self.list("written", &(part[0]..part[0] + part[1]).collect::<Vec<u32>>());
        self.answer("row", ACCEPTED, &[lookups, height, row]);
    }

    /// A function of one element has no details.
    fn element(&mut self, element: &[u32], result: &[u32], function: &str, number: u32, more: &[u32]) {
        self.list("element", element);
        self.list("result", result);
        self.list(function, &[&[number], more].concat());
    }
}

fn main() -> ExitCode {
    if !cfg!(source) {
        println!("no source of p3-lookup 0.8.0: set P3_LOOKUP_SRC");
        return ExitCode::FAILURE;
    }
    let mut text = Text { lines: String::new(), choices: [1; 3] };
    text.comment("The worked cases of docs/SPECIFICATION.md, with the answers that it names.");
    worked(&mut text);
    text.comment("An example of each refusal, as docs/SPECIFICATION.md gives it.");
    refusals(&mut text);
    text.comment("Building, with the answers that follow from docs/SPECIFICATION.md.");
    building(&mut text);
    text.comment("Counts, rows, powers and inverses, with the answers that follow from docs/SPECIFICATION.md.");
    counts(&mut text);
    rows(&mut text);
    elements(&mut text);
    text.comment("The second field, and unknown choices, with the answers that follow from docs/SPECIFICATION.md.");
    second_field(&mut text);
    second_field_refusals(&mut text);
    unknown(&mut text);
    text.comment("The gateway, its limits met and passed beside the cabinet's, with the answers that follow from docs/SPECIFICATION.md.");
    gateway(&mut text);
    gateway_of_two(&mut text);
    gateway_refusals(&mut text);
    text.comment("Both tuple rules, with the answers that follow from docs/SPECIFICATION.md.");
    rules(&mut text);
    rules_on_rows(&mut text);
    rules_on_digits(&mut text);
    rules_and_choices(&mut text);
    rule_two_refusals(&mut text);
    text.comment("Row offsets, with the answers that follow from docs/SPECIFICATION.md.");
    offsets(&mut text);
    unused_words(&mut text);
    largest_offset(&mut text);
    offset_refusals(&mut text);
    text.comment("Weights, with the answers that follow from docs/SPECIFICATION.md.");
    weight_limits(&mut text);
    weight_refusals(&mut text);
    built_sums(&mut text);
    packed_beside_locals(&mut text);
    height_sums(&mut text);
    text.comment("Answers of p3-lookup 0.8.0, in either field.");
    let cases = cases();
    for (i, case) in cases.iter().enumerate() {
        text.with([case.field().number(), 1, 1], |text| {
            text.case(&format!("oracle {i}"));
            oracle(text, case);
        });
    }
    text.comment("The first five of these with another trace by rule 2, by that rule: p3-lookup is given each tuple reversed.");
    for (i, case) in cases.iter().enumerate().filter_map(|(i, case)| Some((i, by_rule_two(case)?))).take(5) {
        text.with([case.field().number(), 1, 2], |text| {
            text.case(&format!("rule 2: oracle {i}"));
            text.tables(&case.tables);
            generation(text, &case);
        });
    }
    print!("{}", text.lines);
    ExitCode::SUCCESS
}

// The cases of docs/SPECIFICATION.md.

const ACCEPTED: Answer = model::ACCEPTED;

fn refused(number: u32, details: [u64; 3]) -> Answer {
    Answer { number, details }
}

/// Nodes 0 to 4: the column, then 1, 0, 7 and 2.
fn table(rows: &[u32], lookups: &[Lookup]) -> Table {
    let mut t = Table { main_width: 1, height: rows.len() as u64, main: rows.to_vec(), ..Table::default() };
    t.nodes = vec![1, 0, 0, 0, 1, 0, 0, 0, 0, 0, 7, 0, 0, 2, 0];
    let numbered = lookups.iter().zip(0..).map(|(l, column)| Lookup { column, ..l.clone() });
    t.set_records(&numbered.collect::<Vec<Lookup>>());
    t
}

fn lookup(tuples: &[&[u32]], multiplicities: &[u32], flags: Option<&[u32]>) -> Lookup {
    Lookup {
        bus: Some(b"mem".to_vec()),
        weight: 1,
        column: 0,
        exclusive: flags.is_some(),
        tuples: tuples.iter().map(|t| t.to_vec()).collect(),
        multiplicities: multiplicities.to_vec(),
        flags: flags.unwrap_or_default().to_vec(),
    }
}

/// The column once: (3) for a row 3.
fn once() -> Lookup {
    lookup(&[&[0]], &[1], None)
}

fn words(elements: &[Ext]) -> Vec<u32> {
    elements.concat()
}

fn lifted(numbers: &[u32]) -> Vec<Ext> {
    numbers.iter().map(|n| lift(*n)).collect()
}

/// A case of generation: the trace, in elements, and the terminal.
fn generated(text: &mut Text, title: &str, t: &Table, alpha: u32, beta: u32, trace: &[u32], terminal: u32) {
    text.case(title);
    text.table(t);
    text.list("challenges", &words(&[lift(alpha), lift(beta)]));
    text.generate(ACCEPTED, &words(&lifted(trace)), Some(lift(terminal)));
}

fn worked(text: &mut Text) {
    generated(text, "c1 (3, 7) with beta 10 combines to 37", &table(&[3], &[lookup(&[&[0, 3]], &[1], None)]), 38, 10, &[0, 1], 1);
    generated(text, "c2 the empty tuple combines to 0", &table(&[3], &[lookup(&[&[]], &[1], None)]), 1, 10, &[0, 1], 1);
    text.case("c3 X^3 * X = 11");
    text.element(&[0, 1, 0, 0], &lift(11), "power", 0, &[4]);
    let half = 1006632961;
    generated(text, "c4 rows 3, 4 with multiplicity 1, alpha 5", &table(&[3, 4], &[once()]), 5, 0, &[0, half, half, 1], half + 1);
    generated(text, "c5 additive (3), multiplicity 0, alpha 3", &table(&[3], &[lookup(&[&[0]], &[2], None)]), 3, 0, &[0, 0], 0);
    fault(text, "c6 the same in a chosen branch", lookup(&[&[0]], &[2], Some(&[1])), 3, 15);
    let unflagged = lookup(&[&[0], &[0]], &[1, 1], Some(&[2, 2]));
    generated(text, "c7 all flags 0", &table(&[3], &[unflagged]), 5, 0, &[0, 0], 0);
    degree(text, "c8 two additive tuples, all of degree 1", lookup(&[&[0], &[0]], &[0, 0], None), 3);
    degree(text, "c9 four exclusive branches likewise", lookup(&[&[0][..]; 4], &[0; 4], Some(&[0; 4])), 3);
    let five: Vec<Lookup> = (0..5).map(|_| lookup(&[&[0]], &[0], None)).collect();
    for (limit, sizes) in [(3, &[2, 2, 1][..]), (0, &[1; 5])] {
        text.case(&format!("c10 five one-tuple additive lookups of degree 1 on one bus, limit {limit}"));
        let t = table(&[3], &five);
        text.table(&t);
        let column = |(n, column): (&usize, u32)| Lookup { weight: *n as u64, column, ..lookup(&vec![&[0][..]; *n], &vec![0; *n], None) };
        text.pack(&t, ACCEPTED, limit, &sizes.iter().zip(0..).map(column).collect::<Vec<Lookup>>());
    }
    text.case("c11 alpha 1, beta 2, W 3");
    text.prefixes((lift(1), lift(2)), 3, 2, ACCEPTED, &[lift(9), lift(17)]);
    bound(text, "c12 weight 2013265920, height 1", 2013265920, ACCEPTED);
    balance(text, "(9) and (10) both unbalanced name (10)", &[9, 10], 20, refused(18, [0, 1, 1]), &[(9, 1), (10, 1)]);
    text.case("32 words suffice for row 10's example");
    text.table(&table(&[3, 3, 3, 3], &[once()]));
    text.list("challenges", &words(&[lift(4), lift(0)]));
    text.generate(ACCEPTED, &words(&[0, 1, 1, 1, 2, 1, 3, 1].map(lift)), Some(lift(4)));
}

/// One lookup on the row 3: the used part is zero after the fault.
fn fault(text: &mut Text, title: &str, lookup: Lookup, alpha: u32, number: u32) {
    text.case(title);
    text.table(&table(&[3], &[lookup]));
    text.list("challenges", &words(&[lift(alpha), lift(0)]));
    text.generate(refused(number, [0; 3]), &[0, 0, 0, 0, 0, 0, 0, 0, BEFORE], None);
}

fn degree(text: &mut Text, title: &str, lookup: Lookup, degree: u64) {
    text.case(title);
    text.table(&table(&[3], &[lookup]));
    text.answer("degree", ACCEPTED, &[0, 0, degree]);
}

fn bound(text: &mut Text, title: &str, weight: u64, answer: Answer) {
    let t = table(&[3], &[Lookup { weight, ..once() }]);
    text.case(title);
    text.table(&t);
    text.bound(&[t], &[1], answer);
}

fn balance(text: &mut Text, title: &str, rows: &[u32], room: usize, answer: Answer, nets: &[(u32, u32)]) {
    text.case(title);
    text.table(&table(rows, &[once()]));
    let mut workspace: Vec<u32> = nets.iter().flat_map(|(word, net)| [1, *word, 0, 0, 0, 0, 0, 0, 0, *net]).collect();
    workspace.resize(room, 0);
    text.balance(answer, &workspace);
}

/// Generation refuses before it writes: the buffer stays.
fn untouched(text: &mut Text, title: &str, t: &Table, challenges: &[u32], room: usize, number: u32) {
    text.case(title);
    text.table(t);
    text.list("challenges", challenges);
    text.generate(refused(number, [0; 3]), &vec![BEFORE; room], None);
}

/// The column, 1, and the column squared 8 times.
fn squared() -> Vec<u32> {
    let mut nodes = vec![1, 0, 0, 0, 1, 0, 11, 0, 0];
    nodes.extend((2..9).flat_map(|n| [11, n, n]));
    nodes
}

fn refusals(text: &mut Text) {
    let pair = words(&[lift(5), lift(0)]);
    untouched(text, "1: 65 lookups", &table(&[3], &vec![once(); 65]), &words(&[lift(5); 130]), 8, 1);
    untouched(text, "2: challenge word 2013265921", &table(&[3], &[once()]), &[P, 0, 0, 0, 0, 0, 0, 0], 8, 2);
    let mut t = table(&[3], &[once()]);
    t.nodes[9..12].copy_from_slice(&[9, 3, 1]);
    untouched(text, "3: node 3 = node 3 + node 1", &t, &pair, 8, 3);
    t.nodes = squared();
    untouched(text, "4: a column squared 8 times", &t, &pair, 8, 4);
    let mut t = table(&[3], &[once(), once()]);
    t.lookups[LOOKUP_WORDS + 3] = 5;
    untouched(text, "5: columns 0, 5", &t, &words(&[lift(5), lift(0), lift(5), lift(0)]), 12, 5);
    let differing = table(&[3], &[lookup(&[&[0, 0]], &[1], None), lookup(&[&[0, 0, 0]], &[1], None)]);
    text.case("6: bus \"mem\": 2 and 3");
    text.table(&differing);
    text.widths(std::slice::from_ref(&differing), refused(6, [1, 2, 3]), 0);
    text.pack(&differing, refused(6, [1, 2, 3]), 3, &[]);
    let many = table(&[3], &[lookup(&[&[0]], &[1, 1], None)]);
    text.case("5: one tuple, two multiplicities");
    text.table(&many);
    text.widths(std::slice::from_ref(&many), refused(5, [0; 3]), 0);
    text.bound(std::slice::from_ref(&many), &[1], refused(5, [0; 3]));
    text.pack(&many, refused(5, [0; 3]), 3, &[]);
    text.answer("degree", refused(5, [0; 3]), &[0, 0, BEFORE.into()]);
    text.case("1: t = 2");
    text.table(&table(&[3], &[once()]));
    text.answer("degree", refused(1, [0; 3]), &[0, 2, BEFORE.into()]);
    text.case("1: eight words for the packed lookup");
    let t = table(&[3], &[once()]);
    text.table(&t);
    text.pack(&Table { lookups: vec![0; LOOKUP_WORDS - 1], ..t }, refused(1, [0; 3]), 3, &[]);
    text.case("7: weights 4294967295 and 1");
    let heavy = table(&[3], &[Lookup { weight: MOST, ..once() }, once()]);
    text.table(&heavy);
    text.pack(&heavy, refused(7, [0; 3]), 3, &[]);
    untouched(text, "8: 2 lookups, 3 challenges", &table(&[3], &[once(), once()]), &words(&[lift(5); 3]), 12, 8);
    let short = Table { pre_width: 1, pre_height: 3, preprocessed: vec![0; 3], ..table(&[3; 4], &[once()]) };
    untouched(text, "9: height 4, preprocessed 3", &short, &pair, 32, 9);
    untouched(text, "10: 1 lookup, height 4, 31 words", &table(&[3; 4], &[once()]), &pair, 31, 10);

    let half = 1006632961;
    text.case("11: no terminal, 1 lookup");
    text.table(&table(&[3], &[once()]));
    text.list("challenges", &pair);
    text.constraints(refused(11, [0; 3]), 2, &words(&[lift(0), lift(half)]), None);
    text.case("12: W = 0");
    text.prefixes((lift(1), lift(2)), 0, 1, refused(12, [0; 3]), &[[BEFORE; 4]]);
    fault(text, "13: flag 2", lookup(&[&[0]], &[1], Some(&[4])), 5, 13);
    fault(text, "14: flags 1, 1", lookup(&[&[0], &[0]], &[1, 1], Some(&[1, 1])), 5, 14);
    let t = table(&[5], &[once()]);
    text.case("15: alpha 5, tuple (5), multiplicity 1");
    text.table(&t);
    text.list("challenges", &pair);
    text.generate(refused(15, [0; 3]), &[0; 8], None);
    balance(text, "16: 2 tuples, 19 words", &[3, 4], 19, refused(16, [0; 3]), &[]);
    text.case("17: accumulator 1 on row 0");
    text.table(&table(&[3], &[once()]));
    text.list("challenges", &pair);
    text.constraints(refused(17, [0, 1, 0]), 2, &words(&[lift(1), lift(half)]), Some(lift(half + 1)));
    balance(text, "18: (3) once", &[3], 10, refused(18, [0, 0, 1]), &[(3, 1)]);
    bound(text, "19: weight 2013265921, height 1", 2013265921, refused(19, [2013265921, 0, 0]));
    text.case("20: 1 and 1");
    text.list("given", &[1, 1, 0, 0, 0, 1, 1, 0, 0, 0]);
    text.answer("terminals", refused(20, [0; 3]), &[]);
}

/// A tuple of so many words, each the column, with multiplicity 1.
fn part(width: usize, weight: u32) -> Part {
    Part { elements: vec![0; width], multiplicity: 1, weight }
}

fn local(parts: &[Part]) -> Interaction {
    Interaction::Local(parts.to_vec())
}

fn global(part: Part) -> Interaction {
    Interaction::Global(b"mem".to_vec(), part)
}

/// Branches with flag 0.
fn exclusive(parts: &[Part]) -> Interaction {
    Interaction::Exclusive(b"mem".to_vec(), parts.iter().map(|part| (2, part.clone())).collect())
}

fn built(text: &mut Text, title: &str, interactions: &[Interaction], lookups: &[u32]) {
    text.case(title);
    text.table(&table(&[3], &[]));
    text.build(interactions, ACCEPTED, lookups, LOOKUP_WORDS * interactions.len());
}

/// Building refuses before it writes: the list stays.
fn unbuilt(text: &mut Text, title: &str, t: &Table, interactions: &[Interaction], answer: Answer) {
    text.case(title);
    text.table(t);
    text.build(interactions, answer, &vec![BEFORE; LOOKUP_WORDS * interactions.len()], BEFORE as usize);
}

fn building(text: &mut Text) {
    let of_each = [exclusive(&[part(1, 1), part(2, 6), part(1, 2)]), global(part(3, 4)), local(&[part(1, 2), part(1, 3)])];
    let words = [[0, 0, 5, 0, 0, 2, 2, 0, 0], [1, 3, 4, 1, 0, 1, 1, 0, 0], [1, 3, 6, 2, 1, 3, 3, 3, 0]].concat();
    built(text, "built: locals, then globals, then exclusives", &of_each, &words);
    built(text, "built: no interactions", &[], &[]);
    built(text, "built: no tuples", &[local(&[]), exclusive(&[])], &[[0; 9], [1, 3, 0, 1, 1, 0, 0, 0, 0]].concat());
    let heavy = [part(2, u32::MAX), part(2, 1)];
    built(text, "built: weights 4294967295 and 1 of a local: their sum", &[local(&heavy)], &[0, 0, 0, 0, 0, 2, 2, 0, 1]);
    built(text, "built: weights 4294967295 and 1 of an exclusive: the largest", &[exclusive(&heavy)], &[1, 3, u32::MAX, 0, 1, 2, 2, 2, 0]);
    built(text, "built: two words more than are used", &[global(part(1, 9))], &[1, 3, 9, 0, 0, 1, 1, 0, 0, BEFORE, BEFORE]);

    let mut t = table(&[3], &[]);
    let one = [global(part(1, 1))];
    unbuilt(text, "built, 1: 65 globals", &t, &vec![global(part(1, 1)); 65], refused(1, [0; 3]));
    text.case("built, 1: eight words for a lookup");
    text.table(&t);
    text.build(&one, refused(1, [0; 3]), &[BEFORE; LOOKUP_WORDS - 1], BEFORE as usize);
    t.nodes[10] = P;
    unbuilt(text, "built, 2: a constant 2013265921", &t, &one, refused(2, [0; 3]));
    t.nodes[9..12].copy_from_slice(&[9, 3, 1]);
    unbuilt(text, "built, 3: node 3 = node 3 + node 1", &t, &one, refused(3, [0; 3]));
    t.nodes = squared();
    unbuilt(text, "built, 4: a column squared 8 times", &t, &one, refused(4, [0; 3]));
    let t = table(&[3], &[]);
    let absent = Part { multiplicity: 5, ..part(1, 1) };
    unbuilt(text, "built, 5: node 5 of 5", &t, &[global(absent)], refused(5, [0; 3]));
    unbuilt(text, "built, 6: a local of widths 2 and 3", &t, &[local(&[part(2, 1), part(3, 1)])], refused(6, [0, 2, 3]));
    let second = [local(&[part(1, 1)]), local(&[part(2, 1), part(2, 1), part(0, 1)]), one[0].clone()];
    unbuilt(text, "built, 6: the second local", &t, &second, refused(6, [1, 2, 0]));
}

/// A count is added after the column and the constant 1, in a list with room for one node and a word more.
fn counts(text: &mut Text) {
    let before = [1, 0, 0, 0, 1, 0, BEFORE, BEFORE, BEFORE, BEFORE];
    let after = |node: [u32; 3]| [&before[..6], &node, &[BEFORE]].concat();
    let unwritten = [BEFORE; 2];
    for (x, word, weight) in [(3, 3, 3), (-1, P - 1, 1), (0, 0, 0), (2013265921, 0, P), (i32::MAX, 134217726, 2147483647)] {
        text.case(&format!("count of {x}"));
        text.count(&before, &after([0, word, 0]), [2, weight]);
        text.count_of(2, x, ACCEPTED);
    }
    text.case("count of -2^31");
    text.count(&before, &after([0, 1879048194, 0]), [2, 1 << 31]);
    text.count_of(2, i32::MIN, ACCEPTED);
    text.case("negated count of node 1, weight 2^32 - 1");
    text.count(&before, &after([12, 1, 0]), [2, u32::MAX]);
    text.negated(2, [1, u32::MAX], ACCEPTED);
    text.case("count, 1: no room for a node");
    text.count(&before[..8], &before[..8], unwritten);
    text.count_of(2, 1, refused(1, [0; 3]));
    text.negated(2, [1, 1], refused(1, [0; 3]));
    text.case("negated count, 3: node 2 of 2");
    text.count(&before, &before, unwritten);
    text.negated(2, [2, 1], refused(3, [0; 3]));
    text.case("bounded count");
    text.list("count", &[5, 9]);
    text.answer("bounded", ACCEPTED, &[5, 9]);
    text.case("provided count");
    text.list("count", &[5, 0]);
    text.answer("provided", ACCEPTED, &[5]);
}

/// Two lookups have rows of 12 words.
fn rows(text: &mut Text) {
    let cases = [
        ("row 0", 36, 2, 3, 0, [0, 12]),
        ("the last row", 36, 2, 3, 2, [24, 12]),
        ("row: past the last", 48, 2, 3, 3, [0, 0]),
        ("row: past the words", 36, 2, 4, 3, [0, 0]),
        ("row: a word too few", 35, 2, 3, 2, [0, 0]),
        ("row: words past the last", 41, 2, 3, 2, [24, 12]),
        ("row: no lookups", 12, 0, 3, 0, [0, 0]),
        ("row: row 2^32 - 1 of 2^32", 36, 2, 1 << 32, u32::MAX.into(), [0, 0]),
    ];
    for (title, words, lookups, height, row, part) in cases {
        text.case(title);
        text.row(words, lookups, height, row, part);
    }
}

fn elements(text: &mut Text) {
    let half = 1006632961;
    // X / 11 is the inverse of X^3.
    let eleventh = 549072524;
    let cases = [
        ("the inverse of 2", lift(2), lift(half)),
        ("the inverse of X^3", [0, 0, 0, 1], [0, eleventh, 0, 0]),
        ("the inverse of 0", [0; 4], [0; 4]),
    ];
    for (title, element, result) in cases {
        text.case(title);
        text.element(&element, &result, "inverse", 0, &[]);
    }
    text.case("inverse, 1: three words");
    text.element(&[1, 2, 3], &[BEFORE; 4], "inverse", 1, &[]);
    text.case("inverse, 1: room for five words");
    text.element(&[1, 2, 3, 4], &[BEFORE; 5], "inverse", 1, &[]);
    text.case("inverse, 2: a word 2013265921");
    text.element(&[1, 2, P, 4], &[BEFORE; 4], "inverse", 2, &[]);
    text.case("the power 0 of 0 is 1");
    text.element(&[0; 4], &lift(1), "power", 0, &[0]);
    text.case("power, 2: a word 2013265921");
    text.element(&[P, 0, 0, 0], &[BEFORE; 4], "power", 2, &[4]);
}

/// What the prime and the value of X^4 decide.
fn second_field(text: &mut Text) {
    // 1 / 2, 1 / 3 and 1 / 2013265921.
    let (half, third, inverse) = (1065353217, 710235478, 913159918);
    text.case_in_second("X^3 * X = 3");
    text.element(&[0, 1, 0, 0], &lift(3), "power", 0, &[4]);
    text.case_in_second("the inverse of X^3");
    text.element(&[0, 0, 0, 1], &[0, third, 0, 0], "inverse", 0, &[]);
    text.case_in_second("the inverse of 2013265921");
    text.element(&lift(P), &lift(inverse), "inverse", 0, &[]);
    text.case_in_second("rows 3, 4 with multiplicity 1, alpha 5");
    text.table(&table(&[3, 4], &[once()]));
    text.list("challenges", &words(&[lift(5), lift(0)]));
    let trace = words(&[0, half, half, 1].map(lift));
    text.generate(ACCEPTED, &trace, Some(lift(half + 1)));
    text.constraints(ACCEPTED, 2, &trace, Some(lift(half + 1)));
    text.constraints(refused(17, [1, 3, 0]), 2, &trace, Some(lift(half + 2)));
    text.case_in_second("alpha 2013265921, tuple (2013265920)");
    text.table(&table(&[P - 1], &[once()]));
    text.list("challenges", &words(&[lift(P), lift(0)]));
    text.generate(ACCEPTED, &words(&[0, 1].map(lift)), Some(lift(1)));
    text.case_in_second("beta X, W 4");
    text.prefixes((lift(1), [0, 1, 0, 0]), 4, 2, ACCEPTED, &[lift(4), lift(7)]);
    let before = [1, 0, 0, 0, 1, 0, BEFORE, BEFORE, BEFORE, BEFORE];
    for (x, word, weight) in [(-1, SECOND - 1, 1), (2013265921, P, P), (i32::MIN, 2113929218, 1 << 31)] {
        text.case_in_second(&format!("count of {x}"));
        text.count(&before, &[&before[..6], &[0, word, 0, BEFORE]].concat(), [2, weight]);
        text.count_of(2, x, ACCEPTED);
    }
    for (title, other, answer) in [("1 and -1", SECOND - 1, ACCEPTED), ("1 and 2013265920", P - 1, refused(20, [0; 3]))] {
        text.case_in_second(&format!("terminals {title}"));
        text.list("given", &[1, 1, 0, 0, 0, 1, other, 0, 0, 0]);
        text.answer("terminals", answer, &[]);
    }
    // (3) with multiplicities 1 and -1 of either field.
    for (minus_one, answer, net) in [(SECOND - 1, ACCEPTED, 0), (P - 1, refused(18, [0, 0, P.into()]), P)] {
        text.case_in_second(&format!("balance of (3) once, and {minus_one} times"));
        let mut t = table(&[3], &[once(), lookup(&[&[0]], &[3], None)]);
        t.nodes[10] = minus_one;
        text.table(&t);
        text.balance(answer, &[1, 3, 0, 0, 0, 0, 0, 0, 0, net]);
    }
}

/// A word 2013265921 is below the second prime, and so is a height sum; 2130706433 is not.
fn second_field_refusals(text: &mut Text) {
    for (word, answer) in [(P, ACCEPTED), (SECOND, refused(2, [0; 3]))] {
        let mut t = table(&[3], &[once()]);
        t.nodes[10] = word;
        text.case_in_second(&format!("a constant {word}"));
        text.table(&t);
        text.answer("degree", answer, &[0, 0, if answer.number == 0 { 2 } else { BEFORE.into() }]);
        text.pack(&t, answer, 3, &t.records());
        let taken = answer.number == 0;
        let used = if taken { LOOKUP_WORDS } else { BEFORE as usize };
        text.build(&[global(part(1, 1))], answer, &left(taken, &[1, 3, 1, 0, 0, 1, 1, 0, 0]), used);
    }
    let t = table(&[3], &[once()]);
    text.case_in_second("inverse, 2: a word 2130706433");
    text.element(&[1, 2, SECOND, 4], &[BEFORE; 4], "inverse", 2, &[]);
    text.case_in_second("2: challenge word 2130706433");
    text.table(&t);
    text.list("challenges", &[SECOND, 0, 0, 0, 0, 0, 0, 0]);
    text.generate(refused(2, [0; 3]), &[BEFORE; 8], None);
    text.case_in_second("2: trace word 2130706433");
    text.table(&t);
    text.list("challenges", &words(&[lift(5), lift(0)]));
    text.constraints(refused(2, [0; 3]), 2, &[0, 0, 0, 0, SECOND, 0, 0, 0], Some(lift(0)));
    for (weight, answer) in [(P, ACCEPTED), (SECOND - 1, ACCEPTED), (SECOND, refused(19, [SECOND.into(), 0, 0]))] {
        let t = table(&[3], &[Lookup { weight: weight.into(), ..once() }]);
        text.case_in_second(&format!("weight {weight}, height 1"));
        text.table(&t);
        text.bound(&[t], &[1], answer);
    }
}

/// An unknown field or profile is 1 at every function that can refuse, an unknown rule where there is one; nothing is written.
fn unknown(text: &mut Text) {
    let (one, t) = (refused(1, [0; 3]), table(&[3], &[once()]));
    for choices in [[0, 1, 1], [3, 1, 1], [1, 0, 1], [1, 3, 1], [1, 1, 0], [1, 1, 3]] {
        let [field, profile, rule] = choices;
        text.with(choices, |text| text.case(&format!("1: field {field}, profile {profile}, rule {rule}")));
        text.table(&t);
        text.list("challenges", &words(&[lift(5), lift(0)]));
        text.generate(one, &[BEFORE; 8], None);
        text.constraints(one, 2, &[0; 8], Some(lift(0)));
        if rule != 1 {
            text.answer("degree", ACCEPTED, &[0, 0, 2]);
            continue;
        }
        text.answer("degree", one, &[0, 0, BEFORE.into()]);
        text.pack(&t, one, 3, &[]);
        text.widths(std::slice::from_ref(&t), one, 0);
        text.bound(std::slice::from_ref(&t), &[1], one);
        text.balance(one, &[BEFORE; 10]);
        text.list("given", &[0; 5]);
        text.answer("terminals", one, &[]);
        text.prefixes((lift(1), lift(2)), 3, 1, one, &[[BEFORE; 4]]);
        text.count(&[1, 0, 0, BEFORE, BEFORE, BEFORE], &[1, 0, 0, BEFORE, BEFORE, BEFORE], [BEFORE; 2]);
        text.count_of(1, 1, one);
        text.negated(1, [0, 1], one);
        text.build(&[global(part(1, 1))], one, &[BEFORE; LOOKUP_WORDS], BEFORE as usize);
        if field != 1 {
            text.element(&lift(2), &[BEFORE; 4], "inverse", 1, &[]);
            text.element(&lift(2), &[BEFORE; 4], "power", 1, &[4]);
        }
    }
}

/// Field 1 in profile 2, and by rule 2.
const GATEWAY: [u32; 3] = [1, 2, 1];
const RULE_TWO: [u32; 3] = [1, 1, 2];

/// The same calls in the gateway, which takes them or answers 1, and in the cabinet, which takes them.
fn in_both(text: &mut Text, title: &str, taken: bool, calls: impl Fn(&mut Text, bool)) {
    text.with(GATEWAY, |text| text.case(&format!("gateway: {title}")));
    calls(text, taken);
    text.case(&format!("cabinet: {title}"));
    calls(text, true);
}

/// The answer of a call that is taken, or else over a limit.
fn within(taken: bool, answer: Answer) -> Answer {
    if taken { answer } else { refused(1, [0; 3]) }
}

/// What a lent list holds afterwards.
fn left(taken: bool, written: &[u32]) -> Vec<u32> {
    if taken { written.to_vec() } else { vec![BEFORE; written.len()] }
}

/// The nodes 1 and, in the tables below, -1.
const ONE: u32 = 1;
const MINUS_ONE: u32 = 3;

/// The row 3, and so many lookups of one tuple of so many words, all of them the column.
fn threes(lookups: usize, width: usize, multiplicity: u32) -> Table {
    let mut t = table(&[3], &vec![lookup(&[&vec![0; width]], &[multiplicity], None); lookups]);
    t.nodes[10] = P - 1;
    t
}

/// Its tuple's slot with this net.
fn slot(width: u32, net: u32) -> Vec<u32> {
    let tuple = (0..8).map(|j| if j < width { 3 } else { 0 });
    [width].into_iter().chain(tuple).chain([net]).collect()
}

/// The functions that are lent traces. The challenges make each fraction 1.
fn of_traces(text: &mut Text, t: &Table, taken: bool) {
    let (n, width) = (t.lookup_count(), t.tuples[0]);
    let (trace, terminal) = (words(&[&[lift(0)], &vec![lift(1); n][..]].concat()), Some(lift(n as u32)));
    text.table(t);
    text.list("challenges", &words(&[lift(3 * width + 1), lift(1)]).repeat(n));
    text.generate(within(taken, ACCEPTED), &left(taken, &trace), terminal);
    text.constraints(within(taken, ACCEPTED), n as u64 + 1, &trace, terminal);
    text.balance(within(taken, refused(18, [0, 0, n as u64])), &left(taken, &slot(width, n as u32)));
}

/// The functions that are lent the lookups alone. Each lookup has the degree 2, a column of two of them 3. The height bound does not see the
/// widths of tuples.
fn of_lookups(text: &mut Text, t: &Table, taken: bool) {
    let (n, width, answer) = (t.lookup_count(), t.tuples[0], within(taken, ACCEPTED));
    text.answer("degree", answer, &[n as u64 - 1, 0, if taken { 2 } else { BEFORE.into() }]);
    let column = |(column, merged): (u32, &[Lookup])| Lookup {
        weight: merged.len() as u64,
        column,
        ..lookup(&vec![&merged[0].tuples[0][..]; merged.len()], &vec![ONE; merged.len()], None)
    };
    text.pack(t, answer, 3, &(0..).zip(t.records().chunks(2)).map(column).collect::<Vec<Lookup>>());
    text.widths(std::slice::from_ref(t), answer, width.into());
    text.bound(std::slice::from_ref(t), &[1], within(taken || n <= 8, ACCEPTED));
    let used = if taken { LOOKUP_WORDS * n } else { BEFORE as usize };
    text.build(&vec![global(part(width as usize, 1)); n], answer, &left(taken, &t.lookups), used);
}

/// What the gateway's limits of lookups, of a tuple's words and of rows decide in one table. Without preprocessed columns their height says
/// nothing, but is under its limit all the same.
fn gateway(text: &mut Text) {
    for (title, lookups, width, taken) in
        [("8 lookups", 8, 1, true), ("9 lookups", 9, 1, false), ("a tuple of 4 words", 1, 4, true), ("a tuple of 5 words", 1, 5, false)]
    {
        let t = threes(lookups, width, ONE);
        in_both(text, title, taken, |text, taken| {
            of_traces(text, &t, taken);
            of_lookups(text, &t, taken);
        });
    }
    for (pre_height, taken) in [(4096, true), (4097, false)] {
        let t = Table { pre_height, ..threes(1, 1, ONE) };
        in_both(text, &format!("preprocessed height {pre_height}"), taken, |text, taken| of_traces(text, &t, taken));
    }
    text.with(GATEWAY, |text| text.case("gateway: terminals, prefixes and counts"));
    text.list("given", &[1, 1, 0, 0, 0, 1, P - 1, 0, 0, 0]);
    text.answer("terminals", ACCEPTED, &[]);
    text.prefixes((lift(1), lift(2)), 3, 2, ACCEPTED, &[lift(9), lift(17)]);
    text.count(&[BEFORE; 3], &[0, 5, 0], [0, 5]);
    text.count_of(0, 5, ACCEPTED);
    text.count(&[1, 0, 0, BEFORE, BEFORE, BEFORE], &[1, 0, 0, 12, 0, 0], [1, 5]);
    text.negated(1, [0, 5], ACCEPTED);
}

/// The same over two tables, each of which may be as large.
fn gateway_of_two(text: &mut Text) {
    for (lookups, taken, net) in [(8, true, 0), (9, false, P - 1)] {
        let tables = [threes(8, 1, ONE), threes(lookups, 1, MINUS_ONE)];
        let balance = if net == 0 { ACCEPTED } else { refused(18, [0, 0, net.into()]) };
        in_both(text, &format!("tables of 8 and {lookups} lookups"), taken, |text, taken| {
            text.tables(&tables);
            text.widths(&tables, within(taken, ACCEPTED), 1);
            text.bound(&tables, &[1, 1], within(taken, ACCEPTED));
            text.balance(within(taken, balance), &left(taken, &slot(1, net)));
        });
    }
    let tables = [threes(1, 4, ONE), threes(1, 5, MINUS_ONE)];
    in_both(text, "tuples of 4 and 5 words in two tables", false, |text, taken| {
        text.tables(&tables);
        text.widths(&tables, within(taken, refused(6, [0, 4, 5])), 0);
        text.balance(within(taken, refused(18, [0, 0, 1])), &left(taken, &[slot(4, 1), slot(5, P - 1)].concat()));
    });
    let tables = [threes(1, 1, ONE), threes(1, 1, MINUS_ONE)];
    for (height, taken) in [(4096, true), (4097, false)] {
        in_both(text, &format!("heights 4096 and {height}"), taken, |text, taken| {
            text.tables(&tables);
            text.bound(&tables, &[4096, height], within(taken, ACCEPTED));
        });
        let tables = [tables[0].clone(), Table { pre_height: height, ..tables[1].clone() }];
        in_both(text, &format!("preprocessed height {height} of the second table"), taken, |text, taken| {
            text.tables(&tables);
            text.balance(within(taken, ACCEPTED), &left(taken, &slot(1, 0)));
        });
    }
}

/// Refusals that no limit gives are the same in the gateway. 2013265921 - 1 is 4096 times 491520.
fn gateway_refusals(text: &mut Text) {
    let half = 1006632961;
    text.with(GATEWAY, |text| {
        fault(text, "gateway, 13: flag 2", lookup(&[&[0]], &[1], Some(&[4])), 5, 13);
        fault(text, "gateway, 14: flags 1, 1", lookup(&[&[0], &[0]], &[1, 1], Some(&[1, 1])), 5, 14);
        fault(text, "gateway, 15: alpha 3, tuple (3)", once(), 3, 15);
        balance(text, "gateway, 16: 2 tuples, 19 words", &[3, 4], 19, refused(16, [0; 3]), &[]);
        text.case("gateway, 17: accumulator 1 on row 0");
        text.table(&table(&[3], &[once()]));
        text.list("challenges", &words(&[lift(5), lift(0)]));
        text.constraints(refused(17, [0, 1, 0]), 2, &words(&[lift(1), lift(half)]), Some(lift(half + 1)));
        balance(text, "gateway, 18: (3) once", &[3], 10, refused(18, [0, 0, 1]), &[(3, 1)]);
        for (weight, answer) in [(491520, ACCEPTED), (491521, refused(19, [2013270016, 0, 0]))] {
            let t = table(&[3], &[Lookup { weight, ..once() }]);
            text.case(&format!("gateway: weight {weight}, height 4096"));
            text.table(&t);
            text.bound(&[t], &[4096], answer);
        }
    });
    text.with([2, 2, 1], |text| {
        bound(text, "field 2, gateway: weight 2013265921, height 1", P.into(), ACCEPTED);
        let pairs = words(&[lift(5); 18]);
        untouched(text, "field 2, gateway, 1: 9 lookups", &table(&[3], &vec![once(); 9]), &pairs, 40, 1);
    });
}

/// A case of a table, with the same two challenges for each lookup.
fn challenged(text: &mut Text, title: &str, t: &Table, alpha: Ext, beta: Ext) {
    text.case(title);
    text.table(t);
    text.list("challenges", &words(&[alpha, beta]).repeat(t.lookup_count()));
}

/// What generation gives by a rule passes the constraints by that rule; by the other they refuse it on row 0, for this lookup. The calls that
/// follow are by the other.
fn told_apart(text: &mut Text, t: &Table, rule: u32, trace: &[u32], terminal: u32, lookup: u64) {
    let (width, trace, terminal) = (t.lookup_count() as u64 + 1, words(&lifted(trace)), Some(lift(terminal)));
    text.by(rule);
    text.generate(ACCEPTED, &trace, terminal);
    text.constraints(ACCEPTED, width, &trace, terminal);
    text.by(3 - rule);
    text.constraints(refused(17, [0, lookup, 0]), width, &trace, terminal);
}

/// (3, 7) with beta 10 is 37 by rule 1 and 73 by rule 2. Where one rule would divide by 0 the other divides by 36 or -36.
fn rules(text: &mut Text) {
    let (t, thirty_sixth) = (table(&[3], &[lookup(&[&[0, 3]], &[1], None)]), 615164587);
    for (rule, alpha, fraction) in [(1, 38, 1), (2, 74, 1), (1, 73, thirty_sixth), (2, 37, P - thirty_sixth)] {
        challenged(text, &format!("rule {rule}: (3, 7) with beta 10, alpha {alpha}"), &t, lift(alpha), lift(10));
        told_apart(text, &t, rule, &[0, fraction], fraction, 0);
        if fraction != 1 {
            text.generate(refused(15, [0; 3]), &[0, 0, 0, 0, 0, 0, 0, 0, BEFORE], None);
        }
    }
    // The branches are (3), (3, 7) and (7, 3, 2).
    let t = table(&[3], &[lookup(&[&[0], &[0, 3], &[3, 0, 4]], &[1, 1, 1], Some(&[2, 1, 2]))]);
    challenged(text, "rule 2: (3, 7) in the chosen one of three branches", &t, lift(74), lift(10));
    told_apart(text, &t, 2, &[0, 1], 1, 0);
}

/// What one rule has on the first of these rows the other has on the second.
fn rules_on_rows(text: &mut Text) {
    let mut t = Table { main_width: 2, height: 2, main: vec![3, 7, 7, 3], nodes: vec![1, 0, 0, 1, 1, 0, 0, 1, 0], ..Table::default() };
    t.set_records(&[lookup(&[&[0, 1]], &[2], None)]);
    let thirty_seventh = 707363702;
    challenged(text, "rules 1 and 2: rows (3, 7) and (7, 3), alpha 74", &t, lift(74), lift(10));
    told_apart(text, &t, 1, &[0, thirty_seventh, thirty_seventh, 1], thirty_seventh + 1, 0);
    told_apart(text, &t, 2, &[0, 1, 1, thirty_seventh], thirty_seventh + 1, 0);
    challenged(text, "rules 1 and 2, 15: rows (3, 7) and (7, 3), alpha 37", &t, lift(37), lift(10));
    for (rule, row) in [(1, 0), (2, 1)] {
        text.by(rule);
        text.generate(refused(15, [row, 0, 0]), &[0; 16], None);
    }
}

/// A tuple of digits, and what it is by rule 1 and by rule 2 with beta 10: the number that it reads forwards and backwards.
type Digits = (&'static [u32], [u32; 2]);

const NONE: Digits = (&[], [0, 0]);
const SINGLE: Digits = (&[5], [5, 5]);
const PAIR: Digits = (&[3, 7], [37, 73]);
const EIGHT: Digits = (&[1, 2, 3, 4, 5, 6, 7, 8], [12345678, 87654321]);

/// Ten nodes, the digits.
fn digits() -> Table {
    Table { main_width: 1, height: 1, main: vec![0], nodes: (0..10).flat_map(|digit| [0, digit, 0]).collect(), ..Table::default() }
}

/// The lookups of these tuples, with alpha 100. Each multiplicity is the denominator by this rule: so each tuple adds 1.
fn of_digits(rule: usize, lookups: &[&[Digits]]) -> Table {
    let mut t = digits();
    let mut records = vec![];
    for (column, tuples) in (0..).zip(lookups) {
        let mut denominator = |(_, read): &Digits| t.add_node(0, Field::BabyBear.sub_word(100, read[rule - 1]), 0);
        let multiplicities: Vec<u32> = tuples.iter().map(&mut denominator).collect();
        records.push(Lookup { column, ..lookup(&tuples.iter().map(|(digits, _)| *digits).collect::<Vec<_>>(), &multiplicities, None) });
    }
    t.set_records(&records);
    t
}

/// Tuples of different widths in one lookup and in several: elements that are taken from another tuple, or in another order, give other values.
/// With no word or one the rules are the same: the constraints by the other rule refuse the first lookup with more.
fn rules_on_digits(text: &mut Text) {
    let cases: [(u32, &str, &[&[Digits]], u64); 4] = [
        (1, "tuples of 0, 1, 2 and 8 words in a lookup", &[&[NONE, SINGLE, PAIR, EIGHT]], 0),
        (2, "tuples of 0, 1, 2 and 8 words in a lookup", &[&[NONE, SINGLE, PAIR, EIGHT]], 0),
        (2, "lookups of 0, of 1, of 2 and of 8 words", &[&[NONE], &[SINGLE], &[PAIR], &[EIGHT]], 2),
        (2, "lookups of 2 and 8, of 0, of 8, 1 and 2 words", &[&[PAIR, EIGHT], &[NONE], &[EIGHT, SINGLE, PAIR]], 0),
    ];
    for (rule, title, lookups, first) in cases {
        let t = of_digits(rule as usize, lookups);
        let fractions = lookups.iter().map(|tuples| tuples.len() as u32);
        let trace: Vec<u32> = std::iter::once(0).chain(fractions.clone()).collect();
        challenged(text, &format!("rule {rule}: {title}"), &t, lift(100), lift(10));
        told_apart(text, &t, rule, &trace, fractions.sum(), first);
    }
}

/// The rule beside the other choices. (1, 2, 3, 4, 5) with beta X is 1 + 2 X + 3 X^2 + 4 X^3 + 5 X^4 by rule 2.
fn rules_and_choices(text: &mut Text) {
    let mut t = digits();
    t.set_records(&[lookup(&[&[1, 2, 3, 4, 5]], &[1], None)]);
    for (field, constant) in [(1, 1 + 5 * 11), (2, 1 + 5 * 3)] {
        text.with([field, 1, 1], |text| {
            let title = format!("field {field}, rule 2: (1, 2, 3, 4, 5) with beta X");
            challenged(text, &title, &t, [constant + 1, 2, 3, 4], [0, 1, 0, 0]);
            told_apart(text, &t, 2, &[0, 1], 1, 0);
        });
    }
    let t = table(&[3], &[lookup(&[&[0, 3]], &[1], None)]);
    text.with([2, 2, 1], |text| {
        challenged(text, "field 2, gateway, rule 2: (3, 7) with beta 10, alpha 74", &t, lift(74), lift(10));
        told_apart(text, &t, 2, &[0, 1], 1, 0);
    });
    let pair = words(&[lift(5), lift(0)]);
    text.with([1, 2, 2], |text| untouched(text, "gateway, rule 2, 1: a tuple of 5 words", &threes(1, 5, ONE), &pair, 8, 1));
    text.with([1, 1, 3], |text| untouched(text, "1: rule 3, challenge word 2013265921", &t, &[P, 0, 0, 0, 0, 0, 0, 0], 8, 1));
}

/// Refusals before the rows do not depend on the rule, nor do those of flags; without lookups there is nothing to combine.
fn rule_two_refusals(text: &mut Text) {
    let pair = words(&[lift(5), lift(0)]);
    text.with(RULE_TWO, |text| {
        text.case("rule 2: no lookups");
        text.table(&table(&[3], &[]));
        text.generate(ACCEPTED, &[BEFORE; 8], None);
        text.constraints(ACCEPTED, 0, &[], None);
        untouched(text, "rule 2, 1: a tuple of 9 words", &threes(1, 9, ONE), &pair, 8, 1);
        untouched(text, "rule 2, 2: challenge word 2013265921", &table(&[3], &[once()]), &[P, 0, 0, 0, 0, 0, 0, 0], 8, 2);
        untouched(text, "rule 2, 5: node 5 of 5", &table(&[3], &[lookup(&[&[5, 0]], &[1], None)]), &pair, 8, 5);
        untouched(text, "rule 2, 10: 1 lookup, height 4, 31 words", &table(&[3; 4], &[once()]), &pair, 31, 10);
        text.case("rule 2, 11: no terminal, 1 lookup");
        text.table(&table(&[3], &[once()]));
        text.list("challenges", &pair);
        text.constraints(refused(11, [0; 3]), 2, &[0; 8], None);
        fault(text, "rule 2, 13: flag 2", lookup(&[&[0, 3]], &[1], Some(&[4])), 5, 13);
        fault(text, "rule 2, 14: flags 1, 1", lookup(&[&[0], &[0, 3]], &[1, 1], Some(&[1, 1])), 5, 14);
    });
}

/// Rows with the words 10, 11, .. in main and 20, 21, .. in the preprocessed trace, which has two rows more. Lookup i has the tuple (node i, i),
/// and node i is its multiplicity too.
fn of_nodes(height: u32, nodes: &[[u32; 3]]) -> Table {
    let mut t = Table { main_width: 1, height: height.into(), main: (10..10 + height).collect(), ..Table::default() };
    (t.pre_width, t.pre_height) = (1, u64::from(height) + 2);
    t.preprocessed = (20..20 + height).chain([90, 91]).collect();
    let n = nodes.len() as u32;
    t.nodes = [nodes, &(0..n).map(|i| [0, i, 0]).collect::<Vec<_>>()].concat().concat();
    t.set_records(&(0..n).map(|i| Lookup { column: i, ..lookup(&[&[i, n + i]], &[i], None) }).collect::<Vec<Lookup>>());
    t
}

/// A case of such a table, whose nodes see these words, row by row. With beta 0 and alpha i + 1 each denominator is 1, so each fraction is the
/// word that the node sees, and balance has it in a slot and as its net. It names the tuple (10, 0), which is in this slot.
fn seen(text: &mut Text, title: &str, t: &Table, rows: &[&[u32]], slot: u64) {
    let n = t.lookup_count() as u32;
    text.case(title);
    text.table(t);
    text.list("challenges", &words(&(0..n).flat_map(|i| [lift(i + 1), lift(0)]).collect::<Vec<Ext>>()));
    let (mut trace, mut sum) = (vec![], 0);
    for row in rows {
        trace.extend([&[sum], *row].concat());
        sum += row.iter().sum::<u32>();
    }
    let (mut trace, terminal) = (words(&lifted(&trace)), Some(lift(sum)));
    text.generate(ACCEPTED, &trace, terminal);
    text.constraints(ACCEPTED, u64::from(n) + 1, &trace, terminal);
    // Another word for the last node on the last row.
    let last = trace.len() - 4;
    trace[last] += 1;
    text.constraints(refused(17, [t.height - 1, u64::from(n) - 1, 0]), u64::from(n) + 1, &trace, terminal);
    let slots = (0..n).flat_map(|i| rows.iter().flat_map(move |row| [2, row[i as usize], i, 0, 0, 0, 0, 0, 0, row[i as usize]]));
    text.balance(refused(18, [0, slot, 10]), &slots.collect::<Vec<u32>>());
}

/// What the nodes at offsets 0 to 3 of main, then of the preprocessed trace, see on each row.
const AROUND: [&[&[u32]]; 4] = [
    &[&[10, 10, 10, 10, 20, 20, 20, 20]],
    &[&[10, 11, 10, 11, 20, 21, 20, 21], &[11, 10, 11, 10, 21, 20, 21, 20]],
    &[&[10, 11, 12, 10, 20, 21, 22, 20], &[11, 12, 10, 11, 21, 22, 20, 21], &[12, 10, 11, 12, 22, 20, 21, 22]],
    &[
        &[10, 11, 12, 13, 20, 21, 22, 23],
        &[11, 12, 13, 14, 21, 22, 23, 24],
        &[12, 13, 14, 10, 22, 23, 24, 20],
        &[13, 14, 10, 11, 23, 24, 20, 21],
        &[14, 10, 11, 12, 24, 20, 21, 22],
    ],
];

/// Tables of one, two, three and five rows, in both fields.
fn offsets(text: &mut Text) {
    let nodes = [[1, 0, 0], [1, 0, 1], [1, 0, 2], [1, 0, 3], [3, 0, 0], [3, 0, 1], [3, 0, 2], [3, 0, 3]];
    for (field, rows) in [1, 2].into_iter().flat_map(|field| AROUND.map(|rows| (field, rows))) {
        let title = format!("field {field}: offsets 0 to 3, height {}", rows.len());
        text.with([field, 1, 1], |text| seen(text, &title, &of_nodes(rows.len() as u32, &nodes), rows, 0));
    }
}

/// Kinds 2 and 4 see the next row, whatever their second word; the other kinds that do not use it take any too.
fn unused_words(text: &mut Text) {
    let nodes = [[2, 0, 0], [2, 0, 3], [2, 0, 4], [4, 0, 2], [4, 0, u32::MAX]];
    let mut t = of_nodes(3, &nodes);
    t.public_values = vec![5];
    t.nodes.extend([[0, 1, 4], [5, 0, 4], [6, 4, 4], [7, 4, 4], [8, 4, 4], [12, 0, u32::MAX]].as_flattened());
    let rows: [&[u32]; 3] = [&[11, 11, 11, 21, 21], &[12, 12, 12, 22, 22], &[10, 10, 10, 20, 20]];
    for field in [1, 2] {
        let title = format!("field {field}: kinds 2 and 4, whose second words are not used");
        text.with([field, 1, 1], |text| seen(text, &title, &t, &rows, 2));
    }
}

/// The row 3 in both traces, and a tuple of one node. Node 5 is of this kind and offset.
fn farthest(element: u32, kind: u32, offset: u32) -> Table {
    let mut t = Table { pre_width: 1, pre_height: 1, preprocessed: vec![3], ..table(&[3], &[lookup(&[&[element]], &[1], None)]) };
    t.add_node(kind, 0, offset);
    t
}

/// Every function that tests nodes, where the tuple's node sees 3: each takes the table, or gives this refusal and writes nothing.
fn each_function(text: &mut Text, t: &Table, number: u32) {
    let (taken, trace, terminal) = (number == 0, words(&[lift(0), lift(1)]), Some(lift(1)));
    let answer = |accepted: Answer| if taken { accepted } else { refused(number, [0; 3]) };
    text.table(t);
    text.list("challenges", &words(&[lift(4), lift(0)]));
    text.generate(answer(ACCEPTED), &left(taken, &trace), terminal);
    text.constraints(answer(ACCEPTED), 2, &trace, terminal);
    text.answer("degree", answer(ACCEPTED), &[0, 0, if taken { 2 } else { BEFORE.into() }]);
    text.pack(t, answer(ACCEPTED), 3, &t.records());
    text.balance(answer(refused(18, [0, 0, 1])), &left(taken, &slot(1, 1)));
    let global = global(Part { elements: t.elements.clone(), ..part(1, 1) });
    text.build(&[global], answer(ACCEPTED), &left(taken, &t.lookups), if taken { LOOKUP_WORDS } else { BEFORE as usize });
}

/// Offset 3 is taken, a larger one is refusal 3, in a node that the tuple has and in one that nothing names.
fn largest_offset(text: &mut Text) {
    for (field, kind, element, used) in [(1, 1, 5, "used"), (1, 3, 0, "unused"), (2, 3, 5, "used"), (2, 1, 0, "unused")] {
        text.with([field, 1, 1], |text| {
            text.case(&format!("field {field}: offsets 3, 4 and 4294967295 of kind {kind}, {used}"));
            for (offset, number) in [(3, 0), (4, 3), (u32::MAX, 3)] {
                each_function(text, &farthest(element, kind, offset), number);
            }
        });
    }
}

/// Offset 4 without lookups, beside other faults, in the second of two tables and in the gateway. Counts do not test the nodes before them.
fn offset_refusals(text: &mut Text) {
    let pair = words(&[lift(4), lift(0)]);
    let mut t = farthest(0, 1, 4);
    t.set_records(&[]);
    untouched(text, "3: offset 4, no lookups", &t, &[], 8, 3);
    let mut t = farthest(5, 1, 4);
    t.nodes[10] = P;
    untouched(text, "2: offset 4, a constant 2013265921", &t, &pair, 8, 2);
    untouched(text, "3: offset 4, node 9 of 6", &Table { elements: vec![9], ..farthest(0, 3, 4) }, &pair, 8, 3);
    text.with(GATEWAY, |text| untouched(text, "gateway, 3: offset 4", &farthest(5, 3, 4), &pair, 8, 3));
    text.case("3: offset 4 in the second of two tables");
    text.tables(&[farthest(5, 1, 3), farthest(5, 1, 4)]);
    text.balance(refused(3, [0; 3]), &[BEFORE; 10]);
    text.case("counts after a node of offset 4");
    let nodes = [1, 0, 4, BEFORE, BEFORE, BEFORE];
    text.count(&nodes, &[1, 0, 4, 0, 5, 0], [1, 5]);
    text.count_of(1, 5, ACCEPTED);
    text.count(&nodes, &[1, 0, 4, 12, 0, 0], [1, 5]);
    text.negated(1, [0, 5], ACCEPTED);
}

/// A title, after the number of the refusal, if any.
fn titled(answer: Answer, title: &str) -> String {
    if answer == ACCEPTED { title.into() } else { format!("{}: {title}", answer.number) }
}

/// A local of so many tuples, each the column, with multiplicity 1.
fn heavy(tuples: usize, weight: u64) -> Lookup {
    Lookup { bus: None, weight, ..lookup(&vec![&[0][..]; tuples], &vec![ONE; tuples], None) }
}

/// Every function that takes lookups, on this one and the row 3: each takes it, or answers 1 and writes nothing. With alpha 4 and beta 0 each
/// tuple (3) adds 1 to the fraction. The height bound takes it without rows, and refuses it with one.
fn each_door(text: &mut Text, title: &str, lookup: Lookup, taken: bool) {
    let (n, on_bus, weight) = (lookup.tuples.len() as u32, lookup.bus.is_some(), lookup.weight);
    let tables = [table(&[3], &[lookup])];
    let (answer, trace, terminal) = (within(taken, ACCEPTED), words(&[lift(0), lift(n)]), Some(lift(n)));
    text.case(title);
    text.tables(&tables);
    text.list("challenges", &words(&[lift(4), lift(0)]));
    text.generate(answer, &left(taken, &trace), terminal);
    text.constraints(answer, 2, &trace, terminal);
    text.answer("degree", answer, &[0, 0, if taken { n + 1 } else { BEFORE }.into()]);
    text.pack(&tables[0], answer, 3, &tables[0].records());
    let (balance, slot) = if n == 0 { (ACCEPTED, vec![0; 10]) } else { (refused(18, [0, 0, n.into()]), slot(1, n)) };
    text.balance(within(taken, balance), &left(taken, &slot));
    text.widths(&tables, answer, on_bus.into());
    text.bound(&tables, &[0], answer);
    text.bound(&tables, &[1], within(taken, refused(19, [weight, 0, 0])));
}

/// 2^32 - 1 on a bus, as much for each tuple of a local, and for a local without tuples: each met, and passed by one.
fn weight_limits(text: &mut Text) {
    let limits = [("no tuples", 0, 4294967295), ("a tuple", 1, 4294967295), ("2 tuples", 2, 8589934590), ("64 tuples", 64, 274877906880)];
    for (title, tuples, limit) in limits {
        each_door(text, &format!("a local of {title}, weight {limit}"), heavy(tuples, limit), true);
        each_door(text, &format!("1: a local of {title}, weight {}", limit + 1), heavy(tuples, limit + 1), false);
    }
    each_door(text, "1: a local of 64 tuples, weight 18446744073709551615", heavy(64, u64::MAX), false);
    let two = lookup(&[&[0], &[0]], &[ONE, ONE], None);
    for (title, lookup) in [("a tuple", once()), ("2 tuples", two)] {
        let weighing = |weight: u64| Lookup { weight, ..lookup.clone() };
        each_door(text, &format!("{title} on a bus, weight 4294967295"), weighing(4294967295), true);
        each_door(text, &format!("1: {title} on a bus, weight 4294967296"), weighing(4294967296), false);
    }
    text.with([2, 2, 1], |text| {
        each_door(text, "field 2, gateway: a local of 2 tuples, weight 8589934590", heavy(2, 8589934590), true);
        each_door(text, "field 2, gateway, 1: a local of 2 tuples, weight 8589934591", heavy(2, 8589934591), false);
    });
}

/// A weight over its limit comes before 2 to 5. How many tuples a local has is what its record says, whatever its multiplicities.
fn weight_refusals(text: &mut Text) {
    let pair = words(&[lift(5), lift(0)]);
    let mut t = table(&[3], &[heavy(1, MOST + 1)]);
    t.nodes[10] = P;
    untouched(text, "1: a local of weight 4294967296, a constant 2013265921", &t, &pair, 8, 1);
    t.nodes = squared();
    untouched(text, "1: a local of weight 4294967296, a column squared 8 times", &t, &pair, 8, 1);
    for (weight, number) in [(2 * MOST, 5), (2 * MOST + 1, 1)] {
        let tables = [table(&[3], &[Lookup { multiplicities: vec![ONE], ..heavy(2, weight) }])];
        text.case(&format!("{number}: a local of 2 tuples and 1 multiplicity, weight {weight}"));
        text.tables(&tables);
        text.widths(&tables, refused(number, [0; 3]), 0);
        text.bound(&tables, &[1], refused(number, [0; 3]));
    }
    let tables = [MOST, MOST + 1].map(|weight| table(&[3], &[heavy(1, weight)]));
    text.case("1: a local of weight 4294967296 in the second of two tables");
    text.tables(&tables);
    text.widths(&tables, refused(1, [0; 3]), 0);
    text.bound(&tables, &[1, 1], refused(1, [0; 3]));
    text.balance(refused(1, [0; 3]), &[BEFORE; 10]);
}

/// A local's weight is the sum of its tuples', in two words; an exclusive's is the largest of its tuples'.
fn built_sums(text: &mut Text) {
    for (weights, low, high) in [([u32::MAX - 1, 1], u32::MAX, 0), ([u32::MAX, 2], 1, 1), ([u32::MAX, u32::MAX], u32::MAX - 1, 1)] {
        let title = format!("built: weights {} and {} of a local", weights[0], weights[1]);
        built(text, &title, &[local(&weights.map(|weight| part(1, weight)))], &[0, 0, low, 0, 0, 2, 2, 0, high]);
    }
    let most = [local(&vec![part(1, u32::MAX); 64])];
    built(text, "built: a local of 64 tuples of weight 4294967295", &most, &[0, 0, 4294967232, 0, 0, 64, 64, 0, 63]);
    text.with([2, 2, 1], |text| {
        let title = "field 2, gateway, built: a local of 64 tuples of weight 4294967295";
        built(text, title, &most, &[0, 0, 4294967232, 0, 0, 64, 64, 0, 63]);
    });
    let two = [part(1, u32::MAX), part(1, u32::MAX)];
    let several = [local(&two), local(&[]), local(&two[..1]), exclusive(&two)];
    let words = [
        [0, 0, 4294967294, 0, 0, 2, 2, 0, 1],
        [0, 0, 0, 1, 0, 0, 0, 0, 0],
        [0, 0, 4294967295, 2, 0, 1, 1, 0, 0],
        [1, 3, 4294967295, 3, 1, 2, 2, 2, 0],
    ];
    built(text, "built: weights 4294967295 of three locals and an exclusive", &several, &words.concat());
}

/// Locals over 2^32 keep their weights, beside a bus whose lookups weigh 2^32 - 1 or 2^32 together. Each of these has the degree 2, both 3.
fn packed_beside_locals(text: &mut Text) {
    let locals = [heavy(2, (1 << 32) + 5), heavy(3, 3 * MOST)];
    for (weight, answer) in [(MOST - 1, ACCEPTED), (MOST, refused(7, [0; 3]))] {
        let [first, second] = [Lookup { weight, ..once() }, once()];
        let t = table(&[3], &[first.clone(), locals[0].clone(), second.clone(), locals[1].clone()]);
        text.case(&titled(answer, &format!("locals of 4294967301 and 12884901885, {weight} and 1 on a bus")));
        text.table(&t);
        let columns = |on_bus: &[Lookup]| -> Vec<Lookup> {
            (0..).zip(locals.iter().chain(on_bus)).map(|(column, l)| Lookup { column, ..l.clone() }).collect()
        };
        let merged = Lookup { weight: MOST, ..lookup(&[&[0], &[0]], &[ONE, ONE], None) };
        text.pack(&t, answer, 3, &columns(&[merged]));
        text.pack(&t, ACCEPTED, 2, &columns(&[first, second]));
    }
}

/// Sums in 64 bits. A table's locals weigh 127 (2^32 - 1) at most: the first has all 64 tuples.
fn height_sums(text: &mut Text) {
    let full = table(&[3], &[vec![heavy(64, 64 * MOST)], vec![heavy(0, MOST); 63]].concat());
    let tables = vec![full; 16];
    text.case("19: 16 tables of 64 locals, each as heavy as it may be");
    text.words(&tables, "lookups", |t| &t.lookups);
    text.bound(&tables, &[1 << 20; 16], refused(19, [9151314440686141440, 0, 0]));
    text.bound(&tables, &[&[0; 15][..], &[1]].concat(), refused(19, [545460846465, 0, 0]));
    text.bound(&tables, &[0; 16], ACCEPTED);
    for (weight, answer) in [(P - 1, ACCEPTED), (P, refused(19, [P.into(), 0, 0]))] {
        let tables = [table(&[3], &[heavy(2, 2 * MOST)]), table(&[3], &[heavy(1, weight.into())])];
        text.case(&titled(answer, &format!("a local of weight 8589934590 without rows, and one of {weight}")));
        text.tables(&tables);
        text.bound(&tables, &[0, 1], answer);
    }
    let tables = [table(&[3], &[heavy(2, 2 * MOST)]), table(&[3], &[heavy(1, MOST)])];
    text.case("19: weights 8589934590 and 4294967295, heights 1048576 and 1");
    text.tables(&tables);
    text.bound(&tables, &[1 << 20, 1], refused(19, [9007203547611135, 0, 0]));
}

// The crate's answers.

/// The answer, if the crate gives the same, or panics for the same reason. What a weight has over 2^32 - 1 is the model's.
fn confirmed((answer, compared): (Answer, Result<Compared, String>)) -> Option<Answer> {
    let compared = compared.expect("model and crate agree on the vectors");
    matches!(compared, Compared::Same | Compared::Held).then_some(answer)
}

fn oracle(text: &mut Text, case: &Case) {
    text.tables(&case.tables);
    let [t] = &case.tables[..] else { return of_all_tables(text, case) };
    generation(text, case);
    for (lookup, transition) in (0..t.lookup_count()).flat_map(|i| [(i, 0), (i, 1)]) {
        let case = Case { transition, ..case.clone() };
        if let Some(answer) = confirmed(compare::degree(&case, lookup)) {
            text.answer("degree", answer, &[lookup as u64, transition, model::degree(t, lookup as u64, transition).1]);
        }
    }
    for limit in [0, 3] {
        if let Some(answer) = confirmed(compare::packing(&Case { limit, ..case.clone() })) {
            text.pack(t, answer, limit, &model::pack(t, limit).1);
        }
    }
    of_all_tables(text, case);
    if let Some(answer) = confirmed(compare::building(case)) {
        built_by_the_crate(text, t, &case.interactions, answer);
    }
}

/// Generation, and the constraints on what it gives.
fn generation(text: &mut Text, case: &Case) {
    text.list("challenges", &case.challenges);
    if let Some(answer) = confirmed(compare::generation(case)) {
        let (trace, terminal) = traced(&case.tables[0], case);
        text.generate(answer, &trace, terminal);
        if answer.number == 0 && 0 < case.tables[0].lookup_count() {
            changed(text, case);
        }
    }
}

/// What generation leaves in the buffer, and the terminal, by the model.
fn traced(t: &Table, case: &Case) -> (Vec<u32>, Option<Ext>) {
    let mut trace = vec![BEFORE; case.buffer];
    let (_, terminal) = model::generate(t, &case.challenges, &mut trace);
    (trace, terminal)
}

/// The case by rule 2, where that gives another trace.
fn by_rule_two(case: &Case) -> Option<Case> {
    let [t] = &case.tables[..] else { return None };
    let by_two = Table { rule: Rule::Two, ..t.clone() };
    let [first, second] = [t, &by_two].map(|t| traced(t, case));
    (second.1.is_some() && second != first).then(|| Case { tables: vec![by_two], ..case.clone() })
}

/// After the other functions: the lists of the table's own lookups give way to those of the interactions.
fn built_by_the_crate(text: &mut Text, t: &Table, interactions: &[Interaction], answer: Answer) {
    let plan = Plan::of(interactions);
    let (mut lookups, mut used) = (vec![BEFORE; built_words(&plan)], BEFORE.into());
    Model.build(Choices::of(t.field), t, &plan, &mut lookups, &mut used);
    text.build(interactions, answer, &lookups, used as usize);
}

fn of_all_tables(text: &mut Text, case: &Case) {
    if let Some(answer) = confirmed(compare::widths(case)) {
        text.widths(&case.tables, answer, model::widths(&case.tables).1);
    }
    if let Some(answer) = confirmed(compare::height_bound(case)) {
        text.bound(&case.tables, &case.heights, answer);
    }
    if let Some(answer) = confirmed(compare::prefixes(case)) {
        let pair = (case.challenge(0), case.challenge(1));
        let (_, prefixes) = model::prefixes(case.chosen(), pair.0, pair.1, case.prefix_width, case.prefixes);
        text.prefixes(pair, case.prefix_width, case.prefixes, answer, &prefixes);
    }
    if let Some(answer) = confirmed(compare::balance(case)) {
        let mut workspace = vec![BEFORE; case.workspace];
        model::balance(&case.tables, &mut workspace);
        text.balance(answer, &workspace);
    }
}

/// The constraints on the generated trace, made wider, and on it with one word changed.
fn changed(text: &mut Text, case: &Case) {
    let words = compare::asked(case).1.len() + 4;
    for (place, addend) in [(0, 0), (words / 2, 1), (words - 2, 2)] {
        let case = Case { changes: vec![(place, addend)], ..case.clone() };
        if let Some(answer) = confirmed(compare::constraints(&case)) {
            let (width, rows, terminal) = compare::asked(&case);
            text.constraints(answer, width, &rows, terminal);
        }
    }
}

/// Random cases that are small enough to be read, in the two fields by turns.
fn cases() -> Vec<Case> {
    let mut random = Random(0x5DEECE66D);
    let mut cases = vec![];
    while cases.len() < 60 {
        let case = Case { workspace: 45, ..generator::case_in(&mut random, Field::ALL[cases.len() % 2]) };
        let small = |t: &Table| t.height <= 4 && t.main.len() <= 24 && t.node_count() <= 24 && t.lookup_count() <= 4;
        if 0 < case.tables[0].lookup_count() && case.tables.iter().all(small) && case.prefixes <= 4 && case.buffer <= 256 {
            cases.push(case);
        }
    }
    cases
}
