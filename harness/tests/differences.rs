//! Where crate and specification differ: a test for each line of docs/DIFFERENCES.md, which names it, with the smallest example. The crate's own source
//! runs beside the port's exported functions, or, without the feature `port`, beside the model.
#![cfg(source)]
use harness::exports::{Exports, marked};
use harness::generator;
use harness::model::{ACCEPTED, Answer, Choices, Profile, Rule};
use harness::oracle::{self, Run};
use harness::plain::{Ext, Field, lift};
use harness::table::{Interaction, LOOKUP_WORDS, Lookup, Part, Plan, Table, chosen_of};

#[cfg(feature = "port")]
const PORT: &dyn Exports = &harness::port::Exported;
#[cfg(not(feature = "port"))]
const PORT: &dyn Exports = &harness::exports::Model;

/// Where nothing else is said, the examples are in field 1.
const FIELD: Field = Field::BabyBear;
const P: u32 = FIELD.prime();

// The port's functions in the field of a table, with room for all that they write.

fn choices(tables: &[Table]) -> Choices {
    Choices::of(chosen_of(tables))
}

fn generate(t: &Table, challenges: &[u32]) -> Answer {
    PORT.generate(Choices::of(t.chosen()), t, challenges, &mut vec![7; 12_000], &mut [7; 5])
}

fn constraints(t: &Table, challenges: &[u32], width: u64, trace: &[u32], terminal: Option<Ext>) -> Answer {
    PORT.constraints(Choices::of(t.chosen()), t, challenges, width, trace, marked(terminal))
}

fn degree(t: &Table, lookup: u64, transition: u32) -> Result<u64, u32> {
    let mut degree = 7;
    let answer = PORT.degree(Choices::of(t.chosen()), t, lookup, transition, &mut degree);
    if answer == ACCEPTED { Ok(degree) } else { Err(answer.number) }
}

fn pack(t: &Table, limit: u64) -> Answer {
    PORT.pack(Choices::of(t.chosen()), t, limit, &mut t.clone(), &mut [7; 6])
}

fn build(t: &Table, interactions: &[Interaction]) -> Answer {
    PORT.build(Choices::of(t.chosen()), t, &Plan::of(interactions), &mut [7; 1000], &mut 7)
}

fn widths(tables: &[Table]) -> Answer {
    let sizes: Vec<u32> = tables.iter().flat_map(|t| [t.lookup_count(), t.names.len(), t.tuples.len()]).map(|n| n as u32).collect();
    PORT.widths(choices(tables), &Table::joined(tables), &sizes, &mut 7)
}

fn height_bound(tables: &[Table], heights: &[u32]) -> Answer {
    let counts: Vec<u32> = tables.iter().map(|t| t.lookup_count() as u32).collect();
    PORT.height_bound(choices(tables), &Table::joined(tables).lookups, &counts, heights)
}

fn terminals(field: Field, given: &[Option<Ext>]) -> Answer {
    PORT.terminals(Choices::of(field), given.iter().map(|t| marked(*t)).collect::<Vec<_>>().as_flattened())
}

fn prefixes(width: u64, count: u64) -> Answer {
    PORT.prefixes(Choices::of(FIELD), &lift(1), &lift(2), width, count, &mut [7; 4 * 257])
}

fn balance(tables: &[Table], workspace: &mut [u32]) -> Answer {
    let sizes: Vec<u32> = tables.iter().flat_map(Table::sizes).collect();
    PORT.balance(choices(tables), &Table::joined(tables), &sizes, 1, workspace)
}

// The examples.

fn refused(number: u32, details: [u64; 3]) -> Answer {
    Answer { number, details }
}

/// Nodes 0 to 3: the main column, then the constants 0, 1 and 2.
fn table(rows: &[u32], lookups: &[Lookup]) -> Table {
    let mut t = Table { main_width: 1, height: rows.len() as u64, main: rows.to_vec(), ..Table::default() };
    t.nodes = vec![1, 0, 0, 0, 0, 0, 0, 1, 0, 0, 2, 0];
    t.set_records(lookups);
    t
}

/// The column once, on a bus.
fn once(column: u32) -> Lookup {
    let bus = Some(b"mem".to_vec());
    Lookup { bus, weight: 1, column, tuples: vec![vec![0]], multiplicities: vec![2], ..Lookup::default() }
}

/// A local with the column twice.
fn local(weight: u64) -> Lookup {
    Lookup { weight, tuples: vec![vec![0]; 2], multiplicities: vec![2; 2], ..Lookup::default() }
}

fn flagged(column: u32, flag: u32) -> Lookup {
    Lookup { exclusive: true, flags: vec![flag], ..once(column) }
}

fn wide(column: u32) -> Lookup {
    Lookup { tuples: vec![vec![0, 0]], ..once(column) }
}

/// A preprocessed trace of one column.
fn with_preprocessed(mut t: Table, rows: usize) -> Table {
    (t.pre_width, t.pre_height, t.preprocessed) = (1, rows as u64, vec![0; rows]);
    t
}

fn squared(times: usize, mut t: Table) -> Table {
    let mut last = 0;
    for _ in 0..times {
        last = t.add_node(11, last, last);
    }
    t
}

fn pairs(n: usize) -> Vec<u32> {
    [lift(5), lift(0)].concat().repeat(n)
}

/// The fraction of `once` on the row 3, with alpha 5.
const HALF: u32 = 1006632961;

fn trace() -> Vec<u32> {
    [0, HALF].map(lift).concat()
}

fn says<T: std::fmt::Debug>(run: Run<T>, text: &str) {
    let message = run.expect_err("a panic");
    assert!(message.contains(text), "{message}");
}

/// The words of the crate's trace.
fn generated(t: &Table, challenges: &[u32]) -> Run<usize> {
    oracle::generate(t, challenges).map(|(trace, _)| trace.len())
}

// Refusal 1.

#[test]
fn limits_of_a_table() {
    let cases = generator::boundaries();
    let names = [
        "65 lookups",
        "65 tuples",
        "9 words a tuple",
        "1025 nodes",
        "257 main columns",
        "65 preprocessed columns",
        "65 public values",
        "height 1048577",
        "preprocessed height 1048577",
        "17 bytes a name",
    ];
    let of_gateway = ["9 lookups", "5 words a tuple", "height 4097", "preprocessed height 4097"];
    let names = names.map(|name| (name, 1)).into_iter().chain(of_gateway.map(|name| (name, 2)));
    for name in names.flat_map(|(name, profile)| [1, 2].map(|field| format!("{name}, field {field}, profile {profile}, rule 1"))) {
        let (_, case) = cases.iter().find(|(other, _)| *other == name).unwrap();
        let t = &case.tables[0];
        assert_eq!(generate(t, &case.challenges).number, 1, "{name}");
        assert!(oracle::generate(t, &case.challenges).is_ok(), "{name}");
    }
}

#[test]
fn unknown_choices() {
    let t = table(&[3], &[]);
    let known = Choices::of(FIELD);
    for choices in [Choices { field: 3, ..known }, Choices { profile: 3, ..known }, Choices { rule: 3, ..known }] {
        assert_eq!(PORT.generate(choices, &t, &[], &mut [], &mut [7; 5]).number, 1);
    }
}

#[test]
fn seventeen_tables() {
    let many = vec![table(&[1], &[]); 17];
    assert_eq!((balance(&many, &mut []).number, oracle::balance(&many)), (1, Ok(())));
    assert_eq!((widths(&many).number, oracle::widths(&many)), (1, Ok(Ok(0))));
    assert_eq!((height_bound(&many, &[1; 17]).number, oracle::height_bound(&many, &[1; 17])), (1, Ok(Ok(()))));
}

#[test]
fn seventeen_terminals() {
    assert_eq!((terminals(FIELD, &[None; 17]).number, oracle::terminals(FIELD, &[None; 17])), (1, Ok(true)));
}

#[test]
fn many_and_wide_prefixes() {
    for (width, count) in [(1, 257), (256, 1)] {
        assert_eq!(prefixes(width, count).number, 1);
        assert_eq!(oracle::prefixes(FIELD, lift(1), lift(2), width, count).map(|p| p.len() as u64), Ok(count));
    }
}

#[test]
fn limits_of_building() {
    let part = |width: usize| Part { elements: vec![0; width], multiplicity: 2, weight: 1 };
    let global = |bytes: usize, width: usize| Interaction::Global(vec![b'x'; bytes], part(width));
    let (cabinet, gateway) = (table(&[3], &[]), Table { profile: Profile::Gateway, ..table(&[3], &[]) });
    for (t, interactions) in [
        (&cabinet, vec![global(1, 1); 65]),
        (&cabinet, vec![Interaction::Local(vec![part(1); 65])]),
        (&cabinet, vec![global(1, 9)]),
        (&cabinet, vec![global(17, 1)]),
        (&gateway, vec![global(1, 1); 9]),
        (&gateway, vec![global(1, 5)]),
    ] {
        assert_eq!(build(t, &interactions).number, 1);
        assert_eq!(oracle::build(t, &interactions).map(|built| built.len()), Ok(interactions.len()));
    }
}

#[test]
fn full_table_of_nodes() {
    let (mut nodes, mut count) = (vec![0; 3 * 1025], [7; 2]);
    assert_eq!(PORT.count_from_i32(Choices::of(FIELD), &mut nodes, 1024, 1, &mut count).number, 1);
    assert_eq!(PORT.count_negated(Choices::of(FIELD), &mut nodes, 1024, [0, 1], &mut count).number, 1);
    assert_eq!(oracle::count_from(FIELD, 1), Ok(([0, 1, 0], 1)));
}

#[test]
fn weights_over_their_limits() {
    let of_bus = Lookup { weight: 1 << 32, ..once(0) };
    let of_one = Lookup { bus: None, ..of_bus.clone() };
    let of_none = Lookup { weight: 1 << 32, ..Lookup::default() };
    for t in [of_bus, local((1 << 33) - 1), of_one, of_none].map(|lookup| table(&[3], &[lookup])) {
        assert_eq!([generate(&t, &pairs(1)).number, pack(&t, 9).number], [1, 1]);
        assert_eq!(degree(&t, 0, 0), Err(1));
        let t = std::slice::from_ref(&t);
        assert_eq!([widths(t).number, height_bound(t, &[0]).number, balance(t, &mut []).number], [1; 3]);
    }
}

#[test]
fn transition_degree_2() {
    let mut t = table(&[3], &[once(0)]);
    t.nodes[..3].copy_from_slice(&[8, 0, 0]);
    assert_eq!((degree(&t, 0, 1), oracle::degree(&t, 0, 1)), (Ok(2), Ok(2)));
    assert_eq!((degree(&t, 0, 2), oracle::degree(&t, 0, 2)), (Err(1), Ok(3)));
}

#[test]
fn main_width_0() {
    let t = Table { main_width: 0, height: 0, ..table(&[], &[]) };
    assert_eq!((generate(&t, &[]).number, generated(&t, &[])), (1, Ok(0)));
    assert_eq!((balance(std::slice::from_ref(&t), &mut []).number, oracle::balance(&[t])), (1, Ok(())));
}

#[test]
fn tests_without_lookups() {
    let mut wide = table(&[3; 257], &[]);
    (wide.main_width, wide.height) = (257, 1);
    let mut absent = table(&[3], &[]);
    absent.add_node(1, 1, 0);
    for (t, number) in [(wide, 1), (absent, 3), (squared(8, table(&[3], &[])), 4)] {
        assert_eq!((generate(&t, &[]).number, generated(&t, &[])), (number, Ok(0)));
        assert_eq!(constraints(&t, &[], 0, &[], None).number, number);
        assert_eq!(oracle::constraints(&t, &[], 0, &[], None), Ok(None));
        assert_eq!((balance(std::slice::from_ref(&t), &mut []).number, oracle::balance(&[t])), (number, Ok(())));
    }
}

#[test]
fn sizes_at_odds() {
    let mut t = table(&[3, 4], &[]);
    t.main.pop();
    assert_eq!(generate(&t, &[]).number, 1);
    assert_eq!(generate(&table(&[3], &[]), &[1, 2, 3]).number, 1);
}

#[test]
fn heights_missing() {
    let t = table(&[3], &[]);
    assert_eq!(height_bound(std::slice::from_ref(&t), &[]).number, 1);
    says(oracle::height_bound(&[t], &[]), "aligned per AIR");
}

// Refusals 2 to 5.

#[test]
fn word_too_large() {
    for field in Field::ALL {
        let p = field.prime();
        let table = |rows: &[u32], lookups: &[Lookup]| Table { field, ..table(rows, lookups) };
        assert_eq!(generate(&table(&[p - 1], &[]), &[]).number, 0);
        assert_eq!(generate(&table(&[p], &[]), &[]).number, 2);
        // A challenge and a constant; preprocessed rows past main's height and constants that nothing uses are tested too.
        assert_eq!(generate(&table(&[3], &[]), &[p, 0, 0, 0]).number, 2);
        let mut t = table(&[3], &[]);
        t.add_node(0, p, 0);
        assert_eq!(generate(&t, &[]).number, 2);
        let mut t = with_preprocessed(table(&[3], &[once(0)]), 2);
        assert_eq!(generate(&t, &pairs(1)).number, 0);
        t.preprocessed[1] = p;
        assert_eq!(generate(&t, &pairs(1)).number, 2);
    }
}

#[test]
fn malformed_nodes() {
    for node in [[9, 4, 1], [12, 4, 0], [13, 0, 0], [1, 0, 4]] {
        let mut t = table(&[3], &[once(0)]);
        t.nodes.extend(node);
        assert_eq!(generate(&t, &pairs(1)).number, 3);
    }
    assert_eq!(PORT.count_negated(Choices::of(FIELD), &mut [0; 9], 2, [2, 1], &mut [7; 2]).number, 3);
}

#[test]
fn absent_column_or_public_value() {
    let part = Part { elements: vec![0], multiplicity: 2, weight: 1 };
    for node in [[1, 1, 0], [2, 1, 0], [3, 0, 0], [4, 0, 0], [5, 0, 0]] {
        let mut t = table(&[3], &[once(0)]);
        t.nodes[..3].copy_from_slice(&node);
        assert_eq!((pack(&t, 9).number, oracle::pack(&t, 9)), (3, Ok(t.records())));
        assert_eq!((degree(&t, 0, 0), oracle::degree(&t, 0, 0)), (Err(3), Ok(if node[0] == 5 { 1 } else { 2 })));
        let interactions = [Interaction::Global(b"mem".to_vec(), part.clone())];
        assert_eq!((build(&t, &interactions).number, oracle::build(&t, &interactions)), (3, Ok(t.records())));
        // Generation and balance read the column.
        assert_eq!(generate(&t, &pairs(1)).number, 3);
        says(generated(&t, &pairs(1)), "index out of bounds");
        assert_eq!(balance(std::slice::from_ref(&t), &mut []).number, 3);
        says(oracle::balance(&[t]), "index out of bounds");
        // In a node that nothing uses, they do not.
        let mut t = table(&[3], &[once(0)]);
        t.nodes.extend(node);
        assert_eq!((generate(&t, &pairs(1)).number, generated(&t, &pairs(1))), (3, Ok(8)));
    }
}

#[test]
fn degree_over_255() {
    // In a node that nothing uses.
    let t = squared(8, table(&[3], &[once(0)]));
    assert_eq!((generate(&t, &pairs(1)).number, generated(&t, &pairs(1))), (4, Ok(8)));
    // In a tuple.
    let mut t = t;
    t.elements = vec![11];
    assert_eq!((degree(&t, 0, 0), oracle::degree(&t, 0, 0)), (Err(4), Ok(257)));
    assert_eq!((pack(&t, 9).number, oracle::pack(&t, 9)), (4, Ok(t.records())));
}

#[test]
fn columns_0_and_5() {
    let t = table(&[3], &[once(0), once(5)]);
    assert_eq!(generate(&t, &pairs(6)).number, 5);
    says(generated(&t, &pairs(6)), "lookup slot index");
    // The constraints read columns 1 and 6 of a trace that has them.
    let trace = [0, HALF, 9, 9, 9, 9, HALF].map(lift).concat();
    assert_eq!(constraints(&t, &pairs(6), 7, &trace, Some(lift(1))).number, 5);
    assert_eq!(oracle::constraints(&t, &pairs(6), 7, &trace, Some(lift(1))), Ok(None));
}

/// Bus widths, height bound and packing of one lookup: the crate looks at none of the three numbers.
fn passed_on(t: &Table) {
    assert_eq!((pack(t, 9).number, oracle::pack(t, 9)), (5, Ok(t.records())));
    assert_eq!((widths(std::slice::from_ref(t)).number, oracle::widths(std::slice::from_ref(t))), (5, Ok(Ok(1))));
    let bound = oracle::height_bound(std::slice::from_ref(t), &[1]);
    assert_eq!((height_bound(std::slice::from_ref(t), &[1]).number, bound), (5, Ok(Ok(()))));
}

#[test]
fn one_multiplicity_too_many() {
    let t = table(&[3], &[Lookup { multiplicities: vec![2, 2], ..once(0) }]);
    // Generation and balance pass over it, constraints and degree panic.
    assert_eq!((generate(&t, &pairs(1)).number, generated(&t, &pairs(1))), (5, Ok(8)));
    assert_eq!(constraints(&t, &pairs(1), 2, &trace(), Some(lift(HALF))).number, 5);
    says(oracle::constraints(&t, &pairs(1), 2, &trace(), Some(lift(HALF))), "Mismatched lengths");
    assert_eq!(degree(&t, 0, 0), Err(5));
    says(oracle::degree(&t, 0, 0), "assertion failed");
    passed_on(&t);
    let t = table(&[3], &[Lookup { multiplicities: vec![1, 2], ..once(0) }]);
    assert_eq!((balance(std::slice::from_ref(&t), &mut []).number, oracle::balance(&[t])), (5, Ok(())));
    // Merged with a lookup that has one too few, the numbers are right.
    let two = [Lookup { multiplicities: vec![2, 2], ..once(0) }, Lookup { multiplicities: vec![], ..once(1) }];
    let t = table(&[3], &two);
    assert_eq!((pack(&t, 9).number, oracle::pack(&t, 9).map(|packed| packed.len())), (5, Ok(1)));
}

#[test]
fn one_multiplicity_too_few() {
    let t = table(&[3], &[Lookup { multiplicities: vec![], ..once(0) }]);
    assert_eq!(generate(&t, &pairs(1)).number, 5);
    says(generated(&t, &pairs(1)), "index out of bounds");
    assert_eq!(constraints(&t, &pairs(1), 2, &trace(), Some(lift(HALF))).number, 5);
    says(oracle::constraints(&t, &pairs(1), 2, &trace(), Some(lift(HALF))), "Mismatched lengths");
    assert_eq!(degree(&t, 0, 0), Err(5));
    says(oracle::degree(&t, 0, 0), "assertion failed");
    passed_on(&t);
    assert_eq!(balance(std::slice::from_ref(&t), &mut []).number, 5);
    says(oracle::balance(&[t]), "index out of bounds");
}

#[test]
fn exclusive_without_its_flag() {
    let t = table(&[3], &[Lookup { exclusive: true, ..once(0) }]);
    assert_eq!(generate(&t, &pairs(1)).number, 5);
    says(generated(&t, &pairs(1)), "index out of bounds");
    // The constraints take it as additive.
    assert_eq!(constraints(&t, &pairs(1), 2, &trace(), Some(lift(HALF))).number, 5);
    assert_eq!(oracle::constraints(&t, &pairs(1), 2, &trace(), Some(lift(HALF))), Ok(None));
    assert_eq!(degree(&t, 0, 0), Err(5));
    says(oracle::degree(&t, 0, 0), "zip_eq");
    passed_on(&t);
    assert_eq!(balance(std::slice::from_ref(&t), &mut []).number, 5);
    says(oracle::balance(&[t]), "index out of bounds");
}

#[test]
fn absent_node_or_additive_with_flags() {
    for lookup in [Lookup { multiplicities: vec![4], ..once(0) }, Lookup { flags: vec![2], ..once(0) }] {
        let t = table(&[3], &[lookup]);
        assert_eq!(generate(&t, &pairs(1)).number, 5);
        assert_eq!(pack(&t, 9).number, 5);
    }
}

// Refusals 6 to 12.

#[test]
fn widths_differ() {
    let t = table(&[3], &[once(0), wide(1)]);
    assert_eq!(pack(&t, 9), refused(6, [1, 1, 2]));
    says(oracle::pack(&t, 9), "tuple widths 1 and 2 differ");
    assert_eq!(widths(std::slice::from_ref(&t)), refused(6, [1, 1, 2]));
    assert_eq!(oracle::widths(&[t]), Ok(Err((1, 2))));
    let part = |width| Part { elements: vec![0; width], multiplicity: 2, weight: u32::MAX };
    let local = |widths: [usize; 2]| [Interaction::Local(widths.map(part).to_vec())];
    let t = table(&[3], &[]);
    assert_eq!(build(&t, &local([2, 3])), refused(6, [0, 2, 3]));
    says(oracle::build(&t, &local([2, 3])), "local lookup: tuple widths 2 and 3 differ");
}

#[test]
fn weight_too_large() {
    let t = table(&[3], &[Lookup { weight: u32::MAX.into(), ..once(0) }, once(1)]);
    assert_eq!(pack(&t, 9).number, 7);
    says(oracle::pack(&t, 9), "count_weight overflow");
}

#[test]
fn challenges_too_many() {
    let t = table(&[3], &[once(0)]);
    assert_eq!((generate(&t, &pairs(2)).number, generated(&t, &pairs(2))), (8, Ok(8)));
}

#[test]
fn challenges_too_few() {
    let t = table(&[3], &[once(0)]);
    assert_eq!(generate(&t, &pairs(1)[..4]).number, 8);
    says(generated(&t, &pairs(1)[..4]), "index out of bounds");
    assert_eq!(constraints(&t, &pairs(1)[..4], 2, &trace(), Some(lift(HALF))).number, 8);
    says(oracle::constraints(&t, &pairs(1)[..4], 2, &trace(), Some(lift(HALF))), "Insufficient permutation challenges");
}

#[test]
fn rows_missing() {
    let t = table(&[], &[once(0)]);
    assert_eq!(generate(&t, &pairs(1)).number, 9);
    says(generated(&t, &pairs(1)), "");
    let t = with_preprocessed(table(&[3, 4], &[once(0)]), 1);
    assert_eq!(generate(&t, &pairs(1)).number, 9);
    says(generated(&t, &pairs(1)), "unwrap");
    assert_eq!(balance(std::slice::from_ref(&t), &mut []).number, 9);
    says(oracle::balance(&[t]), "unwrap");
}

#[test]
fn short_buffer() {
    let t = table(&[3], &[once(0)]);
    assert_eq!(PORT.generate(Choices::of(t.chosen()), &t, &pairs(1), &mut [7; 7], &mut [7; 5]).number, 10);
    assert_eq!(generated(&t, &pairs(1)), Ok(8));
}

#[test]
fn narrow_trace() {
    let t = table(&[3], &[once(0)]);
    assert_eq!(constraints(&t, &pairs(1), 1, &lift(0), Some(lift(0))).number, 10);
    says(oracle::constraints(&t, &pairs(1), 1, &lift(0), Some(lift(0))), "unwrap");
}

#[test]
fn terminal_misplaced() {
    let t = table(&[3], &[once(0)]);
    assert_eq!(constraints(&t, &pairs(1), 2, &trace(), None).number, 11);
    says(oracle::constraints(&t, &pairs(1), 2, &trace(), None), "permutation values count mismatch");
    let t = table(&[3], &[]);
    assert_eq!(constraints(&t, &[], 0, &[], Some(lift(0))).number, 11);
    says(oracle::constraints(&t, &[], 0, &[], Some(lift(0))), "permutation values count mismatch");
}

#[test]
fn prefixes_of_width_0() {
    assert_eq!(prefixes(0, 1).number, 12);
    says(oracle::prefixes(FIELD, lift(1), lift(2), 0, 1), "max_message_width must be non-zero");
}

// Refusals 13 to 20.

#[test]
fn faults_of_a_row() {
    let two = Lookup { exclusive: true, tuples: vec![vec![0]; 2], multiplicities: vec![2; 2], flags: vec![2; 2], ..once(0) };
    let cases = [
        (table(&[3], &[flagged(0, 3)]), 13, "exclusive flag must be boolean"),
        (table(&[3], &[two]), 14, "exclusive flags must sum to at most one per row"),
        (table(&[5], &[once(0)]), 15, "Tried to invert zero"),
    ];
    for (t, number, text) in cases {
        assert_eq!(generate(&t, &pairs(1)), refused(number, [0; 3]));
        says(generated(&t, &pairs(1)), text);
    }
    // On row 1, in lookup 1.
    assert_eq!(generate(&table(&[3, 5], &[flagged(0, 1), once(1)]), &pairs(2)), refused(15, [1, 1, 0]));
}

#[test]
fn workspace_full() {
    // Each row's tuple with 1, and with -1.
    let mut t = table(&[9, 10], &[Lookup { tuples: vec![vec![0]; 2], multiplicities: vec![2, 4], ..once(0) }]);
    t.add_node(12, 2, 0);
    let tables = [t];
    assert_eq!((balance(&tables, &mut [7; 19]), oracle::balance(&tables)), (refused(16, [0; 3]), Ok(())));
    assert_eq!(balance(&tables, &mut [7; 20]), ACCEPTED);
}

#[test]
fn unbalanced() {
    // (9) and (10) are both unbalanced: both name (10).
    let tables = [table(&[9, 10], &[once(0)])];
    let mut workspace = [7; 25];
    assert_eq!(balance(&tables, &mut workspace), refused(18, [0, 1, 1]));
    assert_eq!(workspace, [1, 9, 0, 0, 0, 0, 0, 0, 0, 1, 1, 10, 0, 0, 0, 0, 0, 0, 0, 1, 0, 0, 0, 0, 0]);
    says(oracle::balance(&tables), "(global lookup 'mem'): tuple [\"10\"] has net multiplicity 1.");
}

#[test]
fn sums() {
    for field in Field::ALL {
        let p = field.prime();
        let t = [Table { field, ..table(&[3], &[Lookup { weight: p.into(), ..once(0) }]) }];
        assert_eq!((height_bound(&t, &[1]), oracle::height_bound(&t, &[1])), (refused(19, [p.into(), 0, 0]), Ok(Err(p.into()))));
        let ones = [Some(lift(1)); 2];
        assert_eq!((terminals(field, &ones).number, oracle::terminals(field, &ones)), (20, Ok(false)));
    }
}

// Which of several faults is named.

#[test]
fn flags_before_denominators() {
    // A zero denominator in lookup 0, a flag 2 in lookup 1: the crate tests the flags of 1,024 rows before it inverts.
    let t = table(&[5], &[once(0), flagged(1, 3)]);
    assert_eq!(generate(&t, &pairs(2)), refused(15, [0, 0, 0]));
    says(generated(&t, &pairs(2)), "exclusive flag must be boolean");
    // The same over rows: the flag is twice the last row's mark.
    let mut t = table(&[5, 2], &[once(0), flagged(1, 5)]);
    t.add_node(7, 0, 0);
    t.add_node(9, 4, 4);
    assert_eq!(generate(&t, &pairs(2)), refused(15, [0, 0, 0]));
    says(generated(&t, &pairs(2)), "exclusive flag must be boolean");
}

#[test]
fn faults_before_missing_rows() {
    // Row 0 has both of its preprocessed rows.
    let t = with_preprocessed(table(&[3; 3], &[flagged(0, 3)]), 2);
    assert_eq!(generate(&t, &pairs(1)).number, 9);
    says(generated(&t, &pairs(1)), "exclusive flag must be boolean");
    // So have the first 1,024 rows, whose denominators are inverted before the next are looked at.
    let t = with_preprocessed(table(&[5; 1026], &[once(0)]), 1025);
    assert_eq!(generate(&t, &pairs(1)).number, 9);
    says(generated(&t, &pairs(1)), "Tried to invert zero");
}

#[test]
fn terminal_before_other_faults() {
    // No terminal, and one challenge; a trace of one column; one multiplicity too many.
    let t = table(&[3], &[once(0)]);
    let many = table(&[3], &[Lookup { multiplicities: vec![2, 2], ..once(0) }]);
    for (t, challenges, width, number) in [(&t, &pairs(1)[..4], 2, 8), (&t, &pairs(1), 1, 10), (&many, &pairs(1), 2, 5)] {
        let trace = &trace()[..4 * width as usize];
        assert_eq!(constraints(t, challenges, width, trace, None).number, number);
        says(oracle::constraints(t, challenges, width, trace, None), "permutation values count mismatch");
    }
}

#[test]
fn narrow_trace_before_challenges() {
    // Lookup 0 has no column, lookup 1 one challenge.
    let t = table(&[3], &[once(0), once(1)]);
    let challenges = &pairs(2)[..12];
    assert_eq!(constraints(&t, challenges, 1, &lift(0), Some(lift(0))).number, 8);
    says(oracle::constraints(&t, challenges, 1, &lift(0), Some(lift(0))), "unwrap");
}

#[test]
fn challenges_before_lists() {
    let t = table(&[3], &[Lookup { multiplicities: vec![], ..once(0) }]);
    assert_eq!(generate(&t, &pairs(1)[..4]).number, 5);
    says(generated(&t, &pairs(1)[..4]), "the len is 1 but the index is 1");
}

#[test]
fn widths_and_weights_before_nodes_and_lists() {
    // Two widths, or two weights that are too large together, with an absent column, a degree that is too high, or a multiplicity too many.
    let many = Lookup { multiplicities: vec![2, 2], ..once(0) };
    let heavy = [Lookup { weight: u32::MAX.into(), ..once(0) }, once(1)];
    for (lookups, text) in [([once(0), wide(1)], "tuple widths 1 and 2 differ"), (heavy, "count_weight overflow")] {
        let mut absent = table(&[3], &lookups);
        absent.add_node(1, 1, 0);
        for (t, number) in [(absent, 3), (squared(8, table(&[3], &lookups)), 4)] {
            assert_eq!(pack(&t, 9).number, number);
            says(oracle::pack(&t, 9), text);
        }
    }
    let t = table(&[3], &[many, wide(1)]);
    assert_eq!(pack(&t, 9).number, 5);
    says(oracle::pack(&t, 9), "tuple widths 1 and 2 differ");
    assert_eq!((widths(std::slice::from_ref(&t)).number, oracle::widths(&[t])), (5, Ok(Err((1, 2)))));
    let heavy = [table(&[3], &[Lookup { weight: P.into(), multiplicities: vec![2, 2], ..once(0) }])];
    assert_eq!((height_bound(&heavy, &[1]).number, oracle::height_bound(&heavy, &[1])), (5, Ok(Err(P.into()))));
    // A local of two widths, built for a table with an absent column.
    let part = |width| Part { elements: vec![0; width], multiplicity: 2, weight: 1 };
    let mut t = table(&[3], &[]);
    t.add_node(1, 1, 0);
    assert_eq!(build(&t, &[Interaction::Local(vec![part(1), part(2)])]).number, 3);
    says(oracle::build(&t, &[Interaction::Local(vec![part(1), part(2)])]), "tuple widths 1 and 2 differ");
}

#[test]
fn width_0_before_many_prefixes() {
    assert_eq!(prefixes(0, 257).number, 1);
    says(oracle::prefixes(FIELD, lift(1), lift(2), 0, 257), "max_message_width must be non-zero");
}

#[test]
fn unbalanced_local_before_missing_rows() {
    let local = table(&[3], &[Lookup { bus: None, ..once(0) }]);
    let short = with_preprocessed(table(&[3, 4], &[once(0)]), 1);
    let tables = [local, short];
    assert_eq!(balance(&tables, &mut [7; 10]).number, 9);
    says(oracle::balance(&tables), "(instance 0 local lookup 0): tuple [\"3\"] has net multiplicity 1.");
}

#[test]
fn workspace_before_nets() {
    // Two tuples, both unbalanced, and one slot.
    let tables = [table(&[9, 10], &[once(0)])];
    assert_eq!(balance(&tables, &mut [7; 19]).number, 16);
    says(oracle::balance(&tables), "tuple [\"10\"] has net multiplicity 1.");
}

// What the page says beside the table.

#[test]
fn degrees_are_not_folded() {
    // The column times 0.
    let mut t = table(&[3], &[once(0)]);
    t.elements = vec![t.add_node(11, 0, 1)];
    assert_eq!((degree(&t, 0, 0), oracle::degree(&t, 0, 0)), (Ok(2), Ok(2)));
}

#[test]
fn names_are_bytes() {
    let named = |name: &[u8], column| Lookup { bus: Some(name.to_vec()), ..once(column) };
    let t = table(&[3], &[named(b"a", 0), named(b"a\0", 1), named(b"\xff", 2), named(b"", 3)]);
    assert_eq!(pack(&t, 9).number, 0);
    assert_eq!(oracle::pack(&t, 9), Ok(t.records()));
}

#[test]
fn tuples_are_reversed_for_rule_2() {
    // (3, 2) with beta 10 combines to 32, and to 23 by rule 2, as (2, 3) does in the crate.
    let pair = |tuple: [u32; 2]| table(&[3], &[Lookup { tuples: vec![tuple.to_vec()], ..once(0) }]);
    let (t, reversed) = (pair([0, 3]), pair([3, 0]));
    let by_two = Table { rule: Rule::Two, ..t.clone() };
    let with = |alpha: u32| [lift(alpha), lift(10)].concat();
    says(oracle::generate(&t, &with(32)), "Tried to invert zero");
    says(oracle::generate(&reversed, &with(23)), "Tried to invert zero");
    assert_eq!((generate(&by_two, &with(32)).number, generate(&by_two, &with(23)).number), (0, 15));
    // With alpha 25 the fraction is 1 / 2, and the crate's constraints accept it for the reversed tuple alone.
    let mut trace_of_two = [7; 8];
    PORT.generate(Choices::of(by_two.chosen()), &by_two, &with(25), &mut trace_of_two, &mut [7; 5]);
    assert_eq!(oracle::generate(&reversed, &with(25)), Ok((trace_of_two.to_vec(), Some(lift(HALF)))));
    assert_eq!(trace_of_two.to_vec(), trace());
    let of_crate = |t: &Table| oracle::constraints(t, &with(25), 2, &trace(), Some(lift(HALF)));
    assert_eq!((of_crate(&reversed), of_crate(&t)), (Ok(None), Ok(Some((0, 0)))));
    assert_eq!(constraints(&by_two, &with(25), 2, &trace(), Some(lift(HALF))), ACCEPTED);
    assert_eq!(constraints(&t, &with(25), 2, &trace(), Some(lift(HALF))), refused(17, [0; 3]));
}

#[test]
fn rows_further_ahead() {
    // The rows 1, 2 and 3, each beside the word at an offset.
    let with = [lift(5), lift(10)].concat();
    let beside = |node: [u32; 3]| {
        let mut t = table(&[1, 2, 3], &[Lookup { tuples: vec![vec![0, 4]], ..once(0) }]);
        t.nodes.extend(node);
        t
    };
    // The crate has offsets 0 and 1. With one more column of the words that are further ahead it gives the same as well; the runs make that
    // column themselves.
    for (offset, words) in [(0, [1, 2, 3]), (1, [2, 3, 1]), (2, [3, 1, 2]), (3, [1, 2, 3])] {
        let t = beside([1, 0, offset]);
        let main = [1, 2, 3].into_iter().zip(words).flat_map(|(own, ahead)| [own, ahead]).collect();
        let wide = Table { main_width: 2, main, ..beside([1, 1, 0]) };
        let (mut trace, mut terminal) = ([7; 24], [7; 5]);
        assert_eq!(PORT.generate(Choices::of(FIELD), &t, &with, &mut trace, &mut terminal), ACCEPTED);
        let [_, sum @ ..] = terminal;
        assert_eq!(constraints(&t, &with, 2, &trace, Some(sum)), ACCEPTED);
        for given in [&t, &wide] {
            assert_eq!(oracle::generate(given, &with), Ok((trace.to_vec(), Some(sum))));
            assert_eq!(oracle::constraints(given, &with, 2, &trace, Some(sum)), Ok(None));
        }
    }
}

#[test]
fn sum_of_a_local() {
    // The crate holds the sum of these weights at 2^32 - 1.
    let part = |weight| Part { elements: vec![0], multiplicity: 2, weight };
    let interactions = [Interaction::Local(vec![part(u32::MAX), part(1)])];
    let (t, mut words) = (table(&[3], &[]), [7; LOOKUP_WORDS]);
    assert_eq!(PORT.build(Choices::of(FIELD), &t, &Plan::of(&interactions), &mut words, &mut 7), ACCEPTED);
    assert_eq!(words, [0, 0, 0, 0, 0, 2, 2, 0, 1]);
    assert_eq!(oracle::build(&t, &interactions), Ok(vec![local(u32::MAX.into())]));
    // What is packed weighs what it did, and the height bound counts that.
    let tables = [table(&[3], &[local(1 << 32)])];
    let mut packed = Table { lookups: vec![7; LOOKUP_WORDS], ..tables[0].clone() };
    assert_eq!(PORT.pack(Choices::of(FIELD), &tables[0], 9, &mut packed, &mut [7; 6]), ACCEPTED);
    assert_eq!(packed, tables[0]);
    assert_eq!(oracle::pack(&tables[0], 9), Ok(vec![local(u32::MAX.into())]));
    assert_eq!(height_bound(&tables, &[3]), refused(19, [3 << 32, 0, 0]));
    assert_eq!(oracle::height_bound(&tables, &[3]), Ok(Err(3 * u128::from(u32::MAX))));
}

#[test]
fn inverse_of_zero() {
    let mut out = [7; 4];
    assert_eq!((PORT.inverse(FIELD.number(), &[0; 4], &mut out), out), (0, [0; 4]));
}
