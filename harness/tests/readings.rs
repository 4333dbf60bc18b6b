//! Readings that docs/DECISIONS.md records, each with its smallest example: of the port's exported functions, or, without the feature `port`, of the model.
use harness::exports::{Exports, Rooms, marked};
use harness::model::{ACCEPTED, Answer, Choices};
use harness::plain::{Ext, Field, lift};
use harness::table::{Interaction, LOOKUP_WORDS, Lookup, Part, Plan, Table, bytes_of};

#[cfg(feature = "port")]
const PORT: &dyn Exports = &harness::port::Exported;
#[cfg(not(feature = "port"))]
const PORT: &dyn Exports = &harness::exports::Model;

const P: u32 = Field::BabyBear.prime();
const ONE: Choices = Choices { field: 1, profile: 1, rule: 1 };
const TWO: Choices = Choices { field: 2, ..ONE };

fn generate(t: &Table, challenges: &[u32]) -> Answer {
    PORT.generate(ONE, t, challenges, &mut [7; 100], &mut [7; 5])
}

fn constraints(t: &Table, challenges: &[u32], terminal: Option<Ext>) -> Answer {
    let trace = [0, HALF].map(lift).concat();
    PORT.constraints(ONE, t, challenges, 2, &trace, marked(terminal))
}

fn balance(t: &Table) -> Answer {
    PORT.balance(ONE, t, &t.sizes(), 1, &mut [7; 10])
}

/// Nodes 0 and 1: the main column and the constant 1. The lookup has the column once, on a bus or local.
fn table(bus: Option<&[u8]>) -> Table {
    let mut t = Table { main_width: 1, height: 1, main: vec![3], nodes: vec![1, 0, 0, 0, 1, 0], ..Table::default() };
    let bus = bus.map(<[u8]>::to_vec);
    t.set_records(&[Lookup { bus, weight: 1, tuples: vec![vec![0]], multiplicities: vec![1], ..Lookup::default() }]);
    t
}

/// Alpha 5, beta 0; the lookup's fraction is 1 / 2 then.
const PAIR: [u32; 8] = [5, 0, 0, 0, 0, 0, 0, 0];
const HALF: u32 = 1006632961;

#[test]
fn name_length_of_a_local() {
    // The word is ignored; bytes that are lent for it are too many.
    let mut t = table(None);
    for length in [0, 3, 17, u32::MAX] {
        t.lookups[1] = length;
        assert_eq!(generate(&t, &PAIR), ACCEPTED);
        assert_eq!(constraints(&t, &PAIR, Some(lift(HALF))), ACCEPTED);
        assert_eq!(PORT.pack(ONE, &t, 9, &mut t.clone(), &mut [7; 6]), ACCEPTED);
        assert_eq!(PORT.widths(ONE, &t, &[1, 0, 1], &mut 7), ACCEPTED);
        assert_eq!(PORT.height_bound(ONE, &t.lookups, &[1], &[1]), ACCEPTED);
        assert_eq!(balance(&t).number, 18);
    }
    t.lookups[1] = 1;
    t.names = vec![b'x'];
    assert_eq!(generate(&t, &PAIR).number, 1);
    assert_eq!(constraints(&t, &PAIR, Some(lift(HALF))).number, 1);
    assert_eq!(PORT.pack(ONE, &t, 9, &mut t.clone(), &mut [7; 6]).number, 1);
    assert_eq!(PORT.widths(ONE, &t, &[1, 1, 1], &mut 7).number, 1);
    assert_eq!(balance(&t).number, 1);
}

#[test]
fn words_that_are_no_whole_challenges() {
    let t = table(Some(b"mem"));
    for words in [1, 7, 9] {
        let challenges = &[PAIR; 2].concat()[..words];
        assert_eq!(generate(&t, challenges).number, 1);
        assert_eq!(constraints(&t, challenges, Some(lift(HALF))).number, 1);
    }
    // Without lookups too; there any whole number of challenges is taken, and 2 still reads their words.
    let mut t = t;
    t.set_records(&[]);
    assert_eq!([1, 3, 4, 12].map(|n| generate(&t, &vec![0; n]).number), [1, 1, 0, 0]);
    assert_eq!([1, 3, 4, 12].map(|n| constraints(&t, &vec![0; n], None).number), [1, 1, 0, 0]);
    assert_eq!(generate(&t, &[0, 0, P, 0]).number, 2);
}

#[test]
fn rows_that_the_reader_does_not_have() {
    let part = |words: usize, lookups: u64, height: u64, row: u64| {
        let mut part = [7; 2];
        PORT.row(&vec![0; words], lookups, height, row, &mut part);
        part
    };
    // Two lookups have rows of 12 words.
    assert_eq!(part(36, 2, 3, 2), [24, 12]);
    assert_eq!(part(35, 2, 3, 2), [0, 0]);
    assert_eq!(part(48, 2, 3, 3), [0, 0]);
    assert_eq!(part(36, 0, 3, 0), [0, 0]);
    for (lookups, height, row) in [(u64::MAX, 3, 0), (2, u64::MAX, u64::MAX - 1), (u64::MAX, u64::MAX, u64::MAX), (2, 3, u64::MAX)] {
        assert_eq!(part(36, lookups, height, row), [0, 0]);
    }
}

#[test]
fn tests_of_unused_nodes_and_rows() {
    // 2 reads constants that nothing uses, 4 looks at all nodes; 2 reads preprocessed rows past main's height.
    let mut constant = table(Some(b"mem"));
    constant.add_node(0, P, 0);
    let mut squared = table(Some(b"mem"));
    let mut last = 0;
    for _ in 0..8 {
        last = squared.add_node(11, last, last);
    }
    let mut rows = table(Some(b"mem"));
    (rows.pre_width, rows.pre_height, rows.preprocessed) = (1, 2, vec![0, P]);
    for (t, number) in [(constant, 2), (squared, 4), (rows, 2)] {
        assert_eq!(generate(&t, &PAIR).number, number);
        assert_eq!(constraints(&t, &PAIR, Some(lift(HALF))).number, number);
        assert_eq!(balance(&t).number, number);
    }
    // A constant's second operand, and both of the marks of rows, are not read.
    let mut t = table(Some(b"mem"));
    t.nodes[5] = P;
    t.nodes.extend([6, P, P, 7, P, P, 8, P, P]);
    assert_eq!(generate(&t, &PAIR), ACCEPTED);
}

#[test]
fn the_first_prime_in_the_second_field() {
    // A main word, a preprocessed and a public one, a constant and a challenge: 2 in field 1, words of field 2.
    let (mut main, mut preprocessed, mut public, mut constant) = (table(None), table(None), table(None), table(None));
    main.main[0] = P;
    (preprocessed.pre_width, preprocessed.pre_height, preprocessed.preprocessed) = (1, 1, vec![P]);
    public.public_values = vec![P];
    constant.nodes[4] = P;
    let challenges = [PAIR, PAIR, PAIR, PAIR, [5, 0, 0, 0, 0, 0, P, 0]];
    for (t, challenges) in [main, preprocessed, public, constant, table(None)].iter().zip(challenges) {
        assert_eq!(generate(t, &challenges).number, 2);
        assert_eq!(PORT.generate(TWO, t, &challenges, &mut [7; 100], &mut [7; 5]), ACCEPTED);
    }
    // It is 2013265921 there, and not 0: alpha 2013265921 gives 15 with the tuple (2013265921), and none with (0).
    let alpha = [P, 0, 0, 0, 0, 0, 0, 0];
    let generate = |word: u32| PORT.generate(TWO, &Table { main: vec![word], ..table(None) }, &alpha, &mut [7; 100], &mut [7; 5]);
    assert_eq!([P, 0].map(|word| generate(word).number), [15, 0]);
    // A terminal's word, and the words of one element.
    assert_eq!([ONE, TWO].map(|c| PORT.terminals(c, &[1, 0, 0, P, 0]).number), [2, 20]);
    assert_eq!([1, 2].map(|field| PORT.inverse(field, &lift(P), &mut [7; 4])), [2, 0]);
}

#[test]
fn counts_are_of_the_field() {
    for (choices, x, word) in [
        (ONE, i32::MIN, 1879048194),
        (TWO, i32::MIN, 2113929218),
        (ONE, 2013265921, 0),
        (TWO, 2013265921, 2013265921),
        (TWO, 2130706433, 0),
        (TWO, -1, 2130706432),
    ] {
        let (mut nodes, mut count) = ([7; 3], [7; 2]);
        assert_eq!(PORT.count_from_i32(choices, &mut nodes, 0, x, &mut count), ACCEPTED);
        assert_eq!((nodes, count), ([0, word, 0], [0, x.unsigned_abs()]));
    }
}

#[test]
fn height_sums_are_of_the_field() {
    let bound = |choices: Choices, weight: u32| {
        let mut t = table(None);
        t.lookups[2] = weight;
        PORT.height_bound(choices, &t.lookups, &[1], &[1])
    };
    let refused = |sum: u64| Answer { number: 19, details: [sum, 0, 0] };
    assert_eq!([2013265920, 2013265921].map(|weight| bound(ONE, weight)), [ACCEPTED, refused(2013265921)]);
    assert_eq!([2013265921, 2130706432].map(|weight| bound(TWO, weight)), [ACCEPTED; 2]);
    assert_eq!(bound(TWO, 2130706433), refused(2130706433));
}

#[test]
fn products_are_of_the_field() {
    // X^3 · X is 11, and 3.
    let power = |field: u32| {
        let mut out = [7; 4];
        (PORT.power(field, &[0, 1, 0, 0], 4, &mut out), out)
    };
    assert_eq!([1, 2].map(power), [(0, lift(11)), (0, lift(3))]);
}

/// A table of so many lookups, each with one tuple of so many words. Without preprocessed rows there is no such trace.
fn sized(lookups: u32, words: usize, height: usize, pre_height: usize) -> Table {
    let lookup = |column| Lookup { column, tuples: vec![vec![0; words]], ..table(Some(b"mem")).records().remove(0) };
    let mut t = Table { height: height as u64, main: vec![3; height], ..table(None) };
    (t.pre_width, t.pre_height, t.preprocessed) = (u64::from(0 < pre_height), pre_height as u64, vec![0; pre_height]);
    t.set_records(&(0..lookups).map(lookup).collect::<Vec<_>>());
    t
}

/// What each function that takes a profile answers and writes for such a table, by its name. Building is given interactions that make its
/// lookups, the constraints the trace of the cabinet.
fn given(choices: Choices, t: &Table) -> Vec<(&'static str, Answer, String)> {
    let mut given = vec![];
    let mut add = |name: &'static str, answer: Answer, written: &dyn std::fmt::Debug| given.push((name, answer, format!("{written:?}")));
    let (challenges, width) = (PAIR.repeat(t.lookup_count()), t.lookup_count() as u64 + 1);
    let trace = || (vec![7; 4 * (width * t.height) as usize], [7; 5]);

    let (mut rows, mut terminal) = trace();
    add("generation", PORT.generate(choices, t, &challenges, &mut rows, &mut terminal), &(&rows, terminal));
    let (mut rows, mut terminal) = trace();
    PORT.generate(Choices { profile: 1, ..choices }, t, &challenges, &mut rows, &mut terminal);
    add("constraints", PORT.constraints(choices, t, &challenges, width, &rows, terminal), &());
    let mut degree = 7;
    add("degree", PORT.degree(choices, t, 0, 0, &mut degree), &degree);
    let (mut out, mut used) = (t.clone(), [7; 6]);
    add("packing", PORT.pack(choices, t, 9, &mut out, &mut used), &(&out, used));
    let part = Part { elements: vec![0; t.tuples.first().map_or(1, |w| *w as usize)], multiplicity: 1, weight: 1 };
    let plan = Plan::of(&vec![Interaction::Global(b"mem".to_vec(), part); t.lookup_count()]);
    let (mut lookups, mut used) = (vec![7; LOOKUP_WORDS * t.lookup_count()], 7);
    add("building", PORT.build(choices, t, &plan, &mut lookups, &mut used), &(&lookups, used));
    let (sizes, mut widest) = ([t.lookup_count(), t.names.len(), t.tuples.len()].map(|n| n as u32), 7);
    add("widths", PORT.widths(choices, t, &sizes, &mut widest), &widest);
    add("height bound", PORT.height_bound(choices, &t.lookups, &sizes[..1], &[t.height as u32]), &());
    let mut workspace = [7; 20];
    add("balance", PORT.balance(choices, t, &t.sizes(), 1, &mut workspace), &workspace);

    let b = t.bytes();
    let of_lookups = t.lengths().iter().sum::<usize>() - t.names.len();
    let rooms = |read: usize, written: usize| Rooms { read: vec![7; read + of_lookups], written: vec![7; written] };
    let of_rows = t.main.len() + t.preprocessed.len() + t.nodes.len();
    let (rows, mut terminal) = trace();
    let (mut lent, mut room) = (bytes_of(&rows), rooms(of_rows + challenges.len(), rows.len()));
    let answer = PORT.generate_bytes(choices, &b, &bytes_of(&challenges), &mut lent, &mut room, &mut terminal);
    add("generation on bytes", answer, &(&lent, &room, terminal));
    let (mut out, mut room, mut used) = (b.clone(), rooms(t.nodes.len(), of_lookups), [7; 6]);
    add("packing on bytes", PORT.pack_bytes(choices, &b, 9, &mut out, &mut room, &mut used), &(&out, &room, used));
    let (mut lent, mut room) = (vec![7; 80], rooms(of_rows + t.sizes().len(), 20));
    let answer = PORT.balance_bytes(choices, &b, &bytes_of(&t.sizes()), 1, &mut lent, &mut room);
    add("balance on bytes", answer, &(&lent, &room));
    given
}

#[test]
fn limits_of_the_gateway() {
    let of_rows = ["generation", "constraints", "balance", "generation on bytes", "balance on bytes"];
    let of_lookups = ["degree", "packing", "building", "widths", "packing on bytes"];
    // Each limit met, then passed by one, and the functions that read it.
    let limits = [
        (sized(8, 1, 1, 0), sized(9, 1, 1, 0), [&of_rows[..], &of_lookups, &["height bound"]].concat()),
        (sized(1, 4, 1, 0), sized(1, 5, 1, 0), [&of_rows[..], &of_lookups].concat()),
        (sized(1, 1, 4096, 0), sized(1, 1, 4097, 0), [&of_rows[..], &["height bound"]].concat()),
        (sized(1, 1, 1, 4096), sized(1, 1, 1, 4097), of_rows.to_vec()),
    ];
    for (met, passed, readers) in limits {
        for cabinet in [ONE, TWO] {
            let gateway = Choices { profile: 2, ..cabinet };
            assert!(given(gateway, &met).iter().all(|(_, answer, _)| answer.number != 1));
            assert_eq!(given(gateway, &met), given(cabinet, &met));
            for (in_gateway, in_cabinet) in given(gateway, &passed).iter().zip(given(cabinet, &passed)) {
                let (name, answer, _) = in_gateway;
                assert_ne!(in_cabinet.1.number, 1, "{name}");
                assert_eq!(answer.number == 1, readers.contains(name), "{name}");
                // The others answer as in the cabinet.
                assert!(readers.contains(name) || *in_gateway == in_cabinet, "{name}");
            }
        }
    }
}

#[test]
fn the_gateway_shares_the_other_limits() {
    let gateway = Choices { profile: 2, ..ONE };
    // 64 tuples, 1,024 nodes and a degree of 255 are taken, and one more of each is not.
    let tuples = |n: usize| {
        let mut t = table(None);
        t.set_records(&[Lookup { tuples: vec![vec![0]; n], multiplicities: vec![1; n], ..t.records().remove(0) }]);
        t
    };
    let nodes = |n: usize| {
        let mut t = table(None);
        t.nodes.resize(3 * n, 0);
        t
    };
    // A column squared seven times has degree 128, times the squares before it 255.
    let degree = |factors: usize| {
        let mut t = table(None);
        for last in [0, 2, 3, 4, 5, 6, 7] {
            t.add_node(11, last, last);
        }
        [7, 6, 5, 4, 3, 2, 0, 0][..factors].iter().fold(8, |last, factor| t.add_node(11, last, *factor));
        t
    };
    for (met, passed, number) in [(tuples(64), tuples(65), 1), (nodes(1024), nodes(1025), 1), (degree(7), degree(8), 4)] {
        for choices in [ONE, gateway] {
            assert_eq!(PORT.generate(choices, &met, &PAIR, &mut [7; 8], &mut [7; 5]), ACCEPTED);
            assert_eq!(PORT.generate(choices, &passed, &PAIR, &mut [7; 8], &mut [7; 5]).number, number);
        }
    }
    // Terminals, prefixes and counts read no limit that differs.
    assert_eq!([16, 17].map(|n| PORT.terminals(gateway, &vec![0; 5 * n]).number), [0, 1]);
    assert_eq!([255, 256].map(|width| PORT.prefixes(gateway, &lift(1), &lift(2), width, 256, &mut [7; 1024]).number), [0, 1]);
    assert_eq!([1023, 1024].map(|used| PORT.count_from_i32(gateway, &mut [7; 3 * 1025], used, 1, &mut [7; 2]).number), [0, 1]);
    assert_eq!([1023, 1024].map(|used| PORT.count_negated(gateway, &mut [7; 3 * 1025], used, [0, 1], &mut [7; 2]).number), [0, 1]);
}

/// One row with the words 3 and 7, and a lookup on "mem" whose tuple is `elements`, with multiplicity 5. Nodes 0 and 1: the columns.
fn pair(elements: &[u32]) -> Table {
    let mut t = Table { main_width: 2, height: 1, main: vec![3, 7], nodes: vec![1, 0, 0, 1, 1, 0, 0, 5, 0], ..Table::default() };
    let bus = Some(b"mem".to_vec());
    t.set_records(&[Lookup { bus, weight: 5, tuples: vec![elements.to_vec()], multiplicities: vec![2], ..Lookup::default() }]);
    t
}

/// Generation with this alpha and beta 10: the answer, the trace's row and the terminal.
fn generated(choices: Choices, t: &Table, alpha: u32) -> (Answer, [u32; 8], [u32; 5]) {
    let (mut row, mut terminal) = ([7; 8], [7; 5]);
    let answer = PORT.generate(choices, t, &[lift(alpha), lift(10)].concat(), &mut row, &mut terminal);
    (answer, row, terminal)
}

/// What it gives where the fraction is `m`.
fn fraction(m: u32) -> (Answer, [u32; 8], [u32; 5]) {
    (ACCEPTED, [0, 0, 0, 0, m, 0, 0, 0], marked(Some(lift(m))))
}

/// What it gives where the denominator is zero.
const FAULT: (Answer, [u32; 8], [u32; 5]) = (Answer { number: 15, details: [0; 3] }, [0; 8], [0; 5]);

#[test]
fn powers_of_beta_by_each_rule() {
    // (3, 7) combines to 37 by rule 1 and to 73 by rule 2: alpha - 37 or alpha - 73 is the denominator.
    let t = pair(&[0, 1]);
    for field in [ONE, TWO] {
        for (rule, combined, other) in [(1, 37, 73), (2, 73, 37)] {
            let choices = Choices { rule, ..field };
            assert_eq!(generated(choices, &t, combined), FAULT);
            assert_eq!(generated(choices, &t, other).0, ACCEPTED);
            assert_eq!(generated(choices, &t, combined + 1), fraction(5));
            // The constraints take that fraction with this alpha by this rule alone.
            let trace = [0, 5].map(lift).concat();
            let asked = |rule: u32, alpha: u32| {
                let challenges = [lift(alpha), lift(10)].concat();
                PORT.constraints(Choices { rule, ..field }, &t, &challenges, 2, &trace, marked(Some(lift(5)))).number
            };
            assert_eq!([asked(rule, combined + 1), asked(rule, other + 1), asked(3 - rule, combined + 1)], [0, 17, 17]);
        }
        // By rule 1 on the tuple the other way round, all is as by rule 2.
        let by_two = Choices { rule: 2, ..field };
        assert!([36, 37, 38, 73, 74].iter().all(|alpha| generated(by_two, &t, *alpha) == generated(field, &pair(&[1, 0]), *alpha)));
    }
}

#[test]
fn powers_of_beta_on_bytes() {
    let (t, challenges) = (pair(&[0, 1]), [lift(74), lift(10)].concat());
    let read = [&t.main[..], &t.nodes, &challenges, &t.lookups, &t.tuples, &t.multiplicities, &t.elements].concat();
    let generate = |rule: u32| {
        let mut rooms = Rooms { read: vec![7; read.len()], written: vec![7; 8] };
        let (mut trace, mut terminal) = ([7; 32], [7; 5]);
        let answer =
            PORT.generate_bytes(Choices { rule, ..ONE }, &t.bytes(), &bytes_of(&challenges), &mut trace, &mut rooms, &mut terminal);
        assert_eq!(bytes_of(&rooms.written), trace);
        (answer, rooms, terminal)
    };
    let (_, row, terminal) = fraction(5);
    // The room has the elements as they are lent.
    assert_eq!(generate(2), (ACCEPTED, Rooms { read: read.clone(), written: row.to_vec() }, terminal));
    let (answer, rooms, terminal) = generate(1);
    assert_eq!((answer, rooms.read), (ACCEPTED, read));
    assert_ne!(terminal, marked(Some(lift(5))));
}

#[test]
fn tuples_without_an_order() {
    // (), (7) and (3, 3) combine to 0, 7 and 33 by both rules.
    for (elements, combined) in [(&[][..], 0), (&[1], 7), (&[0, 0], 33)] {
        for choices in [1, 2].map(|rule| Choices { rule, ..ONE }) {
            assert_eq!(generated(choices, &pair(elements), combined), FAULT);
            assert_eq!(generated(choices, &pair(elements), combined + 1), fraction(5));
        }
    }
}

#[test]
fn each_tuple_has_its_own_order() {
    // (3), (7, 3) and () in one lookup, then (3, 7): by rule 2 they combine to 3, 37 and 0, then to 73, and no other alpha is refused.
    let mut t = pair(&[]);
    let lookup = t.records().remove(0);
    let tuples = vec![vec![0], vec![1, 0], vec![]];
    t.set_records(&[
        Lookup { tuples, multiplicities: vec![2; 3], ..lookup.clone() },
        Lookup { column: 1, tuples: vec![vec![0, 1]], ..lookup },
    ]);
    let number = |rule: u32, alphas: [u32; 2]| {
        let challenges = alphas.map(|alpha| [lift(alpha), lift(10)].concat()).concat();
        let answer = PORT.generate(Choices { rule, ..ONE }, &t, &challenges, &mut [7; 12], &mut [7; 5]);
        (answer.number, answer.details[1])
    };
    let met = |rule: u32| {
        let first = (0..80).filter(|alpha| number(rule, [*alpha, 1000]) == (15, 0)).collect::<Vec<u32>>();
        let second = (0..80).filter(|alpha| number(rule, [1000, *alpha]) == (15, 1)).collect::<Vec<u32>>();
        (first, second)
    };
    assert_eq!(met(2), (vec![0, 3, 37], vec![73]));
    assert_eq!(met(1), (vec![0, 3, 73], vec![37]));
}

#[test]
fn a_power_of_beta_0() {
    // beta^0 is 1 for beta 0 too: by rule 1 the last element is what counts, by rule 2 the first.
    for (rule, combined) in [(1, 7), (2, 3)] {
        let number = |alpha: u32| {
            PORT.generate(Choices { rule, ..ONE }, &pair(&[0, 1]), &[lift(alpha), lift(0)].concat(), &mut [7; 8], &mut [7; 5]).number
        };
        assert_eq!((0..20).filter(|alpha| number(*alpha) == 15).collect::<Vec<u32>>(), [combined]);
    }
}

#[test]
fn functions_without_a_rule() {
    // Balance and packing take no rule: (3, 7) and (7, 3) are two tuples, and packed they keep their order.
    let mut t = pair(&[]);
    let lookup = t.records().remove(0);
    t.add_node(12, 2, 0);
    let of = |column: u32, tuple: Vec<u32>, multiplicity: u32| Lookup {
        column,
        tuples: vec![tuple],
        multiplicities: vec![multiplicity],
        ..lookup.clone()
    };
    for (second, number) in [(vec![0, 1], 0), (vec![1, 0], 18)] {
        t.set_records(&[of(0, vec![0, 1], 2), of(1, second.clone(), 3)]);
        assert_eq!(PORT.balance(ONE, &t, &t.sizes(), 1, &mut [7; 20]).number, number);
        let mut out = t.clone();
        assert_eq!(PORT.pack(ONE, &t, 9, &mut out, &mut [7; 6]), ACCEPTED);
        assert_eq!(out.elements, [vec![0, 1], second].concat());
    }
}

/// So many rows with the words 10, 11, .. in main and 20, 21, .. in a preprocessed trace of so many rows more. The one element of a local is
/// this node, number 1; its multiplicity is 1.
fn ahead(height: u32, more: u32, node: [u32; 3]) -> Table {
    let mut t = Table { main_width: 1, height: height.into(), main: (10..10 + height).collect(), ..Table::default() };
    (t.pre_width, t.pre_height, t.preprocessed) = (1, (height + more).into(), (20..20 + height + more).collect());
    t.nodes = [[0, 1, 0], node].concat();
    t.set_records(&[Lookup { weight: 1, tuples: vec![vec![1]], multiplicities: vec![0], ..Lookup::default() }]);
    t
}

/// The words that its node sees, row by row: balance keeps them in its slots.
fn seen(t: &Table) -> Vec<u32> {
    let mut workspace = vec![7; 10 * t.height as usize];
    assert_eq!(PORT.balance(ONE, t, &t.sizes(), 1, &mut workspace).number, 18);
    workspace.chunks_exact(10).map(|slot| slot[1]).collect()
}

#[test]
fn rows_ahead() {
    // Rows go around the end of main, as often as it takes, also in a preprocessed trace that has more.
    assert_eq!([0, 1, 2, 3].map(|b| seen(&ahead(1, 0, [1, 0, b]))), [[10], [10], [10], [10]]);
    assert_eq!([0, 1, 2, 3].map(|b| seen(&ahead(2, 1, [3, 0, b]))), [[20, 21], [21, 20], [20, 21], [21, 20]]);
    assert_eq!([0, 1, 2, 3].map(|b| seen(&ahead(3, 5, [3, 0, b]))), [[20, 21, 22], [21, 22, 20], [22, 20, 21], [20, 21, 22]]);
    assert_eq!(seen(&ahead(5, 0, [1, 0, 3])), [13, 14, 10, 11, 12]);
    // Generation reads the same rows: alpha 12 meets the word 12 on row 1 of three, where the node looks one row ahead, and on row 0 at offset 2.
    for (b, row) in [(0, 2), (1, 1), (2, 0), (3, 2)] {
        let answer = PORT.generate(ONE, &ahead(3, 0, [1, 0, b]), &[lift(12), lift(0)].concat(), &mut [7; 24], &mut [7; 5]);
        assert_eq!(answer, Answer { number: 15, details: [row, 0, 0] });
    }
}

#[test]
fn second_words_that_are_not_used() {
    for b in [0, 1, 2, 3, 4, u32::MAX] {
        assert_eq!(seen(&ahead(3, 1, [2, 0, b])), [11, 12, 10]);
        assert_eq!(seen(&ahead(3, 1, [4, 0, b])), [21, 22, 20]);
    }
}

#[test]
fn offsets_over_three() {
    // Refusal 3 at every function that tests nodes, whether they are used or not.
    for (kind, offset, number) in [(1, 3, 0), (3, 3, 0), (1, 4, 3), (3, 4, 3), (1, u32::MAX, 3), (3, u32::MAX, 3)] {
        let used = ahead(2, 0, [kind, 0, offset]);
        let unused = Table { elements: vec![0], ..used.clone() };
        for (name, answer, _) in [&used, &unused].into_iter().flat_map(|t| given(ONE, t)) {
            let expected = match (name, number) {
                ("widths" | "height bound", _) => 0,
                // The local does not balance.
                ("balance" | "balance on bytes", 0) => 18,
                _ => number,
            };
            assert_eq!(answer.number, expected, "{name}");
        }
        // It comes after 2, and before 4 and 5.
        let mut constant = unused.clone();
        constant.add_node(0, P, 0);
        let mut squared = unused.clone();
        let mut last = 1;
        for _ in 0..8 {
            last = squared.add_node(11, last, last);
        }
        let absent = Table { elements: vec![9], ..unused };
        let numbers = [constant, squared, absent].map(|t| generate(&t, &PAIR).number);
        assert_eq!(numbers, if number == 0 { [2, 4, 5] } else { [2, 3, 3] });
    }
}

/// The table with a lookup of so many tuples, of this weight.
fn weighing(bus: Option<&[u8]>, tuples: usize, weight: u64) -> Table {
    let mut t = table(bus);
    t.set_records(&[Lookup { weight, tuples: vec![vec![0]; tuples], multiplicities: vec![1; tuples], ..t.records().remove(0) }]);
    t
}

#[test]
fn weights_at_every_door() {
    let most = u64::from(u32::MAX);
    // 2^32 - 1 for each tuple of a local, and for one without tuples; on a bus 2^32 - 1.
    let limits = [(None, 0, most), (None, 1, most), (None, 2, 2 * most), (None, 64, 64 * most), (Some(&b"mem"[..]), 2, most)];
    for (bus, tuples, limit) in limits {
        for (name, answer, _) in given(ONE, &weighing(bus, tuples, limit)) {
            assert_ne!(answer.number, 1, "{name}");
        }
        // Building is given interactions, whose weights are words.
        for (name, answer, _) in given(ONE, &weighing(bus, tuples, limit + 1)) {
            assert_eq!(answer.number == 1, name != "building", "{name}");
        }
    }
    // The tuples are those of the record: their number is at odds with the multiplicities' after that.
    let bound = |weight: u64| {
        let mut t = weighing(None, 2, weight);
        t.lookups[6] = 1;
        PORT.height_bound(ONE, &t.lookups, &[1], &[1]).number
    };
    assert_eq!([bound(2 * most), bound(2 * most + 1)], [5, 1]);
}

#[test]
fn weights_of_locals_are_whole() {
    let most = u64::from(u32::MAX);
    // Building adds them up.
    let built = |weights: &[u32]| {
        let part = |weight: &u32| Part { elements: vec![0], multiplicity: 1, weight: *weight };
        let plan = Plan::of(&[Interaction::Local(weights.iter().map(part).collect())]);
        let mut words = [7; LOOKUP_WORDS];
        assert_eq!(PORT.build(ONE, &table(None), &plan, &mut words, &mut 7), ACCEPTED);
        [words[2], words[8]]
    };
    assert_eq!([built(&[u32::MAX, 0]), built(&[u32::MAX, 1]), built(&[u32::MAX, 2])], [[u32::MAX, 0], [0, 1], [1, 1]]);
    assert_eq!(built(&[u32::MAX; 64]), [(1 << 32) - 64, 63].map(|n: u64| n as u32));
    // Packing keeps them, and refuses by 7 what is on a bus alone.
    for (weight, number) in [(most - 1, 0), (most, 7)] {
        let mut t = weighing(None, 2, 2 * most);
        let [local, on_bus] = [t.records().remove(0), table(Some(b"mem")).records().remove(0)];
        t.set_records(&[Lookup { weight, ..on_bus.clone() }, local.clone(), on_bus]);
        let (mut out, mut used) = (t.clone(), [7; 6]);
        assert_eq!(PORT.pack(ONE, &t, 9, &mut out, &mut used).number, number);
        if number == 0 {
            assert_eq!(used[0] as usize, 2 * LOOKUP_WORDS);
            assert_eq!(out.lookups[..LOOKUP_WORDS], [0, 0, u32::MAX - 1, 0, 0, 2, 2, 0, 1]);
            assert_eq!(out.lookups[LOOKUP_WORDS..used[0] as usize], [1, 3, u32::MAX, 1, 0, 2, 2, 0, 0]);
        }
    }
    // The height bound's sum is exact: sixteen tables of a local of 64 tuples and 63 without.
    let mut t = weighing(None, 64, 64 * most);
    let without = weighing(None, 0, most).records().remove(0);
    t.set_records(&[t.records(), vec![without; 63]].concat());
    let bound = |height: u32| PORT.height_bound(ONE, &t.lookups.repeat(16), &[64; 16], &[height; 16]);
    assert_eq!([0, 1 << 20].map(bound), [ACCEPTED, Answer { number: 19, details: [(127 * most) << 24, 0, 0] }]);
}

/// Choices with an unknown number among them.
fn unknown() -> Vec<Choices> {
    let fields = [0, 3, u32::MAX].map(|field| Choices { field, ..ONE });
    let profiles = [0, 3, u32::MAX].map(|profile| Choices { profile, ..TWO });
    [fields, profiles].concat()
}

#[test]
fn unknown_numbers_come_first() {
    let refused = Answer { number: 1, details: [0; 3] };
    // With a word that 2 would refuse, and without lookups, which else is accepted.
    let (mut high, mut without) = (table(Some(b"mem")), table(None));
    (high.main[0], high.nodes[4]) = (u32::MAX, u32::MAX);
    without.set_records(&[]);
    let rules = [0, 3, 257, 258, u32::MAX].map(|rule| Choices { rule, ..TWO });
    for t in [&high, &without] {
        for choices in [&unknown()[..], &rules].concat() {
            let (mut trace, mut terminal) = ([7; 8], [7; 5]);
            assert_eq!(PORT.generate(choices, t, &PAIR, &mut trace, &mut terminal), refused);
            assert_eq!((trace, terminal), ([7; 8], [7; 5]));
            assert_eq!(PORT.constraints(choices, t, &PAIR, 2, &[], [0; 5]), refused);
        }
        for choices in unknown() {
            let (mut out, mut used, mut workspace) = (t.clone(), [7; 6], [7; 10]);
            assert_eq!(PORT.pack(choices, t, 9, &mut out, &mut used), refused);
            assert_eq!((&out, used), (t, [7; 6]));
            assert_eq!(PORT.balance(choices, t, &t.sizes(), 1, &mut workspace), refused);
            assert_eq!(workspace, [7; 10]);
            assert_eq!(PORT.widths(choices, t, &[0, 0, 0], &mut 7), refused);
            assert_eq!(PORT.height_bound(choices, &[], &[], &[]), refused);
        }
    }
    for choices in unknown() {
        // 2, 12 and 3 would be given else.
        assert_eq!(PORT.terminals(choices, &[1, u32::MAX, 0, 0, 0]), refused);
        assert_eq!(PORT.terminals(choices, &[]), refused);
        assert_eq!(PORT.prefixes(choices, &lift(1), &lift(2), 0, 1, &mut [7; 4]), refused);
        let (mut nodes, mut count) = ([7; 3], [7; 2]);
        assert_eq!(PORT.count_from_i32(choices, &mut nodes, 0, 1, &mut count), refused);
        assert_eq!(PORT.count_negated(choices, &mut nodes, 0, [9, 1], &mut count), refused);
        assert_eq!((nodes, count), ([7; 3], [7; 2]));
    }
    for field in [0, 3, u32::MAX] {
        let mut out = [7; 4];
        assert_eq!([PORT.power(field, &lift(u32::MAX), 0, &mut out), PORT.inverse(field, &lift(1), &mut out)], [1, 1]);
        assert_eq!(out, [7; 4]);
    }
}
