//! Generation as one would tune it by hand for one thread: nodes decoded once, sums of products reduced once, all denominators of a block of
//! rows inverted together, by a product of these or, as the port does, by one of their norms. It is compiled once for each field, whose prime
//! is a constant then. It takes only tables that the port accepts, and tests nothing.
use crate::plain::{BabyBear, Ext, Field, KoalaBear, PrimeField};
use crate::table::Table;

/// The denominators that are inverted together.
const BLOCK: usize = 1024;

/// What is multiplied in order to invert all denominators of a block together.
#[derive(Clone, Copy)]
pub enum Product {
    Denominators,
    Norms,
}

#[derive(Clone, Copy)]
enum Node {
    Constant(u32),
    /// How many words after the first one of the current row its word stands, where row 0 comes once more after the last.
    Main(usize),
    Preprocessed(usize),
    Public(usize),
    First,
    Last,
    Transition,
    Sum(usize, usize),
    Difference(usize, usize),
    Product(usize, usize),
    Negation(usize),
}

fn node(t: &Table, words: &[u32]) -> Node {
    let (a, b) = (words[1] as usize, words[2] as usize);
    // A table of one, two or three rows may be gone around more than once.
    let ahead = |offset: usize, width: u64| offset % t.height as usize * width as usize + a;
    match words[0] {
        0 => Node::Constant(words[1]),
        1 => Node::Main(ahead(b, t.main_width)),
        2 => Node::Main(ahead(1, t.main_width)),
        3 => Node::Preprocessed(ahead(b, t.pre_width)),
        4 => Node::Preprocessed(ahead(1, t.pre_width)),
        5 => Node::Public(a),
        6 => Node::First,
        7 => Node::Last,
        8 => Node::Transition,
        9 => Node::Sum(a, b),
        10 => Node::Difference(a, b),
        11 => Node::Product(a, b),
        _ => Node::Negation(a),
    }
}

/// A tuple with the powers of beta that its elements go with.
struct Tuple {
    elements: Vec<(usize, Ext)>,
    multiplicity: usize,
    flag: Option<usize>,
}

struct Lookup {
    alpha: Ext,
    tuples: Vec<Tuple>,
}

fn lookups<F: PrimeField>(t: &Table, challenges: &[u32]) -> Vec<Lookup> {
    let element = |i: usize| -> Ext { challenges[4 * i..4 * i + 4].try_into().unwrap() };
    let lookup = |(i, record): (usize, crate::table::Lookup)| {
        let beta = element(2 * i + 1);
        let tuple = |(k, nodes): (usize, &Vec<u32>)| {
            let power = |j: usize| F::power(beta, (nodes.len() - 1 - j) as u32);
            Tuple {
                elements: nodes.iter().enumerate().map(|(j, n)| (*n as usize, power(j))).collect(),
                multiplicity: record.multiplicities[k] as usize,
                flag: record.exclusive.then(|| record.flags[k] as usize),
            }
        };
        Lookup { alpha: element(2 * i), tuples: record.tuples.iter().enumerate().map(tuple).collect() }
    };
    t.records().into_iter().enumerate().map(lookup).collect()
}

/// A sum below 2p, made a word.
#[inline]
fn once<F: PrimeField>(sum: u32) -> u32 {
    if sum < F::P { sum } else { sum - F::P }
}

#[inline]
fn add<F: PrimeField>(a: Ext, b: Ext) -> Ext {
    std::array::from_fn(|i| once::<F>(a[i] + b[i]))
}

fn evaluate<F: PrimeField>(t: &Table, nodes: &[Node], r: usize, values: &mut [u32]) {
    let (height, width, pre_width) = (t.height as usize, t.main_width as usize, t.pre_width as usize);
    let around = |at: usize, end: usize| if at < end { at } else { at - end };
    for i in 0..nodes.len() {
        values[i] = match nodes[i] {
            Node::Constant(word) => word,
            Node::Main(ahead) => t.main[around(r * width + ahead, height * width)],
            Node::Preprocessed(ahead) => t.preprocessed[around(r * pre_width + ahead, height * pre_width)],
            Node::Public(at) => t.public_values[at],
            Node::First => (r == 0).into(),
            Node::Last => (r + 1 == height).into(),
            Node::Transition => (r + 1 != height).into(),
            Node::Sum(a, b) => once::<F>(values[a] + values[b]),
            Node::Difference(a, b) => F::sub_word(values[a], values[b]),
            Node::Product(a, b) => F::mul_word(values[a], values[b]),
            Node::Negation(a) => F::neg_word(values[a]),
        };
    }
}

/// Alpha minus the combined value. Four products of words fit 64 bits.
#[inline]
fn denominator<F: PrimeField>(alpha: Ext, elements: &[(usize, Ext)], values: &[u32]) -> Ext {
    let mut combined = [0; 4];
    for four in elements.chunks(4) {
        let mut sums = [0u64; 4];
        for (n, power) in four {
            let value = u64::from(values[*n]);
            for (sum, word) in sums.iter_mut().zip(power) {
                *sum += value * u64::from(*word);
            }
        }
        combined = add::<F>(combined, sums.map(|sum| (sum % u64::from(F::P)) as u32));
    }
    F::sub(alpha, combined)
}

/// Each denominator's inverse in its place: one inversion for all of them.
fn invert_all<F: PrimeField>(denominators: &mut [Ext], prefixes: &mut Vec<Ext>) {
    prefixes.clear();
    let mut product = [1, 0, 0, 0];
    for d in denominators.iter() {
        prefixes.push(product);
        product = F::mul(product, *d);
    }
    let mut inverse = F::inverse(product);
    for (d, prefix) in denominators.iter_mut().zip(prefixes.iter()).rev() {
        let one = F::mul(inverse, *prefix);
        inverse = F::mul(inverse, *d);
        *d = one;
    }
}

/// The same, with one inversion of a word. Differences are sums with p - a, which need no test: such a product fits beside the others.
fn invert_by_norms<F: PrimeField>(denominators: &mut [Ext], kept: &mut Vec<Ext>) {
    let product_of = |a: u32, b: u32| u64::from(a) * u64::from(b);
    let reduce = |sum: u64| (sum % u64::from(F::P)) as u32;
    let times_w = |a: u32| F::mul_word(F::W, a);
    kept.clear();
    let mut product = 1;
    for a in denominators.iter() {
        let (v1, v2, v3) = (times_w(a[1]), times_w(a[2]), times_w(a[3]));
        // n0 and -n1 of a(X)·a(-X) = n0 + n1·X², and the norm.
        let x = reduce(product_of(a[0], a[0]) + product_of(v2, a[2]) + 2 * product_of(v1, F::P - a[3]));
        let y = reduce(product_of(a[1], a[1]) + product_of(v3, a[3]) + 2 * product_of(a[0], F::P - a[2]));
        let norm = reduce(product_of(x, x) + product_of(times_w(y), F::P - y));
        kept.push([x, y, norm, product]);
        product = F::mul_word(product, norm);
    }
    let mut inverse = F::inv_word(product);
    for (d, [x, y, norm, before]) in denominators.iter_mut().zip(kept.iter()).rev() {
        let (a, i) = (*d, F::mul_word(inverse, *before));
        inverse = F::mul_word(inverse, *norm);
        let (e0, e1) = (F::mul_word(*x, i), F::mul_word(*y, i));
        let (f0, f1, v2, v3) = (F::P - e0, F::P - e1, times_w(a[2]), times_w(a[3]));
        *d = [
            reduce(product_of(a[0], e0) + product_of(v2, e1)),
            reduce(product_of(a[1], f0) + product_of(v3, f1)),
            reduce(product_of(a[0], e1) + product_of(a[2], e0)),
            reduce(product_of(a[1], f1) + product_of(a[3], f0)),
        ];
    }
}

/// The trace and the terminal.
pub fn generate(t: &Table, challenges: &[u32], product: Product) -> (Vec<u32>, Option<Ext>) {
    match t.field {
        Field::BabyBear => generate_in::<BabyBear>(t, challenges, product),
        Field::KoalaBear => generate_in::<KoalaBear>(t, challenges, product),
    }
}

pub fn generate_in<F: PrimeField>(t: &Table, challenges: &[u32], product: Product) -> (Vec<u32>, Option<Ext>) {
    let lookups = lookups::<F>(t, challenges);
    if lookups.is_empty() {
        return (vec![], None);
    }
    let nodes: Vec<Node> = t.nodes.chunks_exact(3).map(|words| node(t, words)).collect();
    let (height, columns) = (t.height as usize, lookups.len() + 1);
    // An exclusive lookup has one term at most.
    let terms: usize = lookups.iter().map(|l| l.tuples.len()).sum();
    let block = (BLOCK / terms.max(1)).max(1);
    let mut trace = vec![0; 4 * height * columns];
    let mut values = vec![0; nodes.len()];
    let (mut denominators, mut multiplicities, mut ends, mut kept) = (vec![], vec![], vec![], vec![]);
    let mut accumulator = [0; 4];
    for (b, out) in trace.chunks_mut(4 * columns * block).enumerate() {
        denominators.clear();
        multiplicities.clear();
        ends.clear();
        for r in b * block..b * block + out.len() / (4 * columns) {
            evaluate::<F>(t, &nodes, r, &mut values);
            for lookup in &lookups {
                for tuple in &lookup.tuples {
                    let m = values[tuple.multiplicity];
                    if tuple.flag.map_or(m != 0, |f| values[f] == 1) {
                        denominators.push(denominator::<F>(lookup.alpha, &tuple.elements, &values));
                        multiplicities.push(m);
                    }
                }
                ends.push(denominators.len());
            }
        }
        match product {
            Product::Denominators => invert_all::<F>(&mut denominators, &mut kept),
            Product::Norms => invert_by_norms::<F>(&mut denominators, &mut kept),
        }
        let mut at = 0;
        for (row, ends) in out.chunks_exact_mut(4 * columns).zip(ends.chunks_exact(lookups.len())) {
            row[..4].copy_from_slice(&accumulator);
            for (cell, end) in row[4..].chunks_exact_mut(4).zip(ends) {
                let mut fraction = [0; 4];
                while at < *end {
                    fraction = add::<F>(fraction, F::scale(multiplicities[at], denominators[at]));
                    at += 1;
                }
                cell.copy_from_slice(&fraction);
                accumulator = add::<F>(accumulator, fraction);
            }
        }
    }
    (trace, Some(accumulator))
}
