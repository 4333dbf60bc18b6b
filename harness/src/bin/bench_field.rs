//! Times an extension product and an extension inverse of the port in each field beside the same formulas in Rust, interleaved in one run, and
//! compares every result.
use harness::clock::timed;
use harness::plain::{BabyBear, Ext, Field, KoalaBear, PrimeField, Random};

const ROUNDS: usize = 31;
/// The power 2^31 is 32 squares, each of the one before, and one more product.
const EXPONENT: u32 = 1 << 31;
const PRODUCTS: usize = 33;
/// Powers of powers, so that all products are a chain.
const POWERS: usize = 30_000;
const INVERSES: usize = 20_000;

fn median(mut times: Vec<f64>) -> f64 {
    times.sort_by(f64::total_cmp);
    times[times.len() / 2]
}

fn main() {
    let mut random = Random(0x9E3779B97F4A7C15);
    race::<BabyBear>(&mut random, Field::BabyBear, delmatik::Field::BabyBear);
    race::<KoalaBear>(&mut random, Field::KoalaBear, delmatik::Field::KoalaBear);
}

/// The formulas of `F` beside the port's; the field has a name in each crate.
fn race<F: PrimeField>(random: &mut Random, field: Field, of_port: delmatik::Field) {
    let (mut port, mut rust) = (vec![], vec![]);
    for _ in 0..ROUNDS {
        let a = random.element(field);
        let (out, seconds) = timed(|| (0..POWERS).fold(a, |a, _| delmatik::power(of_port, a, EXPONENT).unwrap()));
        port.push(seconds);
        let (expected, seconds) = timed(|| (0..POWERS).fold(a, |a, _| F::power(a, EXPONENT)));
        rust.push(seconds);
        assert_eq!(out, expected);
    }
    report(&format!("extension product, field {}", field.number()), POWERS * PRODUCTS, median(port), median(rust));

    let (mut port, mut rust) = (vec![], vec![]);
    for _ in 0..ROUNDS {
        let elements: Vec<Ext> = (0..INVERSES).map(|_| random.element(field)).collect();
        let (outs, seconds) = timed(|| elements.iter().map(|a| delmatik::inverse(of_port, *a).unwrap()).collect::<Vec<Ext>>());
        port.push(seconds);
        let (expected, seconds) = timed(|| elements.iter().map(|a| F::inverse(*a)).collect::<Vec<Ext>>());
        rust.push(seconds);
        assert_eq!(outs, expected);
    }
    report(&format!("extension inverse, field {}", field.number()), INVERSES, median(port), median(rust));
}

fn report(name: &str, n: usize, port: f64, rust: f64) {
    let each = 1e9 / n as f64;
    println!("{name}: port {:.2} ns, Rust {:.2} ns, ratio {:.3}", port * each, rust * each, port / rust);
}
