//! Compares the model of the specification with the crate's own source, and with the port where it is linked, on random, damaged and
//! boundary tables in both fields and profiles and by both rules. Prints what was run; exits with 1 at the first disagreement, made small, and with 2 where there is nothing
//! to compare.
//!
//!     cargo run --release --offline --bin oracle -- --tables 100000 --seed 1
use std::process::ExitCode;
use std::time::Instant;

use harness::compare::{Compared, Disagreement, Tally, check};
use harness::generator::{self, Case};
use harness::plain::Random;
use harness::port::Port;
use harness::shrink::shrink;

fn argument(name: &str, otherwise: u64) -> u64 {
    let arguments: Vec<String> = std::env::args().collect();
    let place = arguments.iter().position(|a| a == name);
    place.map_or(otherwise, |i| arguments.get(i + 1).and_then(|n| n.parse().ok()).unwrap_or_else(|| panic!("{name} takes a number")))
}

#[cfg(feature = "port")]
const PORT: Option<Port> = Some(harness::port::EXPORTED);

#[cfg(not(feature = "port"))]
const PORT: Option<Port> = None;

fn main() -> ExitCode {
    let (tables, seed) = (argument("--tables", 100_000), argument("--seed", 1));
    let with_or_without = |there: bool| if there { "with" } else { "without" };
    println!("{} the crate's source, {} the port", with_or_without(cfg!(source)), with_or_without(PORT.is_some()));
    if !cfg!(source) && PORT.is_none() {
        println!("nothing to compare: set P3_LOOKUP_SRC to the source of p3-lookup 0.8.0, or build with --features port");
        return ExitCode::from(2);
    }

    let start = Instant::now();
    let mut tally = Tally::default();
    let boundaries = generator::boundaries();
    for (name, case) in &boundaries {
        if let Err(found) = check(case, PORT, &mut tally) {
            return report(name, case, &found);
        }
    }
    let mut random = Random(seed.wrapping_mul(0x9E3779B97F4A7C15) | 1);
    for i in 0..tables {
        let mut case = generator::case(&mut random);
        let damaged = i % 3 == 2;
        if damaged {
            generator::damage(&mut random, &mut case);
        }
        if let Err(found) = check(&case, PORT, &mut tally) {
            return report(&format!("table {i} of seed {seed}"), &case, &found);
        }
    }
    println!("{tables} random cases (a third of them damaged) of seed {seed} and {} at the limits, no disagreement", boundaries.len());
    print_counts(&tally);
    println!("{:.1} s", start.elapsed().as_secs_f64());
    ExitCode::SUCCESS
}

fn print_counts(tally: &Tally) {
    for (field, count) in &tally.fields {
        println!("{count} tables in field {}", field.number());
    }
    for (profile, count) in &tally.profiles {
        println!("{count} tables in profile {}", profile.number());
    }
    println!("{} tables with nodes at offset 2 or 3", tally.far);
    println!("{} tables with a local over 2^32 - 1", tally.heavy);
    for (rule, count) in &tally.rules {
        println!("{count} cases by rule {}", rule.number());
    }
    println!("{} cases with an unknown field, profile or rule", tally.unknown);
    println!(
        "function, number: the same / but for held weights / another of several faults first / the crate has no such limit / not for the crate"
    );
    let mut numbers: Vec<(&str, u32)> = tally.counts.keys().map(|(function, number, _)| (*function, *number)).collect();
    numbers.dedup();
    for (function, number) in numbers {
        let count = |compared| tally.counts.get(&(function, number, compared)).copied().unwrap_or(0);
        let [same, held, choice, limit, untaken] =
            [Compared::Same, Compared::Held, Compared::Choice, Compared::Limit, Compared::Untaken].map(count);
        println!("{function}, {number}: {same} / {held} / {choice} / {limit} / {untaken}");
    }
    for (function, count) in &tally.ported {
        let repeated = tally.repeated.get(function).unwrap_or(&0);
        println!("{function}: {count} with the port, {repeated} of them of the gateway and again in the cabinet");
    }
    for (function, count) in &tally.reversed {
        println!("{function}: {count} by rule 2 and again by rule 1 with each tuple reversed");
    }
    if PORT.is_some() {
        println!("{} calls of the gateway again in the cabinet, the same", tally.repeated.values().sum::<u64>());
        println!("{} calls by rule 2 again by rule 1 with each tuple reversed, the same", tally.reversed.values().sum::<u64>());
    }
}

fn report(name: &str, case: &Case, found: &Disagreement) -> ExitCode {
    println!("{name}: {} disagrees", found.function);
    let failing = |case: &Case| check(case, PORT, &mut Tally::default()).err().filter(|other| other.function == found.function);
    let small = shrink(case, &|case| failing(case).is_some());
    println!("{}", failing(&small).unwrap_or_else(|| Disagreement { function: found.function, text: found.text.clone() }).text);
    print!("{small}");
    ExitCode::FAILURE
}
