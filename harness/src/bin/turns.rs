//! Runs two builds of `bench` in pairs, now the one first and now the other: what a change costs, where single runs differ by more. Each build
//! has its own library and its own wrapper, so that the exported functions may differ.
//!
//!     turns BENCH_BEFORE BENCH_NOW PAIRS --only constraints --rounds 5 --now --rule 2
//!
//! After PAIRS come the arguments of both, and after `--now` those of the second build alone: a rule that the first does not know.
//! Prints for each line the medians of the port's cost by each build, the median of the pairs' ratios, the lowest costs and their ratio, and
//! the median of the ratios to the first table of the same run. The tables of the second build stand each beside the first build's of the
//! same number, or its last.
use std::process::Command;

/// A table that `bench` prints: its heading, and the name and the port's cost of each line.
struct Costs {
    heading: String,
    lines: Vec<(String, f64)>,
}

fn cells(line: &str) -> Vec<&str> {
    line.trim_matches('|').split('|').map(str::trim).collect()
}

/// What a build prints. A line of dashes follows each heading.
fn run(bench: &str, arguments: &[String]) -> Vec<Costs> {
    let output = Command::new(bench).args(arguments).output().unwrap_or_else(|e| panic!("{bench}: {e}"));
    assert!(output.status.success(), "{bench}: {}", String::from_utf8_lossy(&output.stderr));
    let printed = String::from_utf8(output.stdout).unwrap();
    let mut tables: Vec<Costs> = vec![];
    for line in printed.lines().filter(|line| line.starts_with('|')) {
        let cells = cells(line);
        match cells[1].trim_end_matches(" ns").replace(',', "").parse() {
            Ok(cost) => tables.last_mut().expect("a heading").lines.push((cells[0].to_string(), cost)),
            Err(_) if cells[0].starts_with("---") => {}
            Err(_) => tables.push(Costs { heading: cells[0].to_string(), lines: vec![] }),
        }
    }
    tables
}

/// A line's cost in a run, by the line's table and number.
fn cost(run: &[Costs], table: usize, line: usize) -> f64 {
    run[table.min(run.len() - 1)].lines[line].1
}

fn sorted(costs: impl Iterator<Item = f64>) -> Vec<f64> {
    let mut costs: Vec<f64> = costs.collect();
    costs.sort_by(f64::total_cmp);
    costs
}

fn median(costs: impl Iterator<Item = f64>) -> f64 {
    let costs = sorted(costs);
    costs[costs.len() / 2]
}

fn main() {
    let arguments: Vec<String> = std::env::args().skip(1).collect();
    let [before, now, pairs, ..] = arguments.as_slice() else {
        panic!("turns BENCH_BEFORE BENCH_NOW PAIRS, the arguments of both, and after --now those of the second");
    };
    let pairs: usize = pairs.parse().expect("PAIRS is a number");
    let parts: Vec<&[String]> = arguments[3..].splitn(2, |argument| argument == "--now").collect();
    let (for_before, for_now) = (parts[0], parts.concat());
    let pair = |i: usize| {
        if i.is_multiple_of(2) {
            let old = run(before, for_before);
            (old, run(now, &for_now))
        } else {
            let new = run(now, &for_now);
            (run(before, for_before), new)
        }
    };
    println!("before: {before} {}\nnow: {now} {}", for_before.join(" "), for_now.join(" "));
    let runs: Vec<(Vec<Costs>, Vec<Costs>)> = (0..pairs).map(pair).collect();
    for (t, table) in runs[0].1.iter().enumerate() {
        println!("\n| {} | before | now | of pairs | lowest before | lowest now | ratio | to table 1 |", table.heading);
        println!("|{}", "---|".repeat(8));
        for (l, (name, _)) in table.lines.iter().enumerate() {
            let old = || runs.iter().map(|(old, _)| cost(old, t, l));
            let new = || runs.iter().map(|(_, new)| cost(new, t, l));
            let (low_old, low_new) = (sorted(old())[0], sorted(new())[0]);
            let of_pairs = median(old().zip(new()).map(|(old, new)| new / old));
            let to_first = median(runs.iter().map(|(_, new)| cost(new, t, l) / cost(new, 0, l)));
            println!(
                "| {name} | {:.1} | {:.1} | {of_pairs:.3} | {low_old:.1} | {low_new:.1} | {:.3} | {to_first:.3} |",
                median(old()),
                median(new()),
                low_new / low_old
            );
        }
    }
}
