//! Draws the ratios of generation from docs/BENCHMARKS.md: a panel for each table of the chapter Generation that has a heading of its own
//! and the columns that `bench` prints, two panels beside each other.
//!
//!     cargo run --release --offline --bin chart < ../docs/BENCHMARKS.md > ../docs/benchmarks.svg

/// What the port is compared with, in the order of the tables' columns: a colour, a name and what it means.
const SIDES: [(&str, &str, &str); 3] = [
    ("#2b6cb0", "tuned Rust", "written by hand for speed; it tests nothing, and inverts by a running product of the denominators"),
    ("#8fc1ee", "tuned Rust by norms", "the same, but it inverts by a running product of their norms, one word each, as the port does"),
    ("#dd9b3d", "p3-lookup 0.8.0", "the crate's own source over the harness's stand-ins; it evaluates expressions as trees"),
];
/// Where the first panel begins, where the next begins from there, how many stand beside each other, and how long a ratio of 1 is.
const LEFT: f64 = 190.0;
const PANEL: f64 = 380.0;
const BESIDE: usize = 2;
const ONE: f64 = 130.0;
/// The axis ends here.
const MOST: f64 = 2.5;
/// Where the bars begin, the height of the three of a table, and what lies between the bars of panels one above the other.
const TOP: f64 = 150.0;
const STEP: f64 = 60.0;
const BETWEEN: f64 = 100.0;

/// A table's heading, and the name and the ratios of each line.
type Panel<'a> = (&'a str, Vec<(&'a str, [f64; 3])>);

/// A line as `bench` prints it: name, port, and three times the other's cost and the ratio.
fn ratios(line: &str) -> Option<(&str, [f64; 3])> {
    let cells: Vec<&str> = line.trim_matches('|').split('|').map(str::trim).collect();
    let ratio = |i: usize| cells.get(i).and_then(|cell| cell.parse().ok());
    Some((cells[0], [ratio(3)?, ratio(5)?, ratio(7)?]))
}

fn panels(document: &str) -> Vec<Panel<'_>> {
    let chapter = document.split("\n## ").find(|c| c.starts_with("Generation")).expect("a chapter Generation");
    let parts = chapter.split("\n### ").skip(1).map(|part| {
        let (heading, rest) = part.split_once('\n').unwrap();
        (heading, rest.lines().filter_map(ratios).collect::<Vec<_>>())
    });
    parts.filter(|(_, lines)| !lines.is_empty()).collect()
}

/// The attributes follow the place.
fn text(x: f64, y: f64, attributes: &str, text: &str) {
    println!(r#"<text x="{x}" y="{y}"{attributes}>{text}</text>"#);
}

fn bar(x: f64, y: f64, width: f64, height: f64, fill: &str) {
    println!(r#"<rect x="{x}" y="{y}" width="{width:.1}" height="{height}" fill="{fill}"/>"#);
}

fn line(x: f64, top: f64, bottom: f64, attributes: &str) {
    println!(r#"<line x1="{x}" y1="{}" x2="{x}" y2="{bottom}"{attributes}/>"#, top - 6.0);
}

const MIDDLE: &str = r#" text-anchor="middle""#;

fn draw(panels: &[Panel]) {
    let rows: Vec<&[Panel]> = panels.chunks(BESIDE).collect();
    let bars = |row: &[Panel]| STEP * row[0].1.len() as f64;
    let bottom = TOP + rows.iter().map(|row| bars(row)).sum::<f64>() + BETWEEN * (rows.len() - 1) as f64;
    let (width, height) = (LEFT + PANEL * rows[0].len() as f64, bottom + 66.0);
    println!(r#"<svg xmlns="http://www.w3.org/2000/svg" width="{width}" height="{height}" font-family="sans-serif" font-size="12">"#);
    bar(0.0, 0.0, width, height, "white");
    let title = "Generation, cost of a row: the port ÷ the other. Left of the line at 1 the port costs less.";
    text(16.0, 24.0, r#" font-size="15" font-weight="bold""#, title);
    for (i, (fill, name, meaning)) in SIDES.into_iter().enumerate() {
        let y = 40.0 + 19.0 * i as f64;
        bar(16.0, y, 12.0, 12.0, fill);
        text(36.0, y + 10.0, "", &format!(r#"<tspan font-weight="bold">{name}</tspan>: {meaning}"#));
    }
    let mut top = TOP;
    for row in rows {
        draw_row(row, top, top + bars(row));
        top += bars(row) + BETWEEN;
    }
    let names = "A table is named by its lookups, the tuples of each with their width, and the nodes of its expressions.";
    text(16.0, height - 12.0, "", names);
    println!("</svg>");
}

/// The panels of one row, which have the same tables, with bars from `top` to `bottom`.
fn draw_row(panels: &[Panel], top: f64, bottom: f64) {
    for (k, (name, _)) in panels[0].1.iter().enumerate() {
        // Two lines of text: the tuples and nodes of a table are the second.
        let cut = name.rmatch_indices(", ").nth(1).map_or(0, |(at, _)| at + 1);
        let y = top + STEP * k as f64;
        text(16.0, y + 17.0, "", &name[..cut]);
        text(16.0, y + 33.0, "", name[cut..].trim_start());
    }
    for (p, (heading, lines)) in panels.iter().enumerate() {
        let left = LEFT + PANEL * p as f64;
        text(left, top - 30.0, r#" font-size="13" font-weight="bold""#, heading);
        text(left + ONE, top - 11.0, MIDDLE, "1: the same cost");
        for half in 0..=(2.0 * MOST) as usize {
            let x = left + ONE * half as f64 / 2.0;
            line(x, top, bottom, r##" stroke="#dddddd""##);
            text(x, bottom + 16.0, MIDDLE, &format!("{}", half as f64 / 2.0));
        }
        text(left, bottom + 34.0, "", "ratio, port ÷ other");
        let bars = || lines.iter().enumerate().flat_map(|(k, (_, r))| (0..3).map(move |i| (k, i, r[i])));
        let place = |k: usize, i: usize| top + STEP * k as f64 + 16.0 * i as f64;
        for (k, i, ratio) in bars() {
            assert!(ratio < MOST, "{ratio} is beyond the axis");
            bar(left, place(k, i), ratio * ONE, 13.0, SIDES[i].0);
        }
        line(left + ONE, top, bottom, r#" stroke="black" stroke-dasharray="4 3""#);
        // The numbers stand on white, so that no line goes through them.
        for (k, i, ratio) in bars() {
            let x = left + ratio * ONE + 2.0;
            bar(x, place(k, i), 30.0, 13.0, "white");
            text((x + 3.0).round(), place(k, i) + 11.0, "", &format!("{ratio:.2}"));
        }
    }
}

fn main() {
    let document = std::io::read_to_string(std::io::stdin()).expect("the document");
    draw(&panels(&document));
}
