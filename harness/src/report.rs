//! What the measuring programs share: the flags that they are given, and the tables that they print.

/// The word after a flag, if it is there.
pub fn argument(name: &str) -> Option<String> {
    std::env::args().skip_while(|a| a != name).nth(1)
}

/// A whole number, by thousands.
pub fn grouped(n: f64) -> String {
    let digits = format!("{n:.0}");
    let parts: Vec<&str> = digits.as_bytes().rchunks(3).rev().map(|part| str::from_utf8(part).unwrap()).collect();
    parts.join(",")
}

/// The first two lines of a table.
pub fn heading(columns: &[&str]) {
    println!("\n| {} |\n|{}", columns.join(" | "), "---|".repeat(columns.len()));
}
