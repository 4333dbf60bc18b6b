//! Finds the source of p3-lookup 0.8.0, by P3_LOOKUP_SRC alone, and writes one `mod` line for each of its files, which are compiled where
//! they stand.
use std::env;
use std::fs;
use std::path::Path;

const FILES: [&str; 8] = ["builder", "challenges", "count", "debug_util", "logup", "protocol", "traits", "types"];

fn main() {
    println!("cargo:rustc-check-cfg=cfg(source)");
    println!("cargo:rerun-if-env-changed=P3_LOOKUP_SRC");
    let Ok(source) = env::var("P3_LOOKUP_SRC") else {
        println!("cargo:warning=P3_LOOKUP_SRC is not set: building without the source of p3-lookup");
        println!("cargo:present=no");
        return;
    };
    println!("cargo:rerun-if-changed={source}");
    // A lint of the crate's source is a matter of its authors.
    let line = |name: &str| {
        let file = Path::new(&source).join(format!("{name}.rs"));
        let file = fs::canonicalize(&file).unwrap_or_else(|e| panic!("P3_LOOKUP_SRC: {}: {e}", file.display()));
        format!("#[path = {file:?}]\n#[allow(clippy::all)]\npub mod {name};\n")
    };
    let modules: String = FILES.into_iter().map(line).collect();
    fs::write(Path::new(&env::var("OUT_DIR").unwrap()).join("modules.rs"), modules).unwrap();
    println!("cargo:rustc-cfg=source");
    println!("cargo:present=yes");
}
