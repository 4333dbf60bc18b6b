//! Links libdelmatik.a, and with the feature `bytes` libdelmatik_bytes.a beside it: those of target/staticlib, which `.ci/archive delmatik`
//! and `.ci/archive delmatik_bytes` write, or those in the folder that DELMATIK_LIB names.
use std::env;

fn main() {
    let folder = env::var("DELMATIK_LIB").unwrap_or_else(|_| format!("{}/../../target/staticlib", env::var("CARGO_MANIFEST_DIR").unwrap()));
    println!("cargo:rustc-link-search=native={folder}");
    let bytes = env::var("CARGO_FEATURE_BYTES").is_ok().then_some("delmatik_bytes");
    for library in ["delmatik"].into_iter().chain(bytes) {
        println!("cargo:rustc-link-lib=static={library}");
        println!("cargo:rerun-if-changed={folder}/lib{library}.a");
    }
    println!("cargo:rerun-if-env-changed=DELMATIK_LIB");
}
