//! Passes on whether the source of p3-lookup is there.
use std::env;

fn main() {
    println!("cargo:rustc-check-cfg=cfg(source)");
    if env::var("DEP_P3_LOOKUP_SOURCE_PRESENT").as_deref() == Ok("yes") {
        println!("cargo:rustc-cfg=source");
    }
}
