//! The source of p3-lookup 0.8.0, compiled unchanged from outside the repository. Two modules that its files name, but that are not among
//! them, are stand-ins. Without the source this crate is empty.
extern crate alloc;

#[cfg(source)]
pub mod indexed;
#[cfg(source)]
pub mod symbolic;

#[cfg(source)]
include!(concat!(env!("OUT_DIR"), "/modules.rs"));
