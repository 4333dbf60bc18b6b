//! The oracle runs and the benchmarks: the port's exported functions, the crate's own source, and a plain model of the specification.
pub mod clock;
pub mod compare;
pub mod exports;
pub mod generator;
pub mod lent;
pub mod model;
#[cfg(source)]
pub mod oracle;
pub mod plain;
pub mod port;
pub mod report;
pub mod shrink;
pub mod table;
pub mod tuned;
pub mod wrapper;
