//! Stand-in for `tracing`: `instrument` leaves its function as it is.
pub use macros::instrument;
