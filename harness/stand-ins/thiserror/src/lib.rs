//! Stand-in for `thiserror`: an error prints as its fields.
pub use macros::Error;
