//! Stand-in for the crate's `indexed`: a name that its traits use.

pub enum TraceWindow {
    Main,
    Preprocessed,
}
