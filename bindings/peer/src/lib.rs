//! The keep decision a second time, in plain Rust, to compare the engine with; and graphs to compare them on.
//!
//! [`mod@reference`] has the operations of the engine: read, check, effects, drain, run, judge and starts. The crate shares
//! no code with the engine and does not link it. [`model`] has a graph as structs and writes its numbers. [`generate`]
//! makes random graphs, starts and records, and damages them; [`loads`] makes the graphs that are measured. [`listing`]
//! is the text of a run, as the program `keep` prints it. [`happenings`] names what happens in a run, so that tests can
//! count it.

mod answers;
pub mod generate;
pub mod happenings;
pub mod listing;
pub mod loads;
pub mod model;
pub mod reference;

pub use answers::{DrainAnswer, ReadAnswer, Refusal, Refused, Rows, RunAnswer, RunRows};
