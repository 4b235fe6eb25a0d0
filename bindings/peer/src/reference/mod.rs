//! An independent implementation of the operations in plain Rust. The tests compare the library with it, and the
//! benchmark measures one against the other.

pub mod closure;
pub mod decode;
pub mod drain;
pub mod dynamic_entries;
pub mod effects;
pub mod entries;
mod follows;
pub mod graph;
pub mod helpers;
pub mod judge;
pub mod judge_by_rules;
pub mod leb128;
pub mod rows;
pub mod rules;
pub mod run;
pub mod run_by_sets;
mod seen;
pub mod settled;
pub mod starts;

pub use drain::drain;
pub use effects::effects;
pub use graph::check;
pub use judge::judge;
pub use leb128::read;
pub use run::run;
pub use starts::starts;
