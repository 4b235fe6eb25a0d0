//! The tree shaking of rolldown 1.2.16, compiled unchanged, to compare the keep decision with.

pub mod answers;
mod circles;
pub mod compare;
mod decide;
pub mod graphs;
mod listing;
mod shrink;
pub mod sides;
mod stage;
mod timer;

pub use circles::has_circle;
pub use decide::{decide, time_decision, time_numbers, Decision, Times, BUDGET};
pub use peer::{generate, happenings, loads, model, reference, Refused};
pub use rolldown_common::Budget;
pub use timer::{DecisionTimer, Least};
