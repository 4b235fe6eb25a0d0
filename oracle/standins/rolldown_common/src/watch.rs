//! What ends a decision that would take too long: it counts how often a symbol is resolved, which each handled use does.

use std::cell::Cell;
use std::panic;
use std::time::{Duration, Instant};

/// How much a decision may take. Memory is bounded by the calls: a use leaves at most one waiting behind it.
#[derive(Clone, Copy, Debug)]
pub struct Budget {
    pub calls: u64,
    pub time: Duration,
}

/// What a decision unwinds with when its budget is used up.
#[derive(Clone, Copy, Debug)]
pub struct GaveUp;

#[derive(Debug)]
pub struct Watch {
    budget: Budget,
    end: Instant,
    calls: Cell<u64>,
}

impl Watch {
    pub fn new(budget: Budget) -> Watch {
        Watch { budget, end: Instant::now() + budget.time, calls: Cell::new(0) }
    }

    /// Counts that a symbol was resolved.
    pub fn note(&self) {
        let calls = self.calls.get() + 1;
        self.calls.set(calls);
        if calls > self.budget.calls || calls % 1024 == 0 && Instant::now() > self.end {
            panic::resume_unwind(Box::new(GaveUp));
        }
    }
}
