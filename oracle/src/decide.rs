//! The decision of a graph, within a budget, and how long it takes.

use crate::listing::listing;
use crate::model::Graph;
use crate::reference::check;
use crate::reference::decode::decode;
use crate::stage::{options, stage};
use crate::Refused;
use rolldown_common::{Budget, GaveUp, Watch};
use std::panic::{self, AssertUnwindSafe};
use std::time::{Duration, Instant};

/// What a decision may take unless it is said otherwise.
pub const BUDGET: Budget = Budget { calls: 4_000_000, time: Duration::from_secs(10) };

/// What the tree shaking answers.
#[derive(Clone, Debug, PartialEq, Eq)]
pub enum Decision {
    /// The listing.
    Listed(String),
    /// The budget did not suffice.
    GaveUp,
}

/// The decision of an accepted graph, with hash maps in the order of a seed.
pub fn decide(graph: &Graph, seed: u64, budget: Budget) -> Decision {
    rustc_hash::set_seed(seed);
    let options = options(graph);
    let (mut stage, unreachable) = stage(graph, &options);
    stage.symbols.watch = Some(Box::new(Watch::new(budget)));
    let before = rustc_hash::sets_taken_apart();
    let work = AssertUnwindSafe(|| {
        stage.determine_side_effects();
        stage.recompute_analyzed_side_effects();
        stage.include_statements(&unreachable);
    });
    match panic::catch_unwind(work) {
        Ok(()) => Decision::Listed(listing(graph, &stage, rustc_hash::sets_taken_apart() - before)),
        Err(payload) => match payload.downcast::<GaveUp>() {
            Ok(_) => Decision::GaveUp,
            Err(payload) => panic::resume_unwind(payload),
        },
    }
}

/// How long a decision took, its tables built before the clock.
#[derive(Clone, Copy, Debug)]
pub struct Times {
    /// `determine_side_effects`, `recompute_analyzed_side_effects` and `include_statements`.
    pub whole: Duration,
    /// `include_statements` alone.
    pub include: Duration,
}

/// The best times of some repetitions, each on a stage of its own. None where the decision gives up.
pub fn time_decision(graph: &Graph, seed: u64, repetitions: u32) -> Option<Times> {
    if decide(graph, seed, BUDGET) == Decision::GaveUp {
        return None;
    }
    (0..repetitions.max(1))
        .map(|_| time_once(graph))
        .reduce(|best, other| Times { whole: best.whole.min(other.whole), include: best.include.min(other.include) })
}

/// The same for the numbers of a graph.
pub fn time_numbers(numbers: &[u32], seed: u64, repetitions: u32) -> Result<Option<Times>, Refused> {
    check(numbers)?;
    Ok(time_decision(&decode(numbers), seed, repetitions))
}

fn time_once(graph: &Graph) -> Times {
    let options = options(graph);
    let (mut stage, unreachable) = stage(graph, &options);
    let begin = Instant::now();
    stage.determine_side_effects();
    stage.recompute_analyzed_side_effects();
    let middle = Instant::now();
    stage.include_statements(&unreachable);
    let end = Instant::now();
    Times { whole: end - begin, include: end - middle }
}
