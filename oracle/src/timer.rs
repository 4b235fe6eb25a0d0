//! The least of many times, of calls and of decisions. Short ones are taken together, so that the clock does not count.

use crate::model::Graph;
use crate::stage::{options, stage};
use std::time::{Duration, Instant};

/// How long what is timed at once lasts at least, if not too many are taken together.
const TURN: Duration = Duration::from_micros(50);

/// The least time of a call.
#[derive(Clone, Copy, Debug)]
pub struct Least {
    time: Option<Duration>,
    /// So many calls are taken together at most.
    most: u32,
}

impl Least {
    pub fn new(most: u32) -> Least {
        Least { time: None, most: most.max(1) }
    }

    /// Times a call, or several together.
    pub fn take(&mut self, mut call: impl FnMut()) {
        let together = self.together();
        let begin = Instant::now();
        for _ in 0..together {
            call();
        }
        self.add(begin.elapsed() / together);
    }

    /// How many calls are taken together: the first alone, to know its time.
    fn together(self) -> u32 {
        let Some(time) = self.time else { return 1 };
        (TURN.as_nanos() / time.as_nanos().max(1)).clamp(1, u128::from(self.most)) as u32
    }

    fn add(&mut self, time: Duration) {
        self.time = Some(self.time.map_or(time, |least| least.min(time)));
    }

    /// The least time so far; 0 if there was none.
    pub fn time(&self) -> Duration {
        self.time.unwrap_or_default()
    }
}

/// The least times of a graph's decision by the three functions, each on tables of its own.
pub struct DecisionTimer<'a> {
    graph: &'a Graph,
    /// The tables were built before the clock.
    pub decision: Least,
    /// The tables were built as well.
    pub with_tables: Least,
}

impl<'a> DecisionTimer<'a> {
    /// A timer of a graph whose decision returns; hash maps are in the order of a seed, on this thread.
    pub fn new(graph: &'a Graph, seed: u64, most: u32) -> DecisionTimer<'a> {
        rustc_hash::set_seed(seed);
        DecisionTimer { graph, decision: Least::new(most), with_tables: Least::new(most) }
    }

    /// Decides once, or several times if it is short.
    pub fn turn(&mut self) {
        let together = self.decision.together();
        let options = options(self.graph);
        let begin = Instant::now();
        let mut stages: Vec<_> = (0..together).map(|_| stage(self.graph, &options)).collect();
        let middle = Instant::now();
        for (stage, unreachable) in &mut stages {
            stage.determine_side_effects();
            stage.recompute_analyzed_side_effects();
            stage.include_statements(unreachable);
        }
        let end = Instant::now();
        self.decision.add((end - middle) / together);
        self.with_tables.add((end - begin) / together);
    }
}
