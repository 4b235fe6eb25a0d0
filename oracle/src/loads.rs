//! The times of a load: the Rust's decision and, if the library is built in, its operations, by turns in the same run.

use oracle::loads::Load;
use oracle::model::Graph;
use oracle::DecisionTimer;
use std::time::{Duration, Instant};

/// The columns of a load's line. Times are in microseconds, the least of many.
#[cfg(feature = "library")]
pub const TITLE: &str = concat!(
    "                                             Rust  with tables",
    "       run  share  asked     drain    judge  of run   starts",
);
#[cfg(not(feature = "library"))]
pub const TITLE: &str = "                                             Rust  with tables";

/// How loads are measured.
#[derive(Clone, Copy, Debug)]
pub struct Way {
    /// The order of the Rust's hash maps.
    pub seed: u64,
    /// So many rounds are made at least.
    pub repeat: u32,
    /// So many short calls are timed together at most.
    pub together: u32,
}

/// So many times each side is timed in a row at its turn, so that neither is charged with what the other leaves in the caches.
const IN_A_ROW: u32 = 8;

/// How long a load is measured at least.
const LEAST: Duration = Duration::from_secs(3);

/// The times of a load, in a line.
#[cfg(feature = "library")]
pub fn line(load: &Load, graph: &Graph, way: Way) -> String {
    lizdakk::with_stack(|| {
        let numbers = graph.numbers();
        let starts = ::compare::own_starts(&numbers).expect("a load is a graph");
        let mut rust = DecisionTimer::new(graph, way.seed, way.together);
        let mut library = library::Operations::new(&numbers, &starts, way.together);
        by_turns(way.repeat, || {
            in_a_row(|| rust.turn());
            library.turn();
        });
        format!("{}{}", rust_columns(load, &rust), library.columns(load.key, rust.decision.time()))
    })
}

#[cfg(not(feature = "library"))]
pub fn line(load: &Load, graph: &Graph, way: Way) -> String {
    let mut rust = DecisionTimer::new(graph, way.seed, way.together);
    by_turns(way.repeat, || in_a_row(|| rust.turn()));
    rust_columns(load, &rust)
}

/// Rounds until there were enough and they lasted long enough.
fn by_turns(least: u32, mut round: impl FnMut()) {
    let begin = Instant::now();
    let mut rounds = 0;
    while rounds < least || begin.elapsed() < LEAST {
        round();
        rounds += 1;
    }
}

fn in_a_row(mut turn: impl FnMut()) {
    for _ in 0..IN_A_ROW {
        turn();
    }
}

fn rust_columns(load: &Load, rust: &DecisionTimer) -> String {
    let [decision, with_tables] = [rust.decision, rust.with_tables].map(|least| microseconds(least.time()));
    format!("{:<39} {decision} {with_tables:>12}", load.name)
}

fn microseconds(time: Duration) -> String {
    let time = time.as_secs_f64() * 1e6;
    let digits = if time < 100.0 { 2 } else { 0 };
    format!("{time:>9.digits$}")
}

#[cfg(feature = "library")]
mod library {
    use super::{in_a_row, microseconds};
    use compare::library::judge;
    use compare::{DrainBuffers, RunBuffers, StartsBuffers};
    use oracle::Least;
    use std::hint::black_box;
    use std::time::Duration;

    /// The library's operations on a load with rows of their own, and the least time of each.
    pub struct Operations<'a> {
        numbers: &'a [u32],
        starts: &'a [u32],
        record: Vec<u32>,
        run: RunBuffers<'a>,
        drain: DrainBuffers<'a>,
        own_starts: StartsBuffers<'a>,
        times: [Least; 4],
    }

    impl<'a> Operations<'a> {
        pub fn new(numbers: &'a [u32], starts: &'a [u32], together: u32) -> Operations<'a> {
            let run = RunBuffers::for_graph(numbers).expect("a load is a graph");
            Operations {
                numbers,
                starts,
                record: run.main_record().to_vec(),
                run,
                drain: DrainBuffers::for_graph(numbers, starts).expect("a run's own starts are good"),
                own_starts: StartsBuffers::for_graph(numbers).expect("a load is a graph"),
                times: [Least::new(together); 4],
            }
        }

        /// Each operation some times in a row.
        pub fn turn(&mut self) {
            let [run, drain, judged, starts] = &mut self.times;
            in_a_row(|| run.take(|| assert_eq!(black_box(self.run.again()).number, 0)));
            in_a_row(|| drain.take(|| assert_eq!(black_box(self.drain.again()).number, 0)));
            in_a_row(|| {
                judged.take(|| assert_eq!(black_box(judge(self.numbers, self.starts, &self.record)).number, 0))
            });
            in_a_row(|| starts.take(|| assert_eq!(black_box(self.own_starts.again()).number, 0)));
        }

        /// The run beside the Rust's decision, and the other operations.
        pub fn columns(&self, key: &str, rust: Duration) -> String {
            let [run, drain, judge, starts] = self.times.each_ref().map(Least::time);
            let share = |time: Duration, of: Duration| time.as_secs_f64() / of.as_secs_f64();
            format!(
                " {} {:>6.3} {:>6} {}{} {:>7.3}{}",
                microseconds(run),
                share(run, rust),
                asked(key).map_or(String::new(), |asked| asked.to_string()),
                microseconds(drain),
                microseconds(judge),
                share(judge, run),
                microseconds(starts),
            )
        }
    }

    /// The most that a run may take of the Rust's decision.
    fn asked(key: &str) -> Option<f64> {
        let asked = [
            ("bundle1000", 0.45),
            ("bundle100", 0.4),
            ("drawn1024", 0.7),
            ("unkept1024", 0.85),
            ("rounds300", 0.5),
            ("printed", 0.5),
        ];
        asked.into_iter().find(|(load, _)| *load == key).map(|(_, share)| share)
    }
}
