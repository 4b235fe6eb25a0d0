//! The library against the reference: the same input, in the same run, by turns, best of several rounds.

use compare::library;
use lizdakk::with_stack;
use peer::generate::{self, Random, PRINTED};
use peer::loads;
use peer::model::{Graph, Module, Statement, Symbol};
use peer::reference::drain::LINE;
use peer::reference::rows::Answer;
use peer::reference::rules::{Fact, Rules};
use peer::reference::{self, leb128};
use peer::{DrainAnswer, Refusal, Rows};
use std::hint::black_box;
use std::time::{Duration, Instant};

const ROUNDS: usize = 200;
/// After how long no further round begins, once there were three.
const LONGEST: Duration = Duration::from_secs(5);
/// How long one turn of a round lasts at least.
const TURN: Duration = Duration::from_millis(1);

fn main() {
    with_stack(|| {
        let graph = loads::bundle(1_000);
        let bundle = graph.numbers();
        println!(
            "{:<44} {:>8} {:>12} {:>12} {:>7} {:>7} {:>6}",
            "", "of", "library ns", "reference ns", "each", "each", "ratio"
        );
        bench_check("check, bundle of 1,000 modules", &bundle);
        bench_check("check, printed case", &PRINTED);
        bench_check("check, 16,384 exports and CommonJS namespaces", &repeats(1).numbers());
        bench_check("the same, export names equal modulo 1,024", &repeats(1_024).numbers());
        bench_read("read, file of the bundle", &bundle);
        let statements = every_statement(&graph);
        bench_drain("drain, all statements of the bundle, by lines", &bundle, &statements);
        bench_decoded("the same, reference with a decoded graph", &graph, &statements);
        bench_drain("drain, printed case from its entry, by lines", &PRINTED, &[1, 1, 0]);
        runs::bench_runs();
        judgements::bench_judgements(&bundle);
    });
}

fn bench_check(name: &str, numbers: &[u32]) {
    let expected = Refusal::from(reference::check(numbers));
    assert_eq!(expected, Refusal::PASSED, "{name}");
    assert_eq!(library::check(numbers), expected, "{name}");
    compare(name, numbers.len(), || library::check(black_box(numbers)), || reference::check(black_box(numbers)));
}

fn bench_read(name: &str, numbers: &[u32]) {
    let file = leb128::file_of(numbers);
    let (mut row, mut expected_row) = (vec![0; numbers.len()], vec![0; numbers.len()]);
    assert_eq!(library::read(&file, &mut row), reference::read(&file, &mut expected_row), "{name}");
    assert_eq!((&row[..], &expected_row[..]), (numbers, numbers), "{name}");
    compare(
        name,
        numbers.len(),
        || library::read(black_box(&file), black_box(&mut row)),
        || reference::read(black_box(&file), black_box(&mut expected_row)),
    );
}

/// A drain; its time is given for each line.
fn bench_drain(name: &str, numbers: &[u32], starts: &[u32]) {
    let answer = reference::drain::answer(numbers, starts).expect("good starts of a good graph");
    let (mut row, mut expected_row) = (DrainRows::new(&answer), DrainRows::new(&answer));
    let library = library::drain(numbers, starts, &mut row.lend());
    let expected = reference::drain(numbers, starts, &mut expected_row.lend());
    assert_eq!(library, expected, "{name}");
    assert_eq!(row, expected_row, "{name}");
    compare(
        name,
        answer.lines.len(),
        || library::drain(black_box(numbers), black_box(starts), &mut row.lend()),
        || reference::drain(black_box(numbers), black_box(starts), &mut expected_row.lend()),
    );
}

/// A drain against the reference's without its check and decoding.
fn bench_decoded(name: &str, graph: &Graph, starts: &[u32]) {
    let numbers = graph.numbers();
    let answer = reference::drain::answer(&numbers, starts).expect("good starts of a good graph");
    let (mut row, mut expected_row) = (DrainRows::new(&answer), DrainRows::new(&answer));
    let facts: Vec<Fact> = starts.chunks_exact(3).map(|start| Fact::of([start[0], start[1], start[2]])).collect();
    compare(
        name,
        answer.lines.len(),
        || library::drain(black_box(&numbers), black_box(starts), &mut row.lend()),
        || drain_decoded(black_box(graph), black_box(&facts), &mut expected_row.lend()),
    );
}

/// The drain of a graph that needs no check and no decoding.
fn drain_decoded(graph: &Graph, starts: &[Fact], rows: &mut Rows) -> DrainAnswer {
    let rules = Rules::new(graph);
    let lines = reference::drain::lines(&rules, starts);
    Answer::new(&rules, lines).put(rows)
}

/// The statements of every normal module, as starts.
fn every_statement(graph: &Graph) -> Vec<u32> {
    let mut starts = Vec::new();
    for (index, module) in (0..).zip(&graph.modules) {
        starts.extend((0..module.statements.len() as u32).flat_map(|number| [2, index, number]));
    }
    starts
}

/// Rows to lend to a drain, each exactly long enough.
#[derive(PartialEq, Debug)]
struct DrainRows {
    record: Vec<u32>,
    bytes: [Vec<u8>; 7],
}

impl DrainRows {
    fn new(answer: &Answer) -> DrainRows {
        let Answer { lines, marks, modules, statements, used, external, json, reason } = answer;
        let bytes = [marks, modules, statements, used, external, json, reason].map(|row| vec![0; row.len()]);
        DrainRows { record: vec![0; LINE * lines.len()], bytes }
    }

    fn lend(&mut self) -> Rows<'_> {
        let [marks, modules, statements, used, external, json, reason] = self.bytes.each_mut().map(Vec::as_mut_slice);
        Rows { marks, record: &mut self.record, modules, statements, used, external, json, reason }
    }
}

/// Runs; their time is given for each record line of both stages.
mod runs {
    use super::compare;
    use compare::library;
    use peer::loads::all_loads;
    use peer::model::Graph;
    use peer::reference::drain::LINE;
    use peer::reference::run::{self, Run};
    use peer::{reference, RunRows};
    use std::hint::black_box;

    pub fn bench_runs() {
        for load in all_loads() {
            let graph = load.graph();
            let numbers = graph.numbers();
            bench_run(&format!("run, {}", load.name), &numbers);
            bench_decoded("the same, reference with a decoded graph", &numbers, &graph);
        }
    }

    fn bench_run(name: &str, numbers: &[u32]) {
        let run = run::answer(numbers).expect("a good graph");
        let (mut row, mut expected_row) = (RowsOfRun::new(&run), RowsOfRun::new(&run));
        let library = library::run(numbers, &mut row.lend());
        let expected = reference::run(numbers, &mut expected_row.lend());
        assert_eq!(library, expected, "{name}");
        assert_eq!(row, expected_row, "{name}");
        compare(
            name,
            run.lines.len() + run.runtime_lines.len(),
            || library::run(black_box(numbers), &mut row.lend()),
            || reference::run(black_box(numbers), &mut expected_row.lend()),
        );
    }

    /// A run against the reference's without its check and decoding.
    fn bench_decoded(name: &str, numbers: &[u32], graph: &Graph) {
        let run = Run::of(graph);
        let (mut row, mut expected_row) = (RowsOfRun::new(&run), RowsOfRun::new(&run));
        compare(
            name,
            run.lines.len() + run.runtime_lines.len(),
            || library::run(black_box(numbers), &mut row.lend()),
            || Run::of(black_box(graph)).put(&mut expected_row.lend()),
        );
    }

    /// Rows to lend to a run, each exactly long enough.
    #[derive(PartialEq, Debug)]
    struct RowsOfRun {
        bytes: [Vec<u8>; 8],
        words: [Vec<u32>; 3],
    }

    impl RowsOfRun {
        fn new(run: &Run) -> RowsOfRun {
            let Run { marks, modules, statements, used, external, json, reason, dead, .. } = run;
            let bytes = [marks, modules, statements, used, external, json, reason, dead];
            let lines = run.lines.len() + run.runtime_lines.len();
            let words = [LINE * lines, run.helpers.len(), run.all_entries];
            RowsOfRun { bytes: bytes.map(|row| vec![0; row.len()]), words: words.map(|length| vec![0; length]) }
        }

        fn lend(&mut self) -> RunRows<'_> {
            let [marks, modules, statements, used, external, json, reason, dead] =
                self.bytes.each_mut().map(Vec::as_mut_slice);
            let [record, helpers, entries] = self.words.each_mut().map(Vec::as_mut_slice);
            RunRows { marks, record, modules, statements, used, external, json, reason, dead, helpers, entries }
        }
    }
}

/// Judgements of a run's main lines, and the run's own starts; their time is given for each line.
mod judgements {
    use super::{best_of_both, compare};
    use compare::{library, own_starts, RunBuffers};
    use peer::generate::PRINTED;
    use peer::loads::LOADS;
    use peer::reference::judge_by_rules::judge_by_rules;
    use peer::reference::starts::{self, Starts};
    use peer::{reference, Refusal};
    use std::hint::black_box;

    pub fn bench_judgements(bundle: &[u32]) {
        bench_judge("judge, main lines of 1,000 modules", bundle);
        bench_judge("judge, main lines of the printed case", &PRINTED);
        bench_starts("starts, of the run of 1,000 modules", bundle);
        bench_starts("starts, of the run of the printed case", &PRINTED);
        println!("{:<44} {:>8} {:>12} {:>12} {:>7}", "", "lines", "judge ns", "run ns", "share");
        bench_share("judge beside the run, 1,000 modules", bundle);
        bench_share("judge beside the run, printed case", &PRINTED);
        println!("{:<44} {:>8} {:>12} {:>12} {:>7}", "starts beside the run", "lines", "starts ns", "run ns", "share");
        for load in &LOADS {
            bench_starts_share(load.name, &load.graph().numbers());
        }
    }

    fn bench_judge(name: &str, numbers: &[u32]) {
        let (starts, record) = judged(numbers);
        assert_eq!(judge_by_rules(numbers, &starts, &record), Ok(()), "{name}");
        compare(
            name,
            record.len() / 6,
            || library::judge(black_box(numbers), black_box(&starts), black_box(&record)),
            || judge_by_rules(black_box(numbers), black_box(&starts), black_box(&record)),
        );
    }

    /// The starts and the main lines of a graph's run, which the library's judge passes.
    fn judged(numbers: &[u32]) -> (Vec<u32>, Vec<u32>) {
        let run = RunBuffers::for_graph(numbers).expect("a good graph");
        let (starts, record) = (own_starts(numbers).expect("a good graph"), run.main_record().to_vec());
        assert_eq!(library::judge(numbers, &starts, &record), Refusal::PASSED);
        (starts, record)
    }

    /// The library's judge beside the library's run whose main lines it judges.
    fn bench_share(name: &str, numbers: &[u32]) {
        let (starts, record) = judged(numbers);
        let mut run = RunBuffers::for_graph(numbers).expect("a good graph");
        run.again();
        let judge = || library::judge(black_box(numbers), black_box(&starts), black_box(&record));
        let (judge, run) = best_of_both(judge, || run.again());
        println!("{name:<44} {:>8} {judge:>12.0} {run:>12.0} {:>6.0}%", record.len() / 6, 100.0 * judge / run);
    }

    fn bench_starts(name: &str, numbers: &[u32]) {
        let starts = starts::answer(numbers).expect("a good graph");
        let (mut row, mut expected_row) = (RowsOfStarts::new(&starts), RowsOfStarts::new(&starts));
        assert_eq!(row.library(numbers), expected_row.reference(numbers), "{name}");
        assert_eq!(row, expected_row, "{name}");
        let lines = starts.lines.len();
        compare(name, lines, || row.library(black_box(numbers)), || expected_row.reference(black_box(numbers)));
    }

    /// The library's starts beside the library's run that has them.
    fn bench_starts_share(name: &str, numbers: &[u32]) {
        let starts = starts::answer(numbers).expect("a good graph");
        let mut row = RowsOfStarts::new(&starts);
        assert_eq!(row.library(numbers).number, 0, "{name}");
        let mut run = RunBuffers::for_graph(numbers).expect("a good graph");
        run.again();
        let (starts_time, run) = best_of_both(|| row.library(black_box(numbers)), || run.again());
        let lines = starts.lines.len();
        println!("{name:<44} {lines:>8} {starts_time:>12.0} {run:>12.0} {:>7.2}", starts_time / run);
    }

    /// Rows to lend to a run's own starts, each exactly long enough.
    #[derive(PartialEq, Debug)]
    struct RowsOfStarts {
        marks: Vec<u8>,
        record: Vec<u32>,
        starts: Vec<u32>,
    }

    impl RowsOfStarts {
        fn new(starts: &Starts) -> RowsOfStarts {
            let lengths = [starts.record().len(), starts.triples().len()];
            let [record, triples] = lengths.map(|length| vec![0; length]);
            RowsOfStarts { marks: vec![0; starts.marks.len()], record, starts: triples }
        }

        fn library(&mut self, numbers: &[u32]) -> peer::ReadAnswer {
            library::starts(numbers, &mut self.marks, &mut self.record, &mut self.starts)
        }

        fn reference(&mut self, numbers: &[u32]) -> peer::ReadAnswer {
            reference::starts(numbers, &mut self.marks, &mut self.record, &mut self.starts)
        }
    }
}

/// Measures both by turns and prints the best of each, in all and for each of so many numbers or lines.
fn compare<L, R>(name: &str, count: usize, library: impl FnMut() -> L, reference: impl FnMut() -> R) {
    let (best_library, best_reference) = best_of_both(library, reference);
    println!(
        "{name:<44} {count:>8} {best_library:>12.0} {best_reference:>12.0} {:>7.2} {:>7.2} {:>6.2}",
        best_library / count as f64,
        best_reference / count as f64,
        best_library / best_reference
    );
}

/// Measures both by turns: the best time of each, in nanoseconds.
fn best_of_both<F, S>(mut first: impl FnMut() -> F, mut second: impl FnMut() -> S) -> (f64, f64) {
    let times = repetitions(&mut first).max(repetitions(&mut second));
    let (mut best_first, mut best_second) = (f64::MAX, f64::MAX);
    let begin = Instant::now();
    for round in 0..ROUNDS {
        if round >= 3 && begin.elapsed() > LONGEST {
            break;
        }
        best_first = best_first.min(nanoseconds(times, &mut first));
        best_second = best_second.min(nanoseconds(times, &mut second));
    }
    (best_first, best_second)
}

/// How often to run so that a turn is long enough to be measured.
fn repetitions<T>(run: &mut impl FnMut() -> T) -> u32 {
    let mut times = 1;
    while nanoseconds(times, run) * f64::from(times) < TURN.as_nanos() as f64 {
        times *= 2;
    }
    times
}

/// The time of one run, on average over so many.
fn nanoseconds<T>(times: u32, run: &mut impl FnMut() -> T) -> f64 {
    let start = Instant::now();
    for _ in 0..times {
        black_box(run());
    }
    start.elapsed().as_nanos() as f64 / f64::from(times)
}

/// One module with the longest lists in which repeats are looked for; the export names are multiples of `step`.
fn repeats(step: u32) -> Graph {
    let mut random = Random::new(2);
    let count = 16_384;
    let mut exports: Vec<u32> = (0..count).collect();
    let mut namespaces = exports.clone();
    generate::shuffle(&mut random, &mut exports);
    generate::shuffle(&mut random, &mut namespaces);
    let module = Module {
        normal: true,
        namespace: 1,
        resolved_exports: exports.into_iter().map(|symbol| [symbol * step, symbol, 0]).collect(),
        commonjs_namespaces: namespaces.into_iter().map(|symbol| [symbol, 0]).collect(),
        statements: vec![Statement::default()],
        ..Module::default()
    };
    let symbols = (0..count).map(|root| Symbol { root, ..Symbol::default() }).collect();
    Graph { modules: vec![module], symbols, ..Graph::default() }
}
