//! The linked library's run against the reference, on many graphs.
//!
//! KEEP_CASES is how many runs there are at least (100,000 if it is not set; some tests take a part of it), KEEP_SEED
//! the first seed. To see one failing seed again: `KEEP_SEED=seed KEEP_CASES=1`.

mod seeds;

use compare::{library, RunBuffers};
use lizdakk::with_stack;
use peer::generate::counted::{at_edges, graph_of};
use peer::generate::late::late_graph;
use peer::generate::runs::{import_graph, run_graph, small_run_graph, sparse};
use peer::generate::settled::settled_graph;
use peer::generate::{self, Random, Size, PRINTED};
use peer::listing::is_set;
use peer::loads::{self, all_loads};
use peer::model::Graph;
use peer::reference::drain::LINE;
use peer::reference::run::{self, Run};
use peer::{Refused, RunAnswer, RunRows};
use seeds::for_seeds;
use std::fmt::Debug;

const CASES: u64 = 100_000;
/// Elements on either side of a lent row that no one may touch.
const GUARD: usize = 9;
/// How many rows are lent: bytes, then words.
const BYTES: usize = 8;
const WORDS: usize = 3;
const ROWS: usize = BYTES + WORDS;
const MARKS: usize = 0;
const RECORD: usize = BYTES;

fn cases() -> u64 {
    seeds::cases(CASES)
}

/// The names of the rows, in the order of the lengths.
const NAMES: [&str; ROWS] =
    ["marks", "modules", "statements", "used", "external", "json", "reason", "dead", "record", "helpers", "entries"];

/// How long each row is, in its elements.
type Lengths = [usize; ROWS];

fn exact_lengths(run: &Run) -> Lengths {
    let Run { marks, modules, statements, used, external, json, reason, dead, helpers, all_entries, .. } = run;
    let [marks, modules, statements, used, external, json, reason, dead] =
        [marks, modules, statements, used, external, json, reason, dead].map(Vec::len);
    let record = LINE * (run.lines.len() + run.runtime_lines.len());
    let (helpers, entries) = (helpers.len(), *all_entries);
    [marks, modules, statements, used, external, json, reason, dead, record, helpers, entries]
}

/// Lent rows with guards around each.
#[derive(Clone, PartialEq)]
struct Lent {
    bytes: [Vec<u8>; BYTES],
    words: [Vec<u32>; WORDS],
}

impl Lent {
    fn random(random: &mut Random, lengths: Lengths) -> Lent {
        let mut words = |length: usize| (0..length).map(|_| random.next() as u32).collect::<Vec<u32>>();
        let bytes = std::array::from_fn(|row| {
            let length = lengths[row] + 2 * GUARD;
            let all = words(length.div_ceil(4)).into_iter().flat_map(u32::to_le_bytes);
            all.take(length).collect()
        });
        Lent { bytes, words: std::array::from_fn(|row| words(lengths[BYTES + row] + 2 * GUARD)) }
    }

    fn rows(&mut self) -> RunRows<'_> {
        fn inner<T>(row: &mut [T]) -> &mut [T] {
            let end = row.len() - GUARD;
            &mut row[GUARD..end]
        }
        let [marks, modules, statements, used, external, json, reason, dead] =
            self.bytes.each_mut().map(|row| inner(row.as_mut_slice()));
        let [record, helpers, entries] = self.words.each_mut().map(|row| inner(row.as_mut_slice()));
        RunRows { marks, record, modules, statements, used, external, json, reason, dead, helpers, entries }
    }
}

/// The first place where the rows differ; in the guard before a row it is negative.
fn difference(rows: &Lent, expected: &Lent) -> Option<String> {
    fn first<T: PartialEq + Debug>(name: &str, row: &[T], expected: &[T]) -> Option<String> {
        let place = (0..row.len()).find(|&place| row[place] != expected[place])?;
        Some(format!("{name} at {}: {:?}, {:?}", place as isize - GUARD as isize, row[place], expected[place]))
    }
    let words = (0..WORDS).find_map(|row| first(NAMES[BYTES + row], &rows.words[row], &expected.words[row]));
    words.or_else(|| (0..BYTES).find_map(|row| first(NAMES[row], &rows.bytes[row], &expected.bytes[row])))
}

/// A graph's numbers, and what the reference answers.
struct Case {
    numbers: Vec<u32>,
    expected: Result<Run, Refused>,
    from: &'static str,
    seed: u64,
}

const TOO_SHORT: RunAnswer = RunAnswer::refused(Refused { number: 5, place: 0 });

impl Case {
    fn new(numbers: Vec<u32>, from: &'static str, seed: u64) -> Case {
        let expected = run::answer(&numbers);
        Case { numbers, expected, from, seed }
    }

    fn run(&self) -> &Run {
        self.expected.as_ref().expect("a good graph")
    }

    /// Compares the answers and every byte of the lent rows.
    fn compare(&self, random: &mut Random, lengths: Lengths) -> RunAnswer {
        let lent = Lent::random(random, lengths);
        let (mut rows, mut expected_rows) = (lent.clone(), lent.clone());
        let answer = library::run(&self.numbers, &mut rows.rows());
        let expected = match &self.expected {
            Ok(run) => run.put(&mut expected_rows.rows()),
            Err(refused) => RunAnswer::refused(*refused),
        };
        assert_eq!(answer, expected, "{}", self.say(lengths));
        if rows != expected_rows {
            panic!("{}; {}", difference(&rows, &expected_rows).expect("they differ"), self.say(lengths));
        }
        if answer.number != 0 {
            let as_lent = rows.bytes[1..] == lent.bytes[1..] && rows.words[1..] == lent.words[1..];
            assert!(as_lent, "answer rows not as lent; {}", self.say(lengths));
        }
        answer
    }

    fn say(&self, lengths: Lengths) -> String {
        let Case { numbers, from, seed, .. } = self;
        let input = match numbers.len() {
            0..2_000 => format!("numbers {numbers:?}"),
            _ => "a long input".to_string(),
        };
        format!("library, then reference; {from}, seed {seed}, lengths {lengths:?}, {input}")
    }

    /// Exactly enough room, more than that, and a row that is one too short.
    fn compare_rooms(&self, random: &mut Random, short: usize) {
        let exact = exact_lengths(self.run());
        assert_eq!(self.compare(random, exact), self.run().answer(), "{}", self.say(exact));
        let longer = exact.map(|length| length + random.index(14));
        assert_eq!(self.compare(random, longer), self.run().answer(), "{}", self.say(longer));
        self.compare_short(random, exact, short);
    }

    /// One row is one too short, the others are exactly enough or longer.
    fn compare_short(&self, random: &mut Random, exact: Lengths, short: usize) {
        if exact[short] == 0 {
            return;
        }
        let mut lengths = if random.chance(50) { exact } else { exact.map(|length| length + random.index(9)) };
        lengths[short] = exact[short] - 1;
        assert_eq!(self.compare(random, lengths), TOO_SHORT, "{}", self.say(lengths));
    }
}

#[test]
fn random_graphs() {
    for_seeds("random graphs", cases(), |seed| {
        let mut random = Random::new(seed);
        let graph = if seed % 4 == 0 { small_run_graph(&mut random) } else { run_graph(&mut random) };
        Case::new(graph.numbers(), "whole", seed).compare_rooms(&mut random, seed as usize % ROWS);
        1
    });
}

/// Dead imports at the end of a run.
#[test]
fn late_graphs() {
    for_seeds("late graphs", cases() / 5, |seed| {
        let mut random = Random::new(seed);
        let graph = late_graph(&mut random);
        Case::new(graph.numbers(), "late", seed).compare_rooms(&mut random, seed as usize % ROWS);
        1
    });
}

/// Rounds until nothing moves.
#[test]
fn settled_graphs() {
    for_seeds("settled graphs", cases() / 5, |seed| {
        let mut random = Random::new(seed);
        let graph = settled_graph(&mut random);
        Case::new(graph.numbers(), "settled", seed).compare_rooms(&mut random, seed as usize % ROWS);
        1
    });
}

/// Graphs as the tests of the drain have them, with more rules than entries.
#[test]
fn graphs_of_many_rules() {
    for_seeds("graphs of many rules", cases() / 4, |seed| {
        let mut random = Random::new(seed);
        let size = Size::usual(&mut random);
        let graph = generate::graph(&mut random, size);
        Case::new(graph.numbers(), "many rules", seed).compare_rooms(&mut random, seed as usize % ROWS);
        1
    });
}

/// The order of dynamic entries is the order of the final ones, as far as they are live: here all are.
#[test]
fn orders_of_dynamic_entries() {
    for_seeds("orders of dynamic entries", cases() / 4, |seed| {
        let mut random = Random::new(seed);
        let mut graph = import_graph(&mut random);
        keep_all_entries(&mut graph);
        let case = Case::new(graph.numbers(), "order", seed);
        assert_eq!(case.run().entries.len(), graph.entries.len(), "{graph:?}");
        case.compare_rooms(&mut random, seed as usize % ROWS);
        1
    });
}

/// A user-defined entry of a new module behind the others, whose statement every entry is related to.
fn keep_all_entries(graph: &mut Graph) {
    use peer::model::{Entry, Module, Record, Statement, Symbol};
    let (module, symbol) = (graph.modules.len() as u32, graph.symbols.len() as u32);
    let statements = vec![Statement::default(), Statement { bits: 1, ..Statement::default() }];
    let records = vec![Record { target: 1, kind: 0, bits: 0 }];
    graph.modules.push(Module { normal: true, namespace: symbol + 1, records, statements, ..Module::default() });
    graph.symbols.push(Symbol { owner: module, root: symbol, ..Symbol::default() });
    for entry in &mut graph.entries {
        entry.related.push([module, 1, 0, 0]);
    }
    graph.entries.push(Entry { module, kind: 0, related: Vec::new() });
}

/// Each row one too short and empty, and short records down to none.
#[test]
fn every_length_too_short() {
    for_seeds("short rows", cases() / 20, |seed| {
        let mut random = Random::new(seed);
        let case = Case::new(run_graph(&mut random).numbers(), "short", seed);
        let exact = exact_lengths(case.run());
        for short in 0..ROWS {
            case.compare_short(&mut random, exact, short);
            case.compare(&mut random, std::array::from_fn(|row| if row == short { 0 } else { exact[row] }));
        }
        let lines = exact[RECORD] / LINE;
        for lines in (0..lines).step_by(lines / 16 + 1) {
            let mut lengths = exact;
            lengths[RECORD] = LINE * lines + random.index(LINE);
            assert_eq!(case.compare(&mut random, lengths), TOO_SHORT, "{}", case.say(lengths));
        }
        case.compare(&mut random, [0; ROWS]);
        1
    });
}

/// Records that have room for the main stage, but not for all of the runtime stage.
#[test]
fn records_that_end_in_the_runtime_stage() {
    for_seeds("records that end in the runtime stage", cases() / 20, |seed| {
        let mut random = Random::new(seed);
        let case = Case::new(run_graph(&mut random).numbers(), "runtime stage", seed);
        let (main, runtime) = (case.run().lines.len(), case.run().runtime_lines.len());
        for lines in main..main + runtime {
            let mut lengths = exact_lengths(case.run());
            lengths[RECORD] = LINE * lines + random.index(LINE);
            assert_eq!(case.compare(&mut random, lengths), TOO_SHORT, "{}", case.say(lengths));
        }
        runtime as u64
    });
}

#[test]
fn damaged_numbers() {
    for_seeds("damaged numbers", cases(), |seed| {
        let mut random = Random::new(seed);
        let encoded = run_graph(&mut random).encode();
        let whole = Case::new(encoded.numbers.clone(), "whole", seed);
        let exact = exact_lengths(whole.run());
        for _ in 0..4 {
            let case = Case::new(generate::damaged(&mut random, &encoded), "damaged", seed);
            let lengths = exact.map(|length| match random.below(4) {
                0 => random.index(length + 1),
                1 => length + random.index(9),
                _ => length,
            });
            let answer = case.compare(&mut random, lengths);
            if let Err(refused) = case.expected {
                assert_eq!(answer, RunAnswer::refused(refused), "{}", case.say(lengths));
            }
        }
        4
    });
}

/// Large graphs are slow to make, so few of them.
#[test]
fn large_graphs() {
    for_seeds("large graphs", cases() / 5_000, |seed| {
        let mut random = Random::new(seed);
        let modules = random.between(200, 1_024);
        let graph = sparse(&mut random, modules);
        Case::new(graph.numbers(), "large", seed).compare_rooms(&mut random, RECORD);
        1
    });
    for_seeds("largest graphs", cases() / 25_000, |seed| {
        let mut random = Random::new(seed);
        let graph = generate::graph(&mut random, Size::largest());
        Case::new(graph.numbers(), "largest", seed).compare_rooms(&mut random, RECORD);
        1
    });
}

/// Counts at which the library takes larger tables.
#[test]
fn edges_of_sizes() {
    for_seeds("edges of sizes", cases() / 200, |seed| {
        let mut random = Random::new(seed);
        for counts in at_edges() {
            let graph = graph_of(&mut random, counts);
            Case::new(graph.numbers(), "edge", seed).compare_rooms(&mut random, RECORD);
        }
        at_edges().len() as u64
    });
}

/// The graphs of the benchmark, and the longest runs: as many rounds as there can be, the deepest walks.
#[test]
fn loads_of_the_benchmark() {
    with_stack(|| {
        let mut random = Random::new(1);
        for load in all_loads() {
            Case::new(load.graph().numbers(), load.name, 0).compare_rooms(&mut random, RECORD);
        }
        let most_rounds = loads::rounds(1_024);
        let case = Case::new(most_rounds.numbers(), "most rounds", 0);
        assert_eq!(case.run().rounds, 1_024);
        case.compare_rooms(&mut random, RECORD);
    });
}

#[test]
fn printed_case() {
    with_stack(|| {
        Case::new(PRINTED.to_vec(), "printed", 0).compare_rooms(&mut Random::new(1), MARKS);
        let run = RunBuffers::for_graph(&PRINTED).expect("a good graph");
        assert_eq!(run.listing(), run::listing(&PRINTED));
    });
}

/// Rows that are made from the graph: always long enough, and their parts where the accessors look for them.
#[test]
fn buffers() {
    for_seeds("buffers", cases() / 10, |seed| {
        let mut random = Random::new(seed);
        let graph = run_graph(&mut random);
        let numbers = graph.numbers();
        let run = RunBuffers::for_graph(&numbers).unwrap_or_else(|refused| panic!("{refused}, seed {seed}"));
        let expected = Run::of(&graph);
        assert_eq!(run.listing(), expected.listing(&graph), "seed {seed}");
        assert_eq!(run.rounds(), u64::from(expected.rounds));
        assert_eq!(run.entries(), expected.entries);
        assert!(run.lines().eq(expected.lines.iter().map(|line| line.numbers())), "seed {seed}");
        assert!(run.runtime_lines().eq(expected.runtime_lines.iter().map(|line| line.numbers())), "seed {seed}");
        let (mut first_byte, mut first_record) = (0, 0);
        for (index, module) in graph.modules.iter().enumerate() {
            assert_eq!(run.kept(index), is_set(&expected.modules, index));
            assert_eq!((run.reason(index), run.helpers(index)), (expected.reason[index], expected.helpers[index]));
            for statement in 0..module.statements.len() {
                let row = &expected.statements[first_byte..];
                assert_eq!(run.statement(index, statement), is_set(row, statement));
            }
            for record in 0..module.records.len() {
                assert_eq!(run.dead(index, record), is_set(&expected.dead, first_record + record));
            }
            first_byte += module.statements.len().div_ceil(8);
            first_record += module.records.len();
        }
        for symbol in 0..graph.symbols.len() {
            let rows = [&expected.used, &expected.external, &expected.json].map(|row| is_set(row, symbol));
            assert_eq!([run.used(symbol), run.external(symbol), run.json(symbol)], rows);
        }
        let damaged = generate::damaged(&mut random, &graph.encode());
        assert_eq!(RunBuffers::for_graph(&damaged).err(), run::answer(&damaged).err(), "seed {seed}");
        1
    });
}
