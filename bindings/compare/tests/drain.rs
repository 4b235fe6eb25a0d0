//! The linked library's drain against the reference, on many graphs and starts.
//!
//! KEEP_CASES is how many drains there are at least (100,000 if it is not set; some tests take a part of it), KEEP_SEED
//! the first seed. To see one failing seed again: `KEEP_SEED=seed KEEP_CASES=1`.

mod seeds;

use compare::library;
use lizdakk::with_stack;
use peer::generate::counted::{at_edges, graph_of, last_starts};
use peer::generate::{self, Random, Size, PRINTED};
use peer::model::Graph;
use peer::reference::drain::{self, LINE};
use peer::reference::rows::Answer;
use peer::{DrainAnswer, Refused, Rows};
use seeds::for_seeds;
use std::fmt::Debug;

const CASES: u64 = 100_000;
/// Elements on either side of a lent row that no one may touch.
const GUARD: usize = 9;
/// How many rows are lent.
const ROWS: usize = 8;
const MARKS: usize = 0;
const RECORD: usize = 1;

fn cases() -> u64 {
    seeds::cases(CASES)
}

/// How long each row is: marks, record (in numbers), modules, statements, used, external, json, REASON.
type Lengths = [usize; ROWS];

fn exact_lengths(answer: &Answer) -> Lengths {
    let Answer { lines, marks, modules, statements, used, external, json, reason } = answer;
    let record = LINE * lines.len();
    [marks.len(), record, modules.len(), statements.len(), used.len(), external.len(), json.len(), reason.len()]
}

/// Lent rows with guards around each.
#[derive(Clone, PartialEq)]
struct Lent {
    bytes: [Vec<u8>; ROWS - 1],
    record: Vec<u32>,
}

impl Lent {
    fn random(random: &mut Random, lengths: Lengths) -> Lent {
        let record = (0..lengths[RECORD] + 2 * GUARD).map(|_| random.next() as u32).collect();
        let [marks, _, modules, statements, used, external, json, reason] = lengths;
        let bytes = [marks, modules, statements, used, external, json, reason].map(|length| {
            let words = (length + 2 * GUARD).div_ceil(8);
            let all = (0..words).flat_map(|_| random.next().to_le_bytes());
            all.take(length + 2 * GUARD).collect()
        });
        Lent { bytes, record }
    }

    fn rows(&mut self) -> Rows<'_> {
        fn inner<T>(row: &mut [T]) -> &mut [T] {
            let end = row.len() - GUARD;
            &mut row[GUARD..end]
        }
        let [marks, modules, statements, used, external, json, reason] =
            self.bytes.each_mut().map(|row| inner(row.as_mut_slice()));
        Rows { marks, record: inner(&mut self.record), modules, statements, used, external, json, reason }
    }
}

/// The names of the rows of bytes.
const NAMES: [&str; ROWS - 1] = ["marks", "modules", "statements", "used", "external", "json", "reason"];

/// The first place where the rows differ; in the guard before a row it is negative.
fn difference(rows: &Lent, expected: &Lent) -> Option<String> {
    fn first<T: PartialEq + Debug>(name: &str, row: &[T], expected: &[T]) -> Option<String> {
        let place = (0..row.len()).find(|&place| row[place] != expected[place])?;
        Some(format!("{name} at {}: {:?}, {:?}", place as isize - GUARD as isize, row[place], expected[place]))
    }
    let bytes = (0..ROWS - 1).find_map(|row| first(NAMES[row], &rows.bytes[row], &expected.bytes[row]));
    first("record", &rows.record, &expected.record).or(bytes)
}

/// A graph's numbers, the starts, and what the reference answers.
struct Case {
    numbers: Vec<u32>,
    starts: Vec<u32>,
    expected: Result<Answer, Refused>,
    from: &'static str,
    seed: u64,
}

impl Case {
    fn new(numbers: Vec<u32>, starts: Vec<u32>, from: &'static str, seed: u64) -> Case {
        let expected = drain::answer(&numbers, &starts);
        Case { numbers, starts, expected, from, seed }
    }

    /// Compares the answers and every byte of the lent rows.
    fn compare(&self, random: &mut Random, lengths: Lengths) -> DrainAnswer {
        let lent = Lent::random(random, lengths);
        let (mut rows, mut expected_rows) = (lent.clone(), lent.clone());
        let answer = library::drain(&self.numbers, &self.starts, &mut rows.rows());
        let expected = match &self.expected {
            Ok(expected) => expected.put(&mut expected_rows.rows()),
            Err(refused) => DrainAnswer::refused(*refused),
        };
        assert_eq!(answer, expected, "{}", self.say(lengths));
        if rows != expected_rows {
            panic!("{}; {}", difference(&rows, &expected_rows).expect("they differ"), self.say(lengths));
        }
        if answer.number != 0 {
            assert!(rows.bytes[1..] == lent.bytes[1..], "answer rows not as lent; {}", self.say(lengths));
        }
        answer
    }

    fn say(&self, lengths: Lengths) -> String {
        let Case { numbers, starts, from, seed, .. } = self;
        let input = match numbers.len() + starts.len() {
            0..2_000 => format!("starts {starts:?}, numbers {numbers:?}"),
            _ => "a long input".to_string(),
        };
        format!("library, then reference; {from}, seed {seed}, lengths {lengths:?}, {input}")
    }

    /// Exactly enough room, more than that, and a row that is one too short.
    fn compare_rooms(&self, random: &mut Random, short: usize) {
        let exact = exact_lengths(self.expected.as_ref().expect("good starts of a good graph"));
        let lines = (exact[RECORD] / LINE) as u64;
        let written = DrainAnswer { number: 0, place: 0, lines };
        assert_eq!(self.compare(random, exact), written, "{}", self.say(exact));
        let longer = exact.map(|length| length + random.index(14));
        assert_eq!(self.compare(random, longer), written, "{}", self.say(longer));
        self.compare_short(random, exact, short);
    }

    /// One row is one too short, the others are exactly enough or longer.
    fn compare_short(&self, random: &mut Random, exact: Lengths, short: usize) {
        if exact[short] == 0 {
            return;
        }
        let mut lengths = if random.chance(50) { exact } else { exact.map(|length| length + random.index(9)) };
        lengths[short] = exact[short] - 1;
        let answer = self.compare(random, lengths);
        assert_eq!(answer, DrainAnswer { number: 5, place: 0, lines: 0 }, "{}", self.say(lengths));
    }

    /// A refusal of the graph or the starts, if it is one: rows of any length.
    fn compare_any(&self, random: &mut Random, lengths: Lengths) {
        let lengths = lengths.map(|length| match random.below(4) {
            0 => random.index(length + 1),
            1 => length + random.index(9),
            _ => length,
        });
        let answer = self.compare(random, lengths);
        if let Err(refused) = self.expected {
            assert_eq!(answer, DrainAnswer::refused(refused), "{}", self.say(lengths));
        }
    }
}

fn random_graph(random: &mut Random) -> Graph {
    let size = Size::usual(random);
    generate::graph(random, size)
}

#[test]
fn random_graphs_and_starts() {
    for_seeds("random graphs and starts", cases(), |seed| {
        let mut random = Random::new(seed);
        let graph = random_graph(&mut random);
        let starts = generate::starts(&mut random, &graph);
        let case = Case::new(graph.numbers(), starts, "whole", seed);
        case.compare_rooms(&mut random, seed as usize % ROWS);
        1
    });
}

/// Each row one too short, and short records down to none.
#[test]
fn every_length_too_short() {
    for_seeds("short rows", cases() / 20, |seed| {
        let mut random = Random::new(seed);
        let graph = random_graph(&mut random);
        let starts = generate::starts(&mut random, &graph);
        let case = Case::new(graph.numbers(), starts, "short", seed);
        let exact = exact_lengths(case.expected.as_ref().expect("good starts of a good graph"));
        for short in 0..ROWS {
            case.compare_short(&mut random, exact, short);
            case.compare(&mut random, std::array::from_fn(|row| if row == short { 0 } else { exact[row] }));
        }
        let lines = exact[RECORD] / LINE;
        for lines in (0..lines).step_by(lines / 16 + 1) {
            let mut lengths = exact;
            lengths[RECORD] = LINE * lines + random.index(LINE);
            let answer = case.compare(&mut random, lengths);
            assert_eq!(answer, DrainAnswer { number: 5, place: 0, lines: 0 }, "{}", case.say(lengths));
        }
        case.compare(&mut random, [0; ROWS]);
        1
    });
}

#[test]
fn damaged_numbers_and_damaged_starts() {
    for_seeds("damaged numbers and starts", cases(), |seed| {
        let mut random = Random::new(seed);
        let graph = random_graph(&mut random);
        let encoded = graph.encode();
        let starts = generate::starts(&mut random, &graph);
        let whole = Case::new(encoded.numbers.clone(), starts.clone(), "whole", seed);
        let lengths = exact_lengths(whole.expected.as_ref().expect("good starts of a good graph"));
        for _ in 0..3 {
            let damaged_starts = generate::damaged_starts(&mut random, &graph, &starts);
            let case = Case::new(encoded.numbers.clone(), damaged_starts.clone(), "damaged starts", seed);
            case.compare_any(&mut random, lengths);
            let damaged = generate::damaged(&mut random, &encoded);
            let starts = if random.chance(50) { starts.clone() } else { damaged_starts };
            Case::new(damaged, starts, "damaged numbers", seed).compare_any(&mut random, lengths);
        }
        6
    });
}

/// Every number of every kind of start, at and past its bounds.
#[test]
fn bounds_of_starts() {
    for_seeds("bounds of starts", cases() / 2, |seed| {
        let mut random = Random::new(seed);
        let graph = random_graph(&mut random);
        let numbers = graph.numbers();
        let (modules, symbols) = (graph.modules.len() as u32, graph.symbols.len() as u32);
        let mut drains = 0;
        for kind in 0..=7 {
            let first = random.pick(&[0, modules - 1, modules, symbols - 1, symbols, u32::MAX]);
            let statements = graph.modules.get(first as usize).map_or(0, |module| module.statements.len() as u32);
            let second = random.pick(&[0, 1, 31, 32, statements.wrapping_sub(1), statements, u32::MAX]);
            let mut starts = generate::starts(&mut random, &graph);
            starts.extend([kind, first, second]);
            let case = Case::new(numbers.clone(), starts, "bounds", seed);
            match &case.expected {
                Ok(answer) => case.compare(&mut random, exact_lengths(answer)),
                Err(_) => case.compare(&mut random, [8; ROWS]),
            };
            drains += 1;
        }
        drains
    });
}

/// Largest graphs are slow to make, so few of them: a few starts, then every statement.
#[test]
fn largest_graphs() {
    for_seeds("largest graphs", cases() / 25_000, |seed| {
        let mut random = Random::new(seed);
        let graph = generate::graph(&mut random, Size::largest());
        let starts = generate::starts(&mut random, &graph);
        Case::new(graph.numbers(), starts, "largest", seed).compare_rooms(&mut random, RECORD);
        let every = every_statement(&graph);
        Case::new(graph.numbers(), every, "largest, every statement", seed).compare_rooms(&mut random, RECORD);
        2
    });
}

/// Counts at which the library takes larger tables: a few starts, the last of everything, then every statement.
#[test]
fn edges_of_sizes() {
    for_seeds("edges of sizes", cases() / 200, |seed| {
        let mut random = Random::new(seed);
        for counts in at_edges() {
            let graph = graph_of(&mut random, counts);
            for starts in [generate::starts(&mut random, &graph), last_starts(&graph), every_statement(&graph)] {
                Case::new(graph.numbers(), starts, "edge", seed).compare_rooms(&mut random, RECORD);
            }
        }
        3 * at_edges().len() as u64
    });
}

fn every_statement(graph: &Graph) -> Vec<u32> {
    let mut starts = Vec::new();
    for (index, module) in (0..).zip(&graph.modules) {
        starts.extend((0..module.statements.len() as u32).flat_map(|number| [2, index, number]));
    }
    starts
}

/// Every fact that can be a start.
fn every_start(graph: &Graph) -> Vec<[u32; 3]> {
    let (modules, symbols) = (0..graph.modules.len() as u32, 0..graph.symbols.len() as u32);
    let normal = modules.clone().filter(|&module| graph.modules[module as usize].normal);
    let mut starts: Vec<[u32; 3]> = normal.map(|module| [1, module, 0]).collect();
    starts.extend(every_statement(graph).chunks(3).map(|start| [start[0], start[1], start[2]]));
    for kind in [3, 4] {
        starts.extend(symbols.clone().flat_map(|symbol| (1..32).map(move |reason| [kind, symbol, reason])));
    }
    starts.extend(modules.map(|module| [6, module, 0]));
    starts
}

#[test]
fn every_start_of_small_graphs() {
    for_seeds("every start of small graphs", cases() / 2, |seed| {
        let mut random = Random::new(seed);
        let size = Size::tiny(&mut random);
        let graph = generate::graph(&mut random, size);
        let mut starts = every_start(&graph);
        for start in &starts {
            let case = Case::new(graph.numbers(), start.to_vec(), "one start", seed);
            let lengths = exact_lengths(case.expected.as_ref().expect("a good start of a good graph"));
            case.compare(&mut random, lengths);
        }
        generate::shuffle(&mut random, &mut starts);
        Case::new(graph.numbers(), starts.concat(), "every start", seed).compare_rooms(&mut random, RECORD);
        starts.len() as u64 + 1
    });
}

/// The most facts that there can be, but for forwards.
#[test]
fn every_start_of_a_largest_graph() {
    for_seeds("every start of a largest graph", 1, |seed| {
        let mut random = Random::new(seed);
        let graph = generate::graph(&mut random, Size::largest());
        let mut starts = every_start(&graph);
        generate::shuffle(&mut random, &mut starts);
        let case = Case::new(graph.numbers(), starts.concat(), "every start", seed);
        let lengths = exact_lengths(case.expected.as_ref().expect("good starts of a good graph"));
        case.compare(&mut random, lengths);
        case.compare_short(&mut random, lengths, RECORD);
        1
    });
}

/// No starts: no facts, with no room for a line.
#[test]
fn no_starts() {
    with_stack(|| {
        let case = Case::new(PRINTED.to_vec(), Vec::new(), "printed", 0);
        case.compare_rooms(&mut Random::new(1), MARKS);
    });
}
