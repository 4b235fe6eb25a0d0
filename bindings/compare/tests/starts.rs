//! The linked library's own starts of a run against the reference, and its judge on what the library itself wrote.
//!
//! KEEP_CASES is how many graphs there are at least (100,000 if it is not set; some tests take a part of it), KEEP_SEED
//! the first seed. To see one failing seed again: `KEEP_SEED=seed KEEP_CASES=1`.

mod seeds;

use compare::{library, own_starts, RunBuffers};
use lizdakk::with_stack;
use peer::generate::counted::{at_edges, graph_of};
use peer::generate::runs::{run_graph, small_run_graph, sparse};
use peer::generate::settled::settled_graph;
use peer::generate::{self, Random, Size, PRINTED};
use peer::loads::{self, LOADS, LOADS_SETTLED};
use peer::reference::drain::{self, LINE};
use peer::reference::rows::Answer;
use peer::reference::run::Run;
use peer::reference::starts::{self, triples, Starts};
use peer::{ReadAnswer, Refusal, Refused, Rows};
use seeds::for_seeds;
use std::collections::HashSet;
use std::sync::atomic::{AtomicU64, Ordering};

const CASES: u64 = 100_000;
/// How many numbers a start has.
const START: usize = 3;
/// Elements on either side of a lent row that no one may touch.
const GUARD: usize = 9;
const TOO_SHORT: ReadAnswer = ReadAnswer::refused(Refused { number: 5, place: 0 });

fn cases() -> u64 {
    seeds::cases(CASES)
}

/// How long each row is, in its elements.
#[derive(Clone, Copy, Debug)]
struct Lengths {
    marks: usize,
    record: usize,
    starts: usize,
}

impl Lengths {
    /// Exactly enough: a record for the lines of the main stage alone.
    fn of(starts: &Starts) -> Lengths {
        let Starts { facts, lines, marks } = starts;
        Lengths { marks: marks.len(), record: LINE * lines.len(), starts: START * facts.len() }
    }

    /// The answer if no row is too short.
    fn passed(self) -> ReadAnswer {
        ReadAnswer { number: 0, place: 0, count: self.starts as u64 }
    }

    fn longer(self, random: &mut Random) -> Lengths {
        let mut more = || random.index(14);
        Lengths { marks: self.marks + more(), record: self.record + more(), starts: self.starts + more() }
    }

    /// Each row one element too short, if it has one; a line or a start too short; and empty.
    fn shorter(self) -> Vec<Lengths> {
        let mut all = Vec::new();
        if self.marks > 0 {
            all.extend([self.marks - 1, 0].map(|marks| Lengths { marks, ..self }));
        }
        if self.record > 0 {
            all.extend([self.record - 1, self.record - LINE, 0].map(|record| Lengths { record, ..self }));
        }
        if self.starts > 0 {
            all.extend([self.starts - 1, self.starts - START, 0].map(|starts| Lengths { starts, ..self }));
        }
        all
    }
}

/// Lent rows of noise with guards around each.
#[derive(Clone, PartialEq)]
struct Lent {
    marks: Vec<u8>,
    record: Vec<u32>,
    starts: Vec<u32>,
}

fn inner<T>(row: &mut [T]) -> &mut [T] {
    let end = row.len() - GUARD;
    &mut row[GUARD..end]
}

impl Lent {
    fn random(random: &mut Random, lengths: Lengths) -> Lent {
        let mut noise = |length: usize| (0..length + 2 * GUARD).map(|_| random.next() as u32).collect::<Vec<u32>>();
        let marks = noise(lengths.marks).into_iter().map(|number| number as u8).collect();
        Lent { marks, record: noise(lengths.record), starts: noise(lengths.starts) }
    }

    fn rows(&mut self) -> (&mut [u8], &mut [u32], &mut [u32]) {
        (inner(&mut self.marks), inner(&mut self.record), inner(&mut self.starts))
    }

    /// The same with marks and record all zero.
    fn cleared(mut self) -> Lent {
        inner(&mut self.marks).fill(0);
        inner(&mut self.record).fill(0);
        self
    }

    /// The name of the first row that differs.
    fn difference(&self, expected: &Lent) -> Option<&'static str> {
        let equal = [
            ("marks", self.marks == expected.marks),
            ("record", self.record == expected.record),
            ("starts", self.starts == expected.starts),
        ];
        equal.into_iter().find(|(_, equal)| !equal).map(|(name, _)| name)
    }
}

/// A graph's numbers, and the starts of its run by the reference.
struct Case {
    numbers: Vec<u32>,
    expected: Result<Starts, Refused>,
    from: &'static str,
    seed: u64,
}

impl Case {
    fn new(numbers: Vec<u32>, from: &'static str, seed: u64) -> Case {
        let expected = starts::answer(&numbers);
        Case { numbers, expected, from, seed }
    }

    fn starts(&self) -> &Starts {
        self.expected.as_ref().expect("a good graph")
    }

    /// Compares the answers and every element of the lent rows with the reference.
    fn compare(&self, random: &mut Random, lengths: Lengths) -> ReadAnswer {
        let lent = Lent::random(random, lengths);
        let (mut library, mut reference) = (lent.clone(), lent.clone());
        let (marks, record, starts) = library.rows();
        let answer = library::starts(&self.numbers, marks, record, starts);
        let (marks, record, starts) = reference.rows();
        let expected = match &self.expected {
            Ok(expected) => expected.put(marks, record, starts),
            Err(refused) => ReadAnswer::refused(*refused),
        };
        assert_eq!(answer, expected, "{}", self.say(lengths));
        self.assert_equal(&library, &reference, lengths);
        if answer.number != 0 {
            let worked = answer == TOO_SHORT && self.starts().marks.len() <= lengths.marks;
            self.assert_equal(&library, &if worked { lent.cleared() } else { lent }, lengths);
        }
        answer
    }

    fn assert_equal(&self, rows: &Lent, expected: &Lent, lengths: Lengths) {
        if let Some(name) = rows.difference(expected) {
            panic!("{name} differ; {}", self.say(lengths));
        }
    }

    fn say(&self, lengths: Lengths) -> String {
        let Case { numbers, from, seed, .. } = self;
        let input = match numbers.len() {
            0..2_000 => format!("numbers {numbers:?}"),
            _ => "a long input".to_string(),
        };
        format!("library, then reference; {from}, seed {seed}, {lengths:?}, {input}")
    }

    /// Exactly enough room, more than that, and each row too short.
    fn compare_rooms(&self, random: &mut Random) {
        let exact = Lengths::of(self.starts());
        let passed = exact.passed();
        assert_eq!(self.compare(random, exact), passed, "{}", self.say(exact));
        let longer = exact.longer(random);
        assert_eq!(self.compare(random, longer), passed, "{}", self.say(longer));
        for lengths in exact.shorter().into_iter().chain(shorter_than(exact, longer)) {
            assert_eq!(self.compare(random, lengths), TOO_SHORT, "{}", self.say(lengths));
        }
    }
}

/// Rows that are longer than they have to be, but for one.
fn shorter_than(exact: Lengths, longer: Lengths) -> Vec<Lengths> {
    let fill = |short: Lengths| {
        let pick = |short: usize, exact: usize, longer: usize| if short < exact { short } else { longer };
        Lengths {
            marks: pick(short.marks, exact.marks, longer.marks),
            record: pick(short.record, exact.record, longer.record),
            starts: pick(short.starts, exact.starts, longer.starts),
        }
    };
    exact.shorter().into_iter().map(fill).collect()
}

#[test]
fn random_graphs() {
    for_seeds("own starts of random graphs", cases() / 2, |seed| {
        let mut random = Random::new(seed);
        let graph = if seed % 4 == 0 { small_run_graph(&mut random) } else { run_graph(&mut random) };
        Case::new(graph.numbers(), "whole", seed).compare_rooms(&mut random);
        1
    });
}

/// Rounds until nothing moves.
#[test]
fn settled_graphs() {
    for_seeds("own starts of settled graphs", cases() / 10, |seed| {
        let mut random = Random::new(seed);
        let graph = settled_graph(&mut random);
        Case::new(graph.numbers(), "settled", seed).compare_rooms(&mut random);
        1
    });
}

/// Graphs as the tests of the drain have them, with more rules than entries.
#[test]
fn graphs_of_many_rules() {
    for_seeds("own starts of graphs of many rules", cases() / 4, |seed| {
        let mut random = Random::new(seed);
        let size = Size::usual(&mut random);
        let graph = generate::graph(&mut random, size);
        Case::new(graph.numbers(), "many rules", seed).compare_rooms(&mut random);
        1
    });
}

/// Short records down to none, and short starts down to none.
#[test]
fn every_length_too_short() {
    for_seeds("short rows", cases() / 20, |seed| {
        let mut random = Random::new(seed);
        let case = Case::new(run_graph(&mut random).numbers(), "short", seed);
        let exact = Lengths::of(case.starts());
        for record in (0..exact.record).step_by(exact.record / 32 + 1) {
            assert_eq!(case.compare(&mut random, Lengths { record, ..exact }), TOO_SHORT);
        }
        for starts in (0..exact.starts).step_by(exact.starts / 32 + 1) {
            assert_eq!(case.compare(&mut random, Lengths { starts, ..exact }), TOO_SHORT);
        }
        case.compare(&mut random, Lengths { marks: 0, record: 0, starts: 0 });
        1
    });
}

/// Where the runtime stage has lines, a record for the main stage's is enough, and none of the others is written.
#[test]
fn no_room_for_the_runtime_stage() {
    let with_runtime = AtomicU64::new(0);
    for_seeds("own starts without room for the runtime stage", cases() / 20, |seed| {
        let mut random = Random::new(seed);
        let graph = run_graph(&mut random);
        let (run, case) = (Run::of(&graph), Case::new(graph.numbers(), "runtime", seed));
        let (exact, lines) = (Lengths::of(case.starts()), run.lines.len());
        assert_eq!(exact.record, LINE * lines, "{}", case.say(exact));
        for line in lines..=lines + run.runtime_lines.len() {
            let record = LINE * line + random.index(LINE);
            assert_eq!(case.compare(&mut random, Lengths { record, ..exact }), exact.passed());
        }
        if lines > 0 {
            let one_fewer = Lengths { record: exact.record - LINE, ..exact };
            assert_eq!(case.compare(&mut random, one_fewer), TOO_SHORT, "{}", case.say(one_fewer));
        }
        with_runtime.fetch_add(u64::from(!run.runtime_lines.is_empty() && lines > 0), Ordering::Relaxed);
        1
    });
    let with_runtime = with_runtime.into_inner();
    println!("{with_runtime} of them with lines of both stages");
    assert!(cases() < CASES || with_runtime > cases() / 200, "{with_runtime}");
}

#[test]
fn damaged_numbers() {
    for_seeds("own starts of damaged numbers", cases() / 2, |seed| {
        let mut random = Random::new(seed);
        let encoded = run_graph(&mut random).encode();
        let whole = Case::new(encoded.numbers.clone(), "whole", seed);
        for _ in 0..4 {
            let case = Case::new(generate::damaged(&mut random, &encoded), "damaged", seed);
            let mut length = |length: usize| match random.below(4) {
                0 => random.index(length + 1),
                1 => length + random.index(9),
                _ => length,
            };
            let Lengths { marks, record, starts } = Lengths::of(whole.starts());
            let lengths = Lengths { marks: length(marks), record: length(record), starts: length(starts) };
            let answer = case.compare(&mut random, lengths);
            if let Err(refused) = case.expected {
                assert_eq!(answer, ReadAnswer::refused(refused), "{}", case.say(lengths));
            }
        }
        4
    });
}

/// Large graphs are slow to make, so few of them.
#[test]
fn large_graphs() {
    for_seeds("own starts of large graphs", cases() / 5_000, |seed| {
        let mut random = Random::new(seed);
        let modules = random.between(200, 1_024);
        let graph = sparse(&mut random, modules);
        Case::new(graph.numbers(), "large", seed).compare_rooms(&mut random);
        1
    });
    for_seeds("own starts of largest graphs", cases() / 50_000, |seed| {
        let mut random = Random::new(seed);
        let graph = generate::graph(&mut random, Size::largest());
        Case::new(graph.numbers(), "largest", seed).compare_rooms(&mut random);
        1
    });
}

/// Counts at which the library takes larger tables.
#[test]
fn edges_of_sizes() {
    for_seeds("own starts at the edges of sizes", cases() / 200, |seed| {
        let mut random = Random::new(seed);
        for counts in at_edges() {
            let numbers = graph_of(&mut random, counts).numbers();
            judge_run(&numbers, &format!("edge {counts:?}, seed {seed}"));
            Case::new(numbers, "edge", seed).compare_rooms(&mut random);
        }
        at_edges().len() as u64
    });
}

/// The graphs of the benchmark, and as many rounds as there can be.
#[test]
fn loads_of_the_benchmark() {
    with_stack(|| {
        let mut random = Random::new(1);
        for load in LOADS.iter().chain(&LOADS_SETTLED) {
            let numbers = load.graph().numbers();
            judge_run(&numbers, load.name);
            Case::new(numbers, load.name, 0).compare_rooms(&mut random);
        }
        Case::new(loads::rounds(1_024).numbers(), "most rounds", 0).compare_rooms(&mut random);
    });
}

#[test]
fn printed_case() {
    with_stack(|| {
        Case::new(PRINTED.to_vec(), "printed", 0).compare_rooms(&mut Random::new(1));
        assert_eq!(own_starts(&PRINTED), Ok(vec![6, 1, 0, 1, 1, 0]));
        judge_run(&PRINTED, "printed");
    });
}

/// The library's judge passes the library's main lines beside the library's starts.
fn judge_run(numbers: &[u32], from: &str) {
    let run = RunBuffers::for_graph(numbers).unwrap_or_else(|refused| panic!("{from}: {refused}"));
    let starts = own_starts(numbers).unwrap_or_else(|refused| panic!("{from}: {refused}"));
    assert_eq!(library::judge(numbers, &starts, run.main_record()), Refusal::PASSED, "{from}");
}

#[test]
fn runs_are_judged() {
    for_seeds("runs that are judged", cases(), |seed| {
        let mut random = Random::new(seed);
        let graph = if seed % 4 == 0 { small_run_graph(&mut random) } else { run_graph(&mut random) };
        let numbers = graph.numbers();
        judge_run(&numbers, &format!("seed {seed}"));
        let starts = own_starts(&numbers).unwrap_or_else(|refused| panic!("{refused}, seed {seed}"));
        assert_eq!(starts, Starts::of(&graph).triples(), "seed {seed}");
        let by_steps = triples(&Run::of(&graph).starts);
        assert_eq!(starts.len(), by_steps.len(), "each once, seed {seed}");
        assert_eq!(set_of(&starts), set_of(&by_steps), "seed {seed}");
        let damaged = generate::damaged(&mut random, &graph.encode());
        assert_eq!(own_starts(&damaged).err(), starts::answer(&damaged).err(), "seed {seed}");
        1
    });
}

/// The facts of triples, without order.
fn set_of(triples: &[u32]) -> HashSet<&[u32]> {
    triples.chunks(START).collect()
}

/// The marks and the record that the library's drain writes.
fn drained(numbers: &[u32], starts: &[u32], answer: &Answer) -> (Vec<u8>, Vec<u32>) {
    let Answer { lines, marks, modules, statements, used, external, json, reason } = answer;
    let mut record = vec![0; LINE * lines.len()];
    let mut rows = [marks, modules, statements, used, external, json, reason].map(|row| vec![0; row.len()]);
    let [marks, modules, statements, used, external, json, reason] = rows.each_mut().map(Vec::as_mut_slice);
    let lent = &mut Rows { marks, record: &mut record, modules, statements, used, external, json, reason };
    library::drain(numbers, starts, lent).result().expect("rows that are long enough");
    let [marks, ..] = rows;
    (marks, record)
}

#[test]
fn drains_are_judged() {
    for_seeds("drains that are judged", cases(), |seed| {
        let mut random = Random::new(seed);
        let size = Size::usual(&mut random);
        let graph = generate::graph(&mut random, size);
        let (numbers, starts) = (graph.numbers(), generate::starts(&mut random, &graph));
        let answer = drain::answer(&numbers, &starts).expect("good starts of a good graph");
        let (_, record) = drained(&numbers, &starts, &answer);
        assert_eq!(library::judge(&numbers, &starts, &record), Refusal::PASSED, "seed {seed}, {numbers:?}");
        1
    });
}

/// The record beside the starts has the main lines of the library's run and zeros behind them; the marks are those that
/// the library's drain of these starts leaves.
#[test]
fn marks_and_record_are_those_of_the_main_stage() {
    for_seeds("marks and record beside starts", cases() / 4, |seed| {
        let mut random = Random::new(seed);
        let numbers = run_graph(&mut random).numbers();
        let run = RunBuffers::for_graph(&numbers).unwrap_or_else(|refused| panic!("{refused}, seed {seed}"));
        let (mut marks, mut record) = (vec![255; run.marks().len()], vec![u32::MAX; run.record().len()]);
        // A module has more than six numbers in the graph, a statement three at least, a symbol more than six.
        let mut starts = vec![0; numbers.len()];
        let answer = library::starts(&numbers, &mut marks, &mut record, &mut starts);
        assert_eq!(answer.number, 0, "seed {seed}");
        let (lines, behind) = record.split_at(run.main_record().len());
        assert_eq!(lines, run.main_record(), "seed {seed}");
        assert!(behind.iter().all(|&number| number == 0), "seed {seed}");
        let starts = &starts[..answer.count as usize];
        let expected = drain::answer(&numbers, starts).expect("good starts of a good graph");
        let (drained_marks, _) = drained(&numbers, starts, &expected);
        assert_eq!(marks, drained_marks, "seed {seed}");
        1
    });
}
