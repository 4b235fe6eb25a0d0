//! The linked library's judge against the reference, on many records and changes to them.
//!
//! KEEP_CASES is how many records there are at least (100,000 if it is not set; some tests take a part of it),
//! KEEP_SEED the first seed. To see one failing seed again: `KEEP_SEED=seed KEEP_CASES=1`.

mod seeds;
mod tally;

use compare::library;
use lizdakk::with_stack;
use peer::generate::counted::{at_edges, graph_of, last_starts};
use peer::generate::records::{Asked, Source, CHANGES};
use peer::generate::{self, Random, Size, PRINTED};
use peer::loads::LOADS;
use peer::reference::decode::decode;
use peer::reference::drain::LINE;
use peer::reference::judge::Judge;
use peer::reference::judge_by_rules::judge_by_rules;
use peer::reference::{check, judge};
use peer::Refusal;
use seeds::for_seeds;
use std::sync::Mutex;
use tally::Tally;

const CASES: u64 = 100_000;
/// Up to so many record lines both judges of the reference are asked; behind that only the faster one.
const SMALL: usize = 80;

fn cases() -> u64 {
    seeds::cases(CASES)
}

/// Compares the library with the reference.
fn compare(asked: &Asked, from: &str, seed: u64) -> Refusal {
    let Asked { numbers, starts, record } = asked;
    let answer = library::judge(numbers, starts, record);
    let expected = Refusal::from(judge_by_rules(numbers, starts, record));
    assert_eq!(answer, expected, "{}", say(asked, from, seed));
    if record.len() <= LINE * SMALL && numbers.len() < 2_000 {
        assert_eq!(answer, judge(numbers, starts, record).into(), "{}", say(asked, from, seed));
    }
    answer
}

fn say(asked: &Asked, from: &str, seed: u64) -> String {
    let input = match asked.numbers.len() + asked.record.len() {
        0..2_000 => format!("{asked:?}"),
        _ => "a long input".to_string(),
    };
    format!("library, then reference; {from}, seed {seed}, {input}")
}

/// Every kind of change to records of drains and of runs.
#[test]
fn changed_records() {
    let tally = Mutex::new(Tally::new());
    for_seeds("changed records", cases(), |seed| {
        let mut random = Random::new(seed);
        let source = Source::usual(&mut random);
        let mut records = 0;
        for (kind, change) in CHANGES.iter().enumerate() {
            let Some(asked) = change.make(&mut random, &source) else { continue };
            let answer = compare(&asked, change.name, seed);
            tally.lock().expect("no other test has it").add(kind, &asked, answer);
            records += 1;
        }
        records
    });
    let tally = tally.into_inner().expect("no other test has it");
    tally.print();
    tally.assert_answers(cases() >= CASES);
}

/// A small graph's record of at most so many lines, with the judge that asks rule by rule ready for it.
fn with_small_record(seed: u64, longest: usize, test: impl Fn(&mut Random, &Asked, &Judge) -> u64) -> u64 {
    let mut random = Random::new(seed);
    let source = loop {
        let source = Source::small(&mut random);
        if source.lines.len() <= longest {
            break source;
        }
    };
    let asked = source.asked();
    assert_eq!(check(&asked.numbers), Ok(()));
    let graph = decode(&asked.numbers);
    let judge = Judge::new(&graph, &asked.starts).expect("good starts");
    test(&mut random, &asked, &judge)
}

/// Compares a record with one line changed; the numbers and starts are those of the judge.
fn compare_line(asked: &Asked, judge: &Judge, line: usize, numbers: [u32; LINE], seed: u64) {
    let mut changed = asked.clone();
    changed.record[LINE * line..LINE * (line + 1)].copy_from_slice(&numbers);
    let answer = library::judge(&changed.numbers, &changed.starts, &changed.record);
    assert_eq!(answer, judge.judge(&changed.record).into(), "{}", say(&changed, "one line", seed));
}

fn line_of(asked: &Asked, line: usize) -> [u32; LINE] {
    asked.record[LINE * line..LINE * (line + 1)].try_into().expect("a line has six numbers")
}

/// Every number of every line of small records, at and past the bounds of its kind.
#[test]
fn every_number_of_small_records() {
    for_seeds("numbers of small records", cases(), |seed| {
        with_small_record(seed, 30, |_, asked, judge| {
            let (modules, symbols) = (asked.numbers[2], asked.numbers[3]);
            let lines = asked.record.len() / LINE;
            let mut records = 0;
            for line in 0..lines {
                for number in 0..LINE {
                    let near = [modules - 1, modules, symbols - 1, symbols, line as u32 + 1, lines as u32 + 1];
                    let far = [15, 31, 32, u32::MAX - 1, u32::MAX];
                    for to in (0..8).chain(near).chain(far) {
                        let mut numbers = line_of(asked, line);
                        numbers[number] = to;
                        compare_line(asked, judge, line, numbers, seed);
                        records += 1;
                    }
                }
            }
            records
        })
    });
}

/// Every line of small records by every rule, from every line, and for K1 from every two.
#[test]
fn every_justification_of_small_records() {
    for_seeds("justifications of small records", 4 * cases(), |seed| {
        with_small_record(seed, 12, |_, asked, judge| {
            let mut records = 0;
            for line in 0..asked.record.len() / LINE {
                let [kind, first, second, ..] = line_of(asked, line);
                for rule in 0..=15 {
                    for name in 0..=line as u32 + 1 {
                        let others = if rule == 1 { 0..=line as u32 + 1 } else { 0..=1 };
                        for other in others {
                            compare_line(asked, judge, line, [kind, first, second, rule, name, other], seed);
                            records += 1;
                        }
                    }
                }
            }
            records
        })
    });
}

/// Numbers, starts and record of every length up to their own, with the others whole, and a number more.
#[test]
fn every_length() {
    for_seeds("lengths", cases(), |seed| {
        with_small_record(seed, 30, |random, asked, _| {
            let mut records = 0;
            let mut compare_one = |change: &dyn Fn(&mut Asked)| {
                let mut changed = asked.clone();
                change(&mut changed);
                compare(&changed, "length", seed);
                records += 1;
            };
            for length in 0..asked.numbers.len() {
                compare_one(&|asked| asked.numbers.truncate(length));
            }
            for length in 0..asked.starts.len() {
                compare_one(&|asked| asked.starts.truncate(length));
            }
            for length in 0..asked.record.len() {
                compare_one(&|asked| asked.record.truncate(length));
            }
            let more = random.below(8);
            compare_one(&|asked| asked.numbers.push(more));
            compare_one(&|asked| asked.starts.push(more));
            compare_one(&|asked| asked.record.push(more));
            records
        })
    });
}

/// Every fact of a small graph by every rule from one start.
#[test]
fn every_step_of_small_graphs() {
    for_seeds("steps of small graphs", 8 * cases(), |seed| {
        let (source, steps) = Source::steps(&mut Random::new(seed));
        let Asked { numbers, starts, .. } = source.asked();
        let judge = Judge::new(&source.graph, &starts).expect("a good start");
        for step in &steps {
            let record = step.concat();
            let expected = judge.judge(&record).into();
            assert_eq!(
                library::judge(&numbers, &starts, &record),
                expected,
                "library, then reference; seed {seed}, starts {starts:?}, record {record:?}, numbers {numbers:?}"
            );
        }
        steps.len() as u64
    });
}

/// Largest graphs are slow to make, so few of them: a few starts, every statement, and the run, whole and changed.
#[test]
fn largest_graphs() {
    for_seeds("largest graphs", cases() / 50_000, |seed| {
        let mut random = Random::new(seed);
        let graph = generate::graph(&mut random, Size::largest());
        let every = every_statement(&graph);
        let sources = [Source::drain(&mut random, graph.clone()), Source::of(graph.clone(), every), Source::run(graph)];
        let mut records = 0;
        for source in &sources {
            assert_eq!(compare(&source.asked(), "largest", seed), Refusal::PASSED);
            records += 1;
            for change in &CHANGES {
                let Some(asked) = change.make(&mut random, source) else { continue };
                compare(&asked, change.name, seed);
                records += 1;
            }
        }
        records
    });
}

/// Counts at which the library takes larger tables: what the last of everything and every statement keep, and the run,
/// whole and with a change.
#[test]
fn edges_of_sizes() {
    for_seeds("edges of sizes", cases() / 200, |seed| {
        let mut random = Random::new(seed);
        for counts in at_edges() {
            let graph = graph_of(&mut random, counts);
            let [last, every] = [last_starts(&graph), every_statement(&graph)];
            for source in [Source::of(graph.clone(), last), Source::of(graph.clone(), every), Source::run(graph)] {
                assert_eq!(compare(&source.asked(), "edge", seed), Refusal::PASSED, "{counts:?}");
                let change = &CHANGES[random.index(CHANGES.len())];
                if let Some(asked) = change.make(&mut random, &source) {
                    compare(&asked, change.name, seed);
                }
            }
        }
        3 * at_edges().len() as u64
    });
}

fn every_statement(graph: &peer::model::Graph) -> Vec<u32> {
    let mut starts = Vec::new();
    for (index, module) in (0..).zip(&graph.modules) {
        starts.extend((0..module.statements.len() as u32).flat_map(|number| [2, index, number]));
    }
    starts
}

/// The main stage of the runs that are measured, whole and without its last line if it has one.
#[test]
fn loads_of_the_benchmark() {
    with_stack(|| {
        for load in &LOADS {
            let mut asked = Source::run(load.graph()).asked();
            assert_eq!(compare(&asked, load.name, 0), Refusal::PASSED);
            let Some(length) = asked.record.len().checked_sub(LINE) else { continue };
            asked.record.truncate(length);
            let place = (length / LINE) as u64;
            assert_eq!(compare(&asked, load.name, 0), Refusal { number: 6, place });
        }
    });
}

#[test]
fn printed_case() {
    with_stack(|| {
        let starts = [6, 1, 0, 1, 1, 0];
        let record = [6, 1, 0, 0, 0, 0, 1, 1, 0, 0, 0, 0, 2, 1, 1, 2, 2, 0];
        assert_eq!(library::judge(&PRINTED, &starts, &record), Refusal::PASSED);
        assert_eq!(library::judge(&PRINTED, &[], &[]), Refusal::PASSED);
        assert_eq!(library::judge(&PRINTED, &starts, &record[..12]), Refusal { number: 6, place: 2 });
        assert_eq!(library::judge(&PRINTED, &starts[3..], &record), Refusal { number: 6, place: 0 });
        assert_eq!(library::judge(&PRINTED, &starts, &[]), Refusal { number: 6, place: 0 });
    });
}
