//! Dead imports at the end of a run (options bit 6): the linked library against the reference, with the bit against
//! without it, what the bit promises, and cases made by hand.
//!
//! KEEP_CASES is how many graphs there are at least (20,000 if it is not set), KEEP_SEED the first seed. To see one
//! failing seed again: `KEEP_SEED=seed KEEP_CASES=1`.

mod late;
mod seeds;

use compare::{library, own_starts, RunBuffers};
use late::{dead_imports, library_run, lists, LIVE_LATER, LIVE_TOO_LATE};
use lizdakk::with_stack;
use peer::generate::late::late_graph;
use peer::generate::Random;
use peer::happenings::at_end::{at_end, AT_END, DEAD_FIRST_LIVE_LATER};
use peer::model::Graph;
use peer::reference::entries::is_dynamic;
use peer::reference::rules::option::{DEAD_IMPORTS_AT_END, SPLITTING_OFF};
use peer::reference::run::Run;
use seeds::for_seeds;
use std::collections::{BTreeMap, HashSet};
use std::sync::Mutex;

const CASES: u64 = 20_000;
/// The kind of a fact: a statement is kept.
const STATEMENT: u32 = 2;

/// The entry of module 2 is live by record 1 of module 1 and has record 0 too. The entry of module 3 is dead and has
/// record 0.
#[rustfmt::skip]
const SHARED: [u32; 176] = [
    1, 0, 4, 4, 6, 3, 0, 1, 0, 0, 0, 0, 0, 0, 1, 0, 1, 0, 1, 0, 0, 0, 0, 0, 0, 0, 0, 0, 0, 1, 1, 0, 0, 0, 0, 0, 2,
    0, 3, 1, 3, 2, 3, 2, 2, 3, 2, 0, 0, 0, 0, 0, 0, 0, 0, 0, 0, 1, 0, 0, 0, 0, 0, 0, 3, 0, 1, 0, 1, 0, 0, 0, 0, 0,
    0, 0, 0, 0, 0, 1, 0, 0, 0, 16, 0, 0, 4, 0, 1, 0, 1, 0, 0, 0, 0, 0, 0, 0, 0, 0, 0, 0, 1, 0, 0, 0, 0, 0, 0, 0, 1,
    1, 1, 0, 0, 0, 0, 0, 0, 2, 1, 2, 0, 0, 0, 0, 0, 0, 3, 1, 3, 0, 0, 0, 0, 0, 0, 0, 0, 0, 0, 0, 0, 1, 0, 0, 0, 0,
    0, 0, 0, 0, 0, 0, 0, 1, 0, 0, 2, 2, 2, 1, 1, 1, 0, 1, 1, 0, 0, 3, 2, 1, 1, 1, 0, 0,
];

/// Where the related statement stands by which the live entry of [`SHARED`] has record 0.
const SHARED_STATEMENT: usize = 166;
const SHARED_UNREACHABLE: usize = 168;

fn with_options(graph: &Graph, options: u32) -> Graph {
    Graph { options, ..graph.clone() }
}

/// By entry whether it is a dynamic one of a live module: final where code is split, which moves nothing else before.
fn live_entries(graph: &Graph) -> Vec<bool> {
    let numbers = with_options(graph, graph.options & !SPLITTING_OFF).numbers();
    let run = library_run(&numbers);
    let finals: HashSet<u32> = run.entries().iter().copied().collect();
    (0..).zip(&graph.entries).map(|(index, entry)| is_dynamic(entry) && finals.contains(&index)).collect()
}

/// No dead import is one that a dynamic entry of a live module has by a kept statement, where it is reachable.
fn no_live_import_is_dead(graph: &Graph, run: &RunBuffers) {
    let lines = run.lines().filter(|line| line[0] == STATEMENT);
    let kept: HashSet<[u32; 2]> = lines.map(|line| [line[1], line[2]]).collect();
    let live = graph.entries.iter().zip(live_entries(graph)).filter(|(_, live)| *live);
    for [module, statement, record, unreachable] in live.flat_map(|(entry, _)| entry.related.iter().copied()) {
        let lives = unreachable == 0 && kept.contains(&[module, statement]);
        assert!(!lives || !run.dead(module as usize, record as usize), "record {record} of module {module}, {graph:?}");
    }
}

/// The bit moves the dead row alone, and takes bits away there; it moves no other operation.
fn only_dead_imports_move(late: &Graph, [numbers, plain]: [&[u32]; 2], end: &RunBuffers, rounds: &RunBuffers) {
    let differ = end.differences(rounds);
    assert!(differ.is_empty() || differ == ["dead"], "{differ:?}, {numbers:?}");
    assert!(dead_imports(late, end).is_subset(&dead_imports(late, rounds)), "{numbers:?}");
    let starts = own_starts(numbers).expect("a good graph");
    assert_eq!(starts, own_starts(plain).expect("a good graph"), "{numbers:?}");
    assert_eq!(library::judge(numbers, &starts, end.main_record()).number, 0, "{numbers:?}");
}

#[test]
fn late_graphs() {
    let counts = Mutex::new(AT_END.iter().map(|&name| (name, 0)).collect::<BTreeMap<&str, u64>>());
    let cases = seeds::cases(CASES);
    for_seeds("late graphs", cases, |seed| {
        let late = late_graph(&mut Random::new(seed));
        let graph = with_options(&late, late.options & !DEAD_IMPORTS_AT_END);
        let (numbers, plain) = (late.numbers(), graph.numbers());
        let (end, rounds) = (library_run(&numbers), library_run(&plain));
        let (expected_end, expected_rounds) = (Run::of(&late), Run::of(&graph));
        assert_eq!(end.listing(), expected_end.listing(&late), "seed {seed}");
        assert_eq!(rounds.listing(), expected_rounds.listing(&graph), "seed {seed}");
        only_dead_imports_move(&late, [&numbers, &plain], &end, &rounds);
        no_live_import_is_dead(&late, &end);
        let mut counts = counts.lock().expect("no test has failed");
        for name in at_end(&late, &expected_rounds, &expected_end) {
            *counts.entry(name).or_default() += 1;
        }
        1
    });
    let counts = counts.into_inner().expect("no test has failed");
    counts.iter().for_each(|(name, count)| println!("{count:>7} of {cases} graphs: {name}"));
    // A thousand graphs have some of everything; what the option is there for happens in one of twenty at least.
    if cases >= 1_000 {
        assert!(counts.values().all(|&count| count > 0), "{counts:?}");
        assert!(20 * counts[DEAD_FIRST_LIVE_LATER] >= cases, "{counts:?}");
    }
}

#[test]
fn dead_first_and_live_later() {
    with_stack(|| {
        let kept = "statement 1 1, statement 1 2, statement 3 1, used 4";
        let lines = format!("rounds 3, entry 1 0, entry 2 2, entry 3 2, {kept}");
        lists(&LIVE_LATER, 1, &lines, &["dead 1 0"]);
        lists(&LIVE_LATER, 65, &lines, &[]);
        // Where code is not split, live entries are not final ones, and live all the same.
        let lines = format!("rounds 3, entry 1 0, {kept}");
        lists(&LIVE_LATER, 33, &lines, &["dead 1 0"]);
        lists(&LIVE_LATER, 97, &lines, &[]);
    });
}

/// A try would now find the entry live, by its second import, so that the first is not dead either.
#[test]
fn live_too_late() {
    with_stack(|| {
        let lines = "rounds 1, entry 1 0, entry 3 2, statement 1 1, statement 1 2, used 4";
        lists(&LIVE_TOO_LATE, 1, lines, &["dead 1 0", "dead 1 2"]);
        lists(&LIVE_TOO_LATE, 65, lines, &[]);
    });
}

/// Kept and reachable, the live entry's import is not dead, also where code is not split and the entry not final;
/// unreachable or not kept, it does not count.
#[test]
fn an_import_of_two_entries() {
    with_stack(|| {
        let lines = "rounds 2, entry 1 0, entry 2 2, statement 1 1";
        let mut numbers = SHARED;
        for (statement, unreachable, dead) in [(1, 0, &[][..]), (1, 1, &["dead 1 0"]), (2, 0, &["dead 1 0"])] {
            (numbers[SHARED_STATEMENT], numbers[SHARED_UNREACHABLE]) = (statement, unreachable);
            lists(&numbers, 1, lines, &["dead 1 0"]);
            lists(&numbers, 65, lines, dead);
            lists(&numbers, 97, "rounds 2, entry 1 0, statement 1 1", dead);
        }
    });
}
