//! Runs that settle (options bit 7): the linked library against the reference, with the bit against without it, what the
//! bit promises against a plain fixpoint, entries in other orders, and cases made by hand.
//!
//! KEEP_CASES is how many graphs there are at least (20,000 if it is not set), KEEP_SEED the first seed. To see one
//! failing seed again: `KEEP_SEED=seed KEEP_CASES=1`.

mod late;
mod seeds;

use compare::{library, own_starts, RunBuffers};
use late::{dead_imports, library_run, lists, LIVE_LATER, LIVE_TOO_LATE};
use lizdakk::with_stack;
use peer::generate::settled::settled_graph;
use peer::generate::{shuffle, Random};
use peer::happenings::settled::{settled, LIVE_BY_SETTLING, SETTLED};
use peer::model::{Entry, Graph, Module, Record, Statement, Symbol};
use peer::reference::dynamic_entries::{search, Try};
use peer::reference::entries::is_dynamic;
use peer::reference::rules::option::{DEAD_IMPORTS_AT_END, SETTLE, SPLITTING_OFF};
use peer::reference::rules::{Fact, Rules};
use peer::reference::run::Run;
use peer::reference::settled::{on_cycle, smallest_choice, Choice};
use peer::reference::starts::Starts;
use peer::Refusal;
use seeds::for_seeds;
use std::collections::{BTreeMap, BTreeSet};
use std::sync::Mutex;

const CASES: u64 = 20_000;
const DYNAMIC_IMPORT: u32 = 2;
/// Bit of a record: a pure dynamic import at the top level.
const PURE: u32 = 2;

/// The entry of the external module 2 is live in round 1, by a statement of the user-defined entry's module 1.
#[rustfmt::skip]
const EXTERNAL: [u32; 113] = [
    1, 0, 3, 2, 3, 2, 0, 1, 0, 0, 0, 0, 0, 0, 1, 0, 1, 0, 1, 0, 0, 0, 0, 0, 0, 0, 0, 0, 0, 1, 1, 0, 0, 0, 0, 0, 2,
    0, 2, 1, 2, 1, 3, 2, 0, 0, 0, 0, 0, 0, 0, 0, 0, 0, 0, 0, 0, 0, 0, 0, 0, 0, 0, 0, 0, 0, 0, 0, 0, 0, 0, 0, 0, 0,
    0, 0, 0, 1, 0, 0, 0, 0, 0, 0, 0, 1, 1, 1, 0, 0, 0, 0, 0, 0, 0, 0, 0, 0, 0, 0, 1, 0, 0, 1, 0, 0, 2, 2, 1, 1, 1,
    0, 0,
];

/// Modules that import each other, all but their entries. Module 6 is the user-defined entry's.
#[rustfmt::skip]
const BEFORE_ENTRIES: [u32; 263] = [
    129, 0, 7, 7, 7, 4, 0, 1, 0, 0, 0, 0, 0, 0, 1, 0, 1, 0, 1, 0, 0, 0, 0, 0, 0, 0, 0, 0, 0, 1, 0, 0, 0, 0, 0, 0, 2,
    0, 1, 0, 1, 2, 5, 0, 0, 4, 2, 0, 0, 0, 0, 0, 0, 0, 0, 0, 0, 1, 0, 0, 0, 0, 0, 0, 3, 0, 1, 0, 1, 1, 4, 2, 0, 0,
    0, 0, 0, 0, 0, 0, 0, 0, 1, 0, 0, 0, 0, 0, 0, 4, 0, 1, 0, 1, 1, 5, 0, 0, 0, 0, 0, 0, 0, 0, 0, 0, 0, 1, 0, 0, 0,
    0, 0, 0, 5, 0, 1, 0, 1, 1, 6, 2, 0, 0, 0, 0, 0, 0, 0, 0, 0, 0, 1, 0, 0, 0, 0, 0, 0, 6, 0, 1, 0, 1, 1, 4, 2, 0,
    0, 0, 0, 0, 0, 0, 0, 0, 0, 1, 1, 0, 0, 0, 0, 0, 7, 0, 1, 1, 1, 0, 0, 0, 0, 0, 0, 0, 0, 0, 0, 0, 1, 0, 0, 0, 0,
    0, 0, 0, 1, 1, 1, 0, 0, 0, 0, 0, 0, 2, 1, 2, 0, 0, 0, 0, 0, 0, 3, 1, 3, 0, 0, 0, 0, 0, 0, 4, 1, 4, 0, 0, 0, 0,
    0, 0, 5, 1, 5, 0, 0, 0, 0, 0, 0, 6, 1, 6, 0, 0, 0, 0, 0, 0, 0, 0, 0, 0, 0, 0, 0, 0, 0, 0, 0, 0, 0, 0, 0, 0, 0,
    0, 0, 0, 0,
];
/// Dynamic entries of modules 1, 2 and 5. The walk from module 1 comes to 4 by a static import, and edges go from 1.
const WITHOUT_CYCLE: [u32; 12] = [6, 0, 0, 1, 2, 0, 2, 2, 0, 5, 2, 0];
/// The walk from module 2 comes to 4 from 3, and edges go from 3 to 5, and back.
const WITH_CYCLE: [u32; 12] = [6, 0, 0, 2, 2, 0, 1, 2, 0, 5, 2, 0];

fn with_options(graph: &Graph, options: u32) -> Graph {
    Graph { options, ..graph.clone() }
}

fn dynamic_entries(graph: &Graph) -> impl Iterator<Item = &Entry> {
    graph.entries.iter().filter(|entry| is_dynamic(entry))
}

/// The facts of the library's main stage and the modules that are live as dynamic entries. Those entries are final where
/// code is split, which moves nothing before.
fn choice(graph: &Graph) -> Choice {
    let numbers = with_options(graph, graph.options & !SPLITTING_OFF).numbers();
    let run = library_run(&numbers);
    let finals = run.entries().iter().map(|&entry| &graph.entries[entry as usize]);
    Choice {
        facts: run.lines().map(|line| Fact::of([line[0], line[1], line[2]])).collect(),
        live: finals.filter(|entry| is_dynamic(entry)).map(|entry| entry.module).collect(),
    }
}

/// Library and reference give the same rows, marks, record, answer and own starts; the judge passes the record with them.
fn agree(numbers: &[u32], run: &RunBuffers, graph: &Graph, expected: &Run) {
    let expected = RunBuffers::of_reference(numbers, expected).expect("a good graph");
    assert!(run.differences(&expected).is_empty(), "{:?}, {numbers:?}", run.differences(&expected));
    let starts = own_starts(numbers).expect("a good graph");
    assert_eq!(starts, Starts::of(graph).triples(), "{numbers:?}");
    assert_eq!(library::judge(numbers, &starts, run.main_record()), Refusal::PASSED, "{numbers:?}");
}

/// The run that settles begins with the lines of the run that does not, and has its live entries.
fn goes_on_from(plain: &RunBuffers, settled: &RunBuffers, live: [&BTreeSet<u32>; 2], numbers: &[u32]) {
    assert!(settled.main_record().starts_with(plain.main_record()), "{numbers:?}");
    assert!(settled.rounds() >= plain.rounds(), "{numbers:?}");
    assert!(live[0].is_subset(live[1]), "{numbers:?}");
}

/// Something moves in each round but the last, which counts too.
fn moves_until_the_last_round(graph: &Graph, run: &Run, rounds: u64) {
    let moves = run.moves();
    let moved = |round: &[usize; 2]| *round != [0, 0];
    let (last, others) = moves.split_last().expect("there is a round");
    assert!(!moved(last) && others.iter().all(moved), "{moves:?}, {graph:?}");
    assert_eq!(rounds, moves.len() as u64, "{graph:?}");
    assert!(rounds <= 2 * graph.modules.len() as u64 + 1, "{rounds} rounds, {graph:?}");
}

/// No entry is left that a try would find live.
fn no_try_would_live(graph: &Graph, choice: &Choice) {
    let rules = Rules::new(graph);
    for entry in dynamic_entries(graph).filter(|entry| !choice.live.contains(&entry.module)) {
        let found = search(&rules, entry, |fact| choice.facts.contains(&fact));
        assert!(found != Try::Live, "{entry:?}, {graph:?}");
    }
}

/// So dead imports at the end are the pure ones of all dead entries where they are reached, but for those that a live
/// entry has in a kept statement.
fn dead_at_end(graph: &Graph, choice: &Choice) -> BTreeSet<[u32; 2]> {
    let rules = Rules::new(graph);
    let reached = |live: bool| {
        let entries = dynamic_entries(graph).filter(move |entry| choice.live.contains(&entry.module) == live);
        entries.flat_map(|entry| &entry.related).filter(|related| related[3] == 0)
    };
    let is_kept = |related: &&[u32; 4]| choice.facts.contains(&Fact::Statement(related[0], related[1]));
    let is_pure = |related: &&[u32; 4]| {
        let import = &rules.module(related[0]).records[related[2] as usize];
        import.bits & PURE != 0 && !rules.effectful(import.target - 1)
    };
    let import = |related: &[u32; 4]| [related[0], related[2]];
    let exempt: BTreeSet<[u32; 2]> = reached(true).filter(is_kept).map(import).collect();
    reached(false).filter(is_pure).map(import).filter(|import| !exempt.contains(import)).collect()
}

#[test]
fn settled_graphs() {
    let counts = Mutex::new(SETTLED.iter().map(|&name| (name, 0)).collect::<BTreeMap<&str, u64>>());
    let cases = seeds::cases(CASES);
    for_seeds("settled graphs", cases, |seed| {
        let graph = settled_graph(&mut Random::new(seed));
        let plain = with_options(&graph, graph.options & !SETTLE);
        let (numbers, plain_numbers) = (graph.numbers(), plain.numbers());
        let (run, plain_run) = (library_run(&numbers), library_run(&plain_numbers));
        let (expected, expected_plain) = (Run::of(&graph), Run::of(&plain));
        agree(&numbers, &run, &graph, &expected);
        agree(&plain_numbers, &plain_run, &plain, &expected_plain);
        let (found, without) = (choice(&graph), choice(&plain));
        assert_eq!(found, smallest_choice(&graph), "seed {seed}, {graph:?}");
        goes_on_from(&plain_run, &run, [&without.live, &found.live], &numbers);
        moves_until_the_last_round(&graph, &expected, run.rounds());
        no_try_would_live(&graph, &found);
        if graph.options & DEAD_IMPORTS_AT_END != 0 {
            assert_eq!(dead_imports(&graph, &run), dead_at_end(&graph, &found), "seed {seed}, {graph:?}");
        }
        let mut counts = counts.lock().expect("no test has failed");
        for name in settled(&graph, &expected_plain, &expected) {
            *counts.entry(name).or_default() += 1;
        }
        1
    });
    let counts = counts.into_inner().expect("no test has failed");
    counts.iter().for_each(|(name, count)| println!("{count:>7} of {cases} graphs: {name}"));
    // A thousand graphs have some of everything; what the option is there for happens in one of twenty at least.
    if cases >= 1_000 {
        assert!(counts.values().all(|&count| count > 0), "{counts:?}");
        assert!(20 * counts[LIVE_BY_SETTLING] >= cases, "{counts:?}");
    }
}

/// The modules of dynamic entries that are on a cycle.
fn entries_on_cycles(graph: &Graph) -> BTreeSet<u32> {
    let on_cycle = on_cycle(graph);
    dynamic_entries(graph).map(|entry| entry.module).filter(|&module| on_cycle[module as usize]).collect()
}

/// The same graph with its entries in another order: all of them, or the dynamic ones alone.
fn reordered(random: &mut Random, graph: &Graph, all: bool) -> Graph {
    let moved: Vec<usize> = (0..graph.entries.len()).filter(|&at| all || is_dynamic(&graph.entries[at])).collect();
    let mut from = moved.clone();
    shuffle(random, &mut from);
    let mut reordered = graph.clone();
    moved.iter().zip(from).for_each(|(&to, from)| reordered.entries[to] = graph.entries[from].clone());
    reordered
}

/// How reorderings turned out.
#[derive(Debug, Default)]
struct Orders {
    equal_cycles: u64,
    other_cycles: u64,
    /// Those of the other cycles that lead to other facts or live modules.
    other_choice: u64,
    /// Those with equal cycles and another order of the record.
    other_record: u64,
}

#[test]
fn entries_in_other_orders() {
    let orders = Mutex::new(Orders::default());
    let cases = seeds::cases(CASES);
    for_seeds("entries in other orders", cases, |seed| {
        let mut random = Random::new(seed);
        let graph = settled_graph(&mut random);
        let (found, numbers) = (choice(&graph), graph.numbers());
        for all in [true, false] {
            let other = reordered(&mut random, &graph, all);
            let same = found == choice(&other);
            let mut orders = orders.lock().expect("no test has failed");
            if entries_on_cycles(&graph) == entries_on_cycles(&other) {
                assert!(same, "seed {seed}, {:?}, {:?}", graph, other.entries);
                orders.equal_cycles += 1;
                let record = |numbers: &[u32]| library_run(numbers).main_record().to_vec();
                orders.other_record += u64::from(record(&numbers) != record(&other.numbers()));
            } else {
                orders.other_cycles += 1;
                orders.other_choice += u64::from(!same);
            }
        }
        2
    });
    let orders = orders.into_inner().expect("no test has failed");
    println!("{orders:?}");
    let Orders { equal_cycles, other_cycles, other_choice, other_record } = orders;
    let counts = [equal_cycles, other_cycles, other_choice, other_record];
    assert!(cases < 1_000 || counts.iter().all(|&count| count > 0), "{orders:?}");
}

/// The modules that a run keeps, and how many lines its main stage has.
fn kept(numbers: &[u32], options: u32) -> (Vec<usize>, usize) {
    let numbers = [&[options], &numbers[1..]].concat();
    let run = library_run(&numbers);
    let modules = 0..numbers[2] as usize;
    (modules.filter(|&module| run.kept(module)).collect(), run.lines().count())
}

/// Where the last round is idle without the bit, it is with it.
#[test]
fn idle_already() {
    with_stack(|| {
        let lines = "rounds 3, entry 1 0, entry 2 2, entry 3 2, statement 1 1, statement 1 2, statement 3 1, used 4";
        for (options, dead) in [(1, &["dead 1 0"][..]), (65, &[]), (129, &["dead 1 0"]), (193, &[])] {
            lists(&LIVE_LATER, options, lines, dead);
            assert_eq!(kept(&LIVE_LATER, options), kept(&LIVE_LATER, 1));
        }
    });
}

/// The only round without the bit keeps a statement and no module. With it the second finds the entry of module 2 live,
/// and the third nothing. What the first marked as dead stays so, unless dead imports are worked out at the end.
#[test]
fn a_statement_in_the_last_round() {
    with_stack(|| {
        let dead = &["dead 1 0", "dead 1 2"];
        let kept_statements = "statement 1 1, statement 1 2, used 4";
        let lines = format!("rounds 1, entry 1 0, entry 3 2, {kept_statements}");
        lists(&LIVE_TOO_LATE, 1, &lines, dead);
        lists(&LIVE_TOO_LATE, 65, &lines, &[]);
        let lines = format!("rounds 3, entry 1 0, entry 2 2, entry 3 2, {kept_statements}");
        lists(&LIVE_TOO_LATE, 129, &lines, dead);
        lists(&LIVE_TOO_LATE, 193, &lines, &[]);
        // Where code is not split, the entries are live all the same.
        lists(&LIVE_TOO_LATE, 225, &format!("rounds 3, entry 1 0, {kept_statements}"), &[]);
        for bit_6 in [0, 64] {
            assert_eq!(kept(&LIVE_TOO_LATE, 1 + bit_6), (vec![1, 3], 7));
            assert_eq!(kept(&LIVE_TOO_LATE, 129 + bit_6), (vec![1, 2, 3], 8));
        }
    });
}

/// A live external entry gives no fact, and a round follows all the same.
#[test]
fn an_external_entry() {
    with_stack(|| {
        for (options, rounds) in [(1, 1), (129, 2)] {
            lists(&EXTERNAL, options, &format!("rounds {rounds}, entry 1 0, entry 2 2, statement 1 1"), &[]);
            assert_eq!(kept(&EXTERNAL, options), kept(&EXTERNAL, 1));
        }
    });
}

/// The order of the entries decides which modules are on a cycle, and then what is kept.
#[test]
fn an_order_with_a_cycle() {
    with_stack(|| {
        let [without, with] = [WITHOUT_CYCLE, WITH_CYCLE].map(|entries| [&BEFORE_ENTRIES[..], &entries].concat());
        lists(&without, 129, "rounds 1, entry 6 0", &[]);
        assert_eq!(kept(&without, 129).0, [6]);
        lists(&with, 129, "rounds 2, entry 6 0, entry 5 2", &[]);
        assert_eq!(kept(&with, 129).0, [5, 6]);
    });
}

/// So many modules and twice as many rounds. The first half takes one bailout each: what it keeps requires the next
/// module. From the last of them on each round finds one entry live, which brings the statement that the next one waits
/// for and that was tried before; the last round is idle.
fn most_rounds(modules: u32) -> Graph {
    const COMMONJS: u32 = 1;
    const REQUIRE: u32 = 1;
    let mut graph = Graph { options: 1 | SETTLE, ..Graph::default() };
    for index in 0..modules {
        let next = Record { target: (index + 1) % modules + 1, kind: REQUIRE, bits: 0 };
        let requires = Statement { records: vec![0], ..Statement::default() };
        graph.modules.push(Module {
            normal: true,
            exports: COMMONJS,
            namespace: index + 1,
            statements: vec![Statement::default(), requires, Statement::default()],
            records: vec![next],
            resolved_exports: vec![[1, index, 1]],
            // The user-defined entry of module 0 would bring its statement 2 before the first round.
            entry_references: if index == 0 { Vec::new() } else { vec![modules + index] },
            ..Module::default()
        });
        graph.symbols.push(Symbol { owner: index, root: index, declaring: vec![1], ..Symbol::default() });
    }
    for index in 0..modules {
        let root = modules + index;
        graph.symbols.push(Symbol { owner: index, root, declaring: vec![2], ..Symbol::default() });
    }
    let dynamic = |module: u32, related| Entry { module, kind: DYNAMIC_IMPORT, related: vec![related] };
    let (first, last) = (1 % modules, modules - 1);
    if modules > 1 {
        graph.entries.push(dynamic(0, [last, 2, 0, 0]));
        graph.entries.extend((2..modules).rev().map(|module| dynamic(module, [module - 1, 2, 0, 0])));
    }
    graph.entries.push(dynamic(first, [last, 1, 0, 0]));
    graph.entries.push(Entry::default());
    graph
}

#[test]
fn as_many_rounds_as_two_for_a_module() {
    with_stack(|| {
        for modules in (1..=40).chain([127, 128, 129, 1_023]) {
            let graph = most_rounds(modules);
            let (numbers, expected) = (graph.numbers(), Run::of(&graph));
            assert_eq!(expected.rounds, 2 * modules);
            agree(&numbers, &library_run(&numbers), &graph, &expected);
        }
    });
}

/// The next bit is none yet.
#[test]
fn options_beyond() {
    with_stack(|| {
        for options in [128, 255, 256, 257, 385, u32::MAX] {
            let numbers = [&[options], &LIVE_LATER[1..]].concat();
            let refused = if options < 256 { (0, 0) } else { (3, 0) };
            let answer = library::check(&numbers);
            assert_eq!((answer.number, answer.place), refused, "options {options}");
        }
    });
}
