//! The linked library's effects against the reference, on many graphs.
//!
//! KEEP_CASES is how many graphs there are at least (200,000 if it is not set; some tests take a part of it), KEEP_SEED
//! the first seed. To see one failing seed again: `KEEP_SEED=seed KEEP_CASES=1`.

mod seeds;

use compare::library;
use lizdakk::with_stack;
use peer::generate::counted::{at_edges, graph_of};
use peer::generate::{self, Random, Size};
use peer::model::{Graph, Module, Record, Statement, Symbol};
use peer::{reference, Refusal};
use seeds::for_seeds;

const CASES: u64 = 200_000;
/// Words on either side of a lent row that no one may touch.
const GUARD: usize = 3;

fn cases() -> u64 {
    seeds::cases(CASES)
}

/// Compares the answers of both and every word of the lent rows.
fn compare(numbers: &[u32], room: usize, random: &mut Random, from: &str, seed: u64) -> Refusal {
    let lent: Vec<u32> = (0..room + 2 * GUARD).map(|_| random.next() as u32).collect();
    let (mut row, mut expected_row) = (lent.clone(), lent.clone());
    let answer = library::effects(numbers, &mut row[GUARD..GUARD + room]);
    let expected = reference::effects(numbers, &mut expected_row[GUARD..GUARD + room]);
    let say = || format!("library, then reference; {from}, seed {seed}, room {room}, numbers {numbers:?}");
    assert_eq!(answer, expected, "{}", say());
    assert_eq!(row, expected_row, "{}", say());
    if answer.number != 0 {
        assert_eq!(row, lent, "as lent; {}", say());
    }
    answer
}

/// Room enough, more than that, one too few, and any other.
fn compare_rooms(numbers: &[u32], modules: usize, random: &mut Random, from: &str, seed: u64) {
    let other = random.index(modules + 3);
    for room in [modules, modules + 2, modules - 1, other] {
        let answer = compare(numbers, room, random, from, seed);
        let expected = if room < modules { 5 } else { 0 };
        assert_eq!(answer, Refusal { number: expected, place: 0 }, "{from}, seed {seed}, room {room}");
    }
}

#[test]
fn random_graphs_whole_and_damaged() {
    for_seeds("effects of random graphs", cases(), |seed| {
        let mut random = Random::new(seed);
        let size = Size::usual(&mut random);
        let graph = generate::graph(&mut random, size);
        let encoded = graph.encode();
        compare_rooms(&encoded.numbers, graph.modules.len(), &mut random, "whole", seed);
        for _ in 0..2 {
            let damaged = generate::damaged(&mut random, &encoded);
            let room = graph.modules.len() + random.index(2);
            compare(&damaged, room, &mut random, "damaged", seed);
        }
        3
    });
}

/// Few modules of the kinds that matter, many imports: chains, circles, seeds, recomputation.
#[test]
fn graphs_of_imports() {
    for_seeds("effects of graphs of imports", cases() / 2, |seed| {
        let mut random = Random::new(seed);
        let graph = imports(&mut random);
        compare_rooms(&graph.numbers(), graph.modules.len(), &mut random, "imports", seed);
        1
    });
}

fn imports(random: &mut Random) -> Graph {
    let count = random.between(1, 12);
    let often = random.pick(&[0, 0, 15]);
    let modules = (0..count).map(|index| importer(random, index, count, often)).collect();
    let symbols = (0..count).map(|owner| Symbol { owner, root: owner, ..Symbol::default() }).collect();
    Graph { modules, symbols, ..Graph::default() }
}

fn importer(random: &mut Random, index: u32, count: u32, relaxed: u32) -> Module {
    let normal = index == 0 || random.chance(90);
    let effects = [0, 0, 0, 0, 0, 0, 1, 2, 3, 4];
    let record = |random: &mut Random| Record {
        target: random.below(count + 1),
        kind: random.below(3),
        bits: if random.chance(85) { 2 * random.below(2) } else { 1 },
    };
    Module {
        normal,
        effects: random.pick(&effects),
        scan_effects: random.pick(&effects),
        scan_statements: random.below(4),
        flags: random.below(32) | if random.chance(relaxed) { 32 } else { 0 },
        wrap: random.below(3),
        namespace: if normal { index + 1 } else { 0 },
        records: (0..random.below(3)).map(|_| record(random)).collect(),
        statements: if normal {
            vec![Statement { bits: random.below(32), ..Statement::default() }; 2]
        } else {
            Vec::new()
        },
        ..Module::default()
    }
}

/// Largest graphs are slow to make, so few of them.
#[test]
fn largest_graphs() {
    for_seeds("effects of largest graphs", cases() / 25_000, |seed| {
        let mut random = Random::new(seed);
        let graph = generate::graph(&mut random, Size::largest());
        compare_rooms(&graph.numbers(), graph.modules.len(), &mut random, "largest", seed);
        1
    });
}

/// Counts at which the library takes larger tables.
#[test]
fn edges_of_sizes() {
    for_seeds("effects at the edges of sizes", cases() / 200, |seed| {
        let mut random = Random::new(seed);
        for counts in at_edges() {
            let graph = graph_of(&mut random, counts);
            compare_rooms(&graph.numbers(), graph.modules.len(), &mut random, "edge", seed);
        }
        at_edges().len() as u64
    });
}

/// Effects at one end of a line of 1,024 modules, in both directions.
#[test]
fn longest_lines() {
    with_stack(|| {
        for backward in [false, true] {
            let graph = line(backward);
            let numbers = graph.numbers();
            compare_rooms(&numbers, 1_024, &mut Random::new(1), "longest line", 0);
            let mut row = [7; 1_024];
            assert_eq!(library::effects(&numbers, &mut row), Refusal::PASSED);
            assert_eq!(row, [1; 1_024]);
        }
    });
}

fn line(backward: bool) -> Graph {
    let module = |index: u32| {
        let target = if backward { index } else { (index + 2) % 1_025 };
        Module {
            normal: true,
            effects: u32::from(index == if backward { 0 } else { 1_023 }),
            namespace: index + 1,
            records: vec![Record { target, kind: index % 3, bits: 0 }],
            statements: vec![Statement::default()],
            ..Module::default()
        }
    };
    Graph {
        modules: (0..1_024).map(module).collect(),
        symbols: (0..1_024).map(|owner| Symbol { owner, root: owner, ..Symbol::default() }).collect(),
        ..Graph::default()
    }
}
