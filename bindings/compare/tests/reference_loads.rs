//! The graphs that runs are measured on: that they are graphs, and what their names say.

use peer::generate::PRINTED;
use peer::loads::{self, all_loads, drawn, main_loads, Draws, LOADS_SETTLED};
use peer::model::Graph;
use peer::reference::check;
use peer::reference::decode::decode;
use peer::reference::run::{listing, Run};

/// Bits that are set in a row.
fn bits(row: &[u8]) -> u32 {
    row.iter().map(|byte| byte.count_ones()).sum()
}

#[test]
fn loads_are_graphs() {
    for load in all_loads() {
        let graph = load.graph();
        let numbers = graph.numbers();
        assert_eq!(check(&numbers), Ok(()), "{}", load.name);
        let run = Run::of(&graph);
        println!(
            "{}: {} numbers, {} rounds, {} and {} lines, {} of {} modules kept, {} of {} entries final, {} dead imports",
            load.name,
            numbers.len(),
            run.rounds,
            run.lines.len(),
            run.runtime_lines.len(),
            bits(&run.modules),
            graph.modules.len(),
            run.entries.len(),
            graph.entries.len(),
            bits(&run.dead),
        );
    }
    assert_eq!(Run::of(&loads::rounds(300)).rounds, 300);
    // The last round is idle already.
    assert_eq!(LOADS_SETTLED.last().map(|load| Run::of(&load.graph()).rounds), Some(300));
}

#[test]
fn keys_differ() {
    let mut keys: Vec<&str> = all_loads().map(|load| load.key).collect();
    keys.sort_unstable();
    assert!(keys.windows(2).all(|pair| pair[0] < pair[1]), "{keys:?}");
    assert_eq!(main_loads().last().map(|load| load.key), Some("printed"));
}

#[test]
fn nothing_of_the_unkept_load_is_kept() {
    for modules in [1, 2, 17, 1_024] {
        let run = Run::of(&loads::unkept(modules));
        assert_eq!((run.lines.len(), run.runtime_lines.len(), bits(&run.modules), bits(&run.statements)), (0, 0, 0, 0));
    }
}

#[test]
fn draws() {
    let mut draws = Draws::new(0);
    assert_eq!([draws.below(10), draws.below(10)], [3, 0]);
    // Targets and kinds of three import records, then a verdict.
    let mut draws = Draws::new(0);
    assert_eq!([2, 3, 2, 3, 2, 3, 5].map(|bound| draws.below(bound)), [1, 2, 0, 2, 1, 2, 0]);
    // The carry is dropped.
    assert_eq!(Draws::new(u32::MAX).below(65_536), 0x9e37);
}

/// The smallest load of seed 0, in all its numbers: the header, the runtime, a module, symbols, statements, the entry.
#[test]
fn smallest_drawn_load() {
    #[rustfmt::skip]
    let numbers = [
        1, 0, 2, 2, 4, 1, 0,
        1, 0, 0, 0, 0, 0, 0, 1, 0, 1, 0, 1,  0, 0, 0, 0, 0, 0, 0, 0, 0, 0,
        1, 0, 0, 0, 0, 0, 0, 2, 0, 3, 0, 3,  3, 2, 2, 0, 1, 2, 0, 2, 2, 0,  3, 1, 0, 1,  0, 0, 0, 0, 0, 0, 0, 0,
        0, 1, 0, 0, 0, 0, 0, 0, 0,   1, 1, 1, 0, 0, 0, 0, 0, 0,
        0, 0, 0,   0, 0, 0,   1, 0, 0,   1, 0, 0,   1, 0, 0,
    ];
    assert_eq!(drawn(0, 2).numbers(), numbers);
    let said = "rounds 1\nentry 1 0\nmodule 0 0 0 0 0\nmodule 1 1 0 0 0\nstatement 1 1\nstatement 1 2\n";
    assert_eq!(listing(&numbers), said);
}

/// All seeds and sizes are accepted, in 52 numbers a module but for 8.
#[test]
fn drawn_loads_are_graphs() {
    for seed in [0, 1, 7, 0x61c8_8647, u32::MAX] {
        for modules in [2, 3, 16, 17, 100, 1_023, 1_024] {
            let numbers = drawn(seed, modules).numbers();
            assert_eq!(check(&numbers), Ok(()), "seed {seed}, {modules} modules");
            assert_eq!(numbers.len(), 52 * modules as usize - 8);
        }
    }
}

/// What is not drawn is as in the printed case.
#[test]
fn what_is_not_drawn() {
    let (printed, graph) = (decode(&PRINTED), drawn(5, 40));
    let text = |graph: &Graph, index: usize| format!("{:?} {:?}", graph.modules[index], graph.symbols[index]);
    assert_eq!(text(&graph, 0), text(&printed, 0));
    let entries = |graph: &Graph| format!("{:?}", graph.entries);
    assert_eq!((graph.options, graph.helpers.len(), entries(&graph)), (1, 0, entries(&printed)));
    for (index, module) in (0..).zip(&graph.modules).skip(1) {
        let targets: Vec<u32> = module.records.iter().map(|record| record.target - 1).collect();
        assert_eq!((module.dependencies.clone(), targets.len()), (targets, 3));
        assert_eq!((module.scan_effects, module.scan_statements), (module.effects, 3));
        assert_eq!(module.namespace, index + 1);
        let mut as_printed = module.clone();
        (as_printed.records, as_printed.dependencies) = (Vec::new(), Vec::new());
        (as_printed.effects, as_printed.scan_effects, as_printed.scan_statements) = (1, 1, 2);
        as_printed.namespace = 2;
        as_printed.statements.truncate(2);
        assert_eq!(format!("{as_printed:?}"), format!("{:?}", printed.modules[1]));
        assert_eq!(module.statements.iter().map(|statement| statement.bits).collect::<Vec<_>>(), [0, 1, 1]);
        let symbol = &graph.symbols[index as usize];
        assert_eq!((symbol.owner, symbol.name, symbol.root), (index, 1, index));
    }
}
