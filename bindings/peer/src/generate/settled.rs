//! Random graphs whose runs settle, often in more rounds than without the option, and with more that is kept and live.

use super::late::{keep_before, place_late, place_waiting, Late};
use super::runs::{import_graph, link_dynamically, place_bailout, run_graph, small_run_graph};
use super::{shuffle, Random};
use crate::model::{Entry, Graph, Module, Record, Statement, Symbol};
use crate::reference::rules::option::{DEAD_IMPORTS_AT_END, SETTLE};

const STATIC_IMPORT: u32 = 0;
const DYNAMIC_IMPORT: u32 = 2;

/// A graph for a run, with the option; mostly with statements that come late, and with entries and bailouts that wait
/// for them.
pub fn settled_graph(random: &mut Random) -> Graph {
    let mut graph = match random.below(10) {
        0..=2 => imports(random),
        3..=5 => small_run_graph(random),
        _ => run_graph(random),
    };
    if random.chance(15) {
        place_meeting(random, &mut graph);
    }
    graph.options |= SETTLE | if random.chance(40) { DEAD_IMPORTS_AT_END } else { 0 };
    while random.chance(65) {
        if let Some(late) = place_late(random, &mut graph) {
            wait_for(random, &mut graph, late);
        }
    }
    if random.chance(20) {
        shuffle(random, &mut graph.entries);
    }
    graph
}

/// Imports and entries, and nothing that is kept without them.
fn imports(random: &mut Random) -> Graph {
    let mut graph = import_graph(random);
    // Its first module is a normal one.
    graph.entries.push(Entry::default());
    graph
}

/// Modules that are on a cycle or not as the order of their entries has it. The third and the fifth import each other,
/// the third by way of the fourth. The walk from the second finds that, unless the one from the first came before: that
/// one goes into the fourth by itself, and no later walk goes into the third, which was mentioned.
fn place_meeting(random: &mut Random, graph: &mut Graph) {
    let (modules, symbols) = (graph.modules.len() as u32, graph.symbols.len() as u32);
    let imports: [&[(u32, u32)]; 5] = [
        &[(3, STATIC_IMPORT), (2, DYNAMIC_IMPORT)],
        &[(2, DYNAMIC_IMPORT)],
        &[(3, STATIC_IMPORT)],
        &[(4, DYNAMIC_IMPORT)],
        &[(2, DYNAMIC_IMPORT)],
    ];
    for (index, imports) in (0..).zip(imports) {
        let record = |&(to, kind): &(u32, u32)| Record { target: modules + to + 1, kind, bits: 0 };
        let (records, statements) = (imports.iter().map(record).collect(), vec![Statement::default()]);
        let namespace = symbols + index + 1;
        graph.modules.push(Module { normal: true, namespace, records, statements, ..Module::default() });
        graph.symbols.push(Symbol { owner: modules + index, root: symbols + index, ..Symbol::default() });
    }
    for index in [0, 1, 4] {
        let place = random.index(graph.entries.len() + 1);
        graph.entries.insert(place, Entry { module: modules + index, kind: DYNAMIC_IMPORT, related: Vec::new() });
    }
}

/// What else waits for a statement that comes late. Mostly a module that brings one is kept before, so that no module
/// becomes kept with it.
fn wait_for(random: &mut Random, graph: &mut Graph, late: Late) {
    if random.chance(70) {
        keep_before(graph, late.importer, late.by);
    }
    match random.below(10) {
        0..=2 => place_external(random, graph, &late),
        3..=5 => place_late_bailout(random, graph, &late),
        _ if graph.modules[late.to as usize].normal => {
            let to = random.below(graph.modules.len() as u32);
            let next = place_waiting(random, graph, [late.importer, late.to, to]);
            wait_for(random, graph, next);
        }
        _ => {}
    }
}

/// An external entry that waits for the statement too: it becomes live, and nothing follows from it.
fn place_external(random: &mut Random, graph: &mut Graph, late: &Late) {
    let external = graph.modules.len() as u32;
    graph.modules.push(Module::default());
    let records = &mut graph.modules[late.importer as usize].records;
    let related = vec![[late.importer, late.statement, records.len() as u32, 0]];
    records.push(Record { target: external + 1, kind: DYNAMIC_IMPORT, bits: 0 });
    let place = random.index(graph.entries.len());
    graph.entries.insert(place, Entry { module: external, kind: DYNAMIC_IMPORT, related });
}

/// A bailout of a CommonJS module by the statement, often of a module that is kept before; at times an entry that waits
/// for the statement which its exports keep.
fn place_late_bailout(random: &mut Random, graph: &mut Graph, late: &Late) {
    let normal: Vec<u32> = (0..).zip(&graph.modules).filter(|(_, of)| of.normal).map(|(module, _)| module).collect();
    let legacy = random.pick(&normal);
    place_bailout(random, graph, late.importer, legacy);
    if random.chance(70) {
        keep_before(graph, late.importer, legacy);
    }
    if random.chance(50) {
        let module = random.below(graph.modules.len() as u32);
        link_dynamically(random, graph, legacy, module);
    }
}
