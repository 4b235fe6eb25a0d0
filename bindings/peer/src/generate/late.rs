//! Random graphs whose dead imports are worked out after the last round, often others than those that the rounds mark.

use super::runs::{run_graph, small_run_graph};
use super::Random;
use crate::model::{Entry, Graph, Record, Statement, Symbol};
use crate::reference::rules::option::DEAD_IMPORTS_AT_END;

const DYNAMIC_IMPORT: u32 = 2;
const PURE: u32 = 2;
const SIDE_EFFECT: u32 = 1;

/// A graph for a run, with the option; mostly with an entry that waits for a statement which comes late, and with
/// imports that entries have in common.
pub fn late_graph(random: &mut Random) -> Graph {
    let mut graph = if random.chance(25) { small_run_graph(random) } else { run_graph(random) };
    graph.options |= DEAD_IMPORTS_AT_END;
    while random.chance(60) {
        place_late(random, &mut graph);
    }
    while random.chance(60) {
        share_import(random, &mut graph);
    }
    graph
}

fn dynamic_entries(graph: &Graph) -> Vec<usize> {
    (0..graph.entries.len()).filter(|&entry| graph.entries[entry].kind == DYNAMIC_IMPORT).collect()
}

/// An entry of the module `to` that waits for a statement of `importer`, which comes with an entry of `by`.
pub(super) struct Late {
    pub importer: u32,
    pub by: u32,
    pub to: u32,
    pub statement: u32,
}

/// An entry that waits for a statement which comes with another entry, itself imported by a user-defined entry's module;
/// none if the graph has no such entries. If the other one's module is kept before, this makes no further round.
pub(super) fn place_late(random: &mut Random, graph: &mut Graph) -> Option<Late> {
    let normal = |entry: &&Entry| graph.modules[entry.module as usize].normal;
    let (dynamic, user_defined): (Vec<&Entry>, Vec<&Entry>) =
        graph.entries.iter().filter(normal).partition(|entry| entry.kind == DYNAMIC_IMPORT);
    if dynamic.is_empty() || user_defined.is_empty() {
        return None;
    }
    let (importer, by) = (random.pick(&user_defined).module, random.pick(&dynamic).module);
    let bringing = import(random, graph, importer, by, SIDE_EFFECT);
    graph.entries.push(Entry { module: by, kind: DYNAMIC_IMPORT, related: vec![bringing] });
    let to = random.below(graph.modules.len() as u32);
    let late = place_waiting(random, graph, [importer, by, to]);
    if random.chance(50) {
        keep_before(graph, importer, by);
    }
    Some(late)
}

/// A pure import of a new dynamic entry in the last statement of an importer, which comes with the entries of `by`.
pub(super) fn place_waiting(random: &mut Random, graph: &mut Graph, [importer, by, to]: [u32; 3]) -> Late {
    let waiting = import(random, graph, importer, to, 0);
    let place = random.index(graph.entries.len());
    graph.entries.insert(place, Entry { module: to, kind: DYNAMIC_IMPORT, related: vec![waiting] });
    let (symbol, [_, statement, ..]) = (graph.symbols.len() as u32, waiting);
    graph.symbols.push(Symbol { owner: importer, root: symbol, declaring: vec![statement], ..Symbol::default() });
    graph.modules[by as usize].entry_references.push(symbol);
    Late { importer, by, to, statement }
}

/// A module is kept with its importer, for its effects.
pub(super) fn keep_before(graph: &mut Graph, importer: u32, module: u32) {
    let kept = &mut graph.modules[module as usize];
    (kept.effects, kept.scan_effects) = (1, 1);
    graph.modules[importer as usize].dependencies.push(module);
}

/// A new statement of an importer with a pure import, as a related statement.
fn import(random: &mut Random, graph: &mut Graph, importer: u32, to: u32, bits: u32) -> [u32; 4] {
    let module = &mut graph.modules[importer as usize];
    let (statement, record) = (module.statements.len() as u32, module.records.len() as u32);
    module.records.push(Record { target: to + 1, kind: random.pick(&[0, 0, DYNAMIC_IMPORT]), bits: PURE });
    module.statements.push(Statement { bits, records: vec![record], ..Statement::default() });
    [importer, statement, record, 0]
}

/// One dynamic entry has an import of another one too: in the same statement, in another one, or unreachable.
fn share_import(random: &mut Random, graph: &mut Graph) {
    let dynamic = dynamic_entries(graph);
    if dynamic.is_empty() {
        return;
    }
    let (from, to) = (random.pick(&dynamic), random.pick(&dynamic));
    let related = &graph.entries[from].related;
    if related.is_empty() {
        return;
    }
    let [module, statement, record, unreachable] = random.pick(related);
    let statements = graph.modules[module as usize].statements.len() as u32;
    let statement = if random.chance(50) { statement } else { random.below(statements) };
    graph.modules[module as usize].records[record as usize].bits |= PURE;
    let unreachable = if random.chance(30) { 1 - unreachable } else { unreachable };
    graph.entries[to].related.push([module, statement, record, unreachable]);
}
