//! Random graphs of given counts, and the counts at which the library takes larger tables.

use super::runs::relate_entries;
use super::{fill, options, place_modules, Lists, Random, Size};
use crate::model::Graph;
use crate::reference::graph::{ENTRIES, MODULES};

/// How many modules, symbols, statements and entries there are, in the order of a file's header.
pub type Counts = [u32; 4];

/// The largest counts for which tables of a size are taken: small, middle, large.
const EDGES: [Counts; 3] = [[16, 64, 64, 16], [128, 1_024, 1_024, 128], [1_024, 4_096, 4_096, 1_024]];

/// Counts that are below all edges.
const FEW: Counts = [5, 11, 13, 3];

/// Counts at an edge and one behind it: each alone with few of the others, and each with all others at the edge.
pub fn at_edges() -> Vec<Counts> {
    EDGES.into_iter().flat_map(around).filter(are_allowed).collect()
}

fn around(edge: Counts) -> Vec<Counts> {
    let with = |mut counts: Counts, place: usize, more: u32| {
        counts[place] = edge[place] + more;
        counts
    };
    let at = |place: usize| [with(FEW, place, 0), with(FEW, place, 1), with(edge, place, 1)];
    (0..edge.len()).flat_map(at).chain([edge]).collect()
}

fn are_allowed([modules, _, _, entries]: &Counts) -> bool {
    *modules <= MODULES && *entries <= ENTRIES
}

/// A random graph of these counts that is accepted; in half of them the entries are related to imports, as for runs.
pub fn graph_of(random: &mut Random, counts: Counts) -> Graph {
    let [modules, symbols, statements, entries] = counts;
    let mut graph = Graph { options: options(random), ..Graph::default() };
    // A normal module has a namespace and a statement of its own.
    place_modules(random, modules, symbols.min(statements) - 1, &mut graph);
    let normal = graph.modules.iter().filter(|module| module.normal).count() as u32;
    let (more_symbols, more_statements) = (symbols - normal, statements - normal);
    let (helpers, lists) = (random.below(5), Lists::up_to(random, 4));
    fill(random, Size { modules, more_symbols, more_statements, entries, helpers, lists }, &mut graph);
    if random.chance(50) {
        relate_entries(random, &mut graph);
        graph.entries.truncate(entries as usize);
    }
    graph
}

/// Starts at the last of everything: module, statement, symbol.
pub fn last_starts(graph: &Graph) -> Vec<u32> {
    let (last, symbol) = (graph.modules.len() as u32 - 1, graph.symbols.len() as u32 - 1);
    let normal = graph.modules.iter().rposition(|module| module.normal).expect("the runtime is normal");
    let (module, statement) = (normal as u32, graph.modules[normal].statements.len() as u32 - 1);
    [[2, module, statement], [1, module, 0], [3, symbol, 1], [4, symbol, 2], [6, last, 0]].concat()
}
