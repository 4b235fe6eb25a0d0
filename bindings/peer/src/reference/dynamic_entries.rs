//! Dynamic entries: the order in which they are tried, which of them are on a cycle, and whether one is live.

use super::rules::{Fact, Rules};
use crate::model::{Entry, Graph, Module};
use std::cmp::Reverse;

const DYNAMIC_IMPORT: u32 = 2;
/// Bit of a record: a pure dynamic import at the top level.
const PURE: u32 = 2;
/// Bit of a module's flags: its dynamic imports use no export.
const NO_EXPORT_USED: u32 = 16;

/// Which module leads to which by a dynamic import, as far as the walks from the dynamic entries find it.
#[derive(Debug, Default)]
pub struct OrderingGraph {
    /// The modules, by first mention.
    pub nodes: Vec<u32>,
    /// By node: the nodes that its edges go to, by first adding.
    pub successors: Vec<Vec<usize>>,
    /// By module: its node plus 1, 0 if it is not mentioned.
    places: Vec<usize>,
    /// By node: to which modules an edge goes from it.
    edges: Vec<Vec<bool>>,
}

/// A module whose records are being walked.
struct Frame<'a> {
    module: &'a Module,
    /// The record that comes next.
    next: usize,
    /// The module that edges go from.
    root: u32,
}

/// A walk over the imports from a dynamic entry.
struct Walk<'a> {
    graph: &'a Graph,
    number: u32,
    /// By module: the number of the last walk that came by.
    visited: Vec<u32>,
    stack: Vec<Frame<'a>>,
}

impl Walk<'_> {
    /// Goes into a module, unless this walk was there before or it is external.
    fn visit(&mut self, index: u32, root: u32) {
        let last = std::mem::replace(&mut self.visited[index as usize], self.number);
        let module = &self.graph.modules[index as usize];
        if last != self.number && module.normal {
            self.stack.push(Frame { module, next: 0, root });
        }
    }
}

impl OrderingGraph {
    /// The graph that the walks from these entries leave, each with nothing visited at first.
    pub fn new(graph: &Graph, entries: &[u32]) -> OrderingGraph {
        let modules = graph.modules.len();
        let mut ordering = OrderingGraph { places: vec![0; modules], ..OrderingGraph::default() };
        let mut walk = Walk { graph, number: 0, visited: vec![0; modules], stack: Vec::new() };
        for &entry in entries {
            walk.number += 1;
            ordering.walk(&mut walk, graph.entries[entry as usize].module);
        }
        ordering
    }

    fn walk(&mut self, walk: &mut Walk, from: u32) {
        walk.visit(from, from);
        while let Some(frame) = walk.stack.last_mut() {
            let Some(record) = frame.module.records.get(frame.next) else {
                walk.stack.pop();
                continue;
            };
            frame.next += 1;
            let root = frame.root;
            let Some(target) = record.target.checked_sub(1) else { continue };
            if record.kind != DYNAMIC_IMPORT {
                walk.visit(target, root);
            } else if target == root || self.add_edge(root, target) {
                walk.visit(target, target);
            }
        }
    }

    /// Adds an edge unless it is there; whether its end was not mentioned before.
    fn add_edge(&mut self, from: u32, to: u32) -> bool {
        let seen = self.places[to as usize] != 0;
        let from = self.node(from);
        if !std::mem::replace(&mut self.edges[from][to as usize], true) {
            let to = self.node(to);
            self.successors[from].push(to);
        }
        !seen
    }

    /// The node of a module, a new one if it was not mentioned before.
    fn node(&mut self, module: u32) -> usize {
        let modules = self.places.len();
        let place = &mut self.places[module as usize];
        if *place == 0 {
            self.nodes.push(module);
            self.successors.push(Vec::new());
            self.edges.push(vec![false; modules]);
            *place = self.nodes.len();
        }
        *place - 1
    }

    /// The strongly connected components, as nodes, in the order in which a depth-first walk completes them.
    pub fn components(&self) -> Vec<Vec<usize>> {
        let count = self.nodes.len();
        let mut search = Search {
            successors: &self.successors,
            numbers: vec![0; count],
            lowest: vec![0; count],
            open: vec![false; count],
            stack: Vec::new(),
            reached: 0,
            components: Vec::new(),
        };
        for node in 0..count {
            if search.numbers[node] == 0 {
                search.visit(node);
            }
        }
        search.components
    }
}

/// Tarjan's search.
struct Search<'a> {
    successors: &'a [Vec<usize>],
    /// By node: when it was reached, from 1; 0 if it was not.
    numbers: Vec<usize>,
    /// By node: the lowest number on the stack that its walk leads back to.
    lowest: Vec<usize>,
    /// By node: whether it is on the stack.
    open: Vec<bool>,
    stack: Vec<usize>,
    reached: usize,
    components: Vec<Vec<usize>>,
}

impl Search<'_> {
    fn visit(&mut self, node: usize) {
        self.reached += 1;
        self.numbers[node] = self.reached;
        self.lowest[node] = self.reached;
        self.open[node] = true;
        self.stack.push(node);
        for &next in &self.successors[node] {
            if self.numbers[next] == 0 {
                self.visit(next);
                self.lowest[node] = self.lowest[node].min(self.lowest[next]);
            } else if self.open[next] {
                self.lowest[node] = self.lowest[node].min(self.numbers[next]);
            }
        }
        if self.lowest[node] == self.numbers[node] {
            self.complete(node);
        }
    }

    /// The component whose first node this is: all from it up on the stack.
    fn complete(&mut self, node: usize) {
        let first = self.stack.iter().rposition(|&other| other == node).expect("an open node is on the stack");
        let component = self.stack.split_off(first);
        for &member in &component {
            self.open[member] = false;
        }
        self.components.push(component);
    }
}

/// The dynamic entries in the order in which they are tried.
#[derive(Debug)]
pub struct Sorted {
    pub entries: Vec<u32>,
    /// By module: whether it is on a cycle of the ordering graph.
    pub on_cycle: Vec<bool>,
}

/// Sorts dynamic entries: those on a cycle or outside the ordering graph, then the others by falling component number.
pub fn sorted(graph: &Graph, entries: &[u32]) -> Sorted {
    let ordering = OrderingGraph::new(graph, entries);
    let mut on_cycle = vec![false; graph.modules.len()];
    let mut numbers = vec![usize::MAX; graph.modules.len()];
    for (number, component) in ordering.components().into_iter().enumerate() {
        let alone = component.len() == 1;
        for node in component {
            let module = ordering.nodes[node] as usize;
            on_cycle[module] = !alone;
            if alone {
                numbers[module] = number;
            }
        }
    }
    let mut entries = entries.to_vec();
    entries.sort_by_key(|&entry| Reverse(numbers[graph.entries[entry as usize].module as usize]));
    Sorted { entries, on_cycle }
}

/// What a try of a dynamic entry finds.
#[derive(Debug, PartialEq, Eq)]
pub enum Try {
    Live,
    /// Module and record of the imports that are dead with the entry.
    Dead(Vec<[u32; 2]>),
}

/// Looks for a live one among the related statements of an entry that is on no cycle; the first one ends the search.
pub fn search(rules: &Rules, entry: &Entry, is_kept: impl Fn(Fact) -> bool) -> Try {
    let unused = rules.module(entry.module).flags & NO_EXPORT_USED != 0;
    let mut dead = Vec::new();
    for &[module, statement, record, unreachable] in &entry.related {
        if unreachable != 0 {
            continue;
        }
        let droppable = is_droppable(rules, module, record);
        if is_kept(Fact::Statement(module, statement)) && !(unused && droppable) {
            return Try::Live;
        }
        if droppable {
            dead.push([module, record]);
        }
    }
    Try::Dead(dead)
}

/// Module and record of the imports by which an entry is related to kept statements, as far as they can be reached.
pub fn kept_imports(entry: &Entry, is_kept: impl Fn(Fact) -> bool) -> Vec<[u32; 2]> {
    let is_kept = |&&[module, statement, _, unreachable]: &&[u32; 4]| {
        unreachable == 0 && is_kept(Fact::Statement(module, statement))
    };
    entry.related.iter().filter(is_kept).map(|&[module, _, record, _]| [module, record]).collect()
}

/// Whether an import is pure and its module has no effects.
fn is_droppable(rules: &Rules, module: u32, record: u32) -> bool {
    let record = &rules.module(module).records[record as usize];
    record.bits & PURE != 0 && !rules.effectful(record.target - 1)
}
