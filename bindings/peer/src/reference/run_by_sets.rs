//! The run said a second time, by sets and by definitions: without lines, queue, Tarjan's search or bits.
//!
//! Written after rolldown's `include_statements()`, apart from [`run`](mod@super::run): facts are closed anew after
//! every start, cycles are found by asking which module reaches which, and a round takes all bailouts again. Slow, and
//! for small graphs only.

use super::closure::{closure, closure_over, verdicts_by_paths, Shown};
use super::rules::Fact;
use crate::model::{Entry, Graph};
use std::collections::{BTreeSet, HashSet};

/// What a run decides, without order of lines.
#[derive(Debug, PartialEq, Eq)]
pub struct Decided {
    pub rounds: u32,
    pub starts: HashSet<Fact>,
    pub facts: HashSet<Fact>,
    pub runtime_facts: HashSet<Fact>,
    /// What the main stage shows.
    pub shown: Shown,
    /// What the runtime stage shows.
    pub runtime_shown: Shown,
    pub entries: Vec<u32>,
    /// Module and record.
    pub dead: BTreeSet<(u32, u32)>,
    pub helpers: Vec<u32>,
}

/// The run of a graph.
pub fn run_by_sets(graph: &Graph) -> Decided {
    let verdicts = verdicts_by_paths(graph);
    let grouped = by_first_of_module(graph, &(0..graph.entries.len() as u32).collect::<Vec<u32>>());
    let (user_defined, dynamic): (Vec<u32>, Vec<u32>) =
        grouped.into_iter().partition(|&entry| graph.entries[entry as usize].kind < 2);
    let order = order(graph, &dynamic);
    let mut state = State { graph, verdicts, starts: HashSet::new(), facts: HashSet::new() };
    for &entry in &user_defined {
        state.start_user_defined(graph.entries[entry as usize].module);
    }
    let (mut rounds, mut live, mut dead) = (0, BTreeSet::new(), BTreeSet::new());
    loop {
        let (before, live_before) = (state.facts.clone(), live.clone());
        state.round(&order, &mut live, &mut dead);
        rounds += 1;
        let kept = modules_in(&state.facts) != modules_in(&before);
        // A round takes the bailouts that it begins with, so it leaves the others.
        let moved = state.facts != before || live != live_before || bailouts_in(&state.facts) != bailouts_in(&before);
        let goes_on = if graph.options & 128 == 0 { kept } else { moved };
        if !goes_on {
            break;
        }
    }
    if graph.options & 64 != 0 {
        dead = state.dead_at_end(&order, &live);
    }
    let is_final = |entry: &u32| graph.options & 32 == 0 && live.contains(&graph.entries[*entry as usize].module);
    let lived = order.entries.iter().copied().filter(is_final);
    let entries = by_first_of_module(graph, &user_defined.into_iter().chain(lived).collect::<Vec<u32>>());
    state.end(rounds, entries, dead)
}

fn modules_in(facts: &HashSet<Fact>) -> BTreeSet<Fact> {
    facts.iter().copied().filter(|fact| matches!(fact, Fact::Module(_))).collect()
}

fn bailouts_in(facts: &HashSet<Fact>) -> BTreeSet<Fact> {
    facts.iter().copied().filter(|fact| matches!(fact, Fact::Bailout(_))).collect()
}

/// Entries of one module beside each other, where its first one stands.
fn by_first_of_module(graph: &Graph, entries: &[u32]) -> Vec<u32> {
    let module = |entry: u32| graph.entries[entry as usize].module;
    let mut sorted = entries.to_vec();
    sorted.sort_by_key(|&entry| entries.iter().position(|&other| module(other) == module(entry)));
    sorted
}

/// Dynamic entries in the order of their tries, and the modules on cycles.
#[derive(Debug, PartialEq, Eq)]
pub struct Order {
    pub entries: Vec<u32>,
    pub cycled: BTreeSet<u32>,
}

/// Cycle members and entries outside the graph in their order, then those that a depth-first walk finishes late.
pub fn order(graph: &Graph, dynamic: &[u32]) -> Order {
    let mut edges = Vec::new();
    for &entry in dynamic {
        let module = graph.entries[entry as usize].module;
        construct_dynamic_entry_graph(graph, &mut edges, &mut BTreeSet::new(), module, module);
    }
    let reached = reachability(graph.modules.len(), &edges);
    let meet = |one: u32, other: u32| reached[one as usize][other as usize] && reached[other as usize][one as usize];
    let all = 0..graph.modules.len() as u32;
    let on_cycle = |&module: &u32| all.clone().any(|other| other != module && meet(module, other));
    let cycled: BTreeSet<u32> = all.clone().filter(on_cycle).collect();
    let finished = finished(&edges);
    let (mut first, mut then) = (Vec::new(), Vec::new());
    for &entry in dynamic {
        let module = graph.entries[entry as usize].module;
        match finished.iter().position(|&other| other == module) {
            Some(place) if !cycled.contains(&module) => then.push((finished.len() - place, entry)),
            _ => first.push(entry),
        }
    }
    then.sort_by_key(|&(place, _)| place);
    Order { entries: first.into_iter().chain(then.into_iter().map(|(_, entry)| entry)).collect(), cycled }
}

/// The function of that name in `dynamic_entries.rs`.
fn construct_dynamic_entry_graph(
    graph: &Graph,
    edges: &mut Vec<(u32, u32)>,
    visited: &mut BTreeSet<u32>,
    root: u32,
    current: u32,
) {
    if visited.contains(&current) {
        return;
    }
    visited.insert(current);
    let module = &graph.modules[current as usize];
    if !module.normal {
        return;
    }
    for record in &module.records {
        if record.target == 0 {
            continue;
        }
        let target = record.target - 1;
        if record.kind == 2 {
            let seen = mentioned(edges).contains(&target);
            if root != target {
                if !edges.contains(&(root, target)) {
                    edges.push((root, target));
                }
                if seen {
                    continue;
                }
            }
            construct_dynamic_entry_graph(graph, edges, visited, target, target);
            continue;
        }
        construct_dynamic_entry_graph(graph, edges, visited, root, target);
    }
}

/// The nodes, by first mention.
fn mentioned(edges: &[(u32, u32)]) -> Vec<u32> {
    let mut nodes = Vec::new();
    for node in edges.iter().flat_map(|&(from, to)| [from, to]) {
        if !nodes.contains(&node) {
            nodes.push(node);
        }
    }
    nodes
}

/// Which module reaches which by edges.
fn reachability(modules: usize, edges: &[(u32, u32)]) -> Vec<Vec<bool>> {
    let mut reached = vec![vec![false; modules]; modules];
    for &(from, to) in edges {
        reached[from as usize][to as usize] = true;
    }
    for middle in 0..modules {
        for from in 0..modules {
            for to in 0..modules {
                reached[from][to] |= reached[from][middle] && reached[middle][to];
            }
        }
    }
    reached
}

/// The nodes in the order in which a depth-first walk finishes them.
fn finished(edges: &[(u32, u32)]) -> Vec<u32> {
    fn walk(edges: &[(u32, u32)], node: u32, seen: &mut BTreeSet<u32>, finished: &mut Vec<u32>) {
        if seen.insert(node) {
            edges.iter().filter(|edge| edge.0 == node).for_each(|edge| walk(edges, edge.1, seen, finished));
            finished.push(node);
        }
    }
    let (mut seen, mut finished) = (BTreeSet::new(), Vec::new());
    mentioned(edges).into_iter().for_each(|node| walk(edges, node, &mut seen, &mut finished));
    finished
}

struct State<'a> {
    graph: &'a Graph,
    verdicts: Vec<u32>,
    starts: HashSet<Fact>,
    facts: HashSet<Fact>,
}

impl State<'_> {
    fn start(&mut self, fact: Fact) {
        self.starts.insert(fact);
        if !self.facts.contains(&fact) {
            let starts: Vec<Fact> = self.starts.iter().copied().collect();
            self.facts = closure(self.graph, &starts).0;
        }
    }

    fn start_user_defined(&mut self, module: u32) {
        if self.graph.modules[module as usize].normal {
            self.start(Fact::Bailout(module));
            self.start_entry(module);
        }
    }

    fn start_entry(&mut self, module: u32) {
        let graph = self.graph;
        for &symbol in &graph.modules[module as usize].entry_references {
            let owner = graph.symbols[symbol as usize].owner;
            if graph.modules[owner as usize].normal {
                let declaring = &graph.symbols[symbol as usize].declaring;
                declaring.iter().for_each(|&statement| self.start(Fact::Statement(owner, statement)));
                self.start(Fact::CheckedUse(symbol, 2));
            }
        }
        self.start(Fact::Module(module));
    }

    fn round(&mut self, order: &Order, live: &mut BTreeSet<u32>, dead: &mut BTreeSet<(u32, u32)>) {
        let graph = self.graph;
        for fact in self.facts.clone() {
            let Fact::Bailout(module) = fact else { continue };
            for &[_, symbol, from_commonjs] in &graph.modules[module as usize].resolved_exports {
                if from_commonjs == 1 {
                    self.start(Fact::CheckedUse(symbol, 1));
                }
            }
        }
        for &index in &order.entries {
            let entry = &graph.entries[index as usize];
            if live.contains(&entry.module) {
                continue;
            }
            if order.cycled.contains(&entry.module) || self.is_live(entry) {
                live.insert(entry.module);
                if graph.modules[entry.module as usize].normal {
                    self.start_entry(entry.module);
                }
            } else {
                let rows = entry.related.iter().filter(|row| row[3] == 0 && self.is_dead_pure_import(row));
                dead.extend(rows.map(|row| (row[0], row[2])));
            }
        }
    }

    /// The dead imports after the last round, by definition: each is asked for by itself.
    fn dead_at_end(&self, order: &Order, live: &BTreeSet<u32>) -> BTreeSet<(u32, u32)> {
        let entries = || self.graph.entries.iter().filter(|entry| entry.kind == 2);
        let is_dead = |entry: &Entry| !order.cycled.contains(&entry.module) && !self.is_live(entry);
        let is_pure = |row: &[u32; 4]| self.is_dead_pure_import(row);
        let is_kept = |row: &[u32; 4]| self.facts.contains(&Fact::Statement(row[0], row[1]));
        let some = |entry: &Entry, import: (u32, u32), is: &dyn Fn(&[u32; 4]) -> bool| {
            entry.related.iter().any(|row| (row[0], row[2]) == import && row[3] == 0 && is(row))
        };
        let marks =
            |entry: &Entry, import| !live.contains(&entry.module) && is_dead(entry) && some(entry, import, &is_pure);
        let exempts = |entry: &Entry, import| live.contains(&entry.module) && some(entry, import, &is_kept);
        let imports = entries().flat_map(|entry| &entry.related).map(|row| (row[0], row[2]));
        let marked = imports.filter(|&import| entries().any(|entry| marks(entry, import)));
        marked.filter(|&import| !entries().any(|entry| exempts(entry, import))).collect()
    }

    fn is_live(&self, entry: &Entry) -> bool {
        let unused = self.graph.modules[entry.module as usize].flags >> 4 & 1 == 1;
        let keeps = |row: &[u32; 4]| {
            let included = self.facts.contains(&Fact::Statement(row[0], row[1]));
            row[3] == 0 && included && (!unused || !self.is_dead_pure_import(row))
        };
        entry.related.iter().any(keeps)
    }

    fn has_side_effects(&self, module: u32) -> bool {
        [1, 3, 4].contains(&self.verdicts[module as usize])
    }

    fn is_dead_pure_import(&self, row: &[u32; 4]) -> bool {
        let record = &self.graph.modules[row[0] as usize].records[row[2] as usize];
        record.bits >= 2 && !self.has_side_effects(record.target - 1)
    }

    fn helpers(&self, module: u32) -> u32 {
        let rows = &self.graph.modules[module as usize].helpers;
        let eliminated = module != self.graph.runtime && !self.facts.contains(&Fact::Module(module));
        let needed = |&helper: &u32| {
            let mut of_helper = rows.iter().filter(|row| row[0] == helper);
            of_helper.any(|row| eliminated || self.facts.contains(&Fact::Statement(module, row[1])))
        };
        (0..32).filter(needed).map(|helper| 1 << helper).sum()
    }

    /// The runtime stage.
    fn end(self, rounds: u32, entries: Vec<u32>, dead: BTreeSet<(u32, u32)>) -> Decided {
        let graph = self.graph;
        let modules = 0..graph.modules.len() as u32;
        let helpers: Vec<u32> = modules.clone().map(|module| self.helpers(module)).collect();
        let kept = modules.filter(|&module| self.facts.contains(&Fact::Module(module)));
        let union = kept.map(|module| helpers[module as usize]).fold(0, |union, word| union | word);
        let mut starts: Vec<Fact> = Vec::new();
        for (helper, &symbol) in graph.helpers.iter().enumerate() {
            if union >> helper & 1 == 1 {
                starts.push(Fact::Use(symbol, 1));
            }
        }
        if starts.is_empty() && self.has_side_effects(graph.runtime) {
            starts.push(Fact::Module(graph.runtime));
        }
        let stays = |fact: &Fact| matches!(fact, Fact::Module(_) | Fact::Statement(..));
        let before: HashSet<Fact> = self.facts.iter().copied().filter(stays).collect();
        let (runtime_facts, runtime_shown) = closure_over(graph, &starts, &before);
        let all: Vec<Fact> = self.starts.iter().copied().collect();
        let (facts, shown) = closure(graph, &all);
        let starts = self.starts;
        Decided { rounds, starts, facts, runtime_facts, shown, runtime_shown, entries, dead, helpers }
    }
}
