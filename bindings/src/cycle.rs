//! Which modules are on a cycle of dynamic imports, as the run orders them: for explanations only.

use crate::graph::{EntryKind, Graph, ImportKind};
use crate::ids::ModuleId;
use alloc::vec;
use alloc::vec::Vec;

/// A set of modules.
#[derive(Clone)]
struct Modules(Vec<u64>);

impl Modules {
    fn none(count: usize) -> Modules {
        Modules(vec![0; count.div_ceil(64)])
    }

    fn has(&self, module: ModuleId) -> bool {
        self.0[module.at() / 64] >> (module.at() % 64) & 1 == 1
    }

    /// Adds a module; whether it was not there.
    fn add(&mut self, module: ModuleId) -> bool {
        let new = !self.has(module);
        self.0[module.at() / 64] |= 1 << (module.at() % 64);
        new
    }

    fn add_all(&mut self, others: &Modules) {
        self.0.iter_mut().zip(&others.0).for_each(|(own, other)| *own |= other);
    }
}

/// Which module leads to which by an `import()`, itself or by what it imports. As the walks of the dynamic entries find it
/// (003, `construct_dynamic_entry_graph`): an edge is not followed from a module that was mentioned before.
struct Edges<'g> {
    graph: &'g Graph,
    mentioned: Modules,
    /// By module.
    successors: Vec<Modules>,
}

/// By module whether it is strongly connected with another one.
pub(crate) fn on_cycle(graph: &Graph) -> Vec<bool> {
    let none = Modules::none(graph.modules.len());
    let mut edges = Edges { graph, mentioned: none.clone(), successors: vec![none.clone(); graph.modules.len()] };
    for entry in walked(graph) {
        edges.walk(&mut none.clone(), entry, entry);
    }
    edges.close();
    graph.modules().map(|module| edges.successors[module.at()].has(module)).collect()
}

/// The modules of dynamic entries, each once, where an entry of it first stands.
fn walked(graph: &Graph) -> Vec<ModuleId> {
    let mut dynamic = Modules::none(graph.modules.len());
    let is_dynamic = |entry: &&crate::Entry| entry.kind == EntryKind::DynamicImport;
    graph.entries.iter().filter(is_dynamic).for_each(|entry| {
        dynamic.add(entry.module);
    });
    let mut met = Modules::none(graph.modules.len());
    let modules = graph.entries.iter().map(|entry| entry.module);
    modules.filter(|&module| met.add(module) && dynamic.has(module)).collect()
}

impl Edges<'_> {
    fn walk(&mut self, visited: &mut Modules, root: ModuleId, current: ModuleId) {
        let graph = self.graph;
        if !visited.add(current) || !graph[current].normal {
            return;
        }
        for record in &graph[current].import_records {
            let Some(target) = record.target else { continue };
            if record.kind != ImportKind::Dynamic {
                self.walk(visited, root, target);
            } else if target == root || self.add(root, target) {
                self.walk(visited, target, target);
            }
        }
    }

    /// Adds an edge; whether its end was not mentioned before.
    fn add(&mut self, from: ModuleId, to: ModuleId) -> bool {
        self.successors[from.at()].add(to);
        self.mentioned.add(from);
        self.mentioned.add(to)
    }

    /// Makes each module lead to all that edges reach from it.
    fn close(&mut self) {
        for through in self.graph.modules() {
            let reached = self.successors[through.at()].clone();
            for module in self.graph.modules() {
                if self.successors[module.at()].has(through) {
                    self.successors[module.at()].add_all(&reached);
                }
            }
        }
    }
}
