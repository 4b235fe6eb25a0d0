//! Graphs of a given size and shape for measuring runs, the same ones at each call.

mod drawn;

use crate::generate::{shuffle, Random, PRINTED};
use crate::model::{Entry, Graph, Module, Record, Reference, Statement, Symbol};
use crate::reference::decode::decode;
use crate::reference::rules::option::{DEAD_IMPORTS_AT_END, SETTLE};
pub use drawn::{drawn, Draws};

const DYNAMIC_IMPORT: u32 = 2;

/// A load: a short name for tables and commands, a name that says what it is, and its graph.
pub struct Load {
    pub key: &'static str,
    pub name: &'static str,
    make: fn() -> Graph,
}

/// All loads of runs, the main ones first.
pub const LOADS: [Load; 11] = [
    load("bundle1000", "1,000 modules, 16,000 statements", || bundle(1_000)),
    load("bundle100", "100 modules, 1,600 statements", || bundle(100)),
    load("drawn1024", "1,024 modules, drawn from seed 0", || drawn(0, 1_024)),
    load("unkept1024", "1,024 modules, nothing kept", || unkept(1_024)),
    load("rounds300", "300 rounds", || rounds(300)),
    load("printed", "printed case", || decode(&PRINTED)),
    load("wide1023", "1,023 dynamic entries of 1,024 modules", || wide(1_023)),
    load("deep1023", "1,023 dynamic entries in one chain", || deep(1_023)),
    // The smallest graphs of a size: what is cleared for it counts most there.
    load("unkept17", "17 modules, nothing kept", || unkept(17)),
    load("drawn17", "17 modules, drawn from seed 0", || drawn(0, 17)),
    load("unkept129", "129 modules, nothing kept", || unkept(129)),
];

/// Main loads with dynamic entries once more, with the dead imports at the end of the run: what that costs. The Rust
/// has no such option.
pub const LOADS_AT_END: [Load; 3] = [
    load("bundle1000_at_end", "1,000 modules, dead imports at the end", || at_end(bundle(1_000))),
    load("bundle100_at_end", "100 modules, dead imports at the end", || at_end(bundle(100))),
    load("rounds300_at_end", "300 rounds, dead imports at the end", || at_end(rounds(300))),
];

fn at_end(graph: Graph) -> Graph {
    Graph { options: graph.options | DEAD_IMPORTS_AT_END, ..graph }
}

/// The same loads with rounds that settle: what asking whether anything moved costs, and the rounds that are added. The
/// Rust has no such option either.
pub const LOADS_SETTLED: [Load; 3] = [
    load("bundle1000_settled", "1,000 modules, settled", || settled(bundle(1_000))),
    load("bundle100_settled", "100 modules, settled", || settled(bundle(100))),
    load("rounds300_settled", "300 rounds, settled", || settled(rounds(300))),
];

fn settled(graph: Graph) -> Graph {
    Graph { options: graph.options | SETTLE, ..graph }
}

/// Every load: those that the Rust has too, then those with options of our own.
pub fn all_loads() -> impl Iterator<Item = &'static Load> {
    LOADS.iter().chain(&LOADS_AT_END).chain(&LOADS_SETTLED)
}

/// The main loads: there is a share of the Rust's time that is asked on each, and a count of instructions.
pub fn main_loads() -> &'static [Load] {
    const MAIN: usize = 6;
    &LOADS[..MAIN]
}

const fn load(key: &'static str, name: &'static str, make: fn() -> Graph) -> Load {
    Load { key, name, make }
}

impl Load {
    pub fn graph(&self) -> Graph {
        (self.make)()
    }
}

/// A bundle: so many modules, each twentieth external, the others with some 17 statements; 16 symbols a module. All
/// follows from two user-defined entries and dynamic imports with their entries.
pub fn bundle(modules: u32) -> Graph {
    let bundle = Bundle { modules, symbols: 16 * modules };
    let mut random = Random::new(1);
    let mut graph = Graph { options: 1, runtime: 1, helpers: (0..8).collect(), ..Graph::default() };
    graph.modules = (0..modules).map(|index| Module { normal: index % 20 != 0, ..Module::default() }).collect();
    let normal: Vec<usize> = (0..modules as usize).filter(|index| index % 20 != 0).collect();
    for statement in 0..16 * modules as usize {
        graph.modules[normal[statement % normal.len()]].statements.push(Statement::default());
    }
    for (index, module) in (0..).zip(&mut graph.modules) {
        bundle.fill_module(&mut random, index, module);
    }
    graph.symbols = (0..bundle.symbols).map(|index| bundle.symbol(&mut random, index, &graph.modules)).collect();
    // Helpers are symbols of the runtime.
    graph.helpers = (0..8).map(|helper| graph.runtime + helper * modules).collect();
    for module in [2, modules - 1] {
        graph.entries.push(Entry { module, kind: 0, related: Vec::new() });
    }
    graph.entries.extend(dynamic_entries(&graph));
    graph
}

/// An entry for each module that a statement imports dynamically, related to those statements.
fn dynamic_entries(graph: &Graph) -> Vec<Entry> {
    let mut related = vec![Vec::new(); graph.modules.len()];
    for (index, module) in (0..).zip(&graph.modules) {
        for (number, statement) in (0..).zip(&module.statements) {
            for &record in &statement.records {
                let Record { target, kind, .. } = module.records[record as usize];
                if kind == DYNAMIC_IMPORT && target != 0 {
                    related[target as usize - 1].push([index, number, record, 0]);
                }
            }
        }
    }
    let entries = (0..).zip(related).filter(|(_, related)| !related.is_empty());
    entries.map(|(module, related)| Entry { module, kind: DYNAMIC_IMPORT, related }).collect()
}

struct Bundle {
    modules: u32,
    symbols: u32,
}

impl Bundle {
    /// Symbols `index`, `index + modules` and so on are the module's, the first of them its namespace.
    fn fill_module(&self, random: &mut Random, index: u32, module: &mut Module) {
        if !module.normal {
            return;
        }
        module.namespace = index + 1;
        module.effects = random.below(2);
        module.kind = random.below(2);
        module.flags = if random.chance(30) { 16 } else { 0 };
        module.scan_effects = module.effects;
        module.scan_statements = module.statements.len() as u32;
        module.records = (0..6).map(|_| self.record(random)).collect();
        module.dependencies = indexes(random, 5, self.modules);
        module.named_imports = indexes(random, 8, self.symbols);
        module.own_exports = indexes(random, 6, self.symbols);
        let names = names(random, 10);
        module.resolved_exports = names.into_iter().map(|name| [name, random.below(self.symbols), 0]).collect();
        if random.chance(20) {
            module.commonjs_namespaces = vec![[random.below(self.symbols), random.below(self.modules)]];
        }
        if random.chance(10) {
            module.enum_members = (0..4).map(|member| [random.below(9_000), member]).collect();
        }
        if random.chance(25) {
            module.helpers = vec![[random.below(8), 1]];
        }
        let records = module.records.len() as u32;
        for statement in &mut module.statements {
            statement.bits = random.below(32);
            statement.records = if random.chance(25) { indexes(random, 1, records) } else { Vec::new() };
            statement.references = (0..random.below(7)).map(|_| self.reference(random)).collect();
        }
    }

    fn record(&self, random: &mut Random) -> Record {
        let kind = if random.chance(80) { 0 } else { random.between(1, 2) };
        Record { target: random.between(1, self.modules), kind, bits: random.below(4) }
    }

    fn symbol(&self, random: &mut Random, index: u32, modules: &[Module]) -> Symbol {
        let owner = index % self.modules;
        let statements = modules[owner as usize].statements.len() as u32;
        let declared = statements > 0;
        // Symbols of the first half are their own roots; a few of the others are rooted there.
        let half = self.symbols / 2;
        let root = if index >= half && random.chance(30) { random.below(half) } else { index };
        Symbol {
            owner,
            name: random.below(9_000),
            root,
            alias_namespace: if random.chance(5) { random.below(self.symbols) + 1 } else { 0 },
            constant: if random.chance(10) { 3 } else { 0 },
            chain: if random.chance(10) { indexes(random, 2, self.symbols) } else { Vec::new() },
            declaring: if declared { indexes(random, 1, statements) } else { Vec::new() },
            written: if declared && random.chance(5) { indexes(random, 1, statements) } else { Vec::new() },
            ..Symbol::default()
        }
    }

    fn reference(&self, random: &mut Random) -> Reference {
        let symbol = random.below(self.symbols);
        match random.below(20) {
            0..=11 => Reference::Symbol(symbol),
            12 => Reference::Nothing,
            13..=16 => Reference::Resolved { symbol, commonjs: 0, depended: indexes(random, 1, self.symbols) },
            _ => Reference::Member { object: symbol, write: 0, properties: 1, first: random.below(9_000) },
        }
    }
}

fn indexes(random: &mut Random, count: u32, bound: u32) -> Vec<u32> {
    (0..count).map(|_| random.below(bound)).collect()
}

/// Distinct names in no order.
fn names(random: &mut Random, count: u32) -> Vec<u32> {
    let first = random.below(9_000);
    let mut names: Vec<u32> = (0..count).map(|index| first + 37 * index).collect();
    shuffle(random, &mut names);
    names
}

/// Modules with statement 0 and a statement 1 that is swept, treeshake on; symbol m is the namespace of module m. Module 0
/// is the runtime and a user-defined entry, with effects.
fn plain(modules: u32) -> Graph {
    let module = |index: u32| Module {
        normal: true,
        effects: u32::from(index == 0),
        scan_effects: u32::from(index == 0),
        namespace: index + 1,
        statements: vec![Statement::default(), Statement { bits: 1, ..Statement::default() }],
        ..Module::default()
    };
    Graph {
        options: 1,
        modules: (0..modules).map(module).collect(),
        symbols: (0..modules).map(|owner| Symbol { owner, root: owner, ..Symbol::default() }).collect(),
        entries: vec![Entry { module: 0, kind: 0, related: Vec::new() }],
        ..Graph::default()
    }
}

/// So many modules of which nothing is kept: no entry, no effects, statement 0 alone.
pub fn unkept(modules: u32) -> Graph {
    let mut graph = plain(modules);
    graph.entries.clear();
    (graph.modules[0].effects, graph.modules[0].scan_effects) = (0, 0);
    graph.modules.iter_mut().for_each(|module| module.statements.truncate(1));
    graph
}

/// An import in statement 1 of a module, as a related statement.
fn import(graph: &mut Graph, from: u32, to: u32, kind: u32) -> [u32; 4] {
    let module = &mut graph.modules[from as usize];
    let record = module.records.len() as u32;
    module.records.push(Record { target: to + 1, kind, bits: 0 });
    module.statements[1].records.push(record);
    [from, 1, record, 0]
}

/// So many dynamic entries, each imported by module 0; each imports a few others, of which the next ones are cycles.
pub fn wide(entries: u32) -> Graph {
    let mut random = Random::new(3);
    let mut graph = plain(entries + 1);
    let mut related: Vec<Vec<[u32; 4]>> = vec![Vec::new(); entries as usize + 1];
    for module in 1..=entries {
        let row = import(&mut graph, 0, module, DYNAMIC_IMPORT);
        related[module as usize].push(row);
        for _ in 0..random.below(3) {
            let back = random.chance(10);
            let to = if back { random.between(1, entries) } else { random.between(module, entries) };
            let row = import(&mut graph, module, to, DYNAMIC_IMPORT);
            related[to as usize].push(row);
        }
    }
    add_entries(&mut graph, related, (1..=entries).collect(), &mut random);
    graph
}

/// So many dynamic entries, each imported by the one before it, in no order: the walk and its components are as deep.
pub fn deep(entries: u32) -> Graph {
    let mut random = Random::new(4);
    let mut graph = plain(entries + 1);
    let mut related: Vec<Vec<[u32; 4]>> = vec![Vec::new(); entries as usize + 1];
    for module in 1..=entries {
        related[module as usize] = vec![import(&mut graph, module - 1, module, DYNAMIC_IMPORT)];
    }
    add_entries(&mut graph, related, (1..=entries).collect(), &mut random);
    graph
}

fn add_entries(graph: &mut Graph, related: Vec<Vec<[u32; 4]>>, mut order: Vec<u32>, random: &mut Random) {
    shuffle(random, &mut order);
    for module in order {
        let related = related[module as usize].clone();
        graph.entries.push(Entry { module, kind: DYNAMIC_IMPORT, related });
    }
}

/// A run of so many rounds: each dynamic entry is related to a statement of the one behind it, and no dynamic import
/// brings them into another order, so that each round but the last finds one more live.
pub fn rounds(count: u32) -> Graph {
    let mut graph = plain(count);
    for module in (1..count).rev() {
        let related = vec![import(&mut graph, module - 1, module, 0)];
        graph.entries.push(Entry { module, kind: DYNAMIC_IMPORT, related });
    }
    graph
}
