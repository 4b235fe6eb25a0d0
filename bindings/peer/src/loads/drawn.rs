//! A load from a stated source, so that anyone can make the same graph: all that varies in it is drawn from a seed.

use crate::model::{Entry, Graph, Module, Record, Statement, Symbol};

/// The draws of a seed: each adds a constant to a state of 32 bits and takes the remainder of its upper half.
#[derive(Clone, Debug)]
pub struct Draws {
    state: u32,
}

impl Draws {
    pub fn new(seed: u32) -> Draws {
        Draws { state: seed }
    }

    /// The next draw below `bound`, which is not 0.
    pub fn below(&mut self, bound: u32) -> u32 {
        self.state = self.state.wrapping_add(0x9e37_79b9);
        (self.state >> 16) % bound
    }
}

/// The graph of a seed with 2 to 1,024 modules: the runtime, then modules of three statements and three import records
/// each, of which the last two statements have a side effect. The first of them is the only entry.
pub fn drawn(seed: u32, modules: u32) -> Graph {
    assert!((2..=1_024).contains(&modules), "{modules} modules");
    let mut draws = Draws::new(seed);
    let others = (1..modules).map(|index| drawn_module(&mut draws, index, modules));
    Graph {
        options: 1,
        modules: [runtime()].into_iter().chain(others).collect(),
        symbols: (0..modules).map(|owner| Symbol { owner, name: 1, root: owner, ..Symbol::default() }).collect(),
        entries: vec![Entry { module: 1, kind: 0, related: Vec::new() }],
        ..Graph::default()
    }
}

/// The runtime of the printed case.
fn runtime() -> Module {
    Module { normal: true, namespace: 1, scan_statements: 1, statements: statements(&[0]), ..Module::default() }
}

/// The module of an index. Its verdict is drawn behind its import records.
fn drawn_module(draws: &mut Draws, index: u32, modules: u32) -> Module {
    let records: Vec<Record> = (0..3).map(|_| drawn_record(draws, modules)).collect();
    let effects = draws.below(5);
    Module {
        normal: true,
        effects,
        namespace: index + 1,
        scan_effects: effects,
        scan_statements: 3,
        dependencies: records.iter().map(|record| record.target - 1).collect(),
        records,
        statements: statements(&[0, 1, 1]),
        ..Module::default()
    }
}

/// An import record: its target is drawn, then its kind.
fn drawn_record(draws: &mut Draws, modules: u32) -> Record {
    let target = draws.below(modules) + 1;
    Record { target, kind: draws.below(3), bits: 0 }
}

/// Statements with these bits and nothing else.
fn statements(bits: &[u32]) -> Vec<Statement> {
    bits.iter().map(|&bits| Statement { bits, ..Statement::default() }).collect()
}
