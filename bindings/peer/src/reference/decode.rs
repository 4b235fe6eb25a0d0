//! The graph of numbers that [`check`](super::check) passes.

use crate::model::{Entry, Graph, Module, Record, Reference, Statement, Symbol};

/// The graph that `numbers` are. They have to be accepted: no bound is tested here.
pub fn decode(numbers: &[u32]) -> Graph {
    let mut input = Input { numbers };
    let [options, runtime, modules, symbols, _, entries, helpers] = input.row();
    let helpers = input.rows::<1>(helpers).concat();
    let (mut modules, counts): (Vec<Module>, Vec<u32>) = (0..modules).map(|_| module(&mut input)).unzip();
    let symbols = (0..symbols).map(|_| symbol(&mut input)).collect();
    for (module, count) in modules.iter_mut().zip(counts) {
        module.statements = (0..count).map(|_| statement(&mut input)).collect();
    }
    let entries = (0..entries).map(|_| entry(&mut input)).collect();
    Graph { options, runtime, helpers, modules, symbols, entries }
}

/// The numbers that are not read yet.
struct Input<'a> {
    numbers: &'a [u32],
}

impl Input<'_> {
    fn row<const WIDTH: usize>(&mut self) -> [u32; WIDTH] {
        let (front, rest) = self.numbers.split_first_chunk().expect("accepted numbers are all there");
        self.numbers = rest;
        *front
    }

    fn one(&mut self) -> u32 {
        let [number] = self.row();
        number
    }

    fn rows<const WIDTH: usize>(&mut self, count: u32) -> Vec<[u32; WIDTH]> {
        (0..count).map(|_| self.row()).collect()
    }

    /// A count and its rows.
    fn table<const WIDTH: usize>(&mut self) -> Vec<[u32; WIDTH]> {
        let count = self.one();
        self.rows(count)
    }

    /// A count and its numbers.
    fn list(&mut self) -> Vec<u32> {
        let (list, rest) = self.numbers[1..].split_at(self.numbers[0] as usize);
        self.numbers = rest;
        list.to_vec()
    }
}

/// A module without its statements, and how many it has.
fn module(input: &mut Input) -> (Module, u32) {
    let [normal, effects, exports, kind, flags, wrap] = input.row();
    let [wrapper, namespace, reexports, statements, scan_effects, scan_statements] = input.row();
    let records = input.table().into_iter().map(|[target, kind, bits]| Record { target, kind, bits }).collect();
    let module = Module {
        normal: normal == 1,
        effects,
        exports,
        kind,
        flags,
        wrap,
        wrapper,
        namespace,
        reexports,
        scan_effects,
        scan_statements,
        records,
        dependencies: input.list(),
        named_imports: input.list(),
        own_exports: input.list(),
        entry_references: input.list(),
        commonjs_export_symbols: input.list(),
        resolved_exports: input.table(),
        commonjs_namespaces: input.table(),
        enum_members: input.table(),
        helpers: input.table(),
        statements: Vec::new(),
    };
    (module, statements)
}

fn symbol(input: &mut Input) -> Symbol {
    let [owner, name, root, alias_namespace, alias_name, constant] = input.row();
    let (chain, declaring, written) = (input.list(), input.list(), input.list());
    Symbol { owner, name, root, alias_namespace, alias_name, constant, chain, declaring, written }
}

fn statement(input: &mut Input) -> Statement {
    let bits = input.one();
    let records = input.list();
    let count = input.one();
    Statement { bits, records, references: (0..count).map(|_| reference(input)).collect() }
}

fn reference(input: &mut Input) -> Reference {
    match input.one() {
        0 => Reference::Symbol(input.one()),
        1 => Reference::Nothing,
        2 => {
            let [symbol, commonjs] = input.row();
            Reference::Resolved { symbol, commonjs, depended: input.list() }
        }
        _ => {
            let [object, write, properties, first] = input.row();
            Reference::Member { object, write, properties, first }
        }
    }
}

fn entry(input: &mut Input) -> Entry {
    let [module, kind] = input.row();
    Entry { module, kind, related: input.table() }
}
