//! The numbers of a graph, in the order of the graph file (docs/GRAPH.md).

use crate::graph::{
    Constant, Entry, EntryKind, ExportsKind, Graph, ImportKind, ImportRecord, Module, ModuleType, Options, Reference,
    SideEffects, Statement, Symbol, WrapKind,
};
use crate::ids::{ImportRecordId, ModuleId, StatementId, SymbolId};
use alloc::vec::Vec;

/// Written where a statement or an import record of another module is given: no module has so many, so it is refused.
const NOT_OF_THE_MODULE: u32 = u32::MAX;

/// Bits from the lowest on.
pub(crate) fn bits<const COUNT: usize>(flags: [bool; COUNT]) -> u32 {
    flags.iter().rev().fold(0, |bits, &flag| 2 * bits + u32::from(flag))
}

impl Graph {
    /// The numbers that the engine takes, as they stand in a graph file.
    ///
    /// ```
    /// let graph = lizdakk::Graph::new();
    /// assert_eq!(graph.numbers()[..7], [1, 0, 1, 1, 1, 0, 0]);
    /// ```
    #[must_use]
    pub fn numbers(&self) -> Vec<u32> {
        let mut out = Numbers(Vec::new());
        out.header(self);
        self.modules.iter().enumerate().for_each(|(index, module)| out.module(index, module));
        self.symbols.iter().for_each(|symbol| out.symbol(symbol));
        for (index, module) in self.modules.iter().enumerate() {
            module.statements.iter().for_each(|statement| out.statement(index, statement));
        }
        self.entries.iter().for_each(|entry| out.entry(entry));
        out.0
    }
}

impl Options {
    pub(crate) fn bits(self) -> u32 {
        let writes = !self.property_write_side_effects;
        let whole = !self.code_splitting;
        let at_end = self.dead_imports_at_end;
        let settle = self.settle;
        bits([self.treeshake, self.inline_const_smart, self.commonjs, writes, self.dev_mode, whole, at_end, settle])
    }
}

impl SideEffects {
    /// Its number in a graph file and in a row of verdicts.
    pub(crate) fn number(self) -> u32 {
        match self {
            SideEffects::Analyzed(false) => 0,
            SideEffects::Analyzed(true) => 1,
            SideEffects::UserDefined(false) => 2,
            SideEffects::UserDefined(true) => 3,
            SideEffects::NoTreeshake => 4,
        }
    }
}

impl Module {
    fn flags(&self) -> u32 {
        bits([
            self.has_eval,
            self.safely_treeshake_commonjs,
            self.is_cjs_reexport,
            self.has_dynamic_exports,
            self.dynamic_imports_use_no_export,
            self.relaxed_side_effects,
        ])
    }
}

impl Constant {
    fn bits(self) -> u32 {
        bits([self.is_known, self.safe_to_inline, self.commonjs_export])
    }
}

impl Statement {
    fn bits(&self) -> u32 {
        bits([
            self.has_side_effect,
            self.has_unknown_side_effect,
            self.force_tree_shaking,
            self.reexports_dynamic_exports,
            self.declares,
        ])
    }
}

/// The numbers so far.
struct Numbers(Vec<u32>);

impl Numbers {
    fn put(&mut self, number: u32) {
        self.0.push(number);
    }

    /// A list: its length, then each element by `element`.
    fn list<T>(&mut self, list: &[T], mut element: impl FnMut(&mut Numbers, &T)) {
        self.put(list.len() as u32);
        list.iter().for_each(|one| element(self, one));
    }

    fn symbols(&mut self, list: &[SymbolId]) {
        self.list(list, |out, symbol| out.put(symbol.index()));
    }

    /// A reference that may be absent: 0, or 1 more than the index.
    fn optional(&mut self, index: Option<u32>) {
        self.put(index.map_or(0, |index| index.saturating_add(1)));
    }

    /// The index of a statement of this module.
    fn statement_of(&mut self, module: ModuleId, statement: StatementId) {
        let own = statement.module() == module;
        self.put(if own { statement.index() } else { NOT_OF_THE_MODULE });
    }

    /// The index of an import record of this module.
    fn record_of(&mut self, module: ModuleId, record: ImportRecordId) {
        let own = record.module() == module;
        self.put(if own { record.index() } else { NOT_OF_THE_MODULE });
    }

    fn header(&mut self, graph: &Graph) {
        self.put(graph.options.bits());
        self.put(graph.runtime.index());
        self.put(graph.modules.len() as u32);
        self.put(graph.symbols.len() as u32);
        self.put(graph.modules.iter().map(|module| module.statements.len() as u32).sum());
        self.put(graph.entries.len() as u32);
        self.symbols(&graph.helpers);
    }

    fn module(&mut self, index: usize, module: &Module) {
        let (statements, effects) = (module.statements.len() as u32, module.verdict());
        self.put(u32::from(module.normal));
        self.put(effects.number());
        self.put(module.exports_kind.number());
        self.put(module.module_type.number());
        self.put(module.flags());
        self.put(module.wrap_kind.number());
        self.optional(module.wrapper.map(SymbolId::index));
        self.optional(module.namespace.map(SymbolId::index));
        self.put(module.cjs_reexport_count);
        self.put(statements);
        self.put(module.scan.map_or(effects, |scan| scan.side_effects).number());
        self.put(module.scan.map_or(statements, |scan| scan.statement_count));
        self.module_lists(ModuleId::new(index as u32), module);
    }

    fn module_lists(&mut self, id: ModuleId, module: &Module) {
        self.list(&module.import_records, Numbers::import_record);
        self.list(&module.dependencies, |out, dependency| out.put(dependency.index()));
        self.symbols(&module.named_imports);
        self.symbols(&module.own_exports);
        self.symbols(&module.entry_references);
        self.symbols(&module.commonjs_export_symbols);
        self.list(&module.resolved_exports, |out, export| {
            out.put(export.name.index());
            out.put(export.symbol.index());
            out.put(u32::from(export.from_commonjs));
        });
        self.list(&module.commonjs_namespaces, |out, namespace| {
            out.put(namespace.symbol.index());
            out.put(namespace.module.index());
        });
        self.list(&module.enum_members, |out, member| {
            out.put(member.symbol.index());
            out.put(member.member.index());
        });
        self.list(&module.helpers, |out, use_| {
            out.put(use_.helper.index());
            out.statement_of(id, use_.statement);
        });
    }

    fn import_record(&mut self, record: &ImportRecord) {
        self.optional(record.target.map(ModuleId::index));
        self.put(record.kind.number());
        self.put(bits([record.is_export_star, record.is_top_level_pure]));
    }

    fn symbol(&mut self, symbol: &Symbol) {
        self.put(symbol.owner.index());
        self.put(symbol.name.index());
        self.put(symbol.root.index());
        self.optional(symbol.alias_namespace.map(SymbolId::index));
        self.put(symbol.alias_name.index());
        self.put(symbol.constant.bits());
        self.symbols(&symbol.export_chain);
        self.list(&symbol.declared_by, |out, &statement| out.statement_of(symbol.owner, statement));
        self.list(&symbol.properties_written_by, |out, &statement| out.statement_of(symbol.owner, statement));
    }

    fn statement(&mut self, module: usize, statement: &Statement) {
        let module = ModuleId::new(module as u32);
        self.put(statement.bits());
        self.list(&statement.import_records, |out, &record| out.record_of(module, record));
        self.list(&statement.references, Numbers::reference);
    }

    fn reference(&mut self, reference: &Reference) {
        match reference {
            Reference::Symbol(symbol) => {
                self.put(0);
                self.put(symbol.index());
            }
            Reference::ResolvedToNothing => self.put(1),
            Reference::Resolved { symbol, is_commonjs_export, depended } => {
                self.put(2);
                self.put(symbol.index());
                self.put(u32::from(*is_commonjs_export));
                self.symbols(depended);
            }
            Reference::Member { object, is_write, property_count, first_property } => {
                self.put(3);
                self.put(object.index());
                self.put(u32::from(*is_write));
                self.put(*property_count);
                self.put(first_property.index());
            }
        }
    }

    fn entry(&mut self, entry: &Entry) {
        self.put(entry.module.index());
        self.put(entry.kind.number());
        self.list(&entry.related, |out, related| {
            let module = related.statement.module();
            out.put(module.index());
            out.put(related.statement.index());
            out.record_of(module, related.record);
            out.put(u32::from(related.is_unreachable));
        });
    }
}

/// An enum without fields by its numbers, both ways.
macro_rules! numbered {
    ($name:ident { $($case:ident = $number:literal),* }) => {
        impl $name {
            /// Its number in a graph file.
            pub(crate) fn number(self) -> u32 {
                match self {
                    $($name::$case => $number,)*
                }
            }

            /// The one of a number.
            pub(crate) fn of(number: u32) -> Option<$name> {
                match number {
                    $($number => Some($name::$case),)*
                    _ => None,
                }
            }
        }
    };
}

numbered!(ExportsKind { Esm = 0, CommonJs = 1, Other = 2 });
numbered!(ModuleType { Js = 0, Jsx = 1, Json = 2, Other = 3 });
numbered!(WrapKind { None = 0, Cjs = 1, Esm = 2 });
numbered!(ImportKind { Import = 0, Require = 1, Dynamic = 2 });
numbered!(EntryKind { UserDefined = 0, EmittedUserDefined = 1, DynamicImport = 2 });
