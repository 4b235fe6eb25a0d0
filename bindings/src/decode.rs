//! The graph of numbers that the engine has accepted.

use crate::graph::{
    CommonJsNamespace, Constant, Entry, EntryKind, EnumMember, ExportsKind, Graph, HelperUse, ImportKind, ImportRecord,
    Module, ModuleType, Options, Reference, RelatedStatement, ResolvedExport, Scan, SideEffects, Statement, Symbol,
    WrapKind,
};
use crate::ids::{HelperId, ImportRecordId, ModuleId, Name, StatementId, SymbolId};
use alloc::collections::BTreeSet;
use alloc::vec::Vec;

/// The graph of these numbers; none unless they are a graph's.
pub(crate) fn graph(numbers: &[u32]) -> Option<Graph> {
    let mut from = Numbers(numbers);
    let options = Options::of(from.number()?);
    let runtime = from.module_id()?;
    let [modules, symbols, _, entries] = [from.number()?, from.number()?, from.number()?, from.number()?];
    let mut graph = Graph::empty(options, runtime, from.symbols()?);
    let mut counts = Vec::new();
    for index in 0..modules {
        let (module, statements) = from.module(ModuleId::new(index))?;
        graph.modules.push(module);
        counts.push(statements);
    }
    for index in 0..symbols {
        graph.symbols.push(from.symbol(SymbolId::new(index))?);
    }
    for (index, count) in counts.into_iter().enumerate() {
        for _ in 0..count {
            let statement = from.statement(ModuleId::new(index as u32))?;
            graph.modules[index].statements.push(statement);
        }
    }
    for _ in 0..entries {
        graph.entries.push(from.entry()?);
    }
    graph.taken_names = names(&graph);
    Some(graph)
}

/// All names of a graph.
fn names(graph: &Graph) -> BTreeSet<Name> {
    let of_symbols = graph.symbols.iter().flat_map(|symbol| [symbol.name, symbol.alias_name]);
    let exports = graph.modules.iter().flat_map(|module| module.resolved_exports.iter().map(|export| export.name));
    let members = graph.modules.iter().flat_map(|module| module.enum_members.iter());
    let members = members.flat_map(|member| [member.symbol, member.member]);
    let statements = graph.modules.iter().flat_map(|module| module.statements.iter());
    let properties =
        statements.flat_map(|statement| statement.references.iter()).filter_map(|reference| match reference {
            Reference::Member { first_property, .. } => Some(*first_property),
            _ => None,
        });
    of_symbols.chain(exports).chain(members).chain(properties).collect()
}

fn bit(bits: u32, index: u32) -> bool {
    bits >> index & 1 == 1
}

impl Options {
    fn of(bits: u32) -> Options {
        Options {
            treeshake: bit(bits, 0),
            inline_const_smart: bit(bits, 1),
            commonjs: bit(bits, 2),
            property_write_side_effects: !bit(bits, 3),
            dev_mode: bit(bits, 4),
            code_splitting: !bit(bits, 5),
            dead_imports_at_end: bit(bits, 6),
            settle: bit(bits, 7),
        }
    }
}

impl SideEffects {
    /// The verdict of a number.
    pub(crate) fn of(number: u32) -> Option<SideEffects> {
        match number {
            0 => Some(SideEffects::Analyzed(false)),
            1 => Some(SideEffects::Analyzed(true)),
            2 => Some(SideEffects::UserDefined(false)),
            3 => Some(SideEffects::UserDefined(true)),
            4 => Some(SideEffects::NoTreeshake),
            _ => None,
        }
    }
}

/// The numbers that are still to be read.
struct Numbers<'a>(&'a [u32]);

impl Numbers<'_> {
    fn number(&mut self) -> Option<u32> {
        let (&first, rest) = self.0.split_first()?;
        self.0 = rest;
        Some(first)
    }

    fn flag(&mut self) -> Option<bool> {
        Some(self.number()? == 1)
    }

    fn module_id(&mut self) -> Option<ModuleId> {
        self.number().map(ModuleId::new)
    }

    fn symbol_id(&mut self) -> Option<SymbolId> {
        self.number().map(SymbolId::new)
    }

    fn name(&mut self) -> Option<Name> {
        self.number().map(Name::new)
    }

    /// A reference that may be absent: 0, or 1 more than the index.
    fn optional<T>(&mut self, id: impl Fn(u32) -> T) -> Option<Option<T>> {
        Some(self.number()?.checked_sub(1).map(id))
    }

    fn list<T>(&mut self, mut element: impl FnMut(&mut Self) -> Option<T>) -> Option<Vec<T>> {
        let count = self.number()?;
        (0..count).map(|_| element(self)).collect()
    }

    fn symbols(&mut self) -> Option<Vec<SymbolId>> {
        self.list(Numbers::symbol_id)
    }

    fn statements(&mut self, module: ModuleId) -> Option<Vec<StatementId>> {
        self.list(|from| Some(StatementId::new(module, from.number()?)))
    }

    /// A module, and how many statements it has.
    fn module(&mut self, id: ModuleId) -> Option<(Module, u32)> {
        let mut module = Module::new("", self.flag()?);
        let side_effects = SideEffects::of(self.number()?)?;
        module.side_effects = Some(side_effects);
        module.exports_kind = ExportsKind::of(self.number()?)?;
        module.module_type = ModuleType::of(self.number()?)?;
        let flags = self.number()?;
        module.has_eval = bit(flags, 0);
        module.safely_treeshake_commonjs = bit(flags, 1);
        module.is_cjs_reexport = bit(flags, 2);
        module.has_dynamic_exports = bit(flags, 3);
        module.dynamic_imports_use_no_export = bit(flags, 4);
        module.relaxed_side_effects = bit(flags, 5);
        module.wrap_kind = WrapKind::of(self.number()?)?;
        module.wrapper = self.optional(SymbolId::new)?;
        module.namespace = self.optional(SymbolId::new)?;
        module.cjs_reexport_count = self.number()?;
        let statements = self.number()?;
        let scan = Scan { side_effects: SideEffects::of(self.number()?)?, statement_count: self.number()? };
        let present = Scan { side_effects, statement_count: statements };
        module.scan = (scan != present).then_some(scan);
        self.module_lists(id, &mut module)?;
        Some((module, statements))
    }

    fn module_lists(&mut self, id: ModuleId, module: &mut Module) -> Option<()> {
        module.import_records = self.list(Numbers::import_record)?;
        module.dependencies = self.list(Numbers::module_id)?;
        module.named_imports = self.symbols()?;
        module.own_exports = self.symbols()?;
        module.entry_references = self.symbols()?;
        module.commonjs_export_symbols = self.symbols()?;
        module.resolved_exports = self.list(|from| {
            Some(ResolvedExport { name: from.name()?, symbol: from.symbol_id()?, from_commonjs: from.flag()? })
        })?;
        module.commonjs_namespaces =
            self.list(|from| Some(CommonJsNamespace { symbol: from.symbol_id()?, module: from.module_id()? }))?;
        module.enum_members = self.list(|from| Some(EnumMember { symbol: from.name()?, member: from.name()? }))?;
        module.helpers = self.list(|from| {
            let helper = HelperId::new(from.number()?);
            Some(HelperUse { helper, statement: StatementId::new(id, from.number()?) })
        })?;
        Some(())
    }

    fn import_record(&mut self) -> Option<ImportRecord> {
        let target = self.optional(ModuleId::new)?;
        let kind = ImportKind::of(self.number()?)?;
        let bits = self.number()?;
        Some(ImportRecord { target, kind, is_export_star: bit(bits, 0), is_top_level_pure: bit(bits, 1) })
    }

    fn symbol(&mut self, id: SymbolId) -> Option<Symbol> {
        let owner = self.module_id()?;
        let mut symbol = Symbol::new("", owner, self.name()?, id);
        symbol.root = self.symbol_id()?;
        symbol.alias_namespace = self.optional(SymbolId::new)?;
        symbol.alias_name = self.name()?;
        let bits = self.number()?;
        symbol.constant =
            Constant { is_known: bit(bits, 0), safe_to_inline: bit(bits, 1), commonjs_export: bit(bits, 2) };
        symbol.export_chain = self.symbols()?;
        symbol.declared_by = self.statements(owner)?;
        symbol.properties_written_by = self.statements(owner)?;
        Some(symbol)
    }

    fn statement(&mut self, module: ModuleId) -> Option<Statement> {
        let bits = self.number()?;
        Some(Statement {
            has_side_effect: bit(bits, 0),
            has_unknown_side_effect: bit(bits, 1),
            force_tree_shaking: bit(bits, 2),
            reexports_dynamic_exports: bit(bits, 3),
            declares: bit(bits, 4),
            import_records: self.list(|from| Some(ImportRecordId::new(module, from.number()?)))?,
            references: self.list(Numbers::reference)?,
        })
    }

    fn reference(&mut self) -> Option<Reference> {
        Some(match self.number()? {
            0 => Reference::Symbol(self.symbol_id()?),
            1 => Reference::ResolvedToNothing,
            2 => Reference::Resolved {
                symbol: self.symbol_id()?,
                is_commonjs_export: self.flag()?,
                depended: self.symbols()?,
            },
            3 => Reference::Member {
                object: self.symbol_id()?,
                is_write: self.flag()?,
                property_count: self.number()?,
                first_property: self.name()?,
            },
            _ => return None,
        })
    }

    fn entry(&mut self) -> Option<Entry> {
        let (module, kind) = (self.module_id()?, EntryKind::of(self.number()?)?);
        let related = self.list(|from| {
            let module = from.module_id()?;
            let statement = StatementId::new(module, from.number()?);
            let record = ImportRecordId::new(module, from.number()?);
            Some(RelatedStatement { statement, record, is_unreachable: from.flag()? })
        })?;
        Some(Entry { module, kind, related })
    }
}
