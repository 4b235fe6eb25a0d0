//! The link stage of a graph: its tables as the tree shaking reads them.

use crate::model::{Entry, Graph, Module, Reference, Statement, Symbol};
use oxc::semantic::{NodeId, SymbolId};
use oxc_index::IndexVec;
use oxc_str::CompactStr;
use rolldown::stages::link_stage::{LinkStage, ScanTimeSideEffects};
use rolldown::types::linking_metadata::LinkingMetadata;
use rolldown_common::dynamic_import_usage::DynamicImportExportsUsage;
use rolldown_common::side_effects::DeterminedSideEffects;
use rolldown_common::{
    CodeSplitting, ConstExportMeta, DependedRuntimeHelperMap, EcmaModuleAstUsage, EcmaView, EcmaViewMeta, EntryPoint,
    EntryPointKind, ExportsKind, ExternalModule, ImportKind, ImportRecord, ImportRecordIdx, ImportRecordMeta,
    LocalExport, MemberExprProp, MemberExprRef, MemberExprRefResolution, ModuleIdx, ModuleTable, ModuleType,
    NamedImport, NamespaceAlias, NormalModule, NormalizedBundlerOptions, OptimizationOptions, OutputFormat,
    PropertyWriteSideEffects, ResolvedExport, RuntimeModuleBrief, Specifier, StmtEvalFlags, StmtInfo, StmtInfoIdx,
    StmtInfoMeta, StmtInfos, SymbolData, SymbolOrMemberExprRef, SymbolRef, SymbolRefDb, TreeshakeOptions,
    UsedExternalSymbols, UsedSymbolRefsBuilder, WrapKind, RUNTIME_HELPER_NAMES, RUNTIME_MODULE_ID,
};
use rustc_hash::{FxHashMap, FxHashSet};

/// Import expressions that are never reached, by module and node.
pub type Unreachable = FxHashSet<(ModuleIdx, NodeId)>;

pub fn options(graph: &Graph) -> NormalizedBundlerOptions {
    let has = |bit: u32| graph.options >> bit & 1 != 0;
    let writes = if has(3) { PropertyWriteSideEffects::False } else { PropertyWriteSideEffects::Always };
    NormalizedBundlerOptions {
        treeshake: TreeshakeOptions { enabled: has(0), commonjs: has(2), property_write_side_effects: writes },
        optimization: OptimizationOptions { inline_const_smart: has(1) },
        code_splitting: CodeSplitting { disabled: has(5) },
        format: OutputFormat::Esm,
        preserve_modules: false,
        dev_mode: has(4),
    }
}

/// The stage of an accepted graph, and which import expressions are unreachable.
pub fn stage<'a>(graph: &Graph, options: &'a NormalizedBundlerOptions) -> (LinkStage<'a>, Unreachable) {
    let places = Places::new(graph);
    let mut metas = IndexVec::default();
    let mut modules = IndexVec::default();
    let mut stmt_infos = IndexVec::default();
    let mut helpers = IndexVec::default();
    for (index, module) in (0..).zip(&graph.modules) {
        let mut meta = places.meta(module);
        stmt_infos.push(places.statements(module, &mut meta));
        metas.push(meta);
        modules.push(places.module(graph, index, module));
        helpers.push(helper_statements(module));
    }
    places.fill_symbol_statements(graph, &mut stmt_infos);
    let (entries, unreachable) = entries(graph);
    let mut stage = LinkStage {
        module_table: ModuleTable { modules },
        entries: Default::default(),
        symbols: places.symbols(graph),
        runtime: places.runtime(graph),
        metas,
        stmt_infos,
        options,
        global_constant_symbol_map: places.constants(graph),
        normal_symbol_exports_chain_map: places.chains(graph),
        dynamic_import_exports_usage_map: dynamic_import_usage(graph),
        depended_runtime_helper: helpers,
        relaxed_side_effect_modules: relaxed(graph),
        scan_time_side_effects: graph.modules.iter().map(scan_time).collect(),
        used_symbol_refs_builder: UsedSymbolRefsBuilder::default(),
        used_external_symbols: UsedExternalSymbols::default(),
        has_enum_inlining: false,
    };
    for entry in entries {
        stage.entries.entry(entry.idx).or_default().push(entry);
    }
    (stage, unreachable)
}

/// By symbol of the graph: its owner and its place among the owner's.
struct Places(Vec<SymbolRef>);

impl Places {
    fn new(graph: &Graph) -> Places {
        let mut counts = vec![0; graph.modules.len()];
        let place = |symbol: &Symbol| {
            let count: &mut u32 = &mut counts[symbol.owner as usize];
            *count += 1;
            SymbolRef { owner: ModuleIdx::new(symbol.owner), symbol: SymbolId::new(*count - 1) }
        };
        Places(graph.symbols.iter().map(place).collect())
    }

    fn of(&self, symbol: u32) -> SymbolRef {
        self.0[symbol as usize]
    }

    fn all(&self, symbols: &[u32]) -> Vec<SymbolRef> {
        symbols.iter().map(|&symbol| self.of(symbol)).collect()
    }

    fn module(&self, graph: &Graph, index: u32, module: &Module) -> rolldown_common::Module {
        let idx = ModuleIdx::new(index);
        let id = if index == graph.runtime { RUNTIME_MODULE_ID } else { "a module" };
        let side_effects = verdict(module.effects);
        if !module.normal {
            let namespace_ref = SymbolRef::default();
            let module = ExternalModule { idx, id, side_effects, namespace_ref };
            return rolldown_common::Module::External(Box::new(module));
        }
        let ecma_view = self.view(module, side_effects);
        let module_type = [ModuleType::Js, ModuleType::Jsx, ModuleType::Json, ModuleType::Text][module.kind as usize];
        let module = NormalModule { idx, id, stable_id: id, module_type, ecma_view };
        rolldown_common::Module::Normal(Box::new(module))
    }

    fn view(&self, module: &Module, side_effects: DeterminedSideEffects) -> EcmaView {
        let mut meta = EcmaViewMeta::empty();
        meta.set(EcmaViewMeta::Eval, module.flags & 1 != 0);
        meta.set(EcmaViewMeta::SafelyTreeshakeCommonjs, module.flags & 2 != 0);
        let mut ast_usage = EcmaModuleAstUsage::empty();
        ast_usage.set(EcmaModuleAstUsage::IsCjsReexport, module.flags & 4 != 0);
        let import = || NamedImport { imported: Specifier::Star, record_idx: ImportRecordIdx::new(0) };
        let export = |(number, &symbol): (u32, &u32)| (own_name(number), LocalExport { referenced: self.of(symbol) });
        let mut enums: FxHashMap<CompactStr, FxHashMap<CompactStr, ()>> = FxHashMap::default();
        for &[symbol_name, member] in &module.enum_members {
            enums.entry(name(symbol_name)).or_default().insert(name(member), ());
        }
        EcmaView {
            import_records: module.records.iter().map(import_record).collect(),
            named_imports: module.named_imports.iter().map(|&symbol| (self.of(symbol), import())).collect(),
            named_exports: (0..).zip(&module.own_exports).map(export).collect(),
            exports_kind: [ExportsKind::Esm, ExportsKind::CommonJs, ExportsKind::None][module.exports as usize],
            namespace_object_ref: self.of(module.namespace - 1),
            side_effects,
            meta,
            ast_usage,
            cjs_reexport_import_record_ids: vec![ImportRecordIdx::new(0); at_most_two(module.reexports)],
            enum_member_value_map: enums,
            json_module_none_self_reference_included_symbol: None,
        }
    }

    fn meta(&self, module: &Module) -> LinkingMetadata {
        let export = |&[export, symbol, commonjs]: &[u32; 3]| {
            (name(export), ResolvedExport { symbol_ref: self.of(symbol), came_from_commonjs: commonjs != 0 })
        };
        let namespace = |&[symbol, target]: &[u32; 2]| (self.of(symbol), ModuleIdx::new(target));
        let mut meta = LinkingMetadata::default();
        meta.wrapper_ref = module.wrapper.checked_sub(1).map(|symbol| self.of(symbol));
        meta.resolved_exports = module.resolved_exports.iter().map(export).collect();
        meta.has_dynamic_exports = module.flags & 8 != 0;
        let entry_references = self.all(&module.entry_references).into_iter();
        meta.referenced_symbols_by_entry_point_chunk = entry_references.map(|symbol| (symbol, false)).collect();
        meta.dependencies = module.dependencies.iter().map(|&index| ModuleIdx::new(index)).collect();
        meta.import_record_ns_to_cjs_module = module.commonjs_namespaces.iter().map(namespace).collect();
        meta.included_commonjs_export_symbol = self.all(&module.commonjs_export_symbols).into_iter().collect();
        meta.set_wrap_kind([WrapKind::None, WrapKind::Cjs, WrapKind::Esm][module.wrap as usize]);
        meta
    }

    /// A module's statements; the resolutions of their member expressions go to `meta`.
    fn statements(&self, module: &Module, meta: &mut LinkingMetadata) -> StmtInfos {
        let mut expressions = 0;
        let infos = module.statements.iter().map(|statement| self.statement(statement, &mut expressions, meta));
        StmtInfos { infos: infos.collect(), ..StmtInfos::default() }
    }

    fn statement(&self, statement: &Statement, expressions: &mut u32, meta: &mut LinkingMetadata) -> StmtInfo {
        let has = |bit: u32| statement.bits >> bit & 1 != 0;
        let mut eval_flags = StmtEvalFlags::empty();
        eval_flags.set(StmtEvalFlags::SideEffectForTreeShaking, has(0));
        eval_flags.set(StmtEvalFlags::UnknownSideEffect, has(1));
        let mut stmt_meta = StmtInfoMeta::empty();
        stmt_meta.set(StmtInfoMeta::ReExportDynamicExports, has(3));
        let references = statement.references.iter().map(|reference| self.reference(reference, expressions, meta));
        StmtInfo {
            declared_symbols: vec![SymbolRef::default(); usize::from(has(4))],
            referenced_symbols: references.collect(),
            import_records: statement.records.iter().map(|&record| ImportRecordIdx::new(record)).collect(),
            eval_flags,
            force_tree_shaking: has(2),
            meta: stmt_meta,
        }
    }

    fn reference(
        &self,
        reference: &Reference,
        expressions: &mut u32,
        meta: &mut LinkingMetadata,
    ) -> SymbolOrMemberExprRef {
        if let Reference::Symbol(symbol) = reference {
            return SymbolOrMemberExprRef::Symbol(self.of(*symbol));
        }
        *expressions += 1;
        let mut member = MemberExprRef {
            object_ref: self.of(0),
            prop_and_span_list: Vec::new(),
            is_write: false,
            node_id: NodeId::new(*expressions),
        };
        let mut resolve = |resolved, depended_refs, target_commonjs_exported_symbol| {
            let resolution = MemberExprRefResolution { resolved, depended_refs, target_commonjs_exported_symbol };
            meta.resolved_member_expr_refs.insert(NodeId::new(*expressions), resolution);
        };
        match reference {
            Reference::Symbol(_) => {}
            Reference::Nothing => resolve(None, Vec::new(), None),
            Reference::Resolved { symbol, commonjs, depended } => {
                let target = (*commonjs != 0).then(|| self.of(*symbol));
                resolve(Some(self.of(*symbol)), self.all(depended), target);
            }
            Reference::Member { object, write, properties, first } => {
                let property = || MemberExprProp { name: name(*first) };
                member.object_ref = self.of(*object);
                member.is_write = *write != 0;
                member.prop_and_span_list.extend((0..at_most_two(*properties)).map(|_| property()));
            }
        }
        SymbolOrMemberExprRef::MemberExpr(member)
    }

    fn fill_symbol_statements(&self, graph: &Graph, stmt_infos: &mut IndexVec<ModuleIdx, StmtInfos>) {
        for (symbol, &place) in graph.symbols.iter().zip(&self.0) {
            let infos = &mut stmt_infos[place.owner];
            let indexes = |list: &[u32]| list.iter().map(|&index| StmtInfoIdx::new(index)).collect();
            if !symbol.declaring.is_empty() {
                infos.symbol_ref_to_declared_stmt_idx.insert(place, indexes(&symbol.declaring));
            }
            if !symbol.written.is_empty() {
                infos.symbol_ref_to_referenced_stmt_idx.insert(place, indexes(&symbol.written));
            }
        }
    }

    fn symbols(&self, graph: &Graph) -> SymbolRefDb {
        let mut owners: IndexVec<ModuleIdx, IndexVec<SymbolId, SymbolData>> =
            graph.modules.iter().map(|_| IndexVec::default()).collect();
        for (number, symbol) in (0..).zip(&graph.symbols) {
            let alias = symbol.alias_namespace.checked_sub(1).map(|namespace| NamespaceAlias {
                property_name: name(symbol.alias_name),
                namespace_ref: self.of(namespace),
            });
            owners[ModuleIdx::new(symbol.owner)].push(SymbolData {
                name: name(symbol.name),
                link: (symbol.root != number).then(|| self.of(symbol.root)),
                namespace_alias: alias,
                number,
            });
        }
        SymbolRefDb { owners, watch: None }
    }

    fn runtime(&self, graph: &Graph) -> RuntimeModuleBrief {
        let named = RUNTIME_HELPER_NAMES.iter().zip(&graph.helpers);
        RuntimeModuleBrief {
            id: ModuleIdx::new(graph.runtime),
            name_to_symbol: named.map(|(name, &symbol)| (CompactStr::new(name), self.of(symbol))).collect(),
        }
    }

    fn constants(&self, graph: &Graph) -> FxHashMap<SymbolRef, ConstExportMeta> {
        let known = graph.symbols.iter().zip(&self.0).filter(|(symbol, _)| symbol.constant & 1 != 0);
        let constant = |(symbol, &place): (&Symbol, &SymbolRef)| {
            let safe_to_inline = symbol.constant & 2 != 0;
            (place, ConstExportMeta { safe_to_inline, commonjs_export: symbol.constant & 4 != 0 })
        };
        known.map(constant).collect()
    }

    fn chains(&self, graph: &Graph) -> FxHashMap<SymbolRef, Vec<SymbolRef>> {
        let chained = graph.symbols.iter().zip(&self.0).filter(|(symbol, _)| !symbol.chain.is_empty());
        chained.map(|(symbol, &place)| (place, self.all(&symbol.chain))).collect()
    }
}

/// Name 0 is "default".
fn name(number: u32) -> CompactStr {
    match number {
        0 => CompactStr::new("default"),
        _ => CompactStr::new(&format!("n{number}")),
    }
}

/// Own exports have no names in a graph; only the symbols are read.
fn own_name(number: u32) -> CompactStr {
    CompactStr::new(&format!("e{number}"))
}

/// Of a count that only has to be told from 0 and 1.
fn at_most_two(count: u32) -> usize {
    count.min(2) as usize
}

pub fn verdict(number: u32) -> DeterminedSideEffects {
    match number {
        0 | 1 => DeterminedSideEffects::Analyzed(number == 1),
        2 | 3 => DeterminedSideEffects::UserDefined(number == 3),
        _ => DeterminedSideEffects::NoTreeshake,
    }
}

fn scan_time(module: &Module) -> ScanTimeSideEffects {
    let stmt_info_count = module.scan_statements as usize;
    ScanTimeSideEffects { side_effects: verdict(module.scan_effects), stmt_info_count }
}

fn import_record(record: &crate::model::Record) -> ImportRecord {
    let mut meta = ImportRecordMeta::empty();
    meta.set(ImportRecordMeta::IsExportStar, record.bits & 1 != 0);
    meta.set(ImportRecordMeta::TopLevelPureDynamicImport, record.bits & 2 != 0);
    ImportRecord {
        resolved_module: record.target.checked_sub(1).map(ModuleIdx::new),
        kind: [ImportKind::Import, ImportKind::Require, ImportKind::DynamicImport][record.kind as usize],
        meta,
    }
}

fn helper_statements(module: &Module) -> DependedRuntimeHelperMap {
    let mut helpers = DependedRuntimeHelperMap::default();
    for &[helper, statement] in &module.helpers {
        helpers.0[helper as usize].push(StmtInfoIdx::new(statement));
    }
    helpers
}

fn relaxed(graph: &Graph) -> FxHashSet<ModuleIdx> {
    let relaxed = (0..).zip(&graph.modules).filter(|(_, module)| module.flags & 32 != 0);
    relaxed.map(|(index, _)| ModuleIdx::new(index)).collect()
}

fn dynamic_import_usage(graph: &Graph) -> FxHashMap<ModuleIdx, DynamicImportExportsUsage> {
    let usage = |module: &Module| match module.flags & 16 {
        0 => DynamicImportExportsUsage::Complete,
        _ => DynamicImportExportsUsage::Partial(FxHashSet::default()),
    };
    (0..).zip(&graph.modules).map(|(index, module)| (ModuleIdx::new(index), usage(module))).collect()
}

/// The entries, each related import expression with a node of its own.
fn entries(graph: &Graph) -> (Vec<EntryPoint>, Unreachable) {
    let mut unreachable = Unreachable::default();
    let mut nodes = 0;
    let mut related = |entry: &Entry| {
        let expression = |&[module, statement, record, dead]: &[u32; 4]| {
            let (module, node) = (ModuleIdx::new(module), NodeId::new(nodes));
            nodes += 1;
            if dead != 0 {
                unreachable.insert((module, node));
            }
            (module, StmtInfoIdx::new(statement), node, ImportRecordIdx::new(record))
        };
        entry.related.iter().map(expression).collect()
    };
    let kinds = [EntryPointKind::UserDefined, EntryPointKind::EmittedUserDefined, EntryPointKind::DynamicImport];
    let entries = graph.entries.iter().map(|entry| EntryPoint {
        idx: ModuleIdx::new(entry.module),
        kind: kinds[entry.kind as usize],
        related_stmt_infos: related(entry),
    });
    (entries.collect(), unreachable)
}
