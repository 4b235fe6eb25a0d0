use crate::side_effects::DeterminedSideEffects;
use crate::{ImportRecordIdx, ModuleIdx, SymbolRef};
use oxc_index::IndexVec;
use oxc_str::CompactStr;
use rolldown_utils::indexmap::FxIndexMap;
use rustc_hash::{FxHashMap, FxHashSet};
use std::ops::{Deref, DerefMut, Index};

/// Only whether it is the runtime's is asked.
pub type ModuleId = &'static str;

pub const RUNTIME_MODULE_ID: ModuleId = "\0rolldown/runtime.js";

#[derive(Clone, Copy, Debug, PartialEq, Eq)]
pub enum ExportsKind {
    Esm,
    CommonJs,
    None,
}

#[derive(Clone, Copy, Debug, PartialEq, Eq)]
pub enum ModuleType {
    Js,
    Jsx,
    Json,
    Text,
}

#[derive(Clone, Copy, Debug, PartialEq, Eq)]
pub enum ImportKind {
    Import,
    Require,
    DynamicImport,
}

bitflags::bitflags! {
    #[derive(Clone, Copy, Debug, Default)]
    pub struct ImportRecordMeta: u8 {
        const IsExportStar = 1;
        const TopLevelPureDynamicImport = 1 << 1;
        const DeadDynamicImport = 1 << 2;
        const EntryLevelExternal = 1 << 3;
    }

    #[derive(Clone, Copy, Debug, Default)]
    pub struct EcmaViewMeta: u8 {
        const Eval = 1;
        const SafelyTreeshakeCommonjs = 1 << 1;
    }

    #[derive(Clone, Copy, Debug, Default)]
    pub struct EcmaModuleAstUsage: u8 {
        const IsCjsReexport = 1;
    }
}

impl EcmaViewMeta {
    #[inline]
    pub fn has_eval(&self) -> bool {
        self.contains(EcmaViewMeta::Eval)
    }
}

#[derive(Debug)]
pub struct ImportRecord {
    pub resolved_module: Option<ModuleIdx>,
    pub kind: ImportKind,
    pub meta: ImportRecordMeta,
}

impl ImportRecord {
    /// The record has to be resolved.
    #[inline]
    pub fn into_resolved_module(&self) -> ModuleIdx {
        self.resolved_module.expect("a related record is resolved")
    }
}

#[derive(Debug)]
pub enum Specifier {
    Star,
    Literal(CompactStr),
}

#[derive(Debug)]
pub struct NamedImport {
    pub imported: Specifier,
    pub record_idx: ImportRecordIdx,
}

#[derive(Debug)]
pub struct LocalExport {
    pub referenced: SymbolRef,
}

#[derive(Debug)]
pub enum ExportOrigin {
    Own,
    ReExport,
}

#[derive(Debug)]
pub struct EcmaView {
    pub import_records: IndexVec<ImportRecordIdx, ImportRecord>,
    pub named_imports: FxIndexMap<SymbolRef, NamedImport>,
    pub named_exports: FxHashMap<CompactStr, LocalExport>,
    pub exports_kind: ExportsKind,
    pub namespace_object_ref: SymbolRef,
    pub side_effects: DeterminedSideEffects,
    pub meta: EcmaViewMeta,
    pub ast_usage: EcmaModuleAstUsage,
    /// Only whether there are more than one is asked.
    pub cjs_reexport_import_record_ids: Vec<ImportRecordIdx>,
    pub enum_member_value_map: FxHashMap<CompactStr, FxHashMap<CompactStr, ()>>,
    pub json_module_none_self_reference_included_symbol: Option<Box<FxHashSet<SymbolRef>>>,
}

#[derive(Debug)]
pub struct NormalModule {
    pub idx: ModuleIdx,
    pub id: ModuleId,
    pub stable_id: ModuleId,
    pub module_type: ModuleType,
    pub ecma_view: EcmaView,
}

impl NormalModule {
    /// The graph lists own exports alone.
    #[inline]
    pub fn classify_export(&self, _export: &LocalExport) -> ExportOrigin {
        ExportOrigin::Own
    }

    /// Asked only where ESM syntax is not kept.
    pub fn should_consider_node_esm_spec_for_static_import(&self) -> bool {
        false
    }
}

impl Deref for NormalModule {
    type Target = EcmaView;

    #[inline]
    fn deref(&self) -> &EcmaView {
        &self.ecma_view
    }
}

impl DerefMut for NormalModule {
    #[inline]
    fn deref_mut(&mut self) -> &mut EcmaView {
        &mut self.ecma_view
    }
}

#[derive(Debug)]
pub struct ExternalModule {
    pub idx: ModuleIdx,
    pub id: ModuleId,
    pub side_effects: DeterminedSideEffects,
    /// Read only where ESM syntax is not kept.
    pub namespace_ref: SymbolRef,
}

#[derive(Debug)]
pub enum Module {
    Normal(Box<NormalModule>),
    External(Box<ExternalModule>),
}

impl Module {
    #[inline]
    pub fn as_normal(&self) -> Option<&NormalModule> {
        match self {
            Module::Normal(module) => Some(module),
            Module::External(_) => None,
        }
    }

    #[inline]
    pub fn as_normal_mut(&mut self) -> Option<&mut NormalModule> {
        match self {
            Module::Normal(module) => Some(module),
            Module::External(_) => None,
        }
    }

    #[inline]
    pub fn as_external(&self) -> Option<&ExternalModule> {
        match self {
            Module::Normal(_) => None,
            Module::External(module) => Some(module),
        }
    }

    #[inline]
    pub fn is_external(&self) -> bool {
        matches!(self, Module::External(_))
    }

    pub fn id(&self) -> &ModuleId {
        match self {
            Module::Normal(module) => &module.id,
            Module::External(module) => &module.id,
        }
    }

    #[inline]
    pub fn side_effects(&self) -> &DeterminedSideEffects {
        match self {
            Module::Normal(module) => &module.side_effects,
            Module::External(module) => &module.side_effects,
        }
    }

    /// Externals have none.
    #[inline]
    pub fn namespace_object_ref(&self) -> Option<SymbolRef> {
        self.as_normal().map(|module| module.namespace_object_ref)
    }
}

pub type IndexModules = IndexVec<ModuleIdx, Module>;

#[derive(Debug, Default)]
pub struct ModuleTable {
    pub modules: IndexModules,
}

impl ModuleTable {
    pub fn len(&self) -> usize {
        self.modules.len()
    }

    pub fn is_empty(&self) -> bool {
        self.modules.is_empty()
    }
}

impl Index<ModuleIdx> for ModuleTable {
    type Output = Module;

    #[inline]
    fn index(&self, index: ModuleIdx) -> &Module {
        &self.modules[index]
    }
}

impl std::ops::IndexMut<ModuleIdx> for ModuleTable {
    #[inline]
    fn index_mut(&mut self, index: ModuleIdx) -> &mut Module {
        &mut self.modules[index]
    }
}
