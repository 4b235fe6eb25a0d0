use crate::{ImportRecordIdx, ModuleIdx, StmtInfoIdx, SymbolRef};
use oxc::semantic::NodeId;
use oxc_str::CompactStr;
use rustc_hash::FxHashMap;

#[derive(Clone, Copy, Debug, Default, PartialEq, Eq)]
pub enum WrapKind {
    #[default]
    None,
    Cjs,
    Esm,
}

#[derive(Clone, Copy, Debug, Default)]
pub enum ConcatenateWrappedModuleKind {
    #[default]
    None,
}

#[derive(Debug)]
pub struct ResolvedExport {
    pub symbol_ref: SymbolRef,
    pub came_from_commonjs: bool,
}

bitflags::bitflags! {
    #[derive(Clone, Copy, Debug, Default)]
    pub struct ModuleNamespaceIncludedReason: u8 {
        const Unknown = 1;
        const ReExportDynamicExports = 1 << 1;
    }

    /// A bit for each helper of the graph. `ToEsm` is asked for only where ESM syntax is not kept.
    #[derive(Clone, Copy, Debug, Default)]
    pub struct RuntimeHelper: u32 {
        const ToEsm = 1;
    }
}

/// Bit by bit, the lowest first.
impl IntoIterator for RuntimeHelper {
    type Item = RuntimeHelper;
    type IntoIter = Helpers;

    fn into_iter(self) -> Helpers {
        Helpers(self.bits())
    }
}

pub struct Helpers(u32);

impl Iterator for Helpers {
    type Item = RuntimeHelper;

    fn next(&mut self) -> Option<RuntimeHelper> {
        let rest = self.0;
        self.0 &= rest.wrapping_sub(1);
        (rest != 0).then_some(RuntimeHelper::from_bits_retain(rest & rest.wrapping_neg()))
    }
}

/// The most helpers that a graph has.
pub const HELPERS: usize = 32;

/// The name of each helper, which the runtime finds its symbol by.
#[rustfmt::skip]
pub const RUNTIME_HELPER_NAMES: [&str; HELPERS] = [
    "__0", "__1", "__2", "__3", "__4", "__5", "__6", "__7", "__8", "__9", "__10", "__11", "__12", "__13", "__14", "__15",
    "__16", "__17", "__18", "__19", "__20", "__21", "__22", "__23", "__24", "__25", "__26", "__27", "__28", "__29",
    "__30", "__31",
];

/// By helper: the statements that ask for it.
#[derive(Clone, Debug, Default)]
pub struct DependedRuntimeHelperMap(pub [Vec<StmtInfoIdx>; HELPERS]);

impl DependedRuntimeHelperMap {
    #[inline]
    pub fn iter(&self) -> impl Iterator<Item = (RuntimeHelper, &Vec<StmtInfoIdx>)> {
        (0..).zip(&self.0).map(|(bit, statements)| (RuntimeHelper::from_bits_retain(1 << bit), statements))
    }
}

#[derive(Debug, Default)]
pub struct RuntimeModuleBrief {
    pub id: ModuleIdx,
    pub name_to_symbol: FxHashMap<CompactStr, SymbolRef>,
}

impl RuntimeModuleBrief {
    #[inline]
    pub fn id(&self) -> ModuleIdx {
        self.id
    }

    #[inline]
    pub fn resolve_symbol(&self, name: &str) -> SymbolRef {
        self.name_to_symbol[name]
    }
}

#[derive(Clone, Copy, Debug, PartialEq, Eq)]
pub enum EntryPointKind {
    UserDefined,
    EmittedUserDefined,
    DynamicImport,
}

impl EntryPointKind {
    #[inline]
    pub fn is_user_defined(&self) -> bool {
        matches!(self, EntryPointKind::UserDefined | EntryPointKind::EmittedUserDefined)
    }
}

#[derive(Clone, Debug)]
pub struct EntryPoint {
    pub idx: ModuleIdx,
    pub kind: EntryPointKind,
    pub related_stmt_infos: Vec<(ModuleIdx, StmtInfoIdx, NodeId, ImportRecordIdx)>,
}

// Named by types of the copied files only.

#[derive(Debug)]
pub struct Asset;

#[derive(Debug)]
pub struct InstantiatedChunk;

#[derive(Clone, Copy, Debug, PartialEq, Eq)]
pub enum PostChunkOptimizationOperation {
    Removed,
}
