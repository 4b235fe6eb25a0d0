use crate::{ImportRecordIdx, StmtInfoIdx, SymbolRef};
use oxc::semantic::NodeId;
use oxc_index::IndexVec;
use oxc_str::CompactStr;
use rustc_hash::FxHashMap;

bitflags::bitflags! {
    #[derive(Clone, Copy, Debug, Default)]
    pub struct StmtInfoMeta: u8 {
        const ReExportDynamicExports = 1;
    }

    /// The graph holds the answers of the two questions that are asked, apart from each other.
    #[derive(Clone, Copy, Debug, Default)]
    pub struct StmtEvalFlags: u8 {
        const SideEffectForTreeShaking = 1;
        const UnknownSideEffect = 1 << 1;
    }
}

impl StmtEvalFlags {
    #[inline]
    pub fn has_side_effect_for_tree_shaking(&self) -> bool {
        self.contains(StmtEvalFlags::SideEffectForTreeShaking)
    }
}

#[derive(Debug, Default)]
pub struct StmtInfo {
    /// Only whether there is one is asked.
    pub declared_symbols: Vec<SymbolRef>,
    pub referenced_symbols: Vec<SymbolOrMemberExprRef>,
    pub import_records: Vec<ImportRecordIdx>,
    pub eval_flags: StmtEvalFlags,
    pub force_tree_shaking: bool,
    pub meta: StmtInfoMeta,
}

#[derive(Debug)]
pub enum SymbolOrMemberExprRef {
    Symbol(SymbolRef),
    MemberExpr(MemberExprRef),
}

impl SymbolOrMemberExprRef {
    #[inline]
    pub fn symbol_ref(&self) -> &SymbolRef {
        match self {
            SymbolOrMemberExprRef::Symbol(symbol) => symbol,
            SymbolOrMemberExprRef::MemberExpr(member) => &member.object_ref,
        }
    }
}

#[derive(Debug)]
pub struct MemberExprProp {
    pub name: CompactStr,
}

#[derive(Debug)]
pub struct MemberExprRef {
    pub object_ref: SymbolRef,
    pub prop_and_span_list: Vec<MemberExprProp>,
    pub is_write: bool,
    /// The expression's own, by which its resolution is found.
    pub node_id: NodeId,
}

impl MemberExprRef {
    #[inline]
    pub fn resolution<'a>(&self, resolved: &'a MemberExprRefResolutionMap) -> Option<&'a MemberExprRefResolution> {
        resolved.get(&self.node_id)
    }
}

#[derive(Debug)]
pub struct MemberExprRefResolution {
    pub resolved: Option<SymbolRef>,
    pub depended_refs: Vec<SymbolRef>,
    /// Only whether there is one is asked.
    pub target_commonjs_exported_symbol: Option<SymbolRef>,
}

pub type MemberExprRefResolutionMap = FxHashMap<NodeId, MemberExprRefResolution>;

#[derive(Debug, Default)]
pub struct StmtInfos {
    pub infos: IndexVec<StmtInfoIdx, StmtInfo>,
    pub symbol_ref_to_declared_stmt_idx: FxHashMap<SymbolRef, Vec<StmtInfoIdx>>,
    pub symbol_ref_to_referenced_stmt_idx: FxHashMap<SymbolRef, Vec<StmtInfoIdx>>,
}

impl StmtInfos {
    pub const NAMESPACE_STMT_IDX: StmtInfoIdx = StmtInfoIdx::new(0);

    #[inline]
    pub fn len(&self) -> usize {
        self.infos.len()
    }

    #[inline]
    pub fn is_empty(&self) -> bool {
        self.infos.is_empty()
    }

    #[inline]
    pub fn get(&self, index: StmtInfoIdx) -> &StmtInfo {
        &self.infos[index]
    }

    #[inline]
    pub fn iter(&self) -> std::slice::Iter<'_, StmtInfo> {
        self.infos.iter()
    }

    #[inline]
    pub fn iter_enumerated_without_namespace_stmt(&self) -> impl Iterator<Item = (StmtInfoIdx, &StmtInfo)> {
        self.infos.iter_enumerated().skip(1)
    }

    #[inline]
    pub fn declared_stmts_by_symbol(&self, symbol: &SymbolRef) -> &[StmtInfoIdx] {
        self.symbol_ref_to_declared_stmt_idx.get(symbol).map_or(&[], Vec::as_slice)
    }

    #[inline]
    pub fn symbol_ref_to_referenced_stmt_idx(&self) -> &FxHashMap<SymbolRef, Vec<StmtInfoIdx>> {
        &self.symbol_ref_to_referenced_stmt_idx
    }
}
