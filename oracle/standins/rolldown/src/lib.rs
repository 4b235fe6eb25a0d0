//! The crate around the copied files: they are its modules, and what they name of their own crate stands here.

#![allow(dead_code, unused_imports)]

pub mod chunk_graph {
    use oxc_index::IndexVec;
    use rolldown_common::{ChunkIdx, ModuleIdx, PostChunkOptimizationOperation};
    use rustc_hash::FxHashMap;

    /// Of the chunks that come later, what the copied files read.
    pub struct ChunkGraph {
        pub module_to_chunk: IndexVec<ModuleIdx, Option<ChunkIdx>>,
        pub post_chunk_optimization_operations: FxHashMap<ChunkIdx, PostChunkOptimizationOperation>,
    }
}

#[path = "../../../rolldown-1.2.16/src/type_alias.rs"]
pub mod type_alias;

#[path = "../../../rolldown-1.2.16/src/types"]
pub mod types {
    pub mod linking_metadata;
}

#[path = "../../../rolldown-1.2.16/src/utils"]
pub mod utils {
    pub mod external_import_interop;
}

#[path = "../../../rolldown-1.2.16/src/stages"]
pub mod stages {
    pub mod link_stage {
        pub mod tree_shaking {
            pub mod determine_side_effects;
            pub mod dynamic_entries;
            pub mod include_statements;
            pub mod on_demand;
            pub mod passes;
        }

        use crate::type_alias::IndexStmtInfos;
        use crate::types::linking_metadata::LinkingMetadataVec;
        use oxc_index::IndexVec;
        use rolldown_common::dynamic_import_usage::DynamicImportExportsUsage;
        use rolldown_common::{
            ConstExportMeta, DependedRuntimeHelperMap, EntryPoint, ModuleIdx, ModuleTable, NormalizedBundlerOptions,
            RuntimeModuleBrief, SymbolRef, SymbolRefDb, UsedExternalSymbols, UsedSymbolRefsBuilder,
        };
        use rolldown_utils::indexmap::FxIndexMap;
        use rustc_hash::{FxHashMap, FxHashSet};
        pub use tree_shaking::determine_side_effects::ScanTimeSideEffects;
        pub use tree_shaking::include_statements::{ModuleInclusionVec, ModuleNamespaceReasonVec, StmtInclusionVec};

        /// The fields that the tree shaking reads and writes.
        pub struct LinkStage<'a> {
            pub module_table: ModuleTable,
            pub entries: FxIndexMap<ModuleIdx, Vec<EntryPoint>>,
            pub symbols: SymbolRefDb,
            pub runtime: RuntimeModuleBrief,
            pub metas: LinkingMetadataVec,
            pub stmt_infos: IndexStmtInfos,
            pub options: &'a NormalizedBundlerOptions,
            pub global_constant_symbol_map: FxHashMap<SymbolRef, ConstExportMeta>,
            pub normal_symbol_exports_chain_map: FxHashMap<SymbolRef, Vec<SymbolRef>>,
            pub dynamic_import_exports_usage_map: FxHashMap<ModuleIdx, DynamicImportExportsUsage>,
            pub depended_runtime_helper: IndexVec<ModuleIdx, DependedRuntimeHelperMap>,
            pub relaxed_side_effect_modules: FxHashSet<ModuleIdx>,
            pub scan_time_side_effects: IndexVec<ModuleIdx, ScanTimeSideEffects>,
            pub used_symbol_refs_builder: UsedSymbolRefsBuilder,
            pub used_external_symbols: UsedExternalSymbols,
            pub has_enum_inlining: bool,
        }

        /// Named by types of the copied files only.
        pub struct LinkStageOutput {
            pub module_table: ModuleTable,
            pub symbol_db: SymbolRefDb,
            pub used_external_symbols: UsedExternalSymbols,
        }
    }
}
