//! Stand-in of `rolldown_common`: the types that the tree shaking names, with the fields and methods that it reads.

mod linking;
mod module;
mod options;
mod statement;
mod symbol;
mod watch;

pub use linking::*;
pub use module::*;
pub use options::*;
pub use statement::*;
pub use symbol::*;
pub use watch::*;

oxc_index::index_type!(ModuleIdx);
oxc_index::index_type!(StmtInfoIdx);
oxc_index::index_type!(ImportRecordIdx);
oxc_index::index_type!(ChunkIdx);
oxc_index::index_type!(InsChunkIdx);

pub mod side_effects {
    #[derive(Clone, Copy, Debug)]
    pub enum DeterminedSideEffects {
        UserDefined(bool),
        Analyzed(bool),
        NoTreeshake,
    }

    impl DeterminedSideEffects {
        #[inline]
        pub fn has_side_effects(&self) -> bool {
            match self {
                DeterminedSideEffects::UserDefined(effects) | DeterminedSideEffects::Analyzed(effects) => *effects,
                DeterminedSideEffects::NoTreeshake => true,
            }
        }
    }
}

pub mod dynamic_import_usage {
    use oxc_str::CompactStr;
    use rustc_hash::FxHashSet;

    #[derive(Debug)]
    pub enum DynamicImportExportsUsage {
        Complete,
        Partial(FxHashSet<CompactStr>),
        Single(CompactStr),
    }
}
