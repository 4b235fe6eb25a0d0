//! Stand-in of `oxc`: the ids alone.

pub mod semantic {
    oxc_index::index_type!(NodeId);
    oxc_index::index_type!(SymbolId);
}
