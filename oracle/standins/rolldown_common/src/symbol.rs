use crate::{ModuleIdx, Watch};
use oxc::semantic::SymbolId;
use oxc_index::IndexVec;
use oxc_str::CompactStr;
use rustc_hash::{FxHashMap, FxHashSet};

#[derive(Clone, Copy, Debug, Default, PartialEq, Eq, Hash)]
pub struct SymbolRef {
    pub owner: ModuleIdx,
    pub symbol: SymbolId,
}

impl SymbolRef {
    #[inline]
    pub fn name<'a>(&self, symbols: &'a SymbolRefDb) -> &'a str {
        symbols.get(*self).name.as_str()
    }
}

#[derive(Clone, Debug)]
pub struct NamespaceAlias {
    pub property_name: CompactStr,
    pub namespace_ref: SymbolRef,
}

#[derive(Clone, Debug)]
pub struct SymbolData {
    pub name: CompactStr,
    /// The next symbol on the way to the root; none for a root.
    pub link: Option<SymbolRef>,
    pub namespace_alias: Option<NamespaceAlias>,
    /// Its number in the graph.
    pub number: u32,
}

/// The symbols by owner.
#[derive(Debug, Default)]
pub struct SymbolRefDb {
    pub owners: IndexVec<ModuleIdx, IndexVec<SymbolId, SymbolData>>,
    /// None while a decision is timed.
    pub watch: Option<Box<Watch>>,
}

impl SymbolRefDb {
    #[inline]
    pub fn get(&self, symbol: SymbolRef) -> &SymbolData {
        &self.owners[symbol.owner][symbol.symbol]
    }

    #[inline]
    pub fn canonical_ref_for(&self, symbol: SymbolRef) -> SymbolRef {
        if let Some(watch) = &self.watch {
            watch.note();
        }
        let mut root = symbol;
        while let Some(next) = self.get(root).link {
            root = next;
        }
        root
    }
}

#[derive(Clone, Copy, Debug)]
pub struct ConstExportMeta {
    pub safe_to_inline: bool,
    pub commonjs_export: bool,
}

#[derive(Debug, Default)]
pub struct UsedSymbolRefsBuilder(FxHashSet<SymbolRef>);

impl UsedSymbolRefsBuilder {
    #[inline]
    pub fn insert(&mut self, symbol: SymbolRef) {
        self.0.insert(symbol);
    }

    #[inline]
    pub fn contains(&self, symbol: &SymbolRef) -> bool {
        self.0.contains(symbol)
    }

    pub fn iter(&self) -> impl Iterator<Item = &SymbolRef> {
        self.0.iter()
    }
}

#[derive(Clone, Copy, Debug, Default)]
pub struct ExternalInteropUse {
    pub node_esm: bool,
    pub non_node_esm: bool,
}

impl ExternalInteropUse {
    pub fn union(self, other: ExternalInteropUse) -> ExternalInteropUse {
        ExternalInteropUse {
            node_esm: self.node_esm || other.node_esm,
            non_node_esm: self.non_node_esm || other.non_node_esm,
        }
    }
}

#[derive(Debug, Default)]
pub struct UsedExternalSymbols {
    symbols: FxHashSet<SymbolRef>,
    interop_uses: FxHashMap<SymbolRef, FxHashMap<ModuleIdx, ExternalInteropUse>>,
}

impl UsedExternalSymbols {
    #[inline]
    pub fn insert(&mut self, symbol: SymbolRef) {
        self.symbols.insert(symbol);
    }

    pub fn iter(&self) -> impl Iterator<Item = &SymbolRef> {
        self.symbols.iter()
    }

    pub fn has_interop_use(&self) -> bool {
        !self.interop_uses.is_empty()
    }

    pub fn note_interop_use(&mut self, namespace: SymbolRef, node_esm: bool, observer: ModuleIdx) {
        let modes = self.interop_uses.entry(namespace).or_default().entry(observer).or_default();
        if node_esm {
            modes.node_esm = true;
        } else {
            modes.non_node_esm = true;
        }
    }

    pub fn interop_uses_by_observer(&self, namespace: &SymbolRef) -> Option<&FxHashMap<ModuleIdx, ExternalInteropUse>> {
        self.interop_uses.get(namespace)
    }
}
