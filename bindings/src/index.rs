//! What explanations look up, made when the first one is asked for.

use crate::cycle;
use crate::fact::{Fact, Reason};
use crate::graph::Graph;
use crate::ids::{ModuleId, SymbolId};
use crate::record::Line;
use alloc::vec;
use alloc::vec::Vec;

#[cfg(not(feature = "std"))]
pub(crate) use core::cell::OnceCell as Once;
#[cfg(feature = "std")]
pub(crate) use std::sync::OnceLock as Once;

/// The lines of a run by what they say, and the cycles of its graph.
#[derive(Clone, Debug)]
pub(crate) struct Index {
    /// Facts with their lines, in order.
    lines: Vec<(Fact, usize)>,
    /// By symbol: the first line that makes it used.
    uses: Vec<Option<usize>>,
    /// By line: how long the longest chain of named lines to it is.
    depths: Vec<usize>,
    /// By module: whether it is on a cycle of dynamic imports.
    on_cycle: Vec<bool>,
}

impl Index {
    pub(crate) fn of(graph: &Graph, lines: &[Line]) -> Index {
        let mut by_fact: Vec<(Fact, usize)> = lines.iter().map(|line| line.fact).zip(0..).collect();
        by_fact.sort_unstable();
        let on_cycle = cycle::on_cycle(graph);
        Index { lines: by_fact, uses: uses(graph, lines), depths: depths(lines), on_cycle }
    }

    /// The first line of a fact.
    pub(crate) fn line_of(&self, fact: Fact) -> Option<usize> {
        let first = self.lines.partition_point(|&(other, _)| other < fact);
        self.lines.get(first).filter(|(other, _)| *other == fact).map(|&(_, line)| line)
    }

    /// The first line with a use that makes a symbol used.
    pub(crate) fn use_of(&self, symbol: SymbolId) -> Option<usize> {
        self.uses.get(symbol.at()).copied().flatten()
    }

    pub(crate) fn depth(&self, line: usize) -> usize {
        self.depths[line]
    }

    pub(crate) fn is_on_cycle(&self, module: ModuleId) -> bool {
        self.on_cycle.get(module.at()).copied().unwrap_or(false)
    }
}

/// The symbol that a use keeps: the namespace that the root is a property of, else the root.
pub(crate) fn target(graph: &Graph, symbol: SymbolId) -> SymbolId {
    let root = graph[symbol].root;
    graph[root].alias_namespace.unwrap_or(root)
}

/// Whether a constant stands in place of the symbol, so that this use keeps nothing.
fn is_replaced(graph: &Graph, symbol: SymbolId, reason: Reason) -> bool {
    let constant = graph[graph[symbol].root].constant;
    constant.is_known
        && !constant.commonjs_export
        && !reason.contains(Reason::ENTRY_EXPORT)
        && (constant.safe_to_inline || !graph.options.inline_const_smart)
}

/// By symbol: the first line with a use of it, or of one that stands for it.
fn uses(graph: &Graph, lines: &[Line]) -> Vec<Option<usize>> {
    let mut uses = vec![None; graph.symbols.len()];
    for (line, at) in lines.iter().enumerate() {
        match at.fact {
            Fact::Use(symbol, reason) if !is_replaced(graph, symbol, reason) => {
                for used in [symbol, target(graph, symbol)] {
                    uses[used.at()].get_or_insert(line);
                }
            }
            _ => {}
        }
    }
    uses
}

fn depths(lines: &[Line]) -> Vec<usize> {
    let mut depths: Vec<usize> = Vec::with_capacity(lines.len());
    for Line { because, .. } in lines {
        let named = because.iter().flatten().map(|&earlier| depths[earlier as usize]);
        depths.push(1 + named.max().unwrap_or(0));
    }
    depths
}
