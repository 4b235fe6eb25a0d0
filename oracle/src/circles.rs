//! Circles: uses that lead back to themselves by K11 and K12. The tree shaking doesn't remember which uses it handled,
//! so it never returns where there is a circle among the lines of a run.

use crate::model::Graph;
use crate::reference::rules::reason::{ENTRY_EXPORT, NORMAL};
use crate::reference::rules::Fact;
use crate::reference::run::Run;
use std::collections::{BTreeMap, BTreeSet};

/// A use: its symbol and its reason.
type Use = (u32, u32);

/// Whether there is a circle among the lines of a graph's run, those of both stages: uses of which each gives one of
/// them by K11 or K12.
pub fn has_circle(graph: &Graph) -> bool {
    let run = Run::of(graph);
    let uses = run.lines.iter().chain(&run.runtime_lines).filter_map(|line| match line.fact {
        Fact::Use(symbol, reason) => Some((symbol, reason)),
        _ => None,
    });
    !endless(graph, uses).is_empty()
}

/// Whether there is a circle among all normal uses, be they facts of the run or not.
pub fn has_circle_anywhere(graph: &Graph) -> bool {
    !endless(graph, normal_uses(graph)).is_empty()
}

/// A normal use of each symbol.
fn normal_uses(graph: &Graph) -> impl Iterator<Item = Use> {
    (0..graph.symbols.len() as u32).map(|symbol| (symbol, NORMAL))
}

/// Of some uses, those from which there is no end among them, and what each gives: takes away all that give none of the
/// rest.
fn endless(graph: &Graph, uses: impl Iterator<Item = Use>) -> BTreeMap<Use, Vec<Use>> {
    let given = |used: Use| given_uses(graph, used).iter().map(Given::used).collect();
    let mut left: BTreeMap<Use, Vec<Use>> = uses.map(|used| (used, given(used))).collect();
    loop {
        let before: BTreeSet<Use> = left.keys().copied().collect();
        left.retain(|_, given| given.iter().any(|next| before.contains(next)));
        if left.len() == before.len() {
            return left;
        }
    }
}

/// A use that follows from another, and what in the graph makes it follow.
enum Given {
    /// K11: the symbol, and its place among the resolved exports of a module.
    Export(u32, [usize; 2]),
    /// K12: the symbol, and the module whose wrapper it is.
    Wrapper(u32, usize),
}

impl Given {
    fn used(&self) -> Use {
        match *self {
            Given::Export(symbol, _) | Given::Wrapper(symbol, _) => (symbol, NORMAL),
        }
    }
}

/// The uses that follow from a use by K11 and K12.
fn given_uses(graph: &Graph, (symbol, reason): Use) -> Vec<Given> {
    let root = &graph.symbols[graph.symbols[symbol as usize].root as usize];
    let smart = graph.options & 2 != 0;
    let mut given = Vec::new();
    if root.constant & 5 == 1 && (!smart || root.constant & 2 != 0) && reason & ENTRY_EXPORT == 0 {
        return given;
    }
    let namespace = root.alias_namespace.checked_sub(1);
    given.extend(namespace.and_then(|namespace| export(graph, namespace, root.alias_name)));
    let target = namespace.unwrap_or(graph.symbols[symbol as usize].root);
    let owner = graph.symbols[target as usize].owner as usize;
    let module = &graph.modules[owner];
    if module.normal && module.wrap == 2 && module.wrapper != 0 && module.wrapper != target + 1 {
        given.push(Given::Wrapper(module.wrapper - 1, owner));
    }
    given
}

/// The export of this name, not 0, that a CommonJS namespace leads to.
fn export(graph: &Graph, namespace: u32, name: u32) -> Option<Given> {
    let owner = &graph.modules[graph.symbols[namespace as usize].owner as usize];
    let module = owner.commonjs_namespaces.iter().find(|row| row[0] == namespace)?[1] as usize;
    let exports = graph.modules[module].normal.then_some(&graph.modules[module].resolved_exports)?;
    let place = exports.iter().position(|row| row[0] == name && name != 0)?;
    Some(Given::Export(exports[place][1], [module, place]))
}

/// Takes exports and wrappers away until no normal use leads back to itself by K11 and K12.
pub fn break_circles(graph: &mut Graph) {
    loop {
        let left = endless(graph, normal_uses(graph));
        let Some((&first, _)) = left.first_key_value() else { return };
        let next = |used: Use| *left[&used].iter().find(|next| left.contains_key(next)).expect("there is no end");
        // After as many steps as there are symbols it is on a circle.
        let on_circle = graph.symbols.iter().fold(first, |used, _| next(used));
        let after = next(on_circle);
        let uses = given_uses(graph, on_circle);
        match uses.iter().find(|given| given.used() == after).expect("it is given") {
            Given::Export(_, [module, place]) => {
                graph.modules[*module].resolved_exports.remove(*place);
            }
            Given::Wrapper(_, module) => graph.modules[*module].wrapper = 0,
        }
    }
}
