//! The entries of a graph: their order by module, what each starts, and which are left at the end.

use super::rules::{option, reason, Fact, Rules};
use crate::model::{Entry, Graph};

const DYNAMIC_IMPORT: u32 = 2;

pub fn is_dynamic(entry: &Entry) -> bool {
    entry.kind == DYNAMIC_IMPORT
}

/// The entries of one module beside each other, where the first of them stands; otherwise in their order.
pub fn grouped(graph: &Graph, entries: impl IntoIterator<Item = u32>) -> Vec<u32> {
    let mut groups: Vec<Vec<u32>> = Vec::new();
    let mut group_of = vec![None; graph.modules.len()];
    for entry in entries {
        let module = graph.entries[entry as usize].module as usize;
        let group = *group_of[module].get_or_insert(groups.len());
        if group == groups.len() {
            groups.push(Vec::new());
        }
        groups[group].push(entry);
    }
    groups.concat()
}

/// The user-defined entries and the dynamic ones, each in the order of all entries by module.
pub fn parted(graph: &Graph) -> (Vec<u32>, Vec<u32>) {
    let all = grouped(graph, 0..graph.entries.len() as u32);
    all.into_iter().partition(|&entry| !is_dynamic(&graph.entries[entry as usize]))
}

/// The facts that a user-defined entry starts, in order; none if its module is external.
pub fn user_defined_starts(rules: &Rules, module: u32) -> Vec<Fact> {
    let mut starts = entry_starts(rules, module);
    if !starts.is_empty() {
        starts.insert(0, Fact::Bailout(module));
    }
    starts
}

/// The facts that a live dynamic entry starts, in order; none if its module is external.
pub fn entry_starts(rules: &Rules, module: u32) -> Vec<Fact> {
    let mut starts = Vec::new();
    if !rules.module(module).normal {
        return starts;
    }
    for &symbol in &rules.module(module).entry_references {
        if rules.module(rules.symbol(symbol).owner).normal {
            starts.extend(rules.declaring(symbol));
            starts.push(Fact::CheckedUse(symbol, reason::ENTRY_EXPORT));
        }
    }
    starts.push(Fact::Module(module));
    starts
}

/// The final entries: the user-defined ones, then the live dynamic ones unless splitting is off, by module again.
pub fn final_entries(rules: &Rules, user_defined: &[u32], dynamic: &[u32], live: &[bool]) -> Vec<u32> {
    let is_live = |entry: &&u32| live[rules.graph.entries[**entry as usize].module as usize];
    let splits = !rules.has(option::SPLITTING_OFF);
    let lived = dynamic.iter().filter(|entry| splits && is_live(entry));
    grouped(rules.graph, user_defined.iter().chain(lived).copied())
}
