//! What a run that settles comes to, after the sentence that promises it: the smallest choice of facts and live modules
//! that holds what it has to hold. It grows from nothing, without rounds, order or lines, and shares with
//! [`run`](mod@super::run) only the single rules and the modules on cycles. Slow, and for small graphs only.

use super::dynamic_entries::sorted;
use super::entries::{is_dynamic, parted};
use super::rules::{Fact, Rules};
use crate::model::{Entry, Graph};
use std::collections::{BTreeSet, HashSet};

/// Facts, and the modules that are live as dynamic entries.
#[derive(Clone, Debug, Default, PartialEq, Eq)]
pub struct Choice {
    pub facts: HashSet<Fact>,
    pub live: BTreeSet<u32>,
}

/// By module whether it is on a cycle, which depends on the order of the entries.
pub fn on_cycle(graph: &Graph) -> Vec<bool> {
    sorted(graph, &parted(graph).1).on_cycle
}

/// The smallest choice of a graph.
pub fn smallest_choice(graph: &Graph) -> Choice {
    let (rules, on_cycle) = (Rules::new(graph), on_cycle(graph));
    let mut choice = Choice::default();
    loop {
        let size = [choice.facts.len(), choice.live.len()];
        choice.live.extend(lives(&rules, &on_cycle, &choice));
        choice.facts.extend(asked(&rules, &choice));
        if [choice.facts.len(), choice.live.len()] == size {
            return choice;
        }
    }
}

/// The modules of dynamic entries that have to be live beside these facts.
fn lives(rules: &Rules, on_cycle: &[bool], choice: &Choice) -> Vec<u32> {
    let dynamic = || rules.graph.entries.iter().filter(|entry| is_dynamic(entry));
    let of_module = |module: u32| dynamic().filter(move |entry| entry.module == module);
    let lives = |module: &u32| {
        on_cycle[*module as usize] || of_module(*module).any(|entry| has_live_statement(rules, entry, choice))
    };
    dynamic().map(|entry| entry.module).filter(lives).collect()
}

/// Whether an entry has a related statement that is kept and reached, and whose import something could notice.
fn has_live_statement(rules: &Rules, entry: &Entry, choice: &Choice) -> bool {
    let uses_no_export = rules.module(entry.module).flags >> 4 & 1 == 1;
    entry.related.iter().any(|&[module, statement, record, unreachable]| {
        let record = &rules.module(module).records[record as usize];
        let is_pure = record.bits >> 1 & 1 == 1 && !rules.effectful(record.target - 1);
        let is_kept = choice.facts.contains(&Fact::Statement(module, statement));
        unreachable == 0 && is_kept && !(uses_no_export && is_pure)
    })
}

/// The facts that entries, rules and bailouts ask for beside these.
fn asked(rules: &Rules, choice: &Choice) -> Vec<Fact> {
    let mut asked = Vec::new();
    for entry in rules.graph.entries.iter().filter(|entry| !is_dynamic(entry)) {
        if rules.module(entry.module).normal {
            asked.push(Fact::Bailout(entry.module));
            asked.extend(starts(rules, entry.module));
        }
    }
    for &module in choice.live.iter().filter(|module| rules.module(**module).normal) {
        asked.extend(starts(rules, module));
    }
    for &fact in &choice.facts {
        asked.extend(rules.consequences(fact).into_iter().map(|(_, fact)| fact));
        match fact {
            Fact::Forward(symbol) if choice.facts.contains(&Fact::Module(rules.symbol(symbol).owner)) => {
                asked.extend(rules.declaring(symbol));
            }
            Fact::Bailout(module) => {
                let from_commonjs = rules.module(module).resolved_exports.iter().filter(|export| export[2] == 1);
                asked.extend(from_commonjs.map(|export| Fact::CheckedUse(export[1], 1)));
            }
            _ => {}
        }
    }
    asked
}

/// What an entry of a normal module starts.
fn starts(rules: &Rules, module: u32) -> Vec<Fact> {
    let mut starts = vec![Fact::Module(module)];
    for &symbol in &rules.module(module).entry_references {
        if rules.module(rules.symbol(symbol).owner).normal {
            starts.extend(rules.declaring(symbol));
            starts.push(Fact::CheckedUse(symbol, 2));
        }
    }
    starts
}
