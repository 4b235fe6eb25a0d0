//! The last verdicts: which modules have effects.

use super::{check, decode::decode};
use crate::model::{Graph, Module, Record};
use crate::Refusal;

/// Analyzed(false), the only verdict that changes.
const WITHOUT_EFFECTS: u32 = 0;
const WITH_EFFECTS: u32 = 1;

/// Whether a verdict is one of effects: Analyzed(true), UserDefined(true), NoTreeshake.
pub fn is_effectful(verdict: u32) -> bool {
    matches!(verdict, 1 | 3 | 4)
}

/// Writes the last verdict of each module; those past them are as lent. As check, then 5 if the row is too short.
pub fn effects(numbers: &[u32], row: &mut [u32]) -> Refusal {
    if let Err(refused) = check(numbers) {
        return Err(refused).into();
    }
    let verdicts = verdicts(&decode(numbers));
    if row.len() < verdicts.len() {
        return Refusal { number: 5, place: 0 };
    }
    row[..verdicts.len()].copy_from_slice(&verdicts);
    Refusal::PASSED
}

/// The last verdict of each module.
pub fn verdicts(graph: &Graph) -> Vec<u32> {
    let mut verdicts: Vec<u32> = graph.modules.iter().map(|module| module.effects).collect();
    settle(graph, &mut verdicts);
    if graph.modules.iter().any(is_relaxed) {
        for (module, verdict) in graph.modules.iter().zip(&mut verdicts).filter(|(module, _)| module.normal) {
            *verdict = scan_verdict(module);
        }
        settle(graph, &mut verdicts);
    }
    verdicts
}

fn is_relaxed(module: &Module) -> bool {
    module.flags & 32 != 0
}

/// What a module goes back to: its scan verdict, but for a relaxed one with effects what its scanned statements say.
fn scan_verdict(module: &Module) -> u32 {
    if !is_relaxed(module) || module.scan_effects != WITH_EFFECTS {
        return module.scan_effects;
    }
    let scanned = module.statements.iter().take(module.scan_statements as usize);
    u32::from(scanned.into_iter().any(|statement| statement.bits & 2 != 0))
}

/// Passes effects back to the importers that are without effects so far.
fn settle(graph: &Graph, verdicts: &mut [u32]) {
    let open = |module: &Module, verdict: u32| module.normal && verdict == WITHOUT_EFFECTS;
    let mut effectful: Vec<bool> = verdicts.iter().map(|&verdict| is_effectful(verdict)).collect();
    let mut importers = vec![Vec::new(); graph.modules.len()];
    for (index, module) in graph.modules.iter().enumerate().filter(|&(index, module)| open(module, verdicts[index])) {
        for record in module.records.iter().filter(|record| record.target != 0) {
            let target = record.target as usize - 1;
            importers[target].push(index);
            effectful[index] |= is_seed(record, &graph.modules[target]);
        }
    }
    let mut pending: Vec<usize> = (0..effectful.len()).filter(|&index| effectful[index]).collect();
    while let Some(index) = pending.pop() {
        for &importer in &importers[index] {
            if !effectful[importer] {
                effectful[importer] = true;
                pending.push(importer);
            }
        }
    }
    for (index, verdict) in verdicts.iter_mut().enumerate() {
        if open(&graph.modules[index], *verdict) {
            *verdict = u32::from(effectful[index]);
        }
    }
}

/// An export-star of a normal module that is wrapped or has dynamic exports.
fn is_seed(record: &Record, target: &Module) -> bool {
    let export_star = record.kind == 0 && record.bits & 1 != 0;
    export_star && target.normal && (target.wrap != 0 || target.flags & 8 != 0)
}
