//! What the program `keep` prints of a decision, read from the link stage after it.

use crate::model::Graph;
use rolldown::stages::link_stage::LinkStage;
use rolldown_common::side_effects::DeterminedSideEffects;
use rolldown_common::{EntryPointKind, ImportRecordMeta, ModuleIdx, StmtInfoIdx, SymbolRef};
use std::fmt::{Display, Write};

pub fn listing(graph: &Graph, stage: &LinkStage, rounds: u64) -> String {
    let mut text = format!("rounds {rounds}\n");
    for entry in stage.entries.values().flatten() {
        let kind = match entry.kind {
            EntryPointKind::UserDefined => 0,
            EntryPointKind::EmittedUserDefined => 1,
            EntryPointKind::DynamicImport => 2,
        };
        line(&mut text, "entry", [entry.idx.raw(), kind]);
    }
    for (index, module) in stage.module_table.modules.iter_enumerated() {
        let Some(module) = module.as_normal() else { continue };
        let meta = &stage.metas[index];
        let [kept, effects] = [u32::from(meta.is_included), verdict(module.side_effects)];
        let reason = u32::from(meta.module_namespace_included_reason.bits());
        line(&mut text, "module", [index.raw(), kept, effects, reason, meta.depended_runtime_helper.bits()]);
    }
    for (index, module) in (0..).zip(&graph.modules) {
        for number in 0..module.statements.len() as u32 {
            if stage.metas[ModuleIdx::new(index)].stmt_info_included.has_bit(StmtInfoIdx::new(number)) {
                line(&mut text, "statement", [index, number]);
            }
        }
    }
    for symbol in sorted(stage, stage.used_symbol_refs_builder.iter()) {
        line(&mut text, "used", [symbol]);
    }
    for symbol in sorted(stage, stage.used_external_symbols.iter()) {
        line(&mut text, "external", [symbol]);
    }
    for module in stage.module_table.modules.iter().filter_map(|module| module.as_normal()) {
        let symbols = module.json_module_none_self_reference_included_symbol.iter().flat_map(|symbols| symbols.iter());
        for symbol in sorted(stage, symbols) {
            line(&mut text, "json", [module.idx.raw(), symbol]);
        }
    }
    for module in stage.module_table.modules.iter().filter_map(|module| module.as_normal()) {
        for (number, record) in module.import_records.iter_enumerated() {
            if record.meta.contains(ImportRecordMeta::DeadDynamicImport) {
                line(&mut text, "dead", [module.idx.raw(), number.raw()]);
            }
        }
    }
    text
}

fn line(text: &mut String, what: &str, numbers: impl IntoIterator<Item = impl Display>) {
    text.push_str(what);
    for number in numbers {
        write!(text, " {number}").expect("a string takes all");
    }
    text.push('\n');
}

fn verdict(effects: DeterminedSideEffects) -> u32 {
    match effects {
        DeterminedSideEffects::Analyzed(effects) => u32::from(effects),
        DeterminedSideEffects::UserDefined(effects) => 2 + u32::from(effects),
        DeterminedSideEffects::NoTreeshake => 4,
    }
}

fn sorted<'a>(stage: &LinkStage, symbols: impl Iterator<Item = &'a SymbolRef>) -> Vec<u32> {
    let mut numbers: Vec<u32> = symbols.map(|&symbol| stage.symbols.get(symbol).number).collect();
    numbers.sort_unstable();
    numbers
}
