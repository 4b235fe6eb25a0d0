//! The smallest closed set of facts, found by trying everything again until nothing is new, and what it shows.
//!
//! Written after the handlers of `include_statements.rs`, apart from [`rules`](super::rules) and
//! [`drain`](mod@super::drain), with every list searched from its beginning: slow, and for small graphs only.

use super::rules::Fact;
use crate::model::{Graph, Module, Reference, Statement, Symbol};
use std::collections::{BTreeMap, BTreeSet, HashSet};

/// What the facts of a drain show.
#[derive(Debug, Default, PartialEq, Eq)]
pub struct Shown {
    pub used: BTreeSet<u32>,
    pub external: BTreeSet<u32>,
    pub json: BTreeSet<u32>,
    pub reason: BTreeMap<u32, u8>,
}

/// The smallest set that holds the starts and all that the rules give from its own facts, and what it shows.
pub fn closure(graph: &Graph, starts: &[Fact]) -> (HashSet<Fact>, Shown) {
    closure_over(graph, starts, &HashSet::new())
}

/// The same over modules and statements that are kept already: they are not among the facts and give nothing again,
/// but a forward finds its module among them.
pub fn closure_over(graph: &Graph, starts: &[Fact], kept: &HashSet<Fact>) -> (HashSet<Fact>, Shown) {
    let context = Context::new(graph);
    let mut facts: HashSet<Fact> = starts.iter().copied().filter(|fact| !kept.contains(fact)).collect();
    let mut shown = Shown::default();
    loop {
        let before: Vec<Fact> = facts.iter().copied().collect();
        let mut given = Vec::new();
        for &fact in &before {
            context.handle(fact, &mut shown, &mut |new| given.push(new));
            for &module in before.iter().chain(kept) {
                given.extend(context.retained(module, fact));
            }
        }
        facts.extend(given.into_iter().filter(|fact| !kept.contains(fact)));
        if facts.len() == before.len() {
            return (facts, shown);
        }
    }
}

/// The last verdicts, by looking for a path from each module.
pub fn verdicts_by_paths(graph: &Graph) -> Vec<u32> {
    let first: Vec<u32> = graph.modules.iter().map(|module| module.effects).collect();
    let settled = settled_by_paths(graph, &first);
    if graph.modules.iter().all(|module| module.flags >> 5 & 1 == 0) {
        return settled;
    }
    let again: Vec<u32> = (0..graph.modules.len())
        .map(|index| match &graph.modules[index] {
            module if !module.normal => settled[index],
            Module { scan_effects: 1, flags: 32.., statements, scan_statements, .. } => {
                let unknown = |(index, statement): (usize, &Statement)| {
                    (index as u64) < u64::from(*scan_statements) && statement.bits >> 1 & 1 == 1
                };
                u32::from(statements.iter().enumerate().any(unknown))
            }
            module => module.scan_effects,
        })
        .collect();
    settled_by_paths(graph, &again)
}

fn settled_by_paths(graph: &Graph, verdicts: &[u32]) -> Vec<u32> {
    let settle = |index: usize| {
        let found = verdicts[index] == 0 && graph.modules[index].normal && leads_to_effects(graph, verdicts, index);
        if found {
            1
        } else {
            verdicts[index]
        }
    };
    (0..verdicts.len()).map(settle).collect()
}

/// Whether a path of resolved imports leads from a module to effects, all before the last normal and Analyzed(false).
fn leads_to_effects(graph: &Graph, verdicts: &[u32], from: usize) -> bool {
    let mut reached = BTreeSet::from([from]);
    loop {
        let before = reached.clone();
        for &index in &before {
            let module = &graph.modules[index];
            if [1, 3, 4].contains(&verdicts[index]) || is_seeded(graph, module, verdicts[index]) {
                return true;
            }
            if module.normal && verdicts[index] == 0 {
                reached.extend(module.records.iter().filter_map(|record| (record.target as usize).checked_sub(1)));
            }
        }
        if reached == before {
            return false;
        }
    }
}

/// A normal Analyzed(false) module with an export-star of a normal module that is wrapped or has dynamic exports.
fn is_seeded(graph: &Graph, module: &Module, verdict: u32) -> bool {
    let star = |target: u32| match graph.modules.get((target as usize).wrapping_sub(1)) {
        Some(Module { normal: true, wrap: 0, flags, .. }) => flags >> 3 & 1 == 1,
        Some(Module { normal, .. }) => *normal,
        None => false,
    };
    let seeds = module.records.iter().any(|record| record.kind == 0 && record.bits % 2 == 1 && star(record.target));
    module.normal && verdict == 0 && seeds
}

/// A graph and its last verdicts.
pub(super) struct Context<'a> {
    pub(super) graph: &'a Graph,
    verdicts: Vec<u32>,
}

impl<'a> Context<'a> {
    pub(super) fn new(graph: &'a Graph) -> Context<'a> {
        Context { graph, verdicts: verdicts_by_paths(graph) }
    }

    fn handle(&self, fact: Fact, shown: &mut Shown, push: &mut dyn FnMut(Fact)) {
        match fact {
            Fact::Module(module) => self.include_module(module, shown, push),
            Fact::Statement(module, index) => self.include_statement(module, index, push),
            Fact::Use(symbol, reason) => self.include_symbol(symbol, reason, shown, push),
            Fact::CheckedUse(symbol, reason) => {
                push(Fact::Use(symbol, reason));
                self.check_cjs_bailout(symbol, push);
            }
            Fact::Forward(_) | Fact::Bailout(_) => {}
        }
    }

    /// The statements that a kept module and a forward retain together.
    fn retained(&self, fact: Fact, other: Fact) -> Vec<Fact> {
        match (fact, other) {
            (Fact::Module(module), Fact::Forward(symbol)) if self.symbol(symbol).owner == module => {
                self.declaring_statements(symbol)
            }
            _ => Vec::new(),
        }
    }

    pub(super) fn module(&self, index: u32) -> &'a Module {
        &self.graph.modules[index as usize]
    }

    pub(super) fn normal(&self, index: u32) -> Option<&'a Module> {
        Some(self.module(index)).filter(|module| module.normal)
    }

    pub(super) fn symbol(&self, index: u32) -> &'a Symbol {
        &self.graph.symbols[index as usize]
    }

    pub(super) fn canonical(&self, symbol: u32) -> u32 {
        self.symbol(symbol).root
    }

    pub(super) fn namespace_object(&self, module: u32) -> Option<u32> {
        self.normal(module).map(|module| module.namespace - 1)
    }

    pub(super) fn has_side_effects(&self, module: u32) -> bool {
        [1, 3, 4].contains(&self.verdicts[module as usize])
    }

    pub(super) fn is_never_shaken(&self, module: u32) -> bool {
        self.verdicts[module as usize] == 4
    }

    pub(super) fn option(&self, bit: u32) -> bool {
        self.graph.options >> bit & 1 == 1
    }

    fn declaring_statements(&self, symbol: u32) -> Vec<Fact> {
        let Symbol { owner, declaring, .. } = self.symbol(symbol);
        declaring.iter().map(|&index| Fact::Statement(*owner, index)).collect()
    }

    pub(super) fn import_record_namespace(&self, symbol: u32) -> Option<u32> {
        let owner = self.module(self.symbol(symbol).owner);
        owner.commonjs_namespaces.iter().find(|row| row[0] == symbol).map(|row| row[1])
    }

    fn is_user_entry(&self, module: u32) -> bool {
        self.graph.entries.iter().any(|entry| entry.module == module && entry.kind != 2)
    }

    pub(super) fn included_on_demand(&self, index: u32) -> bool {
        let module = self.module(index);
        let declared = self.verdicts[index as usize] == 2;
        declared && module.exports == 0 && module.flags % 2 == 0 && !self.is_user_entry(index)
    }

    fn include_module(&self, index: u32, shown: &mut Shown, push: &mut dyn FnMut(Fact)) {
        let Some(module) = self.normal(index) else { return };
        if index == self.graph.runtime && !self.has_side_effects(index) {
            return;
        }
        for (number, statement) in (0u32..).zip(&module.statements) {
            let swept = if self.option(0) && !self.is_never_shaken(index) {
                self.sweeps(index, statement)
            } else {
                statement.bits >> 2 & 1 == 0 || statement.bits & 1 == 1
            };
            if number > 0 && swept {
                push(Fact::Statement(index, number));
            }
        }
        for &dependency in &module.dependencies {
            if self.normal(dependency).is_some() && (!self.option(0) || self.has_side_effects(dependency)) {
                push(Fact::Module(dependency));
            }
        }
        if module.flags & 1 == 1 && [0, 1].contains(&module.kind) {
            module.named_imports.iter().for_each(|&symbol| push(Fact::CheckedUse(symbol, 1)));
        }
        module.commonjs_export_symbols.iter().for_each(|&symbol| push(Fact::CheckedUse(symbol, 1)));
        if self.option(4) && index != self.graph.runtime && module.exports == 0 {
            push(Fact::Statement(index, 0));
            *shown.reason.entry(index).or_default() |= 1;
        }
    }

    pub(super) fn sweeps(&self, index: u32, statement: &Statement) -> bool {
        let module = self.module(index);
        let bail_eval = module.flags & 1 == 1 && statement.bits >> 4 & 1 == 1;
        let has_side_effects = if module.flags >> 1 & 1 == 1 && self.option(2) {
            statement.bits >> 1 & 1 == 1
        } else {
            statement.bits & 1 == 1
        };
        (has_side_effects && !(self.included_on_demand(index) && gated(statement))) || bail_eval
    }

    fn include_statement(&self, index: u32, number: u32, push: &mut dyn FnMut(Fact)) {
        let Some(module) = self.normal(index) else { return };
        let statement = &module.statements[number as usize];
        self.scan_import_records(module, statement, push);
        let mut kind = if statement.bits >> 3 & 1 == 1 { 4 } else { 1 };
        if module.kind == 2 && !statement.references.is_empty() {
            kind += 8;
        }
        for reference in &statement.references {
            match reference {
                Reference::Nothing => {}
                Reference::Resolved { symbol, commonjs, depended } => {
                    depended.iter().for_each(|&symbol| push(Fact::Forward(symbol)));
                    push(if *commonjs == 1 { Fact::Use(*symbol, kind) } else { Fact::CheckedUse(*symbol, kind) });
                }
                Reference::Symbol(symbol) => {
                    self.retain_forwarding_declarations(*symbol, push);
                    push(Fact::CheckedUse(*symbol, kind));
                }
                Reference::Member { object, .. } => {
                    if !self.is_inlined_enum_member(reference) {
                        self.retain_forwarding_declarations(*object, push);
                        push(Fact::CheckedUse(*object, kind));
                    }
                }
            }
        }
    }

    fn scan_import_records(&self, module: &Module, statement: &Statement, push: &mut dyn FnMut(Fact)) {
        for &record in &statement.records {
            let record = &module.records[record as usize];
            let Some(target) = record.target.checked_sub(1) else { continue };
            let Some(importee) = self.normal(target) else { continue };
            if importee.exports != 1 || record.kind == 0 {
                continue;
            }
            if record.bits >> 1 & 1 == 1 && !self.has_side_effects(target) {
                continue;
            }
            if module.flags >> 2 & 1 == 0 || module.reexports > 1 {
                push(Fact::Bailout(target));
            }
        }
    }

    fn retain_forwarding_declarations(&self, symbol: u32, push: &mut dyn FnMut(Fact)) {
        push(Fact::Forward(symbol));
        self.symbol(symbol).chain.iter().for_each(|&link| push(Fact::Forward(link)));
    }

    pub(super) fn is_inlined_enum_member(&self, reference: &Reference) -> bool {
        let Reference::Member { object, write: 0, properties: 1, first } = reference else { return false };
        let canonical = self.symbol(self.canonical(*object));
        let Some(owner) = self.normal(canonical.owner) else { return false };
        owner.enum_members.contains(&[canonical.name, *first])
    }

    fn check_cjs_bailout(&self, symbol: u32, push: &mut dyn FnMut(Fact)) {
        let canonical = self.canonical(symbol);
        let Symbol { owner, alias_namespace, alias_name, .. } = *self.symbol(canonical);
        if let Some(module) = self.import_record_namespace(canonical) {
            push(Fact::Bailout(module));
        }
        if self.namespace_object(owner) == Some(canonical) {
            push(Fact::Bailout(owner));
        }
        if alias_namespace > 0 && alias_name == 0 {
            if let Some(module) = self.import_record_namespace(alias_namespace - 1) {
                push(Fact::Bailout(module));
            }
        }
    }

    fn include_symbol(&self, symbol: u32, reason: u32, shown: &mut Shown, push: &mut dyn FnMut(Fact)) {
        let mut canonical = self.canonical(symbol);
        if self.is_bypassed_inlined_constant(canonical, reason) {
            return;
        }
        if reason < 16 {
            self.body_demand(canonical, push);
        }
        self.show_used(symbol, shown);
        self.follow_cjs_namespace_alias(&mut canonical, push);
        let owner = self.symbol(canonical).owner;
        let is_namespace = self.namespace_object(owner) == Some(canonical);
        if is_namespace && reason & 3 > 0 {
            *shown.reason.entry(owner).or_default() |= 1;
        } else if is_namespace && reason & 4 > 0 {
            *shown.reason.entry(owner).or_default() |= 2;
        }
        self.show_used(canonical, shown);
        if let Some(module) = self.normal(owner) {
            if module.wrap == 2 && module.wrapper > 0 && module.wrapper - 1 != canonical {
                push(Fact::Use(module.wrapper - 1, 1));
                self.retain_forwarding_declarations(symbol, push);
            }
            if reason >> 3 & 1 == 0 && module.kind == 2 {
                shown.json.insert(canonical);
            }
            self.declaring_statements(canonical).into_iter().for_each(&mut *push);
            if !(is_namespace && reason >= 16) {
                push(Fact::Module(owner));
            }
        }
        let Symbol { owner, written, .. } = self.symbol(symbol);
        if self.option(3) && self.normal(*owner).is_some() {
            written.iter().for_each(|&index| push(Fact::Statement(*owner, index)));
        }
    }

    fn show_used(&self, symbol: u32, shown: &mut Shown) {
        shown.used.insert(symbol);
        if self.normal(self.symbol(symbol).owner).is_none() {
            shown.external.insert(symbol);
        }
    }

    pub(super) fn is_bypassed_inlined_constant(&self, canonical: u32, reason: u32) -> bool {
        let constant = self.symbol(canonical).constant;
        let inlined = if self.option(1) { constant & 0b111 == 0b011 } else { constant & 0b101 == 0b001 };
        inlined && reason >> 1 & 1 == 0
    }

    /// The statements of the last on-demand module that has the symbol as a key.
    fn body_demand(&self, canonical: u32, push: &mut dyn FnMut(Fact)) {
        let demands = |&index: &u32| {
            let Some(module) = self.normal(index) else { return false };
            let key = module.own_exports.iter().any(|&symbol| self.canonical(symbol) == canonical)
                || module.namespace == canonical + 1;
            key && self.included_on_demand(index) && module.statements.iter().skip(1).any(gated)
        };
        let last = (0..self.graph.modules.len() as u32).rev().find(demands);
        let Some(index) = last.filter(|_| self.option(0)) else { return };
        for (number, statement) in (0u32..).zip(&self.module(index).statements) {
            if number != 0 && gated(statement) {
                push(Fact::Statement(index, number));
            }
        }
    }

    fn follow_cjs_namespace_alias(&self, canonical: &mut u32, push: &mut dyn FnMut(Fact)) {
        let Symbol { alias_namespace, alias_name, .. } = *self.symbol(*canonical);
        let Some(namespace) = alias_namespace.checked_sub(1) else { return };
        *canonical = namespace;
        let Some(importee) = self.import_record_namespace(namespace).and_then(|index| self.normal(index)) else {
            return;
        };
        let export = importee.resolved_exports.iter().find(|row| row[0] == alias_name);
        if let Some(row) = export.filter(|row| row[0] != 0) {
            push(Fact::Use(row[1], 1));
        }
    }
}

pub(super) fn gated(statement: &Statement) -> bool {
    statement.bits & 1 == 1 && !statement.references.is_empty() && statement.records.is_empty()
}
