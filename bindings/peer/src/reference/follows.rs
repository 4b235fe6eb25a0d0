//! Whether a fact follows by a rule from the facts that a line names: for each rule a question about a premise and a
//! fact, without a list of what the premise gives.

use super::closure::{gated, Context};
use super::rules::Fact;
use crate::model::{Module, Reference, Statement, Symbol};

impl Context<'_> {
    /// Whether K1 gives the fact from a module and a forward, which stand in either order.
    pub(super) fn follows_from_both(&self, first: Fact, second: Fact, fact: Fact) -> bool {
        match (first, second, fact) {
            (Fact::Module(kept), Fact::Forward(symbol), Fact::Statement(module, index))
            | (Fact::Forward(symbol), Fact::Module(kept), Fact::Statement(module, index)) => {
                let Symbol { owner, declaring, .. } = self.symbol(symbol);
                kept == *owner && module == *owner && declaring.contains(&index)
            }
            _ => false,
        }
    }

    /// Whether a rule from K2 to K14 gives the fact from the premise.
    pub(super) fn follows(&self, rule: u32, premise: Fact, fact: Fact) -> bool {
        match (premise, rule) {
            (Fact::Module(module), 2..=6) => self.is_included(module) && self.follows_from_module(rule, module, fact),
            (Fact::Statement(module, index), 7) => self.bails_out(module, index, fact),
            (Fact::Statement(module, index), 8) => self.refers(module, index, fact),
            (Fact::CheckedUse(symbol, reason), 9) => match fact {
                Fact::Bailout(module) => self.check_bails_out(symbol, module),
                _ => fact == Fact::Use(symbol, reason),
            },
            (Fact::Use(symbol, reason), 10..=14) => {
                let bypassed = self.is_bypassed_inlined_constant(self.canonical(symbol), reason);
                !bypassed && self.follows_from_use(rule, symbol, reason, fact)
            }
            _ => false,
        }
    }

    /// The runtime without effects gives nothing by K2 to K6.
    fn is_included(&self, module: u32) -> bool {
        module != self.graph.runtime || self.has_side_effects(module)
    }

    /// K2 to K6.
    fn follows_from_module(&self, rule: u32, index: u32, fact: Fact) -> bool {
        let module = self.module(index);
        match (rule, fact) {
            (2, Fact::Statement(of, number)) => {
                of == index && number > 0 && self.is_swept(index, &module.statements[number as usize])
            }
            (3, Fact::Module(dependency)) => {
                let evaluated = self.has_side_effects(dependency) || !self.option(0);
                evaluated && self.normal(dependency).is_some() && module.dependencies.contains(&dependency)
            }
            (4, Fact::CheckedUse(symbol, 1)) => {
                let evaluates = module.flags % 2 == 1 && module.kind < 2;
                evaluates && module.named_imports.contains(&symbol)
            }
            (5, Fact::CheckedUse(symbol, 1)) => module.commonjs_export_symbols.contains(&symbol),
            (6, Fact::Statement(of, 0)) => {
                of == index && self.option(4) && index != self.graph.runtime && module.exports == 0
            }
            _ => false,
        }
    }

    fn is_swept(&self, index: u32, statement: &Statement) -> bool {
        if self.is_never_shaken(index) || !self.option(0) {
            let (effect, force) = (statement.bits & 1 == 1, statement.bits & 4 == 4);
            return effect || !force;
        }
        self.sweeps(index, statement)
    }

    /// K7.
    fn bails_out(&self, index: u32, number: u32, fact: Fact) -> bool {
        let Fact::Bailout(target) = fact else { return false };
        let module = self.module(index);
        let uses_all_of_target = |&record: &u32| {
            let record = &module.records[record as usize];
            let pure = record.bits & 2 == 2;
            record.target == target + 1 && record.kind != 0 && (!pure || self.has_side_effects(target))
        };
        let is_commonjs = self.normal(target).is_some_and(|target| target.exports == 1);
        let is_lone_reexport = module.flags & 4 == 4 && module.reexports < 2;
        is_commonjs && !is_lone_reexport && module.statements[number as usize].records.iter().any(uses_all_of_target)
    }

    /// K8.
    fn refers(&self, index: u32, number: u32, fact: Fact) -> bool {
        let module = self.module(index);
        let statement = &module.statements[number as usize];
        let named = if statement.bits & 8 == 8 { 4 } else { 1 };
        let reason = if module.kind == 2 { named + 8 } else { named };
        statement.references.iter().any(|reference| self.reference_gives(reference, reason, fact))
    }

    fn reference_gives(&self, reference: &Reference, reason: u32, fact: Fact) -> bool {
        match reference {
            Reference::Nothing => false,
            Reference::Resolved { symbol, commonjs: 1, depended } => match fact {
                Fact::Forward(forward) => depended.contains(&forward),
                _ => fact == Fact::Use(*symbol, reason),
            },
            Reference::Resolved { symbol, depended, .. } => match fact {
                Fact::Forward(forward) => depended.contains(&forward),
                _ => fact == Fact::CheckedUse(*symbol, reason),
            },
            Reference::Member { .. } if self.is_inlined_enum_member(reference) => false,
            Reference::Symbol(symbol) | Reference::Member { object: symbol, .. } => {
                self.is_forwarded(*symbol, fact) || fact == Fact::CheckedUse(*symbol, reason)
            }
        }
    }

    /// Whether the fact is the forward of a symbol or of its export chain.
    fn is_forwarded(&self, symbol: u32, fact: Fact) -> bool {
        matches!(fact, Fact::Forward(forward) if forward == symbol || self.symbol(symbol).chain.contains(&forward))
    }

    /// K9, as far as it gives bailouts.
    fn check_bails_out(&self, symbol: u32, module: u32) -> bool {
        let canonical = self.canonical(symbol);
        let Symbol { owner, alias_namespace, alias_name, .. } = *self.symbol(canonical);
        let by_default = alias_name == 0 && alias_namespace != 0;
        self.import_record_namespace(canonical) == Some(module)
            || (owner == module && self.namespace_object(module) == Some(canonical))
            || (by_default && self.import_record_namespace(alias_namespace - 1) == Some(module))
    }

    /// K10 to K14 for a use that is not bypassed.
    fn follows_from_use(&self, rule: u32, symbol: u32, reason: u32, fact: Fact) -> bool {
        let facade = reason & 16 == 16;
        match (rule, fact) {
            (10, Fact::Statement(module, index)) => !facade && self.is_demanded(self.canonical(symbol), module, index),
            (11, Fact::Use(export, 1)) => self.is_aliased_export(self.canonical(symbol), export),
            (12, _) => self.is_wrapped_by(symbol, fact),
            (13, Fact::Statement(module, index)) => {
                let Symbol { owner, declaring, .. } = self.symbol(self.kept_symbol(symbol));
                module == *owner && declaring.contains(&index)
            }
            (13, Fact::Module(module)) => {
                let kept = self.kept_symbol(symbol);
                let is_namespace = self.namespace_object(module) == Some(kept);
                self.normal(module).is_some() && module == self.symbol(kept).owner && !(is_namespace && facade)
            }
            (14, Fact::Statement(module, index)) => {
                let Symbol { owner, written, .. } = self.symbol(symbol);
                self.option(3) && module == *owner && written.contains(&index)
            }
            _ => false,
        }
    }

    /// The symbol whose declarations a use keeps: the root, or the namespace that it is aliased in.
    fn kept_symbol(&self, symbol: u32) -> u32 {
        let canonical = self.canonical(symbol);
        self.symbol(canonical).alias_namespace.checked_sub(1).unwrap_or(canonical)
    }

    /// K10: the body of the key belongs to the module, and no higher one claims the key.
    fn is_demanded(&self, key: u32, module: u32, index: u32) -> bool {
        let higher = module + 1..self.graph.modules.len() as u32;
        let is_gated = |statement: &Statement| index > 0 && gated(statement);
        self.option(0)
            && is_gated(&self.module(module).statements[index as usize])
            && self.claims(module, key)
            && !higher.into_iter().any(|other| self.claims(other, key))
    }

    fn claims(&self, index: u32, key: u32) -> bool {
        let Some(Module { namespace, own_exports, statements, .. }) = self.normal(index) else { return false };
        let is_key = key + 1 == *namespace || own_exports.iter().any(|&export| self.canonical(export) == key);
        is_key && self.included_on_demand(index) && statements[1..].iter().any(gated)
    }

    /// K11.
    fn is_aliased_export(&self, canonical: u32, export: u32) -> bool {
        let Symbol { alias_namespace, alias_name, .. } = *self.symbol(canonical);
        if alias_namespace == 0 || alias_name == 0 {
            return false;
        }
        let importee = self.import_record_namespace(alias_namespace - 1).and_then(|module| self.normal(module));
        let is_export = |row: &[u32; 3]| row[0] == alias_name && row[1] == export;
        importee.is_some_and(|importee| importee.resolved_exports.iter().any(is_export))
    }

    /// K12.
    fn is_wrapped_by(&self, symbol: u32, fact: Fact) -> bool {
        let kept = self.kept_symbol(symbol);
        let Some(Module { wrap: 2, wrapper: wrapper @ 1.., .. }) = self.normal(self.symbol(kept).owner) else {
            return false;
        };
        wrapper - 1 != kept && (fact == Fact::Use(wrapper - 1, 1) || self.is_forwarded(symbol, fact))
    }
}
