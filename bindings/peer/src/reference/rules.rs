//! The keep rules: what follows from one fact, and from a module with a forward.

use super::effects::{is_effectful, verdicts};
use crate::model::{Graph, Module, Record, Reference, Statement, Symbol};

/// What can be decided: a module, a statement of a module, a use of a symbol for a reason, and so on.
#[derive(Clone, Copy, Debug, PartialEq, Eq, Hash, PartialOrd, Ord)]
pub enum Fact {
    Module(u32),
    Statement(u32, u32),
    Use(u32, u32),
    CheckedUse(u32, u32),
    Forward(u32),
    Bailout(u32),
}

impl Fact {
    /// Kind and two parts, as in a record line and in starts.
    pub fn parts(self) -> [u32; 3] {
        match self {
            Fact::Module(module) => [1, module, 0],
            Fact::Statement(module, index) => [2, module, index],
            Fact::Use(symbol, reason) => [3, symbol, reason],
            Fact::CheckedUse(symbol, reason) => [4, symbol, reason],
            Fact::Forward(symbol) => [5, symbol, 0],
            Fact::Bailout(module) => [6, module, 0],
        }
    }

    /// The fact of a kind and its parts, which have to be in form.
    pub fn of([kind, first, second]: [u32; 3]) -> Fact {
        match kind {
            1 => Fact::Module(first),
            2 => Fact::Statement(first, second),
            3 => Fact::Use(first, second),
            4 => Fact::CheckedUse(first, second),
            5 => Fact::Forward(first),
            6 => Fact::Bailout(first),
            _ => panic!("{kind} is no kind of fact"),
        }
    }
}

/// Bits of the options.
pub mod option {
    pub const TREESHAKE: u32 = 1;
    pub const INLINE_CONST_SMART: u32 = 2;
    pub const COMMONJS_SHAKING: u32 = 4;
    pub const PROPERTY_WRITES_FALSE: u32 = 8;
    pub const DEV_MODE: u32 = 16;
    pub const SPLITTING_OFF: u32 = 32;
    pub const DEAD_IMPORTS_AT_END: u32 = 64;
    pub const SETTLE: u32 = 128;
}

/// Bits of a reason.
pub mod reason {
    pub const NORMAL: u32 = 1;
    pub const ENTRY_EXPORT: u32 = 2;
    pub const REEXPORT_DYNAMIC_EXPORTS: u32 = 4;
    pub const JSON_SELF_REFERENCE: u32 = 8;
    pub const FACADE: u32 = 16;
}

const ESM: u32 = 0;
const COMMONJS: u32 = 1;
const JSON: u32 = 2;
const NO_TREESHAKE: u32 = 4;
const USER_DEFINED_FALSE: u32 = 2;
const WRAPPED_ESM: u32 = 2;

/// A graph with what its rules look up.
pub struct Rules<'a> {
    pub graph: &'a Graph,
    pub verdicts: Vec<u32>,
    on_demand: Vec<bool>,
    /// By symbol: the on-demand module whose body it demands, plus 1.
    bodies: Vec<u32>,
    /// By symbol: the module that it names in the CommonJS namespaces of its own owner, plus 1.
    commonjs: Vec<u32>,
    /// By module: names and symbols of the resolved exports, in order of the names.
    exports: Vec<Vec<[u32; 2]>>,
    /// By module: names and members of the enums, in order.
    members: Vec<Vec<[u32; 2]>>,
}

impl<'a> Rules<'a> {
    pub fn new(graph: &'a Graph) -> Rules<'a> {
        let verdicts = verdicts(graph);
        let on_demand = on_demand(graph, &verdicts);
        Rules {
            bodies: bodies(graph, &on_demand),
            commonjs: commonjs(graph),
            exports: graph.modules.iter().map(|module| sorted(export_symbols(module))).collect(),
            members: graph.modules.iter().map(|module| sorted(module.enum_members.clone())).collect(),
            graph,
            verdicts,
            on_demand,
        }
    }

    /// What K2 to K14 give from a fact, in the record's order.
    pub fn consequences(&self, fact: Fact) -> Vec<(u32, Fact)> {
        let mut found = Vec::new();
        self.gives(fact, &mut |rule, fact| found.push((rule, fact)));
        found
    }

    /// Hands over what K2 to K14 give from a fact, in the record's order.
    pub fn gives(&self, fact: Fact, give: &mut impl FnMut(u32, Fact)) {
        match fact {
            Fact::Module(module) => self.from_module(module, give),
            Fact::Statement(module, index) => self.from_statement(module, index, give),
            Fact::Use(symbol, reason) => self.from_use(symbol, reason, give),
            Fact::CheckedUse(symbol, reason) => self.from_checked_use(symbol, reason, give),
            Fact::Forward(_) | Fact::Bailout(_) => {}
        }
    }

    /// What K1 gives from a forward together with its owner.
    pub fn declaring(&self, symbol: u32) -> impl Iterator<Item = Fact> + 'a {
        let symbol = self.symbol(symbol);
        symbol.declaring.iter().map(|&index| Fact::Statement(symbol.owner, index))
    }

    pub fn module(&self, index: u32) -> &'a Module {
        &self.graph.modules[index as usize]
    }

    pub fn symbol(&self, index: u32) -> &'a Symbol {
        &self.graph.symbols[index as usize]
    }

    pub fn has(&self, option: u32) -> bool {
        self.graph.options & option != 0
    }

    /// Whether the last verdict of a module is one of effects.
    pub fn effectful(&self, module: u32) -> bool {
        is_effectful(self.verdicts[module as usize])
    }

    /// The symbol that a use keeps: its root, or the namespace that the root is an alias in.
    pub fn target(&self, symbol: u32) -> u32 {
        let root = self.symbol(symbol).root;
        match self.symbol(root).alias_namespace {
            0 => root,
            namespace => namespace - 1,
        }
    }

    /// Whether a symbol is the namespace of its owner.
    pub fn is_namespace(&self, symbol: u32) -> bool {
        self.module(self.symbol(symbol).owner).namespace == symbol + 1
    }

    /// A use of a constant that is put in place of each reference keeps nothing.
    pub fn is_bypassed(&self, symbol: u32, reason: u32) -> bool {
        let constant = self.symbol(self.symbol(symbol).root).constant;
        let (known, safe, commonjs) = (constant & 1 != 0, constant & 2 != 0, constant & 4 != 0);
        known && !commonjs && reason & reason::ENTRY_EXPORT == 0 && (safe || !self.has(option::INLINE_CONST_SMART))
    }

    /// K6: the module's namespace is registered.
    pub fn is_registered(&self, module: u32) -> bool {
        self.has(option::DEV_MODE) && module != self.graph.runtime && self.module(module).exports == ESM
    }

    /// K2 to K6.
    fn from_module(&self, index: u32, give: &mut impl FnMut(u32, Fact)) {
        if index == self.graph.runtime && !self.effectful(index) {
            return;
        }
        let module = self.module(index);
        for (number, statement) in (0..).zip(&module.statements).skip(1) {
            if self.is_swept(index, statement) {
                give(2, Fact::Statement(index, number));
            }
        }
        for &dependency in &module.dependencies {
            let evaluated = !self.has(option::TREESHAKE) || self.effectful(dependency);
            if self.module(dependency).normal && evaluated {
                give(3, Fact::Module(dependency));
            }
        }
        if has_eval(module) && module.kind <= 1 {
            for &symbol in &module.named_imports {
                give(4, Fact::CheckedUse(symbol, reason::NORMAL));
            }
        }
        for &symbol in &module.commonjs_export_symbols {
            give(5, Fact::CheckedUse(symbol, reason::NORMAL));
        }
        if self.is_registered(index) {
            give(6, Fact::Statement(index, 0));
        }
    }

    /// Whether K2 keeps a statement, other than statement 0, with its module.
    fn is_swept(&self, index: u32, statement: &Statement) -> bool {
        let module = self.module(index);
        if !self.has(option::TREESHAKE) || self.verdicts[index as usize] == NO_TREESHAKE {
            let forced = statement.bits & 4 != 0;
            return !forced || statement.bits & 1 != 0;
        }
        let unknown_only = module.flags & 2 != 0 && self.has(option::COMMONJS_SHAKING);
        let effect = statement.bits & if unknown_only { 2 } else { 1 } != 0;
        let waits = self.on_demand[index as usize] && is_gated(statement);
        let declares = statement.bits & 16 != 0;
        (effect && !waits) || (has_eval(module) && declares)
    }

    /// K7, K8.
    fn from_statement(&self, index: u32, number: u32, give: &mut impl FnMut(u32, Fact)) {
        let module = self.module(index);
        let statement = &module.statements[number as usize];
        for &record in &statement.records {
            let record = &module.records[record as usize];
            if self.bails_out(module, record) {
                give(7, Fact::Bailout(record.target - 1));
            }
        }
        let dynamic = statement.bits & 8 != 0;
        let mut reason = if dynamic { reason::REEXPORT_DYNAMIC_EXPORTS } else { reason::NORMAL };
        if module.kind == JSON {
            reason |= reason::JSON_SELF_REFERENCE;
        }
        for reference in &statement.references {
            self.from_reference(reference, reason, give);
        }
    }

    /// Whether a record of a kept statement of `module` uses the whole of a CommonJS module.
    fn bails_out(&self, module: &Module, record: &Record) -> bool {
        if record.target == 0 || record.kind == 0 {
            return false;
        }
        let target = self.module(record.target - 1);
        let dead = record.bits & 2 != 0 && !self.effectful(record.target - 1);
        let only_reexport = module.flags & 4 != 0 && module.reexports <= 1;
        target.normal && target.exports == COMMONJS && !dead && !only_reexport
    }

    /// K8 for one reference.
    fn from_reference(&self, reference: &Reference, reason: u32, give: &mut impl FnMut(u32, Fact)) {
        match *reference {
            Reference::Nothing => {}
            Reference::Symbol(symbol) => self.from_name(symbol, reason, give),
            Reference::Member { object, write, properties, first } => {
                if write != 0 || properties != 1 || !self.is_enum_member(object, first) {
                    self.from_name(object, reason, give);
                }
            }
            Reference::Resolved { symbol, commonjs, ref depended } => {
                for &symbol in depended {
                    give(8, Fact::Forward(symbol));
                }
                let checked = commonjs == 0;
                give(8, if checked { Fact::CheckedUse(symbol, reason) } else { Fact::Use(symbol, reason) });
            }
        }
    }

    fn from_name(&self, symbol: u32, reason: u32, give: &mut impl FnMut(u32, Fact)) {
        self.forwards(8, symbol, give);
        give(8, Fact::CheckedUse(symbol, reason));
    }

    /// A symbol's own forward and those of its export chain.
    fn forwards(&self, rule: u32, symbol: u32, give: &mut impl FnMut(u32, Fact)) {
        give(rule, Fact::Forward(symbol));
        for &link in &self.symbol(symbol).chain {
            give(rule, Fact::Forward(link));
        }
    }

    /// Whether a property of an object is an enum's member.
    fn is_enum_member(&self, object: u32, property: u32) -> bool {
        let root = self.symbol(self.symbol(object).root);
        let members = &self.members[root.owner as usize];
        self.module(root.owner).normal && members.binary_search(&[root.name, property]).is_ok()
    }

    /// K9.
    fn from_checked_use(&self, symbol: u32, reason: u32, give: &mut impl FnMut(u32, Fact)) {
        give(9, Fact::Use(symbol, reason));
        let root = self.symbol(symbol).root;
        if let Some(module) = self.commonjs_of(root) {
            give(9, Fact::Bailout(module));
        }
        if self.is_namespace(root) {
            give(9, Fact::Bailout(self.symbol(root).owner));
        }
        let Symbol { alias_namespace, alias_name: 0, .. } = *self.symbol(root) else { return };
        if let Some(module) = alias_namespace.checked_sub(1).and_then(|namespace| self.commonjs_of(namespace)) {
            give(9, Fact::Bailout(module));
        }
    }

    /// The module that a symbol is the CommonJS namespace of.
    fn commonjs_of(&self, symbol: u32) -> Option<u32> {
        self.commonjs[symbol as usize].checked_sub(1)
    }

    /// K10 to K14.
    fn from_use(&self, symbol: u32, reason: u32, give: &mut impl FnMut(u32, Fact)) {
        if self.is_bypassed(symbol, reason) {
            return;
        }
        let facade = reason & reason::FACADE != 0;
        if !facade {
            self.from_body_key(self.symbol(symbol).root, give);
        }
        self.from_alias(self.symbol(self.symbol(symbol).root), give);
        let target = self.target(symbol);
        if self.module(self.symbol(target).owner).normal {
            self.from_wrapper(symbol, target, give);
            for statement in self.declaring(target) {
                give(13, statement);
            }
            if !(facade && self.is_namespace(target)) {
                give(13, Fact::Module(self.symbol(target).owner));
            }
        }
        if self.has(option::PROPERTY_WRITES_FALSE) {
            let Symbol { owner, written, .. } = self.symbol(symbol);
            for &index in written {
                give(14, Fact::Statement(*owner, index));
            }
        }
    }

    /// K10.
    fn from_body_key(&self, root: u32, give: &mut impl FnMut(u32, Fact)) {
        let Some(body) = self.bodies[root as usize].checked_sub(1) else { return };
        for (number, statement) in (0..).zip(&self.module(body).statements).skip(1) {
            if is_gated(statement) {
                give(10, Fact::Statement(body, number));
            }
        }
    }

    /// K11.
    fn from_alias(&self, root: &Symbol, give: &mut impl FnMut(u32, Fact)) {
        let Some(namespace) = root.alias_namespace.checked_sub(1) else { return };
        let Some(module) = self.commonjs_of(namespace) else { return };
        if root.alias_name == 0 || !self.module(module).normal {
            return;
        }
        let exports = &self.exports[module as usize];
        if let Ok(place) = exports.binary_search_by_key(&root.alias_name, |&[name, _]| name) {
            give(11, Fact::Use(exports[place][1], reason::NORMAL));
        }
    }

    /// K12.
    fn from_wrapper(&self, symbol: u32, target: u32, give: &mut impl FnMut(u32, Fact)) {
        let owner = self.module(self.symbol(target).owner);
        if owner.wrap == WRAPPED_ESM && owner.wrapper != 0 && owner.wrapper != target + 1 {
            give(12, Fact::Use(owner.wrapper - 1, reason::NORMAL));
            self.forwards(12, symbol, give);
        }
    }
}

fn has_eval(module: &Module) -> bool {
    module.flags & 1 != 0
}

/// A statement other than statement 0 with an effect that waits in an on-demand module until its body is demanded.
fn is_gated(statement: &Statement) -> bool {
    statement.bits & 1 != 0 && !statement.references.is_empty() && statement.records.is_empty()
}

/// The modules whose gated statements wait.
fn on_demand(graph: &Graph, verdicts: &[u32]) -> Vec<bool> {
    let waits = |(module, &verdict): (&Module, &u32)| {
        module.normal && verdict == USER_DEFINED_FALSE && module.exports == ESM && !has_eval(module)
    };
    let mut found: Vec<bool> = graph.modules.iter().zip(verdicts).map(waits).collect();
    for entry in graph.entries.iter().filter(|entry| entry.kind <= 1) {
        found[entry.module as usize] = false;
    }
    found
}

/// By symbol: the on-demand module whose body it demands, plus 1; the highest one counts.
fn bodies(graph: &Graph, on_demand: &[bool]) -> Vec<u32> {
    let mut bodies = vec![0; graph.symbols.len()];
    if graph.options & option::TREESHAKE == 0 {
        return bodies;
    }
    for (number, module) in (1..).zip(&graph.modules) {
        if on_demand[number as usize - 1] && module.statements.iter().skip(1).any(is_gated) {
            for &symbol in &module.own_exports {
                bodies[graph.symbols[symbol as usize].root as usize] = number;
            }
            bodies[module.namespace as usize - 1] = number;
        }
    }
    bodies
}

/// By symbol: the module that it names in the CommonJS namespaces of its own owner, plus 1.
fn commonjs(graph: &Graph) -> Vec<u32> {
    let mut found = vec![0; graph.symbols.len()];
    for (index, module) in (0..).zip(&graph.modules) {
        for &[symbol, target] in &module.commonjs_namespaces {
            if graph.symbols[symbol as usize].owner == index {
                found[symbol as usize] = target + 1;
            }
        }
    }
    found
}

fn export_symbols(module: &Module) -> Vec<[u32; 2]> {
    module.resolved_exports.iter().map(|&[name, symbol, _]| [name, symbol]).collect()
}

fn sorted(mut rows: Vec<[u32; 2]>) -> Vec<[u32; 2]> {
    rows.sort_unstable();
    rows
}
