//! Why a thing is kept: the chain from a start to its fact.

use crate::fact::{Fact, Reason, Rule};
use crate::graph::{EntryKind, ImportKind, ImportRecord, Part, RelatedStatement, SideEffects, Statement};
use crate::ids::{EntryId, HelperId, ModuleId, StatementId, SymbolId};
use crate::index::target;
use crate::kept::Kept;
use crate::record::Line;
use alloc::collections::BTreeMap;
use alloc::string::ToString;
use alloc::vec;
use alloc::vec::Vec;
use core::fmt;

/// What [`Kept::why`] is asked: a module, a statement, a symbol, or a fact.
///
/// ```
/// use lizdakk::{Asked, Fact, ModuleId};
///
/// let module = ModuleId::new(2);
/// assert_eq!(Asked::from(module), Asked::Fact(Fact::Module(module)));
/// ```
#[derive(Clone, Copy, Debug, PartialEq, Eq, Hash)]
pub enum Asked {
    /// Why the fact holds.
    Fact(Fact),
    /// Why the symbol is used, whatever the reason.
    Symbol(SymbolId),
}

impl From<Fact> for Asked {
    fn from(fact: Fact) -> Asked {
        Asked::Fact(fact)
    }
}

impl From<ModuleId> for Asked {
    fn from(module: ModuleId) -> Asked {
        Asked::Fact(Fact::Module(module))
    }
}

impl From<StatementId> for Asked {
    fn from(statement: StatementId) -> Asked {
        Asked::Fact(Fact::Statement(statement))
    }
}

impl From<SymbolId> for Asked {
    fn from(symbol: SymbolId) -> Asked {
        Asked::Symbol(symbol)
    }
}

/// Who began with a start.
///
/// ```
/// use lizdakk::{Cause, EntryId, Graph, Origin};
///
/// let mut graph = Graph::new();
/// let main = graph.module("main.js");
/// let entry = graph.entry(main);
/// let kept = lizdakk::decide(&graph)?;
/// let why = kept.why(main).expect("it is kept");
/// assert_eq!(why.steps()[0].cause, Cause::Start(Origin::UserDefinedEntry(entry)));
/// # Ok::<(), lizdakk::Refused>(())
/// ```
#[derive(Clone, Copy, Debug, PartialEq, Eq, Hash)]
#[non_exhaustive]
pub enum Origin {
    /// A user-defined entry.
    UserDefinedEntry(EntryId),
    /// A dynamic entry that is live since one of its related statements is kept: the step in front.
    DynamicEntry(EntryId),
    /// A dynamic entry that is live since its module is on a cycle of dynamic imports.
    DynamicEntryOnCycle(EntryId),
    /// A round, which uses the CommonJS exports of a module that is bailed out: the step in front.
    CommonJsExports(ModuleId),
    /// The runtime stage, for a helper that a kept statement needs: the step in front.
    Helper(HelperId),
    /// The runtime stage, since the runtime has side effects and no helper is needed.
    RuntimeSideEffects,
    /// The caller of [`decide_from`](crate::decide_from).
    Given,
}

/// How a step follows.
///
/// ```
/// assert_ne!(lizdakk::Cause::Rule(lizdakk::Rule::Reference), lizdakk::Cause::Rule(lizdakk::Rule::Wrapper));
/// ```
#[derive(Clone, Copy, Debug, PartialEq, Eq, Hash)]
pub enum Cause {
    /// By a keep rule.
    Rule(Rule),
    /// It is a start.
    Start(Origin),
}

/// A fact on the way from a start to the one that was asked for.
///
/// ```
/// # let mut graph = lizdakk::Graph::new();
/// # let main = graph.module("main.js");
/// # graph.entry(main);
/// # let kept = lizdakk::decide(&graph)?;
/// let why = kept.why(main).expect("it is kept");
/// assert!(why.steps()[0].because.is_empty());
/// # Ok::<(), lizdakk::Refused>(())
/// ```
#[derive(Clone, Debug, PartialEq, Eq, Hash)]
#[non_exhaustive]
pub struct Step {
    /// What holds.
    pub fact: Fact,
    /// How it follows.
    pub cause: Cause,
    /// From which earlier steps, by their index; the one with the shorter chain of record lines first.
    pub because: Vec<usize>,
}

/// Why a thing is kept. `Display` tells it from the thing back to its starts, `{:#}` with a line for each step; labels of
/// the graph stand in brackets.
///
/// ```
/// use lizdakk::Graph;
///
/// let mut graph = Graph::new();
/// let (main, tools) = (graph.module("main.js"), graph.module("tools.js"));
/// let (hammer, declaration) = (graph.symbol(tools, "hammer"), graph.statement(tools));
/// graph.declare(declaration, hammer);
/// let call = graph.statement(main);
/// graph[call].has_side_effect = true;
/// graph.refer(call, hammer);
/// graph.entry(main);
///
/// let kept = lizdakk::decide(&graph)?;
/// assert_eq!(
///     kept.why(declaration).expect("it is kept").to_string(),
///     "statement 1 of module 2 (tools.js) is kept because it declares symbol 3 (hammer of tools.js) (K13), \
///      which is used because it is referred to by statement 1 of module 1 (main.js) (K8, K9), \
///      which is kept because it has a side effect in module 1 (main.js) (K2), \
///      which is kept because it is user-defined entry 0 (start)."
/// );
/// # Ok::<(), lizdakk::Refused>(())
/// ```
#[derive(Clone, Debug)]
pub struct Why<'k> {
    kept: &'k Kept<'k>,
    steps: Vec<Step>,
}

impl Why<'_> {
    /// The chain from its starts to the fact that was asked for, which is the last: each step comes after those that it
    /// follows from.
    ///
    /// ```
    /// # let mut graph = lizdakk::Graph::new();
    /// # let main = graph.module("main.js");
    /// # graph.entry(main);
    /// # let kept = lizdakk::decide(&graph)?;
    /// let why = kept.why(main).expect("it is kept");
    /// assert_eq!(why.steps().last().map(|step| step.fact), Some(lizdakk::Fact::Module(main)));
    /// # Ok::<(), lizdakk::Refused>(())
    /// ```
    pub fn steps(&self) -> &[Step] {
        &self.steps
    }
}

impl<'g> Kept<'g> {
    /// Why a module or a statement is kept, a symbol is used, or a fact holds; none if that is not so.
    ///
    /// ```
    /// let mut graph = lizdakk::Graph::new();
    /// let (main, unused) = (graph.module("main.js"), graph.module("unused.js"));
    /// graph.entry(main);
    /// let kept = lizdakk::decide(&graph)?;
    /// let why = kept.why(main).expect("it is kept");
    /// assert_eq!(why.to_string(), "module 1 (main.js) is kept because it is user-defined entry 0 (start).");
    /// assert!(kept.why(unused).is_none());
    /// # Ok::<(), lizdakk::Refused>(())
    /// ```
    #[must_use]
    pub fn why(&self, asked: impl Into<Asked>) -> Option<Why<'_>> {
        let line = match asked.into() {
            Asked::Fact(fact) => self.index().line_of(fact)?,
            Asked::Symbol(symbol) => self.index().use_of(symbol)?,
        };
        Some(Why { kept: self, steps: self.steps_to(line) })
    }

    /// The lines that a line rests on, and itself, as steps in their order.
    fn steps_to(&self, line: usize) -> Vec<Step> {
        let mut found: BTreeMap<usize, (Cause, Vec<usize>)> = BTreeMap::new();
        let mut open = vec![line];
        while let Some(next) = open.pop() {
            if found.contains_key(&next) {
                continue;
            }
            let (cause, mut because) = self.cause(next);
            because.sort_by_key(|&earlier| self.index().depth(earlier));
            open.extend(&because);
            found.insert(next, (cause, because));
        }
        let lines: Vec<usize> = found.keys().copied().collect();
        let step_of = |line: &usize| lines.binary_search(line).expect("it was found");
        let step = |(&line, (cause, because)): (&usize, &(Cause, Vec<usize>))| Step {
            fact: self.lines[line].fact,
            cause: *cause,
            because: because.iter().map(step_of).collect(),
        };
        found.iter().map(step).collect()
    }

    /// How a line follows, and from which earlier lines.
    fn cause(&self, index: usize) -> (Cause, Vec<usize>) {
        let Line { fact, rule, because } = self.lines[index];
        let mut named: Vec<usize> = because.iter().flatten().map(|&line| line as usize).collect();
        match (rule, fact) {
            (Rule::Start, _) => match self.origin(index) {
                Some((origin, because)) => (Cause::Start(origin), because.into_iter().collect()),
                None => (Cause::Rule(rule), named),
            },
            // In the runtime stage a module that was kept before is not named.
            (Rule::ForwardedDeclaration, Fact::Statement(statement)) if named.len() < 2 => {
                named.extend(self.index().line_of(Fact::Module(statement.module())));
                (Cause::Rule(rule), named)
            }
            _ => (Cause::Rule(rule), named),
        }
    }

    /// Who began with a start, and the earlier line that this rests on.
    fn origin(&self, index: usize) -> Option<(Origin, Option<usize>)> {
        let fact = self.lines[index].fact;
        if self.is_given() {
            return Some((Origin::Given, None));
        }
        if index >= self.main_lines {
            return self.runtime_origin(fact);
        }
        let entries = || self.graph.entries().filter(|&entry| self.starts_with(entry, fact));
        let is_dynamic = |entry: &EntryId| self.graph[*entry].kind == EntryKind::DynamicImport;
        if let Some(entry) = entries().find(|entry| !is_dynamic(entry)) {
            return Some((Origin::UserDefinedEntry(entry), None));
        }
        if let Fact::CheckedUse(symbol, Reason::NORMAL) = fact {
            if let Some((module, line)) = self.bailed_out_module_with(symbol, index) {
                return Some((Origin::CommonJsExports(module), Some(line)));
            }
        }
        let live = || entries().filter(|&entry| self.is_live(entry));
        if let Some(entry) = live().find(|&entry| self.index().is_on_cycle(self.graph[entry].module)) {
            return Some((Origin::DynamicEntryOnCycle(entry), None));
        }
        let (line, entry) = live().filter_map(|entry| Some((self.keeps_alive(entry, index)?, entry))).min()?;
        Some((Origin::DynamicEntry(entry), Some(line)))
    }

    /// Whether a fact is among those that an entry starts.
    fn starts_with(&self, entry: EntryId, fact: Fact) -> bool {
        let Some(module) = self.graph.modules.get(self.graph[entry].module.at()).filter(|module| module.normal) else {
            return false;
        };
        let referred = |symbol: &SymbolId| self.graph[self.graph[*symbol].owner].normal;
        let mut references = module.entry_references.iter().filter(|symbol| referred(symbol));
        match fact {
            Fact::Module(own) => own == self.graph[entry].module,
            Fact::Bailout(own) => own == self.graph[entry].module && self.graph[entry].kind != EntryKind::DynamicImport,
            Fact::CheckedUse(symbol, Reason::ENTRY_EXPORT) => references.any(|&other| other == symbol),
            Fact::Statement(statement) => references.any(|&symbol| self.graph[symbol].declared_by.contains(&statement)),
            _ => false,
        }
    }

    /// The module that was bailed out first, before a line, and has the symbol as a CommonJS export.
    fn bailed_out_module_with(&self, symbol: SymbolId, before: usize) -> Option<(ModuleId, usize)> {
        let exports = |module: ModuleId| {
            let mut exports = self.graph[module].resolved_exports.iter();
            exports.any(|export| export.from_commonjs && export.symbol == symbol)
        };
        self.lines[..before].iter().enumerate().find_map(|(line, at)| match at.fact {
            Fact::Bailout(module) if exports(module) => Some((module, line)),
            _ => None,
        })
    }

    /// The first line, before another, with a related statement that lets an entry live.
    fn keeps_alive(&self, entry: EntryId, before: usize) -> Option<usize> {
        let lets_live = |related: &&RelatedStatement| self.lacks(entry, related).is_none();
        let related = self.graph[entry].related.iter().filter(lets_live);
        let lines = related.filter_map(|related| self.index().line_of(Fact::Statement(related.statement)));
        lines.filter(|&line| line < before).min()
    }

    /// Who began with a start of the runtime stage.
    fn runtime_origin(&self, fact: Fact) -> Option<(Origin, Option<usize>)> {
        let Fact::Use(symbol, _) = fact else { return Some((Origin::RuntimeSideEffects, None)) };
        let mut needed = self.graph.modules().flat_map(|module| {
            let uses = self.graph[module].helpers.iter();
            uses.filter(|use_| self.graph.helpers[use_.helper.at()] == symbol)
        });
        // Of the helpers only those of kept modules are united.
        let in_main = |fact| self.index().line_of(fact).filter(|&line| line < self.main_lines);
        let line = |statement: StatementId| {
            in_main(Fact::Module(statement.module())).and_then(|_| in_main(Fact::Statement(statement)))
        };
        let (helper, line) = needed.find_map(|use_| Some((use_.helper, line(use_.statement)?)))?;
        Some((Origin::Helper(helper), Some(line)))
    }
}

impl fmt::Display for Why<'_> {
    fn fmt(&self, f: &mut fmt::Formatter) -> fmt::Result {
        let mut told = vec![false; self.steps.len()];
        let mut open = vec![self.steps.len() - 1];
        let mut first = true;
        while let Some(step) = open.pop() {
            if told[step] {
                continue;
            }
            if !core::mem::replace(&mut first, false) {
                f.write_str(if f.alternate() { "\n" } else { " " })?;
            }
            let rest = self.sentence(f, step, &mut told)?;
            open.extend(rest.into_iter().rev());
        }
        Ok(())
    }
}

impl Why<'_> {
    /// A sentence from a step back to a start, to a step that was told, or to one that follows from two: these are given.
    fn sentence(&self, f: &mut fmt::Formatter, from: usize, told: &mut [bool]) -> Result<Vec<usize>, fmt::Error> {
        let gap = if f.alternate() { "\n  " } else { " " };
        let fact = self.steps[from].fact;
        let mut step = from;
        write!(f, "{} is {} because ", self.kept.graph.tell(fact.part()), fact.verb())?;
        loop {
            told[step] = true;
            let checked = self.checked_use(step);
            let also = if checked.is_some() { ", K9" } else { "" };
            let clause = checked.unwrap_or(step);
            told[clause] = true;
            self.clause(f, clause, also)?;
            match *self.steps[clause].because {
                [] => break f.write_str(".")?,
                [next] if told[next] => break write!(f, ",{gap}which is {}, as told.", self.steps[next].fact.verb())?,
                [next] => {
                    write!(f, ",{gap}which is {} because ", self.steps[next].fact.verb())?;
                    step = next;
                }
                _ => {
                    f.write_str(".")?;
                    return Ok(self.steps[clause].because.clone());
                }
            }
        }
        Ok(Vec::new())
    }

    /// The checked use that a use follows from by K9: both are told as one.
    fn checked_use(&self, step: usize) -> Option<usize> {
        let Step { fact, cause, because } = &self.steps[step];
        match (fact, cause, &because[..]) {
            (Fact::Use(..), Cause::Rule(Rule::CheckedUse), &[checked]) => Some(checked),
            _ => None,
        }
    }

    /// How a step follows, up to the one that it follows from.
    fn clause(&self, f: &mut fmt::Formatter, index: usize, also: &str) -> fmt::Result {
        let Step { fact, cause, because } = &self.steps[index];
        match cause {
            Cause::Start(origin) => self.start(f, *fact, *origin, because.first().copied(), also),
            Cause::Rule(Rule::ForwardedDeclaration) => {
                let mut premises = because.iter().map(|&step| self.steps[step].fact);
                let forward = premises.clone().find(|fact| matches!(fact, Fact::Forward(_))).unwrap_or(*fact);
                let module = premises.find(|fact| matches!(fact, Fact::Module(_))).unwrap_or(*fact);
                let [forward, module] = [forward, module].map(|fact| self.kept.graph.tell(fact.part()));
                write!(f, "it declares {forward}, which is forwarded, and {module} is kept (K1{also})")
            }
            Cause::Rule(rule) => match because.first() {
                None => write!(f, "it began ({rule}{also})"),
                Some(&premise) => {
                    self.phrase(f, *rule, *fact, self.steps[premise].fact)?;
                    write!(f, "{} ({rule}{also})", self.kept.graph.tell(self.steps[premise].fact.part()))
                }
            },
        }
    }

    fn start(
        &self,
        f: &mut fmt::Formatter,
        fact: Fact,
        origin: Origin,
        because: Option<usize>,
        also: &str,
    ) -> fmt::Result {
        match origin {
            Origin::UserDefinedEntry(entry) => self.entry(f, fact, "user-defined", entry)?,
            Origin::DynamicEntry(entry) => {
                self.entry(f, fact, "dynamic", entry)?;
                f.write_str(", live by its import() in ")?;
            }
            Origin::DynamicEntryOnCycle(entry) => {
                self.entry(f, fact, "dynamic", entry)?;
                f.write_str(", live on a cycle of dynamic imports")?;
            }
            Origin::CommonJsExports(_) => f.write_str("it is a CommonJS export of ")?,
            Origin::Helper(helper) => write!(f, "it is runtime {helper}, needed by ")?,
            Origin::RuntimeSideEffects => f.write_str("it is the runtime and has side effects")?,
            Origin::Given => f.write_str("it was given")?,
        }
        if let Some(step) = because {
            write!(f, "{}", self.kept.graph.tell(self.steps[step].fact.part()))?;
        }
        write!(f, " (start{also})")
    }

    /// What an entry has to do with a fact that it starts.
    fn entry(&self, f: &mut fmt::Formatter, fact: Fact, kind: &str, entry: EntryId) -> fmt::Result {
        let module = self.kept.graph.tell(Part::Module(self.kept.graph[entry].module)).to_string();
        match fact {
            Fact::Module(_) | Fact::Bailout(_) => write!(f, "it is {kind} {entry}"),
            Fact::Statement(_) => write!(f, "it declares an export of {kind} {entry}, {module}"),
            _ => write!(f, "it is an export of {kind} {entry}, {module}"),
        }
    }
}

impl Why<'_> {
    /// What a rule says of a fact, up to the name of the one that it follows from.
    fn phrase(&self, f: &mut fmt::Formatter, rule: Rule, fact: Fact, premise: Fact) -> fmt::Result {
        if let (Rule::Declaration, Fact::Use(symbol, _)) = (rule, premise) {
            return self.declaration(f, fact, symbol);
        }
        let phrase = match (rule, fact) {
            (Rule::SideEffect, Fact::Statement(statement)) => self.swept(statement),
            (Rule::SideEffect, _) => "it is swept along with",
            (Rule::Dependency, _) if self.kept.graph.options.treeshake => "it is a dependency with side effects of",
            (Rule::Dependency, _) => "nothing is shaken, and it is a dependency of",
            (Rule::EvalNamedImport, _) => "it is a named import where eval is called, in",
            (Rule::CommonJsExport, _) => "it is a CommonJS export that goes with",
            (Rule::DevMode, _) => "dev mode registers the namespace of",
            (Rule::ImportRecordBailout, _) => self.whole_import(fact, premise),
            (Rule::Reference, _) => "it is referred to by",
            (Rule::CheckedUse, Fact::Bailout(_)) => "it is read as a whole through",
            (Rule::CheckedUse, _) => "it is checked as",
            (Rule::DemandedBody, _) => "its module's body is demanded by",
            (Rule::CommonJsAlias, _) => "it is the CommonJS export that is meant by",
            (Rule::Wrapper, Fact::Use(..)) => "it wraps the module that is meant by",
            (Rule::Wrapper, _) => "a wrapped module is initialized for",
            (Rule::PropertyWrite, _) => "it writes a property of",
            (Rule::Start | Rule::ForwardedDeclaration | Rule::Declaration, _) => "it follows from",
        };
        write!(f, "{phrase} ")
    }

    /// K13: a use keeps what its symbol is linked to, or the namespace that it is a property of.
    fn declaration(&self, f: &mut fmt::Formatter, fact: Fact, used: SymbolId) -> fmt::Result {
        let verb = if matches!(fact, Fact::Module(_)) { "owns" } else { "declares" };
        let target = target(self.kept.graph, used);
        match target == used {
            true => write!(f, "it {verb} "),
            false => write!(f, "it {verb} {}, meant by ", self.kept.graph.tell(target)),
        }
    }

    /// K2: why a statement is kept with its module.
    fn swept(&self, statement: StatementId) -> &'static str {
        let (options, module) = (self.kept.graph.options, &self.kept.graph[statement.module()]);
        let Statement { has_side_effect, has_unknown_side_effect, .. } = self.kept.graph[statement];
        let only_unknown = module.safely_treeshake_commonjs && options.commonjs;
        if !options.treeshake || self.kept.side_effects(statement.module()) == Some(SideEffects::NoTreeshake) {
            "nothing is shaken in"
        } else if if only_unknown { has_unknown_side_effect } else { has_side_effect } {
            "it has a side effect in"
        } else {
            "it declares what eval may see in"
        }
    }

    /// K7: how a statement imports a module as a whole.
    fn whole_import(&self, bailout: Fact, statement: Fact) -> &'static str {
        let (Fact::Bailout(module), Fact::Statement(statement)) = (bailout, statement) else {
            return "it is imported by";
        };
        let mut records = self.kept.graph[statement].import_records.iter().map(|&record| &self.kept.graph[record]);
        let is_noticed = self.kept.side_effects(module).is_some_and(SideEffects::has_side_effects);
        let bails_out = |record: &&ImportRecord| {
            record.target == Some(module)
                && record.kind != ImportKind::Import
                && (is_noticed || !record.is_top_level_pure)
        };
        match records.find(bails_out) {
            Some(ImportRecord { kind: ImportKind::Require, .. }) => "it is required by",
            _ => "it is imported by import() in",
        }
    }
}
