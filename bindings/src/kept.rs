//! What a run keeps.

use crate::boundary::{DrainAnswer, RunAnswer};
use crate::fact::Fact;
use crate::graph::{Entry, EntryKind, Graph, SideEffects};
use crate::ids::{EntryId, HelperId, ImportRecordId, ModuleId, StatementId, SymbolId};
use crate::index::{Index, Once};
use crate::record::{Line, Record, LINE};
use crate::rows::{is_set, Counts, Rows};
use alloc::vec;
use alloc::vec::Vec;

/// Why the namespace of a module is kept.
///
/// ```
/// let graph = lizdakk::Graph::new();
/// let reason = lizdakk::decide(&graph)?.namespace_reason(graph.runtime());
/// assert_eq!(reason, lizdakk::NamespaceReason::default());
/// # Ok::<(), lizdakk::Refused>(())
/// ```
#[derive(Clone, Copy, Debug, Default, PartialEq, Eq, Hash)]
#[non_exhaustive]
pub struct NamespaceReason {
    /// It is used, or registered in dev mode; nothing more is known.
    pub unknown: bool,
    /// What it has only when it runs is re-exported.
    pub reexport_dynamic_exports: bool,
}

/// What the entries of a graph keep, and why: the answer of [`decide`](crate::decide), and of
/// [`decide_from`](crate::decide_from) for given starts.
///
/// ```
/// use lizdakk::{Graph, SideEffects};
///
/// let mut graph = Graph::new();
/// let (main, tools) = (graph.module("main.js"), graph.module("tools.js"));
/// graph[main].side_effects = Some(SideEffects::Analyzed(true));
/// let (hammer, saw) = (graph.symbol(tools, "hammer"), graph.symbol(tools, "saw"));
/// let (declare_hammer, declare_saw) = (graph.statement(tools), graph.statement(tools));
/// graph.declare(declare_hammer, hammer);
/// graph.declare(declare_saw, saw);
/// let call = graph.statement(main);
/// graph[call].has_side_effect = true;
/// graph.refer(call, hammer);
/// graph.entry(main);
///
/// let kept = lizdakk::decide(&graph)?;
/// assert_eq!(kept.statements(tools).collect::<Vec<_>>(), [declare_hammer]);
/// assert!(kept.is_used(hammer) && !kept.is_used(saw));
/// # Ok::<(), lizdakk::Refused>(())
/// ```
///
/// Asked for a part that the graph does not have, it answers as for one that is not kept.
#[derive(Clone, Debug)]
pub struct Kept<'g> {
    pub(crate) graph: &'g Graph,
    counts: Counts,
    rows: Rows,
    rounds: u64,
    entries: Vec<EntryId>,
    /// By entry.
    live: Vec<bool>,
    pub(crate) verdicts: Vec<SideEffects>,
    /// Of both stages.
    pub(crate) lines: Vec<Line>,
    /// How many lines are of the main stage.
    pub(crate) main_lines: usize,
    index: Once<Index>,
}

/// The first lines of a record, which is given up.
fn taken_lines(rows: &mut Rows, count: usize) -> Vec<Line> {
    rows.record.truncate(LINE * count);
    let record = Record::from_numbers(core::mem::take(&mut rows.record));
    record.lines().filter_map(Result::ok).collect()
}

impl<'g> Kept<'g> {
    /// The answer of a run that was not refused. The starts are the run's own if code is not split, else unused.
    pub(crate) fn new(
        graph: &'g Graph,
        counts: Counts,
        mut rows: Rows,
        answer: RunAnswer,
        verdicts: Vec<SideEffects>,
        starts: &[Fact],
    ) -> Kept<'g> {
        let main_lines = answer.lines as usize;
        let lines = taken_lines(&mut rows, main_lines + answer.runtime_lines as usize);
        let entries = rows.entries.iter().take(answer.entries as usize).copied().map(EntryId::new).collect();
        let (rounds, live) = (answer.rounds, Vec::new());
        let index = Once::new();
        let mut kept = Kept { graph, counts, rows, rounds, entries, live, verdicts, lines, main_lines, index };
        kept.live = kept.live_entries(starts);
        kept
    }

    /// The answer of a drain that was not refused.
    pub(crate) fn of_drain(
        graph: &'g Graph,
        counts: Counts,
        mut rows: Rows,
        answer: DrainAnswer,
        verdicts: Vec<SideEffects>,
    ) -> Kept<'g> {
        let main_lines = answer.lines as usize;
        let lines = taken_lines(&mut rows, main_lines);
        let (entries, live) = (Vec::new(), Vec::new());
        let index = Once::new();
        Kept { graph, counts, rows, rounds: 0, entries, live, verdicts, lines, main_lines, index }
    }

    /// What explanations look up.
    pub(crate) fn index(&self) -> &Index {
        self.index.get_or_init(|| Index::of(self.graph, &self.lines))
    }

    /// Whether the starts were given, not found from the entries.
    pub(crate) fn is_given(&self) -> bool {
        self.rounds == 0
    }

    /// By entry whether it is live: the final entries have the live ones. If code is not split, they have no dynamic one;
    /// then a dynamic entry is live if the run started its module or, as nothing of an external module is started, if a
    /// related statement lets an entry of that module live at the end.
    fn live_entries(&self, starts: &[Fact]) -> Vec<bool> {
        let mut live = vec![false; self.graph.entries.len()];
        for entry in &self.entries {
            live[entry.at()] = true;
        }
        if !self.graph.options.code_splitting {
            let modules = self.live_modules(starts);
            let entries = self.graph.entries.iter().zip(&mut live);
            entries.for_each(|(entry, live)| *live |= modules[entry.module.at()]);
        }
        live
    }

    /// By module whether it is live as an entry, where code is not split.
    fn live_modules(&self, starts: &[Fact]) -> Vec<bool> {
        let mut live = vec![false; self.graph.modules.len()];
        for start in starts {
            if let Fact::Module(module) = start {
                live[module.at()] = true;
            }
        }
        for entry in self.graph.entries() {
            let Entry { module, related, .. } = &self.graph[entry];
            if !self.graph[*module].normal {
                live[module.at()] |= related.iter().any(|related| self.lacks(entry, related).is_none());
            }
        }
        live
    }

    /// How many rounds the run made. A round tries the dynamic entries; the last one kept no further module or, with
    /// [`settle`](crate::Options::settle), moved nothing. 0 if the starts were given
    /// ([`decide_from`](crate::decide_from)).
    ///
    /// ```
    /// // player.js:   import './menu.js';
    /// //              import './legacy.cjs';
    /// //              import('./menu.js');
    /// // menu.js:     console.log('menu');
    /// //              export const open = () => require('./legacy.cjs');
    /// // legacy.cjs:  exports.extend = () => import('./karaoke.js');
    /// let mut graph = lizdakk::Graph::new();
    /// graph.options.commonjs = true;
    /// let [player, menu, karaoke] = ["player.js", "menu.js", "karaoke.js"].map(|name| graph.module(name));
    /// let legacy = graph.commonjs("legacy.cjs");
    /// graph[legacy].safely_treeshake_commonjs = true;
    /// let [first, second, load] = [player; 3].map(|module| graph.statement(module));
    /// let ([log, declare], assign) = ([menu; 2].map(|module| graph.statement(module)), graph.statement(legacy));
    /// [load, log, assign].iter().for_each(|&statement| graph[statement].has_side_effect = true);
    /// graph.import(first, menu);
    /// graph.import(second, legacy);
    /// graph.dynamic_import(load, menu);
    /// let (open, extend) = (graph.symbol(menu, "open"), graph.symbol(legacy, "extend"));
    /// graph.declare(declare, open);
    /// graph.export(menu, "open", open);
    /// graph.require(declare, legacy);
    /// graph.declare(assign, extend);
    /// graph.export(legacy, "extend", extend);
    /// let import = graph.dynamic_import(assign, karaoke);
    /// graph.entry(player);
    ///
    /// // Round 1 finds menu.js live and keeps open. That requires legacy.cjs, and the next round would use its exports;
    /// // but all modules so far were kept before, so there is none.
    /// let kept = lizdakk::decide(&graph)?;
    /// assert_eq!(kept.rounds(), 1);
    /// assert!(kept.is_statement_kept(declare) && !kept.is_live(import.entry));
    /// // Round 2 uses extend, and karaoke.js is live; round 3 finds nothing.
    /// graph.options.settle = true;
    /// let kept = lizdakk::decide(&graph)?;
    /// assert_eq!(kept.rounds(), 3);
    /// assert!(kept.is_live(import.entry) && kept.is_kept(karaoke));
    /// # Ok::<(), lizdakk::Refused>(())
    /// ```
    pub fn rounds(&self) -> u64 {
        self.rounds
    }

    /// The final entries in their order: the user-defined ones, then the live dynamic ones unless code is not split,
    /// those of one module beside each other.
    ///
    /// ```
    /// let mut graph = lizdakk::Graph::new();
    /// let main = graph.module("main.js");
    /// let entry = graph.entry(main);
    /// assert_eq!(lizdakk::decide(&graph)?.final_entries(), [entry]);
    /// # Ok::<(), lizdakk::Refused>(())
    /// ```
    pub fn final_entries(&self) -> &[EntryId] {
        &self.entries
    }

    /// Whether an entry is live. A user-defined one always is. If code is not split, a run does not say which dynamic
    /// entries are live: one counts as live if the run started its module or, where that is an external one, if at the end
    /// a related statement lacks nothing ([`Lacks`](crate::Lacks)). Where starts were given, no dynamic entry is.
    ///
    /// ```
    /// let mut graph = lizdakk::Graph::new();
    /// let (main, lazy) = (graph.module("main.js"), graph.module("lazy.js"));
    /// let statement = graph.statement(main);
    /// let import = graph.dynamic_import(statement, lazy);
    /// graph.entry(main);
    /// assert!(!lizdakk::decide(&graph)?.is_live(import.entry), "nothing keeps the statement");
    /// # Ok::<(), lizdakk::Refused>(())
    /// ```
    pub fn is_live(&self, entry: EntryId) -> bool {
        let user_defined = |entry: &Entry| entry.kind != EntryKind::DynamicImport;
        self.graph.entries.get(entry.at()).is_some_and(user_defined)
            || self.live.get(entry.at()).copied().unwrap_or(false)
    }

    /// Whether a module is kept.
    ///
    /// ```
    /// let graph = lizdakk::Graph::new();
    /// assert!(!lizdakk::decide(&graph)?.is_kept(graph.runtime()));
    /// # Ok::<(), lizdakk::Refused>(())
    /// ```
    pub fn is_kept(&self, module: ModuleId) -> bool {
        is_set(&self.rows.modules, module.at())
    }

    /// The modules that are kept, in order.
    ///
    /// ```
    /// assert_eq!(lizdakk::decide(&lizdakk::Graph::new())?.modules().count(), 0);
    /// # Ok::<(), lizdakk::Refused>(())
    /// ```
    pub fn modules(&self) -> impl Iterator<Item = ModuleId> + '_ {
        self.graph.modules().filter(|&module| self.is_kept(module))
    }

    /// Whether a statement is kept.
    ///
    /// ```
    /// let mut graph = lizdakk::Graph::new();
    /// let main = graph.module("main.js");
    /// let statement = graph.statement(main);
    /// graph.entry(main);
    /// assert!(!lizdakk::decide(&graph)?.is_statement_kept(statement), "it does nothing");
    /// # Ok::<(), lizdakk::Refused>(())
    /// ```
    pub fn is_statement_kept(&self, statement: StatementId) -> bool {
        let has = self.graph.modules.get(statement.module().at());
        let first = self.counts.first_statement_bytes.get(statement.module().at());
        match (has, first) {
            (Some(module), Some(&first)) if statement.at() < module.statements.len() => {
                is_set(&self.rows.statements[first..], statement.at())
            }
            _ => false,
        }
    }

    /// The statements of a module that are kept, in order. Statement 0 is that of the namespace.
    ///
    /// ```
    /// let mut graph = lizdakk::Graph::new();
    /// let main = graph.module("main.js");
    /// let statement = graph.statement(main);
    /// graph[statement].has_side_effect = true;
    /// graph.entry(main);
    /// assert_eq!(lizdakk::decide(&graph)?.statements(main).collect::<Vec<_>>(), [statement]);
    /// # Ok::<(), lizdakk::Refused>(())
    /// ```
    pub fn statements(&self, module: ModuleId) -> impl Iterator<Item = StatementId> + '_ {
        self.graph.statements(module).filter(|&statement| self.is_statement_kept(statement))
    }

    /// Whether a symbol is used.
    ///
    /// ```
    /// # let graph = lizdakk::Graph::new();
    /// let namespace = graph[graph.runtime()].namespace.expect("a normal module has one");
    /// assert!(!lizdakk::decide(&graph)?.is_used(namespace));
    /// # Ok::<(), lizdakk::Refused>(())
    /// ```
    pub fn is_used(&self, symbol: SymbolId) -> bool {
        is_set(&self.rows.used, symbol.at())
    }

    /// The symbols that are used, in order.
    ///
    /// ```
    /// assert_eq!(lizdakk::decide(&lizdakk::Graph::new())?.used().count(), 0);
    /// # Ok::<(), lizdakk::Refused>(())
    /// ```
    pub fn used(&self) -> impl Iterator<Item = SymbolId> + '_ {
        self.symbols(&self.rows.used)
    }

    /// The symbols of external modules that are used, in order.
    ///
    /// ```
    /// let mut graph = lizdakk::Graph::new();
    /// let (main, react) = (graph.module("main.js"), graph.external("react"));
    /// let (hook, call) = (graph.symbol(react, "useState"), graph.statement(main));
    /// graph[call].has_side_effect = true;
    /// graph.refer(call, hook);
    /// graph.entry(main);
    /// assert_eq!(lizdakk::decide(&graph)?.external().collect::<Vec<_>>(), [hook]);
    /// # Ok::<(), lizdakk::Refused>(())
    /// ```
    pub fn external(&self) -> impl Iterator<Item = SymbolId> + '_ {
        self.symbols(&self.rows.external)
    }

    /// The symbols of JSON modules with a use whose reason lacks
    /// [`JSON_DEFAULT_EXPORT_SELF_REFERENCE`](crate::Reason::JSON_DEFAULT_EXPORT_SELF_REFERENCE), which uses by statements of
    /// JSON modules have; in order, as before the runtime stage.
    ///
    /// ```
    /// assert_eq!(lizdakk::decide(&lizdakk::Graph::new())?.json().count(), 0);
    /// # Ok::<(), lizdakk::Refused>(())
    /// ```
    pub fn json(&self) -> impl Iterator<Item = SymbolId> + '_ {
        self.symbols(&self.rows.json)
    }

    fn symbols<'a>(&'a self, row: &'a [u8]) -> impl Iterator<Item = SymbolId> + 'a {
        self.graph.symbols().filter(|symbol| is_set(row, symbol.at()))
    }

    /// Whether an import record is a dynamic import that was found dead: the bundler may drop it. A try of its entry
    /// marked it, and the mark stays even if a later try finds the entry live, as it can in any round that
    /// [`settle`](crate::Options::settle) adds.
    ///
    /// With [`dead_imports_at_end`](crate::Options::dead_imports_at_end) no mark of a round counts. An import is dead
    /// if a try after the last round would mark it, and no live entry has it in a kept statement where it is reached.
    /// What the runtime stage keeps comes later and does not count.
    ///
    /// ```
    /// let mut graph = lizdakk::Graph::new();
    /// let (main, lazy) = (graph.module("main.js"), graph.module("lazy.js"));
    /// let statement = graph.statement(main);
    /// let import = graph.dynamic_import(statement, lazy);
    /// graph[import.record].is_top_level_pure = true;
    /// graph.entry(main);
    /// assert!(lizdakk::decide(&graph)?.is_dead(import.record));
    /// # Ok::<(), lizdakk::Refused>(())
    /// ```
    pub fn is_dead(&self, record: ImportRecordId) -> bool {
        let known = self.graph.modules.get(record.module().at());
        known.is_some_and(|module| record.at() < module.import_records.len())
            && is_set(&self.rows.dead, self.counts.first_records[record.module().at()] + record.at())
    }

    /// The dynamic imports that were found dead, module by module.
    ///
    /// ```
    /// // main.js:     export let ready = (import('./breaker.js'), true);
    /// //              const preview = await import('./preview.js');
    /// // preview.js:  export { ready } from './main.js';
    /// let mut graph = lizdakk::Graph::new();
    /// let [main, breaker, preview] = ["main.js", "breaker.js", "preview.js"].map(|name| graph.module(name));
    /// let (ready, declare, load) = (graph.symbol(main, "ready"), graph.statement(main), graph.statement(main));
    /// graph.declare(declare, ready);
    /// graph[load].has_side_effect = true;
    /// let import = graph.dynamic_import(declare, breaker);
    /// graph[import.record].is_top_level_pure = true;
    /// graph.dynamic_import(load, preview);
    /// graph[preview].entry_references.push(ready);
    /// graph.entry(main);
    ///
    /// // Round 1 tries breaker.js before preview.js, which asks for ready: dead then, live in round 2.
    /// let kept = lizdakk::decide(&graph)?;
    /// assert!(kept.is_live(import.entry));
    /// assert_eq!(kept.dead_imports().collect::<Vec<_>>(), [import.record]);
    /// graph.options.dead_imports_at_end = true;
    /// assert_eq!(lizdakk::decide(&graph)?.dead_imports().count(), 0);
    /// # Ok::<(), lizdakk::Refused>(())
    /// ```
    pub fn dead_imports(&self) -> impl Iterator<Item = ImportRecordId> + '_ {
        let records = self.graph.modules().flat_map(|module| self.graph.import_records(module));
        records.filter(|&record| self.is_dead(record))
    }

    /// The helpers of the runtime that a module needs, as before the runtime stage. A module that is not kept needs all
    /// that it lists, unless it is the runtime; those of kept modules are in the bundle.
    ///
    /// ```
    /// let graph = lizdakk::Graph::new();
    /// assert_eq!(lizdakk::decide(&graph)?.helpers(graph.runtime()).count(), 0);
    /// # Ok::<(), lizdakk::Refused>(())
    /// ```
    pub fn helpers(&self, module: ModuleId) -> impl Iterator<Item = HelperId> {
        let word = self.rows.helpers.get(module.at()).copied().unwrap_or(0);
        (0..32).filter(move |helper| word >> helper & 1 == 1).map(HelperId::new)
    }

    /// Why the namespace of a module is kept, as before the runtime stage.
    ///
    /// ```
    /// let graph = lizdakk::Graph::new();
    /// let reason = lizdakk::decide(&graph)?.namespace_reason(graph.runtime());
    /// assert!(!reason.unknown && !reason.reexport_dynamic_exports);
    /// # Ok::<(), lizdakk::Refused>(())
    /// ```
    pub fn namespace_reason(&self, module: ModuleId) -> NamespaceReason {
        let reason = self.rows.reason.get(module.at()).copied().unwrap_or(0);
        NamespaceReason { unknown: reason & 1 != 0, reexport_dynamic_exports: reason & 2 != 0 }
    }

    /// The last verdict on the side effects of a module; none if the graph has no such module.
    ///
    /// ```
    /// use lizdakk::SideEffects;
    ///
    /// let graph = lizdakk::Graph::new();
    /// assert_eq!(lizdakk::decide(&graph)?.side_effects(graph.runtime()), Some(SideEffects::Analyzed(false)));
    /// # Ok::<(), lizdakk::Refused>(())
    /// ```
    pub fn side_effects(&self, module: ModuleId) -> Option<SideEffects> {
        self.verdicts.get(module.at()).copied()
    }

    /// The record's lines, those of the main stage and behind them those of the runtime stage.
    ///
    /// ```
    /// use lizdakk::{Fact, Rule};
    ///
    /// let mut graph = lizdakk::Graph::new();
    /// let main = graph.module("main.js");
    /// graph.entry(main);
    /// let kept = lizdakk::decide(&graph)?;
    /// assert_eq!(kept.lines()[1].fact, Fact::Module(main));
    /// assert_eq!(kept.lines()[1].rule, Rule::Start);
    /// # Ok::<(), lizdakk::Refused>(())
    /// ```
    pub fn lines(&self) -> &[Line] {
        &self.lines
    }

    /// The lines that the runtime stage added for helpers; the last ones of [`lines`](Kept::lines).
    ///
    /// ```
    /// assert!(lizdakk::decide(&lizdakk::Graph::new())?.runtime_lines().is_empty());
    /// # Ok::<(), lizdakk::Refused>(())
    /// ```
    pub fn runtime_lines(&self) -> &[Line] {
        &self.lines[self.main_lines..]
    }

    /// The record of the main stage, which [`judge`](crate::judge) passes beside [`own_starts`](crate::own_starts).
    ///
    /// ```
    /// let mut graph = lizdakk::Graph::new();
    /// let main = graph.module("main.js");
    /// graph.entry(main);
    /// let record = lizdakk::decide(&graph)?.record();
    /// lizdakk::judge(&graph, &lizdakk::own_starts(&graph)?, &record)?;
    /// # Ok::<(), lizdakk::Refused>(())
    /// ```
    pub fn record(&self) -> Record {
        Record::from_lines(&self.lines[..self.main_lines])
    }
}
