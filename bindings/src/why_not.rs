//! Why a dynamic import was judged dead: what each statement lacks that could have let its entry live.

use crate::graph::{EntryKind, Graph, RelatedStatement};
use crate::ids::{EntryId, ModuleId};
use crate::kept::Kept;
use alloc::vec::Vec;
use core::fmt;

/// What a related statement lacks to let its entry live.
///
/// ```
/// assert_ne!(lizdakk::Lacks::Reach, lizdakk::Lacks::Inclusion);
/// ```
#[derive(Clone, Copy, Debug, PartialEq, Eq, Hash)]
#[non_exhaustive]
pub enum Lacks {
    /// Its `import()` stands where it is never reached.
    Reach,
    /// The statement is not kept. Without [`settle`](crate::Options::settle) a further round might keep it.
    Inclusion,
    /// The statement is kept, but nothing could notice whether the module was evaluated: the `import()` is a pure one at
    /// the top level, no `import()` of the module looks at an export, and the module has no side effects.
    Notice,
    /// It lacks nothing now, but the statement became kept after the last try of the entry. Rounds end with one that
    /// keeps no further module. With [`settle`](crate::Options::settle) they go on, and the runtime stage alone keeps a
    /// statement so late. With [`dead_imports_at_end`](crate::Options::dead_imports_at_end) such an entry makes no
    /// import dead, unless the runtime stage alone keeps the statement.
    Time,
}

/// Why a dynamic entry is dead. `Display` tells it statement by statement, `{:#}` with a line for each.
///
/// ```
/// use lizdakk::{Graph, Lacks};
///
/// let mut graph = Graph::new();
/// let (main, lazy) = (graph.module("main.js"), graph.module("lazy.js"));
/// let statement = graph.statement(main);
/// let import = graph.dynamic_import(statement, lazy);
/// graph.entry(main);
/// let kept = lizdakk::decide(&graph)?;
/// let why_not = kept.why_not(import.entry).expect("it is dead");
/// assert_eq!(why_not.related()[0].1, Lacks::Inclusion);
/// assert_eq!(
///     why_not.to_string(),
///     "entry 0, module 2 (lazy.js) is dead: statement 1 of module 1 (main.js) is not kept."
/// );
/// # Ok::<(), lizdakk::Refused>(())
/// ```
#[derive(Clone, Debug)]
pub struct WhyNot<'g> {
    graph: &'g Graph,
    entry: EntryId,
    related: Vec<(RelatedStatement, Lacks)>,
    /// By related statement whether to say that its import is not dead: so only at the end of a run.
    not_dead: Vec<bool>,
}

impl WhyNot<'_> {
    /// The entry.
    ///
    /// ```
    /// # let mut graph = lizdakk::Graph::new();
    /// # let (main, lazy) = (graph.module("main.js"), graph.module("lazy.js"));
    /// # let statement = graph.statement(main);
    /// # let import = graph.dynamic_import(statement, lazy);
    /// # let kept = lizdakk::decide(&graph)?;
    /// assert_eq!(kept.why_not(import.entry).expect("it is dead").entry(), import.entry);
    /// # Ok::<(), lizdakk::Refused>(())
    /// ```
    pub fn entry(&self) -> EntryId {
        self.entry
    }

    /// The entry's related statements, and what each lacks.
    ///
    /// ```
    /// # let mut graph = lizdakk::Graph::new();
    /// # let (main, lazy) = (graph.module("main.js"), graph.module("lazy.js"));
    /// # let statement = graph.statement(main);
    /// # let import = graph.dynamic_import(statement, lazy);
    /// # let kept = lizdakk::decide(&graph)?;
    /// let why_not = kept.why_not(import.entry).expect("it is dead");
    /// assert_eq!(why_not.related()[0].0.statement, statement);
    /// # Ok::<(), lizdakk::Refused>(())
    /// ```
    pub fn related(&self) -> &[(RelatedStatement, Lacks)] {
        &self.related
    }
}

impl<'g> Kept<'g> {
    /// Why a dynamic entry is dead; none if it is live, user-defined or not of the graph, or if starts were given. This
    /// is about the entry: whether its imports are dead too is said by [`is_dead`](Kept::is_dead).
    ///
    /// ```
    /// let mut graph = lizdakk::Graph::new();
    /// let main = graph.module("main.js");
    /// let entry = graph.entry(main);
    /// assert!(lizdakk::decide(&graph)?.why_not(entry).is_none());
    /// # Ok::<(), lizdakk::Refused>(())
    /// ```
    #[must_use]
    pub fn why_not(&self, entry: EntryId) -> Option<WhyNot<'g>> {
        let known = self.graph.entries.get(entry.at())?;
        if known.kind != EntryKind::DynamicImport || self.is_live(entry) || self.is_given() {
            return None;
        }
        let lacks = |related: &RelatedStatement| (*related, self.lacks(entry, related).unwrap_or(Lacks::Time));
        let not_dead =
            |related: &RelatedStatement| self.graph.options.dead_imports_at_end && !self.is_dead(related.record);
        let (related, not_dead) = known.related.iter().map(|related| (lacks(related), not_dead(related))).unzip();
        Some(WhyNot { graph: self.graph, entry, related, not_dead })
    }

    /// What a related statement lacks; none if, as things stand at the end, it lets its entry live (003,
    /// `is_dynamic_entry_alive`).
    pub(crate) fn lacks(&self, entry: EntryId, related: &RelatedStatement) -> Option<Lacks> {
        let record = &self.graph[related.record];
        let has_side_effects =
            |module: ModuleId| self.side_effects(module).is_some_and(|found| found.has_side_effects());
        let droppable = record.is_top_level_pure && !record.target.is_some_and(has_side_effects);
        if related.is_unreachable {
            Some(Lacks::Reach)
        } else if !self.is_statement_kept(related.statement) {
            Some(Lacks::Inclusion)
        } else if droppable && self.graph[self.graph[entry].module].dynamic_imports_use_no_export {
            Some(Lacks::Notice)
        } else {
            None
        }
    }
}

impl fmt::Display for WhyNot<'_> {
    fn fmt(&self, f: &mut fmt::Formatter) -> fmt::Result {
        write!(f, "{} is dead:{}", self.graph.tell(self.entry), if f.alternate() { "" } else { " " })?;
        if self.related.is_empty() {
            return f.write_str(if f.alternate() {
                "\n  no statement imports it."
            } else {
                "no statement imports it."
            });
        }
        for (place, (related, lacks)) in self.related.iter().enumerate() {
            let statement = self.graph.tell(related.statement);
            match (place, f.alternate()) {
                (0, false) => {}
                (_, false) => f.write_str("; ")?,
                (0, true) => f.write_str("\n  ")?,
                (_, true) => f.write_str(";\n  ")?,
            }
            match lacks {
                Lacks::Reach => write!(f, "the import() of {statement} is never reached")?,
                Lacks::Inclusion => write!(f, "{statement} is not kept")?,
                Lacks::Notice => {
                    write!(f, "{statement} is kept, but its import() is a pure one at the top level, ")?;
                    write!(
                        f,
                        "no import() of {} looks at an export, ",
                        self.graph.tell(self.graph[self.entry].module)
                    )?;
                    match self.graph[related.record].target {
                        Some(target) => write!(f, "and {} has no side effects", self.graph.tell(target))?,
                        None => f.write_str("and it leads nowhere")?,
                    }
                }
                Lacks::Time => {
                    write!(f, "{statement} became kept after the last try")?;
                    f.write_str(if self.not_dead[place] { ", and its import() is not dead" } else { "" })?;
                }
            }
        }
        f.write_str(".")
    }
}
