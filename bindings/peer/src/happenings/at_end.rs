//! What happens where the dead imports are worked out at the end of a run, beside those that its rounds mark.

use super::{facts, is_pure, Happenings};
use crate::listing::{first_records, is_set};
use crate::model::{Entry, Graph};
use crate::reference::dynamic_entries::{search, Try};
use crate::reference::entries::is_dynamic;
use crate::reference::rules::{option, Fact, Rules};
use crate::reference::run::Run;
use std::collections::HashSet;

/// What the option is there for: an entry is dead in one round and live in a later one, and its import stays dead.
pub const DEAD_FIRST_LIVE_LATER: &str = "dead by the rounds alone: an import of an entry that came alive";

/// All names that [`at_end`] can give.
pub const AT_END: [&str; 8] = [
    DEAD_FIRST_LIVE_LATER,
    "dead by the rounds alone: an import of an entry that came alive, splitting off",
    "dead by the rounds alone: an import of a dead entry that a try would now find live",
    "dead by the rounds alone: an import that a try would now mark, exempt by an entry of a live module",
    "dead at the end: an import",
    "dead at the end: an import that an entry of a live module has where it is unreachable",
    "dead at the end: an import that an entry of a live module has in a statement that is not kept",
    "dead at the end: an import in a statement that the runtime stage alone keeps",
];

/// What happens at the end of a run, beside the run of the same graph that takes its dead imports from the rounds.
pub fn at_end(graph: &Graph, rounds: &Run, end: &Run) -> Happenings {
    let (kept, added) = (facts(&end.lines), facts(&end.runtime_lines));
    let found = Found { graph, rules: &Rules::new(graph), rounds, end, kept, added, firsts: first_records(graph) };
    let came_alive = found.came_alive();
    let happens = [
        came_alive,
        came_alive && graph.options & option::SPLITTING_OFF != 0,
        found.too_late(),
        found.exempt(),
        end.dead.iter().any(|&byte| byte != 0),
        found.dead_of_live(|row| is_unreachable(row) && found.is_kept(row)),
        found.dead_of_live(|row| !is_unreachable(row) && !found.is_kept(row)),
        found.kept_by_the_runtime_stage(),
    ];
    AT_END.into_iter().zip(happens).filter(|(_, happens)| *happens).map(|(name, _)| name).collect()
}

/// A related statement: module, statement, record, unreachable.
type Row = [u32; 4];

fn is_unreachable(row: &Row) -> bool {
    row[3] == 1
}

struct Found<'a> {
    graph: &'a Graph,
    rules: &'a Rules<'a>,
    rounds: &'a Run,
    end: &'a Run,
    /// The facts of the main stage.
    kept: HashSet<Fact>,
    /// Those of the runtime stage.
    added: HashSet<Fact>,
    /// By module: its first record in the row over all records.
    firsts: Vec<usize>,
}

impl Found<'_> {
    fn place(&self, row: &Row) -> usize {
        self.firsts[row[0] as usize] + row[2] as usize
    }

    fn is_kept(&self, row: &Row) -> bool {
        self.kept.contains(&Fact::Statement(row[0], row[1]))
    }

    fn is_dead(&self, row: &Row) -> bool {
        is_set(&self.end.dead, self.place(row))
    }

    fn is_dead_by_rounds_alone(&self, row: &Row) -> bool {
        !is_unreachable(row) && is_set(&self.rounds.dead, self.place(row)) && !self.is_dead(row)
    }

    fn is_live(&self, entry: &Entry) -> bool {
        self.end.course.live[entry.module as usize]
    }

    /// Whether a try would now find the entry of a module that is not live live.
    fn would_live(&self, entry: &Entry) -> bool {
        search(self.rules, entry, |fact| self.kept.contains(&fact)) == Try::Live
    }

    /// Whether some dynamic entry is of this kind and has such a related statement.
    fn some(&self, of: impl Fn(usize, &Entry) -> bool, is: impl Fn(&Row) -> bool) -> bool {
        let mut entries = self.graph.entries.iter().enumerate().filter(|(_, entry)| is_dynamic(entry));
        entries.any(|(index, entry)| of(index, entry) && entry.related.iter().any(&is))
    }

    fn came_alive(&self) -> bool {
        let later = |index: usize, entry: &Entry| self.end.course.found_dead[index] && self.is_live(entry);
        self.some(later, |row| self.is_dead_by_rounds_alone(row))
    }

    fn too_late(&self) -> bool {
        let late = |_: usize, entry: &Entry| !self.is_live(entry) && self.would_live(entry);
        self.some(late, |row| self.is_dead_by_rounds_alone(row))
    }

    fn exempt(&self) -> bool {
        let dies = |_: usize, entry: &Entry| !self.is_live(entry) && !self.would_live(entry);
        self.some(dies, |row| is_pure(self.rules, row) && self.is_dead_by_rounds_alone(row))
    }

    fn dead_of_live(&self, is: impl Fn(&Row) -> bool) -> bool {
        self.some(|_, entry| self.is_live(entry), |row| self.is_dead(row) && is(row))
    }

    fn kept_by_the_runtime_stage(&self) -> bool {
        let added = |row: &Row| !self.is_kept(row) && self.added.contains(&Fact::Statement(row[0], row[1]));
        self.some(|_, _| true, |row| !is_unreachable(row) && added(row) && self.is_dead(row))
    }
}
