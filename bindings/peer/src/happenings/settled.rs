//! What happens where rounds go on until nothing moves, beside the run of the same graph whose rounds end sooner.

use super::{facts, Happenings};
use crate::listing::{first_records, is_set};
use crate::model::{Entry, Graph};
use crate::reference::entries::is_dynamic;
use crate::reference::rules::Fact;
use crate::reference::run::Run;
use std::collections::HashSet;

/// What the option is there for: an entry waited for a statement that the last round kept.
pub const LIVE_BY_SETTLING: &str = "live by settling: an entry";
/// A live external entry is no fact: only that it is live asks for a further round.
pub const EXTERNAL_ALONE: &str = "a round in which nothing but external entries became live";
/// A bailout that the last round of the shorter run found.
pub const BAILOUT_TAKEN: &str = "taken by settling: a bailout with exports from CommonJS";

/// All names that [`settled`] can give.
pub const SETTLED: [&str; 12] = [
    LIVE_BY_SETTLING,
    "live by settling: an external entry",
    "live by settling: an entry with an import that a round marked as dead",
    "live by its cycle alone",
    EXTERNAL_ALONE,
    BAILOUT_TAKEN,
    "kept by settling: a module",
    "kept by settling: a statement of a module that was kept without",
    "no further round",
    "one further round, in which nothing moves",
    "two further rounds",
    "three further rounds or more",
];

/// What happens in a run that settles, beside the run of the same graph that does not.
pub fn settled(graph: &Graph, plain: &Run, settled: &Run) -> Happenings {
    let found = Found { graph, plain, settled, before: facts(&plain.lines), after: facts(&settled.lines) };
    let further = settled.rounds - plain.rounds;
    let happens = [
        found.became_live(|_| true),
        found.became_live(|entry| !graph.modules[entry.module as usize].normal),
        found.became_live(|entry| entry.related.iter().any(|row| found.is_dead(row))),
        found.lives_by_cycle(),
        settled.moves().iter().any(|[lines, live]| *lines == 0 && *live > 0),
        found.takes_bailout(),
        found.keeps(|fact| matches!(fact, Fact::Module(_))),
        found.keeps(|fact| matches!(fact, Fact::Statement(of, _) if found.before.contains(&Fact::Module(of)))),
        further == 0,
        further == 1,
        further == 2,
        further > 2,
    ];
    SETTLED.into_iter().zip(happens).filter(|(_, happens)| *happens).map(|(name, _)| name).collect()
}

struct Found<'a> {
    graph: &'a Graph,
    plain: &'a Run,
    settled: &'a Run,
    /// The facts of the main stage without the option.
    before: HashSet<Fact>,
    /// Those with it.
    after: HashSet<Fact>,
}

impl Found<'_> {
    fn dynamic(&self) -> impl Iterator<Item = &Entry> {
        self.graph.entries.iter().filter(|entry| is_dynamic(entry))
    }

    fn became_live(&self, is: impl Fn(&Entry) -> bool) -> bool {
        let live = |run: &Run, entry: &Entry| run.course.live[entry.module as usize];
        self.dynamic().any(|entry| live(self.settled, entry) && !live(self.plain, entry) && is(entry))
    }

    /// Whether the import of a related statement is dead, where it can be reached.
    fn is_dead(&self, row: &[u32; 4]) -> bool {
        row[3] == 0 && is_set(&self.settled.dead, first_records(self.graph)[row[0] as usize] + row[2] as usize)
    }

    /// Whether an entry is live though none of its related statements is kept.
    fn lives_by_cycle(&self) -> bool {
        let kept = |row: &[u32; 4]| self.after.contains(&Fact::Statement(row[0], row[1]));
        self.dynamic()
            .any(|entry| self.settled.course.on_cycle[entry.module as usize] && !entry.related.iter().any(kept))
    }

    fn keeps(&self, is: impl Fn(Fact) -> bool) -> bool {
        self.after.iter().any(|&fact| !self.before.contains(&fact) && is(fact))
    }

    /// Whether some bailout was found in the last round of the shorter run, so that only the longer one acts on it.
    fn takes_bailout(&self) -> bool {
        let last = self.plain.course.begins.last().copied().unwrap_or(0);
        let exports = |module: u32| &self.graph.modules[module as usize].resolved_exports;
        let acts = |fact| matches!(fact, Fact::Bailout(module) if exports(module).iter().any(|export| export[2] == 1));
        self.plain.lines[last..].iter().any(|line| acts(line.fact))
    }
}
