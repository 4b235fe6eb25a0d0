//! Compares the tree shaking, with several orders of its hash maps, with another side. It has to give up exactly where
//! there is a circle.

use crate::circles::{has_circle, has_circle_anywhere};
use crate::decide::{decide, Decision};
use crate::graphs::graph_of;
use crate::happenings::{happenings, ALL};
use crate::model::Graph;
use crate::reference::check;
use crate::reference::run::Run;
use crate::shrink::shrink;
use crate::sides::Side;
use rolldown_common::Budget;
use std::collections::{BTreeMap, BTreeSet};
use std::fmt;
use std::mem::discriminant;
use std::time::Duration;

/// How many keep rules there are.
pub const RULES: usize = 14;

/// How many symbols a decision resolves in a comparison until it gives up, unless it is said otherwise.
pub const CALLS: u64 = 200_000;
/// What it may take where that does not suffice and there is no circle.
pub const LARGER: Budget = Budget { calls: 400_000_000, time: Duration::from_secs(120) };

/// What is compared, and how.
pub struct Comparison<'a> {
    pub other: &'a Side<'a>,
    /// The seeds of the hash maps.
    pub hash_seeds: Vec<u64>,
    pub budget: Budget,
    /// Where that does not suffice and there is no circle.
    pub larger: Budget,
    /// Whether a refusal of the other side counts as not compared, for one that takes small graphs only.
    pub other_may_refuse: bool,
}

/// What a comparison found.
#[derive(Default)]
pub struct Counts {
    pub graphs: u64,
    pub equal: u64,
    /// Of those, the graphs that returned with the larger budget only.
    pub larger: u64,
    /// Of those, the graphs with a circle that the run does not reach.
    pub unreached: u64,
    /// Graphs with a circle on which the tree shaking gave up, as it has to.
    pub circles: u64,
    /// Graphs without a circle on which it gave up even with the larger budget, by seed.
    pub too_long: Vec<(u64, Graph)>,
    pub refused_by_other: u64,
    /// Graphs that were compared and hold a line of each rule, from rule 0, a start.
    pub rules: [u64; RULES + 1],
    /// Lines by rule.
    pub lines: [u64; RULES + 1],
    /// Graphs that were compared, by what stands in their listings.
    pub listed: BTreeMap<String, u64>,
    /// Graphs that were compared, by what happens in their runs.
    pub happenings: BTreeMap<&'static str, u64>,
    pub differences: Vec<Difference>,
}

/// Two answers that are not the same, or one where there is a circle.
pub struct Difference {
    pub seed: u64,
    /// The smallest graph that was found from it.
    pub graph: Graph,
    /// Whether the tree shaking returned though there is a circle.
    pub circle: bool,
    /// The answers.
    pub text: String,
}

enum Outcome {
    /// The listing, and whether it took the larger budget.
    Equal(String, bool),
    /// It gave up with a circle.
    Circle,
    /// It gave up without one.
    TooLong,
    /// It returned with a circle.
    Returned(String),
    Different(String),
    Refused,
}

impl Comparison<'_> {
    /// Compares the graphs of some seeds; ends after so many that are not as they have to be.
    pub fn seeds(&self, seeds: impl Iterator<Item = u64>, most_differences: usize) -> Counts {
        let mut counts = Counts::default();
        for &name in &ALL {
            counts.happenings.insert(name, 0);
        }
        for seed in seeds {
            let graph = graph_of(seed);
            self.graph(&mut counts, seed, graph);
            if counts.differences.len() + counts.too_long.len() >= most_differences {
                break;
            }
        }
        counts
    }

    fn graph(&self, counts: &mut Counts, seed: u64, graph: Graph) {
        counts.graphs += 1;
        match self.outcome(&graph) {
            Outcome::Equal(listing, larger) => {
                counts.equal += 1;
                counts.larger += u64::from(larger);
                counts.unreached += u64::from(has_circle_anywhere(&graph));
                counts.note(&graph, &listing);
            }
            Outcome::Circle => counts.circles += 1,
            Outcome::TooLong => counts.too_long.push((seed, graph)),
            Outcome::Refused => counts.refused_by_other += 1,
            outcome @ (Outcome::Returned(_) | Outcome::Different(_)) => {
                let kind = discriminant(&outcome);
                let graph = shrink(graph, |graph| discriminant(&self.outcome(graph)) == kind);
                let outcome = self.outcome(&graph);
                let circle = matches!(outcome, Outcome::Returned(_));
                let (Outcome::Returned(text) | Outcome::Different(text)) = outcome else { unreachable!("it differs") };
                counts.differences.push(Difference { seed, graph, circle, text });
            }
        }
    }

    fn outcome(&self, graph: &Graph) -> Outcome {
        let numbers = graph.numbers();
        if let Err(refused) = check(&numbers) {
            panic!("a generated graph is {refused}: {numbers:?}");
        }
        if has_circle(graph) {
            self.with_circle(graph)
        } else {
            self.without_circle(graph, &numbers)
        }
    }

    /// It has to give up in each hash order.
    fn with_circle(&self, graph: &Graph) -> Outcome {
        for &seed in &self.hash_seeds {
            if let Decision::Listed(listing) = decide(graph, seed, self.budget) {
                let text = format!("with hash seed {seed} it returned, though there is a circle:\n{listing}");
                return Outcome::Returned(text);
            }
        }
        Outcome::Circle
    }

    /// It has to return in each hash order, with the other side's listing.
    fn without_circle(&self, graph: &Graph, numbers: &[u32]) -> Outcome {
        let (mut first, mut larger) = (None, false);
        for &seed in &self.hash_seeds {
            let mut decision = decide(graph, seed, self.budget);
            if decision == Decision::GaveUp {
                larger = true;
                decision = decide(graph, seed, self.larger);
            }
            let Decision::Listed(listing) = decision else { return Outcome::TooLong };
            let first = first.get_or_insert_with(|| listing.clone());
            if listing != *first {
                return different(first, &format!("with hash seed {seed}"), &listing);
            }
        }
        let listing = first.expect("there is a hash seed");
        match (self.other)(numbers) {
            Ok(other) if other == listing => Outcome::Equal(listing, larger),
            Ok(other) => different(&listing, "the other side", &other),
            Err(_) if self.other_may_refuse => Outcome::Refused,
            Err(refused) => different(&listing, "the other side", &format!("{refused}\n")),
        }
    }
}

/// Two listings that are not the same.
fn different(listing: &str, from: &str, other: &str) -> Outcome {
    Outcome::Different(format!("the tree shaking:\n{listing}{from}:\n{other}"))
}

impl Counts {
    /// Whether all listings are the same and the tree shaking gave up exactly where there is a circle.
    pub fn is_good(&self) -> bool {
        self.differences.is_empty() && self.too_long.is_empty()
    }

    /// Counts what occurs in the run of a graph that was compared.
    fn note(&mut self, graph: &Graph, listing: &str) {
        let run = Run::of(graph);
        for name in listing.lines().flat_map(listed).collect::<BTreeSet<String>>() {
            *self.listed.entry(name).or_default() += 1;
        }
        for name in happenings(graph, &run) {
            *self.happenings.entry(name).or_default() += 1;
        }
        for (rule, count) in rule_lines(&run).into_iter().enumerate() {
            self.rules[rule] += u64::from(count > 0);
            self.lines[rule] += count;
        }
    }
}

/// What stands in a line of a listing, by name.
fn listed(line: &str) -> Vec<String> {
    match line.split(' ').collect::<Vec<_>>()[..] {
        ["rounds", _] => Vec::new(),
        ["entry", _, kind] => vec![format!("final entry of kind {kind}")],
        ["module", _, kept, effects, reason, helpers] => {
            let helpers = if helpers == "0" { "none" } else { "some" };
            let kept = if kept == "1" { "kept" } else { "not kept" };
            let module = |what: String| format!("module {kept}, {what}");
            [format!("effects {effects}"), format!("REASON {reason}"), format!("helpers {helpers}")]
                .map(module)
                .to_vec()
        }
        [what, ..] => vec![what.to_string()],
        [] => Vec::new(),
    }
}

/// How many lines of a run are by each rule.
pub fn rule_lines(run: &Run) -> [u64; RULES + 1] {
    let mut counts = [0; RULES + 1];
    for line in run.lines.iter().chain(&run.runtime_lines) {
        counts[line.rule as usize] += 1;
    }
    counts
}

impl fmt::Display for Counts {
    fn fmt(&self, f: &mut fmt::Formatter) -> fmt::Result {
        writeln!(f, "graphs {}", self.graphs)?;
        writeln!(f, "equal {}", self.equal)?;
        writeln!(f, "of these with the larger budget only {}", self.larger)?;
        writeln!(f, "of these with a circle that is not reached {}", self.unreached)?;
        writeln!(f, "gave up with a circle {}", self.circles)?;
        writeln!(f, "gave up without a circle {}", self.too_long.len())?;
        writeln!(f, "refused by the other side {}", self.refused_by_other)?;
        let returned = self.differences.iter().filter(|difference| difference.circle).count();
        writeln!(f, "different {}", self.differences.len())?;
        writeln!(f, "of these returned with a circle {returned}")?;
        for rule in 0..=RULES {
            let name = if rule == 0 { "start".to_string() } else { format!("K{rule}") };
            writeln!(f, "{name}: {} graphs, {} lines", self.rules[rule], self.lines[rule])?;
        }
        for (name, count) in &self.listed {
            writeln!(f, "listed, {name}: {count}")?;
        }
        for (name, count) in &self.happenings {
            writeln!(f, "{name}: {count}")?;
        }
        for (seed, graph) in &self.too_long {
            writeln!(f, "seed {seed} gave up without a circle:\n{}", spaced(graph))?;
        }
        for difference in &self.differences {
            write!(f, "{difference}")?;
        }
        Ok(())
    }
}

impl fmt::Display for Difference {
    fn fmt(&self, f: &mut fmt::Formatter) -> fmt::Result {
        writeln!(f, "seed {} differs; the smallest graph found:", self.seed)?;
        write!(f, "{}\n{}", spaced(&self.graph), self.text)
    }
}

/// The numbers of a graph in a line.
fn spaced(graph: &Graph) -> String {
    let numbers: Vec<String> = graph.numbers().iter().map(u32::to_string).collect();
    numbers.join(" ")
}
