//! The starts that a run has of itself, by kind, beside the marks and the lines of its main stage.

use super::drain::Line;
use super::entries::{entry_starts, user_defined_starts};
use super::rows::Answer;
use super::rules::{Fact, Rules};
use super::run::{bailout_exports, Main};
use super::{check, decode::decode};
use crate::model::Graph;
use crate::{ReadAnswer, Refused};
use std::collections::HashSet;

const TOO_SHORT: ReadAnswer = ReadAnswer::refused(Refused { number: 5, place: 0 });

/// What the operation answers, each row as long as it has to be.
#[derive(Clone, Debug)]
pub struct Starts {
    /// Each start once, by kind.
    pub facts: Vec<Fact>,
    /// The lines of the main stage.
    pub lines: Vec<Line>,
    /// The marks of these lines.
    pub marks: Vec<u8>,
}

impl Starts {
    /// The starts of a graph's run: its main stage, and what follows from how that ends.
    pub fn of(graph: &Graph) -> Starts {
        let rules = Rules::new(graph);
        let main = Main::of(&rules);
        let facts = by_kind(&rules, &main);
        let Answer { lines, marks, .. } = Answer::new(&rules, main.queue.into_lines());
        Starts { facts, lines, marks }
    }

    /// The starts as numbers.
    pub fn triples(&self) -> Vec<u32> {
        triples(&self.facts)
    }

    /// The numbers of the record.
    pub fn record(&self) -> Vec<u32> {
        self.lines.iter().flat_map(|line| line.numbers()).collect()
    }

    /// Writes marks, record and starts into lent rows: 5 if one of them is too short.
    pub fn put(&self, marks: &mut [u8], record: &mut [u32], starts: &mut [u32]) -> ReadAnswer {
        if marks.len() < self.marks.len() {
            return TOO_SHORT;
        }
        marks.fill(0);
        record.fill(0);
        let (lines, triples) = (self.record(), self.triples());
        if record.len() < lines.len() || starts.len() < triples.len() {
            return TOO_SHORT;
        }
        marks[..self.marks.len()].copy_from_slice(&self.marks);
        record[..lines.len()].copy_from_slice(&lines);
        starts[..triples.len()].copy_from_slice(&triples);
        ReadAnswer { number: 0, place: 0, count: triples.len() as u64 }
    }
}

/// What the user-defined entries start, in their order; the exports of the bailouts that a round took, by line; what live
/// modules start, by module. A fact stands where it is named first.
fn by_kind(rules: &Rules, main: &Main) -> Vec<Fact> {
    let module_of = |&entry: &u32| rules.graph.entries[entry as usize].module;
    let users = main.user_defined.iter().map(module_of);
    let taken = main.begins.last().copied().unwrap_or(0);
    let live = (0..).zip(&main.live).filter(|(_, live)| **live);
    let mut facts: Vec<Fact> = users.flat_map(|module| user_defined_starts(rules, module)).collect();
    facts.extend(main.queue.lines()[..taken].iter().flat_map(|line| bailout_exports(rules, line.fact)));
    facts.extend(live.flat_map(|(module, _)| entry_starts(rules, module)));
    let mut named = HashSet::new();
    facts.retain(|&fact| named.insert(fact));
    facts
}

/// Facts as an operation takes them for starts: three numbers each.
pub fn triples(facts: &[Fact]) -> Vec<u32> {
    facts.iter().flat_map(|fact| fact.parts()).collect()
}

/// The whole operation: as check, then 5 for a row that is too short.
pub fn starts(numbers: &[u32], marks: &mut [u8], record: &mut [u32], starts: &mut [u32]) -> ReadAnswer {
    match answer(numbers) {
        Ok(answer) => answer.put(marks, record, starts),
        Err(refused) => ReadAnswer::refused(refused),
    }
}

/// What the operation answers if all rows are long enough, or the refusal of the graph.
pub fn answer(numbers: &[u32]) -> Result<Starts, Refused> {
    check(numbers)?;
    Ok(Starts::of(&decode(numbers)))
}
