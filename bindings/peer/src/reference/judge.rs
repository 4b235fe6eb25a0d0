//! The judge: whether a record justifies what some starts keep.
//!
//! It does if every line is in form, has a fact of its own, and is a start or follows by its rule from the earlier
//! lines that it names, and if the facts of all lines are the smallest set that holds the starts and is closed under the
//! rules. Here each rule is a question, whether a fact follows, and the smallest set is found by trial: slow, and for
//! small graphs. [`judge_by_rules`](super::judge_by_rules) is the one for all sizes.

use super::closure::{closure, Context};
use super::drain::LINE;
use super::rules::Fact;
use super::{check, decode::decode};
use crate::model::Graph;
use crate::Refused;
use std::collections::HashSet;

/// The refusal of a record that is no justification.
const UNJUSTIFIED: u32 = 6;

/// The whole operation: as check, the faults of the starts, 4 for the record's length, 6 at the first bad line or after
/// the last.
pub fn judge(numbers: &[u32], starts: &[u32], record: &[u32]) -> Result<(), Refused> {
    check(numbers)?;
    let graph = decode(numbers);
    Judge::new(&graph, starts)?.judge(record)
}

/// A graph and starts, for which any number of records can be judged.
pub struct Judge<'a> {
    context: Context<'a>,
    starts: HashSet<Fact>,
    /// The smallest choice that holds the starts and is closed.
    smallest: HashSet<Fact>,
}

impl<'a> Judge<'a> {
    /// Refused are starts that don't come in threes or have a faulty number.
    pub fn new(graph: &'a Graph, starts: &[u32]) -> Result<Judge<'a>, Refused> {
        let starts = start_facts(graph, starts)?;
        let (smallest, _) = closure(graph, &starts);
        Ok(Judge { context: Context::new(graph), starts: starts.into_iter().collect(), smallest })
    }

    /// 4 at the length unless it is a multiple of six, else 6 at the first bad line, else 6 after the last if a fact is
    /// absent.
    pub fn judge(&self, record: &[u32]) -> Result<(), Refused> {
        let lines = lines(record)?;
        for (number, &line) in lines.iter().enumerate() {
            if !self.is_good(&lines[..number], line) {
                return Err(Refused { number: UNJUSTIFIED, place: number as u64 });
            }
        }
        let facts: HashSet<Fact> = lines.iter().map(|line| fact_of(*line)).collect();
        match facts == self.smallest {
            true => Ok(()),
            false => Err(Refused { number: UNJUSTIFIED, place: lines.len() as u64 }),
        }
    }

    /// Whether a line is in form, has a fact of its own, and is justified by the good lines before it.
    fn is_good(&self, earlier: &[[u32; LINE]], line: [u32; LINE]) -> bool {
        is_in_form(self.context.graph, earlier.len(), line)
            && !earlier.iter().any(|&other| fact_of(other) == fact_of(line))
            && self.is_justified(earlier, line)
    }

    fn is_justified(&self, earlier: &[[u32; LINE]], line: [u32; LINE]) -> bool {
        let [_, _, _, rule, first, second] = line;
        let named = |name: u32| fact_of(earlier[name as usize - 1]);
        match rule {
            0 => self.starts.contains(&fact_of(line)),
            1 => self.context.follows_from_both(named(first), named(second), fact_of(line)),
            _ => self.context.follows(rule, named(first), fact_of(line)),
        }
    }
}

/// The lines of a record: 4 at its length unless that is a multiple of six.
pub fn lines(record: &[u32]) -> Result<Vec<[u32; LINE]>, Refused> {
    let lines = record.chunks_exact(LINE);
    if !lines.remainder().is_empty() {
        return Err(Refused { number: 4, place: record.len() as u64 });
    }
    Ok(lines.map(|line| line.try_into().expect("a line has six numbers")).collect())
}

fn fact_of([kind, first, second, ..]: [u32; LINE]) -> Fact {
    Fact::of([kind, first, second])
}

/// Whether a line with so many lines before it is in form.
fn is_in_form(graph: &Graph, before: usize, [kind, part, other, rule, first, second]: [u32; LINE]) -> bool {
    let earlier = |name: u32| name > 0 && name as usize <= before;
    let names = match rule {
        0 => first == 0 && second == 0,
        1 => earlier(first) && earlier(second),
        2..=14 => earlier(first) && second == 0,
        _ => false,
    };
    names && faulty_number(graph, [kind, part, other]).is_none()
}

/// Which number of a fact is the first that is faulty: its kind, its first part, its second.
fn faulty_number(graph: &Graph, [kind, first, second]: [u32; 3]) -> Option<usize> {
    let (modules, symbols) = (graph.modules.len(), graph.symbols.len());
    let any_module = (first as usize) < modules;
    let normal = any_module && graph.modules[first as usize].normal;
    let symbol = (first as usize) < symbols;
    let (is_first, is_second) = match kind {
        1 => (normal, second == 0),
        2 => (normal, normal && (second as usize) < graph.modules[first as usize].statements.len()),
        3 | 4 => (symbol, second > 0 && second < 32),
        5 => (symbol, second == 0),
        6 => (any_module, second == 0),
        _ => return Some(0),
    };
    match (is_first, is_second) {
        (false, _) => Some(1),
        (true, false) => Some(2),
        (true, true) => None,
    }
}

/// The facts of starts: 4 at their length unless they come in threes, else 3 at the first faulty number.
fn start_facts(graph: &Graph, starts: &[u32]) -> Result<Vec<Fact>, Refused> {
    const FORWARD: u32 = 5;
    let triples = starts.chunks_exact(3);
    if !triples.remainder().is_empty() {
        return Err(Refused { number: 4, place: starts.len() as u64 });
    }
    let mut facts = Vec::new();
    for (index, start) in triples.enumerate() {
        let start = [start[0], start[1], start[2]];
        let faulty = if start[0] == FORWARD { Some(0) } else { faulty_number(graph, start) };
        if let Some(number) = faulty {
            return Err(Refused { number: 3, place: (3 * index + number) as u64 });
        }
        facts.push(Fact::of(start));
    }
    Ok(facts)
}
