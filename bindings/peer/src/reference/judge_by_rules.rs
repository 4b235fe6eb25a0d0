//! The judge a second time, for graphs of all sizes: a line's fact is looked up among what its premises give, and after
//! the last line all that the lines give has to have a line.

use super::drain::{read_starts, LINE};
use super::judge::lines;
use super::rows::{bit_row, set, MarkLayout};
use super::rules::{Fact, Rules};
use super::{check, decode::decode};
use crate::listing::is_set;
use crate::Refused;

/// The whole operation, as [`judge`](super::judge::judge).
pub fn judge_by_rules(numbers: &[u32], starts: &[u32], record: &[u32]) -> Result<(), Refused> {
    check(numbers)?;
    let graph = decode(numbers);
    let rules = Rules::new(&graph);
    let starts = read_starts(&rules, starts)?;
    judge_record(&rules, &starts, record)
}

/// 4 for the record's length, else 6 at the first bad line, else 6 after the last.
pub fn judge_record(rules: &Rules, starts: &[Fact], record: &[u32]) -> Result<(), Refused> {
    let lines = lines(record)?;
    let mut judged = Judged::new(rules, starts);
    let good = lines.iter().take_while(|line| judged.take(line)).count();
    if good == lines.len() && judged.is_closed(starts) {
        return Ok(());
    }
    Err(Refused { number: 6, place: good as u64 })
}

/// The good lines so far.
struct Judged<'a> {
    rules: &'a Rules<'a>,
    layout: MarkLayout,
    /// A bit for each start.
    starts: Vec<u8>,
    /// By line.
    facts: Vec<Fact>,
    /// A bit for each fact that has a line.
    marks: Vec<u8>,
}

impl<'a> Judged<'a> {
    fn new(rules: &'a Rules<'a>, starts: &[Fact]) -> Judged<'a> {
        let layout = MarkLayout::new(rules.graph);
        let marks = bit_row(layout.bits());
        let mut judged = Judged { rules, starts: marks.clone(), facts: Vec::new(), marks, layout };
        for &start in starts {
            set(&mut judged.starts, judged.layout.bit(start));
        }
        judged
    }

    /// Takes one more line if it is a good one.
    fn take(&mut self, line: &[u32; LINE]) -> bool {
        let Some(fact) = self.fact(line) else { return false };
        if self.has(fact) || !self.is_given(fact, line[3], [line[4], line[5]]) {
            return false;
        }
        self.facts.push(fact);
        set(&mut self.marks, self.layout.bit(fact))
    }

    /// Whether a fact has a line.
    fn has(&self, fact: Fact) -> bool {
        is_set(&self.marks, self.layout.bit(fact))
    }

    /// The fact of a line, if its parts are in form.
    fn fact(&self, line: &[u32; LINE]) -> Option<Fact> {
        let &[kind, first, second, ..] = line;
        let module = self.rules.graph.modules.get(first as usize);
        let statements = module.filter(|module| module.normal).map_or(0, |module| module.statements.len());
        let symbol = (first as usize) < self.rules.graph.symbols.len();
        let good = match kind {
            1 => statements > 0 && second == 0,
            2 => (second as usize) < statements,
            3 | 4 => symbol && (1..=31).contains(&second),
            5 => symbol && second == 0,
            6 => module.is_some() && second == 0,
            _ => false,
        };
        good.then(|| Fact::of([kind, first, second]))
    }

    fn is_given(&self, fact: Fact, rule: u32, names: [u32; 2]) -> bool {
        let named = names.map(|name| (name as usize).checked_sub(1).and_then(|line| self.facts.get(line).copied()));
        match (rule, named) {
            (0, _) => names == [0, 0] && is_set(&self.starts, self.layout.bit(fact)),
            (1, [Some(first), Some(second)]) => self.joins(first, second, fact) || self.joins(second, first, fact),
            (2..=14, [Some(premise), None]) => names[1] == 0 && self.gives(premise, rule, fact),
            _ => false,
        }
    }

    fn joins(&self, module: Fact, forward: Fact, fact: Fact) -> bool {
        let (Fact::Module(module), Fact::Forward(symbol)) = (module, forward) else { return false };
        self.rules.symbol(symbol).owner == module && self.rules.declaring(symbol).any(|given| given == fact)
    }

    fn gives(&self, premise: Fact, rule: u32, fact: Fact) -> bool {
        let mut found = false;
        self.rules.gives(premise, &mut |by, given| found |= by == rule && given == fact);
        found
    }

    /// Whether all starts and all that the lines give have a line.
    fn is_closed(&self, starts: &[Fact]) -> bool {
        starts.iter().all(|&start| self.has(start)) && self.facts.iter().all(|&fact| self.has_what_follows(fact))
    }

    /// Whether all that a fact gives has a line, for a forward together with its owner.
    fn has_what_follows(&self, fact: Fact) -> bool {
        let mut all = true;
        self.rules.gives(fact, &mut |_, given| all &= self.has(given));
        match fact {
            Fact::Forward(symbol) if self.is_kept(self.rules.symbol(symbol).owner) => {
                self.rules.declaring(symbol).all(|given| self.has(given))
            }
            _ => all,
        }
    }

    fn is_kept(&self, module: u32) -> bool {
        self.has(Fact::Module(module))
    }
}
