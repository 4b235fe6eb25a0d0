//! The drain: what follows from some starts, line by line, first in, first out.

use super::rows::{bit_row, set, Answer, MarkLayout};
use super::rules::{Fact, Rules};
use super::{check, decode::decode};
use crate::listing::is_set;
use crate::{DrainAnswer, Refused, Rows};

/// How many numbers a record line has.
pub const LINE: usize = 6;

/// A fact and why it is one: its rule, and the lines that it follows from, plus 1.
#[derive(Clone, Copy, Debug, PartialEq, Eq)]
pub struct Line {
    pub fact: Fact,
    /// 0 for a start.
    pub rule: u32,
    pub names: [u32; 2],
}

impl Line {
    pub fn numbers(self) -> [u32; LINE] {
        let [kind, first, second] = self.fact.parts();
        [kind, first, second, self.rule, self.names[0], self.names[1]]
    }
}

/// The lines that follow from the starts.
pub fn lines(rules: &Rules, starts: &[Fact]) -> Vec<Line> {
    let mut queue = Queue::new(rules);
    for &start in starts {
        queue.start(start);
    }
    queue.into_lines()
}

/// The lines that a stage wrote so far, and how many of them were handled.
pub struct Queue<'a> {
    rules: &'a Rules<'a>,
    written: Written,
    handled: usize,
}

/// The lines written so far, with what finds a fact among them.
struct Written {
    lines: Vec<Line>,
    /// How many lines earlier stages wrote: line numbers go on from there.
    before: u32,
    layout: MarkLayout,
    marks: Vec<u8>,
    /// By module: whether an earlier stage kept it.
    kept_before: Vec<bool>,
    /// By module: its line plus 1, 0 if it has none.
    module_lines: Vec<u32>,
    /// By module: forward and line plus 1 of each forward that it owns, by line.
    forwards: Vec<Vec<(u32, u32)>>,
    owners: Vec<u32>,
}

impl Written {
    fn new(rules: &Rules) -> Written {
        let layout = MarkLayout::new(rules.graph);
        let modules = rules.graph.modules.len();
        Written {
            lines: Vec::new(),
            before: 0,
            marks: bit_row(layout.bits()),
            layout,
            kept_before: vec![false; modules],
            module_lines: vec![0; modules],
            forwards: vec![Vec::new(); modules],
            owners: rules.graph.symbols.iter().map(|symbol| symbol.owner).collect(),
        }
    }

    /// Writes a line unless the fact has one, or is a module or a statement that was kept before.
    fn add(&mut self, fact: Fact, rule: u32, names: [u32; 2]) {
        if !set(&mut self.marks, self.layout.bit(fact)) {
            return;
        }
        self.lines.push(Line { fact, rule, names });
        let number = self.before + self.lines.len() as u32;
        match fact {
            Fact::Module(module) => self.module_lines[module as usize] = number,
            Fact::Forward(symbol) => {
                self.forwards[self.owners[symbol as usize] as usize].push((symbol, number));
            }
            _ => {}
        }
    }
}

impl<'a> Queue<'a> {
    pub fn new(rules: &'a Rules<'a>) -> Queue<'a> {
        Queue { rules, written: Written::new(rules), handled: 0 }
    }

    /// A stage that goes on behind the lines of an earlier one: the modules and statements of those are kept already,
    /// their other facts are forgotten.
    pub fn after(rules: &'a Rules<'a>, earlier: &[Line]) -> Queue<'a> {
        let mut written = Written { before: earlier.len() as u32, ..Written::new(rules) };
        for line in earlier {
            match line.fact {
                Fact::Module(module) => written.kept_before[module as usize] = true,
                Fact::Statement(..) => {}
                _ => continue,
            }
            set(&mut written.marks, written.layout.bit(line.fact));
        }
        Queue { rules, written, handled: 0 }
    }

    /// Writes a line for a start unless it is a fact already, and the lines that follow.
    pub fn start(&mut self, fact: Fact) {
        self.written.add(fact, 0, [0, 0]);
        self.work_off();
    }

    /// Whether the fact has a line, or is a module or a statement that was kept before.
    pub fn has(&self, fact: Fact) -> bool {
        is_set(&self.written.marks, self.written.layout.bit(fact))
    }

    pub fn lines(&self) -> &[Line] {
        &self.written.lines
    }

    pub fn into_lines(self) -> Vec<Line> {
        self.written.lines
    }

    fn work_off(&mut self) {
        while let Some(line) = self.written.lines.get(self.handled) {
            let fact = line.fact;
            self.handled += 1;
            self.handle(fact, self.written.before + self.handled as u32);
        }
    }

    /// Writes what follows from the fact of line `number`, counted from 1.
    fn handle(&mut self, fact: Fact, number: u32) {
        match fact {
            Fact::Module(module) => self.join_forwards(module, number),
            Fact::Forward(symbol) => self.join_module(symbol, number),
            _ => {}
        }
        let written = &mut self.written;
        self.rules.gives(fact, &mut |rule, fact| written.add(fact, rule, [number, 0]));
    }

    /// K1 at a module's line, with the forwards on earlier lines.
    fn join_forwards(&mut self, module: u32, number: u32) {
        for index in 0..self.written.forwards[module as usize].len() {
            let (symbol, line) = self.written.forwards[module as usize][index];
            if line < number {
                self.join(symbol, [number, line]);
            }
        }
    }

    /// K1 at a forward's line, with its owner on an earlier line or kept before.
    fn join_module(&mut self, symbol: u32, number: u32) {
        let owner = self.rules.symbol(symbol).owner as usize;
        let line = self.written.module_lines[owner];
        if self.written.kept_before[owner] {
            self.join(symbol, [number, 0]);
        } else if line != 0 && line < number {
            self.join(symbol, [number, line]);
        }
    }

    fn join(&mut self, symbol: u32, names: [u32; 2]) {
        for statement in self.rules.declaring(symbol) {
            self.written.add(statement, 1, names);
        }
    }
}

/// The whole operation: as check, then the faults of the starts, then 5 for a row that is too short.
pub fn drain(numbers: &[u32], starts: &[u32], rows: &mut Rows) -> DrainAnswer {
    match answer(numbers, starts) {
        Ok(answer) => answer.put(rows),
        Err(refused) => DrainAnswer::refused(refused),
    }
}

/// What a drain answers if all rows are long enough, or the refusal of the graph or the starts.
pub fn answer(numbers: &[u32], starts: &[u32]) -> Result<Answer, Refused> {
    check(numbers)?;
    let graph = decode(numbers);
    let rules = Rules::new(&graph);
    let starts = read_starts(&rules, starts)?;
    Ok(Answer::new(&rules, lines(&rules, &starts)))
}

/// The starts as facts: 4 at their length unless they come in threes, else 3 at the first bad number.
pub fn read_starts(rules: &Rules, starts: &[u32]) -> Result<Vec<Fact>, Refused> {
    if starts.len() % 3 != 0 {
        return Err(Refused { number: 4, place: starts.len() as u64 });
    }
    let read = |(index, start): (usize, &[u32])| {
        let start = [start[0], start[1], start[2]];
        match bad_part(rules, start) {
            Some(part) => Err(Refused { number: 3, place: (3 * index + part) as u64 }),
            None => Ok(Fact::of(start)),
        }
    };
    starts.chunks_exact(3).enumerate().map(read).collect()
}

/// Which number of a start is the first bad one.
fn bad_part(rules: &Rules, [kind, first, second]: [u32; 3]) -> Option<usize> {
    let module = rules.graph.modules.get(first as usize);
    let normal = module.filter(|module| module.normal);
    let (first_good, second_good) = match kind {
        1 => (normal.is_some(), second == 0),
        2 => (normal.is_some(), normal.is_some_and(|module| (second as usize) < module.statements.len())),
        3 | 4 => ((first as usize) < rules.graph.symbols.len(), (1..=31).contains(&second)),
        6 => (module.is_some(), second == 0),
        _ => return Some(0),
    };
    [true, first_good, second_good].iter().position(|good| !good)
}
