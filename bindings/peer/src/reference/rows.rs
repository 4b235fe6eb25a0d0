//! The rows of a drain: marks, record, and the answer rows that follow from the facts.

use super::drain::{Line, LINE};
use super::rules::{reason, Fact, Rules};
use crate::listing::first_statement_bytes;
use crate::model::Graph;
use crate::{DrainAnswer, Refused, Rows};
use std::ops::Range;

const JSON: u32 = 2;
/// How many reasons there are.
const REASONS: usize = 31;

/// Which bit of the marks is a fact's.
pub struct MarkLayout {
    modules: usize,
    /// The first bit of a module's statements.
    statements: Vec<usize>,
    forwards: usize,
    uses: usize,
    checked_uses: usize,
    end: usize,
}

impl MarkLayout {
    pub fn new(graph: &Graph) -> MarkLayout {
        let (modules, symbols) = (graph.modules.len(), graph.symbols.len());
        let mut forwards = 2 * modules;
        let mut statements = Vec::with_capacity(modules);
        for module in &graph.modules {
            statements.push(forwards);
            forwards += module.statements.len();
        }
        let uses = forwards + symbols;
        let checked_uses = uses + REASONS * symbols;
        MarkLayout { modules, statements, forwards, uses, checked_uses, end: checked_uses + REASONS * symbols }
    }

    pub fn bit(&self, fact: Fact) -> usize {
        let use_of = |symbol: u32, reason: u32| REASONS * symbol as usize + reason as usize - 1;
        match fact {
            Fact::Module(module) => module as usize,
            Fact::Bailout(module) => self.modules + module as usize,
            Fact::Statement(module, index) => self.statements[module as usize] + index as usize,
            Fact::Forward(symbol) => self.forwards + symbol as usize,
            Fact::Use(symbol, reason) => self.uses + use_of(symbol, reason),
            Fact::CheckedUse(symbol, reason) => self.checked_uses + use_of(symbol, reason),
        }
    }

    /// How many bits there are in all.
    pub fn bits(&self) -> usize {
        self.end
    }

    /// The bits of modules.
    pub fn modules(&self) -> Range<usize> {
        0..self.modules
    }

    /// The bits of statements.
    pub fn statements(&self) -> Range<usize> {
        2 * self.modules..self.forwards
    }
}

/// A row of bits, from bit 0 of byte 0.
pub(super) fn bit_row(bits: usize) -> Vec<u8> {
    vec![0; bits.div_ceil(8)]
}

/// Sets a bit; false if it was set already.
pub(super) fn set(row: &mut [u8], bit: usize) -> bool {
    let (byte, mask) = (&mut row[bit / 8], 1 << (bit % 8));
    let new = *byte & mask == 0;
    *byte |= mask;
    new
}

/// What a drain writes, each row as long as it has to be.
#[derive(Clone, Debug)]
pub struct Answer {
    pub lines: Vec<Line>,
    pub marks: Vec<u8>,
    pub modules: Vec<u8>,
    pub statements: Vec<u8>,
    pub used: Vec<u8>,
    pub external: Vec<u8>,
    pub json: Vec<u8>,
    pub reason: Vec<u8>,
}

impl Answer {
    pub fn new(rules: &Rules, lines: Vec<Line>) -> Answer {
        let (modules, symbols) = (rules.graph.modules.len(), rules.graph.symbols.len());
        let layout = MarkLayout::new(rules.graph);
        let parts = first_statement_bytes(rules.graph);
        let mut answer = Answer {
            lines: Vec::new(),
            marks: bit_row(layout.bits()),
            modules: bit_row(modules),
            statements: vec![0; parts[modules]],
            used: bit_row(symbols),
            external: bit_row(symbols),
            json: bit_row(symbols),
            reason: vec![0; modules],
        };
        for line in &lines {
            set(&mut answer.marks, layout.bit(line.fact));
            answer.show(rules, &parts, line.fact);
        }
        answer.lines = lines;
        answer
    }

    /// The record's numbers.
    pub fn record(&self) -> Vec<u32> {
        self.lines.iter().flat_map(|line| line.numbers()).collect()
    }

    fn show(&mut self, rules: &Rules, parts: &[usize], fact: Fact) {
        match fact {
            Fact::Module(module) => {
                set(&mut self.modules, module as usize);
                if rules.is_registered(module) {
                    self.reason[module as usize] |= 1;
                }
            }
            Fact::Statement(module, index) => {
                set(&mut self.statements[parts[module as usize]..], index as usize);
            }
            Fact::Use(symbol, reason) if !rules.is_bypassed(symbol, reason) => self.show_use(rules, symbol, reason),
            _ => {}
        }
    }

    fn show_use(&mut self, rules: &Rules, symbol: u32, reason: u32) {
        let target = rules.target(symbol);
        for used in [symbol, target] {
            set(&mut self.used, used as usize);
            if !rules.module(rules.symbol(used).owner).normal {
                set(&mut self.external, used as usize);
            }
        }
        let owner = rules.symbol(target).owner;
        if rules.is_namespace(target) {
            self.reason[owner as usize] |= namespace_reason(reason);
        }
        let module = rules.module(owner);
        if module.normal && module.kind == JSON && reason & reason::JSON_SELF_REFERENCE == 0 {
            set(&mut self.json, target as usize);
        }
    }

    /// Writes the answer into lent rows: 5 if one of them is too short.
    pub fn put(&self, rows: &mut Rows) -> DrainAnswer {
        const TOO_SHORT: Refused = Refused { number: 5, place: 0 };
        let answers = [
            (&mut *rows.modules, &self.modules),
            (&mut *rows.statements, &self.statements),
            (&mut *rows.used, &self.used),
            (&mut *rows.external, &self.external),
            (&mut *rows.json, &self.json),
            (&mut *rows.reason, &self.reason),
        ];
        let short = answers.iter().any(|(row, answer)| row.len() < answer.len());
        if short || rows.marks.len() < self.marks.len() {
            return DrainAnswer::refused(TOO_SHORT);
        }
        rows.marks.fill(0);
        rows.record.fill(0);
        if rows.record.len() / LINE < self.lines.len() {
            return DrainAnswer::refused(TOO_SHORT);
        }
        for (row, answer) in answers {
            row[..answer.len()].copy_from_slice(answer);
        }
        rows.marks[..self.marks.len()].copy_from_slice(&self.marks);
        for (row, line) in rows.record.chunks_exact_mut(LINE).zip(&self.lines) {
            row.copy_from_slice(&line.numbers());
        }
        DrainAnswer { number: 0, place: 0, lines: self.lines.len() as u64 }
    }
}

/// Unknown for a normal or an entry's use, else ReExportDynamicExports if it is one.
fn namespace_reason(reason: u32) -> u8 {
    if reason & (reason::NORMAL | reason::ENTRY_EXPORT) != 0 {
        1
    } else if reason & reason::REEXPORT_DYNAMIC_EXPORTS != 0 {
        2
    } else {
        0
    }
}
