//! The listing of a run, the text that the program `keep` prints, and where rows have their parts.

use crate::model::Graph;
use std::fmt::Write;

/// Whether a bit is set, from bit 0 of byte 0.
pub fn is_set(row: &[u8], bit: usize) -> bool {
    row[bit / 8] >> (bit % 8) & 1 == 1
}

/// The first byte of each module's statements in their row, then the length of the row.
pub fn first_statement_bytes(graph: &Graph) -> Vec<usize> {
    sums(graph.modules.iter().map(|module| module.statements.len().div_ceil(8)))
}

/// The first record of each module in the row over all records, then how many there are.
pub fn first_records(graph: &Graph) -> Vec<usize> {
    sums(graph.modules.iter().map(|module| module.records.len()))
}

/// 0, then the sum so far after each number.
fn sums(numbers: impl Iterator<Item = usize>) -> Vec<usize> {
    let mut sums = vec![0];
    for number in numbers {
        sums.push(sums[sums.len() - 1] + number);
    }
    sums
}

/// What a listing is made of.
#[derive(Clone, Copy, Debug)]
pub struct Listed<'a> {
    pub rounds: u64,
    /// The final entries, by graph index.
    pub entries: &'a [u32],
    pub verdicts: &'a [u32],
    pub modules: &'a [u8],
    pub statements: &'a [u8],
    pub used: &'a [u8],
    pub external: &'a [u8],
    pub json: &'a [u8],
    pub reason: &'a [u8],
    pub dead: &'a [u8],
    pub helpers: &'a [u32],
}

impl Listed<'_> {
    /// The text: rounds, entries, normal modules, statements, used, external and json symbols, dead imports.
    pub fn text(&self, graph: &Graph) -> String {
        let mut text = Text(String::new());
        text.line("rounds", [self.rounds]);
        for &index in self.entries {
            let entry = &graph.entries[index as usize];
            text.line("entry", [entry.module, entry.kind]);
        }
        self.modules(graph, &mut text);
        let symbols = 0..graph.symbols.len() as u32;
        let set = |row| symbols.clone().filter(move |&symbol| is_set(row, symbol as usize));
        set(self.used).for_each(|symbol| text.line("used", [symbol]));
        set(self.external).for_each(|symbol| text.line("external", [symbol]));
        let mut json: Vec<[u32; 2]> =
            set(self.json).map(|symbol| [graph.symbols[symbol as usize].owner, symbol]).collect();
        json.sort_unstable();
        json.into_iter().for_each(|row| text.line("json", row));
        self.dead(graph, &mut text);
        text.0
    }

    /// Normal modules: kept, last verdict, REASON, helpers; then the statements that are kept.
    fn modules(&self, graph: &Graph, text: &mut Text) {
        for (index, _) in (0u32..).zip(&graph.modules).filter(|(_, module)| module.normal) {
            let at = index as usize;
            let kept = u32::from(is_set(self.modules, at));
            text.line("module", [index, kept, self.verdicts[at], u32::from(self.reason[at]), self.helpers[at]]);
        }
        let firsts = first_statement_bytes(graph);
        for (index, module) in (0u32..).zip(&graph.modules) {
            let row = &self.statements[firsts[index as usize]..];
            let kept = (0..module.statements.len() as u32).filter(|&statement| is_set(row, statement as usize));
            kept.for_each(|statement| text.line("statement", [index, statement]));
        }
    }

    fn dead(&self, graph: &Graph, text: &mut Text) {
        let firsts = first_records(graph);
        for (index, module) in (0u32..).zip(&graph.modules) {
            let first = firsts[index as usize];
            let dead = (0..module.records.len() as u32).filter(|&record| is_set(self.dead, first + record as usize));
            dead.for_each(|record| text.line("dead", [index, record]));
        }
    }
}

struct Text(String);

impl Text {
    /// A word and its numbers.
    fn line<T: ToString, const COUNT: usize>(&mut self, word: &str, numbers: [T; COUNT]) {
        let numbers = numbers.map(|number| number.to_string()).join(" ");
        writeln!(self.0, "{word} {numbers}").expect("a string takes all");
    }
}
