//! A fixed list of answers, so that another side can be tested without the tree shaking at hand.

use crate::compare::rule_lines;
use crate::decide::{decide, Decision};
use crate::generate::PRINTED;
use crate::graphs::graph_of;
use crate::happenings::happenings;
use crate::model::Graph;
use crate::reference::decode::decode;
use crate::reference::leb128;
use crate::reference::run::Run;
use crate::Budget;
use std::collections::BTreeMap;
use std::time::Duration;

/// After so many graphs in a row that were not taken, what occurs once more than before is seldom still.
const PATIENCE: u32 = 400;
/// Of a small graph's file, the most bytes.
const SMALL: usize = 400;
/// Of a middle one's.
const MIDDLE: usize = 6_000;
/// One in so many may be a middle one.
const SELDOM: usize = 25;
/// The most record lines of a run, as the program `keep` has room for.
const LINES: usize = 1_024;
const BUDGET: Budget = Budget { calls: 100_000, time: Duration::from_secs(10) };

/// Answers in lines, and in how many of them each thing occurs.
pub struct Answers {
    pub lines: Vec<String>,
    pub occurred: BTreeMap<String, u32>,
}

/// Lines of a graph's file and its listing, the printed case first, then those of graphs from a seed on.
pub fn answers(count: usize, seed: u64) -> Answers {
    let mut chosen = Chosen { lines: Vec::new(), occurred: BTreeMap::new(), often: 1, passed: 0, middle: 0 };
    chosen.add(&decode(&PRINTED));
    let mut seed = seed;
    while chosen.lines.len() < count {
        let graph = graph_of(seed);
        seed = seed.wrapping_add(1);
        chosen.offer(&graph);
    }
    Answers { lines: chosen.lines, occurred: chosen.occurred }
}

struct Chosen {
    lines: Vec<String>,
    /// How many of the chosen hold it.
    occurred: BTreeMap<String, u32>,
    /// A graph is taken for what fewer than this of the chosen hold.
    often: u32,
    /// How many graphs in a row were not taken.
    passed: u32,
    middle: usize,
}

impl Chosen {
    /// Takes a graph in which something seldom occurs.
    fn offer(&mut self, graph: &Graph) {
        let length = leb128::file_of(&graph.numbers()).len();
        let small = length <= SMALL;
        let middle = !small && length <= MIDDLE && self.middle * SELDOM <= self.lines.len();
        if !small && !middle {
            return;
        }
        let run = Run::of(graph);
        if run.lines.len() + run.runtime_lines.len() > LINES {
            return;
        }
        let seldom = occurrences(graph).iter().any(|name| self.occurred.get(name).copied().unwrap_or(0) < self.often);
        self.passed += 1;
        if (seldom || middle) && self.add(graph) {
            self.middle += usize::from(middle);
            self.passed = 0;
        } else if self.passed > PATIENCE {
            self.often += 1;
            self.passed = 0;
        }
    }

    /// Whether there is an answer to add, which is not there yet.
    fn add(&mut self, graph: &Graph) -> bool {
        let Decision::Listed(listing) = decide(graph, 0, BUDGET) else { return false };
        let line = answer(graph, &listing);
        if self.lines.contains(&line) {
            return false;
        }
        for name in occurrences(graph) {
            *self.occurred.entry(name).or_default() += 1;
        }
        self.lines.push(line);
        true
    }
}

/// What occurs in a graph's run, by name: its steps, and of each rule whether it gives a line, and several.
fn occurrences(graph: &Graph) -> Vec<String> {
    let run = Run::of(graph);
    let mut names: Vec<String> = happenings(graph, &run).into_iter().map(String::from).collect();
    for (rule, count) in rule_lines(&run).into_iter().enumerate() {
        names.extend((count > 0).then(|| format!("K{rule}")));
        names.extend((count > 2).then(|| format!("K{rule} often")));
    }
    for bit in (0..6).filter(|bit| graph.options >> bit & 1 != 0) {
        names.push(format!("option {bit}"));
    }
    names
}

/// The file in hexadecimal and the listing in one line.
fn answer(graph: &Graph, listing: &str) -> String {
    let file = leb128::file_of(&graph.numbers());
    let hex: String = file.iter().map(|byte| format!("{byte:02x}")).collect();
    format!("{hex} | {}", listing.replace('\n', ";"))
}

/// The numbers and the listing of such a line; none if it is out of form.
pub fn read_answer(line: &str) -> Option<(Vec<u32>, String)> {
    let (hex, listing) = line.split_once(" | ")?;
    let digits: Vec<u32> = hex.chars().map(|digit| digit.to_digit(16)).collect::<Option<_>>()?;
    let file: Vec<u8> =
        digits.chunks(2).map(|pair| pair.iter().fold(0, |byte, digit| 16 * byte + digit) as u8).collect();
    let mut numbers = vec![0; file.len()];
    let count = leb128::read(&file, &mut numbers).result().ok()?;
    numbers.truncate(count);
    Some((numbers, listing.replace(';', "\n")))
}
