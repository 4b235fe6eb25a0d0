//! The run: what the entries of a graph keep, round by round, and what the runtime adds.

use super::drain::{Line, Queue, LINE};
use super::dynamic_entries::{kept_imports, search, sorted, Sorted, Try};
use super::entries::{entry_starts, final_entries, parted, user_defined_starts};
use super::helpers::{runtime_starts, words};
use super::rows::{bit_row, set, Answer, MarkLayout};
use super::rules::{option, reason, Fact, Rules};
use super::{check, decode::decode, read};
use crate::listing::{first_records, is_set, Listed};
use crate::model::Graph;
use crate::{Refused, RunAnswer, RunRows};
use std::collections::HashSet;

/// What a run answers, each row as long as it has to be.
#[derive(Clone, Debug)]
pub struct Run {
    pub rounds: u32,
    /// The facts that were started before the runtime stage, each once, in the order of starting.
    pub starts: Vec<Fact>,
    /// The lines of the main stage.
    pub lines: Vec<Line>,
    /// The lines of the runtime stage; their numbers go on from the main stage's.
    pub runtime_lines: Vec<Line>,
    /// The final entries, by graph index.
    pub entries: Vec<u32>,
    /// How many entries the graph has.
    pub all_entries: usize,
    /// The last verdicts.
    pub verdicts: Vec<u32>,
    pub marks: Vec<u8>,
    pub modules: Vec<u8>,
    pub statements: Vec<u8>,
    pub used: Vec<u8>,
    pub external: Vec<u8>,
    pub json: Vec<u8>,
    pub reason: Vec<u8>,
    pub dead: Vec<u8>,
    pub helpers: Vec<u32>,
    pub course: Course,
}

/// How a run went; none of it is part of the answer.
#[derive(Clone, Debug)]
pub struct Course {
    /// The dynamic entries in the order in which they were tried.
    pub order: Vec<u32>,
    /// By module: whether it is on a cycle.
    pub on_cycle: Vec<bool>,
    /// By module: whether a dynamic entry of it is live.
    pub live: Vec<bool>,
    /// By entry: whether a try found it dead.
    pub found_dead: Vec<bool>,
    /// By round: how many lines there were when it took its bailouts.
    pub begins: Vec<usize>,
    /// By round: how many modules were live when it began.
    pub live_before: Vec<usize>,
}

/// The main stage while it goes on, and as the rounds leave it.
pub(super) struct Main<'a> {
    rules: &'a Rules<'a>,
    pub(super) queue: Queue<'a>,
    starts: Vec<Fact>,
    started: HashSet<Fact>,
    /// The user-defined entries in their order.
    pub(super) user_defined: Vec<u32>,
    /// The dynamic entries in the order in which they are tried.
    order: Sorted,
    /// By round: how many lines there were when it took its bailouts.
    pub(super) begins: Vec<usize>,
    /// By round: how many modules were live when it began.
    live_before: Vec<usize>,
    /// By module: whether a dynamic entry of it is live.
    pub(super) live: Vec<bool>,
    /// By entry: whether a try found it dead.
    found_dead: Vec<bool>,
    /// By module: its first record in the row over all records.
    first_records: Vec<usize>,
    /// By record: whether it is a dead import.
    dead: Vec<u8>,
}

impl<'a> Main<'a> {
    /// The main stage of a graph's run, from the user-defined entries to the last round.
    pub(super) fn of(rules: &'a Rules<'a>) -> Main<'a> {
        let mut main = Main::new(rules);
        for entry in main.user_defined.clone() {
            main.start(user_defined_starts(rules, rules.graph.entries[entry as usize].module));
        }
        main.all_rounds();
        if rules.has(option::DEAD_IMPORTS_AT_END) {
            main.dead.fill(0);
            main.mark_dead(&main.dead_at_end());
        }
        main
    }

    fn new(rules: &'a Rules<'a>) -> Main<'a> {
        let modules = rules.graph.modules.len();
        let first_records = first_records(rules.graph);
        let (user_defined, dynamic) = parted(rules.graph);
        Main {
            rules,
            queue: Queue::new(rules),
            starts: Vec::new(),
            started: HashSet::new(),
            user_defined,
            order: sorted(rules.graph, &dynamic),
            begins: Vec::new(),
            live_before: Vec::new(),
            live: vec![false; modules],
            found_dead: vec![false; rules.graph.entries.len()],
            dead: bit_row(first_records[modules]),
            first_records,
        }
    }

    fn start(&mut self, facts: Vec<Fact>) {
        for fact in facts {
            if self.started.insert(fact) {
                self.starts.push(fact);
            }
            self.queue.start(fact);
        }
    }

    fn all_rounds(&mut self) {
        loop {
            let (lines, live) = (self.queue.lines().len(), self.live_modules());
            self.live_before.push(live);
            self.round();
            if !self.goes_on(lines, live) {
                return;
            }
        }
    }

    /// Whether a round follows one that began with so many lines and live modules: if it kept a further module or, with
    /// the option, if anything moved. A bailout that it left is among its lines.
    fn goes_on(&self, lines: usize, live: usize) -> bool {
        let new = &self.queue.lines()[lines..];
        match self.rules.has(option::SETTLE) {
            true => !new.is_empty() || self.live_modules() > live,
            false => new.iter().any(|line| matches!(line.fact, Fact::Module(_))),
        }
    }

    fn live_modules(&self) -> usize {
        self.live.iter().filter(|live| **live).count()
    }

    /// Uses what was gathered in bailouts, then tries the entries of modules that are not live yet.
    fn round(&mut self) {
        let taken = self.begins.last().copied().unwrap_or(0);
        let gathered = self.queue.lines()[taken..].iter().map(|line| line.fact);
        let bailouts: Vec<Fact> = gathered.filter(|fact| matches!(fact, Fact::Bailout(_))).collect();
        self.begins.push(self.queue.lines().len());
        for bailout in bailouts {
            self.start(bailout_exports(self.rules, bailout));
        }
        for place in 0..self.order.entries.len() {
            let index = self.order.entries[place];
            let entry = &self.rules.graph.entries[index as usize];
            if self.live[entry.module as usize] {
                continue;
            }
            if !self.order.on_cycle[entry.module as usize] {
                if let Try::Dead(dead) = search(self.rules, entry, |fact| self.queue.has(fact)) {
                    self.found_dead[index as usize] = true;
                    self.mark_dead(&dead);
                    continue;
                }
            }
            self.live[entry.module as usize] = true;
            self.start(entry_starts(self.rules, entry.module));
        }
    }

    fn mark_dead(&mut self, imports: &[[u32; 2]]) {
        for &[module, record] in imports {
            set(&mut self.dead, self.first_records[module as usize] + record as usize);
        }
    }

    /// The dead imports as of now, after the last round, whatever the tries of the rounds marked: what a try would now
    /// mark of the entries whose modules are not live, but for what entries of live modules import by kept statements.
    fn dead_at_end(&self) -> Vec<[u32; 2]> {
        let is_kept = |fact| self.queue.has(fact);
        let (mut dead, mut exempt) = (Vec::new(), HashSet::new());
        for &index in &self.order.entries {
            let entry = &self.rules.graph.entries[index as usize];
            if self.live[entry.module as usize] {
                exempt.extend(kept_imports(entry, is_kept));
            } else if !self.order.on_cycle[entry.module as usize] {
                if let Try::Dead(imports) = search(self.rules, entry, is_kept) {
                    dead.extend(imports);
                }
            }
        }
        dead.retain(|import| !exempt.contains(import));
        dead
    }
}

/// What a round uses of a module that was bailed out: its exports from CommonJS.
pub(super) fn bailout_exports(rules: &Rules, bailout: Fact) -> Vec<Fact> {
    let Fact::Bailout(module) = bailout else { return Vec::new() };
    let exports = rules.module(module).resolved_exports.iter().filter(|row| row[2] == 1);
    exports.map(|&[_, symbol, _]| Fact::CheckedUse(symbol, reason::NORMAL)).collect()
}

impl Run {
    /// The run of a graph.
    pub fn of(graph: &Graph) -> Run {
        let rules = Rules::new(graph);
        Run::end(Main::of(&rules))
    }

    /// The runtime stage, and the rows of both.
    fn end(main: Main) -> Run {
        let Main { rules, queue, starts, user_defined, order, dead, live, found_dead, begins, live_before, .. } = main;
        let entries = final_entries(rules, &user_defined, &order.entries, &live);
        let helpers = words(rules, |fact| queue.has(fact));
        let runtime_starts = runtime_starts(rules, &helpers, |fact| queue.has(fact));
        let lines = queue.into_lines();
        let mut runtime = Queue::after(rules, &lines);
        for start in runtime_starts {
            runtime.start(start);
        }
        let (first, second) = (Answer::new(rules, lines), Answer::new(rules, runtime.into_lines()));
        Run {
            rounds: begins.len() as u32,
            starts,
            entries,
            all_entries: rules.graph.entries.len(),
            verdicts: rules.verdicts.clone(),
            marks: marks(rules.graph, &first.marks, &second.marks),
            modules: union(&first.modules, &second.modules),
            statements: union(&first.statements, &second.statements),
            used: union(&first.used, &second.used),
            external: union(&first.external, &second.external),
            json: first.json,
            reason: first.reason,
            dead,
            helpers,
            course: Course { order: order.entries, on_cycle: order.on_cycle, live, found_dead, begins, live_before },
            lines: first.lines,
            runtime_lines: second.lines,
        }
    }

    /// By round: how many lines of the main stage it wrote, and how many modules became live in it.
    pub fn moves(&self) -> Vec<[usize; 2]> {
        let Course { begins, live_before, live, .. } = &self.course;
        let mut reached: Vec<[usize; 2]> =
            begins.iter().zip(live_before).map(|(&lines, &live)| [lines, live]).collect();
        reached.push([self.lines.len(), live.iter().filter(|live| **live).count()]);
        reached.windows(2).map(|pair| [pair[1][0] - pair[0][0], pair[1][1] - pair[0][1]]).collect()
    }

    /// The numbers of the record, both stages.
    pub fn record(&self) -> Vec<u32> {
        self.lines.iter().chain(&self.runtime_lines).flat_map(|line| line.numbers()).collect()
    }

    /// Writes the answer into lent rows: 5 if one of them is too short.
    pub fn put(&self, rows: &mut RunRows) -> RunAnswer {
        const TOO_SHORT: RunAnswer = RunAnswer::refused(Refused { number: 5, place: 0 });
        let answers = [
            (&mut *rows.modules, &self.modules),
            (&mut *rows.statements, &self.statements),
            (&mut *rows.used, &self.used),
            (&mut *rows.external, &self.external),
            (&mut *rows.json, &self.json),
            (&mut *rows.reason, &self.reason),
            (&mut *rows.dead, &self.dead),
        ];
        let short = answers.iter().any(|(row, answer)| row.len() < answer.len());
        let short_words = rows.helpers.len() < self.helpers.len() || rows.entries.len() < self.all_entries;
        if short || short_words || rows.marks.len() < self.marks.len() {
            return TOO_SHORT;
        }
        rows.marks.fill(0);
        rows.record.fill(0);
        let record = self.record();
        if rows.record.len() / LINE * LINE < record.len() {
            return TOO_SHORT;
        }
        for (row, answer) in answers {
            row[..answer.len()].copy_from_slice(answer);
        }
        rows.helpers[..self.helpers.len()].copy_from_slice(&self.helpers);
        rows.entries[..self.entries.len()].copy_from_slice(&self.entries);
        rows.marks[..self.marks.len()].copy_from_slice(&self.marks);
        rows.record[..record.len()].copy_from_slice(&record);
        self.answer()
    }

    /// The answer if no row is too short.
    pub fn answer(&self) -> RunAnswer {
        RunAnswer {
            number: 0,
            place: 0,
            rounds: u64::from(self.rounds),
            lines: self.lines.len() as u64,
            runtime_lines: self.runtime_lines.len() as u64,
            entries: self.entries.len() as u64,
        }
    }

    /// What the program `keep` prints for the graph, line by line.
    pub fn listing(&self, graph: &Graph) -> String {
        let listed = Listed {
            rounds: u64::from(self.rounds),
            entries: &self.entries,
            verdicts: &self.verdicts,
            modules: &self.modules,
            statements: &self.statements,
            used: &self.used,
            external: &self.external,
            json: &self.json,
            reason: &self.reason,
            dead: &self.dead,
            helpers: &self.helpers,
        };
        listed.text(graph)
    }
}

fn union(first: &[u8], second: &[u8]) -> Vec<u8> {
    first.iter().zip(second).map(|(first, second)| first | second).collect()
}

/// Modules and statements of both stages, all other facts of the second alone.
fn marks(graph: &Graph, first: &[u8], second: &[u8]) -> Vec<u8> {
    let layout = MarkLayout::new(graph);
    let mut marks = second.to_vec();
    for bit in layout.modules().chain(layout.statements()) {
        if is_set(first, bit) {
            set(&mut marks, bit);
        }
    }
    marks
}

/// The whole operation: as check, then 5 for a row that is too short.
pub fn run(numbers: &[u32], rows: &mut RunRows) -> RunAnswer {
    match answer(numbers) {
        Ok(run) => run.put(rows),
        Err(refused) => RunAnswer::refused(refused),
    }
}

/// What a run answers if all rows are long enough, or the refusal of the graph.
pub fn answer(numbers: &[u32]) -> Result<Run, Refused> {
    check(numbers)?;
    Ok(Run::of(&decode(numbers)))
}

/// What the program `keep` prints for numbers that were read: a listing, or the refusal. Its record has 1,024 lines.
pub fn listing(numbers: &[u32]) -> String {
    const RECORD_LINES: usize = 1_024;
    let answer = answer(numbers).and_then(|run| match run.lines.len() + run.runtime_lines.len() {
        0..=RECORD_LINES => Ok(run),
        _ => Err(Refused { number: 5, place: 0 }),
    });
    match answer {
        Ok(run) => run.listing(&decode(numbers)),
        Err(refused) => format!("refused {}\n", refused.number),
    }
}

/// What the program `keep` prints for a file.
pub fn keep(file: &[u8]) -> String {
    const LONGEST: usize = 8_192;
    if file.len() > LONGEST {
        return "refused 2\n".to_string();
    }
    let mut numbers = [0; LONGEST];
    match read(file, &mut numbers).result() {
        Ok(count) => listing(&numbers[..count]),
        Err(refused) => format!("refused {}\n", refused.number),
    }
}
