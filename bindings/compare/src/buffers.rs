//! Rows for a run, for its starts and for a drain that are made from the graph, so that no caller counts bits.

use crate::library::{check, drain, effects, run, starts};
use peer::listing::{first_records, first_statement_bytes, is_set, Listed};
use peer::model::Graph;
use peer::reference::decode::decode;
use peer::reference::drain::LINE;
use peer::reference::run::Run;
use peer::{DrainAnswer, ReadAnswer, Refused, Rows, RunAnswer, RunRows};

/// How many numbers a start has.
const START: usize = 3;

/// A run of a graph, with the rows that the library wrote.
#[derive(Clone, Debug)]
pub struct RunBuffers<'a> {
    numbers: &'a [u32],
    graph: Graph,
    counts: Counts,
    answer: RunAnswer,
    marks: Vec<u8>,
    record: Vec<u32>,
    modules: Vec<u8>,
    statements: Vec<u8>,
    used: Vec<u8>,
    external: Vec<u8>,
    json: Vec<u8>,
    reason: Vec<u8>,
    dead: Vec<u8>,
    helpers: Vec<u32>,
    entries: Vec<u32>,
}

impl<'a> RunBuffers<'a> {
    /// Makes rows for a graph and runs. The only refusals are those of [`check`].
    pub fn for_graph(numbers: &'a [u32]) -> Result<RunBuffers<'a>, Refused> {
        let mut buffers = RunBuffers::new(numbers)?;
        buffers.answer = run(numbers, &mut buffers.rows()).result()?;
        Ok(buffers)
    }

    /// The same rows as the reference fills them, to compare with.
    pub fn of_reference(numbers: &'a [u32], run: &Run) -> Result<RunBuffers<'a>, Refused> {
        let mut buffers = RunBuffers::new(numbers)?;
        buffers.answer = run.put(&mut buffers.rows()).result()?;
        Ok(buffers)
    }

    /// Runs again into the same rows, with a record that is just as long as it has to be: for measurements.
    pub fn again(&mut self) -> RunAnswer {
        let lines = self.answer.lines + self.answer.runtime_lines;
        self.record.truncate(LINE * lines as usize);
        self.answer = run(self.numbers, &mut self.rows());
        self.answer
    }

    /// Rows of the lengths that the graph needs, all zero.
    fn new(numbers: &'a [u32]) -> Result<RunBuffers<'a>, Refused> {
        check(numbers).result()?;
        let graph = decode(numbers);
        let counts = Counts::of(&graph);
        let (modules, symbols) = (counts.modules(), counts.symbols);
        let bytes = |bits: usize| vec![0; bits.div_ceil(8)];
        Ok(RunBuffers {
            numbers,
            graph,
            answer: RunAnswer { number: 0, place: 0, rounds: 0, lines: 0, runtime_lines: 0, entries: 0 },
            marks: bytes(counts.marks()),
            record: vec![0; LINE * counts.most_lines()],
            modules: bytes(modules),
            statements: vec![0; counts.first_statement_bytes[modules]],
            used: bytes(symbols),
            external: bytes(symbols),
            json: bytes(symbols),
            reason: vec![0; modules],
            dead: bytes(counts.first_records[modules]),
            helpers: vec![0; modules],
            entries: vec![0; counts.entries],
            counts,
        })
    }

    fn rows(&mut self) -> RunRows<'_> {
        RunRows {
            marks: &mut self.marks,
            record: &mut self.record,
            modules: &mut self.modules,
            statements: &mut self.statements,
            used: &mut self.used,
            external: &mut self.external,
            json: &mut self.json,
            reason: &mut self.reason,
            dead: &mut self.dead,
            helpers: &mut self.helpers,
            entries: &mut self.entries,
        }
    }

    /// How many rounds were made.
    pub fn rounds(&self) -> u64 {
        self.answer.rounds
    }

    /// How many statements each module has.
    pub fn statement_counts(&self) -> impl Iterator<Item = usize> + '_ {
        self.counts.statements.iter().copied()
    }

    /// Whether a module is kept.
    pub fn kept(&self, module: usize) -> bool {
        assert!(module < self.counts.modules(), "module {module}");
        is_set(&self.modules, module)
    }

    /// Whether a statement of a module is kept.
    pub fn statement(&self, module: usize, statement: usize) -> bool {
        assert!(statement < self.counts.statements[module], "statement {statement} of module {module}");
        is_set(&self.statements[self.counts.first_statement_bytes[module]..], statement)
    }

    /// Whether a symbol is used.
    pub fn used(&self, symbol: usize) -> bool {
        self.symbol(&self.used, symbol)
    }

    /// Whether a symbol is of an external module and used.
    pub fn external(&self, symbol: usize) -> bool {
        self.symbol(&self.external, symbol)
    }

    /// Whether a symbol is of a Json module and used from elsewhere, before the runtime stage.
    pub fn json(&self, symbol: usize) -> bool {
        self.symbol(&self.json, symbol)
    }

    fn symbol(&self, row: &[u8], symbol: usize) -> bool {
        assert!(symbol < self.counts.symbols, "symbol {symbol}");
        is_set(row, symbol)
    }

    /// Why a module's namespace is kept, before the runtime stage: 0 not, 1 Unknown, 2 ReExportDynamicExports, 3 both.
    pub fn reason(&self, module: usize) -> u8 {
        self.reason[module]
    }

    /// Whether an import record of a module is a dynamic import that is dead.
    pub fn dead(&self, module: usize, record: usize) -> bool {
        let records = &self.counts.first_records[module..module + 2];
        assert!(record < records[1] - records[0], "record {record} of module {module}");
        is_set(&self.dead, records[0] + record)
    }

    /// Bit h for each runtime helper h that a module needs.
    pub fn helpers(&self, module: usize) -> u32 {
        self.helpers[module]
    }

    /// The final entries, by graph index.
    pub fn entries(&self) -> &[u32] {
        &self.entries[..self.answer.entries as usize]
    }

    /// The record lines of the main stage: kind and parts of the fact, rule, two earlier lines plus 1.
    pub fn lines(&self) -> impl Iterator<Item = [u32; LINE]> + '_ {
        self.all_lines().take(self.answer.lines as usize)
    }

    /// The record lines of the runtime stage; their numbers go on from the main stage's.
    pub fn runtime_lines(&self) -> impl Iterator<Item = [u32; LINE]> + '_ {
        self.all_lines().skip(self.answer.lines as usize).take(self.answer.runtime_lines as usize)
    }

    /// The marks, as the run left them.
    pub fn marks(&self) -> &[u8] {
        &self.marks
    }

    /// The numbers of both stages' lines, and zeros behind them.
    pub fn record(&self) -> &[u32] {
        &self.record
    }

    /// The numbers of the main stage's lines, as a judge takes them.
    pub fn main_record(&self) -> &[u32] {
        &self.record[..LINE * self.answer.lines as usize]
    }

    /// The names of what two runs answered differently, over graphs that need rows of the same lengths.
    pub fn differences(&self, other: &RunBuffers) -> Vec<&'static str> {
        let mut differ = Vec::new();
        let mut compare = |name, same: bool| (!same).then(|| differ.push(name));
        compare("answer", self.answer == other.answer);
        compare("marks", self.marks == other.marks);
        compare("record", self.record == other.record);
        compare("modules", self.modules == other.modules);
        compare("statements", self.statements == other.statements);
        compare("used", self.used == other.used);
        compare("external", self.external == other.external);
        compare("json", self.json == other.json);
        compare("reason", self.reason == other.reason);
        compare("dead", self.dead == other.dead);
        compare("helpers", self.helpers == other.helpers);
        compare("entries", self.entries == other.entries);
        differ
    }

    fn all_lines(&self) -> impl Iterator<Item = [u32; LINE]> + '_ {
        self.record.chunks_exact(LINE).map(|line| line.try_into().expect("a line has six numbers"))
    }

    /// What the program `keep` prints for the graph, if its record is long enough there.
    pub fn listing(&self) -> String {
        let mut verdicts = vec![0; self.counts.modules()];
        effects(self.numbers, &mut verdicts).result().expect("the graph was accepted");
        let listed = Listed {
            rounds: self.rounds(),
            entries: self.entries(),
            verdicts: &verdicts,
            modules: &self.modules,
            statements: &self.statements,
            used: &self.used,
            external: &self.external,
            json: &self.json,
            reason: &self.reason,
            dead: &self.dead,
            helpers: &self.helpers,
        };
        listed.text(&self.graph)
    }
}

/// The starts that the run of a graph has of itself, as triples. The only refusals are those of [`check`].
pub fn own_starts(numbers: &[u32]) -> Result<Vec<u32>, Refused> {
    Ok(StartsBuffers::for_graph(numbers)?.starts)
}

/// The starts of a graph's run, with the rows that the library wrote.
#[derive(Clone, Debug)]
pub struct StartsBuffers<'a> {
    numbers: &'a [u32],
    marks: Vec<u8>,
    record: Vec<u32>,
    starts: Vec<u32>,
}

impl<'a> StartsBuffers<'a> {
    /// Makes rows for a graph and writes its run's starts. The only refusals are those of [`check`].
    pub fn for_graph(numbers: &'a [u32]) -> Result<StartsBuffers<'a>, Refused> {
        check(numbers).result()?;
        let counts = Counts::of(&decode(numbers));
        let (marks, record) = (vec![0; counts.marks().div_ceil(8)], vec![0; LINE * counts.most_lines()]);
        let mut buffers = StartsBuffers { numbers, marks, record, starts: vec![0; START * counts.most_starts()] };
        let count = buffers.again().result()?;
        buffers.starts.truncate(count);
        // Every kind of a fact is above 0, and behind the lines the record is 0.
        let lines = buffers.record.chunks_exact(LINE).take_while(|line| line[0] != 0).count();
        buffers.record.truncate(LINE * lines);
        Ok(buffers)
    }

    /// Writes them again into the same rows, which are just as long as they have to be: for measurements.
    pub fn again(&mut self) -> ReadAnswer {
        starts(self.numbers, &mut self.marks, &mut self.record, &mut self.starts)
    }
}

/// A drain of a graph, with the rows that the library wrote.
#[derive(Clone, Debug)]
pub struct DrainBuffers<'a> {
    numbers: &'a [u32],
    starts: &'a [u32],
    record: Vec<u32>,
    marks: Vec<u8>,
    modules: Vec<u8>,
    statements: Vec<u8>,
    /// Used, external, json.
    symbols: [Vec<u8>; 3],
    reason: Vec<u8>,
}

impl<'a> DrainBuffers<'a> {
    /// Makes rows for a graph and drains. The only refusals are those of [`check`] and those of the starts.
    pub fn for_graph(numbers: &'a [u32], starts: &'a [u32]) -> Result<DrainBuffers<'a>, Refused> {
        check(numbers).result()?;
        let counts = Counts::of(&decode(numbers));
        let bytes = |bits: usize| vec![0; bits.div_ceil(8)];
        let mut buffers = DrainBuffers {
            numbers,
            starts,
            record: vec![0; LINE * counts.marks()],
            marks: bytes(counts.marks()),
            modules: bytes(counts.modules()),
            statements: vec![0; counts.first_statement_bytes[counts.modules()]],
            symbols: [(); 3].map(|()| bytes(counts.symbols)),
            reason: vec![0; counts.modules()],
        };
        let lines = buffers.again().result()?;
        buffers.record.truncate(LINE * lines);
        Ok(buffers)
    }

    /// Drains again into the same rows, with a record that is just as long as it has to be: for measurements.
    pub fn again(&mut self) -> DrainAnswer {
        let [used, external, json] = &mut self.symbols;
        let rows = &mut Rows {
            marks: &mut self.marks,
            record: &mut self.record,
            modules: &mut self.modules,
            statements: &mut self.statements,
            used,
            external,
            json,
            reason: &mut self.reason,
        };
        drain(self.numbers, self.starts, rows)
    }
}

/// What lengths follow from.
#[derive(Clone, Debug)]
struct Counts {
    symbols: usize,
    entries: usize,
    /// By module.
    statements: Vec<usize>,
    /// By module, then the length of the row.
    first_statement_bytes: Vec<usize>,
    /// By module, then how many records there are.
    first_records: Vec<usize>,
}

impl Counts {
    fn of(graph: &Graph) -> Counts {
        Counts {
            symbols: graph.symbols.len(),
            entries: graph.entries.len(),
            statements: graph.modules.iter().map(|module| module.statements.len()).collect(),
            first_statement_bytes: first_statement_bytes(graph),
            first_records: first_records(graph),
        }
    }

    fn modules(&self) -> usize {
        self.statements.len()
    }

    fn all_statements(&self) -> usize {
        self.statements.iter().sum()
    }

    /// How many facts have a mark.
    fn marks(&self) -> usize {
        2 * self.modules() + self.all_statements() + 63 * self.symbols
    }

    /// So many starts are always enough for a run: it starts modules, bailouts, statements, and checked uses with the
    /// reasons 1 and 2.
    fn most_starts(&self) -> usize {
        2 * self.modules() + self.all_statements() + 2 * self.symbols
    }

    /// So many record lines are always enough for a run. A module or a statement has one line in both stages together.
    /// In each stage a module has at most one bailout and a symbol one forward. Uses and checked uses of a symbol have
    /// the reasons 1, 4, 9 and 12 in a run, and 2 in the main stage alone: five each there, and four each behind it.
    fn most_lines(&self) -> usize {
        3 * self.modules() + self.all_statements() + 20 * self.symbols
    }
}
