//! The rows of a run: how long each has to be, and rows of that length.

use crate::boundary::{self, RunRows};
use crate::layout::MODULE_LISTS;
use crate::record::LINE;
use alloc::vec;
use alloc::vec::Vec;

/// How many numbers a start has.
pub(crate) const START: usize = 3;

/// What the lengths of rows follow from.
#[derive(Clone, Debug)]
pub(crate) struct Counts {
    symbols: usize,
    statements: usize,
    entries: usize,
    /// By module, then the length of the row of statements.
    pub(crate) first_statement_bytes: Vec<usize>,
    /// By module, then how many import records there are.
    pub(crate) first_records: Vec<usize>,
}

/// The sums of all in front, and last the sum of all.
fn sums(counts: impl Iterator<Item = usize>) -> Vec<usize> {
    let mut sum = 0;
    let mut sums = vec![0];
    sums.extend(counts.map(|count| {
        sum += count;
        sum
    }));
    sums
}

impl Counts {
    /// The counts of a graph's numbers; none if they end too soon.
    pub(crate) fn of(numbers: &[u32]) -> Option<Counts> {
        let at = |place: usize| numbers.get(place).map(|&number| number as usize);
        let (mut statements, mut records) = (Vec::new(), Vec::new());
        let mut place = 7 + at(6)?;
        for _ in 0..at(2)? {
            statements.push(at(place + 9)?);
            records.push(at(place + 12)?);
            place += 12;
            for (_, columns) in MODULE_LISTS {
                place += 1 + columns.len() * at(place)?;
            }
        }
        Some(Counts {
            symbols: at(3)?,
            statements: statements.iter().sum(),
            entries: at(5)?,
            first_statement_bytes: sums(statements.iter().map(|count| count.div_ceil(8))),
            first_records: sums(records.into_iter()),
        })
    }

    fn modules(&self) -> usize {
        self.first_records.len() - 1
    }

    /// How many facts have a mark.
    fn marks(&self) -> usize {
        2 * self.modules() + self.statements + 63 * self.symbols
    }

    /// So many record lines are enough for a run. A module or a statement has one line in both stages together. In each
    /// stage a module has at most one bailout and a symbol one forward. Uses and checked uses of a symbol have the reasons
    /// 1, 4, 9 and 12 in a run, and 2 in the main stage alone: five each there, and four each behind it. Not proved.
    fn usual_lines(&self) -> usize {
        3 * self.modules() + self.statements + 20 * self.symbols
    }

    /// So many starts are enough for a run: modules, bailouts, statements, and checked uses with the reasons 1 and 2.
    fn most_starts(&self) -> usize {
        2 * self.modules() + self.statements + 2 * self.symbols
    }
}

/// How long the rows of an accepted graph have to be, in their elements: for callers of the functions over slices
/// ([`boundary`](crate::boundary)).
///
/// ```
/// use lizdakk::boundary::{check, Lengths};
///
/// let numbers = lizdakk::Graph::new().numbers();
/// assert_eq!(check(&numbers).number, 0);
/// let lengths = Lengths::of(&numbers).expect("the numbers are a graph");
/// assert_eq!((lengths.marks, lengths.modules, lengths.helpers), (9, 1, 1));
/// ```
#[derive(Clone, Copy, Debug, PartialEq, Eq)]
#[non_exhaustive]
pub struct Lengths {
    /// The row `marks`.
    pub marks: usize,
    /// A record that is proved to be enough for a drain: a line for each mark.
    pub drain_record: usize,
    /// A record that was enough for every run that was tried. Twice `drain_record` is proved to be enough. The starts of a
    /// run need room for the lines of its main stage alone.
    pub run_record: usize,
    /// The row `modules`.
    pub modules: usize,
    /// The row `statements`.
    pub statements: usize,
    /// Each of the rows `used`, `external` and `json`.
    pub symbols: usize,
    /// The row `reason`.
    pub reason: usize,
    /// The row `dead`.
    pub dead: usize,
    /// The row `helpers`.
    pub helpers: usize,
    /// The row `entries`.
    pub entries: usize,
    /// The row of verdicts.
    pub verdicts: usize,
    /// A row of starts that was enough for every run that was tried: three numbers for each module, bailout and statement,
    /// and for two checked uses of each symbol.
    pub starts: usize,
}

impl Lengths {
    /// The lengths for the numbers of a graph that [`check`](crate::boundary::check) has passed. For other numbers none, or
    /// lengths that say nothing.
    ///
    /// ```
    /// assert!(lizdakk::boundary::Lengths::of(&[1, 2, 3]).is_none());
    /// ```
    pub fn of(numbers: &[u32]) -> Option<Lengths> {
        Counts::of(numbers).map(|counts| counts.lengths())
    }
}

impl Counts {
    pub(crate) fn lengths(&self) -> Lengths {
        let modules = self.modules();
        Lengths {
            marks: self.marks().div_ceil(8),
            drain_record: LINE * self.marks(),
            run_record: LINE * self.usual_lines(),
            modules: modules.div_ceil(8),
            statements: self.first_statement_bytes[modules],
            symbols: self.symbols.div_ceil(8),
            reason: modules,
            dead: self.first_records[modules].div_ceil(8),
            helpers: modules,
            entries: self.entries,
            verdicts: modules,
            starts: START * self.most_starts(),
        }
    }
}

/// Whether a bit of a row is set; bits behind the row are not.
pub(crate) fn is_set(row: &[u8], bit: usize) -> bool {
    row.get(bit / 8).is_some_and(|byte| byte >> (bit % 8) & 1 == 1)
}

/// The rows of a run, each as long as it has to be, all zero at first.
#[derive(Clone, Debug)]
pub(crate) struct Rows {
    pub(crate) marks: Vec<u8>,
    pub(crate) record: Vec<u32>,
    pub(crate) modules: Vec<u8>,
    pub(crate) statements: Vec<u8>,
    pub(crate) used: Vec<u8>,
    pub(crate) external: Vec<u8>,
    pub(crate) json: Vec<u8>,
    pub(crate) reason: Vec<u8>,
    pub(crate) dead: Vec<u8>,
    pub(crate) helpers: Vec<u32>,
    pub(crate) entries: Vec<u32>,
}

impl Rows {
    /// Rows for a graph, with a record of so many numbers.
    pub(crate) fn new(lengths: &Lengths, record: usize) -> Rows {
        Rows {
            marks: vec![0; lengths.marks],
            record: vec![0; record],
            modules: vec![0; lengths.modules],
            statements: vec![0; lengths.statements],
            used: vec![0; lengths.symbols],
            external: vec![0; lengths.symbols],
            json: vec![0; lengths.symbols],
            reason: vec![0; lengths.reason],
            dead: vec![0; lengths.dead],
            helpers: vec![0; lengths.helpers],
            entries: vec![0; lengths.entries],
        }
    }

    /// The rows that a drain takes.
    pub(crate) fn lent_to_drain(&mut self) -> boundary::Rows<'_> {
        boundary::Rows {
            marks: &mut self.marks,
            record: &mut self.record,
            modules: &mut self.modules,
            statements: &mut self.statements,
            used: &mut self.used,
            external: &mut self.external,
            json: &mut self.json,
            reason: &mut self.reason,
        }
    }

    pub(crate) fn lent(&mut self) -> RunRows<'_> {
        RunRows {
            marks: &mut self.marks,
            record: &mut self.record,
            modules: &mut self.modules,
            statements: &mut self.statements,
            used: &mut self.used,
            external: &mut self.external,
            json: &mut self.json,
            reason: &mut self.reason,
            dead: &mut self.dead,
            helpers: &mut self.helpers,
            entries: &mut self.entries,
        }
    }
}
