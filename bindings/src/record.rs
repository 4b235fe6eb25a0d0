//! The keep record: a line for each fact, with the rule and the earlier lines that it follows from.

use crate::boundary;
use crate::fact::{Fact, Rule};
use crate::leb128;
use crate::refused::Refused;
use alloc::vec;
use alloc::vec::Vec;
use core::fmt;

/// How many numbers a line has.
pub(crate) const LINE: usize = 6;

/// A line of a record.
///
/// ```
/// use lizdakk::{Fact, Line, ModuleId, Rule};
///
/// let line = Line { fact: Fact::Module(ModuleId::new(2)), rule: Rule::Dependency, because: [Some(4), None] };
/// assert_eq!(line.numbers(), [1, 2, 0, 3, 5, 0]);
/// assert_eq!(line.to_string(), "module 2 is kept by K3 from line 4");
/// ```
#[derive(Clone, Copy, Debug, PartialEq, Eq, Hash)]
pub struct Line {
    /// What is decided.
    pub fact: Fact,
    /// How it follows.
    pub rule: Rule,
    /// The earlier lines that it follows from, counted from 0: none for a start, two for K1, otherwise the first alone.
    /// In the runtime stage a module that the main stage kept is not named.
    pub because: [Option<u32>; 2],
}

impl Line {
    /// Its six numbers: the fact's, the rule, and for each named line 1 more than its number.
    ///
    /// ```
    /// # use lizdakk::{Fact, Line, ModuleId, Rule};
    /// let line = Line { fact: Fact::Module(ModuleId::new(1)), rule: Rule::Start, because: [None, None] };
    /// assert_eq!(line.numbers(), [1, 1, 0, 0, 0, 0]);
    /// ```
    pub fn numbers(&self) -> [u32; LINE] {
        let [kind, first, second] = self.fact.numbers();
        let [one, other] = self.because.map(|line| line.map_or(0, |line| line.saturating_add(1)));
        [kind, first, second, self.rule.number(), one, other]
    }

    /// The line of six numbers; none if the fact or the rule is none.
    ///
    /// ```
    /// use lizdakk::{Line, Rule};
    ///
    /// assert_eq!(Line::of([1, 2, 0, 3, 5, 0]).map(|line| line.rule), Some(Rule::Dependency));
    /// assert_eq!(Line::of([9, 2, 0, 3, 5, 0]), None);
    /// ```
    pub fn of([kind, first, second, rule, one, other]: [u32; LINE]) -> Option<Line> {
        let fact = Fact::of([kind, first, second])?;
        Some(Line { fact, rule: Rule::of(rule)?, because: [one.checked_sub(1), other.checked_sub(1)] })
    }
}

impl fmt::Display for Line {
    fn fmt(&self, f: &mut fmt::Formatter) -> fmt::Result {
        write!(f, "{} by {}", self.fact, self.rule)?;
        match self.because {
            [None, None] => Ok(()),
            [Some(line), None] | [None, Some(line)] => write!(f, " from line {line}"),
            [Some(one), Some(other)] => write!(f, " from lines {one} and {other}"),
        }
    }
}

/// A keep record, whoever wrote it: six numbers a line. [`judge`](crate::judge) says whether it stands.
///
/// ```
/// use lizdakk::Record;
///
/// let record = Record::from_numbers(vec![1, 1, 0, 0, 0, 0]);
/// assert_eq!(record.lines().count(), 1);
/// assert_eq!(Record::read(&record.write())?, record);
/// # Ok::<(), lizdakk::Refused>(())
/// ```
#[derive(Clone, Debug, Default, PartialEq, Eq, Hash)]
pub struct Record {
    numbers: Vec<u32>,
}

impl Record {
    /// The record of these numbers.
    ///
    /// ```
    /// assert_eq!(lizdakk::Record::from_numbers(vec![]).lines().count(), 0);
    /// ```
    pub fn from_numbers(numbers: Vec<u32>) -> Record {
        Record { numbers }
    }

    /// The record of these lines.
    ///
    /// ```
    /// use lizdakk::{Fact, Line, ModuleId, Record, Rule};
    ///
    /// let line = Line { fact: Fact::Module(ModuleId::new(1)), rule: Rule::Start, because: [None, None] };
    /// assert_eq!(Record::from_lines(&[line]).numbers(), [1, 1, 0, 0, 0, 0]);
    /// ```
    pub fn from_lines(lines: &[Line]) -> Record {
        Record { numbers: lines.iter().flat_map(Line::numbers).collect() }
    }

    /// Its numbers.
    ///
    /// ```
    /// assert!(lizdakk::Record::default().numbers().is_empty());
    /// ```
    pub fn numbers(&self) -> &[u32] {
        &self.numbers
    }

    /// Its lines in order: `Err` with the six numbers where they are no line. Numbers behind the last six are left out.
    ///
    /// ```
    /// use lizdakk::Record;
    ///
    /// let record = Record::from_numbers(vec![1, 1, 0, 0, 0, 0, 9, 9, 9, 9, 9, 9]);
    /// let lines: Vec<_> = record.lines().collect();
    /// assert!(lines[0].is_ok());
    /// assert_eq!(lines[1], Err([9, 9, 9, 9, 9, 9]));
    /// ```
    pub fn lines(&self) -> impl Iterator<Item = Result<Line, [u32; 6]>> + '_ {
        self.numbers.chunks_exact(LINE).map(|numbers| {
            let numbers: [u32; LINE] = numbers.try_into().expect("a chunk has six numbers");
            Line::of(numbers).ok_or(numbers)
        })
    }

    /// Reads a record from a file: its numbers in unsigned LEB128, as those of a graph file.
    ///
    /// ```
    /// use lizdakk::{Record, Refused};
    ///
    /// assert_eq!(Record::read(&[]), Ok(Record::default()));
    /// assert_eq!(Record::read(&[0x00, 0x80]), Err(Refused::FaultyNumber { byte: 1 }));
    /// ```
    pub fn read(file: &[u8]) -> Result<Record, Refused> {
        read_numbers(file).map(Record::from_numbers)
    }

    /// The file that [`read`](Record::read) takes.
    ///
    /// ```
    /// let record = lizdakk::Record::from_numbers(vec![1, 128, 0, 0, 0, 0]);
    /// assert_eq!(record.write(), [1, 0x80, 1, 0, 0, 0, 0]);
    /// ```
    pub fn write(&self) -> Vec<u8> {
        leb128::write(&self.numbers)
    }
}

/// The numbers of a file, by the engine.
pub(crate) fn read_numbers(file: &[u8]) -> Result<Vec<u32>, Refused> {
    let mut numbers = vec![0; file.len()];
    let answer = boundary::read(file, &mut numbers);
    match answer.number {
        0 => {
            numbers.truncate(answer.count as usize);
            Ok(numbers)
        }
        1 => Err(Refused::FaultyNumber { byte: answer.place }),
        _ => Err(Refused::TooShort),
    }
}
