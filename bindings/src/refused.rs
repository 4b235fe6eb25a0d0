//! Why the engine refused, in the words of the builder.

use crate::boundary::Refusal;
use crate::graph::{Graph, Part};
use crate::layout;
use crate::record::{Line, Record};
use alloc::string::{String, ToString};
use core::fmt;

/// A field of a graph.
///
/// ```
/// use lizdakk::{Graph, Part, Refused};
///
/// let mut graph = Graph::new();
/// let main = graph.module("main.js");
/// graph[main].namespace = None;
/// let Err(Refused::OutOfRange { field, .. }) = lizdakk::decide(&graph) else { panic!("a namespace is asked for") };
/// assert_eq!((field.part(), field.path()), (Part::Module(main), "namespace"));
/// ```
#[derive(Clone, Debug, PartialEq, Eq, Hash)]
pub struct Field {
    part: Part,
    told: String,
    path: String,
    wants: &'static str,
}

impl Field {
    /// The module, symbol, statement or entry that has the field, or the graph as a whole ([`Part::Header`]).
    ///
    /// ```
    /// # use lizdakk::{Graph, Part, Refused};
    /// # let mut graph = Graph::new();
    /// # let main = graph.module("main.js");
    /// # graph[main].namespace = None;
    /// # let Err(Refused::OutOfRange { field, .. }) = lizdakk::decide(&graph) else { panic!() };
    /// assert_eq!(field.part(), Part::Module(main));
    /// ```
    pub fn part(&self) -> Part {
        self.part
    }

    /// The field's name, with the index in its list: `resolved_exports[1].name`.
    ///
    /// ```
    /// # use lizdakk::{Graph, Refused};
    /// # let mut graph = Graph::new();
    /// # let main = graph.module("main.js");
    /// # graph[main].namespace = None;
    /// # let Err(Refused::OutOfRange { field, .. }) = lizdakk::decide(&graph) else { panic!() };
    /// assert_eq!(field.path(), "namespace");
    /// ```
    pub fn path(&self) -> &str {
        &self.path
    }

    /// What the field has to be.
    ///
    /// ```
    /// # use lizdakk::{Graph, Refused};
    /// # let mut graph = Graph::new();
    /// # let main = graph.module("main.js");
    /// # graph[main].namespace = None;
    /// # let Err(Refused::OutOfRange { field, .. }) = lizdakk::decide(&graph) else { panic!() };
    /// assert_eq!(field.wants(), "a symbol that a normal module owns itself; none for an external one");
    /// ```
    pub fn wants(&self) -> &str {
        self.wants
    }
}

impl fmt::Display for Field {
    fn fmt(&self, f: &mut fmt::Formatter) -> fmt::Result {
        write!(f, "{}: `{}`", self.told, self.path)
    }
}

/// Why the engine refused. Each case has the number and the place that the C boundary gives.
///
/// ```
/// use lizdakk::{EntryId, Graph, ModuleId};
///
/// let mut graph = Graph::new();
/// let entry = graph.entry(ModuleId::new(7));
/// let refused = lizdakk::decide(&graph).unwrap_err();
/// assert_eq!((refused.number(), refused.place()), (3, 41));
/// assert_eq!(
///     refused.to_string(),
///     "refused 3 at number 41: entry 0, module 7: `module` has to be a module of the graph"
/// );
/// ```
#[derive(Clone, Debug, PartialEq, Eq, Hash)]
#[non_exhaustive]
pub enum Refused {
    /// 1: a number of a file is not one. It is over five bytes, 2^32 or more, not in its shortest form, or
    /// cut off by the end of the file.
    FaultyNumber {
        /// Where it begins.
        byte: u64,
    },
    /// 2: a count is over its limit.
    OverLimit {
        /// Which number of the graph.
        number: u64,
        /// Which field that is.
        field: Field,
    },
    /// 3: a value or an index is outside its kind, or against a rule.
    OutOfRange {
        /// Which number of the graph.
        number: u64,
        /// Which field that is.
        field: Field,
    },
    /// 3: a start is not a fact of the graph, or is one that cannot be a start.
    BadStart {
        /// Which start, counted from 0.
        start: usize,
        /// Which number of the starts, three for each.
        number: u64,
    },
    /// 4: a number is missing.
    Missing {
        /// Which number of the graph.
        number: u64,
        /// Which field that would be.
        field: Field,
    },
    /// 4: numbers are left over behind the graph.
    LeftOver {
        /// The first of them.
        number: u64,
    },
    /// 4: a record's numbers do not come in sixes.
    RecordLength {
        /// How many there are.
        length: u64,
    },
    /// 5: a row was too short. The rows that this crate makes are long enough.
    TooShort,
    /// 6: a line of a record is out of form, repeats a fact, or does not follow from the lines that it names.
    BadLine {
        /// Which line, counted from 0.
        line: u64,
        /// What stands there; none if the numbers have no fact or no rule.
        found: Option<Line>,
    },
    /// 6: the lines stand, but a start or a consequence is absent.
    Absent {
        /// How many lines there are.
        lines: u64,
    },
}

impl Refused {
    /// The number of the refusal, 1 to 6.
    ///
    /// ```
    /// assert_eq!(lizdakk::Refused::LeftOver { number: 12 }.number(), 4);
    /// ```
    pub fn number(&self) -> u32 {
        match self {
            Refused::FaultyNumber { .. } => 1,
            Refused::OverLimit { .. } => 2,
            Refused::OutOfRange { .. } | Refused::BadStart { .. } => 3,
            Refused::Missing { .. } | Refused::LeftOver { .. } | Refused::RecordLength { .. } => 4,
            Refused::TooShort => 5,
            Refused::BadLine { .. } | Refused::Absent { .. } => 6,
        }
    }

    /// Its place: a byte for 1, a line for 6, 0 for 5, otherwise a number of graph, starts or record.
    ///
    /// ```
    /// assert_eq!(lizdakk::Refused::LeftOver { number: 12 }.place(), 12);
    /// ```
    pub fn place(&self) -> u64 {
        match *self {
            Refused::FaultyNumber { byte } => byte,
            Refused::OverLimit { number, .. } | Refused::OutOfRange { number, .. } => number,
            Refused::BadStart { number, .. } | Refused::Missing { number, .. } | Refused::LeftOver { number } => number,
            Refused::RecordLength { length } => length,
            Refused::TooShort => 0,
            Refused::BadLine { line, .. } => line,
            Refused::Absent { lines } => lines,
        }
    }

    /// The refusal of a check of these numbers. The graph, if there is one, gives the labels.
    pub(crate) fn of_check(refusal: Refusal, numbers: &[u32], graph: Option<&Graph>) -> Refused {
        let number = refusal.place;
        let Some(found) = layout::field_at(numbers, number as usize) else { return Refused::LeftOver { number } };
        let unlabelled = Graph::empty(Default::default(), crate::ModuleId::new(0), Default::default());
        let told = graph.unwrap_or(&unlabelled).tell(found.part).to_string();
        let field = Field { part: found.part, told, path: found.path, wants: found.wants };
        match refusal.number {
            2 => Refused::OverLimit { number, field },
            3 => Refused::OutOfRange { number, field },
            _ => Refused::Missing { number, field },
        }
    }

    /// The refusal of a start, at a number of the starts.
    pub(crate) fn bad_start(number: u64) -> Refused {
        Refused::BadStart { start: (number / 3) as usize, number }
    }

    /// The refusal of starts or of a record beside an accepted graph.
    pub(crate) fn of_judge(refusal: Refusal, record: &Record) -> Refused {
        let place = refusal.place;
        match (refusal.number, record.lines().nth(place as usize)) {
            (3, _) => Refused::bad_start(place),
            (4, _) => Refused::RecordLength { length: place },
            (6, Some(line)) => Refused::BadLine { line: place, found: line.ok() },
            (6, None) => Refused::Absent { lines: place },
            _ => Refused::TooShort,
        }
    }
}

impl fmt::Display for Refused {
    fn fmt(&self, f: &mut fmt::Formatter) -> fmt::Result {
        write!(f, "refused {}", self.number())?;
        match self {
            Refused::FaultyNumber { byte } => {
                write!(f, " at byte {byte}: not a number in shortest LEB128 below 2^32, or cut off")
            }
            Refused::OverLimit { number, field } | Refused::OutOfRange { number, field } => {
                write!(f, " at number {number}: {field} has to be {}", field.wants)
            }
            Refused::BadStart { start, number } => {
                write!(f, " at number {number} of the starts: start {start} is no fact that can be started")
            }
            Refused::Missing { number, field } => {
                write!(f, " at number {number}: {field} is missing, the numbers end before it")
            }
            Refused::LeftOver { number } => write!(f, " at number {number}: the graph ends before it"),
            Refused::RecordLength { length } => {
                write!(f, " at number {length} of the record: its numbers do not come in sixes")
            }
            Refused::TooShort => f.write_str(": a row is too short"),
            Refused::BadLine { line, found: None } => write!(f, " at line {line}: its numbers have no fact or no rule"),
            Refused::BadLine { line, found: Some(found) } => {
                write!(f, " at line {line}: \"{found}\" is out of form, had a line before, or does not follow")
            }
            Refused::Absent { lines } => {
                write!(f, " after its {lines} lines: a start or a consequence has none")
            }
        }
    }
}

impl core::error::Error for Refused {}
