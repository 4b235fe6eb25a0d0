//! The answers of the operations, and the rows that a caller lends to a drain and to a run.

use std::fmt;

/// The answer of an operation that only refuses or passes.
#[derive(Clone, Copy, Debug, PartialEq, Eq)]
pub struct Refusal {
    /// Why it is refused; 0 if it is not.
    pub number: u32,
    /// Where the fault is; 0 if it is not refused.
    pub place: u64,
}

/// The answer of [`read`](crate::reference::read()) and of [`starts`](crate::reference::starts()).
#[derive(Clone, Copy, Debug, PartialEq, Eq)]
pub struct ReadAnswer {
    /// Why it is refused; 0 if it is not.
    pub number: u32,
    /// Where the fault is, for `read` the byte where the faulty number begins; 0 if it is not refused, and for a
    /// refusal 5.
    pub place: u64,
    /// How many numbers were written; 0 if it is refused.
    pub count: u64,
}

/// The answer of [`drain`](crate::reference::drain()).
#[derive(Clone, Copy, Debug, PartialEq, Eq)]
pub struct DrainAnswer {
    /// Why it is refused; 0 if it is not.
    pub number: u32,
    /// Where the fault is; 0 if it is not refused, and for a refusal 5.
    pub place: u64,
    /// How many record lines were written; 0 if it is refused.
    pub lines: u64,
}

/// The answer of [`run`](crate::reference::run()).
#[derive(Clone, Copy, Debug, PartialEq, Eq)]
pub struct RunAnswer {
    /// Why it is refused; 0 if it is not.
    pub number: u32,
    /// Where the fault is; 0 if it is not refused, and for a refusal 5.
    pub place: u64,
    /// How many rounds were made; 0 if it is refused.
    pub rounds: u64,
    /// How many record lines the main stage wrote; 0 if it is refused.
    pub lines: u64,
    /// How many record lines the runtime stage wrote behind them; 0 if it is refused.
    pub runtime_lines: u64,
    /// How many final entries were written; 0 if it is refused.
    pub entries: u64,
}

/// The rows that [`drain`](crate::reference::drain()) is lent, with M modules, S statements and Y symbols.
#[derive(Debug)]
pub struct Rows<'a> {
    /// Working row, a bit for each fact: 2M + S + 63Y bits.
    pub marks: &'a mut [u8],
    /// Working row, six numbers a line: the fact, its rule (0 for a start), two earlier lines plus 1.
    pub record: &'a mut [u32],
    /// A bit for each module that is kept.
    pub modules: &'a mut [u8],
    /// A bit for each statement that is kept; each module's begin at a whole byte.
    pub statements: &'a mut [u8],
    /// A bit for each symbol that is used.
    pub used: &'a mut [u8],
    /// A bit for each symbol of an external module that is used.
    pub external: &'a mut [u8],
    /// A bit for each symbol of a Json module that is used from elsewhere.
    pub json: &'a mut [u8],
    /// A byte for each module: why its namespace is kept, 1 Unknown, 2 ReExportDynamicExports, 3 both.
    pub reason: &'a mut [u8],
}

/// The rows that [`run`](crate::reference::run()) is lent, with M modules, S statements, Y symbols, R import records and
/// E entries.
#[derive(Debug)]
pub struct RunRows<'a> {
    /// Working row, a bit for each fact: 2M + S + 63Y bits.
    pub marks: &'a mut [u8],
    /// Working row, six numbers a line: the fact, its rule (0 for a start), two earlier lines plus 1.
    pub record: &'a mut [u32],
    /// A bit for each module that is kept.
    pub modules: &'a mut [u8],
    /// A bit for each statement that is kept; each module's begin at a whole byte.
    pub statements: &'a mut [u8],
    /// A bit for each symbol that is used.
    pub used: &'a mut [u8],
    /// A bit for each symbol of an external module that is used.
    pub external: &'a mut [u8],
    /// A bit for each symbol of a Json module that is used from elsewhere, before the runtime stage.
    pub json: &'a mut [u8],
    /// A byte for each module: why its namespace is kept, before the runtime stage.
    pub reason: &'a mut [u8],
    /// A bit for each import record, those of all modules in one row: a dynamic import that is dead.
    pub dead: &'a mut [u8],
    /// A number for each module: bit h for each runtime helper h that it needs.
    pub helpers: &'a mut [u32],
    /// Room for a number an entry: the final entries, by graph index.
    pub entries: &'a mut [u32],
}

/// A refusal as an error: its number and its place.
///
/// | number | meaning |
/// |---|---|
/// | 1 | a number that is not one: over five groups, 2^32 or more, padded, or the file ends within it |
/// | 2 | a count over its limit |
/// | 3 | a value or index outside its kind, or against a rule |
/// | 4 | a missing number, or numbers left over |
/// | 5 | a lent row is too short |
/// | 6 | a record that is no justification, at its first bad line, or at the number of its lines if a fact is absent |
#[derive(Clone, Copy, Debug, PartialEq, Eq)]
pub struct Refused {
    pub number: u32,
    pub place: u64,
}

impl Refusal {
    /// The answer of an operation that is not refused.
    pub const PASSED: Refusal = Refusal { number: 0, place: 0 };

    /// The answer as a `Result`.
    pub fn result(self) -> Result<(), Refused> {
        match self.number {
            0 => Ok(()),
            number => Err(Refused { number, place: self.place }),
        }
    }
}

impl From<Result<(), Refused>> for Refusal {
    fn from(result: Result<(), Refused>) -> Refusal {
        match result {
            Ok(()) => Refusal::PASSED,
            Err(Refused { number, place }) => Refusal { number, place },
        }
    }
}

impl ReadAnswer {
    /// The answer of an operation that is refused.
    pub const fn refused(Refused { number, place }: Refused) -> ReadAnswer {
        ReadAnswer { number, place, count: 0 }
    }

    /// The answer as a `Result`: how many numbers were written, or the refusal.
    pub fn result(self) -> Result<usize, Refused> {
        match self.number {
            0 => Ok(self.count as usize),
            number => Err(Refused { number, place: self.place }),
        }
    }
}

impl DrainAnswer {
    /// The answer of a drain that is refused.
    pub fn refused(Refused { number, place }: Refused) -> DrainAnswer {
        DrainAnswer { number, place, lines: 0 }
    }

    /// The answer as a `Result`: how many lines were written, or the refusal.
    pub fn result(self) -> Result<usize, Refused> {
        match self.number {
            0 => Ok(self.lines as usize),
            number => Err(Refused { number, place: self.place }),
        }
    }
}

impl RunAnswer {
    /// The answer of a run that is refused.
    pub const fn refused(Refused { number, place }: Refused) -> RunAnswer {
        RunAnswer { number, place, rounds: 0, lines: 0, runtime_lines: 0, entries: 0 }
    }

    /// The answer as a `Result`: itself, or the refusal.
    pub fn result(self) -> Result<RunAnswer, Refused> {
        match self.number {
            0 => Ok(self),
            number => Err(Refused { number, place: self.place }),
        }
    }
}

impl fmt::Display for Refused {
    fn fmt(&self, f: &mut fmt::Formatter) -> fmt::Result {
        write!(f, "refused {} at {}", self.number, self.place)
    }
}

impl std::error::Error for Refused {}
