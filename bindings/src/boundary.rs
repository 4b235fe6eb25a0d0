//! The C boundary of the engine, function by function, over slices of numbers and bytes.
//!
//! This is what `include/keep.h` declares, made safe: a slice's pointer and length go over together. Nothing is asked of
//! the caller but the stack ([`STACK`](crate::STACK)): any numbers, starts, records and lengths are answered. Each answer
//! has a `number`, 0 if nothing was refused, and a `place`. The rest of the crate is built on these functions; use them
//! where you have rows of your own that are to be used again; [`Lengths`] says how long they have to be.
//!
//! | number | why it was refused | place |
//! |---|---|---|
//! | 1 | a number of a file that is not one: over five bytes, 2^32 or more, not in its shortest form, or cut off by the end of the file | its first byte |
//! | 2 | a count over its limit | the number |
//! | 3 | a value or an index outside its kind, or against a rule | the number |
//! | 4 | a number is missing, or numbers are left over; starts that are not in threes, a record that is not in sixes | the number, or the length |
//! | 5 | a lent row is too short | 0 |
//! | 6 | a record that is no justification | its first bad line; the number of its lines if a fact is absent |

pub use crate::rows::Lengths;

/// The answer of an operation that only refuses or passes.
///
/// ```
/// let passed = lizdakk::boundary::Refusal { number: 0, place: 0 };
/// assert_eq!(lizdakk::boundary::check(&lizdakk::Graph::new().numbers()), passed);
/// ```
#[repr(C)]
#[derive(Clone, Copy, Debug, PartialEq, Eq)]
pub struct Refusal {
    /// Why it is refused; 0 if it is not.
    pub number: u32,
    /// Where the fault is; 0 if it is not refused.
    pub place: u64,
}

/// The answer of [`read`] and of [`starts`].
///
/// ```
/// let answer = lizdakk::boundary::read(&[5], &mut [0]);
/// assert_eq!(answer, lizdakk::boundary::ReadAnswer { number: 0, place: 0, count: 1 });
/// ```
#[repr(C)]
#[derive(Clone, Copy, Debug, PartialEq, Eq)]
pub struct ReadAnswer {
    /// Why it is refused; 0 if it is not.
    pub number: u32,
    /// Where the fault is, for [`read`] the byte where the faulty number begins; 0 if it is not refused, and for a
    /// refusal 5.
    pub place: u64,
    /// How many numbers were written; 0 if it is refused.
    pub count: u64,
}

/// The answer of [`drain`].
///
/// ```
/// let refused = lizdakk::boundary::DrainAnswer { number: 5, place: 0, lines: 0 };
/// assert_eq!(refused.lines, 0);
/// ```
#[repr(C)]
#[derive(Clone, Copy, Debug, PartialEq, Eq)]
pub struct DrainAnswer {
    /// Why it is refused; 0 if it is not.
    pub number: u32,
    /// Where the fault is; 0 if it is not refused, and for a refusal 5.
    pub place: u64,
    /// How many record lines were written; 0 if it is refused.
    pub lines: u64,
}

/// The answer of a run.
///
/// ```
/// use lizdakk::boundary::RunAnswer;
///
/// let refused = RunAnswer { number: 5, place: 0, rounds: 0, lines: 0, runtime_lines: 0, entries: 0 };
/// assert_eq!(refused.rounds, 0);
/// ```
#[repr(C)]
#[derive(Clone, Copy, Debug, PartialEq, Eq)]
pub struct RunAnswer {
    /// Why it is refused; 0 if it is not.
    pub number: u32,
    /// Where the fault is; 0 if it is not refused, and for a refusal 5.
    pub place: u64,
    /// How many rounds were made, with options bit 7 the last one idle; 0 if it is refused.
    pub rounds: u64,
    /// How many record lines the main stage wrote; 0 if it is refused.
    pub lines: u64,
    /// How many record lines the runtime stage wrote behind them; 0 if it is refused.
    pub runtime_lines: u64,
    /// How many final entries were written; 0 if it is refused.
    pub entries: u64,
}

/// The rows that [`drain`] is lent, with M modules, S statements and Y symbols.
///
/// ```
/// use lizdakk::boundary::{drain, Rows};
///
/// lizdakk::with_stack(|| {
///     // One module, one symbol and one statement: 2 + 1 + 63 marks.
///     let (numbers, starts) = (lizdakk::Graph::new().numbers(), [1, 0, 0]);
///     let (mut marks, mut record) = ([0; 9], [0; 6]);
///     let (mut modules, mut statements, mut reason) = ([0; 1], [0; 1], [0; 1]);
///     let (mut used, mut external, mut json) = ([0; 1], [0; 1], [0; 1]);
///     let mut rows = Rows {
///         marks: &mut marks,
///         record: &mut record,
///         modules: &mut modules,
///         statements: &mut statements,
///         used: &mut used,
///         external: &mut external,
///         json: &mut json,
///         reason: &mut reason,
///     };
///     assert_eq!(drain(&numbers, &starts, &mut rows).lines, 1);
///     assert_eq!((modules, record), ([1], [1, 0, 0, 0, 0, 0]));
/// });
/// ```
#[derive(Debug)]
pub struct Rows<'a> {
    /// Working row, a bit for each fact: 2M + S + 63Y bits.
    pub marks: &'a mut [u8],
    /// Working row, six numbers a line: the fact, its rule (0 for a start), two earlier lines plus 1.
    pub record: &'a mut [u32],
    /// A bit for each module that is kept.
    pub modules: &'a mut [u8],
    /// A bit for each statement that is kept; each module's begin at a whole byte.
    pub statements: &'a mut [u8],
    /// A bit for each symbol that is used.
    pub used: &'a mut [u8],
    /// A bit for each symbol of an external module that is used.
    pub external: &'a mut [u8],
    /// A bit for each symbol of a JSON module with a use whose reason lacks JsonDefaultExportSelfReference.
    pub json: &'a mut [u8],
    /// A byte for each module: why its namespace is kept, 1 Unknown, 2 ReExportDynamicExports, 3 both.
    pub reason: &'a mut [u8],
}

/// The rows that a run is lent, with M modules, S statements, Y symbols, R import records and E entries.
///
/// ```
/// use lizdakk::boundary::{run, RunRows};
///
/// lizdakk::with_stack(|| {
///     // One module, one symbol and one statement: 2 + 1 + 63 marks.
///     let numbers = lizdakk::Graph::new().numbers();
///     let (mut marks, mut record, mut helpers) = ([0; 9], [0; 6], [0; 1]);
///     let (mut modules, mut statements, mut reason) = ([0; 1], [0; 1], [0; 1]);
///     let (mut used, mut external, mut json) = ([0; 1], [0; 1], [0; 1]);
///     let mut rows = RunRows {
///         marks: &mut marks,
///         record: &mut record,
///         modules: &mut modules,
///         statements: &mut statements,
///         used: &mut used,
///         external: &mut external,
///         json: &mut json,
///         reason: &mut reason,
///         dead: &mut [],
///         helpers: &mut helpers,
///         entries: &mut [],
///     };
///     let answer = run(&numbers, &mut rows);
///     assert_eq!((answer.number, answer.rounds, answer.lines), (0, 1, 0));
/// });
/// ```
#[derive(Debug)]
pub struct RunRows<'a> {
    /// Working row, a bit for each fact: 2M + S + 63Y bits.
    pub marks: &'a mut [u8],
    /// Working row, six numbers a line: the fact, its rule (0 for a start), two earlier lines plus 1.
    pub record: &'a mut [u32],
    /// A bit for each module that is kept.
    pub modules: &'a mut [u8],
    /// A bit for each statement that is kept; each module's begin at a whole byte.
    pub statements: &'a mut [u8],
    /// A bit for each symbol that is used.
    pub used: &'a mut [u8],
    /// A bit for each symbol of an external module that is used.
    pub external: &'a mut [u8],
    /// A bit for each symbol of a JSON module with a use whose reason lacks JsonDefaultExportSelfReference, before the
    /// runtime stage.
    pub json: &'a mut [u8],
    /// A byte for each module: why its namespace is kept, before the runtime stage.
    pub reason: &'a mut [u8],
    /// A bit for each import record, those of all modules in one row: a dynamic import that is dead, by the rounds or,
    /// with options bit 6, at their end.
    pub dead: &'a mut [u8],
    /// A number for each module: bit h for each runtime helper h that it needs.
    pub helpers: &'a mut [u32],
    /// Room for a number an entry: the final entries, by graph index.
    pub entries: &'a mut [u32],
}

mod c {
    use super::{DrainAnswer, ReadAnswer, Refusal, RunAnswer};

    extern "C" {
        pub fn keep_read(file: *const u8, file_length: usize, numbers: *mut u32, numbers_length: usize) -> ReadAnswer;
        pub fn keep_check(numbers: *const u32, numbers_length: usize) -> Refusal;
        pub fn keep_effects(
            numbers: *const u32,
            numbers_length: usize,
            verdicts: *mut u32,
            verdicts_length: usize,
        ) -> Refusal;
        pub fn keep_drain(
            numbers: *const u32,
            numbers_length: usize,
            starts: *const u32,
            starts_length: usize,
            marks: *mut u8,
            marks_length: usize,
            record: *mut u32,
            record_length: usize,
            modules: *mut u8,
            modules_length: usize,
            statements: *mut u8,
            statements_length: usize,
            used: *mut u8,
            used_length: usize,
            external: *mut u8,
            external_length: usize,
            json: *mut u8,
            json_length: usize,
            reason: *mut u8,
            reason_length: usize,
        ) -> DrainAnswer;
        pub fn keep_run(
            numbers: *const u32,
            numbers_length: usize,
            marks: *mut u8,
            marks_length: usize,
            record: *mut u32,
            record_length: usize,
            modules: *mut u8,
            modules_length: usize,
            statements: *mut u8,
            statements_length: usize,
            used: *mut u8,
            used_length: usize,
            external: *mut u8,
            external_length: usize,
            json: *mut u8,
            json_length: usize,
            reason: *mut u8,
            reason_length: usize,
            dead: *mut u8,
            dead_length: usize,
            helpers: *mut u32,
            helpers_length: usize,
            entries: *mut u32,
            entries_length: usize,
        ) -> RunAnswer;
        pub fn keep_judge(
            numbers: *const u32,
            numbers_length: usize,
            starts: *const u32,
            starts_length: usize,
            record: *const u32,
            record_length: usize,
        ) -> Refusal;
        pub fn keep_starts(
            numbers: *const u32,
            numbers_length: usize,
            marks: *mut u8,
            marks_length: usize,
            record: *mut u32,
            record_length: usize,
            starts: *mut u32,
            starts_length: usize,
        ) -> ReadAnswer;
    }
}

/// Reads the numbers of a file into `numbers`: unsigned LEB128, each in its shortest form and below 2^32.
///
/// If it is not refused, `count` numbers were written and those past them are as lent. For each number from the left,
/// refusal 1 at its first byte if it is faulty, else 5 at place 0 if `numbers` is full. A refusal leaves all of
/// `numbers` as lent. No file has more numbers than bytes, so a row as long as the file is always enough.
///
/// ```
/// let file = [0x02, 0x80, 0x01];
/// let mut numbers = [7; 3];
/// assert_eq!(lizdakk::boundary::read(&file, &mut numbers).count, 2);
/// assert_eq!(numbers, [2, 128, 7]);
/// assert_eq!(lizdakk::boundary::read(&file, &mut numbers[..1]).number, 5);
/// ```
#[must_use]
pub fn read(file: &[u8], numbers: &mut [u32]) -> ReadAnswer {
    // SAFETY: both slices are valid for their lengths and do not overlap, as Rust's references promise.
    unsafe { c::keep_read(file.as_ptr(), file.len(), numbers.as_mut_ptr(), numbers.len()) }
}

/// Says whether `numbers` are a graph.
///
/// The first fault from the left, placed by number: 4 a missing number, 2 a count over its limit, 3 a value or index
/// outside its kind. Then 3 for the rules that read a later number (runtime, namespace owner, root), and last 4 at the
/// first number left over.
///
/// ```
/// let mut numbers = lizdakk::Graph::new().numbers();
/// assert_eq!(lizdakk::boundary::check(&numbers).number, 0);
/// numbers.push(0);
/// let refusal = lizdakk::boundary::check(&numbers);
/// assert_eq!((refusal.number, refusal.place), (4, numbers.len() as u64 - 1));
/// ```
#[must_use]
pub fn check(numbers: &[u32]) -> Refusal {
    // SAFETY: the slice is valid for its length and is only read.
    unsafe { c::keep_check(numbers.as_ptr(), numbers.len()) }
}

/// Writes the last verdict of each module of a graph into `verdicts`: which modules have effects.
///
/// 0 Analyzed(false), 1 Analyzed(true), 2 UserDefined(false), 3 UserDefined(true), 4 NoTreeshake. Refused as by
/// [`check`], then 5 at place 0 if `verdicts` is below one number a module. A refusal leaves `verdicts` as lent; what
/// is past the answer is as lent too.
///
/// ```
/// let mut verdicts = [7; 2];
/// lizdakk::with_stack(|| {
///     let numbers = lizdakk::Graph::new().numbers();
///     assert_eq!(lizdakk::boundary::effects(&numbers, &mut verdicts).number, 0);
/// });
/// assert_eq!(verdicts, [0, 7]);
/// ```
#[must_use]
pub fn effects(numbers: &[u32], verdicts: &mut [u32]) -> Refusal {
    // SAFETY: both slices are valid for their lengths and do not overlap, as Rust's references promise.
    unsafe { c::keep_effects(numbers.as_ptr(), numbers.len(), verdicts.as_mut_ptr(), verdicts.len()) }
}

/// Works out what the starts keep in a graph: the smallest set of facts that holds them and is closed under the rules.
///
/// Starts are triples, a fact's kind and its two parts: 1 module, 0; 2 module, statement; 3 use: symbol, reason; 4
/// checked use: symbol, reason; 6 bailout: module, 0. A reason is 1 to 31.
///
/// Refused as by [`check`]; then 4 at the starts' length unless they come in threes, 3 at the first bad number of a
/// start; then 5 at place 0 for a row that is too short, the record last. A refusal leaves the answer rows as lent;
/// marks and record too, except that both are all zero if the record was found short during the work. Otherwise marks
/// and record were cleared whole and written from the front, and what is past the other answers is as lent.
///
/// ```
/// use lizdakk::boundary::{drain, Rows};
///
/// lizdakk::with_stack(|| {
///     // One module, one symbol and one statement: 2 + 1 + 63 marks.
///     let (numbers, starts) = (lizdakk::Graph::new().numbers(), [1, 0, 0]);
///     let (mut marks, mut record) = ([0; 9], [0; 6]);
///     let (mut modules, mut statements, mut reason) = ([0; 1], [0; 1], [0; 1]);
///     let (mut used, mut external, mut json) = ([0; 1], [0; 1], [0; 1]);
///     let mut rows = Rows {
///         marks: &mut marks,
///         record: &mut record,
///         modules: &mut modules,
///         statements: &mut statements,
///         used: &mut used,
///         external: &mut external,
///         json: &mut json,
///         reason: &mut reason,
///     };
///     assert_eq!(drain(&numbers, &starts, &mut rows).lines, 1);
///     assert_eq!((modules, record), ([1], [1, 0, 0, 0, 0, 0]));
/// });
/// ```
#[must_use]
pub fn drain(numbers: &[u32], starts: &[u32], rows: &mut Rows) -> DrainAnswer {
    // SAFETY: all slices are valid for their lengths and no two overlap, as Rust's references promise.
    unsafe {
        c::keep_drain(
            numbers.as_ptr(),
            numbers.len(),
            starts.as_ptr(),
            starts.len(),
            rows.marks.as_mut_ptr(),
            rows.marks.len(),
            rows.record.as_mut_ptr(),
            rows.record.len(),
            rows.modules.as_mut_ptr(),
            rows.modules.len(),
            rows.statements.as_mut_ptr(),
            rows.statements.len(),
            rows.used.as_mut_ptr(),
            rows.used.len(),
            rows.external.as_mut_ptr(),
            rows.external.len(),
            rows.json.as_mut_ptr(),
            rows.json.len(),
            rows.reason.as_mut_ptr(),
            rows.reason.len(),
        )
    }
}

/// Works out what the entries of a graph keep, which of the dynamic ones are live, and what the runtime adds.
///
/// Refused as by [`check`]; then 5 at place 0 for a row that is too short, the record last. A refusal leaves the answer
/// rows as lent; marks and record too, except that both are all zero if the record was found short during the work.
/// Otherwise marks and record were cleared whole and written from the front, and what is past the other answers is as
/// lent: of `entries` only as many are written as are final.
///
/// The record has the lines of the main stage, then those of the runtime stage. Modules, statements, used and external
/// are as after both; json, reason, dead and helpers as before the runtime stage; marks have the modules and statements
/// of both and the other facts of the runtime stage alone.
///
/// ```
/// use lizdakk::boundary::{run, RunRows};
///
/// lizdakk::with_stack(|| {
///     // One module, one symbol and one statement: 2 + 1 + 63 marks.
///     let numbers = lizdakk::Graph::new().numbers();
///     let (mut marks, mut record, mut helpers) = ([0; 9], [0; 6], [0; 1]);
///     let (mut modules, mut statements, mut reason) = ([0; 1], [0; 1], [0; 1]);
///     let (mut used, mut external, mut json) = ([0; 1], [0; 1], [0; 1]);
///     let mut rows = RunRows {
///         marks: &mut marks,
///         record: &mut record,
///         modules: &mut modules,
///         statements: &mut statements,
///         used: &mut used,
///         external: &mut external,
///         json: &mut json,
///         reason: &mut reason,
///         dead: &mut [],
///         helpers: &mut helpers,
///         entries: &mut [],
///     };
///     let answer = run(&numbers, &mut rows);
///     assert_eq!((answer.number, answer.rounds, answer.lines), (0, 1, 0));
/// });
/// ```
#[must_use]
pub fn run(numbers: &[u32], rows: &mut RunRows) -> RunAnswer {
    // SAFETY: all slices are valid for their lengths and no two overlap, as Rust's references promise.
    unsafe {
        c::keep_run(
            numbers.as_ptr(),
            numbers.len(),
            rows.marks.as_mut_ptr(),
            rows.marks.len(),
            rows.record.as_mut_ptr(),
            rows.record.len(),
            rows.modules.as_mut_ptr(),
            rows.modules.len(),
            rows.statements.as_mut_ptr(),
            rows.statements.len(),
            rows.used.as_mut_ptr(),
            rows.used.len(),
            rows.external.as_mut_ptr(),
            rows.external.len(),
            rows.json.as_mut_ptr(),
            rows.json.len(),
            rows.reason.as_mut_ptr(),
            rows.reason.len(),
            rows.dead.as_mut_ptr(),
            rows.dead.len(),
            rows.helpers.as_mut_ptr(),
            rows.helpers.len(),
            rows.entries.as_mut_ptr(),
            rows.entries.len(),
        )
    }
}

/// Says whether a record justifies what the starts keep in a graph: each line a fact of its own, which is a start or
/// follows by the line's rule from the earlier lines that it names, and all of them the smallest set of facts that
/// holds the starts and is closed under the rules.
///
/// Starts are triples as for [`drain`]; their order and repeats don't matter. A line is six numbers: the fact, its
/// rule, and two names, each an earlier line plus 1. Rule 0 is good for any start and names nothing; rule 1 names a
/// module and a forward in either order; any other rule names one line, in the first place. A record need not be one
/// that [`drain`] or [`run`] wrote.
///
/// Refused as by [`check`]; then 4 at the starts' length unless they come in threes, 3 at the first bad number of a
/// start; then 4 at the record's length unless it is a multiple of six; then 6 at the first bad line, counted from 0;
/// then 6 at the number of lines if a start or a consequence is absent. Nothing is written.
///
/// ```
/// lizdakk::with_stack(|| {
///     let numbers = lizdakk::Graph::new().numbers();
///     assert_eq!(lizdakk::boundary::judge(&numbers, &[1, 0, 0], &[1, 0, 0, 0, 0, 0]).number, 0);
///     let refusal = lizdakk::boundary::judge(&numbers, &[1, 0, 0], &[]);
///     assert_eq!((refusal.number, refusal.place), (6, 0));
/// });
/// ```
#[must_use]
pub fn judge(numbers: &[u32], starts: &[u32], record: &[u32]) -> Refusal {
    // SAFETY: all slices are valid for their lengths and are only read.
    unsafe {
        c::keep_judge(numbers.as_ptr(), numbers.len(), starts.as_ptr(), starts.len(), record.as_ptr(), record.len())
    }
}

/// Writes the starts that the run of a graph has of itself into `starts`: triples as [`drain`] and [`judge`] take them,
/// each fact that is started before the runtime stage once. First what the user-defined entries start, in their order;
/// then the exports of bailouts, by record line; then what live dynamic entries start, by module.
///
/// If it is not refused, `count` numbers were written, those past them are as lent, the record has the lines of the main
/// stage and zeros behind them, and the marks are of the facts of these lines. Refused as by [`check`]; then 5 at place 0
/// for `marks` below 2M + S + 63Y bits (modules, statements, symbols), for a record shorter than the lines of the main
/// stage, and for `starts` that are too short. A refusal leaves all as lent, except that marks and record are all zero if
/// record or starts were found short.
///
/// ```
/// lizdakk::with_stack(|| {
///     let numbers = lizdakk::Graph::new().numbers();
///     assert_eq!(lizdakk::boundary::starts(&numbers, &mut [0; 9], &mut [0; 6], &mut [0; 3]).count, 0);
/// });
/// ```
#[must_use]
pub fn starts(numbers: &[u32], marks: &mut [u8], record: &mut [u32], starts: &mut [u32]) -> ReadAnswer {
    // SAFETY: all slices are valid for their lengths and no two overlap, as Rust's references promise.
    unsafe {
        c::keep_starts(
            numbers.as_ptr(),
            numbers.len(),
            marks.as_mut_ptr(),
            marks.len(),
            record.as_mut_ptr(),
            record.len(),
            starts.as_mut_ptr(),
            starts.len(),
        )
    }
}
