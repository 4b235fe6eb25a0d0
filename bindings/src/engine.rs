//! The operations on a graph: each on the caller's stack, and with `std` on a thread that has enough.

use crate::boundary;
use crate::decode;
use crate::fact::Fact;
use crate::graph::{Graph, SideEffects};
use crate::kept::Kept;
use crate::leb128;
use crate::record::{read_numbers, Record};
use crate::refused::Refused;
use crate::rows::{Counts, Lengths, Rows, START};
#[cfg(feature = "std")]
use crate::stack::with_stack;
use alloc::vec;
use alloc::vec::Vec;

/// Decides what the entries of a graph keep, and why. On a thread with enough stack.
///
/// ```
/// let mut graph = lizdakk::Graph::new();
/// let main = graph.module("main.js");
/// graph.entry(main);
/// let kept = lizdakk::decide(&graph)?;
/// assert!(kept.is_kept(main));
/// # Ok::<(), lizdakk::Refused>(())
/// ```
///
/// # Errors
/// The refusals of a check: [`Refused::OverLimit`], [`Refused::OutOfRange`]. A graph of the builder has no number missing
/// or left over.
#[cfg(feature = "std")]
pub fn decide(graph: &Graph) -> Result<Kept<'_>, Refused> {
    with_stack(|| decide_here(graph))
}

/// [`decide`] on the caller's stack, of which it needs up to [`STACK`](crate::STACK) bytes.
///
/// ```
/// let graph = lizdakk::Graph::new();
/// let kept = lizdakk::with_stack(|| lizdakk::decide_here(&graph))?;
/// assert_eq!(kept.rounds(), 1);
/// # Ok::<(), lizdakk::Refused>(())
/// ```
///
/// # Errors
/// As [`decide`].
pub fn decide_here(graph: &Graph) -> Result<Kept<'_>, Refused> {
    let numbers = checked(graph)?;
    let counts = counted(&numbers);
    let lengths = counts.lengths();
    let mut rows = Rows::new(&lengths, lengths.run_record);
    let mut answer = boundary::run(&numbers, &mut rows.lent());
    if answer.number != 0 {
        rows = Rows::new(&lengths, 2 * lengths.drain_record);
        answer = boundary::run(&numbers, &mut rows.lent());
    }
    if answer.number != 0 {
        return Err(Refused::TooShort);
    }
    let verdicts = verdicts(&numbers, graph)?;
    let starts = if graph.options.code_splitting { Vec::new() } else { starts_of(&numbers, &lengths)? };
    Ok(Kept::new(graph, counts, rows, answer, verdicts, &starts))
}

/// Decides what given starts keep: the smallest set of facts that holds them and is closed under the rules, whatever the
/// entries are. There are no rounds, final entries, dead imports and helpers then. On a thread with enough stack.
///
/// ```
/// use lizdakk::{decide_from, Fact, Graph, SideEffects};
///
/// let mut graph = Graph::new();
/// let (plugin, polyfill) = (graph.module("plugin.js"), graph.module("polyfill.js"));
/// graph[polyfill].side_effects = Some(SideEffects::Analyzed(true));
/// let import = graph.statement(plugin);
/// graph.import(import, polyfill);
/// let starts = [Fact::Module(plugin)];
/// let kept = decide_from(&graph, &starts)?;
/// assert!(kept.is_kept(polyfill));
/// assert_eq!(
///     kept.why(polyfill).expect("it is kept").to_string(),
///     "module 2 (polyfill.js) is kept because it is a dependency with side effects of module 1 (plugin.js) (K3), \
///      which is kept because it was given (start)."
/// );
/// lizdakk::judge(&graph, &starts, &kept.record())?;
/// # Ok::<(), lizdakk::Refused>(())
/// ```
///
/// # Errors
/// As [`decide`]; then [`Refused::BadStart`].
#[cfg(feature = "std")]
pub fn decide_from<'g>(graph: &'g Graph, starts: &[Fact]) -> Result<Kept<'g>, Refused> {
    with_stack(|| decide_from_here(graph, starts))
}

/// [`decide_from`] on the caller's stack, of which it needs up to [`STACK`](crate::STACK) bytes.
///
/// ```
/// let graph = lizdakk::Graph::new();
/// let kept = lizdakk::with_stack(|| lizdakk::decide_from_here(&graph, &[]))?;
/// assert!(kept.lines().is_empty());
/// # Ok::<(), lizdakk::Refused>(())
/// ```
///
/// # Errors
/// As [`decide_from`].
pub fn decide_from_here<'g>(graph: &'g Graph, starts: &[Fact]) -> Result<Kept<'g>, Refused> {
    let numbers = checked(graph)?;
    let counts = counted(&numbers);
    let lengths = counts.lengths();
    let mut rows = Rows::new(&lengths, lengths.drain_record);
    let answer = boundary::drain(&numbers, &triples(starts), &mut rows.lent_to_drain());
    match answer.number {
        0 => Ok(Kept::of_drain(graph, counts, rows, answer, verdicts(&numbers, graph)?)),
        3 => Err(Refused::bad_start(answer.place)),
        _ => Err(Refused::TooShort),
    }
}

/// The last verdict on the side effects of each module, by index. On a thread with enough stack.
///
/// ```
/// use lizdakk::{Graph, SideEffects};
///
/// let mut graph = Graph::new();
/// let (main, polyfill) = (graph.module("main.js"), graph.module("polyfill.js"));
/// graph[polyfill].side_effects = Some(SideEffects::Analyzed(true));
/// let statement = graph.statement(main);
/// graph.import(statement, polyfill);
/// let verdicts = lizdakk::effects(&graph)?;
/// assert_eq!(verdicts[main.index() as usize], SideEffects::Analyzed(true));
/// # Ok::<(), lizdakk::Refused>(())
/// ```
///
/// # Errors
/// As [`decide`].
#[cfg(feature = "std")]
pub fn effects(graph: &Graph) -> Result<Vec<SideEffects>, Refused> {
    with_stack(|| effects_here(graph))
}

/// [`effects`] on the caller's stack, of which it needs up to [`STACK`](crate::STACK) bytes.
///
/// ```
/// let graph = lizdakk::Graph::new();
/// assert_eq!(lizdakk::with_stack(|| lizdakk::effects_here(&graph))?, [lizdakk::SideEffects::Analyzed(false)]);
/// # Ok::<(), lizdakk::Refused>(())
/// ```
///
/// # Errors
/// As [`decide`].
pub fn effects_here(graph: &Graph) -> Result<Vec<SideEffects>, Refused> {
    verdicts(&checked(graph)?, graph)
}

/// The starts that the run of a graph has of itself: what a judge needs beside the record of [`decide`]. Each once: those
/// of the user-defined entries, then those of bailouts by record line, then those of live dynamic entries by module. On a
/// thread with enough stack.
///
/// ```
/// let mut graph = lizdakk::Graph::new();
/// let main = graph.module("main.js");
/// graph.entry(main);
/// let starts = lizdakk::own_starts(&graph)?;
/// assert_eq!(starts, [lizdakk::Fact::Bailout(main), lizdakk::Fact::Module(main)]);
/// # Ok::<(), lizdakk::Refused>(())
/// ```
///
/// # Errors
/// As [`decide`].
#[cfg(feature = "std")]
pub fn own_starts(graph: &Graph) -> Result<Vec<Fact>, Refused> {
    with_stack(|| own_starts_here(graph))
}

/// [`own_starts`] on the caller's stack, of which it needs up to [`STACK`](crate::STACK) bytes.
///
/// ```
/// let graph = lizdakk::Graph::new();
/// assert_eq!(lizdakk::with_stack(|| lizdakk::own_starts_here(&graph))?, []);
/// # Ok::<(), lizdakk::Refused>(())
/// ```
///
/// # Errors
/// As [`decide`].
pub fn own_starts_here(graph: &Graph) -> Result<Vec<Fact>, Refused> {
    let numbers = checked(graph)?;
    starts_of(&numbers, &counted(&numbers).lengths())
}

/// Says whether a record, whoever wrote it, justifies what the starts keep in a graph: each line a fact of its own, which
/// is a start or follows by its rule from the earlier lines that it names, and all of them together the smallest set of
/// facts that holds the starts and is closed under the rules. On a thread with enough stack.
///
/// ```
/// use lizdakk::{Record, Refused};
///
/// let mut graph = lizdakk::Graph::new();
/// let main = graph.module("main.js");
/// graph.entry(main);
/// let kept = lizdakk::decide(&graph)?;
/// let starts = lizdakk::own_starts(&graph)?;
/// lizdakk::judge(&graph, &starts, &kept.record())?;
/// assert_eq!(lizdakk::judge(&graph, &starts, &Record::default()), Err(Refused::Absent { lines: 0 }));
/// # Ok::<(), lizdakk::Refused>(())
/// ```
///
/// # Errors
/// As [`decide`]; then [`Refused::BadStart`]; [`Refused::RecordLength`]; [`Refused::BadLine`] for the first line that does
/// not stand; [`Refused::Absent`] if all stand and a start or a consequence has none.
#[cfg(feature = "std")]
pub fn judge(graph: &Graph, starts: &[Fact], record: &Record) -> Result<(), Refused> {
    with_stack(|| judge_here(graph, starts, record))
}

/// [`judge`] on the caller's stack, of which it needs up to [`STACK`](crate::STACK) bytes.
///
/// ```
/// let graph = lizdakk::Graph::new();
/// lizdakk::with_stack(|| lizdakk::judge_here(&graph, &[], &lizdakk::Record::default()))?;
/// # Ok::<(), lizdakk::Refused>(())
/// ```
///
/// # Errors
/// As [`judge`].
pub fn judge_here(graph: &Graph, starts: &[Fact], record: &Record) -> Result<(), Refused> {
    let numbers = checked(graph)?;
    let refusal = boundary::judge(&numbers, &triples(starts), record.numbers());
    match refusal.number {
        0 => Ok(()),
        _ => Err(Refused::of_judge(refusal, record)),
    }
}

impl Graph {
    /// Reads a graph file (docs/GRAPH.md). Its parts have no labels. On a thread with enough stack.
    ///
    /// ```
    /// use lizdakk::{Graph, Refused};
    ///
    /// let mut graph = Graph::new();
    /// graph.module("main.js");
    /// let file = graph.write();
    /// assert_eq!(Graph::read(&file)?.write(), file);
    /// assert_eq!(Graph::read(&[0x80]).unwrap_err(), Refused::FaultyNumber { byte: 0 });
    /// # Ok::<(), Refused>(())
    /// ```
    ///
    /// # Errors
    /// [`Refused::FaultyNumber`], [`Refused::OverLimit`], [`Refused::OutOfRange`], [`Refused::Missing`],
    /// [`Refused::LeftOver`].
    #[cfg(feature = "std")]
    pub fn read(file: &[u8]) -> Result<Graph, Refused> {
        with_stack(|| Graph::read_here(file))
    }

    /// [`Graph::read`] on the caller's stack, of which it needs up to [`STACK`](crate::STACK) bytes.
    ///
    /// ```
    /// # use lizdakk::Graph;
    /// let file = Graph::new().write();
    /// assert_eq!(lizdakk::with_stack(|| Graph::read_here(&file))?.modules().count(), 1);
    /// # Ok::<(), lizdakk::Refused>(())
    /// ```
    ///
    /// # Errors
    /// As [`Graph::read`].
    pub fn read_here(file: &[u8]) -> Result<Graph, Refused> {
        let numbers = read_numbers(file)?;
        let refusal = boundary::check(&numbers);
        if refusal.number != 0 {
            return Err(Refused::of_check(refusal, &numbers, None));
        }
        Ok(decode::graph(&numbers).expect("the engine accepts nothing but graphs"))
    }

    /// The graph's file (docs/GRAPH.md), whether or not the engine would accept it. Labels are not in it.
    ///
    /// ```
    /// let file = lizdakk::Graph::new().write();
    /// assert_eq!(file[..7], [1, 0, 1, 1, 1, 0, 0]);
    /// ```
    #[must_use]
    pub fn write(&self) -> Vec<u8> {
        leb128::write(&self.numbers())
    }

    /// Says whether the engine accepts the graph. On a thread with enough stack.
    ///
    /// ```
    /// lizdakk::Graph::new().check()?;
    /// # Ok::<(), lizdakk::Refused>(())
    /// ```
    ///
    /// # Errors
    /// As [`decide`].
    #[cfg(feature = "std")]
    pub fn check(&self) -> Result<(), Refused> {
        with_stack(|| self.check_here())
    }

    /// [`Graph::check`] on the caller's stack, of which it needs up to [`STACK`](crate::STACK) bytes.
    ///
    /// ```
    /// lizdakk::with_stack(|| lizdakk::Graph::new().check_here())?;
    /// # Ok::<(), lizdakk::Refused>(())
    /// ```
    ///
    /// # Errors
    /// As [`decide`].
    pub fn check_here(&self) -> Result<(), Refused> {
        checked(self).map(drop)
    }
}

/// The numbers of a graph, accepted.
fn checked(graph: &Graph) -> Result<Vec<u32>, Refused> {
    let numbers = graph.numbers();
    let refusal = boundary::check(&numbers);
    match refusal.number {
        0 => Ok(numbers),
        _ => Err(Refused::of_check(refusal, &numbers, Some(graph))),
    }
}

/// Starts as the engine takes them.
fn triples(starts: &[Fact]) -> Vec<u32> {
    starts.iter().flat_map(|start| start.numbers()).collect()
}

/// The last verdicts of accepted numbers.
fn verdicts(numbers: &[u32], graph: &Graph) -> Result<Vec<SideEffects>, Refused> {
    let mut verdicts = vec![0; graph.modules.len()];
    match boundary::effects(numbers, &mut verdicts).number {
        0 => Ok(verdicts.into_iter().filter_map(SideEffects::of).collect()),
        _ => Err(Refused::TooShort),
    }
}

/// What the lengths of rows follow from, of accepted numbers.
fn counted(numbers: &[u32]) -> Counts {
    Counts::of(numbers).expect("the engine accepts nothing but graphs")
}

/// A run's own starts, of accepted numbers.
fn starts_of(numbers: &[u32], lengths: &Lengths) -> Result<Vec<Fact>, Refused> {
    let with_record = |record: usize| {
        let (mut marks, mut record) = (vec![0; lengths.marks], vec![0; record]);
        let mut triples = vec![0; lengths.starts];
        let answer = boundary::starts(numbers, &mut marks, &mut record, &mut triples);
        triples.truncate(answer.count as usize);
        (answer.number == 0).then_some(triples)
    };
    let triples = with_record(lengths.run_record).or_else(|| with_record(2 * lengths.drain_record));
    let triples = triples.ok_or(Refused::TooShort)?;
    Ok(triples.chunks_exact(START).filter_map(|triple| Fact::of([triple[0], triple[1], triple[2]])).collect())
}
