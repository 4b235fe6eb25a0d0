//! How much stack the library's functions use: a thread's stack is painted below the caller, and behind the call it is
//! looked how far down the paint is gone. `cargo test --release -p compare --test stack -- --nocapture` prints it.

use compare::{library, own_starts, DrainBuffers, RunBuffers, StartsBuffers};
use lizdakk::{with_stack, STACK};
use peer::generate::counted::{at_edges, graph_of};
use peer::generate::{self, Random, Size};
use peer::loads::{self, all_loads};
use peer::model::{Graph, Record};
use peer::reference::leb128;
use std::arch::asm;
use std::collections::BTreeMap;
use std::hint::black_box;
use std::mem::size_of;

/// What is written where no call has been.
const PAINT: u64 = 0x5eed_ab1e_0dd5_7ac4;
/// Of the stack below a caller this is left to what paints and looks: calls that use less cannot be told apart.
const LEFT: usize = 1 << 12;
/// How far below a caller it is painted: further than any call may go, on a thread that has more.
const DEPTH: usize = STACK + STACK / 2;
/// Of the stack that is promised to suffice so much has to be left over.
const ROOM: usize = STACK / 10;

/// The stack that a call uses, in bytes, its callers here among it.
#[inline(never)]
fn stack_of(call: impl FnOnce()) -> usize {
    let top: usize;
    // SAFETY: a register is read.
    unsafe { asm!("mov {}, rsp", out(reg) top, options(nomem, nostack, preserves_flags)) };
    let painted = (top - DEPTH..top - LEFT).step_by(size_of::<u64>()).map(|place| place as *mut u64);
    // SAFETY: a stack pointer is aligned. The thread's stack reaches further down (`with_stack`), and nothing below this
    // function's frame is in use but by the functions that are called here, which `LEFT` is for.
    painted.clone().for_each(|place| unsafe { place.write_volatile(PAINT) });
    call();
    // SAFETY: as above.
    let lowest = painted.into_iter().find(|place| unsafe { place.read_volatile() } != PAINT);
    lowest.map_or(LEFT, |place| top - place as usize)
}

/// The most stack of each function, and the graph that took it.
#[derive(Default)]
struct Most(BTreeMap<&'static str, (usize, String)>);

impl Most {
    fn take(&mut self, function: &'static str, graph: &str, call: impl FnOnce()) -> usize {
        let used = stack_of(call);
        let most = self.0.entry(function).or_default();
        if used > most.0 {
            *most = (used, graph.to_string());
        }
        used
    }

    /// Every function of the library on a graph; the stack that a run took.
    fn take_all(&mut self, name: &str, graph: &Graph) -> usize {
        let numbers = graph.numbers();
        let (file, mut read) = (leb128::file_of(&numbers), vec![0; numbers.len()]);
        let mut verdicts = vec![0; graph.modules.len()];
        let starts = own_starts(&numbers).expect("a good graph");
        let mut own = StartsBuffers::for_graph(&numbers).expect("a good graph");
        let mut drain = DrainBuffers::for_graph(&numbers, &starts).expect("good starts of a good graph");
        let mut run = RunBuffers::for_graph(&numbers).expect("a good graph");
        let record = run.main_record().to_vec();
        self.take("keep_read", name, || assert_eq!(black_box(library::read(&file, &mut read)).number, 0));
        self.take("keep_check", name, || assert_eq!(black_box(library::check(&numbers)).number, 0));
        self.take("keep_effects", name, || assert_eq!(black_box(library::effects(&numbers, &mut verdicts)).number, 0));
        self.take("keep_drain", name, || assert_eq!(black_box(drain.again()).number, 0));
        self.take("keep_judge", name, || assert_eq!(black_box(library::judge(&numbers, &starts, &record)).number, 0));
        self.take("keep_starts", name, || assert_eq!(black_box(own.again()).number, 0));
        self.take("keep_run", name, || assert_eq!(black_box(run.again()).number, 0))
    }
}

/// A chain of 1,023 dynamic entries by imports of a kind, as deep as a walk can be. The last imports others dynamically,
/// more than the tables for ordering have room for at first.
fn chain(kind: u32, others: u32) -> Graph {
    let mut graph = loads::deep(1_023);
    for record in graph.modules.iter_mut().flat_map(|module| &mut module.records) {
        record.kind = kind;
    }
    let last = graph.modules.last_mut().expect("there are modules");
    last.records.extend((1..=others).map(|other| Record { target: 30 * other, kind: 2, bits: 0 }));
    graph
}

/// A bundle with a list in which repeats are looked for by a table.
fn long_list() -> Graph {
    let mut graph = loads::bundle(1_000);
    graph.modules[1].resolved_exports = (0..1_000).map(|name| [name, 0, 0]).collect();
    graph
}

#[test]
fn most_stack_of_each_function() {
    let most = with_stack(|| {
        let mut most = Most::default();
        for load in all_loads() {
            most.take_all(load.name, &load.graph());
        }
        most.take_all("long list", &long_list());
        most.take_all("1,024 rounds", &loads::rounds(1_024));
        for kind in 0..3 {
            most.take_all(&format!("chain of imports of kind {kind}"), &chain(kind, 0));
            most.take_all(&format!("chain of imports of kind {kind}, many at its end"), &chain(kind, 30));
        }
        let mut random = Random::new(1);
        most.take_all("largest", &generate::graph(&mut random, Size::largest()));
        for counts in at_edges() {
            let used = most.take_all(&format!("edge {counts:?}"), &graph_of(&mut random, counts));
            println!("keep_run {used:>9} {counts:?}");
        }
        most
    });
    for (function, (used, graph)) in &most.0 {
        println!("{function:<12} {used:>9} {graph}");
        assert!(*used <= STACK - ROOM, "{function}: {used} bytes of stack on {graph}");
    }
}

/// The most modules of a size, and the most stack of a call on such a graph where nothing is kept.
const SIZES: [(u32, usize); 3] = [(16, 12 << 10), (128, 96 << 10), (1_024, 352 << 10)];

/// A call clears the tables of the graph's size, all in its frame, and no count of instructions shows it. So none may grow, and
/// the frame of a larger size may not be merged into that of a caller.
#[test]
fn stack_by_size() {
    let mut from = 1;
    for (modules, bytes) in SIZES {
        for modules in [from, modules] {
            let most = with_stack(|| {
                let mut most = Most::default();
                most.take_all(&format!("{modules} modules"), &loads::unkept(modules));
                most
            });
            for (function, (used, graph)) in &most.0 {
                println!("{function:<12} {used:>9} {graph}");
                assert!(*used <= bytes, "{function}: {used} bytes of stack on {graph}");
            }
        }
        from = modules + 1;
    }
}

/// What the measure itself gives for a function whose frame is known.
#[test]
fn a_known_frame() {
    #[inline(never)]
    fn frame<const BYTES: usize>() {
        black_box(&mut [1u8; BYTES]);
    }
    let used = with_stack(|| [stack_of(|| ()), stack_of(frame::<{ 1 << 16 }>), stack_of(frame::<{ 3 << 20 }>)]);
    assert_eq!(used[0], LEFT);
    for (used, bytes) in [(used[1], 1 << 16), (used[2], 3 << 20)] {
        assert!((bytes..bytes + 2 * LEFT).contains(&used), "{used} bytes of stack for a frame of {bytes}");
    }
}
