//! Graphs made by hand with statements that come late, and what runs list.

use compare::RunBuffers;
use peer::model::{Graph, Module};
use peer::reference::run;
use std::collections::BTreeSet;

/// Module 1 is the user-defined entry. The entry of module 2 waits for statement 2 of module 1, which comes with the
/// entry of module 3 in round 1, after the try: dead in round 1, live in round 2.
#[rustfmt::skip]
pub const LIVE_LATER: [u32; 187] = [
    1, 0, 4, 5, 7, 3, 0, 1, 0, 0, 0, 0, 0, 0, 1, 0, 1, 0, 1, 0, 0, 0, 0, 0, 0, 0, 0, 0, 0, 1, 1, 0, 0, 0, 0, 0, 2,
    0, 3, 1, 3, 2, 3, 2, 2, 4, 2, 0, 0, 0, 0, 0, 0, 0, 0, 0, 0, 1, 0, 0, 0, 0, 0, 0, 3, 0, 1, 0, 1, 0, 0, 0, 0, 0,
    0, 0, 0, 0, 0, 1, 0, 0, 0, 0, 0, 0, 4, 0, 2, 0, 2, 0, 0, 0, 0, 0, 0, 0, 0, 0, 0, 0, 1, 0, 0, 0, 0, 0, 0, 0, 1,
    1, 1, 0, 0, 0, 0, 0, 0, 2, 1, 2, 0, 0, 0, 0, 0, 0, 3, 1, 3, 0, 0, 0, 0, 0, 0, 1, 1, 4, 0, 0, 0, 0, 1, 2, 0, 0,
    0, 0, 0, 0, 0, 1, 0, 0, 0, 0, 0, 0, 0, 0, 0, 0, 0, 1, 0, 1, 0, 4, 1, 0, 0, 2, 2, 1, 1, 2, 0, 0, 3, 2, 1, 1, 1,
    1, 0,
];

/// The entry of module 3, which is kept before, brings statement 2 of module 1 in the only round. The entry of module 2
/// has an import in it and one in statement 0; it is tried before that, and not again.
#[rustfmt::skip]
pub const LIVE_TOO_LATE: [u32; 191] = [
    1, 0, 4, 5, 6, 3, 0, 1, 0, 0, 0, 0, 0, 0, 1, 0, 1, 0, 1, 0, 0, 0, 0, 0, 0, 0, 0, 0, 0, 1, 1, 0, 0, 0, 0, 0, 2,
    0, 3, 1, 3, 3, 3, 2, 2, 4, 2, 0, 3, 2, 2, 1, 3, 0, 0, 0, 0, 0, 0, 0, 0, 1, 0, 0, 0, 0, 0, 0, 3, 0, 1, 0, 1, 0,
    0, 0, 0, 0, 0, 0, 0, 0, 0, 1, 1, 0, 0, 0, 0, 0, 4, 0, 1, 1, 1, 0, 0, 0, 0, 1, 4, 0, 0, 0, 0, 0, 0, 1, 0, 0, 0,
    0, 0, 0, 0, 1, 1, 1, 0, 0, 0, 0, 0, 0, 2, 1, 2, 0, 0, 0, 0, 0, 0, 3, 1, 3, 0, 0, 0, 0, 0, 0, 1, 1, 4, 0, 0, 0,
    0, 1, 2, 0, 0, 0, 0, 0, 0, 0, 1, 0, 0, 0, 0, 0, 0, 0, 0, 0, 0, 0, 1, 0, 0, 2, 2, 2, 1, 0, 2, 0, 1, 2, 0, 0, 3,
    2, 1, 1, 1, 1, 0,
];

pub fn library_run(numbers: &[u32]) -> RunBuffers<'_> {
    RunBuffers::for_graph(numbers).expect("a good graph")
}

/// The dead imports of a run, module and record.
pub fn dead_imports(graph: &Graph, run: &RunBuffers) -> BTreeSet<[u32; 2]> {
    let records = |(module, of): (u32, &Module)| (0..of.records.len() as u32).map(move |record| [module, record]);
    let all = (0..).zip(&graph.modules).flat_map(records);
    all.filter(|&[module, record]| run.dead(module as usize, record as usize)).collect()
}

/// What a run of these numbers lists, by library and reference, without the lines of modules.
#[track_caller]
pub fn lists(numbers: &[u32], options: u32, lines: &str, dead: &[&str]) {
    let numbers: Vec<u32> = [&[options], &numbers[1..]].concat();
    let listing = library_run(&numbers).listing();
    assert_eq!(listing, run::listing(&numbers));
    let listed: Vec<&str> = listing.lines().filter(|line| !line.starts_with("module ")).collect();
    assert_eq!(listed, [&lines.split(", ").collect::<Vec<&str>>(), dead].concat(), "options {options}");
}
