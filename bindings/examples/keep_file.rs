//! What a graph file keeps, and why: `cargo run --example keep_file -- ../examples/live_import.graph`.

use lizdakk::{decide, Graph, Kept};
use std::error::Error;
use std::process::ExitCode;

fn main() -> ExitCode {
    match keep_file() {
        Ok(()) => ExitCode::SUCCESS,
        Err(error) => {
            eprintln!("{error}");
            ExitCode::FAILURE
        }
    }
}

fn keep_file() -> Result<(), Box<dyn Error>> {
    let path = std::env::args().nth(1).ok_or("usage: keep_file GRAPH_FILE")?;
    let graph = Graph::read(&std::fs::read(path)?)?;
    let kept = decide(&graph)?;
    println!("rounds: {}", kept.rounds());
    for entry in kept.final_entries() {
        println!("{}", graph.tell(*entry));
    }
    tell_kept(&graph, &kept);
    tell_dropped(&graph, &kept);
    Ok(())
}

fn tell_kept(graph: &Graph, kept: &Kept) {
    for module in kept.modules() {
        println!("{:#}", kept.why(module).expect("it is kept"));
        for statement in kept.statements(module) {
            println!("{:#}", kept.why(statement).expect("it is kept"));
        }
    }
    for symbol in kept.external() {
        println!("{} of an external module is used", graph.tell(symbol));
    }
}

fn tell_dropped(graph: &Graph, kept: &Kept) {
    for why_not in graph.entries().filter_map(|entry| kept.why_not(entry)) {
        println!("{why_not:#}");
    }
    for record in kept.dead_imports() {
        println!("{} is dead", graph.tell(record));
    }
}
