//! `once LOAD OPERATION` calls an operation of the library on a main load: run, drain, judge or starts; on a load with
//! dead imports at the end, which no other operation works out, a run; on one with rounds that settle, a run or starts,
//! since no other operation makes rounds. Others are called only as far as it needs what they write, and none of them
//! twice: what is counted inside its function is of one call. Without arguments the loads and their operations are
//! listed.

use compare::library::judge;
use compare::{own_starts, DrainBuffers, RunBuffers};
use lizdakk::with_stack;
use peer::loads::{all_loads, main_loads, Load, LOADS_AT_END, LOADS_SETTLED};
use peer::{Refusal, Refused};
use std::process::ExitCode;

const OPERATIONS: [&str; 4] = ["run", "drain", "judge", "starts"];

fn main() -> ExitCode {
    let arguments: Vec<String> = std::env::args().skip(1).collect();
    let found = match &arguments[..] {
        [] => list(),
        [key, operation] => call_on(key, operation),
        _ => None,
    };
    if found.is_none() {
        eprintln!("once LOAD OPERATION");
        return ExitCode::from(2);
    }
    ExitCode::SUCCESS
}

fn list() -> Option<()> {
    list_of(main_loads(), &OPERATIONS);
    list_of(&LOADS_AT_END, &["run"]);
    list_of(&LOADS_SETTLED, &["run", "starts"]);
    Some(())
}

fn list_of(loads: &[Load], operations: &[&str]) {
    for load in loads {
        operations.iter().for_each(|operation| println!("{} {operation}", load.key));
    }
}

/// None if there is no such load or operation.
fn call_on(key: &str, operation: &str) -> Option<()> {
    let load = all_loads().find(|load| load.key == key)?;
    let numbers = load.graph().numbers();
    with_stack(|| call(&numbers, operation)).expect("a load is a graph")
}

fn call(numbers: &[u32], operation: &str) -> Result<Option<()>, Refused> {
    match operation {
        "run" => drop(RunBuffers::for_graph(numbers)?),
        "drain" => drop(DrainBuffers::for_graph(numbers, &own_starts(numbers)?)?),
        "judge" => {
            let (starts, run) = (own_starts(numbers)?, RunBuffers::for_graph(numbers)?);
            assert_eq!(judge(numbers, &starts, run.main_record()), Refusal::PASSED);
        }
        "starts" => drop(own_starts(numbers)?),
        _ => return Ok(None),
    }
    Ok(Some(()))
}
