//! One party bundles and hands over a graph and a record. A second party, who trusts neither the bundler nor its record,
//! has the record judged.

use lizdakk::{decide, judge, own_starts, Graph, Record, Refused};

/// The files that go from one party to the other.
struct Files {
    graph: Vec<u8>,
    record: Vec<u8>,
}

/// The bundling party: decides, and writes down why.
fn bundle() -> Result<Files, Refused> {
    let mut graph = Graph::new();
    let (main, tools) = (graph.module("main.js"), graph.module("tools.js"));
    let (hammer, function) = (graph.symbol(tools, "hammer"), graph.statement(tools));
    graph.declare(function, hammer);
    let call = graph.statement(main);
    graph[call].has_side_effect = true;
    graph.refer(call, hammer);
    graph.entry(main);
    let record = decide(&graph)?.record();
    Ok(Files { graph: graph.write(), record: record.write() })
}

/// The second party: works out the starts from the graph, and has the record judged beside them.
fn check(files: &Files) -> Result<usize, Refused> {
    let graph = Graph::read(&files.graph)?;
    let record = Record::read(&files.record)?;
    judge(&graph, &own_starts(&graph)?, &record)?;
    Ok(record.lines().count())
}

fn main() -> Result<(), Refused> {
    let files = bundle()?;
    println!("as handed over: {} lines stand", check(&files)?);

    let mut lines: Vec<_> = Record::read(&files.record)?.lines().flatten().collect();
    for line in &lines {
        println!("  {line}");
    }
    lines.pop();
    let shortened = Files { graph: files.graph.clone(), record: Record::from_lines(&lines).write() };
    println!("without its last line: {}", check(&shortened).unwrap_err());

    lines.swap(0, 2);
    let shuffled = Files { graph: files.graph, record: Record::from_lines(&lines).write() };
    println!("with two lines exchanged: {}", check(&shuffled).unwrap_err());
    Ok(())
}
