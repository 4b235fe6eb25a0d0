//! Build a graph, decide what is kept, ask why.

use lizdakk::{decide, Graph, Refused};

fn main() -> Result<(), Refused> {
    // tools.js:  export function hammer() { .. }
    //            export function saw() { .. }
    // main.js:   import { hammer } from './tools.js';
    //            hammer();
    let mut graph = Graph::new();
    let tools = graph.module("tools.js");
    let (hammer, saw) = (graph.symbol(tools, "hammer"), graph.symbol(tools, "saw"));
    for (name, symbol) in [("hammer", hammer), ("saw", saw)] {
        let function = graph.statement(tools);
        graph.declare(function, symbol);
        graph.export(tools, name, symbol);
    }
    let main = graph.module("main.js");
    let import = graph.statement(main);
    let imported = graph.import_symbol(import, hammer);
    let call = graph.statement(main);
    graph[call].has_side_effect = true;
    graph.refer(call, imported);
    graph.entry(main);

    let kept = decide(&graph)?;
    for module in graph.modules() {
        println!("{}: {}", graph.tell(module), if kept.is_kept(module) { "kept" } else { "dropped" });
        for statement in kept.statements(module) {
            println!("{:#}", kept.why(statement).expect("it is kept"));
        }
    }
    println!("saw is used: {}", kept.is_used(saw));
    Ok(())
}
