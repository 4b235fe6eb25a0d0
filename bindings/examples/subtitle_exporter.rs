//! A subtitle exporter lost its line breaker, and nothing warned anyone. Here is what was decided, why, and the cure.

use lizdakk::{decide, DynamicImport, Graph, ModuleId, Refused, SideEffects};

/// The exporter as it was bundled.
///
/// - main.js: `import './exporter.js';`
/// - exporter.js: `import('./line_breaker.js'); console.log('WEBVTT');`
/// - line_breaker.js: `registry.lineBreaker = breakLines;`, in a package that says `"sideEffects": false`.
struct Exporter {
    graph: Graph,
    line_breaker: ModuleId,
    import: DynamicImport,
}

impl Exporter {
    fn new() -> Exporter {
        let mut graph = Graph::new();
        let main = graph.module("main.js");
        let exporter = graph.module("exporter.js");
        let line_breaker = graph.module("line_breaker.js");

        let static_import = graph.statement(main);
        graph.import(static_import, exporter);
        graph.entry(main);

        let dynamic_import = graph.statement(exporter);
        graph[dynamic_import].has_side_effect = true;
        let import = graph.dynamic_import(dynamic_import, line_breaker);
        graph[import.record].is_top_level_pure = true;
        let log = graph.statement(exporter);
        graph[log].has_side_effect = true;

        graph[line_breaker].side_effects = Some(SideEffects::UserDefined(false));
        graph[line_breaker].dynamic_imports_use_no_export = true;
        let register = graph.statement(line_breaker);
        graph[register].has_side_effect = true;
        Exporter { graph, line_breaker, import }
    }

    fn report(&self) -> Result<(), Refused> {
        let kept = decide(&self.graph)?;
        for record in kept.dead_imports() {
            println!("dropped: {}", self.graph.tell(record));
        }
        match kept.why_not(self.import.entry) {
            Some(why_not) => println!("{why_not:#}"),
            None => println!("{:#}", kept.why(self.line_breaker).expect("a live entry's module is kept")),
        }
        Ok(())
    }
}

fn main() -> Result<(), Refused> {
    let mut exporter = Exporter::new();
    println!("As it was:");
    exporter.report()?;

    println!("\nWith the truth about its side effects:");
    exporter.graph[exporter.line_breaker].side_effects = Some(SideEffects::UserDefined(true));
    exporter.report()
}
