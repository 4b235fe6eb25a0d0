//! What a refusal says of a graph that was built: the module, symbol, statement or entry, the field, and what it has to be.

use lizdakk::{
    CommonJsNamespace, EntryKind, Fact, Graph, HelperId, HelperUse, ImportKind, ModuleId, Record, Reference, Refused,
    RelatedStatement, ResolvedExport, StatementId, SymbolId,
};

/// A graph of a runtime, two modules and an external one, and its ids.
struct Built {
    graph: Graph,
    main: ModuleId,
    tools: ModuleId,
    react: ModuleId,
    hammer: SymbolId,
    statement: StatementId,
}

fn built() -> Built {
    let mut graph = Graph::new();
    let (main, tools, react) = (graph.module("main.js"), graph.module("tools.js"), graph.external("react"));
    let (hammer, statement) = (graph.symbol(tools, "hammer"), graph.statement(main));
    graph.entry(main);
    Built { graph, main, tools, react, hammer, statement }
}

fn refused(change: impl FnOnce(&mut Built)) -> String {
    let mut built = built();
    lizdakk::decide(&built.graph).expect("it is good before the change");
    change(&mut built);
    let refused = built.graph.check().expect_err("it is refused after the change").to_string();
    let (place, words) = refused.split_once(": ").expect("a place and words");
    assert!(place.starts_with("refused "), "{place}");
    words.to_string()
}

#[test]
fn of_modules() {
    let words = refused(|built| built.graph[built.main].namespace = None);
    assert_eq!(
        words,
        "module 1 (main.js): `namespace` has to be a symbol that a normal module owns itself; none for an external one"
    );
    let words = refused(|built| built.graph[built.main].namespace = Some(built.hammer));
    assert!(words.starts_with("module 1 (main.js): `namespace` has to be a symbol that a normal module owns"));
    let words = refused(|built| built.graph[built.tools].wrapper = Some(SymbolId::new(99)));
    assert_eq!(words, "module 2 (tools.js): `wrapper` has to be none, or a symbol of the graph");
    let words = refused(|built| built.graph.set_runtime(built.react));
    assert_eq!(words, "the graph: `runtime` has to be a normal module of the graph");
    let words = refused(|built| {
        built.graph.statement(built.react);
    });
    assert!(words.starts_with("module 3 (react): `statements` has to be at least one for a normal module, none for"));
}

#[test]
fn of_lists() {
    let words = refused(|built| {
        let (name, symbol) = (built.graph.name("hammer"), built.hammer);
        let export = ResolvedExport { name, symbol, from_commonjs: false };
        built.graph[built.tools].resolved_exports.extend([export, export]);
    });
    assert_eq!(
        words,
        "module 2 (tools.js): `resolved_exports[1].name` has to be a name that no earlier one of the list has"
    );
    let words = refused(|built| {
        let namespace = CommonJsNamespace { symbol: built.hammer, module: ModuleId::new(7) };
        built.graph[built.main].commonjs_namespaces.push(namespace);
    });
    assert_eq!(words, "module 1 (main.js): `commonjs_namespaces[0].module` has to be a module of the graph");
    let words = refused(|built| {
        let statement = built.statement;
        built.graph[built.main].helpers.push(HelperUse { helper: HelperId::new(0), statement });
    });
    assert_eq!(words, "module 1 (main.js): `helpers[0].helper` has to be a helper of the graph");
    let words = refused(|built| built.graph[built.main].dependencies = vec![built.tools; 16_385]);
    assert_eq!(words, "module 1 (main.js): `dependencies` has to be at most 16,384 long");
}

/// Gives each module so many statements and import records that an index of one is good in the other.
fn filled(built: &mut Built) -> [StatementId; 2] {
    let Built { graph, main, tools, .. } = built;
    let others = [*tools, *main].map(|target| {
        let module = if target == *tools { *main } else { *tools };
        let statements = [graph.statement(module), graph.statement(module), graph.statement(module)];
        for statement in statements {
            graph.import_record(statement, ImportKind::Import, Some(target));
        }
        statements[1]
    });
    assert!(graph.check().is_ok(), "that alone is no fault");
    others
}

/// A statement or an import record of another module is not taken for the one of the same index.
#[test]
fn of_other_modules_parts() {
    let words = refused(|built| {
        let [of_main, of_tools] = filled(built);
        assert!(built.graph.statements(built.tools).any(|own| own.index() == of_main.index()), "{of_tools}");
        built.graph.declare(of_main, built.hammer);
    });
    assert_eq!(words, "symbol 3 (hammer of tools.js): `declared_by[0]` has to be a statement of the symbol's owner");
    let words = refused(|built| {
        let [_, of_tools] = filled(built);
        let record = built.graph[of_tools].import_records[0];
        assert!(built.graph.import_records(built.main).any(|own| own.index() == record.index()));
        built.graph[built.statement].import_records.push(record);
    });
    assert_eq!(
        words,
        "statement 1 of module 1 (main.js): `import_records[0]` has to be an import record of that module"
    );
    let words = refused(|built| {
        let [_, of_tools] = filled(built);
        let helper = built.graph.helper(built.hammer);
        built.graph[built.main].helpers.push(HelperUse { helper, statement: of_tools });
    });
    assert_eq!(words, "module 1 (main.js): `helpers[0].statement` has to be a statement of that module");
    let words = refused(|built| {
        let [_, of_tools] = filled(built);
        let record = built.graph[of_tools].import_records[0];
        let import = built.graph.dynamic_import(built.statement, built.tools);
        built.graph[import.entry].related[0].record = record;
    });
    assert_eq!(
        words,
        "entry 1, module 2 (tools.js): `related[0].record` has to be a resolved import record of that module"
    );
    let words = refused(|built| {
        let hook = built.graph.symbol(built.react, "useState");
        built.graph[hook].declared_by.push(StatementId::new(built.react, 0));
    });
    assert_eq!(
        words,
        "symbol 4 (useState of react): `declared_by` has to be at most 16,384 long, and empty if the symbol's owner is external"
    );
}

#[test]
fn of_symbols_statements_and_entries() {
    let words = refused(|built| {
        let alias = built.graph.symbol(built.main, "hammer");
        built.graph[alias].root = built.hammer;
        built.graph[built.hammer].root = alias;
    });
    assert_eq!(words, "symbol 3 (hammer of tools.js): `root` has to be a symbol of the graph that is its own root");
    let words = refused(|built| {
        let (symbol, depended) = (built.hammer, vec![built.hammer, SymbolId::new(50)]);
        let reference = Reference::Resolved { symbol, is_commonjs_export: false, depended };
        built.graph[built.statement].references.push(reference);
    });
    assert_eq!(words, "statement 1 of module 1 (main.js): `references[0].depended[1]` has to be a symbol of the graph");
    let words = refused(|built| {
        let import = built.graph.dynamic_import(built.statement, built.tools);
        built.graph[import.record].target = None;
    });
    assert_eq!(
        words,
        "entry 1, module 2 (tools.js): `related[0].record` has to be a resolved import record of that module"
    );
    let words = refused(|built| {
        let import = built.graph.dynamic_import(built.statement, built.tools);
        let RelatedStatement { record, .. } = built.graph[import.entry].related[0];
        let statement = StatementId::new(built.react, 0);
        built.graph[import.entry].related[0] = RelatedStatement { statement, record, is_unreachable: false };
    });
    assert_eq!(words, "entry 1, module 2 (tools.js): `related[0].statement` has to be a statement of a normal module");
}

#[test]
fn of_counts() {
    let words = refused(|built| {
        for _ in 0..33 {
            built.graph.helper(built.hammer);
        }
    });
    assert_eq!(words, "the graph: `helpers` has to be at most 32 long");
    let words = refused(|built| {
        for _ in 0..1_024 {
            built.graph.module("");
        }
    });
    assert_eq!(words, "the graph: `modules` has to be 1 to 1,024 long");
    let mut built = built();
    built.graph[lizdakk::EntryId::new(0)].kind = EntryKind::EmittedUserDefined;
    assert!(built.graph.check().is_ok());
}

/// A graph file is refused in the same words, without labels.
#[test]
fn of_files() {
    let mut built = built();
    let file = built.graph.write();
    let cut = Graph::read(&file[..file.len() - 1]).expect_err("a number is missing");
    assert!(matches!(cut, Refused::Missing { .. }));
    assert!(cut.to_string().ends_with("entry 0: `related` is missing, the numbers end before it"), "{cut}");
    let longer = Graph::read(&[&file[..], &[0]].concat()).expect_err("a number is left over");
    assert_eq!(longer, Refused::LeftOver { number: built.graph.numbers().len() as u64 });
    built.graph[built.tools].namespace = None;
    let wrong = Graph::read(&built.graph.write()).expect_err("a namespace is missing");
    assert!(wrong.to_string().contains("module 2: `namespace` has to be"), "{wrong}");
}

/// Starts and records are refused by their own numbers and lines.
#[test]
fn of_starts_and_records() {
    let Built { graph, main, .. } = built();
    let starts = [Fact::Module(main), Fact::Module(ModuleId::new(9))];
    let refused = lizdakk::decide_from(&graph, &starts).map(drop).expect_err("there is no module 9");
    assert_eq!(refused.to_string(), "refused 3 at number 4 of the starts: start 1 is no fact that can be started");
    let record = Record::from_numbers(vec![1; 5]);
    let refused = lizdakk::judge(&graph, &starts[..1], &record).expect_err("five numbers are no line");
    assert_eq!(refused.to_string(), "refused 4 at number 5 of the record: its numbers do not come in sixes");
}

/// A name that is new to a graph that was read is none of the names in it.
#[test]
fn names_of_a_file_stay_apart() {
    let mut built = built();
    let (hammer, tools) = (built.hammer, built.tools);
    built.graph.export(tools, "hammer", hammer);
    let mut graph = Graph::read(&built.graph.write()).expect("it is good");
    for name in ["saw", "drill", "hammer"] {
        graph.export(tools, name, hammer);
    }
    assert!(graph.check().is_ok(), "four exports of four names");
}
