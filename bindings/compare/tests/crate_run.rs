//! What the crate says of a run against the peer, on many graphs: everything that is kept, the record, starts and judge.
//!
//! KEEP_CASES is how many runs there are at least (20,000 if it is not set), KEEP_SEED the first seed.

mod seeds;

use lizdakk::boundary::Lengths;
use lizdakk::{
    decide_from_here, decide_here, judge_here, own_starts_here, Cause, Fact, Graph, Kept, Origin, Reason, Record,
    Refused,
};
use peer::generate::late::late_graph;
use peer::generate::runs::{import_graph, run_graph, small_run_graph};
use peer::generate::settled::settled_graph;
use peer::generate::{self, Random, Size};
use peer::listing::{first_records, first_statement_bytes, is_set};
use peer::reference::drain;
use peer::reference::run::Run;
use peer::reference::starts::Starts;
use seeds::for_seeds;

const CASES: u64 = 20_000;

/// The crate's graph of the peer's.
fn read(graph: peer::model::Graph, seed: u64) -> (Graph, peer::model::Graph) {
    let numbers = graph.numbers().into_iter();
    let file = numbers.flat_map(|number| generate::padded(number.into(), generate::shortest_width(number.into())));
    let read = Graph::read_here(&file.collect::<Vec<u8>>());
    (read.unwrap_or_else(|refused| panic!("seed {seed}: {refused}")), graph)
}

/// Graphs of the crate and of the peer.
fn both(seed: u64) -> Vec<(Graph, peer::model::Graph)> {
    let mut random = Random::new(seed);
    let size = Size::small(&mut random);
    let graphs = [
        generate::graph(&mut random, size),
        run_graph(&mut random),
        small_run_graph(&mut random),
        import_graph(&mut random),
    ];
    graphs.map(|graph| read(graph, seed)).into()
}

fn indexes<T>(row: impl Iterator<Item = T>, index: impl Fn(T) -> u32) -> Vec<usize> {
    row.map(|id| index(id) as usize).collect()
}

fn set_bits(row: &[u8], count: usize) -> Vec<usize> {
    (0..count).filter(|&bit| is_set(row, bit)).collect()
}

fn compare_symbols(kept: &Kept, run: &Run, symbols: usize) {
    assert_eq!(indexes(kept.used(), lizdakk::SymbolId::index), set_bits(&run.used, symbols));
    assert_eq!(indexes(kept.external(), lizdakk::SymbolId::index), set_bits(&run.external, symbols));
    assert_eq!(indexes(kept.json(), lizdakk::SymbolId::index), set_bits(&run.json, symbols));
}

fn compare_modules(graph: &Graph, kept: &Kept, run: &Run, model: &peer::model::Graph) {
    let (bytes, records) = (first_statement_bytes(model), first_records(model));
    assert_eq!(indexes(kept.modules(), lizdakk::ModuleId::index), set_bits(&run.modules, model.modules.len()));
    for (at, module) in graph.modules().enumerate() {
        let statements = model.modules[at].statements.len();
        let expected = set_bits(&run.statements[bytes[at]..], statements);
        assert_eq!(indexes(kept.statements(module), lizdakk::StatementId::index), expected);
        for record in graph.import_records(module) {
            assert_eq!(kept.is_dead(record), is_set(&run.dead, records[at] + record.index() as usize));
        }
        let word = kept.helpers(module).fold(0, |word, helper| word | 1 << helper.index());
        assert_eq!(word, run.helpers[at]);
        let reason = kept.namespace_reason(module);
        assert_eq!(u8::from(reason.unknown) + 2 * u8::from(reason.reexport_dynamic_exports), run.reason[at]);
        let effects = kept.side_effects(module).expect("the module is there").has_side_effects();
        assert_eq!(effects, [1, 3, 4].contains(&run.verdicts[at]));
    }
}

fn compare_live(graph: &Graph, kept: &Kept, run: &Run, model: &peer::model::Graph) {
    for (at, entry) in graph.entries().enumerate() {
        let module = model.entries[at].module as usize;
        let dynamic = model.entries[at].kind == 2;
        let also_user_defined = model.entries.iter().any(|other| other.kind < 2 && other.module as usize == module);
        if dynamic && (graph.options.code_splitting || (!also_user_defined && model.modules[module].normal)) {
            assert_eq!(kept.is_live(entry), run.course.live[module]);
        }
    }
}

/// Everything that is kept, the record of both stages, and the run's own starts are the peer's; the judge passes them.
fn decided(graph: &Graph, model: &peer::model::Graph, seed: u64) {
    let (kept, run) = (decide_here(graph).expect("it was accepted"), Run::of(model));
    assert_eq!(kept.rounds(), u64::from(run.rounds), "seed {seed}");
    let entries: Vec<u32> = kept.final_entries().iter().map(|entry| entry.index()).collect();
    assert_eq!(entries, run.entries, "seed {seed}");
    compare_modules(graph, &kept, &run, model);
    compare_symbols(&kept, &run, model.symbols.len());
    compare_live(graph, &kept, &run, model);
    let lines = |lines: &[lizdakk::Line]| lines.iter().map(|line| line.numbers()).collect::<Vec<_>>();
    let expected = |lines: &[peer::reference::drain::Line]| lines.iter().map(|line| line.numbers()).collect::<Vec<_>>();
    assert_eq!(lines(&kept.lines()[..run.lines.len()]), expected(&run.lines), "seed {seed}");
    assert_eq!(lines(kept.runtime_lines()), expected(&run.runtime_lines), "seed {seed}");
    let starts = own_starts_here(graph).expect("it was accepted");
    assert_eq!(
        starts.iter().map(|start| start.numbers()).collect::<Vec<_>>(),
        Starts::of(model).facts.iter().map(|start| start.parts()).collect::<Vec<_>>()
    );
    assert_eq!(judge_here(graph, &starts, &kept.record()), Ok(()), "seed {seed}");
}

#[test]
fn decided_alike() {
    for_seeds("runs", seeds::cases(CASES), |seed| {
        both(seed).iter().for_each(|(graph, model)| decided(graph, model, seed));
        4
    });
}

#[test]
fn decided_alike_with_dead_imports_at_the_end() {
    for_seeds("runs with dead imports at their end", seeds::cases(CASES) / 4, |seed| {
        let (graph, model) = read(late_graph(&mut Random::new(seed)), seed);
        assert!(graph.options.dead_imports_at_end);
        decided(&graph, &model, seed);
        1
    });
}

#[test]
fn decided_alike_with_rounds_that_settle() {
    for_seeds("runs that settle", seeds::cases(CASES) / 4, |seed| {
        let (graph, model) = read(settled_graph(&mut Random::new(seed)), seed);
        assert!(graph.options.settle);
        decided(&graph, &model, seed);
        1
    });
}

/// A record without its last line is refused behind its lines or, if another line named it, there; one with a line
/// twice at the second; one that is cut within a line at its length.
#[test]
fn changed_records_are_refused() {
    for_seeds("changed records", seeds::cases(CASES) / 4, |seed| {
        for (graph, _) in both(seed) {
            let (kept, starts) = (decide_here(&graph).unwrap(), own_starts_here(&graph).unwrap());
            let mut numbers = kept.record().numbers().to_vec();
            let lines = numbers.len() / 6;
            if lines == 0 {
                continue;
            }
            let cut = Record::from_numbers(numbers[..numbers.len() - 1].to_vec());
            let length = numbers.len() as u64 - 1;
            assert_eq!(judge_here(&graph, &starts, &cut), Err(Refused::RecordLength { length }));
            let shorter = Record::from_numbers(numbers[..6 * (lines - 1)].to_vec());
            assert_eq!(judge_here(&graph, &starts, &shorter), Err(Refused::Absent { lines: lines as u64 - 1 }));
            numbers.extend_from_within(..6);
            let twice = Record::from_numbers(numbers);
            let (line, found) = (lines as u64, Some(kept.lines()[0]));
            assert_eq!(judge_here(&graph, &starts, &twice), Err(Refused::BadLine { line, found }));
            let forward = Fact::Forward(lizdakk::SymbolId::new(0));
            assert_eq!(judge_here(&graph, &[forward], &kept.record()), Err(Refused::BadStart { start: 0, number: 0 }));
        }
        4
    });
}

/// Given starts keep what the peer's drain of them keeps; each fact has a chain that ends in a given one.
#[test]
fn drained_alike() {
    for_seeds("drains", seeds::cases(CASES), |seed| {
        let mut random = Random::new(seed);
        for (graph, model) in both(seed) {
            let triples = generate::starts(&mut random, &model);
            let starts: Vec<Fact> =
                triples.chunks(3).filter_map(|triple| Fact::of(triple.try_into().expect("three numbers"))).collect();
            assert_eq!(3 * starts.len(), triples.len(), "seed {seed}");
            let kept = decide_from_here(&graph, &starts).unwrap_or_else(|refused| panic!("seed {seed}: {refused}"));
            let expected = drain::answer(&model.numbers(), &triples).expect("good starts");
            assert_eq!(kept.record().numbers(), expected.record(), "seed {seed}");
            assert_eq!(
                indexes(kept.modules(), lizdakk::ModuleId::index),
                set_bits(&expected.modules, model.modules.len())
            );
            assert_eq!(indexes(kept.used(), lizdakk::SymbolId::index), set_bits(&expected.used, model.symbols.len()));
            assert_eq!(indexes(kept.json(), lizdakk::SymbolId::index), set_bits(&expected.json, model.symbols.len()));
            assert_eq!(judge_here(&graph, &starts, &kept.record()), Ok(()), "seed {seed}");
            assert_eq!((kept.rounds(), kept.final_entries().len(), kept.runtime_lines().len()), (0, 0, 0));
            for line in kept.lines().iter().take(40) {
                let why = kept.why(line.fact).expect("it holds");
                let starts = why.steps().iter().filter(|step| step.because.is_empty());
                assert!(starts.into_iter().all(|step| step.cause == Cause::Start(Origin::Given)), "seed {seed}");
            }
        }
        4
    });
}

/// A start that is not a fact of the graph, or is a forward, is refused at its number.
#[test]
fn bad_starts_are_refused() {
    for_seeds("bad starts", seeds::cases(CASES) / 20, |seed| {
        for (graph, model) in both(seed) {
            let outside = [
                Fact::Module(lizdakk::ModuleId::new(model.modules.len() as u32)),
                Fact::Bailout(lizdakk::ModuleId::new(u32::MAX)),
                Fact::Use(lizdakk::SymbolId::new(model.symbols.len() as u32), Reason::NORMAL),
                Fact::Forward(lizdakk::SymbolId::new(0)),
            ];
            for (start, places) in outside.into_iter().zip([1, 1, 1, 0]) {
                let refused = decide_from_here(&graph, &[start]).map(drop).unwrap_err();
                assert_eq!(refused, Refused::BadStart { start: 0, number: places }, "seed {seed}: {start}");
            }
        }
        4
    });
}

/// The lengths that follow from the numbers are those of the peer's rows; a row that is one shorter is refused elsewhere
/// (`run.rs`, `drain.rs`).
#[test]
fn lengths_are_exact() {
    for_seeds("lengths", seeds::cases(CASES), |seed| {
        for (graph, model) in both(seed) {
            let (lengths, run) = (Lengths::of(&graph.numbers()).expect("a graph"), Run::of(&model));
            let symbols = [&run.used, &run.external, &run.json].map(Vec::len);
            assert_eq!(symbols, [lengths.symbols; 3], "seed {seed}");
            assert_eq!((lengths.marks, lengths.modules), (run.marks.len(), run.modules.len()), "seed {seed}");
            assert_eq!((lengths.statements, lengths.reason), (run.statements.len(), run.reason.len()), "seed {seed}");
            assert_eq!((lengths.dead, lengths.helpers), (run.dead.len(), run.helpers.len()), "seed {seed}");
            assert_eq!((lengths.entries, lengths.verdicts), (run.all_entries, run.verdicts.len()), "seed {seed}");
            let lines = run.lines.len() + run.runtime_lines.len();
            assert!(6 * lines <= lengths.run_record && 3 * run.starts.len() <= lengths.starts, "seed {seed}");
            for cut in 0..graph.numbers().len() {
                let _ = Lengths::of(&graph.numbers()[..cut]);
                if seed > 20 {
                    break;
                }
            }
        }
        4
    });
}
