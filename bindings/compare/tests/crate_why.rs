//! The crate's explanations against the record and the peer: each step of a chain is a line with its rule and its named
//! lines, each start has the origin that the peer's run gives it, and a dead entry lacks what the peer finds missing.
//!
//! KEEP_CASES is how many runs there are at least (20,000 if it is not set), KEEP_SEED the first seed.

mod seeds;

use lizdakk::{
    decide_here, Asked, Cause, Fact, Graph, HelperUse, ImportKind, Kept, Lacks, Line, Origin, Rule, Statement, Step,
    Why,
};
use peer::generate::late::late_graph;
use peer::generate::runs::{import_graph, run_graph, small_run_graph};
use peer::generate::settled::settled_graph;
use peer::generate::{self, Random};
use peer::reference::entries::{entry_starts, user_defined_starts};
use peer::reference::rules::Rules;
use peer::reference::run::Run;
use seeds::for_seeds;
use std::collections::HashMap;
use std::sync::Mutex;

const CASES: u64 = 20_000;

/// A run by the crate and by the peer.
struct Case<'g> {
    graph: &'g Graph,
    kept: Kept<'g>,
    run: Run,
    model: &'g peer::model::Graph,
    /// A fact may have a line in each stage.
    lines: HashMap<Fact, Vec<Line>>,
}

impl<'g> Case<'g> {
    fn new(graph: &'g Graph, model: &'g peer::model::Graph) -> Case<'g> {
        let kept = decide_here(graph).expect("it was accepted");
        let mut lines: HashMap<Fact, Vec<Line>> = HashMap::new();
        kept.lines().iter().for_each(|line| lines.entry(line.fact).or_default().push(*line));
        Case { graph, kept, run: Run::of(model), model, lines }
    }

    fn on_cycle(&self, entry: lizdakk::EntryId) -> bool {
        self.run.course.on_cycle[self.graph[entry].module.index() as usize]
    }

    fn is_live(&self, entry: lizdakk::EntryId) -> bool {
        self.run.course.live[self.graph[entry].module.index() as usize]
    }

    fn is_dynamic(&self, entry: lizdakk::EntryId) -> bool {
        self.graph[entry].kind == lizdakk::EntryKind::DynamicImport
    }

    /// Whether a fact is among those that the peer starts for an entry.
    fn starts(&self, entry: lizdakk::EntryId, fact: Fact) -> bool {
        let rules = Rules::new(self.model);
        let module = self.graph[entry].module.index();
        let dynamic = self.is_dynamic(entry);
        let starts = if dynamic { entry_starts(&rules, module) } else { user_defined_starts(&rules, module) };
        starts.iter().any(|start| start.parts() == fact.numbers())
    }

    /// A chain goes from starts to the fact: each step follows from earlier ones, as its line says.
    fn check(&self, why: &Why) {
        let steps = why.steps();
        for (at, step) in steps.iter().enumerate() {
            assert!(step.because.iter().all(|&earlier| earlier < at));
            let premises: Vec<Fact> = step.because.iter().map(|&earlier| steps[earlier].fact).collect();
            match step.cause {
                Cause::Rule(rule) => self.check_rule(step, rule, &premises),
                Cause::Start(origin) => self.check_start(step.fact, origin, &premises),
            }
        }
        let used: Vec<usize> = steps.iter().flat_map(|step| step.because.iter().copied()).collect();
        assert!((0..steps.len() - 1).all(|step| used.contains(&step)), "each step but the last one is named");
        self.check_text(why);
    }

    /// The text of a sweep says why the statement is swept, and that of a whole import how it is imported.
    fn check_text(&self, why: &Why) {
        let text = why.to_string();
        assert!(text.ends_with('.') && !text.contains("  "));
        let clause = text.split(" (K").next().expect("a text has a first clause");
        let steps = why.steps();
        let is_last = |rule: Rule| steps.last().is_some_and(|step| step.cause == Cause::Rule(rule));
        let Some(Step { fact, because, .. }) = steps.last() else { return };
        if let (true, Fact::Statement(statement)) = (is_last(Rule::SideEffect), *fact) {
            let (module, verdict) = (statement.module(), self.run.verdicts[statement.module().index() as usize]);
            let whole = !self.graph.options.treeshake || verdict == 4;
            let only_unknown = self.graph[module].safely_treeshake_commonjs && self.graph.options.commonjs;
            let Statement { has_side_effect, has_unknown_side_effect, .. } = self.graph[statement];
            let effect = if only_unknown { has_unknown_side_effect } else { has_side_effect };
            assert!(whole || effect || self.graph[module].has_eval);
            assert_eq!(clause.contains("because nothing is shaken in"), whole, "{text}");
            assert_eq!(clause.contains("because it has a side effect in"), !whole && effect, "{text}");
        }
        if let (true, Fact::Bailout(module)) = (is_last(Rule::ImportRecordBailout), *fact) {
            let Fact::Statement(statement) = steps[because[0]].fact else { panic!("K7 is from a statement") };
            let kind =
                if clause.contains("because it is required by") { ImportKind::Require } else { ImportKind::Dynamic };
            let noticed = [1, 3, 4].contains(&self.run.verdicts[module.index() as usize]);
            let mut records = self.graph[statement].import_records.iter().map(|&record| &self.graph[record]);
            let bails_out = |record: &lizdakk::ImportRecord| noticed || !record.is_top_level_pure;
            assert!(
                records.any(|record| record.target == Some(module) && record.kind == kind && bails_out(record)),
                "{text}"
            );
        }
    }

    fn check_rule(&self, step: &Step, rule: Rule, premises: &[Fact]) {
        assert_ne!(rule, Rule::Start, "a start has an origin: {}", step.fact);
        assert_eq!(premises.len(), if rule == Rule::ForwardedDeclaration { 2 } else { 1 });
        let fact_of = |line: &u32| self.kept.lines()[*line as usize].fact;
        let says_so = |line: &Line| {
            line.rule == rule && line.because.iter().flatten().all(|line| premises.contains(&fact_of(line)))
        };
        assert!(self.lines[&step.fact].iter().any(says_so), "{}", step.fact);
    }

    fn check_start(&self, fact: Fact, origin: Origin, premises: &[Fact]) {
        assert!(self.lines[&fact].iter().any(|line| (line.rule, line.because) == (Rule::Start, [None, None])));
        let main = self.run.starts.iter().any(|start| start.parts() == fact.numbers());
        match origin {
            Origin::UserDefinedEntry(entry) => {
                assert!(main && !self.is_dynamic(entry) && premises.is_empty() && self.starts(entry, fact));
            }
            Origin::DynamicEntryOnCycle(entry) => {
                assert!(main && self.is_dynamic(entry) && self.on_cycle(entry) && premises.is_empty());
                assert!(self.starts(entry, fact));
            }
            Origin::DynamicEntry(entry) => {
                assert!(main && self.is_dynamic(entry) && !self.on_cycle(entry) && self.is_live(entry));
                assert!(self.starts(entry, fact));
                let [Fact::Statement(statement)] = *premises else { panic!("{premises:?}") };
                assert!(self.graph[entry].related.iter().any(|related| related.statement == statement));
            }
            Origin::CommonJsExports(module) => assert!(main && *premises == [Fact::Bailout(module)]),
            Origin::Helper(helper) => {
                assert!(matches!(fact, Fact::Use(symbol, _) if symbol == self.graph.helper_symbol(helper)));
                let [Fact::Statement(statement)] = *premises else { panic!("{premises:?}") };
                let module = statement.module();
                assert!(self.graph[module].helpers.contains(&HelperUse { helper, statement }));
                let main = &self.kept.lines()[..self.run.lines.len()];
                assert!(main.iter().any(|line| line.fact == Fact::Module(module)), "its module is kept: {module}");
            }
            Origin::RuntimeSideEffects => assert_eq!(fact, Fact::Module(self.graph.runtime())),
            other => panic!("a run finds its starts: {other:?}"),
        }
    }

    fn ask(&self, asked: impl Into<Asked>, holds: bool) {
        let why = self.kept.why(asked);
        assert_eq!(why.is_some(), holds);
        why.iter().for_each(|why| self.check(why));
    }

    /// Every fact, module, statement and symbol.
    fn ask_all(&self) {
        self.kept.lines().iter().for_each(|line| self.ask(line.fact, true));
        for module in self.graph.modules() {
            self.ask(module, self.kept.is_kept(module));
            let statements = self.graph.statements(module);
            statements.for_each(|statement| self.ask(statement, self.kept.is_statement_kept(statement)));
        }
        self.graph.symbols().for_each(|symbol| self.ask(symbol, self.kept.is_used(symbol)));
    }

    fn is_kept_by_runtime_stage(&self, statement: lizdakk::StatementId) -> bool {
        self.kept.runtime_lines().iter().any(|line| line.fact == Fact::Statement(statement))
    }

    /// What each related statement of a dead entry lacks; how often each lack occurs.
    fn ask_why_not(&self) -> [u64; 4] {
        let mut lacking = [0; 4];
        for entry in self.graph.entries() {
            let Some(why_not) = self.kept.why_not(entry) else {
                assert!(self.kept.is_live(entry));
                continue;
            };
            assert!(self.is_dynamic(entry) && !self.kept.is_live(entry));
            let unused = self.graph[self.graph[entry].module].dynamic_imports_use_no_export;
            let at_end = self.graph.options.dead_imports_at_end;
            for (related, lacks) in why_not.related() {
                let kept = self.kept.is_statement_kept(related.statement);
                match lacks {
                    Lacks::Reach => assert!(related.is_unreachable),
                    Lacks::Inclusion => assert!(!kept),
                    // At the end, a live entry may have the import too, or a try would now find this one live.
                    Lacks::Notice => assert!(kept && unused && (at_end || self.kept.is_dead(related.record))),
                    Lacks::Time => {
                        assert!(kept && !related.is_unreachable);
                        assert!(!self.graph.options.settle || self.is_kept_by_runtime_stage(related.statement));
                        let told = why_not.to_string().contains(", and its import() is not dead");
                        assert!(if at_end { told || self.kept.is_dead(related.record) } else { !told });
                    }
                    other => panic!("{other:?}"),
                }
                lacking[*lacks as usize] += 1;
            }
            assert!(why_not.to_string().ends_with('.'));
        }
        lacking
    }
}

fn read(model: &peer::model::Graph) -> Graph {
    let numbers = model.numbers().into_iter();
    let bytes = numbers.flat_map(|number| generate::padded(number.into(), generate::shortest_width(number.into())));
    Graph::read_here(&bytes.collect::<Vec<u8>>()).expect("a good graph")
}

/// All chains of a run are sound, and all dead entries are explained.
#[test]
fn explained() {
    for_seeds("explained runs", seeds::cases(CASES), |seed| {
        let mut random = Random::new(seed);
        let models = [run_graph(&mut random), small_run_graph(&mut random), import_graph(&mut random)];
        for model in models {
            let graph = read(&model);
            let case = Case::new(&graph, &model);
            assert_eq!(case.model.modules.len(), graph.modules().count());
            case.ask_all();
            case.ask_why_not();
        }
        3
    });
}

/// So are they with dead imports at the end, where those of entries that came too late are not dead.
#[test]
fn explained_with_dead_imports_at_the_end() {
    explain("explained runs with dead imports at their end", late_graph);
}

/// And with rounds that settle, where only the runtime stage comes too late.
#[test]
fn explained_with_rounds_that_settle() {
    explain("explained runs that settle", settled_graph);
}

/// Explains what such graphs keep and do not; each lack occurs.
fn explain(what: &str, model: fn(&mut Random) -> peer::model::Graph) {
    let lacking = Mutex::new([0; 4]);
    let cases = seeds::cases(CASES) / 4;
    for_seeds(what, cases, |seed| {
        let model = model(&mut Random::new(seed));
        let graph = read(&model);
        let case = Case::new(&graph, &model);
        case.ask_all();
        let found = case.ask_why_not();
        lacking.lock().expect("no test has failed").iter_mut().zip(found).for_each(|(all, count)| *all += count);
        1
    });
    let lacking = lacking.into_inner().expect("no test has failed");
    println!("lacks {lacking:?}");
    assert!(cases < 1_000 || lacking.iter().all(|&count| count > 0), "{lacking:?}");
}

/// The generated runs have every origin and every lack, so that the checks above are not empty.
#[test]
fn every_origin_and_lack_occurs() {
    lizdakk::with_stack(|| {
        let (mut origins, mut lacking) = ([0; 6], [0; 4]);
        for seed in 1..=6_000 {
            let mut random = Random::new(seed);
            let model = if seed % 2 == 0 { run_graph(&mut random) } else { small_run_graph(&mut random) };
            let graph = read(&model);
            let case = Case::new(&graph, &model);
            case.ask_why_not().into_iter().zip(&mut lacking).for_each(|(count, all)| *all += count);
            for line in case.kept.lines().iter().filter(|line| line.rule == Rule::Start) {
                let why = case.kept.why(line.fact).expect("it holds");
                let Some(Cause::Start(origin)) = why.steps().last().map(|step| step.cause) else { continue };
                let kind = match origin {
                    Origin::UserDefinedEntry(_) => 0,
                    Origin::DynamicEntry(_) => 1,
                    Origin::DynamicEntryOnCycle(_) => 2,
                    Origin::CommonJsExports(_) => 3,
                    Origin::Helper(_) => 4,
                    Origin::RuntimeSideEffects => 5,
                    other => panic!("a run finds its starts: {other:?}"),
                };
                origins[kind] += 1;
            }
        }
        println!("origins {origins:?}, lacks {lacking:?}");
        assert!(origins.iter().all(|&count| count > 0), "{origins:?}");
        assert!(lacking.iter().all(|&count| count > 0), "{lacking:?}");
    });
}
