//! The reference of the run by itself: its lines, order and rows against sets and definitions, how often each step occurs
//! in the generated graphs, and cases made by hand.

use peer::generate::late::late_graph;
use peer::generate::runs::{import_graph, run_graph, small_run_graph};
use peer::generate::settled::settled_graph;
use peer::generate::{self, Random, Size, PRINTED};
use peer::happenings::at_end::{at_end, AT_END};
use peer::happenings::settled::{settled, SETTLED};
use peer::happenings::{happenings, Happenings, ALL};
use peer::listing::{first_records, is_set};
use peer::model::{Entry, Graph, Module, Record, Reference, Statement, Symbol};
use peer::reference::check;
use peer::reference::closure::Shown;
use peer::reference::drain::{self, Line};
use peer::reference::dynamic_entries::{sorted, OrderingGraph};
use peer::reference::entries::parted;
use peer::reference::leb128;
use peer::reference::rows::{Answer, MarkLayout};
use peer::reference::rules::option::{DEAD_IMPORTS_AT_END, SETTLE};
use peer::reference::rules::{Fact, Rules};
use peer::reference::run::{self, Run};
use peer::reference::run_by_sets::{order, run_by_sets, Decided};
use peer::reference::starts::Starts;
use peer::{reference, RunAnswer, RunRows};
use std::collections::{BTreeMap, BTreeSet, HashSet};

const CASES: u64 = 20_000;

const PRINTED_LISTING: &str = "rounds 1
entry 1 0
module 0 0 0 0 0
module 1 1 1 0 0
statement 1 1
";

#[test]
fn printed_case() {
    assert_eq!(run::listing(&PRINTED), PRINTED_LISTING);
}

#[test]
fn generated_graphs_are_accepted() {
    for seed in 1..=CASES {
        let mut random = Random::new(seed);
        let size = Size::small(&mut random);
        let usual = [
            run_graph(&mut random),
            small_run_graph(&mut random),
            import_graph(&mut random),
            generate::graph(&mut random, size),
        ];
        // What is compared with the Rust has no options that it does not have.
        assert!(usual.iter().all(|graph| graph.options < DEAD_IMPORTS_AT_END), "seed {seed}");
        for graph in usual.iter().chain(&[late_graph(&mut random), settled_graph(&mut random)]) {
            assert_eq!(check(&graph.numbers()), Ok(()), "seed {seed}, {graph:?}");
        }
    }
}

/// Every step of a run occurs in the generated graphs.
#[test]
fn every_step_is_generated() {
    every_name_occurs(&ALL, |seed| {
        let graph = run_graph(&mut Random::new(seed));
        happenings(&graph, &Run::of(&graph))
    });
}

/// So does all that tells dead imports at the end of a run from those of its rounds.
#[test]
fn every_step_at_the_end_is_generated() {
    every_name_occurs(&AT_END, |seed| {
        let late = late_graph(&mut Random::new(seed));
        let graph = Graph { options: late.options & !DEAD_IMPORTS_AT_END, ..late.clone() };
        at_end(&late, &Run::of(&graph), &Run::of(&late))
    });
}

/// And all that settling brings.
#[test]
fn every_step_of_settling_is_generated() {
    every_name_occurs(&SETTLED, |seed| {
        let graph = settled_graph(&mut Random::new(seed));
        let plain = Graph { options: graph.options & !SETTLE, ..graph.clone() };
        settled(&graph, &Run::of(&plain), &Run::of(&graph))
    });
}

/// Each of the names happens often enough.
fn every_name_occurs(names: &[&'static str], happen: impl Fn(u64) -> Happenings) {
    /// Of a thousand runs, at least so many.
    const LEAST: u64 = 5;
    let mut counts: BTreeMap<&str, u64> = names.iter().map(|&name| (name, 0)).collect();
    for seed in 1..=CASES {
        for name in happen(seed) {
            *counts.entry(name).or_default() += 1;
        }
    }
    for (name, count) in &counts {
        println!("{:>6.1} of 1,000 runs: {name}", *count as f64 / CASES as f64 * 1_000.0);
    }
    for (name, count) in &counts {
        assert!(1_000 * count >= LEAST * CASES, "{name}: {count}");
    }
}

/// What a run decides, with the lines as sets and the rows as lists of what is set.
fn decided(graph: &Graph, run: &Run) -> Decided {
    let rules = Rules::new(graph);
    let facts = |lines: &[Line]| lines.iter().map(|line| line.fact).collect::<HashSet<Fact>>();
    let shown = |lines: &[Line]| shown_by(&Answer::new(&rules, lines.to_vec()));
    let firsts = first_records(graph);
    let records = (0u32..)
        .zip(&graph.modules)
        .flat_map(|(index, module)| (0..module.records.len() as u32).map(move |record| (index, record)));
    let is_dead = |&(module, record): &(u32, u32)| is_set(&run.dead, firsts[module as usize] + record as usize);
    Decided {
        rounds: run.rounds,
        starts: run.starts.iter().copied().collect(),
        facts: facts(&run.lines),
        runtime_facts: facts(&run.runtime_lines),
        shown: shown(&run.lines),
        runtime_shown: shown(&run.runtime_lines),
        entries: run.entries.clone(),
        dead: records.filter(is_dead).collect(),
        helpers: run.helpers.clone(),
    }
}

fn bits_of(row: &[u8]) -> BTreeSet<u32> {
    (0..8 * row.len()).filter(|&bit| is_set(row, bit)).map(|bit| bit as u32).collect()
}

fn shown_by(answer: &Answer) -> Shown {
    let reason = (0..).zip(&answer.reason).filter(|&(_, &reason)| reason != 0);
    Shown {
        used: bits_of(&answer.used),
        external: bits_of(&answer.external),
        json: bits_of(&answer.json),
        reason: reason.map(|(module, &reason)| (module, reason)).collect(),
    }
}

/// The rows of a run, of what was decided: each bit asked for by itself.
fn check_rows(graph: &Graph, run: &Run, decided: &Decided) {
    let both = |fact: Fact| decided.facts.contains(&fact) || decided.runtime_facts.contains(&fact);
    let layout = MarkLayout::new(graph);
    let mut marks = vec![0; layout.bits().div_ceil(8)];
    let mut mark = |fact: Fact| marks[layout.bit(fact) / 8] |= 1 << (layout.bit(fact) % 8);
    decided.runtime_facts.iter().for_each(|&fact| mark(fact));
    let stays = |fact: &&Fact| matches!(fact, Fact::Module(_) | Fact::Statement(..));
    decided.facts.iter().filter(stays).for_each(|&fact| mark(fact));
    assert_eq!(run.marks, marks);
    let mut part = 0;
    for (index, module) in (0..).zip(&graph.modules) {
        assert_eq!(is_set(&run.modules, index as usize), both(Fact::Module(index)));
        for statement in 0..module.statements.len() as u32 {
            assert_eq!(is_set(&run.statements[part..], statement as usize), both(Fact::Statement(index, statement)));
        }
        part += module.statements.len().div_ceil(8);
    }
    assert_eq!(run.statements.len(), part);
    let union = |first: &BTreeSet<u32>, second: &BTreeSet<u32>| first.union(second).copied().collect::<BTreeSet<u32>>();
    assert_eq!(bits_of(&run.used), union(&decided.shown.used, &decided.runtime_shown.used));
    assert_eq!(bits_of(&run.external), union(&decided.shown.external, &decided.runtime_shown.external));
    assert_eq!(bits_of(&run.json), decided.shown.json);
    let reason = (0..).zip(&run.reason).filter(|&(_, &reason)| reason != 0);
    assert_eq!(reason.map(|(module, &reason)| (module, reason)).collect::<BTreeMap<u32, u8>>(), decided.shown.reason);
}

/// The starts by kind are the same set; the marks beside them are of all facts of the main stage.
fn check_starts(graph: &Graph, decided: &Decided) {
    let starts = Starts::of(graph);
    assert_eq!(starts.facts.iter().copied().collect::<HashSet<Fact>>(), decided.starts);
    let layout = MarkLayout::new(graph);
    let mut marks = vec![0; layout.bits().div_ceil(8)];
    decided.facts.iter().for_each(|&fact| marks[layout.bit(fact) / 8] |= 1 << (layout.bit(fact) % 8));
    assert_eq!(starts.marks, marks);
}

/// Lines, order and rows against sets and definitions.
#[test]
fn runs_decide_what_sets_decide() {
    for seed in 1..=CASES {
        let mut random = Random::new(seed);
        let graph = if seed % 2 == 0 { small_run_graph(&mut random) } else { run_graph(&mut random) };
        decides_what_sets_decide(&graph, seed);
    }
}

#[test]
fn runs_with_dead_imports_at_their_end_decide_what_sets_decide() {
    for seed in 1..=CASES {
        decides_what_sets_decide(&late_graph(&mut Random::new(seed)), seed);
    }
}

#[test]
fn runs_that_settle_decide_what_sets_decide() {
    for seed in 1..=CASES {
        decides_what_sets_decide(&settled_graph(&mut Random::new(seed)), seed);
    }
}

fn decides_what_sets_decide(graph: &Graph, seed: u64) {
    if graph.numbers().len() > 600 {
        return;
    }
    let run = Run::of(graph);
    let expected = run_by_sets(graph);
    assert_eq!(decided(graph, &run), expected, "seed {seed}, {graph:?}");
    check_rows(graph, &run, &expected);
    assert_eq!(run.lines, drain::lines(&Rules::new(graph), &run.starts), "seed {seed}, {graph:?}");
    check_starts(graph, &expected);
}

/// What is started, as lists: by user-defined entry, by taken bailout, by live module.
#[derive(Clone)]
struct Lists {
    users: Vec<Vec<Fact>>,
    exports: Vec<Vec<Fact>>,
    live: Vec<Vec<Fact>>,
}

/// What an entry's module starts, without a bailout.
fn started_by(graph: &Graph, module: u32) -> Vec<Fact> {
    let Module { normal, entry_references, .. } = &graph.modules[module as usize];
    if !normal {
        return Vec::new();
    }
    let mut started = Vec::new();
    for &reference in entry_references {
        let Symbol { owner, declaring, .. } = &graph.symbols[reference as usize];
        if graph.modules[*owner as usize].normal {
            started.extend(declaring.iter().map(|&statement| Fact::Statement(*owner, statement)));
            started.push(Fact::CheckedUse(reference, 2));
        }
    }
    started.push(Fact::Module(module));
    started
}

/// The exports of the bailouts among these lines.
fn exports_of(graph: &Graph, lines: &[Line]) -> Vec<Vec<Fact>> {
    let bailouts = lines.iter().filter_map(|line| match line.fact {
        Fact::Bailout(module) => Some(&graph.modules[module as usize]),
        _ => None,
    });
    let exports = |module: &Module| {
        let from_commonjs = module.resolved_exports.iter().filter(|row| row[2] == 1);
        from_commonjs.map(|row| Fact::CheckedUse(row[1], 1)).collect()
    };
    bailouts.map(exports).collect()
}

impl Lists {
    fn of(graph: &Graph, run: &Run) -> Lists {
        let user = |&entry: &u32| {
            let module = graph.entries[entry as usize].module;
            let started = started_by(graph, module);
            let bailout = (!started.is_empty()).then_some(Fact::Bailout(module));
            bailout.into_iter().chain(started).collect()
        };
        let taken = *run.course.begins.last().expect("there is a round");
        let live = (0..).zip(&run.course.live).filter(|(_, live)| **live);
        Lists {
            users: parted(graph).0.iter().map(user).collect(),
            exports: exports_of(graph, &run.lines[..taken]),
            live: live.map(|(module, _)| started_by(graph, module)).collect(),
        }
    }

    fn by_kind(self) -> Vec<Fact> {
        once([self.users, self.exports, self.live].concat().concat())
    }

    /// With a change to what each user-defined entry and each live module starts.
    fn by_entry(mut self, change: impl Fn(&mut Vec<Fact>)) -> Vec<Fact> {
        self.users.iter_mut().chain(&mut self.live).for_each(change);
        self.by_kind()
    }
}

/// Each fact where it stands first.
fn once(mut facts: Vec<Fact>) -> Vec<Fact> {
    let mut seen = HashSet::new();
    facts.retain(|&fact| seen.insert(fact));
    facts
}

fn reversed<T>(mut list: Vec<T>) -> Vec<T> {
    list.reverse();
    list
}

/// The graph with every list of a kind the other way round.
fn turned(graph: &Graph, turn: impl Fn(&mut Graph)) -> Graph {
    let mut graph = graph.clone();
    turn(&mut graph);
    graph
}

/// Orders in which the starts could stand and must not.
fn wrong_orders(graph: &Graph, run: &Run) -> [(&'static str, Vec<Fact>); 17] {
    let lists = Lists::of(graph, run);
    let Lists { users, exports, live } = lists.clone();
    let module_of = |&entry: &u32| graph.entries[entry as usize].module;
    let ungrouped = (0..graph.entries.len() as u32).filter(|&entry| graph.entries[entry as usize].kind < 2);
    let grouped: Vec<u32> = parted(graph).0.iter().map(module_of).collect();
    let as_listed = ungrouped.map(|entry| grouped.iter().position(|&module| module == module_of(&entry)));
    let as_listed = as_listed.map(|place| users[place.expect("it is user-defined")].clone()).collect();
    let tried = run.course.order.iter().map(module_of).filter(|&module| run.course.live[module as usize]);
    let references = turned(graph, |graph| graph.modules.iter_mut().for_each(|at| at.entry_references.reverse()));
    let declaring = turned(graph, |graph| graph.symbols.iter_mut().for_each(|at| at.declaring.reverse()));
    let resolved = turned(graph, |graph| graph.modules.iter_mut().for_each(|at| at.resolved_exports.reverse()));
    let bailouts: BTreeSet<u32> = run.lines[..*run.course.begins.last().expect("there is a round")]
        .iter()
        .filter_map(|line| if let Fact::Bailout(module) = line.fact { Some(module) } else { None })
        .collect();
    let bailouts: Vec<Line> =
        bailouts.into_iter().map(|module| Line { fact: Fact::Bailout(module), rule: 0, names: [0; 2] }).collect();
    let all = [users.clone(), exports.clone(), live.clone()].concat().concat();
    [
        ("as started", run.starts.clone()),
        ("exports in front of user-defined entries", once([&exports[..], &users, &live].concat().concat())),
        ("live modules in front of user-defined entries", once([&live[..], &users, &exports].concat().concat())),
        ("live modules in front of exports", once([&users[..], &live, &exports].concat().concat())),
        ("user-defined entries as listed", Lists { users: as_listed, ..lists.clone() }.by_kind()),
        ("user-defined entries from the last", Lists { users: reversed(users), ..lists.clone() }.by_kind()),
        ("bailouts from the last line", Lists { exports: reversed(exports), ..lists.clone() }.by_kind()),
        ("bailouts by module", Lists { exports: exports_of(graph, &bailouts), ..lists.clone() }.by_kind()),
        ("bailouts of the last round too", {
            Lists { exports: exports_of(graph, &run.lines), ..lists.clone() }.by_kind()
        }),
        ("exports of a bailout from the last", Lists::of(&resolved, run).by_kind()),
        ("live modules from the last", Lists { live: reversed(live), ..lists.clone() }.by_kind()),
        ("live modules as tried", {
            Lists { live: tried.map(|module| started_by(graph, module)).collect(), ..lists.clone() }.by_kind()
        }),
        ("entry references from the last", Lists::of(&references, run).by_kind()),
        ("declaring statements from the last", Lists::of(&declaring, run).by_kind()),
        ("a checked use in front of its statements", {
            lists.clone().by_entry(|list| list.sort_by_key(|fact| matches!(fact, Fact::Statement(..))))
        }),
        ("a module in front of its references", {
            lists.by_entry(|list| list.sort_by_key(|fact| !matches!(fact, Fact::Module(_))))
        }),
        ("a fact where it stands last", reversed(once(reversed(all)))),
    ]
}

/// The starts by kind are the facts that the steps start, and stand as OPERATIONS.md says. Each other order is told from
/// this one by many generated graphs, so that a comparison with these graphs finds it.
#[test]
fn starts_by_kind() {
    /// Of a thousand graphs, at least so many.
    const LEAST: u64 = 5;
    let mut counts: BTreeMap<&str, u64> = BTreeMap::new();
    for seed in 1..=CASES {
        let mut random = Random::new(seed);
        let size = Size::usual(&mut random);
        let graph = if seed % 2 == 0 { generate::graph(&mut random, size) } else { run_graph(&mut random) };
        let (run, starts) = (Run::of(&graph), Starts::of(&graph));
        assert_eq!(starts.facts, Lists::of(&graph, &run).by_kind(), "seed {seed}, {graph:?}");
        assert_eq!(starts.facts.len(), run.starts.len(), "seed {seed}, {graph:?}");
        let by_steps: HashSet<Fact> = run.starts.iter().copied().collect();
        assert_eq!(starts.facts.iter().copied().collect::<HashSet<Fact>>(), by_steps, "seed {seed}, {graph:?}");
        assert_eq!(starts.lines, run.lines, "seed {seed}, {graph:?}");
        for (name, order) in wrong_orders(&graph, &run) {
            *counts.entry(name).or_default() += u64::from(order != starts.facts);
        }
    }
    for (name, count) in &counts {
        println!("{:>6.1} of 1,000 graphs: {name}", *count as f64 / CASES as f64 * 1_000.0);
    }
    for (name, count) in &counts {
        assert!(1_000 * count >= LEAST * CASES, "{name}: {count}");
    }
}

/// Tarjan's components against reachability, and their numbers against the order in which a walk finishes.
#[test]
fn order_is_that_of_reachability() {
    let (mut cycles, mut moved) = (0, 0);
    for seed in 1..=CASES {
        let graph = import_graph(&mut Random::new(seed));
        let (_, dynamic) = parted(&graph);
        let (found, expected) = (sorted(&graph, &dynamic), order(&graph, &dynamic));
        let cycled: BTreeSet<u32> = (0..graph.modules.len() as u32).filter(|&at| found.on_cycle[at as usize]).collect();
        assert_eq!(found.entries, expected.entries, "seed {seed}, {graph:?}");
        assert_eq!(cycled, expected.cycled, "seed {seed}, {graph:?}");
        cycles += u64::from(!cycled.is_empty());
        moved += u64::from(found.entries != dynamic);
    }
    assert!(10 * cycles > CASES && 10 * moved > CASES, "{cycles} {moved}");
}

/// So many normal modules with treeshake; each has statement 0 and a statement 1 with an effect. Symbol m is the
/// namespace of module m. The runtime is the last one, without effects, and has no part in what is made by hand.
fn modules(count: u32) -> Graph {
    let swept = Statement { bits: 1, ..Statement::default() };
    let module = |index| Module {
        normal: true,
        namespace: index + 1,
        statements: vec![Statement::default(), swept.clone()],
        ..Module::default()
    };
    Graph {
        options: 1,
        runtime: count,
        modules: (0..=count).map(module).collect(),
        symbols: (0..=count).map(|owner| Symbol { owner, root: owner, ..Symbol::default() }).collect(),
        ..Graph::default()
    }
}

const IMPORT: u32 = 0;
const REQUIRE: u32 = 1;
const DYNAMIC: u32 = 2;
const PURE: u32 = 2;
const NO_EXPORT_USED: u32 = 16;

/// Adds a record to a module and says which one it is.
fn import(graph: &mut Graph, from: u32, to: u32, kind: u32, bits: u32) -> u32 {
    let records = &mut graph.modules[from as usize].records;
    records.push(Record { target: to + 1, kind, bits });
    records.len() as u32 - 1
}

fn user_defined(graph: &mut Graph, module: u32) {
    graph.entries.push(Entry { module, kind: 0, related: Vec::new() });
}

fn dynamic(graph: &mut Graph, module: u32, related: &[[u32; 4]]) {
    graph.entries.push(Entry { module, kind: 2, related: related.to_vec() });
}

/// A dynamic import, pure or not, of `to` in statement 1 of `from`, as a related statement.
fn related(graph: &mut Graph, from: u32, to: u32, bits: u32) -> [u32; 4] {
    [from, 1, import(graph, from, to, DYNAMIC, bits), 0]
}

/// A symbol that statement `statement` of its owner declares.
fn symbol(graph: &mut Graph, owner: u32, statement: u32) -> u32 {
    let root = graph.symbols.len() as u32;
    graph.symbols.push(Symbol { owner, root, declaring: vec![statement], ..Symbol::default() });
    root
}

fn run_of(graph: &Graph) -> Run {
    assert_eq!(check(&graph.numbers()), Ok(()), "{graph:?}");
    let (run, expected) = (Run::of(graph), run_by_sets(graph));
    assert_eq!(decided(graph, &run), expected);
    check_starts(graph, &expected);
    run
}

/// The starts as the operation gives them.
fn given(graph: &Graph) -> Vec<Fact> {
    Starts::of(graph).facts
}

/// Nodes and edges of the ordering graph, as modules.
fn ordering(graph: &Graph) -> (Vec<u32>, Vec<(u32, u32)>) {
    let (_, dynamic) = parted(graph);
    let ordering = OrderingGraph::new(graph, &dynamic);
    let edges = (0..ordering.nodes.len()).flat_map(|from| {
        let successors = ordering.successors[from].iter();
        successors.map(|&to| (ordering.nodes[from], ordering.nodes[to])).collect::<Vec<(u32, u32)>>()
    });
    (ordering.nodes.clone(), edges.collect())
}

/// The modules of the dynamic entries in the order of their tries.
fn tried(graph: &Graph) -> Vec<u32> {
    let (_, dynamic) = parted(graph);
    sorted(graph, &dynamic).entries.iter().map(|&entry| graph.entries[entry as usize].module).collect()
}

#[test]
fn ancestors_are_tried_first() {
    let mut graph = modules(3);
    import(&mut graph, 2, 1, DYNAMIC, 0);
    import(&mut graph, 1, 0, DYNAMIC, 0);
    (0..3).for_each(|module| dynamic(&mut graph, module, &[]));
    assert_eq!(ordering(&graph), (vec![1, 0, 2], vec![(1, 0), (2, 1)]));
    assert_eq!(tried(&graph), [2, 1, 0]);
}

/// An import that is not dynamic passes the module on that edges go from; a dynamic one puts its module in place of it.
#[test]
fn edges_go_from_the_last_dynamic_import() {
    let mut graph = modules(5);
    import(&mut graph, 0, 1, IMPORT, 0);
    import(&mut graph, 1, 2, DYNAMIC, 0);
    import(&mut graph, 2, 3, REQUIRE, 0);
    import(&mut graph, 3, 4, DYNAMIC, 0);
    import(&mut graph, 1, 4, DYNAMIC, 0);
    dynamic(&mut graph, 0, &[]);
    assert_eq!(ordering(&graph), (vec![0, 2, 4], vec![(0, 2), (0, 4), (2, 4)]));
}

/// What a walk visited in one entry is visited again in the next: its edges go from there then.
#[test]
fn visited_is_new_for_each_entry() {
    let mut graph = modules(4);
    import(&mut graph, 0, 2, IMPORT, 0);
    import(&mut graph, 1, 2, IMPORT, 0);
    import(&mut graph, 2, 3, DYNAMIC, 0);
    dynamic(&mut graph, 0, &[]);
    dynamic(&mut graph, 1, &[]);
    assert_eq!(ordering(&graph).1, [(0, 3), (1, 3)]);
}

/// Within one walk a module that was visited is not walked again, so a second way to it adds nothing.
#[test]
fn a_walk_visits_a_module_once() {
    let mut graph = modules(4);
    import(&mut graph, 0, 2, IMPORT, 0);
    import(&mut graph, 0, 1, DYNAMIC, 0);
    import(&mut graph, 1, 2, IMPORT, 0);
    import(&mut graph, 2, 3, DYNAMIC, 0);
    dynamic(&mut graph, 0, &[]);
    assert_eq!(ordering(&graph).1, [(0, 3), (0, 1)]);
}

/// An edge to a module that the graph has already is added, but the module is not walked.
#[test]
fn a_node_seen_before_is_not_walked() {
    // The walk from 0 visits 2 by a static import, so that 2 is a node without edges: its import of 3 goes from 0. The
    // walk from 1 has visited nothing, but finds 2 in the graph.
    let mut graph = modules(4);
    import(&mut graph, 0, 2, IMPORT, 0);
    import(&mut graph, 0, 2, DYNAMIC, 0);
    import(&mut graph, 2, 3, DYNAMIC, 0);
    import(&mut graph, 1, 2, DYNAMIC, 0);
    dynamic(&mut graph, 0, &[]);
    dynamic(&mut graph, 1, &[]);
    assert_eq!(ordering(&graph), (vec![0, 3, 2, 1], vec![(0, 3), (0, 2), (1, 2)]));
    // The same where the node comes from an edge that it begins: 1 is there before 0 leads to it.
    let mut graph = modules(4);
    import(&mut graph, 1, 2, DYNAMIC, 0);
    import(&mut graph, 0, 1, DYNAMIC, 0);
    import(&mut graph, 1, 3, IMPORT, 0);
    dynamic(&mut graph, 1, &[]);
    dynamic(&mut graph, 0, &[]);
    assert_eq!(ordering(&graph), (vec![1, 2, 0], vec![(1, 2), (0, 1)]));
}

/// A dynamic import of the module that edges go from adds no edge.
#[test]
fn a_lone_entry_that_imports_itself() {
    let mut graph = modules(2);
    import(&mut graph, 0, 0, DYNAMIC, 0);
    import(&mut graph, 0, 1, IMPORT, 0);
    import(&mut graph, 1, 0, DYNAMIC, 0);
    let row = related(&mut graph, 0, 0, 0);
    dynamic(&mut graph, 0, &[row]);
    assert_eq!(ordering(&graph), (vec![], vec![]));
    let run = run_of(&graph);
    assert_eq!((run.rounds, run.lines.len(), run.entries.len()), (1, 0, 0), "on no cycle, so not live");
}

/// The present module is walked nonetheless, if it was not visited: it always was.
#[test]
fn an_import_of_the_present_root_goes_on_behind_it() {
    let mut graph = modules(3);
    import(&mut graph, 0, 0, DYNAMIC, 0);
    import(&mut graph, 0, 1, DYNAMIC, 0);
    dynamic(&mut graph, 0, &[]);
    assert_eq!(ordering(&graph), (vec![0, 1], vec![(0, 1)]));
}

#[test]
fn externals_and_missing_targets_are_not_walked() {
    let mut graph = modules(3);
    graph.modules[1] = Module { records: vec![Record { target: 3, kind: DYNAMIC, bits: 0 }], ..Module::default() };
    graph.symbols[1].owner = 0;
    graph.modules[0].records.push(Record { target: 0, kind: DYNAMIC, bits: 0 });
    import(&mut graph, 0, 1, DYNAMIC, 0);
    dynamic(&mut graph, 0, &[]);
    dynamic(&mut graph, 1, &[]);
    assert_eq!(ordering(&graph), (vec![0, 1], vec![(0, 1)]));
}

/// Components are numbered when their walk completes: of two branches the first is done first, so tried last.
#[test]
fn falling_component_numbers() {
    let mut graph = modules(5);
    import(&mut graph, 0, 1, DYNAMIC, 0);
    import(&mut graph, 0, 2, DYNAMIC, 0);
    import(&mut graph, 1, 3, DYNAMIC, 0);
    (0..5).for_each(|module| dynamic(&mut graph, module, &[]));
    assert_eq!(ordering(&graph), (vec![0, 1, 3, 2], vec![(0, 1), (0, 2), (1, 3)]));
    assert_eq!(tried(&graph), [4, 0, 2, 1, 3], "4 is outside the graph");
}

/// Cycle members stand before the others, in their own order; they are live whatever is related.
#[test]
fn a_cycle() {
    let mut graph = modules(5);
    import(&mut graph, 3, 1, DYNAMIC, 0);
    import(&mut graph, 1, 3, DYNAMIC, 0);
    import(&mut graph, 3, 2, DYNAMIC, 0);
    import(&mut graph, 4, 3, DYNAMIC, 0);
    (0..5).for_each(|module| dynamic(&mut graph, module, &[]));
    assert_eq!(tried(&graph), [0, 1, 3, 4, 2]);
    let run = run_of(&graph);
    assert_eq!(run.rounds, 2);
    assert_eq!(run.entries, [1, 3]);
    assert_eq!(run.starts, [Fact::Module(1), Fact::Module(3)]);
    assert_eq!(run.modules, [0b1010]);
}

/// Each entry needs a statement of the module behind it, so the tries find one more live in each round.
#[test]
fn dead_then_live() {
    let mut graph = modules(4);
    user_defined(&mut graph, 0);
    for module in (1..4).rev() {
        let record = import(&mut graph, module - 1, module, IMPORT, 0);
        dynamic(&mut graph, module, &[[module - 1, 1, record, 0]]);
    }
    let run = run_of(&graph);
    assert_eq!(run.rounds, 4);
    assert_eq!(run.entries, [0, 1, 2, 3], "the order of the tries, not that of becoming live");
    assert_eq!(run.course.found_dead, [false, true, true, false]);
    assert!(run.dead.iter().all(|&byte| byte == 0), "no import is pure");
}

/// A dead try marks its pure imports for good; the later try that finds the entry live marks nothing.
#[test]
fn dead_marks_stay() {
    let mut graph = modules(4);
    user_defined(&mut graph, 0);
    let first = related(&mut graph, 3, 2, PURE);
    let second = [1, 1, import(&mut graph, 1, 2, IMPORT, PURE), 0];
    let opens = [0, 1, import(&mut graph, 0, 1, IMPORT, 0), 0];
    dynamic(&mut graph, 2, &[first, second]);
    dynamic(&mut graph, 1, &[opens]);
    let run = run_of(&graph);
    assert_eq!((run.rounds, run.entries.as_slice()), (3, &[0, 1, 2][..]));
    // Records: 0 of module 0, 0 of module 1, 0 of module 3.
    assert_eq!(run.dead, [0b110]);
    assert!(run.listing(&graph).ends_with("dead 1 0\ndead 3 0\n"));
}

/// A live try adds no marks for the related statements before the live one.
#[test]
fn a_live_try_marks_nothing() {
    let mut graph = modules(3);
    user_defined(&mut graph, 0);
    let dead = related(&mut graph, 2, 1, PURE);
    let live = related(&mut graph, 0, 1, 0);
    dynamic(&mut graph, 1, &[dead, live]);
    let run = run_of(&graph);
    assert_eq!((run.rounds, run.dead.as_slice(), run.entries.len()), (2, &[0][..], 2));
}

/// A pure import of a module without effects whose exports no one uses is dead though its statement is kept.
#[test]
fn pure_imports() {
    let entries = |flags: u32, effects: u32, bits: u32, unreachable: u32| {
        let mut graph = modules(2);
        graph.modules[1].flags = flags;
        graph.modules[1].effects = effects;
        user_defined(&mut graph, 0);
        let [module, statement, record, _] = related(&mut graph, 0, 1, bits);
        dynamic(&mut graph, 1, &[[module, statement, record, unreachable]]);
        let run = run_of(&graph);
        (run.entries.len(), run.dead[0])
    };
    assert_eq!(entries(NO_EXPORT_USED, 0, PURE, 0), (1, 1));
    assert_eq!(entries(NO_EXPORT_USED, 2, PURE, 0), (1, 1), "UserDefined(false) has no effects");
    assert_eq!(entries(NO_EXPORT_USED, 1, PURE, 0), (2, 0));
    assert_eq!(entries(NO_EXPORT_USED, 0, 0, 0), (2, 0));
    assert_eq!(entries(0, 0, PURE, 0), (2, 0));
    assert_eq!(entries(0, 0, PURE, 1), (1, 0), "an unreachable one is neither live nor marked");
}

#[test]
fn splitting_off() {
    let mut graph = modules(2);
    user_defined(&mut graph, 0);
    let row = related(&mut graph, 0, 1, 0);
    dynamic(&mut graph, 1, &[row]);
    assert_eq!(run_of(&graph).entries, [0, 1]);
    graph.options |= 32;
    let run = run_of(&graph);
    assert_eq!(run.entries, [0]);
    assert_eq!(run.modules, [0b11], "kept all the same");
}

/// A dynamic entry that stands first moves the user-defined entry of its module forward.
#[test]
fn grouping() {
    let mut graph = modules(3);
    dynamic(&mut graph, 2, &[]);
    user_defined(&mut graph, 1);
    user_defined(&mut graph, 2);
    dynamic(&mut graph, 1, &[]);
    user_defined(&mut graph, 1);
    let run = run_of(&graph);
    assert_eq!(parted(&graph), (vec![2, 1, 4], vec![0, 3]));
    assert_eq!(run.entries, [2, 1, 4]);
    let first = [Fact::Bailout(2), Fact::Module(2), Fact::Bailout(1), Fact::Module(1)];
    assert_eq!(run.starts, first);
    // Live dynamic entries join the user-defined ones of their module.
    let mut graph = modules(3);
    user_defined(&mut graph, 1);
    user_defined(&mut graph, 2);
    let row = related(&mut graph, 1, 1, 0);
    dynamic(&mut graph, 1, &[row]);
    assert_eq!(run_of(&graph).entries, [0, 2, 1]);
}

/// All dynamic entries of a live module are final, also one that was found dead.
#[test]
fn liveness_is_by_module() {
    let mut graph = modules(2);
    user_defined(&mut graph, 0);
    dynamic(&mut graph, 1, &[]);
    let row = related(&mut graph, 0, 1, 0);
    dynamic(&mut graph, 1, &[row]);
    dynamic(&mut graph, 1, &[]);
    let run = run_of(&graph);
    assert_eq!(run.entries, [0, 1, 2, 3]);
    assert_eq!(run.course.found_dead, [false, true, false, false]);
}

#[test]
fn entries_of_externals() {
    let mut graph = modules(2);
    graph.modules[1] = Module::default();
    graph.symbols[1].owner = 0;
    user_defined(&mut graph, 1);
    user_defined(&mut graph, 0);
    let row = related(&mut graph, 0, 1, 0);
    dynamic(&mut graph, 1, &[row]);
    let run = run_of(&graph);
    assert_eq!(run.starts, [Fact::Bailout(0), Fact::Module(0)]);
    assert_eq!(run.entries, [0, 2, 1]);
    assert_eq!(run.rounds, 1, "a live external keeps no module");
}

/// Entry references: the statements that declare the symbol itself, then a checked use; none of an external's symbols.
#[test]
fn entry_references() {
    let mut graph = modules(2);
    graph.modules[1] = Module::default();
    graph.symbols[1].owner = 1;
    graph.symbols[1].root = 1;
    let own = symbol(&mut graph, 0, 0);
    graph.symbols[own as usize].declaring = vec![1, 0];
    graph.modules[0].entry_references = vec![1, own];
    user_defined(&mut graph, 0);
    let starts = run_of(&graph).starts;
    let statements = [Fact::Statement(0, 1), Fact::Statement(0, 0)];
    let expected = [Fact::Bailout(0), statements[0], statements[1], Fact::CheckedUse(own, 2), Fact::Module(0)];
    assert_eq!(starts, expected);
}

/// A chain of CommonJS modules: each round uses the exports of the module that the round before bailed out.
fn bailouts(count: u32) -> Graph {
    let mut graph = modules(count);
    user_defined(&mut graph, 0);
    for from in 0..count - 1 {
        let record = import(&mut graph, from, from + 1, REQUIRE, 0);
        graph.modules[from as usize].statements[1].records.push(record);
        let export = symbol(&mut graph, from + 1, 0);
        let module = &mut graph.modules[from as usize + 1];
        module.exports = 1;
        module.resolved_exports = vec![[7, export, 1], [8, 0, 0]];
    }
    graph
}

#[test]
fn bailouts_of_earlier_rounds() {
    for count in 2..6 {
        let run = run_of(&bailouts(count));
        assert_eq!(run.rounds, count, "the last round keeps no further module");
        let uses = run.starts.iter().filter(|start| matches!(start, Fact::CheckedUse(_, 1))).count();
        assert_eq!(uses as u32, count - 1, "a bailout is taken once");
    }
}

/// In round 1 an export of module 0 keeps statement 0 of module 1, which is kept already: the bailout of module 2 comes in
/// a round that keeps no module, so no further round takes it.
#[test]
fn a_bailout_of_the_last_round_is_dropped() {
    let mut graph = modules(3);
    user_defined(&mut graph, 0);
    user_defined(&mut graph, 1);
    let used = symbol(&mut graph, 1, 0);
    graph.modules[0].resolved_exports = vec![[3, used, 1]];
    let record = import(&mut graph, 1, 2, REQUIRE, 0);
    graph.modules[1].statements[0].records.push(record);
    let export = symbol(&mut graph, 2, 0);
    graph.modules[2].exports = 1;
    graph.modules[2].resolved_exports = vec![[7, export, 1]];
    let run = run_of(&graph);
    assert!(run.lines.iter().any(|line| line.fact == Fact::Bailout(2)));
    assert_eq!((run.rounds, run.modules.as_slice()), (1, &[0b11][..]));
    assert!(!run.starts.contains(&Fact::CheckedUse(export, 1)));
    assert_eq!(given(&graph), run.starts);
}

/// Modules 3 and 1 are found live in round 1, in this order; what module 1 uses is given first.
#[test]
fn live_modules_are_given_by_index() {
    let mut graph = modules(4);
    user_defined(&mut graph, 0);
    let shared = symbol(&mut graph, 2, 0);
    for module in [3, 1] {
        graph.modules[module as usize].entry_references = vec![shared];
        let row = related(&mut graph, 0, module, 0);
        dynamic(&mut graph, module, &[row]);
    }
    let users = [Fact::Bailout(0), Fact::Module(0)];
    let shared = [Fact::Statement(2, 0), Fact::CheckedUse(shared, 2)];
    assert_eq!(run_of(&graph).starts, [&users[..], &shared, &[Fact::Module(3), Fact::Module(1)]].concat());
    assert_eq!(given(&graph), [&users[..], &shared, &[Fact::Module(1), Fact::Module(3)]].concat());
    // A module that is user-defined too is given with the user-defined ones.
    user_defined(&mut graph, 3);
    let users = [&users[..], &[Fact::Bailout(3)], &shared, &[Fact::Module(3)]].concat();
    assert_eq!(run_of(&graph).starts, [&users[..], &[Fact::Module(1)]].concat());
    assert_eq!(given(&graph), [&users[..], &[Fact::Module(1)]].concat());
}

/// Module 1 is found live in round 1 and bails out module 2, whose exports round 2 uses: they are given before module 1.
#[test]
fn exports_are_given_before_live_modules() {
    let mut graph = modules(3);
    user_defined(&mut graph, 0);
    let row = related(&mut graph, 0, 1, 0);
    dynamic(&mut graph, 1, &[row]);
    let record = import(&mut graph, 1, 2, REQUIRE, 0);
    graph.modules[1].statements[1].records.push(record);
    let exports = [symbol(&mut graph, 2, 0), symbol(&mut graph, 2, 1)];
    graph.modules[2].exports = 1;
    graph.modules[2].resolved_exports = vec![[7, exports[1], 1], [8, 0, 0], [9, exports[0], 1]];
    let run = run_of(&graph);
    let users = [Fact::Bailout(0), Fact::Module(0)];
    let uses = [Fact::CheckedUse(exports[1], 1), Fact::CheckedUse(exports[0], 1)];
    assert_eq!((run.rounds, run.starts), (3, [&users[..], &[Fact::Module(1)], &uses].concat()));
    assert_eq!(given(&graph), [&users[..], &uses, &[Fact::Module(1)]].concat());
}

/// Helpers of a module: of its kept statements; all if the module is not kept, except for the runtime.
#[test]
fn helper_words() {
    let mut graph = modules(2);
    graph.helpers = vec![0, 1, 2];
    user_defined(&mut graph, 0);
    graph.modules[0].helpers = vec![[0, 0], [2, 1], [2, 0]];
    graph.modules[1].helpers = vec![[1, 0]];
    graph.modules[2].helpers = vec![[0, 0]];
    let run = run_of(&graph);
    assert_eq!(run.helpers, [0b100, 0b010, 0]);
    // The union is over kept modules: helper 2 alone, which is the namespace of the runtime.
    assert_eq!(run.runtime_lines[0].fact, Fact::Use(2, 1));
    assert_eq!(run.runtime_lines[0].numbers(), [3, 2, 1, 0, 0, 0]);
    assert_eq!(run.runtime_lines[1].numbers(), [1, 2, 0, 13, run.lines.len() as u32 + 1, 0]);
    assert_eq!(run.modules, [0b101]);
    assert_eq!(run.reason, [0, 0, 0], "as before the runtime stage");
    assert_eq!(run.used, [0b100]);
}

#[test]
fn a_runtime_with_effects_and_no_helper() {
    let mut graph = modules(1);
    graph.modules[1].effects = 1;
    let run = run_of(&graph);
    assert_eq!(run.runtime_lines[0].numbers(), [1, 1, 0, 0, 0, 0]);
    assert_eq!(run.runtime_lines[1].numbers(), [2, 1, 1, 2, 1, 0]);
    assert_eq!((run.rounds, run.lines.len(), run.runtime_lines.len()), (1, 0, 2));
    // Kept before: it has no line.
    user_defined(&mut graph, 1);
    let run = run_of(&graph);
    assert_eq!((run.rounds, run.runtime_lines.len(), run.modules.as_slice()), (1, 0, &[0b10][..]));
}

/// A helper whose statement refers to a symbol of a module that is kept before: K1 at the forward names its line alone.
#[test]
fn forward_to_a_module_kept_before() {
    let mut graph = modules(1);
    user_defined(&mut graph, 0);
    let helper = symbol(&mut graph, 1, 1);
    let forwarded = symbol(&mut graph, 0, 0);
    let link = symbol(&mut graph, 0, 0);
    graph.symbols[link as usize].root = 0;
    graph.modules[1].statements[1].references.push(Reference::Resolved {
        symbol: 0,
        commonjs: 1,
        depended: vec![forwarded],
    });
    graph.helpers = vec![helper];
    graph.modules[0].helpers = vec![[0, 1]];
    let run = run_of(&graph);
    let main = run.lines.len() as u32;
    let facts: Vec<[u32; 6]> = run.runtime_lines.iter().map(|line| line.numbers()).collect();
    assert_eq!(main, 3, "the bailout, module 0 and its statement 1");
    assert_eq!(facts[0], [3, helper, 1, 0, 0, 0]);
    assert_eq!(facts[1], [2, 1, 1, 13, 4, 0]);
    assert_eq!(facts[2], [1, 1, 0, 13, 4, 0]);
    assert_eq!(facts[3], [5, forwarded, 0, 8, 5, 0]);
    assert_eq!(facts[4], [3, 0, 1, 8, 5, 0]);
    assert_eq!(facts[5], [2, 0, 0, 1, 7, 0], "the forward's line plus 1, and no module");
    assert_eq!(facts.len(), 6);
}

/// A forward of the main stage to the runtime, which the runtime stage keeps: it is not joined there.
#[test]
fn forwards_of_the_main_stage_do_not_count() {
    let mut graph = modules(1);
    user_defined(&mut graph, 0);
    let waiting = symbol(&mut graph, 1, 1);
    graph.modules[0].statements[1].references.push(Reference::Resolved {
        symbol: 0,
        commonjs: 1,
        depended: vec![waiting],
    });
    graph.helpers = vec![1];
    graph.modules[0].helpers = vec![[0, 1]];
    let run = run_of(&graph);
    assert!(run.lines.iter().any(|line| line.fact == Fact::Forward(waiting)));
    assert_eq!(run.modules, [0b11]);
    assert_eq!(run.statements, [0b10, 0], "statement 1 of the runtime waits in vain");
    // Marks: the forward and the use of the main stage are gone, modules and statements are there.
    let layout = MarkLayout::new(&graph);
    assert!(!is_set(&run.marks, layout.bit(Fact::Forward(waiting))));
    assert!(!is_set(&run.marks, layout.bit(Fact::Use(0, 1))));
    assert!(!is_set(&run.marks, layout.bit(Fact::Bailout(0))));
    assert!(is_set(&run.marks, layout.bit(Fact::Use(1, 1))));
    assert!(is_set(&run.marks, layout.bit(Fact::Module(0))));
    assert!(is_set(&run.marks, layout.bit(Fact::Statement(0, 1))));
    assert_eq!(run.used, [0b11], "used has both stages");
}

#[test]
fn no_entry_no_fact() {
    let run = run_of(&modules(3));
    assert_eq!((run.rounds, run.lines.len(), run.runtime_lines.len(), run.entries.len()), (1, 0, 0, 0));
}

#[test]
fn listings_that_are_refused() {
    assert_eq!(run::listing(&[]), "refused 4\n");
    assert_eq!(run::listing(&[256]), "refused 3\n");
    let mut graph = modules(1);
    graph.modules[0].statements = vec![Statement { bits: 1, ..Statement::default() }; 1_023];
    user_defined(&mut graph, 0);
    assert!(run::listing(&graph.numbers()).starts_with("rounds 1\n"), "1,024 lines");
    graph.modules[0].statements.push(Statement { bits: 1, ..Statement::default() });
    assert_eq!(run::listing(&graph.numbers()), "refused 5\n", "1,025 lines");
}

/// The program: over 8,192 bytes are refused before anything is read; then a number that is not one; then the graph.
#[test]
fn files() {
    assert_eq!(run::keep(&leb128::file_of(&PRINTED)), PRINTED_LISTING);
    assert_eq!(run::keep(&[]), "refused 4\n");
    assert_eq!(run::keep(&[0x80; 8_193]), "refused 2\n");
    assert_eq!(run::keep(&[0x80; 8_192]), "refused 1\n");
    assert_eq!(run::keep(&[1; 8_192]), "refused 3\n", "the helper is no symbol");
}

/// A run's uses have few reasons, so that the record of a run can be far shorter than that of a drain.
#[test]
fn reasons_and_lines_of_a_run() {
    let reasons = |lines: &[Line]| {
        let reason = |line: &Line| match line.fact {
            Fact::Use(_, reason) | Fact::CheckedUse(_, reason) => Some(reason),
            _ => None,
        };
        lines.iter().filter_map(reason).collect::<BTreeSet<u32>>()
    };
    let (mut main, mut runtime) = (BTreeSet::new(), BTreeSet::new());
    for seed in 1..=CASES {
        let graph = run_graph(&mut Random::new(seed));
        let run = Run::of(&graph);
        main.extend(reasons(&run.lines));
        runtime.extend(reasons(&run.runtime_lines));
        let (modules, symbols) = (graph.modules.len(), graph.symbols.len());
        let most = 3 * modules + graph.statement_count() as usize + 20 * symbols;
        assert!(run.lines.len() + run.runtime_lines.len() <= most, "seed {seed}");
    }
    assert_eq!(main, BTreeSet::from([1, 2, 4, 9, 12]));
    assert_eq!(runtime, BTreeSet::from([1, 4, 9, 12]));
}

/// Every kind of line of a listing, in its order.
#[test]
fn a_listing_of_everything() {
    let mut graph = modules(3);
    graph.modules[1].kind = 2;
    graph.modules[2] = Module::default();
    graph.symbols[2].owner = 2;
    graph.helpers = vec![3];
    graph.modules[1].helpers = vec![[0, 1]];
    let statement = &mut graph.modules[0].statements[1];
    statement.references.extend([Reference::Symbol(1), Reference::Symbol(2)]);
    user_defined(&mut graph, 0);
    let dead = related(&mut graph, 1, 3, PURE);
    dynamic(&mut graph, 3, &[[dead[0], 0, dead[2], 0]]);
    let listing = run_of(&graph).listing(&graph);
    let lines = [
        "rounds 1",
        "entry 0 0",
        "module 0 1 0 0 0",
        "module 1 1 0 1 1",
        "module 3 1 0 0 0",
        "statement 0 1",
        "statement 1 1",
        "used 1",
        "used 2",
        "used 3",
        "external 2",
        "json 1 1",
        "dead 1 0",
    ];
    assert_eq!(listing, lines.map(|line| format!("{line}\n")).concat());
}

/// Rows with something in them, long enough for any graph made by hand.
struct Lent {
    bytes: [Vec<u8>; 8],
    words: [Vec<u32>; 3],
}

impl Lent {
    fn new(length: usize) -> Lent {
        Lent { bytes: std::array::from_fn(|_| vec![0xaa; length]), words: std::array::from_fn(|_| vec![77; length]) }
    }

    fn rows(&mut self) -> RunRows<'_> {
        let [marks, modules, statements, used, external, json, reason, dead] =
            self.bytes.each_mut().map(Vec::as_mut_slice);
        let [record, helpers, entries] = self.words.each_mut().map(Vec::as_mut_slice);
        RunRows { marks, record, modules, statements, used, external, json, reason, dead, helpers, entries }
    }
}

#[test]
fn rows_after_an_answer() {
    let mut graph = modules(2);
    user_defined(&mut graph, 0);
    dynamic(&mut graph, 1, &[]);
    let mut lent = Lent::new(60);
    let answer = reference::run(&graph.numbers(), &mut lent.rows());
    assert_eq!(answer, RunAnswer { number: 0, place: 0, rounds: 1, lines: 3, runtime_lines: 0, entries: 1 });
    let [marks, modules, statements, .., reason, dead] = &lent.bytes;
    let [record, helpers, entries] = &lent.words;
    assert!(record[18..].iter().all(|&number| number == 0), "cleared whole");
    assert_eq!(record[..18], [6, 0, 0, 0, 0, 0, 1, 0, 0, 0, 0, 0, 2, 0, 1, 2, 2, 0]);
    assert!(marks[1..].iter().all(|&byte| byte == 0));
    assert_eq!((marks[0], modules[0], modules[1]), (0b1000_0001, 1, 0xaa));
    assert_eq!((&statements[..4], &reason[..4], dead[0]), (&[2, 0, 0, 0xaa][..], &[0, 0, 0, 0xaa][..], 0xaa));
    assert_eq!((&helpers[..4], &entries[..2]), (&[0, 0, 0, 77][..], &[0, 77][..]));
}

#[test]
fn rows_after_a_refusal() {
    let mut graph = modules(2);
    user_defined(&mut graph, 0);
    dynamic(&mut graph, 1, &[]);
    let numbers = graph.numbers();
    let refused = |number, place| RunAnswer { number, place, rounds: 0, lines: 0, runtime_lines: 0, entries: 0 };
    let as_lent = |lent: &Lent, from: usize| {
        let bytes = lent.bytes[from..].iter().flatten().all(|&byte| byte == 0xaa);
        bytes && lent.words[from..].iter().flatten().all(|&word| word == 77)
    };
    // A short entry row: two entries, though one is final.
    let mut lent = Lent::new(60);
    lent.words[2].truncate(1);
    assert_eq!(reference::run(&numbers, &mut lent.rows()), refused(5, 0));
    assert!(as_lent(&lent, 0));
    // A short record: marks and record are zero, all else is as lent.
    let mut lent = Lent::new(60);
    lent.words[0].truncate(17);
    assert_eq!(reference::run(&numbers, &mut lent.rows()), refused(5, 0));
    assert!(as_lent(&lent, 1));
    assert!(lent.bytes[0].iter().all(|&byte| byte == 0) && lent.words[0].iter().all(|&word| word == 0));
    // A fault of the graph comes before all lengths.
    let mut lent = Lent::new(0);
    assert_eq!(reference::run(&numbers[..20], &mut lent.rows()), refused(4, 20));
}
