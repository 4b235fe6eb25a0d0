//! The reference of effects and drain by itself: its queue against the smallest closed set that is found without one,
//! its decoder against the encoder, how often the generated graphs make each rule matter, and cases made by hand.

use peer::generate::{self, Random, Size, PRINTED};
use peer::model::{Graph, Module, Record, Reference, Statement, Symbol};
use peer::reference::closure::{closure, verdicts_by_paths, Shown};
use peer::reference::decode::decode;
use peer::reference::drain::{self, Line};
use peer::reference::effects::{effects, verdicts};
use peer::reference::rows::Answer;
use peer::reference::rules::{Fact, Rules};
use peer::{DrainAnswer, Refusal, Refused, Rows};
use std::collections::{BTreeMap, BTreeSet, HashSet};

const CASES: u64 = 4_000;

/// Calls `test` with a generator for each seed.
fn for_seeds(count: u64, test: impl Fn(&mut Random, u64)) {
    for seed in 1..=count {
        test(&mut Random::new(seed), seed);
    }
}

fn usual_graph(random: &mut Random) -> Graph {
    let size = if random.chance(30) { Size::tiny(random) } else { Size::small(random) };
    generate::graph(random, size)
}

/// A graph, its starts as facts, and the lines that follow.
fn drained(random: &mut Random) -> (Graph, Vec<Fact>, Vec<Line>) {
    let graph = usual_graph(random);
    let starts = generate::starts(random, &graph);
    let rules = Rules::new(&graph);
    let starts = drain::read_starts(&rules, &starts).expect("good starts");
    let lines = drain::lines(&rules, &starts);
    (graph, starts, lines)
}

#[test]
fn decoded_graphs_are_those_that_were_encoded() {
    for_seeds(CASES, |random, seed| {
        let size = Size::usual(random);
        let graph = generate::graph(random, size);
        let decoded = decode(&graph.numbers());
        assert_eq!(format!("{decoded:?}"), format!("{graph:?}"), "seed {seed}");
    });
}

#[test]
fn verdicts_are_those_of_paths() {
    for_seeds(10 * CASES, |random, seed| {
        let graph = usual_graph(random);
        assert_eq!(verdicts(&graph), verdicts_by_paths(&graph), "seed {seed}, {graph:?}");
    });
}

#[test]
fn facts_are_the_smallest_closed_set() {
    for_seeds(CASES, |random, seed| {
        let (graph, starts, lines) = drained(random);
        let facts: HashSet<Fact> = lines.iter().map(|line| line.fact).collect();
        assert_eq!(facts.len(), lines.len(), "a fact has one line; seed {seed}");
        let (expected, shown) = closure(&graph, &starts);
        assert_eq!(facts, expected, "seed {seed}, {graph:?}, {starts:?}");
        let rules = Rules::new(&graph);
        assert_eq!(shown_by(&Answer::new(&rules, lines)), shown, "seed {seed}, {graph:?}, {starts:?}");
    });
}

fn shown_by(answer: &Answer) -> Shown {
    let reason = (0..).zip(&answer.reason).filter(|&(_, &reason)| reason != 0);
    Shown {
        used: bits_of(&answer.used).collect(),
        external: bits_of(&answer.external).collect(),
        json: bits_of(&answer.json).collect(),
        reason: reason.map(|(module, &reason)| (module, reason)).collect(),
    }
}

fn bits_of(row: &[u8]) -> impl Iterator<Item = u32> + '_ {
    (0..8 * row.len() as u32).filter(|bit| row[*bit as usize / 8] >> (bit % 8) & 1 == 1)
}

/// What happens in a drain, each once.
type Happenings = BTreeSet<String>;

/// Every rule and every special case of a rule occurs in the usual drains.
#[test]
fn every_case_of_the_rules_is_generated() {
    /// Of a thousand drains, at least so many.
    const LEAST: u64 = 5;
    let mut counts: BTreeMap<String, u64> = expected_happenings().into_iter().map(|name| (name, 0)).collect();
    let mut lines_by_rule = [0u64; 15];
    for seed in 1..=5 * CASES {
        let (graph, starts, lines) = drained(&mut Random::new(seed));
        lines.iter().for_each(|line| lines_by_rule[line.rule as usize] += 1);
        for name in happenings(&graph, &starts, &lines) {
            *counts.entry(name).or_default() += 1;
        }
    }
    println!("lines by rule, of {} drains: {lines_by_rule:?}", 5 * CASES);
    for (name, count) in &counts {
        println!("{:>6.1} of 1,000 drains: {name}", *count as f64 / (5 * CASES) as f64 * 1_000.0);
    }
    for (name, count) in &counts {
        assert!(1_000 * count >= LEAST * 5 * CASES, "{name}: {count}");
    }
}

fn expected_happenings() -> Vec<String> {
    let rules = (0..=14).map(|rule| format!("K{rule:02}"));
    let kinds = (1..=6).map(|kind| format!("fact {kind}"));
    let reasons = (1..=31).map(|reason| format!("start with reason {reason:02}"));
    rules.chain(kinds).chain(reasons).chain(SPECIAL.map(String::from)).collect()
}

const SPECIAL: [&str; 51] = [
    "K1 at a forward",
    "K1 at a module",
    "REASON 1",
    "REASON 2",
    "REASON 3",
    "a body key",
    "a body key of two modules",
    "a constant that is bypassed",
    "a constant that is not bypassed",
    "a default alias without a CommonJS namespace",
    "a facade's use of a body key",
    "a facade's use of a namespace",
    "a module in dev mode",
    "a module that is safely shaken",
    "a module with NoTreeshake",
    "a module with treeshake off",
    "a relaxed external",
    "a relaxed module with a scan count above its statements",
    "a relaxed module's statements are counted",
    "a start that another start gives",
    "a start twice",
    "a statement of a Json module",
    "a wrapper itself",
    "an alias",
    "an alias by name in a CommonJS namespace",
    "an enum member of an external",
    "an enum member read",
    "an enum member with two properties",
    "an enum member written",
    "an export-star seed",
    "an on-demand module with gated statements",
    "bailout of a CommonJS namespace",
    "bailout of a default alias",
    "bailout of a namespace",
    "bailout of an external",
    "effects come over an import",
    "external bits",
    "forward of an external",
    "json bits",
    "no recomputation",
    "no starts",
    "start of kind 1",
    "start of kind 2",
    "start of kind 3",
    "start of kind 4",
    "start of kind 6",
    "the runtime with effects",
    "the runtime without effects",
    "used bits",
    "a circle of uses",
    "a key whose root is another symbol",
];

fn happenings(graph: &Graph, starts: &[Fact], lines: &[Line]) -> Happenings {
    let rules = Rules::new(graph);
    let mut found = Happenings::new();
    happenings_of_starts(starts, lines, &mut found);
    happenings_of_effects(graph, &rules.verdicts, &mut found);
    for line in lines {
        found.insert(format!("K{:02}", line.rule));
        found.insert(format!("fact {}", line.fact.parts()[0]));
        match line.fact {
            Fact::Module(module) => happenings_of_module(&rules, module, &mut found),
            Fact::Statement(module, index) => happenings_of_statement(&rules, module, index, &mut found),
            Fact::Use(symbol, reason) => happenings_of_use(&rules, symbol, reason, &mut found),
            Fact::CheckedUse(symbol, _) => happenings_of_check(&rules, symbol, &mut found),
            Fact::Forward(symbol) => note(&mut found, "forward of an external", !owner(graph, symbol).normal),
            Fact::Bailout(module) => note(&mut found, "bailout of an external", !rules.module(module).normal),
        }
        let later = |name: u32| lines[name as usize - 1].fact;
        note(&mut found, "K1 at a module", line.rule == 1 && matches!(later(line.names[0]), Fact::Module(_)));
        note(&mut found, "K1 at a forward", line.rule == 1 && matches!(later(line.names[0]), Fact::Forward(_)));
    }
    note(&mut found, "a circle of uses", lines.iter().any(|line| leads_back(&rules, line.fact)));
    happenings_of_rows(&Answer::new(&rules, lines.to_vec()), &mut found);
    found
}

fn note(found: &mut Happenings, name: &str, happens: bool) {
    if happens {
        found.insert(name.to_string());
    }
}

fn owner(graph: &Graph, symbol: u32) -> &Module {
    &graph.modules[graph.symbols[symbol as usize].owner as usize]
}

fn happenings_of_starts(starts: &[Fact], lines: &[Line], found: &mut Happenings) {
    let distinct: HashSet<&Fact> = starts.iter().collect();
    let own_lines = lines.iter().filter(|line| line.rule == 0).count();
    note(found, "no starts", starts.is_empty());
    note(found, "a start twice", distinct.len() < starts.len());
    note(found, "a start that another start gives", own_lines < distinct.len());
    for start in starts {
        found.insert(format!("start of kind {}", start.parts()[0]));
        if let Fact::Use(_, reason) | Fact::CheckedUse(_, reason) = start {
            found.insert(format!("start with reason {reason:02}"));
        }
    }
}

fn happenings_of_effects(graph: &Graph, verdicts: &[u32], found: &mut Happenings) {
    let relaxed = graph.modules.iter().any(|module| module.flags & 32 != 0);
    note(found, "no recomputation", !relaxed);
    for (module, &verdict) in graph.modules.iter().zip(verdicts) {
        let counted = relaxed && module.normal && module.flags & 32 != 0 && module.scan_effects == 1;
        let past = counted && module.scan_statements as usize > module.statements.len();
        note(found, "a relaxed module's statements are counted", counted);
        note(found, "a relaxed module with a scan count above its statements", past);
        note(found, "a relaxed external", !module.normal && module.flags & 32 != 0);
        note(found, "effects come over an import", module.normal && module.effects == 0 && verdict == 1 && !relaxed);
        let seed = |target: u32| {
            let target = target.checked_sub(1).map(|index| &graph.modules[index as usize]);
            target.is_some_and(|target| target.normal && (target.wrap != 0 || target.flags & 8 != 0))
        };
        let star = module.records.iter().any(|record| record.kind == 0 && record.bits & 1 != 0 && seed(record.target));
        note(found, "an export-star seed", module.normal && module.effects == 0 && star);
    }
}

fn happenings_of_module(rules: &Rules, index: u32, found: &mut Happenings) {
    let effects = matches!(rules.verdicts[index as usize], 1 | 3 | 4);
    let runtime = index == rules.graph.runtime;
    note(found, "the runtime with effects", runtime && effects);
    note(found, "the runtime without effects", runtime && !effects);
    note(found, "a module with treeshake off", rules.graph.options & 1 == 0);
    note(found, "a module with NoTreeshake", rules.graph.options & 1 == 1 && rules.verdicts[index as usize] == 4);
    note(found, "a module in dev mode", rules.graph.options & 16 != 0);
    let safely = rules.graph.options & 5 == 5 && rules.module(index).flags & 2 != 0;
    note(found, "a module that is safely shaken", safely);
    let gated = is_on_demand(rules, index) && rules.module(index).statements.iter().skip(1).any(is_gated);
    note(found, "an on-demand module with gated statements", gated);
}

fn is_on_demand(rules: &Rules, index: u32) -> bool {
    let module = rules.module(index);
    let entry = rules.graph.entries.iter().any(|entry| entry.kind < 2 && entry.module == index);
    module.normal && rules.verdicts[index as usize] == 2 && module.exports == 0 && module.flags & 1 == 0 && !entry
}

fn is_gated(statement: &Statement) -> bool {
    statement.bits & 1 != 0 && !statement.references.is_empty() && statement.records.is_empty()
}

fn happenings_of_statement(rules: &Rules, index: u32, number: u32, found: &mut Happenings) {
    let module = rules.module(index);
    let statement = &module.statements[number as usize];
    note(found, "a statement of a Json module", module.kind == 2 && !statement.references.is_empty());
    for reference in &statement.references {
        let Reference::Member { object, write, properties, first } = *reference else { continue };
        let root = rules.symbol(rules.symbol(object).root);
        let owner = rules.module(root.owner);
        if !owner.enum_members.contains(&[root.name, first]) {
            continue;
        }
        note(found, "an enum member of an external", !owner.normal);
        note(found, "an enum member read", owner.normal && write == 0 && properties == 1);
        note(found, "an enum member written", owner.normal && write == 1 && properties == 1);
        note(found, "an enum member with two properties", owner.normal && write == 0 && properties == 2);
    }
}

fn happenings_of_use(rules: &Rules, symbol: u32, reason: u32, found: &mut Happenings) {
    let (root, target) = (rules.symbol(symbol).root, rules.target(symbol));
    let bypassed = rules.is_bypassed(symbol, reason);
    let known = rules.symbol(root).constant & 1 == 1;
    note(found, "a constant that is bypassed", bypassed);
    note(found, "a constant that is not bypassed", known && !bypassed);
    if bypassed {
        return;
    }
    let facade = reason & 16 != 0;
    note(found, "a facade's use of a namespace", facade && rules.is_namespace(target));
    let treeshake = rules.graph.options & 1 == 1;
    let claims = (0..rules.graph.modules.len() as u32).filter(|&index| treeshake && claims_body(rules, index, root));
    let claims = claims.count();
    note(found, "a body key", claims == 1 && !facade);
    note(found, "a body key of two modules", claims > 1 && !facade);
    note(found, "a facade's use of a body key", claims > 0 && facade);
    note(found, "an alias", root != target);
    note(found, "a key whose root is another symbol", claims > 0 && root != symbol);
    let wrapped = rules.module(rules.symbol(target).owner);
    note(found, "a wrapper itself", wrapped.normal && wrapped.wrap == 2 && wrapped.wrapper == target + 1);
}

/// Whether K11 and K12 alone lead from a use back to it.
fn leads_back(rules: &Rules, fact: Fact) -> bool {
    let mut reached = vec![fact];
    let mut next = 0;
    while next < reached.len() {
        for (rule, new) in rules.consequences(reached[next]) {
            let a_use = matches!(new, Fact::Use(..)) && (rule == 11 || rule == 12);
            if a_use && new == fact {
                return true;
            }
            if a_use && !reached.contains(&new) {
                reached.push(new);
            }
        }
        next += 1;
    }
    false
}

fn claims_body(rules: &Rules, index: u32, root: u32) -> bool {
    let module = rules.module(index);
    let own = module.own_exports.iter().any(|&symbol| rules.symbol(symbol).root == root);
    let key = own || module.namespace == root + 1;
    key && is_on_demand(rules, index) && module.statements.iter().skip(1).any(is_gated)
}

fn happenings_of_check(rules: &Rules, symbol: u32, found: &mut Happenings) {
    let root = rules.symbol(symbol).root;
    let commonjs = |symbol: u32| {
        let list = &rules.module(rules.symbol(symbol).owner).commonjs_namespaces;
        list.iter().any(|row| row[0] == symbol)
    };
    note(found, "bailout of a CommonJS namespace", commonjs(root));
    note(found, "bailout of a namespace", rules.is_namespace(root));
    if let Some(namespace) = rules.symbol(root).alias_namespace.checked_sub(1) {
        let default = rules.symbol(root).alias_name == 0;
        note(found, "bailout of a default alias", default && commonjs(namespace));
        note(found, "a default alias without a CommonJS namespace", default && !commonjs(namespace));
        note(found, "an alias by name in a CommonJS namespace", !default && commonjs(namespace));
    }
}

fn happenings_of_rows(answer: &Answer, found: &mut Happenings) {
    let rows = [("used", &answer.used), ("external", &answer.external), ("json", &answer.json)];
    for (name, row) in rows {
        note(found, &format!("{name} bits"), row.iter().any(|&byte| byte != 0));
    }
    for reason in 1..=3 {
        note(found, &format!("REASON {reason}"), answer.reason.contains(&reason));
    }
}

/// Normal modules with a namespace symbol each and so many statements, no rule of which does anything.
fn plain(statements: &[usize]) -> Graph {
    let count = statements.len() as u32;
    let module = |(index, &statements): (u32, &usize)| Module {
        normal: true,
        namespace: index + 1,
        statements: vec![Statement::default(); statements],
        ..Module::default()
    };
    Graph {
        options: 1,
        modules: (0..).zip(statements).map(module).collect(),
        symbols: (0..count).map(|owner| Symbol { owner, root: owner, ..Symbol::default() }).collect(),
        ..Graph::default()
    }
}

/// A symbol that is its own root, and its index.
fn add_symbol(graph: &mut Graph, symbol: Symbol) -> u32 {
    let root = graph.symbols.len() as u32;
    graph.symbols.push(Symbol { root, ..symbol });
    root
}

/// The record of a drain.
#[track_caller]
fn record_of(graph: &Graph, starts: &[u32]) -> Vec<u32> {
    drain::answer(&graph.numbers(), starts).expect("good starts of a good graph").record()
}

#[test]
fn no_starts_no_facts() {
    let answer = drain::answer(&PRINTED, &[]).expect("the printed case");
    assert_eq!(answer.lines, []);
    let rows = [&answer.marks, &answer.modules, &answer.statements, &answer.used, &answer.external, &answer.json];
    assert!(rows.iter().all(|row| row.iter().all(|&byte| byte == 0)));
    assert_eq!(answer.reason, [0, 0]);
}

#[test]
fn printed_case() {
    #[rustfmt::skip]
    let expected = [
        4, 1, 2,  0, 0, 0,
        3, 1, 2,  9, 1, 0,
        6, 1, 0,  9, 1, 0,
        1, 1, 0,  13, 2, 0,
        2, 1, 1,  2, 4, 0,
    ];
    let answer = drain::answer(&PRINTED, &[4, 1, 2]).expect("the printed case");
    assert_eq!(answer.record(), expected);
    // Modules 0, 1; bailouts 2, 3; statements 4 to 6; forwards 7, 8; uses from 9, checked uses from 71.
    let bits: Vec<u32> = bits_of(&answer.marks).collect();
    assert_eq!(bits, [1, 3, 6, 9 + 31 + 1, 71 + 31 + 1]);
    assert_eq!(answer.marks.len(), 17);
    assert_eq!((&answer.modules[..], &answer.statements[..], &answer.used[..]), (&[2][..], &[0, 2][..], &[2][..]));
    assert_eq!((&answer.external[..], &answer.json[..], &answer.reason[..]), (&[0][..], &[0][..], &[0, 1][..]));
}

/// Analyzed(false) to UserDefined(false) to Analyzed(true): the first stays.
#[test]
fn user_defined_passes_no_effects_on() {
    let mut graph = plain(&[1, 1, 1]);
    for (index, effects) in [0, 2, 1].into_iter().enumerate() {
        graph.modules[index].effects = effects;
        graph.modules[index].records = vec![Record { target: (index as u32 + 2) % 4, kind: 0, bits: 0 }];
    }
    assert_eq!(verdicts(&graph), [0, 2, 1]);
    graph.modules[1].effects = 0;
    assert_eq!(verdicts(&graph), [1, 1, 1]);
}

/// An on-demand module's statement with an effect and one reference: swept only with a record.
#[test]
fn gated_statements() {
    let mut graph = plain(&[1, 2]);
    graph.modules[1].effects = 2;
    graph.modules[1].records = vec![Record::default()];
    graph.modules[1].statements[1] = Statement { bits: 1, records: Vec::new(), references: vec![Reference::Nothing] };
    assert_eq!(record_of(&graph, &[1, 1, 0]), [1, 1, 0, 0, 0, 0]);
    graph.modules[1].statements[1].records = vec![0];
    assert_eq!(record_of(&graph, &[1, 1, 0]), [1, 1, 0, 0, 0, 0, 2, 1, 1, 2, 1, 0]);
}

/// A known enum member that is read gives no use; written, it does.
#[test]
fn enum_members() {
    let mut graph = plain(&[2]);
    graph.modules[0].enum_members = vec![[8, 9]];
    let object = add_symbol(&mut graph, Symbol { name: 8, ..Symbol::default() });
    let uses = |write, properties, first| {
        let mut graph = graph.clone();
        graph.modules[0].statements[1].references = vec![Reference::Member { object, write, properties, first }];
        record_of(&graph, &[2, 0, 1]).chunks(6).filter(|line| line[0] == 3).count()
    };
    assert_eq!(uses(0, 1, 9), 0, "read");
    assert_eq!(uses(1, 1, 9), 1, "written");
    assert_eq!(uses(0, 2, 9), 1, "two properties");
    assert_eq!(uses(0, 0, 9), 1, "no property");
    assert_eq!(uses(0, 1, 8), 1, "another property");
}

/// K1 is written at the later of its two lines and names that one first.
#[test]
fn forward_and_module() {
    let mut graph = plain(&[2, 3]);
    graph.runtime = 1;
    let forwarded = add_symbol(&mut graph, Symbol { owner: 1, declaring: vec![2, 1], ..Symbol::default() });
    let nothing = Reference::Resolved { symbol: 0, commonjs: 1, depended: vec![forwarded] };
    graph.modules[0].statements[1].references = vec![nothing];
    graph.symbols[0].constant = 1;
    #[rustfmt::skip]
    let forward_first = [
        2, 0, 1,  0, 0, 0,
        5, 2, 0,  8, 1, 0,
        3, 0, 1,  8, 1, 0,
        1, 1, 0,  0, 0, 0,
        2, 1, 2,  1, 4, 2,
        2, 1, 1,  1, 4, 2,
    ];
    assert_eq!(record_of(&graph, &[2, 0, 1, 1, 1, 0]), forward_first);
    #[rustfmt::skip]
    let module_first = [
        1, 1, 0,  0, 0, 0,
        2, 0, 1,  0, 0, 0,
        5, 2, 0,  8, 2, 0,
        3, 0, 1,  8, 2, 0,
        2, 1, 2,  1, 3, 1,
        2, 1, 1,  1, 3, 1,
    ];
    assert_eq!(record_of(&graph, &[1, 1, 0, 2, 0, 1]), module_first);
}

/// A forward that is written when its module is handled, but on a later line, waits for its own turn.
#[test]
fn forward_on_a_later_line_than_its_module() {
    let mut graph = plain(&[2, 2, 1]);
    (graph.modules[2].wrap, graph.modules[2].wrapper) = (2, 3);
    let forwarded = add_symbol(&mut graph, Symbol { owner: 1, declaring: vec![1], ..Symbol::default() });
    let wrapped = add_symbol(&mut graph, Symbol { owner: 2, chain: vec![forwarded], ..Symbol::default() });
    let use_of = |symbol| Reference::Resolved { symbol, commonjs: 1, depended: Vec::new() };
    graph.modules[0].statements[1].references = vec![use_of(1), use_of(wrapped)];
    #[rustfmt::skip]
    let expected = [
        2, 0, 1,  0, 0, 0,
        3, 1, 1,  8, 1, 0,
        3, 4, 1,  8, 1, 0,
        1, 1, 0,  13, 2, 0,
        3, 2, 1,  12, 3, 0,
        5, 4, 0,  12, 3, 0,
        5, 3, 0,  12, 3, 0,
        1, 2, 0,  13, 3, 0,
        2, 1, 1,  1, 7, 4,
    ];
    assert_eq!(record_of(&graph, &[2, 0, 1]), expected);
}

/// A fact that two rules give from one line is written with the lower rule.
#[test]
fn the_lower_rule() {
    let mut graph = plain(&[1, 2]);
    (graph.modules[1].wrap, graph.modules[1].wrapper) = (2, 2);
    (graph.options, graph.symbols[1].declaring, graph.symbols[1].written) = (9, vec![1], vec![0, 1]);
    #[rustfmt::skip]
    let expected = [
        3, 1, 1,  0, 0, 0,
        2, 1, 1,  13, 1, 0,
        1, 1, 0,  13, 1, 0,
        2, 1, 0,  14, 1, 0,
    ];
    assert_eq!(record_of(&graph, &[3, 1, 1]), expected);
}

#[test]
fn repeated_starts_have_one_line() {
    let graph = plain(&[1, 1]);
    let starts = [6, 1, 0, 4, 1, 8, 6, 1, 0, 4, 1, 8, 3, 1, 8, 1, 1, 0];
    #[rustfmt::skip]
    let expected = [
        6, 1, 0,  0, 0, 0,
        4, 1, 8,  0, 0, 0,
        3, 1, 8,  9, 2, 0,
        1, 1, 0,  13, 3, 0,
    ];
    assert_eq!(record_of(&graph, &starts), expected);
}

#[track_caller]
fn refused_starts(graph: &Graph, starts: &[u32], number: u32, place: u64) {
    let answer = drain::answer(&graph.numbers(), starts);
    assert_eq!(answer.err(), Some(Refused { number, place }), "{starts:?}");
}

#[track_caller]
fn good_starts(graph: &Graph, starts: &[u32]) {
    assert!(drain::answer(&graph.numbers(), starts).is_ok(), "{starts:?}");
}

#[test]
fn faults_of_starts() {
    let mut graph = plain(&[1, 2]);
    graph.modules.push(Module::default());
    let good = [1, 0, 0];
    refused_starts(&graph, &[1], 4, 1);
    refused_starts(&graph, &[0, 9], 4, 2);
    refused_starts(&graph, &[0, 9, 9, 9], 4, 4);
    for kind in [0, 5, 7, 8, u32::MAX] {
        refused_starts(&graph, &[&good[..], &[kind, 0, 0]].concat(), 3, 3);
    }
    good_starts(&graph, &[1, 1, 0, 2, 1, 1, 3, 1, 31, 4, 1, 1, 6, 2, 0]);
    for kind in [1, 2] {
        for module in [2, 3, u32::MAX] {
            refused_starts(&graph, &[kind, module, 9], 3, 1);
        }
    }
    refused_starts(&graph, &[2, 0, 1], 3, 2);
    refused_starts(&graph, &[2, 1, 2], 3, 2);
    for kind in [3, 4] {
        for reason in [0, 32, u32::MAX] {
            refused_starts(&graph, &[kind, 1, reason], 3, 2);
        }
        refused_starts(&graph, &[kind, 2, 0], 3, 1);
    }
    refused_starts(&graph, &[6, 3, 1], 3, 1);
    for kind in [1, 6] {
        refused_starts(&graph, &[kind, 1, 1], 3, 2);
    }
    refused_starts(&graph, &[6, 1, 0, 1, 2, 0, 0, 0, 0], 3, 4);
}

/// The rows of the printed case with a start that gives five lines: marks, record, and the answers.
struct Lent {
    marks: [u8; 18],
    record: [u32; 32],
    answers: [[u8; 3]; 6],
}

/// The least lengths of the six answer rows.
const ANSWERS: [usize; 6] = [1, 2, 1, 1, 1, 2];

/// Drains the printed case with rows of these lengths, all of ones.
fn drain_printed(marks: usize, record: usize, answers: [usize; 6]) -> (DrainAnswer, Lent) {
    let mut lent = Lent { marks: [255; 18], record: [u32::MAX; 32], answers: [[255; 3]; 6] };
    let [modules, statements, used, external, json, reason] = &mut lent.answers;
    let mut rows = Rows {
        marks: &mut lent.marks[..marks],
        record: &mut lent.record[..record],
        modules: &mut modules[..answers[0]],
        statements: &mut statements[..answers[1]],
        used: &mut used[..answers[2]],
        external: &mut external[..answers[3]],
        json: &mut json[..answers[4]],
        reason: &mut reason[..answers[5]],
    };
    (drain::drain(&PRINTED, &[4, 1, 2], &mut rows), lent)
}

const TOO_SHORT: DrainAnswer = DrainAnswer { number: 5, place: 0, lines: 0 };

#[test]
fn rows_that_are_long_enough() {
    let (answer, lent) = drain_printed(18, 32, [3; 6]);
    assert_eq!(answer, DrainAnswer { number: 0, place: 0, lines: 5 });
    assert_eq!(lent.marks[17], 0, "cleared whole");
    assert_eq!(lent.record[30..], [0, 0], "cleared whole");
    let expected = [[2, 255, 255], [0, 2, 255], [2, 255, 255], [0, 255, 255], [0, 255, 255], [0, 1, 255]];
    assert_eq!(lent.answers, expected);
    assert_eq!(drain_printed(17, 30, ANSWERS).0, answer);
}

#[test]
fn rows_that_are_too_short() {
    let as_lent = |(answer, lent): (DrainAnswer, Lent)| {
        assert_eq!(answer, TOO_SHORT);
        assert!(lent.marks.iter().all(|&byte| byte == 255));
        assert!(lent.record.iter().all(|&number| number == u32::MAX));
        assert_eq!(lent.answers, [[255; 3]; 6]);
    };
    as_lent(drain_printed(16, 32, [3; 6]));
    as_lent(drain_printed(16, 0, [0; 6]));
    for row in 0..6 {
        let mut answers = ANSWERS;
        answers[row] -= 1;
        as_lent(drain_printed(18, 32, answers));
        as_lent(drain_printed(18, 0, answers));
    }
}

/// A record that is short leaves marks and record all zero, as long as they were lent.
#[test]
fn records_that_are_too_short() {
    for record in [0, 5, 6, 24, 29] {
        let (answer, lent) = drain_printed(18, record, [3; 6]);
        assert_eq!(answer, TOO_SHORT);
        assert_eq!(lent.marks, [0; 18]);
        assert!(lent.record[..record].iter().all(|&number| number == 0));
        assert!(lent.record[record..].iter().all(|&number| number == u32::MAX));
        assert_eq!(lent.answers, [[255; 3]; 6]);
    }
}

#[test]
fn effects_row() {
    let mut row = [7; 3];
    assert_eq!(effects(&PRINTED, &mut row[..1]), Refusal { number: 5, place: 0 });
    assert_eq!(effects(&PRINTED[..80], &mut row), Refusal { number: 4, place: 80 });
    assert_eq!(row, [7; 3]);
    assert_eq!(effects(&PRINTED, &mut row), Refusal::PASSED);
    assert_eq!(row, [0, 1, 7]);
}
