//! The reference of the judge and of a run's own starts by itself: the judge that asks rule by rule against the one
//! that looks up what lines give, and cases made by hand.

mod tally;

use peer::generate::records::{Asked, Source, CHANGES};
use peer::generate::runs::run_graph;
use peer::generate::{Random, PRINTED};
use peer::model::{Entry, Graph, Module, Record, Reference, Statement, Symbol};
use peer::reference::judge::{judge, Judge};
use peer::reference::judge_by_rules::{judge_by_rules, judge_record};
use peer::reference::rules::Rules;
use peer::reference::run::Run;
use peer::reference::starts::{starts, Starts};
use peer::reference::{check, drain};
use peer::{ReadAnswer, Refusal, Refused};
use std::collections::BTreeMap;
use tally::Tally;

const CASES: u64 = 1_000;

/// What both judges answer.
#[track_caller]
fn judged(Asked { numbers, starts, record }: &Asked) -> Refusal {
    let answer = judge(numbers, starts, record);
    assert_eq!(answer, judge_by_rules(numbers, starts, record), "starts {starts:?}, record {record:?}");
    answer.into()
}

/// Both judges on every kind of change; each kind gives the answers that it has to give.
#[test]
fn both_judges_agree() {
    let mut tally = Tally::new();
    for seed in 1..=CASES {
        let mut random = Random::new(seed);
        let source = Source::small(&mut random);
        for (kind, change) in CHANGES.iter().enumerate() {
            let Some(asked) = change.make(&mut random, &source) else { continue };
            tally.add(kind, &asked, judged(&asked));
        }
    }
    tally.print();
    tally.assert_answers(true);
}

/// A record beside another graph is refused at a line of each rule: a condition of every rule fails at times.
#[test]
fn every_rule_is_refused_where_it_gives_nothing() {
    let change = CHANGES.iter().find(|change| change.name == "another graph").expect("there is such a change");
    let mut refused: BTreeMap<u32, u64> = (1..=14).map(|rule| (rule, 0)).collect();
    for seed in 1..=10 * CASES {
        let mut random = Random::new(seed);
        let source = Source::small(&mut random);
        let Some(asked) = change.make(&mut random, &source) else { continue };
        let Refusal { number, place } = judged(&asked);
        if let Some(line) = asked.record.chunks_exact(6).nth(place as usize).filter(|_| number == 6) {
            *refused.entry(line[3]).or_default() += 1;
        }
    }
    println!("refused lines by rule: {refused:?}");
    assert!(refused.values().all(|&count| count > 0), "{refused:?}");
}

/// Every fact of small graphs by every rule from one start: both judges, and by each rule some follow and some don't.
#[test]
fn every_step_of_small_graphs() {
    let (mut follow, mut others) = ([0u64; 15], [0u64; 15]);
    for seed in 1..=2 * CASES {
        let (source, steps) = Source::steps(&mut Random::new(seed));
        let judge = Judge::new(&source.graph, &source.starts).expect("a good start");
        let rules = Rules::new(&source.graph);
        let starts = drain::read_starts(&rules, &source.starts).expect("a good start");
        for step in &steps {
            let record = step.concat();
            let answer = judge.judge(&record);
            assert_eq!(answer, judge_record(&rules, &starts, &record), "seed {seed}, record {record:?}");
            let bad = answer == Err(Refused { number: 6, place: 1 });
            (if bad { &mut others } else { &mut follow })[step[1][3] as usize] += 1;
        }
    }
    println!("steps that follow, by rule: {:?}; that don't: {:?}", &follow[2..], &others[2..]);
    assert!(follow[2..].iter().chain(&others[2..]).all(|&count| count > 0), "{follow:?} {others:?}");
}

/// A graph with starts and a record, to be changed by hand.
#[derive(Clone)]
struct Case {
    graph: Graph,
    starts: Vec<u32>,
    lines: Vec<[u32; 6]>,
}

impl Case {
    fn answer(&self) -> Refusal {
        let Case { graph, starts, lines } = self;
        let numbers = graph.numbers();
        assert_eq!(check(&numbers), Ok(()));
        judged(&Asked { numbers, starts: starts.clone(), record: lines.concat() })
    }

    #[track_caller]
    fn passes(&self) {
        assert_eq!(self.answer(), Refusal::PASSED, "{:?}", self.lines);
    }

    #[track_caller]
    fn bad_at(&self, place: u64) {
        assert_eq!(self.answer(), Refusal { number: 6, place }, "{:?}", self.lines);
    }

    fn with_line(&self, line: usize, numbers: [u32; 6]) -> Case {
        let mut changed = self.clone();
        changed.lines[line] = numbers;
        changed
    }

    fn with_number(&self, line: usize, number: usize, to: u32) -> Case {
        let mut changed = self.clone();
        changed.lines[line][number] = to;
        changed
    }

    fn with_starts(&self, starts: &[u32]) -> Case {
        Case { starts: starts.to_vec(), ..self.clone() }
    }

    fn with_lines(&self, lines: &[[u32; 6]]) -> Case {
        Case { lines: lines.to_vec(), ..self.clone() }
    }
}

/// Normal modules with a namespace symbol each and so many statements, no rule of which does anything.
fn plain(statements: &[usize]) -> Graph {
    let count = statements.len() as u32;
    let module = |(index, &statements): (u32, &usize)| Module {
        normal: true,
        namespace: index + 1,
        statements: vec![Statement::default(); statements],
        ..Module::default()
    };
    Graph {
        options: 1,
        modules: (0..).zip(statements).map(module).collect(),
        symbols: (0..count).map(|owner| Symbol { owner, root: owner, ..Symbol::default() }).collect(),
        ..Graph::default()
    }
}

/// A symbol that is its own root, and its index.
fn add_symbol(graph: &mut Graph, symbol: Symbol) -> u32 {
    let root = graph.symbols.len() as u32;
    graph.symbols.push(Symbol { root, ..symbol });
    root
}

/// A statement that gives a forward and a use, and the owner of the forward; module 2 is external. K1 stands on lines
/// 4, 5.
fn forward_and_module() -> Case {
    let mut graph = plain(&[2, 3]);
    graph.runtime = 1;
    let forwarded = add_symbol(&mut graph, Symbol { owner: 1, declaring: vec![2, 1], ..Symbol::default() });
    let reference = Reference::Resolved { symbol: 0, commonjs: 1, depended: vec![forwarded] };
    graph.modules[0].statements[1].references = vec![reference];
    graph.symbols[0].constant = 1;
    graph.modules.push(Module::default());
    #[rustfmt::skip]
    let lines = vec![
        [2, 0, 1,  0, 0, 0],
        [5, 2, 0,  8, 1, 0],
        [3, 0, 1,  8, 1, 0],
        [1, 1, 0,  0, 0, 0],
        [2, 1, 2,  1, 4, 2],
        [2, 1, 1,  1, 4, 2],
    ];
    Case { graph, starts: vec![2, 0, 1, 1, 1, 0], lines }
}

#[test]
fn k1_in_either_order() {
    let case = forward_and_module();
    case.passes();
    case.with_line(4, [2, 1, 2, 1, 2, 4]).passes();
    case.with_line(4, [2, 1, 2, 1, 2, 4]).with_line(5, [2, 1, 1, 1, 2, 4]).passes();
}

/// K1 has to name two lines, a module and a forward that it owns.
#[test]
fn k1_with_other_names() {
    let case = forward_and_module();
    for names in [[0, 0], [4, 0], [0, 4], [2, 0], [0, 2], [4, 4], [2, 2], [1, 2], [4, 3], [3, 4]] {
        case.with_line(4, [2, 1, 2, 1, names[0], names[1]]).bad_at(4);
        case.with_line(5, [2, 1, 1, 1, names[0], names[1]]).bad_at(5);
    }
    let mut other_owner = case.clone();
    (other_owner.graph.symbols[2].owner, other_owner.graph.symbols[2].declaring) = (0, vec![1]);
    other_owner.bad_at(4);
    let mut other_statement = case;
    other_statement.graph.symbols[2].declaring = vec![1, 0];
    other_statement.bad_at(4);
}

#[test]
fn names_of_the_line_itself_and_of_later_lines() {
    let case = forward_and_module();
    for name in [5, 6, 7, u32::MAX] {
        case.with_line(4, [2, 1, 2, 1, 4, name]).bad_at(4);
        case.with_line(4, [2, 1, 2, 1, name, 2]).bad_at(4);
    }
    for name in [3, 4, 6, 7, u32::MAX] {
        case.with_number(2, 4, name).bad_at(2);
    }
    let first = [[5, 2, 0, 8, 2, 0], [2, 0, 1, 0, 0, 0]];
    case.with_lines(&[&first[..], &case.lines[2..]].concat()).bad_at(0);
}

#[test]
fn names_that_a_rule_does_not_take() {
    let case = forward_and_module();
    for line in [0, 3] {
        for number in [4, 5] {
            case.with_number(line, number, 1).bad_at(line as u64);
        }
    }
    for name in [1, 2, 3, 4] {
        case.with_number(2, 5, name).bad_at(2);
    }
    case.with_line(2, [3, 0, 1, 8, 0, 1]).bad_at(2);
    case.with_line(2, [3, 0, 1, 8, 0, 0]).bad_at(2);
}

#[test]
fn rules_that_do_not_give_the_fact() {
    let case = forward_and_module();
    for rule in (0..=20).chain([u32::MAX]).filter(|&rule| rule != 8) {
        case.with_number(2, 3, rule).bad_at(2);
    }
    for rule in (1..=20).chain([u32::MAX]) {
        case.with_number(3, 3, rule).bad_at(3);
        case.with_line(3, [1, 1, 0, rule, 1, 0]).bad_at(3);
    }
    case.with_line(4, [2, 1, 2, 0, 0, 0]).bad_at(4);
}

/// Kinds and parts out of range, on the first line and on a later one.
#[test]
fn facts_out_of_form() {
    let case = forward_and_module();
    for kind in [0, 7, 8, u32::MAX] {
        case.with_number(0, 0, kind).bad_at(0);
        case.with_number(3, 0, kind).bad_at(3);
    }
    let external = 2;
    for fact in [[1, external, 0], [1, 3, 0], [1, 0, 1], [2, external, 0], [2, 0, 2], [2, 1, 3], [2, 3, 0]] {
        case.with_line(0, [fact[0], fact[1], fact[2], 0, 0, 0]).bad_at(0);
    }
    for fact in [[3, 0, 0], [3, 0, 32], [3, 3, 1], [4, 0, 0], [4, 0, 32], [4, 3, 1], [5, 3, 0], [5, 2, 1]] {
        case.with_line(1, [fact[0], fact[1], fact[2], 8, 1, 0]).bad_at(1);
    }
    for fact in [[6, 3, 0], [6, external, 1]] {
        case.with_line(1, [fact[0], fact[1], fact[2], 0, 0, 0]).bad_at(1);
    }
    let bailout = case.with_starts(&[6, external, 0]).with_lines(&[[6, external, 0, 0, 0, 0]]);
    bailout.passes();
}

/// A fact of an earlier line again, though its justification is a good one.
#[test]
fn repeated_facts() {
    let case = forward_and_module();
    for line in 0..6 {
        let mut repeated = case.clone();
        repeated.lines.push(case.lines[line]);
        repeated.bad_at(6);
    }
    case.with_line(4, case.lines[1]).bad_at(4);
    case.with_line(1, case.lines[0]).bad_at(1);
    case.with_line(5, [2, 1, 2, 1, 2, 4]).bad_at(5);
}

/// The first bad line counts, whatever stands behind it.
#[test]
fn the_first_bad_line() {
    let case = forward_and_module();
    case.with_number(5, 0, 9).with_number(2, 3, 9).bad_at(2);
    case.with_number(5, 0, 9).bad_at(5);
    case.with_lines(&[&case.lines[..3], &[[0; 6]]].concat()).bad_at(3);
    case.with_lines(&[[0; 6]]).bad_at(0);
}

#[test]
fn absent_facts() {
    let case = forward_and_module();
    for lines in 0..6 {
        case.with_lines(&case.lines[..lines]).bad_at(lines as u64);
    }
    case.with_lines(&[&case.lines[..4], &case.lines[5..]].concat()).bad_at(5);
    case.with_starts(&[2, 0, 1, 1, 1, 0, 6, 0, 0]).bad_at(6);
    case.with_starts(&[2, 0, 1, 1, 1, 0, 2, 1, 0]).bad_at(6);
}

/// K1's consequence is absent only if both its premises have a line.
#[test]
fn a_forward_without_its_module() {
    let case = forward_and_module();
    case.with_starts(&[2, 0, 1]).with_lines(&case.lines[..3]).passes();
    case.with_starts(&[1, 1, 0]).with_lines(&case.lines[3..4]).passes();
    case.with_lines(&case.lines[..4]).bad_at(4);
}

#[test]
fn starts_that_are_derived() {
    let case = forward_and_module();
    let all = [2, 0, 1, 1, 1, 0, 2, 1, 1, 3, 0, 1];
    case.with_starts(&all).passes();
    case.with_starts(&all).with_line(5, [2, 1, 1, 0, 0, 0]).with_line(2, [3, 0, 1, 0, 0, 0]).passes();
    case.with_line(5, [2, 1, 1, 0, 0, 0]).bad_at(5);
    case.with_starts(&all[3..]).bad_at(0);
    case.with_starts(&[1, 1, 0, 2, 0, 1, 1, 1, 0]).passes();
}

/// Another order than that of a drain.
#[test]
fn lines_in_another_order() {
    let case = forward_and_module();
    #[rustfmt::skip]
    let lines = [
        [1, 1, 0,  0, 0, 0],
        [2, 0, 1,  0, 0, 0],
        [3, 0, 1,  8, 2, 0],
        [5, 2, 0,  8, 2, 0],
        [2, 1, 1,  1, 1, 4],
        [2, 1, 2,  1, 4, 1],
    ];
    case.with_lines(&lines).passes();
}

#[test]
fn nothing_is_kept_by_no_starts() {
    let empty = Case { graph: plain(&[1]), starts: Vec::new(), lines: Vec::new() };
    empty.passes();
    empty.with_lines(&[[1, 0, 0, 0, 0, 0]]).bad_at(0);
    empty.with_starts(&[1, 0, 0]).bad_at(0);
}

/// Numbers before starts, the starts' length before their numbers, all of that before the record.
#[test]
fn the_order_of_refusals() {
    let answer = |numbers: &[u32], starts: &[u32], record: &[u32]| {
        let asked = Asked { numbers: numbers.to_vec(), starts: starts.to_vec(), record: record.to_vec() };
        let Refusal { number, place } = judged(&asked);
        (number, place)
    };
    let starts = [6, 1, 0, 1, 1, 0];
    let record = [6, 1, 0, 0, 0, 0, 1, 1, 0, 0, 0, 0, 2, 1, 1, 2, 2, 0];
    assert_eq!(answer(&PRINTED, &starts, &record), (0, 0));
    assert_eq!(answer(&PRINTED[..80], &[0], &[0]), (4, 80));
    assert_eq!(answer(&PRINTED, &[0], &[0]), (4, 1));
    assert_eq!(answer(&PRINTED, &[1, 1, 0, 9, 9], &[0]), (4, 5));
    assert_eq!(answer(&PRINTED, &[1, 1, 0, 5, 1, 0], &[0]), (3, 3));
    assert_eq!(answer(&PRINTED, &[1, 2, 1], &[0]), (3, 1));
    assert_eq!(answer(&PRINTED, &[4, 1, 32], &[0]), (3, 2));
    for length in (0..=record.len()).filter(|length| length % 6 != 0) {
        assert_eq!(answer(&PRINTED, &starts, &record[..length]), (4, length as u64));
    }
    assert_eq!(answer(&PRINTED, &starts, &[9; 7]), (4, 7));
    assert_eq!(answer(&PRINTED, &starts, &[9; 6]), (6, 0));
    assert_eq!(answer(&PRINTED, &starts, &record[..12]), (6, 2));
}

/// Whether a rule gives a fact from one other.
fn follows(graph: &Graph, premise: [u32; 3], rule: u32, fact: [u32; 3]) -> bool {
    let ([kind, first, second], [premise_kind, premise_first, premise_second]) = (fact, premise);
    let lines = vec![[premise_kind, premise_first, premise_second, 0, 0, 0], [kind, first, second, rule, 1, 0]];
    let answer = Case { graph: graph.clone(), starts: premise.to_vec(), lines }.answer();
    assert_ne!(answer, Refusal { number: 6, place: 0 }, "the premise is a good start");
    answer != Refusal { number: 6, place: 1 }
}

/// The rules that give a fact from one other.
fn rules_for(graph: &Graph, premise: [u32; 3], fact: [u32; 3]) -> Vec<u32> {
    (0..=15).filter(|&rule| follows(graph, premise, rule, fact)).collect()
}

/// Asserts which rule gives a fact, if one does.
#[track_caller]
fn gives(graph: &Graph, premise: [u32; 3], rule: impl Into<Option<u32>>, fact: [u32; 3]) {
    let expected: Vec<u32> = rule.into().into_iter().collect();
    assert_eq!(rules_for(graph, premise, fact), expected, "{premise:?} gives {fact:?}");
}

#[test]
fn rules_of_modules() {
    let mut graph = plain(&[1, 3, 1]);
    let module = [1, 1, 0];
    gives(&graph, module, None, [2, 1, 1]);
    graph.modules[1].statements[0].bits = 1;
    graph.modules[1].statements[1].bits = 1;
    gives(&graph, module, 2, [2, 1, 1]);
    gives(&graph, module, None, [2, 1, 2]);
    gives(&graph, module, None, [2, 1, 0]);
    gives(&graph, [1, 2, 0], None, [2, 1, 1]);
    graph.modules[1].dependencies = vec![2];
    gives(&graph, module, None, [1, 2, 0]);
    graph.modules[2].effects = 1;
    gives(&graph, module, 3, [1, 2, 0]);
    graph.modules[1].named_imports = vec![0];
    gives(&graph, module, None, [4, 0, 1]);
    graph.modules[1].flags = 1;
    gives(&graph, module, 4, [4, 0, 1]);
    gives(&graph, module, None, [4, 0, 2]);
    graph.modules[1].commonjs_export_symbols = vec![2];
    gives(&graph, module, 5, [4, 2, 1]);
    gives(&graph, module, None, [3, 2, 1]);
    graph.modules[1].commonjs_export_symbols.push(0);
    assert_eq!(rules_for(&graph, module, [4, 0, 1]), [4, 5]);
    graph.options |= 16;
    gives(&graph, module, 6, [2, 1, 0]);
    graph.runtime = 1;
    for fact in [[2, 1, 1], [1, 2, 0], [4, 0, 1], [4, 2, 1], [2, 1, 0]] {
        gives(&graph, module, None, fact);
    }
    graph.modules[1].effects = 1;
    gives(&graph, module, 2, [2, 1, 1]);
    gives(&graph, module, None, [2, 1, 0]);
}

#[test]
fn rules_of_statements() {
    let mut graph = plain(&[2, 1]);
    let statement = [2, 0, 1];
    graph.modules[1].exports = 1;
    graph.modules[0].records = vec![Record { target: 2, kind: 1, bits: 0 }];
    gives(&graph, statement, None, [6, 1, 0]);
    graph.modules[0].statements[1].records = vec![0];
    gives(&graph, statement, 7, [6, 1, 0]);
    gives(&graph, [2, 0, 0], None, [6, 1, 0]);
    graph.modules[0].records[0].kind = 0;
    gives(&graph, statement, None, [6, 1, 0]);
    let chained = add_symbol(&mut graph, Symbol { owner: 1, chain: vec![0], ..Symbol::default() });
    graph.modules[0].statements[1].references = vec![Reference::Symbol(chained)];
    gives(&graph, statement, 8, [4, chained, 1]);
    gives(&graph, statement, 8, [5, chained, 0]);
    gives(&graph, statement, 8, [5, 0, 0]);
    gives(&graph, statement, None, [3, chained, 1]);
    gives(&graph, statement, None, [4, chained, 4]);
    graph.modules[0].statements[1].bits = 8;
    gives(&graph, statement, 8, [4, chained, 4]);
    graph.modules[0].kind = 2;
    gives(&graph, statement, 8, [4, chained, 12]);
    let resolved = Reference::Resolved { symbol: chained, commonjs: 1, depended: vec![1] };
    graph.modules[0].statements[1].references = vec![resolved];
    gives(&graph, statement, 8, [3, chained, 12]);
    gives(&graph, statement, 8, [5, 1, 0]);
    gives(&graph, statement, None, [5, chained, 0]);
    gives(&graph, statement, None, [4, chained, 12]);
}

#[test]
fn rules_of_checked_uses() {
    let mut graph = plain(&[1, 1]);
    graph.modules.push(Module::default());
    gives(&graph, [4, 0, 7], 9, [3, 0, 7]);
    gives(&graph, [4, 0, 7], None, [3, 0, 1]);
    gives(&graph, [4, 0, 7], 9, [6, 0, 0]);
    gives(&graph, [4, 0, 7], None, [6, 1, 0]);
    let namespace = add_symbol(&mut graph, Symbol { owner: 1, ..Symbol::default() });
    gives(&graph, [4, namespace, 1], None, [6, 2, 0]);
    graph.modules[1].commonjs_namespaces = vec![[namespace, 2]];
    gives(&graph, [4, namespace, 1], 9, [6, 2, 0]);
    let alias = Symbol { owner: 0, alias_namespace: namespace + 1, alias_name: 0, ..Symbol::default() };
    let alias = add_symbol(&mut graph, alias);
    gives(&graph, [4, alias, 1], 9, [6, 2, 0]);
    graph.symbols[alias as usize].alias_name = 3;
    gives(&graph, [4, alias, 1], None, [6, 2, 0]);
}

/// A gated statement of an on-demand module, for its namespace, for an export, and not for reason 16.
#[test]
fn body_demand() {
    let mut graph = plain(&[1, 2, 2]);
    let export = add_symbol(&mut graph, Symbol { owner: 0, ..Symbol::default() });
    for module in [1, 2] {
        graph.modules[module].effects = 2;
        graph.modules[module].own_exports = vec![export];
        graph.modules[module].statements[1] =
            Statement { bits: 1, records: Vec::new(), references: vec![Reference::Nothing] };
    }
    gives(&graph, [3, 1, 1], 10, [2, 1, 1]);
    gives(&graph, [3, 1, 17], None, [2, 1, 1]);
    graph.modules[1].statements[0] = graph.modules[1].statements[1].clone();
    gives(&graph, [3, 1, 1], None, [2, 1, 0]);
    gives(&graph, [3, export, 1], 10, [2, 2, 1]);
    gives(&graph, [3, export, 1], None, [2, 1, 1]);
    gives(&graph, [1, 1, 0], None, [2, 1, 1]);
    graph.entries = vec![Entry { module: 2, kind: 0, related: Vec::new() }];
    gives(&graph, [3, export, 1], 10, [2, 1, 1]);
    graph.modules[1].statements[1].references.clear();
    gives(&graph, [3, export, 1], None, [2, 1, 1]);
}

#[test]
fn rules_of_uses() {
    let mut graph = plain(&[1, 2]);
    let namespace = add_symbol(&mut graph, Symbol { owner: 0, ..Symbol::default() });
    let exported = add_symbol(&mut graph, Symbol { owner: 0, ..Symbol::default() });
    let alias = Symbol { owner: 0, alias_namespace: namespace + 1, alias_name: 4, ..Symbol::default() };
    let alias = add_symbol(&mut graph, alias);
    graph.modules[0].commonjs_namespaces = vec![[namespace, 1]];
    graph.modules[1].resolved_exports = vec![[4, exported, 1]];
    gives(&graph, [3, alias, 2], 11, [3, exported, 1]);
    gives(&graph, [3, alias, 2], None, [3, exported, 2]);
    graph.modules[1].resolved_exports[0][0] = 5;
    gives(&graph, [3, alias, 2], None, [3, exported, 1]);

    let own = add_symbol(&mut graph, Symbol { owner: 1, chain: vec![0], declaring: vec![1], ..Symbol::default() });
    let wrapper = add_symbol(&mut graph, Symbol { owner: 1, ..Symbol::default() });
    gives(&graph, [3, own, 4], None, [3, wrapper, 1]);
    (graph.modules[1].wrap, graph.modules[1].wrapper) = (2, wrapper + 1);
    for fact in [[3, wrapper, 1], [5, own, 0], [5, 0, 0]] {
        gives(&graph, [3, own, 4], 12, fact);
    }
    gives(&graph, [3, wrapper, 4], None, [3, wrapper, 1]);

    gives(&graph, [3, own, 4], 13, [2, 1, 1]);
    gives(&graph, [3, own, 4], 13, [1, 1, 0]);
    gives(&graph, [3, own, 16], 13, [1, 1, 0]);
    gives(&graph, [3, 1, 4], 13, [1, 1, 0]);
    gives(&graph, [3, 1, 16], None, [1, 1, 0]);
    gives(&graph, [3, own, 4], None, [2, 1, 0]);

    graph.symbols[own as usize].written = vec![0];
    gives(&graph, [3, own, 4], None, [2, 1, 0]);
    graph.options |= 8;
    gives(&graph, [3, own, 4], 14, [2, 1, 0]);
    graph.symbols[own as usize].written.push(1);
    assert_eq!(rules_for(&graph, [3, own, 4], [2, 1, 1]), [13, 14]);

    graph.symbols[own as usize].constant = 1;
    for fact in [[3, wrapper, 1], [5, own, 0], [2, 1, 1], [1, 1, 0], [2, 1, 0]] {
        gives(&graph, [3, own, 4], None, fact);
    }
    gives(&graph, [3, own, 6], 14, [2, 1, 0]);
}

/// A drain's record passes beside its starts, and a run's main lines beside its own.
#[test]
fn records_of_drains_and_runs() {
    let answer = drain::answer(&PRINTED, &[4, 1, 2]).expect("the printed case");
    assert_eq!(judge(&PRINTED, &[4, 1, 2], &answer.record()), Ok(()));
    for seed in 1..=CASES {
        let graph = run_graph(&mut Random::new(seed));
        let (run, starts) = (Run::of(&graph), Starts::of(&graph).triples());
        let main: Vec<u32> = run.lines.iter().flat_map(|line| line.numbers()).collect();
        let numbers = graph.numbers();
        assert_eq!(judge_by_rules(&numbers, &starts, &main), Ok(()), "seed {seed}");
        if numbers.len() <= 600 {
            assert_eq!(judge(&numbers, &starts, &main), Ok(()), "seed {seed}");
        }
    }
}

/// How many numbers are lent to a run's own starts of the printed case, and how many it needs.
#[derive(Clone, Copy)]
struct Lengths {
    marks: usize,
    record: usize,
    starts: usize,
}

const EXACT: Lengths = Lengths { marks: 17, record: 18, starts: 6 };
const LONGER: Lengths = Lengths { marks: 19, record: 21, starts: 8 };

/// The starts of the printed case with rows of these lengths, all of ones.
fn starts_of_printed(lengths: Lengths) -> (ReadAnswer, Vec<u8>, Vec<u32>, Vec<u32>) {
    let (mut marks, mut record) = (vec![255; lengths.marks], vec![u32::MAX; lengths.record]);
    let mut row = vec![u32::MAX; lengths.starts];
    let answer = starts(&PRINTED, &mut marks, &mut record, &mut row);
    (answer, marks, record, row)
}

#[test]
fn own_starts_of_the_printed_case() {
    let passed = ReadAnswer { number: 0, place: 0, count: 6 };
    let written = [6, 1, 0, 0, 0, 0, 1, 1, 0, 0, 0, 0, 2, 1, 1, 2, 2, 0];
    let (answer, marks, record, row) = starts_of_printed(EXACT);
    assert_eq!((answer, &record[..], &row[..]), (passed, &written[..], &[6, 1, 0, 1, 1, 0][..]));
    // Module 1, its bailout and its statement 1: all facts of the main stage.
    assert_eq!(marks, [2 + 8 + 64, 0, 0, 0, 0, 0, 0, 0, 0, 0, 0, 0, 0, 0, 0, 0, 0]);
    let (answer, longer_marks, longer_record, row) = starts_of_printed(LONGER);
    assert_eq!((answer, &row[..6], &row[6..]), (passed, &[6, 1, 0, 1, 1, 0][..], &[u32::MAX; 2][..]));
    assert_eq!((&longer_marks[..17], &longer_marks[17..]), (&marks[..], &[0; 2][..]));
    assert_eq!((&longer_record[..18], &longer_record[18..]), (&written[..], &[0; 3][..]));
}

#[test]
fn own_starts_in_rows_that_are_too_short() {
    let too_short = ReadAnswer { number: 5, place: 0, count: 0 };
    for lengths in [Lengths { marks: 16, ..LONGER }, Lengths { marks: 0, record: 0, starts: 0 }] {
        let (answer, marks, record, row) = starts_of_printed(lengths);
        assert_eq!(answer, too_short);
        assert!(marks.iter().all(|&byte| byte == 255), "as lent");
        assert!(record.iter().chain(&row).all(|&number| number == u32::MAX), "as lent");
    }
    let short_records = [0, 6, 17].map(|record| Lengths { record, ..LONGER });
    let short_starts = [0, 3, 5].map(|starts| Lengths { starts, ..LONGER });
    for lengths in short_records.into_iter().chain(short_starts) {
        let (answer, marks, record, row) = starts_of_printed(lengths);
        assert_eq!(answer, too_short);
        assert!(marks.iter().all(|&byte| byte == 0), "cleared whole");
        assert!(record.iter().all(|&number| number == 0), "cleared whole");
        assert!(row.iter().all(|&number| number == u32::MAX), "as lent");
    }
}

#[test]
fn own_starts_of_no_graph() {
    let (mut marks, mut record, mut row) = ([255; 20], [7; 20], [7; 9]);
    let answer = starts(&PRINTED[..80], &mut marks, &mut record, &mut row);
    assert_eq!(answer, ReadAnswer::refused(Refused { number: 4, place: 80 }));
    assert_eq!((marks, record, row), ([255; 20], [7; 20], [7; 9]));
}

/// Own starts are each there once, and never more than 2M + S + 2Y.
#[test]
fn own_starts_are_few() {
    for seed in 1..=10 * CASES {
        let graph = run_graph(&mut Random::new(seed));
        let starts = Starts::of(&graph).facts;
        let statements: usize = graph.modules.iter().map(|module| module.statements.len()).sum();
        assert!(starts.len() <= 2 * graph.modules.len() + statements + 2 * graph.symbols.len(), "seed {seed}");
        let once: std::collections::HashSet<_> = starts.iter().collect();
        assert_eq!(once.len(), starts.len(), "seed {seed}");
    }
}
