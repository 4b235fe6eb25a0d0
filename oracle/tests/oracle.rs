//! The oracle by itself, with the reference, and with sides that are wrong.

use oracle::answers::read_answer;
use oracle::compare::{Comparison, LARGER};
use oracle::generate::PRINTED;
use oracle::graphs::{doubling, graph_of};
use oracle::model::{Graph, Reference};
use oracle::reference::check;
use oracle::reference::decode::decode;
use oracle::reference::leb128;
use oracle::reference::rules::{Fact, Rules};
use oracle::reference::run::Run;
use oracle::sides;
use oracle::{decide, has_circle, time_decision, Budget, Decision, Refused};
use std::collections::BTreeSet;
use std::time::Duration;

const PRINTED_LISTING: &str = "rounds 1
entry 1 0
module 0 0 0 0 0
module 1 1 1 0 0
statement 1 1
";

const BUDGET: Budget = Budget { calls: 200_000, time: Duration::from_secs(20) };

fn comparison<'a>(other: &'a sides::Side<'a>) -> Comparison<'a> {
    Comparison { other, hash_seeds: vec![0, 1, 2], budget: BUDGET, larger: LARGER, other_may_refuse: false }
}

#[test]
fn printed_case() {
    for seed in 0..20 {
        assert_eq!(decide(&decode(&PRINTED), seed, BUDGET), Decision::Listed(PRINTED_LISTING.to_string()));
    }
}

#[test]
fn generated_graphs_are_accepted() {
    for seed in 0..5_000 {
        assert_eq!(check(&graph_of(seed).numbers()), Ok(()), "seed {seed}");
    }
    for levels in 1..50 {
        for circle in [false, true] {
            assert_eq!(check(&doubling(levels, circle).numbers()), Ok(()), "{levels} levels");
        }
    }
}

#[test]
fn the_reference_answers_the_same() {
    let counts = comparison(&sides::reference).seeds(1..=6_000, 1);
    assert!(counts.is_good(), "{counts}");
    assert!(counts.equal > 5_500, "{counts}");
    assert!(counts.larger > 0 && counts.unreached > 20 && counts.circles > 50, "{counts}");
    assert_eq!(counts.equal + counts.circles, counts.graphs, "{counts}");
    assert!(counts.rules.iter().all(|&graphs| graphs > 0), "{counts}");
}

/// Graphs without a circle on which no budget suffices are not good.
#[test]
fn giving_up_without_a_circle_is_found() {
    let small = Budget { calls: 10, ..BUDGET };
    let comparison = Comparison { budget: small, larger: small, ..comparison(&sides::reference) };
    let counts = comparison.seeds(1..=50, 1);
    assert!(!counts.too_long.is_empty() && counts.differences.is_empty() && !counts.is_good(), "{counts}");
}

/// Sides that are wrong in one thing each are found, and the graph is made small.
#[test]
fn slips_are_found() {
    fn all_rounds_one(numbers: &[u32]) -> Result<String, Refused> {
        let listing = sides::reference(numbers)?;
        Ok(format!("rounds 1\n{}", listing.split_once('\n').map_or("", |(_, rest)| rest)))
    }
    fn nothing_dead(numbers: &[u32]) -> Result<String, Refused> {
        let listing = sides::reference(numbers)?;
        Ok(listing.lines().filter(|line| !line.starts_with("dead")).map(|line| format!("{line}\n")).collect())
    }
    fn refuses_all(_: &[u32]) -> Result<String, Refused> {
        Err(Refused { number: 3, place: 0 })
    }
    for (other, most) in [(all_rounds_one as fn(&[u32]) -> _, 200), (nothing_dead, 150), (refuses_all, 60)] {
        let counts = comparison(&other).seeds(1..=2_000, 1);
        let [difference] = &counts.differences[..] else { panic!("one difference is found") };
        let numbers = difference.graph.numbers();
        assert_eq!(check(&numbers), Ok(()));
        assert!(numbers.len() <= most, "{} numbers: {difference}", numbers.len());
    }
}

#[test]
fn it_gives_up() {
    let small = Budget { calls: 10_000, ..BUDGET };
    assert_eq!(decide(&doubling(45, false), 0, small), Decision::GaveUp);
    assert!(!has_circle(&doubling(45, false)));
    for levels in [1, 3] {
        assert_eq!(decide(&doubling(levels, true), 0, small), Decision::GaveUp);
        assert!(has_circle(&doubling(levels, true)));
    }
    assert!(matches!(decide(&doubling(6, false), 0, small), Decision::Listed(_)));
    assert!(time_decision(&doubling(2, true), 0, 1).is_none());
}

/// Whether there is a circle, which has to be where it gives up.
fn circle(graph: &Graph) -> bool {
    assert_eq!(check(&graph.numbers()), Ok(()));
    let circle = has_circle(graph);
    assert_eq!(circle, circle_by_rules(graph));
    for seed in 0..4 {
        assert_eq!(decide(graph, seed, BUDGET) == Decision::GaveUp, circle);
    }
    circle
}

/// The same, by the reference's rules.
fn circle_by_rules(graph: &Graph) -> bool {
    let (run, rules) = (Run::of(graph), Rules::new(graph));
    let gives = |fact: Fact, left: &BTreeSet<Fact>| {
        let given = rules.consequences(fact);
        given.iter().any(|(rule, given)| matches!(rule, 11 | 12) && left.contains(given))
    };
    let facts = run.lines.iter().chain(&run.runtime_lines).map(|line| line.fact);
    let mut left: BTreeSet<Fact> = facts.filter(|fact| matches!(fact, Fact::Use(..))).collect();
    while let Some(&ends) = left.iter().find(|&&fact| !gives(fact, &left)) {
        left.remove(&ends);
    }
    !left.is_empty()
}

fn example(file: &[u8]) -> Graph {
    let mut numbers = vec![0; file.len()];
    let count = leb128::read(file, &mut numbers).result().expect("it is a file of numbers");
    decode(&numbers[..count])
}

#[test]
fn circles_of_the_examples() {
    let graph = example(include_bytes!("../../examples/circle.graph"));
    assert_eq!(graph.numbers().len(), 47);
    assert!(circle(&graph));
    assert!(!circle(&example(include_bytes!("../../examples/doubling.graph"))));
    assert!(!circle(&decode(&PRINTED)));
}

/// The circle is there, but no line of the run is on it.
#[test]
fn a_circle_that_is_not_reached() {
    let mut graph = doubling(3, true);
    graph.modules[1].statements[1].references.clear();
    assert!(!circle(&graph));
    // The runtime has no effects, so that it isn't included.
    let mut graph = example(include_bytes!("../../examples/circle.graph"));
    graph.modules[0].effects = 0;
    graph.modules[0].scan_effects = 0;
    assert!(!circle(&graph));
}

/// A use of a constant gives nothing, unless it is from CommonJS, or not safe where only safe ones are put in place.
#[test]
fn a_circle_of_constants() {
    for (options, constant, expected) in [(0, 1, false), (0, 3, false), (0, 5, true), (2, 1, true), (2, 3, false)] {
        let mut graph = example(include_bytes!("../../examples/circle.graph"));
        graph.options = options;
        graph.symbols[0].constant = constant;
        assert_eq!(circle(&graph), expected, "options {options}, constant {constant}");
    }
}

/// A use of a constant gives the circle if it is an entry's export.
#[test]
fn a_circle_behind_a_constant() {
    let mut graph = doubling(1, true);
    (graph.symbols[1].alias_namespace, graph.symbols[1].alias_name, graph.symbols[1].constant) = (3, 7, 1);
    graph.modules[1].statements[1].references = vec![Reference::Symbol(1)];
    assert!(!circle(&graph));
    graph.modules[1].entry_references = vec![1];
    assert!(circle(&graph));
}

#[test]
fn circles_by_the_rules() {
    for seed in 10_000..14_000 {
        let graph = graph_of(seed);
        assert_eq!(has_circle(&graph), circle_by_rules(&graph), "seed {seed}");
    }
}

/// What gives up for doubling ends with a budget that is large enough, with the reference's answer.
#[test]
fn doubling_ends_in_the_end() {
    let graph = doubling(16, false);
    assert_eq!(decide(&graph, 0, Budget { calls: 10_000, ..BUDGET }), Decision::GaveUp);
    let listing = sides::reference(&graph.numbers()).expect("it is accepted");
    assert_eq!(decide(&graph, 0, Budget { calls: 1 << 24, ..BUDGET }), Decision::Listed(listing));
}

#[test]
fn seeds_change_the_order() {
    let order = |seed: u64| -> Vec<u32> {
        rustc_hash::set_seed(seed);
        (0..6).collect::<rustc_hash::FxHashSet<u32>>().into_iter().collect()
    };
    let orders: std::collections::BTreeSet<Vec<u32>> = (0..200).map(order).collect();
    assert!(orders.len() > 50, "{} orders", orders.len());
}

#[test]
fn the_fixed_answers() {
    let list = include_str!("../answers.txt");
    assert!(list.len() < 400_000);
    for (number, line) in (1..).zip(list.lines()) {
        let (numbers, listing) = read_answer(line).expect("a file and a listing");
        assert_eq!(check(&numbers), Ok(()), "line {number}");
        assert_eq!(sides::reference(&numbers), Ok(listing.clone()), "line {number}");
        assert_eq!(decide(&decode(&numbers), number, BUDGET), Decision::Listed(listing), "line {number}");
    }
    let (numbers, listing) = read_answer(list.lines().next().expect("it is not empty")).expect("a file and a listing");
    assert_eq!((&numbers[..], &listing[..]), (&PRINTED[..], PRINTED_LISTING));
}
