//! Records for the judge: those of drains and of the main stage of runs, and changes of every kind to them.

use super::runs::{run_graph, small_run_graph};
use super::{damaged, damaged_starts, graph, shuffle, start, starts, Random, Size};
use crate::model::Graph;
use crate::reference::check;
use crate::reference::decode::decode;
use crate::reference::drain::{self, LINE};
use crate::reference::rules::{Fact, Rules};
use crate::reference::run::Run;
use crate::reference::starts::triples;
use std::collections::{HashMap, HashSet};

/// A record line: kind and parts of the fact, rule, two earlier lines plus 1.
pub type RecordLine = [u32; LINE];

const RULE: usize = 3;
const NAMES: [usize; 2] = [4, 5];

/// What the judge is asked.
#[derive(Clone, Debug)]
pub struct Asked {
    pub numbers: Vec<u32>,
    pub starts: Vec<u32>,
    pub record: Vec<u32>,
}

/// A graph, starts, and a record that justifies what they keep.
#[derive(Clone, Debug)]
pub struct Source {
    pub graph: Graph,
    pub starts: Vec<u32>,
    pub lines: Vec<RecordLine>,
    /// For a run the lines of its runtime stage.
    pub runtime_lines: Vec<RecordLine>,
}

impl Source {
    /// A drain of a graph from good starts.
    pub fn of(graph: Graph, starts: Vec<u32>) -> Source {
        Source { lines: drained(&graph, &starts), graph, starts, runtime_lines: Vec::new() }
    }

    /// A drain of a graph from random starts.
    pub fn drain(random: &mut Random, graph: Graph) -> Source {
        let starts = starts(random, &graph);
        Source::of(graph, starts)
    }

    /// The main stage of a graph's run, with its own starts.
    pub fn run(graph: Graph) -> Source {
        let run = Run::of(&graph);
        let numbers = |lines: &[drain::Line]| lines.iter().map(|line| line.numbers()).collect();
        Source {
            starts: triples(&run.starts),
            lines: numbers(&run.lines),
            runtime_lines: numbers(&run.runtime_lines),
            graph,
        }
    }

    /// Mostly a drain, else a run, of a graph of usual size.
    pub fn usual(random: &mut Random) -> Source {
        if random.chance(40) {
            return Source::run(run_graph(random));
        }
        let size = Size::usual(random);
        let graph = graph(random, size);
        Source::drain(random, graph)
    }

    /// Mostly a drain, else a run, of a small graph.
    pub fn small(random: &mut Random) -> Source {
        if random.chance(40) {
            return Source::run(small_run_graph(random));
        }
        let size = if random.chance(30) { Size::tiny(random) } else { Size::small(random) };
        let graph = graph(random, size);
        Source::drain(random, graph)
    }

    /// Records of two lines, a start and any fact by any rule from it, for a random start of a small graph.
    pub fn steps(random: &mut Random) -> (Source, Vec<[RecordLine; 2]>) {
        let size = if random.chance(50) { Size::tiny(random) } else { Size::small(random) };
        let graph = graph(random, size);
        let start = start(random, &graph);
        let line = [start[0], start[1], start[2], 0, 0, 0];
        let facts = facts_of(&graph, &[1, 2, 4, 9, 12, start[2].clamp(1, 31)]);
        let by_rule = |[kind, first, second]: [u32; 3]| (2..=14).map(move |rule| [kind, first, second, rule, 1, 0]);
        let steps = facts.into_iter().flat_map(by_rule).map(|step| [line, step]).collect();
        (Source::of(graph, start.to_vec()), steps)
    }

    /// The question without a change.
    pub fn asked(&self) -> Asked {
        self.with_lines(&self.lines)
    }

    fn with_lines(&self, lines: &[RecordLine]) -> Asked {
        Asked { numbers: self.graph.numbers(), starts: self.starts.clone(), record: lines.concat() }
    }

    fn with_starts(&self, starts: Vec<u32>) -> Asked {
        Asked { starts, ..self.asked() }
    }

    fn triples(&self) -> Vec<[u32; 3]> {
        self.starts.chunks_exact(3).map(|start| [start[0], start[1], start[2]]).collect()
    }

    fn has(&self, fact: [u32; 3]) -> bool {
        self.lines.iter().any(|line| line[..3] == fact)
    }
}

/// The lines of a drain from good starts.
fn drained(graph: &Graph, starts: &[u32]) -> Vec<RecordLine> {
    let rules = Rules::new(graph);
    let starts = drain::read_starts(&rules, starts).expect("good starts");
    drain::lines(&rules, &starts).into_iter().map(|line| line.numbers()).collect()
}

/// What the judge answers after a kind of change.
#[derive(Clone, Copy, Debug, PartialEq, Eq)]
pub enum Answers {
    Passes,
    Refuses,
    /// Often the one, often the other.
    Both,
    /// Refuses, but for rare cases.
    Any,
}

/// A kind of change.
pub struct Change {
    pub name: &'static str,
    pub answers: Answers,
    /// Whether the graph stays accepted and the starts stay good.
    pub keeps_input_good: bool,
    make: fn(&mut Random, &Source) -> Option<Asked>,
}

impl Change {
    /// The changed question, unless the source has nothing to change in this way.
    pub fn make(&self, random: &mut Random, source: &Source) -> Option<Asked> {
        (self.make)(random, source)
    }
}

const fn change(name: &'static str, answers: Answers, make: fn(&mut Random, &Source) -> Option<Asked>) -> Change {
    Change { name, answers, keeps_input_good: true, make }
}

const fn input(name: &'static str, answers: Answers, make: fn(&mut Random, &Source) -> Option<Asked>) -> Change {
    Change { name, answers, keeps_input_good: false, make }
}

/// All kinds of changes.
pub const CHANGES: [Change; 34] = {
    use Answers::{Any, Both, Passes, Refuses};
    [
        change("none", Passes, |_, source| Some(source.asked())),
        change("cut at a line", Refuses, cut_at_a_line),
        change("cut within a line", Refuses, cut_within_a_line),
        change("two lines exchanged", Both, exchanged),
        change("two lines exchanged, renumbered", Both, exchanged_and_renumbered),
        change("lines shuffled, renumbered", Both, shuffled_and_renumbered),
        change("written anew in another order", Passes, written_anew),
        change("a line repeated at the end", Refuses, repeated_at_the_end),
        change("a line repeated, renumbered", Refuses, repeated_and_renumbered),
        change("a fact justified a second time", Refuses, justified_twice),
        change("justified in another way", Passes, justified_in_another_way),
        change("rule changed", Both, rule_changed),
        change("name changed", Both, name_changed),
        change("names a line that is not earlier", Refuses, name_not_earlier),
        change("a name too many", Refuses, name_too_many),
        change("a name too few", Refuses, name_too_few),
        change("K1 the other way round", Passes, k1_the_other_way_round),
        change("fact changed", Refuses, fact_changed),
        change("fact added", Refuses, fact_added),
        change("fact added that nearly follows", Refuses, near_fact_added),
        change("line left out, renumbered", Refuses, left_out),
        change("a derived line as a start", Both, derived_as_start),
        change("a number changed", Both, number_changed),
        change("record of other starts", Both, record_of_other_starts),
        change("noise", Any, noise),
        change("lines of the runtime stage too", Refuses, both_stages),
        change("starts reordered and repeated", Passes, starts_reordered),
        change("a start left out", Both, start_left_out),
        change("a kept fact as a further start", Passes, kept_fact_as_start),
        change("any further start", Both, further_start),
        change("another graph", Both, another_graph),
        input("starts damaged", Both, with_damaged_starts),
        input("numbers damaged", Both, with_damaged_numbers),
        input("numbers, starts and record damaged", Both, all_damaged),
    ]
};

/// The index of a line, if there are lines.
fn any_line(random: &mut Random, lines: &[RecordLine]) -> Option<usize> {
    if lines.is_empty() {
        return None;
    }
    Some(random.index(lines.len()))
}

/// The index of a line that is derived, if there is one; its rule is not 0.
fn derived_line(random: &mut Random, lines: &[RecordLine]) -> Option<usize> {
    let derived: Vec<usize> = (0..lines.len()).filter(|&index| lines[index][RULE] != 0).collect();
    any_of(random, &derived)
}

fn any_of<T: Copy>(random: &mut Random, from: &[T]) -> Option<T> {
    if from.is_empty() {
        return None;
    }
    Some(random.pick(from))
}

fn cut_at_a_line(random: &mut Random, source: &Source) -> Option<Asked> {
    let end = any_line(random, &source.lines)?;
    Some(source.with_lines(&source.lines[..end]))
}

fn cut_within_a_line(random: &mut Random, source: &Source) -> Option<Asked> {
    let line = any_line(random, &source.lines)?;
    let mut asked = source.asked();
    asked.record.truncate(LINE * line + 1 + random.index(LINE - 1));
    Some(asked)
}

/// Two different lines.
fn two_lines(random: &mut Random, lines: &[RecordLine]) -> Option<[usize; 2]> {
    if lines.len() < 2 {
        return None;
    }
    let first = random.index(lines.len());
    let near = first.saturating_sub(1) + 2 * usize::from(first == 0 || random.chance(50));
    let second = if random.chance(50) { near } else { random.index(lines.len()) };
    (second != first && second < lines.len()).then_some([first, second])
}

fn exchanged(random: &mut Random, source: &Source) -> Option<Asked> {
    let [first, second] = two_lines(random, &source.lines)?;
    let mut lines = source.lines.clone();
    lines.swap(first, second);
    Some(source.with_lines(&lines))
}

/// Lines in another order: `order` has the old places, and names follow.
fn reordered(lines: &[RecordLine], order: &[usize]) -> Vec<RecordLine> {
    let mut places = vec![0; lines.len() + 1];
    for (place, &old) in (1..).zip(order) {
        places[old + 1] = place;
    }
    let renamed = |&old: &usize| {
        let mut line = lines[old];
        for name in NAMES {
            line[name] = places[line[name] as usize];
        }
        line
    };
    order.iter().map(renamed).collect()
}

fn exchanged_and_renumbered(random: &mut Random, source: &Source) -> Option<Asked> {
    let [first, second] = two_lines(random, &source.lines)?;
    let mut order: Vec<usize> = (0..source.lines.len()).collect();
    order.swap(first, second);
    Some(source.with_lines(&reordered(&source.lines, &order)))
}

/// All lines shuffled, or a few that stand beside each other.
fn shuffled_and_renumbered(random: &mut Random, source: &Source) -> Option<Asked> {
    let [first, second] = two_lines(random, &source.lines)?;
    let mut order: Vec<usize> = (0..source.lines.len()).collect();
    match random.chance(30) {
        true => shuffle(random, &mut order),
        false => shuffle(random, &mut order[first.min(second)..=first.max(second)]),
    }
    Some(source.with_lines(&reordered(&source.lines, &order)))
}

fn written_anew(random: &mut Random, source: &Source) -> Option<Asked> {
    let rules = Rules::new(&source.graph);
    let mut anew =
        Anew { rules: &rules, lines: Vec::new(), numbers: HashMap::new(), forwards: HashMap::new(), open: Vec::new() };
    anew.open.extend(source.triples().into_iter().map(|start| (Fact::of(start), 0, [0, 0])));
    while !anew.open.is_empty() {
        let next = random.index(anew.open.len());
        let (fact, rule, names) = anew.open.swap_remove(next);
        let other_way = rule == 1 && random.chance(50);
        anew.write(fact, rule, if other_way { [names[1], names[0]] } else { names });
    }
    Some(source.with_lines(&anew.lines))
}

/// A record that is written in any order.
struct Anew<'a> {
    rules: &'a Rules<'a>,
    lines: Vec<RecordLine>,
    /// Line numbers plus 1.
    numbers: HashMap<Fact, u32>,
    /// By owner: the forwards that have a line.
    forwards: HashMap<u32, Vec<u32>>,
    /// Lines that could be written.
    open: Vec<(Fact, u32, [u32; 2])>,
}

impl Anew<'_> {
    /// Writes a line unless the fact has one.
    fn write(&mut self, fact: Fact, rule: u32, names: [u32; 2]) {
        if self.numbers.contains_key(&fact) {
            return;
        }
        let [kind, first, second] = fact.parts();
        self.lines.push([kind, first, second, rule, names[0], names[1]]);
        let number = self.lines.len() as u32;
        self.numbers.insert(fact, number);
        let given = self.rules.consequences(fact).into_iter();
        self.open.extend(given.map(|(rule, given)| (given, rule, [number, 0])));
        self.open_k1(fact, number);
    }

    /// Opens what K1 gives from a new line and an earlier one.
    fn open_k1(&mut self, fact: Fact, number: u32) {
        match fact {
            Fact::Module(module) => {
                for symbol in self.forwards.get(&module).cloned().unwrap_or_default() {
                    self.open_declaring(symbol, [number, self.numbers[&Fact::Forward(symbol)]]);
                }
            }
            Fact::Forward(symbol) => {
                let owner = self.rules.symbol(symbol).owner;
                self.forwards.entry(owner).or_default().push(symbol);
                if let Some(&line) = self.numbers.get(&Fact::Module(owner)) {
                    self.open_declaring(symbol, [number, line]);
                }
            }
            _ => {}
        }
    }

    fn open_declaring(&mut self, symbol: u32, names: [u32; 2]) {
        self.open.extend(self.rules.declaring(symbol).map(|statement| (statement, 1, names)));
    }
}

fn repeated_at_the_end(random: &mut Random, source: &Source) -> Option<Asked> {
    let line = any_line(random, &source.lines)?;
    let mut lines = source.lines.clone();
    lines.push(lines[line]);
    Some(source.with_lines(&lines))
}

/// Puts a line at a place; the names of lines from there on follow.
fn inserted(lines: &[RecordLine], place: usize, line: RecordLine) -> Vec<RecordLine> {
    let follow = |mut line: RecordLine| {
        for name in NAMES {
            line[name] += u32::from(line[name] as usize > place);
        }
        line
    };
    let mut inserted: Vec<RecordLine> = lines.iter().map(|&line| follow(line)).collect();
    inserted.insert(place, line);
    inserted
}

fn repeated_and_renumbered(random: &mut Random, source: &Source) -> Option<Asked> {
    let line = any_line(random, &source.lines)?;
    let place = random.index(source.lines.len() + 1);
    Some(source.with_lines(&inserted(&source.lines, place, source.lines[line])))
}

/// A further line for a fact, by a rule and from a line that do give it.
fn justified_twice(random: &mut Random, source: &Source) -> Option<Asked> {
    let premise = any_line(random, &source.lines)?;
    let [kind, first, second, ..] = source.lines[premise];
    let given = Rules::new(&source.graph).consequences(Fact::of([kind, first, second]));
    let (rule, fact) = any_of(random, &given)?;
    let [kind, first, second] = fact.parts();
    let mut lines = source.lines.clone();
    lines.push([kind, first, second, rule, premise as u32 + 1, 0]);
    Some(source.with_lines(&lines))
}

/// The lines with one number changed, if it is another one.
fn with_number(source: &Source, line: usize, number: usize, to: u32) -> Option<Asked> {
    let mut lines = source.lines.clone();
    let before = std::mem::replace(&mut lines[line][number], to);
    (before != to).then(|| source.with_lines(&lines))
}

/// All that justifies the fact of a line: rule and names, from the lines before it. Far away ones are not looked for.
fn justifications(source: &Source, line: usize) -> Vec<[u32; 3]> {
    const FAR: usize = 200;
    let rules = Rules::new(&source.graph);
    let fact_of = |line: usize| Fact::of([source.lines[line][0], source.lines[line][1], source.lines[line][2]]);
    let (fact, near) = (fact_of(line), line.saturating_sub(FAR)..line);
    let mut found: Vec<[u32; 3]> = Vec::new();
    if source.triples().iter().any(|&start| Fact::of(start) == fact) {
        found.push([0, 0, 0]);
    }
    for premise in near.clone() {
        let given = rules.consequences(fact_of(premise)).into_iter().filter(|&(_, given)| given == fact);
        found.extend(given.map(|(rule, _)| [rule, premise as u32 + 1, 0]));
        let Fact::Forward(symbol) = fact_of(premise) else { continue };
        let owner = Fact::Module(rules.symbol(symbol).owner);
        if rules.declaring(symbol).any(|given| given == fact) {
            let modules = near.clone().filter(|&other| fact_of(other) == owner);
            found.extend(modules.map(|module| [1, premise as u32 + 1, module as u32 + 1]));
        }
    }
    found
}

/// A line with another justification, of those that `takes` takes, if one of a few lines has one.
fn other_justification(
    random: &mut Random,
    source: &Source,
    takes: impl Fn([u32; 3], [u32; 3]) -> bool,
) -> Option<Asked> {
    (0..8).find_map(|_| {
        let line = any_line(random, &source.lines)?;
        let [_, _, _, rule, first, second] = source.lines[line];
        let mut found = justifications(source, line);
        found.retain(|&other| other != [rule, first, second] && takes([rule, first, second], other));
        let other = any_of(random, &found)?;
        let mut lines = source.lines.clone();
        lines[line][RULE..].copy_from_slice(&other);
        Some(source.with_lines(&lines))
    })
}

fn justified_in_another_way(random: &mut Random, source: &Source) -> Option<Asked> {
    other_justification(random, source, |_, _| true)
}

/// Another rule: at times one that is good too, mostly one that gives the same kind of fact from the same kind of line.
fn rule_changed(random: &mut Random, source: &Source) -> Option<Asked> {
    if random.chance(30) {
        let good = other_justification(random, source, |[_, first, second], other| other[1..] == [first, second]);
        if good.is_some() {
            return good;
        }
    }
    let line = match random.chance(80) {
        true => derived_line(random, &source.lines)?,
        false => any_line(random, &source.lines)?,
    };
    let near: &[u32] = match source.lines[line][RULE] {
        2 => &[6, 1],
        4 => &[5],
        5 => &[4],
        10 => &[13, 14],
        11 => &[12],
        12 => &[11],
        13 => &[14, 10],
        14 => &[13, 10],
        _ => &[0, 1, 7, 8],
    };
    let to = match random.below(10) {
        0..=5 => random.pick(near),
        6..=8 => random.below(17),
        _ => random.any(),
    };
    with_number(source, line, RULE, to)
}

/// Another name: at times one that is good too, mostly one of an earlier line with the same kind of fact.
fn name_changed(random: &mut Random, source: &Source) -> Option<Asked> {
    if random.chance(30) {
        let good = other_justification(random, source, |[rule, ..], other| other[0] == rule);
        if good.is_some() {
            return good;
        }
    }
    let line = derived_line(random, &source.lines)?;
    let second = source.lines[line][RULE] == 1 && random.chance(50);
    let name = NAMES[usize::from(second)];
    let old = source.lines[line][name] as usize - 1;
    let like = |&other: &usize| other != old && source.lines[other][0] == source.lines[old][0];
    let alike: Vec<usize> = (0..line).filter(like).collect();
    let to = match any_of(random, &alike).filter(|_| random.chance(80)) {
        Some(other) => other as u32 + 1,
        None => random.below(source.lines.len() as u32 + 2),
    };
    with_number(source, line, name, to)
}

/// A name of the line itself, of a later one, or of one past the last.
fn name_not_earlier(random: &mut Random, source: &Source) -> Option<Asked> {
    let line = derived_line(random, &source.lines)?;
    let second = source.lines[line][RULE] == 1 && random.chance(50);
    let (own, last) = (line as u32 + 1, source.lines.len() as u32);
    let to = match random.below(4) {
        0 => own,
        1 | 2 => random.between(own, last),
        _ => random.pick(&[last + 1, u32::MAX]),
    };
    with_number(source, line, NAMES[usize::from(second)], to)
}

/// A first name for a start, or a second one where no rule takes two.
fn name_too_many(random: &mut Random, source: &Source) -> Option<Asked> {
    let line = any_line(random, &source.lines)?;
    if source.lines[line][RULE] == 1 {
        return None;
    }
    let unused = if source.lines[line][RULE] == 0 { random.pick(&NAMES) } else { NAMES[1] };
    let to = random.between(1, line as u32 + 1);
    with_number(source, line, unused, to)
}

/// A name that is 0, or a line that has its only name in the second place.
fn name_too_few(random: &mut Random, source: &Source) -> Option<Asked> {
    let line = derived_line(random, &source.lines)?;
    let mut lines = source.lines.clone();
    match (lines[line][RULE], random.chance(50)) {
        (1, first) => lines[line][NAMES[usize::from(first)]] = 0,
        (_, true) => lines[line][NAMES[0]] = 0,
        (_, false) => lines[line].swap(NAMES[0], NAMES[1]),
    }
    Some(source.with_lines(&lines))
}

fn k1_the_other_way_round(random: &mut Random, source: &Source) -> Option<Asked> {
    let mut lines = source.lines.clone();
    let all: Vec<usize> = (0..lines.len()).filter(|&line| lines[line][RULE] == 1).collect();
    let one = any_of(random, &all)?;
    let some = if random.chance(50) { vec![one] } else { all };
    some.into_iter().for_each(|line| lines[line].swap(NAMES[0], NAMES[1]));
    Some(source.with_lines(&lines))
}

/// Another number in a fact: near a bound, or that of another line.
fn fact_changed(random: &mut Random, source: &Source) -> Option<Asked> {
    let line = any_line(random, &source.lines)?;
    let (part, other) = (random.index(3), random.index(source.lines.len()));
    let number = source.lines[line][part];
    let to = if random.chance(30) { source.lines[other][part] } else { near_a_bound(random, source, number) };
    with_number(source, line, part, to)
}

/// A number near a bound of some kind, or near `number`.
fn near_a_bound(random: &mut Random, source: &Source, number: u32) -> u32 {
    super::other_part(random, &source.graph, number)
}

/// A line for a fact that is not kept, as a start or by some rule.
fn fact_added(random: &mut Random, source: &Source) -> Option<Asked> {
    let symbol = random.index(source.graph.symbols.len()) as u32;
    let fact = if random.chance(15) { [5, symbol, 0] } else { start(random, &source.graph) };
    if source.has(fact) {
        return None;
    }
    let place = random.index(source.lines.len() + 1);
    let rule = if place == 0 || random.chance(20) { 0 } else { usual_rule(random, fact[0]) };
    let name = |random: &mut Random| random.between(1, place as u32);
    let names = match rule {
        0 => [0, 0],
        1 => [name(random), name(random)],
        _ => [name(random), 0],
    };
    let line = [fact[0], fact[1], fact[2], rule, names[0], names[1]];
    Some(source.with_lines(&inserted(&source.lines, place, line)))
}

/// A line for a fact that is not kept, with the rule and the premise of one that differs in a part.
fn near_fact_added(random: &mut Random, source: &Source) -> Option<Asked> {
    let line = source.lines[derived_line(random, &source.lines)?];
    let reason = random.between(1, 31);
    let all = facts_of(&source.graph, &[1, 4, 9, 12, reason]);
    let is_near = |fact: &&[u32; 3]| fact[0] == line[0] && (fact[1] == line[1] || fact[2] == line[2]);
    let near: Vec<[u32; 3]> = all.iter().filter(is_near).filter(|fact| !source.has(**fact)).copied().collect();
    let [kind, first, second] = any_of(random, &near)?;
    let mut lines = source.lines.clone();
    lines.push([kind, first, second, line[3], line[4], line[5]]);
    Some(source.with_lines(&lines))
}

/// Every fact that a graph can have, uses with these reasons.
pub fn facts_of(graph: &Graph, reasons: &[u32]) -> Vec<[u32; 3]> {
    let mut facts = Vec::new();
    for (index, module) in (0..).zip(&graph.modules) {
        if module.normal {
            facts.push([1, index, 0]);
        }
        facts.extend((0..module.statements.len() as u32).map(|number| [2, index, number]));
        facts.push([6, index, 0]);
    }
    for symbol in 0..graph.symbols.len() as u32 {
        facts.extend(reasons.iter().flat_map(|&reason| [[3, symbol, reason], [4, symbol, reason]]));
        facts.push([5, symbol, 0]);
    }
    facts
}

/// A rule that gives facts of a kind.
fn usual_rule(random: &mut Random, kind: u32) -> u32 {
    match kind {
        1 => random.pick(&[3, 13]),
        2 => random.pick(&[1, 2, 6, 10, 13, 14]),
        3 => random.pick(&[8, 9, 11, 12]),
        4 => random.pick(&[4, 5, 8]),
        5 => random.pick(&[8, 12]),
        _ => random.pick(&[7, 9]),
    }
}

/// The lines without one of them; a name of that is one of its own names, or 0.
fn left_out(random: &mut Random, source: &Source) -> Option<Asked> {
    let gone = any_line(random, &source.lines)?;
    let heir = source.lines[gone][NAMES[0]];
    let follow = |name: u32| match (name as usize).cmp(&(gone + 1)) {
        std::cmp::Ordering::Less => name,
        std::cmp::Ordering::Equal => heir,
        std::cmp::Ordering::Greater => name - 1,
    };
    let mut lines = source.lines.clone();
    lines.remove(gone);
    for line in &mut lines {
        NAMES.into_iter().for_each(|name| line[name] = follow(line[name]));
    }
    Some(source.with_lines(&lines))
}

/// A derived line, preferably one of a start's fact, with rule 0.
fn derived_as_start(random: &mut Random, source: &Source) -> Option<Asked> {
    let starts: HashSet<[u32; 3]> = source.triples().into_iter().collect();
    let is_start = |line: &RecordLine| starts.contains(&[line[0], line[1], line[2]]);
    let both = |&index: &usize| source.lines[index][RULE] != 0 && is_start(&source.lines[index]);
    let derived_starts: Vec<usize> = (0..source.lines.len()).filter(both).collect();
    let line = match any_of(random, &derived_starts).filter(|_| random.chance(70)) {
        Some(line) => line,
        None => derived_line(random, &source.lines)?,
    };
    let mut lines = source.lines.clone();
    lines[line][RULE..].fill(0);
    Some(source.with_lines(&lines))
}

/// Any number of a line; at times such that the line is good still.
fn number_changed(random: &mut Random, source: &Source) -> Option<Asked> {
    if random.chance(20) {
        let one = |old: [u32; 3], other: [u32; 3]| (0..3).filter(|&number| old[number] != other[number]).count() == 1;
        return other_justification(random, source, one);
    }
    let line = any_line(random, &source.lines)?;
    let number = random.index(LINE);
    let old = source.lines[line][number];
    let to = match random.below(3) {
        0 => near_a_bound(random, source, old),
        1 => old.wrapping_add(1),
        _ => random.below(17),
    };
    with_number(source, line, number, to)
}

/// The record of a drain from some of the starts, from one more, or from others.
fn record_of_other_starts(random: &mut Random, source: &Source) -> Option<Asked> {
    let mut others = source.triples();
    match random.below(3) {
        0 => {
            let gone = any_of(random, &(0..others.len()).collect::<Vec<usize>>())?;
            others.remove(gone);
        }
        1 => others.push(start(random, &source.graph)),
        _ => shuffle(random, &mut others),
    }
    Some(source.with_lines(&drained(&source.graph, &others.concat())))
}

/// Small numbers, in lines mostly.
fn noise(random: &mut Random, source: &Source) -> Option<Asked> {
    let mut asked = source.asked();
    let lines = random.between(1, 6) as usize;
    let more = if random.chance(10) { random.index(LINE) } else { 0 };
    let largest = random.pick(&[2, 4, 8]);
    asked.record = (0..LINE * lines + more).map(|_| random.below(largest)).collect();
    if random.chance(50) {
        let front = source.lines[..random.index(source.lines.len() + 1)].concat();
        asked.record.splice(0..0, front);
    }
    Some(asked)
}

fn both_stages(_: &mut Random, source: &Source) -> Option<Asked> {
    if source.runtime_lines.is_empty() {
        return None;
    }
    Some(source.with_lines(&[&source.lines[..], &source.runtime_lines].concat()))
}

fn starts_reordered(random: &mut Random, source: &Source) -> Option<Asked> {
    let mut starts = source.triples();
    let again = any_of(random, &starts)?;
    if random.chance(50) {
        starts.push(again);
    }
    shuffle(random, &mut starts);
    Some(source.with_starts(starts.concat()))
}

fn start_left_out(random: &mut Random, source: &Source) -> Option<Asked> {
    let mut starts = source.triples();
    let gone = any_of(random, &(0..starts.len()).collect::<Vec<usize>>())?;
    starts.remove(gone);
    Some(source.with_starts(starts.concat()))
}

fn kept_fact_as_start(random: &mut Random, source: &Source) -> Option<Asked> {
    let [kind, first, second, ..] = source.lines[any_line(random, &source.lines)?];
    let forward = kind == 5;
    let place = random.index(source.starts.len() / 3 + 1);
    let mut starts = source.triples();
    starts.insert(place, [kind, first, second]);
    (!forward).then(|| source.with_starts(starts.concat()))
}

fn further_start(random: &mut Random, source: &Source) -> Option<Asked> {
    let mut starts = source.starts.clone();
    starts.extend(start(random, &source.graph));
    Some(source.with_starts(starts))
}

/// The record beside a graph with a few numbers changed, that is accepted still.
fn another_graph(random: &mut Random, source: &Source) -> Option<Asked> {
    const TRIES: usize = 20;
    let mut encoded = source.graph.encode();
    let original = encoded.numbers.clone();
    for _ in 0..TRIES {
        let numbers = damaged(random, &encoded);
        if are_good_starts(&numbers, &source.starts) {
            encoded = decode(&numbers).encode();
        }
    }
    (encoded.numbers != original).then(|| Asked { numbers: encoded.numbers, ..source.asked() })
}

/// Whether numbers are a graph that the starts are good for.
fn are_good_starts(numbers: &[u32], starts: &[u32]) -> bool {
    check(numbers).is_ok() && drain::read_starts(&Rules::new(&decode(numbers)), starts).is_ok()
}

fn with_damaged_starts(random: &mut Random, source: &Source) -> Option<Asked> {
    Some(source.with_starts(damaged_starts(random, &source.graph, &source.starts)))
}

fn with_damaged_numbers(random: &mut Random, source: &Source) -> Option<Asked> {
    let numbers = damaged(random, &source.graph.encode());
    Some(Asked { numbers, ..source.asked() })
}

/// Any of the three damaged, so that the order of refusals shows.
fn all_damaged(random: &mut Random, source: &Source) -> Option<Asked> {
    let mut asked = source.asked();
    if random.chance(40) {
        asked.numbers = damaged(random, &source.graph.encode());
    }
    if random.chance(60) {
        asked.starts = damaged_starts(random, &source.graph, &source.starts);
    }
    if random.chance(60) {
        let numbers = random.between(1, 5);
        asked.record.extend((0..numbers).map(|_| random.any()));
    }
    Some(asked)
}
