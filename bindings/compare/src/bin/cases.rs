//! Prints generated cases with the answers of the reference.
//!
//! `cases check COUNT [SEED]`: lines `number place | n0 n1 ...`; `cases read COUNT [SEED]`: lines
//! `number place count | hex bytes | room`; `cases effects COUNT [SEED]`: lines `v0 v1 ... | n0 n1 ...`, the last
//! verdict of each module; `cases drain COUNT [SEED]`: lines `n0 n1 ... | starts | record | used symbols | external
//! symbols | json symbols | REASON of each module`; `cases run COUNT [SEED]`: lines `n0 n1 ... | rounds | main record |
//! runtime record | final entries | dead | helper words | marks | modules | statements | used | external | json | REASON |
//! starts`, each row byte by byte; `cases judge COUNT [SEED]`: lines `n0 n1 ... | starts | record | number place`.

use peer::generate::records::{Answers, Asked, Change, Source, CHANGES};
use peer::generate::runs::small_run_graph;
use peer::generate::{self, Random, Size};
use peer::happenings::{happenings, Happenings};
use peer::model::{Encoded, Graph};
use peer::reference::drain::{Line, LINE};
use peer::reference::run::Run;
use peer::reference::{drain, effects, starts};
use peer::{reference, Refusal, Refused};
use std::collections::{HashMap, HashSet};

/// The most numbers of a printed graph, and the most bytes of a printed file.
const LONGEST: usize = 120;
/// The most numbers of a printed graph with verdicts or starts.
const LONGEST_KEPT: usize = 160;
/// The most numbers of a printed graph with a run.
const LONGEST_RUN: usize = 250;
/// The most lines of a printed record.
const LINES: usize = 60;
/// The most lines of a record that is printed with the judge's answer.
const LINES_JUDGED: usize = 19;

fn main() {
    let arguments: Vec<String> = std::env::args().skip(1).collect();
    let number = |index: usize, default| arguments.get(index).map_or(default, |text| text.parse().expect("a number"));
    let (count, seed) = (number(1, 60) as usize, number(2, 1));
    let mut random = Random::new(seed);
    match arguments.first().map(String::as_str) {
        Some("check") => check_cases(&mut random, count),
        Some("read") => read_cases(&mut random, count),
        Some("effects") => effects_cases(&mut random, count),
        Some("drain") => drain_cases(&mut random, count),
        Some("run") => run_cases(&mut random, count),
        Some("judge") => judge_cases(&mut random, count),
        _ => eprintln!("cases check|read|effects|drain|run|judge COUNT [SEED]"),
    }
}

/// By turns an accepted graph, a fault by a rule, and three faults at fields that had none so far.
fn check_cases(random: &mut Random, count: usize) {
    let mut shown = HashSet::new();
    for index in 0..count {
        let numbers = match index % 5 {
            0 => short_graph(random).numbers,
            1 => rule_fault(random, RULES[index / 5 % RULES.len()]),
            _ => new_fault(random, &mut shown),
        };
        print_check(&numbers);
    }
}

fn print_check(numbers: &[u32]) {
    let Refusal { number, place } = reference::check(numbers).into();
    println!("{number} {place} | {}", words(numbers));
}

fn words<T: ToString>(numbers: &[T]) -> String {
    let words: Vec<String> = numbers.iter().map(T::to_string).collect();
    words.join(" ")
}

fn short_graph(random: &mut Random) -> Encoded {
    loop {
        let size = if random.chance(50) { Size::tiny(random) } else { Size::small(random) };
        let encoded = generate::graph(random, size).encode();
        if encoded.numbers.len() <= LONGEST {
            return encoded;
        }
    }
}

/// Fields with a rule beyond a bound.
const RULES: [&str; 9] = [
    "runtime",
    "namespace",
    "root",
    "resolved export name",
    "CommonJS namespace symbol",
    "statement count",
    "related module",
    "related record",
    "statement count in all",
];

/// A value that is within its bound but against a rule.
fn rule_fault(random: &mut Random, field: &str) -> Vec<u32> {
    loop {
        let encoded = short_graph(random);
        let places: Vec<usize> = (0..encoded.fields.len()).filter(|&place| encoded.fields[place] == field).collect();
        if places.is_empty() {
            continue;
        }
        let (place, other) = (random.pick(&places), random.pick(&places));
        let mut numbers = encoded.numbers;
        let near = random.below(encoded.limits[place].min(20) + 1);
        numbers[place] = if random.chance(50) { near } else { numbers[other].min(encoded.limits[place]) };
        if reference::check(&numbers).is_err_and(|fault| fault.number == 3) {
            return numbers;
        }
    }
}

/// A damaged graph, preferably with a kind of fault that was not shown before.
fn new_fault(random: &mut Random, shown: &mut HashSet<String>) -> Vec<u32> {
    for attempt in 0.. {
        let encoded = short_graph(random);
        let numbers = generate::damaged(random, &encoded);
        let Err(fault) = reference::check(&numbers) else { continue };
        let kind = kind_of(fault, &encoded);
        let new = attempt > 5_000 || !shown.contains(&kind);
        if numbers.len() <= LONGEST && new {
            shown.insert(kind);
            return numbers;
        }
    }
    unreachable!()
}

/// Number and field of a fault; the field is approximate where numbers moved.
fn kind_of(fault: Refused, encoded: &Encoded) -> String {
    let field = encoded.fields.get(fault.place as usize).copied().unwrap_or("past the end");
    format!("{} {field}", fault.number)
}

fn read_cases(random: &mut Random, count: usize) {
    for index in 0..count {
        let good = generate::good_file(random, 12);
        let file = if index % 3 == 0 { good } else { generate::damaged_file(random, &good) };
        let room = room_for(random, index, &file);
        print_read(&file, room);
    }
}

/// Room that is mostly enough, so that a fault of the file shows.
fn room_for(random: &mut Random, index: usize, file: &[u8]) -> usize {
    let numbers = file.iter().filter(|&&byte| byte < 0x80).count();
    if index % 2 == 0 {
        return numbers + random.index(3);
    }
    generate::room(random, numbers)
}

fn print_read(file: &[u8], room: usize) {
    let answer = reference::read(file, &mut vec![0; room]);
    let hex: Vec<String> = file.iter().map(|byte| format!("{byte:02x}")).collect();
    println!("{} {} {} | {} | {room}", answer.number, answer.place, answer.count, hex.join(" "));
}

fn short_kept_graph(random: &mut Random) -> (Graph, Vec<u32>) {
    loop {
        let size = if random.chance(30) { Size::tiny(random) } else { Size::small(random) };
        let graph = generate::graph(random, size);
        let numbers = graph.numbers();
        if numbers.len() <= LONGEST_KEPT {
            return (graph, numbers);
        }
    }
}

/// By turns any graph, and two in which a verdict changes.
fn effects_cases(random: &mut Random, count: usize) {
    for index in 0..count {
        let (verdicts, numbers) = loop {
            let (graph, numbers) = short_kept_graph(random);
            let verdicts = effects::verdicts(&graph);
            let changes = graph.modules.iter().zip(&verdicts).any(|(module, &verdict)| module.effects != verdict);
            if changes || index % 3 == 0 {
                break (verdicts, numbers);
            }
        };
        println!("{} | {}", words(&verdicts), words(&numbers));
    }
}

/// A drain to print.
struct DrainCase {
    numbers: Vec<u32>,
    starts: Vec<u32>,
    answer: reference::rows::Answer,
}

/// Of several drains each time the one with the rules that were shown least.
fn drain_cases(random: &mut Random, count: usize) {
    const CANDIDATES: usize = 20;
    let mut shown = [0; 15];
    for _ in 0..count {
        let candidates = (0..CANDIDATES).map(|_| drain_case(random));
        let worth = |case: &DrainCase| rules_of(case).map(|rule| 1_000_000 / (1 + shown[rule])).sum::<usize>();
        let best = candidates.max_by_key(worth).expect("there are candidates");
        for rule in rules_of(&best) {
            shown[rule] += 1;
        }
        print_drain(&best);
    }
}

fn drain_case(random: &mut Random) -> DrainCase {
    loop {
        let (graph, numbers) = short_kept_graph(random);
        let starts = generate::starts(random, &graph);
        let answer = drain::answer(&numbers, &starts).expect("graph and starts are good");
        if answer.lines.len() <= LINES {
            return DrainCase { numbers, starts, answer };
        }
    }
}

/// The rules of a drain's lines, each once.
fn rules_of(case: &DrainCase) -> impl Iterator<Item = usize> {
    let rules: HashSet<usize> = case.answer.lines.iter().map(|line| line.rule as usize).collect();
    rules.into_iter()
}

fn print_drain(case: &DrainCase) {
    let DrainCase { numbers, starts, answer } = case;
    let symbols = [bits_of(&answer.used), bits_of(&answer.external), bits_of(&answer.json)].map(|row| words(&row));
    println!(
        "{} | {} | {} | {} | {}",
        words(numbers),
        words(starts),
        words(&answer.record()),
        symbols.join(" | "),
        words(&answer.reason)
    );
}

/// The bits that are set, ascending.
fn bits_of(row: &[u8]) -> Vec<usize> {
    (0..8 * row.len()).filter(|bit| row[bit / 8] >> (bit % 8) & 1 == 1).collect()
}

/// A run to print.
struct RunCase {
    numbers: Vec<u32>,
    run: Run,
    happenings: Happenings,
}

/// Of several runs each time the one in which happens what was shown least.
fn run_cases(random: &mut Random, count: usize) {
    const CANDIDATES: usize = 40;
    let mut shown: HashMap<&str, usize> = HashMap::new();
    for _ in 0..count {
        let candidates = (0..CANDIDATES).map(|_| run_case(random));
        let times = |name: &&str| shown.get(name).copied().unwrap_or(0);
        let worth = |case: &RunCase| case.happenings.iter().map(|name| 1_000_000 / (1 + times(name))).sum::<usize>();
        let best = candidates.max_by_key(worth).expect("there are candidates");
        for &name in &best.happenings {
            *shown.entry(name).or_default() += 1;
        }
        print_run(&best);
    }
}

fn run_case(random: &mut Random) -> RunCase {
    loop {
        let graph = small_run_graph(random);
        let numbers = graph.numbers();
        if numbers.len() > LONGEST_RUN {
            continue;
        }
        let run = Run::of(&graph);
        if run.lines.len() + run.runtime_lines.len() <= LINES {
            let happenings = happenings(&graph, &run);
            return RunCase { numbers, run, happenings };
        }
    }
}

fn print_run(RunCase { numbers, run, .. }: &RunCase) {
    let record = |lines: &[Line]| lines.iter().flat_map(|line| line.numbers()).collect::<Vec<u32>>();
    let rows = [&run.marks, &run.modules, &run.statements, &run.used, &run.external, &run.json, &run.reason];
    let mut parts = vec![words(numbers), run.rounds.to_string()];
    parts.extend([words(&record(&run.lines)), words(&record(&run.runtime_lines))]);
    parts.extend([words(&run.entries), words(&run.dead), words(&run.helpers)]);
    parts.extend(rows.map(|row| words(row)));
    parts.push(words(&starts::answer(numbers).expect("a good graph").triples()));
    println!("{}", parts.join(" | "));
}

/// A record with the judge's answer, to print.
struct JudgeCase {
    asked: Asked,
    answer: Refusal,
}

/// By turns each kind of change to a record with each of its answers. Of several each time the one with the rules that
/// were shown least.
fn judge_cases(random: &mut Random, count: usize) {
    const CANDIDATES: usize = 20;
    let mut shown = [0; 15];
    for (change, passes) in changes_and_answers().into_iter().cycle().take(count) {
        let candidates = (0..CANDIDATES).map(|_| judge_case(random, change, passes));
        let worth = |case: &JudgeCase| judged_rules(case).map(|rule| 1_000_000 / (1 + shown[rule])).sum::<usize>();
        let best = candidates.max_by_key(worth).expect("there are candidates");
        for rule in judged_rules(&best) {
            shown[rule] += 1;
        }
        print_judge(&best);
    }
}

/// The kinds of changes that leave graph and starts good, each with whether the record passes.
fn changes_and_answers() -> Vec<(&'static Change, bool)> {
    let mut found = Vec::new();
    for change in CHANGES.iter().filter(|change| change.keeps_input_good) {
        let answers: &[bool] = match change.answers {
            Answers::Passes => &[true],
            Answers::Refuses | Answers::Any => &[false],
            Answers::Both => &[true, false],
        };
        found.extend(answers.iter().map(|&passes| (change, passes)));
    }
    found
}

fn judge_case(random: &mut Random, change: &Change, passes: bool) -> JudgeCase {
    loop {
        let source = Source::small(random);
        let Some(asked) = change.make(random, &source) else { continue };
        let Asked { numbers, starts, record } = &asked;
        if numbers.len() >= LONGEST_RUN || record.len() > LINE * LINES_JUDGED {
            continue;
        }
        let answer = Refusal::from(reference::judge(numbers, starts, record));
        if (answer == Refusal::PASSED) == passes {
            return JudgeCase { asked, answer };
        }
    }
}

/// The rules of a record's lines, each once.
fn judged_rules(case: &JudgeCase) -> impl Iterator<Item = usize> {
    let rules = case.asked.record.chunks_exact(LINE).map(|line| line[3] as usize);
    rules.filter(|&rule| rule < 15).collect::<HashSet<usize>>().into_iter()
}

fn print_judge(JudgeCase { asked: Asked { numbers, starts, record }, answer }: &JudgeCase) {
    let parts = [words(numbers), words(starts), words(record), format!("{} {}", answer.number, answer.place)];
    println!("{}", parts.join(" | "));
}
