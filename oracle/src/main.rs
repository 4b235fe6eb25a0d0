//! `oracle`: the tree shaking's listing of a graph, of many graphs, its times, comparisons, and a list of answers.

mod loads;

use oracle::answers::{answers, read_answer};
use oracle::compare::{Comparison, CALLS, LARGER};
use oracle::loads::LOADS;
use oracle::reference::decode::decode;
use oracle::reference::{check, leb128};
use oracle::sides::{self, Side};
use oracle::{decide, has_circle, time_decision, Budget, Decision, Refused, BUDGET};
use std::error::Error;
use std::fs;
use std::io::{self, Read, Write};
use std::process::ExitCode;
use std::time::Duration;

const USAGE: &str = "\
oracle [OPTIONS] [FILE]              the listing of a graph file, or of standard input
oracle --time [OPTIONS] [FILE]       how long its decision takes, the best of some times
oracle batch [OPTIONS]               graph files from standard input to listings, each behind its length in 4 bytes,
                                     the lowest first
oracle compare FIRST COUNT [OPTIONS] compares the graphs of so many seeds with another side
oracle loads [OPTIONS]               how long the decisions of the peer's loads take, beside the library's operations if it
                                     is built in, and whether the other side agrees
oracle answers COUNT SEED            a list of files in hexadecimal and listings in a line; to standard error, in how
                                     many of them each thing occurs
oracle replay FILE [OPTIONS]         compares such a list with the tree shaking and another side

--seed N        order of the hash maps; 0 is the usual one
--hash-seeds N  in a comparison: so many orders
--calls N       gives up after resolving so many symbols; a comparison goes on without a circle
--seconds N     gives up after so long
--repeat N      times that are taken; of a load, at least
--together N    so many short calls on a load are timed together at most
--other WHICH   reference (the usual one), library (if built in), or a program's path
--differences N ends a comparison after so many differences
";

struct Options {
    seed: u64,
    hash_seeds: u64,
    calls: Option<u64>,
    seconds: u64,
    repeat: u32,
    together: u32,
    other: String,
    differences: usize,
    time: bool,
    rest: Vec<String>,
}

impl Options {
    /// The budget, with so many calls unless it is said otherwise.
    fn budget(&self, calls: u64) -> Budget {
        Budget { calls: self.calls.unwrap_or(calls), time: Duration::from_secs(self.seconds) }
    }
}

fn main() -> ExitCode {
    match options().and_then(|options| work(&options)) {
        Ok(true) => ExitCode::SUCCESS,
        Ok(false) => ExitCode::FAILURE,
        Err(error) => {
            eprintln!("{error}");
            ExitCode::from(2)
        }
    }
}

fn options() -> Result<Options, Box<dyn Error>> {
    let mut options = Options {
        seed: 0,
        hash_seeds: 4,
        calls: None,
        seconds: BUDGET.time.as_secs(),
        repeat: 20,
        together: 64,
        other: "reference".to_string(),
        differences: 3,
        time: false,
        rest: Vec::new(),
    };
    let mut arguments = std::env::args().skip(1);
    while let Some(argument) = arguments.next() {
        let mut value = || arguments.next().ok_or_else(|| format!("{argument} needs a value\n{USAGE}"));
        match argument.as_str() {
            "--seed" => options.seed = value()?.parse()?,
            "--hash-seeds" => options.hash_seeds = value()?.parse::<u64>()?.max(1),
            "--calls" => options.calls = Some(value()?.parse()?),
            "--seconds" => options.seconds = value()?.parse()?,
            "--repeat" => options.repeat = value()?.parse()?,
            "--together" => options.together = value()?.parse()?,
            "--other" => options.other = value()?,
            "--differences" => options.differences = value()?.parse::<usize>()?.max(1),
            "--time" => options.time = true,
            "--help" | "-h" => return Err(USAGE.into()),
            other if other.starts_with("--") => return Err(format!("{other} is no option\n{USAGE}").into()),
            _ => options.rest.push(argument),
        }
    }
    Ok(options)
}

fn work(options: &Options) -> Result<bool, Box<dyn Error>> {
    let rest: Vec<&str> = options.rest.iter().map(String::as_str).collect();
    match rest[..] {
        ["batch"] => batch(options),
        ["loads"] => time_loads(options),
        ["compare", first, count] => compare(options, first.parse()?, count.parse()?),
        ["answers", count, seed] => {
            let mut out = io::stdout().lock();
            let answers = answers(count.parse()?, seed.parse()?);
            for line in answers.lines {
                writeln!(out, "{line}")?;
            }
            for (name, count) in answers.occurred {
                eprintln!("{count:>5} {name}");
            }
            Ok(true)
        }
        ["replay", path] => replay(options, &fs::read_to_string(path)?),
        [] => {
            let mut file = Vec::new();
            io::stdin().read_to_end(&mut file)?;
            one(options, &file)
        }
        [path] => one(options, &fs::read(path)?),
        _ => Err(USAGE.into()),
    }
}

/// The numbers of a file that are a graph.
fn accepted(file: &[u8]) -> Result<Vec<u32>, Refused> {
    let mut numbers = vec![0; file.len()];
    let count = leb128::read(file, &mut numbers).result()?;
    numbers.truncate(count);
    check(&numbers)?;
    Ok(numbers)
}

/// What is printed for a file.
fn answer(options: &Options, file: &[u8]) -> String {
    match accepted(file) {
        Ok(numbers) => {
            let graph = decode(&numbers);
            match decide(&graph, options.seed, options.budget(BUDGET.calls)) {
                Decision::Listed(listing) => listing,
                Decision::GaveUp if has_circle(&graph) => "gave up, circle\n".to_string(),
                Decision::GaveUp => "gave up, doubling\n".to_string(),
            }
        }
        Err(refused) => format!("refused {}\n", refused.number),
    }
}

fn one(options: &Options, file: &[u8]) -> Result<bool, Box<dyn Error>> {
    if !options.time {
        io::stdout().write_all(answer(options, file).as_bytes())?;
        return Ok(true);
    }
    let numbers = accepted(file)?;
    match time_decision(&decode(&numbers), options.seed, options.repeat) {
        Some(times) => println!("whole {:?}\ninclude {:?}", times.whole, times.include),
        None => println!("gave up"),
    }
    Ok(true)
}

fn batch(options: &Options) -> Result<bool, Box<dyn Error>> {
    let (mut input, mut output) = (io::stdin().lock(), io::stdout().lock());
    let mut length = [0; 4];
    loop {
        match input.read_exact(&mut length) {
            Err(error) if error.kind() == io::ErrorKind::UnexpectedEof => return Ok(true),
            other => other?,
        }
        let mut file = vec![0; u32::from_le_bytes(length) as usize];
        input.read_exact(&mut file)?;
        let answer = answer(options, &file);
        output.write_all(&(answer.len() as u32).to_le_bytes())?;
        output.write_all(answer.as_bytes())?;
        output.flush()?;
    }
}

fn time_loads(options: &Options) -> Result<bool, Box<dyn Error>> {
    let other = other(&options.other)?;
    let way = loads::Way { seed: options.seed, repeat: options.repeat, together: options.together };
    println!("{}", loads::TITLE);
    let mut all_equal = true;
    for load in &LOADS {
        let graph = load.graph();
        let Decision::Listed(listing) = decide(&graph, options.seed, options.budget(BUDGET.calls)) else {
            println!("{:<39} gave up", load.name);
            continue;
        };
        let equal = other(&graph.numbers()) == Ok(listing);
        all_equal &= equal;
        println!("{}{}", loads::line(load, &graph, way), if equal { "" } else { "  DIFFERENT" });
    }
    Ok(all_equal)
}

fn compare(options: &Options, first: u64, count: u64) -> Result<bool, Box<dyn Error>> {
    let other = other(&options.other)?;
    let comparison = Comparison {
        other: &*other,
        hash_seeds: (0..options.hash_seeds).map(|order| options.seed + order).collect(),
        budget: options.budget(CALLS),
        larger: LARGER,
        other_may_refuse: is_program(&options.other),
    };
    let counts = comparison.seeds(first..first.saturating_add(count), options.differences);
    write!(io::stdout(), "{counts}")?;
    Ok(counts.is_good())
}

fn replay(options: &Options, list: &str) -> Result<bool, Box<dyn Error>> {
    let other = other(&options.other)?;
    let mut good = 0;
    for (number, line) in (1..).zip(list.lines()) {
        let (numbers, listing) = read_answer(line).ok_or_else(|| format!("line {number} is out of form"))?;
        check(&numbers)?;
        let decision = decide(&decode(&numbers), options.seed, options.budget(BUDGET.calls));
        let real = decision == Decision::Listed(listing.clone());
        let equal = other(&numbers) == Ok(listing);
        if real && equal {
            good += 1;
        } else {
            println!("line {number}: tree shaking {real}, the other side {equal}");
        }
    }
    let all = list.lines().count();
    println!("{good} of {all} answers are the same");
    Ok(good == all && all > 0)
}

fn is_program(which: &str) -> bool {
    !matches!(which, "reference" | "library")
}

fn other(which: &str) -> Result<Box<Side<'static>>, Box<dyn Error>> {
    match which {
        "reference" => Ok(Box::new(sides::reference)),
        #[cfg(feature = "library")]
        "library" => Ok(Box::new(sides::library)),
        #[cfg(not(feature = "library"))]
        "library" => Err("built without the feature `library`".into()),
        program => {
            let path = program.to_string();
            Ok(Box::new(move |numbers: &[u32]| sides::program(&path, numbers)))
        }
    }
}
