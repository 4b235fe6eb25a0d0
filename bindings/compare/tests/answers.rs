//! The real Rust's answers, replayed: `oracle/answers.txt` has graph files, each with the listing that rolldown's tree
//! shaking gave for it. The linked library and the reference have to give the same.

use compare::RunBuffers;
use lizdakk::with_stack;
use peer::reference::{self, run};

const ANSWERS: &str = include_str!("../../../oracle/answers.txt");

fn file_of(hex: &str) -> Vec<u8> {
    (0..hex.len() / 2).map(|at| u8::from_str_radix(&hex[2 * at..2 * at + 2], 16).expect("two hex digits")).collect()
}

/// The files and their listings.
fn answers() -> Vec<(Vec<u8>, String)> {
    let line = |line: &str| {
        let (file, listing) = line.split_once('|').expect("a file and a listing");
        (file_of(file.trim()), listing.trim().replace(';', "\n"))
    };
    ANSWERS.lines().filter(|line| !line.is_empty() && !line.starts_with('#')).map(line).collect()
}

fn numbers_of(file: &[u8]) -> Vec<u32> {
    let mut numbers = vec![0; file.len()];
    let count = reference::read(file, &mut numbers).result().expect("a file of numbers");
    numbers.truncate(count);
    numbers
}

/// The Rust has options bits 0 to 5: with another one its answers would be none to compare with.
#[test]
fn graphs_have_options_of_the_rust() {
    assert!(answers().iter().all(|(file, _)| numbers_of(file)[0] < 64));
}

#[test]
fn library_gives_the_answers_of_the_rust() {
    with_stack(|| {
        let answers = answers();
        assert!(answers.len() >= 400, "{} answers", answers.len());
        for (number, (file, expected)) in answers.iter().enumerate() {
            let numbers = numbers_of(file);
            let run = RunBuffers::for_graph(&numbers).unwrap_or_else(|refused| panic!("answer {number}: {refused}"));
            assert_eq!(run.listing().trim_end(), expected.trim_end(), "answer {number}, numbers {numbers:?}");
        }
    });
}

#[test]
fn reference_gives_the_answers_of_the_rust() {
    for (number, (file, expected)) in answers().iter().enumerate() {
        assert_eq!(run::keep(file).trim_end(), expected.trim_end(), "answer {number}");
    }
}
