//! How the judge answered, by kind of change.

use peer::generate::records::{Answers, Asked, CHANGES};
use peer::Refusal;

const KINDS: usize = CHANGES.len();
/// Passed, refused 2, 3, 4, refused 6 at a line, 6 after the last.
const ANSWERS: usize = 6;

/// Counts by kind of change, then by answer.
pub struct Tally {
    counts: [[u64; ANSWERS]; KINDS],
}

impl Tally {
    pub fn new() -> Tally {
        Tally { counts: [[0; ANSWERS]; KINDS] }
    }

    pub fn add(&mut self, kind: usize, asked: &Asked, answer: Refusal) {
        self.counts[kind][answer_index(asked, answer)] += 1;
    }

    pub fn print(&self) {
        let row = |name: &str, cells: [String; ANSWERS]| {
            let cells: Vec<String> = cells.iter().map(|cell| format!("{cell:>8}")).collect();
            println!("{name:<38} {}", cells.join(" "));
        };
        row("", ["passed", "2", "3", "4", "6, line", "6, last"].map(String::from));
        for (change, counts) in CHANGES.iter().zip(&self.counts) {
            row(change.name, counts.map(|count| count.to_string()));
        }
        let all: [u64; ANSWERS] = std::array::from_fn(|answer| self.counts.iter().map(|counts| counts[answer]).sum());
        row("all", all.map(|count| count.to_string()));
    }

    /// No kind of change is answered as it must not be. If there were many cases, each kind occurs with all its
    /// answers.
    pub fn assert_answers(&self, many: bool) {
        for (change, [passed, refused @ ..]) in CHANGES.iter().zip(&self.counts) {
            let refused: u64 = refused.iter().sum();
            let (may_pass, may_refuse) = (change.answers != Answers::Refuses, change.answers != Answers::Passes);
            let (must_pass, must_refuse) = (may_pass && change.answers != Answers::Any, may_refuse);
            assert!(may_pass || *passed == 0, "{}: {passed} passed", change.name);
            assert!(may_refuse || refused == 0, "{}: {refused} refused", change.name);
            assert!(!many || !must_pass || *passed > 0, "{}: none passed", change.name);
            assert!(!many || !must_refuse || refused > 0, "{}: none refused", change.name);
        }
    }
}

fn answer_index(asked: &Asked, Refusal { number, place }: Refusal) -> usize {
    match number {
        0 => 0,
        2..=4 => number as usize - 1,
        6 if place < asked.record.len() as u64 / 6 => 4,
        6 => 5,
        _ => panic!("the judge does not refuse with {number}"),
    }
}
