//! The functions of the linked library, by the names and in the types of [`peer::reference`].

use lizdakk::boundary;
use peer::{DrainAnswer, ReadAnswer, Refusal, Rows, RunAnswer, RunRows};

/// As [`boundary::read`].
#[must_use]
pub fn read(file: &[u8], numbers: &mut [u32]) -> ReadAnswer {
    read_answer(boundary::read(file, numbers))
}

/// As [`boundary::check`].
#[must_use]
pub fn check(numbers: &[u32]) -> Refusal {
    refusal(boundary::check(numbers))
}

/// As [`boundary::effects`].
#[must_use]
pub fn effects(numbers: &[u32], verdicts: &mut [u32]) -> Refusal {
    refusal(boundary::effects(numbers, verdicts))
}

/// As [`boundary::drain`].
#[must_use]
pub fn drain(numbers: &[u32], starts: &[u32], rows: &mut Rows) -> DrainAnswer {
    let Rows { marks, record, modules, statements, used, external, json, reason } = rows;
    let mut rows = boundary::Rows { marks, record, modules, statements, used, external, json, reason };
    let boundary::DrainAnswer { number, place, lines } = boundary::drain(numbers, starts, &mut rows);
    DrainAnswer { number, place, lines }
}

/// As [`boundary::run`].
#[must_use]
pub fn run(numbers: &[u32], rows: &mut RunRows) -> RunAnswer {
    let RunRows { marks, record, modules, statements, used, external, json, reason, dead, helpers, entries } = rows;
    let mut rows =
        boundary::RunRows { marks, record, modules, statements, used, external, json, reason, dead, helpers, entries };
    let answer = boundary::run(numbers, &mut rows);
    let boundary::RunAnswer { number, place, rounds, lines, runtime_lines, entries } = answer;
    RunAnswer { number, place, rounds, lines, runtime_lines, entries }
}

/// As [`boundary::judge`].
#[must_use]
pub fn judge(numbers: &[u32], starts: &[u32], record: &[u32]) -> Refusal {
    refusal(boundary::judge(numbers, starts, record))
}

/// As [`boundary::starts`].
#[must_use]
pub fn starts(numbers: &[u32], marks: &mut [u8], record: &mut [u32], starts: &mut [u32]) -> ReadAnswer {
    read_answer(boundary::starts(numbers, marks, record, starts))
}

fn refusal(boundary::Refusal { number, place }: boundary::Refusal) -> Refusal {
    Refusal { number, place }
}

fn read_answer(boundary::ReadAnswer { number, place, count }: boundary::ReadAnswer) -> ReadAnswer {
    ReadAnswer { number, place, count }
}
