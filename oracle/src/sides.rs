//! The sides of a comparison: functions from the numbers of a graph to a listing.

use crate::reference::decode::decode;
use crate::reference::leb128;
use crate::reference::run;
use crate::Refused;
use std::io::Write;
use std::process::{Command, Stdio};

/// What a side answers for the numbers of a graph: the listing that the program `keep` prints, or a refusal.
pub type Side<'a> = dyn Fn(&[u32]) -> Result<String, Refused> + 'a;

/// The independent implementation of the run.
pub fn reference(numbers: &[u32]) -> Result<String, Refused> {
    let run = run::answer(numbers)?;
    Ok(run.listing(&decode(numbers)))
}

/// The linked library.
#[cfg(feature = "library")]
pub fn library(numbers: &[u32]) -> Result<String, Refused> {
    lizdakk::with_stack(|| ::compare::RunBuffers::for_graph(numbers).map(|run| run.listing()))
}

/// Files that the program `keep` takes are at most so long.
const KEEP_BYTES: usize = 8_192;

/// The listing that a program like `keep` prints. It takes small graphs only: the others are refused.
pub fn program(path: &str, numbers: &[u32]) -> Result<String, Refused> {
    let file = leb128::file_of(numbers);
    if file.len() > KEEP_BYTES {
        return Err(Refused { number: 2, place: 0 });
    }
    let mut child = Command::new(path)
        .stdin(Stdio::piped())
        .stdout(Stdio::piped())
        .spawn()
        .unwrap_or_else(|error| panic!("{path}: {error}"));
    child.stdin.take().expect("it is piped").write_all(&file).expect("the program reads its input");
    let output = child.wait_with_output().expect("the program ends");
    match String::from_utf8_lossy(&output.stdout).into_owned() {
        text if text == "refused 5\n" => Err(Refused { number: 5, place: 0 }),
        text => Ok(text),
    }
}
