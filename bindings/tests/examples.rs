//! The examples print what stands beside them. `cargo test` builds them; this test runs them.

use std::path::{Path, PathBuf};
use std::process::Command;

/// The folder of the built examples: beside the folder of this test's own program.
fn built() -> PathBuf {
    let own = std::env::current_exe().expect("a program has a path");
    own.parent().and_then(Path::parent).expect("a test is in target/PROFILE/deps").join("examples")
}

fn prints(example: &str, arguments: &[&str], expected: &str) {
    let folder = Path::new(env!("CARGO_MANIFEST_DIR"));
    let program = built().join(format!("{example}{}", std::env::consts::EXE_SUFFIX));
    assert!(program.exists(), "{} is not built: run `cargo test` without --test", program.display());
    let output = Command::new(program).args(arguments).current_dir(folder).output().expect("an example can be run");
    assert!(output.status.success(), "{example}: {}", String::from_utf8_lossy(&output.stderr));
    let expected = std::fs::read_to_string(folder.join("examples").join(expected)).expect("the expected text");
    assert_eq!(String::from_utf8_lossy(&output.stdout), expected, "{example} {arguments:?}");
}

#[test]
fn decide() {
    prints("decide", &[], "decide.out");
}

#[test]
fn subtitle_exporter() {
    prints("subtitle_exporter", &[], "subtitle_exporter.out");
}

#[test]
fn second_party() {
    prints("second_party", &[], "second_party.out");
}

#[test]
fn keep_file() {
    for name in ["dead_import", "live_import"] {
        prints("keep_file", &[&format!("../examples/{name}.graph")], &format!("keep_file_{name}.out"));
    }
}

/// Each graph file of the examples of the program `keep` is told or refused, and never ends otherwise.
#[test]
fn all_graph_files() {
    let folder = Path::new(env!("CARGO_MANIFEST_DIR")).join("../examples");
    let files = std::fs::read_dir(folder).expect("the folder of graph files").map(|file| file.expect("a file").path());
    let graphs: Vec<PathBuf> =
        files.filter(|file| file.extension().is_some_and(|extension| extension == "graph")).collect();
    assert!(graphs.len() > 10);
    for graph in graphs {
        let output = Command::new(built().join("keep_file")).arg(&graph).output().expect("an example can be run");
        let listing = std::fs::read_to_string(graph.with_extension("listing")).expect("a listing");
        let refused = String::from_utf8_lossy(&output.stderr).starts_with("refused ");
        assert_eq!(refused, !output.status.success(), "{}", graph.display());
        assert_eq!(refused, listing.starts_with("refused"), "{}", graph.display());
    }
}
