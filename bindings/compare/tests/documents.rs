//! What documents show is so: the example of docs/GRAPH.md and its wrong files, and the example of README.md.

use compare::{library, RunBuffers};
use lizdakk::{with_stack, Graph};
use std::path::Path;

fn document(path: &str) -> String {
    let root = Path::new(env!("CARGO_MANIFEST_DIR")).join("../..");
    std::fs::read_to_string(root.join(path)).unwrap_or_else(|error| panic!("{path}: {error}"))
}

/// The blocks of code in a document.
fn blocks(text: &str) -> Vec<&str> {
    text.split("\n```").skip(1).step_by(2).map(|block| block.split_once('\n').expect("a block has lines").1).collect()
}

/// The bytes of a commented dump.
fn bytes(dump: &str) -> Vec<u8> {
    let hex = dump.lines().flat_map(|line| line.split('#').next().expect("a line has a part").split_whitespace());
    hex.map(|byte| u8::from_str_radix(byte, 16).expect("two hex digits")).collect()
}

fn example() -> Vec<u8> {
    let text = document("docs/GRAPH.md");
    bytes(blocks(&text).into_iter().find(|block| block.starts_with("# header")).expect("the dump"))
}

#[test]
fn the_example_prints_its_listing() {
    with_stack(|| {
        let text = document("docs/GRAPH.md");
        let listing = blocks(&text).into_iter().find(|block| block.starts_with("rounds")).expect("the listing");
        let numbers = Graph::read_here(&example()).expect("the example is a graph").numbers();
        let run = RunBuffers::for_graph(&numbers).expect("the example is a graph");
        assert_eq!(run.listing().trim_end(), listing.trim_end());
    });
}

/// The bytes with a change of the table: `00` to `80`, `- 00` or `+ 00`.
fn changed(mut file: Vec<u8>, byte: usize, change: &str) -> Vec<u8> {
    let words: Vec<&str> = change.split('`').map(str::trim).collect();
    match words[..] {
        ["-", old, ""] => assert_eq!(file.remove(byte), bytes(old)[0]),
        ["+", new, ""] => file.extend(bytes(new)),
        ["", old, "to", new, ""] => {
            assert_eq!(file[byte..byte + 1], bytes(old));
            file.splice(byte..byte + 1, bytes(new));
        }
        _ => panic!("{change}"),
    }
    file
}

#[test]
fn wrong_files_are_refused_as_told() {
    with_stack(|| {
        let text = document("docs/GRAPH.md");
        let table = text.split("## Wrong files").nth(1).expect("the section");
        let rows: Vec<Vec<&str>> = table
            .lines()
            .filter(|line| line.starts_with("| ") && line.contains('`'))
            .map(|line| line.trim_matches('|').split('|').map(str::trim).collect())
            .collect();
        assert!(rows.len() > 10);
        for row in rows {
            let file = changed(example(), row[0].parse().expect("a byte"), row[1]);
            let refused = Graph::read_here(&file).expect_err("a wrong file");
            let told = (row[2].parse().expect("a refusal"), row[3].parse().expect("a place"));
            assert_eq!((refused.number(), refused.place()), told, "{row:?}: {refused}");
            let mut numbers = vec![0; file.len()];
            let read = library::read(&file, &mut numbers);
            assert_eq!(read.number == 1, refused.number() == 1);
        }
    });
}

#[test]
fn the_readme_shows_an_example_that_runs() {
    let text = document("README.md");
    let shown: Vec<&str> = blocks(&text).into_iter().map(str::trim_end).collect();
    for path in ["bindings/examples/decide.rs", "bindings/examples/decide.out"] {
        assert!(shown.contains(&document(path).trim_end()), "{path} is not as README.md shows it");
    }
    let story = document("bindings/examples/subtitle_exporter.out");
    let told: Vec<&str> = story.lines().skip_while(|line| !line.contains("is dead:")).take(2).collect();
    assert!(shown.contains(&told.join("\n").as_str()), "the reason in README.md is another");
    let kit = document("bindings/lib/KIT");
    assert!(text.contains(kit.trim_end()), "README.md names another toolchain than bindings/lib/KIT");
}
