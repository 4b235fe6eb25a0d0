//! The C header: programs that include it compile as C and as C++ without warnings, link with the library, and get the
//! answers that Rust gets. Their sources, and what they print, are in `c/` and `c/tests/`.

use std::collections::BTreeMap;
use std::fs;
use std::mem::{offset_of, size_of};
use std::path::{Path, PathBuf};
use std::process::{Command, Output};

use lizdakk::boundary::{check, read, DrainAnswer, ReadAnswer, Refusal, RunAnswer};
use lizdakk::STACK;

/// A compiler, and how it is called.
#[derive(Clone, Copy)]
struct Language {
    name: &'static str,
    variable: &'static str,
    compiler: &'static str,
    flags: [&'static str; 3],
}

const C99: Language = Language { name: "c99", variable: "CC", compiler: "cc", flags: ["-std=c99", "-x", "c"] };
const CPP11: Language =
    Language { name: "cpp11", variable: "CXX", compiler: "c++", flags: ["-std=c++11", "-x", "c++"] };
const CPP98: Language =
    Language { name: "cpp98", variable: "CXX", compiler: "c++", flags: ["-std=c++98", "-x", "c++"] };

const WARNINGS: [&str; 6] = ["-Wall", "-Wextra", "-pedantic", "-Wconversion", "-Wsign-conversion", "-Werror"];

/// Every constant of the header and its value; then the layout of the answers.
const CONSTANTS: [(&str, u64); 107] = [
    ("KEEP_PASSED", 0),
    ("KEEP_REFUSED_FAULTY_NUMBER", 1),
    ("KEEP_REFUSED_OVER_LIMIT", 2),
    ("KEEP_REFUSED_OUT_OF_RANGE", 3),
    ("KEEP_REFUSED_LENGTH", 4),
    ("KEEP_REFUSED_TOO_SHORT", 5),
    ("KEEP_REFUSED_UNJUSTIFIED", 6),
    ("KEEP_FACT_MODULE", 1),
    ("KEEP_FACT_STATEMENT", 2),
    ("KEEP_FACT_USE", 3),
    ("KEEP_FACT_CHECKED_USE", 4),
    ("KEEP_FACT_FORWARD", 5),
    ("KEEP_FACT_BAILOUT", 6),
    ("KEEP_REASON_NORMAL", 1),
    ("KEEP_REASON_ENTRY_EXPORT", 2),
    ("KEEP_REASON_RE_EXPORT_DYNAMIC_EXPORTS", 4),
    ("KEEP_REASON_JSON_DEFAULT_EXPORT_SELF_REFERENCE", 8),
    ("KEEP_REASON_SIMULATED_FACADE_CHUNK", 16),
    ("KEEP_RULE_START", 0),
    ("KEEP_RULE_FORWARDED_DECLARATION", 1),
    ("KEEP_RULE_SIDE_EFFECT", 2),
    ("KEEP_RULE_DEPENDENCY", 3),
    ("KEEP_RULE_EVAL_NAMED_IMPORT", 4),
    ("KEEP_RULE_COMMONJS_EXPORT", 5),
    ("KEEP_RULE_DEV_MODE", 6),
    ("KEEP_RULE_IMPORT_RECORD_BAILOUT", 7),
    ("KEEP_RULE_REFERENCE", 8),
    ("KEEP_RULE_CHECKED_USE", 9),
    ("KEEP_RULE_DEMANDED_BODY", 10),
    ("KEEP_RULE_COMMONJS_ALIAS", 11),
    ("KEEP_RULE_WRAPPER", 12),
    ("KEEP_RULE_DECLARATION", 13),
    ("KEEP_RULE_PROPERTY_WRITE", 14),
    ("KEEP_NAMESPACE_UNKNOWN", 1),
    ("KEEP_NAMESPACE_RE_EXPORT_DYNAMIC_EXPORTS", 2),
    ("KEEP_MAX_MODULES", 1_024),
    ("KEEP_MAX_SYMBOLS", 16_384),
    ("KEEP_MAX_STATEMENTS", 16_384),
    ("KEEP_MAX_ENTRIES", 1_024),
    ("KEEP_MAX_HELPERS", 32),
    ("KEEP_MAX_LIST", 16_384),
    ("KEEP_OPTION_TREESHAKE", 1 << 0),
    ("KEEP_OPTION_INLINE_CONST_SMART", 1 << 1),
    ("KEEP_OPTION_COMMONJS", 1 << 2),
    ("KEEP_OPTION_PROPERTY_WRITE_SIDE_EFFECTS_FALSE", 1 << 3),
    ("KEEP_OPTION_DEV_MODE", 1 << 4),
    ("KEEP_OPTION_CODE_SPLITTING_DISABLED", 1 << 5),
    ("KEEP_OPTION_DEAD_IMPORTS_AT_END", 1 << 6),
    ("KEEP_OPTION_SETTLE", 1 << 7),
    ("KEEP_MODULE_EXTERNAL", 0),
    ("KEEP_MODULE_NORMAL", 1),
    ("KEEP_SIDE_EFFECTS_ANALYZED_FALSE", 0),
    ("KEEP_SIDE_EFFECTS_ANALYZED_TRUE", 1),
    ("KEEP_SIDE_EFFECTS_USER_DEFINED_FALSE", 2),
    ("KEEP_SIDE_EFFECTS_USER_DEFINED_TRUE", 3),
    ("KEEP_SIDE_EFFECTS_NO_TREESHAKE", 4),
    ("KEEP_EXPORTS_ESM", 0),
    ("KEEP_EXPORTS_COMMONJS", 1),
    ("KEEP_EXPORTS_OTHER", 2),
    ("KEEP_TYPE_JS", 0),
    ("KEEP_TYPE_JSX", 1),
    ("KEEP_TYPE_JSON", 2),
    ("KEEP_TYPE_OTHER", 3),
    ("KEEP_MODULE_FLAG_EVAL", 1 << 0),
    ("KEEP_MODULE_FLAG_SAFELY_TREESHAKE_COMMONJS", 1 << 1),
    ("KEEP_MODULE_FLAG_IS_CJS_REEXPORT", 1 << 2),
    ("KEEP_MODULE_FLAG_DYNAMIC_EXPORTS", 1 << 3),
    ("KEEP_MODULE_FLAG_DYNAMIC_IMPORTS_USE_NO_EXPORT", 1 << 4),
    ("KEEP_MODULE_FLAG_RELAXED_SIDE_EFFECTS", 1 << 5),
    ("KEEP_WRAP_NONE", 0),
    ("KEEP_WRAP_CJS", 1),
    ("KEEP_WRAP_ESM", 2),
    ("KEEP_IMPORT_IMPORT", 0),
    ("KEEP_IMPORT_REQUIRE", 1),
    ("KEEP_IMPORT_DYNAMIC", 2),
    ("KEEP_IMPORT_RECORD_IS_EXPORT_STAR", 1 << 0),
    ("KEEP_IMPORT_RECORD_TOP_LEVEL_PURE_DYNAMIC_IMPORT", 1 << 1),
    ("KEEP_CONSTANT_KNOWN", 1 << 0),
    ("KEEP_CONSTANT_SAFE_TO_INLINE", 1 << 1),
    ("KEEP_CONSTANT_COMMONJS_EXPORT", 1 << 2),
    ("KEEP_STATEMENT_SIDE_EFFECT", 1 << 0),
    ("KEEP_STATEMENT_UNKNOWN_SIDE_EFFECT", 1 << 1),
    ("KEEP_STATEMENT_FORCE_TREE_SHAKING", 1 << 2),
    ("KEEP_STATEMENT_RE_EXPORT_DYNAMIC_EXPORTS", 1 << 3),
    ("KEEP_STATEMENT_DECLARES", 1 << 4),
    ("KEEP_REFERENCE_SYMBOL", 0),
    ("KEEP_REFERENCE_RESOLVED_TO_NOTHING", 1),
    ("KEEP_REFERENCE_RESOLVED", 2),
    ("KEEP_REFERENCE_MEMBER", 3),
    ("KEEP_ENTRY_USER_DEFINED", 0),
    ("KEEP_ENTRY_EMITTED_USER_DEFINED", 1),
    ("KEEP_ENTRY_DYNAMIC_IMPORT", 2),
    ("KEEP_START_NUMBERS", 3),
    ("KEEP_LINE_NUMBERS", 6),
    ("KEEP_STACK", STACK as u64),
    ("sizeof(struct keep_refusal)", size_of::<Refusal>() as u64),
    ("sizeof(struct keep_read_answer)", size_of::<ReadAnswer>() as u64),
    ("sizeof(struct keep_drain_answer)", size_of::<DrainAnswer>() as u64),
    ("sizeof(struct keep_run_answer)", size_of::<RunAnswer>() as u64),
    ("offsetof(struct keep_refusal, place)", offset_of!(Refusal, place) as u64),
    ("offsetof(struct keep_read_answer, place)", offset_of!(ReadAnswer, place) as u64),
    ("offsetof(struct keep_read_answer, count)", offset_of!(ReadAnswer, count) as u64),
    ("offsetof(struct keep_drain_answer, lines)", offset_of!(DrainAnswer, lines) as u64),
    ("offsetof(struct keep_run_answer, rounds)", offset_of!(RunAnswer, rounds) as u64),
    ("offsetof(struct keep_run_answer, lines)", offset_of!(RunAnswer, lines) as u64),
    ("offsetof(struct keep_run_answer, runtime_lines)", offset_of!(RunAnswer, runtime_lines) as u64),
    ("offsetof(struct keep_run_answer, entries)", offset_of!(RunAnswer, entries) as u64),
];

fn package() -> &'static Path {
    Path::new(env!("CARGO_MANIFEST_DIR"))
}

fn example(name: &str) -> PathBuf {
    package().join("../examples").join(name)
}

/// Compiles a source of this package; links it with the library.
fn compiled(source: &Path, language: Language) -> PathBuf {
    let name = source.file_stem().expect("a source has a name").to_string_lossy();
    let program = Path::new(env!("CARGO_TARGET_TMPDIR")).join(format!("{name}_{}", language.name));
    let output = Command::new(std::env::var(language.variable).unwrap_or_else(|_| language.compiler.to_string()))
        .args(language.flags)
        .args(WARNINGS)
        .arg("-I")
        .arg(package().join("include"))
        .arg(source)
        .args(["-x", "none"])
        .arg(env!("KEEP_LIBRARY"))
        .arg("-o")
        .arg(&program)
        .output()
        .expect("a compiler");
    assert!(output.status.success(), "{}: {}", language.name, String::from_utf8_lossy(&output.stderr));
    program
}

fn output(program: &Path, arguments: &[PathBuf]) -> Output {
    Command::new(program).args(arguments).output().expect("the program runs")
}

/// What a program of `c/tests` prints, as C and as C++; it has to end well.
fn printed(name: &str, arguments: &[PathBuf]) -> String {
    let source = package().join("c/tests").join(name).with_extension("c");
    let [c, cpp] = [C99, CPP11].map(|language| {
        let output = output(&compiled(&source, language), arguments);
        assert!(output.status.success(), "{}: {}", language.name, String::from_utf8_lossy(&output.stderr));
        String::from_utf8(output.stdout).expect("text")
    });
    assert_eq!(c, cpp);
    c
}

/// What a program of `c/tests` has to print.
fn expected(name: &str) -> String {
    fs::read_to_string(package().join("c/tests").join(name).with_extension("out")).expect("an expected output")
}

/// The examples that are graphs.
fn graphs() -> Vec<PathBuf> {
    let files = fs::read_dir(example("")).expect("the examples").map(|file| file.expect("an example").path());
    let mut graphs: Vec<PathBuf> = files
        .filter(|file| file.extension().is_some_and(|extension| extension == "graph"))
        .filter(|file| check(&numbers(file)).number == 0)
        .collect();
    graphs.sort();
    graphs
}

fn numbers(file: &Path) -> Vec<u32> {
    let bytes = fs::read(file).expect("an example");
    let mut numbers = vec![0; bytes.len()];
    let answer = read(&bytes, &mut numbers);
    assert_eq!(answer.number, 0);
    numbers.truncate(answer.count as usize);
    numbers
}

#[test]
fn read_and_check() {
    assert_eq!(printed("read", &[]), expected("read"));
}

/// The graph of `examples/printed.graph`: its effects, and drains of it.
#[test]
fn effects_and_drain() {
    assert_eq!(printed("drain", &[]), expected("drain"));
}

/// The same graph: its run, and refusals of it.
#[test]
fn run() {
    assert_eq!(printed("run", &[]), expected("run"));
}

/// The same graph: the starts of its run, and judgements of its record.
#[test]
fn starts_and_judge() {
    assert_eq!(printed("judge", &[]), expected("judge"));
}

/// A source that has nothing but the header.
#[test]
fn alone() {
    let source = Path::new(env!("CARGO_TARGET_TMPDIR")).join("alone.c");
    fs::write(&source, "#include \"keep.h\"\nint main(void) { return 0; }\n").expect("the source can be written");
    for language in [C99, CPP98, CPP11] {
        assert!(output(&compiled(&source, language), &[]).status.success());
    }
}

/// The values of all constants, and the layout of the answers.
#[test]
fn constants() {
    let source = Path::new(env!("CARGO_TARGET_TMPDIR")).join("constants.c");
    let prints: String = CONSTANTS
        .iter()
        .map(|(constant, _)| format!("    printf(\"%lu\\n\", (unsigned long)({constant}));\n"))
        .collect();
    let text = format!("#include \"keep.h\"\n#include <stdio.h>\nint main(void) {{\n{prints}    return 0;\n}}\n");
    fs::write(&source, text).expect("the source can be written");
    for language in [C99, CPP11] {
        let output = output(&compiled(&source, language), &[]);
        let values = String::from_utf8(output.stdout).expect("text");
        let values: Vec<u64> = values.lines().map(|value| value.parse().expect("a number")).collect();
        let names = CONSTANTS.iter().map(|&(name, _)| name);
        assert_eq!(names.zip(values).collect::<Vec<_>>(), CONSTANTS);
    }
}

/// No constant of the header is left out above.
#[test]
fn constants_are_all_named() {
    let header = fs::read_to_string(package().join("include/keep.h")).expect("the header");
    let named: BTreeMap<&str, u64> = CONSTANTS.into_iter().collect();
    let declared = header.lines().filter_map(|line| line.trim_start().split_once(" = ")).map(|(name, _)| name);
    let declared: Vec<&str> = declared.filter(|name| name.starts_with("KEEP_")).collect();
    assert_eq!(declared.len(), named.keys().filter(|name| name.starts_with("KEEP_")).count() - 1, "and KEEP_STACK");
    for name in declared {
        assert!(named.contains_key(name), "{name}");
    }
}

/// The example program on graphs, as C and as C++.
#[test]
fn why() {
    for language in [C99, CPP98, CPP11] {
        let program = compiled(&package().join("c/keep_why.c"), language);
        for name in ["dead_import", "live_import"] {
            let expected = fs::read_to_string(package().join(format!("c/{name}.out"))).expect("an expected output");
            let output = output(&program, &[example(name).with_extension("graph")]);
            assert_eq!(String::from_utf8_lossy(&output.stdout), expected, "{}", language.name);
            assert_eq!(output.status.code(), Some(0));
        }
    }
}

/// The example program has the records of all examples judged, and names refusals.
#[test]
fn why_of_all() {
    let program = compiled(&package().join("c/keep_why.c"), Language { name: "all", ..C99 });
    for graph in graphs() {
        let output = output(&program, &[graph]);
        let text = String::from_utf8(output.stdout).expect("text");
        assert!(text.ends_with(" lines, passed\n"), "{text}");
        assert_eq!(output.status.code(), Some(0));
    }
    let cut_off = Path::new(env!("CARGO_TARGET_TMPDIR")).join("cut_off.graph");
    fs::write(&cut_off, [0x02, 0x80]).expect("the file can be written");
    let refused = [
        (example("refused_3.graph"), "keep_check refused 3 (out of range) at 78\n"),
        (example("empty.graph"), "keep_check refused 4 (length) at 0\n"),
        (cut_off, "keep_read refused 1 (faulty number) at 1\n"),
    ];
    for (file, expected) in refused {
        let output = output(&program, &[file]);
        assert_eq!(String::from_utf8_lossy(&output.stdout), expected);
        assert_eq!(output.status.code(), Some(1));
    }
}

/// What the examples keep, read from the rows by the functions of the header.
#[test]
fn listings() {
    let graphs = graphs();
    let listing = |graph: &PathBuf| fs::read_to_string(graph.with_extension("listing")).expect("a listing");
    assert_eq!(printed("listing", &graphs), graphs.iter().map(listing).collect::<String>());
}

/// Rows that are empty may be NULL.
#[test]
fn null_rows() {
    assert_eq!(printed("null_rows", &[example("printed.graph"), example("circle.graph")]), "");
}

/// Counts of numbers that are cut off or changed.
#[test]
fn counts() {
    assert_eq!(printed("count", &graphs()), "");
}

/// The lengths of rows, and that none may be shorter.
#[test]
fn lengths() {
    let graphs = graphs();
    assert!(graphs.len() > 8);
    let expected: String = graphs.iter().map(|graph| lengths_of(&numbers(graph))).collect();
    assert_eq!(printed("lengths", &graphs), expected);
}

/// The lengths that follow from a graph, in the order in which `lengths.c` prints them.
fn lengths_of(numbers: &[u32]) -> String {
    let at = |place: usize| numbers[place] as usize;
    let (modules, symbols, statements, entries) = (at(2), at(3), at(4), at(5));
    let (mut statement_bytes, mut import_records) = (0, 0);
    let mut place = 7 + at(6);
    for _ in 0..modules {
        statement_bytes += at(place + 9).div_ceil(8);
        import_records += at(place + 12);
        place += 12;
        for width in [3, 1, 1, 1, 1, 1, 3, 2, 2, 2] {
            place += 1 + width * at(place);
        }
    }
    let marks = 2 * modules + statements + 63 * symbols;
    let lengths = [
        marks.div_ceil(8),
        modules.div_ceil(8),
        statement_bytes,
        symbols.div_ceil(8),
        modules,
        import_records.div_ceil(8),
        modules,
        entries,
        modules,
        6 * marks,
        6 * (3 * modules + statements + 20 * symbols),
        3 * (2 * modules + statements + 2 * symbols),
    ];
    lengths.map(|length| length.to_string()).join(" ") + "\n"
}
