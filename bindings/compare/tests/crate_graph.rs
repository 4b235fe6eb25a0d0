//! Graphs of the crate against those of the peer: reading and writing files, and which field a refusal names.
//!
//! KEEP_CASES is how many graphs there are at least (2,000 if it is not set), KEEP_SEED the first seed.

mod seeds;

use compare::library;
use lizdakk::{with_stack, Graph, Part, Refused};
use peer::generate::late::late_graph;
use peer::generate::runs::{run_graph, small_run_graph};
use peer::generate::{self, Random, Size};
use peer::model::Encoded;
use peer::reference::leb128;
use seeds::for_seeds;

const CASES: u64 = 2_000;

fn file(numbers: &[u32]) -> Vec<u8> {
    numbers
        .iter()
        .flat_map(|&number| generate::padded(u64::from(number), generate::shortest_width(number.into())))
        .collect()
}

/// The peer's words for a field of the crate.
fn peer_word(part: Part, path: &str) -> String {
    let mut plain = String::new();
    let mut inside = false;
    for letter in path.chars() {
        inside = (inside || letter == '[') && letter != ']';
        if !inside && letter != ']' {
            plain.push(letter);
        }
    }
    let element = path.contains('[');
    let words: &[(&str, &str, &str)] = match part {
        Part::Header => &[
            ("options", "options", ""),
            ("runtime", "runtime", ""),
            ("modules", "module count", ""),
            ("symbols", "symbol count", ""),
            ("statements", "statement count in all", ""),
            ("entries", "entry count", ""),
            ("helpers", "helper count", "helper symbol"),
        ],
        Part::Module(_) => &[
            ("kind", "module kind", ""),
            ("side_effects", "effects", ""),
            ("exports_kind", "exports", ""),
            ("module_type", "type", ""),
            ("flags", "flags", ""),
            ("wrap_kind", "wrap", ""),
            ("wrapper", "wrapper", ""),
            ("namespace", "namespace", ""),
            ("cjs_reexport_count", "re-export count", ""),
            ("statements", "statement count", ""),
            ("scan.side_effects", "scan effects", ""),
            ("scan.statement_count", "scan statement count", ""),
            ("import_records", "record count", ""),
            ("import_records.target", "", "record target"),
            ("import_records.kind", "", "record kind"),
            ("import_records.flags", "", "record bits"),
            ("dependencies", "dependency count", "dependency"),
            ("named_imports", "named import count", "named import"),
            ("own_exports", "own export count", "own export"),
            ("entry_references", "entry reference count", "entry reference"),
            ("commonjs_export_symbols", "K5 count", "K5 symbol"),
            ("resolved_exports", "resolved export count", ""),
            ("resolved_exports.name", "", "resolved export name"),
            ("resolved_exports.symbol", "", "resolved export symbol"),
            ("resolved_exports.from_commonjs", "", "from CommonJS"),
            ("commonjs_namespaces", "CommonJS namespace count", ""),
            ("commonjs_namespaces.symbol", "", "CommonJS namespace symbol"),
            ("commonjs_namespaces.module", "", "CommonJS namespace module"),
            ("enum_members", "enum member count", ""),
            ("enum_members.symbol", "", "enum name"),
            ("enum_members.member", "", "enum member"),
            ("helpers", "module helper count", ""),
            ("helpers.helper", "", "module helper"),
            ("helpers.statement", "", "helper statement"),
        ],
        Part::Symbol(_) => &[
            ("owner", "owner", ""),
            ("name", "symbol name", ""),
            ("root", "root", ""),
            ("alias_namespace", "alias namespace", ""),
            ("alias_name", "alias name", ""),
            ("constant", "constant", ""),
            ("export_chain", "chain count", "chain symbol"),
            ("declared_by", "declaring count", "declaring statement"),
            ("properties_written_by", "written count", "written statement"),
        ],
        Part::Statement(_) => &[
            ("flags", "statement bits", ""),
            ("import_records", "statement record count", "statement record"),
            ("references", "reference count", "reference kind"),
            ("references.symbol", "", "symbol"),
            ("references.is_commonjs_export", "", "CommonJS target"),
            ("references.depended", "", "depended"),
            ("references.object", "", "object"),
            ("references.is_write", "", "write"),
            ("references.property_count", "", "property count"),
            ("references.first_property", "", "first property"),
        ],
        Part::Entry(_) => &[
            ("module", "entry module", ""),
            ("kind", "entry kind", ""),
            ("related", "related count", ""),
            ("related.statement", "", "related"),
            ("related.record", "", "related record"),
            ("related.is_unreachable", "", "unreachable"),
        ],
        _ => &[],
    };
    let (_, whole, one) = words.iter().find(|(field, ..)| *field == plain).unwrap_or_else(|| panic!("{part:?} {path}"));
    if element { one } else { whole }.to_string()
}

/// Whether a field of the crate is one of the peer's. A reference's symbol and its depended list have longer names there;
/// a related statement has its module in front of it.
fn is_field(part: Part, path: &str, peer: &str) -> bool {
    let word = peer_word(part, path);
    match word.as_str() {
        "symbol" => peer == "reference symbol" || peer == "resolved symbol",
        "related" => peer == "related module" || peer == "related statement",
        "depended" => peer == if path.ends_with(']') { "depended symbol" } else { "depended count" },
        word => word == peer,
    }
}

fn graphs(seed: u64) -> Vec<Encoded> {
    let mut random = Random::new(seed);
    let size = Size::small(&mut random);
    vec![
        generate::graph(&mut random, size).encode(),
        run_graph(&mut random).encode(),
        small_run_graph(&mut random).encode(),
    ]
}

/// A file that is read and written again is the same, and the peer reads the same numbers from it.
fn comes_back(numbers: &[u32], seed: u64) {
    let file = file(numbers);
    let graph = Graph::read_here(&file).unwrap_or_else(|refused| panic!("seed {seed}: {refused}"));
    assert_eq!(graph.numbers(), numbers, "seed {seed}");
    assert_eq!(graph.write(), file, "seed {seed}");
    let mut read = vec![0; file.len()];
    assert_eq!(leb128::read(&graph.write(), &mut read).count, numbers.len() as u64);
}

#[test]
fn files_come_back() {
    for_seeds("files", seeds::cases(CASES), |seed| {
        graphs(seed).iter().for_each(|Encoded { numbers, .. }| comes_back(numbers, seed));
        3
    });
}

/// Each set of options is the crate's, and comes back.
#[test]
fn options_come_back() {
    with_stack(|| {
        let mut graph = late_graph(&mut Random::new(1));
        for options in 0..256 {
            graph.options = options;
            comes_back(&graph.numbers(), 1);
            let read = Graph::read_here(&file(&graph.numbers())).expect("it came back").options;
            let bits = [read.treeshake, !read.code_splitting, read.dead_imports_at_end, read.settle];
            assert_eq!(bits, [1, 32, 64, 128].map(|bit| options & bit != 0), "options {options}");
        }
        graph.options = 256;
        let refused = Graph::read_here(&file(&graph.numbers())).unwrap_err();
        assert_eq!(refused.to_string(), "refused 3 at number 0: the graph: `options` has to be bits 0 to 7");
    });
}

/// Cut off at any place, a graph is refused there, and the field is the one that the peer has there.
#[test]
fn each_number_is_a_field() {
    for_seeds("cut off graphs", 20 * seeds::cases(CASES), |seed| {
        let mut cases = 0;
        let encoded = graphs(seed).remove(2);
        for place in 0..encoded.numbers.len() {
            let refused = Graph::read_here(&file(&encoded.numbers[..place])).unwrap_err();
            let Refused::Missing { number, field } = &refused else { panic!("seed {seed}, {place}: {refused}") };
            assert_eq!(*number, place as u64, "seed {seed}");
            let (part, path) = (field.part(), field.path());
            assert!(is_field(part, path, encoded.fields[place]), "seed {seed}: {field} is {}", encoded.fields[place]);
            cases += 1;
        }
        cases
    });
}

/// Numbers that are damaged in any way are refused as the library does, at the same place.
#[test]
fn damaged_graphs_are_refused_alike() {
    for_seeds("damaged graphs", 10 * seeds::cases(CASES), |seed| {
        let mut random = Random::new(seed);
        for encoded in graphs(seed) {
            let numbers = generate::damaged(&mut random, &encoded);
            let answer = library::check(&numbers);
            match Graph::read_here(&file(&numbers)) {
                Ok(graph) => assert_eq!((answer.number, graph.numbers()), (0, numbers), "seed {seed}"),
                Err(refused) => {
                    assert_eq!((refused.number(), refused.place()), (answer.number, answer.place), "seed {seed}");
                    assert!(refused.to_string().starts_with("refused "));
                }
            }
        }
        3
    });
}
