//! The linked library against the reference, on many inputs.
//!
//! KEEP_CASES is how many inputs each random test takes at least (400,000 if it is not set; some take a part of it),
//! KEEP_SEED the first seed. To see one failing seed again: `KEEP_SEED=seed KEEP_CASES=1`.

mod seeds;

use compare::library;
use lizdakk::with_stack;
use peer::generate::counted::{at_edges, graph_of};
use peer::generate::{self, Random, Size};
use peer::model::{Encoded, Entry, Graph, Module, Record, Reference, Statement, Symbol};
use peer::reference::{self, leb128};
use peer::{ReadAnswer, Refusal};
use seeds::for_seeds;

const CASES: u64 = 400_000;

fn cases() -> u64 {
    seeds::cases(CASES)
}

/// Compares the answers of both; `from` says where the numbers come from.
fn compare_check(numbers: &[u32], from: &str, seed: u64) -> Refusal {
    let expected = Refusal::from(reference::check(numbers));
    let answer = library::check(numbers);
    assert_eq!(answer, expected, "library, then reference; {from}, seed {seed}, numbers {numbers:?}");
    answer
}

/// Words on either side of a lent row that no one may touch.
const GUARD: usize = 3;

/// A row of `room` numbers, guards around it, no two words alike.
fn pattern(room: usize) -> Vec<u32> {
    (0..(room + 2 * GUARD) as u32).map(|index| 0xdead_beef ^ index.wrapping_mul(0x0101_0101)).collect()
}

/// Compares the answers of both and every word of the lent rows.
fn compare_read(file: &[u8], room: usize, from: &str, seed: u64) -> ReadAnswer {
    let lent = pattern(room);
    let (mut row, mut expected_row) = (lent.clone(), lent.clone());
    let answer = library::read(file, &mut row[GUARD..GUARD + room]);
    let expected = reference::read(file, &mut expected_row[GUARD..GUARD + room]);
    let say = || format!("library, then reference; {from}, seed {seed}, room {room}, file {file:02x?}");
    assert_eq!(answer, expected, "{}", say());
    assert_eq!(row, expected_row, "{}", say());
    let past = if answer.number == 0 { GUARD + answer.count as usize } else { 0 };
    assert_eq!(row[past..], lent[past..], "as lent; {}", say());
    answer
}

/// A random graph that the reference accepts.
fn accepted(seed: u64, size: impl Fn(&mut Random) -> Size) -> (Random, Encoded) {
    let mut random = Random::new(seed);
    let size = size(&mut random);
    let graph = generate::graph(&mut random, size).encode();
    assert_eq!(reference::check(&graph.numbers), Ok(()), "generated, seed {seed}, numbers {:?}", graph.numbers);
    (random, graph)
}

#[test]
fn random_graphs_whole_and_damaged() {
    const DAMAGED: u64 = 24;
    for_seeds("random graphs", cases(), |seed| {
        let (mut random, graph) = accepted(seed, Size::usual);
        compare_check(&graph.numbers, "whole", seed);
        for _ in 0..DAMAGED {
            compare_check(&generate::damaged(&mut random, &graph), "damaged", seed);
        }
        1 + DAMAGED
    });
}

#[test]
fn noise() {
    for_seeds("noise", cases() / 5, |seed| {
        compare_check(&generate::noise(&mut Random::new(seed)), "noise", seed);
        1
    });
}

#[test]
fn graphs_cut_at_every_length() {
    for_seeds("cuts", cases() / 5, |seed| {
        let (_, graph) = accepted(seed, Size::small);
        let length = graph.numbers.len();
        for cut in 0..length {
            let answer = compare_check(&graph.numbers[..cut], "cut", seed);
            assert_eq!(answer, Refusal { number: 4, place: cut as u64 }, "cut, seed {seed}");
        }
        length as u64
    });
}

#[test]
fn graphs_extended() {
    for_seeds("extended", cases() / 20, |seed| {
        let (mut random, graph) = accepted(seed, Size::tiny);
        let place = graph.numbers.len() as u64;
        for more in 1..=3 {
            let mut numbers = graph.numbers.clone();
            numbers.extend((0..more).map(|_| random.any()));
            let answer = compare_check(&numbers, "extended", seed);
            assert_eq!(answer, Refusal { number: 4, place }, "extended, seed {seed}");
        }
        3
    });
}

#[test]
fn boundaries_of_every_field() {
    for_seeds("boundaries", cases() / 2, |seed| {
        let (_, graph) = accepted(seed, Size::small);
        let mut numbers = graph.numbers.clone();
        let mut inputs = 0;
        for place in 0..numbers.len() {
            for value in generate::boundary_values(graph.numbers[place], graph.limits[place]) {
                numbers[place] = value;
                compare_check(&numbers, graph.fields[place], seed);
                inputs += 1;
            }
            one_past_the_limit(&mut numbers, &graph, place, seed);
            numbers[place] = graph.numbers[place];
        }
        inputs
    });
}

/// One more than the limit is refused at that very place.
fn one_past_the_limit(numbers: &mut [u32], graph: &Encoded, place: usize, seed: u64) {
    let Some(over) = graph.limits[place].checked_add(1) else { return };
    numbers[place] = over;
    let answer = library::check(numbers);
    let good = (answer.number == 2 || answer.number == 3) && answer.place == place as u64;
    assert!(good, "{}: {over} gave {answer:?}, seed {seed}, numbers {numbers:?}", graph.fields[place]);
}

/// Largest graphs are slow to make, so few of them.
#[test]
fn largest_graphs() {
    for_seeds("largest graphs", cases() / 2_000, |seed| {
        let (mut random, graph) = accepted(seed, |_| Size::largest());
        compare_check(&graph.numbers, "largest", seed);
        for _ in 0..50 {
            compare_check(&generate::damaged(&mut random, &graph), "largest, damaged", seed);
        }
        51
    });
}

/// Counts at which the library takes larger tables, and damage there.
#[test]
fn edges_of_sizes() {
    for_seeds("edges of sizes", cases() / 200, |seed| {
        let mut random = Random::new(seed);
        for counts in at_edges() {
            let graph = graph_of(&mut random, counts).encode();
            assert_eq!(compare_check(&graph.numbers, "edge", seed), Refusal::PASSED);
            assert_eq!(graph.numbers[2..6], counts);
            for _ in 0..4 {
                compare_check(&generate::damaged(&mut random, &graph), "edge, damaged", seed);
            }
        }
        5 * at_edges().len() as u64
    });
}

#[test]
fn random_files() {
    for_seeds("random files", cases(), |seed| {
        let mut random = Random::new(seed);
        let most = if random.chance(5) { 400 } else { 12 };
        let good = generate::good_file(&mut random, most);
        let count = compare_read(&good, good.len(), "good file", seed).count as usize;
        for room in [0, count.saturating_sub(1), count, count + 1] {
            let answer = compare_read(&good, room, "good file", seed);
            assert_eq!(answer.number, if room < count { 5 } else { 0 }, "good file, seed {seed}");
        }
        for _ in 0..10 {
            let file = generate::damaged_file(&mut random, &good);
            let room = generate::room(&mut random, count);
            compare_read(&file, file.len(), "damaged file", seed);
            compare_read(&file, room, "damaged file", seed);
        }
        25
    });
}

#[test]
fn graphs_as_files() {
    for_seeds("graphs as files", cases() / 100, |seed| {
        let (_, graph) = accepted(seed, Size::usual);
        let file = leb128::file_of(&graph.numbers);
        let mut numbers = vec![0; file.len()];
        let count = library::read(&file, &mut numbers).result().expect("a good file");
        assert_eq!(numbers[..count], graph.numbers, "seed {seed}");
        compare_read(&file, count, "graph as file", seed);
        compare_read(&file[..file.len() - 1], count, "graph as file, cut", seed);
        3
    });
}

/// Numbers around each boundary, in every width from the shortest to six groups and more, alone and among others,
/// cut at every length, with every room.
#[test]
fn number_boundaries() {
    with_stack(|| {
        let mut inputs = 0;
        for number in boundary_numbers() {
            for width in generate::shortest_width(number)..=7 {
                let form = generate::padded(number, width);
                for (before, after) in [(&[][..], &[][..]), (&[5], &[]), (&[], &[6]), (&[0x80, 0x01], &[0xff, 0x7f])] {
                    inputs += compare_cuts(&[before, &form[..], after].concat());
                }
            }
        }
        println!("number boundaries: {inputs} inputs");
    });
}

fn boundary_numbers() -> Vec<u64> {
    let mut numbers = vec![0, 1, 2];
    for bit in [7, 14, 21, 28, 31, 32, 33, 34, 35] {
        numbers.extend((1u64 << bit) - 2..=(1 << bit) + 1);
    }
    numbers
}

fn compare_cuts(file: &[u8]) -> u64 {
    let mut inputs = 0;
    for cut in 0..=file.len() {
        for room in 0..=4 {
            compare_read(&file[..cut], room, "number boundary", 0);
            inputs += 1;
        }
    }
    inputs
}

/// All files of up to two bytes, and those of up to five made of the bytes that matter.
#[test]
fn short_files() {
    const ODD: [u8; 10] = [0x00, 0x01, 0x0f, 0x10, 0x7f, 0x80, 0x81, 0x8f, 0x90, 0xff];
    let all: Vec<u8> = (0..=255).collect();
    with_stack(|| {
        let mut inputs = 0;
        for (alphabet, longest) in [(&all[..], 2), (&ODD[..], 5)] {
            for length in 0..=longest {
                inputs += compare_strings(alphabet, length);
            }
        }
        println!("short files: {inputs} inputs");
    });
}

fn compare_strings(alphabet: &[u8], length: u32) -> u64 {
    let count = alphabet.len().pow(length);
    for index in 0..count {
        let mut rest = index;
        let file: Vec<u8> = (0..length)
            .map(|_| {
                let byte = alphabet[rest % alphabet.len()];
                rest /= alphabet.len();
                byte
            })
            .collect();
        compare_read(&file, 5, "short file", 0);
    }
    count as u64
}

#[test]
fn published_numbers() {
    with_stack(|| {
        let file = [0x02, 0x7f, 0x80, 0x01, 0x81, 0x01, 0xb9, 0x64];
        let mut numbers = [7; 6];
        assert_eq!(library::read(&file, &mut numbers), ReadAnswer { number: 0, place: 0, count: 5 });
        assert_eq!(numbers, [2, 127, 128, 129, 12_857, 7]);
    });
}

#[test]
fn worked_numbers() {
    let one = |file: &[u8]| {
        let mut number = [7];
        (library::read(file, &mut number).number, number[0])
    };
    with_stack(|| {
        assert_eq!(one(&[0x00]), (0, 0));
        assert_eq!(one(&[0x80, 0x00]), (1, 7));
        assert_eq!(one(&[0xff, 0xff, 0xff, 0xff, 0x0f]), (0, 4_294_967_295));
        assert_eq!(one(&[0xff, 0xff, 0xff, 0xff, 0x10]), (1, 7));
    });
}

/// Passes, by the library and the reference.
#[track_caller]
fn passes(graph: &Graph) {
    let numbers = graph.numbers();
    assert_eq!(reference::check(&numbers), Ok(()));
    assert_eq!(library::check(&numbers), Refusal::PASSED);
}

/// Refused 2 at the first number of that field, by the library and the reference.
#[track_caller]
fn too_many(graph: &Graph, field: &str) {
    let encoded = graph.encode();
    let place = encoded.fields.iter().position(|&name| name == field).expect("a field of the graph") as u64;
    let expected = Refusal { number: 2, place };
    assert_eq!(Refusal::from(reference::check(&encoded.numbers)), expected, "{field}");
    assert_eq!(library::check(&encoded.numbers), expected, "{field}");
}

/// So many normal modules with so many symbols and statements in all, the first ones' namespaces; one helper.
fn plain(modules: u32, symbols: u32, statements: u32) -> Graph {
    let module = |index| {
        let own = if index == 0 { statements + 1 - modules } else { 1 };
        let records = vec![Record { target: 1, kind: 0, bits: 0 }];
        Module {
            normal: true,
            namespace: index + 1,
            statements: vec![Statement::default(); own as usize],
            records,
            ..Module::default()
        }
    };
    Graph {
        helpers: vec![0],
        modules: (0..modules).map(module).collect(),
        symbols: (0..symbols)
            .map(|index| Symbol { owner: index.min(modules - 1), root: index, ..Symbol::default() })
            .collect(),
        entries: vec![Entry::default()],
        ..Graph::default()
    }
}

#[test]
fn limits_of_the_header() {
    with_stack(|| {
        passes(&plain(1_024, 1_024, 1_024));
        too_many(&plain(1_025, 1_025, 1_025), "module count");
        assert_eq!(library::check(&plain(1_025, 1_025, 1_025).numbers()), Refusal { number: 2, place: 2 });
        passes(&plain(1, 16_384, 1));
        too_many(&plain(1, 16_385, 1), "symbol count");
        passes(&plain(1, 1, 16_384));
        too_many(&plain(1, 1, 16_385), "statement count in all");
        let with_entries = |count| Graph { entries: vec![Entry::default(); count], ..plain(1, 1, 1) };
        passes(&with_entries(0));
        passes(&with_entries(1_024));
        too_many(&with_entries(1_025), "entry count");
        let with_helpers = |count| Graph { helpers: vec![0; count], ..plain(1, 1, 1) };
        passes(&with_helpers(0));
        passes(&with_helpers(32));
        too_many(&with_helpers(33), "helper count");
    });
}

/// Makes one list of a plain graph this long.
type Fill = fn(&mut Graph, u32);

fn numbered<const WIDTH: usize>(count: u32, row: impl Fn(u32) -> [u32; WIDTH]) -> Vec<[u32; WIDTH]> {
    (0..count).map(row).collect()
}

/// The count's field, how to fill the list.
fn lists() -> Vec<(&'static str, Fill)> {
    vec![
        ("record count", |graph, count| {
            graph.modules[0].records = vec![Record { target: 1, kind: 2, bits: 3 }; count as usize]
        }),
        ("dependency count", |graph, count| graph.modules[0].dependencies = vec![0; count as usize]),
        ("named import count", |graph, count| graph.modules[0].named_imports = vec![0; count as usize]),
        ("own export count", |graph, count| graph.modules[0].own_exports = vec![0; count as usize]),
        ("entry reference count", |graph, count| graph.modules[0].entry_references = vec![0; count as usize]),
        ("K5 count", |graph, count| graph.modules[0].commonjs_export_symbols = vec![0; count as usize]),
        ("resolved export count", |graph, count| {
            graph.modules[0].resolved_exports =
                numbered(count, |index| [index.wrapping_mul(0x9e37_79b1), 0, index % 2]);
        }),
        ("CommonJS namespace count", |graph, count| {
            graph.modules[0].commonjs_namespaces = numbered(count, |index| [index * 7 % 16_384, 0]);
        }),
        ("enum member count", |graph, count| graph.modules[0].enum_members = vec![[1, 1]; count as usize]),
        ("module helper count", |graph, count| graph.modules[0].helpers = vec![[0, 0]; count as usize]),
        ("chain count", |graph, count| graph.symbols[0].chain = vec![0; count as usize]),
        ("declaring count", |graph, count| graph.symbols[0].declaring = vec![0; count as usize]),
        ("written count", |graph, count| graph.symbols[0].written = vec![0; count as usize]),
        ("statement record count", |graph, count| graph.modules[0].statements[0].records = vec![0; count as usize]),
        ("reference count", |graph, count| {
            graph.modules[0].statements[0].references = vec![Reference::Symbol(0); count as usize]
        }),
        ("depended count", |graph, count| {
            let depended = vec![0; count as usize];
            graph.modules[0].statements[0].references = vec![Reference::Resolved { symbol: 0, commonjs: 1, depended }];
        }),
        ("related count", |graph, count| graph.entries[0].related = vec![[0, 0, 0, 1]; count as usize]),
    ]
}

#[test]
fn limits_of_every_list() {
    with_stack(|| {
        for (field, fill) in lists() {
            let mut graph = plain(1, 16_384, 1);
            fill(&mut graph, 16_384);
            passes(&graph);
            fill(&mut graph, 16_385);
            too_many(&graph, field);
        }
    });
}

#[test]
fn every_list_of_its_largest_length_at_once() {
    with_stack(|| {
        let mut graph = plain(1, 16_384, 1);
        for (field, fill) in lists() {
            if field != "depended count" {
                fill(&mut graph, 16_384);
            }
        }
        passes(&graph);
    });
}

/// A repeat of the first name or symbol at the end of the longest list.
#[test]
fn repeats_in_the_longest_lists() {
    with_stack(|| {
        let mut graph = plain(1, 16_384, 1);
        for (field, fill) in lists() {
            if field == "resolved export count" || field == "CommonJS namespace count" {
                fill(&mut graph, 16_384);
            }
        }
        passes(&graph);
        let encoded = graph.encode();
        for field in ["resolved export name", "CommonJS namespace symbol"] {
            let first = encoded.fields.iter().position(|&name| name == field).expect("there are some");
            let last = encoded.fields.iter().rposition(|&name| name == field).expect("there are some");
            let mut numbers = encoded.numbers.clone();
            numbers[last] = numbers[first];
            let answer = compare_check(&numbers, "repeat at the end", 0);
            assert_eq!(answer, Refusal { number: 3, place: last as u64 });
        }
    });
}

/// The printed case, whose file has a byte for each number.
#[test]
fn printed_case() {
    let file = generate::PRINTED.map(|number| number as u8);
    with_stack(|| {
        let mut numbers = [0; 81];
        assert_eq!(library::read(&file, &mut numbers), ReadAnswer { number: 0, place: 0, count: 81 });
        assert_eq!(library::check(&numbers), Refusal::PASSED);
    });
}

#[test]
fn empty_inputs() {
    with_stack(|| {
        assert_eq!(library::read(&[], &mut []), ReadAnswer { number: 0, place: 0, count: 0 });
        assert_eq!(library::check(&[]), Refusal { number: 4, place: 0 });
    });
}
