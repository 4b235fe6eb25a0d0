//! The reference itself on cases made by hand, one or more for each kind of fault.

use peer::generate::PRINTED;
use peer::reference::{check, read};
use peer::{ReadAnswer, Refused};

/// The first part of a graph with every list filled; the comments name places.
#[rustfmt::skip]
const FRONT: [u32; 142] = [
    // 0: options, runtime, 3 modules, 4 symbols, 3 statements, 2 entries, 2 helpers, helper symbols
    255, 1, 3, 4, 3, 2, 2,  3, 0,
    // 9: external module 0
    0, 4, 2, 3, 63, 2, 4, 0, 7, 0, 4, 9,
    // 21: a record; 25: the other lists, of which 27 is the count of own exports and 30 that of resolved exports
    1,  3, 2, 3,
    0, 0, 0, 0, 0,
    1,  5, 3, 1,
    0, 0, 0,
    // 37: normal module 1
    1, 3, 0, 1, 1, 0, 0, 2, 8, 2, 0, 1,
    // 49: records without and with a target
    2,  0, 0, 0,  3, 1, 2,
    // 56: dependencies, named imports, own exports, entry references, K5 symbols
    1, 2,  1, 3,  1, 0,  1, 1,  1, 2,
    // 66: resolved exports; 73: CommonJS namespaces; 78: enum members; 81: helpers
    2,  0, 0, 0,  9, 1, 1,
    2,  0, 0,  3, 2,
    1,  4, 4,
    1,  1, 1,
    // 84: normal module 2, no lists
    1, 0, 1, 2, 0, 1, 1, 3, 0, 1, 1, 0,
    0, 0, 0, 0, 0, 0, 0, 0, 0, 0,
    // 106: symbol 0 of the external, 2 in its chain
    0, 8, 0, 4, 0, 7,  1, 2,  0,  0,
    // 116: symbol 1 of module 1, declared by its statement 1, written by 0
    1, 7, 1, 0, 6, 0,  0,  1, 1,  1, 0,
    // 127: symbol 2 of module 2, rooted at 1
    2, 5, 1, 0, 0, 0,  0,  0,  0,
    // 136: symbol 3 of module 1; its lists follow in `REST`
    1, 0, 3, 0, 0, 0,
];

/// The rest of it, from place 142 on.
#[rustfmt::skip]
const REST: [u32; 40] = [
    // 142: lists of symbol 3
    0, 0, 0,
    // 145: statement 0 of module 1: nothing
    31, 0, 0,
    // 148: statement 1 of module 1: record 1, references of all kinds
    0,  1, 1,  4,
    // 152
    0, 3,
    1,
    // 155
    2, 1, 1,  1, 2,
    // 160
    3, 0, 1, 77, 78,
    // 165: statement 0 of module 2
    1, 0, 0,
    // 168: entry 0
    0, 0, 0,
    // 171: entry 1, related to statement 1 of module 1 by its record 1
    2, 2,  2,  1, 1, 1, 1,  1, 0, 1, 0,
];

fn full() -> Vec<u32> {
    [&FRONT[..], &REST[..]].concat()
}

fn refusal(number: u32, place: u64) -> Result<(), Refused> {
    Err(Refused { number, place })
}

/// The full graph with one number changed.
fn changed(place: usize, number: u32) -> Vec<u32> {
    let mut numbers = full();
    numbers[place] = number;
    numbers
}

/// The number at `place` may be `good`; `bad` is refused `number` there.
#[track_caller]
fn bound(place: usize, good: u32, bad: u32, number: u32) {
    let answer = check(&changed(place, good));
    assert!(!answer.is_err_and(|fault| fault.place == place as u64), "{place}: {good} gave {answer:?}");
    assert_eq!(check(&changed(place, bad)), refusal(number, place as u64), "{place}: {bad}");
    assert_eq!(check(&changed(place, u32::MAX)), refusal(number, place as u64), "{place}: largest");
}

/// Both 0 and `last` are accepted at `place`, and one more is refused 3 there.
#[track_caller]
fn values(place: usize, last: u32) {
    for good in [0, last] {
        assert_eq!(check(&changed(place, good)), Ok(()), "{place}: {good}");
    }
    bound(place, last, last + 1, 3);
}

/// All values are accepted at `place`.
#[track_caller]
fn free(place: usize) {
    for good in [0, 1, 1 << 31, u32::MAX] {
        assert_eq!(check(&changed(place, good)), Ok(()), "{place}: {good}");
    }
}

/// A list's count at `place`: 16,385 is refused 2 there.
#[track_caller]
fn list_count(place: usize) {
    bound(place, 16_384, 16_385, 2);
}

#[test]
fn both_graphs_pass() {
    assert_eq!(check(&full()), Ok(()));
    assert_eq!(check(&PRINTED), Ok(()));
}

#[test]
fn every_number_can_be_missing() {
    for graph in [&full()[..], &PRINTED[..]] {
        for length in 0..graph.len() {
            assert_eq!(check(&graph[..length]), refusal(4, length as u64));
        }
    }
}

#[test]
fn left_over() {
    for more in [&[0][..], &[u32::MAX], &[0, 0, 0]] {
        let numbers = [&PRINTED[..], more].concat();
        assert_eq!(check(&numbers), refusal(4, 81));
    }
    // After the rules that read a later number.
    let mut numbers = [&PRINTED[..], &[0]].concat();
    numbers[1] = 2;
    assert_eq!(check(&numbers), refusal(3, 1));
}

#[test]
fn options() {
    values(0, 255);
}

#[test]
fn runtime_is_a_normal_module() {
    assert_eq!(check(&changed(1, 2)), Ok(()));
    assert_eq!(check(&changed(1, 0)), refusal(3, 1), "external");
    assert_eq!(check(&changed(1, 3)), refusal(3, 1), "no module");
    assert_eq!(check(&changed(1, u32::MAX)), refusal(3, 1), "no module");
    // A fault further right comes first.
    let mut numbers = changed(1, 3);
    numbers[181] = 2;
    assert_eq!(check(&numbers), refusal(3, 181));
}

#[test]
fn header_counts() {
    for (place, limit) in [(2, 1_024), (3, 16_384), (4, 16_384)] {
        assert_eq!(check(&changed(place, 0)), refusal(3, place as u64));
        bound(place, limit, limit + 1, 2);
    }
    bound(5, 1_024, 1_025, 2);
    bound(6, 32, 33, 2);
}

#[test]
fn helper_symbols() {
    values(7, 3);
    values(8, 3);
}

#[test]
fn module_kind() {
    bound(9, 1, 2, 3);
    bound(37, 1, 2, 3);
    // A normal module needs a namespace and statements, an external has neither.
    assert_eq!(check(&changed(9, 1)), refusal(3, 16));
    assert_eq!(check(&changed(37, 0)), refusal(3, 44));
}

#[test]
fn module_fields() {
    for module in [9, 37, 84] {
        values(module + 1, 4);
        values(module + 2, 2);
        values(module + 3, 3);
        values(module + 4, 63);
        values(module + 5, 2);
        values(module + 6, 4);
        free(module + 8);
        values(module + 10, 4);
        free(module + 11);
    }
}

#[test]
fn namespace_of_an_external() {
    for bad in [1, 4, 5, u32::MAX] {
        assert_eq!(check(&changed(16, bad)), refusal(3, 16));
    }
}

#[test]
fn namespace_of_a_normal_module() {
    assert_eq!(check(&changed(44, 0)), refusal(3, 44));
    assert_eq!(check(&changed(44, 5)), refusal(3, 44));
    assert_eq!(check(&changed(44, 4)), Ok(()), "symbol 3 is of module 1 too");
    assert_eq!(check(&changed(44, 1)), refusal(3, 44), "symbol 0 is of module 0");
    assert_eq!(check(&changed(44, 3)), refusal(3, 44), "symbol 2 is of module 2");
    assert_eq!(check(&changed(91, 2)), refusal(3, 91), "symbol 1 is of module 1");
    // The owner is read later: a fault in between comes first, and the runtime before it.
    let mut numbers = changed(44, 1);
    numbers[168] = 3;
    assert_eq!(check(&numbers), refusal(3, 168));
    numbers[168] = 0;
    numbers[1] = 0;
    assert_eq!(check(&numbers), refusal(3, 1));
}

#[test]
fn statement_counts() {
    assert_eq!(check(&changed(18, 1)), refusal(3, 18), "external");
    assert_eq!(check(&changed(46, 0)), refusal(3, 46), "normal, none");
    assert_eq!(check(&changed(46, 4)), refusal(3, 46), "past the sum");
    assert_eq!(check(&changed(46, u32::MAX)), refusal(3, 46), "past the sum");
    assert_eq!(check(&changed(93, 0)), refusal(3, 93), "normal, none");
    assert_eq!(check(&changed(93, 2)), refusal(3, 93), "past the sum");
    assert_eq!(check(&changed(4, 4)), refusal(3, 93), "the last, too few");
    assert_eq!(check(&changed(4, 2)), refusal(3, 93), "the last, too many");
    assert_eq!(check(&changed(4, 1)), refusal(3, 46), "the first that passes it");
    // All used up by module 1: module 2 has one too many.
    assert_eq!(check(&changed(46, 3)), refusal(3, 93));
    // The last module's count is 1 where the sum asks for 2.
    let mut numbers = changed(46, 1);
    numbers[83] = 0;
    assert_eq!(check(&numbers), refusal(3, 93));
}

#[test]
fn list_counts() {
    for place in [21, 25, 26, 27, 28, 29, 30, 34, 35, 36] {
        list_count(place);
    }
    for place in [49, 56, 58, 60, 62, 64, 66, 73, 78, 81] {
        list_count(place);
    }
    for place in 96..106 {
        list_count(place);
    }
}

#[test]
fn records() {
    values(22, 3);
    values(23, 2);
    values(24, 3);
    values(50, 3);
    values(51, 2);
    values(52, 3);
}

#[test]
fn single_lists() {
    values(57, 2);
    for place in [59, 61, 63, 65] {
        values(place, 3);
    }
}

#[test]
fn resolved_exports() {
    free(31);
    for place in [32, 68, 71] {
        values(place, 3);
    }
    for place in [33, 69, 72] {
        values(place, 1);
    }
    assert_eq!(check(&changed(70, 0)), refusal(3, 70), "a name twice");
    assert_eq!(check(&changed(67, 9)), refusal(3, 70), "a name twice");
    assert_eq!(check(&changed(67, 5)), Ok(()), "a name that another module's list has");
    // The repeat comes before a fault of the same element's symbol, and after one of the element before.
    let mut numbers = changed(70, 0);
    numbers[71] = 4;
    assert_eq!(check(&numbers), refusal(3, 70));
    numbers[69] = 2;
    assert_eq!(check(&numbers), refusal(3, 69));
}

#[test]
fn commonjs_namespaces() {
    assert_eq!(check(&changed(76, 4)), refusal(3, 76));
    assert_eq!(check(&changed(76, 2)), Ok(()));
    assert_eq!(check(&changed(76, 0)), refusal(3, 76), "a symbol twice");
    assert_eq!(check(&changed(74, 3)), refusal(3, 76), "a symbol twice");
    values(75, 2);
    values(77, 2);
}

#[test]
fn enum_members() {
    free(79);
    free(80);
}

#[test]
fn module_helpers() {
    values(82, 1);
    values(83, 1);
    // An external has no statement to name.
    let mut numbers = full();
    numbers[36] = 1;
    numbers.splice(37..37, [0, 0]);
    assert_eq!(check(&numbers), refusal(3, 38));
}

#[test]
fn symbol_fields() {
    // Owners: symbol 2 is the namespace of module 2, symbol 3 is free.
    bound(106, 2, 3, 3);
    values(136, 2);
    for symbol in [106, 116, 127, 136] {
        free(symbol + 1);
        bound(symbol + 2, 3, 4, 3);
        values(symbol + 3, 4);
        free(symbol + 4);
        values(symbol + 5, 7);
        list_count(symbol + 6);
    }
    values(113, 3);
}

#[test]
fn roots() {
    assert_eq!(check(&changed(129, 0)), Ok(()));
    assert_eq!(check(&changed(129, 2)), Ok(()), "its own");
    assert_eq!(check(&changed(129, 4)), refusal(3, 129));
    // Symbol 3 is rooted at 2, whose root is 1.
    assert_eq!(check(&changed(138, 2)), refusal(3, 138));
    // Symbol 1 is rooted at 3: then symbol 2's root 1 is not its own.
    assert_eq!(check(&changed(118, 3)), refusal(3, 129));
    // Symbols 0 and 1 rooted at each other: leftmost.
    let mut numbers = changed(108, 1);
    numbers[118] = 0;
    assert_eq!(check(&numbers), refusal(3, 108));
    // A namespace's owner is further left, a fault of the walk comes first.
    numbers[44] = 3;
    assert_eq!(check(&numbers), refusal(3, 44));
    numbers[181] = 2;
    assert_eq!(check(&numbers), refusal(3, 181));
}

#[test]
fn statements_of_a_symbol() {
    // Symbol 0 is an external's.
    for place in [114, 115] {
        assert_eq!(check(&changed(place, 1)), refusal(3, place as u64));
        assert_eq!(check(&changed(place, 16_384)), refusal(3, place as u64));
        assert_eq!(check(&changed(place, 16_385)), refusal(2, place as u64));
    }
    // Symbol 1 is of module 1, with two statements.
    list_count(123);
    values(124, 1);
    list_count(125);
    values(126, 1);
    list_count(134);
    list_count(135);
    // With owner 2, which has one statement, 1 is none of its statements.
    let mut numbers = full();
    numbers[116] = 2;
    assert_eq!(check(&numbers), refusal(3, 124));
    // With an external owner the count is refused.
    numbers[116] = 0;
    assert_eq!(check(&numbers), refusal(3, 123));
}

#[test]
fn statements() {
    values(145, 31);
    list_count(146);
    list_count(147);
    values(148, 31);
    list_count(149);
    values(150, 1);
    list_count(151);
    // Module 2 has no record.
    let mut numbers = full();
    numbers[166] = 1;
    numbers.insert(167, 0);
    assert_eq!(check(&numbers), refusal(3, 167));
}

#[test]
fn references() {
    for place in [152, 154, 155, 160] {
        bound(place, 3, 4, 3);
    }
    values(153, 3);
    values(156, 3);
    values(157, 1);
    list_count(158);
    values(159, 3);
    values(161, 3);
    values(162, 1);
    free(163);
    free(164);
}

#[test]
fn entries() {
    values(168, 2);
    values(169, 2);
    list_count(170);
    values(171, 2);
    values(172, 2);
    list_count(173);
}

#[test]
fn related() {
    assert_eq!(check(&changed(174, 0)), refusal(3, 174), "external");
    assert_eq!(check(&changed(174, 3)), refusal(3, 174), "no module");
    assert_eq!(check(&changed(174, 2)), refusal(3, 175), "module 2 has one statement");
    values(175, 1);
    assert_eq!(check(&changed(176, 0)), refusal(3, 176), "without a target");
    assert_eq!(check(&changed(176, 2)), refusal(3, 176), "no record");
    values(177, 1);
    values(179, 1);
    assert_eq!(check(&changed(180, 0)), refusal(3, 180), "without a target");
    values(181, 1);
    // Module 2 has no record at all.
    let mut numbers = changed(178, 2);
    numbers[179] = 0;
    assert_eq!(check(&numbers), refusal(3, 180));
}

/// What `read` answers, and the numbers that it leaves.
fn read_of(file: &[u8], room: usize) -> (ReadAnswer, Vec<u32>) {
    let mut numbers = vec![0xaaaa_aaaa; room];
    (read(file, &mut numbers), numbers)
}

#[track_caller]
fn reads(file: &[u8], room: usize, expected: &[u32]) {
    let (answer, numbers) = read_of(file, room);
    assert_eq!(answer, ReadAnswer { number: 0, place: 0, count: expected.len() as u64 });
    assert_eq!(numbers[..expected.len()], *expected);
    assert!(numbers[expected.len()..].iter().all(|&number| number == 0xaaaa_aaaa));
}

#[track_caller]
fn refuses(file: &[u8], room: usize, number: u32, place: u64) {
    let (answer, numbers) = read_of(file, room);
    assert_eq!(answer, ReadAnswer { number, place, count: 0 });
    assert!(numbers.iter().all(|&number| number == 0xaaaa_aaaa));
}

#[test]
fn published_examples() {
    reads(&[0x02, 0x7f, 0x80, 0x01, 0x81, 0x01, 0xb9, 0x64], 5, &[2, 127, 128, 129, 12_857]);
}

#[test]
fn worked_numbers() {
    reads(&[0x00], 1, &[0]);
    refuses(&[0x80, 0x00], 1, 1, 0);
    reads(&[0xff, 0xff, 0xff, 0xff, 0x0f], 1, &[u32::MAX]);
    refuses(&[0xff, 0xff, 0xff, 0xff, 0x10], 1, 1, 0);
}

#[test]
fn faulty_numbers_are_placed_at_their_first_byte() {
    refuses(&[0x05, 0x81, 0x80, 0x00], 3, 1, 1);
    refuses(&[0x05, 0x80], 3, 1, 1);
    refuses(&[0x05, 0x81, 0x80, 0x80, 0x80, 0x80, 0x01], 3, 1, 1);
    refuses(&[0x80, 0x01, 0xff, 0xff, 0xff, 0xff, 0x7f, 0x00], 3, 1, 2);
}

#[test]
fn room() {
    reads(&[], 0, &[]);
    reads(&[], 2, &[]);
    reads(&[1, 2], 2, &[1, 2]);
    reads(&[1, 2], 3, &[1, 2]);
    refuses(&[1, 2], 1, 5, 0);
    refuses(&[1], 0, 5, 0);
    refuses(&[1, 2, 0x80], 2, 1, 2);
    refuses(&[1, 2, 3, 0x80], 2, 5, 0);
}
