//! Every number of the table has a sentence of its own.

use meshpigeon::Refusal;
use std::collections::HashSet;

const NUMBERS: [u32; 59] = [
    1, 2, 3, 4, 5, 6, 7, 10, 11, 12, 20, 21, 22, 23, 24, 25, 26, 27, 28, 30, 31, 32, 40, 41, 42, 43, 44, 45, 46, 50, 51, 52, 53,
    54, 55, 56, 57, 58, 60, 61, 70, 71, 72, 73, 74, 75, 76, 80, 81, 82, 83, 84, 85, 86, 90, 91, 92, 93, 94,
];

#[test]
fn every_number_says_what_is_wrong() {
    let said: HashSet<String> = NUMBERS.iter().map(|&number| Refusal { number, place: 3, record: 4 }.to_string()).collect();
    assert_eq!(said.len(), NUMBERS.len());
    assert!(said.iter().all(|text| !text.starts_with("refused with number")));
}

#[test]
fn a_number_that_was_withdrawn_says_nothing() {
    assert_eq!(Refusal { number: 13, place: 0, record: 0 }.to_string(), "refused with number 13");
}

#[test]
fn the_lump_is_named_where_a_place_is() {
    let lump = |number, place| Refusal { number, place, record: 0 }.lump();
    assert_eq!(lump(31, 7), Some("NODES"));
    assert_eq!(lump(32, 7), Some("NODES"));
    assert_eq!(lump(12, 0), Some("the marker"));
    assert_eq!(lump(22, 9), Some("REJECT"));
    assert_eq!(lump(5, 0), None);
}

#[test]
fn the_record_has_a_size_where_the_lump_has_records() {
    let size = |number, place, hexen| Refusal { number, place, record: 0 }.record_size(hexen);
    let sizes = |hexen| (1..=8).map(|place| size(20, place, hexen)).collect::<Vec<_>>();
    assert_eq!(sizes(false), [10, 14, 30, 4, 12, 4, 28, 26].map(Some));
    assert_eq!(sizes(true), [20, 16, 30, 4, 12, 4, 28, 26].map(Some));
    for hexen in [false, true] {
        assert_eq!([(12, 0), (22, 9), (28, 10), (5, 0), (7, 3)].map(|(number, place)| size(number, place, hexen)), [None; 5]);
    }
}

#[test]
fn the_whereabouts_are_lump_and_record() {
    let whereabouts = |number, place, record| Refusal { number, place, record }.whereabouts();
    assert_eq!(whereabouts(31, 7, 0).as_deref(), Some("NODES"));
    assert_eq!(whereabouts(32, 7, 0).as_deref(), Some("NODES"));
    assert_eq!(whereabouts(23, 2, 17).as_deref(), Some("LINEDEFS 17"));
    assert_eq!(whereabouts(5, 0, 3).as_deref(), Some("entry 3"));
    assert_eq!(whereabouts(53, 0, 4).as_deref(), Some("column 4"));
    assert_eq!(whereabouts(42, 0, 8).as_deref(), Some("node 8"));
    assert_eq!(whereabouts(91, 0, 120).as_deref(), Some("byte 120"));
    assert_eq!(whereabouts(94, 0, 0), None);
    assert_eq!(whereabouts(1, 0, 0), None);
}

#[test]
fn sizes_are_told_lump_by_lump() {
    let said = |number, place| Refusal { number, place, record: 0 }.to_string();
    assert!(said(20, 7).contains("NODES") && said(20, 7).ends_with("28 bytes"));
    assert!(said(20, 1).ends_with("10 bytes, or of 20 in a Hexen map"));
    assert!(said(20, 2).ends_with("14 bytes, or of 16 in a Hexen map"));
    assert!(said(21, 1).contains("0 to 65,535"));
    assert!(said(21, 4).contains("VERTEXES") && said(21, 4).contains("1 to 65,535"));
    assert!(said(21, 6).contains("1 to 32,767"));
    assert!(said(21, 7).contains("0 to 32,767"));
}
