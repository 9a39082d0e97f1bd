//! docs/REFUSALS.md has every number once, with the enum's name, the table's place and record, and the binding's sentence.

use meshpigeon::Refusal;
use std::collections::BTreeMap;

const PAGE: &str = include_str!("../../../docs/REFUSALS.md");
const TABLE: &str = include_str!("../../../crates/refusal/specs/Table.antt");

/// Place and record of an example where the table's row leaves them open.
const PLACE: usize = 4;
const RECORD: usize = 5;

/// Number, and then name, place and record as they are written: a number, or what varies.
type Rows = BTreeMap<u32, [String; 3]>;

/// The rows of `row_of`: `row_of (EntryName entry) = row 6 0 entry`.
fn table() -> Rows {
    let row = |line: &str| {
        let (case, row) = line.strip_prefix("row_of ")?.split_once(" = row ")?;
        let name = case.trim_matches(['(', ')']).split(' ').next()?.to_string();
        let [number, place, record] = row.split(' ').collect::<Vec<_>>().try_into().ok()?;
        Some((number.parse().ok()?, [name, place.to_string(), record.to_string()]))
    };
    TABLE.lines().filter_map(row).collect()
}

/// The rows of the page: number, name, when, place and record, example, what to do.
fn page() -> Vec<(u32, [String; 3], String)> {
    let row = |line: &str| {
        let cells: Vec<&str> = line.strip_prefix('|')?.strip_suffix('|')?.split('|').map(str::trim).collect();
        let [number, name, _, parts, example, _] = cells.try_into().ok()?;
        let (place, record) = parts.split_once(", ")?;
        let row = [name.trim_matches('`').to_string(), place.to_string(), record.to_string()];
        Some((number.parse().ok()?, row, example.to_string()))
    };
    PAGE.lines().filter_map(row).collect()
}

#[test]
fn the_page_has_the_table() {
    let (table, page) = (table(), page());
    assert!(table.len() > 50, "{table:?}");
    assert_eq!(page.len(), table.len(), "each number once");
    let rows: Rows = page.into_iter().map(|(number, row, _)| (number, row)).collect();
    assert_eq!(rows, table);
}

#[test]
fn the_page_has_the_sentences() {
    for (number, [_, place, record], example) in page() {
        let (place, record) = (place.parse().unwrap_or(PLACE), record.parse().unwrap_or(RECORD));
        assert_eq!(example, Refusal { number, place, record }.to_string(), "{number}");
    }
}

#[test]
fn the_page_has_every_number_with_a_sentence() {
    let known: Vec<u32> = page().into_iter().map(|(number, ..)| number).collect();
    for number in 1..=255 {
        let says = !Refusal { number, place: 0, record: 0 }.to_string().starts_with("refused with number");
        assert_eq!(says, known.contains(&number), "{number}");
    }
}
