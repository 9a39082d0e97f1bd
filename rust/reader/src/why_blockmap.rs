//! The fields of BLOCKMAP in the order in which they offend: 28's reason (W-211).

use crate::blockmap::{HEADER_WORDS, LIST_END, MOST_CELLS_ASIDE};
use crate::bytes::u16_at;
use crate::why::Field;

/// The most bytes that a file, and so a lump, may have.
const MOST_BYTES: usize = 16_777_216;

/// The fields of the header, and then of one cell, with their ranges. Only the first that offends is to be looked at: those behind it are
/// found by what it holds.
pub(crate) fn fields(lump: &[u8], linedefs: usize, cell: usize) -> Vec<Field> {
    let mut fields = vec![size(lump, 2 * HEADER_WORDS)];
    if lump.len() < 2 * HEADER_WORDS {
        return fields;
    }
    let [columns, rows] = [4, 6].map(|at| usize::from(u16_at(lump, at)));
    fields.push(Field { offset: 4, number: columns, least: 1, most: MOST_CELLS_ASIDE });
    fields.push(Field { offset: 6, number: rows, least: 1, most: MOST_CELLS_ASIDE });
    let lists = HEADER_WORDS + columns * rows;
    fields.push(size(lump, 2 * lists));
    fields.push(size(lump, lump.len().next_multiple_of(2)));
    if lump.len() >= 2 * lists && cell < columns * rows {
        fields.extend(cell_fields(lump, linedefs, lists, HEADER_WORDS + cell));
    }
    fields
}

/// The lump's size, of which so many bytes are needed.
fn size(lump: &[u8], least: usize) -> Field {
    Field { offset: 0, number: lump.len(), least, most: MOST_BYTES }
}

/// The offset at word `at`, which leads behind the word before `lists`; and the first field of its list that is bad, if one is.
fn cell_fields(lump: &[u8], linedefs: usize, lists: usize, at: usize) -> Vec<Field> {
    let words = lump.len() / 2;
    let start = usize::from(u16_at(lump, 2 * at));
    let mut fields = vec![Field { offset: 2 * at, number: start, least: lists, most: words - 1 }];
    if start < words {
        fields.push(word(lump, start, 0));
        fields.extend(list_fault(lump, linedefs, start + 1));
    }
    fields
}

/// Word `at` of the lump, which is 0 to `most`.
fn word(lump: &[u8], at: usize, most: usize) -> Field {
    Field { offset: 2 * at, number: usize::from(u16_at(lump, 2 * at)), least: 0, most }
}

/// The first number of a list from word `from` on that no linedef has; or, where the list comes to the lump's end, its size.
fn list_fault(lump: &[u8], linedefs: usize, from: usize) -> Option<Field> {
    let is_linedef = |at: &usize| usize::from(u16_at(lump, 2 * at)) < linedefs;
    let end = (from..lump.len() / 2).find(|at| !is_linedef(at));
    match end {
        None => Some(size(lump, lump.len() + 2)),
        Some(at) if u16_at(lump, 2 * at) == LIST_END => None,
        Some(at) => Some(word(lump, at, linedefs - 1)),
    }
}
