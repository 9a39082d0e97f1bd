//! BLOCKMAP: a grid of cells, each with an offset to a list of linedefs. Refusal 28.

use crate::bytes::u16_at;
use crate::Refusal;

pub(crate) const HEADER_WORDS: usize = 4;
pub(crate) const MOST_CELLS_ASIDE: usize = 512;
pub(crate) const LIST_END: u16 = 65_535;

/// The words of a lump, and which of them a good list is known to run through.
struct Lists {
    words: Vec<u16>,
    linedefs: usize,
    good_from: Vec<bool>,
}

/// Judges the header, then each cell's offset and list in turn.
pub(crate) fn judge(lump: &[u8], linedefs: usize) -> Result<(), Refusal> {
    let cells = cells_of(lump).ok_or(Refusal::new(28, 10, 0))?;
    let words: Vec<u16> = lump.chunks_exact(2).map(|pair| u16::from_le_bytes([pair[0], pair[1]])).collect();
    let offsets = words[HEADER_WORDS..HEADER_WORDS + cells].to_vec();
    let good_from = vec![false; words.len()];
    let mut lists = Lists { words, linedefs, good_from };
    for (cell, &offset) in offsets.iter().enumerate() {
        let offset = usize::from(offset);
        if offset < HEADER_WORDS + cells || !lists.is_good(offset) {
            return Err(Refusal::new(28, 10, cell));
        }
    }
    Ok(())
}

/// The number of cells, if size, columns, rows and the table of offsets are good.
fn cells_of(lump: &[u8]) -> Option<usize> {
    if !lump.len().is_multiple_of(2) || lump.len() < 2 * HEADER_WORDS {
        return None;
    }
    let (columns, rows) = (usize::from(u16_at(lump, 4)), usize::from(u16_at(lump, 6)));
    let aside = 1..=MOST_CELLS_ASIDE;
    if !aside.contains(&columns) || !aside.contains(&rows) {
        return None;
    }
    let cells = columns * rows;
    (HEADER_WORDS + cells <= lump.len() / 2).then_some(cells)
}

impl Lists {
    /// Whether a list starts at word `offset`: a 0, then linedefs in range, then the end.
    fn is_good(&mut self, offset: usize) -> bool {
        self.words.get(offset) == Some(&0) && self.ends_well(offset + 1)
    }

    /// Follows a list from word `from` on. Words that an earlier list ran through need not be
    /// looked at again, so that all lists together cost no more than the lump's words.
    fn ends_well(&mut self, from: usize) -> bool {
        for at in from..self.words.len() {
            let word = self.words[at];
            if self.good_from[at] || word == LIST_END {
                self.good_from[from..=at].fill(true);
                return true;
            }
            if usize::from(word) >= self.linedefs {
                return false;
            }
        }
        false
    }
}
