//! The answer of a failed check: the papers' three numbers.

/// A refusal of paper 01. Parts that its table does not name are 0.
#[derive(Clone, Copy, Debug, PartialEq, Eq)]
pub struct Refusal {
    /// The number in the table of refusals, 1 to 94.
    pub number: u32,
    /// The map lump concerned, 0 (the marker) to 10 (BLOCKMAP).
    pub place: usize,
    /// The entry, record, cell, node or column concerned; of a text map the byte.
    pub record: usize,
}

impl Refusal {
    /// A refusal that names neither place nor record.
    pub const fn plain(number: u32) -> Self {
        Self::new(number, 0, 0)
    }

    /// A refusal with all its parts.
    pub const fn new(number: u32, place: usize, record: usize) -> Self {
        Self { number, place, record }
    }
}
