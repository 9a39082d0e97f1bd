//! BLOCKMAP lumps in several layouts.

use crate::record::words;
use crate::Rng;

/// Words before the offsets.
pub(crate) const HEADER_WORDS: usize = 4;
/// The word that ends a list.
pub(crate) const LIST_END: u16 = 65_535;

/// A BLOCKMAP lump from its parts.
#[derive(Clone, Debug, PartialEq, Eq)]
pub struct BlockmapSpec {
    /// Origin, eastward.
    pub origin_x: i16,
    /// Origin, northward.
    pub origin_y: i16,
    /// Columns as written.
    pub columns: u16,
    /// Rows as written.
    pub rows: u16,
    /// One offset, in words from the lump's start, for each cell.
    pub offsets: Vec<u16>,
    /// All words after the offsets.
    pub lists: Vec<u16>,
    /// The lump is cut to so many bytes, if that is shorter.
    pub cut: Option<usize>,
}

/// How the cells' lists share the words.
#[derive(Clone, Copy, Debug, PartialEq, Eq)]
pub enum Layout {
    /// One list to a cell.
    Separate,
    /// One list for all.
    Shared,
    /// Empty lists only.
    Empty,
    /// Lists that start inside another one, at a linedef 0.
    Overlapping,
    /// Separate lists, with words between them that no cell names.
    Gaps,
}

impl Layout {
    /// All layouts.
    pub const ALL: [Self; 5] = [Self::Separate, Self::Shared, Self::Empty, Self::Overlapping, Self::Gaps];
}

impl BlockmapSpec {
    /// A good blockmap.
    pub fn new(layout: Layout, columns: u16, rows: u16, linedefs: usize, rng: &mut Rng) -> Self {
        let (origin_x, origin_y) = (rng.i16(), rng.i16());
        let cells = usize::from(columns) * usize::from(rows);
        let (offsets, lists) = (Vec::with_capacity(cells), Vec::new());
        let mut blockmap = Self { origin_x, origin_y, columns, rows, offsets, lists, cut: None };
        match layout {
            Layout::Shared => blockmap.share(cells, 5, linedefs, rng),
            Layout::Empty => blockmap.share(cells, 0, linedefs, rng),
            Layout::Overlapping => blockmap.overlap(cells, linedefs, rng),
            Layout::Separate => blockmap.separate(cells, 0, linedefs, rng),
            Layout::Gaps => blockmap.separate(cells, 3, linedefs, rng),
        }
        blockmap
    }

    /// The word at which the lists start.
    pub fn lists_start(cells: usize) -> usize {
        HEADER_WORDS + cells
    }

    /// Points `cell` to words of its own at the end.
    pub fn give_list(&mut self, cell: usize, list: &[u16]) {
        self.offsets[cell] = (Self::lists_start(self.offsets.len()) + self.lists.len()) as u16;
        self.lists.extend(list);
    }

    /// The lump.
    pub fn encode(&self) -> Vec<u8> {
        let origin = [self.origin_x as u16, self.origin_y as u16];
        let mut lump = words(&origin);
        lump.extend(words(&[self.columns, self.rows]));
        lump.extend(words(&self.offsets));
        lump.extend(words(&self.lists));
        lump.truncate(self.cut.unwrap_or(lump.len()));
        lump
    }

    fn share(&mut self, cells: usize, most: usize, linedefs: usize, rng: &mut Rng) {
        self.offsets = vec![Self::lists_start(cells) as u16; cells];
        self.lists = list(rng.between(0, most), linedefs, rng);
    }

    fn separate(&mut self, cells: usize, gap: usize, linedefs: usize, rng: &mut Rng) {
        self.offsets = vec![0; cells];
        for cell in 0..cells {
            let unnamed = rng.between(0, gap);
            self.lists.extend((0..unnamed).map(|_| rng.u16()));
            let linedefs_here = rng.between(0, 4);
            self.give_list(cell, &list(linedefs_here, linedefs, rng));
        }
    }

    /// A run of zeros, each of which may begin a list, and one shared end.
    fn overlap(&mut self, cells: usize, linedefs: usize, rng: &mut Rng) {
        let zeros = rng.between(1, 6);
        let start = Self::lists_start(cells);
        self.offsets = (0..cells).map(|_| (start + rng.below(zeros)) as u16).collect();
        self.lists = [vec![0; zeros - 1], list(rng.between(0, 3), linedefs, rng)].concat();
    }
}

/// A good list of `length` linedefs.
fn list(length: usize, linedefs: usize, rng: &mut Rng) -> Vec<u16> {
    let mut list = vec![0];
    list.extend((0..length).map(|_| rng.below(linedefs) as u16));
    list.push(LIST_END);
    list
}
