//! A map made by hand, from its lumps.

use reader::*;

/// The map of every file.
pub const NAME: &[u8; 8] = b"MAP01\0\0\0";
const NAMES: [&[u8; 8]; 11] = [
    b"THINGS\0\0", b"LINEDEFS", b"SIDEDEFS", b"VERTEXES", b"SEGS\0\0\0\0", b"SSECTORS", b"NODES\0\0\0", b"SECTORS\0",
    b"REJECT\0\0", b"BLOCKMAP", b"BEHAVIOR",
];

/// Words as bytes.
pub fn words(words: &[u16]) -> Vec<u8> {
    words.iter().flat_map(|word| word.to_le_bytes()).collect()
}

/// The word of a subsector.
pub const fn s(number: u16) -> u16 {
    SUBSECTOR_BIT | number
}

/// A map as its lumps, places 1 to 10.
#[derive(Clone)]
pub struct Map {
    pub hexen: bool,
    pub lumps: [Vec<u8>; 10],
}

impl Map {
    /// Five vertices, three linedefs of which only number 1 has a left side, four sidedefs, two sectors, six segs, three subsectors, two nodes
    /// and two cells.
    pub fn good(hexen: bool) -> Self {
        let size = Linedef::size(hexen);
        let mut linedefs = vec![0; 3 * size];
        for (index, left) in [NO_SIDEDEF, 3, NO_SIDEDEF].into_iter().enumerate() {
            Linedef { hexen, end: 4, right: 3, left, ..Linedef::default() }.write(&mut linedefs, index).unwrap();
        }
        let mut map = Self { hexen, lumps: Default::default() };
        map.set(2, linedefs);
        map.set(3, vec![0; 4 * 30]);
        map.set(4, vec![0; 5 * 4]);
        map.set(5, vec![0; 6 * 12]);
        map.set(6, words(&[1, 0, 6, 0, 1, 5]));
        map.nodes(&[[s(0), s(1)], [0, s(2)]]);
        map.set(8, vec![0; 2 * 26]);
        map.set(9, vec![0]);
        map.set(10, words(&[0, 0, 2, 1, 6, 8, 0, 65_535, 0, 2, 65_535]));
        map
    }

    pub fn set(&mut self, place: usize, lump: Vec<u8>) {
        self.lumps[place - 1] = lump;
    }

    pub fn nodes(&mut self, children: &[[u16; 2]]) {
        let node = |&[right, left]: &[u16; 2]| [&[0; 24][..], &words(&[right, left])].concat();
        self.set(7, children.iter().flat_map(node).collect());
        let subsectors = 3.max(children.len() + 1).min(32_767);
        self.set(6, words(&[1, 0]).repeat(subsectors));
    }

    /// The same with a word at a byte of the lump at a place.
    pub fn with(&self, place: usize, at: usize, word: u16) -> Self {
        let mut map = self.clone();
        map.lumps[place - 1][at..at + 2].copy_from_slice(&word.to_le_bytes());
        map
    }

    pub fn wad(&self) -> Vec<u8> {
        let (mut data, mut directory) = (vec![], [&[0; 8][..], NAME].concat());
        let behavior = vec![];
        let lumps = self.lumps.iter().chain(self.hexen.then_some(&behavior));
        for (name, lump) in NAMES.iter().zip(lumps) {
            directory.extend((12 + data.len() as u32).to_le_bytes());
            directory.extend((lump.len() as u32).to_le_bytes());
            directory.extend(*name);
            data.extend(lump);
        }
        let (count, start) = (directory.len() as u32 / 16, 12 + data.len() as u32);
        [&b"PWAD"[..], &count.to_le_bytes(), &start.to_le_bytes(), &data, &directory].concat()
    }
}
