//! A copy of a map in which refused records are made good, so that the library can be asked what else is wrong.

use crate::field::Cut;
use crate::look::BLOCKMAP;
use crate::wad::Wad;
use meshpigeon::{Field, Linedef, Node, Refusal};

/// So many words of BLOCKMAP are looked at for a good list.
const MOST_WORDS: usize = 1 << 20;

/// The words before BLOCKMAP's offsets, and what ends a list.
const HEADER: usize = 4;
const LIST_END: u16 = 65_535;

/// BEHAVIOR makes a map Hexen's by its name alone.
const BEHAVIOR: [u8; 8] = *b"BEHAVIOR";

/// The map's lumps.
pub struct Copy {
    names: Vec<[u8; 8]>,
    lumps: Vec<Vec<u8>>,
    hexen: bool,
    /// Whether a node was changed: then the copy says nothing of the map's own graph.
    has_other_nodes: bool,
    /// Whether a good BLOCKMAP took the place of one whose cells could not be found.
    is_blind: bool,
}

impl Copy {
    /// A copy of the map of a name.
    pub fn of(wad: &Wad, map: &[u8]) -> Option<Self> {
        let marker = wad.marker(map)?;
        let hexen = meshpigeon::map_game(wad.bytes(), marker).ok()?;
        let entries: Vec<_> = wad.entries().skip(marker).take(BLOCKMAP + 1).collect();
        let mut names: Vec<[u8; 8]> = entries.iter().map(|entry| padded(entry.name)).collect();
        let mut lumps: Vec<Vec<u8>> = (0..=BLOCKMAP).map(|place| wad.lump(marker + place).to_vec()).collect();
        if hexen {
            names.push(BEHAVIOR);
            lumps.push(Vec::new());
        }
        (names.len() == lumps.len()).then_some(Self { names, lumps, hexen, has_other_nodes: false, is_blind: false })
    }

    /// Whether what the library says of the copy holds of the map too: of its graph, only if no node was changed.
    pub fn speaks_of(&self, refusal: Refusal) -> bool {
        (23..=28).contains(&refusal.number) || (matches!(refusal.number, 31 | 32) && !self.has_other_nodes)
    }

    /// Whether a good BLOCKMAP took the place of one whose cells could not be found.
    pub fn is_blind(&self) -> bool {
        self.is_blind
    }

    /// A file with nothing but the copy.
    pub fn wad(&self) -> Vec<u8> {
        Wad::bytes_of(&self.names, &self.lumps)
    }

    /// Makes the charged field of a record good; answers whether that could be done.
    pub fn mend(&mut self, refusal: Refusal, (name, field): (&str, Field)) -> bool {
        match refusal.number {
            28 => self.mend_blockmap(refusal.record, name),
            _ => self.mend_record(refusal, field),
        }
    }

    /// The least that is allowed takes the field's place.
    fn mend_record(&mut self, refusal: Refusal, field: Field) -> bool {
        self.has_other_nodes |= refusal.place == Node::PLACE;
        let at = refusal.record_size(self.hexen).map(|size| size * refusal.record + field.offset as usize);
        let Some(at) = at.filter(|_| field.least <= field.most) else { return false };
        put(&mut self.lumps[refusal.place], at, field.least as u16)
    }

    /// A cell gets the list of another cell; half a word at the end becomes a whole one. Where there is no good list, or no cell, another
    /// BLOCKMAP is put there.
    fn mend_blockmap(&mut self, cell: usize, name: &str) -> bool {
        let linedefs = self.lumps[Linedef::PLACE].len() / Linedef::size(self.hexen);
        let blockmap = &mut self.lumps[BLOCKMAP];
        let cut = (name == "size").then(|| Cut::of(blockmap));
        let list = match (name, cut) {
            (_, Some(Cut::Word)) => {
                blockmap.push(0);
                return true;
            }
            ("columns" | "rows", _) | (_, Some(Cut::Header | Cut::Offsets)) => None,
            _ => good_list(blockmap, cell, linedefs),
        };
        if let Some(offset) = list {
            return put(blockmap, 2 * (HEADER + cell), offset);
        }
        self.is_blind = !blockmap.is_empty();
        *blockmap = [0, 0, 1, 1, 5, 0, LIST_END].iter().flat_map(|word| word.to_le_bytes()).collect();
        true
    }
}

/// The offset of a good list: that of a cell before this one, which the library passed, or of one that the tool finds good.
fn good_list(blockmap: &[u8], cell: usize, linedefs: usize) -> Option<u16> {
    let words: Vec<u16> = blockmap.chunks_exact(2).map(|word| u16::from_le_bytes([word[0], word[1]])).collect();
    if cell > 0 {
        return words.get(HEADER).copied();
    }
    let cells = usize::from(*words.get(2)?) * usize::from(*words.get(3)?);
    let mut left = MOST_WORDS;
    let is_good = |offset: &u16| {
        let list = words.get(usize::from(*offset)..).unwrap_or_default();
        let length = list.iter().take(left).position(|&word| word == LIST_END);
        left = left.saturating_sub(length.unwrap_or(list.len()) + 1);
        let inside = length.map(|length| &list[..length]).unwrap_or_default();
        let behind = usize::from(*offset) >= HEADER + cells;
        behind && inside.first() == Some(&0) && inside[1..].iter().all(|&linedef| usize::from(linedef) < linedefs)
    };
    words.get(HEADER..HEADER + cells)?.iter().copied().find(is_good)
}

/// Writes a word, if it is inside.
fn put(lump: &mut [u8], at: usize, word: u16) -> bool {
    let place = lump.get_mut(at..).and_then(|rest| rest.first_chunk_mut());
    place.map(|place| *place = word.to_le_bytes()).is_some()
}

fn padded(name: &[u8]) -> [u8; 8] {
    std::array::from_fn(|at| name.get(at).copied().unwrap_or(0))
}
