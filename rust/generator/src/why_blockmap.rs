//! A BLOCKMAP with one fault or several: the first in the order of W-211 is its reason.

use crate::blockmap::LIST_END;
use crate::{BlockmapSpec, Explained, MapSpec, Rng};
use reader::Refusal;

/// The most bytes of a lump.
pub(crate) const MOST: u32 = 16_777_216;

/// Spoils the header, or a cell and now and then a later one.
pub(crate) fn spoil_blockmap(map: &mut MapSpec, rng: &mut Rng) -> Explained {
    let linedefs = map.linedefs.len();
    let blockmap = &mut map.blockmap;
    let cells = blockmap.offsets.len();
    let cell = rng.below(cells);
    if cell + 1 < cells && rng.once_in(3) {
        spoil_cell(blockmap, rng.between(cell + 1, cells - 1), linedefs, rng);
    }
    if rng.once_in(2) {
        let field = spoil_cell(blockmap, cell, linedefs, rng);
        return Explained::field(Refusal::new(28, 10, cell), field);
    }
    Explained::field(Refusal::new(28, 10, 0), spoil_header(blockmap, rng))
}

/// The size of a lump, of which so many bytes are needed.
fn size(bytes: usize, least: usize) -> [u32; 4] {
    [0, bytes as u32, least as u32, MOST]
}

/// Spoils one thing of the header, and now and then others that come after it.
fn spoil_header(blockmap: &mut BlockmapSpec, rng: &mut Rng) -> [u32; 4] {
    let (needed, all) = (8 + 2 * blockmap.offsets.len(), blockmap.encode().len());
    let wrong = [0, 513, 514, 0x0100 + 512, 0x8000, 0xFFFF];
    let kind = rng.below(6);
    let (later, any_cut) = (rng.once_in(2), rng.between(8, all));
    let more_wrong = later && kind < 2;
    if kind == 0 || more_wrong && rng.once_in(2) {
        blockmap.columns = rng.pick(&wrong);
    }
    if kind == 1 || more_wrong && rng.once_in(2) {
        blockmap.rows = rng.pick(&wrong);
    }
    blockmap.cut = match kind {
        0 | 1 => later.then_some(any_cut),
        2 => Some(rng.below(8)),
        3 => Some(rng.between(8, needed - 1)),
        4 => Some(rng.between(needed / 2, (all - 1) / 2) * 2 + 1),
        _ => Some(needed),
    };
    let bytes = blockmap.encode().len();
    let (good, offset) = (1..=512, u32::from(blockmap.offsets[0]));
    match kind {
        0 | 1 if !good.contains(&blockmap.columns) => [4, blockmap.columns.into(), 1, 512],
        0 | 1 => [6, blockmap.rows.into(), 1, 512],
        2 => size(bytes, 8),
        3 => size(bytes, needed),
        4 => size(bytes, bytes + 1),
        _ => [8, offset, needed as u32 / 2, needed as u32 / 2 - 1],
    }
}

/// Spoils one thing of a cell, and perhaps others that come after it. Its list stands at the lump's end.
fn spoil_cell(blockmap: &mut BlockmapSpec, cell: usize, linedefs: usize, rng: &mut Rng) -> [u32; 4] {
    let lists = BlockmapSpec::lists_start(blockmap.offsets.len());
    let start = lists + blockmap.lists.len();
    let at = |word: usize| 2 * word as u32;
    let any = rng.between(linedefs, 0xFFFE) as u16;
    let bad = rng.pick(&[linedefs as u16, linedefs as u16 + 1, any, LIST_END - 1]);
    let good = rng.below(4);
    let mut list: Vec<u16> = std::iter::once(0).chain((0..good).map(|_| rng.below(linedefs) as u16)).collect();
    let behind = [bad, rng.below(linedefs) as u16, 0, LIST_END];
    let kind = rng.below(5);
    let tail = match kind {
        0 | 1 => &behind[rng.below(4)..],
        2 => &behind[..rng.below(5)],
        3 => &behind[..rng.between(1, 4)],
        _ => &behind[..0],
    };
    list.extend(tail);
    if kind == 2 {
        list[0] = rng.pick(&[1, LIST_END, 0x0100, linedefs as u16]);
    }
    blockmap.give_list(cell, &list);
    let words = start + list.len();
    let outside = [0, 3, 4, lists - 1, lists - 1, words, words, words + 1, 0x8000, 0xFFFF];
    match kind {
        0 | 1 => {
            blockmap.offsets[cell] = rng.pick(&outside) as u16;
            [at(4 + cell), blockmap.offsets[cell].into(), lists as u32, words as u32 - 1]
        }
        2 => [at(start), list[0].into(), 0, 0],
        3 => [at(start + 1 + good), bad.into(), 0, linedefs as u32 - 1],
        _ => size(2 * words, 2 * words + 2),
    }
}
