//! Both sides of everything in BLOCKMAP that a map's reason can name (W-211): sizes, columns and rows, offsets and lists.

use crate::limit::Build;
use crate::limit_why::{due, explained};
use crate::why_blockmap::MOST;
use crate::{BlockmapSpec, MapSpec, Sizes};
use reader::Refusal;

/// Two columns, two rows and three linedefs; the offsets are words 4 to 7, and the last word is word 13.
const GOOD: [u16; 14] = [0, 0, 2, 2, 8, 10, 8, 10, 0, 65_535, 0, 2, 1, 65_535];

/// A cell, and its field: offset, number, least and most.
type Fault = (usize, [u32; 4]);

/// What is shown, the words that are changed, and what is wrong then.
type Change = (&'static str, &'static [(usize, u16)], Option<Fault>);

/// All of them.
pub(crate) fn why_blockmap_limits() -> Vec<Build> {
    let mut all = size_limits();
    all.extend(side_limits());
    all.extend(word_limits());
    all.extend(linedef_limits());
    all.extend(long_limits());
    all.extend(wide_limits());
    all
}

/// A map of both games over the words of a lump, cut to so many bytes.
fn lump(label: &'static str, words: Vec<u16>, bytes: usize, fault: Option<Fault>) -> Vec<Build> {
    let edit = move |map: &mut MapSpec| {
        let (offsets, lists) = (words[4..].to_vec(), Vec::new());
        map.blockmap = BlockmapSpec { columns: words[2], rows: words[3], offsets, lists, cut: Some(bytes), ..map.blockmap };
    };
    let due = due(fault.map(|(cell, field)| (Refusal::new(28, 10, cell), field)));
    let of = |hexen| explained(label, Sizes { linedefs: 3, ..Sizes::tree(3) }.of(hexen), edit.clone(), due);
    [of(false), of(true)].into_iter().flatten().collect()
}

/// The good lump with some words changed.
fn changed(label: &'static str, changes: &[(usize, u16)], fault: Option<Fault>) -> Vec<Build> {
    let mut words = GOOD.to_vec();
    changes.iter().for_each(|&(at, word)| words[at] = word);
    lump(label, words, 28, fault)
}

/// Every size that the good lump can be cut to: the header, the offsets, odd ones, and lists that run off the end.
fn size_limits() -> Vec<Build> {
    let size = |bytes: u32, least| Some([0, bytes, least, MOST]);
    let fault = |bytes: u32| match bytes {
        0..8 => (0, size(bytes, 8)),
        8..16 => (0, size(bytes, 16)),
        _ if bytes % 2 == 1 => (0, size(bytes, bytes + 1)),
        16 => (0, Some([8, 8, 8, 7])),
        18 => (0, size(18, 20)),
        20 => (1, Some([10, 10, 8, 9])),
        _ => (1, size(bytes, bytes + 2).filter(|_| bytes < 28)),
    };
    let build = |bytes: u32| {
        let (cell, field) = fault(bytes);
        lump("size of BLOCKMAP", GOOD.to_vec(), bytes as usize, field.map(|field| (cell, field)))
    };
    (0..=28).flat_map(build).collect()
}

/// Columns and rows at both ends, in lumps that are whole, cut short and odd. From 1 × 6 and 6 × 1 on the offsets need all the words or more.
fn side_limits() -> Vec<Build> {
    let mut all = Vec::new();
    for bytes in [8, 9, 15, 16, 27, 28] {
        for side in [0, 513, 514, 0x0200 + 0x0100, 0x8001, 0xFFFF] {
            for other in [1, 512, 0, 513] {
                let is_good = (1..=512).contains(&other);
                let sides = |columns, rows| [&[0, 0, columns, rows], &GOOD[4..]].concat();
                all.extend(lump("columns", sides(side, other), bytes, Some((0, [4, side.into(), 1, 512]))));
                let first = if is_good { [6, side.into(), 1, 512] } else { [4, other.into(), 1, 512] };
                all.extend(lump("rows", sides(other, side), bytes, Some((0, first))));
            }
        }
        for (columns, rows) in [(1, 512), (512, 1), (512, 512), (11, 1), (1, 11)] {
            let words = [&[0, 0, columns, rows], &GOOD[4..]].concat();
            let least = 8 + 2 * u32::from(columns) * u32::from(rows);
            all.extend(lump("cells", words, bytes, Some((0, [0, bytes as u32, least, MOST]))));
        }
    }
    all.extend(changed("no word behind the offsets", &[(2, 10), (3, 1)], Some((0, [8, 8, 14, 13]))));
    all.extend(changed("no word behind the offsets", &[(2, 5), (3, 2), (4, 14)], Some((0, [8, 14, 14, 13]))));
    all
}

/// Each word of offsets and lists with another number, and several at once.
fn word_limits() -> Vec<Build> {
    let cases: [Change; 26] = [
        ("offset", &[(4, 0)], Some((0, [8, 0, 8, 13]))),
        ("offset", &[(4, 7)], Some((0, [8, 7, 8, 13]))),
        ("offset", &[(5, 8)], None),
        ("offset", &[(6, 7)], Some((2, [12, 7, 8, 13]))),
        ("offset", &[(7, 14)], Some((3, [14, 14, 8, 13]))),
        ("offset", &[(7, 65_535)], Some((3, [14, 65_535, 8, 13]))),
        ("offset", &[(5, 13)], Some((1, [26, 65_535, 0, 0]))),
        ("offset", &[(5, 9)], Some((1, [18, 65_535, 0, 0]))),
        ("offset", &[(5, 12)], Some((1, [24, 1, 0, 0]))),
        ("two offsets", &[(7, 0), (5, 14)], Some((1, [10, 14, 8, 13]))),
        ("leading word", &[(8, 1)], Some((0, [16, 1, 0, 0]))),
        ("leading word", &[(8, 256)], Some((0, [16, 256, 0, 0]))),
        ("leading word", &[(8, 65_535)], Some((0, [16, 65_535, 0, 0]))),
        ("leading word", &[(10, 2)], Some((1, [20, 2, 0, 0]))),
        ("leading word and number", &[(10, 2), (11, 3)], Some((1, [20, 2, 0, 0]))),
        ("number", &[(11, 3)], Some((1, [22, 3, 0, 2]))),
        ("number", &[(11, 65_534)], Some((1, [22, 65_534, 0, 2]))),
        ("number", &[(12, 3)], Some((1, [24, 3, 0, 2]))),
        ("number", &[(12, 258)], Some((1, [24, 258, 0, 2]))),
        ("two numbers", &[(11, 4), (12, 3)], Some((1, [22, 4, 0, 2]))),
        ("numbers behind the end", &[(11, 65_535), (12, 3)], None),
        ("first list runs on", &[(9, 2)], None),
        ("first list runs on to a number", &[(9, 2), (12, 9)], Some((0, [24, 9, 0, 2]))),
        ("no end", &[(13, 0)], Some((1, [0, 28, 30, MOST]))),
        ("no end, number", &[(13, 3)], Some((1, [26, 3, 0, 2]))),
        ("last word a list", &[(13, 0), (4, 13)], Some((0, [0, 28, 30, MOST]))),
    ];
    cases.into_iter().flat_map(|(label, changes, fault)| changed(label, changes, fault)).collect()
}

/// The last linedef and the next, up to the most linedefs, where the next is the list's end.
fn linedef_limits() -> Vec<Build> {
    let mut all = Vec::new();
    for linedefs in [1, 256, 65_534, 65_535_u16] {
        for number in [linedefs - 1, linedefs, 65_534] {
            let edit = move |map: &mut MapSpec| {
                (map.blockmap.offsets, map.blockmap.lists) = (vec![5], vec![0, number, 65_535]);
            };
            let field = [12, number.into(), 0, u32::from(linedefs) - 1];
            let refused = (number >= linedefs && number < 65_535).then_some((Refusal::new(28, 10, 0), field));
            let sizes = Sizes { linedefs: linedefs.into(), ..Sizes::tree(3) };
            all.extend(explained("number of the last linedef", sizes, edit, due(refused)));
        }
    }
    all
}

/// Lumps of more words than an offset can name: the range goes to the last word all the same.
fn long_limits() -> Vec<Build> {
    let mut all = Vec::new();
    for count in [65_535, 65_536, 65_537, 70_000_u32] {
        let words = |offset: u16, end: u16| {
            let mut words = vec![0; count as usize];
            (words[2], words[3], words[4]) = (1, 1, offset);
            words[count as usize - 1] = end;
            words
        };
        let bytes = 2 * count;
        all.extend(lump("long lump", words(4, 65_535), bytes as usize, Some((0, [8, 4, 5, count - 1]))));
        all.extend(lump("long lump", words(5, 0), bytes as usize, Some((0, [0, bytes, bytes + 2, MOST]))));
        all.extend(lump("long lump", words(5, 3), bytes as usize, Some((0, [bytes - 2, 3, 0, 2]))));
        all.extend(lump("long lump", words(5, 65_535), bytes as usize, None));
        let last = match count {
            65_535 => Some([8, 65_535, 5, 65_534]),
            65_536 => Some([131_070, 65_535, 0, 0]),
            _ => None,
        };
        all.extend(lump("long lump's last offset", words(65_535, 65_535), bytes as usize, last.map(|field| (0, field))));
    }
    all
}

/// So many cells that no offset can name a word behind them: it offends whatever it is, with a word behind them or without.
fn wide_limits() -> Vec<Build> {
    let mut all = Vec::new();
    for (columns, rows) in [(256, 256), (512, 128), (512, 512)] {
        for more in [0, 2] {
            let cells = usize::from(columns) * usize::from(rows);
            let mut words = vec![65_535; 4 + cells + more];
            (words[2], words[3]) = (columns, rows);
            let (bytes, least) = (2 * words.len(), 4 + cells as u32);
            let most = words.len() as u32 - 1;
            all.extend(lump("more cells than offsets", words.clone(), bytes, Some((0, [8, 65_535, least, most]))));
            let cut = Some((0, [0, bytes as u32 - 2 * more as u32 - 1, 2 * least, MOST]));
            all.extend(lump("more cells than offsets", words, bytes - 2 * more - 1, cut));
        }
    }
    all
}
