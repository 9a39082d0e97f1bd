//! The reason of a map's verdict (W-211), field by field, on maps made by hand.

mod common;

use common::{s, words, Map, NAME};
use reader::*;

const MOST: u32 = 16_777_216;

impl Map {
    /// Verdict and reason. Outputs of every length around the reason's are tried: 85 is for those that are too short, writes nothing and
    /// leaves the words as the map check does.
    fn why(&self) -> (Result<Accepted, Refusal>, Vec<u8>) {
        let (wad, lent) = (self.wad(), vec![7; 4 * self.lumps[6].len() / Node::SIZE + 1]);
        let (mut judged_words, mut long) = (lent.clone(), vec![0xEE; 40_000]);
        let judged = judge_map(&wad, NAME, &mut judged_words);
        let (verdict, length) = why(&wad, NAME, &mut lent.clone(), &mut long);
        let reason = long[..length].to_vec();
        assert_eq!(verdict, judged);
        for room in [0, 1, length.saturating_sub(1), length, length + 1] {
            let (mut words, mut out) = (lent.clone(), vec![0xEE; room]);
            let answer = why(&wad, NAME, &mut words, &mut out);
            let wanted = if room < length { (Err(Refusal::plain(85)), 0) } else { (verdict, length) };
            assert_eq!((answer, &words), (wanted, &judged_words));
            assert_eq!(out[..answer.1], reason[..answer.1]);
            assert!(out[answer.1..].iter().all(|&byte| byte == 0xEE));
        }
        assert!(long[length..].iter().all(|&byte| byte == 0xEE));
        (verdict, reason)
    }

    /// Refused with this number, place and record, for this field: offset, number, least and most.
    fn is_refused(&self, (number, place, record): (u32, usize, usize), field: [u32; 4]) {
        let (verdict, reason) = self.why();
        assert_eq!(verdict, Err(Refusal::new(number, place, record)));
        assert_eq!(reason, field.map(u32::to_le_bytes).concat());
    }

    /// Refused 28 at a cell, for this field.
    fn is_28(&self, cell: usize, field: [u32; 4]) {
        self.is_refused((28, 10, cell), field);
    }
}

fn blockmap(header_and_lists: &[u16]) -> Map {
    let mut map = Map::good(false);
    map.set(10, words(header_and_lists));
    map
}

#[test]
fn linedefs_of_both_games() {
    for hexen in [false, true] {
        let (map, size) = (Map::good(hexen), Linedef::size(hexen));
        let (right, left) = (size - 4, size - 2);
        for record in 0..3 {
            let (at, refusal) = (record * size, (23, 2, record));
            map.with(2, at, 5).is_refused(refusal, [0, 5, 0, 4]);
            map.with(2, at + 2, 65_535).is_refused(refusal, [2, 65_535, 0, 4]);
            map.with(2, at + right, 4).is_refused(refusal, [right as u32, 4, 0, 3]);
            map.with(2, at + right, NO_SIDEDEF).is_refused(refusal, [right as u32, 65_535, 0, 3]);
            map.with(2, at + left, 4).is_refused(refusal, [left as u32, 4, 0, 3]);
            map.with(2, at + left, 65_534).is_refused(refusal, [left as u32, 65_534, 0, 3]);
            let missing = map.with(2, at + left, NO_SIDEDEF);
            missing.with(2, at + 4, TWO_SIDED).is_refused(refusal, [left as u32, 65_535, 0, 3]);
            missing.with(2, at + 4, TWO_SIDED).with(2, at + right, 9).is_refused(refusal, [right as u32, 9, 0, 3]);
            missing.with(2, at + 4, TWO_SIDED).with(2, at, 9).with(2, at + 2, 8).is_refused(refusal, [0, 9, 0, 4]);
            assert!(missing.with(2, at + 4, !TWO_SIDED).why().0.is_ok());
        }
        map.with(2, 2 * size, 9).with(2, size + left, 9).is_refused((23, 2, 1), [left as u32, 9, 0, 3]);
    }
}

#[test]
fn sidedefs() {
    let map = Map::good(false);
    for record in 0..4 {
        map.with(3, 30 * record + 28, 2).is_refused((24, 3, record), [28, 2, 0, 1]);
        map.with(3, 30 * record + 28, 0xFFFF).is_refused((24, 3, record), [28, 65_535, 0, 1]);
    }
}

#[test]
fn segs_of_both_games() {
    for map in [Map::good(false), Map::good(true)] {
        for record in 0..6 {
            let (at, refusal) = (12 * record, (25, 5, record));
            map.with(5, at, 5).is_refused(refusal, [0, 5, 0, 4]);
            map.with(5, at + 2, 5).is_refused(refusal, [2, 5, 0, 4]);
            map.with(5, at + 2, 5).with(5, at, 6).is_refused(refusal, [0, 6, 0, 4]);
            for direction in [0, 1, 2, 65_535] {
                map.with(5, at + 6, 3).with(5, at + 8, direction).is_refused(refusal, [6, 3, 0, 2]);
            }
            for direction in [1, 2, 65_535] {
                map.with(5, at + 8, direction).is_refused(refusal, [8, direction.into(), 0, 0]);
            }
            for direction in [2, 256, 65_535] {
                map.with(5, at + 6, 1).with(5, at + 8, direction).is_refused(refusal, [8, direction.into(), 0, 1]);
            }
            assert!(map.with(5, at + 6, 1).with(5, at + 8, 1).why().0.is_ok());
        }
    }
}

#[test]
fn subsectors() {
    let map = Map::good(false);
    for record in 0..3 {
        let run = |number, first| map.with(6, 4 * record, number).with(6, 4 * record + 2, first);
        let refusal = (26, 6, record);
        run(0, 0).is_refused(refusal, [0, 0, 1, 6]);
        run(0, 65_535).is_refused(refusal, [0, 0, 1, 6]);
        run(7, 0).is_refused(refusal, [0, 7, 1, 6]);
        run(65_535, 65_535).is_refused(refusal, [0, 65_535, 1, 6]);
        run(6, 1).is_refused(refusal, [2, 1, 0, 0]);
        run(1, 6).is_refused(refusal, [2, 6, 0, 5]);
        run(2, 65_535).is_refused(refusal, [2, 65_535, 0, 4]);
        assert!(run(2, 4).why().0.is_ok());
    }
}

#[test]
fn children_of_both_kinds() {
    let map = Map::good(false);
    for record in 0..2 {
        for at in [24, 26] {
            let child = |word| map.with(7, 28 * record + at, word);
            let (refusal, offset) = ((27, 7, record), at as u32);
            child(2).is_refused(refusal, [offset, 2, 0, 1]);
            child(0x7FFF).is_refused(refusal, [offset, 32_767, 0, 1]);
            child(s(3)).is_refused(refusal, [offset, 32_771, 32_768, 32_770]);
            child(0xFFFF).is_refused(refusal, [offset, 65_535, 32_768, 32_770]);
        }
        map.with(7, 28 * record + 26, 2)
            .with(7, 28 * record + 24, 0xFFFF)
            .is_refused((27, 7, record), [24, 65_535, 32_768, 32_770]);
    }
}

#[test]
fn blockmap_of_a_bad_header() {
    let good = Map::good(false);
    for size in 0..8 {
        let mut map = good.clone();
        map.lumps[9].truncate(size);
        map.is_28(0, [0, size as u32, 8, MOST]);
    }
    for size in 8..12 {
        let mut map = good.clone();
        map.lumps[9].truncate(size);
        map.is_28(0, [0, size as u32, 12, MOST]);
        map.with(10, 4, 0).is_28(0, [4, 0, 1, 512]);
        map.with(10, 6, 0).is_28(0, [6, 0, 1, 512]);
    }
    good.with(10, 4, 0).with(10, 6, 0).is_28(0, [4, 0, 1, 512]);
    good.with(10, 4, 513).is_28(0, [4, 513, 1, 512]);
    good.with(10, 6, 65_535).is_28(0, [6, 65_535, 1, 512]);
    good.with(10, 4, 512).with(10, 6, 512).is_28(0, [0, 22, 8 + 2 * 512 * 512, MOST]);
    for (size, least) in [(13, 14), (15, 16), (21, 22), (23, 24)] {
        let mut map = good.clone();
        map.lumps[9].resize(size, 0);
        map.is_28(0, [0, size as u32, least, MOST]);
        map.with(10, 8, 0).is_28(0, [0, size as u32, least, MOST]);
    }
}

#[test]
fn blockmap_of_a_bad_cell() {
    let good = Map::good(false);
    good.with(10, 8, 5).is_28(0, [8, 5, 6, 10]);
    good.with(10, 8, 11).is_28(0, [8, 11, 6, 10]);
    good.with(10, 10, 0).is_28(1, [10, 0, 6, 10]);
    good.with(10, 10, 65_535).with(10, 18, 3).is_28(1, [10, 65_535, 6, 10]);
    good.with(10, 10, 7).is_28(1, [14, 65_535, 0, 0]);
    good.with(10, 10, 10).is_28(1, [20, 65_535, 0, 0]);
    good.with(10, 16, 1).with(10, 18, 3).is_28(1, [16, 1, 0, 0]);
    good.with(10, 18, 3).is_28(1, [18, 3, 0, 2]);
    good.with(10, 18, 65_534).is_28(1, [18, 65_534, 0, 2]);
    good.with(10, 20, 2).is_28(1, [0, 22, 24, MOST]);
    good.with(10, 20, 0).with(10, 10, 10).is_28(1, [0, 22, 24, MOST]);
    good.with(10, 14, 0).with(10, 18, 9).is_28(0, [18, 9, 0, 2]);
}

#[test]
fn an_empty_range_where_no_word_is_behind_the_offsets() {
    blockmap(&[0, 0, 1, 1, 5]).is_28(0, [8, 5, 5, 4]);
    blockmap(&[0, 0, 1, 1, 4]).is_28(0, [8, 4, 5, 4]);
    blockmap(&[0, 0, 2, 1, 6, 0]).is_28(0, [8, 6, 6, 5]);
    blockmap(&[0, 0, 1, 1, 5, 0]).is_28(0, [0, 12, 14, MOST]);
}

#[test]
fn a_lump_of_more_words_than_an_offset_can_name() {
    let mut lump = vec![0; 70_000];
    lump[2..5].copy_from_slice(&[1, 1, 4]);
    blockmap(&lump).is_28(0, [8, 4, 5, 69_999]);
    lump[4] = 65_535;
    blockmap(&lump).is_28(0, [0, 140_000, 140_002, MOST]);
    lump[69_999] = 3;
    blockmap(&lump).is_28(0, [139_998, 3, 0, 2]);
}

fn choices(children: &[[u16; 2]]) -> (Result<usize, u32>, String) {
    let mut map = Map::good(false);
    map.nodes(children);
    let (verdict, reason) = map.why();
    (verdict.map(|it| it.depth).map_err(|it| it.number), String::from_utf8(reason).unwrap())
}

fn is_loop(children: &[[u16; 2]], way: &str) {
    assert_eq!(choices(children), (Err(31), way.to_owned()), "{children:?}");
}

#[test]
fn ways_into_loops() {
    is_loop(&[[s(0), 0]], "L");
    is_loop(&[[0, s(0)]], "R");
    is_loop(&[[0, 0]], "R");
    is_loop(&[[0, s(0)], [0, s(1)]], "RR");
    is_loop(&[[s(0), 1], [s(1), 0]], "LL");
    is_loop(&[[1, 1], [0, 0]], "RR");
    // The right child is fine and its subtree too: the loop is on the left.
    is_loop(&[[s(0), s(1)], [2, s(2)], [0, 1]], "LR");
    // Through the right child, though the left one is nearer to a loop.
    is_loop(&[[s(0), 0], [s(1), 0], [1, 2]], "RLL");
    // A node that two places name is no second time on the way.
    is_loop(&[[s(0), s(1)], [0, 0], [1, 2]], "L");
    // The loop is below, and the way ends where it closes.
    is_loop(&[[1, s(0)], [s(1), 0], [s(2), 1], [2, s(3)]], "RLLR");
    // Unreached loops change nothing.
    is_loop(&[[0, 0], [s(0), 1], [s(1), 1]], "LL");
}

#[test]
fn the_longest_way_into_a_loop() {
    let chain = |end: [u16; 2]| -> Vec<[u16; 2]> { [end].into_iter().chain((0..32_766).map(|node| [s(1), node])).collect() };
    is_loop(&chain([s(0), 32_766]), &"L".repeat(32_767));
    is_loop(&chain([0, 32_766]), &("L".repeat(32_766) + "R"));
}

#[test]
fn routes() {
    let is_route = |children: &[[u16; 2]], route: &str| {
        assert_eq!(choices(children), (Ok(route.len()), route.to_owned()), "{children:?}");
    };
    is_route(&[[s(0), s(1)]], "R");
    is_route(&[[s(0), s(1)], [0, s(2)]], "RR");
    is_route(&[[s(0), s(1)], [s(2), 0]], "LR");
    is_route(&[[s(0), s(1)], [s(2), s(3)], [0, 1]], "RR");
    is_route(&[[1, s(0)], [s(1), s(2)], [s(3), 0]], "LRR");
    is_route(&[[s(0), s(1)], [s(2), s(3)], [s(4), 1], [0, 2]], "LLR");
    is_route(&[[0, s(0)], [s(0), s(1)]], "R");
    let chain: Vec<[u16; 2]> = [[s(0), s(1)]].into_iter().chain((0..32_765).map(|node| [s(node + 2), node])).collect();
    is_route(&chain, &("L".repeat(32_765) + "R"));
}

#[test]
fn what_prints_nothing_needs_no_room() {
    let mut map = Map::good(true);
    map.set(7, vec![]);
    map.set(6, words(&[1, 0]));
    assert_eq!(map.why(), (Ok(Accepted { depth: 0, marker: 0 }), vec![]));
    assert_eq!(choices(&[[s(0), s(0)]]), (Err(32), String::new()));
    map.set(9, vec![]);
    assert_eq!(map.why(), (Err(Refusal::new(22, 9, 0)), vec![]));
    map.set(4, vec![0]);
    assert_eq!(map.why(), (Err(Refusal::new(20, 4, 0)), vec![]));
    let wad = Map::good(false).wad();
    for (name, words, number) in [(b"MAP02\0\0\0", 8, 11), (b"MAP00\0\0\0", 8, 10), (NAME, 7, 30)] {
        let mut lent = vec![7; words];
        let (verdict, length) = why(&wad, name, &mut lent, &mut []);
        assert_eq!((verdict.map_err(|it| it.number), length, lent), (Err(number), 0, vec![7; words]));
    }
    assert_eq!(why(&wad[..11], NAME, &mut [], &mut []), (Err(Refusal::plain(1)), 0));
}
