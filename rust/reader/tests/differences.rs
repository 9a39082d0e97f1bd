//! What changed between two maps (W-213), on maps made by hand.

mod common;

use common::{s, words, Map, NAME};
use reader::*;

/// Bytes of a record by place.
fn sizes(hexen: bool) -> [usize; 8] {
    [Thing::size(hexen), Linedef::size(hexen), 30, 4, 12, 4, 28, 26]
}

/// A byte of a record by place that no check looks at, where there is one: of a subsector nothing is free.
const FREE: [Option<usize>; 8] = [Some(9), Some(8), Some(27), Some(3), Some(5), None, Some(23), Some(25)];

/// Two things more than the good map has.
fn good(hexen: bool) -> Map {
    let mut map = Map::good(hexen);
    map.set(1, vec![3; 2 * Thing::size(hexen)]);
    map
}

/// Numbers that are listed, with their places.
type Listed = (usize, &'static [u16]);

/// The lists, place by place, or the refusal. Lists of every length around that of all numbers are tried: 75 is for those that are too short.
/// What is not written stays, and the words end as both map checks leave them, one after the other.
fn asked(old: &Map, new: &Map) -> Result<Vec<Vec<u16>>, DifferenceRefusal> {
    let (old_wad, new_wad, lent) = (old.wad(), new.wad(), vec![7; 41]);
    let mut judged = lent.clone();
    if judge_map(&old_wad, NAME, &mut judged).is_ok() {
        let _ = judge_map(&new_wad, NAME, &mut judged);
    }
    let mut long = vec![0xEEEE; 200_000];
    let answer = differences(&old_wad, NAME, &new_wad, NAME, &mut lent.clone(), &mut long);
    let length = answer.map_or(0, |counts| counts.iter().sum());
    for room in [0, 1, length.saturating_sub(1), length, length + 1] {
        let (mut words, mut list) = (lent.clone(), vec![0xEEEE; room]);
        let short = DifferenceRefusal { file: None, refusal: Refusal::plain(75) };
        let wanted = if room < length { Err(short) } else { answer };
        assert_eq!((differences(&old_wad, NAME, &new_wad, NAME, &mut words, &mut list), &words), (wanted, &judged));
        let written = wanted.map_or(0, |_| length);
        assert_eq!(list[..written], long[..written]);
        assert!(list[written..].iter().all(|&word| word == 0xEEEE));
    }
    assert!(long[length..].iter().all(|&word| word == 0xEEEE));
    let mut rest = &long[..length];
    let mut take = |count: usize| {
        let (front, behind) = rest.split_at(count);
        rest = behind;
        front.to_vec()
    };
    answer.map(|counts| counts.into_iter().map(&mut take).collect())
}

/// Both maps are accepted, these numbers are listed and no others.
fn lists(old: &Map, new: &Map, wanted: &[Listed]) {
    let at = |place| wanted.iter().find(|it| it.0 == place).map_or(vec![], |it| it.1.to_vec());
    assert_eq!(asked(old, new), Ok((1..=8).map(at).collect()));
}

#[test]
fn a_map_is_the_same_as_itself() {
    for hexen in [false, true] {
        lists(&good(hexen), &good(hexen), &[]);
    }
}

#[test]
fn one_byte_of_any_record_is_enough() {
    for hexen in [false, true] {
        let old = good(hexen);
        for place in 1..=8 {
            let size = sizes(hexen)[place - 1];
            let Some(byte) = FREE[place - 1] else { continue };
            for record in 0..old.lumps[place - 1].len() / size {
                let mut new = old.clone();
                new.lumps[place - 1][size * record + byte] ^= 0x80;
                let wanted = [record as u16];
                assert_eq!(asked(&old, &new).unwrap()[place - 1], wanted);
                assert_eq!(asked(&new, &old).unwrap().concat(), wanted);
            }
        }
        lists(&old, &old.with(6, 4, 1).with(6, 8, 2), &[(6, &[2])]);
    }
}

#[test]
fn every_byte_of_a_thing_counts() {
    for hexen in [false, true] {
        for at in 0..Thing::size(hexen) {
            let mut new = good(hexen);
            new.lumps[0][Thing::size(hexen) + at] ^= 1;
            lists(&good(hexen), &new, &[(1, &[1])]);
        }
    }
}

#[test]
fn what_comes_is_listed_and_what_goes_is_not() {
    let (mut old, mut new) = (good(false), good(false));
    new.set(1, vec![3; 5 * 10]);
    lists(&old, &new, &[(1, &[2, 3, 4])]);
    lists(&new, &old, &[]);
    old.set(1, vec![]);
    lists(&old, &new, &[(1, &[0, 1, 2, 3, 4])]);
    lists(&new, &old, &[]);
    // Of five things the second changes, and the last two go; the new map has two vertices more.
    new = new.with(4, 8, 9);
    new.lumps[3].extend([0; 8]);
    old.set(1, vec![3; 3 * 10]);
    old.lumps[0][10] = 4;
    lists(&new, &old, &[(1, &[1]), (4, &[2])]);
    lists(&old, &new, &[(1, &[1, 3, 4]), (4, &[2, 5, 6])]);
}

#[test]
fn a_record_that_is_moved_is_another() {
    let (mut old, mut new) = (good(false), good(false));
    old.set(4, words(&[0, 0, 1, 1, 2, 2, 3, 3, 4, 4]));
    new.set(4, words(&[1, 1, 2, 2, 3, 3, 4, 4, 4, 4]));
    lists(&old, &new, &[(4, &[0, 1, 2, 3])]);
    new.set(4, words(&[9, 9, 0, 0, 1, 1, 2, 2, 3, 3, 4, 4]));
    lists(&old, &new, &[(4, &[0, 1, 2, 3, 4, 5])]);
}

#[test]
fn all_eight_at_once_come_in_place_order() {
    let (mut old, mut new) = (good(false), good(false));
    new.set(1, [vec![3; 10], vec![4; 20]].concat());
    new.lumps[1][14 + 8] = 1;
    new.lumps[2].extend([0; 60]);
    new.set(4, words(&[5, 5, 0, 0, 5, 5, 0, 0, 5, 5]));
    new.lumps[4][12 * 5 + 4] = 1;
    new.set(6, words(&[1, 0, 1, 1, 1, 2, 1, 0]));
    new.lumps[6][28] = 1;
    new.lumps[7][26 + 20] = 1;
    let wanted: [Listed; 8] =
        [(1, &[1, 2]), (2, &[1]), (3, &[4, 5]), (4, &[0, 2, 4]), (5, &[5]), (6, &[1, 2, 3]), (7, &[1]), (8, &[1])];
    lists(&old, &new, &wanted);
    old.set(9, vec![1]);
    new.set(10, words(&[9, 9, 1, 1, 5, 0, 65_535]));
    lists(&old, &new, &wanted);
}

#[test]
fn reject_and_blockmap_are_not_compared() {
    let (old, mut new) = (good(true), good(true));
    new.set(9, vec![0xFF]);
    new.set(10, words(&[0, 0, 1, 1, 5, 0, 1, 65_535]));
    lists(&old, &new, &[]);
}

#[test]
fn maps_of_two_games_are_not_compared() {
    let refused = Err(DifferenceRefusal { file: None, refusal: Refusal::plain(76) });
    assert_eq!(asked(&good(false), &good(true)), refused);
    assert_eq!(asked(&good(true), &good(false)), refused);
    let mut list = [5; 3];
    let answer = differences(&good(false).wad(), NAME, &good(true).wad(), NAME, &mut [1; 8], &mut list);
    assert_eq!((answer.map_err(|it| it.refusal.number), list), (Err(76), [5; 3]));
}

fn refused(file: DifferenceFile, number: u32, place: usize, record: usize) -> Result<Vec<Vec<u16>>, DifferenceRefusal> {
    Err(DifferenceRefusal { file: Some(file), refusal: Refusal::new(number, place, record) })
}

/// The bad map is refused, wherever it stands; of two bad ones the old.
#[test]
fn a_maps_own_refusal_comes_first_and_has_its_file() {
    let bad = [
        (23, 2, 1, good(false).with(2, 14, 5)),
        (24, 3, 2, good(false).with(3, 2 * 30 + 28, 2)),
        (27, 7, 0, good(false).with(7, 24, 2)),
        (31, 7, 0, good(false).with(7, 24, 1)),
        (32, 7, 0, good(false).with(7, 24, s(1))),
    ];
    for (number, place, record, map) in &bad {
        for other in [good(false), good(true)] {
            assert_eq!(asked(map, &other), refused(DifferenceFile::Old, *number, *place, *record));
            assert_eq!(asked(&other, map), refused(DifferenceFile::New, *number, *place, *record));
        }
        for (.., other) in &bad {
            assert_eq!(asked(map, other), refused(DifferenceFile::Old, *number, *place, *record));
        }
    }
}

/// The words must be enough for either map; those of the old one, where it is accepted, are zero then.
#[test]
fn both_maps_are_checked_over_the_same_words() {
    let (few, mut many) = (good(false), good(false));
    many.nodes(&[[s(0), s(1)], [0, s(2)], [1, s(3)]]);
    let ask = |old: &Map, new: &Map, count: usize| {
        let mut words = vec![7; count];
        let answer = differences(&old.wad(), NAME, &new.wad(), NAME, &mut words, &mut [0; 9]);
        let zero = words.iter().take_while(|&&word| word == 0).count();
        assert!(words[zero..].iter().all(|&word| word == 7));
        (answer.map(|_| ()).map_err(|it| (it.file, it.refusal.number)), zero)
    };
    let (old, new) = (Some(DifferenceFile::Old), Some(DifferenceFile::New));
    assert_eq!(ask(&few, &many, 7), (Err((old, 30)), 0));
    assert_eq!(ask(&few, &many, 8), (Err((new, 30)), 8));
    assert_eq!(ask(&few, &many, 11), (Err((new, 30)), 8));
    assert_eq!(ask(&few, &many, 12), (Ok(()), 12));
    assert_eq!(ask(&many, &few, 11), (Err((old, 30)), 0));
    assert_eq!(ask(&many, &few, 15), (Ok(()), 12));
}

#[test]
fn each_map_has_its_own_name() {
    let (old, new) = (good(false).wad(), good(false).with(4, 0, 1).wad());
    let mut renamed = new.clone();
    let at = renamed.windows(8).position(|bytes| bytes == NAME).unwrap();
    renamed[at..at + 8].copy_from_slice(b"E1M1\0zzz");
    let number = |old_name: &[u8], new_name: &[u8]| {
        let mut list = [0; 1];
        let answer = differences(&old, old_name, &renamed, new_name, &mut [1; 8], &mut list);
        answer.map_err(|it| (it.file, it.refusal.number))
    };
    assert_eq!(number(NAME, b"E1M1\0\0\0\0"), Ok([0, 0, 0, 1, 0, 0, 0, 0]));
    assert_eq!(number(NAME, NAME), Err((Some(DifferenceFile::New), 11)));
    assert_eq!(number(NAME, b"ROOMS\0\0\0"), Err((Some(DifferenceFile::New), 10)));
    assert_eq!(number(b"E1M1\0\0\0\0", b"E1M1"), Err((Some(DifferenceFile::Old), 11)));
    assert_eq!(number(b"MAP01", NAME), Err((Some(DifferenceFile::Old), 10)));
    let mut words = [3; 8];
    for (old, new, file) in [(&old[..11], &new[..], DifferenceFile::Old), (&old, &new[..11], DifferenceFile::New)] {
        let refused = differences(old, NAME, new, NAME, &mut words, &mut []).unwrap_err();
        assert_eq!((refused.file, refused.refusal), (Some(file), Refusal::plain(1)));
    }
}

/// As many things as a map may have, of which the last is another.
#[test]
fn the_last_of_the_most_records_is_compared() {
    let (mut old, mut new) = (good(false), good(false));
    old.set(1, vec![3; 65_535 * 10]);
    new.set(1, vec![3; 65_535 * 10]);
    new.lumps[0][65_534 * 10 + 9] = 4;
    lists(&old, &new, &[(1, &[65_534])]);
    old.set(1, vec![]);
    let counts = asked(&old, &new).unwrap();
    assert_eq!((counts[0].len(), counts[0][65_534]), (65_535, 65_534));
}
