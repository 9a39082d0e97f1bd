//! Written pictures (W-201).

use reader::{judge_picture, paint_picture, write_picture, Picture, Refusal};

const SMALL: Picture = Picture { width: 3, height: 4, left: -2, top: 258 };
/// A single pixel and a run of two, a full column, and an empty one; row by row.
const COVER: [u8; 12] = [1, 1, 0, 0, 1, 0, 1, 1, 0, 1, 1, 0];
/// Colours of uncovered pixels are written nowhere.
const COLOUR: [u8; 12] = [10, 20, 99, 98, 21, 97, 12, 22, 96, 13, 23, 95];

/// Header, offsets, and the three columns.
fn small() -> Vec<u8> {
    let header = [3, 0, 4, 0, 0xFE, 0xFF, 2, 1];
    let offsets = [20, 0, 0, 0, 32, 0, 0, 0, 41, 0, 0, 0];
    let columns: [&[u8]; 3] = [&[0, 1, 0, 10, 0, 2, 2, 0, 12, 13, 0, 255], &[0, 4, 0, 20, 21, 22, 23, 0, 255], &[255]];
    [&header[..], &offsets, &columns.concat()].concat()
}

/// The answer over an output of so many bytes that hold 7, and what they hold afterwards.
fn written(picture: Picture, colour: &[u8], cover: &[u8], out: usize) -> (Result<usize, Refusal>, Vec<u8>) {
    let mut out = vec![7; out];
    (write_picture(picture, colour, cover, &mut out), out)
}

fn refused(number: u32, out: usize) -> (Result<usize, Refusal>, Vec<u8>) {
    (Err(Refusal::plain(number)), vec![7; out])
}

#[test]
fn runs_are_posts_and_columns_stand_in_order() {
    assert_eq!(written(SMALL, &COLOUR, &COVER, 42), (Ok(42), small()));
    assert_eq!(written(SMALL, &COLOUR, &COVER, 45), (Ok(42), [small(), vec![7; 3]].concat()));
    let longer = |pixels: &[u8]| [pixels, &[2, 255]].concat();
    assert_eq!(written(SMALL, &longer(&COLOUR), &longer(&COVER), 42), (Ok(42), small()));
}

#[test]
fn what_was_written_is_read_back() {
    let (mut colour, mut cover) = ([5; 12], [5; 12]);
    assert_eq!(judge_picture(&small()), Ok(SMALL));
    assert_eq!(paint_picture(&small(), &mut colour, &mut cover), Ok(SMALL));
    assert_eq!((colour, cover), ([10, 20, 0, 0, 21, 0, 12, 22, 0, 13, 23, 0], COVER));
}

#[test]
fn equal_columns_are_written_twice() {
    let picture = Picture { width: 2, height: 1, left: 0, top: 0 };
    let lump = [2, 0, 1, 0, 0, 0, 0, 0, 16, 0, 0, 0, 22, 0, 0, 0, 0, 1, 0, 6, 0, 255, 0, 1, 0, 6, 0, 255];
    assert_eq!(written(picture, &[6, 6], &[1, 1], 28), (Ok(28), lump.to_vec()));
}

#[test]
fn the_first_fault_in_the_order_55_to_58_counts() {
    let bad = [2; 12];
    let wide = Picture { width: 321, height: 1, ..SMALL };
    assert_eq!(written(wide, &[0; 321], &[2; 320], 0), refused(55, 0));
    assert_eq!(written(wide, &[0; 321], &[2; 321], 0), refused(56, 0));
    assert_eq!(written(SMALL, &COLOUR[1..], &bad, 41), refused(55, 41));
    assert_eq!(written(SMALL, &COLOUR, &bad, 41), refused(57, 41));
    assert_eq!(written(SMALL, &COLOUR, &COVER, 41), refused(58, 41));
    assert_eq!(written(SMALL, &COLOUR, &COVER, 0), refused(58, 0));
}

#[test]
fn sides_are_multiplied_over_whole_numbers() {
    let of = |width, height| Picture { width, height, ..SMALL };
    for picture in [of(400, 300), of(usize::MAX, 2), of(1 << 32, 1 << 32), of((1 << 63) + 1, 2)] {
        assert_eq!(written(picture, &COLOUR, &COVER, 99), refused(55, 99));
    }
    for picture in [of(0, usize::MAX), of(usize::MAX, 0), of(0, 0), of(1, 0)] {
        assert_eq!(written(picture, &[], &[], 99), refused(56, 99));
    }
    assert_eq!(written(of(400, 300), &[0; 120_000], &[0; 120_000], 0), refused(56, 0));
}
