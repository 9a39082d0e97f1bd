//! W-207: a lump or a map by name out of a base file and a patch over it.

use reader::{pair_find, pair_judge_map, pair_lump, PairEntry, PairFile, PairRefusal, Refusal};
use PairFile::{Base, Patch};

/// A file with these lumps, its directory behind them.
fn wad(lumps: &[(&[u8; 8], &[u8])]) -> Vec<u8> {
    let (mut data, mut directory) = (Vec::new(), Vec::new());
    for (name, bytes) in lumps {
        directory.extend((12 + data.len() as u32).to_le_bytes());
        directory.extend((bytes.len() as u32).to_le_bytes());
        directory.extend(*name);
        data.extend(*bytes);
    }
    let (count, start) = ((lumps.len() as u32).to_le_bytes(), (12 + data.len() as u32).to_le_bytes());
    [&b"PWAD"[..], &count, &start, &data, &directory].concat()
}

fn refused(file: impl Into<Option<PairFile>>, number: u32, record: usize) -> PairRefusal {
    PairRefusal { file: file.into(), refusal: Refusal::new(number, 0, record) }
}

const NAME: &[u8; 8] = b"DEMO1\0\0\0";

#[test]
fn the_last_of_the_patch_else_the_last_of_the_base() {
    let base = wad(&[(NAME, b"1"), (NAME, b"22"), (b"DEMO2\0\0\0", b"333"), (b"DEMO3\0\0\0", b"")]);
    let patch = wad(&[(b"DEMO4\0\0\0", b"4444"), (b"DEMO2\0xx", b"55555"), (b"DEMO2\0yy", b"666666"), (b"DEMO5\0\0\0", b"")]);
    let find = |name: &[u8]| pair_find(&base, &patch, name);
    assert_eq!(find(NAME), Ok(PairEntry { file: Base, offset: 13, size: 2 }));
    assert_eq!(find(b"DEMO2\0\0\0"), Ok(PairEntry { file: Patch, offset: 21, size: 6 }));
    assert_eq!(find(b"DEMO3\0zz"), Ok(PairEntry { file: Base, offset: 0, size: 0 }));
    assert_eq!(find(b"DEMO5\0\0\0"), Ok(PairEntry { file: Patch, offset: 0, size: 0 }));
    assert_eq!([NAME, b"DEMO2\0\0\0", b"DEMO9\0\0\0"].map(|name| pair_lump(&base, &patch, name)), [&b"22"[..], b"666666", b""]);
}

#[test]
fn a_name_that_no_entry_has_is_11_whatever_it_is() {
    let file = wad(&[(NAME, b"1"), (b"ABCDEFGH", b"22")]);
    for name in [
        &b"DEMO9\0\0\0"[..],
        b"DEMO1",
        b"DEMO1\0\0",
        b"DEMO1\0\0\0\0",
        b"ABCDEFGH\0",
        &[0; 8],
        b"\0DEMO1\0\0",
        b"",
        b"demo1\0\0\0",
    ] {
        assert_eq!(pair_find(&file, &file, name), Err(refused(None, 11, 0)), "{name:?}");
    }
}

#[test]
fn the_patch_is_judged_before_the_base_and_both_before_the_name() {
    let (good, bad) = (wad(&[(NAME, b"1")]), wad(&[(NAME, b"1"), (b"bad\0\0\0\0\0", b"")]));
    for name in [&NAME[..], b"MAP01\0\0\0", b"no map", b""] {
        let answers = |base: &[u8], patch: &[u8]| {
            [pair_find(base, patch, name).map(|_| ()), pair_judge_map(base, patch, name, &mut []).map(|_| ())]
        };
        assert_eq!(answers(&bad, b"short"), [Err(refused(Patch, 1, 0)); 2]);
        assert_eq!(answers(b"short", &bad), [Err(refused(Patch, 6, 1)); 2]);
        assert_eq!(answers(&bad, &good), [Err(refused(Base, 6, 1)); 2]);
    }
}

#[test]
fn a_maps_name_is_judged_and_its_marker_decides_the_file() {
    let (with, without) = (wad(&[(b"MAP01\0\0\0", b"")]), wad(&[(NAME, b"1")]));
    let judge = |base: &[u8], patch: &[u8], name: &[u8]| pair_judge_map(base, patch, name, &mut []).map(|_| ());
    assert_eq!(judge(&with, &with, NAME), Err(refused(None, 10, 0)));
    assert_eq!(judge(&without, &without, b"MAP01\0\0\0"), Err(refused(None, 11, 0)));
    let missing = |file| Err(PairRefusal { file: Some(file), refusal: Refusal::new(12, 1, 0) });
    assert_eq!(judge(&with, &without, b"MAP01\0\0\0"), missing(Base));
    assert_eq!(judge(&without, &with, b"MAP01\0\0\0"), missing(Patch));
    assert_eq!(judge(&with, &with, b"MAP01\0zz"), missing(Patch));
}
