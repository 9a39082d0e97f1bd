//! Sidedefs as they arrive (W-209).

use reader::*;

/// Sidedefs that face these sectors; all their other bytes are 0xEE, and so would be sectors that are not there.
fn lump(sectors: &[u16]) -> Vec<u8> {
    sectors.iter().flat_map(|sector| [&[0xEE; 28][..], &sector.to_le_bytes()].concat()).collect()
}

/// The verdict after these scraps.
fn judged<'a>(sectors: usize, scraps: impl IntoIterator<Item = &'a [u8]>) -> Result<(), Refusal> {
    let mut sidedefs = Sidedefs::start(sectors);
    scraps.into_iter().for_each(|scrap| sidedefs.feed(scrap));
    sidedefs.verdict()
}

fn refused(number: u32, place: usize, record: usize) -> Result<(), Refusal> {
    Err(Refusal::new(number, place, record))
}

/// In one piece, in bytes, in two and in three pieces with empty ones between: always the whole lump's verdict.
fn is_judged(sectors: usize, lump: &[u8], verdict: Result<(), Refusal>) {
    assert_eq!(judge_sidedefs(lump, sectors), verdict);
    assert_eq!(judged(sectors, [lump]), verdict);
    assert_eq!(judged(sectors, lump.chunks(1)), verdict);
    for one in 0..=lump.len() {
        let (head, rest) = lump.split_at(one);
        assert_eq!(judged(sectors, [head, &[], rest]), verdict, "cut at {one}");
        for two in 0..=rest.len() {
            let (middle, tail) = rest.split_at(two);
            assert_eq!(judged(sectors, [&[], head, middle, tail, &[]]), verdict, "cut at {one} and {two} later");
        }
    }
}

#[test]
fn cuts_change_nothing() {
    is_judged(1, &lump(&[0, 0, 0]), Ok(()));
    is_judged(0x203, &lump(&[0x202, 0x1FF, 0]), Ok(()));
    is_judged(0x203, &lump(&[0x203]), refused(24, 3, 0));
    is_judged(0x203, &lump(&[0x202, 0x300, 3]), refused(24, 3, 1));
    is_judged(0x203, &lump(&[0, 2, 0x204]), refused(24, 3, 2));
    is_judged(3, &lump(&[2, 0x101, 0xFFFF]), refused(24, 3, 1));
    is_judged(3, &lump(&[2, 0x101, 0xFFFF])[..89], refused(20, 3, 0));
    is_judged(3, &lump(&[9])[1..], refused(20, 3, 0));
}

#[test]
fn no_scrap_is_the_empty_lump() {
    assert_eq!(judged(1, []), refused(21, 3, 0));
    is_judged(1, &[], refused(21, 3, 0));
    is_judged(0, &[], refused(80, 0, 0));
}

#[test]
fn sectors_come_first() {
    for (sectors, good) in [(0, false), (1, true), (65_535, true), (65_536, false), (usize::MAX, false)] {
        let verdict = |verdict| if good { verdict } else { refused(80, 0, 0) };
        is_judged(sectors, &lump(&[0]), verdict(Ok(())));
        is_judged(sectors, &[0], verdict(refused(20, 3, 0)));
        let mut sidedefs = Sidedefs::start(sectors);
        (0..17).for_each(|_| sidedefs.feed(&[0; 1 << 20]));
        assert_eq!(sidedefs.verdict(), verdict(refused(81, 0, 0)));
    }
}

#[test]
fn more_than_16_mib_is_81_however_much_more() {
    let zeros = vec![0; 16_777_216];
    assert_eq!(judged(1, [&zeros[..]]), refused(20, 3, 0));
    assert_eq!(judged(1, [&zeros[..16_777_200]]), refused(21, 3, 0));
    assert_eq!(judged(1, [&zeros[..], &[0]]), refused(81, 0, 0));
    assert_eq!(judged(1, [&zeros[..], &[0; 14]]), refused(81, 0, 0));
    assert_eq!(judged(1, [&zeros[..]; 1_000]), refused(81, 0, 0));
}

#[test]
fn there_are_65_535_at_most() {
    let mut sectors = vec![0; 65_536];
    sectors[65_534] = 1;
    for (count, verdict) in [(65_534, Ok(())), (65_535, refused(24, 3, 65_534)), (65_536, refused(21, 3, 0))] {
        let lump = lump(&sectors[..count]);
        assert_eq!(judge_sidedefs(&lump, 1), verdict);
        for length in [1, 29, 30, 31, 4_096, lump.len()] {
            assert_eq!(judged(1, lump.chunks(length)), verdict, "scraps of {length}");
        }
    }
}
