//! Hexen's things and linedefs byte by byte, as document 004's tables have them, and what a write refuses (W-205).

use reader::{Linedef, Refusal, Thing};

/// The bytes 1, 2, 3, ..
fn counted(size: usize) -> Vec<u8> {
    (1..=size as u8).collect()
}

const THING: Thing = Thing {
    hexen: true,
    id: 0x0201,
    x: 0x0403,
    y: 0x0605,
    height: 0x0807,
    angle: 0x0A09,
    kind: 0x0C0B,
    flags: 0x0E0D,
    action: 15,
    args: [16, 17, 18, 19, 20],
};

const LINEDEF: Linedef = Linedef {
    hexen: true,
    start: 0x0201,
    end: 0x0403,
    flags: 0x0605,
    special: 7,
    tag: 0,
    args: [8, 9, 10, 11, 12],
    right: 0x0E0D,
    left: 0x100F,
};

#[test]
fn fields_of_hexens_records() {
    assert_eq!(Thing::read(&counted(20), 0, true), Ok(THING));
    assert_eq!(Linedef::read(&counted(16), 0, true), Ok(LINEDEF));
}

#[test]
fn fields_of_dooms_records() {
    let thing = Thing { x: 0x0201, y: 0x0403, angle: 0x0605, kind: 0x0807, flags: 0x0A09, ..Thing::default() };
    assert_eq!(Thing::read(&counted(10), 0, false), Ok(thing));
    let (start, end, flags, special, tag) = (0x0201, 0x0403, 0x0605, 0x0807, 0x0A09);
    let linedef = Linedef { start, end, flags, special, tag, right: 0x0C0B, left: 0x0E0D, ..Linedef::default() };
    assert_eq!(Linedef::read(&counted(14), 0, false), Ok(linedef));
}

#[test]
fn what_is_written_is_read_again() {
    for hexen in [false, true] {
        let (mut things, mut linedefs) = (vec![0; 3 * Thing::size(hexen)], vec![0; 3 * Linedef::size(hexen)]);
        let (from_things, from_linedefs) = (counted(things.len()), counted(linedefs.len()));
        for index in 0..3 {
            Thing::read(&from_things, index, hexen).unwrap().write(&mut things, index).unwrap();
            Linedef::read(&from_linedefs, index, hexen).unwrap().write(&mut linedefs, index).unwrap();
        }
        assert_eq!((things, linedefs), (from_things, from_linedefs));
    }
}

/// The refusal of a write, which leaves the lump as it was.
fn refused(write: impl Fn(&mut [u8]) -> Result<(), Refusal>) -> u32 {
    let mut lump = counted(20);
    let refusal = write(&mut lump).unwrap_err();
    assert_eq!((lump, refusal), (counted(20), Refusal::plain(refusal.number)));
    refusal.number
}

#[test]
fn what_the_game_lacks_is_refused_after_60() {
    let nothing = Thing::default();
    let last = [0, 0, 0, 0, 1];
    let things = [
        Thing { id: -1, ..nothing },
        Thing { height: 1, ..nothing },
        Thing { action: 1, ..nothing },
        Thing { args: last, ..nothing },
        Thing { args: [1, 0, 0, 0, 0], ..nothing },
    ];
    for thing in things {
        assert_eq!([0, 1, 2].map(|index| refused(|lump| thing.write(lump, index))), [61, 61, 60]);
    }
    let linedefs = [
        Linedef { args: last, ..Linedef::default() },
        Linedef { tag: 1, ..LINEDEF },
        Linedef { special: 256, ..LINEDEF },
        Linedef { special: 0xFFFF, tag: 0xFFFF, ..LINEDEF },
    ];
    for linedef in linedefs {
        assert_eq!([0, 1].map(|index| refused(|lump| linedef.write(lump, index))), [61, 60]);
    }
    assert_eq!(Linedef { special: 255, ..LINEDEF }.write(&mut counted(16), 0), Ok(()));
    assert_eq!(Linedef { special: 0xFFFF, tag: 0xFFFF, ..Linedef::default() }.write(&mut counted(14), 0), Ok(()));
}
