//! Things and linedefs, of which Doom and Hexen have records of their own (document 004). One type serves both games: it says which
//! one it comes from, and holds 0 in what that game lacks.

use crate::record::{range_of, Field};
use crate::Refusal;

/// An object placed on the map.
#[derive(Clone, Copy, Debug, Default, PartialEq, Eq)]
pub struct Thing {
    /// Whether it is Hexen's.
    pub hexen: bool,
    /// What scripts know it by; Hexen's alone.
    pub id: i16,
    /// Position, eastward.
    pub x: i16,
    /// Position, northward.
    pub y: i16,
    /// Height above the floor; Hexen's alone.
    pub height: i16,
    /// Degrees: 0 is east, 90 is north.
    pub angle: u16,
    /// The DoomEd number.
    pub kind: u16,
    /// Skill and multiplayer bits.
    pub flags: u16,
    /// The special that it does; Hexen's alone.
    pub action: u8,
    /// The special's arguments; Hexen's alone.
    pub args: [u8; 5],
}

/// A line between two vertices, with a side or two.
#[derive(Clone, Copy, Debug, Default, PartialEq, Eq)]
pub struct Linedef {
    /// Whether it is Hexen's.
    pub hexen: bool,
    /// The vertex it starts from.
    pub start: u16,
    /// The vertex it ends at.
    pub end: u16,
    /// Bits; 0x0004 is two-sided.
    pub flags: u16,
    /// The action, in Hexen at most 255.
    pub special: u16,
    /// The tag of the sectors acted on; Doom's alone.
    pub tag: u16,
    /// The special's arguments; Hexen's alone.
    pub args: [u8; 5],
    /// The right sidedef.
    pub right: u16,
    /// The left sidedef, 65,535 for none.
    pub left: u16,
}

impl Thing {
    /// Whether nothing is held that the game lacks.
    fn fits(&self) -> bool {
        self.hexen || (self.id, self.height, self.action, self.args) == (0, 0, 0, [0; 5])
    }

    fn decode(mut bytes: &[u8], hexen: bool) -> Self {
        let from = &mut bytes;
        Self {
            hexen,
            id: next_if(hexen, from),
            x: next(from),
            y: next(from),
            height: next_if(hexen, from),
            angle: next(from),
            kind: next(from),
            flags: next(from),
            action: next_if(hexen, from),
            args: next_if(hexen, from),
        }
    }

    fn encode(&self, mut bytes: &mut [u8]) {
        let (hexen, to) = (self.hexen, &mut bytes);
        put_if(hexen, self.id, to);
        put(self.x, to);
        put(self.y, to);
        put_if(hexen, self.height, to);
        put(self.angle, to);
        put(self.kind, to);
        put(self.flags, to);
        put_if(hexen, self.action, to);
        put_if(hexen, self.args, to);
    }
}

impl Linedef {
    /// Whether nothing is held that the game lacks, and the special has room.
    fn fits(&self) -> bool {
        if self.hexen {
            self.tag == 0 && self.special <= 255
        } else {
            self.args == [0; 5]
        }
    }

    fn decode(mut bytes: &[u8], hexen: bool) -> Self {
        let from = &mut bytes;
        Self {
            hexen,
            start: next(from),
            end: next(from),
            flags: next(from),
            special: if hexen { u16::from(next::<u8>(from)) } else { next(from) },
            tag: next_if(!hexen, from),
            args: next_if(hexen, from),
            right: next(from),
            left: next(from),
        }
    }

    fn encode(&self, mut bytes: &mut [u8]) {
        let (hexen, to) = (self.hexen, &mut bytes);
        put(self.start, to);
        put(self.end, to);
        put(self.flags, to);
        put_if(hexen, self.special as u8, to);
        put_if(!hexen, self.special, to);
        put_if(!hexen, self.tag, to);
        put_if(hexen, self.args, to);
        put(self.right, to);
        put(self.left, to);
    }
}

macro_rules! record_of_both_games {
    ($kind:ident, $lump:literal, place $place:literal, size $size:literal, in Hexen $hexen_size:literal) => {
        impl $kind {
            /// Bytes of one of Doom's records.
            pub const SIZE: usize = $size;
            /// Bytes of one of Hexen's records.
            pub const HEXEN_SIZE: usize = $hexen_size;
            #[doc = concat!("The place of ", $lump, " in a map.")]
            pub const PLACE: usize = $place;

            /// Bytes of one record of that game.
            pub const fn size(hexen: bool) -> usize {
                if hexen {
                    Self::HEXEN_SIZE
                } else {
                    Self::SIZE
                }
            }

            #[doc = concat!("Reads record `index` of a ", $lump, " lump of that game; 60 past its end.")]
            pub fn read(lump: &[u8], index: usize, hexen: bool) -> Result<Self, Refusal> {
                Ok(Self::decode(&lump[range_of(lump.len(), Self::size(hexen), index)?], hexen))
            }

            #[doc = concat!("Writes record `index` of a ", $lump, " lump of its game; 60 past its end, 61 for what the game lacks.")]
            pub fn write(&self, lump: &mut [u8], index: usize) -> Result<(), Refusal> {
                let range = range_of(lump.len(), Self::size(self.hexen), index)?;
                if !self.fits() {
                    return Err(Refusal::plain(61));
                }
                self.encode(&mut lump[range]);
                Ok(())
            }

            #[doc = concat!("All whole records of a ", $lump, " lump of that game, in turn.")]
            pub fn all(lump: &[u8], hexen: bool) -> impl ExactSizeIterator<Item = Self> + '_ {
                lump.chunks_exact(Self::size(hexen)).map(move |bytes| Self::decode(bytes, hexen))
            }
        }
    };
}

record_of_both_games!(Thing, "THINGS", place 1, size 10, in Hexen 20);
record_of_both_games!(Linedef, "LINEDEFS", place 2, size 14, in Hexen 16);

/// The field that comes first, which is left behind.
fn next<F: Field>(bytes: &mut &[u8]) -> F {
    let (field, rest) = bytes.split_at(F::SIZE);
    *bytes = rest;
    F::take(field)
}

/// The same if the game has the field, else 0.
fn next_if<F: Field + Default>(there: bool, bytes: &mut &[u8]) -> F {
    if there {
        next(bytes)
    } else {
        F::default()
    }
}

/// Writes the field that comes first, which is left behind.
fn put<F: Field>(field: F, bytes: &mut &mut [u8]) {
    let (place, rest) = std::mem::take(bytes).split_at_mut(F::SIZE);
    field.put(place);
    *bytes = rest;
}

/// The same if the game has the field.
fn put_if<F: Field>(there: bool, field: F, bytes: &mut &mut [u8]) {
    if there {
        put(field, bytes);
    }
}
