//! Things and linedefs, of which Doom and Hexen have records of their own. One struct serves both games: it says which one it comes
//! from, and what that game lacks is 0.

use crate::{raw, Refusal};

macro_rules! record_of_both_games {
    ($(#[$about:meta])* $kind:ident, $lump:literal, place $place:literal, size $size:literal, in Hexen $hexen_size:literal,
     lacking $lacking:literal, $read:ident, $write:ident; $($(#[$meaning:meta])* $field:ident: $form:ty,)*) => {
        $(#[$about])*
        #[repr(C)]
        #[derive(Clone, Copy, Debug, Default, PartialEq, Eq)]
        pub struct $kind {
            $($(#[$meaning])* pub $field: $form,)*
        }

        impl $kind {
            /// Bytes of one record of Doom.
            pub const SIZE: usize = $size;
            /// Bytes of one record of Hexen.
            pub const HEXEN_SIZE: usize = $hexen_size;
            #[doc = concat!("The place of ", $lump, " in a map.")]
            pub const PLACE: usize = $place;

            /// Bytes of one record of that game.
            pub const fn size(hexen: bool) -> usize {
                if hexen {
                    Self::HEXEN_SIZE
                } else {
                    Self::SIZE
                }
            }

            #[doc = concat!("Record `index` of ", $lump, " of that game; 60 where it is not wholly inside.")]
            pub fn read(lump: &[u8], index: usize, hexen: bool) -> Result<Self, Refusal> {
                raw::$read(lump, index, hexen)
            }

            #[doc = concat!("Replaces record `index` of ", $lump, " of its own game; 60 where it is not wholly inside, then 61 for ",
                            $lacking, ". A refusal writes nothing.")]
            pub fn write(self, lump: &mut [u8], index: usize) -> Result<(), Refusal> {
                raw::$write(lump, index, self)
            }
        }
    };
}

record_of_both_games! {
    /// An object placed on the map.
    ///
    /// ```
    /// use meshpigeon::Thing;
    ///
    /// let bell = Thing { hexen: true, id: 7, x: -64, y: 32, height: 48, kind: 8065, action: 80, ..Thing::default() };
    /// let mut lump = [0; 2 * Thing::HEXEN_SIZE];
    /// bell.write(&mut lump, 1).unwrap();
    /// assert_eq!(Thing::read(&lump, 1, true), Ok(bell));
    ///
    /// let doom = Thing { hexen: false, ..bell };
    /// assert_eq!(doom.write(&mut lump, 1).unwrap_err().number, 61);
    /// ```
    Thing, "THINGS", place 1, size 10, in Hexen 20, lacking "an id, a height, an action or arguments in Doom",
    read_thing, write_thing;
    /// Whether it is Hexen's.
    hexen: bool,
    /// What scripts know it by; 0 in Doom.
    id: i16,
    /// Position, eastward.
    x: i16,
    /// Position, northward.
    y: i16,
    /// Height above the floor; 0 in Doom.
    height: i16,
    /// Degrees, 0 is east.
    angle: u16,
    /// The DoomEd number.
    kind: u16,
    /// Skill and multiplayer bits.
    flags: u16,
    /// Its special; 0 in Doom.
    action: u8,
    /// The special's arguments; 0 in Doom.
    args: [u8; 5],
}

record_of_both_games! {
    /// A line between two vertices.
    ///
    /// ```
    /// use meshpigeon::Linedef;
    ///
    /// let door = Linedef { hexen: true, start: 3, end: 2, special: 12, args: [0, 16, 150, 0, 0], left: 65_535, ..Linedef::default() };
    /// let mut lump = [0; Linedef::HEXEN_SIZE];
    /// door.write(&mut lump, 0).unwrap();
    /// assert_eq!(Linedef::read(&lump, 0, true), Ok(door));
    ///
    /// for lacking in [Linedef { tag: 1, ..door }, Linedef { special: 256, ..door }] {
    ///     assert_eq!(lacking.write(&mut lump, 0).unwrap_err().number, 61);
    /// }
    /// ```
    Linedef, "LINEDEFS", place 2, size 14, in Hexen 16, lacking "arguments in Doom, and for a tag or a special over 255 in Hexen",
    read_linedef, write_linedef;
    /// Whether it is Hexen's.
    hexen: bool,
    /// Its start vertex.
    start: u16,
    /// Its end vertex.
    end: u16,
    /// Flags; 0x0004 is two-sided.
    flags: u16,
    /// Its action; 0 to 255 in Hexen.
    special: u16,
    /// The tag of the sectors it acts on; 0 in Hexen.
    tag: u16,
    /// The special's arguments; 0 in Doom.
    args: [u8; 5],
    /// Its right sidedef.
    right: u16,
    /// Its left sidedef; 65,535 is none.
    left: u16,
}
