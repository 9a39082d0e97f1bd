//! The kinds of map record that both games share, field by field as in document 004's tables. Things and linedefs are in `game`.

use crate::Refusal;
use std::ops::Range;

/// A field's form in the bytes of a record.
pub(crate) trait Field {
    /// How many bytes it has.
    const SIZE: usize;

    /// Reads the field from the first bytes.
    fn take(bytes: &[u8]) -> Self;
    /// Writes the field over the first bytes.
    fn put(&self, bytes: &mut [u8]);
}

impl Field for u16 {
    const SIZE: usize = 2;
    fn take(bytes: &[u8]) -> Self {
        Self::from_le_bytes([bytes[0], bytes[1]])
    }
    fn put(&self, bytes: &mut [u8]) {
        bytes[..2].copy_from_slice(&self.to_le_bytes());
    }
}

impl Field for i16 {
    const SIZE: usize = 2;
    fn take(bytes: &[u8]) -> Self {
        Self::from_le_bytes([bytes[0], bytes[1]])
    }
    fn put(&self, bytes: &mut [u8]) {
        bytes[..2].copy_from_slice(&self.to_le_bytes());
    }
}

impl Field for u8 {
    const SIZE: usize = 1;
    fn take(bytes: &[u8]) -> Self {
        bytes[0]
    }
    fn put(&self, bytes: &mut [u8]) {
        bytes[0] = *self;
    }
}

impl<const N: usize> Field for [u8; N] {
    const SIZE: usize = N;
    fn take(bytes: &[u8]) -> Self {
        std::array::from_fn(|at| bytes[at])
    }
    fn put(&self, bytes: &mut [u8]) {
        bytes[..N].copy_from_slice(self);
    }
}

impl Field for [i16; 4] {
    const SIZE: usize = 8;
    fn take(bytes: &[u8]) -> Self {
        std::array::from_fn(|side| i16::take(&bytes[2 * side..]))
    }
    fn put(&self, bytes: &mut [u8]) {
        for (side, value) in self.iter().enumerate() {
            value.put(&mut bytes[2 * side..]);
        }
    }
}

/// The bytes of record `index`, if they lie wholly inside `length` bytes; otherwise 60.
pub(crate) fn range_of(length: usize, size: usize, index: usize) -> Result<Range<usize>, Refusal> {
    let end = index.checked_add(1).and_then(|next| next.checked_mul(size));
    match end {
        Some(end) if end <= length => Ok(end - size..end),
        _ => Err(Refusal::plain(60)),
    }
}

macro_rules! record {
    ($(#[$about:meta])* $kind:ident, $lump:literal, place $place:literal, size $size:literal;
     $($at:literal $field:ident: $form:ty, $meaning:literal;)*) => {
        $(#[$about])*
        #[derive(Clone, Copy, Debug, Default, PartialEq, Eq)]
        pub struct $kind {
            $(#[doc = $meaning] pub $field: $form,)*
        }

        impl $kind {
            /// Bytes of one record.
            pub const SIZE: usize = $size;
            #[doc = concat!("The place of ", $lump, " in a map.")]
            pub const PLACE: usize = $place;

            #[doc = concat!("Reads record `index` of a ", $lump, " lump; 60 past its end.")]
            pub fn read(lump: &[u8], index: usize) -> Result<Self, Refusal> {
                Ok(Self::decode(&lump[range_of(lump.len(), Self::SIZE, index)?]))
            }

            #[doc = concat!("Writes record `index` of a ", $lump, " lump; 60 past its end.")]
            pub fn write(&self, lump: &mut [u8], index: usize) -> Result<(), Refusal> {
                let range = range_of(lump.len(), Self::SIZE, index)?;
                let bytes = &mut lump[range];
                $(self.$field.put(&mut bytes[$at..]);)*
                Ok(())
            }

            #[doc = concat!("All whole records of a ", $lump, " lump, in turn.")]
            pub fn all(lump: &[u8]) -> impl ExactSizeIterator<Item = Self> + '_ {
                lump.chunks_exact(Self::SIZE).map(Self::decode)
            }

            fn decode(bytes: &[u8]) -> Self {
                Self { $($field: Field::take(&bytes[$at..]),)* }
            }
        }
    };
}

record! {
    /// One side of a linedef.
    Sidedef, "SIDEDEFS", place 3, size 30;
    0 x_offset: i16, "Texture offset, eastward.";
    2 y_offset: i16, "Texture offset, downward.";
    4 upper: [u8; 8], "Upper texture's name, not judged.";
    12 lower: [u8; 8], "Lower texture's name, not judged.";
    20 middle: [u8; 8], "Middle texture's name, not judged.";
    28 sector: u16, "The sector it faces.";
}

record! {
    /// A corner.
    Vertex, "VERTEXES", place 4, size 4;
    0 x: i16, "Position, eastward.";
    2 y: i16, "Position, northward.";
}

record! {
    /// A part of a linedef on one of its sides.
    Seg, "SEGS", place 5, size 12;
    0 start: u16, "The vertex it starts from.";
    2 end: u16, "The vertex it ends at.";
    4 angle: u16, "Binary angle.";
    6 linedef: u16, "The linedef it is part of.";
    8 direction: u16, "0 as the linedef, 1 opposite to it.";
    10 offset: i16, "Distance along the linedef.";
}

record! {
    /// A run of segs around a convex area.
    Subsector, "SSECTORS", place 6, size 4;
    0 number: u16, "How many segs.";
    2 first: u16, "The first of them.";
}

record! {
    /// A partition of the plane with its two children.
    Node, "NODES", place 7, size 28;
    0 x: i16, "Start of the partition line.";
    2 y: i16, "Start of the partition line.";
    4 dx: i16, "Direction of the partition line.";
    6 dy: i16, "Direction of the partition line.";
    8 right_box: [i16; 4], "Top, bottom, left, right of the right child; not judged.";
    16 left_box: [i16; 4], "Top, bottom, left, right of the left child; not judged.";
    24 right: u16, "The right child.";
    26 left: u16, "The left child.";
}

record! {
    /// An area with a floor and a ceiling.
    Sector, "SECTORS", place 8, size 26;
    0 floor: i16, "Height of the floor.";
    2 ceiling: i16, "Height of the ceiling.";
    4 floor_flat: [u8; 8], "The floor's flat, not judged.";
    12 ceiling_flat: [u8; 8], "The ceiling's flat, not judged.";
    20 light: u16, "Light level.";
    22 special: u16, "Damage, blinking and the like.";
    24 tag: u16, "What linedefs name it by.";
}
