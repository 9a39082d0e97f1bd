//! The kinds of map record that both games share. Things and linedefs are in `game`.

use crate::{raw, Refusal};

macro_rules! record {
    ($(#[$about:meta])* $kind:ident, $lump:literal, place $place:literal, size $size:literal, $read:ident, $write:ident;
     $($(#[$meaning:meta])* $field:ident: $form:ty,)*) => {
        $(#[$about])*
        #[repr(C)]
        #[derive(Clone, Copy, Debug, Default, PartialEq, Eq)]
        pub struct $kind {
            $($(#[$meaning])* pub $field: $form,)*
        }

        impl $kind {
            /// Bytes of one record.
            pub const SIZE: usize = $size;
            #[doc = concat!("The place of ", $lump, " in a map.")]
            pub const PLACE: usize = $place;

            #[doc = concat!("Record `index` of ", $lump, "; 60 where it is not wholly inside.")]
            #[inline]
            pub fn read(lump: &[u8], index: usize) -> Result<Self, Refusal> {
                raw::$read(lump, index)
            }

            #[doc = concat!("Replaces record `index` of ", $lump, "; 60, and nothing written, where it is not wholly inside.")]
            #[inline]
            pub fn write(self, lump: &mut [u8], index: usize) -> Result<(), Refusal> {
                raw::$write(lump, index, self)
            }
        }
    };
}

record! {
    /// What a side of a linedef shows.
    Sidedef, "SIDEDEFS", place 3, size 30, read_sidedef, write_sidedef;
    /// Texture offset, across.
    x_offset: i16,
    /// Texture offset, down.
    y_offset: i16,
    /// Upper texture name.
    upper: [u8; 8],
    /// Lower texture name.
    lower: [u8; 8],
    /// Middle texture name.
    middle: [u8; 8],
    /// Its sector.
    sector: u16,
}

record! {
    /// A point of the map.
    Vertex, "VERTEXES", place 4, size 4, read_vertex, write_vertex;
    /// Eastward.
    x: i16,
    /// Northward.
    y: i16,
}

record! {
    /// A piece of a linedef along a subsector.
    Seg, "SEGS", place 5, size 12, read_seg, write_seg;
    /// Its start vertex.
    start: u16,
    /// Its end vertex.
    end: u16,
    /// Its angle.
    angle: u16,
    /// Its linedef.
    linedef: u16,
    /// 0 along the linedef, 1 against it.
    direction: u16,
    /// Distance along the linedef.
    offset: i16,
}

record! {
    /// A convex region and its segs.
    Subsector, "SSECTORS", place 6, size 4, read_subsector, write_subsector;
    /// How many segs.
    number: u16,
    /// The first of them.
    first: u16,
}

record! {
    /// A node of the graph, with its line.
    Node, "NODES", place 7, size 28, read_node, write_node;
    /// Start of the line, eastward.
    x: i16,
    /// Start of the line, northward.
    y: i16,
    /// Direction of the line, eastward.
    dx: i16,
    /// Direction of the line, northward.
    dy: i16,
    /// Box of the right child: top, bottom, left, right.
    right_box: [i16; 4],
    /// Box of the left child.
    left_box: [i16; 4],
    /// Right child: 0x8000 and a subsector, or a node.
    right: u16,
    /// Left child.
    left: u16,
}

record! {
    /// A region of one height and light.
    Sector, "SECTORS", place 8, size 26, read_sector, write_sector;
    /// Height of the floor.
    floor: i16,
    /// Height of the ceiling.
    ceiling: i16,
    /// The floor's flat.
    floor_flat: [u8; 8],
    /// The ceiling's flat.
    ceiling_flat: [u8; 8],
    /// Light level.
    light: u16,
    /// Its effect.
    special: u16,
    /// Its tag.
    tag: u16,
}
