//! Sizes and offsets of every struct that crosses the border, in bytes. tests/c/header.c asserts the same numbers of the C header,
//! and sees that the library answers by them.

use super::*;
use crate::{IndexRecord, Picture, Sidedefs};
use core::mem::{offset_of, size_of};

/// Holds each struct to its size and each of its fields to its offset. A field that is left out does not compile.
macro_rules! layout {
    ($($form:ident $size:literal { $($field:ident $offset:literal),* })*) => {$(
        const _: () = {
            assert!(size_of::<$form>() == $size);
            $(assert!(offset_of!($form, $field) == $offset);)*
            const fn _no_other_field(form: &$form) {
                let $form { $($field: _),* } = form;
            }
        };
    )*};
}

layout! {
    Status 24 { number 0, place 8, record 16 }
    DirectoryAnswer 40 { status 0, count 24, start 32 }
    EntryAnswer 40 { status 0, offset 24, size 32 }
    MarkerAnswer 40 { status 0, marker 24, compared 32 }
    GameAnswer 32 { status 0, hexen 24 }
    MapAnswer 40 { status 0, depth 24, marker 32 }
    ReasonAnswer 48 { status 0, depth 24, marker 32, length 40 }
    DescentAnswer 40 { status 0, subsector 24, count 32 }
    OrderAnswer 32 { status 0, count 24 }
    Sidedefs 32 { sectors 0, bytes 8, bad 16, low 24, found 25 }
    PairEntryAnswer 48 { status 0, file 24, offset 32, size 40 }
    PairMapAnswer 48 { status 0, file 24, depth 32, marker 40 }
    DifferencesAnswer 96 { status 0, file 24, counts 32 }
    IndexRecord 10 { name 0, number 8 }
    IndexAnswer 40 { status 0, entry 24, compared 32 }
    Picture 24 { width 0, height 8, left 16, top 18 }
    PictureAnswer 48 { status 0, picture 24 }
    LengthAnswer 32 { status 0, length 24 }
}

layout! {
    Thing 22 { hexen 0, id 2, x 4, y 6, height 8, angle 10, kind 12, flags 14, action 16, args 17 }
    Linedef 22 { hexen 0, start 2, end 4, flags 6, special 8, tag 10, args 12, right 18, left 20 }
    Sidedef 30 { x_offset 0, y_offset 2, upper 4, lower 12, middle 20, sector 28 }
    Vertex 4 { x 0, y 2 }
    Seg 12 { start 0, end 2, angle 4, linedef 6, direction 8, offset 10 }
    Subsector 4 { number 0, first 2 }
    Node 28 { x 0, y 2, dx 4, dy 6, right_box 8, left_box 16, right 24, left 26 }
    Sector 26 { floor 0, ceiling 2, floor_flat 4, ceiling_flat 12, light 20, special 22, tag 24 }
}

layout! {
    ThingAnswer 48 { status 0, record 24 }
    LinedefAnswer 48 { status 0, record 24 }
    SidedefAnswer 56 { status 0, record 24 }
    VertexAnswer 32 { status 0, record 24 }
    SegAnswer 40 { status 0, record 24 }
    SubsectorAnswer 32 { status 0, record 24 }
    NodeAnswer 56 { status 0, record 24 }
    SectorAnswer 56 { status 0, record 24 }
}

/// The blocks of a text map, whose records have other types by the names of a map's.
mod texts {
    use super::super::text::*;
    use super::{offset_of, size_of};
    use crate::text::{Linedef, Quoted, Sector, Sidedef, Thing, Vertex};

    layout! {
        TextAnswer 80 {
            status 0, namespace_start 24, namespace_end 32, vertices 40, linedefs 48, sidedefs 56, sectors 64, things 72
        }
        TextBlockAnswer 40 { status 0, kind 24, start 32 }
        Quoted 16 { start 0, end 8 }
        Vertex 16 { x 0, y 8 }
        Linedef 88 {
            id 0, v1 4, v2 8, blocking 12, blockmonsters 13, twosided 14, dontpegtop 15, dontpegbottom 16, secret 17,
            blocksound 18, dontdraw 19, mapped 20, passuse 21, translucent 22, jumpover 23, blockfloaters 24,
            playercross 25, playeruse 26, monstercross 27, monsteruse 28, impact 29, playerpush 30, monsterpush 31,
            missilecross 32, repeatspecial 33, special 36, arg0 40, arg1 44, arg2 48, arg3 52, arg4 56, sidefront 60,
            sideback 64, comment 72
        }
        Sidedef 80 { offsetx 0, offsety 4, texturetop 8, texturebottom 24, texturemiddle 40, sector 56, comment 64 }
        Sector 72 {
            heightfloor 0, heightceiling 4, texturefloor 8, textureceiling 24, lightlevel 40, special 44, id 48, comment 56
        }
        Thing 104 {
            id 0, x 8, y 16, height 24, angle 32, r#type 36, skill1 40, skill2 41, skill3 42, skill4 43, skill5 44,
            ambush 45, single 46, dm 47, coop 48, friendly 49, dormant 50, class1 51, class2 52, class3 53, standing 54,
            strifeally 55, translucent 56, invisible 57, special 60, arg0 64, arg1 68, arg2 72, arg3 76, arg4 80, comment 88
        }
        TextVertexAnswer 48 { status 0, record 24, next 40 }
        TextLinedefAnswer 120 { status 0, record 24, next 112 }
        TextSidedefAnswer 112 { status 0, record 24, next 104 }
        TextSectorAnswer 104 { status 0, record 24, next 96 }
        TextThingAnswer 136 { status 0, record 24, next 128 }
    }
}
