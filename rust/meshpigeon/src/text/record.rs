//! The five kinds of block, with the fields of document 002 in its order and by its names.

use super::Quoted;
use crate::{raw, Refusal};

/// A vertex block.
#[repr(C)]
#[derive(Clone, Copy, Debug, Default, PartialEq)]
pub struct Vertex {
    /// Eastward.
    pub x: f64,
    /// Northward.
    pub y: f64,
}

/// A linedef block.
#[repr(C)]
#[derive(Clone, Copy, Debug, Default, PartialEq)]
pub struct Linedef {
    /// Its id, used as a tag or by scripts; without one -1, or 0 in the namespaces Doom, Heretic and Strife.
    pub id: i32,
    /// The first vertex.
    pub v1: i32,
    /// The second vertex.
    pub v2: i32,
    /// It blocks things.
    pub blocking: bool,
    /// It blocks monsters.
    pub blockmonsters: bool,
    /// It is two-sided.
    pub twosided: bool,
    /// Its upper texture is unpegged.
    pub dontpegtop: bool,
    /// Its lower texture is unpegged.
    pub dontpegbottom: bool,
    /// The automap shows it one-sided.
    pub secret: bool,
    /// It blocks sound.
    pub blocksound: bool,
    /// The automap never shows it.
    pub dontdraw: bool,
    /// The automap always shows it.
    pub mapped: bool,
    /// It passes a use on.
    pub passuse: bool,
    /// Strife: it is translucent.
    pub translucent: bool,
    /// Strife: it is a railing.
    pub jumpover: bool,
    /// Strife: it blocks floaters.
    pub blockfloaters: bool,
    /// A player who crosses it sets it off.
    pub playercross: bool,
    /// A player who uses it sets it off.
    pub playeruse: bool,
    /// A monster that crosses it sets it off.
    pub monstercross: bool,
    /// A monster that uses it sets it off.
    pub monsteruse: bool,
    /// A projectile that hits it sets it off.
    pub impact: bool,
    /// A player who pushes it sets it off.
    pub playerpush: bool,
    /// A monster that pushes it sets it off.
    pub monsterpush: bool,
    /// A projectile that crosses it sets it off.
    pub missilecross: bool,
    /// It can be set off again.
    pub repeatspecial: bool,
    /// The special.
    pub special: i32,
    /// The special's first argument.
    pub arg0: i32,
    /// The second.
    pub arg1: i32,
    /// The third.
    pub arg2: i32,
    /// The fourth.
    pub arg3: i32,
    /// The fifth.
    pub arg4: i32,
    /// The right sidedef.
    pub sidefront: i32,
    /// The left sidedef; without one -1.
    pub sideback: i32,
    /// A comment.
    pub comment: Quoted,
}

/// A sidedef block.
#[repr(C)]
#[derive(Clone, Copy, Debug, Default, PartialEq)]
pub struct Sidedef {
    /// The offset to the right.
    pub offsetx: i32,
    /// The offset downward.
    pub offsety: i32,
    /// The upper texture; without one `-`.
    pub texturetop: Quoted,
    /// The lower texture; without one `-`.
    pub texturebottom: Quoted,
    /// The middle texture; without one `-`.
    pub texturemiddle: Quoted,
    /// The sector.
    pub sector: i32,
    /// A comment.
    pub comment: Quoted,
}

/// A sector block.
#[repr(C)]
#[derive(Clone, Copy, Debug, Default, PartialEq)]
pub struct Sector {
    /// The floor's height.
    pub heightfloor: i32,
    /// The ceiling's height.
    pub heightceiling: i32,
    /// The floor's flat.
    pub texturefloor: Quoted,
    /// The ceiling's flat.
    pub textureceiling: Quoted,
    /// The light; without one 160.
    pub lightlevel: i32,
    /// The special.
    pub special: i32,
    /// Its tag.
    pub id: i32,
    /// A comment.
    pub comment: Quoted,
}

/// A thing block.
#[repr(C)]
#[derive(Clone, Copy, Debug, Default, PartialEq)]
pub struct Thing {
    /// Its id.
    pub id: i32,
    /// Eastward.
    pub x: f64,
    /// Northward.
    pub y: f64,
    /// Above the floor, or below the ceiling for what hangs there.
    pub height: f64,
    /// The angle in degrees; 0 is east.
    pub angle: i32,
    /// The kind's number.
    pub r#type: i32,
    /// In skill 1.
    pub skill1: bool,
    /// In skill 2.
    pub skill2: bool,
    /// In skill 3.
    pub skill3: bool,
    /// In skill 4.
    pub skill4: bool,
    /// In skill 5.
    pub skill5: bool,
    /// It is deaf.
    pub ambush: bool,
    /// In single player.
    pub single: bool,
    /// In deathmatch.
    pub dm: bool,
    /// In cooperative play.
    pub coop: bool,
    /// The word `friend`: a friend of the player.
    pub friendly: bool,
    /// Hexen: it is dormant.
    pub dormant: bool,
    /// Hexen: for player class 1.
    pub class1: bool,
    /// Hexen: for player class 2.
    pub class2: bool,
    /// Hexen: for player class 3.
    pub class3: bool,
    /// Strife: it stands still.
    pub standing: bool,
    /// Strife: an ally.
    pub strifeally: bool,
    /// Strife: it is translucent.
    pub translucent: bool,
    /// Strife: it is invisible.
    pub invisible: bool,
    /// The special.
    pub special: i32,
    /// The special's first argument.
    pub arg0: i32,
    /// The second.
    pub arg1: i32,
    /// The third.
    pub arg2: i32,
    /// The fourth.
    pub arg3: i32,
    /// The fifth.
    pub arg4: i32,
    /// A comment.
    pub comment: Quoted,
}

/// The reads of a kind, by number and from a place on.
macro_rules! reads {
    ($($record:ident $read:ident $read_at:ident $(by $namespace:ident)?;)*) => {$(
        impl $record {
            /// The block of this kind with that number, and the place behind it: 90 to 93 of the whole text, then 94.
            pub fn read(text: &[u8], number: usize) -> Result<(Self, usize), Refusal> {
                raw::text::$read(text, number)
            }

            /// The first block of this kind among the statements from a place on, as if the text began there, and the place behind it: 90 to 93 of
            /// what is read up to its end, 94 where there is none.
            $(#[doc = concat!("\n\nA linedef that gives no id has the id 0 where the `", stringify!($namespace), "` is Doom, Heretic or Strife, else -1.")])?
            pub fn read_at(text: &[u8], place: usize $(, $namespace: Quoted)?) -> Result<(Self, usize), Refusal> {
                raw::text::$read_at(text, place $(, $namespace)?)
            }
        }
    )*};
}

reads! {
    Vertex vertex vertex_at;
    Linedef linedef linedef_at by namespace;
    Sidedef sidedef sidedef_at;
    Sector sector sector_at;
    Thing thing thing_at;
}
