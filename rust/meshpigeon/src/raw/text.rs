//! The functions on text maps.

use super::{Bytes, Status};
use crate::text::{Kind, Lies, Linedef, Map, Quoted, Sector, Sidedef, Thing, Vertex};
use crate::Refusal;

/// The summary of a text.
#[repr(C)]
pub(super) struct TextAnswer {
    pub(super) status: Status,
    pub(super) namespace_start: usize,
    pub(super) namespace_end: usize,
    pub(super) vertices: usize,
    pub(super) linedefs: usize,
    pub(super) sidedefs: usize,
    pub(super) sectors: usize,
    pub(super) things: usize,
}

/// Where a block lies.
#[repr(C)]
pub(super) struct TextBlockAnswer {
    pub(super) status: Status,
    pub(super) kind: u32,
    pub(super) start: usize,
}

extern "C" {
    fn meshpigeon_text_map(text: Bytes, text_len: usize) -> TextAnswer;
    fn meshpigeon_text_block(text: Bytes, text_len: usize, place: usize) -> TextBlockAnswer;
}

pub(crate) fn map(text: &[u8]) -> Result<Map, Refusal> {
    let answer = unsafe { meshpigeon_text_map(text.as_ptr(), text.len()) };
    let TextAnswer { status, namespace_start, namespace_end, vertices, linedefs, sidedefs, sectors, things } = answer;
    status.check()?;
    let namespace = Quoted { start: namespace_start, end: namespace_end };
    Ok(Map { namespace, vertices, linedefs, sidedefs, sectors, things })
}

pub(crate) fn block(text: &[u8], place: usize) -> Result<Lies, Refusal> {
    let answer = unsafe { meshpigeon_text_block(text.as_ptr(), text.len(), place) };
    answer.status.check()?;
    let kind = Kind::ALL.get((answer.kind as usize).wrapping_sub(1)).copied();
    Ok(Lies { kind: kind.expect("a found block has a kind"), start: answer.start })
}

/// Each kind with its functions; a linedef from a place on is told the namespace.
macro_rules! kinds {
    ($($kind:ident $read:ident $read_at:ident $c_read:ident $c_read_at:ident $answer:ident $(by $namespace:ident)?;)*) => {$(
        #[repr(C)]
        pub(super) struct $answer {
            pub(super) status: Status,
            pub(super) record: $kind,
            pub(super) next: usize,
        }

        extern "C" {
            fn $c_read(text: Bytes, text_len: usize, number: usize) -> $answer;
            fn $c_read_at(text: Bytes, text_len: usize, place: usize $(, $namespace: usize, namespace_end: usize)?) -> $answer;
        }

        pub(crate) fn $read(text: &[u8], number: usize) -> Result<($kind, usize), Refusal> {
            let answer = unsafe { $c_read(text.as_ptr(), text.len(), number) };
            answer.status.check().map(|()| (answer.record, answer.next))
        }

        pub(crate) fn $read_at(text: &[u8], place: usize $(, $namespace: Quoted)?) -> Result<($kind, usize), Refusal> {
            let answer = unsafe { $c_read_at(text.as_ptr(), text.len(), place $(, $namespace.start, $namespace.end)?) };
            answer.status.check().map(|()| (answer.record, answer.next))
        }
    )*};
}

kinds! {
    Vertex vertex vertex_at meshpigeon_text_vertex meshpigeon_text_vertex_at TextVertexAnswer;
    Linedef linedef linedef_at meshpigeon_text_linedef meshpigeon_text_linedef_at TextLinedefAnswer by namespace;
    Sidedef sidedef sidedef_at meshpigeon_text_sidedef meshpigeon_text_sidedef_at TextSidedefAnswer;
    Sector sector sector_at meshpigeon_text_sector meshpigeon_text_sector_at TextSectorAnswer;
    Thing thing thing_at meshpigeon_text_thing meshpigeon_text_thing_at TextThingAnswer;
}
