//! The library's functions as include/meshpigeon.h declares them. The only module with `unsafe`, with the one on text maps in it: each wrapper lends the library a
//! pointer and a length of a live slice, which is all that the library asks.

mod layout;
pub(crate) mod text;

use crate::game::{Linedef, Thing};
use crate::record::{Node, Sector, Seg, Sidedef, Subsector, Vertex};
use crate::{
    DifferenceFile, DifferenceRefusal, IndexRecord, IndexSearch, PairFile, PairRefusal, Picture, Refusal, Search, Sidedefs,
};

/// What every answer begins with; number 0 is accepted.
#[repr(C)]
#[derive(Clone, Copy)]
pub(crate) struct Status {
    number: u32,
    place: usize,
    record: usize,
}

impl Status {
    /// The refusal, or nothing.
    #[inline]
    pub(crate) fn check(self) -> Result<(), Refusal> {
        match self.number {
            0 => Ok(()),
            _ => Err(Refusal { number: self.number, place: self.place, record: self.record }),
        }
    }
}

/// The answers but for those that hold a record: a status, and what is answered where nothing is refused.
macro_rules! answers {
    ($($(#[$about:meta])* $answer:ident { $($field:ident: $form:ty),* })*) => {$(
        $(#[$about])*
        #[repr(C)]
        pub(crate) struct $answer {
            status: Status,
            $(pub(crate) $field: $form,)*
        }

        impl $answer {
            fn checked(self) -> Result<Self, Refusal> {
                self.status.check().map(|()| self)
            }
        }
    )*};
}

answers! {
    /// A file's directory.
    DirectoryAnswer { count: usize, start: usize }
    /// Where an entry's part of the file lies.
    EntryAnswer { offset: usize, size: usize }
    /// A map's marker, and how many names were compared.
    MarkerAnswer { marker: usize, compared: usize }
    /// A map's game.
    GameAnswer { hexen: bool }
    /// An accepted map.
    MapAnswer { depth: usize, marker: usize }
    /// A map with its reason: how long that is.
    ReasonAnswer { depth: usize, marker: usize, length: usize }
    /// Where a descent ends.
    DescentAnswer { subsector: usize, count: usize }
    /// How long a draw order is.
    OrderAnswer { count: usize }
    /// Where a lump of a pair lies.
    PairEntryAnswer { file: u32, offset: usize, size: usize }
    /// An accepted map of a pair.
    PairMapAnswer { file: u32, depth: usize, marker: usize }
    /// How many records of each lump differ.
    DifferencesAnswer { file: u32, counts: [usize; 8] }
    /// An entry by its name, and how many names of an index were compared.
    IndexAnswer { entry: usize, compared: usize }
    /// A picture's header.
    PictureAnswer { picture: Picture }
    /// How long a written lump is.
    LengthAnswer { length: usize }
}

type Bytes = *const u8;
type BytesMut = *mut u8;

extern "C" {
    fn meshpigeon_directory(wad: Bytes, wad_len: usize) -> DirectoryAnswer;
    fn meshpigeon_entry(wad: Bytes, wad_len: usize, number: usize) -> EntryAnswer;
    fn meshpigeon_find_map(wad: Bytes, wad_len: usize, name: Bytes, name_len: usize) -> MarkerAnswer;
    fn meshpigeon_map_game(wad: Bytes, wad_len: usize, marker: usize) -> GameAnswer;
    fn meshpigeon_judge_map(
        wad: Bytes,
        wad_len: usize,
        name: Bytes,
        name_len: usize,
        words: *mut u16,
        words_len: usize,
    ) -> MapAnswer;
    fn meshpigeon_why(
        wad: Bytes,
        wad_len: usize,
        name: Bytes,
        name_len: usize,
        words: *mut u16,
        words_len: usize,
        out: BytesMut,
        out_len: usize,
    ) -> ReasonAnswer;
    fn meshpigeon_descend(nodes: Bytes, nodes_len: usize, subsectors: usize, x: i16, y: i16) -> DescentAnswer;
    fn meshpigeon_draw_order(
        nodes: Bytes,
        nodes_len: usize,
        subsectors: usize,
        x: i16,
        y: i16,
        words: *mut u16,
        words_len: usize,
    ) -> OrderAnswer;
    fn meshpigeon_renumber(
        wad: Bytes,
        wad_len: usize,
        name: Bytes,
        name_len: usize,
        words: *mut u16,
        words_len: usize,
        order: *const u16,
        order_len: usize,
        out: BytesMut,
        out_len: usize,
    ) -> LengthAnswer;
    fn meshpigeon_sidedefs_start(sectors: usize) -> Sidedefs;
    fn meshpigeon_sidedefs_feed(state: Sidedefs, scrap: Bytes, scrap_len: usize) -> Sidedefs;
    fn meshpigeon_sidedefs_verdict(state: Sidedefs) -> Status;
    fn meshpigeon_pair_find(
        base: Bytes,
        base_len: usize,
        patch: Bytes,
        patch_len: usize,
        name: Bytes,
        name_len: usize,
    ) -> PairEntryAnswer;
    fn meshpigeon_pair_judge_map(
        base: Bytes,
        base_len: usize,
        patch: Bytes,
        patch_len: usize,
        name: Bytes,
        name_len: usize,
        words: *mut u16,
        words_len: usize,
    ) -> PairMapAnswer;
    fn meshpigeon_differences(
        old_wad: Bytes,
        old_wad_len: usize,
        old_name: Bytes,
        old_name_len: usize,
        new_wad: Bytes,
        new_wad_len: usize,
        new_name: Bytes,
        new_name_len: usize,
        words: *mut u16,
        words_len: usize,
        list: *mut u16,
        list_len: usize,
    ) -> DifferencesAnswer;
    fn meshpigeon_index_build(
        wad: Bytes,
        wad_len: usize,
        records: *mut IndexRecord,
        records_len: usize,
        out: BytesMut,
        out_len: usize,
    ) -> LengthAnswer;
    fn meshpigeon_index_check(wad: Bytes, wad_len: usize, index: Bytes, index_len: usize) -> Status;
    fn meshpigeon_index_find(
        wad: Bytes,
        wad_len: usize,
        index: Bytes,
        index_len: usize,
        name: Bytes,
        name_len: usize,
    ) -> IndexAnswer;
    fn meshpigeon_judge_picture(lump: Bytes, lump_len: usize) -> PictureAnswer;
    fn meshpigeon_paint_picture(
        lump: Bytes,
        lump_len: usize,
        colour: BytesMut,
        colour_len: usize,
        cover: BytesMut,
        cover_len: usize,
    ) -> PictureAnswer;
    fn meshpigeon_write_picture(
        picture: Picture,
        colour: Bytes,
        colour_len: usize,
        cover: Bytes,
        cover_len: usize,
        out: BytesMut,
        out_len: usize,
    ) -> LengthAnswer;
}

pub(crate) fn directory(wad: &[u8]) -> Result<DirectoryAnswer, Refusal> {
    unsafe { meshpigeon_directory(wad.as_ptr(), wad.len()) }.checked()
}

pub(crate) fn entry(wad: &[u8], number: usize) -> Result<EntryAnswer, Refusal> {
    unsafe { meshpigeon_entry(wad.as_ptr(), wad.len(), number) }.checked()
}

/// An answer that a refusal does not clear: `compared` stays.
pub(crate) fn find_map(wad: &[u8], name: &[u8]) -> Search {
    let answer = unsafe { meshpigeon_find_map(wad.as_ptr(), wad.len(), name.as_ptr(), name.len()) };
    let compared = answer.compared;
    Search { marker: answer.checked().map(|answer| answer.marker), compared }
}

pub(crate) fn map_game(wad: &[u8], marker: usize) -> Result<GameAnswer, Refusal> {
    unsafe { meshpigeon_map_game(wad.as_ptr(), wad.len(), marker) }.checked()
}

pub(crate) fn judge_map(wad: &[u8], name: &[u8], words: &mut [u16]) -> Result<MapAnswer, Refusal> {
    unsafe { meshpigeon_judge_map(wad.as_ptr(), wad.len(), name.as_ptr(), name.len(), words.as_mut_ptr(), words.len()) }.checked()
}

/// An answer that a refusal does not clear: `length` stays.
pub(crate) fn why(wad: &[u8], name: &[u8], words: &mut [u16], out: &mut [u8]) -> (Result<ReasonAnswer, Refusal>, usize) {
    let (wad_len, name_len, words_len, out_len) = (wad.len(), name.len(), words.len(), out.len());
    let (wad, name, words, out) = (wad.as_ptr(), name.as_ptr(), words.as_mut_ptr(), out.as_mut_ptr());
    let answer = unsafe { meshpigeon_why(wad, wad_len, name, name_len, words, words_len, out, out_len) };
    let length = answer.length;
    (answer.checked(), length)
}

pub(crate) fn descend(nodes: &[u8], subsectors: usize, x: i16, y: i16) -> Result<DescentAnswer, Refusal> {
    unsafe { meshpigeon_descend(nodes.as_ptr(), nodes.len(), subsectors, x, y) }.checked()
}

pub(crate) fn draw_order(nodes: &[u8], subsectors: usize, x: i16, y: i16, words: &mut [u16]) -> Result<OrderAnswer, Refusal> {
    unsafe { meshpigeon_draw_order(nodes.as_ptr(), nodes.len(), subsectors, x, y, words.as_mut_ptr(), words.len()) }.checked()
}

pub(crate) fn renumber(
    wad: &[u8],
    name: &[u8],
    words: &mut [u16],
    order: &[u16],
    out: &mut [u8],
) -> Result<LengthAnswer, Refusal> {
    let (wad_len, name_len, words_len) = (wad.len(), name.len(), words.len());
    let (order_len, out_len) = (order.len(), out.len());
    let (wad, name, words, order, out) = (wad.as_ptr(), name.as_ptr(), words.as_mut_ptr(), order.as_ptr(), out.as_mut_ptr());
    unsafe { meshpigeon_renumber(wad, wad_len, name, name_len, words, words_len, order, order_len, out, out_len) }.checked()
}

pub(crate) fn sidedefs_start(sectors: usize) -> Sidedefs {
    unsafe { meshpigeon_sidedefs_start(sectors) }
}

pub(crate) fn sidedefs_feed(state: Sidedefs, scrap: &[u8]) -> Sidedefs {
    unsafe { meshpigeon_sidedefs_feed(state, scrap.as_ptr(), scrap.len()) }
}

pub(crate) fn sidedefs_verdict(state: Sidedefs) -> Result<(), Refusal> {
    unsafe { meshpigeon_sidedefs_verdict(state) }.check()
}

/// The file that an answer on a pair notes.
fn file_of(number: u32) -> Option<PairFile> {
    match number {
        1 => Some(PairFile::Base),
        2 => Some(PairFile::Patch),
        _ => None,
    }
}

/// The file of an answer on a pair, which acceptance always notes, and a refusal but for 10 and 11.
fn noted<A>(file: u32, answer: Result<A, Refusal>) -> Result<(PairFile, A), PairRefusal> {
    match answer {
        Ok(answer) => Ok((file_of(file).expect("an accepted answer notes its file"), answer)),
        Err(refusal) => Err(PairRefusal { file: file_of(file), refusal }),
    }
}

pub(crate) fn pair_find(base: &[u8], patch: &[u8], name: &[u8]) -> Result<(PairFile, PairEntryAnswer), PairRefusal> {
    let answer =
        unsafe { meshpigeon_pair_find(base.as_ptr(), base.len(), patch.as_ptr(), patch.len(), name.as_ptr(), name.len()) };
    noted(answer.file, answer.checked())
}

pub(crate) fn pair_judge_map(
    base: &[u8],
    patch: &[u8],
    name: &[u8],
    words: &mut [u16],
) -> Result<(PairFile, PairMapAnswer), PairRefusal> {
    let (base_len, patch_len, name_len, words_len) = (base.len(), patch.len(), name.len(), words.len());
    let (base, patch, name, words) = (base.as_ptr(), patch.as_ptr(), name.as_ptr(), words.as_mut_ptr());
    let answer = unsafe { meshpigeon_pair_judge_map(base, base_len, patch, patch_len, name, name_len, words, words_len) };
    noted(answer.file, answer.checked())
}

pub(crate) fn differences(
    [old_wad, old_name]: [&[u8]; 2],
    [new_wad, new_name]: [&[u8]; 2],
    words: &mut [u16],
    list: &mut [u16],
) -> Result<DifferencesAnswer, DifferenceRefusal> {
    let (words_len, list_len) = (words.len(), list.len());
    let answer = unsafe {
        meshpigeon_differences(
            old_wad.as_ptr(),
            old_wad.len(),
            old_name.as_ptr(),
            old_name.len(),
            new_wad.as_ptr(),
            new_wad.len(),
            new_name.as_ptr(),
            new_name.len(),
            words.as_mut_ptr(),
            words_len,
            list.as_mut_ptr(),
            list_len,
        )
    };
    let file = match answer.file {
        1 => Some(DifferenceFile::Old),
        2 => Some(DifferenceFile::New),
        _ => None,
    };
    answer.checked().map_err(|refusal| DifferenceRefusal { file, refusal })
}

pub(crate) fn index_build(wad: &[u8], records: &mut [IndexRecord], out: &mut [u8]) -> Result<LengthAnswer, Refusal> {
    let (records_len, out_len) = (records.len(), out.len());
    unsafe { meshpigeon_index_build(wad.as_ptr(), wad.len(), records.as_mut_ptr(), records_len, out.as_mut_ptr(), out_len) }
        .checked()
}

pub(crate) fn index_check(wad: &[u8], index: &[u8]) -> Result<(), Refusal> {
    unsafe { meshpigeon_index_check(wad.as_ptr(), wad.len(), index.as_ptr(), index.len()) }.check()
}

/// An answer that a refusal does not clear: `compared` stays.
pub(crate) fn index_find(wad: &[u8], index: &[u8], name: &[u8]) -> IndexSearch {
    let answer =
        unsafe { meshpigeon_index_find(wad.as_ptr(), wad.len(), index.as_ptr(), index.len(), name.as_ptr(), name.len()) };
    let compared = answer.compared;
    IndexSearch { entry: answer.checked().map(|answer| answer.entry), compared }
}

pub(crate) fn judge_picture(lump: &[u8]) -> Result<PictureAnswer, Refusal> {
    unsafe { meshpigeon_judge_picture(lump.as_ptr(), lump.len()) }.checked()
}

pub(crate) fn paint_picture(lump: &[u8], colour: &mut [u8], cover: &mut [u8]) -> Result<PictureAnswer, Refusal> {
    let (colour_len, cover_len) = (colour.len(), cover.len());
    unsafe { meshpigeon_paint_picture(lump.as_ptr(), lump.len(), colour.as_mut_ptr(), colour_len, cover.as_mut_ptr(), cover_len) }
        .checked()
}

pub(crate) fn write_picture(picture: Picture, colour: &[u8], cover: &[u8], out: &mut [u8]) -> Result<LengthAnswer, Refusal> {
    let (colour_len, cover_len, out_len) = (colour.len(), cover.len(), out.len());
    let (colour, cover, out) = (colour.as_ptr(), cover.as_ptr(), out.as_mut_ptr());
    unsafe { meshpigeon_write_picture(picture, colour, colour_len, cover, cover_len, out, out_len) }.checked()
}

/// Each kind with its functions; a read of the two that games have in forms of their own is told the game. They are inlined, so that a
/// record is copied once on its way: a copy that is read back at once in other pieces than it was written in takes as long as a dozen.
macro_rules! kinds {
    ($($kind:ident $read:ident $write:ident $c_read:ident $c_write:ident $answer:ident $(of $hexen:ident)?;)*) => {$(
        #[repr(C)]
        struct $answer {
            status: Status,
            record: $kind,
        }

        extern "C" {
            fn $c_read(lump: Bytes, lump_len: usize, index: usize $(, $hexen: bool)?) -> $answer;
            fn $c_write(lump: BytesMut, lump_len: usize, index: usize, record: $kind) -> Status;
        }

        #[inline]
        pub(crate) fn $read(lump: &[u8], index: usize $(, $hexen: bool)?) -> Result<$kind, Refusal> {
            let answer = unsafe { $c_read(lump.as_ptr(), lump.len(), index $(, $hexen)?) };
            answer.status.check().map(|()| answer.record)
        }

        #[inline]
        pub(crate) fn $write(lump: &mut [u8], index: usize, record: $kind) -> Result<(), Refusal> {
            unsafe { $c_write(lump.as_mut_ptr(), lump.len(), index, record) }.check()
        }
    )*};
}

kinds! {
    Thing read_thing write_thing meshpigeon_read_thing meshpigeon_write_thing ThingAnswer of hexen;
    Linedef read_linedef write_linedef meshpigeon_read_linedef meshpigeon_write_linedef LinedefAnswer of hexen;
    Sidedef read_sidedef write_sidedef meshpigeon_read_sidedef meshpigeon_write_sidedef SidedefAnswer;
    Vertex read_vertex write_vertex meshpigeon_read_vertex meshpigeon_write_vertex VertexAnswer;
    Seg read_seg write_seg meshpigeon_read_seg meshpigeon_write_seg SegAnswer;
    Subsector read_subsector write_subsector meshpigeon_read_subsector meshpigeon_write_subsector SubsectorAnswer;
    Node read_node write_node meshpigeon_read_node meshpigeon_write_node NodeAnswer;
    Sector read_sector write_sector meshpigeon_read_sector meshpigeon_write_sector SectorAnswer;
}
