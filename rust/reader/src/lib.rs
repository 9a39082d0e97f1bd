//! An independent reader of Doom map files.
//!
//! Written from paper 01 ("Specification of the build and its rules"), the requests of paper 02, and
//! documents 002 (text maps) and 004 (field layouts) alone, in plain safe Rust, to be held against the proved library. Every
//! function answers the papers' refusal number, place and record. Where the papers leave a point open,
//! docs/DECISIONS.md decides.
//!
//! It allocates freely and favours the obvious way over the fast one, but no input costs more
//! than a small multiple of its bytes, pictures with shared empty posts excepted.
//!
//! ```
//! let wad = [*b"PWAD", [0; 4], [12, 0, 0, 0]].concat();
//! assert_eq!(reader::directory(&wad).unwrap().count, 0);
//! assert_eq!(reader::find_map(&wad, b"MAP01\0\0\0").marker.unwrap_err().number, 11);
//! ```
#![forbid(unsafe_code)]
#![deny(missing_docs)]

mod blockmap;
mod bytes;
mod descent;
mod differences;
mod game;
mod graph;
mod index;
mod map;
mod order;
mod pair;
mod picture;
mod record;
mod reference;
mod refusal;
mod renumber;
mod sidedefs;
mod text;
mod text_record;
mod text_token;
mod text_value;
mod wad;
mod why;
mod why_blockmap;
mod why_graph;

pub use descent::{descend, Found};
pub use differences::{differences, DifferenceFile, DifferenceRefusal};
pub use game::{Linedef, Thing};
pub use index::{index_build, index_check, index_find, IndexRecord, IndexSearch};
pub use map::{judge_map, map_game, reject_size, Accepted};
pub use order::draw_order;
pub use pair::{pair_find, pair_judge_map, pair_lump, PairEntry, PairFile, PairMap, PairRefusal};
pub use picture::{judge_picture, paint_picture, write_picture, Picture};
pub use record::{Node, Sector, Seg, Sidedef, Subsector, Vertex};
pub use refusal::Refusal;
pub use renumber::renumber;
pub use sidedefs::{judge_sidedefs, Sidedefs};
pub use text::{text_block, text_linedef, text_linedef_at, text_map, text_sector, text_sector_at, text_sidedef, text_sidedef_at};
pub use text::{text_thing, text_thing_at, text_vertex, text_vertex_at, TextBlock, TextMap};
pub use text_record::{TextLinedef, TextSector, TextSidedef, TextThing, TextVertex};
pub use text_token::Quoted;
pub use wad::{directory, entry, find_map, is_map_name, is_name, lump, name_of, Directory, Search};
pub use why::why;

/// The sidedef number that means none.
pub const NO_SIDEDEF: u16 = 65_535;

/// The bit of a child word that marks a subsector.
pub const SUBSECTOR_BIT: u16 = 0x8000;

/// The flag of a linedef that needs a left side.
pub const TWO_SIDED: u16 = 0x0004;
