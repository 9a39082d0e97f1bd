//! A deterministic generator of WAD files, maps, pictures, records, descents, orders of nodes, pairs of maps, name indexes, text
//! maps and sidedefs in scraps, good and bad.
//!
//! Everything is built from named fields, with what is known of the answer beside it:
//!
//! - [`case`] gives any number of small cases, each from a seed and an index;
//! - [`single_case`] and [`pair_case`] go through [`damages`] and all pairs of them,
//!   [`all_picture_damages`] does so for pictures;
//! - [`why_case`] gives maps that are asked for their reason, and [`with_reason`] makes one of any map check's case;
//! - [`renumber_case`] gives maps whose nodes are to be numbered anew, and [`with_order`] makes one of any map check's case;
//! - [`differences_case`] gives two maps whose records are to be compared, and [`with_other`] makes one of any map check's case;
//! - [`index_case`] gives files with a name index to be built, checked or looked into, and [`with_index`] makes one of any file's case;
//! - [`text_case`] gives text maps, and a [`TextSpec`] can be written with other blanks, letters and unknown names;
//! - [`limits`] lists both sides of every limit, each case built when asked for;
//! - [`MapSpec`], [`Plan`], [`BlockmapSpec`], [`PictureSpec`] and [`Canvas`] build inputs by hand;
//! - [`ordinary_map`], [`hexen_map_of`], [`largest_map`], [`largest_hexen_map_of`], [`directory_of`],
//!   [`littered_directory_of`], [`search_to_the_first`], [`search_in_vain`], [`pair_of`], [`pair_in_vain`], [`chain`], [`balanced`],
//!   [`doublings`], [`shared_subsector`], [`hostile_blockmap`], [`hostile_picture`], [`staggered_picture_of`],
//!   [`busy_picture_of`], [`badly_ended_picture_of`], [`shared_runs`], [`picture`], [`pixels`], [`checkered`], [`halving_nodes`],
//!   [`mixed_nodes`], [`mixed_nodes_of`], [`little_map`], [`deep_chain`], [`double_nodes`], [`deep_doublings`], [`sidedefs_of`],
//!   [`bad_sidedef_of`], [`bad_seg_of`], [`bad_blockmap_of`], [`long_loop`], [`loop_behind_tree`], [`map_in_order`],
//!   [`chain_in_order`], [`twice`], [`with_changes`], [`with_last_changed`], [`names_at_random`], [`names_ascending`],
//!   [`names_descending`], [`names_alike`], [`with_its_index`], [`with_a_wrong_index`],
//!   [`ordinary_text`], [`text_of_assignments`], [`text_of_one_block`], [`text_of_blocks`], [`text_of_vertices`], [`text_of_comments`],
//!   [`text_of_one_string`], [`text_of_one_namespace`], [`text_of_one_word`] and [`text_of_one_number`] are the inputs of a benchmark;
//! - [`shrink`] makes a failing case smaller.
//!
//! ```
//! use generator::{case, Expected, Question};
//!
//! let case = case(1, 12);
//! assert_eq!(case.label, "good picture");
//! if let Question::PaintPicture { mut colour, mut cover } = case.question {
//!     assert!(reader::paint_picture(&case.bytes, &mut colour, &mut cover).is_ok());
//! }
//! assert_eq!(case.expected, Expected::Accepted);
//! ```
#![forbid(unsafe_code)]
#![deny(missing_docs)]

mod bench;
mod bench_differences;
mod bench_index;
mod bench_pictures;
mod bench_text;
mod blockmap;
mod case;
mod damage;
mod damage_graph;
mod damage_records;
mod descent;
mod differences;
mod draw;
mod edit;
mod family;
mod flip;
mod game;
mod graph;
mod index;
mod index_fault;
mod limit;
mod limit_differences;
mod limit_draw;
mod limit_graph;
mod limit_index;
mod limit_lump;
mod limit_map;
mod limit_renumber;
mod limit_run;
mod limit_scraps;
mod limit_text;
mod limit_why;
mod limit_why_blockmap;
mod limit_why_graph;
mod limit_written;
mod map;
mod name;
mod numbering;
mod order;
mod patch;
mod picture;
mod picture_damage;
mod plan;
mod record;
mod record_case;
mod renumber;
mod rng;
mod rooms;
mod sample;
mod scraps;
mod search;
mod shrink;
mod text;
mod text_fault;
mod text_value;
mod valid;
mod why;
mod why_blockmap;
mod why_fields;
mod written;

pub use bench::{
    bad_blockmap_of, bad_seg_of, bad_sidedef_of, balanced, chain, chain_in_order, checkered, child_at_the_end, deep_chain,
    deep_doublings, directory_of, double_nodes, doublings, halving_nodes, hexen_map_of, hostile_blockmap, hostile_blockmap_of,
    largest_hexen_map_of, largest_map, largest_map_of, littered_directory_of, little_map, long_loop, loop_behind_tree,
    map_in_order, map_of, mixed_nodes, mixed_nodes_of, order_and_file, ordinary_map, pair_of, picture, pixels, repeat_at_the_end,
    shared_subsector, sidedefs_of, twice_as_long, FACED, MOST_BYTES,
};
pub use bench_differences::{twice, with_changes, with_last_changed};
pub use bench_index::{
    names_alike, names_ascending, names_at_random, names_descending, wad_and_index, with_a_wrong_index, with_its_index,
};
pub use bench_pictures::{
    badly_ended_picture_of, busy_picture_of, hostile_picture, hostile_picture_of, shared_runs, staggered_picture_of,
};
pub use bench_text::{
    ordinary_text, text_of_assignments, text_of_blocks, text_of_comments, text_of_one_block, text_of_one_namespace,
    text_of_one_number, text_of_one_string, text_of_one_word, text_of_vertices,
};
pub use blockmap::{BlockmapSpec, Layout};
pub use case::{Case, Expected, Question};
pub use damage::{damages, Damage};
pub use descent::descent_case;
pub use differences::{differences_case, with_other};
pub use draw::draw_case;
pub use family::{case, cases, FAMILIES};
pub use flip::{flipped_map_case, flipped_picture_case, random_file_case, random_lump_case};
pub use graph::{Shape, Truth};
pub use index::{halvings, index_case, with_index};
pub use limit::{limits, Build};
pub use map::{MapSpec, Sizes};
pub use name::littered;
pub use numbering::{Numbering, OrderFault};
pub use order::{apply, damaged_case, directory_case, order_of, pair, pair_case, pair_count, single_case};
pub use patch::patch_case;
pub use picture::{picture_case, PictureSpec, Post};
pub use picture_damage::{all_picture_damages, damaged_picture_case, picture_damage_case, PictureDamage, PICTURE_DAMAGES};
pub use plan::{Content, EntryPlan, Plan, BEHAVIOR, LUMP_NAMES, MAP_NAME};
pub use record::{Encode, Kind, Record};
pub use record_case::record_case;
pub use renumber::{renumber_case, with_lump, with_order};
pub use rng::Rng;
pub use rooms::{hexen_rooms, rooms};
pub use sample::{samples, Sample};
pub use scraps::{facing, map_around, scraps, sidedefs_case};
pub use search::{halves, joined, named_entries, pair_in_vain, search_case, search_in_vain, search_to_the_first};
pub use shrink::shrink;
pub use text::{text_case, unknown_assignment, Blanks, Piece, TextSpec};
pub use text_value::{decimal, Form};
pub use valid::{any_plan, map_case, sound_plan, valid_case, verdict};
pub use why::{why_case, with_reason, Explained, Printed};
pub use written::{every_second, written_case, Canvas, Run};
