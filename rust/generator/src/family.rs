//! Any number of small cases, each from a seed and an index.

use crate::flip::{flipped_map_case, flipped_picture_case, random_file_case, random_lump_case};
use crate::order::{pair_case, single_case};
use crate::{damaged_picture_case, descent_case, directory_case, draw_case};
use crate::{
    differences_case, index_case, patch_case, picture_case, record_case, renumber_case, search_case, sidedefs_case, text_case,
    valid_case, why_case, written_case, Case, Rng,
};

/// How many families [`case`] goes through in turn.
pub const FAMILIES: u64 = 36;

/// Case `index` under `seed`: always the same one. The families take turns, so that any run of
/// a few thousand indices meets every damage and most pairs.
pub fn case(seed: u64, index: u64) -> Case {
    let mut rng = Rng::of_case(seed, index);
    let turn = rng.below(1 << 30);
    match index % FAMILIES {
        0 | 1 => valid_case(&mut rng),
        2 => single_case(seed, turn),
        3 | 4 => pair_case(seed, turn),
        5 | 6 => flipped_map_case(&mut rng),
        7 | 8 => directory_case(&mut rng),
        9 => random_file_case(&mut rng),
        10 => random_lump_case(&mut rng),
        11 => descent_case(&mut rng),
        12 => picture_case(&mut rng),
        13 => damaged_picture_case(&mut rng),
        14 => flipped_picture_case(&mut rng),
        15 => record_case(&mut rng),
        16 => search_case(&mut rng),
        17 => draw_case(&mut rng),
        18 => written_case(&mut rng),
        19 | 20 => sidedefs_case(&mut rng),
        23..=25 => why_case(&mut rng),
        26..=28 => renumber_case(&mut rng),
        29..=31 => differences_case(&mut rng),
        32 | 33 => index_case(&mut rng),
        34 | 35 => text_case(&mut rng),
        _ => patch_case(&mut rng),
    }
}

/// The cases from `first` on, without an end.
pub fn cases(seed: u64, first: u64) -> impl Iterator<Item = Case> {
    (first..).map(move |index| case(seed, index))
}
