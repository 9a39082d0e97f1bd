//! Both sides of every limit: the file, the directory and its entries.

use crate::game::game_limits;
use crate::limit_differences::differences_limits;
use crate::limit_draw::draw_limits;
use crate::limit_graph::graph_limits;
use crate::limit_index::index_limits;
use crate::limit_lump::lump_limits;
use crate::limit_map::map_limits;
use crate::limit_renumber::renumber_limits;
use crate::limit_run::run_limits;
use crate::limit_scraps::scraps_limits;
use crate::limit_text::text_limits;
use crate::limit_why::why_limits;
use crate::limit_why_blockmap::why_blockmap_limits;
use crate::limit_why_graph::why_graph_limits;
use crate::limit_written::written_limits;
use crate::name::name_limits;
use crate::patch::patch_limits;
use crate::record_case::record_limits;
use crate::search::search_limits;
use crate::{directory_of, map_case, Case, Expected, Plan, Question, MOST_BYTES};
use crate::{Content, EntryPlan, MapSpec, Rng, Sizes, MAP_NAME};
use reader::{Accepted, Refusal};

/// A case that is built when asked for, since some have 16 MiB.
pub type Build = Box<dyn Fn() -> Case>;

/// Both sides of every limit; each item builds its case when called.
pub fn limits() -> Vec<Build> {
    let mut all = file_limits();
    all.extend(header_limits());
    all.extend(entry_limits());
    all.extend(name_limits());
    all.extend(search_limits());
    all.extend(run_limits());
    all.extend(game_limits());
    all.extend(map_limits());
    all.extend(graph_limits());
    all.extend(lump_limits());
    all.extend(record_limits());
    all.extend(draw_limits());
    all.extend(patch_limits());
    all.extend(written_limits());
    all.extend(scraps_limits());
    all.extend(why_limits());
    all.extend(why_blockmap_limits());
    all.extend(why_graph_limits());
    all.extend(renumber_limits());
    all.extend(differences_limits());
    all.extend(index_limits());
    all.extend(text_limits());
    all
}

/// Nothing expected but the refusal with `number` and no parts, or acceptance for 0.
pub(crate) fn plainly(number: u32) -> Expected {
    match number {
        0 => Expected::Accepted,
        _ => Expected::Refused(Refusal::plain(number)),
    }
}

fn directory_case(label: &str, wad: Vec<u8>, expected: Expected) -> Case {
    Case::new(label, wad, Question::Directory, expected)
}

/// An empty directory in a file of `length` bytes.
fn empty_file(length: usize, count: i32, start: i32) -> Vec<u8> {
    let mut wad = [*b"PWAD", count.to_le_bytes(), start.to_le_bytes()].concat();
    wad.resize(length, 0);
    wad
}

fn file_limits() -> Vec<Build> {
    let mut all: Vec<Build> = Vec::new();
    for (length, number) in [(0, 1), (1, 1), (11, 1), (12, 0), (13, 0)] {
        all.push(Box::new(move || directory_case("file length", empty_file(length, 0, 12), plainly(number))));
    }
    for (length, number) in [(MOST_BYTES, 0), (MOST_BYTES + 1, 1)] {
        all.push(Box::new(move || {
            let map = MapSpec::plain(Sizes::LEAST, &mut Rng::new(7));
            let mut plan = Plan::new(map, MAP_NAME);
            plan.length = Some(length);
            let good = Expected::Map(Accepted { depth: 0, marker: 0 });
            map_case("file length", &plan, if number == 0 { good } else { plainly(1) })
        }));
    }
    all
}

fn header_limits() -> Vec<Build> {
    let mut all: Vec<Build> = Vec::new();
    for (count, number) in [(0, 0), (1, 0), (11, 0), (12, 0), (4096, 0), (4097, 3)] {
        all.push(Box::new(move || directory_case("count of entries", directory_of(count), plainly(number))));
    }
    let headers = [
        (0, 11, 4),
        (0, 12, 0),
        (0, 40, 0),
        (0, 41, 4),
        (0, -1, 4),
        (0, i32::MAX, 4),
        (-1, 12, 3),
        (4097, 12, 3),
        (4096, 12, 4),
        (1, 24, 6),
        (1, 25, 4),
        (1, 11, 4),
        (1, i32::MAX, 4),
        (1, i32::MAX - 15, 4),
        (i32::MIN, 12, 3),
        (i32::MAX, 12, 3),
        (0, i32::MIN, 4),
    ];
    for (count, start, number) in headers {
        all.push(Box::new(move || directory_case("header", empty_file(40, count, start), plainly(number))));
    }
    all
}

/// A file of 50 bytes with two entries, the second one with these fields.
fn two_entries(offset: i32, size: i32, name: [u8; 8]) -> Vec<u8> {
    let map = MapSpec::plain(Sizes::LEAST, &mut Rng::new(8));
    let mut plan = Plan::new(map, MAP_NAME);
    let mut second = EntryPlan::empty(name);
    (second.offset, second.size) = (Some(offset), Some(size));
    let first = EntryPlan::new(*b"A\0\0\0\0\0\0\0", Content::Bytes(vec![1; 6]));
    plan.entries = vec![first, second];
    plan.wad()
}

fn entry_limits() -> Vec<Build> {
    let most = i32::MAX;
    let fields = [
        (12, 38, 0),
        (12, 39, 5),
        (11, 1, 5),
        (11, 0, 0),
        (-1, 0, 0),
        (most, 0, 0),
        (49, 1, 0),
        (50, 0, 0),
        (50, 1, 5),
        (12, -1, 5),
        (-1, 2, 5),
        (most, 1, 5),
        (most, most, 5),
        (12, most, 5),
        (12, i32::MIN, 5),
        (i32::MIN, 1, 5),
        (i32::MIN, i32::MIN, 5),
        (51, -1, 5),
    ];
    let mut all: Vec<Build> = Vec::new();
    for (offset, size, number) in fields {
        all.push(Box::new(move || {
            let expected = match number {
                0 => Expected::Accepted,
                _ => Expected::Refused(Refusal::new(5, 0, 1)),
            };
            let wad = two_entries(offset, size, *b"B\0\0\0\0\0\0\0");
            Case::new("entry's fields", wad, Question::Entry { number: 1 }, expected)
        }));
    }
    for (number, refusal) in [(0, 0), (1, 0), (2, 7), (4096, 7), (usize::MAX, 7)] {
        all.push(Box::new(move || {
            let wad = two_entries(12, 1, *b"B\0\0\0\0\0\0\0");
            Case::new("entry's number", wad, Question::Entry { number }, plainly(refusal))
        }));
    }
    all
}
