//! Library and reader side by side on the same inputs, in one run: `cargo run --release -p compare --bin bench`.
//!
//! Prints a table in Markdown and writes a plot (SVG) to the file that is named as the only argument.
//! With MESHPIGEON_ROWS, only the rows whose names have that text.
//! A time is the best of several runs; a ratio below 1 says that the library is the faster.

use std::fmt::Write as _;
use std::hint::black_box;
use std::time::{Duration, Instant};

use generator as given;

/// One input with both sides' way to judge it.
struct Input {
    name: &'static str,
    /// The input at a size of 1, 2 or 4 quarters of the whole, for the growth.
    sized: fn(usize) -> Vec<u8>,
    library: fn(&[u8]) -> usize,
    reader: fn(&[u8]) -> usize,
}

/// What was measured of an input.
struct Row {
    name: &'static str,
    bytes: usize,
    library: Duration,
    reader: Duration,
    sum: Duration,
    growth: [f64; 2],
}

fn library_map(wad: &[u8]) -> usize {
    let mut words = vec![0; meshpigeon::MOST_WORDS];
    meshpigeon::judge_map_with(wad, &given::MAP_NAME, &mut words).expect("a good map").depth
}

fn reader_map(wad: &[u8]) -> usize {
    let mut words = vec![0; meshpigeon::MOST_WORDS];
    reader::judge_map(wad, &given::MAP_NAME, &mut words).expect("a good map").depth
}

/// A small map so many times, over words that are lent once.
const TIMES: usize = 1_000;

fn library_little(wad: &[u8]) -> usize {
    let mut words = [0; 64];
    (0..TIMES).map(|_| meshpigeon::judge_map_with(black_box(wad), &given::MAP_NAME, &mut words).expect("a good map").depth).sum()
}

fn reader_little(wad: &[u8]) -> usize {
    let mut words = [0; 64];
    (0..TIMES).map(|_| reader::judge_map(black_box(wad), &given::MAP_NAME, &mut words).expect("a good map").depth).sum()
}

/// The refusal of a map with a shared child.
fn library_shared(wad: &[u8]) -> usize {
    let mut words = vec![0; meshpigeon::MOST_WORDS];
    meshpigeon::judge_map_with(wad, &given::MAP_NAME, &mut words).expect_err("a shared child").number as usize
}

fn reader_shared(wad: &[u8]) -> usize {
    let mut words = vec![0; meshpigeon::MOST_WORDS];
    reader::judge_map(wad, &given::MAP_NAME, &mut words).expect_err("a shared child").number as usize
}

fn library_directory(wad: &[u8]) -> usize {
    meshpigeon::directory(wad).expect("a good directory").count
}

fn reader_directory(wad: &[u8]) -> usize {
    reader::directory(wad).expect("a good directory").count
}

/// How many names a search compared.
fn library_search(wad: &[u8]) -> usize {
    meshpigeon::find_map(wad, &given::MAP_NAME).compared
}

fn reader_search(wad: &[u8]) -> usize {
    reader::find_map(wad, &given::MAP_NAME).compared
}

/// The depth of a patch's map.
fn library_pair(joined: &[u8]) -> usize {
    let (base, patch) = given::halves(joined);
    let mut words = vec![0; meshpigeon::MOST_WORDS];
    meshpigeon::pair_judge_map_with(base, patch, &given::MAP_NAME, &mut words).expect("a good map").map.depth
}

fn reader_pair(joined: &[u8]) -> usize {
    let (base, patch) = given::halves(joined);
    let mut words = vec![0; meshpigeon::MOST_WORDS];
    reader::pair_judge_map(base, patch, &given::MAP_NAME, &mut words).expect("a good map").map.depth
}

/// The refusal of a lump that neither file has.
fn library_pair_in_vain(joined: &[u8]) -> usize {
    let (base, patch) = given::halves(joined);
    meshpigeon::pair_find(base, patch, &given::MAP_NAME).expect_err("no such lump").refusal.number as usize
}

fn reader_pair_in_vain(joined: &[u8]) -> usize {
    let (base, patch) = given::halves(joined);
    reader::pair_find(base, patch, &given::MAP_NAME).expect_err("no such lump").refusal.number as usize
}

fn library_picture(lump: &[u8]) -> usize {
    let (mut colour, mut cover) = (vec![0; 64_000], vec![0; 64_000]);
    meshpigeon::paint_picture(lump, &mut colour, &mut cover).expect("a good picture").width
}

fn reader_picture(lump: &[u8]) -> usize {
    let (mut colour, mut cover) = (vec![0; 64_000], vec![0; 64_000]);
    reader::paint_picture(lump, &mut colour, &mut cover).expect("a good picture").width
}

/// The refusal of a picture with a bad column.
fn library_bad_picture(lump: &[u8]) -> usize {
    let (mut colour, mut cover) = (vec![0; 64_000], vec![0; 64_000]);
    meshpigeon::paint_picture(lump, &mut colour, &mut cover).expect_err("a bad column").number as usize
}

fn reader_bad_picture(lump: &[u8]) -> usize {
    let (mut colour, mut cover) = (vec![0; 64_000], vec![0; 64_000]);
    reader::paint_picture(lump, &mut colour, &mut cover).expect_err("a bad column").number as usize
}

/// The picture of these pixels, so many across, and an output that is long enough. Half of the bytes are colours, half the cover.
fn canvas<const WIDTH: usize>(pixels: &[u8]) -> (reader::Picture, &[u8], &[u8], Vec<u8>) {
    let (colour, cover) = given::halves(pixels);
    let picture = reader::Picture { width: WIDTH, height: colour.len() / WIDTH, left: 1, top: 2 };
    (picture, colour, cover, vec![0; 8 + WIDTH * (4 + 2 + 5 * picture.height / 2)])
}

/// The length of a written lump.
fn library_written<const WIDTH: usize>(pixels: &[u8]) -> usize {
    let (reader::Picture { width, height, left, top }, colour, cover, mut out) = canvas::<WIDTH>(pixels);
    let picture = meshpigeon::Picture { width, height, left, top };
    meshpigeon::write_picture_with(picture, colour, cover, &mut out).expect("a good picture")
}

fn reader_written<const WIDTH: usize>(pixels: &[u8]) -> usize {
    let (picture, colour, cover, mut out) = canvas::<WIDTH>(pixels);
    reader::write_picture(picture, colour, cover, &mut out).expect("a good picture")
}

/// The points of the million descents.
fn points() -> impl Iterator<Item = (i16, i16)> {
    (0..1_000_000_u32).map(|n| ((n.wrapping_mul(40_503) >> 8) as i16, (n.wrapping_mul(2_654_435_761) >> 16) as i16))
}

fn library_descents(nodes: &[u8]) -> usize {
    points().map(|(x, y)| meshpigeon::descend(nodes, 32_767, x, y).map_or(0, |it| it.count)).sum()
}

fn reader_descents(nodes: &[u8]) -> usize {
    points().map(|(x, y)| reader::descend(nodes, 32_767, x, y).map_or(0, |it| it.count)).sum()
}

/// One point so many times: a processor can foretell every choice.
fn library_descent(nodes: &[u8]) -> usize {
    (0..TIMES).map(|_| meshpigeon::descend(black_box(nodes), 32_767, 77, -77).map_or(0, |it| it.count)).sum()
}

fn reader_descent(nodes: &[u8]) -> usize {
    (0..TIMES).map(|_| reader::descend(black_box(nodes), 32_767, 77, -77).map_or(0, |it| it.count)).sum()
}

/// How often each record of a lump is written into another.
const COPIES: usize = 100;

/// Both sides' ways to write the records of a lump, [`COPIES`] times each: how many writes there were.
macro_rules! written {
    ($kind:ident, $library:ident, $reader:ident) => {
        written! { meshpigeon::$kind, $library }
        written! { reader::$kind, $reader }
    };
    ($kind:path, $side:ident) => {
        fn $side(lump: &[u8]) -> usize {
            use $kind as Kind;
            let records: Vec<Kind> =
                (0..lump.len() / Kind::SIZE).map(|at| Kind::read(lump, at).expect("a record inside")).collect();
            let mut out = vec![0; lump.len()];
            let mut pass = || records.iter().enumerate().filter(|(at, it)| it.write(black_box(&mut out), *at).is_ok()).count();
            (0..COPIES).map(|_| pass()).sum()
        }
    };
}

written! { Sidedef, library_sidedefs_written, reader_sidedefs_written }
written! { Node, library_nodes_written, reader_nodes_written }

/// How many subsectors are drawn, or the refusal's number.
fn library_order(nodes: &[u8]) -> usize {
    let mut words = vec![0; meshpigeon::MOST_DRAWN];
    meshpigeon::draw_order_with(nodes, 32_767, 1, 0, &mut words).unwrap_or_else(|refusal| refusal.number as usize)
}

fn reader_order(nodes: &[u8]) -> usize {
    let mut words = vec![0; meshpigeon::MOST_DRAWN];
    reader::draw_order(nodes, 32_767, 1, 0, &mut words).unwrap_or_else(|refusal| refusal.number as usize)
}

/// How many sidedefs are told of: those of a good lump, or the refusal's number.
fn told(verdict: Result<(), u32>, lump: &[u8]) -> usize {
    verdict.map_or_else(|number| number as usize, |()| lump.len() / 30)
}

/// SIDEDEFS in scraps of this length.
fn library_scraps<const LENGTH: usize>(lump: &[u8]) -> usize {
    let mut sidedefs = meshpigeon::Sidedefs::start(given::FACED);
    lump.chunks(LENGTH).for_each(|scrap| sidedefs.feed(scrap));
    told(sidedefs.verdict().map_err(|it| it.number), lump)
}

fn reader_scraps<const LENGTH: usize>(lump: &[u8]) -> usize {
    let mut sidedefs = reader::Sidedefs::start(given::FACED);
    lump.chunks(LENGTH).for_each(|scrap| sidedefs.feed(scrap));
    told(sidedefs.verdict().map_err(|it| it.number), lump)
}

/// How much is printed of a map's reason.
fn library_why(wad: &[u8]) -> usize {
    let (mut words, mut out) = (vec![0; meshpigeon::MOST_WORDS], vec![0; meshpigeon::MOST_REASON]);
    meshpigeon::why_with(wad, &given::MAP_NAME, &mut words, &mut out).1
}

fn reader_why(wad: &[u8]) -> usize {
    let (mut words, mut out) = (vec![0; meshpigeon::MOST_WORDS], vec![0; meshpigeon::MOST_REASON]);
    reader::why(wad, &given::MAP_NAME, &mut words, &mut out).1
}

/// The length of a map's new NODES, or the refusal's number.
fn library_renumbered(input: &[u8]) -> usize {
    let (order, wad) = given::order_and_file(input);
    let (mut words, mut out) = (vec![0; meshpigeon::MOST_WORDS], vec![0; meshpigeon::MOST_RENUMBERED]);
    let length = meshpigeon::renumber_with(wad, &given::MAP_NAME, &mut words, &order, &mut out);
    length.unwrap_or_else(|refusal| refusal.number as usize)
}

fn reader_renumbered(input: &[u8]) -> usize {
    let (order, wad) = given::order_and_file(input);
    let (mut words, mut out) = (vec![0; meshpigeon::MOST_WORDS], vec![0; meshpigeon::MOST_RENUMBERED]);
    let length = reader::renumber(wad, &given::MAP_NAME, &mut words, &order, &mut out);
    length.unwrap_or_else(|refusal| refusal.number as usize)
}

/// How many records of the second map of two differ.
fn library_differences(joined: &[u8]) -> usize {
    let (old, new) = given::halves(joined);
    let (mut words, mut list) = (vec![0; meshpigeon::MOST_WORDS], vec![0; meshpigeon::MOST_DIFFERENCES]);
    let counts = meshpigeon::differences_with(old, &given::MAP_NAME, new, &given::MAP_NAME, &mut words, &mut list);
    counts.expect("two good maps").iter().sum()
}

fn reader_differences(joined: &[u8]) -> usize {
    let (old, new) = given::halves(joined);
    let (mut words, mut list) = (vec![0; meshpigeon::MOST_WORDS], vec![0; meshpigeon::MOST_DIFFERENCES]);
    let counts = reader::differences(old, &given::MAP_NAME, new, &given::MAP_NAME, &mut words, &mut list);
    counts.expect("two good maps").iter().sum()
}

/// The depths of two maps, with the same words and list lent.
fn library_judged_alone(joined: &[u8]) -> usize {
    let (old, new) = given::halves(joined);
    let (mut words, list) = (vec![0; meshpigeon::MOST_WORDS], vec![0_u16; meshpigeon::MOST_DIFFERENCES]);
    black_box(&list);
    [old, new].map(|wad| meshpigeon::judge_map_with(wad, &given::MAP_NAME, &mut words).expect("a good map").depth).iter().sum()
}

fn reader_judged_alone(joined: &[u8]) -> usize {
    let (old, new) = given::halves(joined);
    let (mut words, list) = (vec![0; meshpigeon::MOST_WORDS], vec![0_u16; meshpigeon::MOST_DIFFERENCES]);
    black_box(&list);
    [old, new].map(|wad| reader::judge_map(wad, &given::MAP_NAME, &mut words).expect("a good map").depth).iter().sum()
}

/// The rows of two maps of 16 MiB: judged and not compared, the same, and another in the very last record.
const JUDGED_ALONE: &str = "differences: 16 MiB, judged alone";
const THE_SAME: &str = "differences: 16 MiB, the same";
const LAST_RECORD: &str = "differences: 16 MiB, last record";

/// What comparing two maps costs beside judging them, in the library's own time.
fn comparing_to_judging(rows: &[Row]) -> Option<String> {
    let time = |name| rows.iter().find(|row| row.name == name).map(|row| row.library.as_secs_f64());
    let alone = time(JUDGED_ALONE)?;
    let [same, last] = [time(THE_SAME)? / alone, time(LAST_RECORD)? / alone];
    Some(format!(
        "Comparing two maps of 16 MiB takes {same:.2} of the time of judging both, {last:.2} where the last record differs."
    ))
}

/// The length of a file's index, over records and into an output that are lent.
fn library_index(wad: &[u8]) -> usize {
    let mut records = vec![meshpigeon::IndexRecord::default(); meshpigeon::MOST_INDEXED];
    meshpigeon::index_build_with(wad, &mut records, &mut vec![0; meshpigeon::MOST_INDEX]).expect("a good file")
}

fn reader_index(wad: &[u8]) -> usize {
    let mut records = vec![reader::IndexRecord::default(); meshpigeon::MOST_INDEXED];
    reader::index_build(wad, &mut records, &mut vec![0; meshpigeon::MOST_INDEX]).expect("a good file")
}

/// The check of an index, right or wrong.
fn library_checked(input: &[u8]) -> usize {
    let (wad, index) = given::wad_and_index(input);
    meshpigeon::index_check(wad, index).map_or_else(|refusal| refusal.number as usize, |()| 0)
}

fn reader_checked(input: &[u8]) -> usize {
    let (wad, index) = given::wad_and_index(input);
    reader::index_check(wad, index).map_or_else(|refusal| refusal.number as usize, |()| 0)
}

/// How many names are compared until the first of all is found.
fn library_lookup(input: &[u8]) -> usize {
    let (wad, index) = given::wad_and_index(input);
    meshpigeon::index_find(wad, index, b"A0000\0\0\0").compared
}

fn reader_lookup(input: &[u8]) -> usize {
    let (wad, index) = given::wad_and_index(input);
    reader::index_find(wad, index, b"A0000\0\0\0").compared
}

/// How many blocks a text has in all.
fn library_text(text: &[u8]) -> usize {
    let map = meshpigeon::text::map(text).expect("a good text");
    map.vertices + map.linedefs + map.sidedefs + map.sectors + map.things
}

fn reader_text(text: &[u8]) -> usize {
    reader::text_map(text).expect("a good text").counts.iter().sum()
}

/// All blocks of a text in one pass: the sum of a number of each.
fn library_blocks(text: &[u8]) -> usize {
    use meshpigeon::text::{block, Kind, Lies, Linedef, Quoted, Sector, Sidedef, Thing, Vertex};
    let (mut place, mut sum) = (0, 0);
    while let Ok(Lies { kind, start }) = block(text, place) {
        let read = match kind {
            Kind::Vertex => Vertex::read_at(text, start).map(|(it, next)| (it.x as usize, next)),
            Kind::Linedef => Linedef::read_at(text, start, Quoted::default()).map(|(it, next)| (it.v1 as usize, next)),
            Kind::Sidedef => Sidedef::read_at(text, start).map(|(it, next)| (it.sector as usize, next)),
            Kind::Sector => Sector::read_at(text, start).map(|(it, next)| (it.lightlevel as usize, next)),
            Kind::Thing => Thing::read_at(text, start).map(|(it, next)| (it.r#type as usize, next)),
        };
        let (number, next) = read.expect("a good block");
        (place, sum) = (next, sum + number);
    }
    sum
}

fn reader_blocks(text: &[u8]) -> usize {
    let (mut place, mut sum) = (0, 0);
    while let Ok(reader::TextBlock { kind, start }) = reader::text_block(text, place) {
        let read = match kind {
            1 => reader::text_vertex_at(text, start).map(|(it, next)| (it.x as usize, next)),
            2 => reader::text_linedef_at(text, start, reader::Quoted::default()).map(|(it, next)| (it.v1 as usize, next)),
            3 => reader::text_sidedef_at(text, start).map(|(it, next)| (it.sector as usize, next)),
            4 => reader::text_sector_at(text, start).map(|(it, next)| (it.lightlevel as usize, next)),
            _ => reader::text_thing_at(text, start).map(|(it, next)| (it.r#type as usize, next)),
        };
        let (number, next) = read.expect("a good block");
        (place, sum) = (next, sum + number);
    }
    sum
}

/// A vertex by its number; the whole text is read for it.
fn library_numbered(text: &[u8]) -> usize {
    meshpigeon::text::Vertex::read(text, 8_000).expect("a vertex").1
}

fn reader_numbered(text: &[u8]) -> usize {
    reader::text_vertex(text, 8_000).expect("a vertex").1
}

/// The rows of one lump: in a map with little else, whose check is mostly this lump's; in one piece; and in scraps.
const IN_A_MAP: &str = "65,535 sidedefs in a map";
const IN_ONE_PIECE: &str = "65,535 sidedefs in one piece";
const IN_SCRAPS: &str = "sidedefs in scraps of 4 KiB";

/// What scraps cost beside the whole lump, in the library's own time.
fn scraps_to_whole(rows: &[Row]) -> Option<String> {
    let time = |name| rows.iter().find(|row| row.name == name).map(|row| row.library.as_secs_f64());
    let [map, whole, scraps] = [time(IN_A_MAP)?, time(IN_ONE_PIECE)?, time(IN_SCRAPS)?];
    let [to_map, to_whole] = [scraps / map, scraps / whole];
    Some(format!("Scraps of 4 KiB take {to_map:.2} of the time of a map of the same lump and little else, {to_whole:.2} of that in one piece."))
}

fn inputs() -> Vec<Input> {
    vec![
        Input { name: "map of ordinary size", sized: |n| given::map_of(n), library: library_map, reader: reader_map },
        Input { name: "map of 848 bytes, 1,000 ×", sized: given::little_map, library: library_little, reader: reader_little },
        Input { name: "largest map in 16 MiB", sized: given::largest_map_of, library: library_map, reader: reader_map },
        Input { name: "Hexen map of ordinary size", sized: |n| given::hexen_map_of(n), library: library_map, reader: reader_map },
        Input {
            name: "largest Hexen map in 16 MiB",
            sized: given::largest_hexen_map_of,
            library: library_map,
            reader: reader_map,
        },
        Input {
            name: "4,096 directory entries",
            sized: |n| given::directory_of(1_024 * n),
            library: library_directory,
            reader: reader_directory,
        },
        Input {
            name: "the same, rubbish behind names",
            sized: |n| given::littered_directory_of(1_024 * n),
            library: library_directory,
            reader: reader_directory,
        },
        Input {
            name: "search to the first of 4,096",
            sized: |n| given::search_to_the_first(1_024 * n),
            library: library_search,
            reader: reader_search,
        },
        Input {
            name: "search of 4,096 in vain (11)",
            sized: |n| given::search_in_vain(1_024 * n),
            library: library_search,
            reader: reader_search,
        },
        Input { name: "map of a pair of files", sized: |n| given::pair_of(n), library: library_pair, reader: reader_pair },
        Input {
            name: "lump of 2 × 4,096 in vain (11)",
            sized: |n| given::pair_in_vain(1_024 * n),
            library: library_pair_in_vain,
            reader: reader_pair_in_vain,
        },
        Input {
            name: "chain of 32,766 nodes",
            sized: |n| given::chain(32_766 * n / 4),
            library: library_map,
            reader: reader_map,
        },
        Input {
            name: "balanced tree of 32,766 nodes",
            sized: |n| given::balanced(32_766 * n / 4),
            library: library_map,
            reader: reader_map,
        },
        Input {
            name: "thirty doublings (32)",
            sized: |n| given::doublings(30 * n / 4),
            library: library_shared,
            reader: reader_shared,
        },
        Input {
            name: "32,767 doublings (32)",
            sized: |n| given::doublings(32_767 * n / 4),
            library: library_shared,
            reader: reader_shared,
        },
        Input {
            name: "highest subsector shared (32)",
            sized: |n| given::shared_subsector(32_766 * n / 4),
            library: library_shared,
            reader: reader_shared,
        },
        Input {
            name: "picture of 320 × 200",
            sized: |n| given::picture(320, 50 * n as u16),
            library: library_picture,
            reader: reader_picture,
        },
        Input {
            name: "picture of 128 × 128, written",
            sized: |n| given::pixels(128, 32 * n as u16),
            library: library_written::<128>,
            reader: reader_written::<128>,
        },
        Input {
            name: "checkerboard 320 × 200, written",
            sized: |n| given::checkered(320, 50 * n as u16),
            library: library_written::<320>,
            reader: reader_written::<320>,
        },
        Input {
            name: "a million descents",
            sized: |n| given::halving_nodes([0, 12, 13, 13, 14][n]),
            library: library_descents,
            reader: reader_descents,
        },
        Input {
            name: "the same, lines of mixed kinds",
            sized: |n| given::mixed_nodes([0, 12, 13, 13, 14][n]),
            library: library_descents,
            reader: reader_descents,
        },
        Input {
            name: "a million descents, 1,799 nodes",
            sized: |n| given::mixed_nodes_of(1_799 * n / 4),
            library: library_descents,
            reader: reader_descents,
        },
        Input {
            name: "a descent on 1,799 nodes, 1,000 ×",
            sized: |n| given::mixed_nodes_of(1_799 * n / 4),
            library: library_descent,
            reader: reader_descent,
        },
        Input {
            name: "chain of 1,799, 1,000 descents",
            sized: |n| given::deep_chain(1_799 * n / 4),
            library: library_descent,
            reader: reader_descent,
        },
        Input {
            name: "10,000 sidedefs written",
            sized: |n| given::sidedefs_of(25 * n),
            library: library_sidedefs_written,
            reader: reader_sidedefs_written,
        },
        Input {
            name: "10,000 nodes written",
            sized: |n| given::mixed_nodes_of(25 * n),
            library: library_nodes_written,
            reader: reader_nodes_written,
        },
        Input {
            name: "draw order of 16,383 nodes",
            sized: |n| given::halving_nodes([0, 12, 13, 13, 14][n]),
            library: library_order,
            reader: reader_order,
        },
        Input {
            name: "draw order, lines of mixed kinds",
            sized: |n| given::mixed_nodes([0, 12, 13, 13, 14][n]),
            library: library_order,
            reader: reader_order,
        },
        Input {
            name: "thirty doublings, drawn (46)",
            sized: |n| given::double_nodes(30 * n / 4),
            library: library_order,
            reader: reader_order,
        },
        Input {
            name: "32,767 doublings, drawn (44)",
            sized: |n| given::double_nodes(32_767 * n / 4),
            library: library_order,
            reader: reader_order,
        },
        Input {
            name: "deep doublings, drawn (46)",
            sized: |n| given::deep_doublings(32_767 * n / 4),
            library: library_order,
            reader: reader_order,
        },
        Input { name: "chain of 256, drawn", sized: |n| given::deep_chain(64 * n), library: library_order, reader: reader_order },
        Input {
            name: "chain of 257, drawn (44)",
            sized: |n| given::deep_chain(257 * n / 4),
            library: library_order,
            reader: reader_order,
        },
        Input {
            name: "chain of 32,767, drawn (44)",
            sized: |n| given::deep_chain(32_767 * n / 4),
            library: library_order,
            reader: reader_order,
        },
        Input {
            name: IN_A_MAP,
            sized: |n| given::map_around(&given::sidedefs_of(65_535 * n / 4), given::FACED),
            library: library_map,
            reader: reader_map,
        },
        Input {
            name: IN_ONE_PIECE,
            sized: |n| given::sidedefs_of(65_535 * n / 4),
            library: library_scraps::<{ usize::MAX }>,
            reader: reader_scraps::<{ usize::MAX }>,
        },
        Input {
            name: IN_SCRAPS,
            sized: |n| given::sidedefs_of(65_535 * n / 4),
            library: library_scraps::<4_096>,
            reader: reader_scraps::<4_096>,
        },
        Input {
            name: "sidedefs one byte at a time",
            sized: |n| given::sidedefs_of(65_535 * n / 4),
            library: library_scraps::<1>,
            reader: reader_scraps::<1>,
        },
        Input {
            name: "16 MiB one byte at a time (20)",
            sized: |n| vec![0; given::MOST_BYTES * n / 4],
            library: library_scraps::<1>,
            reader: reader_scraps::<1>,
        },
        Input { name: "reason: ordinary map's route", sized: |n| given::map_of(n), library: library_why, reader: reader_why },
        Input {
            name: "reason: last sidedef (24)",
            sized: |n| given::bad_sidedef_of(n),
            library: library_why,
            reader: reader_why,
        },
        Input { name: "reason: last seg (25)", sized: |n| given::bad_seg_of(n), library: library_why, reader: reader_why },
        Input {
            name: "reason: chain of 32,766 nodes",
            sized: |n| given::chain(32_766 * n / 4),
            library: library_why,
            reader: reader_why,
        },
        Input {
            name: "reason: loop of 32,767 (31)",
            sized: |n| given::long_loop(32_767 * n / 4),
            library: library_why,
            reader: reader_why,
        },
        Input {
            name: "reason: loop behind a tree (31)",
            sized: |n| given::loop_behind_tree(32_767 * n / 4),
            library: library_why,
            reader: reader_why,
        },
        Input {
            name: "reason: BLOCKMAP of 16 MiB (28)",
            sized: |n| given::bad_blockmap_of(given::MOST_BYTES * n / 4),
            library: library_why,
            reader: reader_why,
        },
        Input {
            name: "renumber: ordinary map",
            sized: |n| given::map_in_order(n),
            library: library_renumbered,
            reader: reader_renumbered,
        },
        Input {
            name: "renumber: 32,767 nodes",
            sized: |n| given::chain_in_order(32_767 * n / 4, |order| order),
            library: library_renumbered,
            reader: reader_renumbered,
        },
        Input {
            name: "renumber: list of 65,536 (73)",
            sized: |n| given::chain_in_order(32_767 * n / 4, given::twice_as_long),
            library: library_renumbered,
            reader: reader_renumbered,
        },
        Input {
            name: "renumber: repeat at the end (70)",
            sized: |n| given::chain_in_order(32_767 * n / 4, given::repeat_at_the_end),
            library: library_renumbered,
            reader: reader_renumbered,
        },
        Input {
            name: "renumber: child at the end (71)",
            sized: |n| given::chain_in_order(32_767 * n / 4, given::child_at_the_end),
            library: library_renumbered,
            reader: reader_renumbered,
        },
        Input {
            name: "differences: ordinary map, the same",
            sized: |n| given::twice(given::map_of(n)),
            library: library_differences,
            reader: reader_differences,
        },
        Input {
            name: "differences: a tenth changed",
            sized: |n| given::with_changes(given::map_of(n), 10),
            library: library_differences,
            reader: reader_differences,
        },
        Input {
            name: JUDGED_ALONE,
            sized: |n| given::twice(given::largest_map_of(n)),
            library: library_judged_alone,
            reader: reader_judged_alone,
        },
        Input {
            name: THE_SAME,
            sized: |n| given::twice(given::largest_map_of(n)),
            library: library_differences,
            reader: reader_differences,
        },
        Input {
            name: LAST_RECORD,
            sized: |n| given::with_last_changed(given::largest_map_of(n)),
            library: library_differences,
            reader: reader_differences,
        },
        Input {
            name: "differences: 16 MiB, all records",
            sized: |n| given::with_changes(given::largest_map_of(n), 1),
            library: library_differences,
            reader: reader_differences,
        },
        Input {
            name: "index: 4,096 names at random",
            sized: |n| given::names_at_random(1_024 * n),
            library: library_index,
            reader: reader_index,
        },
        Input {
            name: "index: 4,096 names ascending",
            sized: |n| given::names_ascending(1_024 * n),
            library: library_index,
            reader: reader_index,
        },
        Input {
            name: "index: 4,096 names descending",
            sized: |n| given::names_descending(1_024 * n),
            library: library_index,
            reader: reader_index,
        },
        Input {
            name: "index: 4,096 times one name",
            sized: |n| given::names_alike(1_024 * n),
            library: library_index,
            reader: reader_index,
        },
        Input {
            name: "index of 4,096 checked",
            sized: |n| given::with_its_index(given::names_at_random(1_024 * n)),
            library: library_checked,
            reader: reader_checked,
        },
        Input {
            name: "index of 4,096, last wrong (84)",
            sized: |n| given::with_a_wrong_index(given::names_descending(1_024 * n)),
            library: library_checked,
            reader: reader_checked,
        },
        Input {
            name: "lookup in an index of 4,096",
            sized: |n| given::with_its_index(given::names_at_random(1_024 * n)),
            library: library_lookup,
            reader: reader_lookup,
        },
        Input { name: "text map of ordinary size", sized: given::ordinary_text, library: library_text, reader: reader_text },
        Input { name: "the same, all blocks read", sized: given::ordinary_text, library: library_blocks, reader: reader_blocks },
        Input {
            name: "text: a million assignments",
            sized: given::text_of_assignments,
            library: library_text,
            reader: reader_text,
        },
        Input { name: "text: a block of a million", sized: given::text_of_one_block, library: library_text, reader: reader_text },
        Input { name: "text: 65,535 blocks", sized: given::text_of_blocks, library: library_text, reader: reader_text },
        Input {
            name: "text: 65,535 blocks, all read",
            sized: given::text_of_blocks,
            library: library_blocks,
            reader: reader_blocks,
        },
        Input {
            name: "text: one of 65,535 vertices",
            sized: given::text_of_vertices,
            library: library_numbered,
            reader: reader_numbered,
        },
        Input { name: "text: 16 MiB of comments", sized: given::text_of_comments, library: library_text, reader: reader_text },
        Input { name: "text: a string of 16 MiB", sized: given::text_of_one_string, library: library_text, reader: reader_text },
        Input {
            name: "text: a namespace of 16 MiB",
            sized: given::text_of_one_namespace,
            library: library_text,
            reader: reader_text,
        },
        Input { name: "text: a word of 16 MiB", sized: given::text_of_one_word, library: library_text, reader: reader_text },
        Input { name: "text: a number of 16 MiB", sized: given::text_of_one_number, library: library_text, reader: reader_text },
        Input {
            name: "hostile BLOCKMAP of 16 MiB",
            sized: |n| given::hostile_blockmap_of(given::MOST_BYTES * n / 4),
            library: library_map,
            reader: reader_map,
        },
        Input {
            name: "hostile picture of 16 MiB",
            sized: |n| given::hostile_picture_of(1_048_000 * n),
            library: library_picture,
            reader: reader_picture,
        },
        Input {
            name: "hostile picture, four residues",
            sized: |n| given::staggered_picture_of(1_048_000 * n),
            library: library_picture,
            reader: reader_picture,
        },
        Input {
            name: "hostile picture, busy",
            sized: |n| given::busy_picture_of(1_048_000 * n),
            library: library_picture,
            reader: reader_picture,
        },
        Input {
            name: "hostile picture, last bad (54)",
            sized: |n| given::badly_ended_picture_of(1_048_000 * n),
            library: library_bad_picture,
            reader: reader_bad_picture,
        },
    ]
}

/// The best of several runs, for a fifth of a second or once.
fn best(mut run: impl FnMut() -> usize) -> Duration {
    let mut best = Duration::MAX;
    let begun = Instant::now();
    loop {
        let start = Instant::now();
        black_box(run());
        best = best.min(start.elapsed());
        if begun.elapsed() > Duration::from_millis(200) {
            return best;
        }
    }
}

fn sum(bytes: &[u8]) -> usize {
    bytes.iter().map(|&byte| usize::from(byte)).sum()
}

fn measure(input: &Input) -> Row {
    let times: Vec<f64> =
        [1, 2, 4].iter().map(|&n| (input.sized)(n)).map(|it| best(|| (input.library)(black_box(&it))).as_secs_f64()).collect();
    let bytes = (input.sized)(4);
    Row {
        name: input.name,
        bytes: bytes.len(),
        library: best(|| (input.library)(black_box(&bytes))),
        reader: best(|| (input.reader)(black_box(&bytes))),
        sum: best(|| sum(black_box(&bytes))),
        growth: [times[1] / times[0], times[2] / times[1]],
    }
}

fn table(rows: &[Row]) -> String {
    let mut text = String::from("| input | bytes | library | reader | ratio | MB/s | to summing | n to 2n | 2n to 4n |\n|---|---|---|---|---|---|---|---|---|\n");
    for row in rows {
        let (library, reader, sum) = (row.library.as_secs_f64(), row.reader.as_secs_f64(), row.sum.as_secs_f64());
        let _ = writeln!(
            text,
            "| {} | {} | {:.3} ms | {:.3} ms | {:.2} | {:.0} | {:.1} | {:.1} | {:.1} |",
            row.name,
            row.bytes,
            library * 1e3,
            reader * 1e3,
            library / reader,
            row.bytes as f64 / library / 1e6,
            library / sum,
            row.growth[0],
            row.growth[1],
        );
    }
    text
}

/// A bar for each input: the library's time as a part of the reader's.
fn plot(rows: &[Row]) -> String {
    let height = 40 * rows.len() + 60;
    let mut svg = format!(
        "<svg xmlns=\"http://www.w3.org/2000/svg\" width=\"720\" height=\"{height}\" font-family=\"sans-serif\" font-size=\"14\">\n<rect width=\"720\" height=\"{height}\" fill=\"white\"/>\n<text x=\"20\" y=\"24\" font-size=\"16\">Library's time for 1.0 of the reader's</text>\n<line x1=\"440\" y1=\"36\" x2=\"440\" y2=\"{}\" stroke=\"#888\" stroke-dasharray=\"4\"/>\n<text x=\"432\" y=\"{}\" fill=\"#888\">1.0</text>\n",
        height - 24,
        height - 8,
    );
    for (at, row) in rows.iter().enumerate() {
        let ratio = row.library.as_secs_f64() / row.reader.as_secs_f64();
        let y = 40 * at + 44;
        let _ = writeln!(
            svg,
            "<text x=\"20\" y=\"{}\">{}</text><rect x=\"240\" y=\"{y}\" width=\"{:.1}\" height=\"24\" fill=\"#4878a8\"/><text x=\"{:.1}\" y=\"{}\">{ratio:.2}</text>",
            y + 17,
            row.name,
            (200.0 * ratio).min(440.0),
            248.0 + (200.0 * ratio).min(400.0),
            y + 17,
        );
    }
    svg + "</svg>\n"
}

fn main() {
    let asked = std::env::var("MESHPIGEON_ROWS").unwrap_or_default();
    let rows: Vec<Row> = inputs().iter().filter(|input| input.name.contains(&asked)).map(measure).collect();
    print!("{}", table(&rows));
    for line in [scraps_to_whole(&rows), comparing_to_judging(&rows)].iter().flatten() {
        println!("\n{line}");
    }
    if let Some(file) = std::env::args_os().nth(1) {
        std::fs::write(&file, plot(&rows)).expect("the plot is written");
    }
}
