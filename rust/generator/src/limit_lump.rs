//! Both sides of the limits of BLOCKMAP, of pictures and of descents.

use crate::limit::{plainly, Build};
use crate::limit_map::edited;
use crate::map::encode;
use crate::{BlockmapSpec, Case, Expected, MapSpec, PictureSpec, Post, Question, Rng, Shape, Sizes};
use reader::{Found, Node, Refusal, SUBSECTOR_BIT};

/// All of them.
pub(crate) fn lump_limits() -> Vec<Build> {
    let mut all = grid_limits();
    all.extend(list_limits());
    all.extend(picture_limits());
    all.extend(post_limits());
    all.extend(descent_limits());
    all
}

/// The refusal of a cell, or of the header.
fn cell(cell: usize) -> Option<Refusal> {
    Some(Refusal::new(28, 10, cell))
}

/// Columns and rows, with every cell at one list if an offset reaches it.
fn grid_limits() -> Vec<Build> {
    let grids = [
        (1, 1, true),
        (512, 1, true),
        (1, 512, true),
        (513, 1, false),
        (1, 513, false),
        (0, 1, false),
        (1, 0, false),
        (512, 127, true),
        (511, 128, true),
        (512, 128, false),
        (256, 255, true),
        (256, 256, false),
        (512, 512, false),
        (65_535, 1, false),
    ];
    let mut all: Vec<Build> = Vec::new();
    for (columns, rows, fine) in grids {
        let sizes = Sizes { columns, rows, ..Sizes::LEAST };
        all.push(edited("columns and rows", sizes, |_| (), if fine { None } else { cell(0) }));
    }
    for (cut, fine) in
        [(0, false), (6, false), (7, false), (8, false), (9, false), (10, false), (12, false), (13, false), (14, true)]
    {
        let edit = move |map: &mut MapSpec| {
            one_list(map, &[0, 65_535]);
            map.blockmap.cut = Some(cut);
        };
        let refusal = if fine { None } else { cell(0) };
        all.push(edited("size of BLOCKMAP", Sizes::LEAST, edit, refusal));
    }
    all
}

/// One cell with these words as its list.
fn one_list(map: &mut MapSpec, list: &[u16]) {
    map.blockmap.lists.clear();
    map.blockmap.give_list(0, list);
}

/// Lists at the edges: of a map with 300 linedefs, and past the words an offset reaches.
fn list_limits() -> Vec<Build> {
    let lists: [(&[u16], bool); 9] = [
        (&[0, 65_535], true),
        (&[0, 299, 65_535], true),
        (&[0, 300, 65_535], false),
        (&[0, 65_534, 65_535], false),
        (&[1, 65_535], false),
        (&[65_535], false),
        (&[0], false),
        (&[0, 0, 0, 0, 65_535], true),
        (&[0, 65_535, 300, 1], true),
    ];
    let mut all: Vec<Build> = Vec::new();
    for (list, fine) in lists {
        let sizes = Sizes { linedefs: 300, ..Sizes::LEAST };
        let refusal = if fine { None } else { cell(0) };
        all.push(edited("list", sizes, move |map| one_list(map, list), refusal));
    }
    for (end, fine) in [(true, true), (false, false)] {
        let edit = move |map: &mut MapSpec| far_list(map, end);
        all.push(edited("list past word 65,535", Sizes::LEAST, edit, if fine { None } else { cell(0) }));
    }
    all.extend(lists_in_the_table());
    for (offset, fine) in [(8, false), (9, true), (10, true), (11, false), (12, false)] {
        let sizes = Sizes { columns: 5, rows: 1, ..Sizes::LEAST };
        let edit = move |map: &mut MapSpec| {
            (map.blockmap.offsets, map.blockmap.lists) = (vec![9; 5], vec![0, 0, 65_535]);
            map.blockmap.offsets[3] = offset;
        };
        all.push(edited("offset", sizes, edit, if fine { None } else { cell(3) }));
    }
    all
}

/// Words of the header and of the table that would be a list, were an offset allowed there.
fn lists_in_the_table() -> Vec<Build> {
    let sizes = Sizes { linedefs: 300, columns: 3, ..Sizes::LEAST };
    let offsets = [[5, 0, 7], [6, 7, 0], [0, 7, 7], [7, 5, 0]];
    let with = |offsets: [u16; 3]| {
        let edit = move |map: &mut MapSpec| {
            (map.blockmap.origin_x, map.blockmap.origin_y) = (0, 0);
            (map.blockmap.offsets, map.blockmap.lists) = (offsets.to_vec(), vec![0, 65_535]);
        };
        let bad = offsets.iter().position(|offset| *offset < 7).unwrap_or(0);
        edited("list in the table", sizes, edit, cell(bad))
    };
    offsets.into_iter().map(with).collect()
}

/// A list that starts at the last word an offset reaches and runs far past it.
fn far_list(map: &mut MapSpec, end: bool) {
    let start = BlockmapSpec::lists_start(1);
    map.blockmap.offsets[0] = 65_535;
    map.blockmap.lists = vec![1; 65_535 - start];
    map.blockmap.lists.extend([0; 4_000]);
    map.blockmap.lists.extend(end.then_some(65_535));
}

/// Width, height, buffers and the lump's own end.
fn picture_limits() -> Vec<Build> {
    let sizes = [
        (1, 1, 0),
        (320, 200, 0),
        (321, 200, 51),
        (320, 201, 51),
        (0, 1, 51),
        (1, 0, 51),
        (0xFFFF, 1, 51),
        (1, 0xFFFF, 51),
        (0x8001, 1, 51),
        (320, 1, 0),
        (1, 200, 0),
    ];
    let mut all: Vec<Build> = Vec::new();
    for (width, height, number) in sizes {
        all.push(Box::new(move || paint(PictureSpec::blank(width, height), plainly(number))));
    }
    for (spare, number) in [([0, 0], 0), ([-1, 0], 55), ([0, -1], 55), ([1, 5], 0), ([-1, 9], 55)] {
        all.push(Box::new(move || paint(PictureSpec { spare, ..PictureSpec::blank(320, 200) }, plainly(number))));
    }
    for (cut, number) in [(0, 50), (7, 50), (8, 52), (15, 52), (16, 53), (17, 0)] {
        all.push(Box::new(move || paint(PictureSpec { cut: Some(cut), ..PictureSpec::blank(2, 1) }, plainly(number))));
    }
    for (offset, number) in [(15, 53), (16, 0), (17, 53), (0, 53), (u32::MAX, 53)] {
        all.push(Box::new(move || {
            let mut picture = PictureSpec::blank(2, 1);
            picture.offsets[1] = offset;
            let expected = match number {
                0 => Expected::Accepted,
                _ => Expected::Refused(Refusal::new(53, 0, 1)),
            };
            paint(picture, expected)
        }));
    }
    all
}

fn paint(picture: PictureSpec, expected: Expected) -> Case {
    picture.case("picture's limits", true, expected, &mut Rng::new(12))
}

/// Rows of posts in a picture of one column and 200 rows, and of 20.
fn post_limits() -> Vec<Build> {
    let tall: [(&[(u8, usize)], u32); 10] = [
        (&[(0, 200)], 0),
        (&[(0, 201)], 54),
        (&[(199, 1)], 0),
        (&[(200, 0)], 0),
        (&[(200, 1)], 54),
        (&[(201, 0)], 54),
        (&[(254, 0)], 54),
        (&[(0, 255)], 54),
        (&[(0, 100), (100, 100)], 0),
        (&[(0, 100), (99, 1)], 54),
    ];
    let low: [(&[(u8, usize)], u32); 7] = [
        (&[(0, 0), (0, 0), (0, 20), (20, 0), (20, 0)], 0),
        (&[(5, 0), (4, 0)], 54),
        (&[(5, 0), (5, 0)], 0),
        (&[(5, 1), (5, 0)], 54),
        (&[(5, 1), (6, 14)], 0),
        (&[(5, 1), (6, 15)], 54),
        (&[], 0),
    ];
    let mut all: Vec<Build> = Vec::new();
    for (height, posts, number) in tall
        .into_iter()
        .map(|(posts, number)| (200, posts, number))
        .chain(low.into_iter().map(|(posts, number)| (20, posts, number)))
    {
        all.push(Box::new(move || paint(column_of(height, posts), plainly(number))));
        all.push(Box::new(move || {
            let mut picture = column_of(height, posts);
            picture.data.pop();
            paint(picture, plainly(if number == 0 { 53 } else { number }))
        }));
    }
    all
}

/// One column of posts, start row and length each.
fn column_of(height: u16, posts: &[(u8, usize)]) -> PictureSpec {
    let mut picture = PictureSpec::blank(1, height);
    let post = |&(start, length): &(u8, usize)| Post {
        start,
        pixels: (0..length).map(|row| row as u8 ^ 0x5A).collect(),
        ignored: [255, 255],
    };
    picture.give_column(0, &posts.iter().map(post).collect::<Vec<_>>());
    picture.data.push(255);
    picture
}

fn descent_limits() -> Vec<Build> {
    let sizes = [
        (0, 1, 0),
        (0, 0, 41),
        (0, 2, 41),
        (1, 0, 41),
        (1, 1, 0),
        (1, 32_767, 0),
        (1, 32_768, 41),
        (32_767, 1, 0),
        (32_768, 1, 40),
        (32_768, 0, 40),
        (1, 1 << 32 | 1, 41),
        (32_766, 9, 0),
    ];
    let mut all: Vec<Build> = Vec::new();
    for (nodes, subsectors, number) in sizes {
        all.push(Box::new(move || ladder_descent(nodes, subsectors, number)));
    }
    all
}

/// Every route passes all nodes of a ladder.
fn ladder_descent(count: usize, subsectors: usize, number: u32) -> Case {
    let (children, _) = Shape::Ladder.children(count, 1, &mut Rng::new(13));
    let node = |&[right, left]: &[u16; 2]| Node { right, left, dx: 1, ..Node::default() };
    let nodes: Vec<Node> = children.iter().map(node).collect();
    debug_assert!(nodes.first().is_none_or(|node| node.left == SUBSECTOR_BIT));
    let found = Expected::Found(Found { subsector: 0, count });
    let expected = if number == 0 { found } else { plainly(number) };
    let question = Question::Descend { subsectors, x: 1, y: -1 };
    Case::new("descent's limits", encode(&nodes), question, expected)
}
