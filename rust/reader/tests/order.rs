//! Draw orders (W-208).

use reader::*;

/// An upright line at x, northward, so that east is its right.
fn node(x: i16, right: u16, left: u16) -> Vec<u8> {
    let mut bytes = vec![0; Node::SIZE];
    Node { x, dy: 64, right, left, ..Node::default() }.write(&mut bytes, 0).unwrap();
    bytes
}

/// Lines at 256, 768 and, the root, 512, with subsectors 0 to 3 from west to east.
fn rooms() -> Vec<u8> {
    [node(256, 0x8001, 0x8000), node(768, 0x8003, 0x8002), node(512, 1, 0)].concat()
}

/// The answer over so many words that hold 7, and what they hold afterwards.
fn drawn(nodes: &[u8], subsectors: usize, x: i16, words: usize) -> (Result<usize, Refusal>, Vec<u16>) {
    let mut words = vec![7; words];
    (draw_order(nodes, subsectors, x, 0, &mut words), words)
}

fn refused(number: u32, record: usize) -> Result<usize, Refusal> {
    Err(Refusal::new(number, 0, record))
}

#[test]
fn the_near_side_comes_first_at_every_node() {
    for (x, list) in [(0, [0, 1, 2, 3]), (300, [1, 0, 2, 3]), (600, [2, 3, 1, 0]), (1000, [3, 2, 1, 0])] {
        assert_eq!(drawn(&rooms(), 4, x, 5), (Ok(4), [&list[..], &[7]].concat()));
        assert_eq!(descend(&rooms(), 4, x, 0).unwrap().subsector, usize::from(list[0]));
    }
}

#[test]
fn no_nodes_are_one_subsector() {
    assert_eq!(drawn(&[], 1, 0, 2), (Ok(1), vec![0, 7]));
    assert_eq!(drawn(&[], 1, 0, 0), (refused(45, 0), vec![]));
    assert_eq!(drawn(&[], 2, 0, 2), (refused(41, 0), vec![7, 7]));
}

#[test]
fn sizes_come_before_words_and_leave_them() {
    let nodes = rooms();
    assert_eq!(drawn(&nodes[1..], 0, 0, 3), (refused(40, 0), vec![7; 3]));
    assert_eq!(drawn(&nodes, 0, 0, 3), (refused(41, 0), vec![7; 3]));
    assert_eq!(drawn(&nodes, 4, 0, 3), (refused(45, 0), vec![7; 3]));
}

#[test]
fn a_short_list_leaves_the_words_behind_it() {
    let nodes = [node(0, 0x8000, 0x8000), node(0, 0x8000, 0x8001)].concat();
    assert_eq!(drawn(&nodes, 2, 1, 3), (Ok(2), vec![0, 1, 7]));
}

#[test]
fn a_child_is_judged_when_the_walk_comes_to_it() {
    let zeroed = vec![0, 0, 0, 0, 7];
    let nodes = [node(256, 0x8001, 0x8000), node(768, 0x8004, 0x8002), node(512, 1, 3)].concat();
    assert_eq!(drawn(&nodes, 4, 0, 5), (refused(42, 2), zeroed.clone()));
    assert_eq!(drawn(&nodes, 4, 1000, 5), (refused(42, 1), zeroed));
}

/// A chain of nodes to the east, each with a subsector of its own to the west.
fn chain(count: u16) -> Vec<u8> {
    (0..count).flat_map(|at| node(0, at.checked_sub(1).unwrap_or(0x8000), 0x8001 + at)).collect()
}

#[test]
fn a_route_passes_256_nodes_and_no_more() {
    let (count, words) = drawn(&chain(256), 257, 1, 258);
    assert_eq!((count, words), (Ok(257), (0..257).chain([7]).collect()));
    for x in [0, 1] {
        assert_eq!(drawn(&chain(257), 258, x, 259), (refused(44, 0), [vec![0; 258], vec![7]].concat()));
        assert_eq!(drawn(&node(0, 0, 0), 1, x, 3), (refused(44, 0), vec![0, 0, 7]));
    }
}

/// So many nodes, each with both children the one before it.
fn doublings(count: u16) -> Vec<u8> {
    let child = |at: u16| at.checked_sub(1).unwrap_or(0x8000);
    (0..count).map(child).flat_map(|child| node(0, child, child)).collect()
}

#[test]
fn a_list_has_one_more_than_the_nodes_and_no_more() {
    assert_eq!(drawn(&doublings(1), 1, 0, 2), (Ok(2), vec![0, 0]));
    for count in [2, 30, 256] {
        let words = usize::from(count) + 1;
        assert_eq!(drawn(&doublings(count), 1, 0, words), (refused(46, 0), vec![0; words]));
    }
    assert_eq!(drawn(&doublings(257), 1, 0, 258), (refused(44, 0), vec![0; 258]));
}

/// Node 0 is listed twice, with four entries in all, before the root's far child comes.
#[test]
fn where_the_list_is_full_a_child_is_still_judged() {
    let with_far = |far| [node(0, 0x8000, 0x8001), node(0, 0, 0), node(0, 1, far)].concat();
    for (far, refusal) in [(0x8000, refused(46, 0)), (0, refused(46, 0)), (0x8002, refused(42, 2)), (3, refused(42, 2))] {
        assert_eq!(drawn(&with_far(far), 2, 1, 5), (refusal, vec![0, 0, 0, 0, 7]));
    }
}
