//! The descent: from the root to the subsector of a point. And what it shares with the draw order: sizes and sides.

use crate::{Node, Refusal, SUBSECTOR_BIT};

const MOST_NODES: usize = 32_767;
const MOST_SUBSECTORS: usize = 32_767;

/// Where a descent ended.
#[derive(Clone, Copy, Debug, PartialEq, Eq)]
pub struct Found {
    /// The subsector reached.
    pub subsector: usize,
    /// How many nodes were passed.
    pub count: usize,
}

/// Descends from the last node of a NODES lump to the point's subsector: refusals 40 to 43.
///
/// Only the chosen children are judged.
pub fn descend(nodes: &[u8], subsectors: usize, x: i16, y: i16) -> Result<Found, Refusal> {
    let total = count_of(nodes, subsectors)?;
    if total == 0 {
        return Ok(Found { subsector: 0, count: 0 });
    }
    let mut at = total - 1;
    for count in 1..=total {
        let [child, _] = near_and_far(&Node::read(nodes, at)?, x, y);
        let number = usize::from(child & !SUBSECTOR_BIT);
        let is_subsector = child & SUBSECTOR_BIT != 0;
        if number >= if is_subsector { subsectors } else { total } {
            return Err(Refusal::new(42, 0, at));
        }
        if is_subsector {
            return Ok(Found { subsector: number, count });
        }
        at = number;
    }
    Err(Refusal::plain(43))
}

/// How many nodes a lump has, if it can be walked over so many subsectors: refusals 40 and 41.
pub(crate) fn count_of(nodes: &[u8], subsectors: usize) -> Result<usize, Refusal> {
    let total = nodes.len() / Node::SIZE;
    if !nodes.len().is_multiple_of(Node::SIZE) || total > MOST_NODES {
        return Err(Refusal::plain(40));
    }
    if !(1..=MOST_SUBSECTORS).contains(&subsectors) || (total == 0 && subsectors != 1) {
        return Err(Refusal::plain(41));
    }
    Ok(total)
}

/// The child on the point's side, and the other. An upright line is one without dx, a level line any other without dy.
pub(crate) fn near_and_far(node: &Node, x: i16, y: i16) -> [u16; 2] {
    let goes_left = match (node.dx, node.dy) {
        (0, dy) if x <= node.x => dy > 0,
        (0, dy) => dy < 0,
        (dx, 0) if y <= node.y => dx < 0,
        (dx, 0) => dx > 0,
        _ => !is_right_of_slant(node, x, y),
    };
    if goes_left {
        [node.left, node.right]
    } else {
        [node.right, node.left]
    }
}

/// (x - px) × dy > (y - py) × dx, over whole numbers.
fn is_right_of_slant(node: &Node, x: i16, y: i16) -> bool {
    let across = (i64::from(x) - i64::from(node.x)) * i64::from(node.dy);
    let along = (i64::from(y) - i64::from(node.y)) * i64::from(node.dx);
    across > along
}
