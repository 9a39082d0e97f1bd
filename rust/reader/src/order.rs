//! The draw order: all subsectors that a point sees, the nearest first.

use crate::descent::{count_of, near_and_far};
use crate::{Node, Refusal, SUBSECTOR_BIT};

/// The most nodes that a route may pass.
const MOST_PASSED: usize = 256;

/// A child that the walk has still to come to.
struct Child {
    word: u16,
    /// The node that names it.
    parent: usize,
    /// How many nodes were passed on the way to it.
    passed: usize,
}

/// Lists the subsectors below the last node, front first, and answers how many: refusals 40, 41, 45, then 42, 44 and 46 as they are met.
///
/// At each node the list of the child on the point's side comes first, then that of the other. `words` must be at least one more
/// than the nodes. The list is written to the first of them; 42, 44 and 46 leave one more than the nodes zero. All others stay as found.
pub fn draw_order(nodes: &[u8], subsectors: usize, x: i16, y: i16, words: &mut [u16]) -> Result<usize, Refusal> {
    let total = count_of(nodes, subsectors)?;
    let Some(list) = words.get_mut(..=total) else { return Err(Refusal::plain(45)) };
    let Some(root) = total.checked_sub(1) else {
        list[0] = 0;
        return Ok(1);
    };
    let drawn = walk(nodes, root, subsectors, (x, y), list);
    if drawn.is_err() {
        list.fill(0);
    }
    drawn
}

/// Walks from the root on: of the children that are open the last one comes next, and a node opens its two, the nearer one last.
fn walk(nodes: &[u8], root: usize, subsectors: usize, (x, y): (i16, i16), list: &mut [u16]) -> Result<usize, Refusal> {
    let mut count = 0;
    let mut open = vec![Child { word: root as u16, parent: root, passed: 0 }];
    while let Some(Child { word, parent, passed }) = open.pop() {
        let (number, is_subsector) = (word & !SUBSECTOR_BIT, word & SUBSECTOR_BIT != 0);
        let at = usize::from(number);
        if at >= if is_subsector { subsectors } else { root + 1 } {
            return Err(Refusal::new(42, 0, parent));
        }
        if is_subsector {
            *list.get_mut(count).ok_or(Refusal::plain(46))? = number;
            count += 1;
            continue;
        }
        if passed == MOST_PASSED {
            return Err(Refusal::plain(44));
        }
        let [near, far] = near_and_far(&Node::read(nodes, at)?, x, y);
        open.extend([far, near].map(|word| Child { word, parent: at, passed: passed + 1 }));
    }
    Ok(count)
}
