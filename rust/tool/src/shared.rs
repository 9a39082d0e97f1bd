//! A node or a subsector that two ways down from the root lead to, 32: it is found in the bytes of NODES.

use crate::json::Object;
use meshpigeon::Node;
use std::collections::HashMap;

/// The bit of a child that is a subsector.
const SUBSECTOR_BIT: u16 = 0x8000;

/// A parent, and whether the child is its right one.
type Parent = (u16, bool);

/// A child that comes twice.
#[derive(Clone, Debug, PartialEq, Eq)]
pub struct Shared {
    /// As it is stored.
    child: u16,
    parents: [Parent; 2],
}

impl Shared {
    /// The first child that is met a second time, where each node that the root reaches is looked at once, right before left.
    pub fn of(nodes: &[u8]) -> Option<Self> {
        let root = u16::try_from((nodes.len() / Node::SIZE).checked_sub(1)?).ok()?;
        let (mut open, mut met) = (vec![root], HashMap::new());
        while let Some(number) = open.pop() {
            let node = Node::read(nodes, number.into()).ok()?;
            for (child, parent) in [(node.right, (number, true)), (node.left, (number, false))] {
                if let Some(first) = met.insert(child, parent) {
                    return Some(Self { child, parents: [first, parent] });
                }
            }
            open.extend([node.left, node.right].iter().filter(|child| **child & SUBSECTOR_BIT == 0));
        }
        None
    }

    /// What is wrong.
    pub fn words(&self) -> String {
        let child = match self.child & SUBSECTOR_BIT {
            0 => format!("node {}", self.child),
            _ => format!("subsector {}", self.child & !SUBSECTOR_BIT),
        };
        let [(one, _), (other, _)] = self.parents;
        let twice = match one == other {
            true => format!("it is both children of node {one}"),
            false => format!("it is the {} and the {}", of_parent(self.parents[0]), of_parent(self.parents[1])),
        };
        format!("two ways down lead to {child}: {twice}")
    }

    /// The child by its kind, and both parents.
    pub fn json(&self) -> Object {
        let (kind, number) = match self.child & SUBSECTOR_BIT {
            0 => ("node", self.child),
            _ => ("subsector", self.child & !SUBSECTOR_BIT),
        };
        let object = Object::new().text("child", kind).number("number", i64::from(number));
        object.numbers("parents", &self.parents.map(|(parent, _)| parent))
    }
}

fn of_parent((parent, is_right): Parent) -> String {
    format!("{} child of node {parent}", if is_right { "right" } else { "left" })
}

#[cfg(test)]
mod tests {
    use super::*;

    /// NODES with these children.
    fn nodes(children: &[(u16, u16)]) -> Vec<u8> {
        let mut nodes = vec![0; Node::SIZE * children.len()];
        for (at, &(right, left)) in children.iter().enumerate() {
            Node { right, left, ..Node::default() }.write(&mut nodes, at).expect("it fits");
        }
        nodes
    }

    #[test]
    fn the_child_and_both_parents_are_found() {
        let room = |number: u16| SUBSECTOR_BIT | number;
        let found = Shared::of(&nodes(&[(room(0), room(1)), (room(2), room(0)), (1, 0)])).expect("it is shared");
        assert_eq!(found.child, room(0));
        assert!(found.words().ends_with("lead to subsector 0: it is the left child of node 1 and the right child of node 0"));
        let found = Shared::of(&nodes(&[(room(0), room(1)), (0, 0)])).expect("it is shared");
        assert_eq!(found.words(), "two ways down lead to node 0: it is both children of node 1");
        assert_eq!(Shared::of(&nodes(&[(room(0), room(1))])), None);
    }

    #[test]
    fn what_the_root_does_not_reach_does_not_count() {
        let room = |number: u16| SUBSECTOR_BIT | number;
        assert_eq!(Shared::of(&nodes(&[(room(0), room(1)), (room(0), room(1))])), None);
    }

    #[test]
    fn damaged_nodes_end_the_search() {
        assert_eq!([Shared::of(&[]), Shared::of(&[0; 27]), Shared::of(&nodes(&[(7, 8)]))], [None, None, None]);
        assert!(Shared::of(&nodes(&[(0, 0)])).is_some());
    }
}
