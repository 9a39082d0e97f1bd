//! The library's new NODES, held to its own map check and descent, and to what it writes with words and room of its own.

use crate::{ask_library, Outcome};
use generator::{with_lump, Case, Expected, Question, MOST_BYTES};
use meshpigeon::{descend, judge_map, renumber, Node, Subsector};

/// Of how many nodes the lines are tried with points.
const MOST_TRIED: usize = 12;

/// What is wrong with the library's new NODES of a map, if anything. The words are the map check's, and so is a refusal of the map; what is not
/// written stays.
pub(crate) fn fault(case: &Case, told: &Outcome) -> Option<String> {
    let Question::Renumber { name, words, order, out } = &case.question else { return None };
    let question = Question::JudgeMap { name: name.clone(), words: words.clone() };
    let judged = ask_library(&Case { question, expected: Expected::Unknown, ..case.clone() });
    if judged.words != told.words || judged.numbers.is_err() && judged.numbers != told.numbers {
        return Some(format!("in order {told:?}\nthe map check {judged:?}"));
    }
    let length = told.numbers.as_ref().map_or(0, |numbers| numbers[0] as usize);
    let (new, rest) = told.first.split_at(length);
    if rest != &out[length..] {
        return Some(format!("more than {length} bytes are written: {rest:?}"));
    }
    let own = renumber(&case.bytes, name, order).map_err(|it| (it.number, it.place, it.record));
    let is_same = match &told.numbers {
        // With words of its own the map may be accepted, or refused for what is tested later.
        Err((30, ..)) => !matches!(own, Err((30 | 74, ..))),
        Err((74, ..)) => own.as_ref().is_ok_and(|own| own.len() > out.len()),
        Err(refused) => own == Err(*refused),
        Ok(_) => own.as_deref() == Ok(new),
    };
    if !is_same {
        return Some(format!("into lent room {told:?}\ninto its own {own:?}"));
    }
    told.numbers.as_ref().ok().and_then(|_| new_fault(&case.bytes, name, new))
}

/// New NODES, put into the map, are accepted with the same depth and marker; each child that is a node is below its parent; and points get the same
/// subsector and count.
fn new_fault(wad: &[u8], name: &[u8], new: &[u8]) -> Option<String> {
    let judged = judge_map(wad, name).expect("an accepted map");
    let lump = |place| meshpigeon::lump(wad, judged.marker + place).expect("a map's lump");
    let (old, subsectors) = (lump(Node::PLACE), lump(Subsector::PLACE).len() / Subsector::SIZE);
    if wad.len() + new.len() <= MOST_BYTES {
        let again = judge_map(&with_lump(wad, judged.marker + Node::PLACE, new), name);
        if again != Ok(judged) {
            return Some(format!("with old NODES {judged:?}\nwith new ones {again:?}"));
        }
    }
    if let Some(node) = (0..new.len() / Node::SIZE).find(|&node| !has_lower_children(new, node)) {
        return Some(format!("node {node} is not above its children"));
    }
    let strays = points(old).find(|&(x, y)| descend(old, subsectors, x, y) != descend(new, subsectors, x, y));
    strays.map(|point| format!("{point:?} gets another subsector or count"))
}

fn has_lower_children(nodes: &[u8], index: usize) -> bool {
    let node = Node::read(nodes, index).expect("a node");
    [node.right, node.left].iter().all(|&word| word >= 0x8000 || usize::from(word) < index)
}

/// Points on and beside lines of the nodes, and at the ends of the plane.
fn points(nodes: &[u8]) -> impl Iterator<Item = (i16, i16)> + '_ {
    let count = nodes.len() / Node::SIZE;
    let tried = (0..count).step_by(count.div_ceil(MOST_TRIED).max(1));
    let lines = tried.filter_map(|node| Node::read(nodes, node).ok());
    let beside = |node: Node| {
        let end = (node.x.wrapping_add(node.dx), node.y.wrapping_add(node.dy));
        [(node.x, node.y), (node.x.wrapping_add(1), node.y), (node.x, node.y.wrapping_sub(1)), end]
    };
    let ends = [(i16::MIN, i16::MIN), (i16::MAX, i16::MAX), (i16::MIN, i16::MAX), (i16::MAX, i16::MIN), (0, 0)];
    lines.flat_map(beside).chain(ends)
}
