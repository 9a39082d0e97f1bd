//! `renumber`: the file with a map's nodes in an order that has every child before its parent.

use crate::about::About;
use crate::count::{counted, grouped};
use crate::finding::Finding;
use crate::input::{self, MOST_BYTES};
use crate::json::Object;
use crate::judge;
use crate::name::{self, shown};
use crate::numbers;
use crate::output::{is_same, put};
use crate::pair::{Base, Lent, Opened};
use crate::report::Report;
use crate::verdict::{Outcome, Source, Verdict};
use meshpigeon::Node;
use std::ffi::OsStr;

/// The bit of a child that is a subsector.
const SUBSECTOR_BIT: u16 = 0x8000;

/// Writes the whole file to `output`, which is standard output for `-`, with the nodes of a map in the order of a list, or in post-order where
/// none is given. The map must be accepted.
pub fn run(file: &OsStr, map: &OsStr, list: Option<&OsStr>, output: &OsStr, report: &mut Report) {
    if is_same(file, output) || list.is_some_and(|list| is_same(list, output)) {
        return report.misused("the new file would be written over a file that it comes from");
    }
    let Some(given) = list.map_or(Some(None), |list| read(list, report).map(Some)) else { return };
    let opened = match Opened::open(file, &Base::None) {
        Ok(opened) => opened,
        Err((source, fault)) => return report.fault_of(About::unread(file), source, fault),
    };
    let map = name::asked(map);
    let verdict = judge::verdict(&opened.about(file, report), &opened, &map, &mut Lent::new());
    let Outcome::Accepted(accepted, ..) = verdict.outcome else { return report.verdict(&verdict) };
    let (wad, number) = (opened.wad(Source::File), accepted.marker + Node::PLACE);
    let nodes = wad.lump(number);
    let order = given.unwrap_or_else(|| post_order(nodes));
    let new = match meshpigeon::renumber(wad.bytes(), &map, &order) {
        Ok(new) => new,
        Err(refusal) => {
            let outcome = Outcome::Refused(refusal, Finding::in_order(refusal, &order, nodes));
            return report.verdict(&Verdict { outcome, why: None, ..verdict });
        }
    };
    match wad.with_lump(number, &new) {
        Ok(bytes) => {
            let dropped = nodes.len() / Node::SIZE - order.len();
            put(&bytes, output, report, |report| tell(file, &map, &order, dropped, output, report));
        }
        Err(words) => report.trouble(file, words),
    }
}

/// The numbers of a list's file, or of standard input for `-`.
fn read(list: &OsStr, report: &mut Report) -> Option<Vec<u16>> {
    let numbers = match input::read_most(list) {
        Err(error) => Err(input::words(&error)),
        Ok(text) if text.len() as u64 > MOST_BYTES => Err("a list of more than 16,777,216 bytes is not read".to_string()),
        Ok(text) => numbers::of(&text).map_err(|flaw| flaw.to_string()),
    };
    numbers.map_err(|words| report.unread(list, &words)).ok()
}

/// The nodes that the root of an accepted map reaches: what is below the right child, what is below the left, the node. It is made from its end:
/// a node, then what is below its left child.
pub fn post_order(nodes: &[u8]) -> Vec<u16> {
    let root = (nodes.len() / Node::SIZE).checked_sub(1).map(|root| root as u16);
    let (mut open, mut order) = (Vec::from_iter(root), Vec::new());
    while let Some(number) = open.pop() {
        order.push(number);
        let Ok(Node { right, left, .. }) = Node::read(nodes, number.into()) else { continue };
        open.extend([right, left].iter().filter(|child| **child & SUBSECTOR_BIT == 0));
    }
    order.reverse();
    order
}

fn tell(file: &OsStr, map: &[u8], order: &[u16], dropped: usize, output: &OsStr, report: &mut Report) {
    let map = name::text(map);
    report.answer(
        || {
            let (nodes, dropped) = (counted(order.len(), "node"), grouped(dropped as i128));
            let (file, map, output) = (name::file(file), shown(&map), name::file(output));
            format!("{file}:{map}: {nodes} renumbered, {dropped} dropped, written to {output}")
        },
        || {
            let object = Object::about(file).text("map", map.as_str()).number("number", 0);
            let object = object.count("count", order.len()).count("dropped", dropped);
            object.numbers("order", order).text("output", output.to_string_lossy().as_ref()).close()
        },
    );
}
