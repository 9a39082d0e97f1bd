//! What is said of a record that names what is not there, 23 to 27: where it lies in the drawing and what is wrong; of 23 and 24, which
//! are the drawing's fault, also what to do.

use crate::count::{counted, grouped};
use crate::look::{from_to, Look};
use meshpigeon::{Field, Linedef, Seg, Subsector};

/// The sidedef that is none.
const NO_SIDEDEF: u16 = 65_535;
/// A child from here on is a subsector.
const SUBSECTOR_BIT: u32 = 32_768;

/// What is wrong with record `index`, by the refusal's number and the field that it charges.
pub fn words(number: u32, index: usize, name: &str, field: Field, look: &Look) -> Option<String> {
    match number {
        23 => look.linedef(index).map(|it| of_linedef(index, it, name, field, look)),
        24 => Some(of_sidedef(index, field, look)),
        25 => look.seg(index).map(|it| of_seg(index, it, name, field, look)),
        26 => look.subsector(index).map(|it| of_subsector(index, it, name, look)),
        27 => Some(of_node(index, name, field, look)),
        _ => None,
    }
}

fn of_linedef(index: usize, linedef: Linedef, name: &str, field: Field, look: &Look) -> String {
    let who = format!("linedef {index}{}", look.between(linedef.start, linedef.end));
    match (name, linedef.right, linedef.left) {
        ("start", ..) => format!("{who} starts at vertex {}: draw it again", has(field, "vertex", "vertices")),
        ("end", ..) => format!("{who} ends at vertex {}: draw it again", has(field, "vertex", "vertices")),
        ("right", NO_SIDEDEF, NO_SIDEDEF) => format!("{who} has no side: give it a right side, or delete it"),
        ("right", NO_SIDEDEF, _) => format!("{who} has a left side but no right side: flip it, or give it a right side"),
        ("right", ..) => format!("{who} has right sidedef {}: give it a new right side", has(field, "sidedef", "sidedefs")),
        (_, _, NO_SIDEDEF) => format!("{who} is marked two-sided but has no left side: give it one, or clear the flag"),
        _ => format!("{who} has left sidedef {}: give it a new left side, or none", has(field, "sidedef", "sidedefs")),
    }
}

fn of_sidedef(index: usize, field: Field, look: &Look) -> String {
    let faces = format!("faces sector {}", has(field, "sector", "sectors"));
    match look.linedef_of(index).and_then(|(linedef, is_right)| Some((linedef, is_right, look.linedef(linedef)?))) {
        Some((number, is_right, linedef)) => {
            let side = if is_right { "right" } else { "left" };
            let between = look.between(linedef.start, linedef.end);
            let comma = if between.is_empty() { "," } else { "" };
            format!(
                "sidedef {index}, the {side} side of linedef {number}{between}{comma} {faces}: give it a sector that is there"
            )
        }
        None => format!("sidedef {index}, which no linedef has, {faces}: delete it"),
    }
}

fn of_seg(index: usize, seg: Seg, name: &str, field: Field, look: &Look) -> String {
    let between = look.between(seg.start, seg.end);
    let along = if name == "linedef" { String::new() } else { format!(" along linedef {}", seg.linedef) };
    let who = match between.strip_suffix(',') {
        Some(between) if along.is_empty() => format!("seg {index}{between},"),
        Some(between) => format!("seg {index}{between}{along},"),
        None => format!("seg {index}{along}"),
    };
    match name {
        "start" => format!("{who} starts at vertex {}", has(field, "vertex", "vertices")),
        "end" => format!("{who} ends at vertex {}", has(field, "vertex", "vertices")),
        "linedef" => format!("{who} belongs to linedef {}", has(field, "linedef", "linedefs")),
        _ if field.most == 0 && field.number == 1 => format!("{who} is on the left side of a linedef that has none"),
        _ if field.most == 0 => {
            format!("{who} has direction {}, and along a linedef without a left side it must be 0", field.number)
        }
        _ => format!("{who} has direction {}, and it must be 0 or 1", field.number),
    }
}

fn of_subsector(index: usize, subsector: Subsector, name: &str, look: &Look) -> String {
    let first = look.seg(subsector.first.into());
    let ends = first.and_then(|seg| Some((look.vertex(seg.start)?, look.vertex(seg.end)?)));
    let who = match ends {
        Some((start, end)) => format!("subsector {index}, whose first seg runs {},", from_to(start, end)),
        None => format!("subsector {index}"),
    };
    let [number, first] = [subsector.number, subsector.first].map(usize::from);
    match (name, number) {
        (_, 0) => format!("{who} has no segs, and it must have at least 1"),
        ("number", _) => format!("{who} has {}, and this map has {}", counted(number, "seg"), grouped(look.segs() as i128)),
        _ => {
            let (last, most) = (first + number - 1, look.segs().saturating_sub(1));
            format!("{who} has segs {first} to {last}, and this map has segs 0 to {most}")
        }
    }
}

fn of_node(index: usize, side: &str, field: Field, look: &Look) -> String {
    let line = look.node(index).map(|node| {
        let [x, y, dx, dy] = [node.x, node.y, node.dx, node.dy].map(i32::from);
        format!(", with the partition line {},", from_to((x, y), (x + dx, y + dy)))
    });
    let who = format!("node {index}{}", line.unwrap_or_default());
    let (one, many, bit) = match field.number {
        0..SUBSECTOR_BIT => ("node", "nodes", 0),
        _ => ("subsector", "subsectors", SUBSECTOR_BIT),
    };
    let [number, least, most] = [field.number, field.least, field.most].map(|it| it.saturating_sub(bit));
    let there = range(one, many, least, most);
    format!("{who} has {one} {number} as its {side} child, and this map has {there}")
}

/// `16, and this map has sidedefs 0 to 15`.
fn has(field: Field, one: &str, many: &str) -> String {
    format!("{}, and this map has {}", field.number, range(one, many, field.least, field.most))
}

/// `sidedefs 0 to 640`, `sidedef 0 alone`, `no sidedefs`.
pub fn range(one: &str, many: &str, least: u32, most: u32) -> String {
    match most.checked_sub(least) {
        None => format!("no {many}"),
        Some(0) => format!("{one} {least} alone"),
        Some(_) => format!("{many} {least} to {most}"),
    }
}
