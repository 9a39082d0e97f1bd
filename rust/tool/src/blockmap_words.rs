//! What is said of a BLOCKMAP that is refused, 28: which square of the drawing a cell is, and what is wrong.

use crate::count::{counted, grouped};
use crate::field::Cut;
use crate::look::{from_to, Look, BLOCKMAP};
use crate::record_words::range;
use meshpigeon::Field;

/// What is wrong with the header or a cell, by the field that is charged.
pub fn words(cell: usize, name: &str, field: Field, look: &Look) -> String {
    match name {
        "size" => of_size(cell, look),
        "columns" | "rows" => {
            let (least, most) = (grouped(field.least.into()), grouped(field.most.into()));
            format!("BLOCKMAP has {} {name} by its header, and {least} to {most} are allowed", grouped(field.number.into()))
        }
        "offset" if field.least > field.most => {
            format!(
                "{} has offset {}, and there are no lists behind the offsets",
                of_cell(cell, look),
                grouped(field.number.into())
            )
        }
        "offset" => {
            let [number, least, most] = [field.number, field.least, field.most].map(|word| grouped(word.into()));
            let there = if least == most { format!("word {least} alone") } else { format!("words {least} to {most}") };
            format!("{} has offset {number}, and all lists are in {there}", of_cell(cell, look))
        }
        "zero" => format!("the list of {} begins with {}, and it must begin with 0", of_cell(cell, look), field.number),
        _ => {
            let there = range("linedef", "linedefs", field.least, field.most);
            format!("the list of {} has linedef {}, and this map has {there}", of_cell(cell, look), field.number)
        }
    }
}

fn of_size(cell: usize, look: &Look) -> String {
    let blockmap = look.lump(BLOCKMAP);
    let ends = format!("BLOCKMAP has {}, and ends inside", counted(blockmap.len(), "byte"));
    match Cut::of(blockmap) {
        Cut::Header => format!("{ends} its header"),
        Cut::Offsets => format!("{ends} the offsets of its cells"),
        Cut::Word => format!("{ends} its last word"),
        Cut::List => format!("{ends} the list of {}", of_cell(cell, look).trim_end_matches(',')),
    }
}

/// `cell 3, the square from (376, -8) to (504, 120),`.
fn of_cell(cell: usize, look: &Look) -> String {
    match look.square(cell) {
        Some([corner, opposite]) => format!("cell {cell}, the square {},", from_to(corner, opposite)),
        None => format!("cell {cell}"),
    }
}
