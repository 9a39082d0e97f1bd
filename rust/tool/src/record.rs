//! The eight lumps of records, and the fields of a record by the names that the C header has, of both games.

use crate::json::Object;
use meshpigeon::{Linedef, Node, Refusal, Sector, Seg, Sidedef, Subsector, Thing, Vertex};
use std::fmt;

/// What a field holds.
#[derive(Debug, PartialEq, Eq)]
pub enum Value {
    /// A number.
    Number(i64),
    /// The arguments of a special, or a box: top, bottom, left, right.
    Numbers(Vec<i64>),
    /// A name in eight bytes, without the zeros at its end. Nothing of it is judged, and every other byte is shown.
    Name(String),
}

macro_rules! numbers {
    ($($form:ty)*) => {$(
        impl From<$form> for Value {
            fn from(number: $form) -> Self {
                Self::Number(number.into())
            }
        }
    )*};
}

numbers!(u8 u16 i16);

impl From<[u8; 5]> for Value {
    fn from(arguments: [u8; 5]) -> Self {
        Self::Numbers(arguments.map(i64::from).to_vec())
    }
}

impl From<[i16; 4]> for Value {
    fn from(sides: [i16; 4]) -> Self {
        Self::Numbers(sides.map(i64::from).to_vec())
    }
}

impl From<[u8; 8]> for Value {
    fn from(name: [u8; 8]) -> Self {
        let end = name.iter().rposition(|&byte| byte != 0).map_or(0, |last| last + 1);
        Self::Name(name[..end].escape_ascii().to_string())
    }
}

impl fmt::Display for Value {
    fn fmt(&self, out: &mut fmt::Formatter<'_>) -> fmt::Result {
        match self {
            Self::Number(number) => number.fmt(out),
            Self::Numbers(numbers) => {
                let numbers: Vec<String> = numbers.iter().map(i64::to_string).collect();
                write!(out, "({})", numbers.join(" "))
            }
            Self::Name(name) => write!(out, "\"{name}\""),
        }
    }
}

/// A record's fields in the header's order, without those that its game lacks.
#[derive(Debug, PartialEq, Eq)]
pub struct Fields(Vec<(&'static str, Value)>);

impl Fields {
    /// All of them in words: `x 1, y 2`.
    pub fn words(&self) -> String {
        self.0.iter().map(|(name, value)| format!("{name} {value}")).collect::<Vec<_>>().join(", ")
    }

    /// Those that another record of the kind has otherwise, before and after: `x 1 -> 2`.
    pub fn changes(&self, after: &Self) -> String {
        let both = self.0.iter().zip(&after.0).filter(|(before, after)| before != after);
        let changes = both.map(|((name, before), (_, after))| format!("{name} {before} -> {after}"));
        changes.collect::<Vec<_>>().join(", ")
    }

    /// All of them as an object.
    pub fn json(&self) -> Object {
        self.0.iter().fold(Object::new(), |object, (name, value)| match value {
            Value::Number(number) => object.number(name, *number),
            Value::Numbers(numbers) => object.numbers(name, numbers),
            Value::Name(text) => object.text(name, text.as_str()),
        })
    }
}

/// A lump of records.
pub struct Kind {
    /// Its name.
    pub name: &'static str,
    /// Its place in a map.
    pub place: usize,
    /// Bytes of a record, in Doom and in Hexen.
    sizes: [usize; 2],
    read: fn(&[u8], usize, bool) -> Result<Fields, Refusal>,
}

impl Kind {
    /// How many records a lump of a game's map has.
    pub fn count(&self, lump: &[u8], hexen: bool) -> usize {
        lump.len() / self.sizes[usize::from(hexen)]
    }

    /// The fields of a record, if the lump has it.
    pub fn read(&self, lump: &[u8], number: usize, hexen: bool) -> Option<Fields> {
        (self.read)(lump, number, hexen).ok()
    }
}

macro_rules! fields {
    ($it:expr; $($field:ident)*) => {
        Fields(vec![$((stringify!($field), Value::from($it.$field))),*])
    };
}

macro_rules! kind {
    ($name:literal $kind:ident $($field:ident)*) => {
        Kind {
            name: $name,
            place: $kind::PLACE,
            sizes: [$kind::SIZE; 2],
            read: |lump, number, _| $kind::read(lump, number).map(|it| fields!(it; $($field)*)),
        }
    };
}

fn thing(lump: &[u8], number: usize, hexen: bool) -> Result<Fields, Refusal> {
    let it = Thing::read(lump, number, hexen)?;
    Ok(match hexen {
        false => fields!(it; x y angle kind flags),
        true => fields!(it; id x y height angle kind flags action args),
    })
}

fn linedef(lump: &[u8], number: usize, hexen: bool) -> Result<Fields, Refusal> {
    let it = Linedef::read(lump, number, hexen)?;
    Ok(match hexen {
        false => fields!(it; start end flags special tag right left),
        true => fields!(it; start end flags special args right left),
    })
}

/// All of them in place order.
pub static KINDS: [Kind; 8] = [
    Kind { name: "THINGS", place: Thing::PLACE, sizes: [Thing::size(false), Thing::size(true)], read: thing },
    Kind { name: "LINEDEFS", place: Linedef::PLACE, sizes: [Linedef::size(false), Linedef::size(true)], read: linedef },
    kind!("SIDEDEFS" Sidedef x_offset y_offset upper lower middle sector),
    kind!("VERTEXES" Vertex x y),
    kind!("SEGS" Seg start end angle linedef direction offset),
    kind!("SSECTORS" Subsector number first),
    kind!("NODES" Node x y dx dy right_box left_box right left),
    kind!("SECTORS" Sector floor ceiling floor_flat ceiling_flat light special tag),
];

#[cfg(test)]
mod tests {
    use super::*;

    #[test]
    fn every_byte_of_a_record_is_seen_in_its_fields() {
        for hexen in [false, true] {
            for kind in &KINDS {
                let old = vec![0; kind.sizes[usize::from(hexen)]];
                for at in 0..old.len() {
                    let mut new = old.clone();
                    new[at] = 0x41;
                    let [before, after] = [&old, &new].map(|lump| kind.read(lump, 0, hexen).expect("a record"));
                    assert_eq!(before.changes(&after).matches("->").count(), 1, "{} byte {at}", kind.name);
                }
                assert!(kind.read(&old, 1, hexen).is_none());
            }
        }
    }

    #[test]
    fn names_show_all_that_is_not_zero_at_their_end() {
        let shown = |name: &[u8; 8]| Value::from(*name).to_string();
        assert_eq!(shown(b"STARTAN3"), r#""STARTAN3""#);
        assert_eq!(shown(b"-\0\0\0\0\0\0\0"), r#""-""#);
        assert_eq!(shown(&[0; 8]), r#""""#);
        assert_eq!(shown(b"STEP1\0z\0"), r#""STEP1\x00z""#);
        assert_eq!(shown(b"A\\B\"\n\xE9\0\0"), r#""A\\B\"\n\xe9""#);
    }
}
