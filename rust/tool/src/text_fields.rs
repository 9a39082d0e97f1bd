//! The blocks of a text map with their fields by the names of the format, in words and as objects.

use crate::json::Object;
use meshpigeon::text::{Block, Quoted};

/// What a field holds.
enum Held {
    Whole(i32),
    Decimal(f64),
    Flag(bool),
    /// A string as written, with what is not printed spelled out; none where there is none.
    Text(Option<String>),
}

/// What a field of a block may be.
trait Holds {
    fn held(self, text: &[u8]) -> Held;
}

impl Holds for i32 {
    fn held(self, _: &[u8]) -> Held {
        Held::Whole(self)
    }
}

impl Holds for f64 {
    fn held(self, _: &[u8]) -> Held {
        Held::Decimal(self)
    }
}

impl Holds for bool {
    fn held(self, _: &[u8]) -> Held {
        Held::Flag(self)
    }
}

impl Holds for Quoted {
    fn held(self, text: &[u8]) -> Held {
        Held::Text(string(self, text))
    }
}

/// A string of a text, with what is not printed spelled out.
pub fn string(quoted: Quoted, text: &[u8]) -> Option<String> {
    quoted.of(text).map(|string| string.escape_ascii().to_string())
}

/// A block's kind, by the number of the library's enum, and its fields.
pub struct Fields {
    /// The kind's name.
    pub kind: &'static str,
    /// Its place among the counts.
    pub place: usize,
    fields: Vec<(&'static str, Held)>,
}

/// A field's name in the format: Rust and C spell two of them otherwise.
fn name_of(field: &'static str) -> &'static str {
    match field {
        "r#type" => "type",
        "friendly" => "friend",
        _ => field,
    }
}

macro_rules! fields {
    ($text:expr, $it:expr; $($field:ident)*) => {
        vec![$((name_of(stringify!($field)), $it.$field.held($text))),*]
    };
}

impl Fields {
    /// Those of a block of this text.
    pub fn of(block: Block, text: &[u8]) -> Self {
        let (kind, place, fields) = match block {
            Block::Vertex(it) => ("vertex", 0, fields!(text, it; x y)),
            Block::Linedef(it) => (
                "linedef",
                1,
                fields!(text, it; id v1 v2 blocking blockmonsters twosided dontpegtop dontpegbottom secret blocksound dontdraw mapped passuse translucent jumpover blockfloaters playercross playeruse monstercross monsteruse impact playerpush monsterpush missilecross repeatspecial special arg0 arg1 arg2 arg3 arg4 sidefront sideback comment),
            ),
            Block::Sidedef(it) => {
                ("sidedef", 2, fields!(text, it; offsetx offsety texturetop texturebottom texturemiddle sector comment))
            }
            Block::Sector(it) => (
                "sector",
                3,
                fields!(text, it; heightfloor heightceiling texturefloor textureceiling lightlevel special id comment),
            ),
            Block::Thing(it) => (
                "thing",
                4,
                fields!(text, it; id x y height angle r#type skill1 skill2 skill3 skill4 skill5 ambush single dm coop friendly dormant class1 class2 class3 standing strifeally translucent invisible special arg0 arg1 arg2 arg3 arg4 comment),
            ),
        };
        Self { kind, place, fields }
    }

    /// In words: numbers and strings by their names, and the flags that are set.
    pub fn words(&self) -> String {
        let word = |(name, held): &(&str, Held)| match held {
            Held::Whole(number) => Some(format!("{name} {number}")),
            Held::Decimal(number) => Some(format!("{name} {number}")),
            Held::Flag(is_set) => is_set.then(|| name.to_string()),
            Held::Text(string) => string.as_ref().map(|string| format!("{name} \"{string}\"")),
        };
        self.fields.iter().filter_map(word).collect::<Vec<_>>().join(", ")
    }

    /// All of them as an object; a string that is not there is null.
    pub fn json(&self) -> Object {
        self.fields.iter().fold(Object::new(), |object, (name, held)| match held {
            Held::Whole(number) => object.number(name, i64::from(*number)),
            Held::Decimal(number) => object.decimal(name, *number),
            Held::Flag(is_set) => object.flag(name, *is_set),
            Held::Text(string) => object.text(name, string.as_deref()),
        })
    }
}
