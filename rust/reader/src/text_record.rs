//! The five kinds of block of a text map (W-206), with the fields, values and defaults of document 002.

use crate::text_token::Quoted;
use crate::text_value::{Form, Value};

/// A field of a block.
pub(crate) struct Field {
    name: &'static str,
    /// What it takes.
    pub(crate) form: Form,
    is_required: bool,
}

/// More fields than any kind has.
const MOST_FIELDS: usize = 40;

/// The values of one block, by the places of its kind's fields.
#[derive(Clone, Copy)]
pub(crate) struct Values {
    /// A bit for each field that has a value.
    given: u64,
    values: [Value; MOST_FIELDS],
}

impl Values {
    /// No values yet.
    pub(crate) const fn new() -> Self {
        Self { given: 0, values: [Value::Flag(false); MOST_FIELDS] }
    }

    /// Forgets all values.
    pub(crate) fn clear(&mut self) {
        self.given = 0;
    }

    /// Gives a field a value, in place of an earlier one.
    pub(crate) fn put(&mut self, at: usize, value: Value) {
        self.given |= 1 << at;
        self.values[at] = value;
    }

    /// Whether a field has a value.
    fn has(&self, at: usize) -> bool {
        self.given >> at & 1 == 1
    }

    /// Whether all fields without a default have values.
    pub(crate) fn is_whole(&self, fields: &[Field]) -> bool {
        fields.iter().enumerate().all(|(at, field)| !field.is_required || self.has(at))
    }

    fn get<T: Held>(&self, at: usize, default: Option<T>) -> T {
        let given = self.has(at).then(|| T::of(self.values[at])).flatten();
        given.or(default).unwrap_or_default()
    }
}

/// The field of a name, in letters of either case.
pub(crate) fn field_of(fields: &[Field], name: &[u8]) -> Option<usize> {
    fields.iter().position(|field| field.name.as_bytes().eq_ignore_ascii_case(name))
}

/// What a field of a record may hold.
trait Held: Default {
    const FORM: Form;
    fn of(value: Value) -> Option<Self>;
}

impl Held for i32 {
    const FORM: Form = Form::Whole;
    fn of(value: Value) -> Option<Self> {
        if let Value::Whole(it) = value {
            Some(it)
        } else {
            None
        }
    }
}

impl Held for f64 {
    const FORM: Form = Form::Decimal;
    fn of(value: Value) -> Option<Self> {
        match value {
            Value::Decimal(it) => Some(it),
            Value::Whole(it) => Some(it.into()),
            _ => None,
        }
    }
}

impl Held for bool {
    const FORM: Form = Form::Flag;
    fn of(value: Value) -> Option<Self> {
        if let Value::Flag(it) = value {
            Some(it)
        } else {
            None
        }
    }
}

impl Held for Quoted {
    const FORM: Form = Form::Text;
    fn of(value: Value) -> Option<Self> {
        if let Value::Text(it) = value {
            Some(it)
        } else {
            None
        }
    }
}

/// A record with its table: each field with document 002's name, what it holds, and its default or none.
macro_rules! record {
    ($(#[$about:meta])* $record:ident $fields:ident { $($field:ident $name:literal $form:ty = $default:expr;)* }) => {
        $(#[$about])*
        #[derive(Clone, Copy, Debug, PartialEq)]
        pub struct $record {
            $(#[doc = concat!("Document 002's `", $name, "`.")] pub $field: $form,)*
        }

        pub(crate) static $fields: &[Field] = &[$({
            let default: Option<$form> = $default;
            Field { name: $name, form: <$form as Held>::FORM, is_required: default.is_none() }
        }),*];

        impl $record {
            pub(crate) fn of(values: &Values) -> Self {
                let mut places = 0..;
                let mut place = || places.next().unwrap_or_default();
                Self { $($field: values.get(place(), $default)),* }
            }
        }
    };
}

const NONE: Option<Quoted> = Some(Quoted { start: 0, end: 0 });

record! {
    /// A vertex block.
    TextVertex VERTEX {
        x "x" f64 = None;
        y "y" f64 = None;
    }
}

record! {
    /// A linedef block.
    TextLinedef LINEDEF {
        id "id" i32 = Some(-1);
        v1 "v1" i32 = None;
        v2 "v2" i32 = None;
        blocking "blocking" bool = Some(false);
        blockmonsters "blockmonsters" bool = Some(false);
        twosided "twosided" bool = Some(false);
        dontpegtop "dontpegtop" bool = Some(false);
        dontpegbottom "dontpegbottom" bool = Some(false);
        secret "secret" bool = Some(false);
        blocksound "blocksound" bool = Some(false);
        dontdraw "dontdraw" bool = Some(false);
        mapped "mapped" bool = Some(false);
        passuse "passuse" bool = Some(false);
        translucent "translucent" bool = Some(false);
        jumpover "jumpover" bool = Some(false);
        blockfloaters "blockfloaters" bool = Some(false);
        playercross "playercross" bool = Some(false);
        playeruse "playeruse" bool = Some(false);
        monstercross "monstercross" bool = Some(false);
        monsteruse "monsteruse" bool = Some(false);
        impact "impact" bool = Some(false);
        playerpush "playerpush" bool = Some(false);
        monsterpush "monsterpush" bool = Some(false);
        missilecross "missilecross" bool = Some(false);
        repeatspecial "repeatspecial" bool = Some(false);
        special "special" i32 = Some(0);
        arg0 "arg0" i32 = Some(0);
        arg1 "arg1" i32 = Some(0);
        arg2 "arg2" i32 = Some(0);
        arg3 "arg3" i32 = Some(0);
        arg4 "arg4" i32 = Some(0);
        sidefront "sidefront" i32 = None;
        sideback "sideback" i32 = Some(-1);
        comment "comment" Quoted = NONE;
    }
}

impl TextLinedef {
    /// The same by a namespace whose linedefs have the id 0 where they give none.
    pub(crate) fn under(mut self, values: &Values, namespace: &[u8]) -> Self {
        const WITHOUT_IDS: [&[u8]; 3] = [b"Doom", b"Heretic", b"Strife"];
        if !values.has(0) && WITHOUT_IDS.contains(&namespace) {
            self.id = 0;
        }
        self
    }
}

record! {
    /// A sidedef block.
    TextSidedef SIDEDEF {
        offsetx "offsetx" i32 = Some(0);
        offsety "offsety" i32 = Some(0);
        texturetop "texturetop" Quoted = NONE;
        texturebottom "texturebottom" Quoted = NONE;
        texturemiddle "texturemiddle" Quoted = NONE;
        sector "sector" i32 = None;
        comment "comment" Quoted = NONE;
    }
}

record! {
    /// A sector block.
    TextSector SECTOR {
        heightfloor "heightfloor" i32 = Some(0);
        heightceiling "heightceiling" i32 = Some(0);
        texturefloor "texturefloor" Quoted = None;
        textureceiling "textureceiling" Quoted = None;
        lightlevel "lightlevel" i32 = Some(160);
        special "special" i32 = Some(0);
        id "id" i32 = Some(0);
        comment "comment" Quoted = NONE;
    }
}

record! {
    /// A thing block.
    TextThing THING {
        id "id" i32 = Some(0);
        x "x" f64 = None;
        y "y" f64 = None;
        height "height" f64 = Some(0.0);
        angle "angle" i32 = Some(0);
        r#type "type" i32 = None;
        skill1 "skill1" bool = Some(false);
        skill2 "skill2" bool = Some(false);
        skill3 "skill3" bool = Some(false);
        skill4 "skill4" bool = Some(false);
        skill5 "skill5" bool = Some(false);
        ambush "ambush" bool = Some(false);
        single "single" bool = Some(false);
        dm "dm" bool = Some(false);
        coop "coop" bool = Some(false);
        friendly "friend" bool = Some(false);
        dormant "dormant" bool = Some(false);
        class1 "class1" bool = Some(false);
        class2 "class2" bool = Some(false);
        class3 "class3" bool = Some(false);
        standing "standing" bool = Some(false);
        strifeally "strifeally" bool = Some(false);
        translucent "translucent" bool = Some(false);
        invisible "invisible" bool = Some(false);
        special "special" i32 = Some(0);
        arg0 "arg0" i32 = Some(0);
        arg1 "arg1" i32 = Some(0);
        arg2 "arg2" i32 = Some(0);
        arg3 "arg3" i32 = Some(0);
        arg4 "arg4" i32 = Some(0);
        comment "comment" Quoted = NONE;
    }
}
