//! Text maps (W-206), built of pieces: names, marks and values, put down with white space and comments of any kind between them.

use crate::text_fault::any_fault;
use crate::text_value::{good, Form, FORMS, NO_VALUES, STRINGS};
use crate::{Case, Expected, Question, Rng};
use reader::{Quoted, TextMap};

/// A token of a text.
#[derive(Clone, Debug, PartialEq, Eq)]
pub enum Piece {
    /// An identifier.
    Name(Vec<u8>),
    /// One of `{}=;` where the grammar has it.
    Mark(u8),
    /// A good value, of a form that the field takes; none for an unknown one, which takes any.
    Value(Option<Form>, Vec<u8>),
    /// What fits nowhere, or not there.
    Unfit(Vec<u8>),
}

impl Piece {
    fn bytes(&self) -> &[u8] {
        match self {
            Self::Name(it) | Self::Value(_, it) | Self::Unfit(it) => it,
            Self::Mark(it) => std::slice::from_ref(it),
        }
    }
}

/// A field of a kind: its name, what it takes, and whether it has no default.
pub(crate) type Field = (&'static str, Form, bool);

/// A kind of block: its name and document 002's fields.
pub(crate) struct Kind {
    pub(crate) name: &'static str,
    pub(crate) fields: &'static [Field],
}

const fn whole(name: &'static str) -> Field {
    (name, Form::Whole, false)
}

const fn flag(name: &'static str) -> Field {
    (name, Form::Flag, false)
}

const fn text(name: &'static str) -> Field {
    (name, Form::Text, false)
}

/// The kinds in the order of the counts.
pub(crate) static KINDS: [Kind; 5] = [
    Kind { name: "vertex", fields: &[("x", Form::Decimal, true), ("y", Form::Decimal, true)] },
    Kind {
        name: "linedef",
        fields: &[
            whole("id"),
            ("v1", Form::Whole, true),
            ("v2", Form::Whole, true),
            flag("blocking"),
            flag("blockmonsters"),
            flag("twosided"),
            flag("dontpegtop"),
            flag("dontpegbottom"),
            flag("secret"),
            flag("blocksound"),
            flag("dontdraw"),
            flag("mapped"),
            flag("passuse"),
            flag("translucent"),
            flag("jumpover"),
            flag("blockfloaters"),
            flag("playercross"),
            flag("playeruse"),
            flag("monstercross"),
            flag("monsteruse"),
            flag("impact"),
            flag("playerpush"),
            flag("monsterpush"),
            flag("missilecross"),
            flag("repeatspecial"),
            whole("special"),
            whole("arg0"),
            whole("arg1"),
            whole("arg2"),
            whole("arg3"),
            whole("arg4"),
            ("sidefront", Form::Whole, true),
            whole("sideback"),
            text("comment"),
        ],
    },
    Kind {
        name: "sidedef",
        fields: &[
            whole("offsetx"),
            whole("offsety"),
            text("texturetop"),
            text("texturebottom"),
            text("texturemiddle"),
            ("sector", Form::Whole, true),
            text("comment"),
        ],
    },
    Kind {
        name: "sector",
        fields: &[
            whole("heightfloor"),
            whole("heightceiling"),
            ("texturefloor", Form::Text, true),
            ("textureceiling", Form::Text, true),
            whole("lightlevel"),
            whole("special"),
            whole("id"),
            text("comment"),
        ],
    },
    Kind {
        name: "thing",
        fields: &[
            whole("id"),
            ("x", Form::Decimal, true),
            ("y", Form::Decimal, true),
            ("height", Form::Decimal, false),
            whole("angle"),
            ("type", Form::Whole, true),
            flag("skill1"),
            flag("skill2"),
            flag("skill3"),
            flag("skill4"),
            flag("skill5"),
            flag("ambush"),
            flag("single"),
            flag("dm"),
            flag("coop"),
            flag("friend"),
            flag("dormant"),
            flag("class1"),
            flag("class2"),
            flag("class3"),
            flag("standing"),
            flag("strifeally"),
            flag("translucent"),
            flag("invisible"),
            whole("special"),
            whole("arg0"),
            whole("arg1"),
            whole("arg2"),
            whole("arg3"),
            whole("arg4"),
            text("comment"),
        ],
    },
];

/// Names that are known nowhere; some begin as a known one does, or end so.
const UNKNOWN: [&str; 12] = [
    "user_a",
    "user_x",
    "_",
    "_0",
    "zz",
    "verte",
    "vertexx",
    "x_",
    "namespac",
    "namespaces",
    "v11",
    "a_rather_long_name_that_nobody_knows",
];

/// The name of a block or field in letters of any case.
fn named(name: &str, rng: &mut Rng) -> Piece {
    let bytes = name.bytes();
    Piece::Name(if rng.once_in(2) { bytes.collect() } else { recased(&bytes.collect::<Vec<u8>>(), rng) })
}

/// The same letters, each in either case.
pub(crate) fn recased(bytes: &[u8], rng: &mut Rng) -> Vec<u8> {
    bytes.iter().map(|byte| if rng.once_in(2) { byte.to_ascii_uppercase() } else { byte.to_ascii_lowercase() }).collect()
}

/// An assignment of a good value; where none is known of the name, of any form.
pub(crate) fn assignment(name: &str, form: Option<Form>, rng: &mut Rng) -> Vec<Piece> {
    let given = match form {
        Some(Form::Decimal) => rng.pick(&[Form::Decimal, Form::Whole]),
        Some(form) => form,
        None => rng.pick(&FORMS),
    };
    vec![named(name, rng), Piece::Mark(b'='), Piece::Value(form, good(given, rng)), Piece::Mark(b';')]
}

/// An assignment to a name that is known nowhere.
pub fn unknown_assignment(rng: &mut Rng) -> Vec<Piece> {
    assignment(rng.pick(&UNKNOWN), None, rng)
}

/// A good text under construction.
#[derive(Clone, Debug)]
pub struct TextSpec {
    /// Its tokens.
    pub pieces: Vec<Piece>,
    /// How many blocks of each kind it has.
    pub counts: [usize; 5],
}

/// How a text is put down.
#[derive(Clone, Copy, Debug, PartialEq, Eq)]
pub enum Blanks {
    /// None where none is needed.
    Tight,
    /// As people write.
    Usual,
    /// White space and comments wherever they may be.
    Wild,
}

impl TextSpec {
    /// Any good text of up to so many statements.
    pub fn any(most: usize, rng: &mut Rng) -> Self {
        let mut spec = Self { pieces: Vec::new(), counts: [0; 5] };
        for _ in 0..rng.below(most + 1) {
            match rng.below(12) {
                0 => spec.pieces.extend(namespace(rng)),
                1 => spec.pieces.extend(unknown_assignment(rng)),
                2 => spec.pieces.extend(assignment(rng.pick(&["x", "vertex", "comment", "linedef", "id", "true"]), None, rng)),
                3 => spec.pieces.extend(unknown_block(rng)),
                _ => spec.add_block(rng.below(5), rng),
            }
        }
        spec
    }

    /// A block of a kind behind all that is there: the fields that it must have, and any others, some of them twice.
    pub fn add_block(&mut self, kind: usize, rng: &mut Rng) {
        let Kind { name, fields } = KINDS[kind];
        let mut given: Vec<Vec<Piece>> = Vec::new();
        for &(name, form, _) in fields.iter().filter(|field| field.2) {
            given.push(assignment(name, Some(form), rng));
        }
        for _ in 0..rng.pick(&[0, 0, 1, 2, 5]) {
            let (name, form, _) = rng.pick(fields);
            given.push(assignment(name, Some(form), rng));
        }
        for _ in 0..rng.pick(&[0, 0, 0, 1, 3]) {
            given.push(stranger(kind, rng));
        }
        for at in 1..given.len() {
            given.swap(at, rng.below(at + 1));
        }
        self.pieces.extend([named(name, rng), Piece::Mark(b'{')]);
        self.pieces.extend(given.concat());
        self.pieces.push(Piece::Mark(b'}'));
        self.counts[kind] += 1;
    }

    /// The text, with the place of each piece.
    pub fn written(&self, blanks: Blanks, rng: &mut Rng) -> (Vec<u8>, Vec<usize>) {
        written(&self.pieces, blanks, rng)
    }

    /// The same text with each name and keyword in other letters of the same names.
    pub fn recased(&self, rng: &mut Rng) -> Self {
        let recased = |piece: &Piece, rng: &mut Rng| match piece {
            Piece::Name(name) => Piece::Name(recased(name, rng)),
            Piece::Value(form, word) if word[0].is_ascii_alphabetic() => Piece::Value(*form, recased(word, rng)),
            other => other.clone(),
        };
        Self { pieces: self.pieces.iter().map(|piece| recased(piece, rng)).collect(), counts: self.counts }
    }

    /// The same text with more assignments to unknown names between its statements.
    pub fn with_strangers(&self, rng: &mut Rng) -> Self {
        let mut pieces = Vec::new();
        for piece in [None].into_iter().chain(self.pieces.iter().map(Some)) {
            pieces.extend(piece.cloned());
            let may_stand = matches!(piece, None | Some(Piece::Mark(b'{' | b'}' | b';')));
            if may_stand && rng.once_in(2) {
                pieces.extend(unknown_assignment(rng));
            }
        }
        Self { pieces, counts: self.counts }
    }

    /// What its summary is, with its pieces at these places.
    pub fn summary(&self, places: &[usize]) -> TextMap {
        let mut namespace = Quoted::default();
        let mut depth = 0;
        for (at, piece) in self.pieces.iter().enumerate() {
            match piece {
                Piece::Mark(b'{') => depth += 1,
                Piece::Mark(b'}') => depth -= 1,
                Piece::Name(name) if depth == 0 && name.eq_ignore_ascii_case(b"namespace") => {
                    if let Piece::Value(Some(_), string) = &self.pieces[at + 2] {
                        namespace = Quoted { start: places[at + 2] + 1, end: places[at + 2] + string.len() - 1 };
                    }
                }
                _ => {}
            }
        }
        TextMap { namespace, counts: self.counts }
    }
}

fn namespace(rng: &mut Rng) -> Vec<Piece> {
    let string = rng.pick(&STRINGS[..8]).as_bytes().to_vec();
    vec![named("namespace", rng), Piece::Mark(b'='), Piece::Value(Some(Form::Text), string), Piece::Mark(b';')]
}

/// An assignment in a block of a kind to a name that is not a field of it.
fn stranger(kind: usize, rng: &mut Rng) -> Vec<Piece> {
    let name = any_field(rng);
    let is_known = KINDS[kind].fields.iter().any(|field| field.0 == name);
    match rng.below(4) {
        0 => assignment(rng.pick(&["namespace", "vertex", "linedef"]), None, rng),
        1 if !is_known => assignment(name, None, rng),
        _ => unknown_assignment(rng),
    }
}

/// The name of a field of any kind.
fn any_field(rng: &mut Rng) -> &'static str {
    let fields = KINDS[rng.below(5)].fields;
    rng.pick(fields).0
}

/// A block of a kind that nobody knows, with fields that look known.
fn unknown_block(rng: &mut Rng) -> Vec<Piece> {
    let name = rng.pick(&["user_a", "namespace", "x", "vertexx", "line", "true"]);
    let mut pieces = vec![named(name, rng), Piece::Mark(b'{')];
    for _ in 0..rng.below(4) {
        let name = any_field(rng);
        pieces.extend(assignment(name, None, rng));
    }
    pieces.push(Piece::Mark(b'}'));
    pieces
}

/// Pieces put down one after the other, and where each begins.
pub(crate) fn written(pieces: &[Piece], blanks: Blanks, rng: &mut Rng) -> (Vec<u8>, Vec<usize>) {
    let (mut text, mut places) = (Vec::new(), Vec::new());
    for piece in pieces {
        let is_word = |byte: &u8| !b" \t\r\n{}();=\"'".contains(byte);
        let must_part = text.last().is_some_and(|last| is_word(last) && piece.bytes().first().is_some_and(is_word));
        put_blanks(&mut text, blanks, must_part, rng);
        places.push(text.len());
        text.extend_from_slice(piece.bytes());
        if piece.bytes().ends_with(b"/") {
            text.push(b' '); // lest it begin a comment
        }
    }
    if blanks != Blanks::Tight {
        put_blanks(&mut text, blanks, false, rng);
    }
    (text, places)
}

/// What stands between two tokens; at least something where both are words.
fn put_blanks(text: &mut Vec<u8>, blanks: Blanks, must_part: bool, rng: &mut Rng) {
    let count = match blanks {
        Blanks::Tight => 0,
        Blanks::Usual => rng.below(2),
        Blanks::Wild => rng.below(4),
    };
    for _ in 0..count.max(usize::from(must_part)) {
        let blank: &[u8] = match (blanks, rng.below(10)) {
            (Blanks::Wild, 0) => b"// a line = { \" ;\n",
            (Blanks::Wild, 1) => b"/* some // = { \" ;\r\n /* not inside it */",
            (Blanks::Wild, 2) => b"/**/",
            (Blanks::Wild, 3) => b"//\n",
            (Blanks::Wild, 4) => b"/***//*/ */",
            (_, 5) => b"\t",
            (_, 6) => b"\r\n",
            (_, 7) => b"\n",
            _ => b" ",
        };
        text.extend_from_slice(blank);
    }
}

const BLANKS: [Blanks; 4] = [Blanks::Tight, Blanks::Usual, Blanks::Usual, Blanks::Wild];

/// A text, good, with a fault that is known, or of any bytes.
pub fn text_case(rng: &mut Rng) -> Case {
    let spec = TextSpec::any(rng.pick(&[0, 1, 3, 6, 12]), rng);
    let blanks = rng.pick(&BLANKS);
    match rng.below(10) {
        0..=2 => {
            let (text, places) = spec.written(blanks, rng);
            let expected = Expected::Text(spec.summary(&places));
            asked("good text", text, &places, expected, rng)
        }
        3..=6 => {
            let fault = any_fault(&spec, blanks, rng);
            asked(fault.label, fault.text, &fault.places, Expected::Refused(fault.refusal), rng)
        }
        7 | 8 => {
            let (mut text, places) = spec.written(blanks, rng);
            mutate(&mut text, rng);
            asked("mutated text", text, &places, Expected::Unknown, rng)
        }
        _ => {
            let pieces: Vec<Piece> = (0..rng.below(24)).map(|_| any_piece(rng)).collect();
            let (text, places) = written(&pieces, blanks, rng);
            asked("any tokens", text, &places, Expected::Unknown, rng)
        }
    }
}

/// Any token, more often those that make statements.
fn any_piece(rng: &mut Rng) -> Piece {
    match rng.below(12) {
        0..=3 => Piece::Mark(rng.pick(b"{}==;;")),
        4 => Piece::Unfit(vec![rng.pick(b"()'/\"*\\")]),
        5 => Piece::Unfit(rng.pick(&NO_VALUES).as_bytes().to_vec()),
        6 => named(KINDS[rng.below(5)].name, rng),
        7 => named(rng.pick(&["namespace", "zz"]), rng),
        8 => Piece::Value(None, good(rng.pick(&FORMS), rng)),
        _ => named(any_field(rng), rng),
    }
}

/// Changes a few bytes of a text: another byte, one more, one less, some of it twice, some of it gone.
pub(crate) fn mutate(text: &mut Vec<u8>, rng: &mut Rng) {
    for _ in 0..rng.between(1, 4) {
        let at = rng.below(text.len() + 1);
        let byte = if rng.once_in(4) { rng.byte() } else { rng.pick(b"{}();=\"'/*\\ \n01.-+xX_aE") };
        let end = (at + rng.between(1, 12)).min(text.len());
        match rng.below(5) {
            0 => text.insert(at, byte),
            1 if at < text.len() => drop(text.remove(at)),
            2 if at < text.len() => text[at] = byte,
            3 => drop(text.drain(at..end)),
            _ => {
                let part = text[at..end].to_vec();
                text.splice(at..at, part);
            }
        }
    }
}

/// The question on a text, with some places in it and beside it.
pub(crate) fn asked(label: impl Into<String>, text: Vec<u8>, tokens: &[usize], expected: Expected, rng: &mut Rng) -> Case {
    let mut places = vec![0, text.len(), rng.below(text.len() + 1), rng.pick(&[text.len() + 1, usize::MAX, usize::MAX - 1])];
    for _ in 0..2 {
        places.push(tokens.get(rng.below(tokens.len() + 1)).copied().unwrap_or(1));
    }
    let (one, other) = (rng.below(text.len() + 1), rng.below(text.len() + 1));
    let doom = text.windows(4).position(|part| part == b"Doom").unwrap_or(0);
    let namespace = match rng.below(6) {
        0 => (one, other),
        1 => (0, usize::MAX),
        2 => (usize::MAX, usize::MAX),
        3 => (doom, doom + 7),
        _ => (doom, doom + 4),
    };
    Case::new(label, text, Question::Text { places, namespace }, expected)
}
