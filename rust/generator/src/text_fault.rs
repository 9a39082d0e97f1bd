//! Faults of a text map (W-206) whose number and place are known.

use crate::text::{written, Blanks, Kind, Piece, TextSpec, KINDS};
use crate::text_value::{good, over, Form, FORMS, NO_VALUES};
use crate::Rng;
use reader::Refusal;

/// A text with a fault.
pub(crate) struct Faulty {
    pub(crate) label: &'static str,
    pub(crate) text: Vec<u8>,
    pub(crate) places: Vec<usize>,
    pub(crate) refusal: Refusal,
}

/// Words that are no identifier.
const NO_NAMES: [&str; 12] = ["1a", "0", "-a", "a-b", "a.b", "a/b", "/", "\u{e9}", "a\u{e9}", "+", "a*", "\\"];

/// Ends that close nothing.
const UNCLOSED: [&str; 9] = ["\"", "\"abc", "\"\\\"", "\"a\\", "/*", "/* *", "/*/", "/* // \n", "\"/* */ //"];

/// A good text, longer by a block, with one fault in it.
pub(crate) fn any_fault(spec: &TextSpec, blanks: Blanks, rng: &mut Rng) -> Faulty {
    let mut spec = spec.clone();
    let block = spec.pieces.len();
    spec.add_block(rng.below(5), rng);
    match rng.below(8) {
        0 => missing(spec, block, blanks, rng),
        1 => cut_short(&spec, blanks, rng),
        2 => unclosed(&spec, blanks, rng),
        3 => stray(spec, blanks, rng),
        4 => unfit(spec, blanks, rng),
        _ => bad_value(spec, blanks, rng),
    }
}

/// The text with what follows the faulty piece as it is, cut off, or followed by anything.
fn finished(label: &'static str, pieces: &[Piece], at: usize, number: u32, blanks: Blanks, rng: &mut Rng) -> Faulty {
    let kept = if rng.once_in(3) { &pieces[..=at] } else { pieces };
    let (mut text, places) = written(kept, blanks, rng);
    if rng.once_in(3) {
        let count = rng.below(9);
        text.push(b' ');
        text.extend(rng.bytes(count));
    }
    Faulty { label, text, refusal: Refusal::new(number, 0, places[at]), places }
}

/// 92: the last block without one of the fields that it must have.
fn missing(mut spec: TextSpec, block: usize, blanks: Blanks, rng: &mut Rng) -> Faulty {
    let Piece::Name(name) = &spec.pieces[block] else { unreachable!("a block begins with its name") };
    let kind: &Kind = KINDS.iter().find(|kind| kind.name.as_bytes().eq_ignore_ascii_case(name)).expect("a known kind");
    let required: Vec<&str> = kind.fields.iter().filter(|field| field.2).map(|field| field.0).collect();
    let gone = rng.pick(&required).as_bytes();
    let is_gone = |group: &[Piece]| matches!(&group[0], Piece::Name(name) if name.eq_ignore_ascii_case(gone));
    let end = spec.pieces.len() - 1;
    let fields = spec.pieces[block + 2..end].chunks(4).filter(|group| !is_gone(group)).collect::<Vec<_>>().concat();
    spec.pieces.splice(block + 2..end, fields);
    let at = spec.pieces.len() - 1;
    finished("field missing", &spec.pieces, at, 92, blanks, rng)
}

/// Whether a text may end before a piece.
fn may_end(pieces: &[Piece], at: usize) -> bool {
    let opened = pieces[..at].iter().filter(|piece| **piece == Piece::Mark(b'{')).count();
    let closed = pieces[..at].iter().filter(|piece| **piece == Piece::Mark(b'}')).count();
    opened == closed && (at == 0 || matches!(pieces[at - 1], Piece::Mark(b'}' | b';')))
}

/// 90 at the end, inside a statement.
fn cut_short(spec: &TextSpec, blanks: Blanks, rng: &mut Rng) -> Faulty {
    let ends: Vec<usize> = (0..spec.pieces.len()).filter(|&at| !may_end(&spec.pieces, at)).collect();
    let (text, places) = written(&spec.pieces[..rng.pick(&ends)], blanks, rng);
    Faulty { label: "text cut short", refusal: Refusal::new(90, 0, text.len()), text, places }
}

/// 90 at the end, for a string or a comment that is not closed.
fn unclosed(spec: &TextSpec, blanks: Blanks, rng: &mut Rng) -> Faulty {
    let (mut text, places) = written(&spec.pieces[..rng.below(spec.pieces.len() + 1)], blanks, rng);
    text.extend_from_slice(rng.pick(&UNCLOSED).as_bytes());
    Faulty { label: "string or comment not closed", refusal: Refusal::new(90, 0, text.len()), text, places }
}

/// 90 at a mark that fits nowhere.
fn stray(mut spec: TextSpec, blanks: Blanks, rng: &mut Rng) -> Faulty {
    let at = rng.below(spec.pieces.len() + 1);
    spec.pieces.insert(at, Piece::Unfit(vec![rng.pick(b"()'")]));
    finished("stray mark", &spec.pieces, at, 90, blanks, rng)
}

/// 90 at a token in the place of another.
fn unfit(mut spec: TextSpec, blanks: Blanks, rng: &mut Rng) -> Faulty {
    let at = rng.below(spec.pieces.len());
    let is_inside = spec.pieces[..at].iter().rev().find(|it| matches!(it, Piece::Mark(b'{' | b'}'))) == Some(&Piece::Mark(b'{'));
    let others: &[&str] = match &spec.pieces[at] {
        Piece::Name(_) if is_inside => &["=", ";", "{", "\"a\"", "7", "a-b"],
        Piece::Name(_) => &["=", ";", "{", "}", "\"a\"", "7", "a-b"],
        Piece::Mark(b'=') if is_inside => &["{", ";", "}", "\"a\"", "7", "a"],
        Piece::Mark(b'=' | b'{') => &[";", "}", "\"a\"", "7", "a"],
        Piece::Mark(b'}') => &["=", ";", "{", "\"a\"", "7"],
        Piece::Mark(_) => &["=", "{", "}", "\"a\"", "7", "a"],
        Piece::Value(..) | Piece::Unfit(_) => &["=", ";", "{", "}", "a"],
    };
    let is_name = matches!(spec.pieces[at], Piece::Name(_));
    let other = if is_name && rng.once_in(2) { rng.pick(&NO_NAMES) } else { rng.pick(others) };
    spec.pieces[at] = Piece::Unfit(other.as_bytes().to_vec());
    finished("unfit token", &spec.pieces, at, 90, blanks, rng)
}

/// 90 or 91 at a value: no value, one of another kind, or one over its limits.
fn bad_value(mut spec: TextSpec, blanks: Blanks, rng: &mut Rng) -> Faulty {
    let values: Vec<usize> = (0..spec.pieces.len()).filter(|&at| matches!(spec.pieces[at], Piece::Value(..))).collect();
    let at = rng.pick(&values);
    let Piece::Value(asked, _) = spec.pieces[at] else { unreachable!("a value") };
    let given = if rng.once_in(3) { asked.unwrap_or(Form::Decimal) } else { rng.pick(&FORMS) };
    let is_number = matches!(given, Form::Whole | Form::Decimal);
    let fits = asked.is_none_or(|asked| asked == given || (asked == Form::Decimal && given == Form::Whole));
    let (label, number, bytes) = match rng.below(4) {
        0 | 1 if is_number => ("number over its limits", if fits { 91 } else { 90 }, over(given, rng)),
        1 | 2 if !fits => ("value of another kind", 90, good(given, rng)),
        _ => ("no value", 90, rng.pick(&NO_VALUES).as_bytes().to_vec()),
    };
    spec.pieces[at] = Piece::Unfit(bytes);
    finished(label, &spec.pieces, at, number, blanks, rng)
}
