//! What the library says of a map's reason, held to its own map check and to what it says with words and room of its own.

use crate::{ask_library, Outcome};
use generator::{Case, Expected, Question};
use meshpigeon::{why, Reason};

/// What is wrong with the library's reason of a map, if anything. With 85 only the words are the map check's; else the verdict is too.
pub(crate) fn fault(case: &Case, told: &Outcome) -> Option<String> {
    let Question::Why { name, words, out } = &case.question else { return None };
    let question = Question::JudgeMap { name: name.clone(), words: words.clone() };
    let judged = ask_library(&Case { question, expected: Expected::Unknown, ..case.clone() });
    let is_short = told.numbers == Err((85, 0, 0));
    if judged.words != told.words || !is_short && judged.numbers != told.numbers {
        return Some(format!("with its reason {told:?}\nthe map check {judged:?}"));
    }
    let (printed, rest) = told.first.split_at(told.printed);
    if is_short && told.printed > 0 || rest != &out[told.printed..] {
        return Some(format!("more than {printed:?} is written: {rest:?}"));
    }
    match judged.numbers {
        Err((30, _, _)) => None,
        _ => whole_fault(&case.bytes, name, (!is_short).then_some(printed), out.len()),
    }
}

/// The same with words and room of the binding's own: it prints these bytes, or where there are none more than there was room for; and a field
/// is outside its range.
fn whole_fault(wad: &[u8], name: &[u8], printed: Option<&[u8]>, room: usize) -> Option<String> {
    let whole = why(wad, name);
    let is_same = printed.map_or(whole.reason.len() > room, |printed| whole.reason == printed);
    let is_outside = match whole.told() {
        Reason::Field(field) => field.number < field.least || field.number > field.most,
        _ => true,
    };
    (!is_same || !is_outside).then(|| format!("printed {printed:?}\nwith its own room {whole:?}"))
}
