//! The values of a text map (W-206): whole numbers, decimals, strings and the two keywords.

use crate::text_token::{unfit, Quoted, Token};
use crate::Refusal;

/// The most digits of a decimal, in all and behind its point.
const MOST_DIGITS: usize = 15;
const MOST_PLACES: usize = 6;

/// The powers of ten that a decimal's digits are divided by.
const POWERS: [f64; MOST_PLACES + 1] = [1.0, 10.0, 100.0, 1_000.0, 10_000.0, 100_000.0, 1_000_000.0];

/// A value that was read.
#[derive(Clone, Copy, Debug, PartialEq)]
pub(crate) enum Value {
    /// A whole number.
    Whole(i32),
    /// A decimal.
    Decimal(f64),
    /// A string.
    Text(Quoted),
    /// A keyword.
    Flag(bool),
}

/// What a field takes.
#[derive(Clone, Copy, Debug, PartialEq, Eq)]
pub(crate) enum Form {
    /// Whole numbers.
    Whole,
    /// Decimals and whole numbers.
    Decimal,
    /// Strings.
    Text,
    /// Keywords.
    Flag,
}

impl Form {
    /// Whether a number, a string or a keyword of this form may stand where another form is asked for.
    fn fits(self, asked: Self) -> bool {
        self == asked || (self == Self::Whole && asked == Self::Decimal)
    }
}

/// The value that a token is, for a field of a form, or for an unknown one: 90 where it is none or does not fit, else 91 where a number is over its
/// limits.
pub(crate) fn value_of(place: usize, token: Token, asked: Option<Form>) -> Result<Value, Refusal> {
    let (form, value) = match token {
        Token::Text(it) => (Form::Text, Some(Value::Text(it))),
        Token::Word(word) => word_value(word).ok_or(unfit(place))?,
        Token::Mark(_) | Token::End => return Err(unfit(place)),
    };
    if asked.is_some_and(|asked| !form.fits(asked)) {
        return Err(unfit(place));
    }
    value.ok_or(Refusal::new(91, 0, place))
}

/// The form of a word, and its value if it keeps to its limits; none for a word that is no value.
fn word_value(word: &[u8]) -> Option<(Form, Option<Value>)> {
    if word.eq_ignore_ascii_case(b"true") {
        return Some((Form::Flag, Some(Value::Flag(true))));
    }
    if word.eq_ignore_ascii_case(b"false") {
        return Some((Form::Flag, Some(Value::Flag(false))));
    }
    if let Some(digits) = word.strip_prefix(b"0x") {
        let is_good = !digits.is_empty() && digits.iter().all(u8::is_ascii_hexdigit);
        return is_good.then(|| (Form::Whole, hexadecimal(digits).map(Value::Whole)));
    }
    let (is_negative, digits) = match word {
        [b'-', rest @ ..] => (true, rest),
        [b'+', rest @ ..] => (false, rest),
        _ => (false, word),
    };
    match digits.iter().position(|byte| !byte.is_ascii_digit()) {
        None => whole_form(digits).then(|| (Form::Whole, whole(is_negative, digits).map(Value::Whole))),
        Some(point) if point > 0 && digits[point] == b'.' && digits[point + 1..].iter().all(u8::is_ascii_digit) => {
            Some((Form::Decimal, decimal(is_negative, &digits[..point], &digits[point + 1..]).map(Value::Decimal)))
        }
        Some(_) => None,
    }
}

/// A whole number has digits, and no 0 before others.
fn whole_form(digits: &[u8]) -> bool {
    digits == b"0" || digits.first().is_some_and(|&first| first != b'0')
}

fn whole(is_negative: bool, digits: &[u8]) -> Option<i32> {
    let size = digits.iter().try_fold(0_i64, |sum, digit| {
        let sum = 10 * sum + i64::from(digit - b'0');
        (sum <= 1 << 31).then_some(sum)
    })?;
    i32::try_from(if is_negative { -size } else { size }).ok()
}

fn hexadecimal(digits: &[u8]) -> Option<i32> {
    digits.iter().try_fold(0_i32, |sum, &digit| {
        let digit = (digit as char).to_digit(16)? as i32;
        (sum <= i32::MAX >> 4).then_some(sum << 4 | digit)
    })
}

fn decimal(is_negative: bool, before: &[u8], behind: &[u8]) -> Option<f64> {
    if before.len() + behind.len() > MOST_DIGITS || behind.len() > MOST_PLACES {
        return None;
    }
    let digits = before.iter().chain(behind).fold(0_u64, |sum, digit| 10 * sum + u64::from(digit - b'0'));
    let size = digits as f64 / POWERS[behind.len()];
    Some(if is_negative { -size } else { size })
}
