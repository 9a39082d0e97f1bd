//! Values of a text map (W-206): good ones of each form, numbers over their limits, and words that are none.

use crate::Rng;

/// What a field takes.
#[derive(Clone, Copy, Debug, PartialEq, Eq)]
pub enum Form {
    /// Whole numbers.
    Whole,
    /// Decimals and whole numbers.
    Decimal,
    /// Strings.
    Text,
    /// Keywords.
    Flag,
}

/// All of them.
pub(crate) const FORMS: [Form; 4] = [Form::Whole, Form::Decimal, Form::Text, Form::Flag];

/// Whole numbers on the good side of every rule.
pub(crate) const WHOLES: [&str; 24] = [
    "0", "-0", "+0", "1", "-1", "+1", "9", "10", "-10", "100", "2147483647", "+2147483647", "-2147483647", "-2147483648",
    "2147483639", "0x0", "0x7FFFFFFF", "0x7fffffff", "0x000000000000000000001f", "0xabcDEF", "0x00", "999999999", "1000000000",
    "0x8000000",
];

/// Whole numbers past 32 signed bits.
pub(crate) const LONG_WHOLES: [&str; 12] = [
    "2147483648", "+2147483648", "-2147483649", "4294967296", "4294967297", "-4294967296", "9223372036854775808",
    "18446744073709551616", "0x80000000", "0xFFFFFFFF", "0x100000000", "0x00010000000000000000",
];

/// Decimals on the good side of every rule.
pub(crate) const DECIMALS: [&str; 24] = [
    "0.", "0.0", "-0.0", "+0.0", "-0.", "1.", "+1.5", "-1.5", "00.5", "01.", "-007.25", "0.1", "0.2", "0.3", "0.000001",
    "-0.000001", "999999999.999999", "-999999999.999999", "999999999999999.", "000000000000000.", "000000000.000000",
    "123456789012345.", "123456789.123456", "0000000001.12345",
];

/// Decimals of a digit too many, in all or behind the point.
pub(crate) const LONG_DECIMALS: [&str; 9] = [
    "0.0000000",
    "-0.0000001",
    "1.1234567",
    "9999999999.999999",
    "9999999999999999.",
    "0000000000000000.",
    "0000000000.000000",
    "-1234567890123456.",
    "0.00000000000000000000000000000",
];

/// Words that are no value.
pub(crate) const NO_VALUES: [&str; 49] = [
    "00", "01", "-01", "+00", "-00", "09", "0X1", "0x", "-0x1", "+0x1", "0x1g", "0x-1", "0x1.", "0x+1", "x1", ".5", "-.5", "+.5",
    ".", "+", "-", "+-1", "--1", "1-", "1+1", "1e5", "1E5", "1.0e3", "1.5E+3", "1.5e-3", "1.e5", "1.2.3", "1..", "1,5", "1_000",
    "yes", "no", "on", "truefalse", "tru", "truee", "fals", "null", "1a", "a", "0b1", "\u{e9}", "true\u{e9}", "/",
];

/// Strings, with their quotes.
pub(crate) const STRINGS: [&str; 16] = [
    "\"\"", "\"-\"", "\"Doom\"", "\"Heretic\"", "\"Strife\"", "\"Hexen\"", "\"doom\"", "\"Doom \"", "\"a b\tc\r\nd\"",
    "\"\\\"\"", "\"\\\\\"", "\"\\\\\\\"\"", "\"// no comment /* \"", "\"{}();='\"", "\"\u{e9}\u{ff}\"", "\"true\"",
];

/// Keywords in letters of any case.
pub(crate) const KEYWORDS: [&str; 6] = ["true", "false", "TRUE", "False", "tRuE", "fALSE"];

/// A good value of a form.
pub(crate) fn good(form: Form, rng: &mut Rng) -> Vec<u8> {
    let text = match form {
        Form::Whole if rng.once_in(2) => (rng.word() as i32 >> rng.below(32)).to_string(),
        Form::Whole => rng.pick(&WHOLES).to_string(),
        Form::Decimal if rng.once_in(2) => decimal(rng),
        Form::Decimal => rng.pick(&DECIMALS).to_string(),
        Form::Text if rng.once_in(2) => return string(rng),
        Form::Text => rng.pick(&STRINGS).to_string(),
        Form::Flag => rng.pick(&KEYWORDS).to_string(),
    };
    text.into_bytes()
}

/// A decimal of any digits, with up to fifteen of them and six behind the point; every second one has zeros in front, up to all of its digits.
pub fn decimal(rng: &mut Rng) -> String {
    let behind = rng.below(7);
    let before = rng.between(1, 15 - behind);
    let zeros = if rng.once_in(2) { rng.below(before + 1) } else { 0 };
    let mut digits = |count: usize| -> String { (0..count).map(|_| (b'0' + rng.below(10) as u8) as char).collect() };
    let (before, behind) = ("0".repeat(zeros) + &digits(before - zeros), digits(behind));
    format!("{}{before}.{behind}", rng.pick(&["", "", "+", "-"]))
}

/// A string of any bytes, with backslashes before those that need one.
fn string(rng: &mut Rng) -> Vec<u8> {
    let count = rng.below(12);
    let mut text = vec![b'"'];
    for _ in 0..count {
        let byte = if rng.once_in(4) { rng.byte() } else { rng.pick(b"abc \\\"/*") };
        if matches!(byte, b'"' | b'\\') || rng.once_in(6) {
            text.push(b'\\');
        }
        text.push(byte);
    }
    text.push(b'"');
    text
}

/// A number over its limits, of a form that has them.
pub(crate) fn over(form: Form, rng: &mut Rng) -> Vec<u8> {
    let text = match form {
        Form::Whole => rng.pick(&LONG_WHOLES),
        _ => rng.pick(&LONG_DECIMALS),
    };
    text.as_bytes().to_vec()
}
