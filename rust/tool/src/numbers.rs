//! A list of numbers in a text file, as `renumber` takes it.

use crate::name::shown;
use std::fmt;

/// So many characters of a word that is no number are shown.
const MOST_SHOWN: usize = 20;

/// A word of a list that is no number.
#[derive(Debug, PartialEq, Eq)]
pub struct Flaw {
    /// Its line, from 1 on.
    line: usize,
    /// Its first characters.
    word: String,
}

impl fmt::Display for Flaw {
    fn fmt(&self, out: &mut fmt::Formatter<'_>) -> fmt::Result {
        let Self { line, word } = self;
        write!(out, "line {line}: '{}' is no node's number: 0 to 65535, with white space or commas between them", shown(word))
    }
}

/// All numbers of a text in turn: digits, with any white space and commas between them, before the first and behind the last.
pub fn of(text: &[u8]) -> Result<Vec<u16>, Flaw> {
    let lines = (1..).zip(text.split(|&byte| byte == b'\n'));
    let words = lines.flat_map(|(line, text)| text.split(|&byte| is_between(byte)).map(move |word| (line, word)));
    words.filter(|(_, word)| !word.is_empty()).map(|(line, word)| number(word).ok_or_else(|| flaw(line, word))).collect()
}

fn is_between(byte: u8) -> bool {
    byte.is_ascii_whitespace() || byte == b','
}

/// Digits alone, up to the largest number of 16 bits.
fn number(word: &[u8]) -> Option<u16> {
    let digits = word.iter().all(u8::is_ascii_digit).then_some(word)?;
    std::str::from_utf8(digits).ok()?.parse().ok()
}

fn flaw(line: usize, word: &[u8]) -> Flaw {
    // No character has more than four bytes.
    let start = &word[..word.len().min(4 * MOST_SHOWN)];
    Flaw { line, word: String::from_utf8_lossy(start).chars().take(MOST_SHOWN).collect() }
}

#[cfg(test)]
mod tests {
    use super::*;

    #[test]
    fn white_space_and_commas_stand_between_numbers() {
        for text in ["1 2 65535", "1,2,65535", "\t1\r\n,, 2 ,\n\n65535\n", "0001 02 65535,", ",1\x0C2,65535 "] {
            assert_eq!(of(text.as_bytes()), Ok(vec![1, 2, 65_535]), "{text:?}");
        }
        assert_eq!([&b""[..], b"\n", b" , ,\n"].map(of), [Ok(vec![]), Ok(vec![]), Ok(vec![])]);
    }

    #[test]
    fn what_is_no_number_is_told_with_its_line() {
        for word in ["65536", "-1", "+1", "1.5", "0x5", "five", "1;2", "#", "99999999999999999999", "é"] {
            let flaw = of(format!("1, 2\n3 {word} 4 five").as_bytes()).expect_err("no list");
            assert_eq!((flaw.line, flaw.word.as_str()), (2, word));
        }
        assert_eq!(of(b"\0").expect_err("no list").to_string().split(" is no").next(), Some("line 1: '\\u{0}'"));
        assert_eq!(of(&[b'x'; 100_000]).expect_err("no list").word, "x".repeat(20));
        assert_eq!(of(&[0xFF; 100]).expect_err("no list").word, "\u{FFFD}".repeat(20));
    }
}
