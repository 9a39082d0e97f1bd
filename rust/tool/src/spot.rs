//! A place in a text map as compilers show one: line and column, the line itself, and a caret under the place.

use crate::json::Object;

/// So many bytes of a line are shown on either side of the place; a longer line is cut.
const MOST_SHOWN: usize = 50;

/// A place in a text.
#[derive(Clone, Debug, PartialEq, Eq)]
pub struct Spot {
    /// The line's number, from 1 on.
    pub line: usize,
    /// The byte's number in its line, from 1 on.
    pub column: usize,
    /// The line, cut where it is long, safe to be printed.
    source: String,
    /// What stands before the caret to bring it under the place.
    indent: String,
}

impl Spot {
    /// The place of a byte; one past the last is the text's end.
    pub fn of(text: &[u8], place: usize) -> Self {
        let place = place.min(text.len());
        let start = text[..place].iter().rposition(|&byte| byte == b'\n').map_or(0, |newline| newline + 1);
        let end = text[place..].iter().position(|&byte| byte == b'\n').map_or(text.len(), |length| place + length);
        let line = text[..place].iter().filter(|&&byte| byte == b'\n').count() + 1;
        let first = start.max(place.saturating_sub(MOST_SHOWN));
        let last = end.min(place + MOST_SHOWN);
        let before: String = text[first..place].iter().map(|&byte| shown(byte)).collect();
        let behind: String =
            text[place..last].strip_suffix(b"\r").unwrap_or(&text[place..last]).iter().map(|&byte| shown(byte)).collect();
        let [cut_before, cut_behind] = [first > start, last < end].map(|is_cut| if is_cut { ".." } else { "" });
        let indent = format!("{cut_before}{before}").chars().map(|it| if it == '\t' { it } else { ' ' }).collect();
        Self { line, column: place - start + 1, source: format!("{cut_before}{before}{behind}{cut_behind}"), indent }
    }

    /// `TEXTMAP 3:9`.
    pub fn place(&self) -> String {
        format!("TEXTMAP {}:{}", self.line, self.column)
    }

    /// The line and the caret, to stand below a refusal.
    pub fn below(&self) -> String {
        format!("\n    {}\n    {}^", self.source, self.indent)
    }

    /// The place as an object.
    pub fn json(&self) -> Object {
        Object::new().count("line", self.line).count("column", self.column).text("source", self.source.as_str())
    }
}

/// A byte as it may be printed: tabs and what ASCII shows as they are, everything else spelled out.
fn shown(byte: u8) -> String {
    match byte {
        b'\t' | b' '..=b'~' => char::from(byte).to_string(),
        _ => format!("\\x{byte:02x}"),
    }
}

#[cfg(test)]
mod tests {
    use super::*;

    fn seen(text: &[u8], place: usize) -> (usize, usize, String) {
        let spot = Spot::of(text, place);
        (spot.line, spot.column, spot.below())
    }

    #[test]
    fn the_caret_stands_under_the_place() {
        assert_eq!(seen(b"a = 1;\nb = 01;\n", 11), (2, 5, "\n    b = 01;\n        ^".to_string()));
        assert_eq!(seen(b"a", 0), (1, 1, "\n    a\n    ^".to_string()));
        assert_eq!(seen(b"a", 1), (1, 2, "\n    a\n     ^".to_string()));
        assert_eq!(seen(b"", 0), (1, 1, "\n    \n    ^".to_string()));
        assert_eq!(seen(b"a\n", 2), (2, 1, "\n    \n    ^".to_string()));
    }

    #[test]
    fn tabs_keep_the_caret_in_its_place_and_line_ends_are_not_shown() {
        assert_eq!(seen(b"\t\tx = y;\r\n", 6), (1, 7, "\n    \t\tx = y;\n    \t\t    ^".to_string()));
    }

    #[test]
    fn bytes_that_a_terminal_would_obey_are_spelled_out() {
        assert_eq!(seen(b"\x1b[2J\xe9 = 01;", 8), (1, 9, "\n    \\x1b[2J\\xe9 = 01;\n                  ^".to_string()));
    }

    #[test]
    fn a_long_line_is_cut_around_the_place() {
        let text = [vec![b'a'; 1_000], b"!".to_vec(), vec![b'b'; 1_000]].concat();
        let (line, column, below) = seen(&text, 1_000);
        assert_eq!((line, column), (1, 1_001));
        let source = format!("..{}!{}..", "a".repeat(50), "b".repeat(49));
        assert_eq!(below, format!("\n    {source}\n    {}^", " ".repeat(52)));
    }
}
