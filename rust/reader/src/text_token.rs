//! The tokens of a text map (W-206): marks, quoted strings and words, with white space and comments between them.

use crate::Refusal;

/// Where a string lies in the text: from behind its opening quote to its closing one; both 0 where a block has none.
#[derive(Clone, Copy, Debug, Default, PartialEq, Eq)]
pub struct Quoted {
    /// Behind the opening quote.
    pub start: usize,
    /// At the closing quote.
    pub end: usize,
}

/// A token, without its place.
#[derive(Clone, Copy, Debug, PartialEq, Eq)]
pub(crate) enum Token<'a> {
    /// One of `{}();=` and `'`.
    Mark(u8),
    /// A string.
    Text(Quoted),
    /// Anything else.
    Word(&'a [u8]),
    /// No token is left.
    End,
}

/// A place in a text, behind the tokens that were taken.
pub(crate) struct Tokens<'a> {
    text: &'a [u8],
    at: usize,
}

/// The grammar's refusal at a place.
pub(crate) const fn unfit(place: usize) -> Refusal {
    Refusal::new(90, 0, place)
}

impl<'a> Tokens<'a> {
    /// All tokens from a place on, as if the text began there.
    pub(crate) fn from(text: &'a [u8], place: usize) -> Self {
        Self { text, at: place.min(text.len()) }
    }

    /// The place behind the last token that was taken.
    pub(crate) fn at(&self) -> usize {
        self.at
    }

    /// The next token and its place. A comment or a string that is not closed is 90 at the text's length.
    pub(crate) fn next(&mut self) -> Result<(usize, Token<'a>), Refusal> {
        self.pass_blanks()?;
        let place = self.at;
        let token = match self.text.get(place) {
            None => Token::End,
            Some(b'"') => Token::Text(self.string()?),
            Some(&byte) if is_mark(byte) => {
                self.at += 1;
                Token::Mark(byte)
            }
            Some(_) => Token::Word(self.word()),
        };
        Ok((place, token))
    }

    /// Takes a token that must be this mark.
    pub(crate) fn mark(&mut self, mark: u8) -> Result<(), Refusal> {
        match self.next()? {
            (_, Token::Mark(it)) if it == mark => Ok(()),
            (place, _) => Err(unfit(place)),
        }
    }

    fn pass_blanks(&mut self) -> Result<(), Refusal> {
        loop {
            match self.text[self.at..] {
                [b' ' | b'\t' | b'\r' | b'\n', ..] => self.at += 1,
                [b'/', b'/', ..] => self.pass_line(),
                [b'/', b'*', ..] => self.pass_comment()?,
                _ => return Ok(()),
            }
        }
    }

    fn pass_line(&mut self) {
        let rest = &self.text[self.at..];
        self.at += rest.iter().position(|&byte| byte == b'\n').unwrap_or(rest.len());
    }

    fn pass_comment(&mut self) -> Result<(), Refusal> {
        let inside = self.at + 2;
        let length = self.text[inside..].windows(2).position(|pair| pair == b"*/").ok_or(unfit(self.text.len()))?;
        self.at = inside + length + 2;
        Ok(())
    }

    /// A string, which begins here. A backslash takes the next byte, whatever it is.
    fn string(&mut self) -> Result<Quoted, Refusal> {
        let start = self.at + 1;
        let mut end = start;
        loop {
            match self.text.get(end) {
                None => return Err(unfit(self.text.len())),
                Some(b'"') => break,
                Some(b'\\') => end += 2,
                Some(_) => end += 1,
            }
        }
        self.at = end + 1;
        Ok(Quoted { start, end })
    }

    /// A word, which begins here: up to white space, a comment or a mark.
    fn word(&mut self) -> &'a [u8] {
        let start = self.at;
        let mut end = start + 1;
        while self.text.get(end).is_some_and(|&byte| !ENDS[usize::from(byte)]) || self.is_lone_slash(end) {
            end += 1;
        }
        self.at = end;
        &self.text[start..end]
    }

    /// Whether there is a slash here that begins no comment.
    fn is_lone_slash(&self, at: usize) -> bool {
        self.text.get(at) == Some(&b'/') && !matches!(self.text.get(at + 1), Some(b'/' | b'*'))
    }
}

const fn is_mark(byte: u8) -> bool {
    matches!(byte, b'{' | b'}' | b'(' | b')' | b';' | b'=' | b'"' | b'\'')
}

/// The bytes at which a word may end.
const ENDS: [bool; 256] = {
    let mut ends = [false; 256];
    let mut byte = 0;
    while byte < 256 {
        ends[byte] = is_mark(byte as u8) || matches!(byte as u8, b' ' | b'\t' | b'\r' | b'\n' | b'/');
        byte += 1;
    }
    ends
};
