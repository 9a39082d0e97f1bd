//! The tokens of a text map, for the tool's own look at a text that the library refused: marks, strings and words, with blanks and
//! comments between them.

/// A token and where it begins.
#[derive(Clone, Copy, Debug, PartialEq, Eq)]
pub struct Token<'a> {
    /// The place of its first byte.
    pub place: usize,
    /// What it is.
    pub form: Form<'a>,
}

/// What a token is.
#[derive(Clone, Copy, Debug, PartialEq, Eq)]
pub enum Form<'a> {
    /// One of `{}();=` and `'`.
    Mark(u8),
    /// A string, without its quotes.
    Text(&'a [u8]),
    /// Anything else.
    Word(&'a [u8]),
    /// No token is left.
    End,
    /// A string that is not closed.
    OpenText,
    /// A comment that is not closed.
    OpenComment,
}

/// The tokens of a text, one after the other.
pub struct Tokens<'a> {
    text: &'a [u8],
    at: usize,
}

impl<'a> Tokens<'a> {
    /// All of them.
    pub fn of(text: &'a [u8]) -> Self {
        Self { text, at: 0 }
    }

    /// The next one. What is not closed reaches to the end.
    pub fn next(&mut self) -> Token<'a> {
        if let Some(place) = self.pass_blanks() {
            return Token { place, form: Form::OpenComment };
        }
        let place = self.at;
        let form = match self.text.get(place) {
            None => Form::End,
            Some(b'"') => self.string(),
            Some(&byte) if is_mark(byte) => {
                self.at += 1;
                Form::Mark(byte)
            }
            Some(_) => self.word(),
        };
        Token { place, form }
    }

    /// Passes white space and comments, and answers where a comment opened that is not closed.
    fn pass_blanks(&mut self) -> Option<usize> {
        loop {
            match self.text[self.at..] {
                [b' ' | b'\t' | b'\r' | b'\n', ..] => self.at += 1,
                [b'/', b'/', ..] => self.at += self.text[self.at..].iter().take_while(|&&byte| byte != b'\n').count(),
                [b'/', b'*', ..] => {
                    let (opened, inside) = (self.at, self.at + 2);
                    let Some(length) = self.text[inside..].windows(2).position(|pair| pair == b"*/") else {
                        self.at = self.text.len();
                        return Some(opened);
                    };
                    self.at = inside + length + 2;
                }
                _ => return None,
            }
        }
    }

    /// A string; a backslash takes the next byte, whatever it is.
    fn string(&mut self) -> Form<'a> {
        let start = self.at + 1;
        let mut end = start;
        loop {
            match self.text.get(end) {
                None => {
                    self.at = self.text.len();
                    return Form::OpenText;
                }
                Some(b'"') => break,
                Some(b'\\') => end += 2,
                Some(_) => end += 1,
            }
        }
        self.at = end + 1;
        Form::Text(&self.text[start..end])
    }

    /// A word: up to white space, a comment or a mark.
    fn word(&mut self) -> Form<'a> {
        let (start, mut end) = (self.at, self.at + 1);
        while self.text.get(end).is_some_and(|&byte| !is_mark(byte) && byte != b'"' && !is_blank(byte)) && !self.is_comment(end) {
            end += 1;
        }
        self.at = end;
        Form::Word(&self.text[start..end])
    }

    fn is_comment(&self, at: usize) -> bool {
        matches!(self.text[at..], [b'/', b'/' | b'*', ..])
    }
}

fn is_blank(byte: u8) -> bool {
    matches!(byte, b' ' | b'\t' | b'\r' | b'\n')
}

fn is_mark(byte: u8) -> bool {
    matches!(byte, b'{' | b'}' | b'(' | b')' | b';' | b'=' | b'\'')
}

#[cfg(test)]
mod tests {
    use super::*;

    fn all(text: &[u8]) -> Vec<Token<'_>> {
        let mut tokens = Tokens::of(text);
        let mut all = Vec::new();
        loop {
            all.push(tokens.next());
            if matches!(all.last(), Some(Token { form: Form::End | Form::OpenText | Form::OpenComment, .. })) {
                return all;
            }
        }
    }

    #[test]
    fn tokens_have_their_places() {
        let forms: Vec<(usize, Form)> = all(b"a/b=\"c\\\"\";// d\n/* e */f").iter().map(|it| (it.place, it.form)).collect();
        let expected = [
            (0, Form::Word(b"a/b")),
            (3, Form::Mark(b'=')),
            (4, Form::Text(b"c\\\"")),
            (9, Form::Mark(b';')),
            (22, Form::Word(b"f")),
            (23, Form::End),
        ];
        assert_eq!(forms, expected);
    }

    #[test]
    fn what_is_not_closed_is_told_where_it_opened() {
        for (text, place, form) in [
            (&b"a = \"b"[..], 4, Form::OpenText),
            (b"a = \"b\\", 4, Form::OpenText),
            (b"a = \"b\\\"", 4, Form::OpenText),
            (b"a /* b *", 2, Form::OpenComment),
            (b"a /*/", 2, Form::OpenComment),
        ] {
            assert_eq!(all(text).last(), Some(&Token { place, form }));
        }
    }
}
