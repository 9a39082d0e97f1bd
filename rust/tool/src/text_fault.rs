//! What is wrong with a text map, 90 to 93: what was expected at the place that the library refused, and what was found there. The text
//! is read again up to that place; where that reading comes to no fault there, the refusal's own sentence stands.

use crate::count::{grouped, listed};
use crate::json::Object;
use crate::name;
use crate::spot::Spot;
use crate::text_token::{Form, Token, Tokens};
use meshpigeon::Refusal;

/// So many bytes of a word or a string are shown.
const MOST_SHOWN: usize = 24;

/// The fields that a block must have, by its kind.
const NEEDED: [(&str, &[&str]); 5] = [
    ("vertex", &["x", "y"]),
    ("linedef", &["v1", "v2", "sidefront"]),
    ("sidedef", &["sector"]),
    ("sector", &["texturefloor", "textureceiling"]),
    ("thing", &["x", "y", "type"]),
];

/// A fault of a text, and where it is.
#[derive(Clone, Debug, PartialEq, Eq)]
pub struct TextFault {
    /// The place that the number has.
    pub spot: Spot,
    told: Option<Told>,
}

#[derive(Clone, Debug, PartialEq, Eq)]
enum Told {
    /// 90: what was expected, and what was found.
    Unfit(String, String),
    /// 90: a string or a comment that is not closed, and where it opened.
    Open(&'static str, Spot),
    /// 91: what is wrong with a number.
    Number(String),
    /// 92: the block's kind, and the fields that it lacks.
    Missing(&'static str, Vec<&'static str>),
    /// 93: the kind of the block that is one too many.
    TooMany(&'static str),
}

impl TextFault {
    /// What is wrong at the place of a refusal.
    pub fn of(text: &[u8], refusal: Refusal) -> Self {
        Self { spot: Spot::of(text, refusal.record), told: Reading::of(text).told(refusal) }
    }

    /// What is wrong in words; else the refusal's own sentence.
    pub fn words(&self, rule: &str) -> String {
        match &self.told {
            None => rule.to_string(),
            Some(Told::Unfit(expected, found)) => format!("expected {expected}, found {found}"),
            Some(Told::Open(what, spot)) => {
                let (line, column) = (spot.line, spot.column);
                let close = if *what == "string" { "\"" } else { "*/" };
                format!("the {what} that opens at {line}:{column} is not closed: expected `{close}`, found the end of the text")
            }
            Some(Told::Number(words)) => words.clone(),
            Some(Told::Missing(kind, missing)) => {
                let fields: Vec<String> = missing.iter().map(|field| format!("no {field}")).collect();
                format!("this {kind} has {}", listed(&fields, fields.len()))
            }
            Some(Told::TooMany(kind)) => format!("this {kind} is one too many: a text map has at most 65,535 of each kind"),
        }
    }

    /// The lines to stand below a refusal: the place, and where what is not closed opened.
    pub fn below(&self) -> String {
        match &self.told {
            Some(Told::Open(what, spot)) => {
                format!("{}\n    the {what} opens at {}:{}:{}", self.spot.below(), spot.line, spot.column, spot.below())
            }
            _ => self.spot.below(),
        }
    }

    /// The place and what is wrong there as an object.
    pub fn json(&self) -> Object {
        let (expected, found) = match &self.told {
            Some(Told::Unfit(expected, found)) => (Some(expected.as_str()), Some(found.as_str())),
            Some(Told::Open("string", _)) => (Some("`\"`"), Some("the end of the text")),
            Some(Told::Open(..)) => (Some("`*/`"), Some("the end of the text")),
            _ => (None, None),
        };
        let opened = match &self.told {
            Some(Told::Open(_, spot)) => Some(spot.json()),
            _ => None,
        };
        let missing = match &self.told {
            Some(Told::Missing(_, missing)) => missing.iter().map(ToString::to_string).collect(),
            _ => Vec::new(),
        };
        let object = self.spot.json().text("expected", expected).text("found", found);
        object.object("opened", opened).texts("missing", &missing)
    }
}

/// What comes next in a good text.
enum Wanted<'a> {
    /// A name; in a block also `}`, and at the top also the end.
    Statement,
    /// `=` behind a name; at the top also `{`.
    Equals(&'a [u8]),
    /// A value for a name.
    Value(&'a [u8]),
    /// `;` behind a value.
    Semicolon,
}

/// An open block.
struct Block<'a> {
    kind: &'a [u8],
    place: usize,
    given: Vec<&'a [u8]>,
}

/// A text, read up to a place.
struct Reading<'a> {
    text: &'a [u8],
    tokens: Tokens<'a>,
    wanted: Wanted<'a>,
    block: Option<Block<'a>>,
    /// Where the last name stands.
    named: usize,
}

impl<'a> Reading<'a> {
    fn of(text: &'a [u8]) -> Self {
        Self { text, tokens: Tokens::of(text), wanted: Wanted::Statement, block: None, named: 0 }
    }

    /// What is wrong at the refused place; none where this reading passes it without a fault, or stops before it.
    fn told(mut self, refusal: Refusal) -> Option<Told> {
        loop {
            let token = self.tokens.next();
            let is_open = matches!(token.form, Form::OpenText | Form::OpenComment);
            let place = match (refusal.number, is_open) {
                (93, _) if matches!(self.wanted, Wanted::Equals(_)) => self.named,
                (_, true) => self.text.len(),
                _ => token.place,
            };
            match place.cmp(&refusal.record) {
                std::cmp::Ordering::Equal if refusal.number != 93 || place == self.named && token.form == Form::Mark(b'{') => {
                    return self.told_of(refusal, token);
                }
                std::cmp::Ordering::Greater => return None,
                _ => self.step(token)?,
            }
        }
    }

    /// Goes on behind a token that fits.
    fn step(&mut self, token: Token<'a>) -> Option<()> {
        self.wanted = match (&self.wanted, token.form) {
            (Wanted::Statement, Form::Word(name)) => {
                self.named = token.place;
                Wanted::Equals(name)
            }
            (Wanted::Statement, Form::Mark(b'}')) => {
                self.block.take()?;
                Wanted::Statement
            }
            (Wanted::Equals(name), Form::Mark(b'=')) => Wanted::Value(name),
            (Wanted::Equals(kind), Form::Mark(b'{')) if self.block.is_none() => {
                self.block = Some(Block { kind, place: self.named, given: Vec::new() });
                Wanted::Statement
            }
            (Wanted::Value(name), Form::Word(_) | Form::Text(_)) => {
                if let Some(block) = &mut self.block {
                    block.given.push(name);
                }
                Wanted::Semicolon
            }
            (Wanted::Semicolon, Form::Mark(b';')) => Wanted::Statement,
            _ => return None,
        };
        Some(())
    }

    fn told_of(&self, refusal: Refusal, token: Token) -> Option<Told> {
        match (refusal.number, token.form) {
            (90, Form::OpenText) => Some(Told::Open("string", Spot::of(self.text, token.place))),
            (90, Form::OpenComment) => Some(Told::Open("comment", Spot::of(self.text, token.place))),
            (90, form) => Some(Told::Unfit(self.expected(form), found(form))),
            (91, Form::Word(word)) => Some(Told::Number(over_limits(word))),
            (92, Form::Mark(b'}')) => self.missing(),
            (93, _) => match self.wanted {
                Wanted::Equals(name) => known(name).map(|(kind, _)| Told::TooMany(kind)),
                _ => None,
            },
            _ => None,
        }
    }

    /// What is wanted, where a token does not fit.
    fn expected(&self, form: Form) -> String {
        match (&self.wanted, &self.block) {
            (Wanted::Statement, None) => "a name".to_string(),
            (Wanted::Statement, Some(block)) if form == Form::End => {
                let opened = Spot::of(self.text, block.place);
                format!("`}}` to end the block that begins at {}:{}", opened.line, opened.column)
            }
            (Wanted::Statement, Some(_)) => "a name or `}`".to_string(),
            (Wanted::Equals(name), None) => format!("`=` or `{{` after {}", word(name)),
            (Wanted::Equals(name), Some(_)) => format!("`=` after {}", word(name)),
            (Wanted::Value(name), block) => {
                let kind = block.as_ref().map(|block| block.kind);
                format!("{} for {}", value_for(kind, name), word(name))
            }
            (Wanted::Semicolon, _) => "`;` after the value".to_string(),
        }
    }

    fn missing(&self) -> Option<Told> {
        let block = self.block.as_ref()?;
        let (kind, needed) = known(block.kind)?;
        let is_given = |name: &&str| block.given.iter().any(|given| given.eq_ignore_ascii_case(name.as_bytes()));
        let missing: Vec<&str> = needed.iter().copied().filter(|name| !is_given(name)).collect();
        (!missing.is_empty()).then_some(Told::Missing(kind, missing))
    }
}

/// A kind of block that the format knows.
fn known(name: &[u8]) -> Option<(&'static str, &'static [&'static str])> {
    NEEDED.iter().find(|(kind, _)| kind.as_bytes().eq_ignore_ascii_case(name)).copied()
}

/// What a name takes. The library says so: it is asked for a text that ends behind a value of each sort.
fn value_for(kind: Option<&[u8]>, name: &[u8]) -> &'static str {
    let takes = |value: &[u8]| {
        let block = kind.map_or(Vec::new(), |kind| [kind, b"{"].concat());
        let text = [&block[..], name, b"=", value, b" "].concat();
        meshpigeon::text::map(&text).is_err_and(|refusal| refusal.record == text.len())
    };
    match [&b"1"[..], b"1.5", b"\"\"", b"true"].map(takes) {
        [true, false, false, false] => "a whole number",
        [true, true, false, false] => "a number",
        [false, false, true, false] => "a string in double quotes",
        [false, false, false, true] => "true or false",
        _ => "a value (a number, a string in double quotes, true or false)",
    }
}

fn found(form: Form) -> String {
    match form {
        Form::Mark(b'\'') => "`'`, and strings have double quotes".to_string(),
        Form::Mark(mark) => format!("`{}`", char::from(mark)),
        Form::Text(text) => format!("the string \"{}\"", cut(text)),
        Form::Word(bytes) => format!("{}{}", word(bytes), hint(bytes)),
        Form::End | Form::OpenText | Form::OpenComment => "the end of the text".to_string(),
    }
}

/// Why a word that looks like a number is none.
fn hint(word: &[u8]) -> &'static str {
    let digits = word.strip_prefix(b"-").or(word.strip_prefix(b"+")).unwrap_or(word);
    match digits {
        [b'0', b'0'..=b'9', ..] if digits.iter().all(u8::is_ascii_digit) => ", and no 0 may stand before other digits",
        [b'.', b'0'..=b'9', ..] => ", and a digit must stand before the point",
        [b'0'..=b'9', rest @ ..] if rest.iter().any(|byte| matches!(byte, b'e' | b'E')) && !digits.starts_with(b"0x") => {
            ", and no exponent is allowed"
        }
        _ => "",
    }
}

/// 91: which limit a number breaks.
fn over_limits(bytes: &[u8]) -> String {
    match bytes.contains(&b'.') {
        true => {
            let digits = bytes.iter().filter(|byte| byte.is_ascii_digit()).count();
            let behind = bytes.rsplit(|&byte| byte == b'.').next().map_or(0, <[u8]>::len);
            let (digits, behind) = (grouped(digits as i128), grouped(behind as i128));
            format!("{} has {digits} digits, {behind} of them behind the point: at most 15 and 6 are allowed", word(bytes))
        }
        false => format!("{} is no number of 32 bits: -2,147,483,648 to 2,147,483,647 are allowed", word(bytes)),
    }
}

/// A word in backquotes, cut where it is long.
fn word(bytes: &[u8]) -> String {
    format!("`{}`", cut(bytes))
}

fn cut(bytes: &[u8]) -> String {
    let first = name::shown(&bytes[..bytes.len().min(MOST_SHOWN)].escape_ascii().to_string());
    if bytes.len() > MOST_SHOWN {
        format!("{first}..")
    } else {
        first
    }
}
