//! Text maps (W-206): the statements of a TEXTMAP lump, its summary, and its blocks by kind and number or from a place on.

use crate::text_record::{field_of, Field, TextLinedef, TextSector, TextSidedef, TextThing, TextVertex, Values};
use crate::text_record::{LINEDEF, SECTOR, SIDEDEF, THING, VERTEX};
use crate::text_token::{unfit, Quoted, Token, Tokens};
use crate::text_value::{value_of, Form, Value};
use crate::Refusal;

/// The most blocks of a kind.
const MOST_BLOCKS: usize = 65_535;

/// The kinds of block, by their place in this list.
const KINDS: [(&[u8], &[Field]); 5] =
    [(b"vertex", VERTEX), (b"linedef", LINEDEF), (b"sidedef", SIDEDEF), (b"sector", SECTOR), (b"thing", THING)];
const VERTICES: usize = 0;
const LINEDEFS: usize = 1;
const SIDEDEFS: usize = 2;
const SECTORS: usize = 3;
const THINGS: usize = 4;

/// What a whole text says of itself.
#[derive(Clone, Copy, Debug, PartialEq, Eq)]
pub struct TextMap {
    /// The last `namespace` of the text.
    pub namespace: Quoted,
    /// How many vertices, linedefs, sidedefs, sectors and things it has.
    pub counts: [usize; 5],
}

/// A block of a known kind.
#[derive(Clone, Copy, Debug, PartialEq, Eq)]
pub struct TextBlock {
    /// 1 a vertex, 2 a linedef, 3 a sidedef, 4 a sector, 5 a thing.
    pub kind: u32,
    /// The place of its name.
    pub start: usize,
}

/// The statements of a text from a place on, as if it began there.
struct Statements<'a> {
    tokens: Tokens<'a>,
    namespace: Quoted,
    counts: [usize; 5],
    /// Of the last block.
    values: Values,
}

impl<'a> Statements<'a> {
    fn from(text: &'a [u8], place: usize) -> Self {
        Self { tokens: Tokens::from(text, place), namespace: Quoted::default(), counts: [0; 5], values: Values::new() }
    }

    /// The next block of a known kind, and the place of its name, past all that comes before it and its opening brace; none at the end.
    fn opening(&mut self) -> Result<Option<(usize, usize)>, Refusal> {
        loop {
            let (place, name) = match self.tokens.next()? {
                (_, Token::End) => return Ok(None),
                (place, Token::Word(word)) if is_identifier(word) => (place, word),
                (place, _) => return Err(unfit(place)),
            };
            match self.tokens.next()? {
                (_, Token::Mark(b'=')) => self.assign(name)?,
                (_, Token::Mark(b'{')) => {
                    let kind = KINDS.iter().position(|(it, _)| it.eq_ignore_ascii_case(name));
                    if let Some(kind) = kind {
                        self.count(kind, place)?;
                        return Ok(Some((kind, place)));
                    }
                    self.fields(&[])?;
                }
                (place, _) => return Err(unfit(place)),
            }
        }
    }

    /// The next block of a known kind, and the place of its name, past the block; none at the end.
    fn block(&mut self) -> Result<Option<(usize, usize)>, Refusal> {
        let opened = self.opening()?;
        if let Some((kind, _)) = opened {
            self.fields(KINDS[kind].1)?;
        }
        Ok(opened)
    }

    /// A global assignment behind its `=`.
    fn assign(&mut self, name: &[u8]) -> Result<(), Refusal> {
        let form = name.eq_ignore_ascii_case(b"namespace").then_some(Form::Text);
        let (place, token) = self.tokens.next()?;
        let value = value_of(place, token, form)?;
        if let (Some(_), Value::Text(it)) = (form, value) {
            self.namespace = it;
        }
        self.tokens.mark(b';')
    }

    /// Counts a block: 93 at its name where it is one too many.
    fn count(&mut self, kind: usize, place: usize) -> Result<(), Refusal> {
        if self.counts[kind] == MOST_BLOCKS {
            return Err(Refusal::new(93, 0, place));
        }
        self.counts[kind] += 1;
        Ok(())
    }

    /// A block's assignments behind its opening brace, and the closing one: 92 there where a field without default is missing.
    fn fields(&mut self, fields: &[Field]) -> Result<(), Refusal> {
        self.values.clear();
        loop {
            let name = match self.tokens.next()? {
                (_, Token::Mark(b'}')) if self.values.is_whole(fields) => return Ok(()),
                (place, Token::Mark(b'}')) => return Err(Refusal::new(92, 0, place)),
                (_, Token::Word(word)) if is_identifier(word) => word,
                (place, _) => return Err(unfit(place)),
            };
            self.tokens.mark(b'=')?;
            let field = field_of(fields, name);
            let (place, token) = self.tokens.next()?;
            let value = value_of(place, token, field.map(|at| fields[at].form))?;
            if let Some(at) = field {
                self.values.put(at, value);
            }
            self.tokens.mark(b';')?;
        }
    }
}

fn is_identifier(word: &[u8]) -> bool {
    !word[0].is_ascii_digit() && word.iter().all(|&byte| byte.is_ascii_alphanumeric() || byte == b'_')
}

/// The summary of a whole text: refusals 90 to 93.
pub fn text_map(text: &[u8]) -> Result<TextMap, Refusal> {
    let mut statements = Statements::from(text, 0);
    while statements.block()?.is_some() {}
    Ok(TextMap { namespace: statements.namespace, counts: statements.counts })
}

/// The first block of a known kind from a place on: refusals 90 to 93 of what is read up to its opening brace, and 94 where none opens.
pub fn text_block(text: &[u8], place: usize) -> Result<TextBlock, Refusal> {
    let (kind, start) = Statements::from(text, place).opening()?.ok_or(Refusal::plain(94))?;
    Ok(TextBlock { kind: kind as u32 + 1, start })
}

/// The values of a block by kind and number, with the place behind it and the text's namespace: refusals 90 to 93 of the whole text, then 94.
fn numbered(text: &[u8], kind: usize, number: usize) -> Result<(Values, usize, &[u8]), Refusal> {
    let mut statements = Statements::from(text, 0);
    let mut found = None;
    while let Some((it, _)) = statements.block()? {
        if it == kind && statements.counts[kind] - 1 == number {
            found = Some((statements.values, statements.tokens.at()));
        }
    }
    let (values, next) = found.ok_or(Refusal::plain(94))?;
    Ok((values, next, &text[statements.namespace.start..statements.namespace.end]))
}

/// The values of the first block of a kind from a place on, with the place behind it: refusals 90 to 93 of what is read, and 94 where there is none.
fn first(text: &[u8], kind: usize, place: usize) -> Result<(Values, usize), Refusal> {
    let mut statements = Statements::from(text, place);
    while let Some((it, _)) = statements.block()? {
        if it == kind {
            return Ok((statements.values, statements.tokens.at()));
        }
    }
    Err(Refusal::plain(94))
}

macro_rules! readers {
    ($($record:ident $kind:ident $by_number:ident $at:ident;)*) => {$(
        /// The block of its kind with that number, and the place behind it: refusals 90 to 93 of the whole text, then 94.
        pub fn $by_number(text: &[u8], number: usize) -> Result<($record, usize), Refusal> {
            numbered(text, $kind, number).map(|(values, next, _)| ($record::of(&values), next))
        }

        /// The first block of its kind from a place on, and the place behind it: refusals 90 to 93 of what is read, and 94.
        pub fn $at(text: &[u8], place: usize) -> Result<($record, usize), Refusal> {
            first(text, $kind, place).map(|(values, next)| ($record::of(&values), next))
        }
    )*};
}

readers! {
    TextVertex VERTICES text_vertex text_vertex_at;
    TextSidedef SIDEDEFS text_sidedef text_sidedef_at;
    TextSector SECTORS text_sector text_sector_at;
    TextThing THINGS text_thing text_thing_at;
}

/// The linedef of that number, and the place behind it: refusals 90 to 93 of the whole text, then 94.
pub fn text_linedef(text: &[u8], number: usize) -> Result<(TextLinedef, usize), Refusal> {
    let (values, next, namespace) = numbered(text, LINEDEFS, number)?;
    Ok((TextLinedef::of(&values).under(&values, namespace), next))
}

/// The first linedef from a place on, by the namespace that lies there, and the place behind it: refusals 90 to 93 of what is read, and 94.
pub fn text_linedef_at(text: &[u8], place: usize, namespace: Quoted) -> Result<(TextLinedef, usize), Refusal> {
    let (values, next) = first(text, LINEDEFS, place)?;
    let namespace = text.get(namespace.start..namespace.end.min(text.len())).unwrap_or_default();
    Ok((TextLinedef::of(&values).under(&values, namespace), next))
}
