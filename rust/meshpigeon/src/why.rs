//! A map's verdict with its reason: the field that is out of its range, the way into a loop, or the deepest route.

use crate::{raw, Accepted, Refusal, MOST_REASON, MOST_WORDS};

/// A map's verdict with its reason.
///
/// ```
/// use meshpigeon::{why, Reason};
///
/// // A file without a map: a refusal that prints nothing.
/// let explained = why(b"PWAD\0\0\0\0\x0C\0\0\0", b"MAP01\0\0\0");
/// assert_eq!(explained.verdict.unwrap_err().number, 11);
/// assert_eq!(explained.told(), Reason::None);
/// ```
#[derive(Clone, Debug, PartialEq, Eq)]
pub struct Explained {
    /// Depth and marker of an accepted map, or the refusal, as [`judge_map`](crate::judge_map) has them.
    pub verdict: Result<Accepted, Refusal>,
    /// The bytes that were printed: four numbers of 32 bits with 23 to 28, else `R` and `L`; none with the other refusals.
    pub reason: Vec<u8>,
}

impl Explained {
    /// What the bytes say.
    pub fn told(&self) -> Reason {
        Reason::of(&self.verdict, &self.reason)
    }
}

/// What a reason's bytes say, by the verdict that they were printed with.
#[derive(Clone, Debug, PartialEq, Eq)]
pub enum Reason {
    /// With 23 to 28: the first field, in the record, header or cell concerned, that is out of its range.
    Field(Field),
    /// With 31: the choices from the root, until a node comes a second time. There is at least one.
    Loop(Vec<Choice>),
    /// With acceptance: a route as long as the map's depth, right where both children are as deep.
    Route(Vec<Choice>),
    /// With any other refusal.
    None,
}

impl Reason {
    /// Takes apart what was printed with a verdict.
    ///
    /// ```
    /// use meshpigeon::{Accepted, Choice, Field, Reason, Refusal};
    ///
    /// // Linedef 5 has left sidedef 812 of sidedefs 0 to 640.
    /// let printed = [12, 0, 0, 0, 44, 3, 0, 0, 0, 0, 0, 0, 128, 2, 0, 0];
    /// let field = Field { offset: 12, number: 812, least: 0, most: 640 };
    /// assert_eq!(Reason::of(&Err(Refusal { number: 23, place: 2, record: 5 }), &printed), Reason::Field(field));
    ///
    /// let choices = vec![Choice::Right, Choice::Left];
    /// assert_eq!(Reason::of(&Err(Refusal { number: 31, place: 7, record: 0 }), b"RL"), Reason::Loop(choices.clone()));
    /// assert_eq!(Reason::of(&Ok(Accepted { depth: 2, marker: 0 }), b"RL"), Reason::Route(choices));
    /// assert_eq!(Reason::of(&Err(Refusal { number: 32, place: 7, record: 0 }), b""), Reason::None);
    /// ```
    pub fn of(verdict: &Result<Accepted, Refusal>, printed: &[u8]) -> Self {
        match verdict.map_err(|refusal| refusal.number) {
            Ok(_) => Self::Route(choices(printed)),
            Err(31) => Self::Loop(choices(printed)),
            Err(23..=28) => Field::of(printed).map_or(Self::None, Self::Field),
            Err(_) => Self::None,
        }
    }
}

/// A field that is out of its range.
#[derive(Clone, Copy, Debug, PartialEq, Eq)]
pub struct Field {
    /// Where it stands in its record, in bytes; with 28, in BLOCKMAP, where 0 is the lump's size.
    pub offset: u32,
    /// What it holds.
    pub number: u32,
    /// The least that is allowed there.
    pub least: u32,
    /// The most that is allowed there; below the least where nothing is.
    pub most: u32,
}

impl Field {
    /// The four numbers of the first 16 bytes, the lowest byte of each first; none of fewer bytes.
    pub fn of(printed: &[u8]) -> Option<Self> {
        let numbers: &[u8; 16] = printed.first_chunk()?;
        let [offset, number, least, most] = [0, 4, 8, 12].map(|at| u32::from_le_bytes([0, 1, 2, 3].map(|i| numbers[at + i])));
        Some(Self { offset, number, least, most })
    }
}

/// The child that a way goes to.
#[derive(Clone, Copy, Debug, PartialEq, Eq)]
pub enum Choice {
    /// `R`.
    Right,
    /// `L`.
    Left,
}

/// The choices that bytes say.
fn choices(printed: &[u8]) -> Vec<Choice> {
    printed.iter().map(|&byte| if byte == b'R' { Choice::Right } else { Choice::Left }).collect()
}

/// Judges one map of either game and has the reason told, with work words and room of its own: the numbers of
/// [`judge_map`](crate::judge_map).
pub fn why(wad: &[u8], name: &[u8]) -> Explained {
    let mut reason = vec![0; MOST_REASON];
    let (verdict, length) = why_with(wad, name, &mut vec![0; MOST_WORDS], &mut reason);
    reason.truncate(length);
    Explained { verdict, reason }
}

/// The same over lent work words and into a lent output, and answers how many bytes were printed: 16 with 23 to 28, the list's with 31,
/// the depth with acceptance, else 0. An output that is shorter is 85, which takes the verdict's place.
///
/// The words end as [`judge_map_with`](crate::judge_map_with) leaves them, with 85 too. The bytes behind the reason stay as found, and
/// 85 writes nothing.
///
/// ```
/// let (wad, name) = (b"PWAD\0\0\0\0\x0C\0\0\0", b"MAP01\0\0\0");
/// let (verdict, length) = meshpigeon::why_with(wad, name, &mut [], &mut []);
/// assert_eq!((verdict.unwrap_err().number, length), (11, 0));
/// ```
pub fn why_with(wad: &[u8], name: &[u8], words: &mut [u16], out: &mut [u8]) -> (Result<Accepted, Refusal>, usize) {
    let (answer, length) = raw::why(wad, name, words, out);
    (answer.map(|answer| Accepted { depth: answer.depth, marker: answer.marker }), length)
}
