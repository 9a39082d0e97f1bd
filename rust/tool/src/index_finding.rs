//! What was found in an index that was refused, or that led to no entry. It is read from the index's own bytes after the library's answer.

use crate::count::{counted, grouped};
use crate::json::Object;
use crate::wad::Wad;
use meshpigeon::Refusal;
use std::fmt;

/// Bytes of an index before its entries, and of each; and where the parts of its header begin.
const HEADER: usize = 11;
const ENTRY: usize = 10;
const MARK: &[u8; 3] = b"WIX";
const VERSION: usize = 3;
const COUNT: usize = 5;
const LENGTH: usize = 7;

/// What was found.
#[derive(Clone, Copy, Debug, PartialEq, Eq)]
pub enum IndexFinding {
    /// 82: how many bytes the index has, and how many it must have at least.
    Short(usize, usize),
    /// 82: the count of entries that it says, and the file's.
    Count(usize, usize),
    /// 82: the length that it says of the file, and the file's.
    Length(usize, usize),
    /// 83: its version.
    Version(usize),
    /// 84: the first of its entries that is another than it must be.
    Entry(usize),
    /// 84: how many bytes it has too many.
    More(usize),
    /// 11: how many names were compared.
    Compared(usize),
}

impl IndexFinding {
    /// What is wrong with an index of a file: 82 to 84. Of a wrong mark nothing is said.
    pub fn of(refusal: Refusal, index: &[u8], wad: &Wad) -> Option<Self> {
        let count = wad.entries().len();
        let needed = HEADER + ENTRY * count;
        if index.len() < needed {
            return Some(Self::Short(index.len(), needed));
        }
        let number =
            |at: usize, size: usize| index[at..at + size].iter().rev().fold(0, |sum, &byte| sum << 8 | usize::from(byte));
        let (said, length) = (number(COUNT, 2), number(LENGTH, 4));
        match refusal.number {
            82 if !index.starts_with(MARK) => None,
            82 if said != count => Some(Self::Count(said, count)),
            82 => Some(Self::Length(length, wad.bytes().len())),
            83 => Some(Self::Version(number(VERSION, 2))),
            84 => first_other(index, &meshpigeon::index_build(wad.bytes()).ok()?),
            _ => None,
        }
    }

    /// What was found as an object.
    pub fn json(self) -> Object {
        let object = Object::new();
        match self {
            Self::Short(length, needed) => object.count("length", length).count("needed", needed),
            Self::Count(count, needed) => object.count("count", count).count("needed", needed),
            Self::Length(length, needed) => object.count("wad_length", length).count("needed", needed),
            Self::Version(version) => object.count("version", version),
            Self::Entry(entry) => object.count("entry", entry),
            Self::More(more) => object.count("more", more),
            Self::Compared(compared) => object.count("compared", compared),
        }
    }
}

/// Where an index is another than the right one, whose header it has.
fn first_other(index: &[u8], right: &[u8]) -> Option<IndexFinding> {
    let entries = |bytes: &[u8]| bytes[HEADER..right.len()].chunks_exact(ENTRY).map(<[u8]>::to_vec).collect::<Vec<_>>();
    let other = entries(index).iter().zip(entries(right)).position(|(one, right)| *one != right);
    let more = index.len().checked_sub(right.len()).filter(|&more| more > 0);
    other.map(IndexFinding::Entry).or(more.map(IndexFinding::More))
}

/// A clause to stand behind the refusal's sentence, which ends with the rule.
impl fmt::Display for IndexFinding {
    fn fmt(&self, out: &mut fmt::Formatter<'_>) -> fmt::Result {
        let number = |number: usize| grouped(number as i128);
        match *self {
            Self::Short(length, needed) => {
                write!(out, "for this file that is {}, and it has {}", counted(needed, "byte"), number(length))
            }
            Self::Count(count, needed) => write!(out, "it says {}, and the file has {}", number(count), number(needed)),
            Self::Length(length, needed) => {
                write!(out, "it says {}, and the file has {}", counted(length, "byte"), number(needed))
            }
            Self::Version(version) => write!(out, "this one is of version {}", number(version)),
            Self::Entry(entry) => write!(out, "its entry {entry} is the first that differs"),
            Self::More(more) => write!(out, "it has {} too many", counted(more, "byte")),
            Self::Compared(compared) => write!(out, "{} compared", counted(compared, "name")),
        }
    }
}
