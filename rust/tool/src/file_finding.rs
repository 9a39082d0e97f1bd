//! What was found in a file that is refused as a whole: 1 to 6. It is read from the file's own bytes after the library refused them.

use crate::advice::{cut_out, SEND_AGAIN};
use crate::count::{counted, grouped};
use crate::input::{LEAST_BYTES, MOST_BYTES};
use crate::json::Object;
use crate::name;
use meshpigeon::Refusal;

/// Bytes of the header and of an entry, and where their parts begin.
const HEADER: usize = 12;
const COUNT: usize = 4;
const START: usize = 8;
const ENTRY: usize = 16;
const SIZE: usize = 4;
const NAME: usize = 8;

/// What other files begin with, and what they are.
const OTHERS: [(&[u8], &str); 6] = [
    (b"PK", "a zip file"),
    (b"Rar!", "a rar file"),
    (b"7z", "a 7z file"),
    (b"\x1f\x8b", "a gzip file"),
    (b"\x89PNG", "a PNG image"),
    (b"BM", "a BMP image"),
];

/// What was found.
#[derive(Clone, Copy, Debug, PartialEq, Eq)]
pub enum FileFinding {
    /// 1: the file's length in bytes; of one that is too long also what may be cut out of it.
    Length(u64, &'static str),
    /// 1: a length above the most that is read, where the end was not seen.
    MoreThan(u64),
    /// 2: the first four bytes.
    Mark([u8; 4]),
    /// 3: the header's count of lumps, and whether the file is long enough for so many entries.
    Lumps(i32, bool),
    /// 4: where the directory starts and how many lumps it has, by the header, and the file's length.
    Directory(i32, i32, usize),
    /// 5 and 6: an entry, and the file's length.
    Entry(FoundEntry, usize),
}

/// An entry as it stands in the directory.
#[derive(Clone, Copy, Debug, PartialEq, Eq)]
pub struct FoundEntry {
    number: usize,
    name: [u8; 8],
    offset: i32,
    size: i32,
}

impl FileFinding {
    /// What is wrong with a file that the library refused. No more than one byte past the most is ever read.
    pub fn of(refusal: Refusal, bytes: &[u8]) -> Option<Self> {
        let length = bytes.len();
        match refusal.number {
            1 if length as u64 > MOST_BYTES => Some(Self::MoreThan(MOST_BYTES)),
            1 => Some(Self::Length(length as u64, "MAP")),
            2 => bytes.first_chunk().copied().map(Self::Mark),
            3 => number_at(bytes, COUNT).map(|count| Self::Lumps(count, has_room(count, length))),
            4 => Some(Self::Directory(number_at(bytes, START)?, number_at(bytes, COUNT)?, length)),
            5 | 6 => FoundEntry::of(bytes, refusal.record).map(|entry| Self::Entry(entry, length)),
            _ => None,
        }
    }

    /// What is wrong and what to do.
    pub fn words(&self, refusal: Refusal) -> String {
        match *self {
            Self::Length(length, what) => of_length(length, what),
            Self::MoreThan(most) => {
                format!("the input has more than {}, and no more are allowed", counted(most as usize, "byte"))
            }
            Self::Mark(mark) => of_mark(mark),
            Self::Lumps(count, has_room) => of_count(count, has_room),
            Self::Directory(start, count, length) => of_directory(start, count, length),
            Self::Entry(entry, length) if refusal.number == 5 => entry.outside(length),
            Self::Entry(entry, _) => entry.misnamed(),
        }
    }

    /// What was found as an object.
    pub fn json(&self) -> Object {
        let object = Object::new();
        match *self {
            Self::Length(length, _) => object.number("length", length as i64),
            Self::MoreThan(length) => object.number("more_than", length as i64),
            Self::Mark(mark) => object.text("mark", mark.escape_ascii().to_string().as_str()),
            Self::Lumps(count, _) => object.number("count", i64::from(count)),
            Self::Directory(start, count, length) => {
                object.number("start", i64::from(start)).number("count", i64::from(count)).count("length", length)
            }
            Self::Entry(entry, length) => {
                let name = name::cut(&entry.name).escape_ascii().to_string();
                let object = object.text("name", name.as_str()).number("offset", i64::from(entry.offset));
                object.number("size", i64::from(entry.size)).count("length", length)
            }
        }
    }
}

impl FoundEntry {
    fn of(bytes: &[u8], number: usize) -> Option<Self> {
        let directory = usize::try_from(number_at(bytes, START)?).ok()?;
        let entry = bytes.get(directory..)?.get(ENTRY * number..)?.get(..ENTRY)?;
        let (offset, size) = (number_at(entry, 0)?, number_at(entry, SIZE)?);
        Some(Self { number, name: *entry[NAME..].first_chunk()?, offset, size })
    }

    /// `entry 3, SIDEDEFS, has offset 204 and size 480`.
    fn claims(&self) -> String {
        let [offset, size] = [self.offset, self.size].map(|it| grouped(it.into()));
        let name = name::cut(&self.name).escape_ascii();
        format!("entry {}, {name}, has offset {offset} and size {size}", self.number)
    }

    /// 5: why its bytes are no part of the file.
    fn outside(&self, length: usize) -> String {
        let claims = self.claims();
        match () {
            () if self.size < 0 => format!("{claims}: no size is below 0. The directory is damaged. {SEND_AGAIN}"),
            () if self.offset < HEADER as i32 => {
                format!("{claims}: a lump starts at byte 12 or later. The directory is damaged. {SEND_AGAIN}")
            }
            () => format!("{claims}, and the file has {}. The file is cut off or damaged. {SEND_AGAIN}", counted(length, "byte")),
        }
    }

    /// 6: what it is called.
    fn misnamed(&self) -> String {
        let name = name::cut(&self.name);
        let [offset, size] = [self.offset, self.size].map(|it| grouped(it.into()));
        let called = format!("entry {}, with offset {offset} and size {size}, is called {}", self.number, name::quoted(name));
        let rule = "a name has one to eight of A-Z, 0-9, [ ] - _ and \\";
        let capitals = name.to_ascii_uppercase();
        match !name.is_empty() && capitals.iter().all(|byte| is_of_names(*byte)) {
            true => format!("{called}: {rule}. Call it {}.", name::text(&capitals)),
            false => format!("{called}: {rule}. Give it another name."),
        }
    }
}

fn of_length(length: u64, what: &str) -> String {
    let said = counted(length as usize, "byte");
    match length {
        0 => format!("the file is empty: a WAD file has at least 12 bytes. {SEND_AGAIN}"),
        1..LEAST_BYTES => format!("the file has {said}, and a WAD file has at least 12. {SEND_AGAIN}"),
        _ => format!("the file has {said}, and at most 16,777,216 are allowed. {}", cut_out(what)),
    }
}

fn of_mark(mark: [u8; 4]) -> String {
    let rule = "this is no WAD file: a WAD file begins with IWAD or PWAD";
    match OTHERS.iter().find(|(begins, _)| mark.starts_with(begins)) {
        Some((_, kind)) if kind.ends_with("image") => format!("{rule}, and this one begins as {kind} does"),
        Some((_, kind)) => format!("{rule}, and this one begins as {kind} does. Unpack it, and send the WAD file in it."),
        None => format!("{rule}, and this one with {}", name::quoted(&mark)),
    }
}

fn of_count(count: i32, has_room: bool) -> String {
    let said = format!("the header says {} lumps, and 0 to 4,096 are allowed", grouped(count.into()));
    match has_room {
        true => format!("{said}. {}", cut_out("MAP")),
        false => format!("{said}. The header is damaged. {SEND_AGAIN}"),
    }
}

fn of_directory(start: i32, count: i32, length: usize) -> String {
    let end = i64::from(start) + ENTRY as i64 * i64::from(count);
    let (ends, has) = (grouped(end.into()), counted(length, "byte"));
    match () {
        () if start < HEADER as i32 => {
            let starts = grouped(start.into());
            format!(
                "the directory starts at byte {starts} by the header: byte 12 or later is allowed. The header is \
                 damaged. {SEND_AGAIN}"
            )
        }
        () if end as u64 > MOST_BYTES => {
            format!(
                "the directory should end at byte {ends} by the header, and the file has {has}. The header is \
                 damaged. {SEND_AGAIN}"
            )
        }
        () => format!("the file is cut off: its directory should end at byte {ends}, and it has {has}. {SEND_AGAIN}"),
    }
}

/// Whether a file of that length may have so many entries.
fn has_room(count: i32, length: usize) -> bool {
    usize::try_from(count).is_ok_and(|count| HEADER + ENTRY * count <= length)
}

fn is_of_names(byte: u8) -> bool {
    matches!(byte, b'A'..=b'Z' | b'0'..=b'9' | b'[' | b']' | b'-' | b'_' | b'\\')
}

/// A signed number of four bytes, if they are there.
fn number_at(bytes: &[u8], at: usize) -> Option<i32> {
    bytes.get(at..)?.first_chunk().map(|bytes| i32::from_le_bytes(*bytes))
}

#[cfg(test)]
mod tests {
    use super::*;

    #[test]
    fn what_is_not_there_is_not_found() {
        let refusal = |number| Refusal { number, place: 0, record: 7 };
        assert!([2, 3, 4, 5, 6].map(|number| FileFinding::of(refusal(number), b"PW")).iter().all(Option::is_none));
        assert_eq!(FileFinding::of(refusal(5), b"PWAD\x01\0\0\0\xff\xff\xff\x7f"), None);
        assert_eq!(FileFinding::of(refusal(5), b"PWAD\x01\0\0\0\xff\xff\xff\xff"), None);
        assert_eq!(FileFinding::of(refusal(7), b"PWAD\x01\0\0\0\x0c\0\0\0"), None);
    }
}
