//! Files and standard input, never more of them than the largest WAD file and one byte.

use crate::crc::crc32;
use crate::file_finding::FileFinding;
use meshpigeon::Refusal;
use std::ffi::OsStr;
use std::fs::File;
use std::io::{self, Read};

/// The smallest and the largest WAD file there may be.
pub const LEAST_BYTES: u64 = 12;
pub const MOST_BYTES: u64 = 16_777_216;

/// The refusal of a file by its length.
const TOO_LONG: Refusal = Refusal { number: 1, place: 0, record: 0 };

/// The bytes that were judged, by their length and their checksum. What was not read to its end has no length or no checksum.
#[derive(Clone, Copy, Debug, Default, PartialEq, Eq)]
pub struct Digest {
    /// How many bytes.
    pub length: Option<u64>,
    /// Their CRC-32.
    pub crc32: Option<u32>,
}

impl Digest {
    /// That of some bytes. One byte more than a WAD file may have is not the whole input.
    pub fn of(bytes: &[u8]) -> Self {
        let length = bytes.len() as u64;
        match length > MOST_BYTES {
            true => Self::default(),
            false => Self { length: Some(length), crc32: Some(crc32(bytes)) },
        }
    }
}

/// Why there is nothing to ask about.
#[derive(Debug)]
pub enum Fault {
    /// The file could not be read.
    Unread(io::Error),
    /// The file is refused as a whole, with what was found.
    Refused(Refusal, Option<FileFinding>, Digest),
}

impl Fault {
    /// The same of a file of which a part with this name is wanted: one that is too long may have it cut out.
    pub fn cutting(self, what: &'static str) -> Self {
        match self {
            Self::Refused(refusal, Some(FileFinding::Length(length, _)), digest) => {
                Self::Refused(refusal, Some(FileFinding::Length(length, what)), digest)
            }
            other => other,
        }
    }
}

/// All bytes of a WAD file, or of standard input for `-`. A file that its length alone refuses is not read.
pub fn read(file: &OsStr) -> Result<Vec<u8>, Fault> {
    if file == "-" {
        return read_most(file).map_err(Fault::Unread);
    }
    let opened = File::open(file).map_err(Fault::Unread)?;
    let about = opened.metadata().map_err(Fault::Unread)?;
    if about.is_file() && about.len() > MOST_BYTES {
        return Err(too_long(about.len()));
    }
    most_of(opened).map_err(Fault::Unread)
}

/// The refusal of a file of this length, which is not read.
pub fn too_long(length: u64) -> Fault {
    let digest = Digest { length: Some(length), crc32: None };
    Fault::Refused(TOO_LONG, Some(FileFinding::Length(length, "MAP")), digest)
}

/// All bytes of any file, or of standard input for `-`; of a longer one than a WAD file may be, one byte more than that.
pub fn read_most(file: &OsStr) -> io::Result<Vec<u8>> {
    if file == "-" {
        return most_of(io::stdin().lock());
    }
    most_of(File::open(file)?)
}

/// Everything, or as much as shows that it is too long.
fn most_of(source: impl Read) -> io::Result<Vec<u8>> {
    let mut bytes = Vec::new();
    source.take(MOST_BYTES + 1).read_to_end(&mut bytes)?;
    Ok(bytes)
}

/// An error in the system's words, without its number.
pub fn words(error: &io::Error) -> String {
    let said = error.to_string();
    let number = error.raw_os_error().map(|number| format!(" (os error {number})"));
    number.and_then(|number| said.strip_suffix(&number).map(str::to_string)).unwrap_or(said)
}

#[cfg(test)]
mod tests {
    use super::*;

    #[test]
    fn an_error_has_no_number() {
        assert_eq!(words(&io::Error::from_raw_os_error(2)), "No such file or directory");
        assert_eq!(words(&io::Error::other("in words")), "in words");
    }

    #[test]
    fn what_is_too_long_has_no_checksum() {
        assert_eq!(Digest::of(b"123456789"), Digest { length: Some(9), crc32: Some(0xCBF4_3926) });
        assert_eq!(Digest::of(&vec![0; MOST_BYTES as usize + 1]), Digest::default());
    }
}
