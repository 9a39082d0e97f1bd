//! The file that an answer is about: its name, and what was read of it.

use crate::input::Digest;
use crate::json::Object;
use crate::name;
use std::ffi::{OsStr, OsString};

/// A file by its name as given, with the bytes that were judged, and those of the base below it.
#[derive(Clone, Debug)]
pub struct About {
    name: OsString,
    own: Digest,
    base: Digest,
}

impl About {
    /// A file of which nothing is known, because it was not read or because nobody asks.
    pub fn unread(file: &OsStr) -> Self {
        Self::of(file, Digest::default())
    }

    /// A file with these bytes.
    pub fn of(file: &OsStr, own: Digest) -> Self {
        Self { name: file.to_os_string(), own, base: Digest::default() }
    }

    /// The same over a base with these bytes.
    pub fn over(self, base: Digest) -> Self {
        Self { base, ..self }
    }

    /// The file's name as given.
    pub fn file(&self) -> &OsStr {
        &self.name
    }

    /// The file's name, safe to print.
    pub fn shown(&self) -> String {
        name::file(&self.name)
    }

    /// The first keys of a verdict.
    pub fn json(&self) -> Object {
        let object = digest(Object::about(&self.name), ["length", "crc32"], self.own);
        digest(object, ["base_length", "base_crc32"], self.base)
    }
}

/// Length and checksum, in eight hexadecimal digits.
fn digest(object: Object, [length, crc32]: [&str; 2], digest: Digest) -> Object {
    let check = digest.crc32.map(|check| format!("{check:08x}"));
    object.number(length, digest.length.map(|length| length as i64)).text(crc32, check.as_deref())
}
