//! What is asked about: one file, or a patch over a base as the box opens them.

use crate::about::About;
use crate::file_finding::FileFinding;
use crate::input::{Digest, Fault};
use crate::name;
use crate::report::Report;
use crate::unnamed::Unnamed;
use crate::verdict::Source;
use crate::wad::{self, Wad};
use meshpigeon::{Accepted, PairFile, Reason, Refusal, MOST_REASON, MOST_WORDS};
use std::ffi::OsStr;

/// What lies below each file.
pub enum Base {
    /// Nothing: each file stands alone.
    None,
    /// A good file.
    Good(Wad),
    /// A file that is refused, with what was found.
    Refused(Refusal, Option<FileFinding>, Digest),
}

impl Base {
    /// Reads the base, if one is given. Its refusal comes after the patch's own.
    pub fn open(given: Option<&OsStr>) -> Result<Self, Fault> {
        match given.map(Wad::open) {
            None => Ok(Self::None),
            Some(Ok(wad)) => Ok(Self::Good(wad)),
            Some(Err(Fault::Refused(refusal, found, digest))) => Ok(Self::Refused(refusal, found, digest)),
            Some(Err(fault)) => Err(fault),
        }
    }

    /// Where a fault of the file above it comes from.
    fn source_above(&self) -> Source {
        match self {
            Self::None => Source::File,
            _ => Source::Pair(Some(PairFile::Patch)),
        }
    }
}

/// What the library is lent for every map: enough words for any graph, and room for any reason.
pub struct Lent {
    words: Vec<u16>,
    reason: Vec<u8>,
}

impl Lent {
    /// As much as any map needs.
    pub fn new() -> Self {
        Self { words: vec![0; MOST_WORDS], reason: vec![0; MOST_REASON] }
    }

    /// The library's verdict on a map of some bytes, with its reason.
    pub fn judge(&mut self, bytes: &[u8], map: &[u8]) -> (Result<Accepted, Refusal>, Reason) {
        let (verdict, length) = meshpigeon::why_with(bytes, map, &mut self.words, &mut self.reason);
        let reason = Reason::of(&verdict, &self.reason[..length]);
        (verdict, reason)
    }
}

/// What the library says of a map.
pub struct Judged {
    /// The file that it was judged in.
    pub source: Source,
    /// Its verdict.
    pub verdict: Result<Accepted, Refusal>,
    /// The reason of it.
    pub reason: Reason,
}

/// A good file, alone or over a good base.
pub struct Opened<'a> {
    wad: Wad,
    base: Option<&'a Wad>,
}

impl<'a> Opened<'a> {
    /// Reads a file and has it judged, then the base below it.
    pub fn open(file: &OsStr, base: &'a Base) -> Result<Self, (Source, Fault)> {
        let wad = Wad::open(file).map_err(|fault| (base.source_above(), fault))?;
        match base {
            Base::None => Ok(Self { wad, base: None }),
            Base::Good(base) => Ok(Self { wad, base: Some(base) }),
            Base::Refused(refusal, found, digest) => {
                Err((Source::Pair(Some(PairFile::Base)), Fault::Refused(*refusal, *found, *digest)))
            }
        }
    }

    /// A file that was read before, over a base that is not refused.
    pub fn over(wad: Wad, base: &'a Base) -> Self {
        let base = if let Base::Good(base) = base { Some(base) } else { None };
        Self { wad, base }
    }

    /// The file with length and checksum of the bytes that were judged.
    pub fn digests(&self, file: &OsStr) -> About {
        let about = About::of(file, self.wad.digest());
        match self.base {
            None => about,
            Some(base) => about.over(base.digest()),
        }
    }

    /// The file's bytes, given back.
    pub fn into_bytes(self) -> Vec<u8> {
        self.wad.into_bytes()
    }

    /// The file, with the bytes that were judged where the report shows them.
    pub fn about(&self, file: &OsStr, report: &Report) -> About {
        if report.is_json() {
            self.digests(file)
        } else {
            About::unread(file)
        }
    }

    /// The first marker of GL nodes in the file: its entry number and name.
    pub fn gl_marker(&self) -> Option<(usize, String)> {
        let is_gl = |name: &[u8]| name.strip_prefix(b"GL_").is_some_and(|map| wad::is_map(&name::padded(map)));
        let mut entries = self.wad.entries().enumerate();
        entries.find(|(_, entry)| is_gl(entry.name)).map(|(number, entry)| (number, name::text(entry.name)))
    }

    /// The lumps of maps that nobody judges, and whose they are.
    pub fn unnamed(&self) -> Vec<(Source, Unnamed)> {
        let [own, below] = match self.base {
            None => [Source::File, Source::File],
            Some(_) => [PairFile::Patch, PairFile::Base].map(|file| Source::Pair(Some(file))),
        };
        let of = |wad: &Wad, source: Source| Unnamed::all(wad).into_iter().map(|it| (source, it)).collect::<Vec<_>>();
        [of(&self.wad, own), self.base.map_or(Vec::new(), |base| of(base, below))].concat()
    }

    /// The names of all maps, each once: the file's own as they stand in it, then the base's.
    pub fn maps(&self) -> Vec<Vec<u8>> {
        let mut maps = self.wad.maps();
        for map in self.base.map(Wad::maps).unwrap_or_default() {
            if !maps.contains(&map) {
                maps.push(map);
            }
        }
        maps
    }

    /// The library's verdict on a map with its reason, and where it comes from. The map is judged once: of a pair, in the file that has
    /// its name, which is the verdict of `meshpigeon::pair_judge_map`, since both directories are good. 10 and 11 are of neither file.
    pub fn judge(&self, map: &[u8], lent: &mut Lent) -> Judged {
        let source = self.source_of(map);
        let (verdict, reason) = lent.judge(self.wad(source).bytes(), map);
        let named = !verdict.is_err_and(|refusal| matches!(refusal.number, 10 | 11));
        let source = if named { source } else { source.of_neither() };
        Judged { source, verdict, reason }
    }

    /// The file that has the name of a map.
    fn source_of(&self, map: &[u8]) -> Source {
        let Some(base) = self.base else {
            return Source::File;
        };
        Source::Pair(meshpigeon::pair_find(base.bytes(), self.wad.bytes(), map).ok().map(|entry| entry.file))
    }

    /// The file that something comes from; of neither, the file itself.
    pub fn wad(&self, source: Source) -> &Wad {
        match (source, self.base) {
            (Source::Pair(Some(PairFile::Base)), Some(base)) => base,
            _ => &self.wad,
        }
    }

    /// The last lump of a name, and where it comes from.
    pub fn lump(&self, name: &[u8]) -> Option<(Source, &[u8])> {
        let Some(base) = self.base else {
            return self.wad.last(name).map(|number| (Source::File, self.wad.lump(number)));
        };
        let lump = meshpigeon::pair_lump(base.bytes(), self.wad.bytes(), name).ok()?;
        Some((Source::Pair(Some(lump.file)), lump.bytes))
    }

    /// That there is no lump of a name, in words.
    pub fn lacks(&self, name: &[u8]) -> String {
        let name = name::shown(&name::text(name));
        match self.base {
            None => format!("there is no lump {name}"),
            Some(_) => format!("there is no lump {name}, nor in the base"),
        }
    }
}
