//! `extract`: one map, or one lump, cut out of a file of any size into a file of its own. The large file is not read as a whole: its header
//! and directory are, and the lumps that are wanted.

use crate::count::{counted, entries, grouped, listed};
use crate::crc::crc32;
use crate::input::{self, MOST_BYTES};
use crate::json::Object;
use crate::map_lumps;
use crate::name::{self, shown};
use crate::output::{is_same, put};
use crate::report::Report;
use crate::wad::{self, Wad};
use std::ffi::OsStr;
use std::fs::File;
use std::io::{self, BufReader, Read, Seek, SeekFrom};

/// Bytes of the header and of an entry.
const HEADER: u64 = 12;
const ENTRY: u64 = 16;

/// So many entries are read of a directory: no WAD file has as many.
const MOST_ENTRIES: i32 = 1 << 20;

/// So many maps are named where another one was asked for.
const MOST_NAMED: usize = 6;

/// An entry of the large file's directory.
struct Entry {
    name: [u8; 8],
    offset: i32,
    size: i32,
}

/// What was cut out.
struct Cut {
    names: Vec<[u8; 8]>,
    lumps: Vec<Vec<u8>>,
}

/// Why nothing is cut out.
enum Flaw {
    Unread(io::Error),
    Unfit(String),
}

impl From<io::Error> for Flaw {
    fn from(error: io::Error) -> Self {
        Self::Unread(error)
    }
}

/// Writes the map or the lump of a name to `output`, which is standard output for `-`.
pub fn run(file: &OsStr, asked: &OsStr, output: &OsStr, report: &mut Report) {
    if is_same(file, output) {
        return report.misused("the new file would be written over the file that it comes from");
    }
    let asked = name::asked(asked);
    match File::open(file).map_err(Flaw::Unread).and_then(|opened| cut(opened, &asked)) {
        Ok(cut) => {
            let bytes = Wad::bytes_of(&cut.names, &cut.lumps);
            put(&bytes, output, report, |report| tell(file, &asked, &cut, &bytes, output, report));
        }
        Err(Flaw::Unread(error)) => report.unread(file, &input::words(&error)),
        Err(Flaw::Unfit(words)) => report.trouble(file, &words),
    }
}

fn unfit<T>(words: impl Into<String>) -> Result<T, Flaw> {
    Err(Flaw::Unfit(words.into()))
}

fn cut(mut file: File, asked: &[u8]) -> Result<Cut, Flaw> {
    let header = header(&mut file)?;
    let length = file.seek(SeekFrom::End(0))?;
    let entries = directory(&mut file, &header, length)?;
    let Some(first) = entries.iter().rposition(|entry| name::cut(&entry.name) == name::cut(asked)) else {
        return unfit(lacks(&entries, asked));
    };
    let behind = entries[first + 1..].iter().map(|entry| name::cut(&entry.name));
    let count = if wad::is_map(asked) { 1 + map_lumps::all(behind) } else { 1 };
    let wanted = &entries[first..first + count];
    fits(wanted)?;
    let lumps = wanted.iter().map(|entry| lump(&mut file, entry, length)).collect::<Result<_, _>>()?;
    Ok(Cut { names: wanted.iter().map(|entry| padded(name::cut(&entry.name))).collect(), lumps })
}

/// The header of a WAD file.
fn header(file: &mut File) -> Result<[u8; HEADER as usize], Flaw> {
    let mut header = [0; HEADER as usize];
    match file.read_exact(&mut header) {
        Err(error) if error.kind() != io::ErrorKind::UnexpectedEof => Err(error.into()),
        Ok(()) if matches!(&header[..4], b"IWAD" | b"PWAD") => Ok(header),
        _ => unfit("this is no WAD file: a WAD file begins with IWAD or PWAD"),
    }
}

/// All entries. A directory that the file has no room for is not looked at.
fn directory(file: &mut File, header: &[u8], length: u64) -> Result<Vec<Entry>, Flaw> {
    let [count, start] = [4, 8].map(|at| number_at(header, at));
    let end = i64::from(start) + ENTRY as i64 * i64::from(count);
    if count < 0 || start < HEADER as i32 || end > length as i64 {
        let (end, length) = (grouped(end.into()), grouped(length.into()));
        return unfit(format!("its directory should end at byte {end}, and it has {length} bytes. Get the file again."));
    }
    if count > MOST_ENTRIES {
        return unfit(format!("its header says {} lumps, and at most 1,048,576 are read", grouped(count.into())));
    }
    file.seek(SeekFrom::Start(start as u64))?;
    let mut source = BufReader::new(file);
    (0..count).map(|_| entry(&mut source)).collect()
}

fn entry(source: &mut impl Read) -> Result<Entry, Flaw> {
    let mut bytes = [0; ENTRY as usize];
    source.read_exact(&mut bytes)?;
    let name = std::array::from_fn(|at| bytes[8 + at]);
    Ok(Entry { name, offset: number_at(&bytes, 0), size: number_at(&bytes, 4) })
}

/// A signed number of four bytes, which must be there.
fn number_at(bytes: &[u8], at: usize) -> i32 {
    i32::from_le_bytes(std::array::from_fn(|i| bytes[at + i]))
}

/// Refuses what makes a larger file than any that is judged.
fn fits(wanted: &[Entry]) -> Result<(), Flaw> {
    let size = |entry: &Entry| ENTRY + entry.size.max(0) as u64;
    let length = HEADER + wanted.iter().map(size).sum::<u64>();
    match length > MOST_BYTES {
        true => unfit(format!("what is cut out would have {} bytes, and at most 16,777,216 are allowed", grouped(length.into()))),
        false => Ok(()),
    }
}

/// The bytes of an entry, which must lie inside the file.
fn lump(file: &mut File, entry: &Entry, length: u64) -> Result<Vec<u8>, Flaw> {
    let (offset, size) = (i64::from(entry.offset), i64::from(entry.size));
    if size == 0 {
        return Ok(Vec::new());
    }
    if size < 0 || offset < HEADER as i64 || offset + size > length as i64 {
        let name = name::cut(&entry.name).escape_ascii();
        let [offset, size, length] = [offset.into(), size.into(), i128::from(length)].map(grouped);
        return unfit(format!(
            "{name} has offset {offset} and size {size}, and the file has {length} bytes. Get the file again."
        ));
    }
    let mut bytes = vec![0; size as usize];
    file.seek(SeekFrom::Start(offset as u64))?;
    file.read_exact(&mut bytes)?;
    Ok(bytes)
}

/// That there is no such map or lump, and which maps there are.
fn lacks(entries: &[Entry], asked: &[u8]) -> String {
    let mut maps: Vec<String> = Vec::new();
    for entry in entries {
        let name = name::text(&entry.name);
        if wad::is_map(&name::padded(name::cut(&entry.name))) && !maps.contains(&name) {
            maps.push(name);
        }
    }
    let (what, name) = (if wad::is_map(asked) { "map" } else { "lump" }, shown(&name::text(asked)));
    match maps.is_empty() {
        true => format!("there is no {what} {name}, and no map at all"),
        false => format!("there is no {what} {name}; its maps are {}", listed(&maps, MOST_NAMED)),
    }
}

fn padded(name: &[u8]) -> [u8; 8] {
    std::array::from_fn(|at| name.get(at).copied().unwrap_or(0))
}

fn tell(file: &OsStr, asked: &[u8], cut: &Cut, bytes: &[u8], output: &OsStr, report: &mut Report) {
    let (name, count) = (name::text(asked), cut.names.len());
    let (map, lump) = if wad::is_map(asked) { (Some(name.as_str()), None) } else { (None, Some(name.as_str())) };
    report.answer(
        || {
            let (file, name, output) = (name::file(file), shown(&name), name::file(output));
            format!("{file}:{name}: {}, {}, written to {output}", entries(count), counted(bytes.len(), "byte"))
        },
        || {
            let object = Object::about(file).text("map", map).text("lump", lump).number("number", 0).count("count", count);
            let object = object.count("length", bytes.len()).text("crc32", format!("{:08x}", crc32(bytes)).as_str());
            object.text("output", output.to_string_lossy().as_ref()).close()
        },
    );
}
