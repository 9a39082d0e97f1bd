//! The command line, taken apart. Whatever is not understood is bad usage, and then nothing is judged.

use crate::help;
use crate::judge::Task;
use crate::options::{self, Parts};
use crate::spool;
use std::ffi::{OsStr, OsString};
use std::fmt;
use std::path::Path;

/// What is asked for, and how the answers are to look.
#[derive(Debug, PartialEq, Eq)]
pub struct Request {
    /// What to do.
    pub command: Command,
    /// One JSON object a line.
    pub json: bool,
    /// Refusals only.
    pub quiet: bool,
}

/// What to do.
#[derive(Debug, PartialEq, Eq)]
pub enum Command {
    /// Print the help, or the part of a command.
    Help(&'static str),
    /// Print the version.
    Version,
    /// Judge the named maps of each file, or all of them.
    Judge(Task),
    /// List a directory, or one entry of it.
    List {
        /// The file.
        file: OsString,
        /// The entry's name as given, and the index that leads to it.
        lookup: Option<(OsString, OsString)>,
    },
    /// Write or check a name index.
    Index {
        /// The file.
        file: OsString,
        /// Which of the two.
        task: IndexTask,
    },
    /// Find a point's subsector.
    Descend {
        /// The file.
        file: OsString,
        /// The map's name as given.
        map: OsString,
        /// The point, eastward.
        x: i16,
        /// The point, northward.
        y: i16,
    },
    /// List the subsectors that a point sees.
    Order {
        /// The file.
        file: OsString,
        /// The map's name as given.
        map: OsString,
        /// The point, eastward.
        x: i16,
        /// The point, northward.
        y: i16,
        /// Where they are drawn, if they are.
        output: Option<OsString>,
    },
    /// Write a picture lump as PNG.
    Picture {
        /// The file.
        file: OsString,
        /// The file that it is a patch over, if it is.
        base: Option<OsString>,
        /// The lump's name as given; none where the file is the lump itself.
        lump: Option<OsString>,
        /// The file of the palette, if it is not the file's own.
        palette: Option<OsString>,
        /// Where it goes.
        output: OsString,
    },
    /// Write an image as a picture lump.
    Encode {
        /// The image.
        image: OsString,
        /// The file of the palette, if there is one.
        palette: Option<OsString>,
        /// Left and top offset.
        offset: (i16, i16),
        /// Where it goes.
        output: OsString,
    },
    /// Judge a SIDEDEFS lump on standard input as it comes.
    Sidedefs {
        /// The count of sectors, good or not.
        sectors: usize,
    },
    /// Print a text map.
    Text {
        /// The file.
        file: OsString,
        /// The map's name as given.
        map: OsString,
    },
    /// Say what changed between two files' maps.
    Diff {
        /// The old file.
        old: OsString,
        /// The new file.
        new: OsString,
        /// Names as given; none for every map that both have.
        maps: Vec<OsString>,
        /// Whether each record is told.
        records: bool,
    },
    /// Cut a map or a lump out of a file.
    Extract {
        /// The file.
        file: OsString,
        /// The name as given.
        name: OsString,
        /// Where the new file goes.
        output: OsString,
    },
    /// Judge what arrives in a folder.
    Spool(spool::Task),
    /// Number a map's nodes anew.
    Renumber {
        /// The file.
        file: OsString,
        /// The map's name as given.
        map: OsString,
        /// The file of the order, if one is given.
        list: Option<OsString>,
        /// Where the new file goes.
        output: OsString,
    },
}

/// What is to be done with an index.
#[derive(Debug, PartialEq, Eq)]
pub enum IndexTask {
    /// Write it there.
    Write(OsString),
    /// Check that one.
    Check(OsString),
}

/// Why a command line is not understood.
#[derive(Debug, PartialEq, Eq)]
pub struct Misuse(String);

impl fmt::Display for Misuse {
    fn fmt(&self, out: &mut fmt::Formatter<'_>) -> fmt::Result {
        out.write_str(&self.0)
    }
}

/// Bad usage, in words.
pub fn misuse<T>(words: impl Into<String>) -> Result<T, Misuse> {
    Err(Misuse(words.into()))
}

/// What may be asked for.
const COMMANDS: &str =
    "judge, list, index, extract, descend, order, picture, encode, sidedefs, renumber, diff, text, spool or help";

/// Takes the arguments after the program's name apart.
pub fn parse(arguments: Vec<OsString>) -> Result<Request, Misuse> {
    let mut parts = options::split(arguments)?;
    let (json, quiet) = (parts.json, parts.quiet);
    let plain = |command| Ok(Request { command, json: false, quiet: false });
    if parts.version {
        return plain(Command::Version);
    }
    if parts.words.is_empty() {
        return if parts.help { plain(Command::Help(help::WHOLE)) } else { misuse(format!("no command is given: {COMMANDS}")) };
    }
    let name = parts.words.remove(0);
    if name == "help" {
        return plain(Command::Help(asked_part(&parts)?));
    }
    if parts.help {
        return plain(Command::Help(part_of(&name)?));
    }
    let command = match name.to_str() {
        Some("judge") => judge(&parts),
        Some("list") => list(&parts),
        Some("index") => index(&parts),
        Some("extract") => extract(&parts),
        Some("descend") => descend(&parts),
        Some("order") => order(&parts),
        Some("picture") => picture(&parts),
        Some("encode") => encode(&parts),
        Some("sidedefs") => sidedefs(&parts),
        Some("diff") => diff(&parts),
        Some("renumber") => renumber(&parts),
        Some("text") => text(&parts),
        Some("spool") => spool::options::task(&parts).map(Command::Spool),
        _ => unknown(&name),
    }?;
    parts.fit(&name.to_string_lossy())?;
    Ok(Request { command, json, quiet })
}

/// What `help` prints: all of it, or the part of the command that is named.
fn asked_part(parts: &Parts) -> Result<&'static str, Misuse> {
    match &parts.words[..] {
        [] => Ok(help::WHOLE),
        [name] => part_of(name),
        [_, more, ..] => misuse(format!("help takes one COMMAND, and '{}' is one word too many", shown(more))),
    }
}

fn part_of(command: &OsStr) -> Result<&'static str, Misuse> {
    command.to_str().and_then(help::part).map_or_else(|| unknown(command), Ok)
}

fn unknown<T>(command: &OsStr) -> Result<T, Misuse> {
    misuse(format!("'{}' is no command: {COMMANDS}", shown(command)))
}

fn judge(parts: &Parts) -> Result<Command, Misuse> {
    let (files, list) = (parts.words.clone(), parts.files.clone());
    match (&list, files.first()) {
        (None, None) => return misuse("judge needs FILE, a folder, or --files0-from LIST"),
        (Some(_), Some(file)) => return misuse(format!("judge takes --files0-from or files, and '{}' is one", shown(file))),
        _ => {}
    }
    read_once(files.iter().chain(&list).chain(&parts.base))?;
    let (base, maps) = (parts.base.clone(), parts.maps.clone());
    Ok(Command::Judge(Task { files, list, base, maps, require_map: parts.require_map, all: parts.all }))
}

/// Refuses standard input as more than one of the files.
fn read_once<'a>(files: impl Iterator<Item = &'a OsString>) -> Result<(), Misuse> {
    match files.filter(|file| *file == "-").count() {
        0 | 1 => Ok(()),
        _ => misuse("standard input can be read once only"),
    }
}

fn list(parts: &Parts) -> Result<Command, Misuse> {
    let [file] = words(parts, "list", "FILE")?;
    let lookup = match (parts.name.clone(), parts.index.clone()) {
        (None, None) => None,
        (Some(name), Some(index)) => Some((name, index)),
        _ => return misuse("list takes --name and --index together: the name, and the index to look it up in"),
    };
    read_once([&file].into_iter().chain(&parts.index))?;
    Ok(Command::List { file, lookup })
}

fn index(parts: &Parts) -> Result<Command, Misuse> {
    let needs = "FILE -o OUT.wix, or FILE --check INDEX";
    let [file] = words(parts, "index", needs)?;
    read_once([&file].into_iter().chain(&parts.check))?;
    match (parts.output.clone(), parts.check.clone()) {
        (Some(output), None) => Ok(Command::Index { file, task: IndexTask::Write(output) }),
        (None, Some(index)) => Ok(Command::Index { file, task: IndexTask::Check(index) }),
        _ => misuse(format!("index needs {needs}")),
    }
}

fn extract(parts: &Parts) -> Result<Command, Misuse> {
    let needs = "FILE NAME -o OUT.wad";
    let [file, name] = words(parts, "extract", needs)?;
    if file == "-" {
        return misuse("extract reads parts of a file, and not standard input: give the file's name");
    }
    match parts.output.clone() {
        Some(output) => Ok(Command::Extract { file, name, output }),
        None => misuse(format!("extract needs {needs}")),
    }
}

fn text(parts: &Parts) -> Result<Command, Misuse> {
    let [file, map] = words(parts, "text", "FILE MAP")?;
    Ok(Command::Text { file, map })
}

fn descend(parts: &Parts) -> Result<Command, Misuse> {
    let [file, map, x, y] = words(parts, "descend", "FILE MAP X Y")?;
    let (x, y) = (coordinate(&x)?, coordinate(&y)?);
    Ok(Command::Descend { file, map, x, y })
}

fn order(parts: &Parts) -> Result<Command, Misuse> {
    let [file, map, x, y] = words(parts, "order", "FILE MAP X Y")?;
    let (x, y) = (coordinate(&x)?, coordinate(&y)?);
    let output = parts.output.clone();
    if output.as_ref().is_some_and(|output| output != "-" && !is_svg(output)) {
        return misuse("order draws SVG: -o needs a name that ends in .svg, or -");
    }
    Ok(Command::Order { file, map, x, y, output })
}

fn is_svg(output: &OsStr) -> bool {
    Path::new(output).extension().is_some_and(|ending| ending.eq_ignore_ascii_case("svg"))
}

fn picture(parts: &Parts) -> Result<Command, Misuse> {
    let needs = "picture needs FILE LUMP -o OUT.png, or the file of a lump";
    let (file, lump) = match &parts.words[..] {
        [file] => (file.clone(), None),
        [file, lump] => (file.clone(), Some(lump.clone())),
        [_, _, more, ..] => {
            return misuse(format!("picture takes FILE LUMP -o OUT.png, and '{}' is one word too many", shown(more)))
        }
        [] => return misuse(needs),
    };
    if lump.is_none() && parts.base.is_some() {
        return misuse("--base needs LUMP: the file of a lump is no patch");
    }
    let (base, palette) = (parts.base.clone(), parts.palette.clone());
    read_once([&file].into_iter().chain(&base).chain(&palette))?;
    match parts.output.clone() {
        Some(output) => Ok(Command::Picture { file, base, lump, palette, output }),
        None => misuse(needs),
    }
}

fn encode(parts: &Parts) -> Result<Command, Misuse> {
    let needs = "IMAGE -o OUT.lmp";
    let [image] = words(parts, "encode", needs)?;
    let palette = parts.palette.clone();
    read_once([&image].into_iter().chain(&palette))?;
    let offset = parts.offset.as_deref().map_or(Ok((0, 0)), offsets)?;
    match parts.output.clone() {
        Some(output) => Ok(Command::Encode { image, palette, offset, output }),
        None => misuse(format!("encode needs {needs}")),
    }
}

fn sidedefs(parts: &Parts) -> Result<Command, Misuse> {
    let [sectors] = words(parts, "sidedefs", "SECTORS, and the lump on standard input")?;
    Ok(Command::Sidedefs { sectors: count(&sectors)? })
}

fn diff(parts: &Parts) -> Result<Command, Misuse> {
    let [old, new] = words(parts, "diff", "OLD NEW")?;
    read_once([&old, &new].into_iter())?;
    Ok(Command::Diff { old, new, maps: parts.maps.clone(), records: parts.records })
}

fn renumber(parts: &Parts) -> Result<Command, Misuse> {
    let needs = "FILE MAP -o OUT.wad";
    let [file, map] = words(parts, "renumber", needs)?;
    let list = parts.list.clone();
    read_once([&file].into_iter().chain(&list))?;
    match parts.output.clone() {
        Some(output) => Ok(Command::Renumber { file, map, list, output }),
        None => misuse(format!("renumber needs {needs}")),
    }
}

/// The words of a command, neither too few nor too many.
fn words<const N: usize>(parts: &Parts, command: &str, needs: &str) -> Result<[OsString; N], Misuse> {
    match parts.words.get(N) {
        Some(more) => misuse(format!("{command} takes {needs}, and '{}' is one word too many", shown(more))),
        None => parts.words.clone().try_into().or_else(|_| misuse(format!("{command} needs {needs}"))),
    }
}

fn coordinate(word: &OsStr) -> Result<i16, Misuse> {
    let number = word.to_str().and_then(|text| text.parse().ok());
    number.map_or_else(|| misuse(format!("'{}' is no coordinate: -32768 to 32767", shown(word))), Ok)
}

/// Digits alone: a count outside 1 to 65535 is the library's to refuse.
fn count(word: &OsStr) -> Result<usize, Misuse> {
    let digits = word.to_str().filter(|text| text.bytes().all(|byte| byte.is_ascii_digit()));
    let number = digits.and_then(|text| text.parse().ok());
    number.map_or_else(|| misuse(format!("'{}' is no count of sectors: 1 to 65535", shown(word))), Ok)
}

/// Left and top offset with a comma between them.
fn offsets(word: &OsStr) -> Result<(i16, i16), Misuse> {
    let numbers = word.to_str().and_then(|text| text.split_once(','));
    let numbers = numbers.and_then(|(left, top)| Some((left.parse().ok()?, top.parse().ok()?)));
    numbers.map_or_else(|| misuse(format!("'{}' is no offset: X,Y, each -32768 to 32767", shown(word))), Ok)
}

/// A word of the command line, safe to print.
pub fn shown(word: &OsStr) -> String {
    crate::name::file(word)
}
