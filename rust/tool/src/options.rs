//! The options of a command line, sorted from its words.

use crate::args::{misuse, shown, Misuse};
use crate::spool;
use std::ffi::{OsStr, OsString};

/// The options and the other words, apart.
#[derive(Default)]
pub struct Parts {
    /// What is no option.
    pub words: Vec<OsString>,
    /// `--map`, as often as it is given.
    pub maps: Vec<OsString>,
    /// `--base`.
    pub base: Option<OsString>,
    /// `--palette`.
    pub palette: Option<OsString>,
    /// `--offset`.
    pub offset: Option<OsString>,
    /// `--list`, or `--order`, as it was called first.
    pub list: Option<OsString>,
    /// `--name`.
    pub name: Option<OsString>,
    /// `--index`.
    pub index: Option<OsString>,
    /// `--check`.
    pub check: Option<OsString>,
    /// `--files0-from`.
    pub files: Option<OsString>,
    /// `-o`.
    pub output: Option<OsString>,
    /// The options of `spool`.
    pub spool: spool::options::Given,
    /// `--records`.
    pub records: bool,
    /// `--require-map`.
    pub require_map: bool,
    /// `--all`.
    pub all: bool,
    /// `--json`.
    pub json: bool,
    /// `--quiet`.
    pub quiet: bool,
    /// `--help`.
    pub help: bool,
    /// `--version`.
    pub version: bool,
}

/// The long options that take a value.
const VALUED: [&str; 10] =
    ["--map", "--base", "--palette", "--offset", "--list", "--order", "--name", "--index", "--check", "--files0-from"];

/// Sorts options from words; `--` makes words of all that follows.
pub fn split(arguments: Vec<OsString>) -> Result<Parts, Misuse> {
    let mut parts = Parts::default();
    let mut rest = arguments.into_iter();
    while let Some(argument) = rest.next() {
        if let Some((option, joined)) = valued(&argument) {
            let given = joined.or_else(|| rest.next());
            put(option, given, &mut parts)?;
            continue;
        }
        match argument.to_str() {
            Some("--") => parts.words.extend(rest.by_ref()),
            Some("--json") => parts.json = true,
            Some("--records") => parts.records = true,
            Some("--require-map") => parts.require_map = true,
            Some("--all") => parts.all = true,
            Some("--quiet" | "-q") => parts.quiet = true,
            Some("--help" | "-h") => parts.help = true,
            Some("--version" | "-V") => parts.version = true,
            _ if is_option(&argument) => return misuse(format!("'{}' is no option", shown(&argument))),
            _ => parts.words.push(argument),
        }
    }
    Ok(parts)
}

/// An option that takes a value, and the value where it is joined to a long one: `--map=MAP01`.
fn valued(argument: &OsStr) -> Option<(&'static str, Option<OsString>)> {
    use std::os::unix::ffi::OsStrExt;
    if argument == "-o" {
        return Some(("-o", None));
    }
    VALUED.iter().chain(&spool::options::VALUED).find_map(|option| match argument.as_bytes().strip_prefix(option.as_bytes())? {
        [] => Some((*option, None)),
        [b'=', value @ ..] => Some((*option, Some(OsStr::from_bytes(value).to_os_string()))),
        _ => None,
    })
}

/// Puts an option's value where it belongs; all but `--map` are given once.
fn put(option: &str, given: Option<OsString>, parts: &mut Parts) -> Result<(), Misuse> {
    let Some(given) = given else { return misuse(format!("{option} needs a value")) };
    let place = match option {
        "--base" => &mut parts.base,
        "--palette" => &mut parts.palette,
        "--offset" => &mut parts.offset,
        "--list" | "--order" => &mut parts.list,
        "--name" => &mut parts.name,
        "--index" => &mut parts.index,
        "--check" => &mut parts.check,
        "--files0-from" => &mut parts.files,
        "-o" => &mut parts.output,
        "--map" => {
            parts.maps.push(given);
            return Ok(());
        }
        _ => parts.spool.place(option).expect("an option of spool"),
    };
    match place.replace(given) {
        None => Ok(()),
        Some(_) => misuse(format!("{option} is given twice")),
    }
}

/// A word that begins with `-` is an option, but for `-` itself and negative numbers.
fn is_option(argument: &OsStr) -> bool {
    match argument.as_encoded_bytes() {
        [b'-', next, ..] => !next.is_ascii_digit(),
        _ => false,
    }
}

impl Parts {
    /// Refuses options that the command does not know.
    pub fn fit(&self, command: &str) -> Result<(), Misuse> {
        let takes = |commands: &[&str]| commands.contains(&command);
        let strange = [
            (!self.maps.is_empty() && !takes(&["judge", "diff"]), "--map"),
            (self.base.is_some() && !takes(&["judge", "picture", "spool"]), "--base"),
            (self.palette.is_some() && !takes(&["picture", "encode"]), "--palette"),
            (self.offset.is_some() && !takes(&["encode"]), "--offset"),
            (self.list.is_some() && !takes(&["renumber"]), "--list"),
            (self.name.is_some() && !takes(&["list"]), "--name"),
            (self.index.is_some() && !takes(&["list"]), "--index"),
            (self.check.is_some() && !takes(&["index"]), "--check"),
            (self.files.is_some() && !takes(&["judge"]), "--files0-from"),
            (self.output.is_some() && !takes(&["order", "picture", "encode", "renumber", "index", "extract"]), "-o"),
            (self.records && !takes(&["diff"]), "--records"),
            (self.require_map && !takes(&["judge"]), "--require-map"),
            (self.all && !takes(&["judge"]), "--all"),
            (
                self.quiet && !takes(&["judge", "picture", "encode", "sidedefs", "renumber", "index", "extract", "spool"]),
                "--quiet",
            ),
            (self.spool.first().is_some() && !takes(&["spool"]), self.spool.first().unwrap_or_default()),
        ];
        match strange.iter().find(|(is_strange, _)| *is_strange) {
            Some((_, option)) => misuse(format!("{command} does not take {option}")),
            None => Ok(()),
        }
    }
}
