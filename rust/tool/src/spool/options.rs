//! The options that only `spool` has, and what it is asked to do.

use super::{Folders, Task};
use crate::args::{misuse, shown, Misuse};
use crate::options::Parts;
use std::ffi::{OsStr, OsString};
use std::path::PathBuf;
use std::time::Duration;

/// All of them take a value.
pub const VALUED: [&str; 7] = ["--accepted", "--refused", "--held", "--settle", "--every", "--journal", "--summary"];

/// So long a file must have been left alone, unless something else is given.
const SETTLE: Duration = Duration::from_secs(30);

/// So many seconds are a hundred years; more is a slip.
const MOST_SECONDS: u64 = 3_155_760_000;

/// The options' values, in the order of their names.
#[derive(Default)]
pub struct Given([Option<OsString>; VALUED.len()]);

impl Given {
    /// Where an option's value belongs, if the option is one of these.
    pub fn place(&mut self, option: &str) -> Option<&mut Option<OsString>> {
        VALUED.iter().position(|name| *name == option).map(|number| &mut self.0[number])
    }

    /// The first option that is given.
    pub fn first(&self) -> Option<&'static str> {
        VALUED.iter().zip(&self.0).find(|(_, value)| value.is_some()).map(|(name, _)| *name)
    }

    fn value(&self, option: &str) -> Option<&OsString> {
        VALUED.iter().zip(&self.0).find(|(name, _)| **name == option).and_then(|(_, value)| value.as_ref())
    }
}

/// What is to be done.
pub fn task(parts: &Parts) -> Result<Task, Misuse> {
    let given = &parts.spool;
    if let Some(journal) = given.value("--summary") {
        let is_alone = parts.words.is_empty() && parts.base.is_none() && given.0.iter().flatten().count() == 1;
        return if is_alone { Ok(Task::Summary(journal.into())) } else { misuse("spool takes --summary FILE alone") };
    }
    let needs = "IN --accepted DIR --refused DIR --held DIR, or --summary FILE";
    let [arrivals] = match &parts.words[..] {
        [_, more, ..] => return misuse(format!("spool takes {needs}, and '{}' is one word too many", shown(more))),
        [arrivals] => [arrivals.clone()],
        [] => return misuse(format!("spool needs {needs}")),
    };
    let folder = |option| given.value(option).map(PathBuf::from);
    let (Some(accepted), Some(refused), Some(held)) = (folder("--accepted"), folder("--refused"), folder("--held")) else {
        return misuse(format!("spool needs {needs}"));
    };
    if parts.base.as_ref().is_some_and(|base| base == "-") {
        return misuse("spool reads the base in every round, and not from standard input: give the file's name");
    }
    let seconds = |option| given.value(option).map(|word| seconds(option, word)).transpose();
    let every = seconds("--every")?;
    if every.is_some_and(|every| every.is_zero()) {
        return misuse("--every needs at least 1 second");
    }
    let settle = seconds("--settle")?.unwrap_or(SETTLE);
    let (base, journal) = (parts.base.clone(), folder("--journal"));
    Ok(Task::Rounds(Folders { arrivals: arrivals.into(), accepted, refused, held, base, settle, every, journal }))
}

/// A whole number of seconds.
fn seconds(option: &str, word: &OsStr) -> Result<Duration, Misuse> {
    let digits = word.to_str().filter(|text| text.bytes().all(|byte| byte.is_ascii_digit()));
    let number = digits.and_then(|text| text.parse().ok()).filter(|number| *number <= MOST_SECONDS);
    match number {
        Some(number) => Ok(Duration::from_secs(number)),
        None => misuse(format!("'{}' is no number of seconds for {option}", shown(word))),
    }
}
