//! What a journal says of the last 24 hours.

use super::journal;
use crate::count::{counted, grouped};
use crate::input;
use crate::json::Object;
use crate::name;
use crate::report::Report;
use std::collections::HashSet;
use std::fs::File;
use std::io::{self, BufRead, BufReader, Read};
use std::path::Path;

/// So many seconds count.
const NIGHT: i64 = 86_400;

/// A line has at most so many bytes; the spool writes none that is longer.
const LONGEST_LINE: u64 = 1 << 20;

/// So many files are listed.
const MOST_LISTED: usize = 1_000;

/// What is known after some lines.
#[derive(Default)]
struct Night {
    /// How many files were accepted, refused and held.
    counts: [usize; KINDS.len()],
    /// How many came again, with the same bytes and the same outcome.
    again: usize,
    /// What was refused or held, and why.
    listed: Vec<String>,
    /// The same, as the journal has it.
    objects: Vec<String>,
    /// How many more there are.
    unlisted: usize,
    /// How many lines are not the spool's.
    strange: usize,
    /// The time of the last line of all.
    last: Option<String>,
    /// Which files were counted.
    met: HashSet<String>,
}

/// The outcomes in their order.
const KINDS: [&str; 3] = ["accepted", "refused", "held"];

/// Prints it.
pub fn run(journal: &Path, report: &mut Report) {
    let since = journal::moment(journal::now() - NIGHT);
    match read(journal, &since) {
        Err(error) => report.unread(journal.as_os_str(), &input::words(&error)),
        Ok(night) if report.is_json() => report.text(&night.json(&since)),
        Ok(night) => report.text(&night.words(&since)),
    }
}

fn read(journal: &Path, since: &str) -> io::Result<Night> {
    let (mut lines, mut night) = (BufReader::new(File::open(journal)?), Night::default());
    loop {
        let mut line = Vec::new();
        if (&mut lines).take(LONGEST_LINE).read_until(b'\n', &mut line)? == 0 {
            return Ok(night);
        }
        let line = String::from_utf8_lossy(&line);
        match line.trim_end() {
            "" => {}
            line => night.add(line, since),
        }
    }
}

impl Night {
    /// Takes a line into account.
    fn add(&mut self, line: &str, since: &str) {
        let (Some(time), Some(kind)) = (text(line, "time"), text(line, "outcome")) else {
            self.strange += 1;
            return;
        };
        let Some(kind) = KINDS.iter().position(|it| **it == *kind).filter(|_| line.ends_with('}')) else {
            self.strange += 1;
            return;
        };
        let is_old = time.as_str() < since;
        self.last = Some(time);
        if is_old {
            return;
        }
        let file = file(line);
        if !self.met.insert(format!("{file}\n{}\n{kind}", raw(line, "crc32").unwrap_or_default())) {
            self.again += 1;
            return;
        }
        self.counts[kind] += 1;
        if kind == 0 {
            return;
        }
        if self.listed.len() == MOST_LISTED {
            self.unlisted += 1;
            return;
        }
        let said = text(line, "text").unwrap_or_default();
        self.listed.push(format!("{file}: {}: {}", KINDS[kind], name::shown(&said).replace("\\n", "\n    ")));
        self.objects.push(line.to_string());
    }

    fn words(&self, since: &str) -> String {
        let total: usize = self.counts.iter().sum();
        let each: Vec<String> =
            KINDS.iter().zip(self.counts).map(|(kind, count)| format!("{} {kind}", grouped(count as i128))).collect();
        let again = if self.again == 0 { String::new() } else { format!("; {} came again", grouped(self.again as i128)) };
        let mut lines = match &self.last {
            _ if total > 0 => vec![format!("since {since}: {}: {}{again}", counted(total, "file"), each.join(", "))],
            Some(last) => vec![format!("since {since}: no file; the last one was at {}", name::shown(last))],
            None => vec![format!("since {since}: no file, and none before")],
        };
        lines.extend(self.listed.iter().cloned());
        if self.unlisted > 0 {
            lines.push(format!("{} more", grouped(self.unlisted as i128)));
        }
        if self.strange > 0 {
            lines.push(format!("{} of the journal cannot be read", counted(self.strange, "line")));
        }
        lines.join("\n")
    }

    fn json(&self, since: &str) -> String {
        let object = Object::new().number("format", 1).text("since", since);
        let object = KINDS.iter().zip(self.counts).fold(object, |object, (kind, count)| object.count(kind, count));
        let object = object.count("again", self.again).count("strange", self.strange).text("last", self.last.as_deref());
        let object = object.count("more", self.unlisted).close();
        let open = object.strip_suffix('}').unwrap_or(&object);
        format!("{open},\"files\":[{}]}}", self.objects.join(","))
    }
}

/// The file's name on one line.
fn file(line: &str) -> String {
    text(line, "file_bytes").or_else(|| text(line, "file").map(|name| name::file(name.as_ref()))).unwrap_or_default()
}

/// What stands behind a key. A quote in a string has a backslash before it, so no string can hold the key with its quotes.
fn raw<'a>(line: &'a str, key: &str) -> Option<&'a str> {
    let key = format!("\"{key}\":");
    let start = line.find(&format!(",{key}")).map(|at| at + 1).or_else(|| line.find(&format!("{{{key}")).map(|at| at + 1))?;
    let rest = &line[start + key.len()..];
    match rest.strip_prefix('"') {
        Some(inside) => Some(&rest[..inside.find_unescaped()? + 2]),
        None => rest.split([',', '}']).next(),
    }
}

/// The text behind a key.
fn text(line: &str, key: &str) -> Option<String> {
    let inside = raw(line, key)?.strip_prefix('"')?.strip_suffix('"')?;
    let (mut text, mut rest) = (Vec::new(), inside.chars());
    while let Some(it) = rest.next() {
        match it {
            '\\' => text.extend(unescaped(&mut rest)?),
            it => text.extend(it.encode_utf16(&mut [0; 2]).iter().copied()),
        }
    }
    Some(String::from_utf16_lossy(&text))
}

/// The character behind a backslash, as one half or a whole of UTF-16.
fn unescaped(rest: &mut std::str::Chars) -> Option<Vec<u16>> {
    let it = match rest.next()? {
        'n' => '\n',
        'r' => '\r',
        't' => '\t',
        'u' => {
            let digits: String = rest.take(4).collect();
            return Some(vec![u16::from_str_radix(&digits, 16).ok()?]);
        }
        it => it,
    };
    Some(vec![it as u16])
}

/// A string of JSON behind its first quote.
trait Inside {
    /// Where the quote is that ends it.
    fn find_unescaped(&self) -> Option<usize>;
}

impl Inside for str {
    fn find_unescaped(&self) -> Option<usize> {
        let mut is_escaped = false;
        self.bytes().position(|byte| {
            let ends = byte == b'"' && !is_escaped;
            is_escaped = byte == b'\\' && !is_escaped;
            ends
        })
    }
}

#[cfg(test)]
mod tests {
    use super::*;
    use std::ffi::OsStr;

    /// A line as the journal has it.
    fn line(file: &str, kind: &str, said: &str, time: &str) -> String {
        let object = Object::about(OsStr::new(file)).text("crc32", "01234567").text("outcome", kind).number("number", 31);
        object.text("text", said).text("time", time).close()
    }

    #[test]
    fn what_is_written_is_read_again() {
        let names = ["a.wad", "a\"b\\,\"outcome\":\"held\".wad", "a\nb\t\r\u{1}.wad", "é\u{202e}\u{e0041}.wad", "\\\"", ""];
        for name in names {
            let line = line(name, "refused", name, "2026-11-18T01:05:41Z");
            assert_eq!([text(&line, "file"), text(&line, "text")], [Some(name.to_string()), Some(name.to_string())], "{line}");
            assert_eq!(text(&line, "outcome").as_deref(), Some("refused"));
            assert_eq!((raw(&line, "number"), raw(&line, "file_bytes"), raw(&line, "none")), (Some("31"), Some("null"), None));
        }
    }

    #[test]
    fn only_the_last_night_counts_and_each_file_once() {
        let mut night = Night::default();
        let lines = [
            line("old.wad", "refused", "old", "2026-11-17T01:00:00Z"),
            line("a.wad", "accepted", "good", "2026-11-18T01:00:00Z"),
            line("a.wad", "accepted", "good", "2026-11-18T01:00:01Z"),
            line("b.wad", "refused", "bad", "2026-11-18T01:00:02Z"),
            line("c.wad", "held", "no map", "2026-11-18T01:00:03Z"),
            "{\"format\":1,\"file\":\"half".to_string(),
        ];
        lines.iter().for_each(|line| night.add(line, "2026-11-17T12:00:00Z"));
        let expected = "since 2026-11-17T12:00:00Z: 3 files: 1 accepted, 1 refused, 1 held; 1 came again\nb.wad: refused: bad\n\
                        c.wad: held: no map\n1 line of the journal cannot be read";
        assert_eq!(night.words("2026-11-17T12:00:00Z"), expected);
        assert!(night
            .json("s")
            .starts_with("{\"format\":1,\"since\":\"s\",\"accepted\":1,\"refused\":1,\"held\":1,\"again\":1,"));
    }

    #[test]
    fn an_empty_night_names_the_last_file() {
        let mut night = Night::default();
        assert_eq!(night.words("2026"), "since 2026: no file, and none before");
        night.add(&line("a.wad", "accepted", "", "2020-01-01T00:00:00Z"), "2026");
        assert_eq!(night.words("2026"), "since 2026: no file; the last one was at 2020-01-01T00:00:00Z");
    }
}
