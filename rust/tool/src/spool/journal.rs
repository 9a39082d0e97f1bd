//! The journal: one JSON line for each outcome, added at its end and flushed.

use super::disk::Disk;
use crate::atomic;
use std::io;
use std::path::Path;
use std::time::{SystemTime, UNIX_EPOCH};

/// Seconds of a day.
const DAY: i64 = 86_400;

/// Adds a line to a journal and has it flushed, with the first line of a run also the journal's name. If an earlier run left half a line,
/// the new one begins below it.
pub fn append(disk: &Disk, journal: &Path, line: &str, is_first: bool) -> io::Result<()> {
    let file = disk.append_to(journal)?;
    let length = disk.about(&file)?.len();
    let mut last = [b'\n'];
    if length > 0 {
        disk.read_at(&file, &mut last, length - 1)?;
    }
    let ended = if last == *b"\n" { "" } else { "\n" };
    let line = format!("{ended}{line}\n");
    atomic::fits(length + line.len() as u64)?;
    disk.write(&file, line.as_bytes())?;
    disk.flush(&file)?;
    if is_first {
        let folder = journal.parent().filter(|folder| *folder != Path::new("")).unwrap_or(Path::new("."));
        disk.flush_folder(folder)?;
    }
    Ok(())
}

/// Seconds since the beginning of 1970.
pub fn now() -> i64 {
    let since = SystemTime::now().duration_since(UNIX_EPOCH).unwrap_or_default();
    since.as_secs().try_into().unwrap_or(i64::MAX)
}

/// A moment of UTC, as ISO 8601 writes it: 2026-11-18T01:05:41Z.
pub fn moment(seconds: i64) -> String {
    let (days, rest) = (seconds.div_euclid(DAY), seconds.rem_euclid(DAY));
    let (year, month, day) = date(days);
    let (hour, minute, second) = (rest / 3_600, rest / 60 % 60, rest % 60);
    format!("{year:04}-{month:02}-{day:02}T{hour:02}:{minute:02}:{second:02}Z")
}

/// The date of a day, counted from the first of 1970. Years begin with March here, so that a leap day is a year's last.
fn date(days: i64) -> (i64, i64, i64) {
    let days = days + 719_468;
    let (era, day) = (days.div_euclid(146_097), days.rem_euclid(146_097));
    let year = (day - day / 1_460 + day / 36_524 - day / 146_096) / 365;
    let day = day - (365 * year + year / 4 - year / 100);
    let month = (5 * day + 2) / 153;
    let day = day - (153 * month + 2) / 5 + 1;
    let month = if month < 10 { month + 3 } else { month - 9 };
    (400 * era + year + i64::from(month <= 2), month, day)
}

#[cfg(test)]
mod tests {
    use super::*;

    #[test]
    fn moments_are_dates_and_times() {
        let said = [0, 951_782_399, 951_782_400, 1_709_164_800, 1_795_050_341, 4_107_542_400].map(moment);
        let expected = [
            "1970-01-01T00:00:00Z", "2000-02-28T23:59:59Z", "2000-02-29T00:00:00Z", "2024-02-29T00:00:00Z",
            "2026-11-19T01:05:41Z", "2100-03-01T00:00:00Z",
        ];
        assert_eq!(said, expected);
    }
}
