//! The end by a signal. A program without unsafe code cannot install a handler. But it can be started with signals blocked: then one that
//! is sent waits, the system says so in a file, and the program looks there between two arrivals.

use std::env;
use std::fs;
use std::os::unix::ffi::OsStrExt;
use std::os::unix::process::CommandExt;
use std::process::{Command, Stdio};

/// The program that starts another one with signals blocked, and how it is told so.
const ENV: &str = "/usr/bin/env";
const BLOCK: &str = "--block-signal=HUP,INT,TERM";

/// A bit for each of the three in the system's masks: signals 1, 2 and 15.
const MASK: u64 = 1 | 1 << 1 | 1 << 14;

/// Set for the program that is started anew, so that it is not started a third time.
const MARK: &str = "MESHPIGEON_SIGNALS";

/// Starts this program anew, in the same process, with the three signals blocked. If that cannot be done the signals act as ever: they
/// end the program at once, which loses nothing.
pub fn block() {
    if masks(&["SigBlk:"]) == MASK || env::var_os(MARK).is_some() || !knows_how() {
        return;
    }
    let Ok(program) = env::current_exe() else { return };
    // `env` would take a name with an equals sign for a variable.
    if !program.as_os_str().as_bytes().contains(&b'=') {
        let _ = Command::new(ENV).arg(BLOCK).arg(program).args(env::args_os().skip(1)).env(MARK, "blocked").exec();
    }
}

/// Whether one of the three was sent and waits.
pub fn is_pending() -> bool {
    masks(&["SigPnd:", "ShdPnd:"]) != 0
}

/// Whether the program that blocks signals is there and knows how.
fn knows_how() -> bool {
    let mut trial = Command::new(ENV);
    trial.args([BLOCK, ENV]).stdin(Stdio::null()).stdout(Stdio::null()).stderr(Stdio::null());
    trial.status().is_ok_and(|status| status.success())
}

/// Those of the three signals that are in one of the masks of these names.
fn masks(names: &[&str]) -> u64 {
    masks_in(&fs::read_to_string("/proc/self/status").unwrap_or_default(), names)
}

fn masks_in(status: &str, names: &[&str]) -> u64 {
    let mask = |line: &str| {
        names.iter().find_map(|name| line.strip_prefix(name)).and_then(|mask| u64::from_str_radix(mask.trim(), 16).ok())
    };
    status.lines().filter_map(mask).fold(0, |all, mask| all | mask & MASK)
}

#[cfg(test)]
mod tests {
    use super::*;

    #[test]
    fn masks_are_read_from_their_rows() {
        let status = "Name:\tmeshpigeon\nSigPnd:\t0000000000000000\nShdPnd:\t0000000000004000\nSigBlk:\t0000000000004003\n";
        assert_eq!(masks_in(status, &["SigPnd:"]), 0);
        assert_eq!(masks_in(status, &["SigPnd:", "ShdPnd:"]), 1 << 14);
        assert_eq!(masks_in(status, &["SigBlk:"]), MASK);
        assert_eq!(masks_in("SigBlk:\tzz\nSigBlk:\tfffffffffffffffc\n", &["SigBlk:"]), 1 << 14);
    }
}
