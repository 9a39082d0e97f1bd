//! A line that shows how far the tool has come: on a terminal, when more than a second has passed, and nowhere else.

use crate::count::grouped;
use std::io::{self, IsTerminal, Write};
use std::time::{Duration, Instant};

/// Nothing is shown before so much time has passed.
const PATIENCE: Duration = Duration::from_secs(1);
/// The line changes no more often than this.
const PAUSE: Duration = Duration::from_millis(100);

/// What ends the line that is shown, and leaves the terminal as it was.
const ERASE: &str = "\r\x1b[K";

/// How far the tool has come.
pub struct Progress {
    begun: Instant,
    /// When the line was shown last.
    shown: Option<Instant>,
    is_visible: bool,
    is_on: bool,
}

impl Progress {
    /// Nothing is shown yet. Standard error must be a terminal that can erase a line.
    pub fn new() -> Self {
        let can_erase = std::env::var_os("TERM").is_some_and(|name| !name.is_empty() && name != "dumb");
        Self { begun: Instant::now(), shown: None, is_visible: false, is_on: can_erase && io::stderr().is_terminal() }
    }

    /// Shows how many of how many files are done, if it is time for that.
    pub fn show(&mut self, done: usize, all: usize) {
        let now = Instant::now();
        if self.is_on && is_due(now - self.begun, self.shown.map(|shown| now - shown)) {
            (self.shown, self.is_visible) = (Some(now), true);
            let _ = write!(io::stderr(), "{ERASE}{} of {} files judged", grouped(done as i128), grouped(all as i128))
                .and_then(|()| io::stderr().flush());
        }
    }

    /// Takes the line away, before anything else is said on a terminal.
    pub fn hide(&mut self) {
        if self.is_visible {
            self.is_visible = false;
            let _ = write!(io::stderr(), "{ERASE}").and_then(|()| io::stderr().flush());
        }
    }
}

/// Whether the line is to be shown, by the time since the beginning and since it was last shown.
fn is_due(passed: Duration, pause: Option<Duration>) -> bool {
    passed > PATIENCE && pause.is_none_or(|pause| pause >= PAUSE)
}

#[cfg(test)]
mod tests {
    use super::*;

    #[test]
    fn it_is_shown_after_a_second_and_not_too_often() {
        let millis = Duration::from_millis;
        assert!(!is_due(millis(999), None) && !is_due(millis(1_000), None) && is_due(millis(1_001), None));
        assert!(!is_due(millis(5_000), Some(millis(99))) && is_due(millis(5_000), Some(millis(100))));
    }
}
