//! A folder for a test's files, and the tool run in it.

use generator::{rooms, Content, EntryPlan, MapSpec, Plan, MAP_NAME};
use std::ffi::OsStr;
use std::fs;
use std::path::{Path, PathBuf};
use std::process::{Command, Output, Stdio};
use std::sync::atomic::{AtomicU32, Ordering};

/// A folder that goes away with the test.
pub struct Folder {
    path: PathBuf,
}

impl Folder {
    /// An empty folder.
    pub fn new() -> Self {
        static NUMBER: AtomicU32 = AtomicU32::new(0);
        let number = NUMBER.fetch_add(1, Ordering::Relaxed);
        let path = std::env::temp_dir().join(format!("meshpigeon-tool-{}-{number}", std::process::id()));
        fs::create_dir(&path).expect("a new folder");
        Self { path }
    }

    /// A folder with one file.
    pub fn with(name: impl AsRef<Path>, bytes: &[u8]) -> Self {
        Self::new().and(name, bytes)
    }

    /// The folder with one more file.
    pub fn and(self, name: impl AsRef<Path>, bytes: &[u8]) -> Self {
        fs::write(self.file(name), bytes).expect("the file is written");
        self
    }

    /// A path in the folder.
    pub fn file(&self, name: impl AsRef<Path>) -> PathBuf {
        self.path.join(name)
    }

    /// The names of all files in the folder, sorted.
    pub fn names(&self) -> Vec<String> {
        let entries = fs::read_dir(&self.path).expect("the folder is there");
        let mut names: Vec<String> = entries.map(|it| it.expect("an entry").file_name().to_string_lossy().into_owned()).collect();
        names.sort();
        names
    }

    /// The tool, to be run in the folder.
    pub fn command<S: AsRef<OsStr>>(&self, arguments: &[S]) -> Command {
        let mut command = Command::new(env!("CARGO_BIN_EXE_meshpigeon"));
        command.args(arguments).current_dir(&self.path).stdin(Stdio::null());
        command
    }

    /// Runs the tool with these arguments.
    pub fn run<S: AsRef<OsStr>>(&self, arguments: &[S]) -> Said {
        said(self.command(arguments).output().expect("the tool runs"))
    }
}

impl Drop for Folder {
    fn drop(&mut self) {
        let _ = fs::remove_dir_all(&self.path);
    }
}

/// What the tool said.
#[derive(Debug)]
pub struct Said {
    pub status: i32,
    pub out: String,
    pub err: String,
}

impl Said {
    /// Asserts that standard output is these lines, with this exit status and nothing on standard error.
    pub fn is(&self, status: i32, lines: &[&str]) {
        assert_eq!((self.out.lines().collect::<Vec<_>>(), self.status, self.err.as_str()), (lines.to_vec(), status, ""));
    }
}

/// The tool's output as text.
pub fn said(output: Output) -> Said {
    let text = |bytes| String::from_utf8(bytes).expect("the tool speaks UTF-8");
    Said { status: output.status.code().expect("no signal"), out: text(output.stdout), err: text(output.stderr) }
}

/// A file with the four rooms.
pub fn good() -> Vec<u8> {
    Plan::wad_of(rooms())
}

/// A file with the four rooms, after a change.
pub fn changed(change: impl FnOnce(&mut MapSpec)) -> Vec<u8> {
    let mut map = rooms();
    change(&mut map);
    Plan::wad_of(map)
}

/// A file with these lumps.
pub fn lumps(entries: &[(&[u8; 8], Vec<u8>)]) -> Vec<u8> {
    let mut plan = Plan::new(rooms(), MAP_NAME);
    plan.entries = entries.iter().map(|(name, bytes)| EntryPlan::new(**name, Content::Bytes(bytes.clone()))).collect();
    plan.wad()
}

/// A palette with red 100 + n, green 200 - n and blue n for colour n, as far as that goes.
pub fn palette() -> Vec<u8> {
    (0..=255_u8).flat_map(|it| [100_u8.wrapping_add(it), 200_u8.wrapping_sub(it), it]).collect()
}

/// What is said of the four rooms after the file's and the map's name.
pub const GOOD: &str = "accepted, depth 2, 3 nodes, 4 subsectors";
