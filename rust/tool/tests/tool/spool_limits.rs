//! `spool`: a file size limit, a folder that cannot be written, and a file that cannot be read.

use crate::spool::{arrives, folders, looping, names, round, FOLDERS, ROUND};
use crate::support::{good, said, Folder};
use std::fs;
use std::os::unix::fs::{MetadataExt, PermissionsExt};
use std::os::unix::process::CommandExt;
use std::process::{Command, Stdio};
use std::thread;
use std::time::Duration;

/// Nobody: a user whom permissions stop, where the tests run as root.
const NOBODY: u32 = 65_534;

fn mode(folder: &Folder, name: &str, mode: u32) {
    fs::set_permissions(folder.file(name), fs::Permissions::from_mode(mode)).expect("its rights change");
}

#[test]
fn past_a_file_size_limit_the_arrival_stays_and_the_others_go_on() {
    let folder = folders();
    let large = [good(), vec![0; 100_000]].concat();
    arrives(&folder, "a-large.wad", &large);
    arrives(&folder, "b-small.wad", &good());
    for before in ["ulimit -f 40", "trap '' XFSZ; ulimit -f 40"] {
        let line = format!("{before}; exec '{}' {}", env!("CARGO_BIN_EXE_meshpigeon"), ROUND.join(" "));
        let mut shell = Command::new("sh");
        let shell = shell.args(["-c", &line]).current_dir(folder.file(".")).stdin(Stdio::null());
        let said = said(shell.output().expect("the shell runs"));
        assert_eq!(said.status, 2, "{said:?}");
        let expected =
            "meshpigeon: accepted: it cannot be written, and what belongs there stays where it is: it is larger than the \
                        files that this process may write (ulimit -f)\n";
        assert_eq!(said.err, expected);
        assert_eq!([names(&folder, "in"), names(&folder, "accepted")], [["a-large.wad"], ["b-small.wad"]]);
        assert_eq!(fs::read(folder.file("in/a-large.wad")).expect("it is there"), large);
    }
    assert_eq!(round(&folder, &[]).status, 0);
    assert_eq!(names(&folder, "accepted"), ["a-large.wad", "b-small.wad"]);
}

#[test]
fn a_folder_or_a_journal_that_is_not_there_leaves_the_arrivals() {
    let folder = folders();
    arrives(&folder, "a.wad", &good());
    arrives(&folder, "b.wad", &looping());
    arrives(&folder, "c.wad", &looping());
    fs::rename(folder.file("refused"), folder.file("elsewhere")).expect("another name");
    let said = round(&folder, &[]);
    let words = "meshpigeon: refused: it cannot be written, and what belongs there stays where it is: No such file or directory";
    assert_eq!((said.status, said.err.matches(words).count()), (2, 1), "{said:?}");
    assert_eq!([names(&folder, "in"), names(&folder, "accepted")], [vec!["b.wad", "c.wad"], vec!["a.wad"]]);
    fs::rename(folder.file("elsewhere"), folder.file("refused")).expect("its name");
    let said = round(&folder, &["--journal", "none/journal"]);
    let words = "meshpigeon: none/journal: it cannot be written, and what arrives stays: No such file or directory\n";
    assert_eq!((said.status, said.err.as_str(), names(&folder, "in").len()), (2, words, 2));
    let said = round(&folder, &["--journal", "journal"]);
    assert_eq!((said.status, names(&folder, "in").len(), names(&folder, "refused").len()), (1, 0, 6));
}

#[test]
fn a_read_only_folder_and_an_unreadable_file_leave_the_arrivals() {
    let folder = folders();
    arrives(&folder, "a.wad", &good());
    arrives(&folder, "b.wad", &looping());
    arrives(&folder, "c.wad", &good());
    FOLDERS.iter().for_each(|name| mode(&folder, name, 0o777));
    mode(&folder, "refused", 0o555);
    mode(&folder, "in/c.wad", 0o000);
    let mut command = folder.command(&ROUND);
    if fs::metadata(folder.file(".")).expect("it is there").uid() == 0 {
        command.uid(NOBODY).gid(NOBODY);
    }
    let output = command.output();
    mode(&folder, "refused", 0o755);
    mode(&folder, "in/c.wad", 0o644);
    // Where nobody may not run the tool at all, there is nothing to see.
    if let Some(said) = output.ok().map(said).filter(|said| !said.err.contains("meshpigeon: in: ")) {
        let expected = "meshpigeon: refused: it cannot be written, and what belongs there stays where it is: Permission denied\n\
                        meshpigeon: in/c.wad: it is left: it cannot be read: Permission denied\n";
        assert_eq!((said.status, said.err.as_str()), (2, expected));
        assert_eq!([names(&folder, "in"), names(&folder, "accepted")], [vec!["b.wad", "c.wad"], vec!["a.wad"]]);
    }
    assert_eq!(names(&folder, "refused"), [""; 0]);
    let said = round(&folder, &[]);
    assert_eq!((said.status, names(&folder, "in").len(), names(&folder, "accepted").len()), (1, 0, 2), "{said:?}");
}

#[test]
fn an_arrival_that_cannot_be_removed_is_dealt_with_once() {
    let folder = folders();
    arrives(&folder, "a.wad", &good());
    FOLDERS.iter().for_each(|name| mode(&folder, name, 0o777));
    mode(&folder, "in", 0o555);
    mode(&folder, ".", 0o777);
    let mut command = folder.command(&[&ROUND[..], &["--every", "1", "--journal", "journal"]].concat());
    if fs::metadata(folder.file("in")).expect("it is there").uid() == 0 {
        command.uid(NOBODY).gid(NOBODY);
    }
    let Ok(mut running) = command.stdout(Stdio::null()).stderr(Stdio::null()).spawn() else { return };
    for name in ["b.wad", "c.wad"] {
        // Only root may still add files. Where nobody may not run the tool at all, there is nothing to see.
        if fs::write(folder.file("in").join(name), good()).is_err() {
            break;
        }
        while names(&folder, "accepted").len() < names(&folder, "in").len() && running.try_wait().expect("its state").is_none() {
            thread::sleep(Duration::from_millis(20));
        }
    }
    running.kill().expect("it is killed");
    running.wait().expect("it ends");
    mode(&folder, "in", 0o755);
    let journal = fs::read_to_string(folder.file("journal")).unwrap_or_default();
    assert!(journal.matches("\"file\":\"a.wad\"").count() <= 1, "{journal}");
    assert_eq!(round(&folder, &[]).status, 0);
    assert_eq!((names(&folder, "in").len(), names(&folder, "accepted").first().map(String::as_str)), (0, Some("a.wad")));
}

#[test]
fn memory_stays_bounded_whatever_arrives() {
    let folder = folders();
    let large = generator::largest_map();
    let mut bad = large.clone();
    bad[12..3_000_000].fill(0xFF);
    arrives(&folder, "base.wad", &large);
    fs::rename(folder.file("in/base.wad"), folder.file("base.wad")).expect("a base");
    for number in 0..4 {
        arrives(&folder, format!("good{number}.wad"), &large);
        arrives(&folder, format!("bad{number}.wad"), &bad);
    }
    arrives(&folder, "long.wad", &[&large[..], &bad, &large, &bad, &large].concat());
    let line = format!("ulimit -v 131072; exec '{}' {} --base base.wad", env!("CARGO_BIN_EXE_meshpigeon"), ROUND.join(" "));
    let mut shell = Command::new("sh");
    let shell = shell.args(["-c", &line]).current_dir(folder.file(".")).stdin(Stdio::null());
    let said = said(shell.output().expect("the shell runs"));
    assert_eq!((said.status, said.err.as_str()), (1, ""), "{said:?}");
    assert_eq!(said.out.lines().last(), Some("4 accepted, 5 refused, 0 held, 0 waiting"));
}
