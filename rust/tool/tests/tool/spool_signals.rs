//! `spool --every`: rounds until a signal, what is said once, and the lock.

use crate::spool::{arrives, folders, names, round, ROUND};
use crate::support::{good, said, Folder};
use std::os::unix::fs::symlink;
use std::os::unix::process::ExitStatusExt;
use std::process::{Child, Command, Stdio};
use std::thread;
use std::time::{Duration, Instant};

/// A wait is given up after so long.
const LONGEST: Duration = Duration::from_secs(60);

/// Waits until something is so.
fn until(what: &str, is_so: impl Fn() -> bool) {
    let began = Instant::now();
    while !is_so() {
        assert!(began.elapsed() < LONGEST, "{what}");
        thread::sleep(Duration::from_millis(10));
    }
}

/// Starts rounds that do not end by themselves.
fn start(folder: &Folder) -> Child {
    let mut command = folder.command(&[&ROUND[..], &["--every", "1"]].concat());
    command.stdout(Stdio::piped()).stderr(Stdio::piped()).spawn().expect("it runs")
}

fn signal(name: &str, child: &Child) {
    assert!(Command::new("kill").args(["-s", name, &child.id().to_string()]).status().expect("kill runs").success());
}

/// Whether signals can be blocked on this machine.
fn can_block() -> bool {
    let mut env = Command::new("/usr/bin/env");
    env.args(["--block-signal=TERM", "true"]).stdout(Stdio::null()).stderr(Stdio::null()).status().is_ok_and(|it| it.success())
}

#[test]
fn rounds_go_on_until_a_signal_and_trouble_is_said_once() {
    let folder = folders();
    symlink("nowhere", folder.file("in/link")).expect("a link");
    arrives(&folder, "a.wad", &good());
    let running = start(&folder);
    until("the first round", || names(&folder, "accepted").len() == 1);
    arrives(&folder, "b.wad", &good());
    until("the next round", || names(&folder, "accepted").len() == 2);
    let second = round(&folder, &[]);
    assert_eq!((second.status, second.err.as_str()), (2, "meshpigeon: in: another spool is at work on this folder\n"));
    arrives(&folder, "c.wad", &good());
    until("one more round", || names(&folder, "accepted").len() == 3);
    signal("TERM", &running);
    let output = running.wait_with_output().expect("it ends");
    if can_block() {
        let said = said(output);
        assert_eq!((said.status, said.err.as_str()), (0, "meshpigeon: in/link: it is left: it is a symbolic link\n"), "{said:?}");
        assert_eq!(said.out.lines().filter(|line| *line == "1 accepted, 0 refused, 0 held, 0 waiting").count(), 3);
    } else {
        assert_eq!(output.status.signal(), Some(15));
    }
    assert_eq!(round(&folder, &["--quiet"]).status, 2);
}

#[test]
fn a_crash_leaves_no_lock() {
    let folder = folders();
    arrives(&folder, "a.wad", &good());
    let mut running = start(&folder);
    until("the first round", || names(&folder, "accepted").len() == 1 && names(&folder, "in").is_empty());
    assert_eq!(round(&folder, &[]).status, 2);
    running.kill().expect("it is killed");
    running.wait().expect("it ends");
    round(&folder, &[]).is(0, &["0 accepted, 0 refused, 0 held, 0 waiting"]);
}

#[test]
fn an_interrupt_ends_a_wait_at_once() {
    if !can_block() {
        return;
    }
    let folder = folders();
    arrives(&folder, "a.wad", &good());
    let mut command = folder.command(&[&ROUND[..], &["--every", "86400"]].concat());
    let running = command.stdout(Stdio::piped()).stderr(Stdio::piped()).spawn().expect("it runs");
    until("the first round", || names(&folder, "accepted").len() == 1 && names(&folder, "in").is_empty());
    signal("INT", &running);
    let said = said(running.wait_with_output().expect("it ends"));
    assert_eq!((said.status, said.err.as_str()), (0, ""));
}

#[test]
fn a_signal_lets_it_finish_the_file_in_hand() {
    if !can_block() {
        return;
    }
    let (folder, count) = (folders(), 400);
    for number in 0..count {
        arrives(&folder, format!("{number}.wad"), &good());
    }
    let running = start(&folder);
    until("some files", || names(&folder, "accepted").len() > 20);
    signal("TERM", &running);
    let said = said(running.wait_with_output().expect("it ends"));
    assert_eq!((said.status, said.err.as_str()), (0, ""));
    let [left, accepted] = ["in", "accepted"].map(|name| names(&folder, name));
    assert_eq!(left.len() + accepted.len(), count, "no file is in two places");
    assert!(accepted.iter().all(|name| !name.starts_with('.')), "no temporary file is left");
}
