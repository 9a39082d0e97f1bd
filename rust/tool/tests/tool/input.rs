//! What can be given as a file, and where the output can go.

use crate::support::{changed, good, said, Folder, Said, GOOD};
use std::fs::File;
use std::io::{ErrorKind, Write};
use std::process::Stdio;

/// The largest file there may be.
const MOST_BYTES: u64 = 16_777_216;

/// Runs the tool with these bytes on standard input.
fn fed(folder: &Folder, arguments: &[&str], bytes: &[u8]) -> Said {
    let mut command = folder.command(arguments);
    let mut child = command.stdin(Stdio::piped()).stdout(Stdio::piped()).stderr(Stdio::piped()).spawn().expect("the tool runs");
    let written = child.stdin.take().expect("it is piped").write_all(bytes);
    assert!(written.is_ok() || written.is_err_and(|error| error.kind() == ErrorKind::BrokenPipe));
    said(child.wait_with_output().expect("the tool ends"))
}

#[test]
fn a_missing_file_cannot_be_read() {
    for arguments in [
        &["judge", "no.wad"][..],
        &["list", "no.wad"],
        &["descend", "no.wad", "MAP01", "0", "0"],
        &["order", "no.wad", "MAP01", "0", "0"],
    ] {
        let said = Folder::new().run(arguments);
        assert!(said.err.starts_with("meshpigeon: no.wad: No such file or directory\n"), "{said:?}");
        assert_eq!((said.status, said.out.as_str()), (2, ""));
    }
}

#[test]
fn a_folder_is_no_file() {
    let folder = Folder::new();
    for arguments in [&["list", "."][..], &["text", ".", "MAP01"], &["judge", "--base", ".", "."]] {
        let said = folder.run(arguments);
        assert_eq!(said.err, "meshpigeon: .: Is a directory\n");
        assert_eq!((said.status, said.out.as_str()), (2, ""));
    }
}

#[test]
fn a_file_of_no_bytes_is_refused() {
    let said = Folder::with("a.wad", b"").run(&["judge", "a.wad"]);
    assert!(said.out.starts_with("a.wad: refused 1: "), "{said:?}");
    assert_eq!((said.status, said.err.as_str()), (1, ""));
}

#[test]
fn too_long_a_file_is_refused_by_its_length() {
    let folder = Folder::new();
    for length in [MOST_BYTES + 1, 1 << 33] {
        File::create(folder.file("a.wad")).and_then(|file| file.set_len(length)).expect("a sparse file");
        let said = folder.run(&["judge", "a.wad"]);
        assert!(said.out.starts_with("a.wad: refused 1: "), "{said:?}");
        assert_eq!((said.status, said.err.as_str()), (1, ""));
    }
}

#[test]
fn the_longest_file_is_read() {
    let folder = Folder::with("a.wad", &good());
    let file = File::options().write(true).open(folder.file("a.wad")).expect("it is there");
    file.set_len(MOST_BYTES).expect("a sparse file");
    folder.run(&["judge", "a.wad"]).is(0, &[&format!("a.wad:MAP01: {GOOD}")]);
}

#[test]
fn standard_input_is_judged() {
    let folder = Folder::with("a.wad", &good());
    fed(&folder, &["judge", "-"], &good()).is(0, &[&format!("-:MAP01: {GOOD}")]);
    let lines = ["a.wad", "-"].map(|file| format!("{file}:MAP01: {GOOD}"));
    fed(&folder, &["judge", "a.wad", "-"], &good()).is(0, &[&lines[0], &lines[1], "2 files: 2 maps accepted"]);
    let said = fed(&folder, &["judge", "-"], &changed(|map| map.reject.push(0)));
    assert!(said.out.starts_with("-:MAP01: refused 22 at REJECT"), "{said:?}");
    assert_eq!(said.status, 1);
}

#[test]
fn too_long_an_input_is_refused() {
    let said = fed(&Folder::new(), &["judge", "-"], &vec![0; MOST_BYTES as usize + 100_000]);
    assert!(said.out.starts_with("-: refused 1: "), "{said:?}");
    assert_eq!((said.status, said.err.as_str()), (1, ""));
}

#[test]
fn a_closed_pipe_ends_quietly_with_the_true_status() {
    let folder = Folder::with("bad.wad", &changed(|map| map.reject.push(0)));
    for (arguments, status) in [(&["judge", "-"][..], 0), (&["judge", "-", "bad.wad"], 1), (&["list", "-"], 0)] {
        let mut command = folder.command(arguments);
        let mut child =
            command.stdin(Stdio::piped()).stdout(Stdio::piped()).stderr(Stdio::piped()).spawn().expect("the tool runs");
        drop(child.stdout.take());
        child.stdin.take().expect("it is piped").write_all(&good()).expect("the tool reads");
        let said = said(child.wait_with_output().expect("the tool ends"));
        assert_eq!((said.status, said.err.as_str()), (status, ""), "{arguments:?}");
    }
}

#[test]
#[cfg(target_os = "linux")]
fn output_that_cannot_be_written_is_told() {
    let folder = Folder::with("a.wad", &good());
    let full = File::options().write(true).open("/dev/full").expect("the full device");
    let output = folder.command(&["judge", "a.wad"]).stdout(full).output().expect("the tool runs");
    let said = said(output);
    assert!(said.err.starts_with("meshpigeon: standard output: "), "{said:?}");
    assert_eq!(said.status, 2);
}
