//! `sidedefs`.

use crate::support::{said, Folder, Said};
use generator::{facing, Rng};
use std::fs::File;
use std::io::{ErrorKind, Write};
use std::process::{Child, Command, Stdio};
use std::thread::sleep;
use std::time::Duration;

/// The most bytes that may come.
const MOST_BYTES: usize = 16_777_216;

/// The tool, which reads what is put and no file.
fn begun(arguments: &[&str]) -> Child {
    let mut command = Command::new(env!("CARGO_BIN_EXE_meshpigeon"));
    let command = command.args(arguments).stdin(Stdio::piped()).stdout(Stdio::piped()).stderr(Stdio::piped());
    command.spawn().expect("the tool runs")
}

/// Writes the bytes to the tool; it may have read enough.
fn put(child: &mut Child, bytes: &[u8]) {
    let written = child.stdin.as_mut().expect("it is piped").write_all(bytes);
    assert!(written.is_ok() || written.is_err_and(|error| error.kind() == ErrorKind::BrokenPipe));
}

fn ended(mut child: Child) -> Said {
    drop(child.stdin.take());
    said(child.wait_with_output().expect("the tool ends"))
}

/// Runs the tool with these bytes on standard input.
fn fed(arguments: &[&str], bytes: &[u8]) -> Said {
    let mut child = begun(arguments);
    put(&mut child, bytes);
    ended(child)
}

fn lump(sectors: &[u16]) -> Vec<u8> {
    facing(sectors, &mut Rng::new(21))
}

const BAD: &str =
    "-: refused 24 at SIDEDEFS 3: sidedef 3 names a sector that is not there: every sidedef faces a sector of the map";

#[test]
fn a_pipe_may_come_in_odd_scraps() {
    for (sectors, status, line) in [("300", 0, "-: accepted, 6 sidedefs, 300 sectors"), ("299", 1, BAD)] {
        let bytes = lump(&[0, 298, 256, 299, 1, 299]);
        for lengths in [&[1, 2, 3, 5, 8, 13, 21][..], &[29, 1, 30], &[28, 1, 1], &[59, 60, 61], &[113, 7]] {
            let (mut child, mut rest) = (begun(&["sidedefs", sectors]), &bytes[..]);
            for &length in lengths.iter().cycle() {
                let (scrap, behind) = rest.split_at(length.min(rest.len()));
                put(&mut child, scrap);
                sleep(Duration::from_millis(1));
                rest = behind;
                if rest.is_empty() {
                    break;
                }
            }
            ended(child).is(status, &[line]);
        }
    }
}

#[test]
fn one_of_each_is_told_so() {
    fed(&["sidedefs", "1"], &lump(&[0])).is(0, &["-: accepted, 1 sidedef, 1 sector"]);
}

/// SIDEDEFS of the sample, as docs/TOOL.md and README.md cut it out.
#[test]
fn the_samples_sidedefs_are_judged() {
    let samples = generator::samples();
    let (_, wad) = samples.iter().find(|(name, _)| *name == "accepted.wad").expect("the sample");
    fed(&["sidedefs", "4"], &wad[204..684]).is(0, &["-: accepted, 16 sidedefs, 4 sectors"]);
    fed(&["sidedefs", "3"], &wad[204..684]).is(1, &[&BAD.replace('3', "11")]);
}

#[test]
fn each_refusal_says_what_was_found() {
    let bytes = lump(&[2, 0, 0]);
    let cut = "-: refused 20 at SIDEDEFS: SIDEDEFS is cut off inside a record: its size must be a multiple of 30 bytes; it has 89 bytes";
    fed(&["sidedefs", "2"], &bytes[..89]).is(1, &[cut]);
    let none = "-: refused 21 at SIDEDEFS: SIDEDEFS has too few or too many records: a map has 1 to 65,535; this one has 0";
    fed(&["sidedefs", "2"], &[]).is(1, &[none]);
    Folder::new().run(&["sidedefs", "2"]).is(1, &[none]);
    fed(&["sidedefs", "2"], &vec![0; 30 * 65_536]).is(1, &[&none.replace("has 0", "has 65,536")]);
    for (sectors, shown) in [("0", "0"), ("65536", "65,536"), ("18446744073709551615", "18,446,744,073,709,551,615")] {
        let line =
            "-: refused 80: the count of sectors is not one that a map can have: a map has 1 to 65,535; the count given is ";
        fed(&["sidedefs", sectors], &bytes).is(1, &[&format!("{line}{shown}")]);
    }
}

#[test]
fn the_most_bytes_are_read_and_no_more() {
    let zeros = vec![0; MOST_BYTES + 2_000_000];
    let said = fed(&["sidedefs", "5"], &zeros[..MOST_BYTES]);
    assert!(said.out.ends_with("30 bytes; it has 16,777,216 bytes\n"), "{said:?}");
    let line = "-: refused 81: more bytes came than any SIDEDEFS may have: at most 16,777,216 may come";
    for length in [MOST_BYTES + 1, MOST_BYTES + 14, zeros.len()] {
        fed(&["sidedefs", "5"], &zeros[..length]).is(1, &[line]);
    }
}

/// Input without an end is answered too.
#[test]
#[cfg(unix)]
fn endless_input_is_refused() {
    let zeros = File::open("/dev/zero").expect("zeros");
    let said = said(Folder::new().command(&["sidedefs", "5", "--quiet"]).stdin(zeros).output().expect("the tool runs"));
    assert!(said.out.starts_with("-: refused 81: "), "{said:?}");
    assert_eq!((said.status, said.err.as_str()), (1, ""));
}

/// After most of what may come, the tool has never held a quarter of it.
#[test]
#[cfg(target_os = "linux")]
fn nothing_of_it_is_kept() {
    let mut child = begun(&["sidedefs", "5"]);
    put(&mut child, &vec![0; MOST_BYTES - 1_000_000]);
    let about = std::fs::read_to_string(format!("/proc/{}/status", child.id())).expect("it runs");
    let most = about.lines().find_map(|line| line.strip_prefix("VmHWM:")).expect("the most memory it had");
    let kilobytes: usize = most.trim().trim_end_matches(" kB").parse().expect("a number");
    assert!(kilobytes < MOST_BYTES / 4 / 1024, "{kilobytes} kB");
    assert_eq!(ended(child).status, 1);
}

#[test]
fn answers_are_objects_too() {
    let bytes = lump(&[0, 4]);
    fed(&["sidedefs", "5", "--json"], &bytes)
        .is(0, &[r#"{"format":1,"file":"-","file_bytes":null,"verdict":"accepted","number":0,"sectors":5,"count":2}"#]);
    let said = fed(&["sidedefs", "--json", "4"], &bytes);
    let part =
        r#""verdict":"refused","number":24,"place":3,"lump":"SIDEDEFS","record":1,"found":null,"reason":null,"depth":null,"#;
    assert!(said.out.contains(part), "{said:?}");
    for (sectors, size, parts) in [
        ("0", 60, r#""number":80,"place":null,"lump":null,"record":null,"found":{"sectors":0}"#),
        ("5", 59, r#""number":20,"place":3,"lump":"SIDEDEFS","record":null,"found":{"size":59}"#),
        ("5", 0, r#""number":21,"place":3,"lump":"SIDEDEFS","record":null,"found":{"count":0}"#),
    ] {
        let said = fed(&["sidedefs", sectors, "--json"], &bytes[..size]);
        assert!(said.out.contains(parts), "{said:?}");
        assert_eq!((said.status, said.out.lines().count(), said.err.as_str()), (1, 1, ""));
    }
}

#[test]
fn quiet_says_refusals_only() {
    fed(&["sidedefs", "5", "-q"], &lump(&[0])).is(0, &[]);
    fed(&["sidedefs", "299", "--quiet"], &lump(&[0, 0, 0, 299])).is(1, &[BAD]);
}

#[test]
#[cfg(target_os = "linux")]
fn input_that_cannot_be_read_is_told() {
    let folder = Folder::new();
    let input = File::open(folder.file(".")).expect("the folder");
    let said = said(folder.command(&["sidedefs", "5"]).stdin(input).output().expect("the tool runs"));
    assert!(said.err.starts_with("meshpigeon: -: "), "{said:?}");
    assert_eq!((said.status, said.out.as_str()), (2, ""));
}
