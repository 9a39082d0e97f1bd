//! Files that the tool writes: an old one stays as it is until the new one is whole, and nothing is left beside it.

use crate::support::{good, said, Folder, Said};
use std::fs;
use std::os::unix::fs::{symlink, MetadataExt, PermissionsExt};
use std::os::unix::process::CommandExt;
use std::process::{Command, Stdio};

/// A file that is larger than any limit of these tests.
fn large() -> Vec<u8> {
    generator::directory_of(4_096)
}

/// Runs the tool from a shell that sets things up before.
fn under(folder: &Folder, before: &str, arguments: &str) -> Said {
    let line = format!("{before}; exec '{}' {arguments}", env!("CARGO_BIN_EXE_meshpigeon"));
    let mut shell = Command::new("sh");
    said(shell.args(["-c", &line]).current_dir(folder.file(".")).stdin(Stdio::null()).output().expect("the shell runs"))
}

#[test]
fn a_file_size_limit_leaves_the_old_file_and_nothing_beside_it() {
    let folder = Folder::with("in.wad", &large()).and("out.wix", b"the old index");
    for before in ["ulimit -f 8", "trap '' XFSZ; ulimit -f 8"] {
        let said = under(&folder, before, "index in.wad -o out.wix");
        assert_eq!((said.status, said.out.as_str()), (2, ""), "{said:?}");
        assert_eq!(
            said.err,
            "meshpigeon: out.wix: it is not written: it is larger than the files that this process may write (ulimit -f)\n"
        );
        assert_eq!(fs::read(folder.file("out.wix")).expect("it is there"), b"the old index");
        let said = under(&folder, before, "index in.wad -o new.wix");
        assert_eq!((said.status, folder.names()), (2, vec!["in.wad".to_string(), "out.wix".to_string()]), "{said:?}");
    }
    let said = under(&folder, "ulimit -f 800", "index in.wad -o out.wix");
    assert_eq!((said.status, folder.names().len()), (0, 2), "{said:?}");
}

#[test]
fn a_folder_that_cannot_be_written_leaves_the_old_file() {
    let folder = Folder::with("a.wad", &good()).and("file", b"old");
    fs::create_dir(folder.file("way.wix")).expect("a folder");
    // Permissions do not stop root; a file in the place of a folder and a folder in the place of a file stop everyone.
    for output in ["file/out.wix", "missing/out.wix", "way.wix", "/proc/self/out.wix"] {
        let said = folder.run(&["index", "a.wad", "-o", output]);
        assert!(said.err.starts_with(&format!("meshpigeon: {output}: it is not written: ")), "{said:?}");
        assert!(!said.err.contains("os error"), "{said:?}");
        assert_eq!((said.status, said.out.as_str()), (2, ""));
    }
    assert_eq!(fs::read(folder.file("file")).expect("it is there"), b"old");
    assert_eq!(folder.names(), ["a.wad", "file", "way.wix"]);
    fs::remove_dir(folder.file("way.wix")).expect("nothing was left in it");
}

/// Nobody: a user whom permissions stop, where the tests run as root.
const NOBODY: u32 = 65_534;

#[test]
fn a_read_only_folder_leaves_the_old_file() {
    let folder = Folder::with("a.wad", &good());
    fs::create_dir(folder.file("kept")).expect("a folder");
    fs::write(folder.file("kept/out.wix"), b"old").expect("a file");
    let mode =
        |name: &str, mode| fs::set_permissions(folder.file(name), fs::Permissions::from_mode(mode)).expect("its rights change");
    mode("kept/out.wix", 0o666);
    mode("kept", 0o555);
    let mut command = folder.command(&["index", "a.wad", "-o", "kept/out.wix"]);
    if fs::metadata(folder.file(".")).expect("it is there").uid() == 0 {
        command.uid(NOBODY).gid(NOBODY);
    }
    let output = command.output();
    mode("kept", 0o755);
    // Where nobody may not run the tool at all, there is nothing to see.
    if let Some(said) = output.ok().map(said).filter(|said| !said.err.contains("a.wad: ")) {
        assert_eq!(said.err, "meshpigeon: kept/out.wix: it is not written: Permission denied\n");
        assert_eq!((said.status, said.out.as_str()), (2, ""));
    }
    assert_eq!(fs::read(folder.file("kept/out.wix")).expect("it is there"), b"old");
    let names: Vec<_> =
        fs::read_dir(folder.file("kept")).expect("the folder").map(|it| it.expect("an entry").file_name()).collect();
    assert_eq!(names, ["out.wix"]);
}

#[test]
fn every_output_is_replaced_whole() {
    let folder = Folder::with("a.wad", &good()).and("in.pam", b"P5 1 1 255\n.");
    for arguments in [
        &["index", "a.wad", "-o", "out"][..],
        &["renumber", "a.wad", "MAP01", "-o", "out"],
        &["extract", "a.wad", "MAP01", "-o", "out"],
        &["encode", "in.pam", "-o", "out"],
        &["order", "a.wad", "MAP01", "0", "0", "-o", "out.svg"],
    ] {
        let output = arguments[arguments.len() - 1];
        fs::write(folder.file(output), vec![b'x'; 100_000]).expect("an old file");
        let said = folder.run(arguments);
        assert_eq!((said.status, said.err.as_str()), (0, ""), "{arguments:?}");
        assert!(!fs::read(folder.file(output)).expect("it is there").ends_with(b"xx"), "{arguments:?}");
        fs::remove_file(folder.file(output)).expect("it is there");
        assert_eq!(folder.names(), ["a.wad", "in.pam"]);
    }
}

#[test]
fn links_devices_and_rights_stay() {
    let folder = Folder::with("a.wad", &good()).and("real.wix", b"old");
    symlink("real.wix", folder.file("link.wix")).expect("a link");
    fs::set_permissions(folder.file("real.wix"), fs::Permissions::from_mode(0o600)).expect("its rights change");
    assert_eq!(folder.run(&["index", "a.wad", "-o", "link.wix"]).status, 0);
    assert!(folder.file("link.wix").is_symlink());
    assert_eq!(fs::metadata(folder.file("real.wix")).expect("it is there").permissions().mode() & 0o777, 0o600);
    assert!(fs::read(folder.file("real.wix")).expect("it is there").starts_with(b"WIX"));
    folder.run(&["index", "a.wad", "-o", "/dev/null", "-q"]).is(0, &[]);
    let said = under(&folder, ":", "index a.wad -o /dev/stdout -q | head -c 3");
    assert_eq!((said.status, said.out.as_str()), (0, "WIX"));
}
