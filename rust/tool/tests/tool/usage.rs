//! Bad usage, help and version.

use crate::support::{good, Folder};

/// Asserts that a command line is bad usage, and that nothing was said on standard output.
fn misused(arguments: &[&str], words: &str) {
    let said = Folder::with("a.wad", &good()).run(arguments);
    assert!(said.err.starts_with(&format!("meshpigeon: {words}")), "{arguments:?}: {said:?}");
    assert!(said.err.ends_with("Try 'meshpigeon help', or 'meshpigeon help COMMAND'.\n"), "{arguments:?}: {said:?}");
    assert_eq!((said.status, said.out.as_str()), (3, ""), "{arguments:?}");
}

#[test]
fn commands_and_options_must_be_known() {
    misused(&[], "no command is given");
    misused(&["judje", "a.wad"], "'judje' is no command");
    misused(&["judge", "a.wad", "--colour"], "'--colour' is no option");
    misused(&["judge", "a.wad", "-x"], "'-x' is no option");
    misused(&["judge", "a.wad", "--map"], "--map needs a value");
    misused(&["picture", "a.wad", "P", "-o"], "-o needs a value");
    misused(&["picture", "a.wad", "P", "-o", "a", "-o", "b"], "-o is given twice");
    misused(&["judge", "a.wad", "--base"], "--base needs a value");
    misused(&["judge", "--base", "a.wad", "a.wad", "--base=a.wad"], "--base is given twice");
    misused(&["encode", "a.pam", "-o", "b", "--palette"], "--palette needs a value");
    misused(&["encode", "a.pam", "-o", "b", "--offset"], "--offset needs a value");
    misused(&["encode", "a.pam", "-o", "b", "--palette=c", "--palette=d"], "--palette is given twice");
    misused(&["encode", "a.pam", "-o", "b", "--offset", "1,2", "--offset=1,2"], "--offset is given twice");
    misused(&["renumber", "a.wad", "MAP01", "-o", "b", "--order"], "--order needs a value");
    misused(&["renumber", "a.wad", "MAP01", "-o", "b", "--order=c", "--list", "d"], "--list is given twice");
    misused(&["list", "a.wad", "--name"], "--name needs a value");
    misused(&["list", "a.wad", "--index"], "--index needs a value");
    misused(&["index", "a.wad", "--check"], "--check needs a value");
    misused(&["list", "a.wad", "--index=b", "--name=A", "--name=B"], "--name is given twice");
    misused(&["list", "a.wad", "--name=A", "--index=b", "--index=c"], "--index is given twice");
    misused(&["index", "a.wad", "--check=b", "--check=c"], "--check is given twice");
    misused(&["judge", "a.wad", "--json=yes"], "'--json=yes' is no option");
    misused(&["picture", "a.wad", "P", "-o=b"], "'-o=b' is no option");
}

#[test]
fn each_command_has_its_words() {
    misused(&["judge"], "judge needs FILE, a folder, or --files0-from LIST");
    misused(&["judge", "-", "a.wad", "-"], "standard input can be read once only");
    misused(&["judge", "--base", "a.wad"], "judge needs FILE, a folder, or --files0-from LIST");
    misused(&["judge", "--files0-from", "l", "a.wad"], "judge takes --files0-from or files, and 'a.wad' is one");
    misused(&["judge", "--files0-from", "-", "--base", "-"], "standard input can be read once only");
    misused(&["judge", "--base", "-", "a.wad", "-"], "standard input can be read once only");
    misused(&["picture", "--base=-", "-", "P", "-o", "b"], "standard input can be read once only");
    misused(&["list"], "list needs FILE");
    misused(&["list", "a.wad", "b.wad"], "list takes FILE, and 'b.wad' is one word too many");
    misused(&["descend", "a.wad", "MAP01", "1"], "descend needs FILE MAP X Y");
    misused(&["descend", "a.wad", "MAP01", "1", "2", "3"], "descend takes FILE MAP X Y, and '3' is one word too many");
    misused(&["order", "a.wad", "MAP01", "1"], "order needs FILE MAP X Y");
    misused(&["order", "a.wad", "MAP01", "1", "2", "3"], "order takes FILE MAP X Y, and '3' is one word too many");
    for output in ["x.png", "x", "svg", "x.svg.png", ".svg"] {
        let words = "order draws SVG: -o needs a name that ends in .svg, or -";
        misused(&["order", "a.wad", "MAP01", "1", "2", "-o", output], words);
    }
    misused(&["picture", "a.wad", "P"], "picture needs FILE LUMP -o OUT.png");
    misused(&["picture", "a.wad"], "picture needs FILE LUMP -o OUT.png, or the file of a lump");
    misused(&["picture", "-o", "b"], "picture needs FILE LUMP -o OUT.png");
    misused(&["picture", "a.wad", "P", "Q", "-o", "b"], "picture takes FILE LUMP -o OUT.png, and 'Q' is one word too many");
    misused(&["picture", "a.lmp", "--base", "a.wad", "-o", "b"], "--base needs LUMP: the file of a lump is no patch");
    misused(&["picture", "-", "--palette", "-", "-o", "b"], "standard input can be read once only");
    misused(&["encode", "a.pam"], "encode needs IMAGE -o OUT.lmp");
    misused(&["encode", "-o", "b"], "encode needs IMAGE -o OUT.lmp");
    misused(&["encode", "a.pam", "c.pam", "-o", "b"], "encode takes IMAGE -o OUT.lmp, and 'c.pam' is one word too many");
    misused(&["encode", "-", "--palette=-", "-o", "b"], "standard input can be read once only");
    misused(&["sidedefs"], "sidedefs needs SECTORS, and the lump on standard input");
    misused(
        &["sidedefs", "5", "a.lmp"],
        "sidedefs takes SECTORS, and the lump on standard input, and 'a.lmp' is one word too many",
    );
    misused(&["renumber", "a.wad", "MAP01"], "renumber needs FILE MAP -o OUT.wad");
    misused(&["renumber", "a.wad", "-o", "b"], "renumber needs FILE MAP -o OUT.wad");
    misused(&["renumber", "a.wad", "MAP01", "0", "-o", "b"], "renumber takes FILE MAP -o OUT.wad, and '0' is one word too many");
    misused(&["renumber", "-", "MAP01", "-o", "b", "--order", "-"], "standard input can be read once only");
    misused(&["list", "a.wad", "--name", "A"], "list takes --name and --index together");
    misused(&["list", "a.wad", "--index", "b"], "list takes --name and --index together");
    misused(&["list", "-", "--name", "A", "--index", "-"], "standard input can be read once only");
    misused(&["index", "a.wad"], "index needs FILE -o OUT.wix, or FILE --check INDEX");
    misused(&["index", "-o", "b"], "index needs FILE -o OUT.wix, or FILE --check INDEX");
    misused(
        &["index", "a.wad", "b.wad", "-o", "b"],
        "index takes FILE -o OUT.wix, or FILE --check INDEX, and 'b.wad' is one word",
    );
    misused(&["index", "a.wad", "-o", "b", "--check", "c"], "index needs FILE -o OUT.wix, or FILE --check INDEX");
    misused(&["index", "-", "--check", "-"], "standard input can be read once only");
    misused(&["diff", "a.wad"], "diff needs OLD NEW");
    misused(&["diff", "a.wad", "a.wad", "MAP01"], "diff takes OLD NEW, and 'MAP01' is one word too many");
    misused(&["extract", "a.wad", "MAP01"], "extract needs FILE NAME -o OUT.wad");
    misused(&["extract", "a.wad", "-o", "b"], "extract needs FILE NAME -o OUT.wad");
    misused(&["extract", "-", "MAP01", "-o", "b"], "extract reads parts of a file, and not standard input");
    misused(&["help", "judge", "list"], "help takes one COMMAND, and 'list' is one word too many");
    misused(&["help", "judje"], "'judje' is no command");
    misused(&["diff", "-", "-"], "standard input can be read once only");
}

#[test]
fn each_command_has_its_options() {
    misused(&["list", "a.wad", "--map", "MAP01"], "list does not take --map");
    misused(&["judge", "a.wad", "-o", "b"], "judge does not take -o");
    misused(&["list", "a.wad", "--quiet"], "list does not take --quiet");
    misused(&["descend", "a.wad", "MAP01", "0", "0", "-q"], "descend does not take --quiet");
    misused(&["order", "a.wad", "MAP01", "0", "0", "-q"], "order does not take --quiet");
    misused(&["descend", "a.wad", "MAP01", "0", "0", "-o", "b"], "descend does not take -o");
    misused(&["list", "a.wad", "--base", "a.wad"], "list does not take --base");
    misused(&["descend", "a.wad", "MAP01", "0", "0", "--base", "a.wad"], "descend does not take --base");
    misused(&["order", "a.wad", "MAP01", "0", "0", "--base", "a.wad"], "order does not take --base");
    misused(&["encode", "a.pam", "-o", "b", "--base", "a.wad"], "encode does not take --base");
    misused(&["encode", "a.pam", "-o", "b", "--map", "MAP01"], "encode does not take --map");
    misused(&["judge", "a.wad", "--palette", "a.wad"], "judge does not take --palette");
    misused(&["picture", "a.wad", "P", "-o", "b", "--offset", "1,2"], "picture does not take --offset");
    misused(&["sidedefs", "5", "-o", "b"], "sidedefs does not take -o");
    misused(&["sidedefs", "5", "--map", "MAP01"], "sidedefs does not take --map");
    misused(&["sidedefs", "5", "--base", "a.wad"], "sidedefs does not take --base");
    misused(&["renumber", "a.wad", "MAP01", "-o", "b", "--map", "MAP01"], "renumber does not take --map");
    misused(&["renumber", "a.wad", "MAP01", "-o", "b", "--base", "a.wad"], "renumber does not take --base");
    misused(&["order", "a.wad", "MAP01", "0", "0", "--list", "b"], "order does not take --list");
    misused(&["judge", "a.wad", "--name", "A"], "judge does not take --name");
    misused(&["judge", "a.wad", "--index", "b"], "judge does not take --index");
    misused(&["list", "a.wad", "--check", "b"], "list does not take --check");
    misused(&["index", "a.wad", "-o", "b", "--map", "MAP01"], "index does not take --map");
    misused(&["judge", "a.wad", "--records"], "judge does not take --records");
    misused(&["diff", "a.wad", "a.wad", "--quiet"], "diff does not take --quiet");
    misused(&["diff", "a.wad", "a.wad", "--base", "a.wad"], "diff does not take --base");
    misused(&["diff", "a.wad", "a.wad", "-o", "b"], "diff does not take -o");
    misused(&["diff", "a.wad", "a.wad", "--all"], "diff does not take --all");
    misused(&["list", "a.wad", "--require-map"], "list does not take --require-map");
    misused(&["extract", "a.wad", "MAP01", "-o", "b", "--files0-from", "c"], "extract does not take --files0-from");
    misused(&["extract", "a.wad", "MAP01", "-o", "b", "--map", "MAP01"], "extract does not take --map");
}

#[test]
fn coordinates_are_signed_16_bit_numbers() {
    for strange in ["32768", "-32769", "x", "1.5", ""] {
        misused(&["descend", "a.wad", "MAP01", strange, "0"], &format!("'{strange}' is no coordinate"));
        misused(&["descend", "a.wad", "MAP01", "0", strange], &format!("'{strange}' is no coordinate"));
        misused(&["order", "a.wad", "MAP01", "0", strange], &format!("'{strange}' is no coordinate"));
    }
}

#[test]
fn offsets_are_two_signed_16_bit_numbers() {
    for strange in ["1", "1,", ",1", "1,2,3", "32768,0", "0,-32769", "1 2", "1, 2", "x,y", ""] {
        misused(&["encode", "a.pam", "-o", "b", "--offset", strange], &format!("'{strange}' is no offset"));
    }
}

#[test]
fn a_count_of_sectors_is_a_whole_number() {
    for strange in ["-1", "+1", "1.5", "five", "0x5", " 5", "18446744073709551616", ""] {
        misused(&["sidedefs", strange], &format!("'{strange}' is no count of sectors: 1 to 65535"));
    }
}

/// All commands that have a part of the help.
const COMMANDS: [&str; 13] = [
    "judge", "list", "index", "extract", "descend", "order", "picture", "encode", "sidedefs", "renumber", "diff", "text", "spool",
];

#[test]
fn help_and_version_are_given() {
    let folder = Folder::new();
    for arguments in [&["--help"][..], &["-h"], &["help"], &["help", "--help"]] {
        let said = folder.run(arguments);
        assert!(said.out.contains("Usage:\n  meshpigeon judge FILE.. [--map NAME].."), "{said:?}");
        assert_eq!((said.status, said.err.as_str()), (0, ""));
        assert!(COMMANDS.iter().all(|command| said.out.contains(&format!("\n  {command} "))), "{said:?}");
    }
    folder.run(&["--version"]).is(0, &[concat!("meshpigeon ", env!("CARGO_PKG_VERSION"))]);
}

#[test]
fn each_command_has_its_own_part_of_the_help() {
    let folder = Folder::new();
    for command in COMMANDS {
        let said = folder.run(&["help", command]);
        assert!(said.out.contains(&format!("\nUsage:\n  meshpigeon {command} ")), "{said:?}");
        assert!(said.out.contains("\nExit status"), "{said:?}");
        assert!(COMMANDS.iter().all(|other| other == &command || !said.out.contains(&format!("\n  meshpigeon {other} "))));
        assert_eq!((said.status, said.err.as_str()), (0, ""));
        for arguments in
            [&[command, "--help"][..], &[command, "a", "b", "c", "-h"], &["-h", command], &["--json", "help", command]]
        {
            assert_eq!(folder.run(arguments).out, said.out, "{arguments:?}");
        }
    }
}

#[test]
fn the_help_fits_a_terminal() {
    let folder = Folder::new();
    let pages = [&["help"][..]].into_iter().map(<[_]>::to_vec).chain(COMMANDS.iter().map(|command| vec!["help", command]));
    for page in pages {
        let said = folder.run(&page);
        assert!(said.out.lines().all(|line| line.len() <= 84), "{}", said.out);
    }
}

#[test]
fn two_dashes_make_names_of_options() {
    let folder = Folder::with("--json", &good());
    folder.run(&["judge", "--", "--json"]).is(0, &["--json:MAP01: accepted, depth 2, 3 nodes, 4 subsectors"]);
}
