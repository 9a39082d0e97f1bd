//! `picture`.

use crate::png_reader;
use crate::support::{lumps, palette, Folder};
use generator::{PictureSpec, Post};
use std::fs;
use std::os::unix::fs::symlink;
use std::process::Stdio;

/// Two columns of three rows: colours 7 and 9 in the middle of the first, nothing in the second.
fn small() -> Vec<u8> {
    let mut picture = PictureSpec { left: -3, top: 4, ..PictureSpec::blank(2, 3) };
    picture.give_column(0, &[Post { start: 1, pixels: vec![7, 9], ignored: [0, 0] }]);
    picture.data.push(255);
    picture.encode()
}

const CLEAR: [u8; 4] = [0; 4];

#[test]
fn a_picture_has_the_files_own_colours() {
    let folder = Folder::with("a.wad", &lumps(&[(b"PLAYPAL\0", palette()), (b"SMALL\0\0\0", small())]));
    let said = folder.run(&["picture", "a.wad", "small", "-o", "out.png"]);
    said.is(0, &["a.wad:SMALL: 2 x 3, offsets -3 and 4, written to out.png"]);
    let png = png_reader::read(&fs::read(folder.file("out.png")).expect("the picture"));
    assert_eq!((png.width, png.height), (2, 3));
    assert_eq!(png.pixels, [CLEAR, CLEAR, [107, 193, 7, 255], CLEAR, [109, 191, 9, 255], CLEAR]);
    assert_eq!(folder.names(), ["a.wad", "out.png"]);
}

#[test]
fn lump_and_palette_are_found_by_what_precedes_their_zeros() {
    let (black, blank) = (vec![0; 768], PictureSpec::blank(1, 1).encode());
    let entries = [(b"PLAYPAL\0", black), (b"SMALL\0\0\0", blank), (b"SMALL\0ER", small()), (b"PLAYPAL\0", palette())];
    let folder = Folder::with("a.wad", &lumps(&entries));
    let said = folder.run(&["picture", "a.wad", "small", "-o", "out.png"]);
    said.is(0, &["a.wad:SMALL: 2 x 3, offsets -3 and 4, written to out.png"]);
    let said = folder.run(&["picture", "a.wad", "SMALLER", "-o", "out.png"]);
    assert_eq!((said.status, said.err.as_str()), (2, "meshpigeon: a.wad: there is no lump SMALLER\n"));
}

#[test]
fn the_last_lump_and_the_last_palette_of_a_name_count() {
    let (black, blank) = (vec![0; 768], PictureSpec::blank(1, 1).encode());
    let entries = [(b"PLAYPAL\0", black), (b"SMALL\0\0\0", blank), (b"SMALL\0\0\0", small()), (b"PLAYPAL\0", palette())];
    let folder = Folder::with("a.wad", &lumps(&entries));
    folder.run(&["picture", "a.wad", "SMALL", "-o", "out.png", "-q"]).is(0, &[]);
    let png = png_reader::read(&fs::read(folder.file("out.png")).expect("the picture"));
    assert_eq!(png.pixels[2..3], [[107, 193, 7, 255]]);
}

#[test]
fn without_a_whole_palette_it_is_grey() {
    let short = (b"PLAYPAL\0", palette()[..767].to_vec());
    for entries in [vec![(b"SMALL\0\0\0", small())], vec![short, (b"SMALL\0\0\0", small())]] {
        let folder = Folder::with("a.wad", &lumps(&entries));
        assert_eq!(folder.run(&["picture", "a.wad", "SMALL", "-o", "out.png", "--quiet"]).status, 0);
        let png = png_reader::read(&fs::read(folder.file("out.png")).expect("the picture"));
        assert_eq!(png.pixels, [CLEAR, CLEAR, [7, 7, 7, 255], CLEAR, [9, 9, 9, 255], CLEAR]);
    }
}

#[test]
fn the_largest_picture_takes_several_blocks() {
    let folder = Folder::with("a.wad", &lumps(&[(b"TITLEPIC", generator::picture(320, 200))]));
    folder.run(&["picture", "a.wad", "TITLEPIC", "-o", "out.png", "-q"]).is(0, &[]);
    let png = png_reader::read(&fs::read(folder.file("out.png")).expect("the picture"));
    assert_eq!((png.width, png.height, png.pixels.len()), (320, 200, 64_000));
    assert!(png.pixels.contains(&CLEAR) && png.pixels.iter().any(|it| it[3] == 255));
}

#[test]
fn a_picture_goes_to_standard_output() {
    let folder = Folder::with("a.wad", &lumps(&[(b"SMALL\0\0\0", small())]));
    let output =
        folder.command(&["picture", "a.wad", "SMALL", "-o", "-"]).stderr(Stdio::piped()).output().expect("the tool runs");
    assert_eq!(png_reader::read(&output.stdout).pixels.len(), 6);
    assert_eq!((output.status.code(), folder.names()), (Some(0), vec!["a.wad".to_string()]));
}

#[test]
fn a_bad_picture_is_refused_and_nothing_written() {
    let mut picture = PictureSpec::blank(2, 3);
    picture.give_column(1, &[Post { start: 2, pixels: vec![1, 2], ignored: [0, 0] }]);
    picture.data.push(255);
    let folder = Folder::with("a.wad", &lumps(&[(b"BAD\0\0\0\0\0", picture.encode()), (b"MAP01\0\0\0", vec![])]));
    let said = folder.run(&["picture", "a.wad", "BAD", "-o", "out.png"]);
    assert!(said.out.starts_with("a.wad:BAD: refused 54 at column 1: column 1 has a post"), "{said:?}");
    assert_eq!((said.status, folder.names()), (1, vec!["a.wad".to_string()]));
    let said = folder.run(&["picture", "a.wad", "MAP01", "-o", "out.png"]);
    assert!(said.out.starts_with("a.wad:MAP01: refused 50: "), "{said:?}");
}

#[test]
fn a_lump_that_is_not_there_cannot_be_read() {
    let folder = Folder::with("a.wad", &lumps(&[(b"SMALL\0\0\0", small())]));
    for name in ["LARGE", "SMALLER", "SMALLSMALL"] {
        let said = folder.run(&["picture", "a.wad", name, "-o", "out.png"]);
        assert_eq!((said.status, said.out.as_str(), said.err), (2, "", format!("meshpigeon: a.wad: there is no lump {name}\n")));
    }
}

#[test]
fn a_place_that_cannot_be_written_is_told() {
    let folder = Folder::with("a.wad", &lumps(&[(b"SMALL\0\0\0", small())]));
    let said = folder.run(&["picture", "a.wad", "SMALL", "-o", "no/out.png"]);
    assert!(said.err.starts_with("meshpigeon: no/out.png: "), "{said:?}");
    assert_eq!((said.status, said.out.as_str()), (2, ""));
}

#[test]
fn a_picture_is_never_written_over_its_file() {
    let wad = lumps(&[(b"SMALL\0\0\0", small())]);
    let folder = Folder::with("a.wad", &wad);
    fs::hard_link(folder.file("a.wad"), folder.file("hard.png")).expect("the folder takes links");
    symlink("a.wad", folder.file("soft.png")).expect("the folder takes links");
    for output in ["./a.wad", "hard.png", "soft.png"] {
        let said = folder.run(&["picture", "a.wad", "SMALL", "-o", output]);
        assert_eq!((said.status, said.out.as_str()), (3, ""), "{output}");
        assert_eq!(fs::read(folder.file("a.wad")).expect("it is there"), wad, "{output}");
    }
}

#[test]
fn a_file_may_be_the_lump_itself() {
    let folder = Folder::with("small.lmp", &small()).and("colours.wad", &lumps(&[(b"PLAYPAL\0", palette())]));
    folder.run(&["picture", "small.lmp", "-o", "out.png"]).is(0, &["small.lmp: 2 x 3, offsets -3 and 4, written to out.png"]);
    let png = png_reader::read(&fs::read(folder.file("out.png")).expect("the picture"));
    assert_eq!(png.pixels, [CLEAR, CLEAR, [7, 7, 7, 255], CLEAR, [9, 9, 9, 255], CLEAR]);
    folder.run(&["picture", "small.lmp", "-o", "out.png", "--palette", "colours.wad", "-q"]).is(0, &[]);
    let png = png_reader::read(&fs::read(folder.file("out.png")).expect("the picture"));
    assert_eq!(png.pixels, [CLEAR, CLEAR, [107, 193, 7, 255], CLEAR, [109, 191, 9, 255], CLEAR]);
}

#[test]
fn a_palette_that_is_given_counts_before_the_files_own() {
    let folder = Folder::with("a.wad", &lumps(&[(b"PLAYPAL\0", vec![0; 768]), (b"SMALL\0\0\0", small())]))
        .and("colours.wad", &lumps(&[(b"PLAYPAL\0", palette())]));
    folder.run(&["picture", "a.wad", "SMALL", "-o", "out.png", "--palette=colours.wad", "-q"]).is(0, &[]);
    let png = png_reader::read(&fs::read(folder.file("out.png")).expect("the picture"));
    assert_eq!(png.pixels[2], [107, 193, 7, 255]);
}

#[test]
fn a_bad_lump_file_is_refused_by_its_own_name() {
    let mut picture = PictureSpec::blank(2, 3);
    picture.give_column(1, &[Post { start: 2, pixels: vec![1, 2], ignored: [0, 0] }]);
    picture.data.push(255);
    let folder = Folder::with("bad.lmp", &picture.encode()).and("short.lmp", b"short");
    let said = folder.run(&["picture", "bad.lmp", "-o", "out.png"]);
    assert!(said.out.starts_with("bad.lmp: refused 54 at column 1: column 1 has a post"), "{said:?}");
    assert_eq!((said.status, folder.names()), (1, vec!["bad.lmp".to_string(), "short.lmp".to_string()]));
    let said = folder.run(&["picture", "short.lmp", "-o", "out.png", "--json"]);
    assert!(
        said.out.contains(r#""map":null,"verdict":"refused","number":50,"place":null,"lump":null,"record":null"#),
        "{said:?}"
    );
}

#[test]
fn a_wad_file_needs_the_lumps_name() {
    let folder = Folder::with("a.wad", &lumps(&[(b"SMALL\0\0\0", small())]));
    let said = folder.run(&["picture", "a.wad", "-o", "out.png"]);
    assert_eq!(
        (said.status, said.out.as_str(), said.err.as_str()),
        (3, "", "meshpigeon: picture needs LUMP: a.wad is a WAD file\n")
    );
}

#[test]
fn a_lump_file_is_no_longer_than_a_wad_file() {
    let folder = Folder::new();
    fs::File::create(folder.file("long.lmp")).and_then(|file| file.set_len(1 << 33)).expect("a sparse file");
    let said = folder.run(&["picture", "long.lmp", "-o", "out.png"]);
    assert_eq!((said.status, said.out.as_str()), (2, ""));
    assert_eq!(said.err, "meshpigeon: long.lmp: no lump of a WAD file has more than 16,777,216 bytes\n");
}
