//! The files of samples/, as `make run` judges them.

use crate::png_reader;
use crate::support::{Folder, GOOD};

fn folder() -> Folder {
    generator::samples().iter().fold(Folder::new(), |folder, (name, bytes)| folder.and(name, bytes))
}

#[test]
fn each_sample_is_what_its_name_says() {
    let names =
        ["accepted", "hexen", "leftover", "loop", "picture", "reference", "shared", "text"].map(|name| format!("{name}.wad"));
    let said = folder().run(&[vec!["judge".to_string()], names.to_vec()].concat());
    let lines: Vec<&str> = said.out.lines().collect();
    assert_eq!(lines[0], format!("accepted.wad:MAP01: {GOOD}"));
    assert_eq!(lines[1], "hexen.wad:MAP01: accepted (Hexen), depth 2, 3 nodes, 4 subsectors");
    assert_eq!(lines[2], format!("leftover.wad:MAP01: {GOOD}"));
    assert!(lines[3].starts_with("loop.wad:MAP01: refused 31 at NODES: "), "{said:?}");
    assert_eq!(lines[4], "picture.wad: no map");
    assert!(lines[5].starts_with("reference.wad:MAP01: refused 23 at LINEDEFS 5: "), "{said:?}");
    assert!(lines[6].starts_with("shared.wad:MAP01: refused 32 at NODES: "), "{said:?}");
    let counts = "4 vertices, 4 linedefs, 4 sidedefs, 1 sector, 1 thing, namespace \"Doom\"; its geometry is not judged";
    assert_eq!(lines[7], format!("text.wad:MAP01: a text map: its grammar is good, {counts}"));
    let all = "8 files: 3 maps accepted, 3 maps refused, 1 text map of good grammar, 1 file without a map";
    assert_eq!(lines[8..], [all]);
    assert_eq!((said.status, said.err.as_str()), (1, ""));
}

#[test]
fn a_sample_may_be_a_patch_over_another() {
    let (folder, counts) = (folder(), "depth 2, 3 nodes, 4 subsectors");
    for (patch, notes) in [("hexen.wad", "Hexen, of the patch"), ("picture.wad", "of the base")] {
        let line = format!("{patch}:MAP01: accepted ({notes}), {counts}");
        folder.run(&["judge", "--base", "accepted.wad", patch]).is(0, &[&line]);
    }
}

#[test]
fn what_is_left_of_longer_names_is_not_listed() {
    let folder = folder();
    let bytes = std::fs::read(folder.file("leftover.wad")).expect("it is there");
    for name in [b"MAP01\0AP", b"THINGS\0P", b"SEGS\0XES", b"NODES\0RS"] {
        assert!(bytes.windows(8).any(|it| it == name), "{}", String::from_utf8_lossy(name));
    }
    assert_eq!(folder.run(&["list", "leftover.wad"]).out, folder.run(&["list", "accepted.wad"]).out);
}

#[test]
fn the_pigeon_is_painted() {
    let folder = folder();
    folder.run(&["picture", "picture.wad", "PIGEON", "-o", "out.png", "-q"]).is(0, &[]);
    let png = png_reader::read(&std::fs::read(folder.file("out.png")).expect("the picture"));
    assert_eq!((png.width, png.height), (26, 20));
    assert_eq!(png.pixels[0], [0; 4]);
    assert_eq!(png.pixels[3 * 26 + 17], [32, 32, 40, 255]);
}

#[test]
fn the_pigeon_is_painted_from_its_image() {
    let folder = folder();
    let said = folder.run(&["encode", "pigeon.pam", "-o", "pigeon.lmp", "--palette", "picture.wad", "--offset", "13,20"]);
    said.is(0, &["pigeon.pam: 26 x 20, offsets 13 and 20, 442 bytes, written to pigeon.lmp"]);
    let pixels = |arguments: &[&str]| {
        assert_eq!(folder.run(arguments).status, 0);
        png_reader::read(&std::fs::read(folder.file("out.png")).expect("the picture")).pixels
    };
    let painted = pixels(&["picture", "picture.wad", "PIGEON", "-o", "out.png"]);
    assert_eq!(pixels(&["picture", "pigeon.lmp", "-o", "out.png", "--palette", "picture.wad"]), painted);
}
