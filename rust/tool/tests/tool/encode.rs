//! `encode`, and `picture` on the lump that it wrote.

use crate::json_reader::{object, Value};
use crate::png_reader;
use crate::support::{lumps, palette, said, Folder, Said};
use std::fs;
use std::io::Write;
use std::os::unix::fs::symlink;
use std::process::Stdio;

const CLEAR: [u8; 4] = [0; 4];

/// A picture with a full column, single pixels at top, bottom and between, runs with holes, and two empty columns. A letter is a colour.
const DRAWN: [&str; 9] =
    ["a.c.e.  g", "b...e   h", "c.b.    i", "d...e..  ", "e.a.e..i ", "f...  .j ", "g...e.  k", "h..de. l ", "i..ce.  m"];

/// A colour of the palette for each letter; none for a hole.
fn paint(letter: u8) -> Option<[u8; 3]> {
    let number = letter.is_ascii_lowercase().then(|| 5 * (letter - b'a') + 3)?;
    palette()[3 * usize::from(number)..][..3].try_into().ok()
}

/// The drawing's pixels; a hole has a colour too, and no opacity.
fn drawn() -> Vec<[u8; 4]> {
    let pixel = |letter: u8| paint(letter).map_or([9, 8, 7, 0], |[red, green, blue]| [red, green, blue, 255]);
    DRAWN.concat().bytes().map(pixel).collect()
}

/// A PAM image with opacity.
fn pam(width: usize, pixels: &[[u8; 4]]) -> Vec<u8> {
    let height = pixels.len() / width;
    let header = format!("P7\nWIDTH {width}\nHEIGHT {height}\nDEPTH 4\nMAXVAL 255\nTUPLTYPE RGB_ALPHA\nENDHDR\n");
    [header.as_bytes(), &pixels.concat()].concat()
}

/// A folder with an image, and with a palette in a file of its own.
fn folder(image: &[u8]) -> Folder {
    Folder::with("in.pam", image).and("colours.wad", &lumps(&[(b"PLAYPAL\0", palette())]))
}

fn png(folder: &Folder) -> png_reader::Png {
    png_reader::read(&fs::read(folder.file("out.png")).expect("the picture"))
}

#[test]
fn an_image_becomes_a_lump_and_the_lump_the_image() {
    let folder = folder(&pam(9, &drawn()));
    let said = folder.run(&["encode", "in.pam", "-o", "out.lmp", "--palette", "colours.wad", "--offset", "-3,300"]);
    let columns: usize = (0..9).map(|x| DRAWN.map(|row| row.as_bytes()[x])).map(|column| column_size(&column)).sum();
    let length = 8 + 9 * 4 + columns;
    said.is(0, &[&format!("in.pam: 9 x 9, offsets -3 and 300, {length} bytes, written to out.lmp")]);
    assert_eq!(fs::read(folder.file("out.lmp")).expect("the lump").len(), length);
    let said = folder.run(&["picture", "out.lmp", "-o", "out.png", "--palette=colours.wad"]);
    said.is(0, &["out.lmp: 9 x 9, offsets -3 and 300, written to out.png"]);
    let png = png(&folder);
    let wanted: Vec<[u8; 4]> = drawn().into_iter().map(|pixel| if pixel[3] == 255 { pixel } else { CLEAR }).collect();
    assert_eq!((png.width, png.height, png.pixels), (9, 9, wanted));
    assert_eq!(folder.names(), ["colours.wad", "in.pam", "out.lmp", "out.png"]);
}

/// Bytes of a column: four and its pixels for each run, and an end byte.
fn column_size(column: &[u8]) -> usize {
    let runs = column.split(|letter| !letter.is_ascii_lowercase()).filter(|run| !run.is_empty());
    runs.map(|run| 4 + run.len()).sum::<usize>() + 1
}

#[test]
fn a_lump_is_the_same_inside_a_file() {
    let image = folder(&pam(9, &drawn()));
    image.run(&["encode", "in.pam", "-o", "out.lmp", "--palette", "colours.wad", "-q"]).is(0, &[]);
    let lump = fs::read(image.file("out.lmp")).expect("the lump");
    let inside = image.and("a.wad", &lumps(&[(b"DRAWN\0\0\0", lump), (b"PLAYPAL\0", palette())]));
    inside
        .run(&["picture", "a.wad", "drawn", "-o", "out.png"])
        .is(0, &["a.wad:DRAWN: 9 x 9, offsets 0 and 0, written to out.png"]);
    let first = png(&inside).pixels;
    inside.run(&["picture", "out.lmp", "-o", "out.png", "--palette", "a.wad", "-q"]).is(0, &[]);
    assert_eq!(png(&inside).pixels, first);
}

#[test]
fn the_largest_checkerboard_comes_back() {
    let pixel = |at: usize| [at as u8, at as u8, at as u8, if (at % 320 + at / 320).is_multiple_of(2) { 255 } else { 0 }];
    let pixels: Vec<[u8; 4]> = (0..64_000).map(pixel).collect();
    let folder = folder(&pam(320, &pixels));
    folder
        .run(&["encode", "in.pam", "-o", "out.lmp"])
        .is(0, &["in.pam: 320 x 200, offsets 0 and 0, 161,608 bytes, written to out.lmp"]);
    folder.run(&["picture", "out.lmp", "-o", "out.png", "-q"]).is(0, &[]);
    let wanted: Vec<[u8; 4]> = pixels.into_iter().map(|pixel| if pixel[3] == 255 { pixel } else { CLEAR }).collect();
    assert_eq!(png(&folder).pixels, wanted);
}

#[test]
fn a_pixel_takes_the_nearest_colour() {
    let near = [[103, 197, 4, 255], [99, 201, 0, 255], [0, 0, 0, 255]];
    let folder = folder(&pam(3, &near));
    folder.run(&["encode", "in.pam", "-o", "out.lmp", "--palette", "colours.wad", "-q"]).is(0, &[]);
    folder.run(&["picture", "out.lmp", "-o", "out.png", "--palette", "colours.wad", "-q"]).is(0, &[]);
    let nearest = |[red, green, blue, _]: [u8; 4]| {
        let far = |it: &[u8]| {
            [red, green, blue].iter().zip(it).map(|(one, other)| (i32::from(*one) - i32::from(*other)).pow(2)).sum::<i32>()
        };
        let all = palette();
        let best = all.chunks(3).min_by_key(|it| far(it)).expect("256 colours");
        [best[0], best[1], best[2], 255]
    };
    assert_eq!(png(&folder).pixels, near.map(nearest));
}

#[test]
fn without_a_palette_colours_are_greys() {
    let folder = folder(b"P3 4 1 255  7 7 7  200 200 200  255 0 0  10 20 30");
    folder.run(&["encode", "in.pam", "-o", "out.lmp", "-q"]).is(0, &[]);
    folder.run(&["picture", "out.lmp", "-o", "out.png", "-q"]).is(0, &[]);
    assert_eq!(png(&folder).pixels, [7, 200, 85, 20].map(|grey| [grey, grey, grey, 255]));
}

#[test]
fn opacity_of_128_and_more_covers() {
    let folder = folder(&pam(4, &[0, 127, 128, 255].map(|opacity| [9, 9, 9, opacity])));
    folder.run(&["encode", "in.pam", "-o", "out.lmp", "-q"]).is(0, &[]);
    folder.run(&["picture", "out.lmp", "-o", "out.png", "-q"]).is(0, &[]);
    assert_eq!(png(&folder).pixels, [CLEAR, CLEAR, [9, 9, 9, 255], [9, 9, 9, 255]]);
}

#[test]
fn it_reads_and_writes_through_pipes() {
    let folder = Folder::new();
    let mut child =
        folder.command(&["encode", "-", "-o", "-"]).stdin(Stdio::piped()).stdout(Stdio::piped()).spawn().expect("the tool runs");
    child.stdin.take().expect("it is piped").write_all(b"P5 2 1 255\n\x05\x06").expect("it reads");
    let output = child.wait_with_output().expect("the tool ends");
    let header = [2, 0, 1, 0, 0, 0, 0, 0, 16, 0, 0, 0, 22, 0, 0, 0];
    assert_eq!(output.stdout, [&header[..], &[0, 1, 0, 5, 0, 255, 0, 1, 0, 6, 0, 255]].concat());
    assert_eq!((output.status.code(), folder.names()), (Some(0), vec![]));
}

#[test]
fn json_has_sizes_offsets_and_length() {
    let folder = folder(b"P5 2 1 255\n\x05\x06");
    let said = folder.run(&["encode", "in.pam", "-o", "out.lmp", "--offset=32767,-32768", "--json"]);
    let number = |it| Value::Number(it);
    let text = |it: &str| Value::Text(it.to_string());
    let members = [
        ("format", number(1)),
        ("file", text("in.pam")),
        ("file_bytes", Value::Null),
        ("number", number(0)),
        ("width", number(2)),
        ("height", number(1)),
        ("left", number(32_767)),
        ("top", number(-32_768)),
        ("length", number(28)),
        ("output", text("out.lmp")),
    ];
    assert_eq!(object(said.out.trim_end()), members.map(|(key, value)| (key.to_string(), value)));
    let said = folder.run(&["picture", "out.lmp", "-o", "out.png", "--json"]);
    let members = object(said.out.trim_end());
    assert_eq!(
        members[1..5],
        [("file", text("out.lmp")), ("file_bytes", Value::Null), ("lump", Value::Null), ("number", number(0))]
            .map(|(key, it)| (key.to_string(), it))
    );
    assert_eq!(members[7..9], [("left", number(32_767)), ("top", number(-32_768))].map(|(key, it)| (key.to_string(), it)));
}

/// Asserts that an image is not encoded, and that a file in the output's place stays as it was.
fn not_encoded(image: &[u8], options: &[&str]) -> Said {
    let folder = folder(image).and("out.lmp", b"as it was");
    let said = folder.run(&[&["encode", "in.pam", "-o", "out.lmp"], options].concat());
    assert_eq!(fs::read(folder.file("out.lmp")).expect("it is there"), b"as it was", "{said:?}");
    assert_eq!(folder.names(), ["colours.wad", "in.pam", "out.lmp"]);
    said
}

#[test]
fn an_image_of_another_size_than_a_picture_is_refused() {
    let rule = "a picture of that size cannot be written: 1 to 320 across and 1 to 200 down are allowed";
    for (width, height, said) in [
        (321, 1, "321 across and 1 down"),
        (1, 201, "1 across and 201 down"),
        (0, 5, "0 across and 5 down"),
        (3, 0, "3 across and 0 down"),
        (400, 300, "400 across and 300 down"),
        (64_000, 1, "64,000 across and 1 down"),
    ] {
        let image = [format!("P5 {width} {height} 255\n").as_bytes(), &vec![1; width * height]].concat();
        not_encoded(&image, &[]).is(1, &[&format!("in.pam: refused 56: {rule}; this one is {said}")]);
        let object = object(not_encoded(&image, &["--json"]).out.trim_end());
        let found = [("width", width), ("height", height)].map(|(key, it)| (key.to_string(), Value::Number(it as i64)));
        assert!(object.contains(&("found".to_string(), Value::Object(found.to_vec()))), "{object:?}");
        assert!(object.contains(&("number".to_string(), Value::Number(56))), "{object:?}");
    }
}

#[test]
fn sides_that_no_memory_holds_are_refused_by_the_header() {
    for (sides, said) in [
        ("999999999 999999999", "999,999,999 across and 999,999,999 down"),
        ("4294968 429497", "4,294,968 across and 429,497 down"),
        ("999999999 1", "999,999,999 across and 1 down"),
    ] {
        for mark in ["P2", "P3", "P5", "P6"] {
            let out = not_encoded(format!("{mark} {sides} 255\n").as_bytes(), &[]).out;
            assert!(out.starts_with("in.pam: refused 56: ") && out.ends_with(&format!("; this one is {said}\n")), "{out}");
        }
    }
}

#[test]
fn an_image_that_cannot_be_read_is_told() {
    for (image, words) in [
        (&b"\x89PNG\r\n\x1A\n"[..], "this is no image of Netpbm: PAM (P7), PPM (P6, P3) and PGM (P5, P2) are read"),
        (b"", "this is no image of Netpbm"),
        (b"P6 2 2 255\n.....", "the image's pixels are not all there: its header says 2 x 2, with 3 bytes for each"),
        (b"P6 2 2 65535\n", "the image's largest sample (MAXVAL) is not 255: no other can be read"),
        (b"P6 99999999999999999999 1 255\n", "the image's header is broken: its width is no number that can be read"),
        (b"P7\nWIDTH 1\n", "the image's header is broken: it has WIDTH, HEIGHT, DEPTH, MAXVAL, TUPLTYPE and then ENDHDR"),
        (b"P7\nWIDTH 1\nHEIGHT 1\nDEPTH 9\nMAXVAL 255\nENDHDR\n", "the image has pixels of another kind than GRAYSCALE,"),
    ] {
        for options in [&[][..], &["--json"], &["--quiet"]] {
            let said = not_encoded(image, options);
            assert!(said.err.starts_with(&format!("meshpigeon: in.pam: {words}")), "{said:?}");
            let is_object = said.out.contains(r#""verdict":"unreadable","number":null"#) && said.out.contains(words);
            assert_eq!(
                (said.status, !said.out.is_empty(), is_object),
                (2, options == ["--json"], options == ["--json"]),
                "{said:?}"
            );
        }
    }
    let said = Folder::new().run(&["encode", "no.pam", "-o", "out.lmp"]);
    assert!(said.err.starts_with("meshpigeon: no.pam: No such file"), "{said:?}");
    assert_eq!((said.status, said.out.as_str()), (2, ""));
}

#[test]
fn an_image_without_an_end_is_left() {
    let folder = Folder::new();
    let zeros = Stdio::from(fs::File::open("/dev/zero").expect("the device of zeros"));
    let said = said(folder.command(&["encode", "-", "-o", "out.lmp"]).stdin(zeros).output().expect("the tool runs"));
    assert_eq!((said.status, said.err.as_str().contains("no image of Netpbm"), folder.names()), (2, true, vec![]));
}

#[test]
fn a_palette_that_is_asked_for_must_be_there() {
    let image = b"P5 1 1 255\n.";
    let said = not_encoded(image, &["--palette", "no.wad"]);
    assert!(said.err.starts_with("meshpigeon: no.wad: No such file"), "{said:?}");
    assert_eq!(said.status, 2);
    let said = not_encoded(image, &["--palette", "in.pam"]);
    assert!(said.out.starts_with("in.pam: refused 2: "), "{said:?}");
    assert_eq!(said.status, 1);
    for entries in [vec![], vec![(b"PLAYPAL\0", palette()[1..].to_vec())]] {
        let folder = Folder::with("in.pam", image).and("colours.wad", &lumps(&entries)).and("a.lmp", b"");
        for arguments in [
            ["encode", "in.pam", "-o", "out", "--palette", "colours.wad"],
            ["picture", "a.lmp", "-o", "out", "--palette", "colours.wad"],
        ] {
            let said = folder.run(&arguments);
            let words = "meshpigeon: colours.wad: there is no lump PLAYPAL with a whole palette, 768 bytes or more\n";
            assert_eq!((said.status, said.out.as_str(), said.err.as_str()), (2, "", words));
        }
        assert_eq!(folder.names(), ["a.lmp", "colours.wad", "in.pam"]);
    }
}

#[test]
fn a_lump_is_never_written_over_what_it_comes_from() {
    let image = pam(9, &drawn());
    let folder = folder(&image);
    let colours = fs::read(folder.file("colours.wad")).expect("it is there");
    fs::hard_link(folder.file("in.pam"), folder.file("hard.lmp")).expect("the folder takes links");
    symlink("colours.wad", folder.file("soft.lmp")).expect("the folder takes links");
    for output in ["./in.pam", "hard.lmp", "colours.wad", "soft.lmp"] {
        let said = folder.run(&["encode", "in.pam", "-o", output, "--palette", "colours.wad"]);
        let words = "meshpigeon: the lump would be written over a file that it comes from\n";
        assert_eq!((said.status, said.out.as_str(), said.err.as_str()), (3, "", words), "{output}");
    }
    folder.run(&["encode", "in.pam", "-o", "out.lmp", "-q"]).is(0, &[]);
    for output in ["out.lmp", "soft.lmp"] {
        let said = folder.run(&["picture", "out.lmp", "-o", output, "--palette", "colours.wad"]);
        assert_eq!((said.status, said.out.as_str()), (3, ""), "{output}");
    }
    assert_eq!(fs::read(folder.file("in.pam")).expect("it is there"), image);
    assert_eq!(fs::read(folder.file("colours.wad")).expect("it is there"), colours);
}

#[test]
fn a_place_that_cannot_be_written_is_told() {
    let said = folder(b"P5 1 1 255\n.").run(&["encode", "in.pam", "-o", "no/out.lmp"]);
    assert!(said.err.starts_with("meshpigeon: no/out.lmp: "), "{said:?}");
    assert_eq!((said.status, said.out.as_str()), (2, ""));
}
