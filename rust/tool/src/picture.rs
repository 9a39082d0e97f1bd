//! `picture`: a picture lump as PNG.

use crate::about::About;
use crate::finding::Finding;
use crate::input::{self, Digest, MOST_BYTES};
use crate::json::Object;
use crate::name::{self, shown};
use crate::output::{is_same, put};
use crate::pair::{Base, Opened};
use crate::palette::{Palette, PLAYPAL};
use crate::png;
use crate::report::Report;
use crate::verdict::{Outcome, Source, Subject, Verdict};
use meshpigeon::Picture;
use std::ffi::OsStr;

/// Pixels of the largest picture.
pub const MOST_PIXELS: usize = 320 * 200;

/// Whose picture it is: a lump of a WAD file, or a file that is the lump itself.
struct Origin {
    about: About,
    lump: Option<String>,
    source: Source,
}

/// Writes a picture lump to `output`, which is standard output for `-`. Over a base, lump and palette are those of the pair. Without a
/// lump's name the file is the lump itself. A palette that is given counts before the file's own.
pub fn run(
    file: &OsStr,
    base: Option<&OsStr>,
    lump: Option<&OsStr>,
    palette: Option<&OsStr>,
    output: &OsStr,
    report: &mut Report,
) {
    if [Some(file), base, palette].into_iter().flatten().any(|it| is_same(it, output)) {
        return report.misused("the picture would be written over a file that it comes from");
    }
    let Some(palette) = palette.map_or(Some(None), |file| Palette::open(file, report).map(Some)) else { return };
    match lump {
        Some(lump) => of_wad(file, base, lump, palette, output, report),
        None => of_lump(file, palette.unwrap_or_else(Palette::greys), output, report),
    }
}

/// A lump of a file or of a pair.
fn of_wad(file: &OsStr, base: Option<&OsStr>, lump: &OsStr, palette: Option<Palette>, output: &OsStr, report: &mut Report) {
    let below = match Base::open(base) {
        Ok(below) => below,
        Err(fault) => return report.fault(base.unwrap_or_default(), fault),
    };
    let opened = match Opened::open(file, &below) {
        Ok(opened) => opened,
        Err((source, fault)) => return report.fault_of(About::unread(file), source, fault.cutting("LUMP")),
    };
    let name = name::asked(lump);
    let Some((source, lump)) = opened.lump(&name) else { return report.trouble(file, &opened.lacks(&name)) };
    let own = || opened.lump(PLAYPAL).and_then(|(_, lump)| Palette::of(lump)).unwrap_or_else(Palette::greys);
    let origin = Origin { about: opened.about(file, report), lump: Some(name::text(&name)), source };
    paint(&origin, lump, &palette.unwrap_or_else(own), output, report);
}

/// A file that is the lump itself, as `encode` writes it.
fn of_lump(file: &OsStr, palette: Palette, output: &OsStr, report: &mut Report) {
    let lump = match input::read_most(file) {
        Ok(lump) => lump,
        Err(error) => return report.unread(file, &input::words(&error)),
    };
    if lump.starts_with(b"IWAD") || lump.starts_with(b"PWAD") {
        return report.misused(&format!("picture needs LUMP: {} is a WAD file", name::file(file)));
    }
    if lump.len() as u64 > MOST_BYTES {
        return report.unread(file, "no lump of a WAD file has more than 16,777,216 bytes");
    }
    let about = About::of(file, Digest::of(&lump));
    paint(&Origin { about, lump: None, source: Source::File }, &lump, &palette, output, report);
}

fn paint(origin: &Origin, lump: &[u8], palette: &Palette, output: &OsStr, report: &mut Report) {
    let (mut colour, mut cover) = (vec![0; MOST_PIXELS], vec![0; MOST_PIXELS]);
    match meshpigeon::paint_picture(lump, &mut colour, &mut cover) {
        Err(refusal) => {
            let outcome = Outcome::Refused(refusal, Finding::in_picture(refusal, lump));
            let subject = origin.lump.clone().map_or(Subject::File, Subject::Lump);
            report.verdict(&Verdict::plain(origin.about.clone(), subject, origin.source, outcome));
        }
        Ok(picture) => {
            let pixels = pixels(&colour, &cover, palette);
            let bytes = png::encode(picture.width, picture.height, &pixels[..picture.width * picture.height]);
            put(&bytes, output, report, |report| tell(origin, picture, output, report));
        }
    }
}

/// Red, green, blue and opacity of each pixel.
fn pixels(colour: &[u8], cover: &[u8], palette: &Palette) -> Vec<[u8; 4]> {
    let pixel = |(&colour, &cover): (&u8, &u8)| match (cover, palette.colour(colour)) {
        (1, [red, green, blue]) => [red, green, blue, 255],
        _ => [0; 4],
    };
    colour.iter().zip(cover).map(pixel).collect()
}

fn tell(origin: &Origin, picture: Picture, output: &OsStr, report: &mut Report) {
    let Picture { width, height, left, top } = picture;
    let lump = origin.lump.as_deref();
    let name = lump.map_or(String::new(), |lump| format!(":{}", shown(lump)));
    let of = origin.source.name().map_or(String::new(), |name| format!(" (of the {name})"));
    report.answer(
        || {
            let (file, output) = (origin.about.shown(), name::file(output));
            format!("{file}{name}: {width} x {height}{of}, offsets {left} and {top}, written to {output}")
        },
        || {
            let object = Object::about(origin.about.file()).text("lump", lump).number("number", 0);
            let object = object.count("width", width).count("height", height);
            let object = object.number("left", i64::from(left)).number("top", i64::from(top));
            let object = object.text("output", output.to_string_lossy().as_ref());
            object.text("from", origin.source.name()).close()
        },
    );
}
