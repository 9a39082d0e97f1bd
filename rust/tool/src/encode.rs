//! `encode`: a picture lump from an image.

use crate::about::About;
use crate::count::counted;
use crate::finding::Finding;
use crate::input::{self, Digest};
use crate::json::Object;
use crate::name;
use crate::netpbm::Image;
use crate::output::{is_same, put};
use crate::palette::Palette;
use crate::picture::MOST_PIXELS;
use crate::report::Report;
use crate::verdict::{Outcome, Source, Subject, Verdict};
use meshpigeon::{Picture, Refusal};
use std::ffi::OsStr;

/// Pixels of less opacity are not painted.
const LEAST_OPACITY: u8 = 128;

/// The refusal of an image by its size.
const TOO_LARGE: Refusal = Refusal { number: 56, place: 0, record: 0 };

/// Writes an image as a picture lump to `output`, which is standard output for `-`. Each pixel has the nearest colour of the palette, and
/// without a palette the nearest grey.
pub fn run(file: &OsStr, palette: Option<&OsStr>, (left, top): (i16, i16), output: &OsStr, report: &mut Report) {
    if is_same(file, output) || palette.is_some_and(|palette| is_same(palette, output)) {
        return report.misused("the lump would be written over a file that it comes from");
    }
    let Some(palette) = palette.map_or_else(|| Some(Palette::greys()), |file| Palette::open(file, report)) else { return };
    let bytes = match input::read_most(file) {
        Ok(bytes) => bytes,
        Err(error) => return report.unread(file, &input::words(&error)),
    };
    let image = match Image::of(&bytes) {
        Ok(image) => image,
        Err(flaw) => return report.unread(file, &flaw.to_string()),
    };
    let picture = Picture { width: image.width, height: image.height, left, top };
    // More pixels than the largest picture has are not looked for.
    if picture.width.saturating_mul(picture.height) > MOST_PIXELS {
        return refuse(file, &bytes, picture, TOO_LARGE, report);
    }
    let pixels = match image.pixels() {
        Ok(pixels) => pixels,
        Err(flaw) => return report.unread(file, &flaw.to_string()),
    };
    let (colour, cover) = painted(&pixels, &palette);
    match meshpigeon::write_picture(picture, &colour, &cover) {
        Err(refusal) => refuse(file, &bytes, picture, refusal, report),
        Ok(lump) => put(&lump, output, report, |report| tell(file, picture, lump.len(), output, report)),
    }
}

/// Colour and cover of each pixel; one that is not painted has the colour 0.
fn painted(pixels: &[[u8; 4]], palette: &Palette) -> (Vec<u8>, Vec<u8>) {
    let paint = |&[red, green, blue, opacity]: &[u8; 4]| match opacity {
        LEAST_OPACITY.. => (palette.nearest([red, green, blue]), 1),
        _ => (0, 0),
    };
    pixels.iter().map(paint).unzip()
}

fn refuse(file: &OsStr, bytes: &[u8], picture: Picture, refusal: Refusal, report: &mut Report) {
    let outcome = Outcome::Refused(refusal, Finding::in_image(refusal, picture));
    let about = About::of(file, Digest::of(bytes));
    report.verdict(&Verdict::plain(about, Subject::File, Source::File, outcome));
}

fn tell(file: &OsStr, picture: Picture, length: usize, output: &OsStr, report: &mut Report) {
    let Picture { width, height, left, top } = picture;
    report.answer(
        || {
            let (file, length, output) = (name::file(file), counted(length, "byte"), name::file(output));
            format!("{file}: {width} x {height}, offsets {left} and {top}, {length}, written to {output}")
        },
        || {
            let object = Object::about(file).number("number", 0);
            let object = object.count("width", width).count("height", height);
            let object = object.number("left", i64::from(left)).number("top", i64::from(top));
            object.count("length", length).text("output", output.to_string_lossy().as_ref()).close()
        },
    );
}
