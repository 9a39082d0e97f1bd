//! Both sides of the limits of written pictures: sides, buffers, cover bytes, the output, and which fault comes first.

use crate::limit::{plainly, Build};
use crate::written::{every_second, Canvas, Run, HUGE_SIZES};
use crate::{Case, Expected, Rng};
use reader::Picture;

/// All of them.
pub(crate) fn written_limits() -> Vec<Build> {
    let mut all = size_limits();
    all.extend(huge_limits());
    all.extend(buffer_limits());
    all.extend(cover_limits());
    all.extend(output_limits());
    all.extend(column_limits());
    all
}

/// Covered pixels of these sides, good or not, in buffers that are longer or shorter than needed by so many bytes.
fn sized(width: usize, height: usize, spare: [isize; 2], out: usize, expected: Expected) -> Case {
    let pixels = |fill, spare: isize| vec![fill; ((width * height) as isize + spare).max(0) as usize];
    let picture = Picture { width, height, left: -1, top: 257 };
    let canvas = Canvas { picture, colour: pixels(9, spare[0]), cover: pixels(1, spare[1]), lump: Vec::new() };
    canvas.case("written picture's sizes", out, expected)
}

/// Bytes of a lump whose columns are all covered.
fn full_length(width: usize, height: usize) -> usize {
    8 + width * (4 + 3 + height + 1 + 1)
}

/// Each side inside its limits and outside, with all pixels lent and with one too few.
fn size_limits() -> Vec<Build> {
    let mut all: Vec<Build> = Vec::new();
    for width in [0, 1, 2, 319, 320, 321, 400, 65_535, 65_536, 65_537, 65_536 + 320] {
        for height in [0, 1, 2, 199, 200, 201, 255, 256, 257, 300] {
            let good = (1..=320).contains(&width) && (1..=200).contains(&height);
            if width * height > 2_000_000 {
                continue;
            }
            for (spare, short) in [([0, 0], false), ([5, 1], false), ([-1, 0], true), ([0, -1], true), ([-1, -1], true)] {
                let number = if short && width * height > 0 { 55 } else { 56 };
                let accepted = good && !short;
                let length = full_length(width, height);
                let expected = if accepted { Expected::Count(length) } else { plainly(number) };
                let out = if accepted { length } else { 40 };
                all.push(Box::new(move || sized(width, height, spare, out, expected)));
            }
        }
    }
    all
}

/// Sides whose product passes every length, over buffers that hold what is left of it where it wraps.
fn huge_limits() -> Vec<Build> {
    let mut all: Vec<Build> = Vec::new();
    for (width, height) in HUGE_SIZES {
        for lent in [0, 2, 64_000] {
            all.push(Box::new(move || {
                let picture = Picture { width, height, left: 0, top: 0 };
                let canvas = Canvas { picture, colour: vec![1; lent], cover: vec![1; lent], lump: Vec::new() };
                canvas.case("written picture's huge sides", 200_000, plainly(55))
            }));
        }
    }
    all
}

/// Buffers of exactly the pixels, one less and one more, at the largest picture and the smallest.
fn buffer_limits() -> Vec<Build> {
    let mut all: Vec<Build> = Vec::new();
    for (width, height) in [(1, 1), (7, 5), (320, 200)] {
        for colour in [-1, 0, 1] {
            for cover in [-1, 0, 1] {
                let length = full_length(width, height);
                let expected = if colour < 0 || cover < 0 { plainly(55) } else { Expected::Count(length) };
                all.push(Box::new(move || sized(width, height, [colour, cover], length, expected)));
            }
        }
    }
    all
}

/// One byte of the cover, inside the pixels and behind them; with an output that fits and with one that does not, 57 before 58.
fn cover_limits() -> Vec<Build> {
    let (width, height) = (7, 5);
    let area = width * height;
    let mut all: Vec<Build> = Vec::new();
    for byte in [0, 1, 2, 3, 127, 128, 254, 255] {
        for at in [0, 1, width - 1, width, area - width, area - 1, area, area + 1] {
            for out in [0, full_length(width, height) + 8] {
                let number = match () {
                    () if byte > 1 && at < area => 57,
                    () if out == 0 => 58,
                    () => 0,
                };
                all.push(Box::new(move || {
                    let mut case = sized(width, height, [0, 2], out, plainly(number));
                    case.bytes[at] = byte;
                    case
                }));
            }
        }
    }
    all
}

/// An output of exactly the lump's length, one less, one more, and none.
fn output_limits() -> Vec<Build> {
    let sizes = [(1, 1), (1, 200), (320, 1), (9, 12), (320, 200)];
    let mut all: Vec<Build> = Vec::new();
    for (turn, (width, height)) in sizes.into_iter().enumerate() {
        for spare in [0, 1, 70, -1, -2, isize::MIN] {
            all.push(Box::new(move || {
                let canvas = Canvas::any(width, height, &mut Rng::new(turn as u64));
                let length = canvas.lump.len();
                let out = (length as isize).saturating_add(spare).max(0) as usize;
                let expected = if spare < 0 { plainly(58) } else { Expected::Count(length) };
                canvas.case("written picture's output", out, expected)
            }));
        }
    }
    all
}

/// The runs of one column after the other, at both ends of a column and in pictures of one side or the most.
fn column_limits() -> Vec<Build> {
    let runs: [fn(usize) -> Vec<Run>; 9] = [
        |_| Vec::new(),
        |height| vec![Run { start: 0, length: height }],
        |_| vec![Run { start: 0, length: 1 }],
        |height| vec![Run { start: height - 1, length: 1 }],
        |height| vec![Run { start: 0, length: height - 1 }],
        |height| vec![Run { start: 1, length: height - 1 }],
        |height| vec![Run { start: 0, length: 1 }, Run { start: 2, length: height - 2 }],
        |height| every_second(0, height),
        |height| every_second(1, height),
    ];
    let mut all: Vec<Build> = Vec::new();
    for (width, height) in [(1, 3), (3, 3), (1, 200), (320, 3), (320, 200)] {
        for first in 0..runs.len() {
            for step in [0, 1, 4] {
                all.push(Box::new(move || {
                    let of = |column: usize, _: &mut Rng| runs[(first + step * column) % runs.len()](usize::from(height));
                    let canvas = Canvas::new(width, height, of, &mut Rng::new(9));
                    let length = canvas.lump.len();
                    canvas.case("written picture's columns", length + 3, Expected::Count(length))
                }));
            }
        }
    }
    all
}
