//! Pictures to be written: sizes, pixels and an output, good and bad.

use crate::picture::any_size;
use crate::{Case, Expected, PictureSpec, Post, Question, Rng};
use reader::{Picture, Refusal};

/// What a picture is written from, and the lump that must come of it.
#[derive(Clone, Debug, PartialEq, Eq)]
pub struct Canvas {
    /// Sizes and offsets.
    pub picture: Picture,
    /// A byte for each pixel, row by row from the top, uncovered ones too.
    pub colour: Vec<u8>,
    /// 1 where a pixel is covered, else 0.
    pub cover: Vec<u8>,
    /// Header, offsets and columns in order, with a post for each run.
    pub lump: Vec<u8>,
}

impl Canvas {
    /// A canvas whose column of each number has these runs, downward and apart from each other. Uncovered pixels have any colour.
    pub fn new(width: u16, height: u16, mut runs: impl FnMut(usize, &mut Rng) -> Vec<Run>, rng: &mut Rng) -> Self {
        let mut spec = PictureSpec { left: rng.i16(), top: rng.i16(), data: Vec::new(), ..PictureSpec::blank(width, height) };
        let (width, height) = (usize::from(width), usize::from(height));
        let (colour, mut cover) = (rng.bytes(width * height), vec![0; width * height]);
        for column in 0..width {
            let mut post = |Run { start, length }: Run| {
                let pixels = (start..start + length).map(|row| row * width + column);
                pixels.clone().for_each(|at| cover[at] = 1);
                Post { start: start as u8, pixels: pixels.map(|at| colour[at]).collect(), ignored: [0, 0] }
            };
            let posts: Vec<Post> = runs(column, rng).into_iter().map(&mut post).collect();
            spec.give_column(column, &posts);
            spec.data.push(255);
        }
        let picture = Picture { width, height, left: spec.left, top: spec.top };
        Self { picture, colour, cover, lump: spec.encode() }
    }

    /// A canvas with columns of every kind.
    pub fn any(width: u16, height: u16, rng: &mut Rng) -> Self {
        Self::new(width, height, |_, rng| any_runs(usize::from(height), rng), rng)
    }

    /// Every second pixel of each row and column: the most posts that there can be.
    pub fn checkerboard(width: u16, height: u16, rng: &mut Rng) -> Self {
        Self::new(width, height, |column, _| every_second(column % 2, usize::from(height)), rng)
    }

    /// The question, with an output of so many bytes; the bytes of the case are the cover.
    pub fn case(self, label: &str, out: usize, expected: Expected) -> Case {
        let Self { picture, colour, cover, .. } = self;
        Case::new(label, cover, Question::WritePicture { picture, colour, out: vec![0xA5; out] }, expected)
    }
}

/// An unbroken run of covered pixels in a column, at least one.
#[derive(Clone, Copy, Debug, PartialEq, Eq)]
pub struct Run {
    /// The first row.
    pub start: usize,
    /// How many rows.
    pub length: usize,
}

/// Single pixels from `first` on, with a hole after each.
pub fn every_second(first: usize, height: usize) -> Vec<Run> {
    (first..height).step_by(2).map(|start| Run { start, length: 1 }).collect()
}

/// Nothing, the whole column, a single pixel, every second one, or runs of any length with holes of any.
fn any_runs(height: usize, rng: &mut Rng) -> Vec<Run> {
    match rng.below(8) {
        0 => Vec::new(),
        1 => vec![Run { start: 0, length: height }],
        2 => vec![Run { start: rng.below(height), length: 1 }],
        3 => every_second(rng.below(2), height),
        _ => scattered(height, rng),
    }
}

fn scattered(height: usize, rng: &mut Rng) -> Vec<Run> {
    let (mut runs, mut start) = (Vec::new(), rng.below(3));
    while start < height {
        let most = if rng.once_in(4) { height - start } else { 4.min(height - start) };
        let length = rng.between(1, most);
        runs.push(Run { start, length });
        start += length + rng.between(1, 3);
    }
    runs
}

/// Sides outside the limits, few enough pixels to lend them all: width and height.
const BAD_SIZES: [(usize, usize); 12] = [
    (0, 1),
    (1, 0),
    (0, 0),
    (0, usize::MAX),
    (usize::MAX, 0),
    (321, 1),
    (1, 201),
    (321, 7),
    (3, 256),
    (400, 300),
    (65_536 + 3, 1),
    (2, 65_536 + 5),
];

/// Sides whose product no buffer has, though it may be small where it wraps.
pub(crate) const HUGE_SIZES: [(usize, usize); 8] = [
    (usize::MAX, 1),
    (1, usize::MAX),
    (usize::MAX, usize::MAX),
    (1 << 32, 1 << 32),
    ((1 << 63) + 1, 2),
    (2, (1 << 63) + 1),
    ((1 << 32) + 3, (1 << 32) + 3),
    (1 << 40, 1 << 10),
];

/// A picture to be written, good or bad.
pub fn written_case(rng: &mut Rng) -> Case {
    if rng.once_in(6) {
        random_case(rng)
    } else {
        drawn_case(rng)
    }
}

/// Any small sides, pixels and output: nothing is known of the answer.
fn random_case(rng: &mut Rng) -> Case {
    let picture = Picture { width: rng.below(7), height: rng.below(7), left: rng.i16(), top: rng.i16() };
    let mut lent = || (picture.width * picture.height + rng.below(4)).saturating_sub(rng.pick(&[0, 0, 1, 4]));
    let [colour, cover] = [lent(), lent()];
    let mut covered = || if rng.once_in(60) { rng.byte() } else { rng.below(2) as u8 };
    let cover = (0..cover).map(|_| covered()).collect();
    let canvas = Canvas { picture, colour: rng.bytes(colour), cover, lump: Vec::new() };
    canvas.case("random pixels", rng.between(8, 150), Expected::Unknown)
}

/// A drawn picture, with no fault or with some of the four; the first in the order 55 to 58 counts.
fn drawn_case(rng: &mut Rng) -> Case {
    let (width, height) = any_size(rng);
    let mut canvas = Canvas::any(width, height, rng);
    let length = canvas.lump.len();
    let (mut out, mut number) = (length + rng.pick(&[0, 0, 1, 9]), 0);
    let faulty = rng.once_in(2);
    let mut has = |rng: &mut Rng, fault: u32| {
        let chosen = faulty && rng.once_in(2);
        number = if chosen { fault } else { number };
        chosen
    };
    if has(rng, 58) {
        let any = rng.below(length);
        out = rng.pick(&[length - 1, length - 1, 0, any]);
    }
    if has(rng, 57) {
        let at = rng.below(canvas.cover.len());
        canvas.cover[at] = rng.pick(&[2, 3, 128, 254, 255]);
    }
    if rng.once_in(4) && has(rng, 56) {
        resize(&mut canvas, rng.pick(&BAD_SIZES));
    }
    if canvas.cover.is_empty() || !has(rng, 55) {
        lengthen(&mut canvas, rng);
    } else {
        shorten(&mut canvas, rng);
    }
    let expected = if number == 0 { Expected::Count(length) } else { Expected::Refused(Refusal::plain(number)) };
    canvas.case("written picture", out, expected)
}

/// Other sides, with as many pixels as they need.
fn resize(canvas: &mut Canvas, (width, height): (usize, usize)) {
    canvas.picture = Picture { width, height, ..canvas.picture };
    canvas.colour.resize(width * height, 3);
    canvas.cover.resize(width * height, 1);
}

/// Bytes behind the last pixel, which nothing may judge.
fn lengthen(canvas: &mut Canvas, rng: &mut Rng) {
    for pixels in [&mut canvas.colour, &mut canvas.cover] {
        let more = rng.pick(&[0, 0, 1, 9]);
        pixels.extend(rng.bytes(more));
    }
}

/// Too few pixels in one buffer or in both, or sides that no buffer can have.
fn shorten(canvas: &mut Canvas, rng: &mut Rng) {
    let fewer = rng.below(canvas.cover.len());
    let fewer = rng.pick(&[fewer, canvas.cover.len() - 1]);
    match rng.below(4) {
        0 => canvas.colour.truncate(fewer),
        1 => canvas.cover.truncate(fewer),
        2 => [&mut canvas.colour, &mut canvas.cover].into_iter().for_each(|it| it.truncate(fewer)),
        _ => {
            let (width, height) = rng.pick(&HUGE_SIZES);
            canvas.picture = Picture { width, height, ..canvas.picture };
        }
    }
}
