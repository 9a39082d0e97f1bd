//! Pictures: columns of posts, judged whole, then painted; and written from their pixels.

use crate::bytes::{i16_at, u16_at, u32_at};
use crate::Refusal;

const HEADER_SIZE: usize = 8;
const OFFSET_SIZE: usize = 4;
const MOST_WIDTH: usize = 320;
const MOST_HEIGHT: usize = 200;
const COLUMN_END: u8 = 255;

/// A picture's header.
#[derive(Clone, Copy, Debug, PartialEq, Eq)]
pub struct Picture {
    /// Columns, 1 to 320.
    pub width: usize,
    /// Rows, 1 to 200.
    pub height: usize,
    /// Left offset.
    pub left: i16,
    /// Top offset.
    pub top: i16,
}

/// Judges a picture: refusals 50 to 54.
pub fn judge_picture(lump: &[u8]) -> Result<Picture, Refusal> {
    let picture = header(lump)?;
    for column in 0..picture.width {
        walk_column(lump, &picture, column, |_, _| ())?;
    }
    Ok(picture)
}

/// Paints a picture row by row from the top: refusals 50, 51, 52, 55, 53, 54.
///
/// The first width × height bytes of both buffers are written: `cover` with 1 where a post
/// paints and 0 elsewhere, `colour` with the pixel or 0. A refusal leaves both as found.
pub fn paint_picture(lump: &[u8], colour: &mut [u8], cover: &mut [u8]) -> Result<Picture, Refusal> {
    let picture = header(lump)?;
    let area = picture.width * picture.height;
    if colour.len() < area || cover.len() < area {
        return Err(Refusal::plain(55));
    }
    let canvas = canvas_of(lump, &picture)?;
    for ((pixel, colour), cover) in canvas.iter().zip(colour).zip(cover) {
        *colour = pixel.unwrap_or(0);
        *cover = u8::from(pixel.is_some());
    }
    Ok(picture)
}

/// Refusals 50, 51 and 52.
fn header(lump: &[u8]) -> Result<Picture, Refusal> {
    if lump.len() < HEADER_SIZE {
        return Err(Refusal::plain(50));
    }
    let (width, height) = (usize::from(u16_at(lump, 0)), usize::from(u16_at(lump, 2)));
    if !size_ok(width, height) {
        return Err(Refusal::plain(51));
    }
    if lump.len() < table_end(width) {
        return Err(Refusal::plain(52));
    }
    Ok(Picture { width, height, left: i16_at(lump, 4), top: i16_at(lump, 6) })
}

fn size_ok(width: usize, height: usize) -> bool {
    (1..=MOST_WIDTH).contains(&width) && (1..=MOST_HEIGHT).contains(&height)
}

fn table_end(width: usize) -> usize {
    HEADER_SIZE + OFFSET_SIZE * width
}

/// All pixels row by row, `None` where no post paints.
fn canvas_of(lump: &[u8], picture: &Picture) -> Result<Vec<Option<u8>>, Refusal> {
    let mut canvas = vec![None; picture.width * picture.height];
    for column in 0..picture.width {
        walk_column(lump, picture, column, |row, pixels| {
            for (row, &pixel) in (row..).zip(pixels) {
                canvas[row * picture.width + column] = Some(pixel);
            }
        })?;
    }
    Ok(canvas)
}

/// Judges one column and hands each of its posts on, start row and pixels: refusals 53 and 54.
fn walk_column(lump: &[u8], picture: &Picture, column: usize, mut post: impl FnMut(usize, &[u8])) -> Result<(), Refusal> {
    let outside = Refusal::new(53, 0, column);
    let mut at = u32_at(lump, HEADER_SIZE + OFFSET_SIZE * column) as usize;
    if at < table_end(picture.width) {
        return Err(outside);
    }
    let mut least_row = 0;
    loop {
        let start = *lump.get(at).ok_or(outside)?;
        if start == COLUMN_END {
            return Ok(());
        }
        let (row, pixels) = (usize::from(start), pixels_at(lump, at).ok_or(outside)?);
        let end_row = row + pixels.len();
        if row < least_row || end_row > picture.height {
            return Err(Refusal::new(54, 0, column));
        }
        post(row, pixels);
        least_row = end_row;
        at += 4 + pixels.len();
    }
}

/// The pixels of the post at `at`, if they and both ignored bytes lie inside.
fn pixels_at(lump: &[u8], at: usize) -> Option<&[u8]> {
    let length = usize::from(*lump.get(at + 1)?);
    let with_last_byte = lump.get(at + 3..at + 4 + length)?;
    Some(&with_last_byte[..length])
}

/// Writes a picture from its pixels, row by row from the top, and answers the lump's length: refusals 55, 56, 57, 58 in this order.
///
/// `cover` has 1 where a pixel is painted and 0 elsewhere. The columns stand in order behind the offsets and share nothing, each
/// unbroken run of covered pixels is a post, and the ignored bytes are 0. What `out` holds behind the lump stays as found; a refusal
/// writes nothing.
pub fn write_picture(picture: Picture, colour: &[u8], cover: &[u8], out: &mut [u8]) -> Result<usize, Refusal> {
    let Picture { width, height, .. } = picture;
    let pixels = width.checked_mul(height).and_then(|area| Some((colour.get(..area)?, cover.get(..area)?)));
    let Some((colour, cover)) = pixels else { return Err(Refusal::plain(55)) };
    if !size_ok(width, height) {
        return Err(Refusal::plain(56));
    }
    if cover.iter().any(|&covered| covered > 1) {
        return Err(Refusal::plain(57));
    }
    let length = table_end(width) + columns_size(cover, width);
    let Some(lump) = out.get_mut(..length) else { return Err(Refusal::plain(58)) };
    write_header(picture, lump);
    let mut at = table_end(width);
    for column in 0..width {
        lump[HEADER_SIZE + OFFSET_SIZE * column..][..OFFSET_SIZE].copy_from_slice(&(at as u32).to_le_bytes());
        at = write_column(&colour[column..], &cover[column..], width, lump, at);
    }
    Ok(length)
}

/// Bytes of all columns: an end byte for each, four for each post, and the covered pixels. A post begins where a pixel is covered,
/// and the one above it is not or is not there.
fn columns_size(cover: &[u8], width: usize) -> usize {
    let covered = |pixels: &[u8]| pixels.iter().filter(|&&covered| covered == 1).count();
    let below_open = cover.iter().zip(&cover[width..]).filter(|(above, below)| above < below).count();
    width + 4 * (covered(&cover[..width]) + below_open) + covered(cover)
}

fn write_header(Picture { width, height, left, top }: Picture, lump: &mut [u8]) {
    let words = [width as u16, height as u16, left as u16, top as u16];
    for (place, word) in lump.chunks_exact_mut(2).zip(words) {
        place.copy_from_slice(&word.to_le_bytes());
    }
}

/// Writes a column's posts and its end byte from `at` on, and answers where the next column begins. Its pixels are the first of
/// each `width`.
fn write_column(colour: &[u8], cover: &[u8], width: usize, lump: &mut [u8], mut at: usize) -> usize {
    let (height, mut row) = (cover.len().div_ceil(width), 0);
    while row < height {
        let length = (row..height).take_while(|row| cover[row * width] == 1).count();
        if length > 0 {
            lump[at..at + 3].copy_from_slice(&[row as u8, length as u8, 0]);
            for (place, row) in lump[at + 3..at + 3 + length].iter_mut().zip(row..) {
                *place = colour[row * width];
            }
            lump[at + 3 + length] = 0;
            at += 4 + length;
        }
        row += length + 1;
    }
    lump[at] = COLUMN_END;
    at + 1
}
