//! Pictures whose columns share as many posts of length 0 as a lump can hold.

use crate::{PictureSpec, Post, Rng};

/// 320 columns that share about four million empty posts.
pub fn hostile_picture() -> Vec<u8> {
    hostile_picture_of(4_000_000)
}

/// 320 columns that share `posts` empty posts.
pub fn hostile_picture_of(posts: usize) -> Vec<u8> {
    let mut picture = PictureSpec::blank(320, 200);
    picture.data = vec![0; 4 * posts];
    picture.data.push(255);
    picture.encode()
}

/// The same with columns that begin up to three bytes further: four rows of posts, each shared by every fourth column.
pub fn staggered_picture_of(posts: usize) -> Vec<u8> {
    let mut picture = PictureSpec::blank(320, 200);
    (0..).zip(&mut picture.offsets).for_each(|(column, offset)| *offset += column % 4);
    // whatever is read here, a post of length 0 or 1 leads to an end byte
    picture.data = [vec![0; 4 * posts], vec![1, 0, 0, 0], vec![255; 8]].concat();
    picture.encode()
}

/// The same with a post of one pixel in each row, between two runs of empty posts.
pub fn busy_picture_of(posts: usize) -> Vec<u8> {
    let mut picture = PictureSpec::blank(320, 200);
    picture.data.clear();
    for start in 0..200 {
        let (empty, ignored) = ([start, 0, 0, 0].repeat(posts / 200), [0, 0]);
        picture.data.extend(empty);
        picture.data.extend(Post { start, pixels: vec![start], ignored }.encode());
    }
    picture.data.push(255);
    picture.encode()
}

/// The same with a last column that begins one byte further, and whose last post ends in row 201: it is refused 54.
pub fn badly_ended_picture_of(posts: usize) -> Vec<u8> {
    let mut picture = PictureSpec::blank(320, 200);
    picture.offsets[319] += 1;
    picture.data = [vec![0; 4 * posts], vec![0, 0, 201, 0], vec![0; 400], vec![255]].concat();
    picture.encode()
}

/// Up to 40 columns that share up to three runs of empty posts at rising rows, with posts of some pixels between. Each column
/// begins at one of the posts; in every other picture some begin at any byte.
pub fn shared_runs(rng: &mut Rng) -> Vec<u8> {
    let mut picture = PictureSpec::blank(1 + rng.below(40) as u16, 200);
    let (mut posts, mut row) = (Vec::new(), 0);
    for _ in 0..rng.between(1, 3) {
        let empty = Post { start: row, pixels: Vec::new(), ignored: [rng.byte(), rng.byte()] };
        posts.extend(vec![empty; rng.below(9_000)]);
        let count = rng.below(6);
        posts.push(Post { start: row, pixels: rng.bytes(count), ignored: [rng.byte(), rng.byte()] });
        row += (count + rng.below(2)) as u8;
    }
    picture.data.clear();
    let starts = picture.give_column(0, &posts);
    picture.data.extend([255; 4]);
    let astray = rng.once_in(2);
    for offset in &mut picture.offsets {
        let any = starts[0] + rng.below(picture.data.len()) as u32;
        *offset = if astray && rng.once_in(8) { any } else { rng.pick(&starts) };
    }
    picture.encode()
}
