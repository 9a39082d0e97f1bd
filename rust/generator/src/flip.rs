//! Random bytes, and random flips of good inputs: nothing is known of the answer.

use crate::picture::any_size;
use crate::valid::GOOD_NAMES;
use crate::{any_plan, map_case, Case, Expected, PictureSpec, Question, Rng};

/// Words at which some rule changes.
const EDGES: [u16; 12] = [0, 1, 2, 3, 4, 7, 0x7FFF, 0x8000, 0x8001, 0x8004, 0xFFFE, 0xFFFF];

/// Changes one to four bytes or words.
pub(crate) fn flip(bytes: &mut [u8], rng: &mut Rng) {
    for _ in 0..rng.between(1, 4) {
        if bytes.len() < 2 {
            return;
        }
        let at = rng.below(bytes.len() - 1);
        match rng.below(4) {
            0 => bytes[at] ^= 1 << rng.below(8),
            1 => bytes[at] = rng.byte(),
            2 => bytes[at] = bytes[at].wrapping_add(rng.pick(&[1, 255])),
            _ => {
                let even = at & !1;
                bytes[even..even + 2].copy_from_slice(&rng.pick(&EDGES).to_le_bytes());
            }
        }
    }
}

/// Cuts the end off now and then, or adds to it.
fn resize(bytes: &mut Vec<u8>, rng: &mut Rng) {
    if rng.once_in(12) {
        let length = rng.below(bytes.len() + 8);
        bytes.resize(length, rng.byte());
    }
}

/// The map check of a flipped good file.
pub fn flipped_map_case(rng: &mut Rng) -> Case {
    let (plan, _) = any_plan(rng);
    let mut case = map_case("flipped map", &plan, Expected::Unknown);
    flip(&mut case.bytes, rng);
    resize(&mut case.bytes, rng);
    case
}

/// A flipped good picture.
pub fn flipped_picture_case(rng: &mut Rng) -> Case {
    let (width, height) = any_size(rng);
    let picture = PictureSpec::good(width, height, rng);
    let paint = rng.once_in(2);
    let mut case = picture.case("flipped picture", paint, Expected::Unknown, rng);
    flip(&mut case.bytes, rng);
    resize(&mut case.bytes, rng);
    case
}

/// Random bytes with any question on a file.
pub fn random_file_case(rng: &mut Rng) -> Case {
    let mut bytes = random_bytes(rng);
    let (number, name) = (rng.below(5), rng.pick(&GOOD_NAMES).to_vec());
    if bytes.len() >= 12 && !rng.once_in(8) {
        header(&mut bytes, rng);
    }
    let question = match rng.below(5) {
        0 => Question::Directory,
        1 => Question::Entry { number },
        4 => Question::MapGame { marker: number },
        2 => Question::FindMap { name },
        _ => Question::JudgeMap { name, words: vec![7; rng.below(4)] },
    };
    Case::new("random file", bytes, question, Expected::Unknown)
}

/// A header that is often good, and entries that may be.
fn header(bytes: &mut [u8], rng: &mut Rng) {
    let count = rng.below(bytes.len() / 16 + 2);
    let start = rng.pick(&[12, 12, bytes.len() - 16 * (count.min(bytes.len() / 16)), 11]);
    bytes[..4].copy_from_slice(rng.pick(&[b"IWAD", b"PWAD"]));
    bytes[4..8].copy_from_slice(&(count as i32).to_le_bytes());
    bytes[8..12].copy_from_slice(&(start as i32).to_le_bytes());
    let length = bytes.len();
    for entry in bytes[start.min(length)..].chunks_exact_mut(16).filter(|_| start >= 12) {
        let (offset, size) = (rng.below(length + 4) as i32, rng.below(9) as i32);
        entry[..4].copy_from_slice(&offset.to_le_bytes());
        entry[4..8].copy_from_slice(&size.to_le_bytes());
        entry[8..].copy_from_slice(&rng.pick(&GOOD_NAMES)[..]);
    }
}

/// Random bytes with any question on a lump.
pub fn random_lump_case(rng: &mut Rng) -> Case {
    let mut bytes = random_bytes(rng);
    if bytes.len() >= 4 && rng.once_in(2) {
        bytes[..4].copy_from_slice(&[rng.below(4) as u8, 0, rng.below(9) as u8, 0]);
    }
    let question = match rng.below(4) {
        0 => Question::JudgePicture,
        3 => Question::DrawOrder { subsectors: rng.below(5), x: rng.i16(), y: rng.i16(), words: vec![7; rng.below(9)] },
        1 => Question::PaintPicture { colour: vec![3; 30], cover: vec![5; 31] },
        _ => Question::Descend { subsectors: rng.below(5), x: rng.i16(), y: rng.i16() },
    };
    Case::new("random lump", bytes, question, Expected::Unknown)
}

/// Any bytes, small ones, or zeros; now and then a multiple of 28.
fn random_bytes(rng: &mut Rng) -> Vec<u8> {
    let length = rng.pick(&[0, 7, 8, 11, 12, 13, 27, 28, 56, 84, 100, 150]) + rng.below(3);
    match rng.below(4) {
        0 => vec![0; length],
        1 => (0..length).map(|_| rng.below(20) as u8).collect(),
        _ => rng.bytes(length),
    }
}
