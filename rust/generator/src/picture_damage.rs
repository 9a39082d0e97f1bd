//! Minimal damages of a picture (50 to 55), alone and in pairs.

use crate::order::order_of;
use crate::picture::{any_size, good_posts, PictureSpec, Post};
use crate::{Case, Expected, Rng};
use reader::Refusal;

/// One way to spoil a good picture, in a given column where it is about one.
#[derive(Clone, Copy)]
pub struct PictureDamage {
    /// The refusal number it brings about.
    pub number: u32,
    /// What is wrong, in words.
    pub label: &'static str,
    /// Whether it leaves the last column of the data open.
    open: bool,
    apply: fn(&mut PictureSpec, usize, &mut Rng),
}

const fn damage(number: u32, label: &'static str, apply: fn(&mut PictureSpec, usize, &mut Rng)) -> PictureDamage {
    PictureDamage { number, label, open: false, apply }
}

const fn open(label: &'static str, apply: fn(&mut PictureSpec, usize, &mut Rng)) -> PictureDamage {
    PictureDamage { number: 53, label, open: true, apply }
}

/// All of them.
pub const PICTURE_DAMAGES: &[PictureDamage] = &[
    damage(50, "lump under 8 bytes", |picture, _, rng| picture.cut = Some(rng.below(8))),
    damage(51, "width", |picture, _, rng| picture.width = rng.pick(&[0, 321, 0x8001, 0xFFFF])),
    damage(51, "height", |picture, _, rng| picture.height = rng.pick(&[0, 201, 256, 0xFFFF])),
    damage(52, "offset table past the end", |picture, _, rng| {
        let table_end = 8 + 4 * picture.offsets.len();
        picture.cut = Some(rng.pick(&[table_end - 1, 8, table_end - 4]));
    }),
    damage(55, "colour too short", |picture, _, rng| picture.spare[0] = rng.pick(&[-1, -9999])),
    damage(55, "cover too short", |picture, _, rng| picture.spare[1] = rng.pick(&[-1, -9999])),
    damage(54, "post past the height", |picture, column, rng| {
        let length = rng.pick(&[0, 1, 3]);
        let start = (usize::from(picture.height) + 1).saturating_sub(length) as u8;
        give(picture, column, &[post(start, length)]);
    }),
    damage(54, "post far past the height", |picture, column, _| {
        give(picture, column, &[post(254, 0)]);
    }),
    damage(54, "post over the one before", |picture, column, rng| {
        let end = rng.between(1, usize::from(picture.height));
        let start = rng.below(end) as u8;
        give(picture, column, &[post(0, end), post(start, 0)]);
    }),
    damage(54, "late post over the one before", |picture, column, rng| {
        let height = picture.height;
        let mut posts = good_posts(height, rng);
        posts.extend([post(height as u8, 0), post(height as u8 - 1, 1)]);
        give(picture, column, &posts);
    }),
    damage(53, "column offset too low", |picture, column, rng| {
        let table_end = 8 + 4 * picture.offsets.len() as u32;
        picture.offsets[column] = rng.pick(&[table_end - 1, 0, 8]);
    }),
    damage(53, "column offset far past the end", |picture, column, rng| {
        picture.offsets[column] = rng.pick(&[u32::MAX, 1 << 31, u32::MAX - 3, 1 << 24]);
    }),
    open("column offset at the end", |picture, column, _| picture.offsets[column] = picture.end()),
    open("column without its end", |picture, column, rng| {
        let posts = good_posts(picture.height, rng);
        picture.give_column(column, &posts);
    }),
    open("post cut short", |picture, column, rng| {
        let bytes = post(0, usize::from(picture.height)).encode();
        picture.give_column(column, &[]);
        picture.data.extend(&bytes[..rng.between(1, bytes.len() - 1)]);
    }),
    open("post cut short and past the height", |picture, column, rng| {
        let bytes = post(254, 4).encode();
        picture.give_column(column, &[]);
        picture.data.extend(&bytes[..rng.between(1, bytes.len() - 1)]);
    }),
];

fn post(start: u8, length: usize) -> Post {
    Post { start, pixels: vec![7; length], ignored: [0, 255] }
}

/// A whole column with its end byte.
fn give(picture: &mut PictureSpec, column: usize, posts: &[Post]) {
    picture.give_column(column, posts);
    picture.data.push(255);
}

/// A picture with the given damages, the later ones of 01's order applied first, in columns of
/// their own; at most one of them may be open.
fn spoilt(picture: &mut PictureSpec, chosen: &[PictureDamage], rng: &mut Rng) -> Refusal {
    let mut chosen = chosen.to_vec();
    chosen.sort_by_key(|damage| (damage.number < 53, damage.open, std::cmp::Reverse(damage.number)));
    let first = rng.below(picture.offsets.len());
    let mut refusals = Vec::new();
    for (turn, damage) in chosen.iter().enumerate() {
        let column = (first + turn) % picture.offsets.len();
        (damage.apply)(picture, column, rng);
        let record = if matches!(damage.number, 53 | 54) { column } else { 0 };
        refusals.push(Refusal::new(damage.number, 0, record));
    }
    *refusals.iter().min_by_key(|refusal| order_of(refusal)).expect("a damage")
}

/// A picture with one damage, or with two of them.
pub fn damaged_picture_case(rng: &mut Rng) -> Case {
    let one = rng.pick(PICTURE_DAMAGES);
    let two = rng.pick(PICTURE_DAMAGES);
    let both = !(one.open && two.open) && rng.once_in(2);
    picture_damage_case(if both { vec![one, two] } else { vec![one] }, rng)
}

/// A picture with the given damages; at most one of them may be open.
pub fn picture_damage_case(chosen: Vec<PictureDamage>, rng: &mut Rng) -> Case {
    let (width, height) = any_size(rng);
    let mut picture = PictureSpec::good(width.max(2), height, rng);
    let refusal = spoilt(&mut picture, &chosen, rng);
    let paint = chosen.iter().any(|damage| damage.number == 55) || rng.once_in(2);
    let labels: Vec<&str> = chosen.iter().map(|damage| damage.label).collect();
    picture.case(&labels.join(" + "), paint, Expected::Refused(refusal), rng)
}

/// All single damages and all pairs, one case each.
pub fn all_picture_damages(seed: u64) -> Vec<Case> {
    let mut rng = Rng::new(seed);
    let mut cases = Vec::new();
    for (index, one) in PICTURE_DAMAGES.iter().enumerate() {
        cases.push(picture_damage_case(vec![*one], &mut rng));
        for two in PICTURE_DAMAGES[index..].iter().filter(|two| !(one.open && two.open)) {
            cases.push(picture_damage_case(vec![*one, *two], &mut rng));
        }
    }
    cases
}
