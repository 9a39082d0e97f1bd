//! SIDEDEFS lumps that come in scraps: records good and bad, sizes, counts of sectors, and cuts of every kind.

use crate::record::any_sidedef;
use crate::{Case, Content, Encode, Expected, MapSpec, Plan, Question, Rng, Sizes, MAP_NAME};
use reader::{Refusal, Sidedef};

/// The bytes in scraps of these lengths in turn, over and over, some of them 0. A round that is begun is ended, with empty scraps, and the first
/// is made in any case. Of no lengths, or none but 0, all bytes come in one piece.
pub fn scraps<'a>(bytes: &'a [u8], lengths: &'a [usize]) -> impl Iterator<Item = &'a [u8]> {
    let (count, stuck) = (lengths.len(), lengths.iter().all(|&length| length == 0));
    let (mut rest, mut turn) = (bytes, 0);
    std::iter::from_fn(move || {
        let ended = turn >= count && (count == 0 || turn % count == 0);
        if rest.is_empty() && ended {
            return None;
        }
        let length = if stuck && ended { rest.len() } else { lengths[turn % count].min(rest.len()) };
        let (scrap, behind) = rest.split_at(length);
        (rest, turn) = (behind, if stuck && ended { turn } else { turn + 1 });
        Some(scrap)
    })
}

/// A SIDEDEFS lump whose records face these sectors, with any other bytes.
pub fn facing(sectors: &[u16], rng: &mut Rng) -> Vec<u8> {
    sectors.iter().flat_map(|&sector| Sidedef { sector, ..any_sidedef(rng) }.encode()).collect()
}

/// A file whose map is good but for its SIDEDEFS, with so many sectors: the map check's verdict on it is the lump's.
pub fn map_around(sidedefs: &[u8], sectors: usize) -> Vec<u8> {
    let mut plan = Plan::new(MapSpec::plain(Sizes { sectors, ..Sizes::LEAST }, &mut Rng::new(1)), MAP_NAME);
    plan.entry_at(Sidedef::PLACE).content = Content::Bytes(sidedefs.to_vec());
    plan.wad()
}

/// The case of a lump, fed so often one after the other, in scraps of these lengths. What must come of it is told from its records' sectors.
pub(crate) fn scraps_case(label: &str, bytes: Vec<u8>, sectors: usize, lengths: Vec<usize>, times: usize) -> Case {
    let total = bytes.len().saturating_mul(times);
    let expected = verdict(sectors, total, first_bad(&bytes, sectors, total));
    Case::new(label, bytes, Question::Sidedefs { sectors, lengths, times }, expected)
}

/// The first record of the lump over and over whose sector is not there. Where it is not looked at, since the bytes are too many or no whole
/// records, there is none.
fn first_bad(bytes: &[u8], sectors: usize, total: usize) -> Option<usize> {
    let whole = total <= MOST_BYTES && total.is_multiple_of(Sidedef::SIZE);
    let byte = |at: usize| usize::from(bytes[at % bytes.len()]);
    let sector = |record: &usize| byte(30 * record + 28) + 256 * byte(30 * record + 29);
    (0..if whole { total / 30 } else { 0 }).find(|record| sector(record) >= sectors)
}

/// The most bytes that may come.
pub(crate) const MOST_BYTES: usize = 16_777_216;

/// What is answered for so many sectors and bytes, and a first record whose sector is not there.
fn verdict(sectors: usize, bytes: usize, bad: Option<usize>) -> Expected {
    let refused = |number, place, record| Expected::Refused(Refusal::new(number, place, record));
    match (sectors, bytes, bad) {
        (0 | 65_536.., _, _) => refused(80, 0, 0),
        (_, 16_777_217.., _) => refused(81, 0, 0),
        _ if !bytes.is_multiple_of(30) => refused(20, 3, 0),
        (_, 0 | 1_966_080.., _) => refused(21, 3, 0),
        (_, _, Some(record)) => refused(24, 3, record),
        _ => Expected::Accepted,
    }
}

/// A small lump in scraps, good or bad.
pub fn sidedefs_case(rng: &mut Rng) -> Case {
    let sectors = any_sectors(rng);
    let count = if rng.once_in(40) { rng.between(100, 900) } else { rng.below(9) };
    let good = rng.once_in(2);
    let most = sectors.clamp(1, 65_536);
    let mut facing_any = || if good || rng.once_in(2) { rng.below(most) as u16 } else { near(sectors, rng) };
    let facing_sectors: Vec<u16> = (0..count).map(|_| facing_any()).collect();
    let mut bytes = facing(&facing_sectors, rng);
    if rng.once_in(4) {
        let more = rng.between(1, 59);
        bytes.extend(rng.bytes(more));
    } else if rng.once_in(4) {
        bytes.truncate(bytes.len().saturating_sub(rng.between(1, 59)));
    }
    let times = if rng.once_in(10) { rng.between(2, 31) } else { 1 };
    let lengths = any_lengths(bytes.len(), rng);
    scraps_case("sidedefs in scraps", bytes, sectors, lengths, times)
}

/// Counts of sectors, mostly those that a map may have, and with low bytes at both ends.
fn any_sectors(rng: &mut Rng) -> usize {
    let any = rng.between(1, 65_535);
    match rng.below(12) {
        0 => rng.pick(&[0, 65_536, 65_537, 1 << 32, (1 << 32) + 1, usize::MAX]),
        1 => rng.pick(&[65_534, 65_535]),
        2..=4 => any,
        5 | 6 => rng.pick(&[254, 255, 256, 257, 258, 511, 512, 513]),
        _ => rng.between(1, 9),
    }
}

/// A sector at the count of sectors, with one byte of it, or any.
fn near(sectors: usize, rng: &mut Rng) -> u16 {
    let at = sectors as u16;
    let any = rng.u16();
    let [low, high] = at.to_le_bytes();
    rng.pick(&[at, at, at.wrapping_sub(1), at.wrapping_add(1), low.into(), u16::from(high) << 8, at ^ 0x100, 65_535, any])
}

/// Lengths of scraps: one piece, bytes, records, near them, with empty ones between, or any.
pub(crate) fn any_lengths(total: usize, rng: &mut Rng) -> Vec<usize> {
    let any = |rng: &mut Rng, most: usize| (0..rng.between(1, 9)).map(|_| rng.below(most)).collect();
    match rng.below(10) {
        0 => Vec::new(),
        1 => vec![1],
        2 => vec![0, 1, 0],
        3 => vec![rng.pick(&[2, 7, 28, 29, 30, 31, 58, 59, 60, 61])],
        4 => vec![29, 0, 1],
        5 => vec![rng.below(total + 1), 0, usize::MAX],
        6 => vec![rng.between(0, 59), 30],
        7 => any(rng, 4),
        8 => any(rng, total + 2),
        _ => any(rng, 70),
    }
}

#[cfg(test)]
mod tests {
    use super::*;

    fn cut(bytes: &[u8], lengths: &[usize]) -> Vec<Vec<u8>> {
        scraps(bytes, lengths).map(<[u8]>::to_vec).collect()
    }

    #[test]
    fn scraps_have_their_lengths_in_turn() {
        assert_eq!(cut(&[1, 2, 3, 4], &[1, 0, 2]), [vec![1], vec![], vec![2, 3], vec![4], vec![], vec![]]);
        assert_eq!(cut(&[1, 2, 3], &[]), [[1, 2, 3]]);
        assert_eq!(cut(&[1, 2, 3], &[0, 0]), [vec![], vec![], vec![1, 2, 3]]);
        assert_eq!(cut(&[1, 2], &[usize::MAX, 0]), [vec![1, 2], vec![]]);
        assert_eq!(cut(&[], &[]), Vec::<Vec<u8>>::new());
        assert_eq!(cut(&[], &[3, 0]), [vec![], vec![]]);
    }

    #[test]
    fn scraps_are_the_bytes() {
        let mut rng = Rng::new(11);
        for _ in 0..2_000 {
            let count = rng.below(200);
            let bytes = rng.bytes(count);
            let lengths = any_lengths(count, &mut rng);
            assert_eq!(cut(&bytes, &lengths).concat(), bytes, "{lengths:?}");
        }
    }
}
