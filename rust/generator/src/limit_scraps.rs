//! Both sides of the limits of SIDEDEFS in scraps: sectors, bytes, records, and every cut of a small lump.

use crate::limit::Build;
use crate::scraps::{any_lengths, facing, scraps_case, MOST_BYTES};
use crate::Rng;

/// All of them.
pub(crate) fn scraps_limits() -> Vec<Build> {
    let mut all = sector_limits();
    all.extend(byte_limits());
    all.extend(endless_limits());
    all.extend(count_limits());
    all.extend(bad_limits());
    all.extend(cut_limits());
    all
}

/// Counts of sectors inside and outside, over lumps that are good, of a bad sector, cut off, and empty.
fn sector_limits() -> Vec<Build> {
    let counts = [0, 1, 2, 255, 256, 257, 65_534, 65_535, 65_536, 65_537, 65_536 + 256, 1 << 32, (1 << 32) + 1, usize::MAX];
    let mut all: Vec<Build> = Vec::new();
    for sectors in counts {
        for sector in [0, 1, 254, 255, 256, 257, 0xFF00, 65_533, 65_534, 65_535] {
            for size in [0, 1, 29, 30, 31, 60, 89, 90] {
                all.push(Box::new(move || {
                    let mut rng = Rng::new(sector.into());
                    let mut bytes = facing(&[sector, 0, sector], &mut rng);
                    bytes.truncate(size);
                    scraps_case("count of sectors", bytes, sectors, any_lengths(size, &mut rng), 1)
                }));
            }
        }
    }
    all
}

/// So many zeros, and the sector that is not there of a first record.
fn zeros(total: usize, sector: u16) -> Vec<u8> {
    let mut bytes = vec![0; total];
    bytes[28..30].copy_from_slice(&sector.to_le_bytes());
    bytes
}

/// The most bytes, one more, and the whole records on both sides of it: 20 and 21 before, and 81 from there on.
fn byte_limits() -> Vec<Build> {
    let mut all: Vec<Build> = Vec::new();
    for total in [16_777_200, MOST_BYTES - 1, MOST_BYTES, MOST_BYTES + 1, 16_777_230, MOST_BYTES + 4_096] {
        for (lengths, sectors, sector) in [
            (vec![], 1, 0),
            (vec![4_096], 5, 9),
            (vec![1 << 20, 0, 65_535], 0, 0),
            (vec![MOST_BYTES, 0, 1], 5, 4),
            (vec![MOST_BYTES + 1, 7], 65_536, 9),
        ] {
            all.push(Box::new(move || scraps_case("most bytes", zeros(total, sector), sectors, lengths.clone(), 1)));
        }
    }
    all.push(Box::new(|| scraps_case("most bytes", zeros(MOST_BYTES + 2, 3), 3, vec![1], 1)));
    all
}

/// Far more bytes than may come, past 32 bits too, by the same scraps again and again.
fn endless_limits() -> Vec<Build> {
    let mut all: Vec<Build> = Vec::new();
    for (total, times) in [(1 << 20, 16), (1 << 20, 17), (1 << 20, 4_096), (1 << 20, 4_112), (MOST_BYTES, 256), (60, 279_621)] {
        for (lengths, sectors) in [(vec![], 1), (vec![70_000, 0], 1), (vec![70_000], 70_000)] {
            all.push(Box::new(move || scraps_case("endless bytes", zeros(total, 0), sectors, lengths.clone(), times)));
        }
    }
    all
}

/// Few records and the most, with whole ones, one byte less and one more; 21 though a sector is not there.
fn count_limits() -> Vec<Build> {
    let mut all: Vec<Build> = Vec::new();
    for count in [0_usize, 1, 2, 65_534, 65_535, 65_536, 65_537] {
        for spare in [-1, 0, 1] {
            for lengths in [vec![], vec![1], vec![29, 0, 4_067], vec![30 * 65_535]] {
                for bad in [None, Some(65_535)] {
                    let lengths = lengths.clone();
                    all.push(Box::new(move || {
                        let sector = |at| if bad == Some(at) { 9 } else { 0 };
                        let mut bytes = facing(&(0..=count).map(sector).collect::<Vec<_>>(), &mut Rng::new(2));
                        bytes.truncate((30 * count).saturating_add_signed(spare));
                        scraps_case("count of sidedefs", bytes, 3, lengths.clone(), 1)
                    }));
                }
            }
        }
    }
    all
}

/// One bad sector or two, at the first record, in the middle and at the last, in a lump of three and in the longest.
fn bad_limits() -> Vec<Build> {
    let mut all: Vec<Build> = Vec::new();
    for count in [3, 65_535] {
        let places = [0, count / 2, count - 1];
        for first in places {
            for second in places {
                for lengths in [vec![], vec![1], vec![29, 0, 4_067]] {
                    all.push(Box::new(move || {
                        let mut sectors = vec![256; count];
                        (sectors[first], sectors[second]) = (300, 0x0201);
                        let bytes = facing(&sectors, &mut Rng::new(3));
                        scraps_case("bad sectors", bytes, 300, lengths.clone(), 1)
                    }));
                }
            }
        }
    }
    all
}

/// Every cut of two records into two pieces and into three, for sectors of which one byte alone would be good, or bad.
fn cut_limits() -> Vec<Build> {
    let mut all: Vec<Build> = Vec::new();
    for (sectors, facing_sectors) in [(0x0203, [0x0202, 0x0102]), (0x0203, [0x0103, 0x0300]), (0x0203, [0x0301, 0x0203])] {
        let bytes = facing(&facing_sectors, &mut Rng::new(4));
        for first in 0..=60 {
            for second in 0..=60 - first {
                let bytes = bytes.clone();
                all.push(Box::new(move || {
                    let lengths = vec![first, second, usize::MAX];
                    scraps_case("every cut", bytes.clone(), sectors, lengths, 1)
                }));
            }
        }
    }
    all
}
