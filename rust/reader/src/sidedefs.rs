//! SIDEDEFS by itself: as a whole lump, and as it arrives in scraps (W-209).

use crate::bytes::u16_at;
use crate::{map, reference, Refusal, Sidedef};

/// The most bytes that may come.
const MOST_BYTES: usize = 16_777_216;
/// The most sectors, and the most sidedefs.
const MOST: usize = 65_535;
/// Where a record's sector stands.
const SECTOR: usize = 28;

/// Judges a whole SIDEDEFS lump by the map check's rules, over a count of sectors: 80, 81, 20, 21, and the first 24.
pub fn judge_sidedefs(lump: &[u8], sectors: usize) -> Result<(), Refusal> {
    if !(1..=MOST).contains(&sectors) {
        return Err(Refusal::plain(80));
    }
    if lump.len() > MOST_BYTES {
        return Err(Refusal::plain(81));
    }
    map::judge_size(lump, Sidedef::PLACE, false)?;
    reference::judge_sidedefs(lump, sectors)
}

/// A SIDEDEFS lump of which some bytes have come.
#[derive(Clone, Copy, Debug, PartialEq, Eq)]
pub struct Sidedefs {
    sectors: usize,
    /// How many bytes have come, or the largest number there is.
    bytes: usize,
    /// The low byte of the last sector, where its high byte has not come yet.
    low: u8,
    /// The first record whose sector is not there.
    bad: Option<usize>,
}

impl Sidedefs {
    /// No bytes yet, of a map with so many sectors.
    pub fn start(sectors: usize) -> Self {
        Self { sectors, bytes: 0, low: 0, bad: None }
    }

    /// Takes the bytes that come next, or none.
    pub fn feed(&mut self, scrap: &[u8]) {
        if self.bad.is_none() && self.bytes <= MOST_BYTES {
            self.bad = self.look(scrap);
        }
        self.bytes = self.bytes.saturating_add(scrap.len());
    }

    /// The verdict on what has come, as if that were all: 80, 81, 20, 21, and the first 24.
    pub fn verdict(&self) -> Result<(), Refusal> {
        let of_lump = |number, record| Err(Refusal::new(number, Sidedef::PLACE, record));
        if !(1..=MOST).contains(&self.sectors) {
            Err(Refusal::plain(80))
        } else if self.bytes > MOST_BYTES {
            Err(Refusal::plain(81))
        } else if !self.bytes.is_multiple_of(Sidedef::SIZE) {
            of_lump(20, 0)
        } else if !(1..=MOST).contains(&(self.bytes / Sidedef::SIZE)) {
            of_lump(21, 0)
        } else {
            self.bad.map_or(Ok(()), |record| of_lump(24, record))
        }
    }

    /// The first record whose sector ends in this scrap and is not there. A low byte at the scrap's end is kept.
    fn look(&mut self, scrap: &[u8]) -> Option<usize> {
        let (mut record, at) = (self.bytes / Sidedef::SIZE, self.bytes % Sidedef::SIZE);
        let mut skipped = SECTOR.wrapping_sub(at);
        if at > SECTOR {
            if self.is_bad(u16::from_le_bytes([self.low, *scrap.first()?])) {
                return Some(record);
            }
            (record, skipped) = (record + 1, SECTOR + 1);
        }
        let sectors = scrap.get(skipped..)?;
        let bad = sectors.chunks(Sidedef::SIZE).position(|it| it.len() > 1 && self.is_bad(u16_at(it, 0)));
        if sectors.len() % Sidedef::SIZE == 1 {
            self.low = sectors[sectors.len() - 1];
        }
        bad.map(|more| record + more)
    }

    fn is_bad(&self, sector: u16) -> bool {
        usize::from(sector) >= self.sectors
    }
}
