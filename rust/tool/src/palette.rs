//! Palettes: the 256 colours that a picture's bytes stand for.

use crate::report::Report;
use crate::wad::Wad;
use std::ffi::OsStr;

/// The lump of palettes, the first of which counts: red, green and blue for each of 256 colours.
pub const PLAYPAL: &[u8; 8] = b"PLAYPAL\0";
const COLOURS: usize = 256;

/// Red, green and blue of each colour.
pub struct Palette([[u8; 3]; COLOURS]);

impl Palette {
    /// Each byte stands for the grey of that brightness: what is taken where there is no palette.
    pub fn greys() -> Self {
        Self(std::array::from_fn(|grey| [grey as u8; 3]))
    }

    /// The first palette of a PLAYPAL, if it is whole.
    pub fn of(lump: &[u8]) -> Option<Self> {
        let colours = lump.get(..3 * COLOURS)?;
        Some(Self(std::array::from_fn(|at| std::array::from_fn(|part| colours[3 * at + part]))))
    }

    /// The palette of the last PLAYPAL of a file. If there is none, that is told.
    pub fn open(file: &OsStr, report: &mut Report) -> Option<Self> {
        let wad = Wad::open(file).map_err(|fault| report.fault(file, fault.cutting("PLAYPAL"))).ok()?;
        let palette = wad.last(PLAYPAL).and_then(|number| Self::of(wad.lump(number)));
        if palette.is_none() {
            report.trouble(file, "there is no lump PLAYPAL with a whole palette, 768 bytes or more");
        }
        palette
    }

    /// What a byte stands for.
    pub fn colour(&self, byte: u8) -> [u8; 3] {
        self.0[usize::from(byte)]
    }

    /// The byte of the nearest colour: the least sum of the squares of the three differences, and of equal ones the lowest byte.
    pub fn nearest(&self, wanted: [u8; 3]) -> u8 {
        let distance = |colour: &[u8; 3]| -> u32 {
            colour.iter().zip(wanted).map(|(&part, wanted)| u32::from(part.abs_diff(wanted)).pow(2)).sum()
        };
        (0..=255).min_by_key(|&byte| distance(&self.0[usize::from(byte)])).unwrap_or(0)
    }
}

#[cfg(test)]
mod tests {
    use super::*;

    #[test]
    fn every_grey_is_its_own_nearest() {
        let greys = Palette::greys();
        assert!((0..=255).all(|grey| greys.nearest([grey; 3]) == grey && greys.colour(grey) == [grey; 3]));
        assert_eq!(greys.nearest([255, 0, 0]), 85);
    }

    #[test]
    fn of_equal_distances_the_lowest_byte_counts() {
        let mut lump = vec![0; 768];
        lump[3 * 7..][..3].copy_from_slice(&[10, 10, 10]);
        lump[3 * 9..][..3].copy_from_slice(&[10, 10, 10]);
        lump[3 * 200..][..3].copy_from_slice(&[14, 10, 10]);
        let palette = Palette::of(&lump).expect("768 bytes");
        assert_eq!([[10, 10, 10], [12, 10, 10], [13, 10, 10], [1, 2, 3]].map(|it| palette.nearest(it)), [7, 7, 200, 0]);
        assert!(Palette::of(&lump[1..]).is_none());
    }

    #[test]
    fn distances_far_apart_do_not_wrap() {
        let mut lump = vec![255; 768];
        lump[3 * 255..].copy_from_slice(&[0, 0, 1]);
        assert_eq!(Palette::of(&lump).expect("768 bytes").nearest([0, 0, 0]), 255);
    }
}
