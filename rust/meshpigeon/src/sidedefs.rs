//! SIDEDEFS as it arrives: a small state that is fed scrap by scrap, and judged at the end.

use crate::{raw, Refusal};
use std::io;

/// A SIDEDEFS lump of which some bytes have come.
///
/// It is a [`Write`](io::Write), so that a reader can be copied into it, whatever pieces it gives:
///
/// ```
/// use meshpigeon::{Sidedef, Sidedefs};
///
/// // Three sidedefs, of which the last one names the third sector of two.
/// let mut lump = [0; 3 * Sidedef::SIZE];
/// Sidedef { sector: 1, ..Sidedef::default() }.write(&mut lump, 1).unwrap();
/// Sidedef { sector: 2, ..Sidedef::default() }.write(&mut lump, 2).unwrap();
///
/// let mut sidedefs = Sidedefs::start(2);
/// let mut radio = &lump[..];
/// std::io::copy(&mut radio, &mut sidedefs).unwrap();
/// let refusal = sidedefs.verdict().unwrap_err();
/// assert_eq!((refusal.number, refusal.lump(), refusal.record), (24, Some("SIDEDEFS"), 2));
///
/// // However the bytes are cut, the state is the same; some scraps may be empty.
/// let mut bytewise = Sidedefs::start(2);
/// lump.chunks(1).for_each(|byte| bytewise.feed(byte));
/// bytewise.feed(&[]);
/// assert_eq!(bytewise, sidedefs);
///
/// // Two of them would be good, and none at all would not.
/// let mut two = Sidedefs::start(2);
/// two.feed(&lump[..60]);
/// assert_eq!(two.verdict(), Ok(()));
/// assert_eq!(Sidedefs::start(2).verdict().unwrap_err().number, 21);
/// assert_eq!(Sidedefs::start(0).verdict().unwrap_err().number, 80);
/// ```
///
/// The fields may be read at any time. Any values of them make a state that gets an answer: a scrap changes it as its bytes one by one
/// would, and the verdict is that of the fields.
#[repr(C)]
#[derive(Clone, Copy, Debug, PartialEq, Eq)]
pub struct Sidedefs {
    /// As given at the start.
    pub sectors: usize,
    /// Bytes so far. Above 16,777,216 nothing changes any more, so that from the start it is at most 16,777,217.
    pub bytes: usize,
    /// The first record whose sector is not there; 0 while there is none.
    pub bad: usize,
    /// The low byte of a sector whose high byte has still to come, else 0.
    pub low: u8,
    /// Whether there is a record whose sector is not there.
    pub found: bool,
}

impl Sidedefs {
    /// No bytes yet, of a map with so many sectors.
    pub fn start(sectors: usize) -> Self {
        raw::sidedefs_start(sectors)
    }

    /// Takes the bytes that come next, or none.
    pub fn feed(&mut self, scrap: &[u8]) {
        *self = raw::sidedefs_feed(*self, scrap);
    }

    /// The verdict on all bytes so far: 80, 81, 20, 21, and the first 24, in this order. It is the whole lump's, as the map check has it.
    pub fn verdict(&self) -> Result<(), Refusal> {
        raw::sidedefs_verdict(*self)
    }
}

/// Whatever is written is fed, all of it at once, and never fails.
impl io::Write for Sidedefs {
    fn write(&mut self, scrap: &[u8]) -> io::Result<usize> {
        self.feed(scrap);
        Ok(scrap.len())
    }

    fn flush(&mut self) -> io::Result<()> {
        Ok(())
    }
}
