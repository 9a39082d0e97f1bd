//! Every way in which an index can be wrong (W-210).

use crate::index::{Indexed, Named, ENTRY, HEADER};
use crate::name::NAME_CHARACTERS;
use crate::Rng;

/// A way to be wrong. Those of the entries need some that it can be done to, and leave the index right where there are none.
#[derive(Clone, Copy, Debug, PartialEq, Eq)]
pub(crate) enum IndexFault {
    /// A byte too short, or more.
    Short,
    /// Another mark.
    Mark,
    /// Another count, with as many entries as before or as it says.
    Count,
    /// Another length.
    Length,
    /// Another version.
    Version,
    /// Another version, and a mark, count or length that is wrong too.
    VersionAndMore,
    /// A byte behind it, or more.
    Longer,
    /// Two entries exchanged.
    Exchanged,
    /// Two neighbours exchanged.
    Neighbours,
    /// A number that is one off.
    OneOff,
    /// The number of any other entry.
    OtherNumber,
    /// A number that no entry has.
    NoEntry,
    /// Another byte in a name.
    NameByte,
    /// Another name.
    OtherName,
    /// An entry twice, in another's place.
    Twice,
    /// All entries in any order.
    Unsorted,
    /// Sorted by number and not by name.
    ByNumber,
    /// Sorted by name, and the numbers of one name from the last down.
    Descending,
    /// What stands in the directory after a name's zero.
    Rubbish,
    /// Random bytes in place of the entries.
    RandomEntries,
    /// Random bytes in place of all.
    Random,
}

/// All of them.
pub(crate) const FAULTS: [IndexFault; 21] = [
    IndexFault::Short,
    IndexFault::Mark,
    IndexFault::Count,
    IndexFault::Length,
    IndexFault::Version,
    IndexFault::VersionAndMore,
    IndexFault::Longer,
    IndexFault::Exchanged,
    IndexFault::Neighbours,
    IndexFault::OneOff,
    IndexFault::OtherNumber,
    IndexFault::NoEntry,
    IndexFault::NameByte,
    IndexFault::OtherName,
    IndexFault::Twice,
    IndexFault::Unsorted,
    IndexFault::ByNumber,
    IndexFault::Descending,
    IndexFault::Rubbish,
    IndexFault::RandomEntries,
    IndexFault::Random,
];

/// An index that was right.
pub(crate) struct Spoiled {
    pub(crate) index: Vec<u8>,
    /// 82 or 83, or 0 where the header is good and the index long enough.
    pub(crate) header: u32,
    /// The entries that it holds as many of as the file, where the header is good.
    pub(crate) entries: Vec<Named>,
}

impl IndexFault {
    /// The index of a file, made wrong.
    pub(crate) fn spoil(self, file: &Indexed, rng: &mut Rng) -> Spoiled {
        let (mut entries, right) = (file.sorted(), file.index());
        if let Some((index, header)) = self.header(&right, rng) {
            return Spoiled { index, header, entries };
        }
        self.edit(&mut entries, file, rng);
        let mut index = file.with(&entries);
        if self == Self::Longer {
            let more = rng.pick(&[1, 1, 9, 10, 11, 100]);
            index.extend(rng.bytes(more));
        }
        Spoiled { index, header: 0, entries }
    }

    /// A wrong header or length, and the number that it is refused with.
    fn header(self, right: &[u8], rng: &mut Rng) -> Option<(Vec<u8>, u32)> {
        let (mut index, last) = (right.to_vec(), right.len() - 1);
        let (any, bit) = (rng.below(right.len()), 1 << rng.below(8));
        match self {
            Self::Short => index.truncate(rng.pick(&[last, last, any, HEADER - 1, 0])),
            Self::Mark => index[rng.below(3)] ^= bit,
            Self::Count => other_count(&mut index, rng),
            Self::Length => index[7 + rng.below(4)] ^= bit,
            Self::Version => other_version(&mut index, rng),
            Self::VersionAndMore => {
                other_version(&mut index, rng);
                let more = rng.pick(&[Self::Short, Self::Mark, Self::Count, Self::Length]);
                return more.header(&index, rng);
            }
            Self::Random => {
                let length = rng.below(right.len() + 20);
                // The mark is another, or the bytes are too few for one.
                index = rng.bytes(length);
                index.iter_mut().take(1).for_each(|byte| *byte |= 0x80);
            }
            _ => return None,
        }
        Some((index, if self == Self::Version { 83 } else { 82 }))
    }

    fn edit(self, entries: &mut Vec<Named>, file: &Indexed, rng: &mut Rng) {
        let count = entries.len();
        if count == 0 {
            return;
        }
        let (at, other) = (rng.below(count), rng.below(count));
        match self {
            Self::Exchanged => entries.swap(at, other),
            Self::Neighbours => entries.swap(at, at.saturating_sub(1)),
            Self::OneOff => entries[at].1 = entries[at].1.wrapping_add(rng.pick(&[1, 0xFFFF, 256])),
            Self::OtherNumber => entries[at].1 = other as u16,
            Self::NoEntry => entries[at].1 = rng.pick(&[count as u16, count as u16 + 1, 4_096, 0x7FFF, 0xFFFF]).max(count as u16),
            Self::NameByte => entries[at].0[rng.below(8)] = rng.byte(),
            Self::OtherName => entries[at].0 = std::array::from_fn(|_| rng.pick(NAME_CHARACTERS)),
            Self::Twice => entries[at] = entries[other],
            Self::Unsorted => (1..count).for_each(|at| entries.swap(at, rng.below(at + 1))),
            Self::ByNumber => entries.sort_by_key(|entry| entry.1),
            Self::Descending => entries.sort_by_key(|entry| (entry.0, !entry.1)),
            Self::Rubbish => entries.iter_mut().for_each(|entry| entry.0 = file.names[usize::from(entry.1)]),
            Self::RandomEntries => *entries = rng.bytes(ENTRY * count).chunks_exact(ENTRY).map(decoded).collect(),
            _ => {}
        }
    }
}

fn decoded(bytes: &[u8]) -> Named {
    (std::array::from_fn(|at| bytes[at]), u16::from_le_bytes([bytes[8], bytes[9]]))
}

/// A count of one more or less, or with another high byte; of one more there may be an entry more too.
fn other_count(index: &mut Vec<u8>, rng: &mut Rng) {
    let count = u16::from_le_bytes([index[5], index[6]]);
    let other = rng.pick(&[count.wrapping_add(1), count.wrapping_sub(1), count ^ 0x100, !count]);
    index[5..7].copy_from_slice(&other.to_le_bytes());
    if other == count.wrapping_add(1) && rng.once_in(2) {
        index.extend([0xFF; ENTRY]);
    }
}

fn other_version(index: &mut [u8], rng: &mut Rng) {
    let version: u16 = rng.pick(&[0, 2, 0x100, 0x101, 0xFFFF]);
    index[3..5].copy_from_slice(&version.to_le_bytes());
}
