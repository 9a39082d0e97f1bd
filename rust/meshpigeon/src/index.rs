//! An index of a file's names beside the file: building it, checking it, and looking a name up in it.

use crate::{raw, Refusal, MOST_INDEX, MOST_INDEXED};

/// A name and an entry's number, as an index is sorted from.
#[repr(C)]
#[derive(Clone, Copy, Debug, Default, PartialEq, Eq)]
pub struct IndexRecord {
    /// The name in eight bytes, with zeros after its first zero.
    pub name: [u8; 8],
    /// The entry's number.
    pub number: u16,
}

/// What a lookup through an index answers.
#[derive(Clone, Copy, Debug, PartialEq, Eq)]
pub struct IndexSearch {
    /// The entry's number, or the refusal: 1 to 6, 82, 83, 11.
    pub entry: Result<usize, Refusal>,
    /// How many names of the index were compared, at most 13, with 11 too. With any other refusal, and for a name that is not eight bytes,
    /// it is 0.
    pub compared: usize,
}

/// The index of a file, with records and room of its own: 1 to 6.
///
/// The mark `WIX`, the version 1 and the count of entries in 16 bits, the file's length in 32; then for each entry ten bytes, its name in eight with
/// zeros after the first zero, and its number in 16 bits. They are sorted by the eight bytes, and those of one name by their number.
///
/// ```
/// # let entry = |name: &[u8; 8]| [&[0; 8][..], name].concat();
/// use meshpigeon::{index_build, index_check, index_find};
///
/// let names = [b"SKY1\0\0\0\0", b"DEMO1\0zz", b"SKY1\0old"];
/// # let directory: Vec<u8> = names.into_iter().flat_map(entry).collect();
/// # let wad = [&b"PWAD\x03\0\0\0\x0C\0\0\0"[..], &directory].concat();
/// let index = index_build(&wad).unwrap();
/// assert_eq!(index[..11], *b"WIX\x01\0\x03\0\x3C\0\0\0");
/// assert_eq!(index[11..], *b"DEMO1\0\0\0\x01\0SKY1\0\0\0\0\0\0SKY1\0\0\0\0\x02\0");
/// assert_eq!(index_check(&wad, &index), Ok(()));
///
/// // Of several entries of a name the last one counts.
/// let search = index_find(&wad, &index, b"SKY1\0\0\0\0");
/// assert_eq!((search.entry, search.compared), (Ok(2), 2));
/// let search = index_find(&wad, &index, b"SKY2\0\0\0\0");
/// assert_eq!((search.entry.unwrap_err().number, search.compared), (11, 2));
/// ```
pub fn index_build(wad: &[u8]) -> Result<Vec<u8>, Refusal> {
    let mut out = vec![0; MOST_INDEX];
    let length = index_build_with(wad, &mut vec![IndexRecord::default(); MOST_INDEXED], &mut out)?;
    out.truncate(length);
    Ok(out)
}

/// The same over lent records, one for each entry, and into a lent output, and answers how many bytes were written: 86 where either is too
/// short, after 1 to 6.
///
/// Afterwards the first records are the sorted entries. Later ones, and the bytes behind the index, stay as found, and a refusal changes nothing.
///
/// ```
/// # let entry = |name: &[u8; 8]| [&[0; 8][..], name].concat();
/// use meshpigeon::{index_build_with, IndexRecord};
///
/// let names = [b"SKY1\0old", b"DEMO1\0\0\0"];
/// # let directory: Vec<u8> = names.into_iter().flat_map(entry).collect();
/// # let wad = [&b"PWAD\x02\0\0\0\x0C\0\0\0"[..], &directory].concat();
/// let (mut records, mut out) = ([IndexRecord::default(); 3], [7; 32]);
/// assert_eq!(index_build_with(&wad, &mut records, &mut out), Ok(31));
/// assert_eq!(records[0], IndexRecord { name: *b"DEMO1\0\0\0", number: 1 });
/// assert_eq!(records[1], IndexRecord { name: *b"SKY1\0\0\0\0", number: 0 });
/// assert_eq!((records[2], out[31]), (IndexRecord::default(), 7));
///
/// assert_eq!(index_build_with(&wad, &mut records[..1], &mut out).unwrap_err().number, 86);
/// assert_eq!(index_build_with(&wad, &mut records, &mut out[..30]).unwrap_err().number, 86);
/// ```
pub fn index_build_with(wad: &[u8], records: &mut [IndexRecord], out: &mut [u8]) -> Result<usize, Refusal> {
    raw::index_build(wad, records, out).map(|answer| answer.length)
}

/// Whether these bytes are the index of that file, which is the only one that is accepted: 1 to 6; 82 where it is too short, or its mark, count
/// or length is not the file's; 83 for another version; 84 for any other difference.
///
/// ```
/// use meshpigeon::index_check;
///
/// let (empty, index) = (b"PWAD\0\0\0\0\x0C\0\0\0", b"WIX\x01\0\0\0\x0C\0\0\0");
/// let number = |index: &[u8]| index_check(empty, index).unwrap_err().number;
/// assert_eq!(index_check(empty, index), Ok(()));
/// assert_eq!(number(b"WIX\x01\0\x01\0\x0C\0\0\0"), 82);
/// assert_eq!(number(b"WIX\x02\0\0\0\x0C\0\0\0"), 83);
/// assert_eq!(number(b"WIX\x01\0\0\0\x0C\0\0\0more"), 84);
/// ```
pub fn index_check(wad: &[u8], index: &[u8]) -> Result<(), Refusal> {
    raw::index_check(wad, index)
}

/// The last entry of a name, through an index, by the name in eight bytes: 1 to 6, 82 and 83 of [`index_check`], then 11. The name is cut at
/// its zero and not judged: one that no entry has is 11, and so are the empty one and another count of bytes.
///
/// Names are compared by halves, at most 13 of them whatever the index holds. Only the file's own index is sure to lead to the last entry of a name;
/// any other may miss it or lead to an earlier one, but never to an entry of another name.
///
/// ```
/// # let entry = |name: &[u8; 8]| [&[0; 8][..], name].concat();
/// use meshpigeon::{index_build, index_find};
///
/// let names = [b"SKY1\0\0\0\0", b"SKY2\0\0\0\0"];
/// # let directory: Vec<u8> = names.into_iter().flat_map(entry).collect();
/// # let wad = [&b"PWAD\x02\0\0\0\x0C\0\0\0"[..], &directory].concat();
/// let mut index = index_build(&wad).unwrap();
/// assert_eq!(index_find(&wad, &index, b"SKY1\0any").entry, Ok(0));
///
/// // An index that calls entry 1 SKY1 is not believed.
/// index[19] = 1;
/// let search = index_find(&wad, &index, b"SKY1\0\0\0\0");
/// assert_eq!((search.entry.unwrap_err().number, search.compared), (11, 2));
/// ```
pub fn index_find(wad: &[u8], index: &[u8], name: &[u8]) -> IndexSearch {
    raw::index_find(wad, index, name)
}
