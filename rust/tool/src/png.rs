//! PNG files with eight bits each of red, green, blue and opacity, not compressed.

use crate::crc::crc32;

/// What every PNG file begins with.
const SIGNATURE: &[u8; 8] = b"\x89PNG\r\n\x1a\n";
/// Eight bits a sample, red, green, blue and opacity, the only compression and filter methods there are, not interlaced.
const FORM: [u8; 5] = [8, 6, 0, 0, 0];
/// A zlib stream of the usual window, fastest level.
const ZLIB: [u8; 2] = [0x78, 0x01];
/// The most that a stored block of deflate holds.
const MOST_STORED: usize = 65_535;

/// A PNG file from its pixels, row by row from the top; `pixels` has width × height of them.
pub fn encode(width: usize, height: usize, pixels: &[[u8; 4]]) -> Vec<u8> {
    let mut header = [be(width as u32), be(height as u32)].concat();
    header.extend(FORM);
    let rows = pixels.chunks(width).flat_map(|row| [vec![0], row.concat()].concat()).collect::<Vec<u8>>();
    [SIGNATURE.to_vec(), chunk(b"IHDR", &header), chunk(b"IDAT", &stored(&rows)), chunk(b"IEND", &[])].concat()
}

fn be(number: u32) -> [u8; 4] {
    number.to_be_bytes()
}

/// A chunk: length, kind, data, and the check over kind and data.
fn chunk(kind: &[u8; 4], data: &[u8]) -> Vec<u8> {
    let checked = [kind, data].concat();
    [&be(data.len() as u32)[..], &checked, &be(crc32(&checked))].concat()
}

/// A zlib stream of stored blocks; the last one is marked.
fn stored(data: &[u8]) -> Vec<u8> {
    let mut stream = ZLIB.to_vec();
    let last = data.len().saturating_sub(1) / MOST_STORED;
    for (number, block) in data.chunks(MOST_STORED).enumerate() {
        let length = block.len() as u16;
        stream.push(u8::from(number == last));
        stream.extend(length.to_le_bytes());
        stream.extend((!length).to_le_bytes());
        stream.extend(block);
    }
    stream.extend(be(adler32(data)));
    stream
}

/// The check of a zlib stream.
fn adler32(data: &[u8]) -> u32 {
    let (mut low, mut high) = (1, 0);
    for &byte in data {
        low = (low + u32::from(byte)) % 65_521;
        high = (high + low) % 65_521;
    }
    (high << 16) | low
}

#[cfg(test)]
mod tests {
    use super::*;

    #[test]
    fn the_check_of_a_known_text() {
        assert_eq!(adler32(b"Wikipedia"), 0x11E6_0398);
    }

    #[test]
    fn only_the_last_block_is_marked() {
        let stream = stored(&vec![7; MOST_STORED + 1]);
        assert_eq!(stream[..7], [0x78, 0x01, 0, 0xFF, 0xFF, 0, 0]);
        assert_eq!(stream[7 + MOST_STORED..][..6], [1, 1, 0, 0xFE, 0xFF, 7]);
    }
}
