//! A small reader of PNG files as the tool writes them, which checks every check.

/// Width, height and the four bytes of each pixel.
pub struct Png {
    pub width: usize,
    pub height: usize,
    pub pixels: Vec<[u8; 4]>,
}

/// Takes a PNG file apart.
pub fn read(file: &[u8]) -> Png {
    let mut rest = file.strip_prefix(b"\x89PNG\r\n\x1a\n").expect("the signature");
    let mut chunks = Vec::new();
    while !rest.is_empty() {
        let length = be32(rest) as usize;
        let (chunk, next) = rest[4..].split_at(4 + length + 4);
        let (checked, check) = chunk.split_at(4 + length);
        assert_eq!(crc32(checked), be32(check));
        chunks.push(checked.split_at(4));
        rest = next;
    }
    let [(b"IHDR", header), (b"IDAT", data), (b"IEND", [])] = chunks[..] else { panic!("other chunks") };
    let (width, height) = (be32(header) as usize, be32(&header[4..]) as usize);
    assert_eq!(header[8..], [8, 6, 0, 0, 0]);
    let rows = inflate(data);
    assert_eq!(rows.len(), height * (1 + 4 * width));
    let unfiltered = rows.chunks(1 + 4 * width).inspect(|row| assert_eq!(row[0], 0)).flat_map(|row| row[1..].chunks(4));
    Png { width, height, pixels: unfiltered.map(|it| it.try_into().expect("four bytes")).collect() }
}

/// The bytes of a zlib stream of stored blocks.
fn inflate(stream: &[u8]) -> Vec<u8> {
    assert_eq!((stream[0] & 15, (u32::from(stream[0]) << 8 | u32::from(stream[1])) % 31), (8, 0));
    let (mut bytes, mut rest, mut last) = (Vec::new(), &stream[2..], false);
    while !last {
        assert!(rest[0] < 2, "a stored block");
        last = rest[0] == 1;
        let length = u16::from_le_bytes([rest[1], rest[2]]);
        assert_eq!(length, !u16::from_le_bytes([rest[3], rest[4]]));
        let (block, next) = rest[5..].split_at(usize::from(length));
        bytes.extend(block);
        rest = next;
    }
    assert_eq!(rest, adler32(&bytes).to_be_bytes());
    bytes
}

fn be32(bytes: &[u8]) -> u32 {
    u32::from_be_bytes([bytes[0], bytes[1], bytes[2], bytes[3]])
}

/// The remainder of the polynomial, a bit at a time from the front.
fn crc32(bytes: &[u8]) -> u32 {
    let mut crc = u32::MAX;
    for bit in bytes.iter().flat_map(|byte| (0..8).map(move |at| u32::from(byte >> at & 1))) {
        let out = (crc ^ bit) & 1;
        crc = (crc >> 1) ^ (0xEDB8_8320 * out);
    }
    !crc
}

/// Both sums in full, and the remainders at the end.
fn adler32(bytes: &[u8]) -> u32 {
    let low: u64 = 1 + bytes.iter().map(|&byte| u64::from(byte)).sum::<u64>();
    let count = bytes.len() as u64;
    let high: u64 = count + (0..).zip(bytes).map(|(at, &byte)| (count - at) * u64::from(byte)).sum::<u64>();
    (((high % 65_521) << 16) | (low % 65_521)) as u32
}
