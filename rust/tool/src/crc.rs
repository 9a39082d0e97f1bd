//! CRC-32, as PNG, zip and gzip have it: of the chunks of a picture, and of the bytes that were judged.

/// Bytes that are taken at a time.
const STEP: usize = 8;

/// For each byte what it makes of an empty check, followed by none to seven zero bytes.
static TABLES: [[u32; 256]; STEP] = tables();

const fn tables() -> [[u32; 256]; STEP] {
    let mut tables = [[0; 256]; STEP];
    let mut byte = 0;
    while byte < 256 {
        tables[0][byte] = by_bits(byte as u32);
        byte += 1;
    }
    let mut zeros = 1;
    while zeros < STEP {
        byte = 0;
        while byte < 256 {
            let before = tables[zeros - 1][byte];
            tables[zeros][byte] = before >> 8 ^ tables[0][(before & 255) as usize];
            byte += 1;
        }
        zeros += 1;
    }
    tables
}

/// Eight bits from the least.
const fn by_bits(mut crc: u32) -> u32 {
    let mut bit = 0;
    while bit < 8 {
        crc = if crc & 1 == 1 { crc >> 1 ^ 0xEDB8_8320 } else { crc >> 1 };
        bit += 1;
    }
    crc
}

/// The check of some bytes.
pub fn crc32(data: &[u8]) -> u32 {
    let (steps, rest) = data.as_chunks::<STEP>();
    let crc = steps.iter().fold(u32::MAX, |crc, step| {
        let first = crc.to_le_bytes();
        let byte = |at: usize| usize::from(step[at] ^ first.get(at).copied().unwrap_or(0));
        (0..STEP).fold(0, |sum, at| sum ^ TABLES[STEP - 1 - at][byte(at)])
    });
    !rest.iter().fold(crc, |crc, &byte| crc >> 8 ^ TABLES[0][usize::from(crc as u8 ^ byte)])
}

#[cfg(test)]
mod tests {
    use super::*;

    #[test]
    fn checks_of_known_texts() {
        assert_eq!([&b""[..], b"123456789", b"IEND"].map(crc32), [0, 0xCBF4_3926, 0xAE42_6082]);
        assert_eq!(crc32(b"The quick brown fox jumps over the lazy dog"), 0x414F_A339);
    }

    #[test]
    fn steps_and_single_bytes_agree() {
        let data: Vec<u8> = (0..1_000_u32).map(|it| ((it * it) >> 3) as u8).collect();
        let plain = |data: &[u8]| !data.iter().fold(u32::MAX, |crc, &byte| by_bits(crc ^ u32::from(byte)));
        assert!((0..40).all(|length| crc32(&data[..length]) == plain(&data[..length])));
        assert_eq!(crc32(&data), plain(&data));
    }
}
