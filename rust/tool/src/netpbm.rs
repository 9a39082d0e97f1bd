//! Netpbm images as drawing programs write them: PAM (P7) with or without opacity, PPM and PGM, raw (P6, P5) or plain (P3, P2).
//! Samples are 0 to 255. Of several images in a file the first is taken.

use std::fmt;

/// Samples of the kinds there are by their count: grey, grey and opacity, colour, colour and opacity.
const KINDS: [&[u8]; 4] = [b"GRAYSCALE", b"GRAYSCALE_ALPHA", b"RGB", b"RGB_ALPHA"];
/// The largest sample.
const MOST: usize = 255;

/// An image whose header was read. Its pixels may be missing.
#[derive(Debug)]
pub struct Image<'a> {
    /// Pixels across, as the header says.
    pub width: usize,
    /// Pixels down.
    pub height: usize,
    /// Samples of a pixel, 1 to 4.
    depth: usize,
    /// Whether samples are spelled out.
    plain: bool,
    /// What follows the header.
    rest: &'a [u8],
}

/// Why bytes cannot be read as an image.
#[derive(Debug, PartialEq, Eq)]
pub struct Flaw(String);

impl fmt::Display for Flaw {
    fn fmt(&self, out: &mut fmt::Formatter<'_>) -> fmt::Result {
        out.write_str(&self.0)
    }
}

fn flaw<T>(words: impl Into<String>) -> Result<T, Flaw> {
    Err(Flaw(words.into()))
}

impl<'a> Image<'a> {
    /// Reads the header.
    pub fn of(bytes: &'a [u8]) -> Result<Self, Flaw> {
        match bytes {
            [b'P', b'7', b'\n', rest @ ..] => of_pam(rest),
            [b'P', kind @ (b'2' | b'3' | b'5' | b'6'), next, ..] if next.is_ascii_whitespace() => {
                let depth = if matches!(kind, b'2' | b'5') { 1 } else { 3 };
                of_ppm(&bytes[2..], depth, *kind < b'5')
            }
            _ => flaw("this is no image of Netpbm: PAM (P7), PPM (P6, P3) and PGM (P5, P2) are read"),
        }
    }

    /// Red, green, blue and opacity of each pixel, row by row from the top.
    pub fn pixels(&self) -> Result<Vec<[u8; 4]>, Flaw> {
        let count = self.width.saturating_mul(self.height).saturating_mul(self.depth);
        let samples = if self.plain { spelled(self.rest, count) } else { self.rest.get(..count).map(<[u8]>::to_vec) };
        let Some(samples) = samples else { return flaw(self.cut_off()) };
        Ok(samples.chunks_exact(self.depth).map(pixel).collect())
    }

    fn cut_off(&self) -> String {
        let Self { width, height, depth, plain, .. } = self;
        let samples = if *plain { "numbers from 0 to 255" } else { "bytes" };
        format!("the image's pixels are not all there: its header says {width} x {height}, with {depth} {samples} for each")
    }
}

/// A pixel from one sample to four.
fn pixel(samples: &[u8]) -> [u8; 4] {
    match *samples {
        [grey] => [grey, grey, grey, 255],
        [grey, opacity] => [grey, grey, grey, opacity],
        [red, green, blue] => [red, green, blue, 255],
        [red, green, blue, opacity, ..] => [red, green, blue, opacity],
        [] => [0; 4],
    }
}

/// So many samples in digits, if they are there.
fn spelled(bytes: &[u8], count: usize) -> Option<Vec<u8>> {
    let mut words = Words { bytes };
    let sample = |word: Option<&[u8]>| number(word?).filter(|&it| it <= MOST).map(|it| it as u8);
    (0..count).map(|_| sample(words.next())).collect()
}

/// The header of PPM and PGM behind its mark: width, height, the largest sample, and one white space.
fn of_ppm(bytes: &[u8], depth: usize, plain: bool) -> Result<Image<'_>, Flaw> {
    let mut words = Words { bytes };
    let width = side("width", words.next())?;
    let height = side("height", words.next())?;
    largest(words.next())?;
    let rest = words.bytes.get(1..).unwrap_or_default();
    Ok(Image { width, height, depth, plain, rest })
}

/// The header of PAM behind its mark: a line for each part, in any order, up to ENDHDR.
fn of_pam(bytes: &[u8]) -> Result<Image<'_>, Flaw> {
    const PARTS: [&str; 5] = ["WIDTH", "HEIGHT", "DEPTH", "MAXVAL", "TUPLTYPE"];
    let (mut words, mut found) = (Words { bytes }, [None; PARTS.len()]);
    loop {
        let word = words.next();
        if word == Some(b"ENDHDR") {
            break;
        }
        let Some(part) = PARTS.iter().position(|part| word == Some(part.as_bytes())) else {
            return flaw("the image's header is broken: it has WIDTH, HEIGHT, DEPTH, MAXVAL, TUPLTYPE and then ENDHDR");
        };
        if found[part].is_some() {
            return flaw(format!("the image's header is broken: it has {} twice", PARTS[part]));
        }
        found[part] = words.next();
    }
    let [width, height, depth, most, kind] = found;
    let (width, height) = (side("width", width)?, side("height", height)?);
    let depth = depth.and_then(number).filter(|depth| (1..=4).contains(depth));
    largest(most)?;
    match depth {
        Some(depth) if kind.is_none_or(|kind| kind == KINDS[depth - 1]) => {
            Ok(Image { width, height, depth, plain: false, rest: words.bytes.get(1..).unwrap_or_default() })
        }
        _ => flaw(
            "the image has pixels of another kind than GRAYSCALE, GRAYSCALE_ALPHA, RGB and RGB_ALPHA, with a DEPTH of 1 to 4",
        ),
    }
}

/// A width or a height. Any is read; whether a picture may have it is not asked here.
fn side(name: &str, word: Option<&[u8]>) -> Result<usize, Flaw> {
    word.and_then(number)
        .map_or_else(|| flaw(format!("the image's header is broken: its {name} is no number that can be read")), Ok)
}

fn largest(word: Option<&[u8]>) -> Result<(), Flaw> {
    match word.and_then(number) {
        Some(MOST) => Ok(()),
        _ => flaw("the image's largest sample (MAXVAL) is not 255: no other can be read"),
    }
}

/// A number of up to nine digits.
fn number(word: &[u8]) -> Option<usize> {
    let digits = (1..=9).contains(&word.len()) && word.iter().all(u8::is_ascii_digit);
    digits.then(|| word.iter().fold(0, |number, digit| 10 * number + usize::from(digit - b'0')))
}

/// Words between white space; from `#` to the end of its line is none.
struct Words<'a> {
    bytes: &'a [u8],
}

impl<'a> Words<'a> {
    /// The next word. What is left begins with the white space behind it.
    fn next(&mut self) -> Option<&'a [u8]> {
        loop {
            self.bytes = self.bytes.trim_ascii_start();
            let comment = self.bytes.first() == Some(&b'#');
            let ends = |byte: &u8| if comment { *byte == b'\n' } else { byte.is_ascii_whitespace() };
            let end = self.bytes.iter().position(ends).unwrap_or(self.bytes.len());
            let (word, rest) = self.bytes.split_at(end);
            self.bytes = rest;
            if !comment {
                return Some(word).filter(|word| !word.is_empty());
            }
        }
    }
}

#[cfg(test)]
mod tests {
    use super::*;

    fn pixels(bytes: &[u8]) -> Result<Vec<[u8; 4]>, Flaw> {
        Image::of(bytes)?.pixels()
    }

    #[test]
    fn each_form_has_its_pixels() {
        let pam = |depth: u8, kind: &str, samples: &[u8]| {
            let header = format!("P7\n# drawn\nWIDTH 1\nHEIGHT 2\n\nDEPTH {depth}\nMAXVAL 255\n{kind}ENDHDR\n");
            pixels(&[header.as_bytes(), samples].concat())
        };
        let (grey, colour) = ([[8, 8, 8, 255], [9, 9, 9, 255]], [[1, 2, 3, 255], [10, 35, 32, 255]]);
        assert_eq!(pam(1, "TUPLTYPE GRAYSCALE\n", &[8, 9]), Ok(grey.to_vec()));
        assert_eq!(pam(2, "TUPLTYPE GRAYSCALE_ALPHA\n", &[8, 0, 9, 7]), Ok(vec![[8, 8, 8, 0], [9, 9, 9, 7]]));
        assert_eq!(pam(3, "", &[1, 2, 3, 10, 35, 32]), Ok(colour.to_vec()));
        assert_eq!(pam(4, "TUPLTYPE RGB_ALPHA\n", &[1, 2, 3, 4, 5, 6, 7, 8]), Ok(vec![[1, 2, 3, 4], [5, 6, 7, 8]]));
        assert_eq!(pixels(b"P6 1 2 255\n\x01\x02\x03\x0A\x23\x20"), Ok(colour.to_vec()));
        assert_eq!(pixels(b"P6\n# by hand\n1 # across\n2\n255\n\x01\x02\x03\x0A\x23\x20and more"), Ok(colour.to_vec()));
        assert_eq!(pixels(b"P3 1 2 255 1 2 3\n#\n10 35 032"), Ok(colour.to_vec()));
        assert_eq!(pixels(b"P5\t1\r\n2 255 \x08\x09"), Ok(grey.to_vec()));
        assert_eq!(pixels(b"P2 1 2 255 8 9"), Ok(grey.to_vec()));
    }

    #[test]
    fn sides_of_any_size_are_read_and_nothing_wraps() {
        for bytes in [&b"P6 999999999 999999999 255\n"[..], b"P3 999999999 999999999 255 1", b"P5 999999999 999999999 255"] {
            let image = Image::of(bytes).expect("a good header");
            assert_eq!((image.width, image.height), (999_999_999, 999_999_999));
            assert!(image.pixels().is_err());
        }
        assert_eq!(pixels(b"P6 0 7 255\n"), Ok(vec![]));
    }

    #[test]
    fn flaws_are_named() {
        let said = |bytes: &[u8], words: &str| {
            let Flaw(text) = pixels(bytes).expect_err(words);
            assert!(text.contains(words), "{text}");
        };
        for bytes in
            [&b""[..], b"P", b"P7", b"P7 WIDTH", b"P1 1 1 1", b"P4 1 1 x", b"P66 1 1 255 xxx", b"\x89PNG\r\n\x1A\n", b"IWAD"]
        {
            said(bytes, "no image of Netpbm");
        }
        for bytes in [&b"P6"[..], b"P6\n", b"P6 x", b"P6 -1 1 255 ", b"P6 +1 1 255 ", b"P6 9999999999 1 255 ", b"P6 # 1 1 255"] {
            said(bytes, if bytes == b"P6" { "no image" } else { "its width is no number" });
        }
        said(b"P6 1", "its height is no number");
        for bytes in [&b"P6 1 1"[..], b"P6 1 1 65535\n......", b"P6 1 1 254 ...", b"P7\nWIDTH 1 HEIGHT 1 DEPTH 3\nENDHDR\n..."] {
            said(bytes, "is not 255");
        }
        for bytes in
            [&b"P6 1 1 255"[..], b"P6 1 1 255 ..", b"P5 2 1 255 .", b"P3 1 1 255 1 2", b"P3 1 1 255 1 2 256", b"P2 1 1 255 x"]
        {
            said(bytes, "not all there");
        }
        said(b"P7\nWIDTH 1\nHEIGHT 1\nDEPTH 3\nMAXVAL 255\nENDHDR\n..", "1 x 1, with 3 bytes for each");
        said(b"P7\nWIDTH 1\nWIDTH 1\nENDHDR\n", "WIDTH twice");
        said(b"P7\nWIDTH 1\nCOLOUR 3\nENDHDR\n", "it has WIDTH, HEIGHT,");
        said(b"P7\nWIDTH 1\nHEIGHT 1\n", "it has WIDTH, HEIGHT,");
        said(b"P7\nHEIGHT 1\nENDHDR\n", "its width is no number");
        for kind in ["DEPTH 5", "DEPTH 0", "DEPTH 3\nTUPLTYPE GRAYSCALE", "DEPTH 1\nTUPLTYPE BLACKANDWHITE", "TUPLTYPE RGB"] {
            said(format!("P7\nWIDTH 1\nHEIGHT 1\nMAXVAL 255\n{kind}\nENDHDR\n.....").as_bytes(), "of another kind");
        }
    }

    /// Good images with some bytes changed, or cut, or doubled: whatever comes of it, it has the pixels that its header says.
    #[test]
    fn spoilt_images_are_read_or_told() {
        let good: [&[u8]; 3] = [
            b"P7\nWIDTH 2\nHEIGHT 2\nDEPTH 2\nMAXVAL 255\nTUPLTYPE GRAYSCALE_ALPHA\nENDHDR\n12345678",
            b"P3 2 2 255 1 2 3 4 5 6 7 8 9 10 11 12 ",
            b"P5 3 2 255\n123456",
        ];
        let (mut state, mut read) = (1_u64, 0);
        let mut below = |bound: usize| {
            state = state.wrapping_mul(6_364_136_223_846_793_005).wrapping_add(1_442_695_040_888_963_407);
            (state >> 33) as usize % bound
        };
        for turn in 0..30_000 {
            let mut bytes = good[turn % 3].to_vec();
            for _ in 0..below(4) {
                let at = below(bytes.len());
                match below(4) {
                    0 => bytes.truncate(at.max(1)),
                    1 => bytes.insert(at, b"0 9#\n"[below(5)]),
                    _ => bytes[at] = [below(256) as u8, b'0' + below(10) as u8][below(2)],
                }
            }
            if let Ok((width, height, pixels)) = Image::of(&bytes).and_then(|it| Ok((it.width, it.height, it.pixels()?))) {
                assert_eq!(pixels.len(), width * height);
                read += 1;
            }
        }
        assert!((5_000..25_000).contains(&read), "{read}");
    }
}
