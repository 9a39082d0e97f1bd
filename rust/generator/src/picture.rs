//! Pictures from columns and posts.

use crate::{Case, Expected, Question, Rng};

/// A picture lump from its parts.
#[derive(Clone, Debug, PartialEq, Eq)]
pub struct PictureSpec {
    /// Columns as written.
    pub width: u16,
    /// Rows as written.
    pub height: u16,
    /// Left offset.
    pub left: i16,
    /// Top offset.
    pub top: i16,
    /// One offset from the lump's start for each column.
    pub offsets: Vec<u32>,
    /// The bytes after the offsets.
    pub data: Vec<u8>,
    /// The lump is cut to so many bytes, if that is shorter.
    pub cut: Option<usize>,
    /// Bytes by which the colour and the cover buffer are longer, or shorter, than needed.
    pub spare: [isize; 2],
}

/// A run of pixels in a column.
#[derive(Clone, Debug, PartialEq, Eq)]
pub struct Post {
    /// The first row.
    pub start: u8,
    /// The pixels from there downward, at most 255.
    pub pixels: Vec<u8>,
    /// The two ignored bytes, before and after the pixels.
    pub ignored: [u8; 2],
}

impl Post {
    /// The post's bytes.
    pub fn encode(&self) -> Vec<u8> {
        let head = [self.start, self.pixels.len() as u8, self.ignored[0]];
        [&head[..], &self.pixels, &self.ignored[1..]].concat()
    }
}

impl PictureSpec {
    /// A picture without any post: all columns share one end byte.
    pub fn blank(width: u16, height: u16) -> Self {
        let offsets = vec![8 + 4 * u32::from(width); usize::from(width)];
        let (data, cut, spare) = (vec![255], None, [0, 0]);
        Self { width, height, left: 0, top: 0, offsets, data, cut, spare }
    }

    /// A good picture: columns of their own, shared ones, and ones that begin inside another.
    pub fn good(width: u16, height: u16, rng: &mut Rng) -> Self {
        let mut picture = Self { left: rng.i16(), top: rng.i16(), ..Self::blank(width, height) };
        let mut starts = vec![picture.offsets[0]];
        for column in 0..usize::from(width) {
            if rng.once_in(4) {
                picture.offsets[column] = rng.pick(&starts);
            } else {
                let posts = good_posts(height, rng);
                starts.extend(picture.give_column(column, &posts));
                picture.data.push(255);
            }
        }
        picture
    }

    /// Where the next byte of data will stand in the lump.
    pub fn end(&self) -> u32 {
        (8 + 4 * self.offsets.len() + self.data.len()) as u32
    }

    /// Points `column` to posts of its own at the end, without an end byte; answers where each
    /// of them starts.
    pub fn give_column(&mut self, column: usize, posts: &[Post]) -> Vec<u32> {
        self.offsets[column] = self.end();
        let mut starts = Vec::new();
        for post in posts {
            starts.push(self.end());
            self.data.extend(post.encode());
        }
        starts
    }

    /// The lump.
    pub fn encode(&self) -> Vec<u8> {
        let header = [self.width, self.height, self.left as u16, self.top as u16];
        let mut lump: Vec<u8> = header.iter().flat_map(|word| word.to_le_bytes()).collect();
        lump.extend(self.offsets.iter().flat_map(|offset| offset.to_le_bytes()));
        lump.extend(&self.data);
        lump.truncate(self.cut.unwrap_or(lump.len()));
        lump
    }

    /// A question on the picture: judged, or painted into buffers with first contents.
    pub fn case(&self, label: &str, paint: bool, expected: Expected, rng: &mut Rng) -> Case {
        let area = usize::from(self.width.min(320)) * usize::from(self.height.min(200));
        let mut buffer = |spare: isize| {
            let fill = rng.pick(&[0, 1, 0xA5, 255]);
            vec![fill; (area as isize + spare).max(0) as usize]
        };
        let question = if paint {
            Question::PaintPicture { colour: buffer(self.spare[0]), cover: buffer(self.spare[1]) }
        } else {
            Question::JudgePicture
        };
        Case::new(label, self.encode(), question, expected)
    }
}

/// Posts downward, some of them empty, some of them touching.
pub fn good_posts(height: u16, rng: &mut Rng) -> Vec<Post> {
    let (mut posts, mut row) = (Vec::new(), 0);
    let height = usize::from(height);
    for _ in 0..rng.below(5) {
        let most = rng.between(row, height);
        row = rng.between(row, most);
        let length = if rng.once_in(5) { 0 } else { rng.between(0, height - row) };
        let length = if rng.once_in(3) { length } else { length.min(4) };
        let (pixels, ignored) = (rng.bytes(length), [rng.byte(), rng.byte()]);
        posts.push(Post { start: row as u8, pixels, ignored });
        row += length;
    }
    posts
}

/// A small size, or now and then one near the limits.
pub fn any_size(rng: &mut Rng) -> (u16, u16) {
    match rng.below(40) {
        0 => (rng.between(300, 320) as u16, rng.between(1, 20) as u16),
        1 => (rng.between(1, 9) as u16, rng.between(180, 200) as u16),
        _ => (rng.between(1, 9) as u16, rng.between(1, 12) as u16),
    }
}

/// A good picture.
pub fn picture_case(rng: &mut Rng) -> Case {
    let (width, height) = any_size(rng);
    let mut picture = PictureSpec::good(width, height, rng);
    picture.spare = [rng.pick(&[0, 0, 1, 9]), rng.pick(&[0, 0, 1, 9])];
    let paint = !rng.once_in(3);
    picture.case("good picture", paint, Expected::Accepted, rng)
}
