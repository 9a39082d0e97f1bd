//! The small files of samples/: one good map of each game, one whose names have rubbish behind them, one whose nodes turn back, one whose nodes
//! are shared, one with a bad reference, one picture, the image that it can be made of, and one text map.

use crate::name::length_of;
use crate::{hexen_rooms, rooms, Content, EntryPlan, PictureSpec, Plan, Post, MAP_NAME};
use reader::{Node, SUBSECTOR_BIT};

/// A file's name and its bytes.
pub type Sample = (&'static str, Vec<u8>);

/// The pigeon, a character to a pixel; a space is not painted. What the others mean is [`PAINTS`].
const PIGEON: [&str; 20] = [
    "                          ", "                gggg      ", "               gggggg     ", "              gggkgggg    ",
    "              gggoogggyy  ", "              ggggggggyyy ", "              vggggggg    ", "              vvvgggg     ",
    "             gvvvvvv      ", "           ggggvvvvg      ", "        gggggggggggg      ", "      ggbbbbbbbbgggg      ",
    "    ggbbbbbbbbbbgggg      ", "   gbbbkkkkkkbbbggg       ", "  gbbbbbbbbbbbggggg       ", " kkkbbkkkkkbbgggg         ",
    "kkkk  gggggggggg          ", "kk       rr  rr           ", "         rr  rr           ", "        rrrrrrr           ",
];

/// Each character's place in the palette, and its red, green and blue.
const PAINTS: [(u8, u8, [u8; 3]); 8] = [
    (b'g', 96, [128, 136, 152]),
    (b'b', 97, [88, 100, 128]),
    (b'k', 98, [32, 32, 40]),
    (b'o', 99, [240, 128, 32]),
    (b'y', 100, [232, 200, 96]),
    (b'v', 101, [72, 144, 112]),
    (b'r', 102, [216, 88, 88]),
    (b' ', 0, [0, 0, 0]),
];

/// A room of 256 by 128 with a player in it.
const ROOM: &str = r#"namespace = "Doom";

// One room.
vertex { x = 0.0; y = 0.0; }
vertex { x = 0.0; y = 128.0; }
vertex { x = 256.0; y = 128.0; }
vertex { x = 256.0; y = 0.0; }

linedef { v1 = 0; v2 = 1; sidefront = 0; blocking = true; }
linedef { v1 = 1; v2 = 2; sidefront = 1; blocking = true; }
linedef { v1 = 2; v2 = 3; sidefront = 2; blocking = true; }
linedef { v1 = 3; v2 = 0; sidefront = 3; blocking = true; }

sidedef { sector = 0; texturemiddle = "STARTAN3"; }
sidedef { sector = 0; texturemiddle = "STARTAN3"; }
sidedef { sector = 0; texturemiddle = "STARTAN3"; }
sidedef { sector = 0; texturemiddle = "STARTAN3"; comment = "the \"east\" wall"; }

sector
{
    heightceiling = 128;
    texturefloor = "FLOOR4_8";
    textureceiling = "CEIL3_5";
}

thing
{
    x = 64.5;
    y = 64;
    type = 1;
    skill1 = true; skill2 = true; skill3 = true; skill4 = true; skill5 = true;
    single = true; coop = true;
    user_note = "unknown names are skipped";
}
"#;

/// All samples.
pub fn samples() -> Vec<Sample> {
    vec![
        ("accepted.wad", accepted()),
        ("hexen.wad", Plan::wad_of(hexen_rooms())),
        ("leftover.wad", leftover()),
        ("loop.wad", turning_back()),
        ("shared.wad", shared()),
        ("reference.wad", bad_reference()),
        ("picture.wad", picture()),
        ("pigeon.pam", image()),
        ("text.wad", text()),
    ]
}

/// Four rooms in a row.
fn accepted() -> Vec<u8> {
    Plan::wad_of(rooms())
}

/// The four rooms again, from a tool that writes each name and its zero into one buffer of eight bytes and never clears it: behind
/// the zero stands what is left of the longer names before it, the first of them the BLOCKMAP of an earlier map.
fn leftover() -> Vec<u8> {
    let mut plan = Plan::new(rooms(), MAP_NAME);
    let mut buffer = *b"BLOCKMAP";
    for entry in &mut plan.entries {
        let written = (length_of(&entry.name) + 1).min(8);
        buffer[..written].copy_from_slice(&entry.name[..written]);
        entry.name = buffer;
    }
    plan.wad()
}

/// The eastern node has the root as its right child: a player in the last room freezes the machine.
fn turning_back() -> Vec<u8> {
    let mut map = rooms();
    map.nodes[1].right = 2;
    Plan::wad_of(map)
}

/// Thirty nodes, each with both children the next: 2 to the 30th times the first room to draw.
fn shared() -> Vec<u8> {
    let mut map = rooms();
    let root = map.nodes[2];
    let child = |at: u16| at.checked_sub(1).unwrap_or(SUBSECTOR_BIT);
    map.nodes = (0..30).map(|at| Node { right: child(at), left: child(at), ..root }).collect();
    Plan::wad_of(map)
}

/// Linedef 5 shows a right side that is not there.
fn bad_reference() -> Vec<u8> {
    let mut map = rooms();
    map.linedefs[5].right = map.sidedefs.len() as u16;
    Plan::wad_of(map)
}

/// A palette and a picture, and no map.
fn picture() -> Vec<u8> {
    let mut plan = Plan::new(rooms(), MAP_NAME);
    plan.entries = vec![
        EntryPlan::new(*b"PLAYPAL\0", Content::Bytes(palette())),
        EntryPlan::new(*b"PIGEON\0\0", Content::Bytes(pigeon().encode())),
    ];
    plan.wad()
}

/// One room as a text map.
fn text() -> Vec<u8> {
    let mut plan = Plan::new(rooms(), MAP_NAME);
    plan.entries = vec![
        EntryPlan::new(MAP_NAME, Content::Bytes(Vec::new())),
        EntryPlan::new(*b"TEXTMAP\0", Content::Bytes(ROOM.as_bytes().to_vec())),
        EntryPlan::new(*b"ENDMAP\0\0", Content::Bytes(Vec::new())),
    ];
    plan.wad()
}

/// The pigeon as a PAM image, transparent around it.
fn image() -> Vec<u8> {
    let (width, height) = (PIGEON[0].len(), PIGEON.len());
    let header = format!("P7\nWIDTH {width}\nHEIGHT {height}\nDEPTH 4\nMAXVAL 255\nTUPLTYPE RGB_ALPHA\nENDHDR\n");
    let pixel = |paint: u8| match PAINTS.iter().find(|(it, ..)| *it == paint && paint != b' ') {
        Some((_, _, [red, green, blue])) => [*red, *green, *blue, 255],
        None => [0; 4],
    };
    [header.into_bytes(), PIGEON.concat().bytes().flat_map(pixel).collect()].concat()
}

/// Greys, but for the pigeon's own colours.
fn palette() -> Vec<u8> {
    let mut colours: Vec<[u8; 3]> = (0..=255).map(|grey| [grey; 3]).collect();
    for (_, index, colour) in PAINTS {
        colours[usize::from(index)] = colour;
    }
    colours.concat()
}

fn pigeon() -> PictureSpec {
    let (width, height) = (PIGEON[0].len(), PIGEON.len());
    let mut picture =
        PictureSpec { left: width as i16 / 2, top: height as i16, ..PictureSpec::blank(width as u16, height as u16) };
    picture.data.clear();
    for column in 0..width {
        let pixels: Vec<u8> = PIGEON.iter().map(|row| row.as_bytes()[column]).collect();
        picture.give_column(column, &posts(&pixels));
        picture.data.push(255);
    }
    picture
}

/// A post for each run of painted pixels. The ignored bytes repeat the nearest pixel, as the format's own tools write them.
fn posts(pixels: &[u8]) -> Vec<Post> {
    let mut posts: Vec<Post> = Vec::new();
    for (row, paint) in pixels.iter().enumerate().filter(|(_, paint)| **paint != b' ') {
        let index = PAINTS.iter().find(|(it, ..)| it == paint).map_or(0, |(_, index, _)| *index);
        match posts.last_mut() {
            Some(post) if usize::from(post.start) + post.pixels.len() == row => post.pixels.push(index),
            _ => posts.push(Post { start: row as u8, pixels: vec![index], ignored: [index; 2] }),
        }
        if let Some(post) = posts.last_mut() {
            post.ignored[1] = index;
        }
    }
    posts
}
