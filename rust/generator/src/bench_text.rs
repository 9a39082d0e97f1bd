//! Text maps of a benchmark (W-206).

use crate::MOST_BYTES;
use std::fmt::Write;

/// How many blocks of a kind there may be.
const MOST_BLOCKS: usize = 65_535;

/// Texts are made to a part of 16 MiB: one to four quarters.
const fn quarters(n: usize) -> usize {
    MOST_BYTES / 4 * n
}

/// A quarter of a million global assignments for each part, together as long as that part of 16 MiB.
pub fn text_of_assignments(n: usize) -> Vec<u8> {
    let mut text = Vec::new();
    assignments(&mut text, n);
    text
}

/// The same assignments in one block, a linedef, which has what it must have at its end.
pub fn text_of_one_block(n: usize) -> Vec<u8> {
    let end = b"v1=1;v2=2;sidefront=3;}\n";
    let mut text = b"linedef{".to_vec();
    assignments(&mut text, n);
    text.truncate(text.len() - end.len());
    text.extend_from_slice(end);
    text
}

/// A quarter of a million lines of 16 bytes for each part, and blanks behind them.
fn assignments(text: &mut Vec<u8>, n: usize) {
    for at in 0..n * 250_000 {
        text.extend_from_slice(format!("v{:04} = {at:<6};\n", at % 10_000).as_bytes());
    }
    text.resize(quarters(n), b' ');
}

/// Blocks of all five kinds in turn, together as many as there may be of one kind, each with blanks behind it up to its part of 16 MiB.
pub fn text_of_blocks(n: usize) -> Vec<u8> {
    let kinds = [put_vertex, put_linedef, put_sidedef, put_sector, put_thing];
    let mut text = String::new();
    for at in 0..MOST_BLOCKS * n / 4 {
        kinds[at % 5](&mut text, at / 5);
        text.push_str(&" ".repeat((at + 1) * BLOCK - text.len()));
    }
    text.into_bytes()
}

/// The bytes of 16 MiB for each of so many blocks.
const BLOCK: usize = MOST_BYTES / (MOST_BLOCKS + 1);

/// Vertices alone, as many as there may be.
pub fn text_of_vertices(n: usize) -> Vec<u8> {
    let mut text = String::new();
    (0..MOST_BLOCKS * n / 4).for_each(|at| put_vertex(&mut text, at));
    text.into_bytes()
}

/// A map of rooms as an editor writes it, some hundred thousand bytes.
pub fn ordinary_text(n: usize) -> Vec<u8> {
    let mut text = String::from("namespace = \"Doom\";\n\n");
    let rooms = 125 * n;
    (0..4 * rooms).for_each(|at| put_vertex(&mut text, at));
    (0..4 * rooms).for_each(|at| put_linedef(&mut text, at));
    (0..5 * rooms).for_each(|at| put_sidedef(&mut text, at));
    (0..rooms).for_each(|at| put_sector(&mut text, at));
    (0..2 * rooms).for_each(|at| put_thing(&mut text, at));
    text.into_bytes()
}

fn put(text: &mut String, words: std::fmt::Arguments) {
    text.write_fmt(words).expect("a string takes all text");
}

fn put_vertex(text: &mut String, at: usize) {
    let (x, y) = (at % 512 * 64, at / 512 * 64);
    put(text, format_args!("vertex // {at}\n{{\nx = {x}.000;\ny = -{y}.500;\n}}\n\n"));
}

fn put_linedef(text: &mut String, at: usize) {
    put(text, format_args!("linedef // {at}\n{{\nv1 = {at};\nv2 = {};\nsidefront = {at};\nblocking = true;\n", at + 1));
    if at.is_multiple_of(4) {
        put(text, format_args!("sideback = {at};\ntwosided = true;\nspecial = 1;\n"));
    }
    text.push_str("}\n\n");
}

fn put_sidedef(text: &mut String, at: usize) {
    put(text, format_args!("sidedef // {at}\n{{\nsector = {};\ntexturemiddle = \"STARTAN{}\";\n}}\n\n", at / 4, at % 10));
}

fn put_sector(text: &mut String, at: usize) {
    put(
        text,
        format_args!("sector // {at}\n{{\nheightceiling = 128;\ntexturefloor = \"FLOOR4_8\";\ntextureceiling = \"CEIL3_5\";\n"),
    );
    put(text, format_args!("lightlevel = {};\n}}\n\n", 96 + at % 160));
}

fn put_thing(text: &mut String, at: usize) {
    put(text, format_args!("thing // {at}\n{{\nx = {}.0;\ny = 32.0;\nangle = 90;\ntype = {};\n", at % 4_096, 1 + at % 100));
    put(text, format_args!("skill1 = true;\nskill2 = true;\nskill3 = true;\nsingle = true;\ncoop = true;\n}}\n\n"));
}

/// Nothing but comments, of both forms.
pub fn text_of_comments(n: usize) -> Vec<u8> {
    let comments = b"/* a comment * of some words */\n// and one to the line's end; =\n";
    let mut text = comments.repeat(quarters(n) / comments.len());
    text.resize(quarters(n), b' ');
    text
}

/// One string, with backslashes in it.
pub fn text_of_one_string(n: usize) -> Vec<u8> {
    string_for("a", n)
}

/// The same as the text's namespace, whose bytes are looked at again.
pub fn text_of_one_namespace(n: usize) -> Vec<u8> {
    string_for("namespace", n)
}

fn string_for(name: &str, n: usize) -> Vec<u8> {
    let words = b"some words \\\" of it; ";
    let mut text = format!("{name} = \"").into_bytes();
    text.extend(words.repeat(quarters(n) / words.len() - 1));
    text.resize(quarters(n) - 2, b'z');
    text.extend_from_slice(b"\";");
    text
}

/// One word, an identifier.
pub fn text_of_one_word(n: usize) -> Vec<u8> {
    let mut text = vec![b'a'; quarters(n)];
    let end = text.len() - 4;
    text[end..].copy_from_slice(b"=10;");
    text
}

/// One number, of the 0x form: zeros in front do not count.
pub fn text_of_one_number(n: usize) -> Vec<u8> {
    let mut text = vec![b'0'; quarters(n)];
    let end = text.len() - 2;
    text[..4].copy_from_slice(b"a=0x");
    text[end..].copy_from_slice(b"1;");
    text
}
