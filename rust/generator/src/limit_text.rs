//! Both sides of each rule on text maps (W-206): tokens, values, fields, statements, and the count of blocks.

use crate::limit::Build;
use crate::text::{asked, Kind, KINDS};
use crate::text_value::{DECIMALS, KEYWORDS, LONG_DECIMALS, LONG_WHOLES, NO_VALUES, STRINGS, WHOLES};
use crate::{Expected, Rng};
use reader::Refusal;

/// The most blocks of a kind.
const MOST_BLOCKS: usize = 65_535;

/// All of them.
pub(crate) fn text_limits() -> Vec<Build> {
    let mut all: Vec<Build> = Vec::new();
    all.extend(TEXTS.iter().map(|&(text, number, place)| build(text.to_vec(), number, place)));
    all.extend(values());
    all.extend(missing());
    for kind in 0..KINDS.len() {
        all.extend(counts(kind));
    }
    all.push(Box::new(|| {
        let text = b"zz{}".repeat(MOST_BLOCKS + 2);
        asked("many unknown blocks", text, &[], Expected::Accepted, &mut Rng::new(53))
    }));
    all
}

/// A text with its refusal and place; with number 0 it is good.
fn build(text: Vec<u8>, number: u32, place: usize) -> Build {
    Box::new(move || {
        let expected = match number {
            0 => Expected::Accepted,
            _ => Expected::Refused(Refusal::new(number, 0, place)),
        };
        asked("rule of text maps", text.clone(), &[], expected, &mut Rng::new(51))
    })
}

/// Texts with their refusals and places.
const TEXTS: &[(&[u8], u32, usize)] = &[
    // Nothing, blanks and comments.
    (b"", 0, 0),
    (b" \t\r\n", 0, 0),
    (b"\x0b", 90, 0),
    (b"\x0c", 90, 0),
    (b"\0", 90, 0),
    (b"\xa0", 90, 0),
    (b"//", 0, 0),
    (b"// a", 0, 0),
    (b"// a\ra=", 0, 0),
    (b"// a\na=", 90, 7),
    (b"/", 90, 0),
    (b"/ /", 90, 0),
    (b"/*", 90, 2),
    (b"/*/", 90, 3),
    (b"/**", 90, 3),
    (b"/**/", 0, 0),
    (b"/***/", 0, 0),
    (b"/*/*/", 0, 0),
    (b"/* /* */", 0, 0),
    (b"/* /* */ */", 90, 9),
    (b"/* // */", 0, 0),
    (b"// /*\n", 0, 0),
    (b"/* \" */", 0, 0),
    (b"a/**/=/**/1/**/;", 0, 0),
    (b"a//\n=//\n1//\n;", 0, 0),
    (b"a=1/;", 90, 2),
    (b"a=1/ /;", 90, 2),
    (b"a=1*/;", 90, 2),
    (b"a/=1;", 90, 0),
    (b"a=1//;", 90, 6),
    (b"a=1/*;", 90, 6),
    // Statements.
    (b"a", 90, 1),
    (b"a ", 90, 2),
    (b"a=", 90, 2),
    (b"a=1", 90, 3),
    (b"a=1;", 0, 0),
    (b"a=1;;", 90, 4),
    (b";", 90, 0),
    (b"=", 90, 0),
    (b"{", 90, 0),
    (b"}", 90, 0),
    (b"a{", 90, 2),
    (b"a{}", 0, 0),
    (b"a{}}", 90, 3),
    (b"a{};", 90, 3),
    (b"a{{", 90, 2),
    (b"a{b{}}", 90, 3),
    (b"a{b;", 90, 3),
    (b"a{b=1}", 90, 5),
    (b"a{b=1;", 90, 6),
    (b"a{b=1;}", 0, 0),
    (b"a==1;", 90, 2),
    (b"a=1=", 90, 3),
    (b"a=1 2;", 90, 4),
    (b"a b", 90, 2),
    (b"a=b;", 90, 2),
    (b"a=true;", 0, 0),
    (b"a=;", 90, 2),
    (b"a=(1);", 90, 2),
    (b"a='b';", 90, 2),
    (b"a(", 90, 1),
    (b"a)", 90, 1),
    (b"a'", 90, 1),
    (b"\"a\"", 90, 0),
    (b"\"a\"=1;", 90, 0),
    // Identifiers.
    (b"_=1;", 0, 0),
    (b"A_9z=1;", 0, 0),
    (b"9a=1;", 90, 0),
    (b"a-b=1;", 90, 0),
    (b"a\x80=1;", 90, 0),
    (b"true=1;", 0, 0),
    (b"@=1;", 90, 0),
    (b"[=1;", 90, 0),
    (b"`=1;", 90, 0),
    // Strings.
    (b"a=\"", 90, 3),
    (b"a=\"\";", 0, 0),
    (b"a=\"\\\"", 90, 5),
    (b"a=\"\\\"\";", 0, 0),
    (b"a=\"\\\\\";", 0, 0),
    (b"a=\"\\", 90, 4),
    (b"a=\"\\\\\\\"", 90, 7),
    (b"a=\"b\"\"c\";", 90, 5),
    (b"a=\"b\"c;", 90, 5),
    (b"\"", 90, 1),
    (b"a\"", 90, 2),
    (b"a=1\"", 90, 4),
    // The namespace.
    (b"namespace=\"\";", 0, 0),
    (b"NAMESPACE=\"a\";", 0, 0),
    (b"namespace=1;", 90, 10),
    (b"namespace=true;", 90, 10),
    (b"namespace=2147483648;", 90, 10),
    (b"a{namespace=1;}", 0, 0),
    (b"vertex{namespace=1;x=1;y=1;}", 0, 0),
    (b"namespace{}", 0, 0),
    // Known names at other places, and in other letters.
    (b"x=true;vertex=\"a\";", 0, 0),
    (b"VERTEX{X=1;Y=2;}", 0, 0),
    (b"vertex{x=1;y=2;v1=true;}", 0, 0),
    (b"vertex{x=1;y=2;x=true;}", 90, 17),
    (b"a{x=true;}", 0, 0),
    (b"vertex {x=1;y=2;", 90, 16),
    // Before and behind a block's opening brace, up to which the block from a place on is read.
    (b"vertex", 90, 6),
    (b"vertex(", 90, 6),
    (b"vertex/*{", 90, 9),
    (b"vertex//{", 90, 9),
    (b"vertex//\n{", 90, 10),
    (b"vertex/*{*/{", 90, 12),
    (b"vertex{", 90, 7),
    (b"vertex{(", 90, 7),
    (b"vertex{=", 90, 7),
    (b"vertex{{", 90, 7),
    (b"vertex{\"", 90, 8),
    (b"vertex{/*", 90, 9),
    (b"vertex{}", 92, 7),
    (b"vertex{x", 90, 8),
    (b"vertex{x=1;y=2;", 90, 15),
    (b"vertex{x=1;y=2;(", 90, 15),
    (b"vertex{thing{", 90, 12),
    (b"a{vertex{", 90, 8),
    (b"a{(}vertex{", 90, 2),
    (b"a{}vertex{(", 90, 10),
    (b"a=01;vertex{", 90, 2),
    (b"a=2147483648;vertex{", 91, 2),
    (b"a=1;vertex{01", 90, 11),
    (b"vertex{x=1;y=2;}thing{(", 90, 22),
    // Two faults: the first place, then the smallest number.
    (b"a=2147483648;b=01;", 91, 2),
    (b"a=01;b=2147483648;", 90, 2),
    (b"vertex{x=2147483648;}", 91, 9),
    (b"vertex{x=1;}a=01;", 92, 11),
    (b"vertex{x=1;y=01;}", 90, 13),
    (b"linedef{v1=1.;}", 90, 11),
    (b"linedef{v1=0.1234567;}", 90, 11),
    (b"linedef{secret=2147483648;}", 90, 15),
    (b"linedef{secret=0.1234567;}", 90, 15),
    (b"linedef{comment=2147483648;}", 90, 16),
    (b"linedef{v1=2147483648;}", 91, 11),
    (b"linedef{other=0.1234567;}", 91, 14),
];

/// Every listed value in an unknown field, and in one of each form.
fn values() -> Vec<Build> {
    // Which of the four forms a value has, by the lists; the last are over their limits, or none.
    let lists: [(&[&str], u32, &str); 7] = [
        (&WHOLES, 0, "WD?"),
        (&DECIMALS, 0, "D?"),
        (&STRINGS, 0, "T?"),
        (&KEYWORDS, 0, "F?"),
        (&LONG_WHOLES, 91, "WD?"),
        (&LONG_DECIMALS, 91, "D?"),
        (&NO_VALUES, 90, ""),
    ];
    let fields =
        [('W', "thing{angle="), ('D', "thing{height="), ('T', "thing{comment="), ('F', "thing{dm="), ('?', "thing{other=")];
    let mut all = Vec::new();
    for (list, number, fitting) in lists {
        for value in list {
            for (form, before) in fields {
                let text = format!("{before}{value};x=1;y=2;type=3;}}");
                let number = if fitting.contains(form) { number } else { 90 };
                all.push(build(text.into_bytes(), number, before.len()));
            }
            let number = if fitting.is_empty() { 90 } else { number };
            all.push(build(format!("a={value};").into_bytes(), number, 2));
        }
    }
    all
}

/// A block of a kind with the fields that it must have, but for one.
fn block(kind: usize, but: Option<&str>) -> String {
    let value = |name: &str| if name.starts_with("texture") { "\"A\"" } else { "1" };
    let required = KINDS[kind].fields.iter().filter(|field| field.2 && Some(field.0) != but);
    let fields: String = required.map(|field| format!("{}={};", field.0, value(field.0))).collect();
    format!("{}{{{fields}}}", KINDS[kind].name)
}

/// Each kind without each field that it must have, and with that field twice, unknown in its place, or under another name.
fn missing() -> Vec<Build> {
    let mut all = Vec::new();
    for (kind, Kind { fields, .. }) in KINDS.iter().enumerate() {
        all.push(build(block(kind, None).into_bytes(), 0, 0));
        for (name, ..) in fields.iter().filter(|field| field.2) {
            let without = block(kind, Some(name));
            let place = without.len() - 1;
            all.push(build(without.clone().into_bytes(), 92, place));
            let other = without.replace('}', &format!("{name}_=1;}}"));
            let place = other.len() - 1;
            all.push(build(other.into_bytes(), 92, place));
        }
    }
    all
}

/// As many blocks of a kind as there may be, and one more, good, faulty inside and cut short.
fn counts(kind: usize) -> Vec<Build> {
    let one = block(kind, None);
    let place = one.len() * MOST_BLOCKS;
    let name = KINDS[kind].name;
    let ends = [
        (String::new(), 0, 0),
        (one.clone(), 93, place),
        (format!(" {name}{{}}"), 93, place + 1),
        (format!("{name}{{("), 93, place),
        (format!("{name}{{\""), 93, place),
        (format!("{name}=1;"), 0, 0),
        (name.to_string(), 90, place + name.len()),
        (format!("{name}("), 90, place + name.len()),
        (format!("{name}/*"), 90, place + name.len() + 2),
        (format!("{name}\""), 90, place + name.len() + 1),
        (block((kind + 1) % 5, None), 0, 0),
    ];
    let build = |(end, number, place): (String, u32, usize)| -> Build {
        let one = one.clone();
        Box::new(move || {
            let mut text = one.repeat(MOST_BLOCKS).into_bytes();
            text.extend_from_slice(end.as_bytes());
            let places = [one.len(), one.len() * (MOST_BLOCKS - 1), one.len() * MOST_BLOCKS];
            let expected = match number {
                0 => Expected::Accepted,
                _ => Expected::Refused(Refusal::new(number, 0, place)),
            };
            asked("count of blocks", text, &places, expected, &mut Rng::new(52))
        })
    };
    ends.map(build).into_iter().collect()
}
