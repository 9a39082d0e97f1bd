//! The schema in docs/TOOL.md, and every kind of object that the tool prints, held to it.

use crate::json_reader::{value_of, Value};
use crate::support::{changed, good, lumps, palette, Folder};
use generator::{PictureSpec, Plan};
use std::ffi::OsStr;
use std::os::unix::ffi::OsStrExt;
use std::sync::OnceLock;

/// The one block of JSON on the page.
fn schema() -> &'static Value {
    static SCHEMA: OnceLock<Value> = OnceLock::new();
    SCHEMA.get_or_init(|| {
        let page = include_str!("../../../../docs/TOOL.md");
        let (_, rest) = page.split_once("```json\n").expect("a block of JSON");
        value_of(rest.split_once("```").expect("its end").0)
    })
}

/// Asserts that a line keeps to the schema.
pub fn holds(line: &str) {
    if let Err(why) = fits(&value_of(line), schema()) {
        panic!("{why}: {line}");
    }
}

fn member<'a>(object: &'a Value, key: &str) -> Option<&'a Value> {
    match object {
        Value::Object(members) => members.iter().find(|(it, _)| it == key).map(|(_, value)| value),
        _ => None,
    }
}

fn list(value: Option<&Value>) -> &[Value] {
    match value {
        Some(Value::List(values)) => values,
        _ => &[],
    }
}

/// What a schema may say; a word that is not here would go unheard.
const WORDS: [&str; 15] = [
    "$ref", "$defs", "anyOf", "type", "const", "enum", "properties", "required", "additionalProperties", "items", "minimum",
    "maximum", "minLength", "maxLength", "maxItems",
];

/// Whether a value fits a schema, or why not.
fn fits(value: &Value, rule: &Value) -> Result<(), String> {
    let Value::Object(words) = rule else { return Err(format!("{rule:?} is no schema")) };
    if let Some((word, _)) = words.iter().find(|(word, _)| !WORDS.contains(&word.as_str()) && word != "title") {
        return Err(format!("{word} is not understood"));
    }
    if let Some(Value::Text(path)) = member(rule, "$ref") {
        let name = path.strip_prefix("#/$defs/").ok_or("a strange path")?;
        let target = member(schema(), "$defs").and_then(|defs| member(defs, name)).ok_or(format!("no {path}"))?;
        return fits(value, target);
    }
    let any = list(member(rule, "anyOf"));
    if !any.is_empty() && any.iter().all(|rule| fits(value, rule).is_err()) {
        let why: Vec<String> = any.iter().filter_map(|rule| fits(value, rule).err()).collect();
        return Err(format!("none of {} fits: {}", any.len(), why.join(" | ")));
    }
    if member(rule, "const").is_some_and(|wanted| wanted != value) {
        return Err(format!("{value:?} is not the constant"));
    }
    if member(rule, "enum").is_some() && !list(member(rule, "enum")).contains(value) {
        return Err(format!("{value:?} is none of the enum"));
    }
    is_of_type(value, member(rule, "type"))?;
    is_in_bounds(value, rule)?;
    match value {
        Value::Object(members) => object_fits(members, rule),
        Value::List(values) => values.iter().try_for_each(|value| member(rule, "items").map_or(Ok(()), |rule| fits(value, rule))),
        _ => Ok(()),
    }
}

fn is_of_type(value: &Value, wanted: Option<&Value>) -> Result<(), String> {
    let name = match value {
        Value::Null => "null",
        Value::Number(_) => "integer",
        Value::Decimal(_) => "number",
        Value::Flag(_) => "boolean",
        Value::Text(_) => "string",
        Value::Object(_) => "object",
        Value::List(_) => "array",
    };
    let is = |wanted: &Value| matches!(wanted, Value::Text(word) if word == name || (word == "number" && name == "integer"));
    match wanted {
        None => Ok(()),
        Some(Value::List(names)) if names.iter().any(is) => Ok(()),
        Some(one) if is(one) => Ok(()),
        Some(other) => Err(format!("{value:?} is no {other:?}")),
    }
}

fn is_in_bounds(value: &Value, rule: &Value) -> Result<(), String> {
    let bound = |word: &str| match member(rule, word) {
        Some(Value::Number(number)) => Some(*number),
        _ => None,
    };
    let (size, least, most) = match value {
        Value::Number(number) => (*number, bound("minimum"), bound("maximum")),
        Value::Text(text) => (text.chars().count() as i64, bound("minLength"), bound("maxLength")),
        Value::List(values) => (values.len() as i64, None, bound("maxItems")),
        _ => return Ok(()),
    };
    let is_good = least.is_none_or(|least| size >= least) && most.is_none_or(|most| size <= most);
    is_good.then_some(()).ok_or(format!("{size} is not {least:?} to {most:?}"))
}

fn object_fits(members: &[(String, Value)], rule: &Value) -> Result<(), String> {
    for key in list(member(rule, "required")) {
        if !members.iter().any(|(it, _)| Value::Text(it.clone()) == *key) {
            return Err(format!("{key:?} is missing"));
        }
    }
    let known = member(rule, "properties");
    let is_closed = member(rule, "additionalProperties") == Some(&Value::Flag(false));
    members.iter().try_for_each(|(key, value)| match known.and_then(|known| member(known, key)) {
        Some(rule) => fits(value, rule).map_err(|why| format!("{key}: {why}")),
        None if is_closed => Err(format!("{key} is not known")),
        None => Ok(()),
    })
}

/// Runs a command, and holds each line to the schema.
fn lines<S: AsRef<OsStr>>(folder: &Folder, arguments: &[S]) {
    let said = folder.run(arguments);
    assert!(!said.out.is_empty(), "{said:?}");
    said.out.lines().for_each(holds);
}

#[test]
fn the_schema_is_no_empty_one() {
    assert!(fits(&value_of("{}"), schema()).is_err());
    assert!(fits(&value_of(r#"{"format":1,"file":"a","file_bytes":null}"#), schema()).is_err());
    let said = Folder::with("a.wad", &good()).run(&["judge", "--json", "a.wad"]);
    for (old, new) in [
        (r#""format":1"#, r#""format":2"#),
        (r#""verdict":"accepted""#, r#""verdict":"good""#),
        (r#""depth":2"#, r#""depth":"2""#),
        (r#""crc32":""#, r#""crc32":"0"#),
        (r#""game":"Doom","#, ""),
        (r#""more":null"#, r#""more":null,"other":1"#),
    ] {
        let wrong = said.out.trim_end().replacen(old, new, 1);
        assert_ne!(wrong, said.out.trim_end());
        assert!(fits(&value_of(&wrong), schema()).is_err(), "{wrong}");
    }
}

#[test]
fn verdicts_keep_to_the_schema() {
    let textmap = |text: &[u8]| lumps(&[(b"MAP01\0\0\0", vec![]), (b"TEXTMAP\0", text.to_vec())]);
    let files = [
        ("good.wad", good()),
        ("field.wad", changed(|map| (map.linedefs[5].right, map.sidedefs[7].sector) = (99, 4))),
        ("loop.wad", changed(|map| map.nodes[1].right = 2)),
        ("shared.wad", changed(|map| map.nodes[2].right = 0)),
        ("text.wad", textmap(b"namespace = \"Doom\";")),
        ("open.wad", textmap(b"a = \"")),
        ("field92.wad", textmap(b"thing { }")),
        ("none.wad", lumps(&[])),
        ("unnamed.wad", Plan::new(generator::rooms(), *b"MYMAP\0\0\0").wad()),
        ("hexen.wad", Plan::wad_of(generator::hexen_rooms())),
        ("hello.wad", b"hello, world".to_vec()),
        ("short.wad", b"PWAD".to_vec()),
        ("\u{202e}\n\"\\.wad", good()),
    ];
    let folder = files.iter().fold(Folder::new(), |folder, (name, bytes)| folder.and(name, bytes));
    let folder = folder.and(OsStr::from_bytes(b"\xff.wad"), &good());
    lines(&folder, &["judge", "--json", "--all", ".", "missing.wad"]);
    lines(&folder, &["judge", "--json", "--map", "MAP01", "--map", "MAP02", "--map", "HELLO", "."]);
    lines(&folder, &["judge", "--json", "--base", "good.wad", "none.wad", "loop.wad", "short.wad"]);
    lines(&folder, &["judge", "--json", "--base", "short.wad", "none.wad"]);
}

#[test]
fn answers_keep_to_the_schema() {
    let picture = PictureSpec::blank(3, 2).encode();
    let text = b"vertex { x = 0.5; y = 1; } sidedef { sector = 0; comment = \"a\"; } thing { x = 1; y = 2; type = 3; }".to_vec();
    let folder = Folder::with("a.wad", &good())
        .and("b.wad", &changed(|map| map.vertices[0].x = 5))
        .and("p.wad", &lumps(&[(b"P\0\0\0\0\0\0\0", picture), (b"PLAYPAL\0", palette())]))
        .and("t.wad", &lumps(&[(b"MAP01\0\0\0", vec![]), (b"TEXTMAP\0", text)]))
        .and("in.pgm", b"P5 1 1 255\n.");
    for arguments in [
        &["list", "a.wad"][..],
        &["index", "a.wad", "-o", "a.wix"],
        &["index", "a.wad", "--check", "a.wix"],
        &["list", "a.wad", "--name", "NODES", "--index", "a.wix"],
        &["list", "a.wad", "--name", "HELLO", "--index", "a.wix"],
        &["extract", "a.wad", "MAP01", "-o", "o.wad"],
        &["extract", "p.wad", "PLAYPAL", "-o", "o.wad"],
        &["descend", "a.wad", "MAP01", "0", "0"],
        &["order", "a.wad", "MAP01", "0", "0", "-o", "o.svg"],
        &["picture", "p.wad", "P", "-o", "o.png"],
        &["encode", "in.pgm", "-o", "o.lmp"],
        &["renumber", "a.wad", "MAP01", "-o", "o.wad"],
        &["diff", "a.wad", "b.wad"],
        &["diff", "a.wad", "b.wad", "--records"],
        &["diff", "a.wad", "p.wad"],
        &["text", "t.wad", "MAP01"],
        &["sidedefs", "5"],
        &["index", "none.wad", "-o", "a.wix"],
        &["encode", "a.wad", "-o", "o.lmp"],
    ] {
        lines(&folder, &[arguments, &["--json"]].concat());
    }
}
