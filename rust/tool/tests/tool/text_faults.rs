//! What is said of a text map that is refused: what was expected and what was found, the field that is missing, and where it opened.

use crate::json_reader::{object, Value};
use crate::support::{lumps, Folder, Said};
use generator::{text_case, Rng};

/// A folder whose a.wad has this text as MAP01.
fn with(text: impl AsRef<[u8]>) -> Folder {
    Folder::with("a.wad", &lumps(&[(b"MAP01\0\0\0", vec![]), (b"TEXTMAP\0", text.as_ref().to_vec()), (b"ENDMAP\0\0", vec![])]))
}

/// The members of the reason of the one object that was printed.
fn reason(said: &Said) -> Vec<(String, Value)> {
    match object(said.out.trim_end()).into_iter().find(|(key, _)| key == "reason") {
        Some((_, Value::Object(members))) => members,
        other => panic!("{other:?}"),
    }
}

fn member(members: &[(String, Value)], key: &str) -> Value {
    members.iter().find(|(it, _)| it == key).expect("the key").1.clone()
}

/// Asserts the first line that is said of a text behind `refused`, by both commands and in JSON.
fn told(text: impl AsRef<[u8]>, words: &str) -> Vec<(String, Value)> {
    let folder = with(text);
    for arguments in [&["judge", "a.wad"][..], &["text", "a.wad", "MAP01"]] {
        let said = folder.run(arguments);
        assert_eq!(said.out.lines().next(), Some(format!("a.wad:MAP01: refused {words}").as_str()));
        assert_eq!((said.status, said.err.as_str()), (1, ""));
    }
    let said = folder.run(&["judge", "a.wad", "--json"]);
    let sentence = words.split_once(": ").expect("a sentence").1;
    assert_eq!(member(&object(said.out.trim_end()), "text"), Value::Text(sentence.to_string()));
    reason(&said)
}

#[test]
fn what_was_expected_and_what_was_found_is_told() {
    for (text, place, expected, found) in [
        ("vertex { x = 1; y = 2 }", "1:23", "`;` after the value", "`}`"),
        ("vertex x = 1;", "1:8", "`=` or `{` after `vertex`", "`x`"),
        ("vertex { x 1; }", "1:12", "`=` after `x`", "`1`"),
        ("12 = 1;", "1:1", "a name", "`12`"),
        ("}", "1:1", "a name", "`}`"),
        ("vertex { x = 1; 5", "1:17", "a name or `}`", "`5`"),
        ("a = 1;\nvertex { x = 1;", "2:16", "`}` to end the block that begins at 2:1", "the end of the text"),
        ("thing { type = \"a\"; }", "1:16", "a whole number for `type`", "the string \"a\""),
        ("thing { angle = 1.5; }", "1:17", "a whole number for `angle`", "`1.5`"),
        ("Thing { X = true; }", "1:13", "a number for `X`", "`true`"),
        ("linedef { blocking = 1; }", "1:22", "true or false for `blocking`", "`1`"),
        ("namespace = 1;", "1:13", "a string in double quotes for `namespace`", "`1`"),
        ("vertex { x = 01; }", "1:14", "a number for `x`", "`01`, and no 0 may stand before other digits"),
        ("vertex { x = -.5; }", "1:14", "a number for `x`", "`-.5`, and a digit must stand before the point"),
        ("sidedef { sector = 1e3; }", "1:20", "a whole number for `sector`", "`1e3`, and no exponent is allowed"),
        (
            "a = 'b';",
            "1:5",
            "a value (a number, a string in double quotes, true or false) for `a`",
            "`'`, and strings have double quotes",
        ),
        ("a = ;", "1:5", "a value (a number, a string in double quotes, true or false) for `a`", "`;`"),
        ("a", "1:2", "`=` or `{` after `a`", "the end of the text"),
        ("a =", "1:4", "a value (a number, a string in double quotes, true or false) for `a`", "the end of the text"),
    ] {
        let members = told(text, &format!("90 at TEXTMAP {place}: expected {expected}, found {found}"));
        assert_eq!(member(&members, "expected"), Value::Text(expected.to_string()));
        assert_eq!(member(&members, "found"), Value::Text(found.to_string()));
        assert_eq!(member(&members, "opened"), Value::Null);
    }
}

#[test]
fn long_and_hostile_words_are_shown_safely() {
    told(
        b"a = \x1b[2J\xff;",
        r"90 at TEXTMAP 1:5: expected a value (a number, a string in double quotes, true or false) for `a`, found `\x1b[2J\xff`",
    );
    let word = "b".repeat(5_000);
    let words = format!("90 at TEXTMAP 1:6: expected `=` after `a`, found `{}..`", "b".repeat(24));
    told(format!("t{{ a {word} }}"), &words);
}

#[test]
fn what_is_not_closed_is_shown_where_it_opened() {
    let folder = with("a = 1;\nb = \"open;\nc = 2;\n");
    let lines = [
        "a.wad:MAP01: refused 90 at TEXTMAP 4:1: the string that opens at 2:5 is not closed: expected `\"`, found the \
         end of the text",
        "    ",
        "    ^",
        "    the string opens at 2:5:",
        "    b = \"open;",
        "        ^",
    ];
    folder.run(&["judge", "a.wad"]).is(1, &lines);
    let members = told(
        "a = 1; /* b\n c",
        "90 at TEXTMAP 2:3: the comment that opens at 1:8 is not closed: expected `*/`, found the end of the text",
    );
    let Value::Object(opened) = member(&members, "opened") else { panic!("{members:?}") };
    assert_eq!([member(&opened, "line"), member(&opened, "column")], [Value::Number(1), Value::Number(8)]);
}

#[test]
fn a_number_over_its_limits_is_told_with_the_limit() {
    told(
        "vertex { x = 2147483648; }",
        "91 at TEXTMAP 1:14: `2147483648` is no number of 32 bits: -2,147,483,648 to 2,147,483,647 are allowed",
    );
    told(
        "a = 0x80000000;",
        "91 at TEXTMAP 1:5: `0x80000000` is no number of 32 bits: -2,147,483,648 to 2,147,483,647 are allowed",
    );
    told(
        "a = 1.1234567;",
        "91 at TEXTMAP 1:5: `1.1234567` has 8 digits, 7 of them behind the point: at most 15 and 6 are allowed",
    );
}

#[test]
fn a_missing_field_is_named() {
    for (text, place, words, missing) in [
        ("thing { x = 1; type = 2; }", "1:26", "this thing has no y", &["y"][..]),
        ("Thing { }", "1:9", "this thing has no x, no y and no type", &["x", "y", "type"]),
        ("vertex { X = 1; }", "1:17", "this vertex has no y", &["y"]),
        ("linedef { v1 = 1; }", "1:19", "this linedef has no v2 and no sidefront", &["v2", "sidefront"]),
        ("sidedef { ours = 1; }", "1:21", "this sidedef has no sector", &["sector"]),
        ("sector { textureceiling = \"A\"; }", "1:32", "this sector has no texturefloor", &["texturefloor"]),
    ] {
        let members = told(text, &format!("92 at TEXTMAP {place}: {words}"));
        let list = missing.iter().map(|field| Value::Text(field.to_string())).collect();
        assert_eq!(member(&members, "missing"), Value::List(list));
    }
}

#[test]
fn one_block_too_many_is_named_by_its_kind() {
    let text = "sidedef{sector=0;}".repeat(65_536);
    told(text, "93 at TEXTMAP 1:1179631: this sidedef is one too many: a text map has at most 65,535 of each kind");
}

/// The tool's own look comes to the library's place on every fault that the generator makes.
#[test]
fn generated_faults_are_told() {
    let (mut rng, mut count) = (Rng::new(7), 0);
    for _ in 0..600 {
        let case = text_case(&mut rng);
        let Err(refusal) = meshpigeon::text::map(&case.bytes) else { continue };
        if case.bytes.len() < 2_000 {
            let said = with(&case.bytes).run(&["judge", "a.wad"]);
            let is_told = ["expected ", " is no number of 32 bits", " digits, ", " has no ", " is one too many"];
            assert!(is_told.iter().any(|words| said.out.contains(words)), "{refusal:?} {said:?}");
            count += 1;
        }
    }
    assert!(count > 20, "{count}");
}
