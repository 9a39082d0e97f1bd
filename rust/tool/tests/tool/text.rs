//! Text maps, as `text` and `judge` have them.

use crate::json_reader::{object, Value};
use crate::support::{good, lumps, Folder, GOOD};

/// A small map of all five kinds.
const SQUARE: &str = "namespace = \"Doom\";\n\
                      vertex { x = -0.5; y = 64; }\n\
                      Vertex { X = 0.; Y = -0.0; ours = 7; }\n\
                      linedef { v1 = 0; v2 = 1; sidefront = 0; blocking = true; comment = \"a \\\"b\\\"\"; }\n\
                      sidedef { sector = 0; texturemiddle = \"STARTAN3\"; }\n\
                      sector { texturefloor = \"FLOOR4_8\"; textureceiling = \"\"; heightceiling = 0x80; }\n\
                      thing { x = 1.25; y = 2; type = 1; friend = TRUE; }\n";

/// A folder whose a.wad has this text as MAP01.
fn with(text: impl AsRef<[u8]>) -> Folder {
    let entries =
        [(b"MAP01\0\0\0", vec![]), (b"TEXTMAP\0", text.as_ref().to_vec()), (b"ZNODES\0\0", vec![1, 2]), (b"ENDMAP\0\0", vec![])];
    Folder::with("a.wad", &lumps(&entries))
}

const SUMMARY: &str =
    "a.wad:MAP01: a text map: its grammar is good, 2 vertices, 1 linedef, 1 sidedef, 1 sector, 1 thing, namespace \"Doom\"; \
     its geometry is not judged";

#[test]
fn a_text_map_is_summed_up_and_its_blocks_told() {
    with(SQUARE).run(&["text", "a.wad", "map01"]).is(
        0,
        &[
            SUMMARY,
            "vertex 0: x -0.5, y 64",
            "vertex 1: x 0, y -0",
            "linedef 0: id 0, v1 0, v2 1, blocking, special 0, arg0 0, arg1 0, arg2 0, arg3 0, arg4 0, sidefront 0, sideback -1, \
             comment \"a \\\\\\\"b\\\\\\\"\"",
            "sidedef 0: offsetx 0, offsety 0, texturemiddle \"STARTAN3\", sector 0",
            "sector 0: heightfloor 0, heightceiling 128, texturefloor \"FLOOR4_8\", textureceiling \"\", lightlevel \
             160, special 0, id 0",
            "thing 0: id 0, x 1.25, y 2, height 0, angle 0, type 1, friend, special 0, arg0 0, arg1 0, arg2 0, arg3 0, arg4 0",
        ],
    );
}

#[test]
fn a_text_without_blocks_or_namespace_says_so() {
    let said = "a.wad:MAP01: a text map: its grammar is good, 0 vertices, 0 linedefs, 0 sidedefs, 0 sectors, 0 \
                things, no namespace; its \
                geometry is not judged";
    for text in ["", "// nothing\n", "vertex = 1;"] {
        with(text).run(&["text", "a.wad", "MAP01"]).is(0, &[said]);
        with(text).run(&["judge", "a.wad"]).is(1, &[said]);
    }
}

#[test]
fn json_has_every_field() {
    let said = with(SQUARE).run(&["text", "a.wad", "MAP01", "--json"]);
    assert_eq!((said.status, said.err.as_str()), (0, ""));
    let lines: Vec<&str> = said.out.lines().collect();
    assert_eq!(lines.len(), 7);
    assert!(lines[0].contains(r#""number":null,"place":null,"lump":null"#), "{}", lines[0]);
    let found = r#""found":{"namespace":"Doom","vertices":2,"linedefs":1,"sidedefs":1,"sectors":1,"things":1}"#;
    assert!(lines[0].contains(found), "{}", lines[0]);
    assert_eq!(
        lines[1],
        r#"{"format":1,"file":"a.wad","file_bytes":null,"map":"MAP01","block":"vertex","number":0,"fields":{"x":-0.5,"y":64}}"#
    );
    assert!(lines[3]
        .contains(r#""block":"linedef","number":0,"fields":{"id":0,"v1":0,"v2":1,"blocking":true,"blockmonsters":false,"#));
    assert!(lines[4].contains(r#""texturetop":null,"texturebottom":null,"texturemiddle":"STARTAN3","sector":0,"comment":null"#));
    assert!(
        lines[6].contains(r#""type":1,"skill1":false"#) && lines[6].contains(r#""coop":false,"friend":true,"dormant":false"#)
    );
    let fields = |line: &str| match object(line).pop() {
        Some((_, Value::Object(fields))) => fields,
        other => panic!("{other:?}"),
    };
    assert_eq!([1, 3, 4, 5, 6].map(|line| fields(lines[line]).len()), [2, 34, 7, 8, 31]);
    assert_eq!(fields(lines[1])[0], ("x".to_string(), Value::Decimal(-0.5)));
    assert_eq!(fields(lines[3])[3], ("blocking".to_string(), Value::Flag(true)));
}

#[test]
fn judge_says_that_a_text_map_is_one() {
    let folder = with(SQUARE).and("b.wad", &good());
    folder.run(&["judge", "a.wad"]).is(1, &[SUMMARY]);
    let doom = format!("b.wad:MAP01: {GOOD}");
    let all = "2 files: 1 map accepted, 1 text map of good grammar";
    folder.run(&["judge", "a.wad", "b.wad"]).is(1, &[SUMMARY, &doom, all]);
    folder.run(&["judge", "--quiet", "a.wad", "b.wad"]).is(1, &[SUMMARY]);
    let said = folder.run(&["judge", "--base", "a.wad", "b.wad", "--map", "MAP01"]);
    assert!(said.out.starts_with("b.wad:MAP01: accepted (of the patch)"), "{said:?}");
    let said = folder.run(&["judge", "--base", "b.wad", "a.wad"]);
    said.is(1, &[&format!("{SUMMARY} (of the patch)")]);
}

/// The lines that are said of a refused text, by both commands.
fn refused(text: impl AsRef<[u8]>) -> Vec<String> {
    let folder = with(text);
    let [one, two] = ["text", "judge"].map(|command| {
        let map: &[&str] = if command == "text" { &["MAP01"] } else { &[] };
        folder.run(&[&[command, "a.wad"], map].concat())
    });
    assert_eq!((one.status, &one.out, one.err.as_str()), (1, &two.out, ""));
    assert_eq!(two.status, 1);
    one.out.lines().map(str::to_string).collect()
}

#[test]
fn a_fault_is_shown_with_its_line_and_a_caret() {
    let lines = refused("namespace = \"Doom\";\nvertex {\n\tx = 1;\n\ty = 2147483648; // too far\n}\n");
    assert!(lines[0].starts_with("a.wad:MAP01: refused 91 at TEXTMAP 4:6: `2147483648` is no number of 32 bits: "), "{lines:?}");
    assert_eq!(lines[1..], ["    \ty = 2147483648; // too far", "    \t    ^"]);
    let lines = refused("vertex { x = 1; }");
    assert!(lines[0].starts_with("a.wad:MAP01: refused 92 at TEXTMAP 1:17: this vertex has no y"), "{lines:?}");
    assert_eq!(lines[1..], ["    vertex { x = 1; }", "                    ^"]);
    let lines = refused("a = \"b");
    let words = "the string that opens at 1:5 is not closed: expected `\"`, found the end of the text";
    assert_eq!(lines[0], format!("a.wad:MAP01: refused 90 at TEXTMAP 1:7: {words}"));
    assert_eq!(lines[1..], ["    a = \"b", "          ^", "    the string opens at 1:5:", "    a = \"b", "        ^"]);
}

#[test]
fn a_fault_in_a_hostile_line_is_shown_safely() {
    let lines = refused(b"\x1b]0;\x07\xff = 1;\r\n");
    assert!(lines[0].contains("refused 90 at TEXTMAP 1:1: "), "{lines:?}");
    assert_eq!(lines[1..], [r"    \x1b]0;\x07\xff = 1;", "    ^"]);
    let lines = refused([vec![b' '; 5_000], b"a = 01;".to_vec(), vec![b'b'; 5_000]].concat());
    assert!(lines[0].contains("refused 90 at TEXTMAP 1:5005: "), "{lines:?}");
    assert_eq!((lines[1].len(), lines[2].len()), (4 + 2 + 100 + 2, 4 + 2 + 50 + 1));
    assert_eq!(lines[1].as_bytes()[lines[2].len() - 1], b'0');
}

#[test]
fn a_fault_in_json_has_its_place() {
    let said = with("a = 1;\nb = 01;").run(&["text", "a.wad", "MAP01", "--json"]);
    assert_eq!((said.status, said.out.lines().count()), (1, 1));
    assert!(said.out.contains(r#""number":90,"place":null,"lump":"TEXTMAP","record":11,"found":null,"#), "{said:?}");
    assert!(said.out.contains(r#""reason":{"line":2,"column":5,"source":"b = 01;","expected":"a value (a number, a string in double quotes, true or false) for `b`","found":"`01`, and no 0 may stand before other digits","opened":null,"missing":[]}"#), "{said:?}");
    object(said.out.trim_end());
}

#[test]
fn what_is_no_text_map_is_said() {
    let folder = with("").and("b.wad", &good());
    let said = folder.run(&["text", "b.wad", "MAP01"]);
    let words = "meshpigeon: b.wad: MAP01 is no text map: TEXTMAP must be the entry after its marker\n";
    assert_eq!((said.status, said.out.as_str(), said.err.as_str()), (2, "", words));
    folder
        .run(&["text", "a.wad", "MAP02"])
        .is(1, &["a.wad:MAP02: refused 11: the file has no map of that name; the only map is MAP01"]);
    assert!(folder.run(&["text", "a.wad", "TEXTMAP"]).out.starts_with("a.wad:TEXTMAP: refused 10: "));
    assert_eq!(folder.run(&["text", "none.wad", "MAP01"]).status, 2);
    for wrong in [&["text"][..], &["text", "a.wad"], &["text", "a.wad", "MAP01", "more"], &["text", "a.wad", "MAP01", "--quiet"]]
    {
        assert_eq!(folder.run(wrong).status, 3, "{wrong:?}");
    }
    let apart = lumps(&[(b"MAP01\0\0\0", vec![]), (b"OTHER\0\0\0", vec![]), (b"TEXTMAP\0", vec![])]);
    let said = Folder::with("a.wad", &apart).run(&["judge", "a.wad"]);
    assert!(said.out.starts_with("a.wad:MAP01: refused 12 at THINGS: "), "{said:?}");
}
