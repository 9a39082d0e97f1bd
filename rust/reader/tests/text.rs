//! Text maps (W-206): the request's sentences, and document 002's fields and defaults, one by one.

use reader::*;

fn refused(text: &str) -> (u32, usize) {
    let refusal = text_map(text.as_bytes()).expect_err(text);
    assert_eq!(refusal.place, 0);
    (refusal.number, refusal.record)
}

fn vertex(x: &str) -> f64 {
    let text = format!("vertex {{ x = {x}; y = 0; }}");
    text_vertex(text.as_bytes(), 0).unwrap_or_else(|refusal| panic!("{x}: {refusal:?}")).0.x
}

fn angle(number: &str) -> i32 {
    let text = format!("thing {{ x = 0; y = 0; type = 1; angle = {number}; }}");
    text_thing(text.as_bytes(), 0).unwrap_or_else(|refusal| panic!("{number}: {refusal:?}")).0.angle
}

#[test]
fn a_summary_has_the_last_namespace_and_the_counts() {
    let text =
        br#"namespace = "Hexen"; Vertex { x = 1; y = 2; } nameSpace = "Do\"om"; other { x = "a"; } vertex { x = 1; y = 2; }"#;
    let map = text_map(text).unwrap();
    assert_eq!((&text[map.namespace.start..map.namespace.end], map.counts), (&br#"Do\"om"#[..], [2, 0, 0, 0, 0]));
    assert_eq!(text_map(b"").unwrap(), TextMap { namespace: Quoted { start: 0, end: 0 }, counts: [0; 5] });
}

#[test]
fn whole_numbers_fit_32_signed_bits() {
    assert_eq!(["0", "-0", "+0", "7", "-2147483648", "+2147483647"].map(angle), [0, 0, 0, 7, i32::MIN, i32::MAX]);
    assert_eq!(["0x0", "0x7fffFFFF", "0x00000000000001f"].map(angle), [0, i32::MAX, 31]);
    for number in ["2147483648", "-2147483649", "0x80000000", "0x100000000", "99999999999999999999"] {
        assert_eq!(refused(&format!("a={number};")), (91, 2), "{number}");
    }
    for word in ["00", "01", "-01", "0X1", "0x", "-0x1", "+", "1e5", "0x1g"] {
        assert_eq!(refused(&format!("a={word};")), (90, 2), "{word}");
    }
}

#[test]
fn a_decimal_is_its_digits_divided_once() {
    assert_eq!(["0.1", "-1.5", "1.", "00.5", "+2.25", "7"].map(vertex), [0.1, -1.5, 1.0, 0.5, 2.25, 7.0]);
    assert_eq!(vertex("999999999.999999"), 999_999_999_999_999_f64 / 1_000_000.0);
    assert_eq!(["-0", "-0.0", "0.0"].map(|zero| vertex(zero).is_sign_negative()), [false, true, false]);
    for number in ["0.1234567", "1234567890.123456", "0000000000000000."] {
        assert_eq!(refused(&format!("a={number};")), (91, 2), "{number}");
    }
    for word in [".5", "-.5", ".", "1.5e3", "1.2.3"] {
        assert_eq!(refused(&format!("a={word};")), (90, 2), "{word}");
    }
}

#[test]
fn a_backslash_takes_the_next_byte_and_comments_do_not_nest() {
    assert_eq!(refused(r#"a = "\""#), (90, 7));
    assert_eq!(refused("/* /* */ */"), (90, 9));
    assert_eq!(refused("a = 1; /* b"), (90, 11));
    assert!(text_map(b"a/**/=//\n1/* ; */;").is_ok());
}

#[test]
fn a_known_field_takes_its_kind_and_other_names_any() {
    assert_eq!(refused("vertex { x = true; }"), (90, 13));
    assert_eq!(refused("linedef { v1 = 1.0; }"), (90, 15));
    assert_eq!(refused("linedef { blocking = 99999999999; }"), (90, 21));
    assert_eq!(refused("namespace = 1;"), (90, 12));
    assert!(text_map(b"x = true; vertex { v1 = \"a\"; x = 1; y = 2; namespace = 3; }").is_ok());
}

#[test]
fn a_missing_field_is_told_at_the_closing_brace_and_the_first_place_wins() {
    assert_eq!(refused("vertex { x = 1; }"), (92, 16));
    assert_eq!(refused("vertex { x = 99999999999; }"), (91, 13));
    assert_eq!(refused("vertex { x = 1; } a = 01;"), (92, 16));
    assert_eq!(refused("vertex { thing { } }"), (90, 15));
}

#[test]
fn a_block_over_the_count_is_told_at_its_name() {
    let one = "vertex{x=1;y=2;}";
    let most = one.repeat(65_535);
    assert_eq!(text_map(most.as_bytes()).unwrap().counts[0], 65_535);
    assert_eq!(refused(&(most.clone() + " vertex{(")), (93, most.len() + 1));
    assert!(text_map((most + "vertex=1;").as_bytes()).is_ok());
}

#[test]
fn of_a_repeated_field_the_last_value_counts() {
    assert_eq!(text_vertex(b"vertex{x=1;y=2;X=3;}", 0).unwrap().0, TextVertex { x: 3.0, y: 2.0 });
}

#[test]
fn a_number_that_is_not_below_the_count_comes_after_every_fault() {
    assert_eq!(text_vertex(b"vertex{x=1;y=2;}", 1), Err(Refusal::plain(94)));
    assert_eq!(text_vertex(b"vertex{x=1;y=2;} a", 7), Err(Refusal::new(90, 0, 18)));
    assert_eq!(text_thing(b"vertex{x=1;y=2;}", 0).unwrap_err().number, 94);
}

#[test]
fn defaults_are_those_of_document_002() {
    let linedef = text_linedef(b"linedef{v1=4;v2=5;sidefront=6;}", 0).unwrap().0;
    assert_eq!((linedef.id, linedef.v1, linedef.v2, linedef.sidefront, linedef.sideback), (-1, 4, 5, 6, -1));
    assert_eq!((linedef.special, linedef.repeatspecial, linedef.comment), (0, false, Quoted::default()));
    let sector = text_sector(b"sector{texturefloor=\"\";textureceiling=\"a\";}", 0).unwrap().0;
    assert_eq!((sector.lightlevel, sector.heightfloor, sector.id), (160, 0, 0));
    assert_eq!(sector.texturefloor, Quoted { start: 21, end: 21 });
    let sidedef = text_sidedef(b"sidedef{sector=1;}", 0).unwrap().0;
    assert_eq!((sidedef.offsetx, sidedef.texturetop), (0, Quoted::default()));
    let thing = text_thing(b"thing{x=1;y=2;type=3;}", 0).unwrap().0;
    assert_eq!((thing.id, thing.height, thing.angle, thing.r#type, thing.friendly), (0, 0.0, 0, 3, false));
}

#[test]
fn a_linedefs_id_goes_by_the_last_namespace_byte_for_byte() {
    let id = |namespace: &str| {
        let text = format!("namespace=\"Doom\";linedef{{v1=1;v2=2;sidefront=3;}}namespace=\"{namespace}\";");
        text_linedef(text.as_bytes(), 0).unwrap().0.id
    };
    assert_eq!(["Doom", "Heretic", "Strife"].map(id), [0; 3]);
    assert_eq!(["Hexen", "doom", "Doom ", " Doom", "", "DoomX", "Doo"].map(id), [-1; 7]);
}

#[test]
fn blocks_are_read_from_any_place_as_if_the_text_began_there() {
    let text = b"a=1; vertex{x=1;y=2;} thing{x=3;y=4;type=5;}";
    assert_eq!(text_block(text, 0), Ok(TextBlock { kind: 1, start: 5 }));
    assert_eq!(text_vertex_at(text, 5).map(|(_, next)| next), Ok(21));
    assert_eq!(text_block(text, 21), Ok(TextBlock { kind: 5, start: 22 }));
    assert_eq!(text_block(text, 44), Err(Refusal::plain(94)));
    assert_eq!(text_block(text, usize::MAX), Err(Refusal::plain(94)));
    assert_eq!(text_block(text, 1), Err(Refusal::new(90, 0, 1)));
    assert_eq!(text_block(text, 12), Err(Refusal::new(90, 0, 20)));
    assert_eq!(text_thing_at(text, 0).map(|(thing, next)| (thing.r#type, next)), Ok((5, 44)));
    assert_eq!(text_vertex_at(text, 21), Err(Refusal::plain(94)));
    let line = b"linedef{v1=1;v2=2;sidefront=3;}Doom";
    for (start, end, id) in [(31, 35, 0), (31, usize::MAX, 0), (31, 34, -1), (35, 31, -1), (usize::MAX, usize::MAX, -1)] {
        assert_eq!(text_linedef_at(&line[..31], 0, Quoted { start, end }).unwrap().0.id, -1);
        let text = [&line[..31], b"//", &line[31..]].concat();
        let namespace = Quoted { start: start.saturating_add(2), end: end.saturating_add(2) };
        assert_eq!(text_linedef_at(&text, 0, namespace).unwrap().0.id, id);
    }
}

#[test]
fn a_block_is_found_by_what_stands_up_to_its_opening_brace() {
    let faults =
        [("", 90, 7), ("(", 90, 7), ("\"", 90, 8), ("/*", 90, 9), ("x=true;}", 90, 9), ("x=2147483648;}", 91, 9), ("}", 92, 7)];
    for (behind, number, place) in faults {
        let text = format!("vertex{{{behind}");
        assert_eq!(text_block(text.as_bytes(), 0), Ok(TextBlock { kind: 1, start: 0 }), "{text}");
        assert_eq!(text_vertex_at(text.as_bytes(), 0), Err(Refusal::new(number, 0, place)), "{text}");
    }
    let faults =
        [("vertex", 90, 6), ("vertex/*{", 90, 9), ("vertex(", 90, 6), ("a=01;vertex{", 90, 2), ("a=0x80000000;vertex{", 91, 2)];
    for (text, number, place) in faults {
        assert_eq!(text_block(text.as_bytes(), 0), Err(Refusal::new(number, 0, place)), "{text}");
    }
    assert_eq!(text_block(b"a{(}vertex{", 0), Err(Refusal::new(90, 0, 2)));
    assert_eq!(text_block(b"a{}vertex=1;", 0), Err(Refusal::plain(94)));
}

#[test]
fn a_block_that_is_one_too_many_is_found_from_a_later_place() {
    let text = "vertex{x=1;y=2;}".repeat(65_536);
    assert_eq!(text_thing_at(text.as_bytes(), 0), Err(Refusal::new(93, 0, 16 * 65_535)));
    for start in [0, 16, 16 * 65_535] {
        assert_eq!(text_block(text.as_bytes(), start), Ok(TextBlock { kind: 1, start }));
    }
}
