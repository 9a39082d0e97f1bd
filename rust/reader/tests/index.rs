//! W-210: a name index beside the file, on files made by hand.

use reader::{directory, index_build, index_check, index_find, IndexRecord, IndexSearch, Refusal};

/// A file with these names and no lump of any size.
fn wad(names: &[[u8; 8]]) -> Vec<u8> {
    let directory: Vec<u8> = names.iter().flat_map(|name| [&[0; 8][..], name].concat()).collect();
    [&b"PWAD"[..], &(names.len() as u32).to_le_bytes(), &12_u32.to_le_bytes(), &directory].concat()
}

/// The index of a good file.
fn index(wad: &[u8]) -> Vec<u8> {
    let count = directory(wad).expect("a good file").count;
    let (mut records, mut out) = (vec![IndexRecord::default(); count], vec![0; 11 + 10 * count]);
    assert_eq!(index_build(wad, &mut records, &mut out), Ok(out.len()));
    out
}

fn refused<T>(number: u32) -> Result<T, Refusal> {
    Err(Refusal::plain(number))
}

fn found(entry: usize, compared: usize) -> IndexSearch {
    IndexSearch { entry: Ok(entry), compared }
}

fn lost(number: u32, compared: usize) -> IndexSearch {
    IndexSearch { entry: refused(number), compared }
}

/// Five entries, of which three have one name, with three kinds of rubbish after its zero.
const NAMES: [[u8; 8]; 5] = [*b"SKY1\0\0\0\0", *b"ABCDEFGH", *b"SKY1\0zzz", *b"SKY\0\xFF\xFF\xFF\xFF", *b"SKY1\0\0\0A"];

#[test]
fn the_bytes_of_an_index() {
    let wad = wad(&NAMES);
    let parts = [
        &b"WIX\x01\0\x05\0\x5C\0\0\0"[..],
        b"ABCDEFGH\x01\0",
        b"SKY\0\0\0\0\0\x03\0",
        b"SKY1\0\0\0\0\0\0",
        b"SKY1\0\0\0\0\x02\0",
        b"SKY1\0\0\0\0\x04\0",
    ];
    assert_eq!(index(&wad), parts.concat());
    assert_eq!(index_check(&wad, &parts.concat()), Ok(()));
}

#[test]
fn a_file_without_entries_has_an_index_of_its_header() {
    let wad = wad(&[]);
    assert_eq!(index(&wad), b"WIX\x01\0\0\0\x0C\0\0\0");
    assert_eq!(index_find(&wad, &index(&wad), b"SKY1\0\0\0\0"), lost(11, 0));
}

/// A shorter name is below each that it begins, and every character is its byte.
#[test]
fn names_are_sorted_by_their_bytes() {
    let names = [
        *b"A_\0\0\0\0\0\0", *b"A-\0\0\0\0\0\0", *b"A\0ZZZZZZ", *b"A0\0\0\0\0\0\0", *b"AAAAAAAA", *b"AAAAAAA\0", *b"A[\\]\0\0\0\0",
    ];
    let index = index(&wad(&names));
    let numbers: Vec<u8> = index[11..].chunks_exact(10).map(|entry| entry[8]).collect();
    assert_eq!(numbers, [2, 1, 3, 5, 4, 6, 0]);
}

#[test]
fn records_and_output_hold_what_they_held_behind_the_index() {
    let (wad, wanted) = (wad(&NAMES), index(&wad(&NAMES)));
    let lent = IndexRecord { name: [7; 8], number: 7 };
    for (records_len, out_len) in [(5, 61), (6, 61), (5, 62), (9, 70)] {
        let (mut records, mut out) = (vec![lent; records_len], vec![7; out_len]);
        assert_eq!(index_build(&wad, &mut records, &mut out), Ok(61));
        assert_eq!(records[..5].iter().map(|it| it.number).collect::<Vec<u16>>(), [1, 3, 0, 2, 4]);
        assert_eq!(records[..5].iter().flat_map(|it| it.name).collect::<Vec<u8>>()[..16], *b"ABCDEFGHSKY\0\0\0\0\0");
        assert!(records[5..].iter().all(|it| *it == lent));
        assert_eq!((&out[..61], &out[61..]), (&wanted[..], &vec![7; out_len - 61][..]));
    }
    for (records_len, out_len) in [(0, 0), (4, 61), (5, 60), (4, 60), (0, 61), (5, 0), (5, 10)] {
        let (mut records, mut out) = (vec![lent; records_len], vec![7; out_len]);
        assert_eq!(index_build(&wad, &mut records, &mut out), refused(86));
        assert!(records.iter().all(|it| *it == lent) && out.iter().all(|&byte| byte == 7));
    }
}

#[test]
fn the_files_refusals_come_first() {
    let (mut bad, index) = (wad(&NAMES), index(&wad(&NAMES)));
    bad[12 + 3 * 16 + 8] = b's';
    let refusal = Refusal::new(6, 0, 3);
    assert_eq!(index_build(&bad, &mut [], &mut []), Err(refusal));
    for index in [&index[..], b""] {
        assert_eq!(index_check(&bad, index), Err(refusal));
        assert_eq!(index_find(&bad, index, b"SKY1"), IndexSearch { entry: Err(refusal), compared: 0 });
    }
    assert_eq!(index_check(b"short", b""), refused(1));
}

/// The answers of both to the right index with some bytes changed.
fn changed(at: usize, bytes: &[u8]) -> (Result<(), Refusal>, IndexSearch) {
    let (wad, mut index) = (wad(&NAMES), index(&wad(&NAMES)));
    index[at..at + bytes.len()].copy_from_slice(bytes);
    (index_check(&wad, &index), index_find(&wad, &index, b"SKY1\0\0\0\0"))
}

#[test]
fn the_header_is_judged_before_the_rest() {
    for (at, bytes) in [(0, &b"WIY"[..]), (0, b"wIX"), (5, b"\x04\0"), (5, b"\x05\x01"), (7, b"\x5B\0\0\0"), (7, b"\x5C\0\0\x01")]
    {
        assert_eq!(changed(at, bytes), (refused(82), lost(82, 0)), "{bytes:?} at {at}");
    }
    for version in [0, 2, 256, 257] {
        assert_eq!(changed(3, &u16::to_le_bytes(version)), (refused(83), lost(83, 0)));
    }
    // All of 82 comes before 83.
    assert_eq!(changed(3, b"\x02\0\x04"), (refused(82), lost(82, 0)));
    assert_eq!(changed(3, b"\x02\0\x05\0\x5D"), (refused(82), lost(82, 0)));
    // 83 comes before 84 and 11.
    assert_eq!(changed(4, b"\x01\x05\0\x5C\0\0\0Z"), (refused(83), lost(83, 0)));
}

#[test]
fn a_short_index_is_82_whatever_it_holds() {
    let (wad, mut index) = (wad(&NAMES), index(&wad(&NAMES)));
    index[3] = 2;
    for length in 0..61 {
        assert_eq!(index_check(&wad, &index[..length]), refused(82));
        assert_eq!(index_find(&wad, &index[..length], b"SKY1\0\0\0\0"), lost(82, 0));
    }
    assert_eq!(index_check(&wad, &index), refused(83));
}

#[test]
fn every_other_byte_is_84_for_the_check_alone() {
    let (wad, right) = (wad(&NAMES), index(&wad(&NAMES)));
    for at in 11..61 {
        let mut index = right.clone();
        index[at] ^= 1;
        assert_eq!(index_check(&wad, &index), refused(84), "byte {at}");
    }
    for more in [&b"\0"[..], &right, b"SKY1\0\0\0\0\x04\0"] {
        let longer = [&right[..], more].concat();
        assert_eq!(index_check(&wad, &longer), refused(84));
        assert_eq!(index_find(&wad, &longer, b"SKY1\0\0\0\0"), found(4, 2));
    }
    // Two entries of one name exchanged.
    let mut index = right.clone();
    index[31 + 8] = 2;
    index[41 + 8] = 0;
    assert_eq!(index_check(&wad, &index), refused(84));
}

#[test]
fn the_last_entry_of_a_name_is_found() {
    let (wad, index) = (wad(&NAMES), index(&wad(&NAMES)));
    let find = |name: &[u8]| index_find(&wad, &index, name);
    assert_eq!([&b"SKY1\0\0\0\0"[..], b"SKY1\0abc", b"SKY1\0\0\0\xFF"].map(find), [found(4, 2); 3]);
    assert_eq!((find(b"ABCDEFGH"), find(b"SKY\0\0\0\0\0")), (found(1, 3), found(3, 2)));
    assert_eq!((find(b"SKY0\0\0\0\0"), find(b"AAA\0\0\0\0\0"), find(b"ZZZZZZZZ")), (lost(11, 2), lost(11, 3), lost(11, 2)));
    assert_eq!((find(&[0; 8]), find(b"\0SKY1\0\0\0")), (lost(11, 3), lost(11, 3)));
    assert_eq!([&b""[..], b"SKY1", b"SKY1\0\0\0", b"ABCDEFG", b"ABCDEFGH\0", b"SKY1\0\0\0\0\0"].map(find), [lost(11, 0); 6]);
}

/// The entries of the index are compared as they stand, and what they lead to must have the name.
#[test]
fn a_wrong_index_leads_to_no_other_name() {
    let last = 11 + 4 * 10;
    assert_eq!(changed(last + 8, b"\x02\0").1, found(2, 2));
    assert_eq!(changed(last + 8, b"\0\0").1, found(0, 2));
    assert_eq!(changed(last + 8, b"\x03\0").1, lost(11, 2));
    assert_eq!(changed(last + 8, b"\x05\0").1, lost(11, 2));
    assert_eq!(changed(last + 8, b"\x04\x01").1, lost(11, 2));
    // Rubbish after the zero is above the asked name, so that the entry before it is the last one gone past.
    assert_eq!(changed(last + 7, b"A").1, found(2, 3));
    // A lower name behind the asked ones is gone past, and is not equal.
    assert_eq!(changed(last, b"A").1, lost(11, 2));
    // A higher name in the middle hides what is behind it.
    assert_eq!(changed(11 + 2 * 10, b"Z").1, lost(11, 2));
    // An entry of no name is not found, since no entry of a file has none.
    let (wad, mut index) = (wad(&NAMES), index(&wad(&NAMES)));
    index[11..19].fill(0);
    assert_eq!(index_find(&wad, &index, &[0; 8]), lost(11, 3));
}

/// Different names in ascending order: A000, A002 and so on.
fn numbered(count: usize) -> Vec<[u8; 8]> {
    (0..count).map(|number| name(2 * number)).collect()
}

fn name(number: usize) -> [u8; 8] {
    format!("A{number:04}\0\0\0").into_bytes().try_into().expect("eight bytes")
}

/// The rule's own count, over the numbers of names alone: so many are left, and those below `past` are not above the asked one.
fn rule(left: usize, past: usize) -> usize {
    match left {
        0 => 0,
        _ if left / 2 < past => 1 + rule(left - left / 2 - 1, past - left / 2 - 1),
        _ => 1 + rule(left / 2, past),
    }
}

#[test]
fn names_are_compared_as_often_as_the_rule_says() {
    for (count, least, most) in
        [(0, 0, 0), (1, 1, 1), (2, 1, 2), (3, 2, 2), (4, 2, 3), (7, 3, 3), (8, 3, 4), (4_095, 12, 12), (4_096, 12, 13)]
    {
        let wad = wad(&numbered(count));
        let index = index(&wad);
        assert_eq!(index_check(&wad, &index), Ok(()));
        let mut seen = Vec::new();
        // Each name, and each place between two names; every twentieth of many.
        for at in (0..=2 * count).filter(|at| count < 100 || at % 20 < 2 || at + 9 > 2 * count) {
            let compared = rule(count, at.div_ceil(2));
            let wanted = if at % 2 == 1 { found(at / 2, compared) } else { lost(11, compared) };
            let asked = if at == 0 { *b"A\0\0\0\0\0\0\0" } else { name(at - 1) };
            assert_eq!(index_find(&wad, &index, &asked), wanted, "{at} of {count}");
            seen.push(compared);
        }
        assert_eq!((seen.iter().min(), seen.iter().max()), (Some(&least), Some(&most)), "{count}");
    }
}

#[test]
fn the_most_entries_of_one_name_lead_to_the_last() {
    for count in [1, 2, 3, 4, 7, 8, 4_095, 4_096] {
        let wad = wad(&vec![*b"SKY1\0zzz"; count]);
        let search = index_find(&wad, &index(&wad), b"SKY1\0\0\0\0");
        assert_eq!((search.entry, search.compared), (Ok(count - 1), rule(count, count)));
    }
}

/// The length has all four of its bytes, and bytes behind the directory count in it alone.
#[test]
fn the_files_length_is_in_the_index() {
    let mut long = wad(&NAMES);
    let short = index(&long);
    long.resize(16_777_216, 9);
    assert_eq!(index(&long)[7..11], [0, 0, 0, 1]);
    assert_eq!(index(&long)[11..], short[11..]);
    assert_eq!(index_check(&long, &short), refused(82));
    assert_eq!(index_check(&long, &index(&long)), Ok(()));
}
