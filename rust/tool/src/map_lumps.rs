//! The names of a map's lumps, as they follow its marker.

/// The ten lumps of a map in their order, and the two that a Hexen map has behind them.
const LUMPS: [&[u8]; 12] = [
    b"THINGS", b"LINEDEFS", b"SIDEDEFS", b"VERTEXES", b"SEGS", b"SSECTORS", b"NODES", b"SECTORS", b"REJECT", b"BLOCKMAP",
    b"BEHAVIOR", b"SCRIPTS",
];

/// The ten.
const TEN: usize = 10;

/// The first and the last lump of a text map.
pub const TEXTMAP: &[u8] = b"TEXTMAP";
const ENDMAP: &[u8] = b"ENDMAP";

/// How many of the ten names stand here in their order, whichever of them are left out.
pub fn ten<'a>(names: impl Iterator<Item = &'a [u8]>) -> usize {
    in_order(names, &LUMPS[..TEN])
}

/// How many names stand here that belong to the map whose marker is before them: those of a text map up to its end, else the ten and
/// Hexen's.
pub fn all<'a>(names: impl Iterator<Item = &'a [u8]> + Clone) -> usize {
    match names.clone().next() {
        Some(TEXTMAP) => text(names),
        _ => in_order(names, &LUMPS),
    }
}

/// From TEXTMAP to ENDMAP; or TEXTMAP alone, where another one comes before that, or it never comes.
pub fn text<'a>(names: impl Iterator<Item = &'a [u8]>) -> usize {
    let ends = |(_, name): &(usize, &[u8])| matches!(*name, ENDMAP | TEXTMAP);
    match names.enumerate().skip(1).find(ends) {
        Some((end, ENDMAP)) => end + 1,
        _ => 1,
    }
}

fn in_order<'a>(names: impl Iterator<Item = &'a [u8]>, lumps: &[&[u8]]) -> usize {
    let mut next = 0;
    let places = names.map_while(|name| lumps.iter().position(|lump| *lump == name));
    let follows = |place: &usize| {
        let is_next = *place >= next;
        next = place + 1;
        is_next
    };
    places.take_while(follows).count()
}

#[cfg(test)]
mod tests {
    use super::*;

    fn names(words: &'static str) -> impl Iterator<Item = &'static [u8]> + Clone {
        words.split(' ').map(str::as_bytes)
    }

    #[test]
    fn lumps_are_counted_in_their_order() {
        assert_eq!(ten(names("THINGS LINEDEFS SECTORS BLOCKMAP BEHAVIOR")), 4);
        assert_eq!(ten(names("SECTORS THINGS")), 1);
        assert_eq!(ten(names("THINGS THINGS")), 1);
        assert_eq!(ten(names("OTHER THINGS")), 0);
        assert_eq!(all(names("THINGS LINEDEFS BLOCKMAP BEHAVIOR SCRIPTS MAP02")), 5);
    }

    #[test]
    fn a_text_map_goes_up_to_its_end() {
        assert_eq!(all(names("TEXTMAP ZNODES REJECT ENDMAP MAP02")), 4);
        assert_eq!(all(names("TEXTMAP ZNODES")), 1);
        assert_eq!(all(names("TEXTMAP ZNODES MAP02 TEXTMAP ENDMAP")), 1);
    }
}
