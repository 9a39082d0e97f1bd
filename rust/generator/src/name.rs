//! Names of eight bytes with rubbish behind their first zero: what precedes it is the name.

use crate::limit::Build;
use crate::limit_run::planned;
use crate::search::named_entries;
use crate::{Case, Expected, Plan, Question, Rng, LUMP_NAMES, MAP_NAME};
use reader::{Refusal, Search};

/// How many of the eight bytes precede the first zero.
pub(crate) fn length_of(name: &[u8]) -> usize {
    name.iter().position(|&byte| byte == 0).unwrap_or(name.len())
}

/// What precedes the first zero.
pub(crate) fn cut(name: &[u8]) -> &[u8] {
    &name[..length_of(name)]
}

/// The same name with other bytes behind its first zero: any, characters of a name, or those of a longer name left over.
pub fn littered(name: [u8; 8], rng: &mut Rng) -> [u8; 8] {
    let any = rng.word().to_le_bytes();
    let characters = any.map(|byte| b"0123456789ABCDEF"[usize::from(byte % 16)]);
    let longer = rng.pick(&[*b"BLOCKMAP", *b"VERTEXES", *b"SSECTORS", *b"PLAYPAL\0"]);
    with_rubbish(name, &rng.pick(&[any, characters, longer]))
}

/// The same name with these bytes from behind its first zero on, each in its place.
fn with_rubbish(mut name: [u8; 8], rubbish: &[u8; 8]) -> [u8; 8] {
    let behind = (length_of(&name) + 1).min(8);
    name[behind..].copy_from_slice(&rubbish[behind..]);
    name
}

impl Plan {
    /// Puts rubbish behind the zeros of all names in the directory, and of the asked one. Nothing that is asked has another answer.
    pub fn litter(&mut self, rng: &mut Rng) {
        for entry in &mut self.entries {
            entry.name = littered(entry.name, rng);
        }
        if let Ok(name) = self.name[..].try_into() {
            self.name = littered(name, rng).to_vec();
        }
    }
}

/// Rubbish: characters of a name, one that no name has, the largest byte.
const RUBBISH: [u8; 4] = [b'A', b'1', b'a', 255];

/// Both sides of what is a name, and of what makes two names equal.
pub(crate) fn name_limits() -> Vec<Build> {
    let mut all = bytes_of_names();
    all.extend(lengths_of_names());
    all.extend(lengths_of_asked_names());
    all.extend(alike());
    all.extend(littered_runs());
    all
}

/// Every byte in several places of an entry's name and of an asked name.
fn bytes_of_names() -> Vec<Build> {
    let mut all: Vec<Build> = Vec::new();
    for byte in 0..=255 {
        for (mut name, at) in
            [(*b"ABCDEFGH", 0), (*b"ABCDEFGH", 7), (*b"AB\0\0\0\0\0\0", 2), (*b"AB\0\0\0\0\0\0", 3), ([0; 8], 0), ([0; 8], 1)]
        {
            name[at] = byte;
            all.push(Box::new(move || name_case(name)));
        }
        for at in 0..8 {
            for mut name in [*b"E1M1\0\0\0\0", MAP_NAME] {
                name[at] = byte;
                all.push(Box::new(move || asked_case(name.to_vec())));
            }
        }
    }
    all
}

/// Names of no character to eight, with rubbish of every length behind the zero, and with a bad last character before it.
fn lengths_of_names() -> Vec<Build> {
    let mut all: Vec<Build> = Vec::new();
    for name in names_and_rubbish(*b"ABCDEFGH") {
        all.push(Box::new(move || name_case(name)));
        let (mut bad, length) = (name, length_of(&name));
        if length > 0 {
            bad[length - 1] = b'a';
            all.push(Box::new(move || name_case(bad)));
        }
    }
    all
}

/// The same for asked names, of which those of four and of five characters are maps'; and names that are not eight bytes.
fn lengths_of_asked_names() -> Vec<Build> {
    let mut all: Vec<Build> = Vec::new();
    for full in [*b"E1M1AAAA", *b"MAP01AAA"] {
        for name in names_and_rubbish(full) {
            all.push(Box::new(move || asked_case(name.to_vec())));
        }
        for length in (0..=12).filter(|&length| length != 8) {
            let name: Vec<u8> = MAP_NAME.into_iter().chain([0; 4]).take(length).collect();
            all.push(Box::new(move || asked_case(name.clone())));
        }
    }
    all
}

/// The first characters of `full`, each number of them, with each length of rubbish behind the zero.
fn names_and_rubbish(full: [u8; 8]) -> Vec<[u8; 8]> {
    let mut all = vec![full];
    for length in 0..8 {
        for (end, byte) in (length + 1..=8).flat_map(|end| RUBBISH.map(|byte| (end, byte))) {
            let mut name = [0; 8];
            name[..length].copy_from_slice(&full[..length]);
            name[length + 1..end].fill(byte);
            all.push(name);
        }
    }
    all
}

/// What a name may hold.
pub(crate) const NAME_CHARACTERS: &[u8] = b"ABCDEFGHIJKLMNOPQRSTUVWXYZ0123456789[]-_\\";

/// A directory with a good name and this one.
fn name_case(name: [u8; 8]) -> Case {
    let good = !cut(&name).is_empty() && cut(&name).iter().all(|byte| NAME_CHARACTERS.contains(byte));
    let bad = Expected::Refused(Refusal::new(6, 0, 1));
    let wad = named_entries(&[*b"A\0\0\0\0\0\0\0", name]);
    Case::new("name", wad, Question::Directory, if good { Expected::Accepted } else { bad })
}

/// A search for these bytes among two names that are no map's: 11 if they hold a map's name, else 10.
fn asked_case(name: Vec<u8>) -> Case {
    let episodes = (11..=99).filter(|n| n % 10 > 0).map(|n| format!("E{}M{}", n / 10, n % 10));
    let levels = (1..=99).map(|level| format!("MAP{level:02}"));
    let good = name.len() == 8 && episodes.chain(levels).any(|good| good.as_bytes() == cut(&name));
    let (number, compared) = if good { (11, 2) } else { (10, 0) };
    let search = Search { marker: Err(Refusal::plain(number)), compared };
    let wad = named_entries(&[*b"A\0\0\0\0\0\0\0", *b"MAP0\x001AA"]);
    Case::new("map name", wad, Question::FindMap { name }, Expected::Search(search))
}

/// Pairs of names that rubbish makes look different, and pairs that it makes look alike.
const ALIKE: &[(&[u8; 8], &[u8; 8], bool)] = &[
    (b"MAP01\0\0\0", b"MAP01\0\0\0", true),
    (b"MAP01\0\0\0", b"MAP01\0zz", true),
    (b"MAP01\0zz", b"MAP01\0\0\0", true),
    (b"MAP01\0AP", b"MAP01\0MA", true),
    (b"MAP01\0\0\0", b"MAP01\0\0\x01", true),
    (b"MAP01\0\x01\0", b"MAP01\0\0\0", true),
    (b"MAP01\0\0A", b"MAP01A\0\0", false),
    (b"MAP01\0AA", b"MAP01AAA", false),
    (b"MAP01\0\0\0", b"MAP0\x001\0\0", false),
    (b"MAP01\x0012", b"MAP0\x00112", false),
    (b"E1M1\0\0\0\0", b"E1M1\x001\0\0", true),
    (b"E1M1\0\x001\0", b"E1M1\0\0\0\x02", true),
    (b"E1M1\x001\0\0", b"E1M11\0\0\0", false),
    (b"E1M1\0AAA", b"E1M\x001AAA", false),
    (b"E1M1\0\0\0\0", b"E\0M1\0\0\0\0", false),
];

/// Each pair, the first asked for in a directory that has the second in its middle.
fn alike() -> Vec<Build> {
    let build = |&(asked, name, equal): &(&'static [u8; 8], &'static [u8; 8], bool)| -> Build {
        Box::new(move || {
            let search = match equal {
                true => Search { marker: Ok(1), compared: 2 },
                false => Search { marker: Err(Refusal::plain(11)), compared: 3 },
            };
            let wad = named_entries(&[*b"A\0MAP01\0", *name, *b"B\0E1M1\0\0"]);
            let question = Question::FindMap { name: asked.to_vec() };
            Case::new("names alike", wad, question, Expected::Search(search))
        })
    };
    ALIKE.iter().map(build).collect()
}

/// A map whose marker or one of whose ten lumps has rubbish behind its name; rubbish in the zero's own place is another name.
fn littered_runs() -> Vec<Build> {
    let mut all = Vec::new();
    for (place, name) in (0..).zip([MAP_NAME].into_iter().chain(LUMP_NAMES)) {
        let length = length_of(&name);
        for (byte, hexen) in RUBBISH.into_iter().flat_map(|byte| [(byte, false), (byte, true)]) {
            let behind = move |plan: &mut Plan| plan.entries[place].name = with_rubbish(name, &[byte; 8]);
            all.push(planned(hexen, "rubbish behind a name of the map", behind, Ok(0)));
        }
        if length < 8 && place > 0 {
            let on_it = move |plan: &mut Plan| plan.entries[place].name[length] = b'A';
            all.push(planned(false, "rubbish in the zero's place", on_it, Err(Refusal::new(12, place, 0))));
        }
    }
    let asked = |plan: &mut Plan| plan.name = with_rubbish(MAP_NAME, &[b'z'; 8]).to_vec();
    all.push(planned(false, "rubbish behind the asked name", asked, Ok(0)));
    all
}
