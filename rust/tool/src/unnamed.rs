//! Lumps of a map that stand behind a name which no map has: nobody judges them, and nobody may take that for an accepted map.

use crate::count::counted;
use crate::json::Object;
use crate::map_lumps::{self, TEXTMAP};
use crate::name;
use crate::wad::{self, Wad};

/// So many lumps stand behind a marker.
const LUMPS: usize = 10;

/// So many names of a map's lumps, in order, are the lumps of a map.
const LEAST: usize = 2;

/// What such maps may be called.
const NAMES: &str = "Maps are called MAP01 to MAP99, or E1M1 to E9M9.";

/// Lumps of a map that nobody judged.
#[derive(Clone, Debug, PartialEq, Eq)]
pub struct Unnamed {
    /// The entry before them, and its name; none where they begin the directory.
    marker: Option<(usize, String)>,
    /// How many lumps there are.
    lumps: usize,
    /// Whether it is a text map.
    is_text: bool,
}

impl Unnamed {
    /// All of a file, in the order of its directory.
    pub fn all(wad: &Wad) -> Vec<Self> {
        let names: Vec<&[u8]> = wad.entries().map(|entry| entry.name).collect();
        let (mut all, mut at) = (Vec::new(), 0);
        while at < names.len() {
            let is_text = names[at] == TEXTMAP;
            let here = names[at..].iter().copied();
            let lumps = if is_text { map_lumps::text(here) } else { map_lumps::ten(here) };
            let marker = at.checked_sub(1).map(|before| (before, names[before]));
            if (is_text || lumps >= LEAST) && !is_judged(wad, &names, at) {
                let marker = marker.map(|(entry, name)| (entry, name::text(name)));
                all.push(Self { marker, lumps, is_text });
            }
            at += lumps.max(1);
        }
        all
    }

    /// That nothing was judged, and why; of a pair also whose they are.
    pub fn words(&self, file: Option<&str>) -> String {
        let of = file.map_or(String::new(), |file| format!(" of the {file}"));
        let lumps = if self.is_text { "a text map" } else { "map lumps" };
        match &self.marker {
            Some((entry, name)) => {
                format!("entry {entry}{of}, {name}, has {lumps} behind it but is no map name: nothing of it was judged. {NAMES}")
            }
            None => {
                format!(
                    "{} of a map{of} have no name before them: nothing of them was judged. {NAMES}",
                    counted(self.lumps, "lump")
                )
            }
        }
    }

    /// The entry before the lumps, its name, and how many lumps there are.
    pub fn json(&self) -> Object {
        let (entry, name) = self.marker.as_ref().map_or((None, None), |(entry, name)| (Some(*entry), Some(name.as_str())));
        Object::new().count("entry", entry).text("name", name).count("lumps", self.lumps)
    }
}

/// Whether a map's verdict speaks of the lumps from an entry on: they stand right behind its marker, or are among the ten there. The ten
/// count only behind the last marker of a name, which is the one that is judged, and not behind that of a text map.
fn is_judged(wad: &Wad, names: &[&[u8]], at: usize) -> bool {
    let is_map = |entry: usize| wad::is_map(&name::padded(names[entry]));
    let has_ten = |entry: usize| wad.last(names[entry]) == Some(entry) && names[entry + 1] != TEXTMAP;
    (at.saturating_sub(LUMPS)..at).any(|entry| is_map(entry) && (entry + 1 == at || has_ten(entry)))
}
