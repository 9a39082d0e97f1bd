//! What else is wrong with a map that is refused 23 to 28, as `judge --all` lists it. The library says it: in a copy of the map the refused
//! record is made good, and the copy is judged again. Where a record lies, and what it holds, is read from the map itself.

use crate::copy::Copy;
use crate::count::counted;
use crate::json::Object;
use crate::pair::Lent;
use crate::verdict::at;
use crate::wad::Wad;
use crate::why::Why;
use meshpigeon::Refusal;

/// The first refusal that charges a field.
const FIRST_FIELD: u32 = 23;

/// The last refusal that is the drawing's fault.
const LAST_DRAWN: u32 = 24;

/// So many further records are listed.
const MOST: usize = 20;

/// So often the map is judged again: each further record takes a turn for each of its fields at most.
const MOST_TURNS: usize = 8 * (MOST + 1);

/// Why there may be more than are listed.
const NO_CELLS: &str = "there may be more: the cells of BLOCKMAP could not be looked at";
const TOO_LONG: &str = "there may be more: the map's lumps share bytes, and a copy of it is too long to be judged";

/// Further faults of a map.
pub struct Further {
    faults: Vec<Fault>,
    /// Whether there are more than are listed.
    more: bool,
    /// Why there may be more than are listed.
    note: Option<&'static str>,
}

/// A further fault, and what is said of it.
struct Fault {
    refusal: Refusal,
    why: Why,
    said: String,
}

impl Further {
    /// What comes behind the first refusal of a map, if that is one of 23 to 28.
    pub fn of(wad: &Wad, map: &[u8], first: Refusal, why: &Why, lent: &mut Lent) -> Option<Self> {
        let mut further = Self { faults: Vec::new(), more: false, note: None };
        let mut copy = Copy::of(wad, map)?;
        let (mut refusal, mut charged) = (first, why.field()?);
        for _ in 0..MOST_TURNS {
            if !copy.mend(refusal, charged) {
                break;
            }
            let Some((next, why)) = further.judged_again(&copy, wad, map, lent) else { break };
            let next_charged = why.field();
            let is_other = (next.number, next.record) != (refusal.number, refusal.record);
            if is_other && !further.add(first, next, why) {
                break;
            }
            let Some(next_charged) = next_charged else { break };
            (refusal, charged) = (next, next_charged);
        }
        further.note = further.note.or(copy.is_blind().then_some(NO_CELLS));
        Some(further)
    }

    /// The library's refusal of the copy, where it speaks of the map too.
    fn judged_again(&mut self, copy: &Copy, wad: &Wad, map: &[u8], lent: &mut Lent) -> Option<(Refusal, Why)> {
        let (judged, reason) = lent.judge(&copy.wad(), map);
        let next = judged.err()?;
        if next.number < FIRST_FIELD {
            self.note = Some(TOO_LONG);
            return None;
        }
        let why = Why::of(reason, Some(next), wad, map).filter(|_| copy.speaks_of(next))?;
        Some((next, why))
    }

    /// Lists a fault, unless there are too many.
    fn add(&mut self, first: Refusal, refusal: Refusal, why: Why) -> bool {
        self.more = self.faults.len() == MOST;
        if !self.more {
            let is_drawing_good = first.number > LAST_DRAWN && self.faults.iter().all(|it| it.refusal.number > LAST_DRAWN);
            let said = why.words_behind(is_drawing_good).unwrap_or_else(|| refusal.to_string());
            self.faults.push(Fault { refusal, why, said });
        }
        !self.more
    }

    /// A line for each, to stand below the verdict.
    pub fn lines(&self, heading: &str) -> String {
        let line = |Fault { refusal, why, said }: &Fault| {
            let at = at(*refusal, Some(why));
            format!("\n{heading}: also {}{at} (in a copy in which the records above are good): {said}", refusal.number)
        };
        let more = match self.more {
            true => format!("\n{heading}: and more than these {}", counted(MOST, "further record")),
            false => String::new(),
        };
        let note = self.note.map_or(String::new(), |note| format!("\n{heading}: {note}"));
        self.faults.iter().map(line).collect::<String>() + &more + &note
    }

    /// The last keys of a verdict: null where nothing further was asked for.
    pub fn json(further: Option<&Self>, object: Object) -> Object {
        let fault = |Fault { refusal, why, said }: &Fault| {
            let object = Object::new().number("number", i64::from(refusal.number)).count("place", refusal.place);
            let object = object.text("lump", refusal.lump());
            let object = object.count("record", Some(refusal.record).filter(|_| refusal.names_record()));
            object.object("reason", Some(why.json())).text("text", said.as_str())
        };
        let object = object.objects("further", further.map(|it| it.faults.iter().map(fault).collect()));
        match further {
            Some(further) => object.flag("more", further.more || further.note.is_some()),
            None => object.text("more", None),
        }
    }
}
