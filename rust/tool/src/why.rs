//! Why a map is judged as it is: the library's own reason, and what the tool finds by it in the map's bytes. In words, and in JSON.

use crate::advice::{build_again, BUILD_AGAIN};
use crate::blockmap_words;
use crate::count::counted;
use crate::field;
use crate::json::Object;
use crate::look::{Look, BLOCKMAP};
use crate::node_kind::NodeKind;
use crate::record_words;
use crate::shared::Shared;
use crate::text_fault::TextFault;
use crate::wad::Wad;
use meshpigeon::{Choice, Field, Node, Reason, Refusal};

/// So many choices of a way are said; a text goes on with how many more there are.
const MOST_SAID: usize = 16;

/// What is said of a BLOCKMAP that was not built.
const NO_BLOCKMAP: &str =
    "BLOCKMAP is empty: the node builder was told to leave it out. Build the nodes again, with BLOCKMAP (zdbsp without -b).";

/// The reason of a verdict on a map.
#[derive(Clone, Debug, PartialEq, Eq)]
pub struct Why {
    told: Told,
    /// What is said of it, where that is more than the refusal's own sentence.
    said: Option<Said>,
}

/// What is said: what is wrong, what to do where that is no part of it, and what comes last.
#[derive(Clone, Debug, Default, PartialEq, Eq)]
struct Said {
    wrong: String,
    /// The lump that a node builder wrote, and that is to be built again.
    built: Option<&'static str>,
    last: String,
}

impl Said {
    /// What is wrong, and all that is to be said of it.
    fn plain(wrong: String) -> Self {
        Self { wrong, ..Self::default() }
    }

    /// In words. That nothing is wrong in the drawing is said only where nothing is.
    fn words(&self, is_drawing_good: bool) -> String {
        let advice = match self.built {
            None => return self.wrong.clone(),
            Some(lump) if is_drawing_good => build_again(lump),
            Some(_) => BUILD_AGAIN.to_string(),
        };
        format!("{}. {advice}{}", self.wrong, self.last)
    }
}

#[derive(Clone, Debug, PartialEq, Eq)]
enum Told {
    /// 23 to 28: a field by its name, with its range; of BLOCKMAP, whether it is the header's.
    Field(&'static str, Field, bool),
    /// 31: the choices from the root, and the node that comes a second time.
    Loop(Vec<Choice>, usize),
    /// 32: the child that two ways lead to.
    Shared(Shared),
    /// Accepted: the deepest route.
    Route(Vec<Choice>),
    /// 90 to 93: where in a text map.
    Text(TextFault),
}

impl Why {
    /// What the library told of the map of a name, and what the map's bytes say of it.
    pub fn of(reason: Reason, refusal: Option<Refusal>, wad: &Wad, map: &[u8]) -> Option<Self> {
        if let Reason::Route(route) = reason {
            return Some(Self { told: Told::Route(route), said: None });
        }
        let (refusal, look) = (refusal?, Look::of(wad, map)?);
        let (told, said) = match reason {
            Reason::Field(field) => of_field(field, refusal, &look)?,
            Reason::Loop(way) => of_loop(way, &look)?,
            _ if refusal.number == 32 => {
                let shared = Shared::of(look.lump(Node::PLACE))?;
                let wrong = shared.words();
                (Told::Shared(shared), Said { wrong, built: Some("NODES"), last: String::new() })
            }
            _ => return None,
        };
        let kind = if matches!(refusal.number, 26 | 27 | 31 | 32) { NodeKind::marked(&look) } else { None };
        Some(Self { told, said: Some(kind.map_or(said, |kind| Said::plain(kind.words()))) })
    }

    /// Why a text map is refused.
    pub fn of_text(text: &[u8], refusal: Refusal) -> Self {
        let fault = TextFault::of(text, refusal);
        let said = Said::plain(fault.words(&refusal.to_string()));
        Self { told: Told::Text(fault), said: Some(said) }
    }

    /// What is said in place of a refusal's own sentence.
    pub fn words(&self) -> Option<String> {
        self.said.as_ref().map(|said| said.words(true))
    }

    /// The same behind other faults of the map, which may be the drawing's.
    pub fn words_behind(&self, is_drawing_good: bool) -> Option<String> {
        self.said.as_ref().map(|said| said.words(is_drawing_good))
    }

    /// What stands below a refusal: the line of a text.
    pub fn below(&self) -> String {
        match &self.told {
            Told::Text(fault) => fault.below(),
            _ => String::new(),
        }
    }

    /// Where a refusal is, if that is told better than by the refusal itself: a place in a text, a cell of BLOCKMAP or its header.
    pub fn whereabouts(&self, refusal: Refusal) -> Option<String> {
        match &self.told {
            Told::Text(fault) => Some(fault.spot.place()),
            Told::Field(_, _, true) if refusal.number == 28 => Some("BLOCKMAP header".to_string()),
            Told::Field(..) if refusal.number == 28 => Some(format!("BLOCKMAP cell {}", refusal.record)),
            _ => None,
        }
    }

    /// Whether it is of a text map.
    pub fn is_of_text(&self) -> bool {
        matches!(self.told, Told::Text(_))
    }

    /// The field that is charged, by its name.
    pub fn field(&self) -> Option<(&'static str, Field)> {
        match self.told {
            Told::Field(name, field, _) => Some((name, field)),
            _ => None,
        }
    }

    /// The reason as an object; all choices, however many.
    pub fn json(&self) -> Object {
        let object = Object::new();
        match &self.told {
            Told::Field(name, field, _) => {
                let object = object.text("field", *name).number("offset", i64::from(field.offset));
                let object = object.number("number", i64::from(field.number));
                object.number("least", i64::from(field.least)).number("most", i64::from(field.most))
            }
            Told::Loop(way, node) => object.text("way", letters(way).as_str()).count("node", *node),
            Told::Shared(shared) => shared.json(),
            Told::Route(route) => object.text("route", letters(route).as_str()),
            Told::Text(fault) => fault.json(),
        }
    }
}

fn of_field(field: Field, refusal: Refusal, look: &Look) -> Option<(Told, Said)> {
    let blockmap = look.lump(BLOCKMAP);
    let name = field::name_of(refusal, field.offset, look.hexen, blockmap)?;
    let said = match refusal.number {
        28 if blockmap.is_empty() => Said::plain(NO_BLOCKMAP.to_string()),
        28 => {
            let wrong = blockmap_words::words(refusal.record, name, field, look);
            Said { wrong, built: Some("BLOCKMAP"), last: String::new() }
        }
        number => {
            let wrong = record_words::words(number, refusal.record, name, field, look)?;
            Said { wrong, built: (number >= 25).then_some("NODES"), last: String::new() }
        }
    };
    Some((Told::Field(name, field, field::is_of_header(name, blockmap)), said))
}

/// What to do comes before the way into the loop.
fn of_loop(way: Vec<Choice>, look: &Look) -> Option<(Told, Said)> {
    let node = end_of(&way, look.lump(Node::PLACE))?;
    let wrong = "the nodes turn back on themselves: some way down from the root never ends".to_string();
    let last = format!(" From the root go {}: there node {node} comes a second time.", spoken(&way));
    Some((Told::Loop(way, node), Said { wrong, built: Some("NODES"), last }))
}

/// The node that choices from the root, the last node, lead to.
fn end_of(way: &[Choice], nodes: &[u8]) -> Option<usize> {
    let root = (nodes.len() / Node::SIZE).checked_sub(1)?;
    way.iter().try_fold(root, |at, choice| {
        let node = Node::read(nodes, at).ok()?;
        Some(usize::from(match choice {
            Choice::Right => node.right,
            Choice::Left => node.left,
        }))
    })
}

/// `RLL`.
fn letters(way: &[Choice]) -> String {
    way.iter().map(|choice| if *choice == Choice::Right { 'R' } else { 'L' }).collect()
}

/// `right, left, left`, and of a long way the first choices and how many more there are.
fn spoken(way: &[Choice]) -> String {
    let word = |choice: &Choice| if *choice == Choice::Right { "right" } else { "left" };
    let first: Vec<&str> = way.iter().take(MOST_SAID).map(word).collect();
    match way.len().saturating_sub(MOST_SAID) {
        0 => first.join(", "),
        more => format!("{}, and {}", first.join(", "), counted(more, "more choice")),
    }
}

#[cfg(test)]
mod tests {
    use super::*;

    fn rights(count: usize) -> Vec<Choice> {
        vec![Choice::Right; count]
    }

    #[test]
    fn a_long_way_is_cut_short() {
        let sixteen = vec!["right"; 16].join(", ");
        assert_eq!(spoken(&[Choice::Right, Choice::Left, Choice::Left]), "right, left, left");
        assert_eq!(spoken(&rights(16)), sixteen);
        assert_eq!(spoken(&rights(17)), format!("{sixteen}, and 1 more choice"));
        assert_eq!(spoken(&rights(32_767)), format!("{sixteen}, and 32,751 more choices"));
        assert_eq!(letters(&rights(32_767)).len(), 32_767);
    }

    #[test]
    fn a_way_ends_where_its_choices_lead() {
        let mut nodes = vec![0; 3 * Node::SIZE];
        Node { right: 0, left: 1, ..Node::default() }.write(&mut nodes, 2).expect("it fits");
        Node { right: 2, left: 7, ..Node::default() }.write(&mut nodes, 1).expect("it fits");
        assert_eq!(end_of(&[], &nodes), Some(2));
        assert_eq!(end_of(&[Choice::Left, Choice::Right], &nodes), Some(2));
        assert_eq!(end_of(&[Choice::Left, Choice::Left], &nodes), Some(7));
        assert_eq!(end_of(&[Choice::Left, Choice::Left, Choice::Right], &nodes), None);
        assert_eq!(end_of(&[], &[]), None);
    }
}
