//! Maps that are asked for the reason of their verdict (W-211), into outputs of every length around what is printed.

use crate::flip::flip;
use crate::why_blockmap::spoil_blockmap;
use crate::why_fields::spoil_record;
use crate::{any_plan, apply, damages, flipped_map_case, map_case, pair_case, single_case, sound_plan, valid_case};
use crate::{Case, Content, Damage, Expected, MapSpec, Plan, Question, Rng};
use reader::{Accepted, Refusal, SUBSECTOR_BIT};

/// The most bytes that a reason can have: the longest way into a loop has a choice at each node.
const MOST_PRINTED: usize = 32_767;

/// A map's verdict, and what is known of the bytes that are printed with it.
#[derive(Clone, Copy, Debug, PartialEq, Eq)]
pub struct Explained {
    /// The map check's verdict.
    pub verdict: Result<Accepted, Refusal>,
    /// What is printed, if the output has room for it.
    pub printed: Printed,
}

/// What is known of a reason.
#[derive(Clone, Copy, Debug, PartialEq, Eq)]
pub enum Printed {
    /// A field: its offset, its number, the least and the most that are allowed.
    Field([u32; 4]),
    /// These choices, or none.
    Choices(&'static str),
    /// So many bytes.
    Count(usize),
    /// At least one byte.
    Some,
}

impl Printed {
    /// How many bytes are printed, if that is known.
    pub fn length(&self) -> Option<usize> {
        match self {
            Self::Field(_) => Some(16),
            Self::Choices(choices) => Some(choices.len()),
            Self::Count(count) => Some(*count),
            Self::Some => None,
        }
    }

    /// Whether these bytes are what is known.
    pub fn fits(&self, bytes: &[u8]) -> bool {
        match self {
            Self::Field(numbers) => bytes == numbers.map(u32::to_le_bytes).concat(),
            Self::Choices(choices) => bytes == choices.as_bytes(),
            Self::Count(count) => bytes.len() == *count,
            Self::Some => !bytes.is_empty(),
        }
    }
}

impl Explained {
    /// Refused for this field.
    pub(crate) fn field(refusal: Refusal, field: [u32; 4]) -> Self {
        Self { verdict: Err(refusal), printed: Printed::Field(field) }
    }

    /// Accepted at entry 0, with this route.
    pub(crate) fn route(choices: &'static str) -> Self {
        Self { verdict: Ok(Accepted { depth: choices.len(), marker: 0 }), printed: Printed::Choices(choices) }
    }

    /// Refused 31, with this way into the loop.
    pub(crate) fn way(choices: &'static str) -> Self {
        Self { verdict: Err(Refusal::new(31, 7, 0)), printed: Printed::Choices(choices) }
    }

    /// What a verdict says of what is printed: 16 bytes for a field, something for a loop, the depth of an accepted map.
    pub(crate) fn of(verdict: Result<Accepted, Refusal>) -> Self {
        let printed = match verdict {
            Ok(Accepted { depth, .. }) => Printed::Count(depth),
            Err(Refusal { number: 23..=28, .. }) => Printed::Count(16),
            Err(Refusal { number: 31, .. }) => Printed::Some,
            Err(_) => Printed::Count(0),
        };
        Self { verdict, printed }
    }

    /// What is due with an output of so many bytes: 85 where it is too short.
    fn due(self, room: usize) -> Expected {
        match self.printed.length() {
            Some(length) if room < length => Expected::Refused(Refusal::plain(85)),
            None if room == 0 => Expected::Refused(Refusal::plain(85)),
            None if room < MOST_PRINTED => Expected::Unknown,
            _ => Expected::Explained(self),
        }
    }
}

/// The case of a plan, with an output of so many bytes.
pub(crate) fn explained_case(label: impl Into<String>, plan: &Plan, explained: Explained, room: usize) -> Case {
    let case = map_case(label, plan, Expected::Unknown);
    Case { expected: explained.due(room), ..asked(case, room) }
}

/// A map check's case that asks for the reason too; nothing is known of the answer.
fn asked(case: Case, room: usize) -> Case {
    let Question::JudgeMap { name, words } = case.question else { return case };
    let out = (0..room).map(|at| 0xA5 ^ at as u8).collect();
    Case { question: Question::Why { name, words, out }, expected: Expected::Unknown, ..case }
}

/// A map check's case as one that asks for the reason too, with an output of some length around what the reader prints, or long enough for all.
pub fn with_reason(case: Case, rng: &mut Rng) -> Case {
    let explained = match case.expected {
        Expected::Map(accepted) => Some(Explained::of(Ok(accepted))),
        Expected::Refused(refusal) => Some(Explained::of(Err(refusal))),
        _ => None,
    };
    let room = any_room(&case, rng);
    Case { expected: explained.map_or(Expected::Unknown, |it| it.due(room)), ..asked(case, room) }
}

fn any_room(case: &Case, rng: &mut Rng) -> usize {
    let Question::JudgeMap { name, words } = &case.question else { return 0 };
    let length = reader::why(&case.bytes, name, &mut words.clone(), &mut [0; MOST_PRINTED]).1;
    let any = rng.below(2 * length + 2);
    let short = length.saturating_sub(1);
    rng.pick(&[length, length, length, length + 1, length + 1, length + 9, short, short, 0, any, 40, MOST_PRINTED])
}

/// A small map with its reason: all of what it prints, and for each kind all ways into it.
pub fn why_case(rng: &mut Rng) -> Case {
    let (seed, turn) = (rng.word(), rng.below(1 << 30));
    let case = match rng.below(12) {
        0 => valid_case(rng),
        1 => single_case(seed, turn),
        2 => pair_case(seed, turn),
        3 => flipped_map_case(rng),
        4 | 5 => flipped_lump_case(rng),
        6 | 7 => turned_back_case(rng),
        8 | 9 => return spoiled_case(rng, spoil_record),
        _ => return spoiled_case(rng, spoil_blockmap),
    };
    with_reason(case, rng)
}

/// A lump of a good map with some bytes or words changed, the directory being good.
fn flipped_lump_case(rng: &mut Rng) -> Case {
    let (mut plan, _) = any_plan(rng);
    let place = rng.pick(&[2, 3, 5, 6, 7, 7, 10, 10, 10]);
    let mut lump = plan.map.lump(place);
    flip(&mut lump, rng);
    if place == 10 && rng.once_in(3) {
        lump.truncate(rng.below(lump.len() + 1));
    }
    plan.entry_at(place).content = Content::Bytes(lump);
    map_case("flipped lump", &plan, Expected::Unknown)
}

/// A graph in which some places, mostly those that ended it, name any nodes.
fn turned_back_case(rng: &mut Rng) -> Case {
    let (mut plan, _) = any_plan(rng);
    let count = plan.map.nodes.len();
    for _ in 0..if count == 0 { 0 } else { rng.between(1, 3) } {
        let node = rng.below(count);
        let node = &mut plan.map.nodes[node];
        let ends = [node.right, node.left].map(|word| word & SUBSECTOR_BIT != 0);
        let right = if ends[0] == ends[1] { rng.once_in(2) } else { ends[0] };
        *if right { &mut node.right } else { &mut node.left } = rng.below(count) as u16;
    }
    map_case("nodes that turn back", &plan, Expected::Unknown)
}

/// A good map with one part spoiled whose reason is known; now and then something that is judged later is bad too.
fn spoiled_case(rng: &mut Rng, spoil: fn(&mut MapSpec, &mut Rng) -> Explained) -> Case {
    let mut plan = sound_plan(rng);
    if rng.once_in(4) {
        let later: Vec<Damage> = damages().into_iter().filter(|damage| damage.number >= 30).collect();
        apply(&mut plan, &[rng.pick(&later)], rng);
    }
    let explained = spoil(&mut plan.map, rng);
    let case = map_case("spoiled field", &plan, Expected::Unknown);
    let room = any_room(&case, rng);
    Case { expected: explained.due(room), ..asked(case, room) }
}
