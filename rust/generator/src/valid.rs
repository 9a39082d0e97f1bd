//! Good maps, and maps whose only possible fault is their graph.

use crate::{Case, Expected, Layout, MapSpec, Plan, Question, Rng, Shape, Sizes, Truth};
use reader::{Accepted, Refusal};

/// Map names that are good.
pub(crate) const GOOD_NAMES: [&[u8; 8]; 7] =
    [b"MAP01\0\0\0", b"MAP10\0\0\0", b"MAP32\0\0\0", b"MAP99\0\0\0", b"E1M1\0\0\0\0", b"E9M9\0\0\0\0", b"E3M7\0\0\0\0"];

/// A good file, in which every kind of damage finds its place.
pub fn sound_plan(rng: &mut Rng) -> Plan {
    let shape = rng.pick(&Shape::TREES);
    let (map, _) = MapSpec::new(Sizes::few(rng), shape, rng.pick(&Layout::ALL), rng);
    let mut plan = Plan::new(map, *rng.pick(&GOOD_NAMES));
    plan.surround(rng);
    plan
}

/// A file with a map of any shape and size, and what is known of it.
pub fn any_plan(rng: &mut Rng) -> (Plan, Expected) {
    let shape = match rng.below(12) {
        0 => Shape::Ring,
        1 => Shape::Any,
        2 => Shape::Tangle,
        3 | 4 => rng.pick(&Shape::SHARING),
        _ => rng.pick(&Shape::TREES),
    };
    let (map, truth) = MapSpec::new(Sizes::any(rng), shape, rng.pick(&Layout::ALL), rng);
    let mut plan = Plan::new(map, *rng.pick(&GOOD_NAMES));
    if !rng.once_in(4) {
        plan.surround(rng);
    }
    let expected = verdict(truth, plan.marker);
    (plan, expected)
}

/// What a map check must answer for a map whose graph is all that can be wrong.
pub fn verdict(truth: Truth, marker: usize) -> Expected {
    match truth {
        Truth::Depth(depth) => Expected::Map(Accepted { depth, marker }),
        Truth::Shared => Expected::Refused(Refusal::new(32, 7, 0)),
        Truth::Loop => Expected::Refused(Refusal::new(31, 7, 0)),
        Truth::Unknown => Expected::Unknown,
    }
}

/// The map check's case of a plan.
pub fn map_case(label: impl Into<String>, plan: &Plan, expected: Expected) -> Case {
    let question = Question::JudgeMap { name: plan.name.clone(), words: plan.words() };
    Case::new(label, plan.wad(), question, expected)
}

/// A map of any shape.
pub fn valid_case(rng: &mut Rng) -> Case {
    let (plan, expected) = any_plan(rng);
    map_case("map of any shape", &plan, expected)
}
