//! Single damages and pairs of damages, with the refusal that 01's order gives.

use crate::game::is_hexen;
use crate::{damages, map_case, sound_plan, Case, Damage, Expected, Plan, Question, Rng};
use reader::{Refusal, Search};

/// Where a refusal stands in 01's order: what comes first compares less.
pub fn order_of(refusal: &Refusal) -> (u32, usize, u32) {
    let Refusal { number, place, record } = *refusal;
    match number {
        5 | 6 => (5, record, number),
        20 | 21 => (20, place, number),
        12 => (12, place, 0),
        53 | 54 => (56, record, 0),
        _ => (number, record, 0),
    }
}

/// Applies damages to a good plan and answers the refusal due. The ones that come later in
/// 01's order are applied first, so that the one due is not undone.
pub fn apply(plan: &mut Plan, chosen: &[Damage], rng: &mut Rng) -> Refusal {
    let mut chosen: Vec<(usize, &Damage)> = chosen.iter().enumerate().collect();
    chosen.sort_by_key(|(turn, damage)| (std::cmp::Reverse(damage.number), *turn));
    let refusals = chosen.iter().map(|(_, damage)| (damage.apply)(plan, rng));
    let refusals: Vec<Refusal> = refusals.collect();
    *refusals.iter().min_by_key(|refusal| order_of(refusal)).expect("a damage")
}

/// How many pairs there are, each damage with itself included.
pub fn pair_count() -> usize {
    let count = damages().len();
    count * (count + 1) / 2
}

/// Pair number `index`, the earlier one of the table first.
pub fn pair(index: usize) -> [Damage; 2] {
    let all = damages();
    let (mut first, mut rest) = (0, index % pair_count());
    while rest >= all.len() - first {
        rest -= all.len() - first;
        first += 1;
    }
    [all[first], all[first + rest]]
}

/// The map check of a good file with the given damages.
pub fn damaged_case(chosen: &[Damage], rng: &mut Rng) -> Case {
    let mut plan = sound_plan(rng);
    let refusal = apply(&mut plan, chosen, rng);
    let labels: Vec<&str> = chosen.iter().map(|damage| damage.label).collect();
    map_case(labels.join(" + "), &plan, Expected::Refused(refusal))
}

/// The map check of a file with one damage; all are met as `index` runs.
pub fn single_case(seed: u64, index: usize) -> Case {
    let all = damages();
    damaged_case(&all[index % all.len()..][..1], &mut Rng::of_case(seed, index as u64))
}

/// The map check of a file with two damages; all pairs are met as `index` runs.
pub fn pair_case(seed: u64, index: usize) -> Case {
    damaged_case(&pair(index), &mut Rng::of_case(seed, index as u64))
}

/// A question on the directory alone, of a file with no, one or two damages.
pub fn directory_case(rng: &mut Rng) -> Case {
    let mut plan = sound_plan(rng);
    let early: Vec<Damage> = damages().into_iter().filter(|damage| damage.number < 10).collect();
    let chosen: Vec<Damage> = (0..rng.below(3)).map(|_| rng.pick(&early)).collect();
    let refusal = (!chosen.is_empty()).then(|| apply(&mut plan, &chosen, rng));
    let (question, own) = directory_question(&plan, rng);
    let expected = match (refusal, &question) {
        (None, _) => own,
        (Some(refusal), Question::FindMap { .. }) => unsearched(refusal),
        (Some(refusal), _) => Expected::Refused(refusal),
    };
    Case::new("directory", plan.wad(), question, expected)
}

/// A search that is refused before it begins.
fn unsearched(refusal: Refusal) -> Expected {
    Expected::Search(Search { marker: Err(refusal), compared: 0 })
}

/// A question, and what is due in a good directory.
fn directory_question(plan: &Plan, rng: &mut Rng) -> (Question, Expected) {
    let count = plan.entries.len();
    match rng.below(7) {
        0 => (Question::Directory, Expected::Accepted),
        1 | 2 => {
            let any = rng.below(count);
            let number = rng.pick(&[0, any, count - 1, plan.marker + 2]);
            (Question::Entry { number }, Expected::Accepted)
        }
        3 => {
            let number = rng.pick(&[count, count + 1, usize::MAX, 1 << 31, 1 << 32]);
            let question = if rng.once_in(2) { Question::Entry { number } } else { Question::MapGame { marker: number } };
            (question, Expected::Refused(Refusal::plain(7)))
        }
        4 => find_question(plan, rng),
        5 => (Question::MapGame { marker: plan.marker }, Expected::Hexen(plan.map.hexen)),
        _ => {
            let marker = rng.below(count);
            (Question::MapGame { marker }, Expected::Hexen(is_hexen(plan, marker)))
        }
    }
}

fn find_question(plan: &Plan, rng: &mut Rng) -> (Question, Expected) {
    let (bad, count) = (crate::damage::BAD_MAP_NAMES, plan.entries.len());
    let (name, expected) = match rng.below(3) {
        0 => {
            let search = Search { marker: Ok(plan.marker), compared: count - plan.marker };
            (plan.name.clone(), Expected::Search(search))
        }
        1 => (bad[rng.below(bad.len())].to_vec(), unsearched(Refusal::plain(10))),
        _ => {
            let search = Search { marker: Err(Refusal::plain(11)), compared: count };
            (b"MAP77\0\0\0".to_vec(), Expected::Search(search))
        }
    };
    (Question::FindMap { name }, expected)
}
