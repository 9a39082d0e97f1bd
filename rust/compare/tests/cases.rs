//! Library and reader on generated cases: 200,000 by default, any number by MESHPIGEON_CASES, from MESHPIGEON_SEED.

use compare::fault;
use generator::{
    all_picture_damages, case, differences_case, every_second, index_case, limits, renumber_case, shrink, text_case, why_case,
};
use generator::{with_index, with_order, with_other, with_reason, Canvas, Case, Question, Rng};
use std::env;
use std::thread;

fn number(name: &str, default: u64) -> u64 {
    match env::var(name) {
        Ok(text) => text.parse().unwrap_or_else(|_| panic!("{name} is no number: {text}")),
        Err(_) => default,
    }
}

/// Longer cases are told as they are: to shrink one of 16 MiB would take an hour.
const MOST_SHRUNK: usize = 100_000;

/// Stops at the first fault, with the case shrunk and written to a file.
fn hold(case: &Case, origin: &str) {
    let Some(words) = fault(case) else { return };
    assert!(case.bytes.len() <= MOST_SHRUNK, "{origin}: {}\n{words}", case.label);
    let small = shrink(case, |it| fault(it).is_some());
    let file = env::temp_dir().join(format!("meshpigeon-difference-{}.txt", std::process::id()));
    let text = format!("{origin}\n{words}\n\nshrunk:\n{small:?}\n{}\n", fault(&small).unwrap_or_default());
    std::fs::write(&file, text).expect("the case is written");
    panic!("{origin}: {}\n{words}\nthe shrunk case is in {}", case.label, file.display());
}

/// Holds the cases of a seed, as many as asked for.
fn hold_all(case: fn(u64, u64) -> Case) {
    let (seed, cases) = (number("MESHPIGEON_SEED", 20_261_115), number("MESHPIGEON_CASES", 200_000));
    let threads = thread::available_parallelism().map_or(1, |it| it.get() as u64);
    thread::scope(|scope| {
        for first in 0..threads {
            scope.spawn(move || {
                for index in (first..cases).step_by(threads as usize) {
                    hold(&case(seed, index), &format!("seed {seed}, case {index}"));
                }
            });
        }
    });
}

#[test]
fn generated_cases_agree() {
    hold_all(case);
}

#[test]
fn reasons_of_generated_maps_agree() {
    hold_all(|seed, index| why_case(&mut Rng::of_case(seed, index)));
}

#[test]
fn orders_of_generated_maps_agree() {
    hold_all(|seed, index| renumber_case(&mut Rng::of_case(seed, index)));
}

#[test]
fn differences_of_generated_maps_agree() {
    hold_all(|seed, index| differences_case(&mut Rng::of_case(seed, index)));
}

#[test]
fn indexes_of_generated_files_agree() {
    hold_all(|seed, index| index_case(&mut Rng::of_case(seed, index)));
}

#[test]
fn generated_texts_agree() {
    hold_all(|seed, index| text_case(&mut Rng::of_case(seed, index)));
}

/// Whatever a file is asked at a limit, its index is built, checked or looked into too.
#[test]
fn indexes_at_both_sides_of_every_limit_agree() {
    let mut rng = Rng::new(18);
    for (index, build) in limits().iter().enumerate() {
        let case = build();
        if matches!(case.question, Question::Directory | Question::FindMap { .. } | Question::JudgeMap { .. }) {
            hold(&with_index(case, &mut rng), &format!("index at limit {index}"));
        }
    }
}

/// Whatever the map check is asked at a limit, the map is compared too, with itself or a good one.
#[test]
fn differences_at_both_sides_of_every_limit_agree() {
    let mut rng = Rng::new(17);
    for (index, build) in limits().iter().enumerate() {
        let case = build();
        if matches!(case.question, Question::JudgeMap { .. }) {
            hold(&with_other(case, &mut rng), &format!("difference at limit {index}"));
        }
    }
}

/// Whatever the map check is asked at a limit, an order of its nodes is tried too.
#[test]
fn orders_at_both_sides_of_every_limit_agree() {
    let mut rng = Rng::new(16);
    for (index, build) in limits().iter().enumerate() {
        let case = build();
        if matches!(case.question, Question::JudgeMap { .. }) {
            hold(&with_order(case, &mut rng), &format!("order at limit {index}"));
        }
    }
}

/// Whatever the map check is asked at a limit, the reason is asked for too.
#[test]
fn reasons_at_both_sides_of_every_limit_agree() {
    let mut rng = Rng::new(15);
    for (index, build) in limits().iter().enumerate() {
        let case = build();
        if matches!(case.question, Question::JudgeMap { .. }) {
            hold(&with_reason(case, &mut rng), &format!("reason at limit {index}"));
        }
    }
}

#[test]
fn both_sides_of_every_limit_agree() {
    for (index, build) in limits().iter().enumerate() {
        hold(&build(), &format!("limit {index}"));
    }
}

#[test]
fn every_damage_of_a_picture_agrees() {
    for (index, case) in all_picture_damages(1).iter().enumerate() {
        hold(case, &format!("picture damage {index}"));
    }
}

#[test]
fn the_longest_written_picture_has_the_length_that_the_binding_names() {
    let most = |column: usize, _: &mut Rng| {
        let mut runs = every_second(0, 199);
        runs[column % 100].length = 2;
        runs.iter_mut().skip(column % 100 + 1).for_each(|run| run.start += 1);
        runs
    };
    let canvas = Canvas::new(320, 200, most, &mut Rng::new(3));
    assert_eq!(canvas.lump.len(), meshpigeon::MOST_WRITTEN);
    let picture = meshpigeon::Picture { width: 320, height: 200, left: canvas.picture.left, top: canvas.picture.top };
    assert_eq!(meshpigeon::write_picture(picture, &canvas.colour, &canvas.cover), Ok(canvas.lump));
}
