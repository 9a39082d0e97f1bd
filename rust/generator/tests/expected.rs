//! The reader gives every answer that the generator expects, and changes nothing else.

mod common;

use common::check;
use generator::{
    all_picture_damages, case, damages, differences_case, index_case, pair_case, pair_count, patch_case, single_case,
};
use generator::{renumber_case, sidedefs_case, text_case, why_case, written_case, Expected, Question, Rng, PICTURE_DAMAGES};
use reader::{DifferenceFile, PairFile};
use std::collections::{BTreeMap, BTreeSet};

#[test]
fn every_number_of_the_map_check_has_a_damage() {
    let numbers: BTreeSet<u32> = damages().iter().map(|damage| damage.number).collect();
    let wanted = (1..=6).chain(10..=12).chain(20..=28).chain(30..=32);
    assert_eq!(numbers, wanted.collect());
    let numbers: BTreeSet<u32> = PICTURE_DAMAGES.iter().map(|damage| damage.number).collect();
    assert_eq!(numbers, (50..=55).collect());
}

#[test]
fn every_single_damage_yields_its_number() {
    for index in 0..40 * damages().len() {
        check(&single_case(1, index));
    }
}

#[test]
fn every_pair_of_damages_yields_the_first_in_order() {
    for index in 0..4 * pair_count() {
        check(&pair_case(2, index));
    }
}

#[test]
fn every_picture_damage_and_pair() {
    for seed in 0..20 {
        for case in all_picture_damages(seed) {
            check(&case);
        }
    }
}

/// Says which case it was when a check fails.
struct Place {
    seed: u64,
    index: u64,
}

impl Drop for Place {
    fn drop(&mut self) {
        if std::thread::panicking() {
            eprintln!("case({}, {})", self.seed, self.index);
        }
    }
}

/// A number out of the environment.
fn number(name: &str, usual: u64) -> u64 {
    std::env::var(name).map_or(usual, |text| text.parse().expect(name))
}

#[test]
fn cases_of_all_families() {
    let (seed, count) = (number("MESHPIGEON_SEED", 3), number("MESHPIGEON_CASES", 60_000));
    let mut met = BTreeMap::new();
    for index in 0..count {
        let _place = Place { seed, index };
        let number = check(&case(seed, index));
        *met.entry(number).or_insert(0) += 1;
    }
    println!("{met:?}");
    let wanted = [0, 1, 2, 3, 4, 5, 6, 7, 10, 11, 12, 20, 21, 22, 23, 24, 25, 26, 27, 28, 30, 31, 32];
    let more = [
        40, 41, 42, 43, 44, 45, 46, 50, 51, 52, 53, 54, 55, 56, 57, 58, 60, 61, 70, 71, 72, 73, 74, 75, 76, 80, 82, 83, 84, 85,
        86, 90, 91, 92,
    ];
    assert!(wanted.iter().chain(&more).all(|number| met.contains_key(number)));
}

#[test]
fn every_number_is_met_in_either_file_of_a_pair() {
    let (mut lumps, mut maps, mut rng) = (BTreeSet::new(), BTreeSet::new(), Rng::new(4));
    let number = |file| match file {
        None => 0,
        Some(PairFile::Base) => 1,
        Some(PairFile::Patch) => 2,
    };
    for _ in 0..20_000 {
        let case = patch_case(&mut rng);
        check(&case);
        match case.expected {
            Expected::PairEntry(Ok(it)) => lumps.insert((0, number(Some(it.file)))),
            Expected::PairEntry(Err(it)) => lumps.insert((it.refusal.number, number(it.file))),
            Expected::PairMap(Ok(it)) => maps.insert((0, number(Some(it.file)))),
            Expected::PairMap(Err(it)) => maps.insert((it.refusal.number, number(it.file))),
            _ => false,
        };
    }
    let in_both = |numbers: Vec<u32>| numbers.into_iter().flat_map(|number| [(number, 1), (number, 2)]);
    assert_eq!(lumps, in_both((0..=6).collect()).chain([(11, 0)]).collect());
    let of_maps = (0..=6).chain([12]).chain(20..=28).chain(30..=32).collect();
    assert_eq!(maps, in_both(of_maps).chain([(10, 0), (11, 0)]).collect());
}

#[test]
fn every_number_of_a_written_picture_is_met() {
    let mut rng = Rng::new(5);
    let met: BTreeSet<u32> = (0..5_000).map(|_| check(&written_case(&mut rng))).collect();
    assert_eq!(met, [0, 55, 56, 57, 58].into());
}

#[test]
fn every_number_of_small_sidedefs_in_scraps_is_met() {
    let mut rng = Rng::new(6);
    let met: BTreeSet<u32> = (0..5_000).map(|_| check(&sidedefs_case(&mut rng))).collect();
    assert_eq!(met, [0, 20, 21, 24, 80].into());
}

#[test]
fn every_number_of_a_map_with_its_reason_is_met() {
    let mut rng = Rng::new(7);
    let met: BTreeSet<u32> = (0..20_000).map(|_| check(&why_case(&mut rng))).collect();
    let of_maps = (0..=6).chain(10..=12).chain(20..=28).chain(30..=32);
    assert_eq!(met, of_maps.chain([85]).collect());
}

#[test]
fn every_number_of_a_map_in_order_is_met() {
    let (mut rng, mut met) = (Rng::new(8), BTreeMap::new());
    for _ in 0..20_000 {
        *met.entry(check(&renumber_case(&mut rng))).or_insert(0) += 1;
    }
    let of_maps = (0..=6).chain(10..=12).chain(20..=28).chain(30..=32);
    assert_eq!(met.keys().copied().collect::<Vec<u32>>(), of_maps.chain(70..=74).collect::<Vec<u32>>());
    assert!([0, 70, 71, 72, 73, 74].iter().all(|number| met[number] > 500), "{met:?}");
}

#[test]
fn every_number_of_two_maps_is_met_in_either_file() {
    let (mut rng, mut met) = (Rng::new(9), BTreeMap::new());
    let (mut changed, mut of_both) = ([0; 8], BTreeSet::new());
    for _ in 0..40_000 {
        let case = differences_case(&mut rng);
        *met.entry(check(&case)).or_insert(0) += 1;
        match case.expected {
            Expected::Differences(Ok(counts)) => {
                changed.iter_mut().zip(counts).for_each(|(all, count)| *all += usize::from(count > 0))
            }
            Expected::Differences(Err(it)) => {
                of_both.insert((it.refusal.number, it.file.map(|file| file == DifferenceFile::New)));
            }
            _ => {}
        }
    }
    let of_maps: Vec<u32> = (1..=6).chain(10..=12).chain(20..=28).chain(30..=32).collect();
    assert_eq!(met.keys().copied().collect::<Vec<u32>>(), [&[0], &of_maps[..], &[75, 76]].concat());
    assert!([0, 30, 75, 76].iter().all(|number| met[number] > 500), "{met:?}");
    assert!(changed.iter().all(|&count| count > 1_000), "{changed:?}");
    let in_either = of_maps.iter().flat_map(|&number| [(number, Some(false)), (number, Some(true))]);
    assert_eq!(of_both, in_either.chain([(75, None), (76, None)]).collect());
}

/// Every number comes of what each of the three can refuse.
#[test]
fn every_number_of_an_index_is_met() {
    let (mut rng, mut met) = (Rng::new(10), [BTreeMap::new(), BTreeMap::new(), BTreeMap::new()]);
    for _ in 0..60_000 {
        let case = index_case(&mut rng);
        let asked = match case.question {
            Question::IndexBuild { .. } => 0,
            Question::IndexCheck { .. } => 1,
            _ => 2,
        };
        *met[asked].entry(check(&case)).or_insert(0) += 1;
    }
    println!("{met:?}");
    let wanted: [&[u32]; 3] =
        [&[0, 1, 2, 3, 4, 5, 6, 86], &[0, 1, 2, 3, 4, 5, 6, 82, 83, 84], &[0, 1, 2, 3, 4, 5, 6, 11, 82, 83]];
    for (met, wanted) in met.iter().zip(wanted) {
        assert_eq!(met.keys().copied().collect::<Vec<u32>>(), wanted);
        assert!(met.iter().all(|(number, times)| *times > if (1..=6).contains(number) { 5 } else { 400 }), "{met:?}");
    }
}

#[test]
fn every_number_of_a_small_text_is_met() {
    let (mut rng, mut met) = (Rng::new(11), BTreeMap::new());
    for _ in 0..40_000 {
        *met.entry(check(&text_case(&mut rng))).or_insert(0) += 1;
    }
    assert_eq!(met.keys().copied().collect::<Vec<u32>>(), [0, 90, 91, 92]);
    assert!(met.values().all(|&times| times > 1_000), "{met:?}");
}

#[test]
fn cases_are_the_same_each_time() {
    for index in 0..500 {
        let (one, two) = (case(9, index), case(9, index));
        assert_eq!((one.bytes, one.question), (two.bytes, two.question));
    }
}
