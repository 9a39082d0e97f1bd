//! Makes a failing case smaller.

use crate::{Case, Expected, Question};

/// The most questions asked on the way.
const MOST_TRIES: usize = 20_000;

/// A case that still fails with fewer bytes, or with more zeros among them. Runs of bytes are
/// taken away or zeroed as long as `fails` holds of what is left; of a pair both files shrink. The
/// rest of the question stays as it is and the expectation is dropped.
pub fn shrink(case: &Case, mut fails: impl FnMut(&Case) -> bool) -> Case {
    let case = Case { expected: Expected::Unknown, ..case.clone() };
    let bytes = shrunk(&case.bytes, |bytes| fails(&Case { bytes: bytes.to_vec(), ..case.clone() }));
    let mut case = Case { bytes, ..case };
    let Some(base) = base_of(&mut case).cloned() else { return case };
    let with = |base: &[u8]| {
        let mut case = case.clone();
        base_of(&mut case).expect("a pair").splice(.., base.iter().copied());
        case
    };
    with(&shrunk(&base, |base| fails(&with(base))))
}

/// The base of a pair, the old map's file, or the index beside the file.
fn base_of(case: &mut Case) -> Option<&mut Vec<u8>> {
    match &mut case.question {
        Question::PairFind { base, .. } | Question::PairJudgeMap { base, .. } | Question::Differences { old: base, .. } => {
            Some(base)
        }
        Question::IndexCheck { index } | Question::IndexFind { index, .. } => Some(index),
        _ => None,
    }
}

fn shrunk(bytes: &[u8], mut fails: impl FnMut(&[u8]) -> bool) -> Vec<u8> {
    let mut best = bytes.to_vec();
    let mut tries = 0;
    let mut run = best.len().next_power_of_two();
    while run > 0 && tries < MOST_TRIES {
        let mut at = 0;
        while at < best.len() && tries < MOST_TRIES {
            let edits = [without, zeroed].map(|edit| edit(&best, at, run));
            let smaller = edits.into_iter().find(|smaller| *smaller != best && fails(smaller));
            tries += 2;
            let shorter = smaller.as_ref().is_some_and(|it| it.len() < best.len());
            best = smaller.unwrap_or(best);
            at += if shorter { 0 } else { run };
        }
        run /= 2;
    }
    best
}

fn without(bytes: &[u8], at: usize, run: usize) -> Vec<u8> {
    let end = bytes.len().min(at + run);
    [&bytes[..at], &bytes[end..]].concat()
}

fn zeroed(bytes: &[u8], at: usize, run: usize) -> Vec<u8> {
    let end = bytes.len().min(at + run);
    let mut bytes = bytes.to_vec();
    bytes[at..end].fill(0);
    bytes
}

#[cfg(test)]
mod tests {
    use super::*;
    use crate::Rng;

    #[test]
    fn only_what_fails_is_left() {
        let bytes = [Rng::new(1).bytes(300), vec![0xAB], vec![7; 50]].concat();
        let case = Case::new("any", bytes, Question::JudgePicture, Expected::Accepted);
        let small = shrink(&case, |case| case.bytes.contains(&0xAB));
        assert_eq!((small.bytes, small.expected), (vec![0xAB], Expected::Unknown));
    }

    #[test]
    fn what_must_stay_in_place_is_zeroed_around() {
        let case = Case::new("any", vec![9; 40], Question::JudgePicture, Expected::Unknown);
        let small = shrink(&case, |case| case.bytes.get(17) == Some(&9));
        let wanted = [vec![0; 17], vec![9]].concat();
        assert_eq!(small.bytes, wanted);
    }

    #[test]
    fn both_files_of_a_pair_shrink() {
        let question = Question::PairFind { base: vec![5; 30], name: vec![1] };
        let case = Case::new("any", vec![7; 50], question, Expected::Unknown);
        let fails = |case: &Case| match &case.question {
            Question::PairFind { base, name } => base.contains(&5) && case.bytes.contains(&7) && *name == [1],
            _ => false,
        };
        let small = shrink(&case, fails);
        assert_eq!((small.bytes, small.question), (vec![7], Question::PairFind { base: vec![5], name: vec![1] }));
    }
}
