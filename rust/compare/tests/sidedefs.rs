//! States of SIDEDEFS in scraps that no start made: the library answers them all, as its promise says of each byte.

use compare::{fed, judged};
use generator::{facing, Rng};
use meshpigeon::Sidedefs;
use std::io::{self, Read};

/// Numbers of bytes around every limit, and any.
fn any_bytes(rng: &mut Rng) -> usize {
    let limit = rng.pick(&[0, 30, 60, 30 * 65_535, 30 * 65_536, 16_777_216, 1 << 32, 1 << 63, usize::MAX - 70]);
    match rng.below(4) {
        0 => rng.word() as usize,
        1 => rng.below(2_000),
        _ => limit.saturating_sub(70) + rng.below(140),
    }
}

fn any_state(rng: &mut Rng) -> Sidedefs {
    let any = rng.word() as usize;
    let small = rng.below(70_000);
    Sidedefs {
        sectors: rng.pick(&[0, 1, 2, 256, 257, 65_535, 65_536, usize::MAX, any, small, small]),
        bytes: any_bytes(rng),
        bad: rng.pick(&[0, 1, 65_534, usize::MAX, any, small]),
        low: rng.byte(),
        found: rng.once_in(3),
    }
}

#[test]
fn any_state_gets_the_promised_answer() {
    let mut rng = Rng::new(12);
    for turn in 0..400_000 {
        let state = any_state(&mut rng);
        assert_eq!(state.verdict(), judged(&state), "{turn}: {state:?}");
        let most = rng.pick(&[0, 1, 2, 3, 31, 62, 200]);
        let count = rng.below(most + 1);
        let scrap = rng.bytes(count);
        let mut after = state;
        after.feed(&scrap);
        assert_eq!(after, fed(state, &scrap), "{turn}: {state:?} {scrap:?}");
        assert_eq!(after.verdict(), judged(&after), "{turn}: {after:?}");
        let mut cut = state;
        let (head, tail) = scrap.split_at(rng.below(count + 1));
        cut.feed(head);
        cut.feed(tail);
        assert_eq!(cut, after, "{turn}: {state:?} {head:?} {tail:?}");
    }
}

#[test]
fn no_scrap_is_too_long_for_any_state() {
    let (zeros, mut rng) = (vec![0; 16_777_216 + 90], Rng::new(13));
    for turn in 0..200 {
        let (state, length) = (any_state(&mut rng), zeros.len() - rng.below(180));
        let mut after = state;
        after.feed(&zeros[..length]);
        assert_eq!(after, fed(state, &zeros[..length]), "{turn}: {state:?} {length}");
    }
}

/// A reader that gives one byte, then two, and so on.
struct Growing<'a>(&'a [u8], usize);

impl Read for Growing<'_> {
    fn read(&mut self, into: &mut [u8]) -> io::Result<usize> {
        self.1 += 1;
        let length = self.1.min(into.len());
        (&mut self.0).take(length as u64).read(into)
    }
}

#[test]
fn a_reader_is_copied_into_it() {
    let lump = facing(&[3; 2_000], &mut Rng::new(14));
    for (sectors, number) in [(4, 0), (3, 24), (0, 80)] {
        let mut sidedefs = Sidedefs::start(sectors);
        assert_eq!(io::copy(&mut Growing(&lump, 0), &mut sidedefs).expect("it never fails"), 60_000);
        assert_eq!(sidedefs.verdict().map_or_else(|refusal| refusal.number, |()| 0), number);
        assert_eq!(sidedefs.bytes, 60_000);
    }
}
