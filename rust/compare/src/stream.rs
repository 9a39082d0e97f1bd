//! What the library promises of SIDEDEFS in scraps, as a plain model of its states, and the library held to it scrap by scrap.

use generator::{map_around, scraps, Case, Question, MAP_NAME};
use meshpigeon::{judge_map, Refusal, Sidedefs};

/// The most bytes that may come: above it a state stays as it is.
const MOST_BYTES: usize = 16_777_216;

/// Of lumps up to this size the state after each scrap is held to that of the same bytes in one piece.
const SMALL: usize = 2_000;

/// The most sectors of a lump that is judged inside a map too: REJECT has their square in bits.
const FEW: usize = 600;

/// The state after one more byte, whatever the state.
pub fn stepped(mut state: Sidedefs, byte: u8) -> Sidedefs {
    if state.bytes > MOST_BYTES {
        return state;
    }
    let (record, at) = (state.bytes / 30, state.bytes % 30);
    let sector = usize::from(state.low) + 256 * usize::from(byte);
    if at == 29 && !state.found && sector >= state.sectors {
        (state.bad, state.found) = (record, true);
    }
    state.low = if at == 28 { byte } else { 0 };
    state.bytes += 1;
    state
}

/// The state after all bytes of a scrap, one by one.
pub fn fed(state: Sidedefs, scrap: &[u8]) -> Sidedefs {
    if state.bytes > MOST_BYTES {
        return state;
    }
    scrap.iter().fold(state, |state, &byte| stepped(state, byte))
}

/// The verdict on a state, whatever the state.
pub fn judged(state: &Sidedefs) -> Result<(), Refusal> {
    let refused = |number, place, record| Err(Refusal { number, place, record });
    match state.bytes / 30 {
        _ if state.sectors < 1 || state.sectors > 65_535 => refused(80, 0, 0),
        _ if state.bytes > MOST_BYTES => refused(81, 0, 0),
        _ if !state.bytes.is_multiple_of(30) => refused(20, 3, 0),
        count if !(1..=65_535).contains(&count) => refused(21, 3, 0),
        _ if state.found => refused(24, 3, state.bad),
        _ => Ok(()),
    }
}

/// What is wrong with the library's states on a case of sidedefs in scraps, if anything: one differs from the model's or from that of another
/// cut, or the verdict from the whole lump's, by the reader's rules or by the library's own map check.
pub(crate) fn fault(case: &Case) -> Option<String> {
    let Question::Sidedefs { sectors, lengths, times } = &case.question else { return None };
    let (sectors, bytes) = (*sectors, &case.bytes);
    let mut model = Sidedefs { sectors, bytes: 0, bad: 0, low: 0, found: false };
    let [mut library, mut uncut] = [Sidedefs::start(sectors); 2];
    for turn in 0..*times {
        let mut end = 0;
        for scrap in scraps(bytes, lengths) {
            (model, end) = (fed(model, scrap), end + scrap.len());
            library.feed(scrap);
            let small = bytes.len() <= SMALL && turn == 0;
            let in_one = || in_one_piece(sectors, &bytes[..end]) == model && library.verdict() == judged(&model);
            if library != model || small && !in_one() {
                return Some(format!("after {end} bytes of turn {turn} {library:?}\nmodel {model:?}"));
            }
        }
        uncut.feed(bytes);
    }
    if uncut != model || library.verdict() != judged(&model) {
        return Some(format!("cut {:?} {library:?}\nuncut {uncut:?}\nmodel {:?} {model:?}", library.verdict(), judged(&model)));
    }
    whole_fault(bytes, sectors, *times, library.verdict())
}

fn in_one_piece(sectors: usize, bytes: &[u8]) -> Sidedefs {
    let mut sidedefs = Sidedefs::start(sectors);
    sidedefs.feed(bytes);
    sidedefs
}

/// The whole lump, as far as memory holds it, judged by the reader, and inside a map, where that can have so many sectors.
fn whole_fault(bytes: &[u8], sectors: usize, times: usize, verdict: Result<(), Refusal>) -> Option<String> {
    let total = bytes.len().saturating_mul(times);
    if total > 2 * MOST_BYTES {
        return None;
    }
    let lump = bytes.repeat(times);
    let rules =
        reader::judge_sidedefs(&lump, sectors).map_err(|it| Refusal { number: it.number, place: it.place, record: it.record });
    if verdict != rules {
        return Some(format!("in scraps {verdict:?}\nthe whole lump {rules:?}"));
    }
    let fits = (1..=FEW).contains(&sectors) && total < MOST_BYTES - (1 << 20);
    let map = fits.then(|| judge_map(&map_around(&lump, sectors), &MAP_NAME).map(|_| ()));
    map.filter(|map| *map != verdict).map(|map| format!("in scraps {verdict:?}\nin a map {map:?}"))
}
