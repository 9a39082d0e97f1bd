//! The proved library and the independent reader, asked the same questions.
//!
//! An [`Outcome`] is all that an answer can show: the refusal or the numbers, and the later contents of whatever was lent.
#![forbid(unsafe_code)]
#![deny(missing_docs)]

mod ask;
mod differences;
mod index;
mod reason;
mod renumber;
mod stream;
mod text;

pub use ask::{ask_library, ask_reader, Outcome};
pub use stream::{fed, judged, stepped};
pub use text::without_places;

use generator::{Case, Expected, Question};
use reader::{DifferenceFile, DifferenceRefusal, PairFile, PairRefusal};

/// What is wrong with the answers to a case, if anything: they differ, or are not what the generator knows.
pub fn fault(case: &Case) -> Option<String> {
    let library = ask_library(case);
    let reader = ask_reader(case);
    if library != reader {
        return Some(format!("library {library:?}\nreader  {reader:?}"));
    }
    if !comes_back(case, &library) {
        return Some(format!("what was written is not read back: {library:?}"));
    }
    let more = stream::fault(case)
        .or_else(|| reason::fault(case, &library))
        .or_else(|| renumber::fault(case, &library))
        .or_else(|| differences::fault(case, &library))
        .or_else(|| index::fault(case, &library))
        .or_else(|| text::fault(case, &library));
    if let Some(words) = more {
        return Some(words);
    }
    let known = match case.expected {
        Expected::Unknown => true,
        Expected::Refused(it) => library.numbers == Err((it.number, it.place, it.record)),
        Expected::Accepted => library.numbers.is_ok(),
        Expected::Map(it) => library.numbers == Ok(vec![it.depth as i64, it.marker as i64]),
        Expected::Explained(it) => {
            let verdict = it.verdict.map(|it| vec![it.depth as i64, it.marker as i64]);
            let verdict = verdict.map_err(|it| (it.number, it.place, it.record));
            library.numbers == verdict && it.printed.fits(&library.first[..library.printed])
        }
        Expected::Found(it) => library.numbers == Ok(vec![it.subsector as i64, it.count as i64]),
        Expected::Count(it) => library.numbers == Ok(vec![it as i64]),
        Expected::Hexen(it) => library.numbers == Ok(vec![i64::from(it)]),
        Expected::Search(it) => {
            let marker = it.marker.map(|it| vec![it as i64]).map_err(|it| (it.number, it.place, it.record));
            (&library.numbers, library.compared) == (&marker, it.compared)
        }
        Expected::Lookup(it) => {
            let entry = it.entry.map(|it| vec![it as i64]).map_err(|it| (it.number, it.place, it.record));
            (&library.numbers, library.compared) == (&entry, it.compared)
        }
        Expected::Differences(it) => is_of_two(&library, it),
        Expected::Text(it) => {
            let counts = it.counts.iter().map(|&count| count as i64);
            let places = [it.namespace.start as i64, it.namespace.end as i64];
            library.numbers == Ok(places.into_iter().chain(counts).collect())
        }
        Expected::PairEntry(it) => is_of_pair(&library, it.map(|it| (it.file, vec![it.offset as i64, it.size as i64]))),
        Expected::PairMap(it) => is_of_pair(&library, it.map(|it| (it.file, vec![it.map.depth as i64, it.map.marker as i64]))),
    };
    (!known).then(|| format!("both {library:?}\nknown {:?}", case.expected))
}

/// Whether the library, asked to judge and to paint the lump that it wrote, gives the picture back, its cover, and its colours where they are
/// covered, 0 elsewhere. Nothing is asked of other questions, nor where nothing was written.
fn comes_back(case: &Case, written: &Outcome) -> bool {
    let (Question::WritePicture { picture: it, colour, .. }, Ok(length)) = (&case.question, &written.numbers) else {
        return true;
    };
    let lump = &written.first[..length[0] as usize];
    let picture = meshpigeon::Picture { width: it.width, height: it.height, left: it.left, top: it.top };
    let area = it.width * it.height;
    let (mut painted, mut covered) = (vec![7; area], vec![7; area]);
    let kept: Vec<u8> =
        colour.iter().zip(&case.bytes[..area]).map(|(&colour, &cover)| if cover == 1 { colour } else { 0 }).collect();
    meshpigeon::judge_picture(lump) == Ok(picture)
        && meshpigeon::paint_picture(lump, &mut painted, &mut covered) == Ok(picture)
        && (&covered[..], painted) == (&case.bytes[..area], kept)
}

/// Whether counts and file are those of this answer on two maps.
fn is_of_two(outcome: &Outcome, known: Result<[usize; 8], DifferenceRefusal>) -> bool {
    let file = known.err().and_then(|it| it.file).map_or(0, |file| if file == DifferenceFile::Old { 1 } else { 2 });
    let counts = known.map(|counts| counts.map(|count| count as i64).to_vec());
    let numbers = counts.map_err(|it| (it.refusal.number, it.refusal.place, it.refusal.record));
    (outcome.file, &outcome.numbers) == (file, &numbers)
}

/// Whether numbers and file are those of this answer on a pair.
fn is_of_pair(outcome: &Outcome, known: Result<(PairFile, Vec<i64>), PairRefusal>) -> bool {
    let (file, numbers) = match known {
        Ok((file, numbers)) => (Some(file), Ok(numbers)),
        Err(PairRefusal { file, refusal }) => (file, Err((refusal.number, refusal.place, refusal.record))),
    };
    let file = file.map_or(0, |file| if file == PairFile::Base { 1 } else { 2 });
    (outcome.file, &outcome.numbers) == (file, &numbers)
}
