//! Reads and writes of records, inside, at the edge and past it; and writes of what a game lacks.

use crate::limit::Build;
use crate::{Case, Encode, Expected, Kind, Question, Record, Rng};
use reader::{Linedef, Refusal, Thing};

/// A read or a write of any kind of record.
pub fn record_case(rng: &mut Rng) -> Case {
    let kind = rng.pick(&Kind::ALL);
    let size = kind.size();
    let count = rng.between(0, 4);
    let length = size * count + rng.pick(&[0, 0, 1, size - 1]);
    let index = rng.pick(&[0, 1, 2, 3, count, count.saturating_sub(1), usize::MAX, wrapping(size)]);
    let mut record = kind.any(rng);
    let unfit = rng.once_in(3) && burden(&mut record, rng);
    let reads = rng.once_in(2);
    let expected = match () {
        () if index >= count => Expected::Refused(Refusal::plain(60)),
        () if unfit && !reads => Expected::Refused(Refusal::plain(61)),
        () => Expected::Accepted,
    };
    let question = if reads { Question::ReadRecord { kind, index } } else { Question::WriteRecord { record, index } };
    Case::new(format!("{kind:?} of {length} bytes"), rng.bytes(length), question, expected)
}

/// An index whose offset in bytes passes the largest number there is by a little.
fn wrapping(size: usize) -> usize {
    usize::MAX / size + 1
}

/// Gives a thing or a linedef something that its game lacks; answers whether there is such a thing.
fn burden(record: &mut Record, rng: &mut Rng) -> bool {
    let some = rng.between(1, 255) as u8;
    match record {
        Record::Thing(thing) if !thing.hexen => match rng.below(4) {
            0 => thing.id = rng.pick(&[1, -1, 256, i16::MIN]),
            1 => thing.height = rng.pick(&[1, -1, 256, i16::MIN]),
            2 => thing.action = some,
            _ => thing.args[rng.below(5)] = some,
        },
        Record::Linedef(linedef) if !linedef.hexen => linedef.args[rng.below(5)] = some,
        Record::Linedef(linedef) => match rng.below(2) {
            0 => linedef.special = rng.pick(&[256, 257, 0x0100, 0xFF00, 0xFFFF]),
            _ => linedef.tag = rng.pick(&[1, 256, 0xFFFF]),
        },
        _ => return false,
    }
    true
}

/// Each field that a game lacks, alone, at its least and its most, at a record that is there and at one that is not.
pub(crate) fn record_limits() -> Vec<Build> {
    let mut all: Vec<Build> = Vec::new();
    for (record, fits) in unfit_things().into_iter().chain(unfit_linedefs()) {
        for (index, refusal) in [(0, 61), (1, 61), (2, 60)] {
            let number = if fits && refusal == 61 { 0 } else { refusal };
            all.push(Box::new(move || written(record, index, number)));
        }
    }
    all
}

/// A write into a lump of two records and all but one byte of a third.
fn written(record: Record, index: usize, number: u32) -> Case {
    let length = 3 * record.encode().len() - 1;
    let question = Question::WriteRecord { record, index };
    Case::new("what a game lacks", vec![0xA5; length], question, crate::limit::plainly(number))
}

/// Records with one field that is not 0, and whether their game has it.
fn unfit_things() -> Vec<(Record, bool)> {
    let mut all = Vec::new();
    for hexen in [false, true] {
        let nothing = Thing { hexen, ..Thing::default() };
        all.push((Record::Thing(nothing), true));
        for number in [1, -1, 256, i16::MIN, i16::MAX] {
            all.push((Record::Thing(Thing { id: number, ..nothing }), hexen));
            all.push((Record::Thing(Thing { height: number, ..nothing }), hexen));
        }
        for byte in [1, 128, 255] {
            all.push((Record::Thing(Thing { action: byte, ..nothing }), hexen));
            all.extend(each_argument(byte).map(|args| (Record::Thing(Thing { args, ..nothing }), hexen)));
        }
    }
    all
}

fn unfit_linedefs() -> Vec<(Record, bool)> {
    let mut all = Vec::new();
    for hexen in [false, true] {
        let nothing = Linedef { hexen, ..Linedef::default() };
        all.push((Record::Linedef(nothing), true));
        for word in [1, 255, 256, 0xFF00, 0xFFFF] {
            all.push((Record::Linedef(Linedef { special: word, ..nothing }), !hexen || word <= 255));
            all.push((Record::Linedef(Linedef { tag: word, ..nothing }), !hexen));
        }
        for byte in [1, 128, 255] {
            all.extend(each_argument(byte).map(|args| (Record::Linedef(Linedef { args, ..nothing }), hexen)));
        }
    }
    all
}

/// The byte as each of the five arguments, the others 0.
fn each_argument(byte: u8) -> [[u8; 5]; 5] {
    std::array::from_fn(|place| std::array::from_fn(|at| if at == place { byte } else { 0 }))
}
