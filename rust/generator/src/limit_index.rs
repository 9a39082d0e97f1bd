//! Both sides of each rule on a name index (W-210): counts at which one more name is compared, records and output, and every way to be wrong.

use crate::index::{building, checking, clean, finding, in_a_row, Indexed};
use crate::index_fault::{IndexFault, FAULTS};
use crate::limit::Build;
use crate::{littered, Case, Rng, MOST_BYTES};

/// All of them.
pub(crate) fn index_limits() -> Vec<Build> {
    let mut all: Vec<Build> = Vec::new();
    for count in [0, 1, 2, 3, 4, 7, 8, 255, 256, 4_095, 4_096] {
        for order in ORDERS {
            all.extend(rooms(count, order));
            all.extend(wrong(count, order));
            all.extend(asked(count, order));
        }
    }
    all.extend(lengths());
    all.extend(lengths_of_names());
    all
}

/// In what order the names stand.
#[derive(Clone, Copy)]
enum Order {
    Ascending,
    Descending,
    /// Any, with equal names and rubbish among them.
    Mixed,
    /// One name for all.
    Same,
}

const ORDERS: [Order; 4] = [Order::Ascending, Order::Descending, Order::Mixed, Order::Same];

/// Names with a place for another before, between and behind them.
fn file(count: usize, order: Order) -> Indexed {
    let mut rng = Rng::new(31);
    let mut name = |at: usize| match order {
        Order::Ascending => in_a_row(2 * at + 1),
        Order::Descending => in_a_row(2 * (count - at) - 1),
        Order::Mixed => littered(in_a_row(2 * rng.below(count) + 1), &mut rng),
        Order::Same => littered(in_a_row(1), &mut rng),
    };
    Indexed::of((0..count).map(&mut name).collect())
}

fn built(make: impl Fn(&mut Rng) -> Case + 'static) -> Build {
    Box::new(move || make(&mut Rng::new(32)))
}

/// Records and outputs of no length, one too few, just enough and one more.
fn rooms(count: usize, order: Order) -> Vec<Build> {
    let size = file(count, order).size();
    let mut all = Vec::new();
    for records in [0, count.saturating_sub(1), count, count + 1] {
        for bytes in [0, 10, 11, size - 1, size, size + 1] {
            all.push(built(move |rng| building("room for an index", file(count, order), records, bytes, rng)));
        }
    }
    all
}

/// The right index, and each way to be wrong, checked and looked into.
fn wrong(count: usize, order: Order) -> Vec<Build> {
    let mut all = vec![built(move |rng| checking("right index", file(count, order), None, rng))];
    for fault in FAULTS {
        all.push(built(move |rng| checking("wrong index", file(count, order), Some(fault), rng)));
        for at in [0, count / 2, count.saturating_sub(1)] {
            all.push(built(move |rng| {
                let file = file(count, order);
                let asked = file.names.get(at).map_or(in_a_row(1), |name| clean(*name));
                finding("name in a wrong index", file, Some(fault), asked.to_vec(), rng)
            }));
        }
    }
    all
}

/// Each name and each place between two, in the right index: of many those at the ends, in the middle, and some between.
fn asked(count: usize, order: Order) -> Vec<Build> {
    let is_asked = |at: &usize| count < 10 || at % 397 < 2 || at.abs_diff(count) < 3 || at + 3 > 2 * count;
    let build =
        |at: usize| built(move |rng| finding("name in the right index", file(count, order), None, in_a_row(at).to_vec(), rng));
    (0..=2 * count).filter(is_asked).map(build).collect()
}

/// Files whose length differs from byte to byte of the number, up to the longest.
fn lengths() -> Vec<Build> {
    let mut all: Vec<Build> = Vec::new();
    for length in [0x100, 0x1_0000, 0x12_3456, MOST_BYTES - 1, MOST_BYTES] {
        let long = move || {
            let mut file = file(8, Order::Mixed);
            file.wad.resize(length, 7);
            file
        };
        all.push(built(move |rng| building("long file", long(), 8, 91, rng)));
        all.push(built(move |rng| checking("long file", long(), None, rng)));
        all.push(built(move |rng| checking("long file", long(), Some(IndexFault::Length), rng)));
    }
    all
}

/// Asked names of no byte to twelve, with the first characters of a name that is there.
fn lengths_of_names() -> Vec<Build> {
    let long = Indexed::of(vec![*b"ABCDEFGH", *b"ABCDEFG\0", *b"ABC\0EFGH", *b"A\0\0\0\0\0\0\0"]);
    let of = |length: usize| -> Build {
        let long = long.clone();
        let name: Vec<u8> = b"ABCDEFGH\0\0\0\0".iter().copied().take(length).collect();
        built(move |rng| finding("length of a name", long.clone(), None, name.clone(), rng))
    };
    let with_zero = |at: usize| -> Build {
        let (long, mut name) = (long.clone(), *b"ABCDEFGH");
        name[at] = 0;
        built(move |rng| finding("zero in a name", long.clone(), None, name.to_vec(), rng))
    };
    (0..=12).map(of).chain((0..8).map(with_zero)).collect()
}
