//! The reader's reasons (W-211) against the request's words, spelt out without any regard to cost: choices by all lists of choices, and
//! fields by what comes of the map when they are put into their range, or to its ends.

use generator::*;
use reader::{directory, entry, find_map, why, Linedef, Node, Refusal, SUBSECTOR_BIT};
use std::collections::BTreeMap;

/// The child word that choices lead to from a word, the first choice being the highest bit, 0 for right; `None` past a subsector.
fn follow(nodes: &[Node], mut word: u16, choices: usize, count: usize) -> Option<u16> {
    for turn in (0..count).rev() {
        let node = nodes.get(usize::from(word)).filter(|_| word & SUBSECTOR_BIT == 0)?;
        word = if choices >> turn & 1 == 0 { node.right } else { node.left };
    }
    Some(word)
}

/// Whether a loop can be reached through a child: some list of as many choices as there are nodes is still on a node.
fn leads_to_loop(nodes: &[Node], word: u16) -> bool {
    let ends = (0..1 << nodes.len()).filter_map(|choices| follow(nodes, word, choices, nodes.len()));
    ends.into_iter().any(|end| end & SUBSECTOR_BIT == 0)
}

/// At each node the right child if a loop can be reached through it, otherwise the left, until a node comes a second time.
fn way_into_loop(nodes: &[Node]) -> String {
    let (mut met, mut way) = (vec![nodes.len() as u16 - 1], String::new());
    loop {
        let node = nodes[usize::from(met[met.len() - 1])];
        let right = leads_to_loop(nodes, node.right);
        let child = if right { node.right } else { node.left };
        way.push(if right { 'R' } else { 'L' });
        if met.contains(&child) {
            return way;
        }
        met.push(child);
    }
}

/// Of all routes of this length the one that goes right first.
fn route(nodes: &[Node], depth: usize) -> String {
    let root = nodes.len() as u16 - 1;
    let ends = |choices: &usize| follow(nodes, root, *choices, depth).is_some_and(|end| end & SUBSECTOR_BIT != 0);
    let choices = (0..1 << depth).find(ends).expect("a route");
    (0..depth).rev().map(|turn| if choices >> turn & 1 == 0 { 'R' } else { 'L' }).collect()
}

/// Holds the reader to the definitions; answers the verdict's number and how long the reason is.
fn explain_nodes(children: &[[u16; 2]]) -> (u32, usize) {
    let mut map = MapSpec::plain(Sizes::tree(children.len()), &mut Rng::new(1));
    map.nodes = children.iter().map(|&[right, left]| Node { right, left, ..Node::default() }).collect();
    let (mut words, mut out) = (vec![9; 4 * children.len()], vec![0; 99]);
    let (verdict, length) = why(&Plan::wad_of(map.clone()), &MAP_NAME, &mut words, &mut out);
    let wanted = match verdict {
        Ok(accepted) => route(&map.nodes, accepted.depth),
        Err(Refusal { number: 31, .. }) => way_into_loop(&map.nodes),
        Err(_) => String::new(),
    };
    assert_eq!(String::from_utf8_lossy(&out[..length]), wanted, "{children:?}");
    (verdict.map_or_else(|refusal| refusal.number, |_| 0), length)
}

#[test]
fn all_graphs_of_up_to_three_nodes() {
    for count in 1..=3_u32 {
        let words: Vec<u16> = (0..count as u16).chain((0..=count as u16).map(|number| SUBSECTOR_BIT | number)).collect();
        for number in 0..words.len().pow(2 * count) {
            let word = |at: u32| words[number / words.len().pow(at) % words.len()];
            explain_nodes(&(0..count).map(|at| [word(2 * at), word(2 * at + 1)]).collect::<Vec<_>>());
        }
    }
}

#[test]
fn any_graphs_of_up_to_nine_nodes() {
    let (mut rng, mut met) = (Rng::new(8), BTreeMap::new());
    for _ in 0..6_000 {
        let shape = match rng.below(4) {
            0 => Shape::Any,
            1 => Shape::Ring,
            _ => rng.pick(&Shape::loopless()),
        };
        let count = rng.between(4, 9);
        let (mut children, _) = shape.children(count, count + 1, &mut rng);
        for _ in 0..rng.below(3) {
            children[rng.below(count)][rng.below(2)] = rng.below(count) as u16;
        }
        *met.entry(explain_nodes(&children)).or_insert(0) += 1;
    }
    assert!((1..=9).all(|length| met.contains_key(&(31, length))), "{met:?}");
    assert!((3..=9).all(|length| met.contains_key(&(0, length))), "{met:?}");
}

/// A file's verdict and reason, as the order in which they are judged, and four numbers.
struct Judged {
    refusal: Option<Refusal>,
    field: [usize; 4],
}

fn judge(wad: &[u8], name: &[u8]) -> Judged {
    let (mut words, mut out) = (vec![0; 4 * 32_767], vec![0; 32_767]);
    let (verdict, _) = why(wad, name, &mut words, &mut out);
    let field = std::array::from_fn(|at| u32::from_le_bytes([0, 1, 2, 3].map(|byte| out[4 * at + byte])) as usize);
    Judged { refusal: verdict.err(), field }
}

impl Judged {
    /// Number, record and offset of a field; what comes later is larger.
    fn order(&self) -> (u32, usize, usize) {
        self.refusal.map_or((99, 0, 0), |it| (it.number, it.record, self.field[0]))
    }
}

/// Where the field stands in the file; `None` for a size, and where another lump has these bytes too.
fn place_of(wad: &[u8], name: &[u8], refusal: Refusal, offset: usize) -> Option<usize> {
    let marker = find_map(wad, name).marker.ok()?;
    let (start, size) = entry(wad, marker + refusal.place).ok()?;
    let parts = (0..directory(wad).ok()?.count).filter_map(|number| entry(wad, number).ok());
    let over = parts.filter(|part| part.0 < start + size && start < part.0 + part.1).count();
    let hexen = reader::map_game(wad, marker).ok()?;
    let record = match refusal.number {
        23 => Linedef::size(hexen),
        24 => 30,
        25 => 12,
        26 => 4,
        27 => 28,
        _ => 0,
    };
    (over == 1 && (refusal.number < 28 || offset > 0)).then_some(start + record * refusal.record + offset)
}

/// A field in its range is not charged again, and whatever is charged next comes later; one outside its range by one is charged itself.
fn mend(wad: &[u8], name: &[u8]) -> Option<u32> {
    let judged = judge(wad, name);
    let refusal = judged.refusal.filter(|it| (23..=28).contains(&it.number))?;
    let [offset, number, least, most] = judged.field;
    assert!(!(least..=most).contains(&number), "{refusal:?} {:?}", judged.field);
    let place = place_of(wad, name, refusal, offset)?;
    assert_eq!(number, usize::from(u16::from_le_bytes([wad[place], wad[place + 1]])));
    let with = |number: usize| {
        let mut wad = wad.to_vec();
        wad[place..place + 2].copy_from_slice(&(number as u16).to_le_bytes());
        judge(&wad, name)
    };
    for inside in [least, most, (least + most) / 2].into_iter().filter(|_| least <= most.min(0xFFFF)) {
        let later = with(inside.min(0xFFFF)).order();
        let is_later = later > judged.order() || refusal.number == 28 && later != judged.order();
        assert!(is_later, "{refusal:?} {:?} with {inside}: {later:?}", judged.field);
    }
    for outside in [least.wrapping_sub(1), most + 1].into_iter().filter(|&it| it <= 0xFFFF && (it ^ number) & 0x8000 == 0) {
        let again = with(outside);
        assert_eq!((again.refusal, again.field), (Some(refusal), [offset, outside, least, most]));
    }
    Some(refusal.number)
}

#[test]
fn a_field_that_is_mended_is_not_charged_again() {
    let (mut rng, mut met) = (Rng::new(9), BTreeMap::new());
    for _ in 0..20_000 {
        let case = why_case(&mut rng);
        let Question::Why { name, .. } = &case.question else { continue };
        if let Some(number) = mend(&case.bytes, name) {
            *met.entry(number).or_insert(0) += 1;
        }
    }
    assert!((23..=28).all(|number| met.get(&number) > Some(&300)), "{met:?}");
}
