//! Both sides of every limit, and the large inputs of the benchmark.

mod common;

use common::check;
use generator::*;
use reader::{descend, directory, draw_order, find_map, judge_map, judge_picture, map_game, Accepted, Found, Refusal, Search};
use reader::{differences, index_build, index_check, index_find, IndexRecord, IndexSearch};
use reader::{judge_sidedefs, pair_find, pair_judge_map, renumber, why, write_picture, PairFile, Picture};
use reader::{text_linedef, text_map, text_vertex, Quoted, TextMap, TextVertex};

#[test]
fn both_sides_of_every_limit() {
    for build in limits() {
        check(&build());
    }
}

fn verdict_on(wad: &[u8]) -> Result<Accepted, Refusal> {
    let mut words = vec![1; 4 * 32_767];
    judge_map(wad, &MAP_NAME, &mut words)
}

fn judged(wad: &[u8]) -> Accepted {
    verdict_on(wad).expect("a good map")
}

#[test]
fn large_inputs_are_good() {
    assert_eq!(judged(&ordinary_map()).depth, 8);
    assert_eq!(judged(&map_of(4)).depth, 10);
    assert_eq!(judged(&chain(32_766)).depth, 32_766);
    assert_eq!(judged(&balanced(32_766)).depth, 15);
    assert_eq!(judged(&directory_of(4_096)).marker, 0);
    assert_eq!(directory(&directory_of(4_096)).unwrap().count, 4_096);
    assert_eq!(directory(&littered_directory_of(4_096)).unwrap().count, 4_096);
    let largest = largest_map();
    assert!((MOST_BYTES - 1..=MOST_BYTES).contains(&largest.len()));
    assert_eq!(judged(&largest).depth, 15);
    let hexen = largest_hexen_map_of(4);
    assert!((MOST_BYTES - 1..=MOST_BYTES).contains(&hexen.len()));
    for (wad, depth) in [(hexen, 15), (hexen_map_of(1), 8)] {
        assert_eq!((judged(&wad).depth, map_game(&wad, 0)), (depth, Ok(true)));
    }
}

#[test]
fn shared_inputs_are_refused_for_that_alone() {
    for wad in [doublings(30), doublings(32_767), shared_subsector(30), shared_subsector(32_766)] {
        assert_eq!(verdict_on(&wad), Err(Refusal::new(32, 7, 0)));
    }
}

#[test]
fn searched_inputs_are_searched_to_their_end() {
    for count in [1, 1_024, 4_096] {
        let [first, none] = [search_to_the_first(count), search_in_vain(count)].map(|wad| find_map(&wad, &MAP_NAME));
        assert_eq!(first, Search { marker: Ok(0), compared: count });
        assert_eq!(none, Search { marker: Err(Refusal::plain(11)), compared: count });
    }
}

#[test]
fn pairs_are_an_ordinary_one_and_one_searched_in_vain() {
    for (scale, depth) in [(1, 8), (4, 10)] {
        let pair = pair_of(scale);
        let (base, patch) = halves(&pair);
        assert_eq!((base.len(), judged(base).marker), (patch.len(), 0));
        let map = pair_judge_map(base, patch, &MAP_NAME, &mut vec![1; 4 * 32_767]).expect("a good map");
        assert_eq!((map.file, map.map), (PairFile::Patch, Accepted { depth, marker: 0 }));
    }
    let pair = pair_in_vain(4_096);
    let (base, patch) = halves(&pair);
    assert_eq!([base, patch].map(|wad| directory(wad).map(|it| it.count)), [Ok(4_096); 2]);
    assert_eq!(pair_find(base, patch, &MAP_NAME).map_err(|it| (it.file, it.refusal.number)), Err((None, 11)));
}

#[test]
fn hostile_draw_orders_are_refused_for_their_length_and_their_depth() {
    let number = |nodes: &[u8]| draw_order(nodes, 32_767, 1, 0, &mut vec![7; 32_768]).map_err(|refusal| refusal.number);
    assert_eq!([deep_doublings(300), deep_doublings(32_767)].map(|nodes| number(&nodes)), [Err(46); 2]);
    assert_eq!([double_nodes(30), double_nodes(32_767)].map(|nodes| number(&nodes)), [Err(46), Err(44)]);
    assert_eq!([deep_chain(256), deep_chain(257), deep_chain(32_767)].map(|nodes| number(&nodes)), [Ok(257), Err(44), Err(44)]);
    assert_eq!([halving_nodes(14), mixed_nodes(14)].map(|nodes| number(&nodes)), [Ok(16_384); 2]);
}

#[test]
fn hostile_inputs_are_good() {
    let hostile = hostile_blockmap();
    assert!((MOST_BYTES - 1..=MOST_BYTES).contains(&hostile.len()));
    assert_eq!(judged(&hostile).depth, 0);
    let pictures = [hostile_picture_of(10_000), staggered_picture_of(10_000), busy_picture_of(10_000)];
    assert_eq!(pictures.map(|lump| judge_picture(&lump).is_ok()), [true; 3]);
    assert_eq!(judge_picture(&badly_ended_picture_of(10_000)).map_err(|it| it.number), Err(54));
    assert_eq!(judge_picture(&picture(320, 200)).map(|it| (it.width, it.height)), Ok((320, 200)));
}

#[test]
fn pixels_are_an_ordinary_picture_and_one_of_the_most_posts() {
    let written = |width: usize, pixels: &[u8]| {
        let (colour, cover) = halves(pixels);
        let picture = Picture { width, height: colour.len() / width, left: 0, top: 0 };
        write_picture(picture, colour, cover, &mut vec![0; 200_000]).expect("a good picture")
    };
    assert_eq!(written(320, &checkered(320, 200)), 8 + 320 * (4 + 1 + 100 * 5));
    assert!((15_000..18_000).contains(&written(128, &pixels(128, 128))));
}

/// Number and record of a refusal, and what is printed.
fn reason_of(wad: &[u8]) -> (u32, usize, Vec<u8>) {
    let mut out = vec![0; 32_767];
    let (verdict, length) = why(wad, &MAP_NAME, &mut vec![1; 4 * 32_767], &mut out);
    let refusal = verdict.err().unwrap_or(Refusal::plain(0));
    (refusal.number, refusal.record, out[..length].to_vec())
}

#[test]
fn refused_inputs_have_their_reasons() {
    let field = |numbers: [u32; 4]| numbers.map(u32::to_le_bytes).concat();
    assert_eq!(reason_of(&map_of(1)), (0, 0, vec![b'R'; 8]));
    assert_eq!(reason_of(&bad_sidedef_of(2)), (24, 2 * 666 - 1, field([28, 176, 0, 175])));
    assert_eq!((reason_of(&bad_seg_of(1)).0, reason_of(&bad_seg_of(1)).1), (25, 746));
    let way = reason_of(&long_loop(32_767));
    assert_eq!((way.0, way.2.len(), &way.2[..3]), (31, 32_767, &b"RLR"[..]));
    for nodes in [8_191, 32_767] {
        assert_eq!(reason_of(&loop_behind_tree(nodes)), (31, 0, b"LR".to_vec()));
    }
    let wad = bad_blockmap_of(MOST_BYTES);
    assert!((MOST_BYTES - 1..=MOST_BYTES).contains(&wad.len()));
    let size = reader::lump(&wad, 10).len() as u32;
    assert_eq!(reason_of(&wad), (28, 31_999, field([size - 2, 1, 0, 0])));
    assert_eq!(reason_of(&chain(32_766)).2.len(), 32_766);
}

/// How many numbers an order has, and the new lump's bytes, or the refusal's number.
fn renumbered(input: &[u8]) -> (usize, Result<usize, u32>) {
    let (order, wad) = order_and_file(input);
    let mut out = vec![0; 28 * 32_766];
    let length = renumber(wad, &MAP_NAME, &mut vec![1; 4 * 32_767], &order, &mut out);
    (order.len(), length.map_err(|refusal| refusal.number))
}

#[test]
fn inputs_in_order_are_good_or_refused_at_their_end() {
    assert_eq!(renumbered(&map_in_order(1)), (238, Ok(28 * 238)));
    for nodes in [8_191, 32_767] {
        let reached = nodes - 1;
        assert_eq!(renumbered(&chain_in_order(nodes, |order| order)), (reached, Ok(28 * reached)));
        assert_eq!(renumbered(&chain_in_order(nodes, repeat_at_the_end)), (reached, Err(70)));
        assert_eq!(renumbered(&chain_in_order(nodes, child_at_the_end)), (reached, Err(71)));
        assert_eq!(renumbered(&chain_in_order(nodes, twice_as_long)), (2 * nodes + 2, Err(73)));
    }
}

/// How many records differ of each lump of two maps in one input.
fn differing(input: &[u8]) -> [usize; 8] {
    let (old, new) = halves(input);
    let (mut words, mut list) = (vec![1; 4 * 32_767], vec![1; 458_744]);
    differences(old, &MAP_NAME, new, &MAP_NAME, &mut words, &mut list).expect("two good maps")
}

#[test]
fn two_maps_in_one_input_differ_as_they_say() {
    assert_eq!(differing(&twice(map_of(2))), [0; 8]);
    assert_eq!(differing(&with_last_changed(map_of(2))), [0, 0, 0, 0, 0, 0, 0, 1]);
    assert_eq!(differing(&with_changes(map_of(1), 10)), [15, 49, 67, 47, 75, 0, 24, 9]);
    let most = [65_535, 65_535, 65_535, 65_535, 65_535, 0, 32_766, 8_000];
    assert_eq!(differing(&with_changes(largest_map(), 1)), most);
    assert_eq!(differing(&with_last_changed(largest_map())), [0, 0, 0, 0, 0, 0, 0, 1]);
}

#[test]
fn names_of_an_index_are_good_and_in_their_order() {
    for count in [0, 1, 1_024, 4_096] {
        let files = [names_at_random(count), names_ascending(count), names_descending(count), names_alike(count)];
        let numbers = files.map(|wad| {
            let (mut records, mut out) = (vec![IndexRecord::default(); count], vec![0; 11 + 10 * count]);
            assert_eq!(index_build(&wad, &mut records, &mut out), Ok(out.len()));
            let (right, wrong) = (with_its_index(wad.clone()), with_a_wrong_index(wad.clone()));
            assert_eq!(wad_and_index(&right), (&wad[..], &out[..]));
            assert!(index_check(&wad, wad_and_index(&wrong).1).is_err());
            records.iter().map(|it| it.number).collect::<Vec<u16>>()
        });
        let row: Vec<u16> = (0..count as u16).collect();
        assert!(numbers[1] == row && numbers[3] == row && numbers[2].iter().rev().eq(&row) && (count < 2 || numbers[0] != row));
        let (input, most) = (with_its_index(names_ascending(count)), halvings(count, 1));
        let (wad, index) = wad_and_index(&input);
        let entry = if count == 0 { Err(Refusal::plain(11)) } else { Ok(0) };
        assert_eq!(index_find(wad, index, b"A0000\0\0\0"), IndexSearch { entry, compared: most });
    }
}

#[test]
fn sidedefs_are_the_most_and_good() {
    for count in [1, 65_535] {
        assert_eq!((judge_sidedefs(&sidedefs_of(count), FACED), sidedefs_of(count).len()), (Ok(()), 30 * count));
    }
    assert_eq!(judge_sidedefs(&sidedefs_of(65_535), FACED / 2).map_err(|it| it.number), Err(24));
}

#[test]
fn halving_passes_one_node_a_level() {
    let nodes = halving_nodes(10);
    let mut met = vec![false; 1024];
    for x in (0..32).map(|step| step * 2048 - 32_768 + 1) {
        for y in (0..32).map(|step| step * 2048 - 32_768 + 1) {
            let Found { subsector, count } = descend(&nodes, 1024, x as i16, y as i16).unwrap();
            assert_eq!(count, 10);
            met[subsector] = true;
        }
    }
    assert!(met.iter().all(|met| *met));
}

#[test]
fn texts_of_a_benchmark_are_good_and_as_long_as_they_say() {
    let summed = |text: &[u8]| text_map(text).map(|map| map.counts);
    for n in [1, 4] {
        let part = MOST_BYTES / 4 * n;
        let texts = [text_of_assignments, text_of_comments, text_of_one_string, text_of_one_word, text_of_one_number];
        for text in texts.map(|text| text(n)) {
            assert_eq!((text_map(&text), text.len()), (Ok(TextMap { namespace: Quoted::default(), counts: [0; 5] }), part));
        }
        let named = text_of_one_namespace(n);
        assert_eq!((text_map(&named).map(|map| map.namespace), named.len()), (Ok(Quoted { start: 13, end: part - 2 }), part));
        let one = text_of_one_block(n);
        assert_eq!((summed(&one), one.len()), (Ok([0, 1, 0, 0, 0]), part));
        assert_eq!(text_linedef(&one, 0).map(|(linedef, next)| (linedef.sidefront, next)), Ok((3, part - 1)));
        assert_eq!(one.iter().filter(|&&byte| byte == b'=').count(), 250_000 * n + 3);
        let blocks = text_of_blocks(n);
        assert_eq!(summed(&blocks).map(|counts| counts.iter().sum()), Ok(65_535 * n / 4));
        assert_eq!(blocks.len(), 65_535 * n / 4 * 256);
        assert_eq!(summed(&text_of_vertices(n)), Ok([65_535 * n / 4, 0, 0, 0, 0]));
    }
    assert_eq!(text_vertex(&text_of_vertices(4), 65_534).map(|it| it.0), Ok(TextVertex { x: 32_640.0, y: -8_128.5 }));
    let ordinary = ordinary_text(4);
    assert!((300_000..900_000).contains(&ordinary.len()), "{}", ordinary.len());
    assert_eq!(summed(&ordinary), Ok([2_000, 2_000, 2_500, 500, 1_000]));
}
