//! Two artworks on one sheet (document 02, C-21): the joined maps of two sheets beside the map that is built of both, and the library
//! beside the model on any numbers and with every refusal; and what a join into a session's map does to the calls after it.

mod common;

use abi::join::join;
use abi::session::Session;
use common::{beside, document_01, map_of, numbers, old, wrong_lengths, Lent, MARGIN, SHORT_LENGTHS, SHORT_LENGTHS_OF_NONE};
use model::boards::{self, Board};
use model::maps;
use model::random::Random;
use model::scans::UNLABELLED;
use model::skeleton::size;
use soak::calls::Call;
use soak::library::Library;
use soak::list::List;

/// The exact map of a sheet of 60 × 40 pixels with these rectangles of copper.
fn exact_map(rectangles: &[[u16; 4]]) -> [i16; 2 * 60 * 40] {
    let (mut sheet, mut map, mut scratch) = ([0; 60 * 40], [0; 2 * 60 * 40], [0; 4 * 60]);
    let mut session = Session::fresh().open(&mut sheet, 60, 40).session;
    for &[x, y, w, h] in rectangles {
        session = session.paint(&mut sheet, x, y, w, h).session;
    }
    assert_eq!(session.build(&sheet, &mut map, &mut [], &mut scratch, 1).answer, 0);
    map
}

/// A logo is laid over a board. The two maps are joined, and the map of the sheet that has both need not be built.
#[test]
fn two_artworks() {
    // a pad with a track that leads down from it, and an L
    let board = [[8, 6, 7, 7], [11, 13, 1, 18]];
    let logo = [[36, 10, 3, 16], [39, 23, 9, 3]];
    let mut joined = [0; 2 * 60 * 40];
    assert_eq!(join(60, 40, &exact_map(&board), &exact_map(&logo), &mut joined), 0);
    assert_eq!(joined, exact_map(&[board, logo].concat()));
}

/// Joins two maps beside the model, into a slice of this length, which holds anything. Neither map may be written, nor anything around it.
/// The answer and the target.
fn made([w, h]: [u16; 2], maps: [&[i16]; 2], length: usize, random: &mut Random) -> (u32, Vec<i16>) {
    let (lengths, starts) = (maps.map(<[i16]>::len), maps.map(|map| &map[..map.len().min(40)]));
    let about = format!("{w} × {h}, {lengths:?} numbers to {length}, from {starts:?}");
    let [mut first, mut second] = maps.map(|map| Lent::around(map, MARGIN, || old(random)));
    let target = Lent::new(length, MARGIN, || old(random));
    let library = |target: &mut [i16]| join(w, h, first.slice(), second.slice(), target);
    let made = beside(target, library, |target| model::join::join(w, h, maps[0], maps[1], target), &about);
    first.written(0, "first map", &about);
    second.written(0, "second map", &about);
    made
}

/// The join of two maps that fit.
fn joined(sides: [u16; 2], maps: [&[[i16; 2]]; 2], random: &mut Random) -> Vec<[i16; 2]> {
    let (answer, joined) = made(sides, maps.map(|map| map.as_flattened()), numbers(sides), random);
    assert_eq!(answer, 0, "{sides:?}");
    joined.as_chunks().0.to_vec()
}

/// Joins the exact maps that the library builds of two boards, which must give the one that it builds of the board with the copper of both.
fn check(two: [&Board; 2], random: &mut Random) {
    let [first, second] = two.map(|board| map_of(board, 1, random));
    let expected = map_of(&two[0].joined_with(two[1]), 1, random);
    let found = joined(two[0].sides().into(), [&first, &second], random);
    if let Some(at) = (0..found.len()).find(|&at| found[at] != expected[at]) {
        panic!("{:?} and not {:?} at ({}, {}): {two:?}", found[at], expected[at], at % two[0].w, at / two[0].w);
    }
}

/// The same with any two boards.
fn check_any(w: usize, h: usize, random: &mut Random) {
    let two = boards::any_two(w, h, random);
    check(two.each_ref(), random);
}

/// Every two sheets of up to seven pixels.
#[test]
fn all_tiny() {
    let mut random = Random::new(261);
    let boards: Vec<Board> = boards::all_tiny(7).collect();
    for alike in boards.chunk_by(|one, next| one.sides() == next.sides()) {
        for (first, second) in alike.iter().flat_map(|first| alike.iter().map(move |second| (first, second))) {
            check([first, second], &mut random);
        }
    }
}

#[test]
fn small() {
    let mut random = Random::new(262);
    for _ in 0..20_000 {
        let (w, h) = (random.between(1, 12), random.between(1, 12));
        check_any(w, h, &mut random);
    }
}

#[test]
fn lines() {
    let mut random = Random::new(263);
    for turn in 0..60 {
        let n = if turn < 6 { 2_048 } else { random.between(1, 2_048) };
        for (w, h) in (1..=4).flat_map(|few| [(n, few), (few, n)]) {
            check_any(w, h, &mut random);
        }
    }
}

#[test]
fn medium() {
    let mut random = Random::new(264);
    for _ in 0..200 {
        let (w, h) = (random.between(2, 120), random.between(2, 120));
        check_any(w, h, &mut random);
        check([&boards::tracks(w, h, &mut random), &boards::tracks(w, h, &mut random)], &mut random);
    }
}

/// The largest sheet: tracks and a diagonal, and a few pixels from which many others are equally far.
#[test]
fn largest() {
    let mut random = Random::new(265);
    let (w, h) = (2_048, 2_048);
    check([&boards::tracks(w, h, &mut random), &boards::diagonal(w, h)], &mut random);
    check([&boards::corners_and_middle(w, h), &boards::middles_of_sides(w, h)], &mut random);
}

/// Document 01's board, of which each sheet has some pixels.
#[test]
fn boards_of_document_01() {
    let mut random = Random::new(266);
    let board = boards::document_01();
    for _ in 0..50 {
        let parts = board.split(&mut random);
        check(parts.each_ref(), &mut random);
    }
    check([&boards::m5(), &Board::with(3, 1, &[(2, 0)])], &mut random);
    check([&board, &board], &mut random);
    check([&board, &Board::bare(4, 4)], &mut random);
}

/// By what a pixel is decided that has these two vectors.
fn rule(one: [i16; 2], other: [i16; 2]) -> usize {
    match () {
        _ if one == UNLABELLED || other == UNLABELLED => 0,
        _ if size(one) != size(other) => 1,
        _ if one[0] != other[0] => 2,
        _ => 3,
    }
}

/// Maps that hold anything. Each rule decides often, for the first and for the second.
#[test]
fn anything() {
    let mut random = Random::new(267);
    let mut found = [[0; 2]; 4];
    for _ in 0..30_000 {
        let sides = [random.between(1, 12) as u16, random.between(1, 12) as u16];
        let pixels = numbers(sides) / 2;
        let mut first = maps::any(pixels, &mut random);
        if random.below(3) == 0 {
            first.as_flattened_mut().fill_with(|| random.next() as i16);
        }
        let second = if random.below(3) == 0 { maps::any(pixels, &mut random) } else { maps::any_beside(&first, &mut random) };
        let joined = joined(sides, [&first, &second], &mut random);
        for (at, &way) in joined.iter().enumerate().filter(|&(at, _)| first[at] != second[at]) {
            found[rule(first[at], second[at])][usize::from(way == second[at])] += 1;
        }
    }
    assert!(found.as_flattened().iter().all(|&pixels| pixels > 5_000), "{found:?}");
}

/// Every two of the telling vectors, in either order.
#[test]
fn every_pair() {
    let mut random = Random::new(268);
    let vectors = maps::telling();
    let n = vectors.len();
    let rows: Vec<[i16; 2]> = vectors.iter().flat_map(|&vector| vec![vector; n]).collect();
    let columns = vectors.repeat(n);
    let sides = [n as u16; 2];
    assert_eq!(joined(sides, [&rows, &columns], &mut random), joined(sides, [&columns, &rows], &mut random));
}

/// Every number as dx and as dy, beside some others: against the same the other way round, the next number, and a vector of middling size.
#[test]
fn every_number() {
    let mut random = Random::new(269);
    for other in [0, 1, -1, 256, 32_767, -32_767, -32_768] {
        let across: Vec<[i16; 2]> = (i16::MIN..=i16::MAX).map(|number| [number, other]).collect();
        let along: Vec<[i16; 2]> = across.iter().map(|&[number, other]| [other, number]).collect();
        let next: Vec<[i16; 2]> = across.iter().map(|&[number, other]| [number.wrapping_add(1), other]).collect();
        let middling = vec![[-181, 182]; across.len()];
        for maps in [[&across, &along], [&along, &across], [&across, &next], [&along, &next], [&across, &middling], [&middling, &along]] {
            joined([256, 256], maps.map(|map| &map[..]), &mut random);
        }
    }
}

/// Two maps that differ at one pixel, at each place of small ones.
#[test]
fn every_place() {
    let mut random = Random::new(270);
    let vectors = maps::telling();
    for sides in (1..=6).flat_map(|w| (1..=6).map(move |h| [w, h])).chain([[40, 1], [1, 40], [9, 8], [67, 3]]) {
        let pixels = numbers(sides) / 2;
        for at in (0..pixels).flat_map(|at| [at; 10]) {
            let first = maps::any(pixels, &mut random);
            let mut second = first.clone();
            second[at] = vectors[random.between(0, vectors.len() - 1)];
            let found = joined(sides, [&first, &second], &mut random);
            assert_eq!(found, joined(sides, [&second, &first], &mut random));
            assert!((0..pixels).all(|other| other == at || found[other] == first[other]), "{at} of {sides:?}");
        }
    }
}

/// 11 for a side outside 1 to 2,048, whatever the other side is and with lengths that fit.
#[test]
fn sides() {
    let mut random = Random::new(271);
    for side in [0, 1, 2, 2_047, 2_048, 2_049, 2_050, 4_096, 32_768, 65_535] {
        for other in [0, 1, 2, 2_047, 2_048, 2_049, 65_535] {
            for sides in [[side, other], [other, side]] {
                // not too many numbers: no slice fits sides beyond their limits anyway
                let length = numbers(sides).min(2 * 2_048 * 2);
                let expected = match side.max(other) {
                    _ if side.min(other) == 0 => 11,
                    2_049.. => 11,
                    _ if length != numbers(sides) => 12,
                    _ => 0,
                };
                let [first, second] = [(); 2].map(|()| maps::any(length / 2, &mut random).concat());
                assert_eq!(made(sides, [&first, &second], length, &mut random).0, expected, "{sides:?}");
            }
        }
    }
}

/// The answer of a join with two maps of the first two lengths, which hold anything, into a slice of the third.
fn answer(sides: [u16; 2], [first, second, target]: [usize; 3], random: &mut Random) -> u32 {
    let [first, second] = [first, second].map(|length| Vec::from_iter((0..length).map(|_| old(random))));
    made(sides, [&first, &second], target, random).0
}

/// 12: one of the three slices, two or all have another length. 11 goes before it.
#[test]
fn lengths() {
    let mut random = Random::new(272);
    for sides in [[1, 1], [1, 9], [9, 1], [5, 4], [128, 1], [1, 128], [2_048, 1], [1, 2_048]] {
        let right = numbers(sides);
        for wrong in wrong_lengths(right) {
            for set in 1..8 {
                let lengths = [1, 2, 4].map(|bit| if set & bit != 0 { wrong } else { right });
                assert_eq!(answer(sides, lengths, &mut random), 12, "{sides:?}, {lengths:?}");
            }
        }
        // as many numbers in all as there should be
        for lengths in [[right - 1, right + 1, right], [right, right - 1, right + 1], [right + 1, right, right - 1]] {
            assert_eq!(answer(sides, lengths, &mut random), 12, "{sides:?}, {lengths:?}");
        }
        assert_eq!(answer(sides, [right; 3], &mut random), 0, "{sides:?}");
    }
    for (lengths, expected) in [(SHORT_LENGTHS, 12), (SHORT_LENGTHS_OF_NONE, 11)] {
        for (sides, length) in lengths {
            assert_eq!(answer(sides, [length; 3], &mut random), expected, "{sides:?}");
        }
    }
}

/// A wrong side, and each of the slices with a wrong length, alone and together: 11, then 12, and 0 if nothing is wrong.
#[test]
fn order_of_refusals() {
    let mut random = Random::new(273);
    for set in 0..16 {
        let expected = match set {
            0 => 0,
            1..=7 => 12,
            _ => 11,
        };
        for wrong in [0, 2_049] {
            let sides = [3, if set > 7 { wrong } else { 2 }];
            let lengths = [1, 2, 4].map(|bit| numbers([3, 2]) + usize::from(set & bit != 0));
            assert_eq!(answer(sides, lengths, &mut random), expected, "{set:04b}");
        }
    }
}

/// Joins two maps into the pairs of a list.
fn join_into(list: &mut List<Library>, first: &[i16], second: &[i16]) {
    let mut map = list.map.clone();
    assert_eq!(join(4, 4, first, second, &mut map), 0);
    list.write(map, list.values.clone());
}

/// After a join into a session's map the gate looks at the joined one: it turns the cutter away from a logo that is not on the session's
/// sheet, and lets it down on copper if neither map is the sheet's. Session and sheet go on agreeing with the board. From the next build
/// that is done all is as before.
#[test]
fn into_a_session() {
    let mut random = Random::new(274);
    let mut list = document_01(&mut random);
    let [on_copper, on_logo] = [Call::Place { x: 2, y: 2, q: 9 }, Call::Place { x: 0, y: 0, q: 7 }];
    let answers = |list: &mut List<Library>, random: &mut Random| [on_copper, on_logo].map(|call| list.call(call, random));
    let session = list.session();
    assert_eq!(answers(&mut list, &mut random), [34, 0]);
    let logo = map_of(&Board::with(4, 4, &[(0, 0)]), 1, &mut random).concat();
    let own = list.map.clone();
    join_into(&mut list, &own, &logo);
    assert_eq!(answers(&mut list, &mut random), [34, 34]);
    join_into(&mut list, &[100; 32], &[90; 32]);
    assert_eq!(answers(&mut list, &mut random), [0, 0]);
    assert_eq!((list.session().lowered, list.session().closest), (true, 16_200));
    assert_eq!(list.call(Call::Build { engine: 1 }, &mut random), 0);
    assert_eq!((list.session(), &list.map), (session, &own));
    assert_eq!(answers(&mut list, &mut random), [34, 0]);
}
