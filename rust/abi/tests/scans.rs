//! The library's scans beside the model's, to the number, and beside the true distances, on many thousand sheets.

mod common;

use common::map_of;
use model::boards::{self, patterned, scattered, Board};
use model::nearest;
use model::random::Random;
use model::scans::{self, OTHER_RULES, UNLABELLED};
use model::skeleton::size;

/// The library's map by 8SED (with `corners`) or 4SED.
fn lent(board: &Board, corners: bool, random: &mut Random) -> Vec<[i16; 2]> {
    map_of(board, if corners { 2 } else { 3 }, random)
}

/// The true squared distances: by brute force on small sheets, and the faster way on others.
fn distances(board: &Board) -> Vec<Option<u64>> {
    let &Board { w, h, ref sheet } = board;
    if w * h <= 144 {
        (0..w * h).map(|at| nearest::squared(sheet, w, h, at % w, at / w)).collect()
    } else {
        nearest::all(sheet, w, h)
    }
}

/// All that is to be seen of both scans on a board. The maps by 4SED and by 8SED are handed back.
fn check(board: &Board, random: &mut Random) -> [Vec<[i16; 2]>; 2] {
    let &Board { w, h, ref sheet } = board;
    let distances = distances(board);
    [false, true].map(|corners| {
        let map = lent(board, corners, random);
        let expected = scans::scan(sheet, w, h, corners);
        for at in 0..w * h {
            let (x, y, found) = (at % w, at / w, map[at]);
            let place = || format!("pixel ({x}, {y}), corners {corners}: {board:?}");
            assert_eq!(found, expected[at], "{}", place());
            let Some(e) = distances[at] else {
                assert_eq!(found, UNLABELLED, "{}", place());
                continue;
            };
            assert_ne!(found, UNLABELLED, "{}", place());
            let end = (x as i64 + i64::from(found[0]), y as i64 + i64::from(found[1]));
            assert!((0..w as i64).contains(&end.0) && (0..h as i64).contains(&end.1), "leads off the sheet, {}", place());
            assert_ne!(sheet[end.1 as usize * w + end.0 as usize], 0, "leads to no copper, {}", place());
            let a = size(found);
            assert!(a >= e, "size {a} below {e}, {}", place());
            assert!(if corners { 144 * a <= 169 * e } else { a <= 2 * e }, "size {a} for {e}, {}", place());
            assert_eq!(a == 0, sheet[at] != 0, "{}", place());
        }
        map
    })
}

/// Checks boards on which candidates of equal size meet: by either scan each of the other rules gives another map on at least so many of
/// them.
fn check_equals(boards: impl Iterator<Item = Board>, least: usize) {
    let mut random = Random::new(17);
    let mut differ = [[0; OTHER_RULES.len()]; 2];
    for board in boards {
        let maps = check(&board, &mut random);
        for corners in [false, true] {
            let engine = usize::from(corners);
            for (which, rule) in OTHER_RULES.into_iter().enumerate() {
                let other = scans::scan_by(rule, &board.sheet, board.w, board.h, corners);
                differ[engine][which] += usize::from(other != maps[engine]);
            }
        }
    }
    assert!(differ.as_flattened().iter().all(|&boards| boards >= least), "{differ:?}");
}

#[test]
fn small() {
    let mut random = Random::new(11);
    for _ in 0..30_000 {
        let (w, h) = (random.between(1, 12), random.between(1, 12));
        check(&scattered(w, h, &mut random), &mut random);
    }
}

/// Every sheet of up to twelve pixels.
#[test]
fn all_tiny() {
    check_equals(boards::all_tiny(12), 14_000);
}

/// Two and three copper pixels anywhere.
#[test]
fn few_pixels() {
    let mut random = Random::new(12);
    let boards = (0..10_000).map(|turn| {
        let (w, h) = (random.between(1, 30), random.between(1, 30));
        boards::sprinkled(w, h, 2 + turn % 2, &mut random)
    });
    check_equals(boards, 3_000);
}

/// Boards that are their own mirror images: from side to side, from top to bottom, both, at the diagonal, all of these.
#[test]
fn symmetric() {
    let mut random = Random::new(20);
    let boards = (0..10_000).map(|turn| {
        let (w, h) = (random.between(1, 16), random.between(1, 16));
        match turn % 5 {
            0 => scattered(w, h, &mut random).mirrored(true, false),
            1 => scattered(w, h, &mut random).mirrored(false, true),
            2 => scattered(w, h, &mut random).mirrored(true, true),
            3 => scattered(w, w, &mut random).mirrored_diagonally(),
            _ => scattered(w, w, &mut random).mirrored_diagonally().mirrored(true, true),
        }
    });
    check_equals(boards, 3_000);
}

/// Two or three rows or columns.
#[test]
fn narrow() {
    let mut random = Random::new(26);
    let boards = (0..10_000).map(|turn| {
        let (n, few) = (random.between(1, 60), 2 + turn % 2);
        let (w, h) = if turn % 4 < 2 { (n, few) } else { (few, n) };
        boards::any(w, h, &mut random)
    });
    check_equals(boards, 3_000);
}

/// Patterns of which many pixels have several nearest copper pixels.
#[test]
fn patterns() {
    let mut random = Random::new(27);
    let boards = (0..10_000).map(|_| {
        let (w, h) = (random.between(1, 16), random.between(1, 16));
        patterned(w, h, &mut random)
    });
    check_equals(boards, 3_000);
}

#[test]
fn lines() {
    let mut random = Random::new(13);
    for turn in 0..200 {
        let n = if turn < 20 { 2_048 } else { random.between(1, 2_048) };
        check(&scattered(n, 1, &mut random), &mut random);
        check(&scattered(1, n, &mut random), &mut random);
    }
}

#[test]
fn medium() {
    let mut random = Random::new(14);
    for turn in 0..400 {
        let (w, h) = (random.between(2, 64), random.between(2, 64));
        let board = if turn % 4 == 0 { boards::tracks(w, h, &mut random) } else { scattered(w, h, &mut random) };
        check(&board, &mut random);
    }
}

#[test]
fn large() {
    let mut random = Random::new(15);
    check(&boards::tracks(300, 200, &mut random), &mut random);
    check(&boards::random(200, 300, 5, &mut random), &mut random);
    check(&boards::one_pixel(256, 256), &mut random);
    // many pixels are equally far from several
    check(&boards::diagonal(200, 200), &mut random);
    check(&boards::corners_and_middle(201, 301), &mut random);
    check(&boards::middles_of_sides(301, 201), &mut random);
}

/// On the largest sheet a single copper pixel is where every vector leads, up to ±2,047 away.
#[test]
fn largest() {
    let mut random = Random::new(16);
    for (corners, (column, row)) in [(true, (0, 2_047)), (true, (2_047, 0)), (false, (0, 0)), (false, (2_047, 2_047))] {
        let map = lent(&Board::with(2_048, 2_048, &[(column, row)]), corners, &mut random);
        for (at, &found) in map.iter().enumerate() {
            let way = [column as i16 - (at % 2_048) as i16, row as i16 - (at / 2_048) as i16];
            assert_eq!(found, way, "pixel {at}, copper ({column}, {row})");
        }
    }
}

#[test]
fn boards_of_document_01() {
    let mut random = Random::new(18);
    let m1 = boards::document_01();
    check(&m1, &mut random);
    assert_eq!(lent(&m1, false, &mut random)[0], [3, 0]);
    assert_eq!(size(lent(&m1, true, &mut random)[0]), 8);
    for corners in [false, true] {
        assert_eq!(lent(&boards::m5(), corners, &mut random), [[0, 0], [-1, 0], [-2, 0]]);
    }
}

#[test]
fn arrow_head() {
    let mut random = Random::new(19);
    let board = boards::arrow_head();
    check(&board, &mut random);
    assert_eq!(size(lent(&board, true, &mut random)[0]), 170);
    assert_eq!(distances(&board)[0], Some(169));
}
