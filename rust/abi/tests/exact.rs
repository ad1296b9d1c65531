//! The library's exact map beside the model's, to the number, on many thousand sheets.

mod common;

use common::map_of;
use model::boards::{self, patterned, scattered, Board};
use model::exact;
use model::random::Random;
use model::scans::UNLABELLED;
use model::skeleton::size;

/// The library's map, which must be the expected one.
fn compare(board: &Board, expected: &[[i16; 2]], random: &mut Random) {
    let map = map_of(board, 1, random);
    assert_eq!(map.len(), expected.len());
    for (at, found) in map.iter().enumerate() {
        assert_eq!(*found, expected[at], "pixel ({}, {}): {board:?}", at % board.w, at / board.w);
    }
}

fn check(board: &Board, random: &mut Random) {
    compare(board, &exact::sooner(&board.sheet, board.w, board.h), random);
}

#[test]
fn small() {
    let mut random = Random::new(41);
    for turn in 0..40_000 {
        let (w, h) = (random.between(1, 12), random.between(1, 12));
        let board = if turn % 2 == 0 { scattered(w, h, &mut random) } else { patterned(w, h, &mut random) };
        check(&board, &mut random);
    }
}

/// Every sheet of up to twelve pixels.
#[test]
fn all_tiny() {
    let mut random = Random::new(42);
    for board in boards::all_tiny(12) {
        check(&board, &mut random);
    }
}

#[test]
fn lines() {
    let mut random = Random::new(43);
    for turn in 0..200 {
        let n = if turn < 20 { 2_048 } else { random.between(1, 2_048) };
        for (w, h) in (1..=4).flat_map(|few| [(n, few), (few, n)]) {
            let board = if turn % 2 == 0 { scattered(w, h, &mut random) } else { patterned(w, h, &mut random) };
            check(&board, &mut random);
        }
    }
}

#[test]
fn medium() {
    let mut random = Random::new(44);
    for _ in 0..200 {
        let (w, h) = (random.between(2, 64), random.between(2, 64));
        for board in [boards::tracks(w, h, &mut random), scattered(w, h, &mut random), patterned(w, h, &mut random)] {
            check(&board, &mut random);
        }
    }
}

/// Runs of copper of all lengths, at any place of a row.
#[test]
fn mostly_copper() {
    let mut random = Random::new(52);
    for _ in 0..300 {
        let (w, h) = (random.between(1, 200), random.between(1, 12));
        let per_mille = random.between(800, 1_000) as u64;
        check(&boards::random(w, h, per_mille, &mut random), &mut random);
    }
}

#[test]
fn large() {
    let mut random = Random::new(45);
    for (w, h) in [(2_048, 64), (64, 2_048), (512, 512)] {
        for turn in 0..6 {
            let board = match turn {
                0 => boards::one_pixel(w, h),
                1 => boards::random(w, h, 1, &mut random),
                2 => boards::random(w, h, 500, &mut random),
                3 => boards::tracks(w, h, &mut random),
                4 => boards::diagonal(w, h),
                _ => patterned(w, h, &mut random),
            };
            check(&board, &mut random);
        }
    }
}

/// On the largest sheet a single copper pixel is where every vector goes, up to ±2,047 away.
#[test]
fn largest() {
    let mut random = Random::new(46);
    for (column, row) in [(0, 0), (2_047, 0), (0, 2_047), (2_047, 2_047)] {
        let ways = (0..2_048).flat_map(|y| (0..2_048).map(move |x| [column - x, row - y]));
        let expected: Vec<[i16; 2]> = ways.collect();
        compare(&Board::with(2_048, 2_048, &[(column as usize, row as usize)]), &expected, &mut random);
    }
}

/// On the largest sheet with a diagonal line every column is a candidate in every row. The foot of the perpendicular is nearest, or the two
/// pixels beside it are, of which the upper left one counts.
#[test]
fn largest_with_a_diagonal() {
    let mut random = Random::new(47);
    let foot = |x: i16, y: i16| (x + y) / 2;
    let ways = (0..2_048).flat_map(|y| (0..2_048).map(move |x| [foot(x, y) - x, foot(x, y) - y]));
    let expected: Vec<[i16; 2]> = ways.collect();
    compare(&boards::diagonal(2_048, 2_048), &expected, &mut random);
}

/// The largest sheet without copper, full, and with a few pixels, from which many others are equally far.
#[test]
fn largest_with_little_to_see() {
    let mut random = Random::new(48);
    compare(&Board::bare(2_048, 2_048), &vec![UNLABELLED; 2_048 * 2_048], &mut random);
    compare(&boards::full(2_048, 2_048), &vec![[0, 0]; 2_048 * 2_048], &mut random);
    for board in [boards::corners_and_middle(2_048, 2_048), boards::middles_of_sides(2_048, 2_048)] {
        compare(&board, &exact::exact(&board.sheet, 2_048, 2_048), &mut random);
    }
}

#[test]
fn boards_of_document_01() {
    let mut random = Random::new(49);
    let m1 = boards::document_01();
    check(&m1, &mut random);
    assert_eq!(map_of(&m1, 1, &mut random)[0], [2, 2]);
    assert_eq!(map_of(&boards::m5(), 1, &mut random), [[0, 0], [-1, 0], [-2, 0]]);
    assert_eq!(map_of(&boards::m6(), 1, &mut random), [[0, 0], [-1, 0], [0, 0]]);
}

/// The exact size is 169 where 8SED has 170.
#[test]
fn arrow_head() {
    let mut random = Random::new(50);
    let board = boards::arrow_head();
    check(&board, &mut random);
    assert_eq!(size(map_of(&board, 1, &mut random)[0]), 169);
    assert_eq!(size(map_of(&board, 2, &mut random)[0]), 170);
}
