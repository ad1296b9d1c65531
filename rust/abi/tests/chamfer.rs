//! The library's maps of values beside the model's, to the number, on many thousand sheets: by all allowed weights, and by the engines.

mod common;

use abi::chamfer;
use common::{margin, old_value, values_of, Lent};
use model::boards::{self, Board};
use model::chamfer::{by_steps, sooner, Weights, CHAMFER, CHESSBOARD, CITY_BLOCK, UNLABELLED};
use model::random::Random;

/// The engines and their weights.
const ENGINES: [(u16, Weights); 3] = [(4, CITY_BLOCK), (5, CHESSBOARD), (6, CHAMFER)];

/// The library's map by any weights. It is lent the board's sheet, which it must not write, and values that hold anything.
fn map_by(board: &Board, weights: Weights, random: &mut Random) -> Vec<u16> {
    let (w, h) = board.sides();
    let mut sheet = Lent::around(&board.sheet, margin(board), || random.next() as u8);
    let mut values = Lent::new(board.sheet.len(), margin(board), || old_value(random));
    assert!(chamfer::map(sheet.slice(), values.slice(), w, h, weights.a, weights.b), "{weights:?}: {board:?}");
    sheet.written(0, "sheet", board);
    values.written(board.sheet.len(), "values", board).to_vec()
}

/// Asserts that a map is the expected one.
fn same(found: &[u16], expected: &[u16], board: &Board, weights: Weights) {
    assert_eq!(found.len(), expected.len());
    if let Some(at) = (0..found.len()).find(|&at| found[at] != expected[at]) {
        panic!("{} and not {} at ({}, {}) by {weights:?}: {board:?}", found[at], expected[at], at % board.w, at / board.w);
    }
}

/// The map by these weights, which must be the expected one.
fn compare(board: &Board, weights: Weights, expected: &[u16], random: &mut Random) {
    same(&map_by(board, weights, random), expected, board, weights);
}

/// The map by these weights, which must be the model's.
fn check(board: &Board, weights: Weights, random: &mut Random) {
    compare(board, weights, &sooner(&board.sheet, board.w, board.h, weights), random);
}

/// The maps by the three engines, which must be the model's by their weights.
fn check_engines(board: &Board, random: &mut Random) {
    for (engine, weights) in ENGINES {
        same(&values_of(board, engine, random), &sooner(&board.sheet, board.w, board.h, weights), board, weights);
    }
}

/// All allowed weights over and over.
fn turns() -> impl Iterator<Item = Weights> {
    Weights::all().collect::<Vec<_>>().into_iter().cycle()
}

/// Every sheet of up to twelve pixels, by the engines and by weights in turn.
#[test]
fn all_tiny() {
    let mut random = Random::new(131);
    for (board, weights) in boards::all_tiny(12).zip(turns()) {
        check(&board, weights, &mut random);
        check_engines(&board, &mut random);
    }
}

/// Every sheet of up to six pixels by all weights.
#[test]
fn all_tiny_by_all_weights() {
    let mut random = Random::new(132);
    for board in boards::all_tiny(6) {
        for weights in Weights::all() {
            check(&board, weights, &mut random);
        }
    }
}

#[test]
fn small() {
    let mut random = Random::new(133);
    for weights in turns().take(289 * 60) {
        let (w, h) = (random.between(1, 12), random.between(1, 12));
        let board = boards::any(w, h, &mut random);
        check(&board, weights, &mut random);
        check_engines(&board, &mut random);
    }
}

/// Sheets of every shape by all weights: a row, a column, a few of either, a square, and any.
#[test]
fn shapes() {
    let mut random = Random::new(134);
    for weights in Weights::all() {
        let (n, few) = (random.between(1, 120), random.between(2, 4));
        let (w, h) = (random.between(1, 60), random.between(1, 60));
        for (w, h) in [(n, 1), (1, n), (n, few), (few, n), (w, w), (w, h)] {
            let board = boards::any(w, h, &mut random);
            check(&board, weights, &mut random);
            check_engines(&board, &mut random);
        }
    }
}

/// The longest rows and columns: from one end to the other with weights of 32 it is 65,504, the largest of all values.
#[test]
fn lines() {
    let mut random = Random::new(135);
    for n in [2_048, 2_047, 1_024] {
        for (w, h) in [(n, 1), (1, n)] {
            let steps = |weights: Weights| -> Vec<u16> { (0..n as u16).map(|step| step * weights.a).collect() };
            for weights in Weights::all() {
                let expected = steps(weights);
                compare(&Board::with(w, h, &[(0, 0)]), weights, &expected, &mut random);
                let backwards: Vec<u16> = expected.into_iter().rev().collect();
                compare(&Board::with(w, h, &[(w - 1, h - 1)]), weights, &backwards, &mut random);
            }
        }
    }
    for weights in turns().take(2 * 289) {
        let (n, few) = (random.between(1, 2_048), random.between(1, 3));
        for (w, h) in [(n, few), (few, n)] {
            check(&boards::scattered(w, h, &mut random), weights, &mut random);
        }
    }
}

#[test]
fn medium() {
    let mut random = Random::new(136);
    for weights in turns().take(289) {
        let (w, h) = (random.between(2, 64), random.between(2, 64));
        for board in [boards::tracks(w, h, &mut random), boards::sprinkled(w, h, 3, &mut random)] {
            check(&board, weights, &mut random);
            check_engines(&board, &mut random);
        }
    }
}

#[test]
fn large() {
    let mut random = Random::new(137);
    for (w, h) in [(300, 200), (200, 300), (2_048, 20), (20, 2_048)] {
        let boards = [boards::tracks(w, h, &mut random), boards::random(w, h, 1, &mut random), boards::patterned(w, h, &mut random)];
        for board in boards.into_iter().chain([boards::one_pixel(w, h), boards::diagonal(w, h)]) {
            check_engines(&board, &mut random);
            for weights in [Weights { a: 16, b: 32 }, Weights { a: 32, b: 32 }, Weights { a: 5, b: 7 }, Weights { a: 0, b: 0 }] {
                check(&board, weights, &mut random);
            }
        }
    }
}

/// On the largest sheet a single copper pixel in a corner, or within, is where every value comes from.
#[test]
fn largest() {
    let mut random = Random::new(138);
    let corners = [(0, 0), (2_047, 0), (0, 2_047), (2_047, 2_047)];
    let all = [CITY_BLOCK, CHESSBOARD, CHAMFER, Weights { a: 16, b: 32 }, Weights { a: 32, b: 32 }];
    for (place, weights) in corners.into_iter().chain([(900, 1_300)]).zip(all) {
        let apart = |at: usize| weights.apart((at % 2_048).abs_diff(place.0), (at / 2_048).abs_diff(place.1));
        let expected: Vec<u16> = (0..2_048 * 2_048).map(|at| apart(at) as u16).collect();
        compare(&Board::with(2_048, 2_048, &[place]), weights, &expected, &mut random);
    }
}

/// Tracks on the largest sheet, by the engines; and nothing but copper, and none.
#[test]
fn largest_with_tracks() {
    let mut random = Random::new(139);
    let tracks = boards::tracks(2_048, 2_048, &mut random);
    for (engine, weights) in ENGINES {
        same(&values_of(&tracks, engine, &mut random), &by_steps(&tracks.sheet, 2_048, 2_048, weights), &tracks, weights);
    }
    compare(&boards::full(2_048, 2_048), CHAMFER, &vec![0; 2_048 * 2_048], &mut random);
    compare(&Board::bare(2_048, 2_048), CHAMFER, &vec![UNLABELLED; 2_048 * 2_048], &mut random);
}

/// Without copper all is unlabelled, by weights of 0 too; with it everywhere all is 0.
#[test]
fn all_alike() {
    let mut random = Random::new(140);
    for (w, h) in [(1, 1), (1, 7), (7, 1), (5, 4), (2_048, 1), (1, 2_048)] {
        for weights in Weights::all() {
            let bare = Board::bare(w, h);
            compare(&bare, weights, &vec![UNLABELLED; w * h], &mut random);
            compare(&bare.turned_round(&mut random), weights, &vec![0; w * h], &mut random);
        }
    }
}

/// Document 01's board.
#[test]
fn document_01() {
    let mut random = Random::new(141);
    let board = boards::document_01();
    for (engine, value) in [(4, 3), (5, 2), (6, 8)] {
        assert_eq!(values_of(&board, engine, &mut random)[0], value, "engine {engine}");
    }
    check_engines(&board, &mut random);
}

/// The weights and the sides of a map that is asked for.
type Asked = ([u16; 2], [u16; 2]);

/// Asks for a map that is refused, with a sheet and values of these lengths. Nothing may be written.
fn refused(([a, b], [w, h]): Asked, lengths: [usize; 2], random: &mut Random) {
    let about = format!("weights {a}, {b}, sides {w}, {h}, lengths {lengths:?}");
    let mut sheet = Lent::new(lengths[0], 9, || random.below(2) as u8);
    let mut values = Lent::new(lengths[1], 9, || old_value(random));
    assert!(!chamfer::map(sheet.slice(), values.slice(), w, h, a, b), "{about}");
    sheet.written(0, "sheet", &about);
    values.written(0, "values", &about);
}

#[test]
fn refused_weights() {
    let mut random = Random::new(142);
    let near = (0..=70).flat_map(|a| (0..=140).map(move |b| [a, b]));
    // twice the first of some of these has 17 bits
    let odd = [32_767, 32_768, 32_769, 65_535].into_iter().flat_map(|odd| [[odd, odd], [odd, 0], [odd, 1], [0, odd], [32, odd]]);
    for [a, b] in near.chain(odd).filter(|&[a, b]| !Weights { a, b }.allowed()) {
        refused(([a, b], [3, 2]), [6, 6], &mut random);
    }
}

#[test]
fn refused_sides() {
    let mut random = Random::new(143);
    for odd in [0, 2_049, 2_050, 4_096, 65_535] {
        for (w, h) in [(odd, 1), (1, odd), (odd, 3), (3, odd), (odd, 0)] {
            let pixels = usize::from(w) * usize::from(h);
            refused(([3, 4], [w, h]), [pixels; 2], &mut random);
        }
    }
}

#[test]
fn refused_lengths() {
    let mut random = Random::new(144);
    for (w, h) in [(1, 1), (1, 9), (9, 1), (5, 4), (2_048, 1), (1, 2_048)] {
        let pixels = usize::from(w) * usize::from(h);
        for wrong in [0, pixels - 1, pixels + 1, 2 * pixels] {
            for lengths in [[wrong, pixels], [pixels, wrong], [wrong, wrong]] {
                refused(([3, 4], [w, h]), lengths, &mut random);
            }
        }
    }
    // lengths that are the product's last 16 bits
    for (sides, length) in [([256, 256], 0), ([2_048, 2_048], 0), ([2_047, 2_047], 61_441), ([32_768, 8_192], 0), ([65_535, 65_535], 1)] {
        refused(([3, 4], sides), [length; 2], &mut random);
    }
}
