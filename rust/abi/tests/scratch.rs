//! Scratch of lengths around 4 × W and around W × H: the library beside the model, on sheets of few rows, of few columns and others.

use model::boards::{self, Board};
use model::points;
use model::random::Random;
use model::session::Fields;
use soak::calls::{Call, Slices};
use soak::library::Library;

/// The lengths: what is needed, a number a pixel, one less and one more, and none.
fn lengths(w: usize, h: usize) -> Vec<usize> {
    let around = [4 * w, w * h].into_iter().flat_map(|length| length - 1..=length + 1);
    let mut lengths: Vec<usize> = around.chain([0]).collect();
    lengths.sort_unstable();
    lengths.dedup();
    lengths
}

/// Makes a call of the library with scratch of a length, and of the model: answer, session, and what all slices hold.
fn compare(board: &Board, call: Call, length: usize, random: &mut Random) {
    let (width, height) = board.sides();
    let session = Fields { opened: true, width, height, ..Fields::FRESH };
    let mut any = |length: usize| (0..length).map(|_| random.next() as i16).collect();
    let (map, scratch) = (any(2 * board.sheet.len()), any(length));
    let values = (0..board.sheet.len()).map(|_| random.next() as u16).collect();
    let points = points::any(width, height, random);
    let distances = vec![7; points.len() / 2];
    let mut slices = Slices { sheet: board.sheet.clone(), map, values, scratch, points, distances, ..Slices::default() };
    let mut expected = slices.clone();
    let (answer, after) = call.make_within(Library::from(session), &mut slices, random, &board);
    let about = || format!("{call:?} with scratch of {length}: {board:?}");
    assert_eq!((answer, after.into()), call.make(session, expected.lend()), "{}", about());
    assert!(slices.sheet == expected.sheet, "sheet: {}", about());
    assert!(slices.map == expected.map, "map: {}", about());
    assert!(slices.values == expected.values, "values: {}", about());
    assert!(slices.scratch == expected.scratch, "scratch: {}", about());
    assert!(slices == expected, "points, distances or rows: {}", about());
}

/// All calls that take scratch, with scratch of all these lengths.
fn check(w: usize, h: usize, random: &mut Random) {
    let board = boards::any(w, h, random);
    let q = random.below(9) as u32;
    let builds = (1..=6).map(|engine| Call::Build { engine });
    for call in builds.chain([Call::Expand { q }, Call::Shrink { q }, Call::Probe]) {
        for length in lengths(w, h) {
            compare(&board, call, length, random);
        }
    }
}

/// One to five rows, up to the widest, and one to five columns, up to the highest.
#[test]
fn few_rows_and_columns() {
    let mut random = Random::new(121);
    for few in 1..=5 {
        for n in (1..=20).chain([31, 64, 100, 511, 512, 1_000, 2_047, 2_048]) {
            check(n, few, &mut random);
            check(few, n, &mut random);
        }
    }
}

#[test]
fn any_sides() {
    let mut random = Random::new(122);
    for _ in 0..500 {
        check(random.between(1, 40), random.between(1, 40), &mut random);
    }
}

/// The largest sheet, which has 512 times as many pixels as exact needs scratch.
#[test]
fn largest() {
    let mut random = Random::new(123);
    let board = boards::sprinkled(2_048, 2_048, 5, &mut random);
    for call in [Call::Build { engine: 1 }, Call::Expand { q: 4 }, Call::Shrink { q: 4 }, Call::Probe] {
        for length in [8_191, 8_192, 8_193, 2_048 * 2_048] {
            compare(&board, call, length, &mut random);
        }
    }
}
