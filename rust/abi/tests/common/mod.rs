//! What the tests of all calls share.

// no test file needs all of it
#![allow(dead_code)]

use abi::session::{Reply, Session};
use model::boards::{self, Board};
use model::random::Random;
use model::session::{kind, scratch_need, Kind};
use soak::calls::Call;
pub use soak::lent::Lent;
use soak::library::Library;
use soak::list::{Check, List};
use std::fmt::Debug;

/// How many numbers around a lent slice must stay as they are, for calls that take no session.
pub const MARGIN: usize = 40;

/// How many numbers the map of a sheet with these sides has.
pub fn numbers([w, h]: [u16; 2]) -> usize {
    2 * usize::from(w) * usize::from(h)
}

/// Other lengths than the right one: by one, by a pixel, by all or by much.
pub fn wrong_lengths(right: usize) -> impl Iterator<Item = usize> {
    [0, 1, right - 2, right - 1, right + 1, right + 2, 2 * right, right / 2].into_iter().filter(move |&wrong| wrong != right)
}

/// Sides, and a length that is the last 16 bits of how many numbers their map has; sides that are allowed, and others.
pub const SHORT_LENGTHS: [([u16; 2], usize); 5] =
    [([128, 256], 0), ([256, 256], 0), ([2_048, 2_048], 0), ([2_047, 2_047], 57_346), ([1_024, 64], 0)];
pub const SHORT_LENGTHS_OF_NONE: [([u16; 2], usize); 5] =
    [([32_768, 32_768], 0), ([65_535, 65_535], 2), ([0, 7], 0), ([7, 0], 0), ([0, 0], 0)];

/// Makes a call of the library and the model's, each with this target. Answer and target must be the same. Nothing around the target may be
/// written, nor the target if the call is refused. The answer and the target.
pub fn beside<T: Copy + PartialEq>(
    mut target: Lent<T>,
    library: impl FnOnce(&mut [T]) -> u32,
    model: impl FnOnce(&mut [T]) -> u32,
    about: &impl Debug,
) -> (u32, Vec<T>) {
    let mut expected = target.slice().to_vec();
    let answer = library(target.slice());
    assert_eq!(answer, model(&mut expected), "{about:?}");
    if answer != 0 {
        target.written(0, "target", about);
    }
    assert!(target.written(expected.len(), "target", about) == expected, "the target: {about:?}");
    (answer, expected)
}

/// How many numbers around a slice that is lent for a board must stay as they are.
pub fn margin(board: &Board) -> usize {
    2 * board.w + 9
}

/// The session with a board's sheet open, and nothing else.
pub fn opened(board: &Board) -> Session {
    let (width, height) = board.sides();
    Session { opened: true, width, height, ..Session::fresh() }
}

/// The session with a board's sheet open and a map that an engine has built.
pub fn built(board: &Board, engine: u16) -> Session {
    Session { current: true, engine, ..opened(board) }
}

/// What a map or scratch may hold before: anything, and the numbers with a meaning more often.
pub fn old(random: &mut Random) -> i16 {
    match random.below(4) {
        0 => 0,
        1 => -32_768,
        _ => random.next() as i16,
    }
}

/// What the values may hold before.
pub fn old_value(random: &mut Random) -> u16 {
    match random.below(4) {
        0 => 0,
        1 => 65_535,
        _ => random.next() as u16,
    }
}

/// A length of a slice that a call does not look at: none, any, or the one that would fit.
fn any_length(fitting: usize, random: &mut Random) -> usize {
    [0, random.between(0, 9), fitting][random.below(3) as usize]
}

/// A scratch slice that holds anything. It is longer than it need be, more often than not, and now and then has a number a pixel.
pub fn any_scratch(board: &Board, random: &mut Random) -> Lent<i16> {
    let need = scratch_need(board.w);
    let length = [need, need + 1, need + random.between(0, 3 * board.w + 9), need.max(board.sheet.len())][random.below(4) as usize];
    Lent::new(length, margin(board), || old(random))
}

/// Asserts that the first 4 × W numbers of scratch are 0 and the rest is as it was.
pub fn assert_cleared(scratch: &Lent<i16>, board: &Board) {
    let cleared = scratch.written(scratch_need(board.w), "first 4 × W of scratch", board);
    assert!(cleared.iter().all(|&number| number == 0), "scratch is not 0: {board:?}");
}

/// The slices that build is lent besides the sheet.
struct Built {
    map: Lent<i16>,
    values: Lent<u16>,
    scratch: Lent<i16>,
}

impl Built {
    /// Slices for an engine: those that it needs have lengths that fit, the others any lengths, and all hold anything.
    fn lent(board: &Board, engine: u16, random: &mut Random) -> Built {
        let pixels = board.sheet.len();
        let lengths = match kind(engine) {
            Kind::Pairs => [2 * pixels, any_length(pixels, random)],
            Kind::Values => [any_length(2 * pixels, random), pixels],
        };
        Built {
            map: Lent::new(lengths[0], margin(board), || old(random)),
            values: Lent::new(lengths[1], margin(board), || old_value(random)),
            scratch: if engine == 1 { any_scratch(board, random) } else { Lent::new(random.between(0, 9), 9, || old(random)) },
        }
    }
}

/// Builds the map of a board by an engine. The sheet must not be written, nor the other kind of map, nor scratch but by exact.
fn build(board: &Board, engine: u16, random: &mut Random) -> Built {
    let mut sheet = Lent::around(&board.sheet, margin(board), || random.next() as u8);
    let mut lent = Built::lent(board, engine, random);
    let reply = opened(board).build(sheet.slice(), lent.map.slice(), lent.values.slice(), lent.scratch.slice(), engine);
    assert_eq!(reply, Reply { answer: 0, session: built(board, engine) }, "engine {engine}: {board:?}");
    sheet.written(0, "sheet", board);
    if kind(engine) == Kind::Pairs {
        lent.values.written(0, "values", board);
    } else {
        lent.map.written(0, "map", board);
    }
    if engine == 1 {
        assert_cleared(&lent.scratch, board);
    } else {
        lent.scratch.written(0, "scratch", board);
    }
    lent
}

/// The pairs that engine 1, 2 or 3 builds of a board.
pub fn map_of(board: &Board, engine: u16, random: &mut Random) -> Vec<[i16; 2]> {
    build(board, engine, random).map.written(2 * board.sheet.len(), "map", board).as_chunks().0.to_vec()
}

/// The values that engine 4, 5 or 6 builds of a board.
pub fn values_of(board: &Board, engine: u16, random: &mut Random) -> Vec<u16> {
    build(board, engine, random).values.written(board.sheet.len(), "values", board).to_vec()
}

/// A list of calls of the library, compared with the model and held against the plain board, with the exact map of document 01's board.
pub fn document_01(random: &mut Random) -> List<Library> {
    let mut list = List::new(Check::Both, 0, random);
    assert_eq!(list.call(Call::Open { w: 4, h: 4 }, random), 0);
    for (x, y) in boards::document_01().copper() {
        assert_eq!(list.call(Call::Paint { x, y, w: 1, h: 1 }, random), 0);
    }
    assert_eq!(list.call(Call::Build { engine: 1 }, random), 0);
    list
}
