//! The library's expand and shrink beside the model's, to the byte, on many thousand sheets.

mod common;

use abi::session::{Reply, Session};
use common::{any_scratch, assert_cleared, margin, old, opened, Lent};
use model::boards::{self, Board};
use model::random::Random;
use model::resize;

/// The greatest q.
const LIMIT: u32 = 4_194_304;

type Call = fn(Session, &mut [u8], &mut [i16], &mut [i16], u32) -> Reply;
type Model = fn(&[u8], usize, usize, u32) -> Vec<u8>;

/// A call of the library with the model's two: by brute force, and faster.
struct What {
    name: &'static str,
    call: Call,
    brute: Model,
    faster: Model,
}

const BOTH: [What; 2] = [
    What { name: "expand", call: Session::expand, brute: resize::expand, faster: resize::expand_by_map },
    What { name: "shrink", call: Session::shrink, brute: resize::shrink, faster: resize::shrink_by_map },
];

/// The sheet that a call leaves. Map and scratch hold anything before.
fn lent(call: Call, board: &Board, q: u32, random: &mut Random) -> Vec<u8> {
    let pixels = board.sheet.len();
    let mut sheet = Lent::around(&board.sheet, margin(board), || random.next() as u8);
    let mut map = Lent::new(2 * pixels, margin(board), || old(random));
    let mut scratch = any_scratch(board, random);
    let reply = call(opened(board), sheet.slice(), map.slice(), scratch.slice(), q);
    assert_eq!(reply, Reply { answer: 0, session: opened(board) }, "{board:?}");
    let unlabelled = map.written(2 * pixels, "map", board);
    assert!(unlabelled.iter().all(|&number| number == -32_768), "the map is not unlabelled: {board:?}");
    assert_cleared(&scratch, board);
    sheet.written(pixels, "sheet", board).to_vec()
}

/// Both calls on a board. The model goes by brute force if that is a matter of moments.
fn check(board: &Board, q: u32, random: &mut Random) {
    let &Board { w, h, ref sheet } = board;
    for What { name, call, brute, faster } in BOTH {
        let model = if w * h <= 400 { brute } else { faster };
        compare(name, call, board, q, &model(sheet, w, h, q), random);
    }
}

/// A call's sheet, which must be the expected one.
fn compare(name: &str, call: Call, board: &Board, q: u32, expected: &[u8], random: &mut Random) {
    let found = lent(call, board, q, random);
    let wrong = found.iter().zip(expected).position(|(found, expected)| found != expected);
    if let Some(at) = wrong {
        panic!("{name} by {q} has {} at ({}, {}): {board:?}", found[at], at % board.w, at / board.w);
    }
}

/// How many steps lead from the pixel (x, y) straight across the nearest side of the sheet.
fn steps_off(x: usize, y: usize, w: usize, h: usize) -> usize {
    (x + 1).min(w - x).min(y + 1).min(h - y)
}

/// Any q: the least and the greatest, and more often one that matters on the board.
fn any_q(board: &Board, random: &mut Random) -> u32 {
    let farthest = (board.w.pow(2) + board.h.pow(2)) as u64;
    let q = match random.below(12) {
        0 => random.below(3),
        1 => LIMIT.into(),
        2 => random.below(u64::from(LIMIT) + 1),
        3 => farthest + random.below(3),
        4 | 5 => random.below(farthest),
        // for the rim: the square of some steps off the sheet, or one less
        6 | 7 => random.below(board.w.min(board.h) as u64 / 2 + 3).pow(2).saturating_sub(random.below(2)),
        _ => random.below(30),
    };
    q.min(LIMIT.into()) as u32
}

/// Any board, and every other time turned round.
fn any_board(w: usize, h: usize, random: &mut Random) -> Board {
    let board = boards::any(w, h, random);
    if random.below(2) == 0 {
        board
    } else {
        board.turned_round(random)
    }
}

#[test]
fn small() {
    let mut random = Random::new(71);
    for _ in 0..30_000 {
        let (w, h) = (random.between(1, 12), random.between(1, 12));
        let board = any_board(w, h, &mut random);
        let q = any_q(&board, &mut random);
        check(&board, q, &mut random);
    }
}

/// Every sheet of up to nine pixels, by the squared distances up to 8 and the greatest q.
#[test]
fn all_tiny() {
    let mut random = Random::new(72);
    for board in boards::all_tiny(9) {
        for q in [0, 1, 2, 4, 5, 8, LIMIT] {
            check(&board, q, &mut random);
        }
    }
}

/// No copper, and expand with no bare pixel: the sheet stays as it is, by any q.
#[test]
fn all_alike() {
    let mut random = Random::new(73);
    for (w, h) in [(1, 1), (1, 7), (7, 1), (5, 4), (2_048, 1), (1, 2_048), (2_048, 2_048)] {
        for q in [0, 1, 2, 1_000, LIMIT] {
            let bare = Board::bare(w, h);
            for What { name, call, .. } in BOTH {
                compare(name, call, &bare, q, &bare.sheet, &mut random);
            }
            compare("expand", Session::expand, &bare.turned_round(&mut random), q, &vec![1; w * h], &mut random);
            // the largest once, for it takes longer
            if w * h > 1 << 20 {
                break;
            }
        }
    }
}

/// Shrink on a sheet without a bare pixel, which has the rim alone to go by.
fn check_rim(w: usize, h: usize, q: u32, random: &mut Random) {
    let full = Board::bare(w, h).turned_round(random);
    let rest = boards::drawn(w, h, |x, y| steps_off(x, y, w, h).pow(2) > q as usize);
    compare("shrink", Session::shrink, &full, q, &rest.sheet, random);
}

/// Wide and narrow sheets by the squares of the steps off the sheet, by one less and by the greatest q.
#[test]
fn rim() {
    let mut random = Random::new(78);
    let small = (1..=12).flat_map(|w| (1..=12).map(move |h| (w, h)));
    let narrow = [1, 2, 3, 10].into_iter().flat_map(|n| [(2_048, n), (n, 2_048), (100, n), (n, 100)]);
    for (w, h) in small.chain(narrow).chain([(63, 64), (64, 31)]) {
        let squares = (0..=w.min(h) / 2 + 2).map(|steps| (steps * steps) as u32);
        for q in squares.flat_map(|square| [square.saturating_sub(1), square]).chain([LIMIT]) {
            check_rim(w, h, q, &mut random);
        }
    }
    // in the middle of the largest sheet are four pixels with 1,024 steps off it
    for q in [0, 1_048_575, 1_048_576] {
        check_rim(2_048, 2_048, q, &mut random);
    }
}

#[test]
fn lines() {
    let mut random = Random::new(74);
    for turn in 0..100 {
        let n = if turn < 20 { 2_048 } else { random.between(1, 2_048) };
        for (w, h) in (1..=4).flat_map(|few| [(n, few), (few, n)]) {
            let board = any_board(w, h, &mut random);
            let q = any_q(&board, &mut random);
            check(&board, q, &mut random);
        }
    }
}

#[test]
fn medium() {
    let mut random = Random::new(75);
    for _ in 0..200 {
        let (w, h) = (random.between(2, 64), random.between(2, 64));
        let tracks = boards::tracks(w, h, &mut random);
        for board in [tracks.turned_round(&mut random), tracks, any_board(w, h, &mut random)] {
            let q = any_q(&board, &mut random);
            check(&board, q, &mut random);
        }
    }
}

#[test]
fn large() {
    let mut random = Random::new(76);
    for (w, h) in [(2_048, 64), (64, 2_048), (512, 512)] {
        let tracks = boards::tracks(w, h, &mut random);
        for board in [tracks.turned_round(&mut random), tracks, boards::diagonal(w.min(h), w.min(h))] {
            let q = [25, any_q(&board, &mut random)][random.below(2) as usize];
            check(&board, q, &mut random);
        }
    }
}

/// On the largest sheet a single copper pixel in a corner becomes a quarter of a disk, and a single bare pixel takes off a disk, besides
/// what goes along the rim.
#[test]
fn largest() {
    let mut random = Random::new(77);
    let far = |x: usize, y: usize, (column, row): (usize, usize)| (x.abs_diff(column).pow(2) + y.abs_diff(row).pow(2)) as u32;
    for (corner, q) in [((0, 0), LIMIT), ((2_047, 2_047), 4_190_209)] {
        let disk = boards::drawn(2_048, 2_048, |x, y| far(x, y, corner) <= q);
        compare("expand", Session::expand, &Board::with(2_048, 2_048, &[corner]), q, &disk.sheet, &mut random);
    }
    for (pixel, q) in [((700, 1_100), 250_000), ((2_047, 900), 302_500)] {
        let board = Board::with(2_048, 2_048, &[pixel]).turned_round(&mut random);
        let rest = boards::drawn(2_048, 2_048, |x, y| far(x, y, pixel) > q && steps_off(x, y, 2_048, 2_048).pow(2) > q as usize);
        compare("shrink", Session::shrink, &board, q, &rest.sheet, &mut random);
    }
}
