//! Probing points together (document 02, C-19): the library beside the model's brute force and beside its own exact map, on many thousand
//! lists of points. The refusals are tried on the library's session and on the model's.

mod common;
mod either;

use abi::session::{Closest, Probed, Session};
use common::{any_scratch, assert_cleared, built, map_of, margin, opened, Lent};
use either::{on_either, told};
use model::boards::{self, Board};
use model::calls::Calls;
use model::random::Random;
use model::session::Fields;
use model::skeleton::size;
use model::{nearest, points, probe};
use soak::calls::{Call, Slices};

on_either!(lengths, places_and_rows, nothing_open, no_points, longer_scratch);

/// A camera over the machine has found points on the board and hands them over as it found them, column and row. They are sorted by their
/// rows and probed together, in one call and with no map. A cutter of q may stand on those whose distance is above q.
#[test]
fn camera() {
    // two pads, and a track that leads from one to the other round a corner
    let mut sheet = [0; 60 * 40];
    let mut session = Session::fresh().open(&mut sheet, 60, 40).session;
    for [x, y, w, h] in [[8, 6, 7, 7], [45, 27, 7, 7], [11, 13, 1, 18], [11, 30, 34, 1]] {
        session = session.paint(&mut sheet, x, y, w, h).session;
    }

    let mut found = [[30, 25], [4, 9], [48, 30], [14, 21], [59, 39], [25, 30], [20, 9], [0, 0], [4, 21]];
    found.sort_by_key(|&[_, y]| y);

    let (mut scratch, mut distances) = ([0; 4 * 60], [0; 9]);
    let probed = session.probe(&sheet, found.as_flattened(), &mut scratch, &mut distances);
    assert_eq!(probed, Probed { answer: 0, rows: 6, session });
    assert_eq!(found, [[0, 0], [4, 9], [20, 9], [14, 21], [4, 21], [30, 25], [48, 30], [25, 30], [59, 39]]);
    assert_eq!(distances, [100, 16, 36, 9, 49, 25, 0, 0, 100]);

    let q = 20;
    let free: Vec<[u16; 2]> = (0..9).filter(|&at| distances[at] > q).map(|at| found[at]).collect();
    assert_eq!(free, [[0, 0], [20, 9], [4, 21], [30, 25], [59, 39]]);

    // the exact map says the same: its sizes are the distances, and its gate lets the cutter down on these points alone
    let mut map = [0; 2 * 60 * 40];
    let mapped = session.build(&sheet, &mut map, &mut [], &mut scratch, 1).session;
    for (&[x, y], &distance) in found.iter().zip(&distances) {
        let (row, _) = mapped.map_row(&map, y).as_chunks::<2>();
        let [dx, dy] = row[usize::from(x)].map(i32::from);
        assert_eq!((dx * dx + dy * dy) as u32, distance);
        assert_eq!(mapped.place(&map, &[], x, y, q).answer, if free.contains(&[x, y]) { 0 } else { 34 });
    }
}

/// A session with a board's sheet open: with no map, or with one of any engine and the cutter up or down.
fn any_session(board: &Board, random: &mut Random) -> Session {
    let engine = random.below(7) as u16;
    if engine == 0 {
        return opened(board);
    }
    let session = built(board, engine);
    if random.below(2) == 0 {
        return session;
    }
    let (x, y) = (random.below(board.w as u64) as u16, random.below(board.h as u64) as u16);
    let closest = Closest { met: true, size: random.next() as u32 };
    Session { lowered: true, x, y, q: random.below(4_194_305) as u32, closest, ..session }
}

/// The distances of points, and how many rows they have. The session must come back as it came, scratch be cleared, and nothing else
/// written.
fn probed(board: &Board, points: &[u16], random: &mut Random) -> (Vec<u32>, u32) {
    let count = points.len() / 2;
    let session = any_session(board, random);
    let mut sheet = Lent::around(&board.sheet, margin(board), || random.next() as u8);
    let mut lent = Lent::around(points, margin(board), || random.next() as u16);
    let mut scratch = any_scratch(board, random);
    let mut out = Lent::new(count, margin(board), || random.next() as u32);
    let probed = session.probe(sheet.slice(), lent.slice(), scratch.slice(), out.slice());
    assert_eq!((probed.answer, probed.session), (0, session), "{board:?}");
    sheet.written(0, "sheet", board);
    lent.written(0, "points", board);
    assert_cleared(&scratch, board);
    (out.written(count, "distances", board).to_vec(), probed.rows)
}

/// The library beside the model: all points by brute force.
fn check(board: &Board, points: &[u16], random: &mut Random) {
    let (pairs, _) = points.as_chunks();
    let expected = (probe::distances(&board.sheet, board.w, pairs), probe::rows(pairs));
    assert!(probed(board, points, random) == expected, "{pairs:?}: {board:?}");
}

/// Any points of a board.
fn check_any(board: &Board, random: &mut Random) {
    let (w, h) = board.sides();
    let points = points::any(w, h, random);
    check(board, &points, random);
}

/// Asserts that the library has these distances of all pixels of a board: all of them probed at once, and so many lists of any points.
fn compare(board: &Board, expected: &[u32], lists: usize, random: &mut Random) {
    let (w, h) = board.sides();
    let (found, rows) = probed(board, &points::every(w, h), random);
    assert_eq!(rows, h.into(), "{board:?}");
    let wrong = (0..expected.len()).find(|&at| found[at] != expected[at]);
    assert_eq!(wrong.map(|at| (at % board.w, at / board.w, found[at], expected[at])), None, "{board:?}");
    for _ in 0..lists {
        let points = points::any(w, h, random);
        let (pairs, _) = points.as_chunks();
        let distance = |&[x, y]: &[u16; 2]| expected[usize::from(y) * board.w + usize::from(x)];
        let (found, rows) = probed(board, &points, random);
        assert!(found.iter().copied().eq(pairs.iter().map(distance)) && rows == probe::rows(pairs), "{pairs:?}: {board:?}");
    }
}

/// The sizes of the library's exact map, as a probe tells them.
fn sizes(board: &Board, random: &mut Random) -> Vec<u32> {
    map_of(board, 1, random).into_iter().map(|way| probe::number((way != [-32_768; 2]).then(|| size(way)))).collect()
}

#[test]
fn small() {
    let mut random = Random::new(191);
    for _ in 0..40_000 {
        let (w, h) = (random.between(1, 12), random.between(1, 12));
        let board = boards::any(w, h, &mut random);
        check_any(&board, &mut random);
    }
}

/// Every pixel of every sheet of up to ten pixels.
#[test]
fn all_tiny() {
    let mut random = Random::new(192);
    for board in boards::all_tiny(10) {
        let (w, h) = board.sides();
        check(&board, &points::every(w, h), &mut random);
    }
}

/// One copper pixel at every place, and one bare pixel.
#[test]
fn one_pixel() {
    let mut random = Random::new(193);
    for at in 0..11 * 7 {
        let board = Board::with(11, 7, &[(at % 11, at / 11)]);
        for board in [board.turned_round(&mut random), board] {
            check(&board, &points::every(11, 7), &mut random);
            check_any(&board, &mut random);
        }
    }
}

#[test]
fn no_copper() {
    let mut random = Random::new(194);
    for (w, h) in [(1, 1), (1, 7), (7, 1), (40, 30), (2_048, 1), (1, 2_048), (2_048, 2_048)] {
        compare(&Board::bare(w, h), &vec![4_294_967_295; w * h], 3, &mut random);
    }
}

/// One to four rows, up to the widest, and one to four columns, up to the highest.
#[test]
fn lines() {
    let mut random = Random::new(195);
    for turn in 0..60 {
        let n = if turn < 6 { 2_048 } else { random.between(1, 2_048) };
        for (w, h) in (1..=4).flat_map(|few| [(n, few), (few, n)]) {
            let board = boards::any(w, h, &mut random);
            check_any(&board, &mut random);
        }
    }
}

/// Boards on which a column's copper is looked for in many rows or in few, at once with others or alone.
#[test]
fn medium() {
    let mut random = Random::new(196);
    for _ in 0..300 {
        let (w, h) = (random.between(2, 100), random.between(2, 64));
        let any = boards::any(w, h, &mut random);
        for board in [any.turned_round(&mut random), any, boards::tracks(w, h, &mut random)] {
            let distances: Vec<u32> = nearest::all(&board.sheet, w, h).into_iter().map(probe::number).collect();
            compare(&board, &distances, 5, &mut random);
        }
    }
}

#[test]
fn large() {
    let mut random = Random::new(197);
    for (w, h) in [(300, 200), (200, 300), (2_048, 64), (64, 2_048)] {
        for per_mille in [1, 10, 500, 990] {
            let board = boards::random(w, h, per_mille, &mut random);
            let sizes = sizes(&board, &mut random);
            compare(&board, &sizes, 20, &mut random);
        }
        for board in [boards::tracks(w, h, &mut random), boards::diagonal(w, h), boards::three_pixels(w, h)] {
            let sizes = sizes(&board, &mut random);
            compare(&board, &sizes, 20, &mut random);
        }
    }
}

/// The largest sheet with tracks, and with a copper pixel in a corner, from which the opposite one is 2 × 2,047² away.
#[test]
fn largest() {
    let mut random = Random::new(198);
    let board = boards::tracks(2_048, 2_048, &mut random);
    let sizes = sizes(&board, &mut random);
    compare(&board, &sizes, 20, &mut random);
    for (column, row) in [(0, 0), (2_047, 0), (0, 2_047), (2_047, 2_047)] {
        let board = Board::with(2_048, 2_048, &[(column, row)]);
        check(&board, &[0, 0, 2_047, 0, 1_024, 1_023, 2_047, 2_047, 0, 2_047], &mut random);
        check_any(&board, &mut random);
    }
}

/// Document 01's board with its exact map current and the cutter down.
const DOWN: Fields =
    Fields { opened: true, width: 4, height: 4, current: true, engine: 1, lowered: true, x: 0, y: 0, q: 7, met: true, closest: 8 };

/// Slices for a probe of that board, with two numbers more of scratch than are needed.
fn slices(points: &[u16]) -> Slices {
    Slices {
        sheet: boards::document_01().sheet,
        scratch: vec![9; 18],
        points: points.to_vec(),
        distances: vec![9; points.len() / 2],
        rows: 9,
        ..Slices::default()
    }
}

/// Asserts that a probe is refused: the session comes back as it came, nothing is written, and no row is counted.
fn assert_refused<S: Calls>(session: Fields, before: &Slices, answer: u32) {
    let mut after = before.clone();
    let found = told(Call::Probe.make(S::from(session), after.lend()));
    assert_eq!(found, (answer, session), "{:?}", before.points);
    assert!(after == Slices { rows: 0, ..before.clone() }, "{answer} and something written: {:?}", before.points);
}

/// 12: the sheet is not W × H, scratch too short, a number of the points without its other half, or out not of one number a point. It goes
/// before 16 and 43.
fn lengths<S: Calls>() {
    for points in [vec![], vec![0, 0], vec![3, 0, 1, 2], vec![4, 1], vec![0, 2, 0, 1], vec![0, 2, 0, 1, 4, 4]] {
        for length in [0, 1, 15, 17, 32] {
            let mut lent = slices(&points);
            lent.sheet.resize(length, 1);
            assert_refused::<S>(DOWN, &lent, 12);
        }
        for length in [0, 1, 15] {
            let mut lent = slices(&points);
            lent.scratch.truncate(length);
            assert_refused::<S>(DOWN, &lent, 12);
        }
        for (numbers, distances) in [(1, 0), (1, 1), (0, 1), (2, 0), (2, 2)] {
            let mut lent = slices(&points);
            lent.points.resize(points.len() + numbers, 3);
            lent.distances.resize(points.len() / 2 + distances, 9);
            assert_refused::<S>(DOWN, &lent, 12);
        }
    }
}

/// 16: a point off the sheet; 43: one in a row less than that before it. 16 goes before 43, wherever in the list each stands.
fn places_and_rows<S: Calls>() {
    let off = [[4, 0], [0, 4], [4, 4], [2_048, 0], [0, 2_048], [65_535, 3], [3, 65_535]];
    for [x, y] in off {
        for points in [vec![x, y], vec![0, 0, x, y], vec![x, y, 3, 3], vec![1, 1, x, y, 2, 2], vec![0, 3, 0, 2, 0, 1, x, y, 3, 0]] {
            assert_refused::<S>(DOWN, &slices(&points), 16);
        }
    }
    for points in [vec![0, 1, 0, 0], vec![0, 0, 3, 3, 3, 2], vec![0, 3, 1, 3, 2, 0, 3, 3], vec![0, 0, 0, 1, 0, 0, 0, 1]] {
        assert_refused::<S>(DOWN, &slices(&points), 43);
    }
    // a column may be less than that before it
    let mut lent = slices(&[3, 1, 0, 1, 0, 2, 3, 3, 0, 3, 3, 3]);
    assert_eq!(told(Call::Probe.make(S::from(DOWN), lent.lend())), (0, DOWN));
    assert_eq!((lent.distances, lent.rows), (vec![1, 4, 1, 2, 0, 2], 3));
}

/// 30 goes before all others. A session that no call could hand back counts as one with nothing open.
fn nothing_open<S: Calls>() {
    let unsound = [Fields { q: 4_194_305, ..DOWN }, Fields { x: 4, ..DOWN }, Fields { engine: 7, ..DOWN }, Fields { met: false, ..DOWN }];
    for session in [Fields::FRESH, Fields { opened: false, ..DOWN }].into_iter().chain(unsound) {
        for points in [vec![], vec![0, 0], vec![0], vec![4, 4], vec![0, 1, 0, 0]] {
            assert_refused::<S>(session, &slices(&points), 30);
            assert_refused::<S>(session, &Slices { points, ..Slices::default() }, 30);
        }
    }
}

/// A probe of no points is done.
fn no_points<S: Calls>() {
    for session in [DOWN, Fields { opened: true, width: 4, height: 4, ..Fields::FRESH }] {
        let mut lent = slices(&[]);
        assert_eq!(told(Call::Probe.make(S::from(session), lent.lend())), (0, session));
        assert_eq!((lent.rows, &lent.scratch[..16]), (0, &[0; 16][..]));
        assert_refused::<S>(session, &Slices { scratch: vec![9; 15], ..slices(&[]) }, 12);
    }
}

/// Scratch is cleared as far as it is needed, and the rest stays.
fn longer_scratch<S: Calls>() {
    for more in [0, 1, 2, 100] {
        let before = Slices { scratch: vec![9; 16 + more], ..slices(&[0, 0, 1, 1, 3, 1]) };
        let mut after = before.clone();
        assert_eq!(told(Call::Probe.make(S::from(DOWN), after.lend())), (0, DOWN));
        let scratch = [vec![0; 16], vec![9; more]].concat();
        assert!(after == Slices { scratch, distances: vec![8, 2, 1], rows: 2, ..before });
    }
}
