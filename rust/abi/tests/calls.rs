//! The boards of documents 01 and 02, and document 01's edges, call by call: each test is run on the library's session and on the model's.

mod either;

use either::{along_the_edge, cut, every_set, on_either, told, unless};
use model::boards::{self, Board};
use model::calls::Calls;
use model::session::{scratch_need, Fields};
use soak::calls::{Call, Slices};

on_either!(
    fresh,
    job,
    m1_to_m4,
    m5_and_m6,
    m7,
    c11,
    c11_none,
    c11_any_size,
    c14,
    c16,
    c22,
    limits,
    sides_that_no_sheet_has,
    no_call_could_hand_back,
    any_map,
    expand_and_shrink,
    rows,
    order_of_refusals,
);

/// A session with the sheet of a board and its map by engine 1, 2 or 3, and that map. No values are lent to these engines.
fn built<S: Calls>(board: &Board, engine: u16) -> (Fields, Vec<i16>) {
    let (w, h) = board.sides();
    let (pixels, need) = (board.sheet.len(), scratch_need(board.w));
    let (mut sheet, mut map, mut scratch) = (vec![9; pixels], vec![9; 2 * pixels], vec![9; need + 1]);
    let (mut answer, mut session) = S::fresh().open(&mut sheet, w, h);
    for (x, y) in board.copper() {
        assert_eq!(answer, 0);
        (answer, session) = session.paint(&mut sheet, x, y, 1, 1);
    }
    assert_eq!((answer, &sheet), (0, &board.sheet));
    (answer, session) = session.build(&sheet, &mut map, &mut [], &mut scratch, engine);
    assert_eq!(answer, 0);
    let left = if engine == 1 { 0 } else { 9 };
    assert!(scratch[..need].iter().all(|&number| number == left) && scratch[need] == 9);
    (session.into(), map)
}

fn fresh<S: Calls>() {
    let Fields { opened, width, height, current, engine, lowered, x, y, q, met, closest } = S::fresh().into();
    assert_eq!([opened, current, lowered, met], [false; 4]);
    assert_eq!([u32::from(width), height.into(), engine.into(), x.into(), y.into(), q, closest], [0; 7]);
    assert_eq!(told(S::fresh().lift()), (0, Fields::FRESH));
}

fn job<S: Calls>() {
    let (session, map) = built::<S>(&boards::document_01(), 3);
    assert_eq!(told(S::from(session).place(&map, &[], 0, 0, 5)), (34, session));
    let (answer, down) = S::from(session).place(&map, &[], 0, 0, 4);
    assert_eq!((answer, told(down.run(&map, &[], 0, 1))), (0, (34, down.into())));
    let lifted = Fields { met: true, closest: 9, ..session };
    assert_eq!(told(down.lift()), (0, lifted));
    assert_eq!(told(S::from(lifted).run(&map, &[], 0, 1)), (32, lifted));
}

/// The largest q that passes at the upper left corner is M2, M3, M4.
fn m1_to_m4<S: Calls>() {
    for (engine, way, most) in [(1, [2, 2], 7), (2, [2, 2], 6), (3, [3, 0], 4)] {
        let (session, map) = built::<S>(&boards::document_01(), engine);
        assert_eq!(map[..2], way);
        let (answer, down) = S::from(session).place(&map, &[], 0, 0, most);
        let closest = if engine == 3 { 9 } else { 8 };
        assert_eq!((answer, down.into()), (0, Fields { lowered: true, q: most, met: true, closest, ..session }));
        for session in [S::from(session), down] {
            assert_eq!(told(session.place(&map, &[], 0, 0, most + 1)), (34, session.into()));
        }
    }
}

fn m5_and_m6<S: Calls>() {
    for engine in 1..=3 {
        assert_eq!(built::<S>(&boards::m5(), engine).1, [0, 0, -1, 0, -2, 0]);
    }
    assert_eq!(built::<S>(&boards::m6(), 1).1, [0, 0, -1, 0, 0, 0]);
}

fn m7<S: Calls>() {
    let (session, map) = built::<S>(&boards::m7(), 1);
    let (mut kept, mut bare) = ([9; 5], [9; 5]);
    assert_eq!(told(S::from(session).skeleton(&map, &mut kept)), (0, session));
    assert_eq!(told(S::from(session).rebuild(&map, &kept, &mut bare)), (0, session));
    assert_eq!((kept, bare), ([0, 0, 1, 0, 0], [0, 1, 1, 1, 0]));
}

/// Makes calls on the board of document 01 with its exact map. Each must have this answer, and leave this closest approach.
fn assert_closest<S: Calls>(calls: &[(Call, u32, Option<u32>)]) {
    let board = boards::document_01();
    let (mut session, map) = built::<S>(&board, 1);
    assert!(!session.met);
    let mut slices = Slices {
        sheet: board.sheet,
        map,
        values: vec![0; 16],
        scratch: vec![0; 16],
        marks: vec![1; 16],
        out: vec![0; 16],
        points: vec![0, 0],
        distances: vec![0],
        rows: 0,
    };
    for (at, &(call, answer, closest)) in calls.iter().enumerate() {
        let found;
        (found, session) = told(call.make(S::from(session), slices.lend()));
        assert_eq!((found, session.met.then_some(session.closest)), (answer, closest), "{call:?} is call {at}");
    }
}

/// A placing starts anew, a run counts with each of its pixels and not with its start, lift keeps, and so does every refusal. A call that
/// changes sheet or map leaves none.
fn c11<S: Calls>() {
    let place = |x, y, q| Call::Place { x, y, q };
    let run = |direction, count| Call::Run { direction, count };
    let placed = [(place(0, 0, 1), 0, Some(8)), (run(0, 1), 0, Some(4)), (run(4, 1), 0, Some(4))];
    let anew = [(place(0, 0, 1), 0, Some(8)), (run(0, 2), 34, Some(8)), (run(4, 1), 33, Some(8)), (run(1, 1), 0, Some(2))];
    let kept = [(place(0, 0, 8), 34, Some(2)), (place(4, 0, 1), 16, Some(2)), (Call::Lift, 0, Some(2)), (run(0, 1), 32, Some(2))];
    let others = [(Call::Skeleton, 0), (Call::Rebuild, 0), (Call::Probe, 0), (Call::Build { engine: 7 }, 14), (Call::Lift, 0)];
    let others = others.map(|(call, answer)| (call, answer, Some(2)));
    assert_closest::<S>(&[&placed[..], &anew, &kept, &others].concat());
    let changes = [
        Call::Open { w: 4, h: 4 },
        Call::Paint { x: 0, y: 0, w: 1, h: 1 },
        Call::Erase { x: 0, y: 0, w: 1, h: 1 },
        Call::Build { engine: 1 },
        Call::Build { engine: 2 },
        Call::Build { engine: 6 },
        Call::Expand { q: 0 },
        Call::Shrink { q: 0 },
    ];
    for change in changes {
        assert_closest::<S>(&[placed[0], (change, 0, None), (Call::Lift, 0, None)]);
        assert_closest::<S>(&[placed[0], (Call::Lift, 0, Some(8)), (change, 0, None)]);
    }
}

/// Unlabelled pixels have no size: on a bare sheet none is met. A half marked pixel has one.
fn c11_none<S: Calls>() {
    for engine in 1..=3 {
        let (session, mut map) = built::<S>(&Board::bare(4, 1), engine);
        let (answer, down) = told(S::from(session).place(&map, &[], 0, 0, 9));
        assert_eq!((answer, down), (0, Fields { lowered: true, q: 9, ..session }));
        assert_eq!(told(S::from(down).run(&map, &[], 0, 3)), (0, Fields { x: 3, ..down }));
        map[2..6].copy_from_slice(&[-32_768, 32_767, 0, 100]);
        assert_eq!(told(S::from(down).run(&map, &[], 0, 1)), (0, Fields { x: 1, met: true, closest: 2_147_418_113, ..down }));
        // the least is that of a pixel on the way, and the last one is unlabelled
        assert_eq!(told(S::from(down).run(&map, &[], 0, 3)), (0, Fields { x: 3, met: true, closest: 10_000, ..down }));
    }
}

/// With a current map any size is taken as it comes: it stays unless a smaller one is met.
fn c11_any_size<S: Calls>() {
    let (session, map) = built::<S>(&boards::document_01(), 1);
    for closest in [0, 1, 5, 2_147_483_648, u32::MAX] {
        let up = Fields { met: true, closest, ..session };
        let down = Fields { lowered: true, ..up };
        assert_eq!(told(S::from(up).lift()), (0, up));
        assert_eq!(told(S::from(down).lift()), (0, up));
        assert_eq!(told(S::from(down).run(&map, &[], 0, 1)), (0, Fields { x: 1, closest: closest.min(4), ..down }));
        assert_eq!(told(S::from(down).run(&[-32_768; 32], &[], 0, 1)), (0, Fields { x: 1, ..down }));
        assert_eq!(told(S::from(down).place(&map, &[], 0, 0, 0)), (0, Fields { closest: 8, ..down }));
        assert_eq!(told(S::from(up).place(&[-32_768; 32], &[], 0, 0, 0)), (0, Fields { lowered: true, ..session }));
    }
}

/// Copper at the rim goes by 1 and stays by 0. For expand and the gate there is nothing beyond the rim.
fn c14<S: Calls>() {
    let board = boards::c14();
    for (q, rest) in [(0, [1; 9]), (1, [0, 0, 0, 0, 1, 0, 0, 0, 0])] {
        let (session, mut map) = built::<S>(&board, 1);
        let mut sheet = board.sheet.clone();
        assert_eq!(S::from(session).shrink(&mut sheet, &mut map, &mut [9; 12], q).0, 0);
        assert_eq!(sheet, rest, "by {q}");
    }
    let (session, mut map) = built::<S>(&Board::bare(3, 3), 1);
    assert_eq!(S::from(session).place(&map, &[], 0, 0, 4_194_304).0, 0);
    let mut sheet = [0; 9];
    assert_eq!(S::from(session).expand(&mut sheet, &mut map, &mut [9; 12], 4_194_304).0, 0);
    assert_eq!(sheet, [0; 9]);
}

/// Of two that are equally far the quick maps have the one with the larger dx; the exact map keeps its own choice.
fn c16<S: Calls>() {
    for (engine, [dx, dy]) in [(1, [0, 1]), (2, [1, 0]), (3, [1, 0])] {
        assert_eq!(built::<S>(&boards::c16(), engine).1, [dx, dy, 0, 0, 0, 0, -1, 0]);
    }
}

/// Scratch of 4 × W numbers is enough and no less, however many rows there are; these end at 0 and the rest is untouched. The other engines
/// ask for none.
fn c22<S: Calls>() {
    for (w, h) in [(1, 1), (1, 3), (1, 4), (1, 5), (3, 1), (3, 2), (3, 3), (3, 4), (3, 5), (2_048, 1), (2_048, 3), (2_048, 4), (1, 2_048)] {
        for length in [4 * w - 1, 4 * w, 4 * w + 1, w * h - 1, w * h, w * h + 1, 0] {
            let short = length < 4 * w;
            let exact = [Call::Build { engine: 1 }, Call::Expand { q: 1 }, Call::Shrink { q: 1 }, Call::Probe];
            let others = (2..=6).map(|engine| (Call::Build { engine }, false, false));
            for (call, refused, cleared) in exact.map(|call| (call, short, !short)).into_iter().chain(others) {
                let answer = if refused { 12 } else { 0 };
                let left = |at: usize| if cleared && at < 4 * w { 0 } else { 9 };
                assert_scratch::<S>(&boards::one_pixel(w, h), call, length, answer, left);
            }
        }
    }
}

/// Makes a call with scratch of a length. It must have this answer, leave these numbers in scratch, and write nothing if it is refused.
fn assert_scratch<S: Calls>(board: &Board, call: Call, length: usize, answer: u32, left: impl Fn(usize) -> i16) {
    let (width, height) = board.sides();
    let session = Fields { opened: true, width, height, ..Fields::FRESH };
    let before = Slices {
        sheet: board.sheet.clone(),
        map: vec![9; 2 * board.sheet.len()],
        values: vec![9; board.sheet.len()],
        scratch: vec![9; length],
        points: vec![0, 0],
        distances: vec![9],
        ..Slices::default()
    };
    let mut slices = before.clone();
    let (found, after) = told(call.make(S::from(session), slices.lend()));
    let about = format!("{call:?} with scratch of {length} on {width} × {height}");
    assert_eq!(found, answer, "{about}");
    assert!(slices.scratch.iter().enumerate().all(|(at, &number)| number == left(at)), "scratch: {about}");
    assert!(answer == 0 || slices == before && after == session, "written: {about}");
}

fn limits<S: Calls>() {
    let mut sheet = vec![1; 2_049];
    assert_eq!(told(S::fresh().open(&mut sheet, 2_049, 1)), (11, Fields::FRESH));
    assert_eq!(told(S::fresh().open(&mut sheet, 2_048, 1)), (12, Fields::FRESH));
    assert!(sheet.iter().all(|&byte| byte == 1));
    assert_eq!(S::fresh().open(&mut sheet[..2_048], 2_048, 1).0, 0);
    let (session, map) = built::<S>(&Board::bare(2_048, 1), 2);
    assert_eq!(told(S::from(session).place(&map, &[], 0, 0, 4_194_305)), (15, session));
    let (answer, down) = S::from(session).place(&map, &[], 0, 0, 4_194_304);
    assert_eq!((answer, told(down.run(&map, &[], 0, 2_048))), (0, (17, down.into())));
    assert_eq!(told(down.run(&map, &[], 0, 2_047)), (0, Fields { x: 2_047, ..down.into() }));
    assert_eq!(told(down.run(&map, &[], 1, 1)), (33, down.into()));
}

/// With a side of 0 or above 2,048 nothing counts as open, also with slices of these sides; nothing is written.
fn sides_that_no_sheet_has<S: Calls>() {
    for (width, height) in [(2_049, 1), (1, 2_049), (2_049, 2), (0, 0), (0, 5), (2_048, 0), (65_535, 1)] {
        let pixels = usize::from(width) * usize::from(height);
        let lent = Slices {
            sheet: vec![1; pixels],
            map: vec![0; 2 * pixels],
            values: vec![0; pixels],
            scratch: vec![7; scratch_need(width.into())],
            marks: vec![1; pixels],
            out: vec![7; pixels],
            points: vec![0, 0],
            distances: vec![7],
            rows: 0,
        };
        for engine in [0, 1, 4] {
            let session = Fields { opened: true, width, height, current: engine != 0, engine, ..Fields::FRESH };
            let [open, paint] = [Call::Open { w: width, h: height }, Call::Paint { x: 0, y: 0, w: 1, h: 1 }];
            let builds = (1..=6).map(|engine| Call::Build { engine });
            let others = [paint, Call::Expand { q: 1 }, Call::Shrink { q: 1 }, Call::Skeleton, Call::Rebuild, Call::Probe];
            for (call, answer) in builds.chain(others).map(|call| (call, 30)).chain([(open, 11)]) {
                let mut slices = lent.clone();
                let found = told(call.make(S::from(session), slices.lend()));
                assert_eq!(found, (answer, session), "{call:?} on {width} × {height}");
                assert!(slices == lent, "{call:?} on {width} × {height} wrote something");
            }
        }
    }
}

/// Every refused field makes the session count as nothing open, and lift makes it a fresh one.
fn no_call_could_hand_back<S: Calls>() {
    let (session, map) = built::<S>(&boards::document_01(), 3);
    let stale = Fields { current: false, engine: 0, ..session };
    let down: Fields = S::from(session).place(&map, &[], 0, 0, 4).1.into();
    for session in [session, stale, down] {
        assert!(!session.closed());
        assert_eq!(S::from(session).map_row(&map, 0).len(), 8);
    }
    let wrong = [
        Fields { width: 0, ..session },
        Fields { height: 2_049, ..session },
        Fields { opened: false, ..session },
        Fields { engine: 0, ..session },
        Fields { engine: 7, ..session },
        Fields { current: false, ..session },
        Fields { q: 1, ..session },
        Fields { y: 1, ..stale },
        Fields { lowered: true, ..stale },
        Fields { engine: 1, ..stale },
        Fields { x: 4, ..down },
        Fields { q: 4_194_305, ..down },
        Fields { lowered: false, ..down },
        Fields { q: 1, ..Fields::FRESH },
        Fields { width: 4, height: 4, ..Fields::FRESH },
        Fields { lowered: true, ..Fields::FRESH },
        Fields { opened: true, ..Fields::FRESH },
        Fields { met: true, ..stale },
        Fields { met: true, closest: 8, ..stale },
        Fields { closest: 8, ..stale },
        Fields { closest: 8, ..session },
        Fields { met: false, ..down },
        Fields { met: true, closest: 8, ..Fields::FRESH },
        Fields { closest: u32::MAX, ..Fields::FRESH },
    ];
    for fields in wrong {
        assert!(fields.closed(), "{fields:?}");
        let session = S::from(fields);
        assert_eq!(told(session.place(&map, &[], 0, 0, 4)), (30, fields));
        assert!(session.map_row(&map, 0).is_empty());
        assert_eq!(told(session.lift()), (0, Fields::FRESH));
        assert_eq!(told(session.open(&mut [1, 1], 2, 1)), told(S::fresh().open(&mut [1, 1], 2, 1)));
    }
}

/// A half marked pixel is labelled, and its size is taken as it comes. Both components −32,768 are unlabelled, which passes.
fn any_map<S: Calls>() {
    for engine in 1..=3 {
        let session = S::from(Fields { opened: true, width: 1, height: 1, current: true, engine, ..Fields::FRESH });
        for map in [[-32_768; 2], [-32_768, 0], [0, -32_768], [32_767, -32_768], [32_767; 2]] {
            assert_eq!(session.place(&map, &[], 0, 0, 4_194_304).0, 0, "{map:?} by engine {engine}");
        }
        assert_eq!(session.place(&[0, 0], &[], 0, 0, 0).0, 34);
        // the sizes around the gates at the largest q: 2,048², 169 / 144 and twice as much
        let around: [([i16; 2], u32); 2] = match engine {
            1 => [([2_048, 0], 34), ([2_048, 1], 0)],
            2 => [([2_218, 52], 34), ([2_218, 55], 0)],
            _ => [([2_048, 2_048], 34), ([2_048, 2_049], 0)],
        };
        for (map, answer) in around {
            assert_eq!(session.place(&map, &[], 0, 0, 4_194_304).0, answer, "{map:?} by engine {engine}");
        }
    }
}

fn expand_and_shrink<S: Calls>() {
    let board = boards::document_01();
    let (session, mut map) = built::<S>(&board, 3);
    let mut sheet = board.sheet.clone();
    let mut scratch = vec![9; 17];
    let (answer, after) = S::from(session).place(&map, &[], 0, 0, 4).1.expand(&mut sheet, &mut map, &mut scratch, 2);
    let stale = Fields { current: false, engine: 0, ..session };
    assert_eq!((answer, after.into()), (0, stale));
    assert_eq!(sheet, [0, 0, 1, 1, 0, 1, 1, 1, 1, 1, 1, 1, 1, 1, 1, 1]);
    assert!(map.iter().all(|&number| number == -32_768) && scratch[..16] == [0; 16] && scratch[16] == 9);
    assert_eq!(told(after.shrink(&mut sheet, &mut map, &mut scratch, 4_194_305)), (15, stale));
    assert_eq!(told(after.shrink(&mut sheet, &mut map, &mut scratch[..15], 0)), (12, stale));
    assert_eq!(told(after.shrink(&mut sheet, &mut map, &mut scratch, 1)), (0, stale));
    assert_eq!(sheet, [0, 0, 0, 0, 0, 0, 1, 0, 0, 1, 1, 0, 0, 0, 0, 0]);
}

/// A row is a part of the lent map, and an empty part is that from its start.
fn rows<S: Calls>() {
    let (session, map) = built::<S>(&boards::document_01(), 1);
    let session = S::from(session);
    for y in 0..4 {
        assert!(std::ptr::eq(session.map_row(&map, y), &map[8 * usize::from(y)..][..8]));
    }
    for y in [4, 5, 2_048, 65_535] {
        assert!(std::ptr::eq(session.map_row(&map, y), &map[..0]));
    }
    assert!(std::ptr::eq(session.map_row(&map[..31], 1), &map[..0]));
    assert!(std::ptr::eq(S::fresh().map_row(&map, 1), &map[..0]));
}

/// Document 01's board as the refusals are tried on it: its sheet, its map by 4SED, and the session with the sheet open alone.
struct Tried {
    sheet: Vec<u8>,
    map: Vec<i16>,
    open: Fields,
}

impl Tried {
    /// The session with the map current by an engine, or with 0 not current.
    fn by(&self, engine: u16) -> Fields {
        Fields { current: engine != 0, engine, ..self.open }
    }
}

fn order_of_refusals<S: Calls>() {
    let board = boards::document_01();
    let (session, map) = built::<S>(&board, 3);
    let tried = Tried { sheet: board.sheet, map, open: Fields { current: false, engine: 0, ..session } };
    open_refusals::<S>(&tried);
    fill_refusals::<S>(&tried);
    build_refusals::<S>(&tried);
    resize_refusals::<S>(&tried);
    place_refusals::<S>(&tried);
    run_refusals::<S>(&tried);
    read_refusals::<S>(&tried);
    probe_refusals::<S>(&tried);
}

/// Open asks nothing of the session.
fn open_refusals<S: Calls>(tried: &Tried) {
    let unsound = [Fields { opened: false, ..tried.open }, Fields { q: 1, ..tried.by(3) }];
    for session in [Fields::FRESH, tried.open, tried.by(3)].into_iter().chain(unsound) {
        every_set(&[11, 12], |wrong| {
            let h = if wrong(11) { 2_049 } else { 4 };
            S::from(session).open(cut(&mut tried.sheet.clone(), wrong(12)), 4, h).0
        });
    }
}

fn fill_refusals<S: Calls>(tried: &Tried) {
    let empty = [[3, 3, 0, 1], [3, 3, 1, 0]];
    let beyond = [[0, 0, 5, 4], [0, 0, 4, 5], [4, 0, 1, 1], [0, 4, 1, 1], [65_535, 0, 2, 1], [0, 65_535, 1, 2]];
    for rectangle in empty.into_iter().chain(beyond) {
        for fill in [S::paint, S::erase] {
            every_set(&[12, 13, 30], |wrong| {
                let [x, y, w, h] = if wrong(13) { rectangle } else { [0, 0, 4, 4] };
                fill(unless(wrong(30), tried.open), cut(&mut tried.sheet.clone(), wrong(12)), x, y, w, h).0
            });
        }
    }
}

fn build_refusals<S: Calls>(tried: &Tried) {
    for (which, other) in (0..3).flat_map(|which| [0, 7, 257, 65_535].map(|other| (which, other))) {
        every_set(&[12, 14, 30], |wrong| {
            let (mut sheet, mut map, mut scratch) = (tried.sheet.clone(), tried.map.clone(), [9; 16]);
            // only exact tests scratch, so this does not go with another engine
            let [one, two, three] = [0, 1, 2].map(|slice| wrong(12) && which == slice);
            let number = if wrong(14) && !three { other } else { 1 };
            let scratch = cut(&mut scratch, three);
            unless::<S>(wrong(30), tried.open).build(cut(&mut sheet, one), cut(&mut map, two), &mut [], scratch, number).0
        });
    }
    for (number, answer) in [(2, 0), (3, 0), (0, 14), (7, 14)] {
        let found = S::from(tried.open).build(&tried.sheet, &mut tried.map.clone(), &mut [], &mut [], number).0;
        assert_eq!(found, answer, "engine {number} without scratch");
    }
}

fn resize_refusals<S: Calls>(tried: &Tried) {
    for (which, resize) in (0..3).flat_map(|which| [S::expand, S::shrink].map(|resize| (which, resize))) {
        every_set(&[12, 15, 30], |wrong| {
            let (mut sheet, mut map, mut scratch) = (tried.sheet.clone(), tried.map.clone(), [9; 16]);
            let [one, two, three] = [0, 1, 2].map(|slice| wrong(12) && which == slice);
            let q = if wrong(15) { 4_194_305 } else { 0 };
            resize(unless(wrong(30), tried.open), cut(&mut sheet, one), cut(&mut map, two), cut(&mut scratch, three), q).0
        });
    }
}

fn place_refusals<S: Calls>(tried: &Tried) {
    every_set(&[12, 15, 16, 30, 31, 34], |wrong| {
        let session = unless::<S>(wrong(30), tried.by(if wrong(31) { 0 } else { 3 }));
        let q = if wrong(15) { 4_194_305 } else { 4 + u32::from(wrong(34)) };
        session.place(cut(&mut tried.map.clone(), wrong(12)), &[], if wrong(16) { 4 } else { 0 }, 0, q).0
    });
}

fn run_refusals<S: Calls>(tried: &Tried) {
    every_set(&[12, 17, 30, 32, 33, 34], |wrong| {
        let session = unless::<S>(wrong(30), Fields { lowered: !wrong(32), ..tried.by(3) });
        let (direction, count) = along_the_edge(wrong);
        session.run(cut(&mut tried.map.clone(), wrong(12)), &[], direction, count).0
    });
}

fn read_refusals<S: Calls>(tried: &Tried) {
    for (which, other) in (0..3).flat_map(|which| (2..=6).map(move |other| (which, other))) {
        every_set(&[12, 30, 31, 36, 37], |wrong| {
            let engine = if wrong(36) { other } else { 1 };
            let session = unless::<S>(wrong(30), tried.by(if wrong(31) { 0 } else { engine }));
            let mut map = if wrong(37) { vec![1; 32] } else { tried.map.clone() };
            let [one, two, three] = [0, 1, 2].map(|slice| wrong(12) && which == slice);
            let (mut marks, mut out) = ([1; 16], [9; 16]);
            if three {
                return session.rebuild(&map, cut(&mut marks, true), &mut out).0;
            }
            let answer = session.skeleton(cut(&mut map.clone(), one), cut(&mut out, two)).0;
            assert_eq!(answer, session.rebuild(cut(&mut map, one), &marks, cut(&mut out, two)).0);
            answer
        });
    }
}

/// Of four points one may be off the sheet, and one in a row less than that before it, each at the start of the list or at its end.
fn probe_refusals<S: Calls>(tried: &Tried) {
    for (which, [off, back]) in (0..4).flat_map(|which| [[0, 0], [0, 3], [3, 0], [3, 3]].map(|at| (which, at))) {
        every_set(&[12, 16, 30, 43], |wrong| {
            let (mut sheet, mut scratch, mut out) = (tried.sheet.clone(), [9; 16], [9; 4]);
            let mut points = [[1, 1], [2, 1], [0, 2], [3, 2]];
            if wrong(16) {
                points[off][0] = 4;
            }
            if wrong(43) {
                points[back][1] = 3 - back as u16;
            }
            let [one, two, three, four] = [0, 1, 2, 3].map(|slice| wrong(12) && which == slice);
            let (points, out) = (cut(points.as_flattened_mut(), three), cut(&mut out, four));
            unless::<S>(wrong(30), tried.open).probe(cut(&mut sheet, one), points, cut(&mut scratch, two), out).0
        });
    }
}
