//! The calls over both kinds of map, the pairs of engines 1 to 3 and the values of 4 to 6, call by call: each test is run on the library's
//! session and on the model's.

mod either;

use either::{along_the_edge, cut, every_set, on_either, told, unless};
use model::boards::{self, Board};
use model::calls::Calls;
use model::session::{kind, scratch_need, Fields, Kind};
use soak::calls::{Call, Slices};

on_either!(
    document_01,
    lengths,
    untouched,
    built_last,
    closest,
    closest_none,
    closest_any_size,
    any_values,
    sound,
    not_by_exact,
    engines,
    build_refusals,
    place_refusals,
    run_refusals,
);

/// Numbers that no engine has.
const NO_ENGINES: [u16; 8] = [0, 7, 8, 9, 255, 260, 262, 65_535];

/// A session with the sheet of a board and its map by engine 4, 5 or 6, and that map. No pairs and no scratch are lent.
fn drafted<S: Calls>(board: &Board, engine: u16) -> (Fields, Vec<u16>) {
    let (width, height) = board.sides();
    let open = Fields { opened: true, width, height, ..Fields::FRESH };
    let mut values = vec![9; board.sheet.len()];
    let made = told(S::from(open).build(&board.sheet, &mut [], &mut values, &mut [], engine));
    assert_eq!(made, (0, Fields { current: true, engine, ..open }));
    (made.1, values)
}

/// The values of the three engines, and the largest q that passes at the upper left corner.
fn document_01<S: Calls>() {
    for (engine, value, most) in [(4, 3, 4), (5, 2, 3), (6, 8, 6)] {
        let (session, values) = drafted::<S>(&boards::document_01(), engine);
        assert_eq!(values[0], value);
        let (answer, down) = S::from(session).place(&[], &values, 0, 0, most);
        let closest = u32::from(value).pow(2);
        assert_eq!((answer, down.into()), (0, Fields { lowered: true, q: most, met: true, closest, ..session }));
        for session in [S::from(session), down] {
            assert_eq!(told(session.place(&[], &values, 0, 0, most + 1)), (34, session.into()));
        }
    }
}

/// Document 01's board for all calls: every slice has a length that fits.
fn slices() -> Slices {
    Slices {
        sheet: boards::document_01().sheet,
        map: vec![0; 32],
        values: vec![0; 16],
        scratch: vec![9; scratch_need(4)],
        marks: vec![1; 16],
        out: vec![9; 16],
        points: vec![0, 0, 3, 1],
        distances: vec![9; 2],
        rows: 0,
    }
}

/// The session with that board open, its map by an engine or with 0 not current, and the cutter down if there is a map.
fn with_map(engine: u16) -> Fields {
    let current = engine != 0;
    Fields { opened: true, width: 4, height: 4, current, engine, lowered: current, ..Fields::FRESH }
}

/// Every kind of call, with numbers that are in order.
fn calls() -> Vec<Call> {
    let builds = (1..=6).chain(NO_ENGINES).map(|engine| Call::Build { engine });
    let others = [
        Call::Open { w: 4, h: 4 },
        Call::Paint { x: 0, y: 0, w: 1, h: 1 },
        Call::Erase { x: 0, y: 0, w: 1, h: 1 },
        Call::Place { x: 0, y: 0, q: 0 },
        Call::Run { direction: 0, count: 1 },
        Call::Lift,
        Call::Expand { q: 1 },
        Call::Shrink { q: 1 },
        Call::Skeleton,
        Call::Rebuild,
        Call::Probe,
    ];
    builds.chain(others).collect()
}

/// The kind of map that a call tests in a session with a map by this engine, if any.
fn tested(call: Call, engine: u16) -> Option<Kind> {
    match call {
        Call::Build { engine: 4..=6 } => Some(Kind::Values),
        Call::Place { .. } | Call::Run { .. } if (4..=6).contains(&engine) => Some(Kind::Values),
        Call::Open { .. } | Call::Paint { .. } | Call::Erase { .. } | Call::Lift | Call::Probe => None,
        _ => Some(Kind::Pairs),
    }
}

/// Every call in a session of every engine, with pairs and values of the right length and of wrong ones: 12 is answered for the kind that
/// the call reads or writes, and the other kind may have any length.
fn lengths<S: Calls>() {
    for (call, engine) in calls().into_iter().flat_map(|call| (0..=6).map(move |engine| (call, engine))) {
        let right = call.make(S::from(with_map(engine)), slices().lend()).0;
        assert!(![12, 30].contains(&right), "{call:?} by engine {engine}");
        for (pairs, values) in [0, 1, 31, 32, 33, 64].into_iter().flat_map(|pairs| [0, 1, 15, 16, 17, 32].map(|values| (pairs, values))) {
            let wrong = match tested(call, engine) {
                Some(Kind::Pairs) => pairs != 32,
                Some(Kind::Values) => values != 16,
                None => false,
            };
            let mut lent = slices();
            lent.map.resize(pairs, 0);
            lent.values.resize(values, 0);
            let found = call.make(S::from(with_map(engine)), lent.lend()).0;
            assert_eq!(found, if wrong { 12 } else { right }, "{call:?} by engine {engine}, pairs {pairs}, values {values}");
        }
    }
}

/// A call writes one kind of map at most: build by engines 1 to 3, expand and shrink the pairs, build by 4 to 6 the values, and no other
/// call either. Only exact, expand, shrink and probe write scratch.
fn untouched<S: Calls>() {
    for (call, engine) in calls().into_iter().flat_map(|call| (0..=6).map(move |engine| (call, engine))) {
        let before = Slices { map: vec![77; 32], values: vec![77; 16], ..slices() };
        let mut after = before.clone();
        let answer = call.make(S::from(with_map(engine)), after.lend()).0;
        let about = format!("{call:?} by engine {engine}");
        let [pairs, values, scratch] = match call {
            Call::Build { engine: 1 } | Call::Expand { .. } | Call::Shrink { .. } => [true, false, true],
            Call::Build { engine: 2 | 3 } => [true, false, false],
            Call::Build { engine: 4..=6 } => [false, true, false],
            Call::Probe => [false, false, true],
            _ => [false; 3],
        };
        assert!(answer == 0 || !(pairs || values), "{about}");
        let written = [after.map != before.map, after.values != before.values, after.scratch != before.scratch];
        assert_eq!(written, [pairs, values, scratch], "{about}");
    }
}

/// Builds by one engine after another: place and run read the kind that was built last, and what the other kind holds is of no account.
fn built_last<S: Calls>() {
    for (first, last) in (1..=6).flat_map(|first| (1..=6).map(move |last| (first, last))) {
        let mut lent = slices();
        let mut session = S::from(with_map(0));
        for engine in [first, last] {
            let answer;
            (answer, session) = Call::Build { engine }.make(session, lent.lend());
            assert_eq!(answer, 0);
        }
        // the other kind would refuse every q
        match kind(last) {
            Kind::Pairs => lent.values.fill(0),
            Kind::Values => lent.map.fill(0),
        }
        let place = |q| Call::Place { x: 0, y: 0, q };
        let most = [7, 6, 4, 4, 3, 6][usize::from(last) - 1];
        assert_eq!(place(most + 1).make(session, lent.lend()).0, 34, "{first}, {last}");
        let (answer, down) = place(most).make(session, lent.lend());
        assert_eq!(answer, 0, "{first}, {last}");
        // one step east the sizes are 4, 4, 4, 2², 2² and 6²
        let run = Call::Run { direction: 0, count: 1 };
        let passing = Fields { q: [3, 3, 1, 1, 3, 3][usize::from(last) - 1], ..down.into() };
        assert_eq!(run.make(S::from(passing), lent.lend()).0, 0, "{first}, {last}");
        assert_eq!(run.make(S::from(Fields { q: passing.q + 1, ..passing }), lent.lend()).0, 34, "{first}, {last}");
    }
}

/// The closest approach is the square of the least value: of the placed pixel, then of those of a run too.
fn closest<S: Calls>() {
    for (engine, [placed, after_run]) in [(4, [9, 4]), (5, [4, 4]), (6, [64, 36])] {
        let (session, values) = drafted::<S>(&boards::document_01(), engine);
        let down = told(S::from(session).place(&[], &values, 0, 0, 0)).1;
        assert_eq!((down.met, down.closest), (true, placed));
        let ran = told(S::from(down).run(&[], &values, 0, 1));
        assert_eq!(ran, (0, Fields { x: 1, closest: after_run, ..down }));
        // back where it was, the least stays, and so it does if the cutter is lifted or turned away
        assert_eq!(told(S::from(ran.1).run(&[], &values, 4, 1)), (0, Fields { closest: after_run, ..down }));
        assert_eq!(told(S::from(ran.1).run(&[], &values, 0, 2)).0, 34);
        assert_eq!(told(S::from(ran.1).lift()), (0, Fields { met: true, closest: after_run, ..session }));
    }
}

/// On a bare sheet all is unlabelled: every cutter passes, and none is met. Any other value is labelled, up to 65,534, whose square just has
/// room.
fn closest_none<S: Calls>() {
    for engine in 4..=6 {
        let (session, mut values) = drafted::<S>(&Board::bare(4, 1), engine);
        assert_eq!(values, [65_535; 4]);
        let (answer, down) = told(S::from(session).place(&[], &values, 0, 0, 4_194_304));
        assert_eq!((answer, down), (0, Fields { lowered: true, q: 4_194_304, ..session }));
        assert_eq!(told(S::from(down).run(&[], &values, 0, 3)), (0, Fields { x: 3, ..down }));
        values[1..3].copy_from_slice(&[65_534, 10_000]);
        assert_eq!(told(S::from(down).run(&[], &values, 0, 1)), (0, Fields { x: 1, met: true, closest: 4_294_705_156, ..down }));
        // the least is that of a pixel on the way, and the last one is unlabelled
        assert_eq!(told(S::from(down).run(&[], &values, 0, 3)), (0, Fields { x: 3, met: true, closest: 100_000_000, ..down }));
    }
}

/// Any recorded size is taken as it comes.
fn closest_any_size<S: Calls>() {
    let (session, values) = drafted::<S>(&boards::document_01(), 6);
    for closest in [0, 1, 35, 36, 37, 4_294_705_156, u32::MAX] {
        let down = Fields { lowered: true, met: true, closest, ..session };
        assert_eq!(told(S::from(down).run(&[], &values, 0, 1)), (0, Fields { x: 1, closest: closest.min(36), ..down }));
        assert_eq!(told(S::from(down).run(&[], &[65_535; 16], 0, 1)), (0, Fields { x: 1, ..down }));
        assert_eq!(told(S::from(down).place(&[], &values, 0, 0, 0)), (0, Fields { closest: 64, ..down }));
        assert_eq!(told(S::from(down).place(&[], &[65_535; 16], 0, 0, 0)), (0, Fields { lowered: true, ..session }));
    }
}

/// The gates at the largest q and at 0, and the closest approach, on values that no build has left.
fn any_values<S: Calls>() {
    // the roots of 2 × q, q and 10 × q, and the next
    for (engine, most) in [(4, 2_896), (5, 2_048), (6, 6_476)] {
        let session = Fields { opened: true, width: 1, height: 1, current: true, engine, ..Fields::FRESH };
        let place = |value: u16, q: u32| told(S::from(session).place(&[], &[value], 0, 0, q));
        for (value, q) in [(0, 4_194_304), (most, 4_194_304), (0, 0)] {
            assert_eq!(place(value, q), (34, session), "{value} by engine {engine}");
        }
        for (value, q) in [(most + 1, 4_194_304), (46_341, 4_194_304), (65_505, 4_194_304), (65_534, 4_194_304), (1, 0), (256, 9)] {
            let down = Fields { lowered: true, q, met: true, closest: u32::from(value).pow(2), ..session };
            assert_eq!(place(value, q), (0, down), "{value} by engine {engine}");
        }
        for q in [0, 4_194_304] {
            assert_eq!(place(65_535, q), (0, Fields { lowered: true, q, ..session }), "engine {engine}");
        }
    }
}

/// A session with a map by any of the six engines is one that a call could hand back, and by any other number it is not.
fn sound<S: Calls>() {
    let map = [7; 32];
    for engine in 1..=6 {
        for lowered in [false, true] {
            let fields = Fields { lowered, ..with_map(engine) };
            assert!(!fields.closed());
            assert_eq!(S::from(fields).map_row(&map, 1), &map[8..16]);
            assert_eq!(told(S::from(fields).lift()), (0, Fields { lowered: false, ..fields }));
        }
        assert_closed::<S>(Fields { current: false, ..with_map(engine) });
        assert_closed::<S>(Fields { current: false, lowered: false, ..with_map(engine) });
    }
    for engine in NO_ENGINES {
        assert_closed::<S>(Fields { current: true, engine, lowered: false, ..with_map(1) });
        assert_closed::<S>(Fields { current: true, engine, ..with_map(1) });
    }
}

/// Asserts that a session counts as one with nothing open.
fn assert_closed<S: Calls>(fields: Fields) {
    assert!(fields.closed(), "{fields:?}");
    for call in calls().into_iter().filter(|call| !matches!(call, Call::Open { .. } | Call::Lift)) {
        assert_eq!(told(call.make(S::from(fields), slices().lend())), (30, fields), "{call:?}");
    }
    assert!(S::from(fields).map_row(&[7; 32], 1).is_empty());
    assert_eq!(told(S::from(fields).lift()), (0, Fields::FRESH));
}

/// Skeleton and rebuild are for exact maps, whatever the pairs hold.
fn not_by_exact<S: Calls>() {
    for (engine, call) in (1..=6).flat_map(|engine| [Call::Skeleton, Call::Rebuild].map(|call| (engine, call))) {
        let before = slices();
        let mut after = before.clone();
        let answer = if engine == 1 { 0 } else { 36 };
        assert_eq!(told(call.make(S::from(with_map(engine)), after.lend())), (answer, with_map(engine)), "{call:?} by engine {engine}");
        assert_eq!(after.out != before.out, engine == 1);
    }
}

/// 14 is for engines outside 1 to 6. It leaves session and slices as they are.
fn engines<S: Calls>() {
    for number in 0..=u16::MAX {
        let mut lent = slices();
        let before = lent.clone();
        let (answer, after) = told(Call::Build { engine: number }.make(S::from(with_map(6)), lent.lend()));
        if (1..=6).contains(&number) {
            assert_eq!((answer, after), (0, Fields { lowered: false, ..with_map(number) }));
        } else {
            assert!((answer, after) == (14, with_map(6)) && lent == before, "{number}");
        }
    }
}

/// Engines 4 to 6 test sheet and values, and nothing else.
fn build_refusals<S: Calls>() {
    for (which, engine) in (0..2).flat_map(|which| (4..=6).map(move |engine| (which, engine))) {
        every_set(&[12, 30], |wrong| {
            let mut lent = slices();
            let [sheet, values] = [0, 1].map(|slice| wrong(12) && which == slice);
            let session = unless::<S>(wrong(30), with_map(0));
            session.build(cut(&mut lent.sheet, sheet), &mut [], cut(&mut lent.values, values), &mut [], engine).0
        });
    }
    // a number that no engine has tests sheet and pairs
    for (which, number) in (0..2).flat_map(|which| NO_ENGINES.map(|number| (which, number))) {
        every_set(&[12, 14, 30], |wrong| {
            let mut lent = slices();
            let [sheet, pairs] = [0, 1].map(|slice| wrong(12) && which == slice);
            let number = if wrong(14) { number } else { 3 };
            let session = unless::<S>(wrong(30), with_map(0));
            session.build(cut(&mut lent.sheet, sheet), cut(&mut lent.map, pairs), &mut [], &mut [], number).0
        });
    }
}

fn place_refusals<S: Calls>() {
    for (engine, most) in [(4, 4), (5, 3), (6, 6)] {
        let (session, values) = drafted::<S>(&boards::document_01(), engine);
        every_set(&[12, 15, 16, 30, 34], |wrong| {
            let q = if wrong(15) { 4_194_305 } else { most + u32::from(wrong(34)) };
            let x = if wrong(16) { 4 } else { 0 };
            unless::<S>(wrong(30), session).place(&[], cut(&mut values.clone(), wrong(12)), x, 0, q).0
        });
    }
    // without a current map the pairs are tested
    every_set(&[12, 15, 16, 30, 31], |wrong| {
        let session = unless::<S>(wrong(30), with_map(if wrong(31) { 0 } else { 1 }));
        let (x, q) = (if wrong(16) { 4 } else { 0 }, if wrong(15) { 4_194_305 } else { 0 });
        session.place(cut(&mut [1; 32], wrong(12)), &[], x, 0, q).0
    });
}

/// Without a current map the cutter is up, and the pairs are tested.
fn run_refusals<S: Calls>() {
    for engine in 4..=6 {
        let (session, values) = drafted::<S>(&boards::document_01(), engine);
        every_set(&[12, 17, 30, 32, 33, 34], |wrong| {
            let session = unless::<S>(wrong(30), Fields { lowered: !wrong(32), ..session });
            let (direction, count) = along_the_edge(wrong);
            session.run(&[], cut(&mut values.clone(), wrong(12)), direction, count).0
        });
    }
    for (pairs, direction, answer) in [(32, 0, 32), (32, 8, 17), (31, 0, 12), (33, 8, 12)] {
        assert_eq!(S::from(with_map(0)).run(&vec![1; pairs], &[], direction, 1).0, answer);
    }
}
