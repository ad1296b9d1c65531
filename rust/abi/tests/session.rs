//! Lists of calls of the library: many thousand random ones and some with a plan, each call compared with the model, held against the claims
//! over lists, or both.

use model::boards::{self, Board};
use model::calls::Calls;
use model::nearest;
use model::random::Random;
use model::session::Fields;
use soak::calls::Call;
use soak::library::Library;
use soak::list::{Answers, Check};
use soak::lists;

/// A list of calls of the library.
type List = soak::list::List<Library>;

/// A list that has opened a sheet and painted the copper of a board.
fn checked(check: Check, board: &Board, random: &mut Random) -> List {
    let mut list = List::new(check, 0, random);
    let (w, h) = board.sides();
    assert_eq!(list.call(Call::Open { w, h }, random), 0, "{board:?}");
    for (x, y) in board.copper() {
        assert_eq!(list.call(Call::Paint { x, y, w: 1, h: 1 }, random), 0);
    }
    list
}

/// The same. Each call is compared with the model and held against the plain board.
fn painted(board: &Board, random: &mut Random) -> List {
    checked(Check::Both, board, random)
}

/// The same, with the map built by an engine.
fn built(board: &Board, engine: u16, random: &mut Random) -> List {
    let mut list = painted(board, random);
    assert_eq!(list.call(Call::Build { engine }, random), 0);
    list
}

/// Makes calls that must have these answers.
fn answers<const N: usize>(list: &mut List, calls: [(Call, u32); N], random: &mut Random) {
    for (call, answer) in calls {
        assert_eq!(list.call(call, random), answer, "{call:?}");
    }
}

/// The largest q that passes for a pixel of this size, which on the values is their square; none if none does.
fn most(engine: u16, size: u64) -> Option<u32> {
    let below = size.checked_sub(1)?;
    Some(match engine {
        1 | 5 => below,
        2 => (144 * size - 1) / 169,
        3 | 4 => below / 2,
        _ => below / 10,
    } as u32)
}

#[test]
fn sides() {
    let mut random = Random::new(105);
    let mut list = List::new(Check::Both, 0, &mut random);
    for (w, h) in [(1, 1), (2_048, 1), (1, 2_048), (2_047, 2)] {
        list.call(Call::Open { w, h }, &mut random);
        assert_eq!(list.session(), Fields { opened: true, width: w, height: h, ..Fields::FRESH });
        assert!(list.sheet.iter().all(|&byte| byte == 0));
    }
    for (w, h) in [(2_049, 1), (1, 2_049), (0, 1), (1, 0), (0, 0), (65_535, 1), (1, 65_535)] {
        let call = Call::Open { w, h };
        assert_eq!(list.call(call, &mut random), 11, "{w} × {h}");
        let mut slices = list.slices(call, &mut random);
        slices.sheet.push(0);
        assert_eq!(list.lend(call, slices, &mut random).0, 11, "{w} × {h}");
    }
    let call = Call::Open { w: 2_048, h: 1 };
    for length in [0, 2_047, 2_049, 4_096] {
        let mut slices = list.slices(call, &mut random);
        slices.sheet.resize(length, 1);
        assert_eq!(list.lend(call, slices, &mut random).0, 12, "{length}");
    }
    // the maps are not looked at
    let mut slices = list.slices(call, &mut random);
    slices.map.clear();
    slices.values.clear();
    assert_eq!(list.lend(call, slices, &mut random).0, 0);
}

/// An opening that is refused leaves a list its maps. One that is done comes with others, and if one kind has a wrong length the calls over the
/// other kind go on.
#[test]
fn openings() {
    let mut random = Random::new(118);
    let mut list = built(&boards::document_01(), 6, &mut random);
    let (open, place) = (Call::Open { w: 4, h: 4 }, |q| Call::Place { x: 0, y: 0, q });
    let builds = |engines: [u16; 3], answer| engines.map(|engine| (Call::Build { engine }, answer));
    let mut slices = list.slices(open, &mut random);
    slices.sheet.push(1);
    assert_eq!(list.lend(open, slices, &mut random).0, 12);
    answers(&mut list, [(place(7), 34), (place(6), 0)], &mut random);
    assert_eq!(list.call(open, &mut random), 0);
    answers(&mut list, [(place(6), 31), (Call::Build { engine: 6 }, 0), (place(4_194_304), 0)], &mut random);
    let mut slices = list.slices(open, &mut random);
    slices.values.pop();
    assert_eq!(list.lend(open, slices, &mut random).0, 0);
    answers(&mut list, builds([4, 5, 6], 12), &mut random);
    answers(&mut list, [(Call::Build { engine: 7 }, 14), (place(0), 31)], &mut random);
    answers(&mut list, builds([1, 2, 3], 0), &mut random);
    answers(&mut list, [(place(9), 0), (Call::Build { engine: 4 }, 12), (Call::Run { direction: 0, count: 3 }, 0)], &mut random);
    let mut slices = list.slices(open, &mut random);
    slices.map.push(0);
    assert_eq!(list.lend(open, slices, &mut random).0, 0);
    answers(&mut list, builds([1, 3, 7], 12), &mut random);
    answers(&mut list, [(place(0), 12), (Call::Run { direction: 0, count: 1 }, 12)], &mut random);
    answers(&mut list, builds([4, 5, 6], 0), &mut random);
    answers(&mut list, [(place(9), 0), (Call::Build { engine: 2 }, 12), (Call::Run { direction: 0, count: 3 }, 0)], &mut random);
    answers(&mut list, [(Call::Expand { q: 1 }, 12), (Call::Skeleton, 12), (Call::Lift, 0)], &mut random);
}

/// The most steps of a run, there and back, and one more; and none.
#[test]
fn counts() {
    let mut random = Random::new(106);
    for engine in 1..=6 {
        for (w, h, forth, back, end) in [(2_048, 1, 0, 4, (2_047, 0)), (1, 2_048, 2, 6, (0, 2_047))] {
            let mut list = built(&Board::bare(w, h), engine, &mut random);
            let run = |direction, count| Call::Run { direction, count };
            answers(&mut list, [(Call::Place { x: 0, y: 0, q: 3 }, 0), (run(forth, 2_048), 17), (run(forth, 0), 17)], &mut random);
            answers(&mut list, [(run(8, 1), 17), (run(256, 1), 17), (run(65_535, 1), 17), (run(forth, 65_535), 17)], &mut random);
            answers(&mut list, [(run(back, 1), 33), (run(forth, 2_047), 0), (run(forth, 1), 33)], &mut random);
            assert_eq!((list.session().x, list.session().y, list.session().q), (end.0, end.1, 3));
            answers(&mut list, [(run(back, 2_047), 0), (run(back, 1), 33)], &mut random);
            assert_eq!((list.session().x, list.session().y), (0, 0));
        }
    }
}

#[test]
fn largest_q() {
    let mut random = Random::new(107);
    let [limit, over] = [4_194_304, 4_194_305];
    for engine in 1..=6 {
        let mut list = built(&Board::bare(3, 2), engine, &mut random);
        let place = |q| Call::Place { x: 2, y: 1, q };
        answers(&mut list, [(place(limit), 0), (place(over), 15), (place(u32::MAX), 15)], &mut random);
        assert_eq!((list.session().lowered, list.session().q), (true, limit));
        answers(&mut list, [(Call::Expand { q: over }, 15), (Call::Shrink { q: over }, 15)], &mut random);
        assert!(list.session().lowered && list.session().current);
    }
    let mut list = painted(&Board::with(3, 2, &[(1, 1)]), &mut random);
    answers(&mut list, [(Call::Shrink { q: 0 }, 0), (Call::Expand { q: limit }, 0), (Call::Shrink { q: 0 }, 0)], &mut random);
    assert_eq!(list.sheet, [1; 6]);
    for call in [Call::Shrink { q: limit }, Call::Expand { q: limit }] {
        answers(&mut list, [(call, 0)], &mut random);
        assert_eq!(list.sheet, [0; 6], "{call:?}");
    }
}

/// A run with copper in its way leaves the cutter where it was; paint and every other change of the copper lifts it.
#[test]
fn blunders() {
    let mut random = Random::new(108);
    let lowered = [(Call::Build { engine: 1 }, 0), (Call::Place { x: 0, y: 0, q: 1 }, 0)];
    let mut list = painted(&Board::with(6, 3, &[(4, 0)]), &mut random);
    answers(&mut list, lowered, &mut random);
    answers(&mut list, [(Call::Run { direction: 0, count: 3 }, 34), (Call::Run { direction: 0, count: 6 }, 33)], &mut random);
    assert_eq!((list.session().lowered, list.session().x, list.session().y), (true, 0, 0));
    answers(&mut list, [(Call::Run { direction: 1, count: 2 }, 0), (Call::Run { direction: 4, count: 1 }, 0)], &mut random);
    assert_eq!((list.session().lowered, list.session().x, list.session().y), (true, 1, 2));
    let changes = [
        Call::Paint { x: 4, y: 0, w: 1, h: 1 },
        Call::Erase { x: 0, y: 0, w: 1, h: 1 },
        Call::Expand { q: 0 },
        Call::Shrink { q: 0 },
        Call::Open { w: 6, h: 3 },
    ];
    for change in changes {
        answers(&mut list, lowered, &mut random);
        answers(&mut list, [(change, 0)], &mut random);
        assert_eq!(list.session(), Fields { opened: true, width: 6, height: 3, ..Fields::FRESH }, "{change:?}");
        answers(&mut list, [(Call::Place { x: 0, y: 0, q: 1 }, 31), (Call::Run { direction: 0, count: 1 }, 32)], &mut random);
    }
    answers(&mut list, lowered, &mut random);
    answers(&mut list, [(Call::Build { engine: 1 }, 0)], &mut random);
    assert_eq!((list.session().current, list.session().lowered), (true, false));
}

/// 40,000 lists, of which 20,000 are tampered with. Every answer that a call can have occurs often.
#[test]
fn random_lists() {
    let mut found = Answers::new();
    lists::make::<Library>(110, 40_000, &mut found);
    let numbers: Vec<u32> = found.keys().copied().collect();
    assert_eq!(numbers, [0, 11, 12, 13, 14, 15, 16, 17, 30, 31, 32, 33, 34, 36, 37, 43]);
    for (answer, calls) in &found {
        assert!(calls.values().sum::<u64>() > 2_000, "{answer}: {calls:?}");
    }
    assert!(found[&0].len() == 12 && found[&0].values().all(|&calls| calls > 2_000), "{:?}", found[&0]);
}

/// Holds so many lists of a session against the claims, without a look at the model. Each of place and run is done, and refused by the gate, more than
/// `least` times.
fn hold_to_claims<S: Calls>(seed: u64, count: usize, least: u64) {
    let mut found = Answers::new();
    let mut seeds = Random::new(seed);
    for _ in 0..count {
        lists::under_premise::<S>(Check::Board, seeds.next(), &mut found);
    }
    for (answer, name) in [(0, "place"), (0, "run"), (34, "place"), (34, "run")] {
        assert!(found[&answer][name] > least, "{answer}: {:?}", found[&answer]);
    }
}

#[test]
fn claims() {
    hold_to_claims::<Library>(111, 30_000, 5_000);
}

#[test]
fn claims_of_the_model() {
    hold_to_claims::<Fields>(116, 5_000, 800);
}

/// Places the cutter at a pixel of a sheet with copper, with the largest q that passes and with the next.
fn around_gate(list: &mut List, (x, y): (u16, u16), random: &mut Random) {
    let size = list.size(usize::from(y) * usize::from(list.session().width) + usize::from(x)).expect("copper");
    let most = most(list.session().engine, size);
    if let Some(q) = most {
        assert_eq!(list.call(Call::Place { x, y, q }, random), 0);
    }
    assert_eq!(list.call(Call::Place { x, y, q: most.map_or(0, |q| q + 1) }, random), 34);
}

/// At every pixel of the arrow heads the largest q that passes and the next, by all engines, and runs between.
#[test]
fn arrow_heads_everywhere() {
    let mut random = Random::new(112);
    for board in boards::arrow_heads() {
        let (w, h) = board.sides();
        for engine in 1..=6 {
            let mut list = built(&board, engine, &mut random);
            for y in 0..h {
                for x in 0..w {
                    around_gate(&mut list, (x, y), &mut random);
                    list.call(Call::Run { direction: random.below(8) as u16, count: 1 + random.below(9) as u16 }, &mut random);
                }
            }
        }
    }
    let mut list = built(&boards::arrow_head(), 2, &mut random);
    assert_eq!(list.size(0), Some(170));
    let [passes, fails] = [144, 145].map(|q| Call::Place { x: 0, y: 0, q });
    answers(&mut list, [(fails, 34), (passes, 0)], &mut random);
}

/// Where the quick maps miss the nearest copper, a gate without the fraction lets the cutter come too near. The claims without a look at
/// the model: on the arrow heads, on other sheets like them, and on every sheet of 6 × 6 with three copper pixels.
#[test]
fn claims_where_quick_maps_miss() {
    let mut random = Random::new(115);
    let mut boards = boards::arrow_heads().to_vec();
    boards.resize_with(10_000, || boards::arrow(random.between(4, 36), random.between(4, 36), &mut random));
    boards.extend(boards::of_three(6, 6));
    // by 8SED and by 4SED
    let mut missed = [0; 2];
    for board in boards {
        for engine in [2, 3] {
            let mut list = checked(Check::Board, &board, &mut random);
            assert_eq!(list.call(Call::Build { engine }, &mut random), 0);
            for (at, e) in nearest::all(&list.sheet, board.w, board.h).into_iter().enumerate() {
                let Some(found) = list.size(at).filter(|&found| Some(found) != e) else { continue };
                missed[usize::from(engine) - 2] += 1;
                let (x, y) = ((at % board.w) as u16, (at / board.w) as u16);
                for gate in 1..=3 {
                    let q = most(gate, found).expect("copper is not missed");
                    list.call(Call::Place { x, y, q }, &mut random);
                    list.call(Call::Place { x, y, q: q + 1 }, &mut random);
                }
            }
        }
    }
    assert!(missed[0] > 40 && missed[1] > 800, "{missed:?}");
}

/// The claims where the drafts are farthest from the true distances, along the rows and columns and along the diagonals, and between: from
/// one copper pixel at any place, and from a few. At every pixel the gate's q and the next, without a look at the model.
#[test]
fn claims_on_drafts() {
    let mut random = Random::new(117);
    let one = (0..9 * 7).map(|at| Board::with(9, 7, &[(at % 9, at / 9)]));
    let few: Vec<Board> = (0..300).map(|_| boards::sprinkled(random.between(1, 20), random.between(1, 20), 3, &mut random)).collect();
    for board in one.chain(few) {
        for engine in 4..=6 {
            let mut list = checked(Check::Board, &board, &mut random);
            assert_eq!(list.call(Call::Build { engine }, &mut random), 0);
            for at in 0..board.sheet.len() {
                around_gate(&mut list, ((at % board.w) as u16, (at / board.w) as u16), &mut random);
            }
        }
    }
}

/// Sheets of one row and of one column.
#[test]
fn lines() {
    let mut random = Random::new(113);
    for n in [1, 2, 3, 17, 100, 1_000, 2_047, 2_048] {
        for (w, h, forth) in [(n, 1, 0), (1, n, 2)] {
            let pixel = |at: u16| if w == n { (at, 0) } else { (0, at) };
            for copper in 0..3 {
                let board = boards::sprinkled(w.into(), h.into(), copper, &mut random);
                let mut list = painted(&board, &mut random);
                for engine in 1..=6 {
                    assert_eq!(list.call(Call::Build { engine }, &mut random), 0);
                    for _ in 0..6 {
                        let (x, y) = pixel(random.below(n.into()) as u16);
                        let q = random.below(u64::from(n) + 3) as u32;
                        list.call(Call::Place { x, y, q }, &mut random);
                        let room = if list.session().lowered { n - 1 - list.session().x.max(list.session().y) } else { n };
                        list.call(Call::Run { direction: forth, count: room.min(2_047) }, &mut random);
                        list.call(Call::Run { direction: forth + 4, count: 1 + random.below(n.into()) as u16 }, &mut random);
                        list.call(Call::Run { direction: random.below(8) as u16, count: 1 }, &mut random);
                    }
                    list.call(Call::Skeleton, &mut random);
                    list.call(Call::Rebuild, &mut random);
                    answers(&mut list, [(Call::Probe, 0)], &mut random);
                }
                answers(&mut list, [(Call::Expand { q: 26 }, 0), (Call::Shrink { q: 10 }, 0)], &mut random);
            }
        }
    }
}

/// The largest sheet. From one corner to the other it is 2 × 2,047², which by 4SED and by the chessboard is too little for the largest q.
#[test]
fn largest() {
    let mut random = Random::new(114);
    let mut list = painted(&Board::with(2_048, 2_048, &[(0, 0)]), &mut random);
    let corner = Call::Place { x: 2_047, y: 2_047, q: 4_194_304 };
    let lowered = Call::Place { x: 2_047, y: 2_047, q: 4_000_000 };
    for (engine, answer) in [(1, 0), (2, 0), (3, 34), (4, 0), (6, 0), (5, 34)] {
        answers(&mut list, [(Call::Build { engine }, 0), (corner, answer), (lowered, 0)], &mut random);
        let run = |count| Call::Run { direction: 5, count };
        answers(&mut list, [(run(2_048), 17), (run(2_047), 34), (run(1), 0)], &mut random);
        assert_eq!((list.session().x, list.session().y, list.session().q), (2_046, 2_046, 4_000_000));
    }
    let diagonal = |direction| Call::Run { direction, count: 2_047 };
    answers(&mut list, [(Call::Place { x: 0, y: 2_047, q: 900 }, 0), (diagonal(7), 0), (diagonal(3), 0), (diagonal(5), 33)], &mut random);
    answers(&mut list, [(Call::Probe, 0), (Call::Expand { q: 4 }, 0), (Call::Shrink { q: 1 }, 0), (Call::Rebuild, 31)], &mut random);
}
