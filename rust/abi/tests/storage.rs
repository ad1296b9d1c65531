//! Small maps in a byte a component (document 02, C-24): the library beside the model, on every number, at every side and with every
//! refusal; and what a read-back into a session's map does to the calls after it.

mod common;

use abi::session::Session;
use abi::storage;
use common::{built, map_of, old, Lent};
use model::boards::{self, Board};
use model::maps;
use model::random::Random;
use soak::calls::Call;
use soak::library::Library;
use soak::list::{Check, List};

/// A small board's map goes to the memory card, is lost, and comes back number by number. It can be looked at then. Before a cutter is
/// placed the map is built again: to read it back was a write by something else than a call, and what is promised of place and run lapses
/// with such a write and holds again from the next build that is done.
#[test]
fn memory_card() {
    // a pad, and a track that leads down from it
    let (mut sheet, mut map, mut scratch) = ([0; 60 * 40], [0; 2 * 60 * 40], [0; 4 * 60]);
    let mut session = Session::fresh().open(&mut sheet, 60, 40).session;
    for [x, y, w, h] in [[8, 6, 7, 7], [11, 13, 1, 18]] {
        session = session.paint(&mut sheet, x, y, w, h).session;
    }
    session = session.build(&sheet, &mut map, &mut [], &mut scratch, 1).session;

    // half as many bytes as the map has
    let mut card = [0; 2 * 60 * 40];
    assert_eq!(storage::store(60, 40, &map, &mut card), 0);
    assert_eq!(2 * size_of_val(&card), size_of_val(&map));

    let before = map;
    map.fill(0);
    assert_eq!(storage::read_back(60, 40, &card, &mut map), 0);
    assert_eq!(map, before);
    assert_eq!(session.map_row(&map, 9)[2 * 20..][..2], [-6, 0]);

    let again = session.build(&sheet, &mut map, &mut [], &mut scratch, 1);
    assert_eq!((again.answer, map), (0, before));
    assert_eq!(again.session.place(&map, &[], 20, 9, 36).answer, 34);
    assert_eq!(again.session.place(&map, &[], 20, 9, 35).answer, 0);
}

/// A call of the library, and the model's.
type Beside<T, U> = [fn(u16, u16, &[T], &mut [U]) -> u32; 2];

const STORE: Beside<i16, i8> = [storage::store, model::storage::store];
const READ_BACK: Beside<i8, i16> = [storage::read_back, model::storage::read_back];

/// How many numbers around a lent slice must stay as they are.
const MARGIN: usize = 40;

/// Numbers that a slice may hold.
trait Number: Copy + PartialEq + std::fmt::Debug {
    fn any(random: &mut Random) -> Self;
}

impl Number for i8 {
    fn any(random: &mut Random) -> Self {
        [random.next() as i8, -128, 0][random.below(4).saturating_sub(1) as usize]
    }
}

impl Number for i16 {
    fn any(random: &mut Random) -> Self {
        old(random)
    }
}

/// Makes a call of the library with a source and a target of this length, which holds anything. Answer and target must be the model's. The
/// source must not be written, nor anything around either, nor the target if the call is refused. The answer and the target.
fn made<T: Number, U: Number>(
    [library, model]: Beside<T, U>,
    [w, h]: [u16; 2],
    source: &[T],
    length: usize,
    random: &mut Random,
) -> (u32, Vec<U>) {
    let about = format!("{w} × {h}, {} numbers to {length}, from {:?}", source.len(), &source[..source.len().min(40)]);
    let mut from = Lent::around(source, MARGIN, || T::any(random));
    let mut to = Lent::new(length, MARGIN, || U::any(random));
    let mut expected = to.slice().to_vec();
    let answer = library(w, h, from.slice(), to.slice());
    assert_eq!(answer, model(w, h, source, &mut expected), "{about}");
    from.written(0, "source", &about);
    if answer != 0 {
        to.written(0, "target", &about);
    }
    let found = to.written(length, "target", &about);
    assert!(found == expected, "the target: {about}");
    (answer, found.to_vec())
}

/// The answer of a call whose target is as long as its source.
fn answer<T: Number, U: Number>(call: Beside<T, U>, sides: [u16; 2], source: &[T], random: &mut Random) -> u32 {
    made(call, sides, source, source.len(), random).0
}

/// How many numbers a map of these sides has.
fn numbers([w, h]: [u16; 2]) -> usize {
    2 * usize::from(w) * usize::from(h)
}

/// Stores a map that can be stored and reads it back, which must give the map. The bytes.
fn there_and_back(sides: [u16; 2], map: &[i16], random: &mut Random) -> Vec<i8> {
    let (answer, bytes) = made(STORE, sides, map, map.len(), random);
    assert_eq!(answer, 0, "{sides:?}");
    let (answer, back) = made(READ_BACK, sides, &bytes, map.len(), random);
    assert!(answer == 0 && back == map, "{answer} by read back: {sides:?}");
    bytes
}

/// Every side up to 128, as a row, as a column and with any other side.
#[test]
fn every_side() {
    let mut random = Random::new(241);
    for side in 1..=128 {
        let other = random.between(1, 128) as u16;
        for sides in [[side, 1], [1, side], [side, side], [side, 128], [128, side], [side, other], [other, side]] {
            let map = maps::any_small(numbers(sides) / 2, &mut random).concat();
            there_and_back(sides, &map, &mut random);
        }
    }
}

/// 45 for a side above 128 and 11 for one outside 1 to 2,048, whatever the other side is and with lengths that fit.
#[test]
fn other_sides() {
    let mut random = Random::new(242);
    for side in [0, 129, 130, 255, 256, 257, 1_000, 2_047, 2_048, 2_049, 2_050, 4_096, 32_768, 65_535] {
        for other in [0, 1, 2, 127, 128, 129, 2_048, 2_049] {
            for sides in [[side, other], [other, side]] {
                // not too many numbers: no slice fits sides beyond their limits anyway
                let length = numbers(sides).min(2 * 2_048 * 129);
                let fits = length == numbers(sides);
                let expected = match side.max(other) {
                    _ if side.min(other) == 0 => 11,
                    2_049.. => 11,
                    _ if !fits => 12,
                    _ => 45,
                };
                let map = maps::any_small(length / 2, &mut random).concat();
                assert_eq!(answer(STORE, sides, &map, &mut random), expected, "{sides:?}");
                let bytes = vec![0; length];
                assert_eq!(answer(READ_BACK, sides, &bytes, &mut random), expected, "{sides:?}");
            }
        }
    }
}

/// Every number as dx and as dy of a map of one pixel, beside some others.
#[test]
fn every_number() {
    let mut random = Random::new(243);
    let mut stored = 0;
    for number in i16::MIN..=i16::MAX {
        for other in [0, 127, -127, 128, -32_768] {
            for pixel in [[number, other], [other, number]] {
                stored += u32::from(answer(STORE, [1, 1], &pixel, &mut random) == 0);
            }
        }
    }
    // 255 numbers beside each of three others, and the unlabelled pixel, all of them twice
    assert_eq!(stored, 2 * (3 * 255 + 1));
}

/// Every pair of bytes, read back and stored again.
#[test]
fn every_pair_of_bytes() {
    let mut random = Random::new(244);
    let mut read = 0;
    for dx in i8::MIN..=i8::MAX {
        for dy in i8::MIN..=i8::MAX {
            let (answer, map) = made(READ_BACK, [1, 1], &[dx, dy], 2, &mut random);
            if answer == 0 {
                read += 1;
                assert_eq!(there_and_back([1, 1], &map, &mut random), [dx, dy]);
            }
        }
    }
    assert_eq!(read, 255 * 255 + 1);
}

/// Pixels that cannot be stored: a component outside ±127, alone or both, or half marked.
const NOT_STORED: [[i16; 2]; 17] = [
    [128, 0],
    [0, 128],
    [-128, 0],
    [0, -128],
    [128, 128],
    [-128, -128],
    [256, 0],
    [0, -256],
    [32_767, 0],
    [0, 32_767],
    [-32_767, 0],
    [0, -32_767],
    [-32_767, -32_767],
    [-32_768, 0],
    [0, -32_768],
    [-32_768, 128],
    [-128, -32_768],
];

/// Pixels that cannot be read back: half marked.
const NOT_READ: [[i8; 2]; 8] = [[-128, 0], [0, -128], [-128, -127], [-127, -128], [-128, 127], [127, -128], [-128, -1], [1, -128]];

/// Puts each of these pixels at this place of a map that is otherwise right. The call must be refused with 45.
fn refused_at<T: Number, U: Number>(call: Beside<T, U>, sides: [u16; 2], map: &[T], bad: &[[T; 2]], at: usize, random: &mut Random) {
    for pixel in bad {
        let mut map = map.to_vec();
        map[2 * at..][..2].copy_from_slice(pixel);
        assert_eq!(answer(call, sides, &map, random), 45, "{pixel:?} at {at} of {sides:?}");
    }
}

/// The same at these places, for both calls.
fn refused_at_each(sides: [u16; 2], places: impl Iterator<Item = usize>, random: &mut Random) {
    let map = maps::any_small(numbers(sides) / 2, random).concat();
    let bytes = there_and_back(sides, &map, random);
    for at in places {
        refused_at(STORE, sides, &map, &NOT_STORED, at, random);
        refused_at(READ_BACK, sides, &bytes, &NOT_READ, at, random);
    }
}

/// A pixel that is turned away at every place of small maps.
#[test]
fn refused_pixels() {
    let mut random = Random::new(245);
    for sides in (1..=6).flat_map(|w| (1..=6).map(move |h| [w, h])).chain([[128, 1], [1, 128], [40, 1], [9, 8]]) {
        refused_at_each(sides, 0..numbers(sides) / 2, &mut random);
    }
}

/// And at the ends of the largest, and anywhere.
#[test]
fn refused_pixels_of_the_largest() {
    let mut random = Random::new(246);
    let sides = [128, 128];
    let any: Vec<usize> = (0..10).map(|_| random.between(0, 128 * 128 - 1)).collect();
    refused_at_each(sides, [0, 1, 127, 128, 128 * 127, 128 * 128 - 2, 128 * 128 - 1].into_iter().chain(any), &mut random);
}

/// Bytes that stand for an unlabelled pixel half in one pixel and half in the next.
#[test]
fn unlabelled_across() {
    let mut random = Random::new(247);
    assert_eq!(answer(READ_BACK, [2, 1], &[0, -128, -128, 0], &mut random), 45);
    assert_eq!(answer(READ_BACK, [1, 2], &[-128, 0, 0, -128], &mut random), 45);
    assert_eq!(answer(STORE, [2, 1], &[0, -32_768, -32_768, 0], &mut random), 45);
    assert_eq!(answer(STORE, [1, 2], &[-32_768, 0, 0, -32_768], &mut random), 45);
}

/// Maps that hold anything, so that most are refused, and bytes that do.
#[test]
fn anything() {
    let mut random = Random::new(248);
    let mut found = [[0; 2]; 2];
    for _ in 0..40_000 {
        let sides = [random.between(1, 12) as u16, random.between(1, 12) as u16];
        let pixels = numbers(sides) / 2;
        let map = [maps::any, maps::any_small][random.below(2) as usize](pixels, &mut random).concat();
        found[0][usize::from(answer(STORE, sides, &map, &mut random) == 0)] += 1;
        let bytes: Vec<i8> = (0..2 * pixels).map(|_| random.next() as i8).collect();
        found[1][usize::from(answer(READ_BACK, sides, &bytes, &mut random) == 0)] += 1;
    }
    assert!(found.as_flattened().iter().all(|&calls| calls > 5_000), "{found:?}");
}

/// 12: a slice of another length, by one, by all or by much. It goes before 45, for a side or a pixel, and 11 goes before it.
#[test]
fn lengths() {
    let mut random = Random::new(249);
    for sides in [[1, 1], [1, 9], [9, 1], [5, 4], [128, 1], [1, 128], [128, 128], [129, 1], [1, 129], [2_048, 1], [1, 2_048]] {
        let right = numbers(sides);
        for wrong in [0, 1, right - 2, right - 1, right + 1, right + 2, 2 * right, right / 2].into_iter().filter(|&wrong| wrong != right) {
            for [source, target] in [[wrong, right], [right, wrong], [wrong, wrong]] {
                // numbers that are stored, and numbers that are not
                for number in [0, 77, -128] {
                    let map = vec![i16::from(number); source];
                    assert_eq!(made(STORE, sides, &map, target, &mut random).0, 12, "{sides:?}, {source} to {target}");
                    let mut bytes = vec![number; source];
                    bytes.iter_mut().step_by(2).for_each(|byte| *byte = 5);
                    assert_eq!(made(READ_BACK, sides, &bytes, target, &mut random).0, 12, "{sides:?}, {source} to {target}");
                }
            }
        }
    }
    // lengths that are the product's last 16 bits
    for (sides, length) in [([128, 256], 0), ([256, 256], 0), ([2_048, 2_048], 0), ([2_047, 2_047], 57_346), ([1_024, 64], 0)] {
        assert_eq!(answer(STORE, sides, &vec![0; length], &mut random), 12, "{sides:?}");
        assert_eq!(answer(READ_BACK, sides, &vec![0; length], &mut random), 12, "{sides:?}");
    }
    for (sides, length) in [([32_768, 32_768], 0), ([65_535, 65_535], 2), ([0, 7], 0), ([7, 0], 0), ([0, 0], 0)] {
        assert_eq!(answer(STORE, sides, &vec![0; length], &mut random), 11, "{sides:?}");
        assert_eq!(answer(READ_BACK, sides, &vec![0; length], &mut random), 11, "{sides:?}");
    }
}

/// Each of 11, 12 and 45, alone and together: the lowest is answered, and 0 if nothing is wrong.
#[test]
fn order_of_refusals() {
    let mut random = Random::new(250);
    for set in 0..16 {
        let [side, length, long, pixel] = [1, 2, 4, 8].map(|bit| set & bit != 0);
        let sides = [if side { 0 } else { 3 }, if long { 129 } else { 2 }];
        let expected = match () {
            _ if side => 11,
            _ if length => 12,
            _ if long || pixel => 45,
            _ => 0,
        };
        let numbers = numbers([3, sides[1]]);
        for (source, target) in [(numbers + usize::from(length), numbers), (numbers, numbers + usize::from(length))] {
            let (mut map, mut bytes) = (vec![1; source], vec![1; source]);
            if pixel {
                (map[3], bytes[3]) = (128, -128);
            }
            assert_eq!(made(STORE, sides, &map, target, &mut random).0, expected, "{set:04b}");
            assert_eq!(made(READ_BACK, sides, &bytes, target, &mut random).0, expected, "{set:04b}");
        }
    }
}

/// The maps that engines 1 to 3 build of a board, stored and read back.
fn check_built(board: &Board, random: &mut Random) {
    let (w, h) = board.sides();
    for engine in 1..=3 {
        let map = map_of(board, engine, random);
        there_and_back([w, h], map.as_flattened(), random);
    }
}

/// Every map that a build writes of a sheet with sides up to 128 can be stored.
#[test]
fn built_maps() {
    let mut random = Random::new(251);
    for _ in 0..3_000 {
        let (w, h) = (random.between(1, 30), random.between(1, 30));
        check_built(&boards::any(w, h, &mut random), &mut random);
    }
    for turn in 0..60 {
        let n = if turn < 6 { 128 } else { random.between(1, 128) };
        for (w, h) in [(n, 1), (1, n), (n, 128), (128, n), (n, random.between(1, 128))] {
            check_built(&boards::any(w, h, &mut random), &mut random);
            check_built(&boards::sprinkled(w, h, 1, &mut random), &mut random);
        }
    }
}

/// From corner to corner of the largest sheets whose maps are stored, and no copper at all.
#[test]
fn built_maps_of_the_largest() {
    let mut random = Random::new(252);
    for (w, h) in [(128, 128), (128, 1), (1, 128)] {
        for (x, y) in [(0, 0), (w - 1, 0), (0, h - 1), (w - 1, h - 1)] {
            let board = Board::with(w, h, &[(x, y)]);
            check_built(&board, &mut random);
            let map = map_of(&board, 1, &mut random);
            let corner = map[(h - 1 - y) * w + (w - 1 - x)];
            assert!(corner.into_iter().map(i16::abs).max() == Some(127), "{corner:?}");
        }
        for board in [Board::bare(w, h), boards::full(w, h), boards::tracks(w, h, &mut random), boards::diagonal(w, h)] {
            check_built(&board, &mut random);
        }
    }
    // one more column or row and the map is turned away, though all its components may be short
    for (w, h) in [(129, 1), (1, 129), (129, 128), (128, 129)] {
        let map = map_of(&boards::full(w, h), 1, &mut random);
        assert_eq!(answer(STORE, [w as u16, h as u16], map.as_flattened(), &mut random), 45);
    }
}

/// A map that was read back has the same numbers, so place and run over it answer and hand back what they did before.
#[test]
fn place_and_run_as_before() {
    let mut random = Random::new(253);
    for _ in 0..3_000 {
        let (w, h) = (random.between(1, 20), random.between(1, 20));
        let board = boards::any(w, h, &mut random);
        let engine = random.between(1, 3) as u16;
        let map = map_of(&board, engine, &mut random).concat();
        let (width, height) = board.sides();
        let bytes = there_and_back([width, height], &map, &mut random);
        let mut again = vec![0; map.len()];
        assert_eq!(storage::read_back(width, height, &bytes, &mut again), 0);
        let mut session = built(&board, engine);
        for _ in 0..20 {
            let (x, y) = (random.below(w as u64) as u16, random.below(h as u64) as u16);
            let (direction, count) = (random.below(8) as u16, random.between(1, 5) as u16);
            let q = random.below(30) as u32;
            let over =
                |map: &[i16]| if session.lowered { session.run(map, &[], direction, count) } else { session.place(map, &[], x, y, q) };
            let reply = over(&again);
            assert_eq!(reply, over(&map), "{session:?}: {board:?}");
            session = if random.below(5) == 0 { reply.session.lift().session } else { reply.session };
        }
    }
}

/// A list of calls of the library, compared with the model and held against the plain board, with the exact map of document 01's board.
fn document_01(random: &mut Random) -> List<Library> {
    let mut list = List::new(Check::Both, 0, random);
    assert_eq!(list.call(Call::Open { w: 4, h: 4 }, random), 0);
    for (x, y) in boards::document_01().copper() {
        assert_eq!(list.call(Call::Paint { x, y, w: 1, h: 1 }, random), 0);
    }
    assert_eq!(list.call(Call::Build { engine: 1 }, random), 0);
    list
}

/// Reads bytes back into the pairs of a list.
fn read_into(list: &mut List<Library>, bytes: &[i8]) {
    let mut map = list.map.clone();
    assert_eq!(storage::read_back(4, 4, bytes, &mut map), 0);
    list.write(map, list.values.clone());
}

/// After a read-back of another map the gate looks at that one: it lets the cutter down on copper, and turns it away far off. Session and
/// sheet go on agreeing with the board. From the next build that is done all is as before.
#[test]
fn another_map() {
    let mut random = Random::new(254);
    let mut list = document_01(&mut random);
    let [on_copper, far_off] = [Call::Place { x: 2, y: 2, q: 9 }, Call::Place { x: 0, y: 0, q: 7 }];
    let answers = |list: &mut List<Library>, random: &mut Random| [on_copper, far_off].map(|call| list.call(call, random));
    let session = list.session();
    assert_eq!(answers(&mut list, &mut random), [34, 0]);
    read_into(&mut list, &[100; 32]);
    assert_eq!(answers(&mut list, &mut random), [0, 0]);
    assert_eq!((list.session().lowered, list.session().closest), (true, 20_000));
    read_into(&mut list, &[0; 32]);
    assert_eq!(answers(&mut list, &mut random), [34, 34]);
    assert_eq!(list.call(Call::Run { direction: 0, count: 1 }, &mut random), 34);
    read_into(&mut list, &[-128; 32]);
    assert_eq!(list.call(Call::Run { direction: 0, count: 3 }, &mut random), 0);
    for call in [Call::Build { engine: 7 }, Call::Skeleton] {
        assert_ne!(list.call(call, &mut random), 0);
    }
    assert_eq!(list.call(Call::Build { engine: 1 }, &mut random), 0);
    assert_eq!(list.session(), session);
    assert_eq!(answers(&mut list, &mut random), [34, 0]);
}

/// The session's own map, stored and read back between the calls of a list: every answer is as without that.
#[test]
fn the_same_map() {
    let mut random = Random::new(255);
    let mut list = document_01(&mut random);
    let mut bytes = [0; 32];
    assert_eq!(storage::store(4, 4, &list.map, &mut bytes), 0);
    let calls = [
        (Call::Place { x: 0, y: 0, q: 8 }, 34),
        (Call::Place { x: 0, y: 0, q: 2 }, 0),
        (Call::Run { direction: 0, count: 1 }, 0),
        (Call::Run { direction: 0, count: 2 }, 34),
        (Call::Run { direction: 1, count: 1 }, 34),
        (Call::Skeleton, 0),
        (Call::Lift, 0),
        (Call::Run { direction: 0, count: 1 }, 32),
    ];
    for (call, answer) in calls {
        assert_eq!(list.call(call, &mut random), answer, "{call:?}");
        read_into(&mut list, &bytes);
    }
    assert_eq!(list.writes(), calls.len());
}
