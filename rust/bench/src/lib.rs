//! What the benchmark times the library beside.

pub mod fused;
pub mod plain;
pub mod plain_calls;
pub mod plain_chamfer;
pub mod plain_exact;
pub mod plain_join;
pub mod plain_probe;
pub mod plain_resize;
pub mod plain_skeleton;
pub mod plain_storage;

#[cfg(test)]
mod tests {
    use super::*;
    use abi::session::Reply;
    use model::boards::{self, Board};
    use model::chamfer::Weights;
    use model::random::Random;
    use model::session::{scratch_need, Fields};
    use soak::calls::{Call, Slices};
    use soak::library::Library;
    use std::collections::BTreeMap;

    type Scan = fn(&[u8], &mut [i16], usize, usize, bool);

    const SCANS: [Scan; 2] = [plain::scan, fused::scan];

    /// Numbers that hold anything.
    fn anything(length: usize, random: &mut Random) -> Vec<i16> {
        (0..length).map(|_| random.next() as i16).collect()
    }

    /// Values that hold anything: mostly small ones, and some unlabelled.
    fn any_values(length: usize, random: &mut Random) -> Vec<u16> {
        let mut value = || [random.below(12) as u16, random.next() as u16, u16::MAX][random.below(6).saturating_sub(3) as usize];
        (0..length).map(|_| value()).collect()
    }

    fn check_scans(board: &Board, random: &mut Random) {
        for corners in [false, true] {
            let expected = model::scans::scan(&board.sheet, board.w, board.h, corners).concat();
            for (which, scan) in SCANS.into_iter().enumerate() {
                let mut map = anything(2 * board.sheet.len(), random);
                scan(&board.sheet, &mut map, board.w, board.h, corners);
                assert!(map == expected, "scan {which}, corners {corners}: {board:?}");
            }
        }
    }

    /// The maps by the weights of the three engines and by any others that are allowed.
    fn check_chamfer(board: &Board, random: &mut Random) {
        let b = random.between(1, 32) as u16;
        let a = b - random.below(u64::from(b) / 2 + 1) as u16;
        for [a, b] in plain_chamfer::WEIGHTS.into_iter().chain([[a, b]]) {
            let expected = model::chamfer::sooner(&board.sheet, board.w, board.h, Weights { a, b });
            let mut values = any_values(board.sheet.len(), random);
            plain_chamfer::chamfer(&board.sheet, &mut values, board.w, board.h, [a, b]);
            assert!(values == expected, "weights {a}, {b}: {board:?}");
        }
    }

    fn check_exact(board: &Board, random: &mut Random) {
        let expected = model::exact::outwards(&board.sheet, board.w, board.h).concat();
        for exact in [plain_exact::exact, plain_exact::exact_fused] {
            let mut map = anything(2 * board.sheet.len(), random);
            check_scratch(board, random, |scratch| exact(&board.sheet, &mut map, scratch, board.w, board.h));
            assert!(map == expected, "{board:?}");
        }
    }

    /// What works in scratch leaves as much of it as is needed at 0, and the rest as it was.
    fn check_scratch(board: &Board, random: &mut Random, work: impl FnOnce(&mut [i16])) {
        let need = scratch_need(board.w);
        let mut scratch = anything(need + [0, 5, board.sheet.len()][random.below(3) as usize], random);
        let mut expected = scratch.clone();
        expected[..need].fill(0);
        work(&mut scratch);
        assert!(scratch == expected, "{board:?}");
    }

    /// Expand and shrink on a board and on the board turned round.
    fn check_resize(board: &Board, random: &mut Random) {
        for board in [board, &board.turned_round(random)] {
            let &Board { w, h, ref sheet } = board;
            let q = [random.below(30), random.below((w * w + h * h) as u64), 4_194_304][random.below(3) as usize] as u32;
            let expected = [model::resize::expand_by_map, model::resize::shrink_by_map].map(|resize| resize(sheet, w, h, q));
            for (resize, expected) in [plain_resize::expand, plain_resize::shrink].into_iter().zip(expected) {
                let mut sheet = sheet.clone();
                let mut map = anything(2 * w * h, random);
                check_scratch(board, random, |scratch| resize(&mut sheet, &mut map, scratch, w, h, q));
                assert!(sheet == expected, "q {q}: {board:?}");
                assert!(map.iter().all(|&number| number == -32_768), "q {q}: {board:?}");
            }
        }
    }

    /// Skeleton and rebuild on the board's exact map and on one that holds anything.
    fn check_skeleton(board: &Board, random: &mut Random) {
        let &Board { w, h, ref sheet } = board;
        for map in [model::exact::outwards(sheet, w, h), model::maps::any(w * h, random)] {
            let numbers = map.concat();
            let mut kept = vec![7; w * h];
            plain_skeleton::skeleton(&numbers, &mut kept, w, h);
            assert!(kept == model::skeleton::skeleton(&map, w, h), "{board:?}");
            // the model goes by brute force, so not on the larger ones
            if w * h > 1_000 {
                continue;
            }
            let some: Vec<u8> = kept.iter().map(|&byte| [byte, 0, random.next() as u8][random.below(3) as usize]).collect();
            for marks in [kept, some] {
                let mut out = vec![7; w * h];
                plain_skeleton::rebuild(&numbers, &marks, &mut out, w, h);
                assert!(out == model::skeleton::rebuild(&map, &marks, w, h), "{board:?}");
            }
        }
    }

    fn check_probe(board: &Board, random: &mut Random) {
        let &Board { w, h, ref sheet } = board;
        let points = model::points::any(w as u16, h as u16, random);
        let mut out = vec![7; points.len() / 2];
        let mut rows = 7;
        check_scratch(board, random, |scratch| rows = plain_probe::probe(sheet, &points, scratch, &mut out, w, h));
        let (points, _) = points.as_chunks();
        let expected = (model::probe::distances(sheet, w, points), model::probe::rows(points));
        assert!((out, rows) == expected, "{points:?}: {board:?}");
    }

    /// Runs a check on many boards.
    fn on_boards(seed: u64, check: fn(&Board, &mut Random)) {
        let mut random = Random::new(seed);
        for turn in 0..20_000 {
            let (w, h) = match turn % 16 {
                0 => (1, random.between(1, 300)),
                1 => (random.between(1, 300), random.between(1, 4)),
                _ => (random.between(1, 12), random.between(1, 12)),
            };
            let board = boards::any(w, h, &mut random);
            check(&board, &mut random);
        }
        check(&boards::arrow_head(), &mut random);
        check(&boards::one_pixel(300, 200), &mut random);
        check(&boards::tracks(300, 200, &mut random), &mut random);
        check(&boards::diagonal(200, 300), &mut random);
    }

    #[test]
    fn scans_as_the_model() {
        on_boards(21, check_scans);
    }

    #[test]
    fn exact_as_the_model() {
        on_boards(22, check_exact);
    }

    #[test]
    fn chamfer_as_the_model() {
        on_boards(26, check_chamfer);
    }

    #[test]
    fn resize_as_the_model() {
        on_boards(23, check_resize);
    }

    #[test]
    fn skeleton_as_the_model() {
        on_boards(24, check_skeleton);
    }

    #[test]
    fn probe_as_the_model() {
        on_boards(27, check_probe);
    }

    /// The usual number, or once in eight times one of the odd ones.
    fn seldom<T: Copy>(usual: T, odd: &[T], random: &mut Random) -> T {
        if random.below(8) == 0 {
            odd[random.between(0, odd.len() - 1)]
        } else {
            usual
        }
    }

    /// Puts one of these numbers somewhere, now and then.
    fn spoil<T: Copy>(numbers: &mut [T], odd: &[T], random: &mut Random) {
        let place = random.between(0, 4 * numbers.len());
        if let Some(number) = numbers.get_mut(place) {
            *number = odd[random.between(0, odd.len() - 1)];
        }
    }

    /// A call that stores or reads back.
    type Storage<T, U> = fn(u16, u16, &[T], &mut [U]) -> u32;

    /// Stores or reads back in plain Rust and by the model, which must answer and write the same.
    fn check_storage<T, U: Clone + PartialEq>(
        [plain, model]: [Storage<T, U>; 2],
        [w, h]: [u16; 2],
        source: &[T],
        mut target: Vec<U>,
    ) -> u32 {
        let mut expected = target.clone();
        let answer = plain(w, h, source, &mut target);
        assert_eq!(answer, model(w, h, source, &mut expected), "{w}, {h}");
        assert!(target == expected, "{answer}: {w}, {h}");
        answer
    }

    /// Maps of any sides, and bytes. Now and then a side, a length or a number is wrong.
    #[test]
    fn storage_as_the_model() {
        let mut random = Random::new(28);
        let mut found: BTreeMap<(&str, u32), u32> = BTreeMap::new();
        for turn in 0..20_000 {
            let most = if turn % 40 == 0 { 128 } else { 12 };
            let sides = [(); 2].map(|()| seldom(random.between(1, most) as u16, &[0, 127, 128, 129, 2_048, 2_049], &mut random));
            let pixels = (usize::from(sides[0]) * usize::from(sides[1])).min(20_000);
            let [source, target] = [(); 2].map(|()| seldom(2 * pixels, &[0, pixels, 2 * pixels + 1], &mut random));
            let mut map = model::maps::any_small(pixels, &mut random).concat();
            let mut bytes: Vec<i8> = map.iter().map(|&number| number.max(-128) as i8).collect();
            spoil(&mut map, &[128, -128, 32_767, -32_768, 0], &mut random);
            spoil(&mut bytes, &[-128, 127, 0], &mut random);
            map.resize(source, 0);
            bytes.resize(source, 0);
            let stored = check_storage([plain_storage::store, model::storage::store], sides, &map, vec![7; target]);
            let read = check_storage([plain_storage::read_back, model::storage::read_back], sides, &bytes, vec![7; target]);
            *found.entry(("store", stored)).or_default() += 1;
            *found.entry(("read back", read)).or_default() += 1;
        }
        assert!(found.len() == 8 && found.values().all(|&calls| calls > 300), "{found:?}");
    }

    /// Maps that hold anything, of any sides. Now and then a side or a length is wrong.
    #[test]
    fn join_as_the_model() {
        let mut random = Random::new(29);
        let mut found: BTreeMap<u32, u32> = BTreeMap::new();
        for _ in 0..20_000 {
            let sides = [(); 2].map(|()| seldom(random.between(1, 12) as u16, &[0, 2_048, 2_049], &mut random));
            let pixels = (usize::from(sides[0]) * usize::from(sides[1])).min(20_000);
            let first = model::maps::any(pixels, &mut random);
            let second = model::maps::any_beside(&first, &mut random);
            let [mut first, mut second, mut target] = [first.concat(), second.concat(), vec![7; 2 * pixels]];
            for map in [&mut first, &mut second, &mut target] {
                map.resize(seldom(2 * pixels, &[0, pixels, 2 * pixels + 1], &mut random), 0);
            }
            let [w, h] = sides;
            let mut expected = target.clone();
            let answer = plain_join::join(w, h, &first, &second, &mut target);
            assert_eq!(answer, model::join::join(w, h, &first, &second, &mut expected), "{w}, {h}");
            assert!(target == expected, "{answer}: {w}, {h}");
            *found.entry(answer).or_default() += 1;
        }
        assert!(found.len() == 3 && found.values().all(|&calls| calls > 300), "{found:?}");
    }

    /// Slices for a board, now and then of a wrong length. Scratch is about as long as is needed, or about a number a pixel. Points may be
    /// astray.
    fn any_slices(board: &Board, random: &mut Random) -> Slices {
        let pixels = board.sheet.len();
        let scratch = [scratch_need(board.w), pixels][random.below(2) as usize];
        let (w, h) = board.sides();
        let mut points = model::points::any(w, h, random);
        model::points::astray(&mut points, w, h, random);
        let lengths = [pixels, pixels, pixels, scratch, pixels, pixels, points.len(), points.len() / 2];
        let [sheet, pairs, values, scratch, marks, out, numbers, distances] = lengths.map(|right| {
            let wrong = (right + 1).saturating_sub(2 * random.below(2) as usize);
            [right, wrong][usize::from(random.below(9) == 0)]
        });
        points.resize(numbers, 0);
        let mut slices = Slices {
            sheet: board.sheet.clone(),
            map: anything(2 * pairs, random),
            values: any_values(values, random),
            scratch: vec![7; scratch],
            marks: vec![1; marks],
            out: vec![7; out],
            points,
            distances: vec![7; distances],
            rows: 7,
        };
        slices.sheet.resize(sheet, 1);
        slices
    }

    /// Sessions and slices of which something is wrong, and others: the plain calls answer and leave what the model's do.
    fn check_calls(board: &Board, random: &mut Random) {
        // the model's rebuild goes by brute force, so not on the larger boards
        let times = if board.sheet.len() > 1_000 { 0 } else { 4 };
        for _ in 0..times {
            let fields = any_session(board, random);
            let mut slices = any_slices(board, random);
            let engine = [fields.engine, random.below(8) as u16][random.below(2) as usize];
            let q = [random.below(30), 4_194_304 + random.below(2)][random.below(2) as usize] as u32;
            let run = Call::Run { direction: random.below(9) as u16, count: random.below(4) as u16 };
            for call in [run, Call::Probe, Call::Build { engine }, Call::Skeleton, Call::Rebuild, Call::Expand { q }, Call::Shrink { q }] {
                let mut expected = slices.clone();
                let found = plain_call(call, fields, &mut slices);
                assert_eq!(found, call.make(fields, expected.lend()), "{call:?} with {fields:?}: {board:?}");
                assert!(slices == expected, "{call:?} with {fields:?}: {board:?}");
            }
        }
    }

    /// A call in plain Rust.
    fn plain_call(call: Call, fields: Fields, slices: &mut Slices) -> (u32, Fields) {
        let Slices { sheet, map, values, scratch, marks, out, points, distances, rows } = slices;
        let session = Library::from(fields).0;
        let reply = match call {
            Call::Build { engine } => plain_calls::build(session, sheet, map, values, scratch, engine, &plain_calls::FUSED),
            Call::Expand { q } => plain_calls::expand(session, sheet, map, scratch, q),
            Call::Shrink { q } => plain_calls::shrink(session, sheet, map, scratch, q),
            Call::Skeleton => plain_calls::skeleton(session, map, out),
            Call::Rebuild => plain_calls::rebuild(session, map, marks, out),
            Call::Run { direction, count } => plain_calls::run(session, map, values, direction, count),
            Call::Probe => {
                let probed = plain_calls::probe(session, sheet, points, scratch, distances);
                *rows = probed.rows;
                Reply { answer: probed.answer, session: probed.session }
            }
            _ => panic!("{call:?} is not timed"),
        };
        (reply.answer, Library(reply.session).into())
    }

    /// A session with the board's sheet open and the cutter down more often than not, and now and then a field that may not be so.
    fn any_session(board: &Board, random: &mut Random) -> Fields {
        let (width, height) = board.sides();
        let engine = random.below(8) as u16;
        let mut fields = Fields { opened: true, width, height, current: engine != 0, engine, ..Fields::FRESH };
        if engine != 0 && random.below(3) > 0 {
            let (x, y) = (random.below(width.into()) as u16, random.below(height.into()) as u16);
            fields = Fields { lowered: true, x, y, q: random.below(9) as u32, met: true, closest: random.below(9_999) as u32, ..fields };
        }
        match random.below(8) {
            0 => fields.opened = false,
            1 => fields.width = [0, 2_049][random.below(2) as usize],
            2 => fields.x = 1,
            3 => fields.lowered = true,
            4 => fields.met ^= true,
            _ => {}
        }
        fields
    }

    #[test]
    fn calls_as_the_model() {
        on_boards(25, check_calls);
    }
}
