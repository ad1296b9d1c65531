//! Between pixel centres (document 02, C-20): on every run that is done, each point that divides one of its steps in a ratio of whole
//! numbers is at squared distance above q from copper. Each test is run on the library's session and on the model's.

mod either;

use either::{on_either, told};
use model::between::squared;
use model::boards::{self, Board};
use model::calls::Calls;
use model::random::Random;
use model::session::{scratch_need, Fields};

on_either!(random_runs, half_way, every_direction, copper_between);

/// One step in each of the eight directions, clockwise from east.
const STEPS: [(i32, i32); 8] = [(1, 0), (1, 1), (0, 1), (-1, 1), (-1, 0), (-1, -1), (0, -1), (1, -1)];

/// A board with its map by an engine.
struct Mapped<'a, S> {
    board: &'a Board,
    session: S,
    map: Vec<i16>,
    values: Vec<u16>,
}

impl<'a, S: Calls> Mapped<'a, S> {
    fn new(board: &'a Board, engine: u16) -> Self {
        let (width, height) = board.sides();
        let open = Fields { opened: true, width, height, ..Fields::FRESH };
        let (mut map, mut values) = (vec![0; 2 * board.sheet.len()], vec![0; board.sheet.len()]);
        let (answer, session) = S::from(open).build(&board.sheet, &mut map, &mut values, &mut vec![0; scratch_need(board.w)], engine);
        assert_eq!(answer, 0);
        Mapped { board, session, map, values }
    }

    fn place(&self, x: u16, y: u16, q: u32) -> (u32, Fields) {
        told(self.session.place(&self.map, &self.values, x, y, q))
    }

    fn run(&self, from: Fields, direction: u16, count: u16) -> (u32, Fields) {
        told(S::from(from).run(&self.map, &self.values, direction, count))
    }

    /// The largest q with which the cutter may be placed at a pixel, none if it may not be with 0, by halving.
    fn most(&self, x: u16, y: u16) -> Option<u32> {
        let (mut passing, mut failing) = (None, 4_194_305);
        while failing > passing.map_or(0, |q| q + 1) {
            let middle = passing.map_or(0, |q: u32| q + (failing - q) / 2);
            match self.place(x, y, middle).0 {
                0 => passing = Some(middle),
                _ => failing = middle,
            }
        }
        passing
    }

    /// Asserts what is promised of a point of a step, and says whether it is nearer than q + 1.
    fn clear(&self, step: [(u16, u16); 2], q: u32, ratio: [u32; 2]) -> bool {
        let whole = u128::from(ratio[0]) + u128::from(ratio[1]);
        let Some(distance) = squared(&self.board.sheet, self.board.w, step, ratio) else { return false };
        assert!(whole.pow(2) * u128::from(q) < distance, "q {q}, {step:?} in the ratio {ratio:?}: {:?}", self.board);
        distance < whole.pow(2) * (u128::from(q) + 1)
    }
}

/// The steps of a run of `count` steps from a pixel, all of them on the sheet.
fn steps((x, y): (u16, u16), direction: u16, count: u16) -> impl Iterator<Item = [(u16, u16); 2]> {
    let (right, down) = STEPS[usize::from(direction)];
    let after = move |i: i32| ((i32::from(x) + i * right) as u16, (i32::from(y) + i * down) as u16);
    (0..i32::from(count)).map(move |i| [after(i), after(i + 1)])
}

/// Ratios of any size, at most one of the two numbers 0.
fn any_ratio(random: &mut Random) -> [u32; 2] {
    let most = [1, 3, 9, 1_000, u32::MAX][random.below(5) as usize];
    loop {
        let ratio = [0; 2].map(|_| random.below(u64::from(most) + 1) as u32);
        if ratio != [0, 0] {
            return ratio;
        }
    }
}

/// Runs of every engine, one after another from a pixel with the largest q that passes there or less, each followed along all its steps. By
/// every engine some points are nearer to copper than q + 1, so that no more than q can be promised.
fn random_runs<S: Calls>() {
    let mut random = Random::new(2_020);
    let (mut done, mut nearer) = ([0; 6], [0; 6]);
    for at in 0..36_000 {
        let (w, h) = (random.between(1, 14), random.between(1, 14));
        let board = boards::any(w, h, &mut random);
        let mapped = Mapped::<S>::new(&board, 1 + at as u16 % 6);
        let (x, y) = (random.below(w as u64) as u16, random.below(h as u64) as u16);
        let Some(most) = mapped.most(x, y) else { continue };
        let (answer, mut down) = mapped.place(x, y, most - (random.below(4) as u32).min(most));
        assert_eq!(answer, 0);
        for _ in 0..6 {
            let (direction, count) = (random.below(8) as u16, random.between(1, 6) as u16);
            let (answer, after) = mapped.run(down, direction, count);
            if answer == 0 {
                done[at % 6] += 1;
                for step in steps((down.x, down.y), direction, count) {
                    let ratios = [[1, 1], any_ratio(&mut random), any_ratio(&mut random)];
                    nearer[at % 6] += ratios.map(|ratio| u32::from(mapped.clear(step, down.q, ratio))).iter().sum::<u32>();
                }
            }
            down = after;
        }
    }
    assert!(done.iter().all(|&runs| runs > 4_000), "{done:?}");
    assert!(nearer.iter().all(|&points| points > 1_000), "{nearer:?}");
}

/// A diagonal step past copper that is as far from one end as from the other: half way a half is lost, and no more.
fn half_way<S: Calls>() {
    for (sides, from, copper, q) in [((2, 2), (0, 0), (1, 0), 0), ((7, 5), (3, 3), (6, 1), 12), ((41, 41), (20, 20), (40, 1), 760)] {
        let board = Board::with(sides.0, sides.1, &[copper]);
        let mapped = Mapped::<S>::new(&board, 1);
        let (answer, down) = mapped.place(from.0, from.1, q);
        assert_eq!((answer, mapped.place(from.0, from.1, q + 1).0), (0, 34));
        assert_eq!(mapped.run(down, 1, 1).0, 0);
        let step = [from, (from.0 + 1, from.1 + 1)];
        assert_eq!(squared(&board.sheet, board.w, step, [1, 1]), Some(4 * u128::from(q) + 2));
        assert!(mapped.clear(step, q, [1, 1]) && !mapped.clear(step, q, [0, 1]) && !mapped.clear(step, q, [1, 0]));
    }
}

/// One step in each direction, the first of a run and the last, past copper on every side.
fn every_direction<S: Calls>() {
    for copper in (0..49).filter(|&at| at != 24).map(|at| (at % 7, at / 7)) {
        let board = Board::with(7, 7, &[copper]);
        let mapped = Mapped::<S>::new(&board, 1);
        let q = mapped.most(3, 3).unwrap();
        for (direction, count) in (0..8).flat_map(|direction| (1..=3).map(move |count| (direction, count))) {
            for q in 0..=q {
                if mapped.run(mapped.place(3, 3, q).1, direction, count).0 == 0 {
                    for (step, m) in steps((3, 3), direction, count).flat_map(|step| (0..=8).map(move |m| (step, m))) {
                        mapped.clear(step, q, [m, 8 - m]);
                    }
                }
            }
        }
    }
}

/// Two pixels that are free, with copper between them: it takes the pixel between to see it, and the run is turned away.
fn copper_between<S: Calls>() {
    let board = Board::with(3, 1, &[(1, 0)]);
    assert_eq!(squared(&board.sheet, 3, [(0, 0), (2, 0)], [1, 1]), Some(0));
    for engine in 1..=6 {
        let mapped = Mapped::<S>::new(&board, engine);
        let down = [0, 2].map(|x| mapped.place(x, 0, 0));
        assert_eq!(down.map(|(answer, _)| answer), [0, 0]);
        assert_eq!(mapped.run(down[0].1, 0, 2).0, 34);
    }
}
