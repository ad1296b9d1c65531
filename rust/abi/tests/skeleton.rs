//! The library's skeleton and rebuild beside the model's, to the byte, on many thousand maps: exact ones and ones that belong to no sheet.

mod common;

use abi::session::{Reply, Session};
use common::{built, map_of, margin, Lent};
use model::boards::{self, Board};
use model::random::Random;
use model::scans::UNLABELLED;
use model::{exact, maps, skeleton};

/// A map to be tried, with the board for the message. The board's sheet is not always the map's.
struct Case<'a> {
    board: &'a Board,
    map: &'a [[i16; 2]],
}

impl Case<'_> {
    /// The bytes that a call writes. It is lent the map, which it must not write, and out holding anything. A map without a pixel of size 0
    /// is refused, and nothing is written.
    fn lent(&self, random: &mut Random, call: impl FnOnce(Session, &[i16], &mut [u8]) -> Reply) -> Vec<u8> {
        let pixels = self.map.len();
        let mut map = Lent::around(self.map.as_flattened(), margin(self.board), || random.next() as i16);
        let mut out = Lent::new(pixels, margin(self.board), || random.next() as u8);
        let answer = if maps::has_copper(self.map) { 0 } else { 37 };
        let session = built(self.board, 1);
        assert_eq!(call(session, map.slice(), out.slice()), Reply { answer, session }, "{self}");
        map.written(0, "map", self.board);
        if answer != 0 {
            out.written(0, "out", self.board);
        }
        out.written(pixels, "out", self.board).to_vec()
    }

    /// The library's skeleton.
    fn skeleton(&self, random: &mut Random) -> Vec<u8> {
        self.lent(random, |session, map, out| session.skeleton(map, out))
    }

    /// The library's rebuild. It must not write the marks.
    fn rebuild(&self, marks: &[u8], random: &mut Random) -> Vec<u8> {
        let mut lent = Lent::around(marks, margin(self.board), || random.next() as u8);
        let out = self.lent(random, |session, map, out| session.rebuild(map, lent.slice(), out));
        lent.written(0, "marks", self.board);
        out
    }

    /// The skeleton, rebuild from it, and rebuild from any marks, which must be the model's. Without copper both are refused.
    fn check(&self, random: &mut Random) {
        let &Board { w, h, .. } = self.board;
        let kept = self.skeleton(random);
        let some = any_marks(w * h, random);
        if !maps::has_copper(self.map) {
            self.rebuild(&some, random);
            return;
        }
        self.same("skeleton", &kept, &skeleton::skeleton(self.map, w, h));
        for marks in [kept, some] {
            let found = self.rebuild(&marks, random);
            self.same(
                &format!("rebuild of {:?}", Board { w, h, sheet: marks.clone() }),
                &found,
                &skeleton::rebuild(self.map, &marks, w, h),
            );
        }
    }

    /// The skeleton, which must be the model's.
    fn check_skeleton(&self, random: &mut Random) {
        assert!(maps::has_copper(self.map), "{self}");
        self.same("skeleton", &self.skeleton(random), &skeleton::skeleton(self.map, self.board.w, self.board.h));
    }

    fn same(&self, what: &str, found: &[u8], expected: &[u8]) {
        assert_eq!(found.len(), expected.len());
        if let Some(at) = (0..found.len()).find(|&at| found[at] != expected[at]) {
            panic!("{what} has {} at ({}, {}): {self}", found[at], at % self.board.w, at / self.board.w);
        }
    }

    /// The skeleton, which is handed back, covers exactly the bare part of the board.
    fn covers_the_bare(&self, random: &mut Random) -> Vec<u8> {
        let kept = self.skeleton(random);
        let bare: Vec<u8> = self.board.sheet.iter().map(|&byte| u8::from(byte == 0)).collect();
        self.same("rebuild of the skeleton", &self.rebuild(&kept, random), &bare);
        kept
    }
}

/// The map, if it is not large.
impl std::fmt::Display for Case<'_> {
    fn fmt(&self, f: &mut std::fmt::Formatter<'_>) -> std::fmt::Result {
        write!(f, "{} × {}", self.board.w, self.board.h)?;
        if self.map.len() <= 200 {
            self.map.chunks(self.board.w).try_for_each(|row| write!(f, "\n{row:?}"))?;
        }
        Ok(())
    }
}

/// Marks: none, everywhere, or any part. A mark is any byte that is not 0.
fn any_marks(pixels: usize, random: &mut Random) -> Vec<u8> {
    let per_mille = [0, 1_000, 20, 300, 700][random.below(5) as usize];
    let mut mark = || if random.below(1_000) < per_mille { 1 + random.below(255) as u8 } else { 0 };
    (0..pixels).map(|_| mark()).collect()
}

#[test]
fn small_exact_maps() {
    let mut random = Random::new(81);
    for _ in 0..20_000 {
        let (w, h) = (random.between(1, 12), random.between(1, 12));
        let board = boards::any(w, h, &mut random);
        let map = exact::exact(&board.sheet, w, h);
        Case { board: &board, map: &map }.check(&mut random);
    }
}

#[test]
fn small_any_maps() {
    let mut random = Random::new(82);
    for _ in 0..30_000 {
        let (w, h) = (random.between(1, 10), random.between(1, 10));
        for map in [maps::any_with_copper(w * h, &mut random), maps::any(w * h, &mut random)] {
            Case { board: &Board::bare(w, h), map: &map }.check(&mut random);
        }
    }
}

/// Two neighbours of every two sizes around what the tables hold, side by side and corner to corner: in a row, in a column, and in a square.
/// The copper behind them takes nothing off.
#[test]
fn every_pair() {
    let mut random = Random::new(83);
    let ways: Vec<[i16; 2]> = (0..=21).flat_map(|dx| (0..=dx).map(move |dy| [dx, -dy])).collect();
    let copper = [0, 0];
    for &first in &ways {
        for &second in &ways {
            for (w, h) in [(3, 1), (1, 3)] {
                Case { board: &Board::bare(w, h), map: &[first, second, copper] }.check_skeleton(&mut random);
            }
            for [a, b, c, d] in [[first, UNLABELLED, UNLABELLED, second], [UNLABELLED, first, second, UNLABELLED]] {
                Case { board: &Board::bare(2, 3), map: &[a, b, c, d, copper, copper] }.check_skeleton(&mut random);
            }
        }
    }
}

#[test]
fn lines() {
    let mut random = Random::new(84);
    for _ in 0..100 {
        let n = random.between(1, 600);
        for (w, h) in [(n, 1), (1, n), (n, 2), (2, n)] {
            let board = boards::any(w, h, &mut random);
            Case { board: &board, map: &exact::exact(&board.sheet, w, h) }.check(&mut random);
            Case { board: &board, map: &maps::any_with_copper(w * h, &mut random) }.check(&mut random);
        }
    }
}

#[test]
fn medium() {
    let mut random = Random::new(85);
    for _ in 0..60 {
        let (w, h) = (random.between(2, 48), random.between(2, 48));
        for board in [boards::tracks(w, h, &mut random), boards::any(w, h, &mut random)] {
            Case { board: &board, map: &map_of(&board, 1, &mut random) }.check(&mut random);
            Case { board: &board, map: &maps::any_with_copper(w * h, &mut random) }.check(&mut random);
        }
    }
}

/// The longest sides: one mark whose disk goes on and on, and the skeleton against the model.
#[test]
fn longest() {
    let mut random = Random::new(86);
    for (w, h) in [(2_048, 3), (3, 2_048)] {
        let board = boards::any(w, h, &mut random);
        for way in [[2_047, 1], [1_023, 0], [-32_768, 0], [-32_768, -32_767], UNLABELLED] {
            let at = random.between(0, w * h - 1);
            let mut map = map_of(&board, 1, &mut random);
            map[at] = way;
            map[(at + 1) % (w * h)] = [0, 0];
            let mut marks = vec![0; w * h];
            marks[at] = 200;
            let case = Case { board: &board, map: &map };
            case.check_skeleton(&mut random);
            case.same("rebuild", &case.rebuild(&marks, &mut random), &skeleton::rebuild(&map, &marks, w, h));
        }
    }
}

/// What the skeleton of an exact map covers is the bare part of the sheet, and no more, also where sizes pass 400.
#[test]
fn covers_the_bare() {
    let mut random = Random::new(87);
    for turn in 0..3_000 {
        let most = if turn % 10 == 0 { 100 } else { 30 };
        let (w, h) = (random.between(1, most), random.between(1, most));
        let mut board = boards::any(w, h, &mut random);
        board.sheet[random.between(0, w * h - 1)] = 1;
        Case { board: &board, map: &map_of(&board, 1, &mut random) }.covers_the_bare(&mut random);
    }
    for copper in 1..=40 {
        let board = boards::sprinkled(100, 100, copper, &mut random);
        let map = map_of(&board, 1, &mut random);
        let kept = Case { board: &board, map: &map }.covers_the_bare(&mut random);
        let most = map.iter().map(|&way| skeleton::size(way)).max();
        assert!(copper > 20 || most > Some(400), "no size above 400: {board:?}");
        assert!(kept.iter().zip(&map).all(|(&kept, &way)| skeleton::size(way) <= 400 || kept == 1), "{board:?}");
    }
    for board in [boards::tracks(700, 500, &mut random), boards::random(500, 700, 1, &mut random), boards::diagonal(512, 512)] {
        let map = map_of(&board, 1, &mut random);
        let case = Case { board: &board, map: &map };
        let kept = case.covers_the_bare(&mut random);
        case.same("skeleton", &kept, &skeleton::skeleton(&map, board.w, board.h));
    }
}

/// On the largest sheet with one copper pixel next to all pixels are marked, and their disks go far.
#[test]
fn largest() {
    let mut random = Random::new(88);
    for place in [(0, 0), (1_024, 1_000)] {
        let board = Board::with(2_048, 2_048, &[place]);
        Case { board: &board, map: &map_of(&board, 1, &mut random) }.covers_the_bare(&mut random);
    }
}

/// With nothing but copper, or nothing but it and unlabelled pixels, there is nothing to keep and nothing to cover; without copper both calls
/// are refused.
#[test]
fn all_alike() {
    let mut random = Random::new(89);
    for (w, h) in [(7, 5), (2_048, 100), (100, 2_048)] {
        let mut unlabelled = vec![UNLABELLED; w * h];
        Case { board: &Board::bare(w, h), map: &unlabelled }.check(&mut random);
        unlabelled[random.between(0, w * h - 1)] = [0, 0];
        for map in [unlabelled, vec![[0, 0]; w * h]] {
            let case = Case { board: &Board::bare(w, h), map: &map };
            case.same("skeleton", &case.skeleton(&mut random), &vec![0; w * h]);
            case.same("rebuild", &case.rebuild(&vec![255; w * h], &mut random), &vec![0; w * h]);
        }
    }
}

#[test]
fn m7() {
    let mut random = Random::new(90);
    let board = boards::m7();
    let case = Case { board: &board, map: &map_of(&board, 1, &mut random) };
    let kept = case.skeleton(&mut random);
    assert_eq!(kept, [0, 0, 1, 0, 0]);
    assert_eq!(case.rebuild(&kept, &mut random), [0, 1, 1, 1, 0]);
}

/// M8 by neighbours of size 25 and 16: what they make superfluous, and one more.
#[test]
fn m8() {
    let mut random = Random::new(91);
    let mut kept = |map: &[[i16; 2]], w: usize, h: usize| Case { board: &Board::bare(w, h), map }.skeleton(&mut random);
    assert_eq!(kept(&[[5, 0], [4, 0], [0, 0]], 3, 1), [1, 0, 0]);
    assert_eq!(kept(&[[4, 0], [0, 3], [0, 0]], 1, 3), [1, 0, 0]);
    assert_eq!(kept(&[[5, 0], [4, 1], [0, 0]], 3, 1), [1, 1, 0]);
    let mut corners = |first: [i16; 2], second: [i16; 2]| kept(&[first, [0, 0], [0, 0], second], 2, 2);
    assert_eq!(corners([3, 4], [2, 3]), [1, 0, 0, 0]);
    assert_eq!(corners([4, 0], [2, 2]), [1, 0, 0, 0]);
    assert_eq!(corners([4, 0], [3, 0]), [1, 0, 0, 1]);
}
