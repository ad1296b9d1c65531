//! Expand and shrink: what a sheet holds afterwards.

use crate::scans::UNLABELLED;
use crate::{boards, exact, nearest, skeleton::size};
use std::ops::Range;

/// A place, on the sheet or off it.
type Place = (i64, i64);

/// The sheet expanded by q: a pixel is copper if its true squared distance is at most q. Without copper that is above every number.
pub fn expand(sheet: &[u8], w: usize, h: usize, q: u32) -> Vec<u8> {
    let near = |at: usize| nearest::squared(sheet, w, h, at % w, at / w).is_some_and(|e| e <= u64::from(q));
    (0..w * h).map(|at| u8::from(near(at))).collect()
}

/// The sheet shrunk by q: copper stays where every place without copper, on the sheet or off it, is at squared distance above q.
pub fn shrink(sheet: &[u8], w: usize, h: usize, q: u32) -> Vec<u8> {
    assert_eq!(sheet.len(), w * h);
    let (w, h) = (w as i64, h as i64);
    let copper = |(x, y): Place| (0..w).contains(&x) && (0..h).contains(&y) && sheet[(y * w + x) as usize] != 0;
    // a frame of one place around the sheet is enough: a place beyond it is farther from every pixel than the frame's place nearest to it
    let bare: Vec<Place> = places(-1..w + 1, -1..h + 1).filter(|&place| !copper(place)).collect();
    let apart = |(x, y): Place, (column, row): Place| (x - column).pow(2) + (y - row).pow(2);
    let stays = |pixel: Place| copper(pixel) && bare.iter().all(|&bare| apart(pixel, bare) > q.into());
    places(0..w, 0..h).map(|pixel| u8::from(stays(pixel))).collect()
}

/// The places of a rectangle, in rows from the top.
fn places(columns: Range<i64>, rows: Range<i64>) -> impl Iterator<Item = Place> {
    rows.flat_map(move |y| columns.clone().map(move |x| (x, y)))
}

/// The sheet expanded by q, faster: by the exact map.
pub fn expand_by_map(sheet: &[u8], w: usize, h: usize, q: u32) -> Vec<u8> {
    let near = |way: [i16; 2]| way != UNLABELLED && size(way) <= u64::from(q);
    exact::sooner(sheet, w, h).into_iter().map(|way| u8::from(near(way))).collect()
}

/// The sheet shrunk by q, faster: by the exact map of its bare part and a frame of one place around it, which ends a look outwards soon.
pub fn shrink_by_map(sheet: &[u8], w: usize, h: usize, q: u32) -> Vec<u8> {
    assert_eq!(sheet.len(), w * h);
    let copper = |x: usize, y: usize| (1..=w).contains(&x) && (1..=h).contains(&y) && sheet[(y - 1) * w + x - 1] != 0;
    let bare = boards::drawn(w + 2, h + 2, |x, y| !copper(x, y));
    let map = exact::outwards(&bare.sheet, w + 2, h + 2);
    let way = |at: usize| map[(at / w + 1) * (w + 2) + at % w + 1];
    (0..w * h).map(|at| u8::from(size(way(at)) > u64::from(q))).collect()
}

#[cfg(test)]
mod tests {
    use super::*;
    use crate::boards::Board;
    use crate::random::Random;

    /// The greatest q.
    const LIMIT: u32 = 4_194_304;

    type Resize = fn(&[u8], usize, usize, u32) -> Vec<u8>;

    const EXPANDS: [Resize; 2] = [expand, expand_by_map];
    const SHRINKS: [Resize; 2] = [shrink, shrink_by_map];

    #[test]
    fn one_row() {
        for expand in EXPANDS {
            assert_eq!(expand(&[0, 0, 0, 9, 0], 5, 1, 0), [0, 0, 0, 1, 0]);
            assert_eq!(expand(&[0, 0, 0, 9, 0], 5, 1, 1), [0, 0, 1, 1, 1]);
            assert_eq!(expand(&[0, 0, 0, 9, 0], 5, 1, 3), [0, 0, 1, 1, 1]);
            assert_eq!(expand(&[0, 0, 0, 9, 0], 5, 1, 4), [0, 1, 1, 1, 1]);
        }
        for shrink in SHRINKS {
            assert_eq!(shrink(&[5, 1, 1, 1, 0], 5, 1, 0), [1, 1, 1, 1, 0]);
            assert_eq!(shrink(&[5, 1, 1, 1, 0], 5, 1, 1), [0; 5]);
        }
    }

    /// Corners are at squared distance 2.
    #[test]
    fn corners() {
        for expand in EXPANDS {
            assert_eq!(expand(&[0, 0, 0, 0, 1, 0, 0, 0, 0], 3, 3, 1), [0, 1, 0, 1, 1, 1, 0, 1, 0]);
            assert_eq!(expand(&[0, 0, 0, 0, 1, 0, 0, 0, 0], 3, 3, 2), [1; 9]);
        }
        let hole = boards::drawn(5, 5, |x, y| (x, y) != (2, 2));
        for shrink in SHRINKS {
            assert_eq!(shrink(&hole.sheet, 5, 5, 1), Board::with(5, 5, &[(1, 1), (3, 1), (1, 3), (3, 3)]).sheet);
            assert_eq!(shrink(&hole.sheet, 5, 5, 2), [0; 25]);
        }
    }

    #[test]
    fn c14() {
        let board = boards::c14();
        for shrink in SHRINKS {
            assert_eq!(shrink(&board.sheet, 3, 3, 0), [1; 9]);
            assert_eq!(shrink(&board.sheet, 3, 3, 1), [0, 0, 0, 0, 1, 0, 0, 0, 0]);
        }
    }

    /// Without a bare pixel the nearest place off the sheet counts, which lies straight across one of its sides.
    #[test]
    fn rim() {
        for (w, h) in (1..8).flat_map(|w| (1..8).map(move |h| (w, h))) {
            for q in (0..20).chain([LIMIT]) {
                let steps = |x: usize, y: usize| (x + 1).min(w - x).min(y + 1).min(h - y);
                let rest = boards::drawn(w, h, |x, y| steps(x, y).pow(2) > q as usize);
                for shrink in SHRINKS {
                    assert_eq!(shrink(&vec![7; w * h], w, h, q), rest.sheet, "{w} × {h} by {q}");
                }
            }
        }
    }

    /// Copper in a corner of the largest sheet.
    #[test]
    fn largest() {
        let board = boards::drawn(2_048, 2_048, |x, y| x > 2_044 && y > 2_044);
        let rest = Board::with(2_048, 2_048, &[(2_046, 2_046)]);
        assert!(shrink_by_map(&board.sheet, 2_048, 2_048, 1) == rest.sheet);
    }

    /// Without copper nothing is near, and nothing is there to shrink.
    #[test]
    fn nothing_to_go_by() {
        for q in [0, 1, LIMIT] {
            for resize in EXPANDS.into_iter().chain(SHRINKS) {
                assert_eq!(resize(&[0; 6], 3, 2, q), [0; 6]);
                assert!(resize(&[], 0, 5, q).is_empty() && resize(&[], 5, 0, q).is_empty());
            }
            for expand in EXPANDS {
                assert_eq!(expand(&[7; 6], 3, 2, q), [1; 6]);
            }
        }
    }

    #[test]
    fn by_map_as_by_distance() {
        let mut random = Random::new(61);
        for _ in 0..5_000 {
            let (w, h) = (random.between(1, 12), random.between(1, 12));
            let board = boards::any(w, h, &mut random);
            let q = [random.below(30), random.below((w * w + h * h) as u64)][random.below(2) as usize] as u32;
            for board in [board.turned_round(&mut random), board] {
                assert_eq!(expand(&board.sheet, w, h, q), expand_by_map(&board.sheet, w, h, q), "q {q}: {board:?}");
                assert_eq!(shrink(&board.sheet, w, h, q), shrink_by_map(&board.sheet, w, h, q), "q {q}: {board:?}");
            }
        }
    }
}
