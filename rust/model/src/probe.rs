//! Probing points (document 02, C-19): the true squared distance of each, and in how many different rows they lie.

use crate::nearest::square;
use std::collections::BTreeSet;

/// The number that stands for a distance on a sheet without copper.
pub const NO_COPPER: u32 = u32::MAX;

/// The true squared distances of points, x then y, by a look at every copper pixel from each.
pub fn distances(sheet: &[u8], w: usize, points: &[[u16; 2]]) -> Vec<u32> {
    let copper: Vec<usize> = (0..sheet.len()).filter(|&at| sheet[at] != 0).collect();
    let apart = |[x, y]: [u16; 2], at: usize| square(at % w, x.into()) + square(at / w, y.into());
    points.iter().map(|&point| number(copper.iter().map(|&at| apart(point, at)).min())).collect()
}

/// In how many different rows points lie.
pub fn rows(points: &[[u16; 2]]) -> u32 {
    let rows: BTreeSet<u16> = points.iter().map(|&[_, y]| y).collect();
    rows.len() as u32
}

/// A true squared distance as a probe writes it.
pub fn number(distance: Option<u64>) -> u32 {
    distance.map_or(NO_COPPER, |e| u32::try_from(e).ok().filter(|&e| e != NO_COPPER).expect("below 4,294,967,295"))
}

#[cfg(test)]
mod tests {
    use super::*;
    use crate::boards::{self, Board};
    use crate::random::Random;
    use crate::{nearest, points};

    /// The distances of points on a sheet with copper at the given pixels.
    fn probed((w, h): (usize, usize), copper: &[(usize, usize)], points: &[[u16; 2]]) -> Vec<u32> {
        distances(&Board::with(w, h, copper).sheet, w, points)
    }

    #[test]
    fn document_01() {
        let board = boards::document_01();
        let points = [[0, 0], [3, 0], [1, 1], [3, 1], [0, 2], [3, 3]];
        assert_eq!((distances(&board.sheet, 4, &points), rows(&points)), (vec![8, 0, 2, 1, 1, 2], 4));
    }

    /// Equal points have equal distances, and all of them one row.
    #[test]
    fn equal_points() {
        let points = [[4, 2]; 5];
        assert_eq!((probed((7, 5), &[(1, 0), (6, 4)], &points), rows(&points)), (vec![8; 5], 1));
    }

    /// In one row the columns may come in any order.
    #[test]
    fn one_row() {
        let points = [[4, 1], [0, 1], [2, 1], [4, 1], [1, 1]];
        assert_eq!((probed((5, 3), &[(0, 1), (4, 2)], &points), rows(&points)), (vec![1, 0, 4, 1, 1], 1));
    }

    #[test]
    fn no_copper() {
        assert_eq!(probed((3, 2), &[], &[[0, 0], [2, 1]]), [4_294_967_295; 2]);
    }

    #[test]
    fn no_points() {
        assert_eq!((probed((3, 2), &[(1, 1)], &[]), rows(&[])), (vec![], 0));
    }

    /// Copper in the middle of a sheet, seen from its corners and from the middle of its sides.
    #[test]
    fn edges_and_corners() {
        let points = [[0, 0], [3, 0], [6, 0], [0, 2], [6, 2], [0, 4], [3, 4], [6, 4]];
        assert_eq!((probed((7, 5), &[(3, 2)], &points), rows(&points)), (vec![13, 4, 13, 9, 9, 13, 4, 13], 3));
    }

    /// From corner to corner of the largest sheet, and along its sides: 2,047² is 4,190,209.
    #[test]
    fn largest() {
        let points = [[0, 0], [2_047, 0], [0, 2_047], [2_047, 2_047]];
        assert_eq!(probed((2_048, 2_048), &[(0, 0)], &points), [0, 4_190_209, 4_190_209, 8_380_418]);
        assert_eq!(probed((2_048, 2_048), &[(2_047, 0)], &points), [4_190_209, 0, 8_380_418, 4_190_209]);
    }

    #[test]
    fn by_squared() {
        let mut random = Random::new(9);
        for _ in 0..5_000 {
            let (w, h) = (random.between(1, 12), random.between(1, 12));
            let board = boards::any(w, h, &mut random);
            let points = points::any(w as u16, h as u16, &mut random);
            let (points, _) = points.as_chunks();
            let squared = |&[x, y]: &[u16; 2]| number(nearest::squared(&board.sheet, w, h, x.into(), y.into()));
            assert!(points.iter().map(squared).eq(distances(&board.sheet, w, points)), "{points:?}: {board:?}");
        }
    }
}
