//! The two scans, 8SED and 4SED, step by step as document 01 tells them, with document 02's rule for equal sizes (C-16).

/// An unlabelled pixel in a finished map.
pub const UNLABELLED: [i16; 2] = [-32_768; 2];

/// A way from a pixel to a copper pixel, dx and dy.
pub type Way = (i64, i64);

/// Says whether a candidate, the second way, replaces the present one, the first.
pub type Rule = fn(Way, Way) -> bool;

/// A map at work: the way of each pixel, none where the pixel is unlabelled.
struct Map {
    w: i64,
    h: i64,
    rule: Rule,
    ways: Vec<Option<Way>>,
}

/// The map that 8SED (with `corners`) or 4SED (without) builds of a sheet.
pub fn scan(sheet: &[u8], w: usize, h: usize, corners: bool) -> Vec<[i16; 2]> {
    scan_by(replaces, sheet, w, h, corners)
}

/// The map that it builds by a rule.
pub fn scan_by(rule: Rule, sheet: &[u8], w: usize, h: usize, corners: bool) -> Vec<[i16; 2]> {
    assert_eq!(sheet.len(), w * h);
    let start = sheet.iter().map(|&byte| if byte == 0 { None } else { Some((0, 0)) });
    let mut map = Map { w: w as i64, h: h as i64, rule, ways: start.collect() };
    for y in 0..map.h {
        map.row(y, -1, corners);
    }
    for y in (0..map.h).rev() {
        map.row(y, 1, corners);
    }
    map.ways.into_iter().map(numbers).collect()
}

/// Size of a way.
fn size((dx, dy): Way) -> i64 {
    dx * dx + dy * dy
}

/// Whether a candidate replaces the present way: a smaller one does, and one of equal size if its dx is larger in magnitude. Otherwise the
/// present one stays.
fn replaces(present: Way, candidate: Way) -> bool {
    size(candidate) < size(present) || size(candidate) == size(present) && candidate.0.abs() > present.0.abs()
}

/// Other rules for equal sizes: no candidate replaces, every one does, one whose dx is smaller in magnitude, or larger with its sign. A
/// test that is to show document 02's rule needs boards of which each of these gives another map.
pub const OTHER_RULES: [Rule; 4] = [
    |present, candidate| size(candidate) < size(present),
    |present, candidate| size(candidate) <= size(present),
    |present, candidate| (size(candidate), candidate.0.abs()) < (size(present), present.0.abs()),
    |present, candidate| (size(candidate), -candidate.0) < (size(present), -present.0),
];

/// The two numbers of a pixel in a finished map.
fn numbers(way: Option<Way>) -> [i16; 2] {
    match way {
        None => UNLABELLED,
        Some((dx, dy)) => [dx as i16, dy as i16],
    }
}

impl Map {
    /// One row of a scan: from the row at `dy` (the row above is −1, the row below 1), then left to right, then right to left.
    fn row(&mut self, y: i64, dy: i64, corners: bool) {
        for x in 0..self.w {
            if corners {
                self.candidate(x, y, -1, dy);
            }
            self.candidate(x, y, 0, dy);
            if corners {
                self.candidate(x, y, 1, dy);
            }
        }
        for x in 0..self.w {
            self.candidate(x, y, -1, 0);
        }
        for x in (0..self.w).rev() {
            self.candidate(x, y, 1, 0);
        }
    }

    /// Offers the pixel (x, y) the candidate of its neighbour at (x + dx, y + dy). There is none if that is off the sheet or unlabelled. An
    /// unlabelled pixel takes any, another goes by the rule.
    fn candidate(&mut self, x: i64, y: i64, dx: i64, dy: i64) {
        let Some(neighbour) = self.way(x + dx, y + dy) else { return };
        let candidate = (neighbour.0 + dx, neighbour.1 + dy);
        if self.way(x, y).is_none_or(|present| (self.rule)(present, candidate)) {
            self.ways[(y * self.w + x) as usize] = Some(candidate);
        }
    }

    /// The way that stands at (x, y): none off the sheet or if the pixel is unlabelled.
    fn way(&self, x: i64, y: i64) -> Option<Way> {
        if (0..self.w).contains(&x) && (0..self.h).contains(&y) {
            self.ways[(y * self.w + x) as usize]
        } else {
            None
        }
    }
}

#[cfg(test)]
mod tests {
    use super::*;
    use crate::boards::{self, Board};

    fn size_at(map: &[[i16; 2]], at: usize) -> i64 {
        size((map[at][0].into(), map[at][1].into()))
    }

    #[test]
    fn m1() {
        let board = boards::document_01();
        let four = scan(&board.sheet, 4, 4, false);
        assert_eq!(four[0], [3, 0]);
        assert_eq!(size_at(&four, 0), 9);
        assert_eq!(size_at(&scan(&board.sheet, 4, 4, true), 0), 8);
    }

    #[test]
    fn m5() {
        for corners in [false, true] {
            assert_eq!(scan(&[1, 0, 0], 3, 1, corners), [[0, 0], [-1, 0], [-2, 0]]);
        }
    }

    #[test]
    fn c16() {
        for corners in [false, true] {
            assert_eq!(scan(&boards::c16().sheet, 2, 2, corners), [[1, 0], [0, 0], [0, 0], [-1, 0]]);
        }
    }

    #[test]
    fn one_column() {
        for corners in [false, true] {
            assert_eq!(scan(&[0, 0, 9], 1, 3, corners), [[0, 2], [0, 1], [0, 0]]);
        }
    }

    #[test]
    fn no_copper() {
        for corners in [false, true] {
            assert_eq!(scan(&[0; 6], 3, 2, corners), [UNLABELLED; 6]);
        }
    }

    #[test]
    fn arrow_head() {
        let board = boards::arrow_head();
        let map = scan(&board.sheet, board.w, board.h, true);
        assert_eq!(map[0], [13, 1]);
        assert_eq!(size_at(&map, 0), 170);
    }

    /// The vector at (x, y) by a rule, on a sheet with copper at the given pixels.
    fn way_by(rule: Rule, corners: bool, (w, h): (usize, usize), copper: &[(usize, usize)], (x, y): (usize, usize)) -> [i16; 2] {
        scan_by(rule, &Board::with(w, h, copper).sheet, w, h, corners)[y * w + x]
    }

    /// Boards on which another order would end with another vector at the pixel. Most have a pair of copper pixels that are equally far, to
    /// the left and to the right or above and below, and what comes first decides.
    #[test]
    fn order() {
        let way = |corners, sides, copper: &[_], pixel| way_by(replaces, corners, sides, copper, pixel);
        for corners in [false, true] {
            // left to right before right to left, scan one before scan two
            assert_eq!(way(corners, (3, 1), &[(0, 0), (2, 0)], (1, 0)), [-1, 0]);
            assert_eq!(way(corners, (1, 3), &[(0, 0), (0, 2)], (0, 1)), [0, -1]);
        }
        // left to right first in scan two as well, where the pixel below has neither of the pair
        assert_eq!(way(false, (5, 3), &[(0, 1), (4, 1), (3, 2)], (2, 0)), [-2, 1]);
        assert_eq!(way(true, (9, 4), &[(0, 1), (8, 1), (1, 3), (7, 3)], (4, 0)), [-4, 1]);
        // the row above or below before the row itself
        assert_eq!(way(false, (3, 4), &[(1, 0), (0, 1), (0, 3)], (2, 2)), [-2, -1]);
        assert_eq!(way(false, (3, 3), &[(0, 1), (1, 2)], (2, 0)), [-2, 1]);
        assert_eq!(way(true, (5, 5), &[(1, 0), (0, 2), (0, 4)], (4, 3)), [-4, -1]);
        assert_eq!(way(true, (5, 4), &[(0, 1), (1, 3)], (4, 0)), [-4, 1]);
        // upper left before upper right, lower left before lower right
        assert_eq!(way(true, (3, 2), &[(0, 0), (2, 0)], (1, 1)), [-1, -1]);
        assert_eq!(way(true, (3, 2), &[(0, 1), (2, 1)], (1, 0)), [-1, 1]);
        // upper left before above, and lower left before below, which has the right one of the pair
        assert_eq!(way(true, (9, 5), &[(0, 2), (8, 2), (1, 0)], (4, 4)), [-4, -2]);
        assert_eq!(way(true, (9, 5), &[(0, 2), (8, 2), (1, 4)], (4, 0)), [-4, 2]);
        // above before upper right, and below before lower right, where the pixel to the left of these has neither
        assert_eq!(way(true, (5, 5), &[(2, 0), (4, 0), (0, 1)], (3, 4)), [-1, -4]);
        assert_eq!(way(true, (5, 5), &[(2, 4), (4, 4), (0, 3)], (3, 0)), [-1, 4]);
    }

    /// Boards with candidates of equal size: the vector at the pixel, and those that the other rules would leave there.
    #[test]
    fn equal_sizes() {
        for corners in [false, true] {
            let check = |sides, copper: &[_], pixel, expected, others| {
                assert_eq!(way_by(replaces, corners, sides, copper, pixel), expected);
                assert_eq!(OTHER_RULES.map(|rule| way_by(rule, corners, sides, copper, pixel)), others);
            };
            // document 02's board: at (1, 1) a larger dx replaces, at (0, 0) a smaller one does not
            check((2, 2), &[(1, 0), (0, 1)], (1, 1), [-1, 0], [[0, -1], [-1, 0], [0, -1], [0, -1]]);
            check((2, 2), &[(1, 0), (0, 1)], (0, 0), [1, 0], [[1, 0], [1, 0], [0, 1], [1, 0]]);
            // its mirror image: the larger dx is to the right
            check((2, 2), &[(0, 0), (1, 1)], (0, 1), [1, 0], [[0, -1], [1, 0], [0, -1], [1, 0]]);
            // of two dx that are equal in magnitude the present one stays
            check((3, 1), &[(0, 0), (2, 0)], (1, 0), [-1, 0], [[-1, 0], [1, 0], [-1, 0], [1, 0]]);
            check((1, 3), &[(0, 0), (0, 2)], (0, 1), [0, -1], [[0, -1], [0, 1], [0, -1], [0, -1]]);
            // no component is 0, in scan one and in scan two: 2² + 1² = 1² + 2²
            check((3, 3), &[(1, 0), (0, 1)], (2, 2), [-2, -1], [[-1, -2], [-2, -1], [-1, -2], [-1, -2]]);
            check((3, 3), &[(2, 1), (1, 2)], (0, 0), [2, 1], [[1, 2], [2, 1], [1, 2], [2, 1]]);
        }
    }
}
