//! The exact map: every pixel's vector goes to its nearest copper pixel, among equals to the least column, then the least row.

use crate::nearest::square;
use crate::scans::UNLABELLED;

/// A copper pixel as a pixel sees it: its squared distance, its column and its row. The vector goes to the least of all.
type Seen = (u64, usize, usize);

/// The exact map of a sheet, by a look at every copper pixel from every pixel.
pub fn exact(sheet: &[u8], w: usize, h: usize) -> Vec<[i16; 2]> {
    assert_eq!(sheet.len(), w * h);
    let pixels = || (0..h).flat_map(|y| (0..w).map(move |x| (x, y)));
    let copper: Vec<_> = pixels().filter(|(x, y)| sheet[y * w + x] != 0).collect();
    pixels().map(|(x, y)| vector(x, y, copper.iter().map(|&(column, row)| seen(x, y, column, row)).min())).collect()
}

/// The exact map, faster: from each pixel outwards column by column, as long as a column is near enough to hold copper as near as the best
/// so far.
pub fn outwards(sheet: &[u8], w: usize, h: usize) -> Vec<[i16; 2]> {
    assert_eq!(sheet.len(), w * h);
    let copper: Vec<Vec<usize>> = (0..w).map(|column| (0..h).filter(|row| sheet[row * w + column] != 0).collect()).collect();
    let mut map = Vec::with_capacity(w * h);
    for y in 0..h {
        let rows: Vec<Option<usize>> = copper.iter().map(|rows| nearest_row(rows, y)).collect();
        map.extend((0..w).map(|x| vector(x, y, look_outwards(&rows, x, y))));
    }
    map
}

/// The exact map by the one of the two that is sooner done.
pub fn sooner(sheet: &[u8], w: usize, h: usize) -> Vec<[i16; 2]> {
    let copper = sheet.iter().filter(|&&byte| byte != 0).count();
    let few = copper <= 16 || copper * w * h <= 1 << 22;
    [outwards, exact][usize::from(few)](sheet, w, h)
}

/// The nearest to y of the rows in which a column has copper, which are in order; of two the upper.
fn nearest_row(rows: &[usize], y: usize) -> Option<usize> {
    let above = rows.partition_point(|&row| row < y);
    rows[above.saturating_sub(1)..].iter().take(2).copied().min_by_key(|row| row.abs_diff(y))
}

/// The nearest copper pixel of (x, y), if each column's nearest to row y is the one in `rows`.
fn look_outwards(rows: &[Option<usize>], x: usize, y: usize) -> Option<Seen> {
    let mut best: Option<Seen> = None;
    for apart in 0..rows.len() {
        if best.is_some_and(|(size, ..)| square(0, apart) > size) {
            break;
        }
        for column in [x.checked_sub(apart), Some(x + apart)].into_iter().flatten() {
            let Some(&Some(row)) = rows.get(column) else { continue };
            let found = seen(x, y, column, row);
            best = Some(best.map_or(found, |best| best.min(found)));
        }
    }
    best
}

fn seen(x: usize, y: usize, column: usize, row: usize) -> Seen {
    (square(column, x) + square(row, y), column, row)
}

/// The two numbers of the pixel (x, y) in the map.
fn vector(x: usize, y: usize, nearest: Option<Seen>) -> [i16; 2] {
    let along = |from: usize, to: usize| i16::try_from(to as i64 - from as i64).expect("16 bits");
    nearest.map_or(UNLABELLED, |(_, column, row)| [along(x, column), along(y, row)])
}

#[cfg(test)]
mod tests {
    use super::*;
    use crate::boards::{self, Board};
    use crate::nearest;
    use crate::random::Random;

    type Exact = fn(&[u8], usize, usize) -> Vec<[i16; 2]>;

    const BOTH: [Exact; 2] = [exact, outwards];

    /// The vector at (x, y) on a sheet with copper at the given pixels, by both.
    fn way((w, h): (usize, usize), copper: &[(usize, usize)], (x, y): (usize, usize)) -> [i16; 2] {
        let [first, second] = BOTH.map(|exact| exact(&Board::with(w, h, copper).sheet, w, h)[y * w + x]);
        assert_eq!(first, second);
        first
    }

    fn size([dx, dy]: [i16; 2]) -> u64 {
        square(dx.unsigned_abs().into(), 0) + square(dy.unsigned_abs().into(), 0)
    }

    #[test]
    fn m1() {
        let board = boards::document_01();
        for exact in BOTH {
            let map = exact(&board.sheet, 4, 4);
            assert_eq!(map[0], [2, 2]);
            assert_eq!(size(map[0]), 8);
        }
    }

    #[test]
    fn m5() {
        for exact in BOTH {
            assert_eq!(exact(&[1, 0, 0], 3, 1), [[0, 0], [-1, 0], [-2, 0]]);
        }
    }

    #[test]
    fn m6() {
        for exact in BOTH {
            assert_eq!(exact(&[1, 0, 1], 3, 1), [[0, 0], [-1, 0], [0, 0]]);
        }
    }

    #[test]
    fn no_copper() {
        for exact in BOTH {
            assert_eq!(exact(&[0; 6], 3, 2), [UNLABELLED; 6]);
            assert_eq!(exact(&[], 0, 5), exact(&[], 5, 0));
        }
    }

    #[test]
    fn arrow_head() {
        let board = boards::arrow_head();
        for exact in BOTH {
            assert_eq!(size(exact(&board.sheet, board.w, board.h)[0]), 169);
        }
    }

    /// Equals: the least column goes first, and only then the least row.
    #[test]
    fn equals() {
        assert_eq!(way((1, 3), &[(0, 0), (0, 2)], (0, 1)), [0, -1]);
        assert_eq!(way((3, 3), &[(1, 0), (0, 1), (2, 1), (1, 2)], (1, 1)), [-1, 0]);
        assert_eq!(way((3, 3), &[(1, 0), (2, 1), (1, 2)], (1, 1)), [0, -1]);
        assert_eq!(way((3, 3), &[(2, 0), (0, 2)], (1, 1)), [-1, 1]);
        assert_eq!(way((3, 3), &[(0, 0), (2, 0), (0, 2)], (1, 1)), [-1, -1]);
        // 5² + 0² = 3² + 4²
        assert_eq!(way((11, 11), &[(5, 0), (8, 1), (2, 9), (2, 1)], (5, 5)), [-3, -4]);
        assert_eq!(way((11, 11), &[(5, 0), (8, 1), (2, 9), (0, 5)], (5, 5)), [-5, 0]);
    }

    #[test]
    fn outwards_by_exact() {
        let mut random = Random::new(4);
        for _ in 0..20_000 {
            let (w, h) = (random.between(1, 12), random.between(1, 12));
            let board = boards::any(w, h, &mut random);
            assert_eq!(outwards(&board.sheet, w, h), exact(&board.sheet, w, h), "{board:?}");
        }
        for _ in 0..20 {
            let (w, h) = (random.between(1, 60), random.between(1, 60));
            for board in [boards::patterned(w, h, &mut random), boards::tracks(w, h, &mut random)] {
                let map = outwards(&board.sheet, w, h);
                assert_eq!(map, exact(&board.sheet, w, h), "{board:?}");
                let sizes = map.into_iter().map(|way| if way == UNLABELLED { None } else { Some(size(way)) });
                assert!(sizes.eq(nearest::all(&board.sheet, w, h)), "{board:?}");
            }
        }
    }

    /// The vector leads to the first pixel, in the order of columns, then rows, that is copper and at the true squared distance.
    #[test]
    fn exact_by_squared() {
        let mut random = Random::new(5);
        for _ in 0..2_000 {
            let (w, h) = (random.between(1, 9), random.between(1, 9));
            let board = boards::patterned(w, h, &mut random);
            for (at, &found) in exact(&board.sheet, w, h).iter().enumerate() {
                let e = nearest::squared(&board.sheet, w, h, at % w, at / w);
                let way = |column: usize, row: usize| [column as i16 - (at % w) as i16, row as i16 - (at / w) as i16];
                let copper = (0..w * h).map(|n| (n / h, n % h)).filter(|(column, row)| board.sheet[row * w + column] != 0);
                let first = copper.map(|(column, row)| way(column, row)).find(|&way| Some(size(way)) == e);
                assert_eq!(found, first.unwrap_or(UNLABELLED), "pixel {at} of {board:?}");
            }
        }
    }
}
