//! True squared distances.

/// The true squared distance of the pixel (x, y), the least size over all copper pixels. None without copper.
pub fn squared(sheet: &[u8], w: usize, h: usize, x: usize, y: usize) -> Option<u64> {
    assert!(sheet.len() == w * h && x < w && y < h);
    (0..w * h).filter(|&at| sheet[at] != 0).map(|at| square(at % w, x) + square(at / w, y)).min()
}

/// The true squared distances of all pixels, faster: of each column only the copper nearest to the row matters.
pub fn all(sheet: &[u8], w: usize, h: usize) -> Vec<Option<u64>> {
    assert_eq!(sheet.len(), w * h);
    let mut found = Vec::with_capacity(w * h);
    for y in 0..h {
        let columns: Vec<_> = (0..w).filter_map(|column| Some((column, in_column(sheet, w, h, column, y)?))).collect();
        found.extend((0..w).map(|x| columns.iter().map(|&(column, up)| square(column, x) + up).min()));
    }
    found
}

/// The squared distance from row y to the nearest copper of a column.
fn in_column(sheet: &[u8], w: usize, h: usize, column: usize, y: usize) -> Option<u64> {
    (0..h).filter(|row| sheet[row * w + column] != 0).map(|row| square(row, y)).min()
}

/// The square of the difference of two coordinates.
pub(crate) fn square(from: usize, to: usize) -> u64 {
    let apart = from.abs_diff(to) as u64;
    apart * apart
}

#[cfg(test)]
mod tests {
    use super::*;
    use crate::{boards, random::Random};

    #[test]
    fn arrow_head() {
        let board = boards::arrow_head();
        assert_eq!(squared(&board.sheet, board.w, board.h, 0, 0), Some(169));
    }

    #[test]
    fn no_copper() {
        assert_eq!(squared(&[0; 6], 3, 2, 1, 1), None);
        assert_eq!(all(&[0; 6], 3, 2), [None; 6]);
    }

    #[test]
    fn all_by_squared() {
        let mut random = Random::new(3);
        for _ in 0..2_000 {
            let (w, h) = (1 + random.below(12) as usize, 1 + random.below(12) as usize);
            let per_mille = [0, 10, 50, 200, 500, 1_000][random.below(6) as usize];
            let board = boards::random(w, h, per_mille, &mut random);
            let found = all(&board.sheet, w, h);
            for (at, &e) in found.iter().enumerate() {
                assert_eq!(e, squared(&board.sheet, w, h, at % w, at / w), "pixel {at} of {board:?}");
            }
        }
    }
}
