//! Points between two pixels: document 02, C-20.

/// The squared distance to the nearest copper of the point that divides the way from one pixel to another in the ratio m : n. It is
/// (m + n)² times as large as it would be, so that it is a whole number. None without copper.
///
/// # Panics
///
/// If m and n are both 0: there is no such point.
pub fn squared(sheet: &[u8], w: usize, [from, to]: [(u16, u16); 2], [m, n]: [u32; 2]) -> Option<u128> {
    assert!((m, n) != (0, 0));
    let [m, n] = [m, n].map(i128::from);
    // how far the point is from a copper pixel along one line
    let off = |from: u16, to: u16, copper: usize| (m + n) * copper as i128 - n * i128::from(from) - m * i128::from(to);
    let copper = (0..sheet.len()).filter(|&at| sheet[at] != 0).map(|at| (at % w, at / w));
    copper.map(|(x, y)| (off(from.0, to.0, x).pow(2) + off(from.1, to.1, y).pow(2)) as u128).min()
}

#[cfg(test)]
mod tests {
    use super::*;
    use crate::boards::{self, Board};
    use crate::nearest;
    use crate::random::Random;

    /// At either end it is the distance of a pixel, whatever the other number is.
    #[test]
    fn ends() {
        let mut random = Random::new(2_000);
        for _ in 0..300 {
            let (w, h) = (random.between(1, 9), random.between(1, 9));
            let board = boards::any(w, h, &mut random);
            let [from, to] = [0; 2].map(|_| (random.below(w as u64) as u16, random.below(h as u64) as u16));
            let number = 1 + random.below(u32::MAX.into()) as u32;
            for (ratio, (x, y)) in [([0, number], from), ([number, 0], to)] {
                let distance = nearest::squared(&board.sheet, w, h, x.into(), y.into());
                let times = u128::from(number).pow(2);
                assert_eq!(squared(&board.sheet, w, [from, to], ratio), distance.map(|e| times * u128::from(e)), "{board:?}");
            }
        }
    }

    /// In the middle of a diagonal step a half is lost, of a straight one a quarter, and of two straight ones all.
    #[test]
    fn middles() {
        let sheet = Board::with(3, 2, &[(1, 0)]).sheet;
        for (to, middle) in [((1, 1), 2), ((0, 1), 5), ((2, 0), 0)] {
            assert_eq!(squared(&sheet, 3, [(0, 0), to], [1, 1]), Some(middle), "{to:?}");
        }
        assert_eq!(squared(&[0; 6], 3, [(0, 0), (1, 1)], [1, 1]), None);
    }

    /// A third of the way from (0, 0) to (3, 3) is (1, 1), however the ratio is written.
    #[test]
    fn ratios() {
        let sheet = Board::with(4, 4, &[(3, 0)]).sheet;
        for times in [1, 2, 1_000, 2_000_000_000] {
            assert_eq!(squared(&sheet, 4, [(0, 0), (3, 3)], [times, 2 * times]), Some(5 * (3 * u128::from(times)).pow(2)));
        }
    }
}
