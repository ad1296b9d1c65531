//! Skeleton and rebuild of any map, whether or not it belongs to a sheet.

use crate::nearest::square;
use crate::scans::UNLABELLED;
use std::sync::LazyLock;

/// Size of a vector.
pub fn size([dx, dy]: [i16; 2]) -> u64 {
    square(dx.unsigned_abs().into(), 0) + square(dy.unsigned_abs().into(), 0)
}

/// The least (h − 1)² + k² over whole h, k with h² + k² at least n, by a search. For n up to 400 none beyond ±25 is of use.
pub fn g4(n: u64) -> u64 {
    least(n, |h, k| (h - 1).pow(2) + k.pow(2))
}

/// The least (h − 1)² + (k − 1)², likewise.
pub fn g8(n: u64) -> u64 {
    least(n, |h, k| (h - 1).pow(2) + (k - 1).pow(2))
}

fn least(n: u64, of: impl Fn(i64, i64) -> i64) -> u64 {
    assert!((1..=400).contains(&n));
    let pairs = (-25..=25_i64).flat_map(|h| (-25..=25_i64).map(move |k| (h, k)));
    let allowed = pairs.filter(|(h, k)| h.pow(2) + k.pow(2) >= n as i64);
    allowed.map(|(h, k)| of(h, k) as u64).min().expect("25² is above 400")
}

/// g4 and g8 for n from 1 to 400, worked out once.
static FOUND: LazyLock<[Vec<u64>; 2]> = LazyLock::new(|| [(1..=400).map(g4).collect(), (1..=400).map(g8).collect()]);

/// The skeleton: 1 at the pixels that are kept, else 0.
pub fn skeleton(map: &[[i16; 2]], w: usize, h: usize) -> Vec<u8> {
    assert_eq!(map.len(), w * h);
    (0..w * h).map(|at| u8::from(kept(map, w, h, at % w, at / w))).collect()
}

/// Whether a pixel is bare and no neighbour on the sheet covers all that it does.
fn kept(map: &[[i16; 2]], w: usize, h: usize, x: usize, y: usize) -> bool {
    let own = map[y * w + x];
    if own == UNLABELLED || size(own) == 0 {
        return false;
    }
    for row in y.saturating_sub(1)..h.min(y + 2) {
        for column in x.saturating_sub(1)..w.min(x + 2) {
            let beside = map[row * w + column];
            let n = size(beside) as usize;
            if (column, row) == (x, y) || beside == UNLABELLED || !(1..=400).contains(&n) {
                continue;
            }
            let corner = column != x && row != y;
            if FOUND[usize::from(corner)][n - 1] == size(own) {
                return false;
            }
        }
    }
    true
}

/// What the marked pixels cover: 1 at a pixel if its squared distance to some marked pixel is below that pixel's size, else 0.
pub fn rebuild(map: &[[i16; 2]], marks: &[u8], w: usize, h: usize) -> Vec<u8> {
    assert!(map.len() == w * h && marks.len() == w * h);
    let mut out = vec![0; w * h];
    for at in (0..w * h).filter(|&at| marks[at] != 0 && map[at] != UNLABELLED) {
        for (other, byte) in out.iter_mut().enumerate() {
            if square(other % w, at % w) + square(other / w, at / w) < size(map[at]) {
                *byte = 1;
            }
        }
    }
    out
}

#[cfg(test)]
mod tests {
    use super::*;
    use crate::boards;
    use crate::exact;
    use crate::random::Random;

    #[test]
    fn m7() {
        let board = boards::m7();
        let map = exact::exact(&board.sheet, 5, 1);
        let marks = skeleton(&map, 5, 1);
        assert_eq!(marks, [0, 0, 1, 0, 0]);
        assert_eq!(rebuild(&map, &marks, 5, 1), [0, 1, 1, 1, 0]);
    }

    #[test]
    fn m8() {
        assert_eq!([g4(25), g8(25), g4(16), g8(16)], [16, 13, 9, 8]);
        // (1, 0) and (1, 1); (20, 0) and (16, 12)
        assert_eq!([g4(1), g8(1), g4(400), g8(400)], [0, 0, 361, 346]);
    }

    /// Document 02, C-13: n − g(n) fits a byte.
    #[test]
    fn differences() {
        let largest = |g: fn(u64) -> u64| (1..=400).map(|n| n - g(n)).max();
        assert_eq!([largest(g4), largest(g8)], [Some(39), Some(54)]);
    }

    /// A neighbour covers all that a pixel of size g covers, and of a pixel one larger something is left out.
    #[test]
    fn what_a_neighbour_covers() {
        let disk = |size: u64, (x, y): (i64, i64)| {
            let inside = move |&(column, row): &(i64, i64)| (((column - x).pow(2) + (row - y).pow(2)) as u64) < size;
            (-25..=25).flat_map(|row| (-25..=25).map(move |column| (column, row))).filter(inside)
        };
        for n in 1..=400 {
            for (place, g) in [((1, 0), g4(n)), ((1, 1), g8(n))] {
                let within = |&(column, row): &(i64, i64)| (column * column + row * row) < n as i64;
                assert!(disk(g, place).all(|pixel| within(&pixel)), "n {n} at {place:?}");
                assert!(!disk(g + 1, place).all(|pixel| within(&pixel)), "n {n} at {place:?}");
            }
        }
    }

    #[test]
    fn any_map() {
        // size 0 is copper, an unlabelled pixel is not kept, a half marked one is
        assert_eq!(skeleton(&[[0, 0], UNLABELLED, [-32_768, 0], [0, -32_768]], 4, 1), [0, 0, 1, 1]);
        // g4(401) would be 362 = 361 + 1
        assert_eq!(skeleton(&[[19, 0], [0, 20]], 2, 1), [0, 1]);
        assert_eq!(skeleton(&[[19, 1], [1, 20]], 2, 1), [1, 1]);
        // copper and unlabelled pixels cover nothing, others as far as their size says
        assert_eq!(rebuild(&[[0, 0], UNLABELLED, [0, 0]], &[1, 1, 1], 3, 1), [0, 0, 0]);
        assert_eq!(rebuild(&[[0, 0], [0, 1], [0, 0]], &[1, 9, 1], 3, 1), [0, 1, 0]);
        assert_eq!(rebuild(&[[0, 0], [1, 1], [0, 0]], &[1, 9, 1], 3, 1), [1, 1, 1]);
        assert_eq!(rebuild(&[[0, 0], [1, 1], [0, 0]], &[1, 0, 1], 3, 1), [0, 0, 0]);
        assert_eq!(rebuild(&[[0, -32_768], [0, 0], [0, 0]], &[1, 0, 0], 3, 1), [1, 1, 1]);
    }

    /// What the skeleton of an exact map covers is the bare part of the sheet.
    #[test]
    fn covers_the_bare() {
        let mut random = Random::new(62);
        for _ in 0..3_000 {
            let (w, h) = (random.between(1, 12), random.between(1, 12));
            let mut board = boards::any(w, h, &mut random);
            board.sheet[random.between(0, w * h - 1)] = 1;
            let map = exact::exact(&board.sheet, w, h);
            let bare: Vec<u8> = board.sheet.iter().map(|&byte| u8::from(byte == 0)).collect();
            assert_eq!(rebuild(&map, &skeleton(&map, w, h), w, h), bare, "{board:?}");
        }
    }
}
