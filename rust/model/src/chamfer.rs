//! Maps of values (document 02, C-12): at each pixel the least, over the copper pixels, of a × (M − m) + b × m, with M and m the larger and
//! smaller of the two offsets, for any weights a of a side step and b of a corner step.

use std::collections::BTreeMap;

/// The value of an unlabelled pixel.
pub const UNLABELLED: u16 = 65_535;

/// The weights of a map.
#[derive(Clone, Copy, Debug, PartialEq, Eq)]
pub struct Weights {
    /// Of a side step.
    pub a: u16,
    /// Of a corner step.
    pub b: u16,
}

/// The weights of engine 4.
pub const CITY_BLOCK: Weights = Weights { a: 1, b: 2 };
/// The weights of engine 5.
pub const CHESSBOARD: Weights = Weights { a: 1, b: 1 };
/// The weights of engine 6.
pub const CHAMFER: Weights = Weights { a: 3, b: 4 };

impl Weights {
    /// All that are allowed.
    pub fn all() -> impl Iterator<Item = Weights> {
        (0..=32).flat_map(|a| (0..=32).map(move |b| Weights { a, b })).filter(|weights| weights.allowed())
    }

    /// Whether they are: a at most b, b at most 2 × a and at most 32.
    pub fn allowed(self) -> bool {
        self.a <= self.b && u32::from(self.b) <= 2 * u32::from(self.a) && self.b <= 32
    }

    /// How far apart two pixels are that have these offsets.
    pub fn apart(self, across: usize, along: usize) -> u64 {
        let (larger, smaller) = (across.max(along) as u64, across.min(along) as u64);
        u64::from(self.a) * (larger - smaller) + u64::from(self.b) * smaller
    }
}

/// The map of a sheet, by a look at every copper pixel from every pixel.
pub fn chamfer(sheet: &[u8], w: usize, h: usize, weights: Weights) -> Vec<u16> {
    assert_eq!(sheet.len(), w * h);
    let copper: Vec<usize> = (0..w * h).filter(|&at| sheet[at] != 0).collect();
    let apart = |at: usize, other: usize| weights.apart((at % w).abs_diff(other % w), (at / w).abs_diff(other / w));
    (0..w * h).map(|at| number(copper.iter().map(|&copper| apart(at, copper)).min())).collect()
}

/// The number of a pixel in the map.
fn number(least: Option<u64>) -> u16 {
    least.map_or(UNLABELLED, |value| u16::try_from(value).ok().filter(|&value| value != UNLABELLED).expect("below 65,535"))
}

/// The map, faster and for allowed weights: by the cheapest way from pixel to pixel of the sheet, whose steps cost the weights. It starts at
/// the copper, and goes on from the cheapest of the pixels that are reached.
pub fn by_steps(sheet: &[u8], w: usize, h: usize, weights: Weights) -> Vec<u16> {
    assert!(sheet.len() == w * h && weights.allowed());
    let mut costs: Vec<Option<u64>> = sheet.iter().map(|&byte| (byte != 0).then_some(0)).collect();
    let copper = (0..w * h).filter(|&at| sheet[at] != 0).collect();
    let mut reached: BTreeMap<u64, Vec<usize>> = BTreeMap::from([(0, copper)]);
    while let Some((cost, pixels)) = reached.pop_first() {
        for at in pixels {
            // by now there may be a cheaper way to it
            if costs[at] != Some(cost) {
                continue;
            }
            for (next, corner) in neighbours(at, w, h) {
                let cost = cost + u64::from(if corner { weights.b } else { weights.a });
                if costs[next].is_none_or(|present| cost < present) {
                    costs[next] = Some(cost);
                    reached.entry(cost).or_default().push(next);
                }
            }
        }
    }
    costs.into_iter().map(number).collect()
}

/// The pixels around a pixel, each with whether it is at a corner.
fn neighbours(at: usize, w: usize, h: usize) -> impl Iterator<Item = (usize, bool)> {
    let (x, y) = (at % w, at / w);
    let rows = y.saturating_sub(1)..h.min(y + 2);
    let around = rows.flat_map(move |row| (x.saturating_sub(1)..w.min(x + 2)).map(move |column| (column, row)));
    around.filter(move |&pixel| pixel != (x, y)).map(move |(column, row)| (row * w + column, column != x && row != y))
}

/// The map by the one of the two that is sooner done.
pub fn sooner(sheet: &[u8], w: usize, h: usize, weights: Weights) -> Vec<u16> {
    let copper = sheet.iter().filter(|&&byte| byte != 0).count();
    [by_steps, chamfer][usize::from(copper <= 60)](sheet, w, h, weights)
}

#[cfg(test)]
mod tests {
    use super::*;
    use crate::boards::{self, Board};
    use crate::nearest::{self, square};
    use crate::random::Random;

    type Map = fn(&[u8], usize, usize, Weights) -> Vec<u16>;

    const BOTH: [Map; 2] = [chamfer, by_steps];

    /// An engine's weights, the number of times q that the square of a value is to pass, and the fraction of q within which some copper lies
    /// where it does not.
    const GATES: [(Weights, u64, (u64, u64)); 3] = [(CITY_BLOCK, 2, (2, 1)), (CHESSBOARD, 1, (2, 1)), (CHAMFER, 10, (5, 4))];

    #[test]
    fn document_01() {
        let board = boards::document_01();
        let maps = [
            (CITY_BLOCK, [3, 2, 1, 0, 2, 2, 1, 1, 1, 1, 0, 1, 0, 1, 1, 2]),
            (CHESSBOARD, [2, 2, 1, 0, 2, 1, 1, 1, 1, 1, 0, 1, 0, 1, 1, 1]),
            (CHAMFER, [8, 6, 3, 0, 6, 4, 3, 3, 3, 3, 0, 3, 0, 3, 3, 4]),
        ];
        for (weights, expected) in maps {
            for map in BOTH {
                assert_eq!(map(&board.sheet, 4, 4, weights), expected, "{weights:?}");
            }
        }
    }

    /// The largest q that passes in the corner of that board, and the next.
    #[test]
    fn document_01_gates() {
        let board = boards::document_01();
        for ((weights, times, _), most) in GATES.into_iter().zip([4, 3, 6]) {
            let c = u64::from(chamfer(&board.sheet, 4, 4, weights)[0]);
            let passes = |q: u64| c * c > times * q;
            assert!(passes(most) && !passes(most + 1), "{weights:?}");
        }
    }

    #[test]
    fn allowed() {
        assert_eq!(Weights::all().count(), 289);
        for (a, b) in [(0, 0), (1, 1), (1, 2), (3, 4), (16, 32), (32, 32), (31, 32)] {
            assert!(Weights::all().any(|weights| weights == Weights { a, b }));
        }
        for (a, b) in [(0, 1), (2, 1), (1, 3), (3, 7), (15, 31), (16, 33), (33, 33), (32, 31), (65_535, 65_535), (32_768, 0)] {
            assert!(!Weights { a, b }.allowed(), "{a}, {b}");
        }
    }

    #[test]
    fn no_copper() {
        for map in BOTH {
            assert_eq!(map(&[0; 6], 3, 2, CHAMFER), [UNLABELLED; 6]);
            assert_eq!(map(&[], 0, 5, CHAMFER), map(&[], 5, 0, CHAMFER));
        }
    }

    /// A single copper pixel in the middle: side steps, corner steps, and one of each.
    #[test]
    fn one_pixel() {
        for (weights, [side, corner, two, knight, far]) in
            [(CITY_BLOCK, [1, 2, 2, 3, 4]), (CHESSBOARD, [1, 1, 2, 2, 2]), (CHAMFER, [3, 4, 6, 7, 8])]
        {
            let row = [far, knight, two, knight, far];
            let [second, middle] = [[knight, corner, side, corner, knight], [two, side, 0, side, two]];
            for map in BOTH {
                assert_eq!(map(&boards::one_pixel(5, 5).sheet, 5, 5, weights), [row, second, middle, second, row].concat());
            }
        }
    }

    /// The largest of all values: it is labelled.
    #[test]
    fn largest_value() {
        let board = Board::with(2_048, 1, &[(0, 0)]);
        for map in BOTH {
            assert_eq!(map(&board.sheet, 2_048, 1, Weights { a: 32, b: 32 })[2_047], 65_504);
            assert_eq!(map(&board.sheet, 1, 2_048, Weights { a: 32, b: 32 })[2_047], 65_504);
        }
        assert_eq!(Weights { a: 16, b: 32 }.apart(2_047, 2_047), 65_504);
    }

    /// With a weight of 0 for every step all is at copper.
    #[test]
    fn no_weight() {
        for map in BOTH {
            assert_eq!(map(&[0, 0, 0, 9, 0, 0], 3, 2, Weights { a: 0, b: 0 }), [0; 6]);
            assert_eq!(map(&[0; 6], 3, 2, Weights { a: 0, b: 0 }), [UNLABELLED; 6]);
        }
    }

    #[test]
    fn steps_as_looks() {
        let mut random = Random::new(7);
        let weights: Vec<Weights> = Weights::all().collect();
        for turn in 0..20_000 {
            let (w, h) = (random.between(1, 12), random.between(1, 12));
            let board = boards::any(w, h, &mut random);
            let weights = weights[turn % weights.len()];
            let map = chamfer(&board.sheet, w, h, weights);
            assert_eq!(by_steps(&board.sheet, w, h, weights), map, "{weights:?}: {board:?}");
            assert_eq!(sooner(&board.sheet, w, h, weights), map, "{weights:?}: {board:?}");
        }
    }

    /// Where the gate passes all copper is farther than q; where it does not some is within the fraction of q. For each value the largest q
    /// that passes and the next.
    #[test]
    fn gates() {
        let mut random = Random::new(8);
        for _ in 0..2_000 {
            let (w, h) = (random.between(1, 16), random.between(1, 16));
            let board = boards::any(w, h, &mut random);
            let distances = nearest::all(&board.sheet, w, h);
            for (weights, times, (numerator, denominator)) in GATES {
                for (c, &e) in chamfer(&board.sheet, w, h, weights).into_iter().zip(&distances) {
                    let Some(e) = e else { continue };
                    // the least q that fails
                    let fails = u64::from(c).pow(2).div_ceil(times);
                    assert!(fails == 0 || e > fails - 1, "{weights:?}, value {c} for {e}");
                    assert!(denominator * e <= numerator * fails, "{weights:?}, value {c} for {e}");
                }
            }
        }
    }

    /// Up to the longest offsets: the square of a value is at most so many times the squared distance, and at least so much of it.
    #[test]
    fn squares() {
        for (weights, times, (numerator, denominator)) in GATES {
            for across in 0..2_048 {
                for along in (0..=across).filter(|along| (across + along) % 13 == 0 || across - along < 3 || *along < 3) {
                    let (c, e) = (weights.apart(across, along), square(across, 0) + square(along, 0));
                    assert!(c * c <= times * e && times * denominator * e <= numerator * c * c, "{weights:?}: {across}, {along}");
                }
            }
        }
    }
}
