//! Two artworks on one sheet (document 02, C-21): their maps joined into one, pixel by pixel.

use crate::scans::UNLABELLED;
use crate::sides;
use crate::skeleton::size;

/// Joins two maps. On any other answer than 0 nothing is written.
pub fn join(w: u16, h: u16, first: &[i16], second: &[i16], joined: &mut [i16]) -> u32 {
    if let Some(answer) = sides::refusal([w, h], &[first.len(), second.len(), joined.len()]) {
        return answer;
    }
    let two = first.chunks(2).zip(second.chunks(2));
    let pixels: Vec<[i16; 2]> = two.map(|(one, other)| nearer([[one[0], one[1]], [other[0], other[1]]])).collect();
    joined.copy_from_slice(pixels.as_flattened());
    0
}

/// What a pixel becomes that has these two vectors: the labelled one, of two the smaller, among equal sizes that with the smaller dx, then
/// the smaller dy.
pub fn nearer(two: [[i16; 2]; 2]) -> [i16; 2] {
    let labelled = two.into_iter().filter(|&way| way != UNLABELLED);
    labelled.min_by_key(|&[dx, dy]| (size([dx, dy]), dx, dy)).unwrap_or(UNLABELLED)
}

#[cfg(test)]
mod tests {
    use super::*;
    use crate::boards::{self, Board};
    use crate::random::Random;
    use crate::{exact, maps};

    /// What joining answers and leaves in a slice that was 7 and is as long as the first map.
    fn joins(w: u16, h: u16, first: &[i16], second: &[i16]) -> (u32, Vec<i16>) {
        let mut joined = vec![7; first.len()];
        (join(w, h, first, second, &mut joined), joined)
    }

    /// The join of two maps of one row.
    fn joined(first: &[[i16; 2]], second: &[[i16; 2]]) -> Vec<[i16; 2]> {
        let (answer, joined) = joins(first.len() as u16, 1, first.as_flattened(), second.as_flattened());
        assert_eq!(answer, 0);
        joined.as_chunks().0.to_vec()
    }

    /// The first of two vectors is left, whichever map it comes from.
    #[test]
    fn by_hand() {
        let pairs = [
            // labelled against unlabelled, whatever its size
            ([0, 0], [-32_768, -32_768]),
            ([2, -1], [-32_768, -32_768]),
            ([32_767, 32_767], [-32_768, -32_768]),
            ([-32_768, -32_767], [-32_768, -32_768]),
            ([-32_767, -32_768], [-32_768, -32_768]),
            ([-32_768, 0], [-32_768, -32_768]),
            ([0, -32_768], [-32_768, -32_768]),
            // the smaller size, also if its dx and dy are larger
            ([0, 0], [-1, 0]),
            ([0, 0], [0, -1]),
            ([1, 1], [-2, 0]),
            ([3, 3], [-4, -3]),
            ([32_766, 32_767], [-32_767, -32_767]),
            // equal sizes: the smaller dx, also if its dy is larger
            ([-1, 0], [1, 0]),
            ([-1, 0], [0, -1]),
            ([0, 1], [1, 0]),
            ([3, 4], [4, 3]),
            ([3, 4], [5, 0]),
            ([-5, 0], [-4, -3]),
            ([-32_767, 32_767], [32_767, -32_767]),
            // equal sizes and dx: the smaller dy
            ([0, -1], [0, 1]),
            ([-3, -4], [-3, 4]),
            ([32_767, -32_767], [32_767, 32_767]),
            // the half marked are labelled like any other
            ([-32_768, 0], [0, -32_768]),
            ([-32_768, -5], [-32_768, 5]),
            ([-5, -32_768], [5, -32_768]),
            ([-32_768, 5], [-5, -32_768]),
            ([0, -32_768], [-32_768, -1]),
            ([-32_768, -32_767], [-32_768, 32_767]),
            ([-32_768, 32_767], [-32_767, -32_768]),
            ([32_767, 0], [-32_768, 0]),
            // sizes that are equal in their last 16 bits, or in 30
            ([0, 0], [256, 0]),
            ([0, 0], [-256, 0]),
            ([0, 1], [-32_767, 0]),
            ([0, 256], [-32_768, 0]),
            ([0, 0], [-32_768, 0]),
            ([5, 0], [-32_768, 5]),
        ];
        for (least, other) in pairs {
            assert_eq!(joined(&[least, other], &[other, least]), [least; 2], "{least:?}, {other:?}");
            assert_eq!(joined(&[least], &[least]), [least]);
        }
        assert_eq!(joined(&[UNLABELLED], &[UNLABELLED]), [UNLABELLED]);
    }

    /// A map of several rows, with a pixel from each.
    #[test]
    fn rows() {
        let first = [3, -4, -32_768, -32_768, 0, 0, 5, 0, -32_768, -32_768, 1, 1];
        let second = [5, 0, 7, 7, 1, 0, -5, 0, -32_768, -32_768, 1, -1];
        let expected = [3, -4, 7, 7, 0, 0, -5, 0, -32_768, -32_768, 1, -1];
        for (w, h) in [(6, 1), (1, 6), (3, 2), (2, 3)] {
            assert_eq!(joins(w, h, &first, &second), (0, expected.to_vec()));
        }
    }

    /// Joins the exact maps of two boards, which must give that of the board with the copper of both.
    fn check([first, second]: &[Board; 2]) {
        let exact = |board: &Board| exact::sooner(&board.sheet, board.w, board.h).concat();
        let (w, h) = first.sides();
        let found = joins(w, h, &exact(first), &exact(second));
        assert!(found == (0, exact(&first.joined_with(second))), "{first:?} and {second:?}");
    }

    /// The pixels of document 01's board on two sheets, in every way.
    #[test]
    fn document_01() {
        let copper = [(3, 0), (0, 3), (2, 2)];
        let board = boards::document_01();
        for set in 0..8 {
            let parts = [0, 1].map(|bit| {
                let pixels: Vec<(usize, usize)> = (0..3).filter(|at| set >> at & 1 == bit).map(|at| copper[at]).collect();
                Board::with(4, 4, &pixels)
            });
            assert_eq!(parts[0].joined_with(&parts[1]).sheet, board.sheet);
            check(&parts);
        }
        let map = |copper| exact::exact(&Board::with(4, 4, copper).sheet, 4, 4);
        let [first, second] = [map(&copper[..2]), map(&copper[2..])];
        assert_eq!([first[0], second[0], first[10], second[10]], [[0, 3], [2, 2], [-2, 1], [0, 0]]);
        assert_eq!(joins(4, 4, first.as_flattened(), second.as_flattened()).1[..8], [2, 2, 2, 0, 1, 0, 0, 0]);
    }

    #[test]
    fn sheets() {
        let mut random = Random::new(61);
        for _ in 0..4_000 {
            let (w, h) = (random.between(1, 12), random.between(1, 12));
            check(&boards::any_two(w, h, &mut random));
        }
        for _ in 0..40 {
            let (w, h) = (random.between(1, 60), random.between(1, 60));
            check(&boards::any_two(w, h, &mut random));
            check(&[boards::tracks(w, h, &mut random), boards::tracks(w, h, &mut random)]);
        }
    }

    /// In which order and how often maps are joined makes no difference, whatever they hold.
    #[test]
    fn laws() {
        let mut random = Random::new(62);
        for _ in 0..20_000 {
            let pixels = random.between(1, 30);
            let a = maps::any(pixels, &mut random);
            let [b, c] = [(); 2].map(|()| maps::any_beside(&a, &mut random));
            assert_eq!(joined(&a, &b), joined(&b, &a));
            assert_eq!(joined(&joined(&a, &b), &c), joined(&a, &joined(&b, &c)));
            assert_eq!(joined(&a, &a), a);
            assert_eq!(joined(&a, &vec![UNLABELLED; pixels]), a);
        }
    }

    /// 11, then 12.
    #[test]
    fn order_of_refusals() {
        for (w, h) in [(0, 1), (1, 0), (0, 0), (2_049, 1), (1, 2_049), (65_535, 65_535)] {
            assert_eq!(joins(w, h, &[3, 4], &[5, 0]), (11, vec![7; 2]), "{w}, {h}");
            assert_eq!(joins(w, h, &[], &[3]), (11, vec![]), "{w}, {h}");
        }
        for (w, h) in [(1, 2), (2, 1), (2_048, 1), (1, 2_048), (2_048, 2_048)] {
            assert_eq!(joins(w, h, &[3, 4], &[5, 0]), (12, vec![7; 2]), "{w}, {h}");
        }
        for (w, h) in [(2_048, 1), (1, 2_048), (2_048, 3)] {
            let numbers = 2 * usize::from(w) * usize::from(h);
            assert_eq!(joins(w, h, &vec![2; numbers], &vec![1; numbers]), (0, vec![1; numbers]), "{w}, {h}");
        }
    }

    /// 12 for each of the three slices, too long or too short.
    #[test]
    fn lengths() {
        for wrong in [0, 2, 3, 5, 8] {
            for set in 1..8 {
                let [first, second, target] = [1, 2, 4].map(|bit| if set & bit != 0 { wrong } else { 4 });
                let mut joined = vec![7; target];
                assert_eq!(join(1, 2, &vec![0; first], &vec![1; second], &mut joined), 12);
                assert_eq!(joined, vec![7; target]);
            }
        }
    }
}
