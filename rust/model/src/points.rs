//! Lists of points for the tests, as they are lent: x then y, a pair a point.

use crate::random::Random;

/// Every pixel of a sheet, in rows from the top.
pub fn every(w: u16, h: u16) -> Vec<u16> {
    (0..h).flat_map(|y| (0..w).flat_map(move |x| [x, y])).collect()
}

/// Points of a sheet in the order of their rows: in one row, in every row, at the edges or anywhere, and some of them the same. There may
/// be none.
pub fn any(w: u16, h: u16, random: &mut Random) -> Vec<u16> {
    let count = random.between(0, 12);
    let mut rows: Vec<u16> = match random.below(6) {
        0 => vec![below(h, random); count],
        1 => (0..h).collect(),
        2 => (0..count).map(|_| near_edge(h, random)).collect(),
        _ => (0..count).map(|_| below(h, random)).collect(),
    };
    rows.sort_unstable();
    let (column, kind) = (below(w, random), random.below(4));
    let mut x = || match kind {
        0 => column,
        1 => near_edge(w, random),
        _ => below(w, random),
    };
    rows.into_iter().flat_map(|y| [x(), y]).collect()
}

/// Puts a point off the sheet now and then, or one out of the order of the rows, or both.
pub fn astray(points: &mut [u16], w: u16, h: u16, random: &mut Random) {
    let (points, _) = points.as_chunks_mut::<2>();
    if points.is_empty() {
        return;
    }
    let last = points.len() - 1;
    if random.below(3) == 0 {
        points.swap(random.between(0, last), random.between(0, last));
    }
    if random.below(6) == 0 {
        points[random.between(0, last)][random.below(2) as usize] = [w, h, 2_047, 2_048, 65_535][random.below(5) as usize];
    }
}

fn below(side: u16, random: &mut Random) -> u16 {
    random.below(side.into()) as u16
}

/// A coordinate, more often than not that of an edge.
fn near_edge(side: u16, random: &mut Random) -> u16 {
    [0, side - 1, below(side, random)][random.below(3) as usize]
}

#[cfg(test)]
mod tests {
    use super::*;

    fn pairs(points: &[u16]) -> &[[u16; 2]] {
        points.as_chunks().0
    }

    #[test]
    fn every_pixel() {
        assert_eq!(every(3, 2), [0, 0, 1, 0, 2, 0, 0, 1, 1, 1, 2, 1]);
    }

    /// All are on the sheet and in order. The lists have one row, all rows and some, equal points and none.
    #[test]
    fn kinds() {
        let mut random = Random::new(10);
        let mut found = [0; 5];
        for _ in 0..1_000 {
            let (w, h) = (random.between(1, 20) as u16, random.between(3, 20) as u16);
            let points = any(w, h, &mut random);
            let points = pairs(&points);
            assert!(points.iter().all(|&[x, y]| x < w && y < h) && points.is_sorted_by_key(|&[_, y]| y), "{points:?}");
            let rows = crate::probe::rows(points);
            let equal = points.windows(2).any(|two| two[0] == two[1]);
            let kinds = [points.is_empty(), rows == 1, rows == h.into(), (2..h.into()).contains(&rows), equal];
            for (found, kind) in found.iter_mut().zip(kinds) {
                *found += u32::from(kind);
            }
        }
        assert!(found.iter().all(|&lists| lists > 50), "{found:?}");
    }

    /// Some lists have a point off the sheet, some are out of order, some both, and most neither.
    #[test]
    fn led_astray() {
        let mut random = Random::new(11);
        let mut found = [[0; 2]; 2];
        for _ in 0..1_000 {
            let mut points = any(7, 9, &mut random);
            astray(&mut points, 7, 9, &mut random);
            let points = pairs(&points);
            let off = points.iter().any(|&[x, y]| x >= 7 || y >= 9);
            found[usize::from(off)][usize::from(!points.is_sorted_by_key(|&[_, y]| y))] += 1;
        }
        assert!(found.as_flattened().iter().all(|&lists| lists > 20) && found[0][0] > 500, "{found:?}");
    }
}
