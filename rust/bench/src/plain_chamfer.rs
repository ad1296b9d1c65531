//! The maps of engines 4 to 6 in plain safe Rust by the library's way: a scan down the rows and a scan up. Each pixel of a row takes the least
//! candidate of the three beside it in the row before, and then a sweep carries the values along the row, unless a test of all pixels says that
//! it would change none. The row before stands in a working row, with an unlabelled pixel at either end for what is off the sheet.

use crate::plain_exact::SIDE;

/// The value of an unlabelled pixel. One off the sheet counts as such, for neither gives a candidate.
pub(crate) const UNLABELLED: u16 = u16::MAX;

/// The weights of a side step and of a corner step: engine 4 city block, 5 chessboard, 6 chamfer.
pub(crate) const WEIGHTS: [[u16; 2]; 3] = [[1, 2], [1, 1], [3, 4]];

/// Writes the map of a sheet by the weights of a side step and of a corner step.
pub fn chamfer(sheet: &[u8], values: &mut [u16], w: usize, h: usize, weights: [u16; 2]) {
    assert!((1..=SIDE).contains(&w) && sheet.len() == w * h && values.len() == w * h);
    let [side, _] = weights;
    let mut above = [UNLABELLED; SIDE + 2];
    let above = &mut above[..w + 2];
    for (row, bytes) in values.chunks_exact_mut(w).zip(sheet.chunks_exact(w)) {
        for ((value, &byte), three) in row.iter_mut().zip(bytes).zip(above.windows(3)) {
            *value = if byte == 0 { from_three(three, weights) } else { 0 };
        }
        let steep = row.windows(2).fold(false, |steep, two| steep | (two[0].saturating_add(side) < two[1]));
        if steep {
            sweep(row.iter_mut().zip(&mut above[1..=w]), side);
        } else {
            above[1..=w].copy_from_slice(row);
        }
    }
    let mut below = [UNLABELLED; SIDE + 2];
    let below = &mut below[..w + 2];
    for row in values.chunks_exact_mut(w).rev() {
        for (value, three) in row.iter_mut().zip(below.windows(3)) {
            *value = from_three(three, weights).min(*value);
        }
        let steep = row.windows(2).fold(false, |steep, two| steep | (two[1].saturating_add(side) < two[0]));
        if steep {
            sweep(row.iter_mut().zip(&mut below[1..=w]).rev(), side);
        } else {
            below[1..=w].copy_from_slice(row);
        }
    }
}

/// The least candidate of three pixels of the row before. An unlabelled one gives none.
fn from_three(three: &[u16], [side, corner]: [u16; 2]) -> u16 {
    let corners = three[0].min(three[2]);
    three[1].saturating_add(side).min(corners.saturating_add(corner))
}

/// Each pixel from the neighbour that the sweep comes from; the row goes to the working row too.
fn sweep<'a>(row: impl Iterator<Item = (&'a mut u16, &'a mut u16)>, side: u16) {
    let mut last = u32::from(UNLABELLED);
    for (value, kept) in row {
        last = u32::from(*value).min(last + u32::from(side));
        (*value, *kept) = (last as u16, last as u16);
    }
}
