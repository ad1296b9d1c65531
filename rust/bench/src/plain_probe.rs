//! Probing in plain safe Rust by the library's algorithm. Two working rows hold for each column the last row with copper at or above the
//! row at hand and the first one at or below it, 1 added to either. The former is kept row by row. The latter is looked for in the rows
//! with points alone, where it is out of date: while many columns are, in all of them at once, row by row, and then in one column after
//! another. The shorter ways of both make the row as in the exact map, and a point reads its size there.

use crate::plain_exact::{scratch_need, size, solve_by_costs, Entry, NONE, SIDE, UNLABELLED};

/// The distance on a sheet without copper.
const NO_COPPER: u32 = u32::MAX;

/// Writes the true squared distances of points, x then y, and says in how many rows they are. All are on the sheet, and their rows do not
/// decrease. The scratch that it needs is 0 afterwards.
pub fn probe(sheet: &[u8], points: &[u16], scratch: &mut [i16], out: &mut [u32], w: usize, h: usize) -> u32 {
    assert!((1..=SIDE).contains(&w) && h <= SIDE && sheet.len() == w * h && scratch.len() >= scratch_need(w));
    let (mut above, mut below, mut row) = ([0; SIDE], [0; SIDE], [UNLABELLED; SIDE]);
    let (above, below, row) = (&mut above[..w], &mut below[..w], &mut row[..w]);
    let (mut costs, mut stack) = ([0; SIDE], [Entry::default(); SIDE]);
    let ways = &mut scratch[..w];
    // the row after the one at hand, and how many were at hand so far
    let (mut next, mut rows) = (0, 0);
    for (out, &[x, y]) in out.iter_mut().zip(points.as_chunks().0) {
        if y >= next {
            for passed in next..=y {
                mark(above, bytes(sheet, w, passed), passed + 1, |_| true);
            }
            look_down(sheet, below, y, h as u16);
            shorter(ways, above, below, y, h as u16);
            solve_by_costs(row, ways, &mut costs, &mut stack);
            (next, rows) = (y + 1, rows + 1);
        }
        let pixel = row[usize::from(x)];
        *out = if pixel == UNLABELLED { NO_COPPER } else { size(pixel) };
    }
    scratch[..scratch_need(w)].fill(0);
    rows
}

/// A row of the sheet.
fn bytes(sheet: &[u8], w: usize, row: u16) -> &[u8] {
    &sheet[usize::from(row) * w..][..w]
}

/// Writes a number for each column that has copper in a row, where the former one may be replaced. Without jumps, so that several columns
/// are done at a time.
fn mark(columns: &mut [u16], bytes: &[u8], number: u16, replaced: impl Fn(u16) -> bool) {
    for (column, &byte) in columns.iter_mut().zip(bytes) {
        *column = if (byte != 0) & replaced(*column) { number } else { *column };
    }
}

/// Brings all columns up to date at row y. Out of date are those that have nothing yet, or a row above it.
fn look_down(sheet: &[u8], below: &mut [u16], y: u16, h: u16) {
    let w = below.len();
    let (mut row, mut count) = (y, out_of_date(below, y));
    while count > w / FEW && row < h {
        mark(below, bytes(sheet, w, row), row + 1, |number| number <= y);
        count = out_of_date(below, y);
        row += 1;
    }
    if count > 0 {
        for (x, number) in below.iter_mut().enumerate().filter(|(_, number)| **number <= y) {
            *number = 1 + (row..h).find(|&row| bytes(sheet, w, row)[x] != 0).unwrap_or(h);
        }
    }
}

/// Up to one column in so many is looked at by itself.
const FEW: usize = 16;

fn out_of_date(below: &[u16], y: u16) -> usize {
    below.iter().map(|&number| u16::from(number <= y)).sum::<u16>().into()
}

/// Writes the shorter way of each column from row y, with its sign, among equals upwards.
fn shorter(ways: &mut [i16], above: &[u16], below: &[u16], y: u16, h: u16) {
    for ((way, &above), &below) in ways.iter_mut().zip(above).zip(below) {
        let up = if above == 0 { u16::MAX } else { y + 1 - above };
        let down = if below > h { u16::MAX } else { below - y - 1 };
        let shorter = if up <= down { -(up as i16) } else { down as i16 };
        *way = if up & down == u16::MAX { NONE } else { shorter };
    }
}
