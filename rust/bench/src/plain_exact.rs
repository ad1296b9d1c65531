//! The exact map in plain safe Rust by the library's algorithm: two passes over the rows find the nearest copper of each column, then each
//! row is worked out by itself, in parts between long runs of copper, from the lower envelope of its columns' parabolas. The ways stand in the
//! first half of the map, those of the row at hand in scratch.

use std::ops::Range;

pub(crate) type Pixel = [i16; 2];

pub(crate) const UNLABELLED: Pixel = [-32_768; 2];

/// The size of a pixel. That of an unlabelled one is 2³¹, above all others.
pub(crate) fn size([dx, dy]: Pixel) -> u32 {
    let (dx, dy) = (i32::from(dx), i32::from(dy));
    (dx * dx) as u32 + (dy * dy) as u32
}

/// The longest side.
pub(crate) const SIDE: usize = 2_048;

/// How many scratch numbers the exact map of a sheet of `w` columns needs.
pub fn scratch_need(w: usize) -> usize {
    4 * w
}

/// Writes the exact map of a sheet. The scratch that it needs is 0 afterwards.
pub fn exact(sheet: &[u8], map: &mut [i16], scratch: &mut [i16], w: usize, h: usize) {
    let mut costs = [0; SIDE];
    let mut stack = [Entry::default(); SIDE];
    work(sheet, map, scratch, w, h, |row, ways| solve_by_costs(row, ways, &mut costs, &mut stack));
}

/// The same, a column's cost worked out only when the envelope asks for it.
pub fn exact_fused(sheet: &[u8], map: &mut [i16], scratch: &mut [i16], w: usize, h: usize) {
    let mut stack = [Entry::default(); SIDE];
    work(sheet, map, scratch, w, h, |row, ways| {
        solve(row, ways, &mut stack, |part, stack| envelope(ways[part].iter().map(|&way| cost_of(way)), stack));
    });
}

/// The passes over the columns, and then `solve` on each row and its ways.
fn work(sheet: &[u8], map: &mut [i16], scratch: &mut [i16], w: usize, h: usize, mut solve: impl FnMut(&mut [Pixel], &[i16])) {
    assert!(w <= SIDE && h <= SIDE && sheet.len() == w * h && map.len() == 2 * w * h && scratch.len() >= scratch_need(w));
    if w == 0 {
        return;
    }
    upwards(sheet, &mut map[..w * h], w);
    shorter(&mut map[..w * h], w);
    let ways = &mut scratch[..w];
    // from the last row, for a row's vectors lie behind the ways of the rows above it
    for y in (0..h).rev() {
        ways.copy_from_slice(&map[y * w..][..w]);
        let (row, _) = map[2 * y * w..2 * (y + 1) * w].as_chunks_mut();
        solve(row, ways);
    }
    scratch[..scratch_need(w)].fill(0);
}

/// Writes a row's vectors; `envelope` stacks the best columns of a part of it. The copper pixels at the ends of a run split the row: neither
/// side's best columns lie on the other.
fn solve(row: &mut [Pixel], ways: &[i16], stack: &mut [Entry], mut envelope: impl FnMut(Range<usize>, &mut [Entry]) -> usize) {
    let w = row.len();
    let (mut from, mut done) = (0, 0);
    while done < w {
        let run = (done..w.saturating_sub(RUN - 1)).step_by(STEP).find(|&x| is_copper(&ways[x..x + RUN])).unwrap_or(w);
        let part = from..(run + 1).min(w);
        let count = envelope(part.clone(), stack);
        write(&mut row[part.clone()], &ways[part], &stack[..count]);
        done = run + RUN * ways[run..].chunks_exact(RUN).take_while(|part| is_copper(part)).count();
        row[run..done].fill([0; 2]);
        from = done - 1;
    }
}

/// The same, with the costs of a part's columns worked out before its envelope.
pub(crate) fn solve_by_costs(row: &mut [Pixel], ways: &[i16], costs: &mut [u32; SIDE], stack: &mut [Entry; SIDE]) {
    solve(row, ways, stack, |part, stack| {
        let costs = &mut costs[..part.len()];
        for (cost, &way) in costs.iter_mut().zip(&ways[part]) {
            *cost = cost_of(way);
        }
        envelope(costs.iter().copied(), stack)
    });
}

/// Whether all these pixels are copper. Without a jump out of the loop, so that they are looked at all at once.
fn is_copper(ways: &[i16]) -> bool {
    ways.iter().fold(true, |copper, &way| copper & (way == 0))
}

/// So many copper pixels split the row, looked for at every `STEP`th.
const RUN: usize = 8;
const STEP: usize = 32;

/// Leaves how far the nearest copper above a pixel is, 0 on copper and −1 if there is none.
fn upwards(sheet: &[u8], ways: &mut [i16], w: usize) {
    let mut above = [-1; SIDE];
    for (row, bytes) in ways.chunks_mut(w).zip(sheet.chunks(w)) {
        for ((way, above), &byte) in row.iter_mut().zip(&mut above).zip(bytes) {
            *above = farther(byte != 0, *above);
            *way = *above;
        }
    }
}

/// Turns that into the shorter way of both, with its sign, among equals upwards.
fn shorter(ways: &mut [i16], w: usize) {
    let mut below = [-1; SIDE];
    for row in ways.chunks_mut(w).rev() {
        for (way, below) in row.iter_mut().zip(&mut below) {
            let up = *way;
            *below = farther(up == 0, *below);
            let down = *below;
            // as an unsigned number −1 is above all others
            let shorter = if up as u16 <= down as u16 { -up } else { down };
            *way = if up & down < 0 { NONE } else { shorter };
        }
    }
}

/// One step farther, or 0 on copper; −1 stays. Without jumps, so that several pixels are done at a time.
fn farther(copper: bool, from: i16) -> i16 {
    (from + i16::from(from >= 0)) & -i16::from(!copper)
}

/// The way of a column without copper.
pub(crate) const NONE: i16 = -32_768;

/// The cost of a column without copper.
pub(crate) const NO_SITE: u32 = u32::MAX;

/// What a column costs: the square of its way.
fn cost_of(way: i16) -> u32 {
    let way = i32::from(way);
    if way == i32::from(NONE) {
        NO_SITE
    } else {
        (way * way) as u32
    }
}

/// An entry of the envelope's stack.
#[derive(Clone, Copy, Default)]
pub(crate) struct Entry {
    /// A column.
    pub site: i32,
    /// The first pixel of the row for which it is the best of the columns so far.
    pub start: i32,
    /// Its square with its cost added.
    pub sum: i64,
}

/// Stacks the columns that are best for some pixel of the row, and says how many. Among equals a pixel stays with the earlier.
pub(crate) fn envelope(costs: impl ExactSizeIterator<Item = u32>, stack: &mut [Entry]) -> usize {
    let w = costs.len() as i32;
    let count = hull(costs, stack);
    for entry in 1..count {
        let (before, here) = (stack[entry - 1], stack[entry]);
        let start = (here.sum - before.sum) as u32 / (2 * (here.site - before.site)) as u32 + 1;
        if start as i32 >= w {
            return entry;
        }
        stack[entry].start = start as i32;
    }
    count
}

/// Stacks the corners of the lower convex hull of the points (column, sum): only those are best anywhere.
fn hull(costs: impl ExactSizeIterator<Item = u32>, stack: &mut [Entry]) -> usize {
    let mut count = 0;
    let (mut before, mut top) = (Entry::default(), Entry::default());
    for (site, cost) in costs.enumerate() {
        if cost == NO_SITE {
            continue;
        }
        let site = site as i32;
        let sum = i64::from(site * site) + i64::from(cost);
        let next = Entry { site, start: 0, sum };
        while count > 1 && covers(before, top, next) {
            count -= 1;
            top = before;
            if count > 1 {
                before = stack[count - 2];
            }
        }
        if count == 1 && sum < top.sum {
            count = 0;
        }
        (before, top) = (top, next);
        stack[count] = top;
        count += 1;
    }
    count
}

/// Whether the middle point lies on or above the line through the others.
fn covers(left: Entry, middle: Entry, right: Entry) -> bool {
    let apart = |a: Entry, b: Entry| i64::from(b.site - a.site);
    right.sum * apart(left, middle) + left.sum * apart(middle, right) <= middle.sum * apart(left, right)
}

/// Writes the row's vectors, from the last run to the first.
fn write(row: &mut [Pixel], ways: &[i16], stack: &[Entry]) {
    let mut rest = row;
    for entry in stack.iter().rev() {
        let (left, run) = rest.split_at_mut(entry.start as usize);
        let way = ways[entry.site as usize];
        let mut dx = (entry.site - entry.start) as i16;
        for pixel in run {
            *pixel = [dx, way];
            dx -= 1;
        }
        rest = left;
    }
    rest.fill(UNLABELLED);
}
