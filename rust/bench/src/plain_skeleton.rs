//! Skeleton and rebuild in plain safe Rust by the library's algorithms.

use crate::plain_exact::{envelope, size, Entry, Pixel, NO_SITE, SIDE, UNLABELLED};

/// The size of an unlabelled pixel, above all others.
const NONE: u32 = 1 << 31;

/// n − g4(n) and n − g8(n) for n from 1 to 400, at place n − 1.
static SIDES: [u8; 400] = table(false);
static CORNERS: [u8; 400] = table(true);

/// g is the least (h − 1)² + k² of document 01, with `corner` the least (h − 1)² + (k − 1)². Pairs with a number above 20 are no better than
/// (20, 0), and negative ones no better than those without the sign.
const fn table(corner: bool) -> [u8; 400] {
    let mut least = [u32::MAX; 401];
    let mut pair = 0;
    while pair < 21 * 21 {
        let (h, k) = (pair / 21, pair % 21);
        let n = if h * h + k * k < 400 { h * h + k * k } else { 400 };
        let (right, down) = (h as i32 - 1, k as i32 - corner as i32);
        let outside = (right * right + down * down) as u32;
        if outside < least[n] {
            least[n] = outside;
        }
        pair += 1;
    }
    let mut differences = [0; 400];
    let mut n = 400;
    while n > 0 {
        if n < 400 && least[n + 1] < least[n] {
            least[n] = least[n + 1];
        }
        differences[n - 1] = (n as u32 - least[n]) as u8;
        n -= 1;
    }
    differences
}

/// A row of the map: its pixels' sizes, 0 where unlabelled, and the sizes that they take off at their sides and corners. A 0 stands for off the
/// sheet at either end.
struct Band {
    own: Vec<u32>,
    side: Vec<u32>,
    corner: Vec<u32>,
}

/// Writes 1 at each pixel that is kept, 0 elsewhere.
pub fn skeleton(map: &[i16], out: &mut [u8], w: usize, h: usize) {
    assert!(map.len() == 2 * w * h && out.len() == w * h);
    if w == 0 {
        return;
    }
    let (map, _) = map.as_chunks();
    let zeros = || vec![0; w + 2];
    // the rows above and below and the row itself
    let mut bands = [(); 3].map(|()| Band { own: zeros(), side: zeros(), corner: zeros() });
    let mut rows = map.chunks(w);
    measure(rows.next(), &mut bands[2]);
    for out in out.chunks_mut(w) {
        bands.rotate_left(1);
        measure(rows.next(), &mut bands[2]);
        keep(&bands, out);
    }
}

/// The band of a row, or what stands off the sheet if there is none.
fn measure(row: Option<&[Pixel]>, band: &mut Band) {
    let Some(row) = row else {
        band.side.fill(0);
        band.corner.fill(0);
        return;
    };
    let last = row.len() + 1;
    let (own, side, corner) = (&mut band.own[1..last], &mut band.side[1..last], &mut band.corner[1..last]);
    for (own, &pixel) in own.iter_mut().zip(row) {
        let n = size(pixel);
        *own = if n == NONE { 0 } else { n };
    }
    for (x, &n) in own.iter().enumerate() {
        // any other size takes off what 1 does, pixels of size 0, which are not kept anyway
        let counted = if (1..=400).contains(&n) { n } else { 1 };
        side[x] = counted - u32::from(SIDES[counted as usize - 1]);
        corner[x] = counted - u32::from(CORNERS[counted as usize - 1]);
    }
}

/// Writes which pixels of a row are kept.
fn keep([above, row, below]: &[Band; 3], out: &mut [u8]) {
    let all = out.len() + 2;
    let (above_side, above_corner) = (&above.side[..all], &above.corner[..all]);
    let (own, side) = (&row.own[..all], &row.side[..all]);
    let (below_side, below_corner) = (&below.side[..all], &below.corner[..all]);
    for (x, byte) in out.iter_mut().enumerate() {
        let size = own[x + 1];
        let sides = (above_side[x + 1] == size) | (side[x] == size) | (side[x + 2] == size) | (below_side[x + 1] == size);
        let above = (above_corner[x] == size) | (above_corner[x + 2] == size);
        let below = (below_corner[x] == size) | (below_corner[x + 2] == size);
        *byte = u8::from((size != 0) & !(sides | above | below));
    }
}

/// Writes 1 at each pixel whose squared distance to some marked pixel is below that pixel's size, 0 elsewhere.
pub fn rebuild(map: &[i16], marks: &[u8], out: &mut [u8], w: usize, h: usize) {
    assert!(w <= SIDE && h <= SIDE && map.len() == 2 * w * h && marks.len() == w * h && out.len() == w * h);
    out.fill(0);
    let (map, _) = map.as_chunks();
    pass(map, marks, out, w, h, |turn| turn);
    pass(map, marks, out, w, h, |turn| h - 1 - turn);
}

/// Writes 1 at the pixels that marks of their own row or of those before it cover. The rows come in the order that `row` says.
fn pass(map: &[Pixel], marks: &[u8], out: &mut [u8], w: usize, h: usize, row: impl Fn(usize) -> usize) {
    let mut stack = [Entry::default(); SIDE];
    let mut prices = [0; SIDE];
    // the first turn that the marks so far do not cover, column by column
    let mut reaches = [0_usize; SIDE];
    for turn in 0..h {
        let from = row(turn) * w;
        price(&map[from..from + w], &marks[from..from + w], &mut stack, &mut prices[..w]);
        let columns = out[from..from + w].iter_mut().zip(&mut reaches).zip(&prices);
        for ((byte, reach), &price) in columns {
            let mut apart = reach.saturating_sub(turn);
            // the square is carried along: worked out anew in each step it makes the compiler look sixteen steps ahead, mostly for nothing
            let mut sum = (apart * apart) as u32 + price;
            while turn + apart < h && sum < NONE {
                sum += 2 * apart as u32 + 1;
                apart += 1;
            }
            *reach = turn + apart;
            *byte |= u8::from(apart > 0);
        }
    }
}

/// The least, over the marked pixels of a row, of 2³¹ less the size plus the squared distance along the row. Below 2³¹ the pixel is covered.
fn price(row: &[Pixel], marks: &[u8], stack: &mut [Entry], prices: &mut [u32]) {
    let mut costs = [0; SIDE];
    for ((cost, &pixel), &mark) in costs.iter_mut().zip(row).zip(marks) {
        *cost = if mark != 0 && pixel != UNLABELLED { NONE - size(pixel) } else { NO_SITE };
    }
    let count = envelope(costs[..row.len()].iter().copied(), stack);
    let mut rest = prices;
    for entry in stack[..count].iter().rev() {
        let (left, run) = rest.split_at_mut(entry.start as usize);
        let cost = (entry.sum - i64::from(entry.site * entry.site)) as u32;
        for (x, price) in run.iter_mut().enumerate() {
            let apart = entry.start + x as i32 - entry.site;
            *price = cost + (apart * apart) as u32;
        }
        rest = left;
    }
    rest.fill(NONE);
}
