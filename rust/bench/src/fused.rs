//! The scans in safe Rust once more, tuned: a variant that relies on facts about the maps that a scan can reach. It works in the map alone.
//!
//! After its two sweeps a row is labelled throughout or not at all. So a neighbour in the row above or below is unlabelled only if all of
//! that row is, and then the row gives nothing; and a sweep meets unlabelled neighbours only before the first labelled pixel. Hence the pass
//! from the row above or below and the sweep to the right become one, with next to no tests in it. A row gets its start values just before
//! its turn.

type Pixel = [i16; 2];

const UNLABELLED: Pixel = [-32_768; 2];

/// A vector with its key, 2³² × its size + dy²: among equal sizes the smaller dy² is the larger dx in magnitude, so that one comparison of
/// keys says which vector replaces the other. The key of an unlabelled pixel is 2⁶³ + 2³⁰, above all others.
#[derive(Clone, Copy)]
struct Way {
    dx: i32,
    dy: i32,
    key: u64,
}

impl Way {
    fn of([dx, dy]: Pixel) -> Way {
        let (dx, dy) = (i32::from(dx), i32::from(dy));
        let (across, down) = ((dx * dx) as u64, (dy * dy) as u64);
        Way { dx, dy, key: ((across + down) << 32) + down }
    }

    fn pixel(self) -> Pixel {
        [self.dx as i16, self.dy as i16]
    }

    /// The candidate of a neighbour with this vector at (x, y) from the pixel.
    fn at(self, x: i32, y: i32) -> Way {
        // what the step adds to dx² and to dy²
        let across = i64::from(2 * self.dx * x + x * x);
        let down = i64::from(2 * self.dy * y + y * y);
        Way { dx: self.dx + x, dy: self.dy + y, key: self.key.wrapping_add_signed(((across + down) << 32) + down) }
    }

    /// The candidate if it replaces this one, otherwise this one.
    fn or(self, candidate: Way) -> Way {
        if candidate.key < self.key {
            candidate
        } else {
            self
        }
    }
}

/// Writes the map of a sheet by 8SED (with `corners`) or 4SED (without).
pub fn scan(sheet: &[u8], map: &mut [i16], w: usize, h: usize, corners: bool) {
    assert!(w > 0 && sheet.len() == w * h && map.len() == 2 * w * h);
    let (map, _) = map.as_chunks_mut();
    if corners {
        scans::<true>(sheet, map, w, h)
    } else {
        scans::<false>(sheet, map, w, h)
    }
}

fn scans<const CORNERS: bool>(sheet: &[u8], map: &mut [Pixel], w: usize, h: usize) {
    for y in 0..h {
        let (above, rest) = map.split_at_mut(y * w);
        let row = &mut rest[..w];
        for (pixel, &byte) in row.iter_mut().zip(&sheet[y * w..]) {
            *pixel = if byte == 0 { UNLABELLED } else { [0, 0] };
        }
        one_row::<CORNERS, -1>(row, above.rchunks(w).next());
    }
    for y in (0..h).rev() {
        let (rest, below) = map.split_at_mut((y + 1) * w);
        one_row::<CORNERS, 1>(&mut rest[y * w..], below.chunks(w).next());
    }
}

/// One row of a scan, with the row at `DY` if there is one.
fn one_row<const CORNERS: bool, const DY: i32>(row: &mut [Pixel], beside: Option<&[Pixel]>) {
    match beside {
        Some(beside) if beside[0] != UNLABELLED => beside_and_left::<CORNERS, DY>(row, beside),
        _ => sweep::<-1>(row.iter_mut()),
    }
    sweep::<1>(row.iter_mut().rev());
}

/// Each pixel from the labelled row at `DY` and in the same pass from its left neighbour.
fn beside_and_left<const CORNERS: bool, const DY: i32>(row: &mut [Pixel], beside: &[Pixel]) {
    let w = row.len();
    let beside = &beside[..w];
    // the candidates of the row beside, before the step to the side that a corner adds
    let mut straight = Way::of(beside[0]).at(0, DY);
    let mut corner = straight;
    let mut left = Way::of(row[0]).or(straight);
    if CORNERS && w > 1 {
        straight = Way::of(beside[1]).at(0, DY);
        left = left.or(straight.at(1, 0));
    }
    row[0] = left.pixel();
    for x in 1..w {
        let mut way = Way::of(row[x]);
        if CORNERS {
            way = way.or(corner.at(-1, 0)).or(straight);
            if x + 1 < w {
                let next = Way::of(beside[x + 1]).at(0, DY);
                way = way.or(next.at(1, 0));
                (corner, straight) = (straight, next);
            }
        } else {
            straight = Way::of(beside[x]).at(0, DY);
            way = way.or(straight);
        }
        left = way.or(left.at(-1, 0));
        row[x] = left.pixel();
    }
}

/// Each pixel of a row from the neighbour that the sweep comes from, at `DX`.
fn sweep<'a, const DX: i32>(mut row: impl Iterator<Item = &'a mut Pixel>) {
    let Some(first) = row.find(|pixel| **pixel != UNLABELLED) else { return };
    let mut neighbour = Way::of(*first);
    for pixel in row {
        let candidate = neighbour.at(DX, 0);
        neighbour = Way::of(*pixel);
        if candidate.key < neighbour.key {
            neighbour = candidate;
            *pixel = candidate.pixel();
        }
    }
}
