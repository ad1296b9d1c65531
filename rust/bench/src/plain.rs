//! The scans in plain safe Rust, candidate by candidate as documents 01 and 02 state them. Nothing is assumed about which vectors can
//! occur.

type Pixel = [i16; 2];

const UNLABELLED: Pixel = [-32_768; 2];

/// A vector in 32 bits.
#[derive(Clone, Copy, PartialEq)]
struct Way {
    dx: i32,
    dy: i32,
}

/// An unlabelled pixel. One off the sheet counts as such, for neither gives a candidate.
const NONE: Way = Way { dx: -32_768, dy: -32_768 };

impl Way {
    fn of([dx, dy]: Pixel) -> Way {
        Way { dx: dx.into(), dy: dy.into() }
    }

    fn pixel(self) -> Pixel {
        [self.dx as i16, self.dy as i16]
    }

    /// The size. That of an unlabelled pixel is 2³¹, above all others.
    fn size(self) -> u32 {
        (self.dx * self.dx) as u32 + (self.dy * self.dy) as u32
    }

    /// What a pixel with this vector holds after it was offered the candidate of a neighbour at (x, y) from it.
    fn offered(self, neighbour: Way, x: i32, y: i32) -> Way {
        let candidate = Way { dx: neighbour.dx + x, dy: neighbour.dy + y };
        if neighbour != NONE && candidate.replaces(self) {
            candidate
        } else {
            self
        }
    }

    /// Whether a candidate is smaller than the present vector, or of equal size and larger in the magnitude of dx.
    fn replaces(self, present: Way) -> bool {
        self.size() < present.size() || self.size() == present.size() && self.dx.abs() > present.dx.abs()
    }
}

/// Writes the map of a sheet by 8SED (with `corners`) or 4SED (without).
pub fn scan(sheet: &[u8], map: &mut [i16], w: usize, h: usize, corners: bool) {
    assert!(w > 0 && sheet.len() == w * h && map.len() == 2 * w * h);
    let (map, _) = map.as_chunks_mut();
    for (pixel, &byte) in map.iter_mut().zip(sheet) {
        *pixel = if byte == 0 { UNLABELLED } else { [0, 0] };
    }
    for y in 0..h {
        let (before, rest) = map.split_at_mut(y * w);
        one_row(&mut rest[..w], before.rchunks(w).next(), -1, corners);
    }
    for y in (0..h).rev() {
        let (rest, after) = map.split_at_mut((y + 1) * w);
        one_row(&mut rest[y * w..], after.chunks(w).next(), 1, corners);
    }
}

/// One row of a scan, with the row at `dy` if there is one.
fn one_row(row: &mut [Pixel], beside: Option<&[Pixel]>, dy: i32, corners: bool) {
    match beside {
        Some(beside) if corners => from_three(row, beside, dy),
        Some(beside) => from_one(row, beside, dy),
        None => {}
    }
    sweep(row.iter_mut(), -1);
    sweep(row.iter_mut().rev(), 1);
}

/// Each pixel from its three neighbours in the row at `dy`, from left to right.
fn from_three(row: &mut [Pixel], beside: &[Pixel], dy: i32) {
    let (mut left, mut middle) = (NONE, Way::of(beside[0]));
    for (x, pixel) in row.iter_mut().enumerate() {
        let right = beside.get(x + 1).map_or(NONE, |&right| Way::of(right));
        let way = Way::of(*pixel).offered(left, -1, dy).offered(middle, 0, dy).offered(right, 1, dy);
        *pixel = way.pixel();
        (left, middle) = (middle, right);
    }
}

/// Each pixel from its neighbour in the row at `dy`.
fn from_one(row: &mut [Pixel], beside: &[Pixel], dy: i32) {
    for (pixel, &neighbour) in row.iter_mut().zip(beside) {
        *pixel = Way::of(*pixel).offered(Way::of(neighbour), 0, dy).pixel();
    }
}

/// Each pixel of a row from the neighbour that the sweep comes from, at `dx`.
fn sweep<'a>(row: impl Iterator<Item = &'a mut Pixel>, dx: i32) {
    let mut last = NONE;
    for pixel in row {
        last = Way::of(*pixel).offered(last, dx, 0);
        *pixel = last.pixel();
    }
}
