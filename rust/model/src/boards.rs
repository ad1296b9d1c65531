//! Sheets for the tests and the benchmark.

use crate::random::Random;
use std::fmt;

/// A sheet with its sides.
#[derive(Clone)]
pub struct Board {
    /// How many columns the sheet has.
    pub w: usize,
    /// How many rows it has.
    pub h: usize,
    /// A byte a pixel, in rows from the top.
    pub sheet: Vec<u8>,
}

impl Board {
    /// A sheet with no copper.
    pub fn bare(w: usize, h: usize) -> Self {
        Board { w, h, sheet: vec![0; w * h] }
    }

    /// A sheet with copper at the given pixels.
    pub fn with(w: usize, h: usize, copper: &[(usize, usize)]) -> Self {
        let mut board = Board::bare(w, h);
        for &(x, y) in copper {
            board.sheet[y * w + x] = 1;
        }
        board
    }

    /// The sides as a call takes them.
    pub fn sides(&self) -> (u16, u16) {
        (self.w as u16, self.h as u16)
    }

    /// The copper pixels, in rows from the top.
    pub fn copper(&self) -> Vec<(u16, u16)> {
        let copper = (0..self.sheet.len()).filter(|&at| self.sheet[at] != 0);
        copper.map(|at| ((at % self.w) as u16, (at / self.w) as u16)).collect()
    }

    /// A board with copper where this one is bare. Its bytes are anything but 0.
    pub fn turned_round(&self, random: &mut Random) -> Board {
        let sheet = self.sheet.iter().map(|&byte| if byte == 0 { 1 + random.below(255) as u8 } else { 0 }).collect();
        Board { sheet, ..*self }
    }

    /// A board with copper where this one or another of the same sides has it.
    pub fn joined_with(&self, other: &Board) -> Board {
        assert_eq!(self.sides(), other.sides());
        Board { sheet: self.sheet.iter().zip(&other.sheet).map(|(one, other)| one | other).collect(), ..*self }
    }

    /// Two boards, each copper pixel of this one on either of them and not on both.
    pub fn split(&self, random: &mut Random) -> [Board; 2] {
        let mut parts = [self.clone(), self.clone()];
        for at in 0..self.sheet.len() {
            parts[random.below(2) as usize].sheet[at] = 0;
        }
        parts
    }

    /// The right half mirrored to the left (`sideways`), the lower half to the upper (`upwards`), or both.
    pub fn mirrored(&self, sideways: bool, upwards: bool) -> Board {
        let half = |n: usize, side: usize, mirrored: bool| if mirrored { n.max(side - 1 - n) } else { n };
        self.picked(|x, y| (half(x, self.w, sideways), half(y, self.h, upwards)))
    }

    /// The half of a square sheet that is below its diagonal, mirrored to the other half: x and y can be exchanged.
    pub fn mirrored_diagonally(&self) -> Board {
        assert_eq!(self.w, self.h);
        self.picked(|x, y| (x.min(y), x.max(y)))
    }

    /// A board that has at each pixel what this one has at the pixel that is told.
    fn picked(&self, pixel: impl Fn(usize, usize) -> (usize, usize)) -> Board {
        let byte = |at: usize| {
            let (x, y) = pixel(at % self.w, at / self.w);
            self.sheet[y * self.w + x]
        };
        Board { sheet: (0..self.sheet.len()).map(byte).collect(), ..*self }
    }

    /// Writes copper in a square of `2 × reach + 1` pixels around (x, y), as far as it lies on the sheet.
    fn dab(&mut self, x: usize, y: usize, reach: usize) {
        for row in y.saturating_sub(reach)..self.h.min(y + reach + 1) {
            let columns = x.saturating_sub(reach)..self.w.min(x + reach + 1);
            self.sheet[row * self.w..][..self.w][columns].fill(1);
        }
    }
}

/// The sides, and of a sheet that is not large a picture with `#` for copper.
impl fmt::Debug for Board {
    fn fmt(&self, f: &mut fmt::Formatter<'_>) -> fmt::Result {
        write!(f, "{} × {}", self.w, self.h)?;
        if self.w <= 100 && self.h <= 100 {
            for row in self.sheet.chunks(self.w) {
                let picture: String = row.iter().map(|&byte| if byte == 0 { '.' } else { '#' }).collect();
                write!(f, "\n{picture}")?;
            }
        }
        Ok(())
    }
}

/// The 4 × 4 board of document 01 (M1).
pub fn document_01() -> Board {
    Board::with(4, 4, &[(3, 0), (0, 3), (2, 2)])
}

/// Three pixels in a row, copper at the first (M5).
pub fn m5() -> Board {
    Board::with(3, 1, &[(0, 0)])
}

/// Three pixels in a row, copper at both ends (M6).
pub fn m6() -> Board {
    Board::with(3, 1, &[(0, 0), (2, 0)])
}

/// Five pixels in a row, copper at both ends (M7).
pub fn m7() -> Board {
    Board::with(5, 1, &[(0, 0), (4, 0)])
}

/// The 3 × 3 board of document 02 (C-14).
pub fn c14() -> Board {
    full(3, 3)
}

/// The 2 × 2 board of document 02 (C-16).
pub fn c16() -> Board {
    Board::with(2, 2, &[(1, 0), (0, 1)])
}

/// Three copper pixels around which 8SED misses the nearest: it has 170 at pixel (0, 0), and true is 169.
pub fn arrow_head() -> Board {
    Board::with(14, 8, &[(13, 1), (12, 5), (11, 7)])
}

/// The arrow head turned and mirrored in all eight ways.
pub fn arrow_heads() -> [Board; 8] {
    let head = arrow_head();
    std::array::from_fn(|way| {
        let turn = |(x, y): (u16, u16)| {
            let (x, y) = (usize::from(x), usize::from(y));
            let (x, y) = (if way & 1 == 0 { x } else { head.w - 1 - x }, if way & 2 == 0 { y } else { head.h - 1 - y });
            if way & 4 == 0 {
                (x, y)
            } else {
                (y, x)
            }
        };
        let (w, h) = if way & 4 == 0 { (head.w, head.h) } else { (head.h, head.w) };
        let copper: Vec<(usize, usize)> = head.copper().into_iter().map(turn).collect();
        Board::with(w, h, &copper)
    })
}

/// A board with three copper pixels, of which a quick map may miss the one that is nearest to a fourth pixel: on either side of it is
/// another, which is little farther. Where the sheet has no room for them it is bare.
pub fn arrow(w: usize, h: usize, random: &mut Random) -> Board {
    for _ in 0..10 {
        let (x, y) = (random.between(0, w - 1), random.between(0, h - 1));
        // the quadrant that has more room
        let (left, up) = (x > w - 1 - x, y > h - 1 - y);
        let (across, along) = (x.max(w - 1 - x), y.max(h - 1 - y));
        let (right, down) = (random.between(0, across), random.between(0, along));
        let size = right * right + down * down;
        let most = size + 1 + [size / 50, size / 6, size][random.below(3) as usize];
        let ways = (0..=across).flat_map(|right| (0..=along).map(move |down| (right, down)));
        let farther: Vec<_> = ways.filter(|(right, down)| (size + 1..=most).contains(&(right * right + down * down))).collect();
        let (clockwise, other): (Vec<_>, Vec<_>) = farther.into_iter().partition(|way| way.0 * down < way.1 * right);
        if clockwise.is_empty() || other.is_empty() {
            continue;
        }
        let pick = |ways: &[(usize, usize)], random: &mut Random| ways[random.between(0, ways.len() - 1)];
        let place = |(right, down): (usize, usize)| (if left { x - right } else { x + right }, if up { y - down } else { y + down });
        return Board::with(w, h, &[place((right, down)), place(pick(&clockwise, random)), place(pick(&other, random))]);
    }
    Board::bare(w, h)
}

/// Every board of `w` × `h` pixels with three copper pixels.
pub fn of_three(w: usize, h: usize) -> impl Iterator<Item = Board> {
    let place = move |at: usize| (at % w, at / w);
    let pairs = (0..w * h).flat_map(|first| (0..first).map(move |second| (first, second)));
    pairs.flat_map(move |(first, second)| (0..second).map(move |third| Board::with(w, h, &[first, second, third].map(place))))
}

/// Every board of up to so many pixels.
pub fn all_tiny(most: usize) -> impl Iterator<Item = Board> {
    let sides = (1..=most).flat_map(move |w| (1..=most / w).map(move |h| (w, h)));
    sides.flat_map(|(w, h)| (0..1_u32 << (w * h)).map(move |copper| drawn(w, h, |x, y| copper >> (y * w + x) & 1 == 1)))
}

/// A copper pixel in each corner and one near the middle.
pub fn corners_and_middle(w: usize, h: usize) -> Board {
    Board::with(w, h, &[(0, 0), (w - 1, 0), (0, h - 1), (w - 1, h - 1), (w / 2 - 1, h / 2 - 1)])
}

/// A copper pixel in the middle of each side.
pub fn middles_of_sides(w: usize, h: usize) -> Board {
    Board::with(w, h, &[(w / 2, 0), (0, h / 2), (w - 1, h / 2), (w / 2, h - 1)])
}

/// Three copper pixels, apart.
pub fn three_pixels(w: usize, h: usize) -> Board {
    Board::with(w, h, &[(w / 5, h / 3), (w / 2, h / 7), (w - 9, h - 2)])
}

/// A single copper pixel, in the middle.
pub fn one_pixel(w: usize, h: usize) -> Board {
    Board::with(w, h, &[(w / 2, h / 2)])
}

/// Copper everywhere.
pub fn full(w: usize, h: usize) -> Board {
    drawn(w, h, |_, _| true)
}

/// A line from the upper left corner down to the right.
pub fn diagonal(w: usize, h: usize) -> Board {
    drawn(w, h, |x, y| x == y)
}

/// Copper where the test says so.
pub fn drawn(w: usize, h: usize, copper: impl Fn(usize, usize) -> bool) -> Board {
    Board { w, h, sheet: (0..w * h).map(|at| u8::from(copper(at % w, at / w))).collect() }
}

/// Each pixel is copper with the given chance in a thousand. The copper bytes are 1 or any other that is not 0.
pub fn random(w: usize, h: usize, per_mille: u64, random: &mut Random) -> Board {
    let mut board = Board::bare(w, h);
    for byte in &mut board.sheet {
        if random.below(1_000) < per_mille {
            *byte = [1, 1 + random.below(255) as u8][random.below(2) as usize];
        }
    }
    board
}

/// Tracks as on a printed board: each goes east, south or, more seldom, on a diagonal, and has a pad at either end.
pub fn tracks(w: usize, h: usize, random: &mut Random) -> Board {
    let mut board = Board::bare(w, h);
    for _ in 0..(w * h).div_ceil(2_000) {
        let (x, y) = (random.below(w as u64) as usize, random.below(h as u64) as usize);
        let length = 10 + random.below(90) as usize;
        let reach = 1 + random.below(2) as usize;
        let (right, down) = [(1, 0), (1, 0), (0, 1), (0, 1), (1, 1), (-1, 1)][random.below(6) as usize];
        let mut end = (x, y);
        for _ in 0..length {
            board.dab(end.0, end.1, reach);
            let next = (end.0.wrapping_add_signed(right), end.1 + down);
            if next.0 >= w || next.1 >= h {
                break;
            }
            end = next;
        }
        board.dab(x, y, reach + 3);
        board.dab(end.0, end.1, reach + 3);
    }
    board
}

/// So many copper pixels anywhere, of which some may be the same. The bytes are anything but 0.
pub fn sprinkled(w: usize, h: usize, copper: usize, random: &mut Random) -> Board {
    let mut board = Board::bare(w, h);
    for _ in 0..copper {
        board.sheet[random.between(0, w * h - 1)] = 1 + random.below(255) as u8;
    }
    board
}

/// Copper anywhere: none, everywhere, a few pixels, a few in a thousand, or any part.
pub fn scattered(w: usize, h: usize, random: &mut Random) -> Board {
    let per_mille = match random.below(8) {
        0 => [0, 1_000, 999][random.below(3) as usize],
        1 | 2 => random.below(1_001),
        3 | 4 => random.below(80),
        _ => {
            let copper = random.between(1, 5);
            return sprinkled(w, h, copper, random);
        }
    };
    self::random(w, h, per_mille, random)
}

/// Any board: copper anywhere, or a pattern.
pub fn any(w: usize, h: usize, random: &mut Random) -> Board {
    [scattered, patterned][random.below(2) as usize](w, h, random)
}

/// Two boards of the same sides: any two, the parts of one, one twice, one and the same turned round, or one or both without copper.
pub fn any_two(w: usize, h: usize, random: &mut Random) -> [Board; 2] {
    let one = any(w, h, random);
    let mut two = match random.below(8) {
        0 => [one.clone(), one],
        1 => [one.turned_round(random), one],
        2 => [one, Board::bare(w, h)],
        3 if random.below(4) == 0 => [Board::bare(w, h), Board::bare(w, h)],
        3 | 4 => one.split(random),
        _ => [one, any(w, h, random)],
    };
    two.rotate_left(random.below(2) as usize);
    two
}

/// A pattern on which many pixels have several nearest copper pixels.
pub fn patterned(w: usize, h: usize, random: &mut Random) -> Board {
    let (a, b) = (random.between(1, 7), random.between(1, 7));
    let (column, row) = (random.between(0, w - 1), random.between(0, h - 1));
    let square = |x: usize, y: usize| x.abs_diff(column).pow(2) + y.abs_diff(row).pow(2);
    match random.below(8) {
        // a checkerboard with fields of any size
        0 => drawn(w, h, |x, y| (x / a + y / b) % 2 == 0),
        // a lattice, straight or askew
        1 => drawn(w, h, |x, y| (x + column) % a == 0 && (y + row) % b == 0),
        2 => drawn(w, h, |x, y| (x + a * y + column) % (a * b + 1) == 0),
        // diagonals, down to the right or to the left or both
        3 => drawn(w, h, |x, y| (x + h - y + column).is_multiple_of(a + b)),
        4 => drawn(w, h, |x, y| (x + y + column).is_multiple_of(a + b) || b > 3 && (x + h - y + row).is_multiple_of(a + b)),
        // a ring: copper at one squared distance from a pixel, or not below it
        5 => {
            let size = [1, 2, 4, 5, 9, 10, 25, 25, 50, 65][random.below(10) as usize];
            drawn(w, h, |x, y| square(x, y) == size || a > 4 && square(x, y) > size)
        }
        // copper anywhere, mirrored from side to side, from top to bottom or both
        _ => scattered(w, h, random).mirrored(a < 5, a > 2),
    }
}

/// The names of the benchmark's boards.
pub const BENCHMARK: [&str; 7] = ["one pixel", "3 pixels", "1 % random", "50 % random", "tracks", "diagonal", "full"];

/// The board of the benchmark that has this name, with sides of the given length.
///
/// # Panics
///
/// If no board has it.
pub fn benchmark(name: &str, side: usize) -> Board {
    let mut random = Random::new(31);
    match name {
        "one pixel" => one_pixel(side, side),
        "3 pixels" => three_pixels(side, side),
        "1 % random" => self::random(side, side, 10, &mut random),
        "50 % random" => self::random(side, side, 500, &mut random),
        "tracks" => tracks(side, side, &mut random),
        "diagonal" => diagonal(side, side),
        "full" => full(side, side),
        _ => panic!("no board of the benchmark is called '{name}'"),
    }
}

#[cfg(test)]
mod tests {
    use super::*;

    #[test]
    fn mirror_images() {
        let mut random = Random::new(6);
        for _ in 0..500 {
            let (w, h) = (random.between(1, 9), random.between(1, 9));
            for (sideways, upwards) in [(true, false), (false, true), (true, true)] {
                let board = scattered(w, h, &mut random).mirrored(sideways, upwards);
                let image = board.picked(|x, y| (if sideways { w - 1 - x } else { x }, if upwards { h - 1 - y } else { y }));
                assert_eq!(board.sheet, image.sheet, "{board:?}");
            }
            let board = scattered(w, w, &mut random).mirrored_diagonally();
            for board in [board.mirrored(true, true), board] {
                assert_eq!(board.sheet, board.picked(|x, y| (y, x)).sheet, "{board:?}");
            }
        }
    }
}
