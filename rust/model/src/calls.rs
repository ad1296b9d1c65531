//! The calls of the session as one trait, so that a test or a list of calls can be made of the model or of the library.

use crate::session::Fields;

/// A session and its calls. Each takes the session by value and hands it back behind its answer number, which is 0 if the call was done.
/// Lent as `map` are the pairs, two numbers a pixel, and as `values` the maps with one number a pixel.
pub trait Calls: Copy + From<Fields> + Into<Fields> {
    /// A session with nothing open, the map not current, the cutter up.
    fn fresh() -> Self;

    /// Opens a sheet of `w` × `h` pixels.
    fn open(self, sheet: &mut [u8], w: u16, h: u16) -> (u32, Self);

    /// Paints the rectangle of `w` × `h` pixels from (x, y).
    fn paint(self, sheet: &mut [u8], x: u16, y: u16, w: u16, h: u16) -> (u32, Self);

    /// Erases a rectangle.
    fn erase(self, sheet: &mut [u8], x: u16, y: u16, w: u16, h: u16) -> (u32, Self);

    /// Builds a map: the pairs by engine 1 exact, 2 8SED or 3 4SED, the values by 4 city block, 5 chessboard or 6 chamfer.
    fn build(self, sheet: &[u8], map: &mut [i16], values: &mut [u16], scratch: &mut [i16], engine: u16) -> (u32, Self);

    /// Places the cutter at (x, y) with q.
    fn place(self, map: &[i16], values: &[u16], x: u16, y: u16, q: u32) -> (u32, Self);

    /// Runs the lowered cutter `count` steps in one of the eight directions.
    fn run(self, map: &[i16], values: &[u16], direction: u16, count: u16) -> (u32, Self);

    /// Lifts the cutter.
    fn lift(self) -> (u32, Self);

    /// Expands the copper by q.
    fn expand(self, sheet: &mut [u8], map: &mut [i16], scratch: &mut [i16], q: u32) -> (u32, Self);

    /// Shrinks the copper by q.
    fn shrink(self, sheet: &mut [u8], map: &mut [i16], scratch: &mut [i16], q: u32) -> (u32, Self);

    /// Writes the skeleton of the current exact map.
    fn skeleton(self, map: &[i16], out: &mut [u8]) -> (u32, Self);

    /// Writes what the marked pixels of the current exact map cover.
    fn rebuild(self, map: &[i16], marks: &[u8], out: &mut [u8]) -> (u32, Self);

    /// Writes the true squared distances of points, x then y, whose rows do not decrease. Behind the answer number it hands back how many
    /// different rows they have.
    fn probe(self, sheet: &[u8], points: &[u16], scratch: &mut [i16], out: &mut [u32]) -> (u32, u32, Self);

    /// The part of the map that holds row y, or an empty part from its start.
    fn map_row(self, map: &[i16], y: u16) -> &[i16];
}
