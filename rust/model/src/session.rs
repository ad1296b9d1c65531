//! The session, for any fields, any numbers and slices of any length: each call writes what the slices hold afterwards, and returns its
//! answer and the session.

use crate::calls::Calls;
use crate::scans::{self, UNLABELLED};
use crate::skeleton::{self, size};
use crate::{chamfer, exact, probe, resize, sides};

/// The largest q.
const MAX_Q: u32 = 4_194_304;
/// The most steps of a run.
const MAX_COUNT: u16 = 2_047;

/// The eight directions, clockwise from east, as steps to the right and down.
const DIRECTIONS: [(i64, i64); 8] = [(1, 0), (1, 1), (0, 1), (-1, 1), (-1, 0), (-1, -1), (0, -1), (1, -1)];

/// How many scratch numbers exact, expand, shrink and probe need on a sheet of `w` columns, however many rows it has.
pub fn scratch_need(w: usize) -> usize {
    4 * w
}

/// A session as it is recorded, with any numbers.
#[derive(Clone, Copy, Debug, PartialEq, Eq)]
pub struct Fields {
    /// Whether a sheet is open.
    pub opened: bool,
    /// How many columns the sheet has.
    pub width: u16,
    /// How many rows it has.
    pub height: u16,
    /// Whether the map is current.
    pub current: bool,
    /// The engine that built the map: 1 exact, 2 8SED, 3 4SED, 4 city block, 5 chessboard, 6 chamfer.
    pub engine: u16,
    /// Whether the cutter is down.
    pub lowered: bool,
    /// The column of the lowered cutter.
    pub x: u16,
    /// Its row.
    pub y: u16,
    /// Its squared radius.
    pub q: u32,
    /// Whether a closest approach is recorded.
    pub met: bool,
    /// The closest approach, 0 if none is recorded.
    pub closest: u32,
}

/// An open sheet, with its map if that is current.
#[derive(Clone, Copy, Debug, PartialEq, Eq)]
struct Open {
    w: u16,
    h: u16,
    map: Option<Current>,
}

/// A current map, with the cutter if that is down, and its closest approach if there is one.
#[derive(Clone, Copy, Debug, PartialEq, Eq)]
struct Current {
    engine: Engine,
    cutter: Option<Cutter>,
    closest: Option<u32>,
}

#[derive(Clone, Copy, Debug, PartialEq, Eq)]
enum Engine {
    Exact,
    Eight,
    Four,
    CityBlock,
    Chessboard,
    Chamfer,
}

/// A kind of map.
#[derive(Clone, Copy, Debug, PartialEq, Eq)]
pub enum Kind {
    /// Two signed numbers a pixel, dx and dy.
    Pairs,
    /// One unsigned number a pixel.
    Values,
}

/// The kind of map that build writes with an engine's number, and that place and run read if it has built the current one. A number that is
/// no engine's, also the 0 of a map that is not current, goes with the pairs.
pub fn kind(engine: u16) -> Kind {
    Engine::numbered(engine).map_or(Kind::Pairs, Engine::kind)
}

/// A map that is built.
enum Map {
    Pairs(Vec<[i16; 2]>),
    Values(Vec<u16>),
}

/// The maps that are lent to a call, of any lengths.
#[derive(Clone, Copy)]
struct Maps<'a> {
    map: &'a [i16],
    values: &'a [u16],
}

/// A lowered cutter.
#[derive(Clone, Copy, Debug, PartialEq, Eq)]
struct Cutter {
    x: u16,
    y: u16,
    q: u32,
}

/// The answer of a call that is not turned away with 30: the lowest number whose condition holds, 0 if none does.
fn answer(conditions: &[(u32, bool)]) -> u32 {
    conditions.iter().filter(|(_, holds)| *holds).map(|&(number, _)| number).min().unwrap_or(0)
}

/// The vectors of a map.
fn vectors(map: &[i16]) -> Vec<[i16; 2]> {
    map.chunks_exact(2).map(|pixel| [pixel[0], pixel[1]]).collect()
}

impl Engine {
    const ALL: [Engine; 6] = [Engine::Exact, Engine::Eight, Engine::Four, Engine::CityBlock, Engine::Chessboard, Engine::Chamfer];

    fn numbered(number: u16) -> Option<Engine> {
        Engine::ALL.into_iter().find(|engine| engine.number() == number)
    }

    fn number(self) -> u16 {
        match self {
            Engine::Exact => 1,
            Engine::Eight => 2,
            Engine::Four => 3,
            Engine::CityBlock => 4,
            Engine::Chessboard => 5,
            Engine::Chamfer => 6,
        }
    }

    fn kind(self) -> Kind {
        match self {
            Engine::Exact | Engine::Eight | Engine::Four => Kind::Pairs,
            Engine::CityBlock | Engine::Chessboard | Engine::Chamfer => Kind::Values,
        }
    }

    /// Whether a labelled pixel of this size passes the gate for q.
    fn passes(self, size: u64, q: u32) -> bool {
        let q = u64::from(q);
        match self {
            Engine::Exact => size > q,
            Engine::Eight => 144 * size > 169 * q,
            Engine::Four => size > 2 * q,
            Engine::CityBlock => size > 2 * q,
            Engine::Chessboard => size > q,
            Engine::Chamfer => size > 10 * q,
        }
    }

    /// The map of a sheet.
    fn map(self, sheet: &[u8], w: usize, h: usize) -> Map {
        let values = |weights| Map::Values(chamfer::sooner(sheet, w, h, weights));
        match self {
            Engine::Exact => Map::Pairs(exact::sooner(sheet, w, h)),
            Engine::Eight => Map::Pairs(scans::scan(sheet, w, h, true)),
            Engine::Four => Map::Pairs(scans::scan(sheet, w, h, false)),
            Engine::CityBlock => values(chamfer::CITY_BLOCK),
            Engine::Chessboard => values(chamfer::CHESSBOARD),
            Engine::Chamfer => values(chamfer::CHAMFER),
        }
    }
}

impl Maps<'_> {
    /// Whether the map of a kind has the right length for a sheet of so many pixels.
    fn fit(self, kind: Kind, pixels: usize) -> bool {
        match kind {
            Kind::Pairs => self.map.len() == 2 * pixels,
            Kind::Values => self.values.len() == pixels,
        }
    }

    /// The size of a pixel on the map of a kind: dx² + dy², or the square of the value. None if it is unlabelled.
    fn size(self, kind: Kind, at: usize) -> Option<u64> {
        match kind {
            Kind::Pairs => Some([self.map[2 * at], self.map[2 * at + 1]]).filter(|&way| way != UNLABELLED).map(size),
            Kind::Values => Some(self.values[at]).filter(|&value| value != chamfer::UNLABELLED).map(|value| u64::from(value).pow(2)),
        }
    }
}

impl Open {
    fn pixels(self) -> usize {
        usize::from(self.w) * usize::from(self.h)
    }

    fn holds(self, x: i64, y: i64) -> bool {
        (0..i64::from(self.w)).contains(&x) && (0..i64::from(self.h)).contains(&y)
    }

    /// Whether sides, pixel and q are within their limits.
    fn within_limits(self) -> bool {
        let sides = sides::allowed([self.w, self.h]);
        sides && self.cutter().is_none_or(|cutter| self.holds(cutter.x.into(), cutter.y.into()) && cutter.q <= MAX_Q)
    }

    fn cutter(self) -> Option<Cutter> {
        self.map.and_then(|map| map.cutter)
    }

    /// The same sheet with its map not current, so that the cutter is up.
    fn stale(self) -> Open {
        Open { map: None, ..self }
    }

    fn closest(self) -> Option<u32> {
        self.map.and_then(|map| map.closest)
    }

    /// The same sheet and map with another cutter and closest approach.
    fn with(self, cutter: Option<Cutter>, closest: Option<u32>) -> Open {
        Open { map: self.map.map(|map| Current { cutter, closest, ..map }), ..self }
    }

    /// The kind of map that place and run read.
    fn kind(self) -> Kind {
        self.map.map_or(Kind::Pairs, |map| map.engine.kind())
    }

    /// The size at a pixel. None if it is unlabelled or off the sheet, or if the map that is read has a wrong length.
    fn size(self, maps: Maps, (x, y): (i64, i64)) -> Option<u64> {
        let there = self.holds(x, y) && maps.fit(self.kind(), self.pixels());
        there.then(|| maps.size(self.kind(), y as usize * usize::from(self.w) + x as usize)).flatten()
    }

    /// The least size of the labelled ones among pixels of the sheet.
    fn least(self, maps: Maps, pixels: &[(i64, i64)]) -> Option<u32> {
        pixels.iter().filter_map(|&pixel| self.size(maps, pixel)).map(|size| size as u32).min()
    }

    /// Whether the gate fails at a pixel for q. None fails where there is no size, or if no map is current.
    fn fails(self, maps: Maps, pixel: (i64, i64), q: u32) -> bool {
        self.map.is_some_and(|map| self.size(maps, pixel).is_some_and(|size| !map.engine.passes(size, q)))
    }
}

impl Fields {
    /// Nothing open, map not current, cutter up.
    pub const FRESH: Fields =
        Fields { opened: false, width: 0, height: 0, current: false, engine: 0, lowered: false, x: 0, y: 0, q: 0, met: false, closest: 0 };

    /// How an open sheet is recorded, or that nothing is open.
    fn of(open: Option<Open>) -> Fields {
        let Some(open) = open else { return Fields::FRESH };
        let Cutter { x, y, q } = open.cutter().unwrap_or(Cutter { x: 0, y: 0, q: 0 });
        Fields {
            opened: true,
            width: open.w,
            height: open.h,
            current: open.map.is_some(),
            engine: open.map.map_or(0, |map| map.engine.number()),
            lowered: open.cutter().is_some(),
            x,
            y,
            q,
            met: open.closest().is_some(),
            closest: open.closest().unwrap_or(0),
        }
    }

    /// What is open. Nothing is in a session that counts as such: one outside the limits, or one that holds anything beyond what
    /// is recorded of the sheet, map, cutter and closest approach that it names.
    fn read(self) -> Option<Open> {
        let cutter = self.lowered.then_some(Cutter { x: self.x, y: self.y, q: self.q });
        let closest = self.met.then_some(self.closest);
        let map = Engine::numbered(self.engine).filter(|_| self.current).map(|engine| Current { engine, cutter, closest });
        let open = Open { w: self.width, h: self.height, map };
        (open.within_limits() && Fields::of(Some(open)) == self).then_some(open)
    }

    /// Whether nothing is open, or the session counts as such.
    pub fn closed(self) -> bool {
        self.read().is_none()
    }

    /// Writes a byte in a rectangle.
    fn fill(self, sheet: &mut [u8], rectangle: [u16; 4], byte: u8) -> (u32, Fields) {
        let Some(open) = self.read() else { return (30, self) };
        let [x, y, w, h] = rectangle.map(i64::from);
        let outside = w == 0 || h == 0 || !open.holds(x, y) || !open.holds(x + w - 1, y + h - 1);
        let answer = answer(&[(12, sheet.len() != open.pixels()), (13, outside)]);
        if answer != 0 {
            return (answer, self);
        }
        for (at, pixel) in sheet.iter_mut().enumerate() {
            let (column, row) = (at as i64 % i64::from(open.w), at as i64 / i64::from(open.w));
            if (x..x + w).contains(&column) && (y..y + h).contains(&row) {
                *pixel = byte;
            }
        }
        (0, Fields::of(Some(open.stale())))
    }

    /// Expand and shrink: the sheet takes what `resized` makes of it.
    fn resize(
        self,
        sheet: &mut [u8],
        map: &mut [i16],
        scratch: &mut [i16],
        q: u32,
        resized: fn(&[u8], usize, usize, u32) -> Vec<u8>,
    ) -> (u32, Fields) {
        let Some(open) = self.read() else { return (30, self) };
        let (pixels, need) = (open.pixels(), scratch_need(open.w.into()));
        let answer = answer(&[(12, sheet.len() != pixels || map.len() != 2 * pixels || scratch.len() < need), (15, q > MAX_Q)]);
        if answer != 0 {
            return (answer, self);
        }
        let after = resized(sheet, open.w.into(), open.h.into(), q);
        sheet.copy_from_slice(&after);
        map.as_chunks_mut::<2>().0.fill(UNLABELLED);
        scratch[..need].fill(0);
        (0, Fields::of(Some(open.stale())))
    }

    /// Skeleton and rebuild: out takes what is drawn from the map. The lengths are those of the slices with a byte a pixel.
    fn read_map(
        self,
        map: &[i16],
        out: &mut [u8],
        lengths: &[usize],
        drawn: impl FnOnce(&[[i16; 2]], usize, usize) -> Vec<u8>,
    ) -> (u32, Fields) {
        let Some(open) = self.read() else { return (30, self) };
        let pixels = open.pixels();
        let ways = vectors(map);
        let answer = answer(&[
            (12, map.len() != 2 * pixels || lengths.iter().any(|&length| length != pixels)),
            (31, open.map.is_none()),
            (36, open.map.is_some_and(|map| map.engine != Engine::Exact)),
            (37, ways.iter().all(|&way| size(way) != 0)),
        ]);
        if answer == 0 {
            out.copy_from_slice(&drawn(&ways, open.w.into(), open.h.into()));
        }
        (answer, self)
    }
}

impl Calls for Fields {
    fn fresh() -> Self {
        Fields::FRESH
    }

    fn open(self, sheet: &mut [u8], w: u16, h: u16) -> (u32, Fields) {
        let open = Open { w, h, map: None };
        let answer = answer(&[(11, !open.within_limits()), (12, sheet.len() != open.pixels())]);
        if answer != 0 {
            return (answer, self);
        }
        sheet.fill(0);
        (0, Fields::of(Some(open)))
    }

    fn paint(self, sheet: &mut [u8], x: u16, y: u16, w: u16, h: u16) -> (u32, Fields) {
        self.fill(sheet, [x, y, w, h], 1)
    }

    fn erase(self, sheet: &mut [u8], x: u16, y: u16, w: u16, h: u16) -> (u32, Fields) {
        self.fill(sheet, [x, y, w, h], 0)
    }

    fn build(self, sheet: &[u8], map: &mut [i16], values: &mut [u16], scratch: &mut [i16], engine: u16) -> (u32, Fields) {
        let Some(open) = self.read() else { return (30, self) };
        let (pixels, need) = (open.pixels(), scratch_need(open.w.into()));
        let fit = sheet.len() == pixels && Maps { map, values }.fit(kind(engine), pixels);
        let engine = Engine::numbered(engine);
        let short = engine == Some(Engine::Exact) && scratch.len() < need;
        let answer = answer(&[(12, !fit || short), (14, engine.is_none())]);
        let Some(engine) = engine.filter(|_| answer == 0) else { return (answer, self) };
        match engine.map(sheet, open.w.into(), open.h.into()) {
            Map::Pairs(built) => map.copy_from_slice(built.as_flattened()),
            Map::Values(built) => values.copy_from_slice(&built),
        }
        if engine == Engine::Exact {
            scratch[..need].fill(0);
        }
        (0, Fields::of(Some(Open { map: Some(Current { engine, cutter: None, closest: None }), ..open })))
    }

    fn place(self, map: &[i16], values: &[u16], x: u16, y: u16, q: u32) -> (u32, Fields) {
        let Some(open) = self.read() else { return (30, self) };
        let (maps, pixel) = (Maps { map, values }, (x.into(), y.into()));
        let answer = answer(&[
            (12, !maps.fit(open.kind(), open.pixels())),
            (15, q > MAX_Q),
            (16, !open.holds(pixel.0, pixel.1)),
            (31, open.map.is_none()),
            (34, open.fails(maps, pixel, q)),
        ]);
        if answer != 0 {
            return (answer, self);
        }
        (0, Fields::of(Some(open.with(Some(Cutter { x, y, q }), open.least(maps, &[pixel])))))
    }

    fn run(self, map: &[i16], values: &[u16], direction: u16, count: u16) -> (u32, Fields) {
        let Some(open) = self.read() else { return (30, self) };
        let maps = Maps { map, values };
        let step = DIRECTIONS.get(usize::from(direction));
        // the pixels after the start; there are none without a cutter or a direction
        let path: Vec<(i64, i64)> = match (open.cutter(), step) {
            (Some(start), Some((right, down))) => {
                let after = |steps: i64| (i64::from(start.x) + steps * right, i64::from(start.y) + steps * down);
                (1..=i64::from(count)).map(after).collect()
            }
            _ => Vec::new(),
        };
        let q = open.cutter().map_or(0, |cutter| cutter.q);
        let answer = answer(&[
            (12, !maps.fit(open.kind(), open.pixels())),
            (17, step.is_none() || !(1..=MAX_COUNT).contains(&count)),
            (32, open.cutter().is_none()),
            (33, path.iter().any(|&(x, y)| !open.holds(x, y))),
            (34, path.iter().any(|&pixel| open.fails(maps, pixel, q))),
        ]);
        let Some(&(x, y)) = path.last().filter(|_| answer == 0) else { return (answer, self) };
        let closest = open.least(maps, &path).into_iter().chain(open.closest()).min();
        (0, Fields::of(Some(open.with(Some(Cutter { x: x as u16, y: y as u16, q }), closest))))
    }

    fn lift(self) -> (u32, Fields) {
        (0, Fields::of(self.read().map(|open| open.with(None, open.closest()))))
    }

    fn expand(self, sheet: &mut [u8], map: &mut [i16], scratch: &mut [i16], q: u32) -> (u32, Fields) {
        self.resize(sheet, map, scratch, q, resize::expand_by_map)
    }

    fn shrink(self, sheet: &mut [u8], map: &mut [i16], scratch: &mut [i16], q: u32) -> (u32, Fields) {
        self.resize(sheet, map, scratch, q, resize::shrink_by_map)
    }

    fn skeleton(self, map: &[i16], out: &mut [u8]) -> (u32, Fields) {
        let pixels = out.len();
        self.read_map(map, out, &[pixels], skeleton::skeleton)
    }

    fn rebuild(self, map: &[i16], marks: &[u8], out: &mut [u8]) -> (u32, Fields) {
        let pixels = out.len();
        self.read_map(map, out, &[pixels, marks.len()], |map, w, h| skeleton::rebuild(map, marks, w, h))
    }

    fn probe(self, sheet: &[u8], points: &[u16], scratch: &mut [i16], out: &mut [u32]) -> (u32, u32, Fields) {
        let Some(open) = self.read() else { return (30, 0, self) };
        let need = scratch_need(open.w.into());
        let fit = sheet.len() == open.pixels() && scratch.len() >= need && points.len() == 2 * out.len();
        let (points, _) = points.as_chunks();
        let answer = answer(&[
            (12, !fit),
            (16, points.iter().any(|&[x, y]| !open.holds(x.into(), y.into()))),
            (43, points.windows(2).any(|two| two[1][1] < two[0][1])),
        ]);
        if answer != 0 {
            return (answer, 0, self);
        }
        out.copy_from_slice(&probe::distances(sheet, open.w.into(), points));
        scratch[..need].fill(0);
        (0, probe::rows(points), self)
    }

    fn map_row(self, map: &[i16], y: u16) -> &[i16] {
        match self.read() {
            Some(open) if y < open.h && map.len() == 2 * open.pixels() => {
                let row = 2 * usize::from(open.w);
                &map[usize::from(y) * row..][..row]
            }
            _ => &map[..0],
        }
    }
}

#[cfg(test)]
mod tests {
    use super::*;

    /// Engines 4 to 6 have values. Everything else has pairs, also what is no engine.
    #[test]
    fn kinds() {
        for engine in (0..=9).chain([255, 256, 260, 32_772, 65_535]) {
            let expected = if (4..=6).contains(&engine) { Kind::Values } else { Kind::Pairs };
            assert_eq!(kind(engine), expected, "{engine}");
        }
    }

    /// On one engine's map the values are read, on another's the pairs.
    #[test]
    fn sizes() {
        let maps = Maps { map: &[3, -4, -32_768, -32_768, -32_768, 0], values: &[7, 65_535, 65_534] };
        assert_eq!([0, 1, 2].map(|at| maps.size(Kind::Pairs, at)), [Some(25), None, Some(1_073_741_824)]);
        assert_eq!([0, 1, 2].map(|at| maps.size(Kind::Values, at)), [Some(49), None, Some(4_294_705_156)]);
    }

    /// The largest q that passes for a pixel of size 676 by each engine, and the next.
    #[test]
    fn gates() {
        for (engine, most) in Engine::ALL.into_iter().zip([675, 575, 337, 337, 675, 67]) {
            assert!(engine.passes(676, most) && !engine.passes(676, most + 1), "{engine:?}");
        }
    }
}
