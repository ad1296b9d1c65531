//! The plain board of document 01 with the pixels visited of document 02, and what the lists of calls promise of it. It is fed each call's
//! numbers, points and answer alone, and is told when something else has written the maps. All distances are by brute force.

use crate::calls::{Call, Slices};
use model::session::Fields;
use model::skeleton::size;
use std::collections::BTreeSet;
use std::fmt::Debug;

/// A pixel, which may be off the sheet.
type Pixel = (i64, i64);

/// Sides, copper, engine, the lowered cutter, and the pixels visited since the last placing that was done. The maps are the session's own
/// if nothing else has written them since the last build that was done.
#[derive(Debug)]
pub struct Board {
    w: u16,
    h: u16,
    copper: BTreeSet<Pixel>,
    engine: u16,
    cutter: Option<(Pixel, u32)>,
    visited: BTreeSet<Pixel>,
    own: bool,
}

/// Nothing is open, and nothing else has written the maps.
impl Default for Board {
    fn default() -> Self {
        Board { w: 0, h: 0, copper: BTreeSet::new(), engine: 0, cutter: None, visited: BTreeSet::new(), own: true }
    }
}

/// What the list holds after a call.
pub struct Left<'a> {
    /// The session.
    pub session: &'a Fields,
    /// The sheet.
    pub sheet: &'a [u8],
    /// The pairs.
    pub map: &'a [i16],
    /// The values.
    pub values: &'a [u16],
    /// What the call was lent, as the call left it.
    pub slices: &'a Slices,
}

impl Left<'_> {
    /// The size of a pixel on the map that an engine has built, none if it is unlabelled: the square of a value, otherwise dx² + dy².
    fn size(&self, engine: u16, at: usize) -> Option<u64> {
        if weights(engine).is_some() {
            let value = self.values[at];
            return (value != 65_535).then_some(u64::from(value).pow(2));
        }
        let way = [self.map[2 * at], self.map[2 * at + 1]];
        (way != [i16::MIN; 2]).then(|| size(way))
    }
}

/// What a side step and a corner step cost on the values of an engine. None if it writes no values.
fn weights(engine: u16) -> Option<[u64; 2]> {
    match engine {
        4 => Some([1, 2]),
        5 => Some([1, 1]),
        6 => Some([3, 4]),
        _ => None,
    }
}

/// How far a pixel is from copper at most if the gate of an engine has turned the cutter away there.
fn refused_within(engine: u16, q: u32) -> u64 {
    let q = u64::from(q);
    match engine {
        1 => q,
        2 => 169 * q / 144,
        3..=5 => 2 * q,
        _ => 5 * q / 4,
    }
}

/// Ratios in which the steps of a run are divided.
const RATIOS: [[i64; 2]; 5] = [[1, 1], [1, 2], [2, 1], [1, 9], [5, 3]];

fn apart((x, y): Pixel, (column, row): Pixel) -> u64 {
    ((x - column).pow(2) + (y - row).pow(2)) as u64
}

/// What a way from one pixel to another costs: corner steps as far as both offsets go, and side steps for what is left of one.
fn cost([side, corner]: [u64; 2], (x, y): Pixel, (column, row): Pixel) -> u64 {
    let (across, along) = (x.abs_diff(column), y.abs_diff(row));
    side * across.abs_diff(along) + corner * across.min(along)
}

/// The pixels of a rectangle.
fn rectangle<N: Into<i64>>(corner: [N; 2], sides: [N; 2]) -> impl Iterator<Item = Pixel> {
    let ([x, y], [w, h]) = (corner.map(N::into), sides.map(N::into));
    (y..y + h).flat_map(move |row| (x..x + w).map(move |column| (column, row)))
}

impl Board {
    fn pixels(&self) -> impl Iterator<Item = Pixel> {
        rectangle([0, 0], [self.w, self.h])
    }

    /// The pixels of the sheet and of a frame of one around it. Any beyond is farther from the whole sheet than the frame's nearest to it.
    fn framed(&self) -> impl Iterator<Item = Pixel> {
        rectangle([-1, -1], [self.w, self.h].map(|side| i64::from(side) + 2))
    }

    /// Whether some copper is within q of a pixel.
    fn near(&self, pixel: Pixel, q: u64) -> bool {
        self.copper.iter().any(|&copper| apart(copper, pixel) <= q)
    }

    /// Whether some copper is within q of a point that divides the way from one pixel to another in one of the ratios. All is m + n times as
    /// large as it would be.
    fn near_between(&self, (x, y): Pixel, (u, v): Pixel, q: u64) -> bool {
        RATIOS.iter().any(|&[m, n]| {
            let (times, point) = (m + n, (n * x + m * u, n * y + m * v));
            self.copper.iter().any(|&(column, row)| apart((times * column, times * row), point) <= times.pow(2) as u64 * q)
        })
    }

    /// The pixels that a place or run brings the cutter to if it is done, and their q.
    fn tested(&self, call: Call) -> Vec<(Pixel, u32)> {
        match call {
            Call::Place { x, y, q } => vec![((x.into(), y.into()), q)],
            Call::Run { direction, count } => {
                let Some(((x, y), q)) = self.cutter else { return Vec::new() };
                // clockwise from east: right in 7, 0 and 1, left in 3, 4 and 5, down in 1, 2 and 3, up in 5, 6 and 7
                let right = i64::from([7, 0, 1].contains(&direction)) - i64::from([3, 4, 5].contains(&direction));
                let down = i64::from([1, 2, 3].contains(&direction)) - i64::from([5, 6, 7].contains(&direction));
                (1..=i64::from(count)).map(|step| ((x + step * right, y + step * down), q)).collect()
            }
            _ => Vec::new(),
        }
    }

    /// Feeds the board a call that was done.
    fn done(&mut self, call: Call) {
        match call {
            Call::Open { w, h } => *self = Board { w, h, own: self.own, ..Board::default() },
            Call::Paint { x, y, w, h } => self.copper.extend(rectangle([x, y], [w, h])),
            Call::Erase { x, y, w, h } => rectangle([x, y], [w, h]).for_each(|pixel| {
                self.copper.remove(&pixel);
            }),
            Call::Build { engine } => (self.engine, self.own) = (engine, true),
            Call::Place { .. } | Call::Run { .. } => {
                let tested = self.tested(call);
                if matches!(call, Call::Place { .. }) {
                    self.visited.clear();
                }
                self.visited.extend(tested.iter().map(|&(pixel, _)| pixel));
                self.cutter = tested.last().copied();
            }
            Call::Lift => self.cutter = None,
            Call::Expand { q } => self.copper = self.pixels().filter(|&pixel| self.near(pixel, q.into())).collect(),
            Call::Shrink { q } => {
                let bare: Vec<Pixel> = self.framed().filter(|pixel| !self.copper.contains(pixel)).collect();
                self.copper.retain(|&pixel| bare.iter().all(|&bare| apart(bare, pixel) > q.into()));
            }
            Call::Skeleton | Call::Rebuild | Call::Probe => {}
        }
        if let Call::Paint { .. } | Call::Erase { .. } | Call::Expand { .. } | Call::Shrink { .. } = call {
            self.engine = 0;
        }
        if let Call::Paint { .. } | Call::Erase { .. } | Call::Expand { .. } | Call::Shrink { .. } | Call::Build { .. } = call {
            self.cutter = None;
            self.visited.clear();
        }
    }

    /// Tells the board that something else than a call has written the maps. What is promised over them lapses until a build is done.
    pub fn written(&mut self) {
        self.own = false;
    }

    /// Feeds the board a call and its answer, and asserts what is promised of every call of a list: a probe tells the distances of its
    /// points; session and sheet agree with the board. While the maps are the session's own this is promised too: a cutter that is brought
    /// down or run comes to no pixel with copper within q, and on the way of a run to no such point; one that is turned away with 34 had a
    /// pixel with copper within q, or on the quick maps and the drafts within the engine's fraction of it; the closest approach is
    /// recorded.
    pub fn feed(&mut self, call: Call, answer: u32, left: &Left, about: &impl Debug) {
        let tested = self.tested(call);
        let on_sheet = |(x, y): Pixel| (0..self.w.into()).contains(&x) && (0..self.h.into()).contains(&y);
        let all_on_sheet = tested.iter().all(|&(pixel, _)| on_sheet(pixel));
        assert!(![0, 34].contains(&answer) || all_on_sheet, "{answer} off the sheet: {about:?}");
        assert!(answer != 34 || self.engine != 0, "34 without a map: {about:?}");
        if self.own {
            self.gated(call, answer, &tested, about);
        }
        if answer == 0 {
            if call == Call::Probe {
                self.probed(left.slices, about);
            }
            self.done(call);
        }
        self.agrees(left.session, left.sheet, about);
        if self.own {
            self.stands_clear(about);
            self.approached(left, about);
        }
    }

    /// Asserts what the gate promises of a place or run that is done, and of one that is turned away with 34.
    fn gated(&self, call: Call, answer: u32, tested: &[(Pixel, u32)], about: &impl Debug) {
        match answer {
            0 => {
                for &(pixel, q) in tested {
                    assert!(!self.near(pixel, q.into()), "copper within {q} of {pixel:?}: {about:?}");
                }
                if let (Call::Run { .. }, Some(start)) = (call, self.cutter) {
                    for (&(from, q), &(to, _)) in std::iter::once(&start).chain(tested).zip(tested) {
                        assert!(!self.near_between(from, to, q.into()), "copper within {q} between {from:?} and {to:?}: {about:?}");
                    }
                }
            }
            34 => {
                let within = |&(pixel, q): &(Pixel, u32)| self.near(pixel, refused_within(self.engine, q));
                assert!(tested.iter().any(within), "34 with all copper far off: {about:?}");
            }
            _ => {}
        }
    }

    /// Asserts that a lowered cutter stands clear of copper.
    fn stands_clear(&self, about: &impl Debug) {
        if let Some((pixel, q)) = self.cutter {
            assert!(!self.near(pixel, q.into()), "copper within {q} of the cutter: {about:?}");
        }
    }

    /// Asserts that a probe has told for each point the least squared distance to copper, or without copper the largest number that there
    /// is, and in how many rows the points are.
    fn probed(&self, slices: &Slices, about: &impl Debug) {
        let points: Vec<Pixel> = slices.points.chunks(2).map(|point| (point[0].into(), point[1].into())).collect();
        let distance = |&point: &Pixel| self.copper.iter().map(|&copper| apart(copper, point)).min().unwrap_or(u32::MAX.into());
        let told = slices.distances.iter().map(|&number| u64::from(number));
        assert!(points.iter().map(distance).eq(told), "the distances {:?}: {about:?}", slices.distances);
        let rows: BTreeSet<i64> = points.iter().map(|&(_, y)| y).collect();
        assert_eq!(slices.rows as usize, rows.len(), "the rows: {about:?}");
    }

    /// Asserts that the closest approach is the least size on the map of the pixels visited. On an exact map it is the least squared distance
    /// from one of them to copper, and on a draft the square of what the cheapest way costs.
    fn approached(&self, left: &Left, about: &impl Debug) {
        let recorded = left.session.met.then_some(u64::from(left.session.closest));
        let sizes = self.visited.iter().filter_map(|&(x, y)| left.size(self.engine, (y * i64::from(self.w) + x) as usize));
        assert_eq!(recorded, sizes.min(), "the closest approach: {about:?}");
        let ways = self.visited.iter().flat_map(|&pixel| self.copper.iter().map(move |&copper| (copper, pixel)));
        if self.engine == 1 {
            let distances = ways.map(|(copper, pixel)| apart(copper, pixel));
            assert_eq!(recorded, distances.min(), "the closest approach to copper: {about:?}");
        } else if let Some(weights) = weights(self.engine) {
            let costs = ways.map(|(copper, pixel)| cost(weights, copper, pixel).pow(2));
            assert_eq!(recorded, costs.min(), "the closest approach by steps: {about:?}");
        }
    }

    /// Asserts that session and sheet agree with the board.
    fn agrees(&self, session: &Fields, sheet: &[u8], about: &impl Debug) {
        assert_eq!((session.width, session.height, session.engine), (self.w, self.h, self.engine), "sides and engine: {about:?}");
        assert_eq!((session.opened, session.current), (self.w != 0, self.engine != 0), "open and current: {about:?}");
        let cutter = session.lowered.then_some(((session.x.into(), session.y.into()), session.q));
        assert_eq!(cutter, self.cutter, "the cutter: {about:?}");
        if session.opened {
            let agrees = |(pixel, &byte): (Pixel, &u8)| (byte != 0) == self.copper.contains(&pixel);
            assert!(sheet.len() == self.pixels().count() && self.pixels().zip(sheet).all(agrees), "the copper: {about:?}");
        }
    }
}

#[cfg(test)]
mod tests {
    use super::*;

    const OPEN: Fields = Fields { opened: true, width: 3, height: 1, ..Fields::FRESH };
    const BUILT: Fields = Fields { current: true, engine: 1, ..OPEN };
    const BUILD: Call = Call::Build { engine: 1 };
    const ON_COPPER: Call = Call::Place { x: 0, y: 0, q: 1 };
    const FAR_OFF: Call = Call::Place { x: 2, y: 0, q: 1 };

    /// Feeds a board a call that leaves this session, the map of three pixels in a row and copper at the first.
    fn feed(board: &mut Board, call: Call, answer: u32, session: Fields) {
        let (sheet, map, slices) = ([u8::from(session.current), 0, 0], [0, 0, -1, 0, -2, 0], Slices::default());
        board.feed(call, answer, &Left { session: &session, sheet: &sheet, map: &map, values: &[], slices: &slices }, &"a test");
    }

    /// A board with that copper and its exact map.
    fn built() -> Board {
        let mut board = Board { copper: BTreeSet::from([(0, 0)]), w: 3, h: 1, ..Board::default() };
        feed(&mut board, BUILD, 0, BUILT);
        board
    }

    /// The same after something else has written the maps, and after one more build.
    fn lapsed() -> Board {
        let mut board = built();
        board.written();
        board
    }

    fn built_again() -> Board {
        let mut board = lapsed();
        feed(&mut board, BUILD, 0, BUILT);
        board
    }

    /// The session with the cutter down on the copper, which no gate lets it. The size recorded there is on no map.
    fn down() -> Fields {
        Fields { lowered: true, q: 1, met: true, closest: 9, ..BUILT }
    }

    /// A wrong answer of either kind on a board.
    fn wrong(board: &mut Board, answer: u32) {
        match answer {
            0 => feed(board, ON_COPPER, 0, down()),
            _ => feed(board, FAR_OFF, 34, BUILT),
        }
    }

    #[test]
    #[should_panic(expected = "copper within 1 of (0, 0)")]
    fn passes_every_cutter() {
        wrong(&mut built(), 0);
    }

    #[test]
    #[should_panic(expected = "34 with all copper far off")]
    fn turns_all_away() {
        wrong(&mut built(), 34);
    }

    /// After a write by something else neither is claimed, nor are they after an opening, which builds nothing.
    #[test]
    fn lapse() {
        for answer in [0, 34] {
            wrong(&mut lapsed(), answer);
            let mut board = lapsed();
            feed(&mut board, Call::Open { w: 3, h: 1 }, 0, OPEN);
            assert!(!board.own);
        }
    }

    /// A build that is refused does not bring the claims back.
    #[test]
    fn lapse_over_refused_build() {
        for answer in [0, 34] {
            let mut board = lapsed();
            feed(&mut board, Call::Build { engine: 7 }, 14, BUILT);
            wrong(&mut board, answer);
        }
    }

    #[test]
    #[should_panic(expected = "copper within 1 of (0, 0)")]
    fn claims_after_build() {
        wrong(&mut built_again(), 0);
    }

    #[test]
    #[should_panic(expected = "34 with all copper far off")]
    fn fairness_after_build() {
        wrong(&mut built_again(), 34);
    }

    /// Agreement goes on after a write.
    #[test]
    #[should_panic(expected = "the cutter")]
    fn agreement_after_write() {
        feed(&mut lapsed(), ON_COPPER, 34, down());
    }
}
