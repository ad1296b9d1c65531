//! The calls of the session as values, made of any session: the library's or the model's.

use crate::lent::Lent;
use model::calls::Calls;
use model::random::Random;
use std::fmt::Debug;

/// A call with its numbers.
#[derive(Clone, Copy, Debug, PartialEq, Eq)]
pub enum Call {
    /// Opens a sheet.
    Open {
        /// How many columns.
        w: u16,
        /// How many rows.
        h: u16,
    },
    /// Paints a rectangle.
    Paint {
        /// Its first column.
        x: u16,
        /// Its first row.
        y: u16,
        /// How many columns it has.
        w: u16,
        /// How many rows it has.
        h: u16,
    },
    /// Erases a rectangle.
    Erase {
        /// Its first column.
        x: u16,
        /// Its first row.
        y: u16,
        /// How many columns it has.
        w: u16,
        /// How many rows it has.
        h: u16,
    },
    /// Builds the map.
    Build {
        /// The number of the engine.
        engine: u16,
    },
    /// Brings the cutter down.
    Place {
        /// The column.
        x: u16,
        /// The row.
        y: u16,
        /// The squared radius.
        q: u32,
    },
    /// Runs the lowered cutter.
    Run {
        /// The direction, clockwise from east.
        direction: u16,
        /// How many steps.
        count: u16,
    },
    /// Lifts the cutter.
    Lift,
    /// Expands the copper.
    Expand {
        /// The squared radius.
        q: u32,
    },
    /// Shrinks the copper.
    Shrink {
        /// The squared radius.
        q: u32,
    },
    /// Writes the skeleton of the map.
    Skeleton,
    /// Writes what marked pixels cover.
    Rebuild,
    /// Writes the distances of points.
    Probe,
}

/// The slices of a call, of which each kind of call is lent some, and the number of rows that a probe hands back.
#[derive(Clone, Default, PartialEq, Eq)]
pub struct Slices {
    /// The sheet, a byte a pixel.
    pub sheet: Vec<u8>,
    /// The pairs, two numbers a pixel.
    pub map: Vec<i16>,
    /// The values, one number a pixel.
    pub values: Vec<u16>,
    /// What exact works in.
    pub scratch: Vec<i16>,
    /// The marked pixels that rebuild reads.
    pub marks: Vec<u8>,
    /// What skeleton and rebuild write.
    pub out: Vec<u8>,
    /// The points that probe reads, x then y.
    pub points: Vec<u16>,
    /// What probe writes, a number a point.
    pub distances: Vec<u32>,
    /// In how many rows they are, as probe tells it.
    pub rows: u32,
}

/// The slices of a call while they are lent.
pub struct Lending<'a> {
    sheet: &'a mut [u8],
    map: &'a mut [i16],
    values: &'a mut [u16],
    scratch: &'a mut [i16],
    marks: &'a mut [u8],
    out: &'a mut [u8],
    points: &'a mut [u16],
    distances: &'a mut [u32],
    rows: &'a mut u32,
}

impl Slices {
    /// Lends all of them.
    pub fn lend(&mut self) -> Lending<'_> {
        let Slices { sheet, map, values, scratch, marks, out, points, distances, rows } = self;
        Lending { sheet, map, values, scratch, marks, out, points, distances, rows }
    }
}

/// How many numbers around a lent slice must stay as they are.
const MARGIN: usize = 40;

impl Call {
    /// The name of its kind.
    pub fn name(self) -> &'static str {
        match self {
            Call::Open { .. } => "open",
            Call::Paint { .. } => "paint",
            Call::Erase { .. } => "erase",
            Call::Build { .. } => "build",
            Call::Place { .. } => "place",
            Call::Run { .. } => "run",
            Call::Lift => "lift",
            Call::Expand { .. } => "expand",
            Call::Shrink { .. } => "shrink",
            Call::Skeleton => "skeleton",
            Call::Rebuild => "rebuild",
            Call::Probe => "probe",
        }
    }

    /// Whether it is lent scratch.
    pub fn takes_scratch(self) -> bool {
        matches!(self, Call::Build { .. } | Call::Expand { .. } | Call::Shrink { .. } | Call::Probe)
    }

    /// Makes the call of a session with these slices. The rows of a probe stand among them afterwards.
    pub fn make<S: Calls>(self, session: S, slices: Lending) -> (u32, S) {
        let Lending { sheet, map, values, scratch, marks, out, points, distances, rows } = slices;
        match self {
            Call::Open { w, h } => session.open(sheet, w, h),
            Call::Paint { x, y, w, h } => session.paint(sheet, x, y, w, h),
            Call::Erase { x, y, w, h } => session.erase(sheet, x, y, w, h),
            Call::Build { engine } => session.build(sheet, map, values, scratch, engine),
            Call::Place { x, y, q } => session.place(map, values, x, y, q),
            Call::Run { direction, count } => session.run(map, values, direction, count),
            Call::Lift => session.lift(),
            Call::Expand { q } => session.expand(sheet, map, scratch, q),
            Call::Shrink { q } => session.shrink(sheet, map, scratch, q),
            Call::Skeleton => session.skeleton(map, out),
            Call::Rebuild => session.rebuild(map, marks, out),
            Call::Probe => {
                let (answer, found, session) = session.probe(sheet, points, scratch, distances);
                *rows = found;
                (answer, session)
            }
        }
    }

    /// Makes the call with margins around the slices, which must be as they were afterwards. The slices hold what the call left in them.
    pub fn make_within<S: Calls>(self, session: S, slices: &mut Slices, random: &mut Random, about: &impl Debug) -> (u32, S) {
        let mut sheet = Lent::around(&slices.sheet, MARGIN, || random.next() as u8);
        let mut map = Lent::around(&slices.map, MARGIN, || random.next() as i16);
        let mut values = Lent::around(&slices.values, MARGIN, || random.next() as u16);
        let mut scratch = Lent::around(&slices.scratch, MARGIN, || random.next() as i16);
        let mut marks = Lent::around(&slices.marks, MARGIN, || random.next() as u8);
        let mut out = Lent::around(&slices.out, MARGIN, || random.next() as u8);
        let mut points = Lent::around(&slices.points, MARGIN, || random.next() as u16);
        let mut distances = Lent::around(&slices.distances, MARGIN, || random.next() as u32);
        let lending = Lending {
            sheet: sheet.slice(),
            map: map.slice(),
            values: values.slice(),
            scratch: scratch.slice(),
            marks: marks.slice(),
            out: out.slice(),
            points: points.slice(),
            distances: distances.slice(),
            rows: &mut slices.rows,
        };
        let made = self.make(session, lending);
        take_back(&mut slices.sheet, &sheet, "sheet", about);
        take_back(&mut slices.map, &map, "map", about);
        take_back(&mut slices.values, &values, "values", about);
        take_back(&mut slices.scratch, &scratch, "scratch", about);
        take_back(&mut slices.marks, &marks, "marks", about);
        take_back(&mut slices.out, &out, "output", about);
        take_back(&mut slices.points, &points, "points", about);
        take_back(&mut slices.distances, &distances, "distances", about);
        made
    }
}

/// Takes what a lent slice holds.
fn take_back<T: Copy + PartialEq>(numbers: &mut [T], lent: &Lent<T>, what: &str, about: &impl Debug) {
    let written = lent.written(numbers.len(), what, about);
    numbers.copy_from_slice(written);
}
