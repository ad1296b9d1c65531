//! A job as a picture in SVG.
//!
//! The records run through the proved library, lent slices as `mill` lends them. Each build that is done starts a picture: the copper, the
//! map as shades by size or value, the skeleton of an exact map as dots, and on it each place and run up to the next change of the sheet, with
//! its record number: green where it was done, red where the gate refused it, with a cross at the pixel that failed. The disk around a place
//! has the cutter's radius. Below stands in words how near to copper each placing that was done has come with its runs, in pixels by the map,
//! and what is refused otherwise. By a map of values that is the least distance that a value can stand for, as it is for the gate.

mod picture;

use abi::session::{Reply, Session};
use job::Record;

/// The most pixels of a sheet, as in `mill`.
const PIXELS: usize = 8_192;

/// How many scratch numbers there are, as in `mill`: enough for every sheet.
const SCRATCH: usize = 8_192;

/// Steps to the right and down, clockwise from east.
const STEPS: [(i32, i32); 8] = [(1, 0), (1, 1), (0, 1), (-1, 1), (-1, 0), (-1, -1), (0, -1), (1, -1)];

/// A sheet with what was done on it.
pub(crate) struct Board {
    /// The record that started it, with its answer.
    title: String,
    /// The sheet's sides.
    w: usize,
    h: usize,
    /// A byte a pixel, 0 for bare.
    sheet: Vec<u8>,
    /// The map, if one was built, and its skeleton, if it has one.
    map: Option<Map>,
    kept: Option<Vec<u8>>,
    /// The places and runs on it.
    tools: Vec<Tool>,
    /// Each placing that was done: the number of its record, and the closest approach since then as a size.
    approaches: Vec<(usize, Option<u32>)>,
    /// What was refused otherwise than by the gate.
    notes: Vec<String>,
}

/// A map as its engine wrote it.
pub(crate) enum Map {
    /// Two numbers a pixel, dx and dy, by engines 1 to 3.
    Pairs(Vec<i16>),
    /// A number a pixel, and the times q above which its square must be to pass the gate: 2, 1 and 10 by engines 4 to 6.
    Values { numbers: Vec<u16>, times: u32 },
}

/// A place or a run that the gates looked at.
pub(crate) struct Tool {
    /// The number of its record.
    record: usize,
    /// The pixel of a place, or the one where a run starts.
    from: (i32, i32),
    /// The way from there; 0 steps for a place.
    step: (i32, i32),
    count: i32,
    /// The squared radius of the cutter.
    q: u32,
    /// The first pixel that failed.
    failed: Option<(i32, i32)>,
}

/// A job on its way: the session with the slices that it is lent, and the boards so far.
struct Mill {
    session: Session,
    sheet: Vec<u8>,
    map: Vec<i16>,
    values: Vec<u16>,
    scratch: Vec<i16>,
    boards: Vec<Board>,
    /// The copper has changed since the last board.
    changed: bool,
    /// What was refused before the first board.
    early: Vec<String>,
}

/// The picture of a job's records; none if they touch no sheet and nothing is refused, so that there is nothing to show.
pub fn picture(records: &[Record]) -> Option<String> {
    let mut mill = Mill {
        session: Session::fresh(),
        sheet: vec![0; PIXELS],
        map: vec![0; 2 * PIXELS],
        values: vec![0; PIXELS],
        scratch: vec![0; SCRATCH],
        boards: Vec::new(),
        changed: false,
        early: Vec::new(),
    };
    for (at, record) in records.iter().enumerate() {
        mill.obey(at + 1, record);
    }
    if mill.changed || !mill.early.is_empty() {
        mill.add("the sheet at the end".into(), false);
    }
    (!mill.boards.is_empty()).then(|| picture::svg(&mill.boards))
}

impl Mill {
    /// The number of pixels of the open sheet.
    fn pixels(&self) -> usize {
        usize::from(self.session.width) * usize::from(self.session.height)
    }

    /// Runs a record and notes what it did.
    fn obey(&mut self, number: usize, record: &Record) {
        let before = self.session;
        let Reply { answer, session } = self.call(record);
        self.session = session;
        let line = job::text(std::slice::from_ref(record));
        let words = format!("{number}: {} gives {answer}", line.trim_end());
        match (record.kind(), answer) {
            (4, 0) => self.add(words, true),
            (1..=3 | 8 | 9, 0) => self.changed = true,
            (5 | 6, 0 | 34) => {
                self.mark(number, record, before, answer);
                self.approach(number, record, answer);
            }
            (_, 0) => {}
            _ => self.boards.last_mut().map_or(&mut self.early, |board| &mut board.notes).push(words),
        }
    }

    /// Makes the call that a record means, with the slices that `mill` lends.
    fn call(&mut self, record: &Record) -> Reply {
        let (session, pixels) = (self.session, self.pixels());
        let short = |at: usize| record.numbers()[at] as u16;
        let (sheet, map, values) = (&mut self.sheet[..pixels], &mut self.map[..2 * pixels], &mut self.values[..pixels]);
        let scratch = &mut self.scratch[..];
        match record.kind() {
            1 => {
                let opened = usize::from(short(0)) * usize::from(short(1));
                let lent = if opened <= PIXELS { opened } else { PIXELS };
                session.open(&mut self.sheet[..lent], short(0), short(1))
            }
            2 => session.paint(sheet, short(0), short(1), short(2), short(3)),
            3 => session.erase(sheet, short(0), short(1), short(2), short(3)),
            4 => session.build(sheet, map, values, scratch, short(0)),
            5 => session.place(map, values, short(0), short(1), record.numbers()[2]),
            6 => session.run(map, values, short(0), short(1)),
            7 => session.lift(),
            8 => session.expand(sheet, map, scratch, record.numbers()[0]),
            _ => session.shrink(sheet, map, scratch, record.numbers()[0]),
        }
    }

    /// The map of the kind that the session's engine writes.
    fn map(&self) -> Map {
        let pixels = self.pixels();
        let values = |times| Map::Values { numbers: self.values[..pixels].to_vec(), times };
        match self.session.engine {
            4 => values(2),
            5 => values(1),
            6 => values(10),
            _ => Map::Pairs(self.map[..2 * pixels].to_vec()),
        }
    }

    /// Starts a board with the sheet as it is, and the map if it is current.
    fn add(&mut self, title: String, mapped: bool) {
        let pixels = self.pixels();
        let mut kept = vec![0; pixels];
        let skeleton = mapped && self.session.skeleton(&self.map[..2 * pixels], &mut kept).answer == 0;
        let map = mapped.then(|| self.map());
        self.boards.push(Board {
            title,
            w: usize::from(self.session.width),
            h: usize::from(self.session.height),
            sheet: self.sheet[..pixels].to_vec(),
            map,
            kept: skeleton.then_some(kept),
            tools: Vec::new(),
            approaches: Vec::new(),
            notes: std::mem::take(&mut self.early),
        });
        self.changed = false;
    }

    /// Notes a place or run from the session before it.
    fn mark(&mut self, number: usize, record: &Record, before: Session, answer: u32) {
        let numbers = record.numbers();
        let (from, step, count, q) = match record.kind() {
            5 => ((numbers[0] as i32, numbers[1] as i32), (0, 0), 0, numbers[2]),
            _ => ((i32::from(before.x), i32::from(before.y)), STEPS[numbers[0] as usize], numbers[1] as i32, before.q),
        };
        let mut tested = (count.min(1)..=count).map(|steps| (from.0 + steps * step.0, from.1 + steps * step.1));
        // the cutter alone, lowered at each pixel that the call tests: the first that the gate refuses
        let up = Session { lowered: false, x: 0, y: 0, q: 0, ..before };
        let (map, values) = (&self.map[..2 * self.pixels()], &self.values[..self.pixels()]);
        let failed = tested.find(|&(x, y)| answer == 34 && up.place(map, values, x as u16, y as u16, q).answer == 34);
        let tool = Tool { record: number, from, step, count, q, failed };
        if let Some(board) = self.boards.last_mut() {
            board.tools.push(tool);
        }
    }

    /// Notes the closest approach after a place or run.
    fn approach(&mut self, number: usize, record: &Record, answer: u32) {
        let Some(board) = self.boards.last_mut() else { return };
        if record.kind() == 5 && answer == 0 {
            board.approaches.push((number, None));
        }
        if let Some((_, closest)) = board.approaches.last_mut() {
            *closest = self.session.closest.get();
        }
    }
}
