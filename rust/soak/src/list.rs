//! Lists of calls, each call made of a session and checked.

use crate::board::{Board, Left};
use crate::calls::{Call, Slices};
use model::calls::Calls;
use model::random::Random;
use model::scans::UNLABELLED;
use model::session::{kind, scratch_need, Fields, Kind};
use model::skeleton::size;
use model::{chamfer, points};
use std::collections::BTreeMap;
use std::fmt;

/// What the calls of a list are checked by.
#[derive(Clone, Copy, Debug, PartialEq, Eq)]
pub enum Check {
    /// Compared with the model: answer, session and every slice.
    Model,
    /// Held against the plain board. This is for lists in which nothing but the calls touches session and sheet, and nothing but they and
    /// [`List::write`] the maps.
    Board,
    /// Both.
    Both,
}

/// A list of calls so far, made of one kind of session.
pub struct List<S> {
    session: S,
    /// The list's sheet.
    pub sheet: Vec<u8>,
    /// The list's pairs.
    pub map: Vec<i16>,
    /// The list's values.
    pub values: Vec<u16>,
    check: Check,
    board: Board,
    made: Vec<Entry>,
    seed: u64,
}

/// What a list is made of.
enum Entry {
    /// A call and its answer.
    Made(Call, u32),
    /// A write of the maps by something else.
    Write,
}

/// How many calls had each answer, by the name of the call.
pub type Answers = BTreeMap<u32, BTreeMap<&'static str, u64>>;

/// What the message of a failed check tells: the call, the session and sheet before it, and the calls that led there.
struct Story<'a, S> {
    list: &'a List<S>,
    call: Call,
    slices: &'a Slices,
}

impl<S: Calls> fmt::Debug for Story<'_, S> {
    fn fmt(&self, f: &mut fmt::Formatter<'_>) -> fmt::Result {
        let Story { list, call, slices } = self;
        writeln!(f, "{call:?} in the list of seed {}, with {:?}", list.seed, list.session())?;
        let Slices { sheet, map, values, scratch, marks, out, points, distances, rows: _ } = slices;
        let lengths = [sheet.len(), map.len(), values.len(), scratch.len(), marks.len(), out.len(), points.len(), distances.len()];
        writeln!(f, "lengths {lengths:?}")?;
        if sheet.len() <= 200 {
            writeln!(f, "sheet {sheet:?}\nmap {map:?}\nvalues {values:?}\nmarks {marks:?}\npoints {points:?}")?;
        }
        list.made.iter().try_for_each(|entry| match entry {
            Entry::Made(call, answer) => writeln!(f, "{answer} {call:?}"),
            Entry::Write => writeln!(f, "the maps are written by something else"),
        })
    }
}

/// Asserts that a slice holds what it should.
fn same<T: PartialEq + fmt::Debug>(what: &str, found: &[T], expected: &[T], story: &impl fmt::Debug) {
    if let Some(at) = (0..found.len()).find(|&at| found[at] != expected[at]) {
        panic!("{what} has {:?} at {at}, not {:?}: {story:?}", found[at], expected[at]);
    }
}

impl<S: Calls> List<S> {
    /// A list that starts with a fresh session and a sheet and maps of any length holding anything. The seed is for messages.
    pub fn new(check: Check, seed: u64, random: &mut Random) -> Self {
        let sheet = (0..random.between(0, 20)).map(|_| random.next() as u8).collect();
        let map = (0..random.between(0, 40)).map(|_| random.next() as i16).collect();
        let values = (0..random.between(0, 20)).map(|_| random.next() as u16).collect();
        List { session: S::fresh(), sheet, map, values, check, board: Board::default(), made: Vec::new(), seed }
    }

    /// What the session records.
    pub fn session(&self) -> Fields {
        self.session.into()
    }

    /// Goes on with another session.
    pub fn set_session(&mut self, fields: Fields) {
        self.session = S::from(fields);
    }

    /// The size of a pixel on the map that place and run read. None if it is unlabelled, or if the map ends before it.
    pub fn size(&self, at: usize) -> Option<u64> {
        match kind(self.session().engine) {
            Kind::Pairs => self.map.get(2 * at..2 * at + 2).map(|way| [way[0], way[1]]).filter(|&way| way != UNLABELLED).map(size),
            Kind::Values => self.values.get(at).filter(|&&value| value != chamfer::UNLABELLED).map(|&value| u64::from(value).pow(2)),
        }
    }

    /// Slices for a call: the list's sheet and maps, or to open a sheet others of the right lengths, and what else the call takes, of
    /// lengths that fit. The others hold anything.
    pub fn slices(&self, call: Call, random: &mut Random) -> Slices {
        let (mut sheet, mut map, mut values) = (self.sheet.clone(), self.map.clone(), self.values.clone());
        if let Call::Open { w, h } = call {
            let pixels = usize::from(w) * usize::from(h);
            sheet = (0..pixels).map(|_| random.next() as u8).collect();
            map = (0..2 * pixels).map(|_| random.next() as i16).collect();
            values = (0..pixels).map(|_| random.next() as u16).collect();
        }
        let more = [0, 0, 1, random.between(0, 30)][random.below(4) as usize];
        let (numbers, bytes) = match call {
            _ if call.takes_scratch() => (self.scratch_need() + more, 0),
            Call::Skeleton | Call::Rebuild => (0, sheet.len()),
            _ => (0, 0),
        };
        let sparse = 1 + random.below(9);
        let points = if call == Call::Probe { self.points(random) } else { Vec::new() };
        Slices {
            scratch: (0..numbers).map(|_| random.next() as i16).collect(),
            marks: (0..bytes).map(|_| if random.below(sparse) == 0 { random.next() as u8 } else { 0 }).collect(),
            out: (0..bytes).map(|_| random.next() as u8).collect(),
            distances: points.chunks(2).map(|_| random.next() as u32).collect(),
            rows: random.next() as u32,
            sheet,
            map,
            values,
            points,
        }
    }

    /// Points of the sheet, in order. Sides that no sheet has are taken as the nearest that one may have.
    fn points(&self, random: &mut Random) -> Vec<u16> {
        let [w, h] = [self.session().width, self.session().height].map(|side| side.clamp(1, 2_048));
        points::any(w, h, random)
    }

    /// How many scratch numbers exact, expand, shrink and probe need. A session wider than any sheet is taken as the widest.
    pub fn scratch_need(&self) -> usize {
        scratch_need(self.session().width.min(2_048).into())
    }

    /// Makes a call with slices that fit, and returns its answer.
    pub fn call(&mut self, call: Call, random: &mut Random) -> u32 {
        let slices = self.slices(call, random);
        self.lend(call, slices, random).0
    }

    /// Makes a call with these slices, checks it, and returns its answer and what the slices hold afterwards. If it is done the sheet and
    /// the maps are the list's from then on; otherwise the former stay, unless they were lent themselves and so hold what the call left
    /// there.
    pub fn lend(&mut self, call: Call, slices: Slices, random: &mut Random) -> (u32, Slices) {
        let same = slices.sheet == self.sheet && slices.map == self.map && slices.values == self.values;
        let own = !matches!(call, Call::Open { .. }) && same;
        let mut after = slices.clone();
        let story = Story { list: self, call, slices: &slices };
        let (answer, session) = call.make_within(self.session, &mut after, random, &story);
        if self.check != Check::Board {
            self.compare(&story, (answer, session.into()), &after);
            self.compare_row(&story, random);
        }
        if own || answer == 0 {
            self.sheet.clone_from(&after.sheet);
            self.map.clone_from(&after.map);
            self.values.clone_from(&after.values);
        }
        if self.check != Check::Model {
            let mut board = std::mem::take(&mut self.board);
            let left = Left { session: &session.into(), sheet: &self.sheet, map: &self.map, values: &self.values, slices: &after };
            board.feed(call, answer, &left, &Story { list: self, call, slices: &slices });
            self.board = board;
        }
        self.session = session;
        self.made.push(Entry::Made(call, answer));
        (answer, after)
    }

    /// Writes the maps as something else than a call may: with any numbers, and no longer or shorter than they are.
    pub fn write(&mut self, map: Vec<i16>, values: Vec<u16>) {
        assert_eq!((map.len(), values.len()), (self.map.len(), self.values.len()), "a write keeps the lengths");
        (self.map, self.values) = (map, values);
        self.board.written();
        self.made.push(Entry::Write);
    }

    /// Asserts that the model answers the same, and hands back the same session and slices.
    fn compare(&self, story: &Story<S>, found: (u32, Fields), after: &Slices) {
        let mut expected = story.slices.clone();
        assert_eq!(found, story.call.make(self.session(), expected.lend()), "{story:?}");
        same("sheet", &after.sheet, &expected.sheet, story);
        same("map", &after.map, &expected.map, story);
        same("values", &after.values, &expected.values, story);
        same("scratch", &after.scratch, &expected.scratch, story);
        same("marks", &after.marks, &expected.marks, story);
        same("output", &after.out, &expected.out, story);
        same("points", &after.points, &expected.points, story);
        same("distances", &after.distances, &expected.distances, story);
        assert_eq!(after.rows, expected.rows, "rows: {story:?}");
    }

    /// Asserts that a map row is the model's part of the lent map: that part itself and no copy, also where it is empty.
    fn compare_row(&self, story: &Story<S>, random: &mut Random) {
        let map = &story.slices.map[..];
        let height = self.session().height;
        let y = [random.below(10) as u16, height, height.wrapping_sub(1), random.next() as u16][random.below(4) as usize];
        let (row, expected) = (self.session.map_row(map, y), self.session().map_row(map, y));
        assert!(std::ptr::eq(row, expected), "map row {y} before {story:?}");
    }

    /// How many times something else has written the maps.
    pub fn writes(&self) -> usize {
        self.made.iter().filter(|entry| matches!(entry, Entry::Write)).count()
    }

    /// Adds the calls of the list to those counted.
    pub fn count(&self, answers: &mut Answers) {
        for entry in &self.made {
            if let Entry::Made(call, answer) = entry {
                *answers.entry(*answer).or_default().entry(call.name()).or_default() += 1;
            }
        }
    }
}
