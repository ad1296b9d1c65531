//! Times the library beside plain Rust and writes a table: see `bench --help`.
//!
//! A round goes once through all boards and runs each contender on each, so that a slow while of the machine hits all alike. The shortest
//! time counts.

mod command;
mod peers;
mod stack;

use abi::session::{Probed, Reply, Session};
use abi::storage;
use bench::plain_calls::{self, FUSED, PLAIN};
use bench::plain_exact::scratch_need;
use bench::plain_storage;
use cli::Stop;
use command::Command;
use model::boards::{self, Board};
use std::process::ExitCode;
use std::time::{Duration, Instant};

const SIDES: [usize; 3] = [512, 1_024, 2_048];

/// The longest side of a sheet whose map is stored.
const STORED_SIDE: usize = 128;

/// The session and the slices of a contender, in which it may write anything, and the rows that it has counted. Before each call the
/// session has the board's sheet open, and the sheet is the board's.
struct Slices<'a> {
    session: Session,
    sheet: &'a mut [u8],
    map: &'a mut [i16],
    values: &'a mut [u16],
    scratch: &'a mut [i16],
    marks: &'a mut [u8],
    out: &'a mut [u8],
    points: Vec<u16>,
    distances: Vec<u32>,
    rows: u32,
    bytes: Vec<i8>,
}

impl Slices<'_> {
    /// Whether both hold the same, but for scratch and what is only read.
    fn same(&self, other: &Slices) -> bool {
        let (maps, others) = ((&*self.map, &*self.values), (&*other.map, &*other.values));
        let written = self.sheet == other.sheet && maps == others && self.out == other.out && self.distances == other.distances;
        written && self.session == other.session && self.rows == other.rows && self.bytes == other.bytes
    }
}

type Call = fn(&mut Slices) -> Reply;

/// What is timed: a call of the library, the same in plain Rust, and a tuned variant of that if there is one. What they need besides the
/// sheet is made ready before, off the clock. `sides` are those of the boards that it is timed on; `lent` is how many bytes the call is
/// lent, a pixel and a column; `pixels` how many of a board it looks at.
struct What {
    name: &'static str,
    sides: &'static [usize],
    lent: [usize; 2],
    pixels: fn(&Board) -> usize,
    ready: fn(&mut Slices),
    library: Call,
    plain: Call,
    fused: Option<Call>,
}

/// By how much expand and shrink are timed.
const Q: u32 = 25;

/// A build in plain Rust.
fn plain_build(on: &mut Slices, engine: u16) -> Reply {
    plain_calls::build(on.session, on.sheet, on.map, on.values, on.scratch, engine, &PLAIN)
}

/// The tuned one.
fn fused_build<const ENGINE: u16>(on: &mut Slices) -> Reply {
    plain_calls::build(on.session, on.sheet, on.map, on.values, on.scratch, ENGINE, &FUSED)
}

/// The exact map of the sheet, which is then current.
fn map_of(on: &mut Slices) {
    on.session = plain_build(on, 1).session;
}

/// The exact map of the sheet, and its skeleton as the marks.
fn skeleton_of(on: &mut Slices) {
    map_of(on);
    plain_calls::skeleton(on.session, on.map, on.marks);
}

/// How many runs are timed together, since one takes little time.
const RUNS: usize = 100;

/// The exact map of the sheet with its first row bare, so that a cutter can go along it on every board.
fn bare_row(on: &mut Slices) {
    on.sheet[..on.session.width.into()].fill(0);
    map_of(on);
}

/// The same, with the cutter down where the row starts.
fn lowered(on: &mut Slices) {
    bare_row(on);
    on.session = on.session.place(on.map, on.values, 0, 0, 0).session;
}

/// Runs along that row, each from its start.
fn runs(on: &mut Slices, run: fn(Session, &[i16], &[u16], u16, u16) -> Reply) -> Reply {
    let count = on.session.width - 1;
    for _ in 1..RUNS {
        std::hint::black_box(run(std::hint::black_box(on.session), on.map, on.values, 0, count));
    }
    run(on.session, on.map, on.values, 0, count)
}

/// Points to probe, one in every row.
fn in_every_row(on: &mut Slices) {
    points(on, 0..on.session.height);
}

/// A hundred, all in one row near the top.
fn in_one_row(on: &mut Slices) {
    points(on, std::iter::repeat_n(8, 100));
}

/// One in each of these rows, and room for their distances.
fn points(on: &mut Slices, rows: impl Iterator<Item = u16>) {
    let w = usize::from(on.session.width);
    on.points = rows.enumerate().flat_map(|(at, y)| [(37 * at % w) as u16, y]).collect();
    on.distances = vec![0; on.points.len() / 2];
}

/// A probe of the library or of plain Rust.
type Probe = fn(Session, &[u8], &[u16], &mut [i16], &mut [u32]) -> Probed;

/// Probes the points.
fn probe(on: &mut Slices, probe: Probe) -> Reply {
    let Probed { answer, rows, session } = probe(on.session, on.sheet, &on.points, on.scratch, &mut on.distances);
    on.rows = rows;
    Reply { answer, session }
}

/// How many maps are stored or read back one after another, since one takes little time.
const MAPS: usize = 100;

/// The exact map of the sheet, and room for its bytes.
fn to_store(on: &mut Slices) {
    map_of(on);
    on.bytes = vec![7; on.map.len()];
}

/// The bytes of the stored map, and other numbers in its place.
fn to_read_back(on: &mut Slices) {
    to_store(on);
    plain_storage::store(on.session.width, on.session.height, on.map, &mut on.bytes);
    on.map.fill(7);
}

/// Stores the map or reads it back, again and again.
fn again<T, U>(session: Session, source: &[T], target: &mut [U], call: fn(u16, u16, &[T], &mut [U]) -> u32) -> Reply {
    let (w, h) = (session.width, session.height);
    for _ in 1..MAPS {
        std::hint::black_box(call(w, h, std::hint::black_box(source), std::hint::black_box(&mut *target)));
    }
    Reply { answer: call(w, h, source, target), session }
}

/// A call that looks at every pixel.
fn whole(board: &Board) -> usize {
    board.sheet.len()
}

/// A build by one of the engines.
const fn build<const ENGINE: u16>(name: &'static str, lent: [usize; 2], fused: Option<Call>) -> What {
    What {
        name,
        sides: &SIDES,
        lent,
        pixels: whole,
        ready: |_| {},
        library: |on| on.session.build(on.sheet, on.map, on.values, on.scratch, ENGINE),
        plain: |on| plain_build(on, ENGINE),
        fused,
    }
}

/// A probe of points. Its time is told by the pixels of the sheet, however many of them it looks at.
const fn probing(name: &'static str, lent: [usize; 2], ready: fn(&mut Slices)) -> What {
    What {
        name,
        sides: &SIDES,
        lent,
        pixels: whole,
        ready,
        library: |on| probe(on, Session::probe),
        plain: |on| probe(on, plain_calls::probe),
        fused: None,
    }
}

/// A map of the longest sides that is stored or read back.
const fn storing(name: &'static str, ready: fn(&mut Slices), library: Call, plain: Call) -> What {
    What { name, sides: &[STORED_SIDE], lent: [6, 0], pixels: |board| MAPS * whole(board), ready, library, plain, fused: None }
}

const WHATS: [What; 15] = [
    build::<1>("exact", [5, 8], Some(fused_build::<1>)),
    build::<2>("8SED", [5, 0], Some(fused_build::<2>)),
    build::<3>("4SED", [5, 0], Some(fused_build::<3>)),
    build::<4>("city block", [3, 0], None),
    build::<5>("chessboard", [3, 0], None),
    build::<6>("chamfer", [3, 0], None),
    What {
        name: "expand",
        sides: &SIDES,
        lent: [5, 8],
        pixels: whole,
        ready: |_| {},
        library: |on| on.session.expand(on.sheet, on.map, on.scratch, Q),
        plain: |on| plain_calls::expand(on.session, on.sheet, on.map, on.scratch, Q),
        fused: None,
    },
    What {
        name: "shrink",
        sides: &SIDES,
        lent: [5, 8],
        pixels: whole,
        ready: |_| {},
        library: |on| on.session.shrink(on.sheet, on.map, on.scratch, Q),
        plain: |on| plain_calls::shrink(on.session, on.sheet, on.map, on.scratch, Q),
        fused: None,
    },
    What {
        name: "skeleton",
        sides: &SIDES,
        lent: [5, 0],
        pixels: whole,
        ready: map_of,
        library: |on| on.session.skeleton(on.map, on.out),
        plain: |on| plain_calls::skeleton(on.session, on.map, on.out),
        fused: None,
    },
    What {
        name: "rebuild",
        sides: &SIDES,
        lent: [6, 0],
        pixels: whole,
        ready: skeleton_of,
        library: |on| on.session.rebuild(on.map, on.marks, on.out),
        plain: |on| plain_calls::rebuild(on.session, on.map, on.marks, on.out),
        fused: None,
    },
    What {
        name: "run",
        sides: &SIDES,
        lent: [4, 0],
        pixels: |board| RUNS * (board.w - 1),
        ready: lowered,
        library: |on| runs(on, Session::run),
        plain: |on| runs(on, plain_calls::run),
        fused: None,
    },
    // a point takes 8 bytes; there are as many as columns, or a hundred, which are not counted
    probing("probe", [1, 16], in_every_row),
    probing("probe row", [1, 8], in_one_row),
    storing(
        "store",
        to_store,
        |on| again(on.session, on.map, &mut on.bytes, storage::store),
        |on| again(on.session, on.map, &mut on.bytes, plain_storage::store),
    ),
    storing(
        "read back",
        to_read_back,
        |on| again(on.session, &on.bytes, on.map, storage::read_back),
        |on| again(on.session, &on.bytes, on.map, plain_storage::read_back),
    ),
];

/// The memory of one contender, enough for boards up to some side.
struct Memory {
    sheet: Vec<u8>,
    map: Vec<i16>,
    values: Vec<u16>,
    scratch: Vec<i16>,
    marks: Vec<u8>,
    out: Vec<u8>,
}

impl Memory {
    fn new(side: usize) -> Self {
        let bytes = vec![0; side * side];
        let (map, values, scratch) = (vec![0; 2 * side * side], vec![0; side * side], vec![0; scratch_need(side)]);
        Memory { sheet: bytes.clone(), map, values, scratch, marks: bytes.clone(), out: bytes }
    }

    /// The slices for a board, with its sheet, no more scratch than is needed, no points and no stored map. The others are as they were.
    fn lend(&mut self, board: &Board) -> Slices<'_> {
        let &Board { w, h, ref sheet } = board;
        self.sheet[..w * h].copy_from_slice(sheet);
        let (width, height) = board.sides();
        Slices {
            session: Session { opened: true, width, height, ..Session::fresh() },
            sheet: &mut self.sheet[..w * h],
            map: &mut self.map[..2 * w * h],
            values: &mut self.values[..w * h],
            scratch: &mut self.scratch[..scratch_need(w)],
            marks: &mut self.marks[..w * h],
            out: &mut self.out[..w * h],
            points: Vec::new(),
            distances: Vec::new(),
            rows: 0,
            bytes: Vec::new(),
        }
    }
}

/// Makes the call so many frames further down the stack. Where its working rows lie beside the lent slices changes a call's time by a fifth and
/// more, and another place in each turn lets the shortest time be that of a good one for every contender.
#[inline(never)]
fn deep(frames: usize, call: Call, on: &mut Slices) -> Reply {
    std::hint::black_box([0_u8; 1_000]);
    if frames == 0 {
        call(on)
    } else {
        deep(frames - 1, call, on)
    }
}

/// A line of the table: a call on a board, and the shortest time of each contender.
struct Line {
    what: &'static str,
    lent: [usize; 2],
    pixels: usize,
    name: &'static str,
    board: Board,
    ready: fn(&mut Slices),
    calls: Vec<Call>,
    best: Vec<Duration>,
}

impl Line {
    fn new(what: &What, name: &'static str, side: usize) -> Self {
        let calls: Vec<Call> = [Some(what.library), Some(what.plain), what.fused].into_iter().flatten().collect();
        let best = vec![Duration::MAX; calls.len()];
        let board = boards::benchmark(name, side);
        Line { what: what.name, lent: what.lent, pixels: (what.pixels)(&board), name, board, ready: what.ready, calls, best }
    }

    /// Runs each contender once, another first in each turn, with a memory for each. The call must be done, and they must write the same.
    fn run(&mut self, turn: usize, memories: &mut [Memory]) {
        let mut slices: Vec<Slices> = memories.iter_mut().map(|memory| memory.lend(&self.board)).collect();
        slices.iter_mut().for_each(self.ready);
        for (place, on) in slices.iter_mut().enumerate() {
            let which = (turn + place) % self.calls.len();
            let start = Instant::now();
            let reply = deep(turn % 16, self.calls[which], on);
            self.best[which] = self.best[which].min(start.elapsed());
            assert_eq!(reply.answer, 0, "{} on {} {}", self.what, self.name, self.board.w);
            on.session = reply.session;
        }
        let same = slices.iter().all(|on| on.same(&slices[0]));
        assert!(same, "{} on {} {}: the contenders wrote different things", self.what, self.name, self.board.w);
    }

    /// How many bytes the call is lent.
    fn bytes(&self) -> usize {
        let [pixel, column] = self.lent;
        pixel * self.board.sheet.len() + column * self.board.w
    }

    /// The shortest time of a contender in nanoseconds a pixel.
    fn nanoseconds(&self, which: usize) -> Option<f64> {
        Some(self.best.get(which)?.as_nanos() as f64 / self.pixels as f64)
    }
}

/// What some calls must do at least with the slices that they are lent, in words and as work, which is told a number to write.
type Least = (&'static str, fn(&mut Slices, u8));

/// Expand and shrink leave the sheet, the map and scratch written. A build by engines 4 to 6 looks at every byte and writes every value.
const LEAST: [Least; 2] = [
    ("writing sheet and map, 5 bytes a pixel, and 4 × W numbers of scratch once", |on, number| {
        on.sheet.fill(number);
        on.map.fill(number.into());
        on.scratch.fill(number.into());
    }),
    ("reading the sheet and writing the values once, 3 bytes a pixel", |on, number| {
        for (value, &byte) in on.values.iter_mut().zip(&*on.sheet) {
            *value = u16::from(byte ^ number);
        }
    }),
];

/// The times of doing no more than that.
fn least_work(rounds: usize) -> String {
    let mut text = format!("ns a pixel, the shortest of {rounds} runs\n");
    let mut memory = Memory::new(2_048);
    for (words, work) in LEAST {
        text += &format!("\n{words}\n");
        let mut first = None;
        for side in SIDES {
            let time = shortest(rounds, work, &mut memory, side);
            text += &format!("{side:4}  {time:.2}  to 512: {:.2}\n", time / *first.get_or_insert(time));
        }
    }
    text
}

/// The shortest time of some work on a square sheet, in nanoseconds a pixel.
fn shortest(rounds: usize, work: fn(&mut Slices, u8), memory: &mut Memory, side: usize) -> f64 {
    let board = boards::full(side, side);
    let mut best = Duration::MAX;
    for round in 0..rounds {
        let mut on = memory.lend(&board);
        let start = Instant::now();
        std::hint::black_box(work)(&mut on, round as u8);
        best = best.min(start.elapsed());
    }
    best.as_nanos() as f64 / (side * side) as f64
}

/// A number of the table, or a dash.
fn cell(number: Option<f64>) -> String {
    number.map_or("–".into(), |number| format!("{number:.2}"))
}

/// The lines of the table, each with the shortest time of so many rounds: those of some calls, or of all if none is named.
fn timed(rounds: usize, calls: &[&str]) -> Vec<Line> {
    let mut lines = Vec::new();
    for what in WHATS.iter().filter(|what| calls.is_empty() || calls.contains(&what.name)) {
        for name in boards::BENCHMARK {
            lines.extend(what.sides.iter().map(|&side| Line::new(what, name, side)));
        }
    }
    // memories for two contenders and for three: those that are used together hold the same before each call
    let mut memories = [2, 3].map(|contenders| Vec::from_iter((0..contenders).map(|_| Memory::new(2_048))));
    for round in 0..rounds {
        for line in &mut lines {
            let memories = &mut memories[line.calls.len() - 2];
            // the smaller boards several times, since they take less time
            for turn in 0..2_048 / line.board.w {
                line.run(round + turn, memories);
            }
        }
    }
    lines
}

fn main() -> ExitCode {
    cli::run(command::USE, |words| time(command::parse(words)?))
}

/// The table that is asked for.
fn time(command: Command) -> Result<String, Stop> {
    match command {
        Command::Table { rounds, calls } => Ok(table(rounds, &timed(rounds, &calls))),
        Command::Peers { rounds } => {
            let boards = boards::BENCHMARK.iter().flat_map(|&name| SIDES.map(|side| (name, boards::benchmark(name, side))));
            peers::table(rounds, boards).map_err(|error| Stop::Failed(format!("the other libraries cannot be timed: {error}")))
        }
        Command::Memory { rounds } => Ok(least_work(rounds)),
        Command::Stack => stack::table().map_err(|error| Stop::Failed(format!("the stack cannot be measured: {error}"))),
    }
}

/// The library's time for the exact map of a line's board, in nanoseconds a pixel. None if that is not timed, or the line has other pixels.
fn exact_of(line: &Line, lines: &[Line]) -> Option<f64> {
    let key = |line: &Line| (line.name, line.pixels);
    lines.iter().find(|exact| exact.what == "exact" && key(exact) == key(line))?.nanoseconds(0)
}

/// The lines under their head.
fn table(rounds: usize, lines: &[Line]) -> String {
    let mut text = format!("ns a pixel, the shortest of {rounds} runs of each (twice as many at 1,024, four times at 512, 16 at 128)\n");
    text += "each ratio is the library's time to the one before it; plain is the same call in plain Rust, and fused a tuned variant:\n";
    text += "exact works a column's cost out when it is asked for; the scans take the row before and the sweep to the right in one pass,\n";
    text += "test only a row's first pixel for a label, and start a sweep at the first labelled pixel; to exact is the library's time to\n";
    text += "that of its exact map of the board, if this is timed too; a run's pixels are those it comes to, and a probe's those of the\n";
    text += "sheet, with a point in every row, or for probe row a hundred in row 8; store and read back are timed at 128 alone, by the\n";
    text += "hundred, for no longer sides are stored\n\n";
    text += &format!(
        "{:10}  {:11}  {:>4}  {:>7}  {:>5}  {:>5}  {:>5}  {:>5}  {:>8}  {:>7}  library 2,048 / 512\n",
        "call", "board", "side", "library", "plain", "ratio", "fused", "ratio", "to exact", "lent"
    );
    for sides in lines.chunk_by(|one, next| (one.what, one.name) == (next.what, next.name)) {
        for line in sides {
            let [library, plain, fused] = [0, 1, 2].map(|which| line.nanoseconds(which));
            let over = |other: Option<f64>| Some(library? / other?);
            text += &format!("{:10}  {:11}  {:4}  {:>7}", line.what, line.name, line.board.w, cell(library));
            for number in [plain, over(plain), fused, over(fused)] {
                text += &format!("  {:>5}", cell(number));
            }
            text += &format!("  {:>8}  {:>4.1} MB", cell(over(exact_of(line, lines))), line.bytes() as f64 / 1e6);
            if line.board.w == 2_048 {
                text += &format!("  {}", cell(over(sides[0].nanoseconds(0))));
            }
            text += "\n";
        }
    }
    text
}
