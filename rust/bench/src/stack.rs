//! How much of the stack each call of the library takes on the largest sheets.
//!
//! The stack below a function is painted with a pattern, and then a call is made there. How far down the pattern is gone is read in
//! `/proc/self/mem`, Linux's file of a process's own memory, for no safe code can look at the part of a stack that nobody holds.

use crate::{bare_row, lowered, map_of, plain_build, Call, Memory, Slices, STORED_SIDE, WHATS};
use abi::session::Reply;
use abi::storage;
use model::boards;
use std::fs::File;
use std::hint::black_box;
use std::io;
use std::os::unix::fs::FileExt;
use std::thread;

/// The longest side of a sheet.
const SIDE: u16 = 2_048;

/// The stack of the thread that measures, in bytes.
const STACK: usize = 1 << 20;

/// How much of it is painted, in words, and with what.
const WORDS: usize = 1 << 15;
const PAINT: u64 = 0xc35a_a53c_965a_e187;

/// The bytes between the upper end of the paint and a call. To look at the paint afterwards takes less of the stack, so that it leaves what
/// the call wrote.
const ROOM: usize = 1 << 14;

/// A call by its name, and what it needs besides the sheet.
type Measured = (&'static str, fn(&mut Slices), Call);

/// The calls that are not timed, and of those of which many are timed together a single one. Place and run come over either kind of map.
const OTHERS: [Measured; 11] = [
    ("open", |_| {}, |on| on.session.open(on.sheet, SIDE, SIDE)),
    ("paint", |_| {}, |on| on.session.paint(on.sheet, 0, 0, SIDE, SIDE)),
    ("erase", |_| {}, |on| on.session.erase(on.sheet, 0, 0, SIDE, SIDE)),
    ("place", bare_row, place),
    ("place on values", draft, place),
    ("run", lowered, run),
    ("run on values", lowered_draft, run),
    ("lift", lowered, |on| on.session.lift()),
    ("map row", map_of, |on| {
        let row = on.session.map_row(on.map, SIDE - 1);
        Reply { answer: u32::from(row.is_empty()), session: on.session }
    }),
    ("store", small, |on| Reply { answer: storage::store(SMALL, SMALL, &on.map[..NUMBERS], &mut on.bytes), session: on.session }),
    ("read back", small, |on| Reply { answer: storage::read_back(SMALL, SMALL, &on.bytes, &mut on.map[..NUMBERS]), session: on.session }),
];

/// The longest side of a sheet whose map is stored, and how many numbers that map has.
const SMALL: u16 = STORED_SIDE as u16;
const NUMBERS: usize = 2 * STORED_SIDE * STORED_SIDE;

/// A map that can be stored in the first part of the pairs, and room for its bytes, which can be read back.
fn small(on: &mut Slices) {
    on.map[..NUMBERS].fill(7);
    on.bytes = vec![0; NUMBERS];
}

fn place(on: &mut Slices) -> Reply {
    on.session.place(on.map, on.values, 0, 0, 0)
}

fn run(on: &mut Slices) -> Reply {
    on.session.run(on.map, on.values, 0, SIDE - 1)
}

/// The chamfer map of the sheet with its first row bare.
fn draft(on: &mut Slices) {
    bare_row(on);
    on.session = plain_build(on, 6).session;
}

/// The same, with the cutter down where the row starts.
fn lowered_draft(on: &mut Slices) {
    draft(on);
    on.session = place(on).session;
}

/// The table.
pub fn table() -> io::Result<String> {
    let thread = thread::Builder::new().stack_size(STACK).spawn(measure)?;
    let lines = thread.join().expect("every call is done, on less of the stack than is painted")?;
    let sides = format!("{SIDE} × {SIDE}, store and read back at {SMALL} × {SMALL}");
    let mut text = format!("the stack that a call takes at {sides}, in bytes, the most on any board\n\n");
    for (name, bytes) in lines {
        text += &format!("{name:15}  {bytes:>6}\n");
    }
    Ok(text)
}

/// The most bytes of the stack that each call takes on one of the benchmark's boards.
fn measure() -> io::Result<Vec<(&'static str, usize)>> {
    // a single run, store and read back stand among the others, and of the probes one is enough
    let passed_over = ["run", "probe row", "store", "read back"];
    let timed = WHATS.iter().filter(|what| !passed_over.contains(&what.name)).map(|what| (what.name, what.ready, what.library));
    let calls: Vec<Measured> = timed.chain(OTHERS).collect();
    let mut lines: Vec<_> = calls.iter().map(|&(name, ..)| (name, 0)).collect();
    let mut memory = Memory::new(SIDE.into());
    for name in boards::BENCHMARK {
        let board = boards::benchmark(name, SIDE.into());
        for (&(_, ready, call), (_, most)) in calls.iter().zip(&mut lines) {
            let mut on = memory.lend(&board);
            ready(&mut on);
            *most = taken(call, &mut on)?.max(*most);
        }
    }
    Ok(lines)
}

/// How many bytes of the stack a call takes: what it writes less what an empty call does.
fn taken(call: Call, on: &mut Slices) -> io::Result<usize> {
    let least = written(empty, on)?;
    Ok(written(call, on)? - least)
}

fn empty(on: &mut Slices) -> Reply {
    Reply { answer: 0, session: on.session }
}

/// How far down the paint is gone after a call, in bytes from its upper end.
#[inline(never)]
fn written(call: Call, on: &mut Slices) -> io::Result<usize> {
    let from = paint();
    let answer = below(call, on).answer;
    assert_eq!(answer, 0);
    let mut words = vec![0; 8 * WORDS];
    File::open("/proc/self/mem")?.read_exact_at(&mut words, from as u64)?;
    let left = words.chunks_exact(8).take_while(|word| **word == PAINT.to_ne_bytes()).count();
    assert_ne!(left, 0);
    Ok(8 * (WORDS - left))
}

/// Paints the stack below the caller, and says from which address on.
#[inline(never)]
fn paint() -> usize {
    let mut words = [PAINT; WORDS];
    black_box(&mut words).as_ptr().addr()
}

/// Makes a call with some room between it and the caller.
#[inline(never)]
fn below(call: Call, on: &mut Slices) -> Reply {
    let room = [0_u8; ROOM];
    black_box(&room);
    let reply = call(on);
    black_box(&room);
    reply
}

#[cfg(test)]
mod tests {
    use super::*;
    use model::boards::Board;

    /// Writes so many bytes of the stack.
    fn writes<const BYTES: usize>(on: &mut Slices) -> Reply {
        black_box(&mut [7_u8; BYTES]);
        empty(on)
    }

    /// Besides the bytes there may be an address to return to, some registers and a gap.
    #[test]
    fn what_is_written() {
        let mut memory = Memory::new(1);
        let mut taken = |call| taken(call, &mut memory.lend(&Board::bare(1, 1))).unwrap();
        assert_eq!(taken(empty), 0);
        for (call, bytes) in
            [(writes::<100> as Call, 100), (writes::<3_000>, 3_000), (writes::<50_000>, 50_000), (writes::<200_000>, 200_000)]
        {
            let found = taken(call);
            assert!((bytes..=bytes + 100).contains(&found), "{found}, not {bytes}");
        }
    }
}
