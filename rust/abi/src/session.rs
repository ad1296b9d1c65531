//! The session and its calls.
//!
//! Each call takes the session by value and hands it back with its answer number. The calls ask nothing of their caller: any numbers,
//! slices of any length and sessions with any fields get the answer that is theirs, and none of the calls panics. A refusal hands the
//! session back as it came and writes nothing.
//!
//! Two kinds of map are lent. In `map`, of 2 × W × H numbers, engines 1 exact, 2 8SED and 3 4SED write a pair a pixel, dx and dy, both
//! −32,768 where it is unlabelled. In `values`, of W × H numbers, engines 4 city block, 5 chessboard and 6 chamfer write one number a pixel,
//! 65,535 where it is unlabelled. A call tests the length of the kind that it reads or writes and leaves the other kind alone.
//!
//! ```
//! use abi::session::{Reply, Session};
//!
//! let (mut sheet, mut map, mut values) = ([7; 16], [7; 32], [7; 16]);
//! let mut session = Session::fresh();
//! let mut answers = Vec::new();
//! let mut take = |reply: Reply, session: &mut Session| {
//!     answers.push(reply.answer);
//!     *session = reply.session;
//! };
//! take(session.open(&mut sheet, 4, 4), &mut session);
//! for (x, y) in [(3, 0), (0, 3), (2, 2)] {
//!     take(session.paint(&mut sheet, x, y, 1, 1), &mut session);
//! }
//! take(session.build(&sheet, &mut map, &mut values, &mut [], 3), &mut session);
//! take(session.place(&map, &values, 0, 0, 5), &mut session);
//! take(session.place(&map, &values, 0, 0, 4), &mut session);
//! take(session.run(&map, &values, 0, 1), &mut session);
//! take(session.lift(), &mut session);
//! assert_eq!(answers, [0, 0, 0, 0, 0, 34, 0, 34, 0]);
//! assert_eq!(session.map_row(&map, 0), [3, 0, 2, 0, 1, 0, 0, 0]);
//! assert_eq!((session.closest.get(), values), (Some(9), [7; 16]));
//!
//! // a draft: its map is in the values, and the pairs are not needed
//! let draft = session.build(&sheet, &mut [], &mut values, &mut [], 6).session;
//! assert_eq!(values[..4], [8, 6, 3, 0]);
//! assert_eq!(draft.place(&[], &values, 0, 0, 7).answer, 34);
//! let down = draft.place(&[], &values, 0, 0, 6);
//! assert_eq!((down.answer, down.session.closest.get()), (0, Some(64)));
//!
//! // the true squared distances of some points, row by row, with no map at all
//! let mut distances = [7; 3];
//! let probed = session.probe(&sheet, &[0, 0, 3, 1, 1, 1], &mut [0; 16], &mut distances);
//! assert_eq!((probed.answer, probed.rows, distances), (0, 2, [8, 1, 2]));
//! ```

/// The closest approach: the least size, on the current map, of the labelled pixels that the cutter has met since the last placing that was
/// done, the placed one among them. The size of a pair is dx² + dy², that of a value its square. On an exact map it is their least true
/// squared distance to copper. There is none before any placing, nor after a call that has changed the sheet or the map; lift keeps it, and
/// so does every refusal.
#[repr(C)]
#[derive(Clone, Copy, Debug, PartialEq, Eq)]
pub struct Closest {
    /// Whether it has met one.
    pub met: bool,
    /// The least size; 0 if it has met none.
    pub size: u32,
}

impl Closest {
    /// It has met none.
    pub const NONE: Closest = Closest { met: false, size: 0 };

    /// The least size, if it has met one.
    pub fn get(self) -> Option<u32> {
        self.met.then_some(self.size)
    }
}

/// What a session records. With nothing open the sides are 0, with the map not current the engine is, with the cutter up its pixel and q.
/// A closest approach is recorded with a current map alone, whatever its size. A session with other fields counts as one with nothing open.
#[repr(C)]
#[derive(Clone, Copy, Debug, PartialEq, Eq)]
pub struct Session {
    /// Whether a sheet is open.
    pub opened: bool,
    /// How many columns the sheet has.
    pub width: u16,
    /// How many rows it has.
    pub height: u16,
    /// Whether the map is current.
    pub current: bool,
    /// The engine that built the map: 1 exact, 2 8SED, 3 4SED, 4 city block, 5 chessboard, 6 chamfer.
    pub engine: u16,
    /// Whether the cutter is down.
    pub lowered: bool,
    /// The column of the lowered cutter.
    pub x: u16,
    /// Its row.
    pub y: u16,
    /// Its squared radius.
    pub q: u32,
    /// How near it has come to copper.
    pub closest: Closest,
}

/// What a call hands back.
#[repr(C)]
#[derive(Clone, Copy, Debug, PartialEq, Eq)]
pub struct Reply {
    /// The answer number, 0 if the call was done.
    pub answer: u32,
    /// The session after the call.
    pub session: Session,
}

/// What a probe hands back.
#[repr(C)]
#[derive(Clone, Copy, Debug, PartialEq, Eq)]
pub struct Probed {
    /// The answer number, 0 if the call was done.
    pub answer: u32,
    /// In how many different rows the points are; 0 if the call was refused.
    pub rows: u32,
    /// The session, as it came.
    pub session: Session,
}

/// The functions of the archive, as `crates/abi/src/lib.rt` exports them: a slice is its pointer and its length.
mod ffi {
    use super::{Probed, Reply, Session};

    /// Where a part of a slice stands.
    #[repr(C)]
    pub struct Span {
        /// The place of its first number.
        pub from: usize,
        /// How many numbers it has.
        pub len: usize,
    }

    extern "C" {
        pub fn abi_session_fresh() -> Session;
        pub fn abi_session_open(s: Session, sheet: *mut u8, sheet_len: usize, w: u16, h: u16) -> Reply;
        pub fn abi_session_paint(s: Session, sheet: *mut u8, sheet_len: usize, x: u16, y: u16, cols: u16, rows: u16) -> Reply;
        pub fn abi_session_erase(s: Session, sheet: *mut u8, sheet_len: usize, x: u16, y: u16, cols: u16, rows: u16) -> Reply;
        pub fn abi_session_build(
            s: Session,
            sheet: *const u8,
            sheet_len: usize,
            map: *mut i16,
            map_len: usize,
            values: *mut u16,
            values_len: usize,
            scratch: *mut i16,
            scratch_len: usize,
            engine: u16,
        ) -> Reply;
        pub fn abi_session_place(
            s: Session,
            map: *const i16,
            map_len: usize,
            values: *const u16,
            values_len: usize,
            x: u16,
            y: u16,
            q: u32,
        ) -> Reply;
        pub fn abi_session_run(
            s: Session,
            map: *const i16,
            map_len: usize,
            values: *const u16,
            values_len: usize,
            direction: u16,
            count: u16,
        ) -> Reply;
        pub fn abi_session_lift(s: Session) -> Reply;
        pub fn abi_session_expand(
            s: Session,
            sheet: *mut u8,
            sheet_len: usize,
            map: *mut i16,
            map_len: usize,
            scratch: *mut i16,
            scratch_len: usize,
            q: u32,
        ) -> Reply;
        pub fn abi_session_shrink(
            s: Session,
            sheet: *mut u8,
            sheet_len: usize,
            map: *mut i16,
            map_len: usize,
            scratch: *mut i16,
            scratch_len: usize,
            q: u32,
        ) -> Reply;
        pub fn abi_session_skeleton(s: Session, map: *const i16, map_len: usize, out: *mut u8, out_len: usize) -> Reply;
        pub fn abi_session_rebuild(
            s: Session,
            map: *const i16,
            map_len: usize,
            marks: *const u8,
            marks_len: usize,
            out: *mut u8,
            out_len: usize,
        ) -> Reply;
        pub fn abi_session_probe(
            s: Session,
            sheet: *const u8,
            sheet_len: usize,
            points: *const u16,
            points_len: usize,
            scratch: *mut i16,
            scratch_len: usize,
            out: *mut u32,
            out_len: usize,
        ) -> Probed;
        pub fn abi_session_row(s: Session, map: *const i16, map_len: usize, y: u16) -> Span;
    }
}

impl Session {
    /// A fresh session: nothing open, map not current, cutter up.
    pub fn fresh() -> Self {
        // SAFETY: the function takes nothing and is proved to return.
        unsafe { ffi::abi_session_fresh() }
    }

    /// Opens a sheet of `w` × `h` pixels: it is cleared, the map not current, the cutter up. Refusals: 11, 12.
    pub fn open(self, sheet: &mut [u8], w: u16, h: u16) -> Reply {
        // SAFETY: the pointer comes with the length of the slice it is from, the sheet is lent to nobody else, and the function has no
        // `requires`. It is proved to return and to stay within the slice.
        unsafe { ffi::abi_session_open(self, sheet.as_mut_ptr(), sheet.len(), w, h) }
    }

    /// Paints the rectangle of `w` × `h` pixels from (x, y): 1 is written there, the map not current, the cutter up. Refusals: 30, 12, 13.
    pub fn paint(self, sheet: &mut [u8], x: u16, y: u16, w: u16, h: u16) -> Reply {
        // SAFETY: as in `open`.
        unsafe { ffi::abi_session_paint(self, sheet.as_mut_ptr(), sheet.len(), x, y, w, h) }
    }

    /// Erases a rectangle: as [`Session::paint`], but 0 is written there.
    pub fn erase(self, sheet: &mut [u8], x: u16, y: u16, w: u16, h: u16) -> Reply {
        // SAFETY: as in `open`.
        unsafe { ffi::abi_session_erase(self, sheet.as_mut_ptr(), sheet.len(), x, y, w, h) }
    }

    /// Builds the map by an engine, 1 to 6. It is then current, the cutter up. Engines 1 to 3 write the pairs and do not look at the values,
    /// 4 to 6 write the values and do not look at the pairs; any other number tests the pairs and is refused. Exact needs scratch of at least
    /// 4 × W numbers, of which it leaves the first 4 × W at 0 and the rest untouched; no other engine tests or writes scratch. Refusals: 30,
    /// 12, 14.
    pub fn build(self, sheet: &[u8], map: &mut [i16], values: &mut [u16], scratch: &mut [i16], engine: u16) -> Reply {
        let (sheet, sheet_len) = (sheet.as_ptr(), sheet.len());
        let (map, map_len) = (map.as_mut_ptr(), map.len());
        let (values, values_len) = (values.as_mut_ptr(), values.len());
        let (scratch, scratch_len) = (scratch.as_mut_ptr(), scratch.len());
        // SAFETY: each pointer comes with the length of the slice it is from, map, values and scratch are lent to nobody else, and the
        // function has no `requires`. It is proved to return and to stay within the four slices.
        unsafe { ffi::abi_session_build(self, sheet, sheet_len, map, map_len, values, values_len, scratch, scratch_len, engine) }
    }

    /// Places the cutter at (x, y) with q; the closest approach is that pixel's size. The kind of map that was built last is tested and read,
    /// the values after engines 4 to 6 and the pairs otherwise, also if no map is current. Refusals: 30, 12, 15, 16, 31, 34.
    pub fn place(self, map: &[i16], values: &[u16], x: u16, y: u16, q: u32) -> Reply {
        // SAFETY: each pointer comes with the length of the slice it is from, and the function has no `requires`. It is proved to return, to
        // stay within the two slices and to write nothing there.
        unsafe { ffi::abi_session_place(self, map.as_ptr(), map.len(), values.as_ptr(), values.len(), x, y, q) }
    }

    /// Runs the lowered cutter `count` steps in one of the eight directions, clockwise from east; the pixels that it comes to count for the
    /// closest approach. It tests and reads the same kind of map as [`Session::place`]. Refusals: 30, 12, 17, 32, 33, 34.
    pub fn run(self, map: &[i16], values: &[u16], direction: u16, count: u16) -> Reply {
        // SAFETY: as in `place`.
        unsafe { ffi::abi_session_run(self, map.as_ptr(), map.len(), values.as_ptr(), values.len(), direction, count) }
    }

    /// Lifts the cutter, which is done also if it was up; the closest approach stays. A session that counts as one with nothing open becomes a
    /// fresh one.
    pub fn lift(self) -> Reply {
        // SAFETY: the function takes plain numbers, has no `requires` and is proved to return.
        unsafe { ffi::abi_session_lift(self) }
    }

    /// Expands the sheet by q: a pixel is 1 afterwards if its true squared distance is at most q, otherwise 0. The pairs are left
    /// unlabelled, no map is current, the cutter up. Scratch of at least 4 × W numbers is needed and left as by exact, the first 4 × W at 0
    /// and the rest untouched. Refusals: 30, 12, 15.
    pub fn expand(self, sheet: &mut [u8], map: &mut [i16], scratch: &mut [i16], q: u32) -> Reply {
        let (map, map_len) = (map.as_mut_ptr(), map.len());
        // SAFETY: each pointer comes with the length of the slice it is from, the three slices are lent to nobody else, and the function
        // has no `requires`. It is proved to return and to stay within the three slices.
        unsafe { ffi::abi_session_expand(self, sheet.as_mut_ptr(), sheet.len(), map, map_len, scratch.as_mut_ptr(), scratch.len(), q) }
    }

    /// Shrinks the sheet by q: a pixel is 0 afterwards if a bare pixel or a place off the sheet is at squared distance at most q from it,
    /// otherwise 1. All else as [`Session::expand`] leaves it, with the same refusals.
    pub fn shrink(self, sheet: &mut [u8], map: &mut [i16], scratch: &mut [i16], q: u32) -> Reply {
        let (map, map_len) = (map.as_mut_ptr(), map.len());
        // SAFETY: as in `expand`.
        unsafe { ffi::abi_session_shrink(self, sheet.as_mut_ptr(), sheet.len(), map, map_len, scratch.as_mut_ptr(), scratch.len(), q) }
    }

    /// Writes the skeleton of the current exact map: 1 at each pixel that is kept, 0 elsewhere. Refusals: 30, 12, 31, 36, 37.
    pub fn skeleton(self, map: &[i16], out: &mut [u8]) -> Reply {
        // SAFETY: each pointer comes with the length of the slice it is from, out is lent to nobody else, and the function has no
        // `requires`. It is proved to return and to stay within the two slices.
        unsafe { ffi::abi_session_skeleton(self, map.as_ptr(), map.len(), out.as_mut_ptr(), out.len()) }
    }

    /// Writes what the marked pixels of the current exact map cover: 1 at a pixel if its squared distance to some pixel whose mark is not 0
    /// is below that one's size, 0 elsewhere. An unlabelled pixel covers nothing. Refusals: 30, 12, 31, 36, 37.
    pub fn rebuild(self, map: &[i16], marks: &[u8], out: &mut [u8]) -> Reply {
        // SAFETY: each pointer comes with the length of the slice it is from, out is lent to nobody else, and the function has no
        // `requires`. It is proved to return and to stay within the three slices.
        unsafe { ffi::abi_session_rebuild(self, map.as_ptr(), map.len(), marks.as_ptr(), marks.len(), out.as_mut_ptr(), out.len()) }
    }

    /// Writes the true squared distance of each point, its least squared distance to a copper pixel, or 4,294,967,295 if the sheet has no
    /// copper. The points are pairs of numbers, x then y, and their rows must not decrease; in one row the columns may come in any order,
    /// and points may repeat. No map is needed, and the session comes back as it came, also if a map is current or the cutter down. Out has
    /// one number a point. Scratch of at least 4 × W numbers is needed and left as by exact, the first 4 × W at 0 and the rest untouched.
    /// Refusals: 30, 12, 16 if some point is off the sheet, 43 if the y of some point is less than that of the point before.
    pub fn probe(self, sheet: &[u8], points: &[u16], scratch: &mut [i16], out: &mut [u32]) -> Probed {
        let (sheet, sheet_len) = (sheet.as_ptr(), sheet.len());
        let (points, points_len) = (points.as_ptr(), points.len());
        let (scratch, scratch_len) = (scratch.as_mut_ptr(), scratch.len());
        let (out, out_len) = (out.as_mut_ptr(), out.len());
        // SAFETY: each pointer comes with the length of the slice it is from, scratch and out are lent to nobody else, and the function has
        // no `requires`. It is proved to return and to stay within the four slices.
        unsafe { ffi::abi_session_probe(self, sheet, sheet_len, points, points_len, scratch, scratch_len, out, out_len) }
    }

    /// The part of the pairs that holds row y, whatever built them. It is empty, and from their start, if nothing is open, y is not below the
    /// height, or they have a wrong length.
    pub fn map_row(self, map: &[i16], y: u16) -> &[i16] {
        // SAFETY: as in `place`.
        let span = unsafe { ffi::abi_session_row(self, map.as_ptr(), map.len(), y) };
        &map[span.from..][..span.len]
    }
}
