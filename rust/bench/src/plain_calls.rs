//! The calls of the session in plain safe Rust: what the library tests before its work, in the library's order, and then the work.

use crate::{fused, plain, plain_chamfer, plain_exact, plain_probe, plain_resize, plain_skeleton};
use abi::session::{Closest, Probed, Reply, Session};

/// The functions that write the maps of pairs.
pub struct Engines {
    exact: fn(&[u8], &mut [i16], &mut [i16], usize, usize),
    scan: fn(&[u8], &mut [i16], usize, usize, bool),
}

/// The plain ones.
pub const PLAIN: Engines = Engines { exact: plain_exact::exact, scan: plain::scan };

/// The tuned ones.
pub const FUSED: Engines = Engines { exact: plain_exact::exact_fused, scan: fused::scan };

/// The work of expand and shrink.
type Resize = fn(&mut [u8], &mut [i16], &mut [i16], usize, usize, u32);

/// The answer of a call that was not done, and the session as it came.
fn refused(session: Session, answer: u32) -> Reply {
    Reply { answer, session }
}

/// The call that was done, and the session that it leaves.
fn done(session: Session) -> Reply {
    Reply { answer: 0, session }
}

fn is_side(side: u16) -> bool {
    (1..=2_048).contains(&side)
}

/// What the calls that take no session test of their sides and of the lengths of their slices, which have two numbers a pixel.
pub(crate) fn length_answer([w, h]: [u16; 2], lengths: &[usize]) -> u32 {
    if !is_side(w) || !is_side(h) {
        11
    } else if lengths.iter().any(|&length| length != 2 * usize::from(w) * usize::from(h)) {
        12
    } else {
        0
    }
}

/// Whether some call could hand the session back, and a sheet is open.
fn is_active(s: &Session) -> bool {
    let map = if s.current { (1..=6).contains(&s.engine) } else { s.engine == 0 };
    let down = s.current && s.x < s.width && s.y < s.height && s.q <= 4_194_304;
    let cutter = if s.lowered { down } else { (s.x, s.y, s.q) == (0, 0, 0) };
    let closest = if s.closest.met { s.current } else { s.closest.size == 0 };
    s.opened && is_side(s.width) && is_side(s.height) && map && cutter && closest
}

/// The sides of the open sheet.
fn sides(s: &Session) -> (usize, usize) {
    (s.width.into(), s.height.into())
}

/// The session with its sheet alone: the map is not current, the cutter up, no closest approach.
fn stale(s: Session) -> Session {
    Session { current: false, engine: 0, lowered: false, x: 0, y: 0, q: 0, closest: Closest::NONE, ..s }
}

/// Whether an engine writes values, one number a pixel, and not pairs.
fn by_values(engine: u16) -> bool {
    (4..=6).contains(&engine)
}

/// Whether the map that an engine writes has the pixels of the sheet. A number that is no engine's goes with the pairs.
fn has_pixels(s: &Session, engine: u16, map: &[i16], values: &[u16]) -> bool {
    let (w, h) = sides(s);
    if by_values(engine) {
        values.len() == w * h
    } else {
        map.len() == 2 * w * h
    }
}

/// Builds the map.
pub fn build(s: Session, sheet: &[u8], map: &mut [i16], values: &mut [u16], scratch: &mut [i16], engine: u16, by: &Engines) -> Reply {
    if !is_active(&s) {
        return refused(s, 30);
    }
    let (w, h) = sides(&s);
    let short = engine == 1 && scratch.len() < plain_exact::scratch_need(w);
    if sheet.len() != w * h || !has_pixels(&s, engine, map, values) || short {
        return refused(s, 12);
    }
    match engine {
        1 => (by.exact)(sheet, map, scratch, w, h),
        2 | 3 => (by.scan)(sheet, map, w, h, engine == 2),
        4..=6 => plain_chamfer::chamfer(sheet, values, w, h, plain_chamfer::WEIGHTS[usize::from(engine - 4)]),
        _ => return refused(s, 14),
    }
    done(Session { current: true, engine, ..stale(s) })
}

/// Expands the sheet by q.
pub fn expand(s: Session, sheet: &mut [u8], map: &mut [i16], scratch: &mut [i16], q: u32) -> Reply {
    resize(s, sheet, map, scratch, q, plain_resize::expand)
}

/// Shrinks the sheet by q.
pub fn shrink(s: Session, sheet: &mut [u8], map: &mut [i16], scratch: &mut [i16], q: u32) -> Reply {
    resize(s, sheet, map, scratch, q, plain_resize::shrink)
}

fn resize(s: Session, sheet: &mut [u8], map: &mut [i16], scratch: &mut [i16], q: u32, work: Resize) -> Reply {
    if !is_active(&s) {
        return refused(s, 30);
    }
    let (w, h) = sides(&s);
    if sheet.len() != w * h || map.len() != 2 * w * h || scratch.len() < plain_exact::scratch_need(w) {
        return refused(s, 12);
    }
    if q > 4_194_304 {
        return refused(s, 15);
    }
    work(sheet, map, scratch, w, h, q);
    done(stale(s))
}

/// Writes the skeleton of the current exact map.
pub fn skeleton(s: Session, map: &[i16], out: &mut [u8]) -> Reply {
    let (w, h) = sides(&s);
    let answer = read_answer(&s, map, out.len() != w * h);
    if answer == 0 {
        plain_skeleton::skeleton(map, out, w, h);
    }
    Reply { answer, session: s }
}

/// Writes what the marked pixels of the current exact map cover.
pub fn rebuild(s: Session, map: &[i16], marks: &[u8], out: &mut [u8]) -> Reply {
    let (w, h) = sides(&s);
    let answer = read_answer(&s, map, marks.len() != w * h || out.len() != w * h);
    if answer == 0 {
        plain_skeleton::rebuild(map, marks, out, w, h);
    }
    Reply { answer, session: s }
}

/// Writes the true squared distances of points.
pub fn probe(s: Session, sheet: &[u8], points: &[u16], scratch: &mut [i16], out: &mut [u32]) -> Probed {
    let (w, h) = sides(&s);
    let short = scratch.len() < plain_exact::scratch_need(w);
    let answer = probe_answer(&s, points, sheet.len() != w * h || short || points.len() != 2 * out.len());
    let rows = if answer == 0 { plain_probe::probe(sheet, points, scratch, out, w, h) } else { 0 };
    Probed { answer, rows, session: s }
}

/// The answer of probe; `wrong` says that a lent slice has a wrong length.
fn probe_answer(s: &Session, points: &[u16], wrong: bool) -> u32 {
    let (points, _) = points.as_chunks();
    if !is_active(s) {
        30
    } else if wrong {
        12
    } else if points.iter().any(|&[x, y]| x >= s.width || y >= s.height) {
        16
    } else if !points.is_sorted_by_key(|&[_, y]| y) {
        43
    } else {
        0
    }
}

/// Steps to the right and down, clockwise from east.
const STEPS: [(i32, i32); 8] = [(1, 0), (1, 1), (0, 1), (-1, 1), (-1, 0), (-1, -1), (0, -1), (1, -1)];

/// The gate of an engine: a labelled pixel passes a cutter of q if the first number times its size is above the second times q. The size of a
/// value is its square.
fn gate(engine: u16) -> [u64; 2] {
    match engine {
        1 | 5 => [1, 1],
        2 => [144, 169],
        3 | 4 => [1, 2],
        _ => [1, 10],
    }
}

/// The size of a labelled pair.
fn size_of_pair([dx, dy]: [i16; 2]) -> Option<u32> {
    ([dx, dy] != [i16::MIN; 2]).then(|| u32::from(dx.unsigned_abs()).pow(2) + u32::from(dy.unsigned_abs()).pow(2))
}

/// The size of a labelled value.
fn size_of_value(value: u16) -> Option<u32> {
    (value != plain_chamfer::UNLABELLED).then_some(u32::from(value).pow(2))
}

/// Runs the lowered cutter.
pub fn run(s: Session, map: &[i16], values: &[u16], direction: u16, count: u16) -> Reply {
    if !is_active(&s) {
        return refused(s, 30);
    }
    if !has_pixels(&s, s.engine, map, values) {
        return refused(s, 12);
    }
    if direction > 7 || !(1..=2_047).contains(&count) {
        return refused(s, 17);
    }
    if !s.lowered {
        return refused(s, 32);
    }
    let step = STEPS[usize::from(direction)];
    if by_values(s.engine) {
        run_over(s, step, count, |at| size_of_value(values[at]))
    } else {
        let (map, _) = map.as_chunks();
        run_over(s, step, count, |at| size_of_pair(map[at]))
    }
}

/// Runs the lowered cutter over a map that has this size at each labelled pixel.
fn run_over(s: Session, (right, down): (i32, i32), count: u16, size: impl Fn(usize) -> Option<u32>) -> Reply {
    let (w, h) = sides(&s);
    let after = |steps: u16| (i32::from(s.x) + right * i32::from(steps), i32::from(s.y) + down * i32::from(steps));
    let (x, y) = after(count);
    if !(0..w as i32).contains(&x) || !(0..h as i32).contains(&y) {
        return refused(s, 33);
    }
    let [times, limit] = gate(s.engine);
    let limit = limit * u64::from(s.q);
    let (mut blocked, mut closest) = (false, s.closest);
    for step in 1..=count {
        let (x, y) = after(step);
        if let Some(size) = size(y as usize * w + x as usize) {
            blocked |= times * u64::from(size) <= limit;
            if !closest.met || size < closest.size {
                closest = Closest { met: true, size };
            }
        }
    }
    if blocked {
        return refused(s, 34);
    }
    done(Session { x: x as u16, y: y as u16, closest, ..s })
}

/// The answer of skeleton and rebuild; `wrong` says that another lent slice has not a byte a pixel.
fn read_answer(s: &Session, map: &[i16], wrong: bool) -> u32 {
    let (w, h) = sides(s);
    if !is_active(s) {
        30
    } else if map.len() != 2 * w * h || wrong {
        12
    } else if !s.current {
        31
    } else if s.engine != 1 {
        36
    } else if !has_copper(map) {
        37
    } else {
        0
    }
}

/// Whether some pixel has size 0. Like the library it looks at all pixels, without a jump out of the loop.
fn has_copper(map: &[i16]) -> bool {
    let (map, _) = map.as_chunks::<2>();
    map.iter().fold(false, |found, &pixel| found | (pixel == [0, 0]))
}
