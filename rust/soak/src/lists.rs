//! Random lists of calls.

use crate::calls::{Call, Slices};
use crate::list::{Answers, Check, List};
use model::calls::Calls;
use model::random::Random;
use model::session::Fields;
use model::{boards, points, storage};

/// Makes a number of random lists, half of them tampered with between the calls and half under the premise of the claims, and counts the
/// calls by their answers. Each list has a seed of its own, drawn from this one, which a failure names.
pub fn make<S: Calls>(seed: u64, lists: usize, answers: &mut Answers) {
    let mut seeds = Random::new(seed);
    for turn in 0..lists {
        if turn % 2 == 0 {
            under_premise::<S>(Check::Both, seeds.next(), answers);
        } else {
            list::<S>(Check::Model, true, seeds.next()).count(answers);
        }
    }
}

/// A list under the premise of the claims: nothing but the calls touches session and sheet. Now and then something else writes the maps.
pub fn under_premise<S: Calls>(check: Check, seed: u64, answers: &mut Answers) {
    list::<S>(check, false, seed).count(answers);
}

/// A list of calls. If it is tampered with, session, sheet and maps are changed between the calls now and then, and slices of wrong lengths
/// are lent. Otherwise something else writes the maps, seldom, and half of the times a build comes at once.
fn list<S: Calls>(check: Check, tampered: bool, seed: u64) -> List<S> {
    let mut random = Random::new(seed);
    let mut list = List::<S>::new(check, seed, &mut random);
    let mut planned = Vec::new();
    for _ in 0..random.between(8, 40) {
        if tampered {
            tamper(&mut list, &mut random);
        } else if random.below(SELDOM_WRITTEN) == 0 && write(&mut list, &mut random) && random.below(2) == 0 {
            planned.push(Call::Build { engine: any_engine(&mut random) as u16 });
        }
        let call = planned.pop().unwrap_or_else(|| any_call(&list, &mut random));
        let mut slices = any_slices(&list, call, &mut random);
        if tampered && random.below(8) == 0 {
            misfit(&mut slices, &mut random);
        }
        let (answer, _) = list.lend(call, slices, &mut random);
        if let Call::Open { w, h } = call {
            if answer == 0 && random.below(3) == 0 {
                planned.push(Call::Build { engine: random.between(2, 6) as u16 });
                let arrow = boards::arrow(w.into(), h.into(), &mut random);
                planned.extend(arrow.copper().into_iter().map(|(x, y)| Call::Paint { x, y, w: 1, h: 1 }));
            }
        }
    }
    list
}

/// A call that leads on from where the list stands, or any.
fn any_call<S: Calls>(list: &List<S>, random: &mut Random) -> Call {
    let session = &list.session();
    let onwards: &[u64] = match () {
        _ if session.closed() => &[0],
        _ if !session.current => &[1, 1, 1, 3],
        _ if !session.lowered => &[4, 4, 4, 4, 9, 10],
        _ => &[4, 5, 5, 5, 5, 5],
    };
    let kind = if random.below(4) > 0 { onwards[random.below(onwards.len() as u64) as usize] } else { random.below(13) };
    match kind {
        0 => {
            let [w, h] = sides(random);
            Call::Open { w, h }
        }
        1 => {
            let [x, y, w, h] = rectangle(session, 2, random);
            Call::Paint { x, y, w, h }
        }
        2 => {
            let [x, y, w, h] = rectangle(session, 5, random);
            Call::Erase { x, y, w, h }
        }
        3 => Call::Build { engine: seldom(12, &[0, 7, 8, 256, 257, 260, 65_535], any_engine(random), random) as u16 },
        4 => place(list, random),
        5 => run(session, random),
        6 => Call::Lift,
        7 => Call::Expand { q: resize_q(random) },
        8 => Call::Shrink { q: resize_q(random) },
        9 => Call::Skeleton,
        10 => Call::Rebuild,
        // twice as often as another, for no list needs one to lead on
        _ => Call::Probe,
    }
}

/// One of the engines, exact more often: skeleton and rebuild need it.
fn any_engine(random: &mut Random) -> u64 {
    [1, 1, 1, 2, 3, 4, 5, 6][random.below(8) as usize]
}

/// The usual number, or once in so many times one of the odd ones.
fn seldom(times: u64, odd: &[u64], usual: u64, random: &mut Random) -> u64 {
    if random.below(times) == 0 {
        odd[random.below(odd.len() as u64) as usize]
    } else {
        usual
    }
}

/// The sides of a sheet to open: short ones, one long one, or some outside their limits.
fn sides(random: &mut Random) -> [u16; 2] {
    let mut sides = [random.between(1, 11) as u16, random.between(1, 11) as u16];
    let which = random.below(2) as usize;
    match random.below(16) {
        0 => sides[which] = [0, 2_049, 4_096, 32_768, 65_535, random.next() as u16][random.below(6) as usize],
        1 => sides = [[0, 0], [0, 2_049], [2_049, 2_049], [2_048, 2_048], [65_535, 65_535]][random.below(5) as usize],
        2 => sides[which] = random.between(12, 40) as u16,
        3 => (sides[which], sides[1 - which]) = (random.between(1, 60) as u16, 1),
        _ => {}
    }
    sides
}

/// A rectangle with sides up to `most`, on the sheet or seldom off it.
fn rectangle(session: &Fields, most: usize, random: &mut Random) -> [u16; 4] {
    let side = |side: u16, random: &mut Random| {
        let from = random.below(u64::from(side).max(1)) as u16;
        let room = usize::from(side.saturating_sub(from)).max(1);
        (from, random.between(1, room.min(most)) as u16)
    };
    let ((x, w), (y, h)) = (side(session.width, random), side(session.height, random));
    let mut rectangle = [x, y, w, h];
    let which = random.between(0, 3);
    match random.below(16) {
        // everything, which is on the sheet, and up to the edge and one more
        0 => rectangle = [0, 0, session.width, session.height],
        1 => rectangle[2] = session.width.wrapping_sub(x).wrapping_add(random.below(2) as u16),
        2 => rectangle[3] = session.height.wrapping_sub(y).wrapping_add(random.below(2) as u16),
        3 => rectangle[which] = [0, 2_048, 32_768, 65_535, random.next() as u16][random.below(5) as usize],
        4 if random.below(2) == 0 => rectangle = [65_535, 65_535, 2, 2],
        _ => {}
    }
    rectangle
}

/// A placing: on the sheet or seldom off it, now and then where a quick map misses the nearest copper; with a q that is small, or near
/// where the gate begins to fail, or seldom at its limit.
fn place<S: Calls>(list: &List<S>, random: &mut Random) -> Call {
    let session = &list.session();
    let coordinate = |side: u16, random: &mut Random| {
        let usual = random.below(u64::from(side).max(1));
        seldom(30, &[side.into(), 2_047, 2_048, 65_535], usual, random) as u16
    };
    let (mut x, mut y) = (coordinate(session.width, random), coordinate(session.height, random));
    if [2, 3].contains(&session.engine) && random.below(4) == 0 {
        (x, y) = missed(list, random).unwrap_or((x, y));
    }
    let size = list.size(usize::from(y) * usize::from(session.width) + usize::from(x)).unwrap_or(0);
    let edge = [size, 144 * size / 169, size / 2, size / 10][random.below(4) as usize];
    let usual = if random.below(2) == 0 { (edge + 1).saturating_sub(random.below(3)).min(4_194_304) } else { random.below(6) };
    Call::Place { x, y, q: seldom(20, &[4_194_303, 4_194_304, 4_194_305, 4_294_967_295], usual, random) as u32 }
}

/// A pixel at which the map has another size than the true squared distance, if there are any.
fn missed<S: Calls>(list: &List<S>, random: &mut Random) -> Option<(u16, u16)> {
    let (w, h) = (usize::from(list.session().width), usize::from(list.session().height));
    if list.sheet.len() != w * h {
        return None;
    }
    let distances = model::nearest::all(&list.sheet, w, h);
    let wrong: Vec<usize> = (0..w * h).filter(|&at| distances[at].is_some() && list.size(at) != distances[at]).collect();
    let at = wrong.get(random.below(wrong.len().max(1) as u64) as usize)?;
    Some(((at % w) as u16, (at / w) as u16))
}

/// A run: as far as the sheet goes or less, or seldom anything.
fn run(session: &Fields, random: &mut Random) -> Call {
    let (first, second) = (random.below(8), random.below(8));
    let direction = if room(session, first) < room(session, second) { second } else { first };
    let beyond = u64::from(random.below(8) == 0);
    let count = 1 + random.below(room(session, direction).max(1) + beyond);
    Call::Run {
        direction: seldom(25, &[8, 9, 255, 256, 65_535], direction, random) as u16,
        count: seldom(25, &[0, 2_047, 2_048, 2_049, 65_535], count, random) as u16,
    }
}

/// How many steps it is to the edge of the sheet in one of the eight directions.
fn room(session: &Fields, direction: u64) -> u64 {
    let east = u64::from(session.width.saturating_sub(session.x).saturating_sub(1));
    let south = u64::from(session.height.saturating_sub(session.y).saturating_sub(1));
    let (west, north) = (u64::from(session.x), u64::from(session.y));
    match direction {
        0 => east,
        1 => east.min(south),
        2 => south,
        3 => south.min(west),
        4 => west,
        5 => west.min(north),
        6 => north,
        _ => north.min(east),
    }
}

/// By how much a sheet is resized: mostly by little, so that copper and bare pixels are left.
fn resize_q(random: &mut Random) -> u32 {
    let usual = random.below(6);
    seldom(6, &[25, 400, 4_194_304, 4_194_305, 4_294_967_295], usual, random) as u32
}

/// Slices for a call. Scratch has a length around what is needed or around a number a pixel now and then, so that it may be too short. The
/// points of a probe may be astray. To open a sheet some have a wrong length now and then, and always if the sheet would be large; or the
/// maps are the former ones.
fn any_slices<S: Calls>(list: &List<S>, call: Call, random: &mut Random) -> Slices {
    let Call::Open { w, h } = call else {
        let mut slices = list.slices(call, random);
        if call.takes_scratch() && random.below(3) == 0 {
            slices.scratch.resize(near_length(list, random), 7);
        }
        if call == Call::Probe {
            astray(&list.session(), &mut slices, random);
        }
        return slices;
    };
    if u64::from(w) * u64::from(h) > 3_000 || random.below(12) == 0 {
        let small = Call::Open { w: random.between(0, 9) as u16, h: random.between(0, 9) as u16 };
        let mut slices = list.slices(small, random);
        if random.below(2) == 0 && u64::from(w) * u64::from(h) <= 3_000 {
            slices.sheet.resize(usize::from(w) * usize::from(h), random.next() as u8);
        }
        return slices;
    }
    let mut slices = list.slices(call, random);
    match random.below(24) {
        0 => slices.map.resize(random.between(0, 40), 7),
        1 => slices.values.resize(random.between(0, 20), 7),
        2 => (slices.map, slices.values) = (list.map.clone(), list.values.clone()),
        _ => {}
    }
    slices
}

/// A length of scratch around what is needed, or around a number a pixel.
fn near_length<S: Calls>(list: &List<S>, random: &mut Random) -> usize {
    around([list.scratch_need(), list.sheet.len()][random.below(2) as usize], random)
}

/// A length, one more or one less.
fn around(length: usize, random: &mut Random) -> usize {
    (length + 1).saturating_sub(random.between(0, 2))
}

/// Puts points of a probe off the sheet or out of order now and then, or makes a number too many or too few of them or of their distances.
fn astray(session: &Fields, slices: &mut Slices, random: &mut Random) {
    points::astray(&mut slices.points, session.width, session.height, random);
    match random.below(16) {
        0 => slices.points.resize(around(slices.points.len(), random), 0),
        1 => slices.distances.resize(around(slices.distances.len(), random), 7),
        _ => {}
    }
}

/// Lends a slice of a wrong length, or several.
fn misfit(slices: &mut Slices, random: &mut Random) {
    let mut length = |right: usize| match random.below(8) {
        0 => right + 1,
        1 => right.saturating_sub(1),
        2 => 2 * right,
        3 => [0, right / 2, random.between(0, 40)][random.below(3) as usize],
        _ => right,
    };
    let Slices { sheet, map, values, scratch, marks, out, points, distances, rows: _ } = slices;
    sheet.resize(length(sheet.len()), 1);
    map.resize(length(map.len()), 1);
    values.resize(length(values.len()), 1);
    scratch.resize(length(scratch.len()), 1);
    marks.resize(length(marks.len()), 1);
    out.resize(length(out.len()), 1);
    points.resize(length(points.len()), 1);
    distances.resize(length(distances.len()), 1);
}

/// Once in so many calls something else writes the maps, so that the claims hold over most lists from end to end.
const SELDOM_WRITTEN: u64 = 60;

/// Writes the maps as something else than a call may: any numbers into both, or a stored map into the pairs. False if the stored map is
/// turned away, which writes nothing.
fn write<S: Calls>(list: &mut List<S>, random: &mut Random) -> bool {
    let (mut map, mut values) = (list.map.clone(), list.values.clone());
    if random.below(2) == 0 {
        tamper_map(&mut map, random);
        tamper_values(&mut values, random);
    } else if !read_back(&list.session(), &mut map, random) {
        return false;
    }
    list.write(map, values);
    true
}

/// Reads bytes back into the pairs: any, or the pairs as they are stored, if they can be, with some bytes changed. Whether it was done.
fn read_back(session: &Fields, map: &mut [i16], random: &mut Random) -> bool {
    let (w, h) = (session.width, session.height);
    let mut bytes: Vec<i8> = map.iter().map(|_| random.next() as i8).collect();
    if random.below(3) > 0 {
        storage::store(w, h, map, &mut bytes);
    }
    for _ in 0..random.below(5) {
        if let Some(pixel) = bytes.as_chunks_mut().0.get_mut(random.between(0, map.len() / 2)) {
            *pixel = [[0, 0], [1, -1], [-127, 127], [-128, -128], [-128, 0]][random.below(5) as usize];
        }
    }
    storage::read_back(w, h, &bytes, map) == 0
}

/// Changes session, maps and sheet now and then.
fn tamper<S: Calls>(list: &mut List<S>, random: &mut Random) {
    if random.below(8) == 0 {
        let mut session = list.session();
        tamper_session(&mut session, random);
        list.set_session(session);
    }
    if random.below(6) == 0 {
        tamper_map(&mut list.map, random);
    }
    if random.below(6) == 0 {
        tamper_values(&mut list.values, random);
    }
    if random.below(6) == 0 {
        tamper_sheet(&mut list.sheet, random);
    }
}

/// Changes one field of a session or several. Many such sessions no call could hand back.
fn tamper_session(session: &mut Fields, random: &mut Random) {
    for _ in 0..[1, 1, 1, 2, 9][random.below(5) as usize] {
        let short = |session: &Fields, random: &mut Random| {
            [0, 1, 2, 3, 4, session.width, session.height, 2_047, 2_048, 2_049, 65_535, random.next() as u16][random.below(12) as usize]
        };
        let number = |odd: [u32; 5], random: &mut Random| odd.get(random.below(6) as usize).copied().unwrap_or(random.next() as u32);
        match random.below(11) {
            0 => session.opened ^= true,
            1 => session.width = short(session, random),
            2 => session.height = short(session, random),
            3 => session.current ^= true,
            4 => session.engine = seldom(5, &[260, 65_535], random.below(9), random) as u16,
            5 => session.lowered ^= true,
            6 => session.x = short(session, random),
            7 => session.y = short(session, random),
            8 => session.q = number([0, 1, 4_194_304, 4_194_305, u32::MAX], random),
            9 => session.met ^= true,
            _ => session.closest = number([0, 1, 2_147_483_648, 4_294_705_156, u32::MAX], random),
        }
    }
}

/// Writes any vectors into a map: half marked ones, unlabelled ones, or any.
fn tamper_map(map: &mut [i16], random: &mut Random) {
    let some = model::maps::any(map.len() / 2, random);
    let times = 1 + random.below(4);
    for (pixel, way) in map.as_chunks_mut::<2>().0.iter_mut().zip(some) {
        if random.below(times) == 0 {
            *pixel = way;
        }
    }
}

/// Writes any values into a map.
fn tamper_values(values: &mut [u16], random: &mut Random) {
    let some = model::maps::any_values(values.len(), random);
    let times = 1 + random.below(4);
    for (pixel, value) in values.iter_mut().zip(some) {
        if random.below(times) == 0 {
            *pixel = value;
        }
    }
}

/// Writes any bytes into a sheet, or other bytes for the same copper.
fn tamper_sheet(sheet: &mut [u8], random: &mut Random) {
    let copper_alone = random.below(2) == 0;
    for byte in sheet {
        if *byte != 0 {
            *byte = 1 + random.below(255) as u8;
        } else if !copper_alone && random.below(6) == 0 {
            *byte = random.next() as u8;
        }
    }
}

#[cfg(test)]
mod tests {
    use super::*;
    use std::cmp::Ordering;
    use std::collections::BTreeMap;

    /// How many calls had scratch around 4 × W or W × H, by how many rows the sheet has beside four, by which of both, and by whether the
    /// length is one less, the same or one more.
    type Lengths = BTreeMap<(Ordering, &'static str, Ordering), u32>;

    fn count(found: &mut Lengths, session: &Fields, scratch: usize) {
        let (w, h) = (usize::from(session.width), usize::from(session.height));
        for (what, length) in [("4 × W", 4 * w), ("W × H", w * h)] {
            if scratch.abs_diff(length) <= 1 {
                *found.entry((h.cmp(&4), what, scratch.cmp(&length))).or_default() += 1;
            }
        }
    }

    /// Each of these comes often.
    #[test]
    fn scratch_lengths() {
        let mut random = Random::new(1);
        let mut found = Lengths::new();
        for seed in 0..4_000 {
            let mut list = List::<Fields>::new(Check::Model, seed, &mut random);
            for _ in 0..30 {
                let call = any_call(&list, &mut random);
                let slices = any_slices(&list, call, &mut random);
                if call.takes_scratch() && list.session().opened {
                    count(&mut found, &list.session(), slices.scratch.len());
                }
                list.lend(call, slices, &mut random);
            }
        }
        assert_eq!(found.len(), 3 * 2 * 3, "{found:?}");
        assert!(found.values().all(|&calls| calls > 100), "{found:?}");
    }

    /// By every engine each of place and run is often done, turned away by the gate, and lent a map of a wrong length.
    #[test]
    fn engines() {
        let mut random = Random::new(2);
        let mut found: BTreeMap<(u16, &'static str, u32), u32> = BTreeMap::new();
        for seed in 0..6_000 {
            let mut list = List::<Fields>::new(Check::Model, seed, &mut random);
            for _ in 0..30 {
                let (engine, call) = (list.session().engine, any_call(&list, &mut random));
                let mut slices = any_slices(&list, call, &mut random);
                if random.below(8) == 0 {
                    misfit(&mut slices, &mut random);
                }
                let (answer, _) = list.lend(call, slices, &mut random);
                *found.entry((engine, call.name(), answer)).or_default() += 1;
            }
        }
        for engine in 1..=6 {
            for (name, answer) in ["place", "run"].into_iter().flat_map(|name| [0, 12, 34].map(|answer| (name, answer))) {
                let calls = found.get(&(engine, name, answer)).copied().unwrap_or(0);
                assert!(calls > 50, "engine {engine}, {name}: {calls} with {answer}");
            }
        }
    }

    /// With the cutter up and down a probe is often done, and often refused for each of its reasons; at times there are two.
    #[test]
    fn probes() {
        let mut random = Random::new(3);
        let mut found: BTreeMap<(bool, u32, bool), u32> = BTreeMap::new();
        for seed in 0..6_000 {
            let mut list = List::<Fields>::new(Check::Both, seed, &mut random);
            for _ in 0..30 {
                let (lowered, call) = (list.session().lowered, any_call(&list, &mut random));
                let slices = any_slices(&list, call, &mut random);
                let descends = slices.points.as_chunks().0.windows(2).any(|two: &[[u16; 2]]| two[1][1] < two[0][1]);
                let (answer, _) = list.lend(call, slices, &mut random);
                if call == Call::Probe {
                    *found.entry((lowered, answer, descends)).or_default() += 1;
                }
            }
        }
        let ways = [(0, false), (12, false), (12, true), (16, false), (16, true), (43, true)];
        for (lowered, (answer, descends)) in [false, true].into_iter().flat_map(|lowered| ways.map(|way| (lowered, way))) {
            let calls = found.get(&(lowered, answer, descends)).copied().unwrap_or(0);
            assert!(calls > 50, "lowered {lowered}, descends {descends}: {calls} with {answer}");
        }
    }

    /// Whether copper is within q of where the cutter stands.
    fn near(list: &List<Fields>) -> bool {
        let Fields { width, height, x, y, q, .. } = list.session();
        let distance = model::nearest::squared(&list.sheet, width.into(), height.into(), x.into(), y.into());
        distance.is_some_and(|distance| distance <= q.into())
    }

    /// Each of place and run is often done and often turned away by the gate before any write, while the claims have lapsed, and after a
    /// build has brought them back. While they have lapsed the cutter often stands too near, and otherwise never.
    #[test]
    fn writes() {
        let mut random = Random::new(4);
        let mut found: BTreeMap<(&'static str, &'static str, u32), u32> = BTreeMap::new();
        let (mut writes, mut too_near) = ([0; 2], 0);
        for seed in 0..6_000 {
            let mut list = List::<Fields>::new(Check::Both, seed, &mut random);
            let (mut own, mut since) = (true, "before");
            for _ in 0..30 {
                if random.below(20) == 0 {
                    let done = write(&mut list, &mut random);
                    writes[usize::from(done)] += 1;
                    (own, since) = if done { (false, "lapsed") } else { (own, since) };
                }
                let call = if !own && random.below(8) == 0 { Call::Build { engine: 1 } } else { any_call(&list, &mut random) };
                let slices = any_slices(&list, call, &mut random);
                let (answer, _) = list.lend(call, slices, &mut random);
                if matches!(call, Call::Build { .. }) && answer == 0 && !own {
                    (own, since) = (true, "back");
                }
                *found.entry((since, call.name(), answer)).or_default() += 1;
                let near = list.session().lowered && near(&list);
                assert!(!own || !near);
                too_near += u32::from(near);
            }
        }
        for since in ["before", "lapsed", "back"] {
            for (name, answer) in ["place", "run"].into_iter().flat_map(|name| [0, 34].map(|answer| (name, answer))) {
                let calls = found.get(&(since, name, answer)).copied().unwrap_or(0);
                assert!(calls > 200, "{since}, {name}: {calls} with {answer}");
            }
        }
        assert!(writes.iter().all(|&writes| writes > 200) && too_near > 1_000, "{writes:?}, {too_near} too near");
    }

    /// Most lists have no write, and many have one or several.
    #[test]
    fn seldom_written() {
        let mut lists = BTreeMap::new();
        for seed in 0..3_000 {
            *lists.entry(list::<Fields>(Check::Both, false, seed).writes().min(2)).or_insert(0) += 1;
        }
        assert!(lists[&0] > 2_000 && lists[&1] > 300 && lists[&2] > 50, "{lists:?}");
    }
}
