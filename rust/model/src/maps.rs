//! Maps for the tests that belong to no sheet.

use crate::random::Random;
use crate::scans::UNLABELLED;

/// A map that holds anything.
pub fn any(pixels: usize, random: &mut Random) -> Vec<[i16; 2]> {
    // some maps have only short vectors, for on them more pixels are left out of the skeleton
    let kinds = [3, 6, 9][random.below(3) as usize];
    (0..pixels).map(|_| vector(kinds, random)).collect()
}

/// Whether some pixel has size 0, without which there is no skeleton.
pub fn has_copper(map: &[[i16; 2]]) -> bool {
    map.contains(&[0, 0])
}

/// A map that holds anything, and copper somewhere.
pub fn any_with_copper(pixels: usize, random: &mut Random) -> Vec<[i16; 2]> {
    let mut map = any(pixels, random);
    if !has_copper(&map) {
        map[random.between(0, pixels - 1)] = [0, 0];
    }
    map
}

/// A map of values that holds anything.
pub fn any_values(pixels: usize, random: &mut Random) -> Vec<u16> {
    let kinds = [3, 5][random.below(2) as usize];
    (0..pixels).map(|_| value(kinds, random)).collect()
}

/// A map that can be stored in a byte a component, if its sides are short enough.
pub fn any_small(pixels: usize, random: &mut Random) -> Vec<[i16; 2]> {
    let unlabelled = [0, 1, 9, 20][random.below(4) as usize];
    (0..pixels).map(|_| if random.below(20) < unlabelled { UNLABELLED } else { small(random) }).collect()
}

/// A labelled vector of such a map, now and then at a limit.
fn small(random: &mut Random) -> [i16; 2] {
    let any = [random.between(0, 254) as i16 - 127, random.between(0, 254) as i16 - 127];
    any.map(|number| [number, number, number, -127, 127, 0][random.below(6) as usize])
}

/// A map for a join with another: at each pixel the other's vector but for signs and for which component comes first, one that is little
/// off it, or anything.
pub fn any_beside(map: &[[i16; 2]], random: &mut Random) -> Vec<[i16; 2]> {
    map.iter().map(|&way| beside(way, random)).collect()
}

fn beside(way: [i16; 2], random: &mut Random) -> [i16; 2] {
    let mut way = match random.below(8) {
        0 | 1 => vector(9, random),
        2 => way.map(|number| number.wrapping_add(random.below(3) as i16 - 1)),
        _ => way.map(|number| [number, number.wrapping_neg()][random.below(2) as usize]),
    };
    way.rotate_left(random.below(2) as usize);
    way
}

/// Vectors of which many two have equal sizes, or sizes that are equal in their last 16, 30 or 31 bits: every two of some numbers, among
/// them unlabelled and half-marked ones.
pub fn telling() -> Vec<[i16; 2]> {
    // 3² + 4² = 5², also 6,553 times as long; 256² and 32,768² end in 16 bits that are 0, and 32,767² in 1
    let numbers = [0, 1, 2, 3, 4, 5, 255, 256, 257, 16_384, 19_659, 26_212, 32_765, 32_766, 32_767];
    let numbers: Vec<i16> = numbers.into_iter().flat_map(|number| [number, -number]).skip(1).chain([-32_768]).collect();
    numbers.iter().flat_map(|&dx| numbers.iter().map(move |&dy| [dx, dy])).collect()
}

/// A value of one of the first kinds of those below.
fn value(kinds: u64, random: &mut Random) -> u16 {
    match random.below(kinds) {
        0 | 1 => random.below(20) as u16,
        2 => [0, 65_535][random.below(2) as usize],
        // those around which the gates are at the largest q, and the largest of all
        3 => [2_047, 2_048, 2_049, 2_896, 2_897, 6_476, 6_477, 65_504, 65_534][random.below(9) as usize],
        _ => random.next() as u16,
    }
}

/// A vector of one of the first kinds of those below.
fn vector(kinds: u64, random: &mut Random) -> [i16; 2] {
    let mut short = |most: usize| random.between(0, 2 * most) as i16 - most as i16;
    let (small, medium) = ([short(2), short(2)], [short(20), short(20)]);
    let any = [random.next() as i16, random.next() as i16];
    match random.below(kinds) {
        0..=2 => small,
        3 | 4 => medium,
        // sizes around 400 and those that go with them
        5 => [[19, 0], [1, -19], [-12, 16], [0, 20], [-20, 0], [-1, 20], [20, 1], [-11, 15]][random.below(8) as usize],
        6 => [UNLABELLED, [0, 0]][random.below(2) as usize],
        // half marked, and the largest of all
        7 => [[-32_768, any[1]], [any[0], -32_768], [-32_768, 0], [-32_768, -32_767], [32_767, 32_767]][random.below(5) as usize],
        _ => any,
    }
}
