//! Maps stored in a byte a component and read back, in plain safe Rust by the library's way: a pass that looks at every pixel, and then a
//! pass that writes every number. The first goes by blocks of a fixed length, without jumps in a block, so that several pixels are done at
//! a time.

use crate::plain_calls::length_answer;

/// An unlabelled pixel of a map, and of a stored one.
const UNLABELLED: [i16; 2] = [i16::MIN; 2];
const STORED_UNLABELLED: i8 = i8::MIN;

/// How many numbers a block has.
const BLOCK: usize = 32;

/// Stores a map.
pub fn store(w: u16, h: u16, map: &[i16], bytes: &mut [i8]) -> u32 {
    let answer = answer([w, h], [map.len(), bytes.len()], || by_blocks(map, can_be_stored));
    if answer == 0 {
        for (byte, &number) in bytes.iter_mut().zip(map) {
            // of the numbers that are left −32,768 alone is clamped
            *byte = number.clamp(-128, 127) as i8;
        }
    }
    answer
}

/// Reads a stored map back.
pub fn read_back(w: u16, h: u16, bytes: &[i8], map: &mut [i16]) -> u32 {
    let answer = answer([w, h], [bytes.len(), map.len()], || by_blocks(bytes, can_be_read));
    if answer == 0 {
        for (number, &byte) in map.iter_mut().zip(bytes) {
            *number = if byte == STORED_UNLABELLED { i16::MIN } else { byte.into() };
        }
    }
    answer
}

/// The answer of either call; `right` says that no pixel is turned away.
fn answer(sides: [u16; 2], lengths: [usize; 2], right: impl FnOnce() -> bool) -> u32 {
    match length_answer(sides, &lengths) {
        0 if sides.iter().any(|&side| side > 128) || !right() => 45,
        answer => answer,
    }
}

/// Whether a test holds for every pixel.
fn by_blocks<T: Copy>(numbers: &[T], test: impl Fn([T; 2]) -> bool) -> bool {
    let all = |numbers: &[T]| numbers.as_chunks().0.iter().fold(true, |all, &pixel| all & test(pixel));
    let (blocks, rest) = numbers.as_chunks::<BLOCK>();
    blocks.iter().all(|block| all(block)) && all(rest)
}

fn can_be_stored(pixel: [i16; 2]) -> bool {
    let fits = |number: i16| (-127..=127).contains(&number);
    (pixel == UNLABELLED) | (fits(pixel[0]) & fits(pixel[1]))
}

fn can_be_read([dx, dy]: [i8; 2]) -> bool {
    (dx == STORED_UNLABELLED) == (dy == STORED_UNLABELLED)
}
