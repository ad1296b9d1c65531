//! Two maps joined into a third slice, in plain safe Rust by the library's way: a pass without jumps. Each pixel is ordered and chosen as
//! one number of 32 bits, so that several pixels are done at a time.

use crate::plain_calls::length_answer;

type Pixel = [i16; 2];

/// Joins two maps.
pub fn join(w: u16, h: u16, first: &[i16], second: &[i16], joined: &mut [i16]) -> u32 {
    let answer = length_answer([w, h], &[first.len(), second.len(), joined.len()]);
    if answer == 0 {
        let (first, second) = (first.as_chunks().0, second.as_chunks().0);
        for ((target, &one), &other) in joined.as_chunks_mut::<2>().0.iter_mut().zip(first).zip(second) {
            let closer = (size(other) < size(one)) | ((size(other) == size(one)) & (key(other) < key(one)));
            let chosen = if closer { word(other) } else { word(one) };
            *target = [chosen as i16, (chosen >> 16) as i16];
        }
    }
    answer
}

/// The size. That of an unlabelled pixel is 2³¹, above all others.
fn size([dx, dy]: Pixel) -> u32 {
    let (dx, dy) = (i32::from(dx), i32::from(dy));
    (dx * dx) as u32 + (dy * dy) as u32
}

/// Both components in one number.
fn word([dx, dy]: Pixel) -> u32 {
    u32::from(dx as u16) | (u32::from(dy as u16) << 16)
}

/// Less for a smaller dx, then for a smaller dy: dx comes first, and the sign of dy is turned.
fn key(pixel: Pixel) -> i32 {
    (word(pixel).rotate_left(16) ^ 0x8000) as i32
}
