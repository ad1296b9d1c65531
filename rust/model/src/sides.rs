//! The limits of a sheet's sides, and what the calls test that take sides and no session.

/// The longest side of a sheet.
const MAX_SIDE: u16 = 2_048;

/// Whether a sheet may have these sides.
pub fn allowed(sides: [u16; 2]) -> bool {
    sides.iter().all(|side| (1..=MAX_SIDE).contains(side))
}

/// Why a call is refused that takes the sides of a sheet and slices of these lengths with two numbers a pixel: 11 by the sides, then 12 by
/// a length. None if all are right.
pub fn refusal(sides: [u16; 2], lengths: &[usize]) -> Option<u32> {
    if !allowed(sides) {
        return Some(11);
    }
    let numbers = 2 * usize::from(sides[0]) * usize::from(sides[1]);
    lengths.iter().any(|&length| length != numbers).then_some(12)
}
