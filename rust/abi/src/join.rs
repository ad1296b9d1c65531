//! Two artworks on one sheet: their maps joined into that of both, which need not be built.
//!
//! The call takes no session and asks nothing of its caller: any numbers and slices of any length get the answer that is theirs. To join
//! into the slice that a session is lent is a write by something else than its calls. What is promised of place and run lapses then, and
//! holds again from the next build that is done.

/// The function of the archive, as `crates/abi/src/lib.rt` exports it: a slice is its pointer and its length.
mod ffi {
    extern "C" {
        pub fn abi_join(
            w: u16,
            h: u16,
            first: *const i16,
            first_len: usize,
            second: *const i16,
            second_len: usize,
            target: *mut i16,
            target_len: usize,
        ) -> u32;
    }
}

/// Joins two maps of `w` × `h` pixels into a third slice: at each pixel the labelled vector of the two, of two labelled ones the smaller,
/// among equal sizes that with the smaller dx, then the smaller dy; unlabelled if both are. A pixel is unlabelled if both its components
/// are −32,768, and otherwise labelled. From the exact maps of two sheets comes the exact map of the sheet with copper where either has it,
/// also if one or both have none. Each slice has 2 × `w` × `h` numbers. 0 if they are joined. Refusals, which write nothing: 11 if a side
/// is outside 1 to 2,048, 12 if a slice has another length.
///
/// ```
/// let (first, second) = ([-32_768, -32_768, 3, 4, 0, 1, 0, 1], [7, 7, 5, 1, -1, 0, 0, -1]);
/// let mut joined = [0; 8];
/// assert_eq!(abi::join::join(4, 1, &first, &second, &mut joined), 0);
/// assert_eq!(joined, [7, 7, 3, 4, -1, 0, 0, -1]);
/// assert_eq!(abi::join::join(5, 1, &first, &second, &mut joined), 12);
/// ```
pub fn join(w: u16, h: u16, first: &[i16], second: &[i16], target: &mut [i16]) -> u32 {
    let (first, first_len) = (first.as_ptr(), first.len());
    let (second, second_len) = (second.as_ptr(), second.len());
    // SAFETY: each pointer comes with the length of the slice it is from, the target is lent to nobody else, and the function has no
    // `requires`. It is proved to return and to stay within the three slices.
    unsafe { ffi::abi_join(w, h, first, first_len, second, second_len, target.as_mut_ptr(), target.len()) }
}
