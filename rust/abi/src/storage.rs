//! Small maps in a byte a component, for the memory card.
//!
//! The calls take no session and ask nothing of their caller: any numbers and slices of any length get the answer that is theirs. To read a
//! map back into the slice that a session is lent is a write by something else than its calls. What is promised of place and run lapses
//! then, and holds again from the next build that is done.

/// The functions of the archive, as `crates/abi/src/lib.rt` exports them: a slice is its pointer and its length.
mod ffi {
    extern "C" {
        pub fn abi_store(w: u16, h: u16, map: *const i16, map_len: usize, bytes: *mut i8, bytes_len: usize) -> u32;
        pub fn abi_read_back(w: u16, h: u16, bytes: *const i8, bytes_len: usize, map: *mut i16, map_len: usize) -> u32;
    }
}

/// Stores a map of `w` × `h` pixels: dx and dy of each pixel as signed bytes, both −128 where it is unlabelled. Either slice has 2 × `w` ×
/// `h` numbers. 0 if it is stored. Refusals, which write nothing: 11 if a side is outside 1 to 2,048, 12 if a slice has another length, 45
/// if a side is above 128 or some pixel is not unlabelled and has a component outside ±127.
///
/// ```
/// let mut bytes = [7; 4];
/// assert_eq!(abi::storage::store(2, 1, &[3, -4, -32_768, -32_768], &mut bytes), 0);
/// assert_eq!(bytes, [3, -4, -128, -128]);
/// assert_eq!(abi::storage::store(2, 1, &[128, 0, 0, 0], &mut bytes), 45);
/// assert_eq!(bytes, [3, -4, -128, -128]);
/// ```
pub fn store(w: u16, h: u16, map: &[i16], bytes: &mut [i8]) -> u32 {
    // SAFETY: each pointer comes with the length of the slice it is from, the bytes are lent to nobody else, and the function has no
    // `requires`. It is proved to return and to stay within the two slices.
    unsafe { ffi::abi_store(w, h, map.as_ptr(), map.len(), bytes.as_mut_ptr(), bytes.len()) }
}

/// Reads a stored map of `w` × `h` pixels back: every number is as it was before it was stored. Either slice has 2 × `w` × `h` numbers. 0
/// if it is read back. Refusals, which write nothing: 11 if a side is outside 1 to 2,048, 12 if a slice has another length, 45 if a side is
/// above 128 or some pixel has one component −128 and the other not.
///
/// ```
/// let mut map = [7; 4];
/// assert_eq!(abi::storage::read_back(2, 1, &[3, -4, -128, -128], &mut map), 0);
/// assert_eq!(map, [3, -4, -32_768, -32_768]);
/// assert_eq!(abi::storage::read_back(2, 1, &[0, 0, -128, 0], &mut map), 45);
/// assert_eq!(map, [3, -4, -32_768, -32_768]);
/// ```
pub fn read_back(w: u16, h: u16, bytes: &[i8], map: &mut [i16]) -> u32 {
    // SAFETY: as in `store`, and the map is lent to nobody else.
    unsafe { ffi::abi_read_back(w, h, bytes.as_ptr(), bytes.len(), map.as_mut_ptr(), map.len()) }
}
