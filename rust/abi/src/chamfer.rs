//! The maps of values for any weights: the comparison needs more of them than the three engines have.

/// The functions of the archive, as `crates/abi/src/lib.rt` exports them: a slice is its pointer and its length.
mod ffi {
    extern "C" {
        pub fn abi_chamfer_map(
            sheet: *const u8,
            sheet_len: usize,
            values: *mut u16,
            values_len: usize,
            w: u16,
            h: u16,
            a: u16,
            b: u16,
        ) -> bool;
    }
}

/// Writes the map of a sheet of `w` × `h` pixels, by the weights `a` of a side step and `b` of a corner step: at each pixel the least, over
/// the copper pixels, of a × (M − m) + b × m, with M and m the larger and smaller of the two offsets, and 65,535 on a sheet without copper.
/// True if it is written. False if a side is outside 1 to 2,048, a above b, b above 2 × a or above 32, or a slice is not of `w` × `h`;
/// nothing is written then.
///
/// ```
/// let mut values = [7; 6];
/// assert!(abi::chamfer::map(&[1, 0, 0, 0, 0, 0], &mut values, 3, 2, 3, 4));
/// assert_eq!(values, [0, 3, 6, 3, 4, 7]);
/// assert!(!abi::chamfer::map(&[1, 0, 0, 0, 0, 0], &mut values, 3, 2, 3, 7));
/// assert_eq!(values, [0, 3, 6, 3, 4, 7]);
/// ```
pub fn map(sheet: &[u8], values: &mut [u16], w: u16, h: u16, a: u16, b: u16) -> bool {
    // SAFETY: each pointer comes with the length of the slice it is from, the values are lent to nobody else, and the function has no
    // `requires`. It is proved to return and to stay within the two slices.
    unsafe { ffi::abi_chamfer_map(sheet.as_ptr(), sheet.len(), values.as_mut_ptr(), values.len(), w, h, a, b) }
}
