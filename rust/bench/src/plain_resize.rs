//! Expand and shrink in plain safe Rust by the library's way: the exact map, then each pixel by its size and, to shrink, by the rim.

use crate::plain_exact;

/// Expands a sheet by q. The map is unlabelled afterwards, scratch as after exact.
pub fn expand(sheet: &mut [u8], map: &mut [i16], scratch: &mut [i16], w: usize, h: usize, q: u32) {
    plain_exact::exact(sheet, map, scratch, w, h);
    threshold(sheet, map, |size| size <= q);
    map.fill(-32_768);
}

/// Shrinks a sheet by q, likewise: the exact map of the sheet turned round says how far the nearest bare pixel is. The root of q says how
/// many rows and columns along each side of the sheet are within q of a place off it.
pub fn shrink(sheet: &mut [u8], map: &mut [i16], scratch: &mut [i16], w: usize, h: usize, q: u32) {
    for byte in sheet.iter_mut() {
        *byte = u8::from(*byte == 0);
    }
    plain_exact::exact(sheet, map, scratch, w, h);
    let rim = q.isqrt() as usize;
    for (y, (row, map)) in sheet.chunks_mut(w).zip(map.chunks(2 * w)).enumerate() {
        if y < rim || y + rim >= h || 2 * rim >= w {
            row.fill(0);
        } else {
            row[..rim].fill(0);
            row[w - rim..].fill(0);
            threshold(&mut row[rim..w - rim], &map[2 * rim..], |size| size > q);
        }
    }
    map.fill(-32_768);
}

/// Writes 1 where the test says so of a pixel's size, and 0 elsewhere. The size of an unlabelled pixel is 2³¹, above all others.
fn threshold(sheet: &mut [u8], map: &[i16], copper: impl Fn(u32) -> bool) {
    let (map, _) = map.as_chunks();
    for (byte, &[dx, dy]) in sheet.iter_mut().zip(map) {
        let (dx, dy) = (i32::from(dx), i32::from(dy));
        *byte = u8::from(copper((dx * dx) as u32 + (dy * dy) as u32));
    }
}
