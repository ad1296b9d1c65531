//! Small maps in a byte a component (document 02, C-24): stored, and read back, pixel by pixel.

use crate::scans::UNLABELLED;
use crate::sides;

/// An unlabelled pixel as it is stored.
pub const STORED_UNLABELLED: [i8; 2] = [-128; 2];

/// The longest side of a sheet whose map is stored.
const MAX_STORED_SIDE: u16 = 128;

/// Stores a map. On any other answer than 0 nothing is written.
pub fn store(w: u16, h: u16, map: &[i16], bytes: &mut [i8]) -> u32 {
    convert([w, h], map, bytes, stored)
}

/// Reads a stored map back. On any other answer than 0 nothing is written.
pub fn read_back(w: u16, h: u16, bytes: &[i8], map: &mut [i16]) -> u32 {
    convert([w, h], bytes, map, restored)
}

/// A pixel as it is stored. None if it is labelled and has a component outside ±127, which −32,768 is too.
pub fn stored(pixel: [i16; 2]) -> Option<[i8; 2]> {
    if pixel == UNLABELLED {
        return Some(STORED_UNLABELLED);
    }
    let [dx, dy] = pixel;
    ((-127..=127).contains(&dx) && (-127..=127).contains(&dy)).then_some([dx as i8, dy as i8])
}

/// A pixel as it was before it was stored. None if it is half marked.
pub fn restored(pixel: [i8; 2]) -> Option<[i16; 2]> {
    match pixel {
        STORED_UNLABELLED => Some(UNLABELLED),
        [-128, _] | [_, -128] => None,
        [dx, dy] => Some([dx.into(), dy.into()]),
    }
}

/// Writes what each pixel becomes, if sides and lengths are right and each pixel becomes something.
fn convert<T: Copy, U: Copy>(sides: [u16; 2], from: &[T], to: &mut [U], pixel: fn([T; 2]) -> Option<[U; 2]>) -> u32 {
    if let Some(answer) = sides::refusal(sides, &[from.len(), to.len()]) {
        return answer;
    }
    let pixels: Option<Vec<[U; 2]>> = from.chunks(2).map(|two| pixel([two[0], two[1]])).collect();
    let small = sides.iter().all(|&side| side <= MAX_STORED_SIDE);
    let Some(pixels) = pixels.filter(|_| small) else { return 45 };
    to.copy_from_slice(pixels.as_flattened());
    0
}

#[cfg(test)]
mod tests {
    use super::*;
    use crate::{boards, exact};

    /// What storing a map answers and leaves in bytes that were 7.
    fn stores(w: u16, h: u16, map: &[i16]) -> (u32, Vec<i8>) {
        let mut bytes = vec![7; map.len()];
        (store(w, h, map, &mut bytes), bytes)
    }

    /// What reading back answers and leaves in a map that was 7.
    fn reads_back(w: u16, h: u16, bytes: &[i8]) -> (u32, Vec<i16>) {
        let mut map = vec![7; bytes.len()];
        (read_back(w, h, bytes, &mut map), map)
    }

    #[test]
    fn by_hand() {
        let map = [3, -4, -32_768, -32_768, 0, 0, 127, -127, -127, 127, 5, 0];
        let bytes = [3, -4, -128, -128, 0, 0, 127, -127, -127, 127, 5, 0];
        for (w, h) in [(6, 1), (1, 6), (3, 2), (2, 3)] {
            assert_eq!(stores(w, h, &map), (0, bytes.to_vec()));
            assert_eq!(reads_back(w, h, &bytes), (0, map.to_vec()));
        }
    }

    /// Document 01's board: its exact map is stored to the same numbers.
    #[test]
    fn document_01() {
        let map = exact::outwards(&boards::document_01().sheet, 4, 4).concat();
        let (answer, bytes) = stores(4, 4, &map);
        assert_eq!((answer, &bytes[..8]), (0, &[2, 2, 2, 0, 1, 0, 0, 0][..]));
        assert!(bytes.iter().zip(&map).all(|(&byte, &number)| i16::from(byte) == number));
        assert_eq!(reads_back(4, 4, &bytes), (0, map));
    }

    /// No copper: all is unlabelled.
    #[test]
    fn no_copper() {
        assert_eq!(stores(3, 2, &[-32_768; 12]), (0, vec![-128; 12]));
        assert_eq!(reads_back(3, 2, &[-128; 12]), (0, vec![-32_768; 12]));
    }

    /// ±127 are stored, and beyond them nothing but an unlabelled pixel. It need not be the only pixel, nor the first.
    #[test]
    fn components() {
        for good in [-127, -126, -1, 0, 1, 126, 127] {
            for pixel in [[good, 0], [0, good], [good, 127], [-127, good], [good, good]] {
                assert_eq!(stores(1, 1, &pixel), (0, pixel.map(|number| number as i8).to_vec()), "{pixel:?}");
            }
        }
        for bad in [-32_767, -256, -255, -129, -128, 128, 129, 255, 256, 384, 32_767] {
            for pixel in [[bad, 0], [0, bad], [bad, 127], [-127, bad], [bad, bad], [bad, -32_768], [-32_768, bad]] {
                assert_eq!(stores(1, 1, &pixel), (45, vec![7; 2]), "{pixel:?}");
                assert_eq!(stores(1, 2, &[pixel, [0; 2]].concat()), (45, vec![7; 4]), "{pixel:?}");
                assert_eq!(stores(2, 1, &[[-32_768; 2], pixel].concat()), (45, vec![7; 4]), "{pixel:?}");
            }
        }
    }

    /// A half-marked pixel is neither stored nor read back.
    #[test]
    fn half_marked() {
        for number in [-127, -1, 0, 1, 127] {
            let (long, short) = (number, number as i8);
            for pixel in [[long, -32_768], [-32_768, long]] {
                assert_eq!(stores(1, 1, &pixel), (45, vec![7; 2]));
                assert_eq!(stores(2, 1, &[[0; 2], pixel].concat()), (45, vec![7; 4]));
            }
            for pixel in [[short, -128], [-128, short]] {
                assert_eq!(reads_back(1, 1, &pixel), (45, vec![7; 2]));
                assert_eq!(reads_back(2, 1, &[[-128; 2], pixel].concat()), (45, vec![7; 4]));
            }
        }
        // these stand in two pixels
        assert_eq!(reads_back(2, 1, &[0, -128, -128, 0]), (45, vec![7; 4]));
        assert_eq!(stores(2, 1, &[0, -32_768, -32_768, 0]), (45, vec![7; 4]));
    }

    /// 11, then 12, then 45, for a side above 128 and for a pixel.
    #[test]
    fn order_of_refusals() {
        for (w, h) in [(0, 1), (1, 0), (0, 0), (2_049, 1), (1, 2_049), (65_535, 129)] {
            assert_eq!(stores(w, h, &[128, 0]), (11, vec![7; 2]), "{w}, {h}");
            assert_eq!(reads_back(w, h, &[-128, 0]), (11, vec![7; 2]), "{w}, {h}");
        }
        for (w, h) in [(1, 2), (129, 1), (2_048, 2_048)] {
            assert_eq!(stores(w, h, &[128, 0]), (12, vec![7; 2]), "{w}, {h}");
            assert_eq!(reads_back(w, h, &[-128, 0]), (12, vec![7; 2]), "{w}, {h}");
        }
        for (w, h) in [(129, 1), (1, 129), (129, 129), (2_048, 1), (1, 2_048)] {
            let numbers = 2 * usize::from(w) * usize::from(h);
            assert_eq!(stores(w, h, &vec![0; numbers]), (45, vec![7; numbers]), "{w}, {h}");
            assert_eq!(reads_back(w, h, &vec![0; numbers]), (45, vec![7; numbers]), "{w}, {h}");
        }
        for (w, h) in [(128, 1), (1, 128), (128, 128)] {
            let numbers = 2 * usize::from(w) * usize::from(h);
            assert_eq!(stores(w, h, &vec![1; numbers]), (0, vec![1; numbers]), "{w}, {h}");
            assert_eq!(reads_back(w, h, &vec![1; numbers]), (0, vec![1; numbers]), "{w}, {h}");
        }
    }

    /// 12 for either slice, too long or too short, whatever is wrong besides.
    #[test]
    fn lengths() {
        for number in [0, 100] {
            for (source, target) in [(4, 3), (4, 5), (3, 4), (5, 4), (4, 0), (0, 4), (0, 0), (8, 8), (2, 2)] {
                let (mut bytes, mut map) = (vec![7; target], vec![7; target]);
                assert_eq!((store(1, 2, &vec![10 * number; source], &mut bytes), bytes), (12, vec![7; target]));
                assert_eq!((read_back(2, 1, &vec![number as i8; source], &mut map), map), (12, vec![7; target]));
            }
        }
    }

    /// Each pixel that can be stored is read back, and each that can be read back is stored.
    #[test]
    fn there_and_back() {
        let numbers = || (-130..=130).chain([-32_768, -32_767, 32_767]);
        let pairs = numbers().flat_map(|dx| numbers().map(move |dy| [dx, dy]));
        let stored_ones: Vec<[i16; 2]> = pairs.filter(|&pixel| stored(pixel).is_some()).collect();
        assert_eq!(stored_ones.len(), 255 * 255 + 1);
        assert!(stored_ones.iter().all(|&pixel| stored(pixel).and_then(restored) == Some(pixel)));
        let bytes = (-128..=127).flat_map(|dx| (-128..=127).map(move |dy| [dx, dy]));
        let restored_ones: Vec<[i8; 2]> = bytes.filter(|&pixel| restored(pixel).is_some()).collect();
        assert_eq!(restored_ones.len(), 255 * 255 + 1);
        assert!(restored_ones.iter().all(|&pixel| restored(pixel).and_then(stored) == Some(pixel)));
    }
}
