//! Document 01, with what document 02 changes, as a plain model, written from the papers and not from the library's code. The tests compare
//! the two.

pub mod between;
pub mod boards;
pub mod calls;
pub mod chamfer;
pub mod exact;
pub mod job;
pub mod join;
pub mod maps;
pub mod nearest;
pub mod points;
pub mod probe;
pub mod random;
pub mod resize;
pub mod scans;
pub mod session;
pub mod sides;
pub mod skeleton;
pub mod storage;

/// Radius and pitch in micrometres to the answer number and q, by bisection and with no division.
pub fn radius(r: u32, p: u32) -> (u32, u32) {
    if !(1..=20_000).contains(&r) || !(1..=1_000).contains(&p) {
        return (18, 0);
    }
    let fits = |q: u64| q * u64::from(p) * u64::from(p) <= u64::from(r) * u64::from(r);
    let (mut low, mut high) = (0, 1 << 32);
    while high - low > 1 {
        let middle = (low + high) / 2;
        if fits(middle) {
            low = middle;
        } else {
            high = middle;
        }
    }
    if low > 4_194_304 {
        (15, 0)
    } else {
        (0, low as u32)
    }
}
