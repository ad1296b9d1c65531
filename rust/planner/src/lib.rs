//! Safe Rust functions over the proved library, for the planner window.
//!
//! ```
//! assert_eq!(planner::radius(100, 25), Ok(16));
//! assert_eq!(planner::radius(0, 25), Err(planner::Refused::Measures));
//!
//! let open = [8, 0, 1, 0, 4, 0, 4, 0];
//! assert_eq!(planner::split(&open), Ok(1));
//! assert_eq!(planner::split(&open[..7]), Err(planner::Refused::Job));
//! ```

use std::fmt;

/// The functions of the archive, as `include/planner.h` declares them.
mod ffi {
    /// What a radius and a pitch make.
    #[repr(C)]
    pub struct Measured {
        /// 0, 15 or 18.
        pub answer: u32,
        /// The q, 0 if refused.
        pub q: u32,
    }

    /// What a job file splits into.
    #[repr(C)]
    pub struct Counted {
        /// The number of records, 0 if refused.
        pub records: u32,
        /// 0 or 19.
        pub answer: u32,
    }

    extern "C" {
        /// The q of a radius and a pitch in micrometres.
        pub fn planner_radius(r: u32, p: u32) -> Measured;
        /// The number of records of the job file of `length` bytes at `job`.
        pub fn planner_split(job: *const u8, length: usize) -> Counted;
    }
}

/// Why the library turned a call away.
#[derive(Clone, Copy, Debug, PartialEq, Eq)]
pub enum Refused {
    /// 15: q is above 4,194,304.
    Q,
    /// 18: the radius is outside 1 to 20,000 or the pitch outside 1 to 1,000 micrometres.
    Measures,
    /// 19: the job file does not split into records.
    Job,
}

impl Refused {
    /// The answer number.
    pub fn number(self) -> u32 {
        match self {
            Refused::Q => 15,
            Refused::Measures => 18,
            Refused::Job => 19,
        }
    }
}

impl fmt::Display for Refused {
    fn fmt(&self, f: &mut fmt::Formatter<'_>) -> fmt::Result {
        let why = match self {
            Refused::Q => "q is above 4,194,304",
            Refused::Measures => "the radius is outside 1 to 20,000 or the pitch outside 1 to 1,000 micrometres",
            Refused::Job => "the job file does not split into records",
        };
        write!(f, "refused with {}: {why}", self.number())
    }
}

impl std::error::Error for Refused {}

/// The q of a cutter of radius `r` where pixels are `p` apart, both in micrometres: the largest whole number not above r² / p².
pub fn radius(r: u32, p: u32) -> Result<u32, Refused> {
    // SAFETY: the function takes and returns plain numbers, has no `requires` and is proved to return.
    let measured = unsafe { ffi::planner_radius(r, p) };
    match measured.answer {
        0 => Ok(measured.q),
        15 => Err(Refused::Q),
        18 => Err(Refused::Measures),
        other => unreachable!("the library is proved to answer 0, 15 or 18, not {other}"),
    }
}

/// The number of records of a job file. A kind that is none, a length that is not the kind's, a cut tail or more than 65,536 bytes is
/// [`Refused::Job`]; an empty file has no records.
///
/// ```
/// let build = [6, 0, 4, 0, 3, 0];
/// let lift = [4, 0, 7, 0];
/// assert_eq!(planner::split(&[&build[..], &lift[..]].concat()), Ok(2));
/// assert_eq!(planner::split(&[]), Ok(0));
/// assert_eq!(planner::split(&[4, 0, 10, 0]), Err(planner::Refused::Job));
/// ```
pub fn split(job: &[u8]) -> Result<u32, Refused> {
    // SAFETY: pointer and length are those of a slice that lives through the call; the function only reads it, has no `requires` and is
    // proved to return.
    let counted = unsafe { ffi::planner_split(job.as_ptr(), job.len()) };
    match counted.answer {
        0 => Ok(counted.records),
        19 => Err(Refused::Job),
        other => unreachable!("the library is proved to answer 0 or 19, not {other}"),
    }
}
