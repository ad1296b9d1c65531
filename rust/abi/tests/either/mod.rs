//! What the tests share that are run on the library's session and on the model's.

// no test file needs all of it
#![allow(dead_code)]

use model::calls::Calls;
use model::session::Fields;

/// Makes a test of each function for the model's session, and one for the library's.
macro_rules! on_either {
    ($($test:ident),+ $(,)?) => {
        mod model_session {
            $(#[test]
            fn $test() {
                super::$test::<model::session::Fields>();
            })+
        }

        mod library_session {
            $(#[test]
            fn $test() {
                super::$test::<soak::library::Library>();
            })+
        }
    };
}
pub(crate) use on_either;

/// What a call hands back, as the model records it.
pub fn told<S: Calls>((answer, session): (u32, S)) -> (u32, Fields) {
    (answer, session.into())
}

/// Makes a call with every set of wrong things about it. It must answer 30 if that is among them, otherwise the lowest, and 0 if nothing is
/// wrong.
pub fn every_set(wrong: &[u32], call: impl Fn(&dyn Fn(u32) -> bool) -> u32) {
    for set in 0..1 << wrong.len() {
        let chosen: Vec<u32> = (0..wrong.len()).filter(|at| set >> at & 1 == 1).map(|at| wrong[at]).collect();
        let expected = if chosen.contains(&30) { 30 } else { chosen.iter().copied().min().unwrap_or(0) };
        assert_eq!(call(&|number| chosen.contains(&number)), expected, "{chosen:?}");
    }
}

/// A slice without its last number if something is wrong with it.
pub fn cut<T>(slice: &mut [T], wrong: bool) -> &mut [T] {
    let length = slice.len();
    &mut slice[..length - usize::from(wrong)]
}

/// The session, or what is left of it if nothing is open.
pub fn unless<S: Calls>(closed: bool, session: Fields) -> S {
    S::from(Fields { opened: !closed, ..session })
}

/// Direction and count of a run from the corner of document 01's board that has these things wrong about it: along the upper edge there is
/// copper at the last column.
pub fn along_the_edge(wrong: &dyn Fn(u32) -> bool) -> (u16, u16) {
    let (direction, count) = match (wrong(33), wrong(34)) {
        (false, false) => (0, 2),
        (false, true) => (0, 3),
        (true, false) => (6, 1),
        (true, true) => (0, 4),
    };
    (direction, if wrong(17) { 2_048 } else { count })
}
