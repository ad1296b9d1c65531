//! The proved library's calls as safe Rust functions, for the tests, the benchmark and the pictures of jobs: see [`session`], for maps in
//! a byte a component [`storage`], for two artworks on one sheet [`join`], and for maps by other weights than the engines have [`chamfer`].

pub mod chamfer;
pub mod join;
pub mod session;
pub mod storage;
