//! The README's example in Rust, as it stands there; and its example in Rattle stands in the program `boards_main`.

const README: &str = include_str!("../../../README.md");

#[test]
#[rustfmt::skip]
fn in_rust() {
let (mut sheet, mut map, mut values, mut scratch) = ([0; 16], [0; 32], [0; 16], [0; 16]);
let opened = abi::session::Session::fresh().open(&mut sheet, 4, 4);
let painted = opened.session.paint(&mut sheet, 3, 0, 1, 1);
let built = painted.session.build(&sheet, &mut map, &mut values, &mut scratch, 1);
assert_eq!(built.session.place(&map, &values, 0, 0, 8).answer, 0);
assert_eq!(built.session.place(&map, &values, 0, 0, 9).answer, 34);
}

/// The lines of the README's blocks of code.
fn blocks() -> Vec<&'static str> {
    README.split("```").skip(1).step_by(2).flat_map(str::lines).filter(|line| *line != "rust").collect()
}

#[test]
fn as_written() {
    let programs = concat!(include_str!("readme.rs"), include_str!("../../../crates/boards_main/src/main.rt"));
    let blocks = blocks();
    assert!(blocks.len() > 10);
    for line in blocks {
        assert!(programs.lines().any(|code| code.trim() == line), "{line}");
    }
}
