//! The program `draw` as it is called: its words, its input, its output and its exit status.

use cli::trial::{assert_minds_full_disk, assert_stops, tool, written};
use std::fs::{self, File};
use std::process::Command;

const TEXT: &str = concat!(env!("CARGO_MANIFEST_DIR"), "/../../examples/milled.txt");
const JOB: &str = concat!(env!("CARGO_MANIFEST_DIR"), "/../../examples/milled.job");
const PICTURE: &str = concat!(env!("CARGO_MANIFEST_DIR"), "/../../examples/milled.svg");

fn draw(words: &[&str]) -> Command {
    tool(env!("CARGO_BIN_EXE_draw"), words)
}

#[test]
fn file_and_standard_input() {
    let picture = fs::read(PICTURE).unwrap();
    assert!(written(&mut draw(&[JOB])) == picture, "from a file");
    assert!(written(draw(&[]).stdin(File::open(JOB).unwrap())) == picture, "from standard input");
}

#[test]
fn help() {
    for word in ["-h", "--help"] {
        assert!(written(&mut draw(&[word])).starts_with(b"use: draw [FILE] > PICTURE.svg "));
    }
}

#[test]
fn refused_words() {
    assert_stops(&mut draw(&["--fast"]), 2, "unknown option `--fast`\nuse: ");
    assert_stops(&mut draw(&[JOB, TEXT]), 2, &format!("`{TEXT}` is one word too many\nuse: "));
}

#[test]
fn failures() {
    assert_stops(&mut draw(&[]), 1, "nothing to draw: the job is empty or only lifts the cutter\n");
    assert_stops(&mut draw(&["no/such/file"]), 1, "`no/such/file` cannot be read: ");
    assert_stops(&mut draw(&[TEXT]), 1, "record 1 at byte 0: ");
}

/// On a full disk nothing is lost in silence.
#[test]
fn full_disk() {
    assert_minds_full_disk(&mut draw(&[JOB]));
}
