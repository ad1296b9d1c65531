//! A tool run as a program, for the tests of its command line.

use std::fs::File;
use std::process::{Command, Output, Stdio};

/// A program with words, to be run with nothing on standard input unless the test gives it something.
pub fn tool(program: &str, words: &[&str]) -> Command {
    let mut tool = Command::new(program);
    tool.args(words).stdin(Stdio::null());
    tool
}

/// What a tool writes on standard output. Panics unless it ends with status 0 and writes nothing on standard error.
pub fn written(tool: &mut Command) -> Vec<u8> {
    let (status, error, output) = ended(tool);
    assert_eq!((status, error), (Some(0), String::new()), "{tool:?}");
    output
}

/// Panics unless a tool ends with this status, with a reason on standard error that starts so, and with nothing on standard output.
pub fn assert_stops(tool: &mut Command, status: i32, reason: &str) {
    let (found, error, output) = ended(tool);
    assert_eq!((found, output), (Some(status), Vec::new()), "{tool:?}: {error}");
    assert!(error.starts_with(reason), "{tool:?}: {error}");
}

/// Panics unless a tool says that it cannot write to a full disk.
pub fn assert_minds_full_disk(tool: &mut Command) {
    let full = File::options().write(true).open("/dev/full").expect("Linux has this file");
    assert_stops(tool.stdout(full), 1, "standard output cannot be written: ");
}

/// The exit status of a tool, and what it wrote on standard error and on standard output.
fn ended(tool: &mut Command) -> (Option<i32>, String, Vec<u8>) {
    let Output { status, stdout, stderr } = tool.output().expect("the program starts");
    (status.code(), String::from_utf8(stderr).expect("reasons are text"), stdout)
}
