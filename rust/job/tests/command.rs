//! The program `job` as it is called: its words, its input, its output and its exit status.

use cli::trial::{assert_minds_full_disk, assert_stops, tool, written};
use std::fs::{self, File};
use std::process::Command;

const TEXT: &str = concat!(env!("CARGO_MANIFEST_DIR"), "/../../examples/first.txt");
const BYTES: &str = concat!(env!("CARGO_MANIFEST_DIR"), "/../../examples/first.job");

fn job(words: &[&str]) -> Command {
    tool(env!("CARGO_BIN_EXE_job"), words)
}

#[test]
fn pack() {
    let bytes = fs::read(BYTES).unwrap();
    assert_eq!(written(&mut job(&["pack", TEXT])), bytes);
    assert_eq!(written(job(&["pack"]).stdin(File::open(TEXT).unwrap())), bytes);
}

#[test]
fn unpack() {
    let text = fs::read_to_string(TEXT).unwrap();
    let without_comments: String = text.split_inclusive('\n').filter(|line| !line.starts_with('#')).collect();
    assert_eq!(written(&mut job(&["unpack", BYTES])), without_comments.as_bytes());
    assert_eq!(written(job(&["unpack"]).stdin(File::open(BYTES).unwrap())), without_comments.as_bytes());
}

#[test]
fn help() {
    for words in [&["-h"][..], &["--help"], &["pack", "--help"]] {
        assert!(written(&mut job(words)).starts_with(b"use: job pack [FILE] > JOB "));
    }
}

/// The help names every engine as the text of a job may, with its number.
#[test]
fn engines() {
    let help = String::from_utf8(written(&mut job(&["--help"]))).unwrap();
    for (number, name) in (1..).zip(["exact", "8sed", "4sed", "city-block", "chessboard", "chamfer"]) {
        assert!(help.contains(&format!("{number} {name}")), "{name}");
        assert_eq!(job::parse(&format!("build {name}\n")), job::parse(&format!("build {number}\n")));
    }
    assert!(job::parse("build 6\n").is_ok_and(|records| job::text(&records) == "build 6\n"));
}

#[test]
fn refused_words() {
    assert_stops(&mut job(&[]), 2, "`pack` or `unpack` is missing\nuse: ");
    assert_stops(&mut job(&["saw"]), 2, "unknown word `saw`\nuse: ");
    assert_stops(&mut job(&["--fast"]), 2, "unknown option `--fast`\nuse: ");
    assert_stops(&mut job(&["pack", "--fast"]), 2, "unknown option `--fast`\nuse: ");
    assert_stops(&mut job(&["pack", "a.txt", "b.txt"]), 2, "`b.txt` is one word too many\nuse: ");
}

#[test]
fn failures() {
    assert_stops(&mut job(&["pack", "no/such/file"]), 1, "`no/such/file` cannot be read: ");
    assert_stops(&mut job(&["unpack", TEXT]), 1, "record 1 at byte 0: ");
}

/// Every bad line is named, and so is one that is no text.
#[test]
fn bad_lines() {
    let file = concat!(env!("CARGO_TARGET_TMPDIR"), "/bad_lines.txt");
    fs::write(file, "lift 1\nlift\nopen 4\n").unwrap();
    let reasons = "line 1: `lift` takes nothing and not 1\nline 3: `open` takes w h, 2 numbers and not 1\n";
    assert_stops(&mut job(&["pack", file]), 1, reasons);
    fs::write(file, b"lift\n# gr\xfc\xdf\n").unwrap();
    assert_stops(&mut job(&["pack", file]), 1, "line 2: this is no UTF-8\n");
}

/// On a full disk nothing is lost in silence.
#[test]
fn full_disk() {
    for words in [&["pack", TEXT][..], &["unpack", BYTES], &["--help"]] {
        assert_minds_full_disk(&mut job(words));
    }
}
