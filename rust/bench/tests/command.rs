//! The program `bench` as it is called: its words, its output and its exit status. Nothing is timed.

use cli::trial::{assert_minds_full_disk, assert_stops, tool, written};
use std::process::Command;

fn bench(words: &[&str]) -> Command {
    tool(env!("CARGO_BIN_EXE_bench"), words)
}

#[test]
fn help() {
    for words in [&["-h"][..], &["--help"], &["3", "--help"], &["--peers", "-h"], &["abc", "-h"]] {
        assert!(written(&mut bench(words)).starts_with(b"use: bench [ROUNDS [CALL...]] "));
    }
}

#[test]
fn refused_words() {
    for option in ["--fast", "-1"] {
        assert_stops(&mut bench(&[option]), 2, &format!("unknown option `{option}`\nuse: "));
    }
    for words in [&["0"][..], &["abc"], &["skeleton"], &["--peers", "0"], &["--memory", "abc"]] {
        let rounds = words[words.len() - 1];
        assert_stops(&mut bench(words), 2, &format!("ROUNDS is a number from 1 to {}, not `{rounds}`\nuse: ", usize::MAX));
    }
    let calls =
        "exact, 8SED, 4SED, city-block, chessboard, chamfer, expand, shrink, skeleton, rebuild, run, probe, probe-row, store, read-back";
    for words in [&["1", "saw"][..], &["1", "exact", "saw"]] {
        assert_stops(&mut bench(words), 2, &format!("CALL is one of {calls}, not `saw`\nuse: "));
    }
    assert_stops(&mut bench(&["--peers", "5", "exact"]), 2, "`exact` is one word too many\nuse: ");
    assert_stops(&mut bench(&["--stack", "5"]), 2, "`5` is one word too many\nuse: ");
    for words in [["--peers", "--memory"], ["--stack", "--memory"]] {
        assert_stops(&mut bench(&words), 2, "`--memory` is one option too many\nuse: ");
    }
}

/// Each call takes some of the stack, and less than 100,000 bytes.
#[test]
fn stack() {
    let text = String::from_utf8(written(&mut bench(&["--stack"]))).unwrap();
    let calls: Vec<(&str, &str)> = text.lines().skip(2).map(|line| line.rsplit_once(' ').expect("two columns")).collect();
    assert_eq!(calls.len(), 22, "{text}");
    assert!(calls.iter().all(|(_, bytes)| bytes.parse().is_ok_and(|bytes: u32| (1..100_000).contains(&bytes))), "{text}");
}

/// On a full disk nothing is lost in silence.
#[test]
fn full_disk() {
    assert_minds_full_disk(&mut bench(&["--help"]));
}
