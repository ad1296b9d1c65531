//! The program `soak` as it is called: its words, its output and its exit status.

use cli::trial::{assert_minds_full_disk, assert_stops, tool, written};
use std::process::Command;

fn soak(words: &[&str]) -> Command {
    tool(env!("CARGO_BIN_EXE_soak"), words)
}

/// The same seed makes the same lists, and each answer has its line.
#[test]
fn lists() {
    let text = String::from_utf8(written(&mut soak(&["1", "1"]))).unwrap();
    assert!(text.starts_with("1 lists\n  0 ") && text.ends_with('\n'), "{text}");
    assert_eq!(written(&mut soak(&["1", "1"])), text.as_bytes());
    assert_ne!(written(&mut soak(&["2", "1"])), text.as_bytes());
}

#[test]
fn help() {
    for words in [&["-h"][..], &["--help"], &["1", "-h"], &["abc", "--help"]] {
        assert!(written(&mut soak(words)).starts_with(b"use: soak SEED COUNT "));
    }
}

#[test]
fn refused_words() {
    assert_stops(&mut soak(&[]), 2, "SEED and COUNT are missing\nuse: ");
    assert_stops(&mut soak(&["1"]), 2, "COUNT is missing\nuse: ");
    assert_stops(&mut soak(&["--fast", "1", "5"]), 2, "unknown option `--fast`\nuse: ");
    assert_stops(&mut soak(&["1", "-5"]), 2, "unknown option `-5`\nuse: ");
    assert_stops(&mut soak(&["1", "5", "seven"]), 2, "`seven` is one word too many\nuse: ");
    for seed in ["abc", "2.5", "18446744073709551616"] {
        assert_stops(&mut soak(&[seed]), 2, &format!("SEED is a number from 0 to 18446744073709551615, not `{seed}`\nuse: "));
    }
    for count in ["0", "abc", "99999999999999999999"] {
        assert_stops(&mut soak(&["1", count]), 2, &format!("COUNT is a number from 1 to {}, not `{count}`\nuse: ", usize::MAX));
    }
}

/// On a full disk nothing is lost in silence.
#[test]
fn full_disk() {
    for words in [&["1", "1"][..], &["--help"]] {
        assert_minds_full_disk(&mut soak(words));
    }
}
