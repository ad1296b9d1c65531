//! Jobs for the program `mill`, and the program that `rt run` builds in crates/mill.

use model::random::Random;
use std::io::Write;
use std::path::PathBuf;
use std::process::{Child, Command, Output, Stdio};

/// Starts the program with its input and output as pipes.
pub fn start() -> Child {
    let program = PathBuf::from(env!("CARGO_MANIFEST_DIR")).join("../../crates/mill/out/mill");
    assert!(program.exists(), "{} is missing: run `rt run` in crates/mill first", program.display());
    Command::new(program).stdin(Stdio::piped()).stdout(Stdio::piped()).spawn().expect("the program starts")
}

/// What the program prints of a job.
pub fn printed(job: &[u8]) -> String {
    let mut mill = start();
    let mut input = mill.stdin.take().expect("its input is a pipe");
    let job = job.to_vec();
    // the program may print before it has read all, so that nobody must wait for the other
    let writer = std::thread::spawn(move || input.write_all(&job));
    let Output { status, stdout, .. } = mill.wait_with_output().expect("the program ends");
    // it may end before it has read a job that is too long
    let _ = writer.join().expect("the writer ends");
    assert!(status.success(), "the program failed: {status}");
    String::from_utf8(stdout).expect("the program prints text")
}

/// A job of random records: numbers that make sense more often than not, and now and then bytes that do not split.
pub fn random(random: &mut Random) -> Vec<u8> {
    let (w, h) = (random.between(1, 12), random.between(1, 12));
    let mut text = String::new();
    for _ in 0..random.between(0, 40) {
        let (x, y) = (random.between(0, w), random.between(0, h));
        let q = [0, 1, 2, 4, 9, 25, 4_194_304, 4_194_305][random.below(8) as usize];
        let line = match random.below(24) {
            0 | 1 => format!("open {w} {h}"),
            2 => format!("open {} {}", random.below(3_000), random.below(9)),
            3..=6 => format!("paint {x} {y} {} {}", random.between(0, 3), random.between(0, 3)),
            7 => format!("erase {x} {y} 2 1"),
            8..=11 => format!("build {}", random.between(0, 7)),
            12..=15 => format!("place {x} {y} {q}"),
            16..=19 => format!("run {} {}", random.between(0, 8), random.between(0, 5)),
            20 => "lift".into(),
            21 => format!("expand {q}"),
            22 => format!("shrink {q}"),
            _ => format!("run {} {}", random.below(65_536), random.below(65_536)),
        };
        text += &line;
        text += "\n";
    }
    let mut job = job::pack(&job::parse(&text).expect("the text is a job's"));
    match random.below(8) {
        0 => job.truncate(random.between(0, job.len())),
        1 if !job.is_empty() => {
            let at = random.between(0, job.len() - 1);
            job[at] = random.next() as u8;
        }
        _ => {}
    }
    job
}
