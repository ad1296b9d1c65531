//! The program `mill` on the examples, on random and damaged jobs beside the model, and on pipes that behave badly.

use mill::{printed, random, start};
use model::random::Random;
use std::fs;
use std::io::{Read, Write};
use std::path::Path;

#[test]
fn examples() {
    let folder = Path::new(env!("CARGO_MANIFEST_DIR")).join("../../examples");
    let jobs = fs::read_dir(folder).unwrap().map(|entry| entry.unwrap().path()).filter(|file| file.extension().is_some_and(|e| e == "job"));
    let mut count = 0;
    for job in jobs {
        let bytes = fs::read(&job).unwrap();
        let expected = fs::read_to_string(job.with_extension("out")).unwrap();
        assert_eq!(printed(&bytes), expected, "{}", job.display());
        assert_eq!(model::job::printed(&bytes), expected, "{}", job.display());
        count += 1;
    }
    assert!(count >= 6);
}

#[test]
fn as_the_model() {
    let mut numbers = Random::new(19);
    for _ in 0..1_500 {
        let job = random(&mut numbers);
        assert_eq!(printed(&job), model::job::printed(&job), "{job:?}");
    }
}

/// The sheets on which `mill` comes to the ends of its buffers: with all its pixels, the widest, of few rows and of few columns. On each every
/// engine builds its map, and a cutter goes from the first and from the last pixel.
#[test]
fn largest_sheets() {
    let wide = (1..=5).flat_map(|few| [(2_048, few), (few, 2_048), (2_047, few)]);
    for (w, h) in wide.chain([(90, 91), (91, 90), (64, 128), (1, 1)]) {
        let paint = format!("paint {} {} 1 1\n", w / 2, h / 2);
        let calls = "build 1\nplace 0 0 1\nrun east 1\nexpand 2\nbuild 1\nshrink 1\nbuild 2\nbuild 1\nplace 0 0 4\n";
        let mut text = format!("open {w} {h}\n{paint}{calls}{paint}");
        for engine in 1..=6 {
            text += &format!("build {engine}\nplace 0 0 4\nrun south 1\nplace {} {} 9\nrun west 2\nlift\n", w - 1, h - 1);
        }
        let job = job::pack(&job::parse(&text).unwrap());
        let found = printed(&job);
        assert_eq!(found, model::job::printed(&job), "{text}");
        assert_eq!(found.contains("\n3 0\n"), w * h <= 8_192, "{text}");
    }
}

#[test]
fn nothing() {
    assert_eq!(printed(&[]), "");
}

#[test]
fn longest() {
    let lifts = [4, 0, 7, 0].repeat(16_384);
    assert_eq!(printed(&lifts), model::job::printed(&lifts));
    let more = [4, 0, 7, 0].repeat(16_385);
    assert_eq!(printed(&more), "0 19\n");
}

/// An input that never ends is not read for ever.
#[test]
fn endless() {
    let mut mill = start();
    let mut input = mill.stdin.take().unwrap();
    let writer = std::thread::spawn(move || while input.write_all(&[4, 0, 7, 0]).is_ok() {});
    let mut text = String::new();
    mill.stdout.take().unwrap().read_to_string(&mut text).unwrap();
    assert!(mill.wait().unwrap().success());
    writer.join().unwrap();
    assert_eq!(text, "0 19\n");
}

/// A pipe may deliver a byte at a time.
#[test]
fn byte_by_byte() {
    let job = [8, 0, 1, 0, 4, 0, 4, 0, 4, 0, 7, 0];
    let mut mill = start();
    let mut input = mill.stdin.take().unwrap();
    for byte in job {
        input.write_all(&[byte]).unwrap();
        input.flush().unwrap();
        std::thread::sleep(std::time::Duration::from_millis(2));
    }
    drop(input);
    let output = mill.wait_with_output().unwrap();
    assert_eq!((output.status.success(), output.stdout), (true, b"1 0\n2 0\n".to_vec()));
}

/// With its output closed the program ends.
#[test]
fn closed_output() {
    let mut mill = start();
    drop(mill.stdout.take());
    let mut input = mill.stdin.take().unwrap();
    input.write_all(&[4, 0, 7, 0].repeat(16_384)).unwrap();
    drop(input);
    mill.wait().unwrap();
}
