//! The job files in `examples/`: each is its text packed, and a damaged one is told from the others.

use std::fs;
use std::path::{Path, PathBuf};

fn examples(extension: &str) -> Vec<PathBuf> {
    let folder = Path::new(env!("CARGO_MANIFEST_DIR")).join("../../examples");
    let mut files: Vec<PathBuf> = fs::read_dir(folder).unwrap().map(|entry| entry.unwrap().path()).collect();
    files.retain(|file| file.extension().is_some_and(|other| other == extension));
    files.sort();
    files
}

#[test]
fn packed() {
    let texts = examples("txt");
    assert!(texts.len() >= 5);
    for text in texts {
        let records = job::parse(&fs::read_to_string(&text).unwrap()).unwrap_or_else(|bad| panic!("{}: {bad}", text.display()));
        let job = fs::read(text.with_extension("job")).unwrap();
        assert!(job::pack(&records) == job, "{} is not the job of its text", text.display());
    }
}

#[test]
fn damaged() {
    let without_text: Vec<PathBuf> = examples("job").into_iter().filter(|job| !job.with_extension("txt").exists()).collect();
    assert_eq!(without_text.len(), 1);
    let bad = job::unpack(&fs::read(&without_text[0]).unwrap()).unwrap_err();
    assert_eq!(bad.to_string(), "record 2 at byte 8: `paint` has 12 bytes and not 14");
}
