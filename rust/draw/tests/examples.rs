//! The pictures in `examples/` are those of their jobs.

use std::fs;
use std::path::Path;

/// The picture of an example's job, which must be the one that is kept beside it.
fn drawn(name: &str) -> String {
    let folder = Path::new(env!("CARGO_MANIFEST_DIR")).join("../../examples");
    let records = job::unpack(&fs::read(folder.join(format!("{name}.job"))).unwrap()).unwrap();
    let picture = draw::picture(&records).unwrap();
    assert!(
        picture == fs::read_to_string(folder.join(format!("{name}.svg"))).unwrap(),
        "examples/{name}.svg is not the picture of its job"
    );
    picture
}

/// How many places and runs the gate refused.
fn crosses(picture: &str) -> usize {
    picture.matches("l8 8m0 -8l-8 8").count()
}

#[test]
fn milled() {
    let picture = drawn("milled");
    assert_eq!(picture.matches("gives 0, 32 × 24").count(), 2);
    // records 14, 18 and 20
    assert_eq!(crosses(&picture), 3);
    for words in ["6: closest approach 3.00 pixels", "12: closest approach 3.00 pixels", "19: closest approach 3.00 pixels"] {
        assert!(picture.contains(&format!(">{words}<")), "{words}");
    }
    assert_eq!(picture.matches("closest approach").count(), 3);
}

#[test]
fn arrow_head() {
    let picture = drawn("arrow_head");
    assert_eq!(crosses(&picture), 3);
    assert!(picture.contains("(13, 13) size 170") && picture.contains("(13, 13) size 169"));
    // the root of 170 is a little above 13.03
    assert!(picture.contains(">8: closest approach 13.03 pixels<") && picture.contains(">12: closest approach 13.00 pixels<"));
}

#[test]
fn panel() {
    let picture = drawn("panel");
    // records 5, 6, 9 and 16
    assert_eq!(crosses(&picture), 4);
    assert!(picture.contains("(0, 10) size 4") && picture.contains("(0, 0) size 8"));
}

#[test]
fn draft() {
    let picture = drawn("draft");
    assert_eq!(picture.matches("gives 0, 23 × 17").count(), 4);
    // records 7, 14 and 18
    assert_eq!(crosses(&picture), 3);
    let pixel = |x: usize, y: usize| {
        let titles = picture.split("<title>").filter_map(|text| text.strip_prefix(&format!("({x}, {y}) ")));
        titles.map(|text| text.split('<').next().unwrap()).collect::<Vec<_>>()
    };
    assert_eq!(pixel(11, 10), ["value 12", "size 16", "value 4", "value 4"]);
    assert_eq!(pixel(11, 5), ["value 16", "size 32", "value 8", "value 4"]);
    // the roots of 144 / 10, 16, 64 / 2 and 16, rounded down
    let words = [
        "5: closest approach at least 3.79 pixels, value 12",
        "10: closest approach 4.00 pixels",
        "15: closest approach at least 5.65 pixels, value 8",
        "19: closest approach at least 4.00 pixels, value 4",
    ];
    assert_eq!(closest(&picture), words);
}

/// The closest approaches in words.
fn closest(picture: &str) -> Vec<&str> {
    picture.split('>').filter(|text| text.contains("closest")).map(|text| text.split('<').next().unwrap()).collect()
}

/// Each placing that is done has its own closest approach, to which its runs count; what is refused counts for nothing.
#[test]
fn closest_approaches() {
    let job = "open 9 1\nbuild 2\nplace 0 0 1\nrun east 8\npaint 8 0 1 1\nbuild 2\nplace 0 0 1\nplace 1 0 1\nrun east 2\nrun east 5\nplace 8 0 0\nrun west 1\n";
    let picture = draw::picture(&job::parse(job).unwrap()).unwrap();
    let none = "3: closest approach none: there is no copper";
    assert_eq!(closest(&picture), [none, "7: closest approach 8.00 pixels", "8: closest approach 5.00 pixels"]);
}

/// A map of values without copper is unlabelled, every cutter passes it, and it has no skeleton; a map of the other kind that was built before
/// is neither shown nor asked.
#[test]
fn either_kind() {
    for engine in 4..=6 {
        let job = format!("open 6 1\npaint 0 0 1 1\nbuild 1\nerase 0 0 1 1\nbuild {engine}\nplace 0 0 9\nrun east 5\n");
        let picture = draw::picture(&job::parse(&job).unwrap()).unwrap();
        assert_eq!([" unlabelled<", " size ", "#335"].map(|text| picture.matches(text).count()), [6, 5, 1]);
        assert_eq!(crosses(&picture), 0);
        assert_eq!(closest(&picture), ["6: closest approach none: there is no copper"]);

        let job = format!("open 6 1\nbuild {engine}\npaint 0 0 1 1\nbuild 1\nplace 1 0 0\nplace 1 0 1\n");
        let picture = draw::picture(&job::parse(&job).unwrap()).unwrap();
        assert_eq!([" unlabelled<", " size ", "#335"].map(|text| picture.matches(text).count()), [6, 5, 1]);
        assert_eq!(crosses(&picture), 1);
        assert_eq!(closest(&picture), ["5: closest approach 1.00 pixels"]);
    }
}

/// A run that the gate of a map of values refuses has its cross at the first pixel that fails.
#[test]
fn refused_draft() {
    for (engine, failed) in [(4, 5), (5, 3), (6, 4)] {
        let job = format!("open 9 1\npaint 0 0 1 1\nbuild {engine}\nplace 8 0 15\nrun west 7\n");
        let picture = draw::picture(&job::parse(&job).unwrap()).unwrap();
        assert_eq!(crosses(&picture), 1);
        let left = 14.0 * f64::from(failed) + 3.0;
        assert!(picture.contains(&format!("M{left} 3l8 8m0 -8l-8 8")), "engine {engine}");
    }
}

/// What is refused before there is a sheet stands in words.
#[test]
fn refused_early() {
    let records = job::parse("lift\nbuild 1\nopen 91 91\n").unwrap();
    let picture = draw::picture(&records).unwrap();
    assert!(picture.contains(">2: build 1 gives 30<") && picture.contains(">3: open 91 91 gives 12<"));
}

/// The widest sheets have scratch enough, however few rows they have.
#[test]
fn few_rows() {
    for h in 1..=4 {
        let records = job::parse(&format!("open 2048 {h}\npaint 9 0 5 1\nbuild 1\nexpand 1\nshrink 1\nbuild 1\nbuild 6\n")).unwrap();
        let picture = draw::picture(&records).unwrap();
        assert_eq!(picture.matches(&format!("build 1 gives 0, 2048 × {h}<")).count(), 2);
        assert_eq!(picture.matches(&format!("build 6 gives 0, 2048 × {h}<")).count(), 1);
        assert!(!picture.contains("gives 12"));
    }
}

/// There is no picture of nothing.
#[test]
fn nothing() {
    assert_eq!(draw::picture(&[]), None);
    assert_eq!(draw::picture(&job::parse("lift\nlift\n").unwrap()), None);
}
