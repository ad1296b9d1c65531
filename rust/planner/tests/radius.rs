//! The radius beside the model's, at every edge and at many thousand random pairs.

use model::random::Random;

fn compare(r: u32, p: u32) {
    let (answer, q) = model::radius(r, p);
    let expected = if answer == 0 { Ok(q) } else { Err(answer) };
    assert_eq!(planner::radius(r, p).map_err(planner::Refused::number), expected, "r {r}, p {p}");
}

#[test]
fn edges() {
    let radii = [0, 1, 2, 2_047, 2_048, 2_049, 19_999, 20_000, 20_001, 65_535, 65_536, u32::MAX - 1, u32::MAX];
    let pitches = [0, 1, 2, 9, 10, 999, 1_000, 1_001, 65_535, 65_536, u32::MAX - 1, u32::MAX];
    for r in radii {
        for p in pitches {
            compare(r, p);
        }
    }
}

#[test]
fn boards_of_document_01() {
    assert_eq!(planner::radius(100, 25), Ok(16));
    assert_eq!(planner::radius(110, 25), Ok(19));
    assert_eq!(planner::radius(20_000, 1), Err(planner::Refused::Q));
    assert_eq!(planner::radius(2_048, 1), Ok(4_194_304));
    assert_eq!(planner::radius(2_049, 1), Err(planner::Refused::Q));
}

#[test]
fn random_pairs() {
    let mut random = Random::new(1);
    for _ in 0..200_000 {
        compare(random.below(20_002) as u32, random.below(1_002) as u32);
        compare(random.next() as u32, random.below(1_002) as u32);
        compare(random.below(20_002) as u32, random.next() as u32);
    }
}

#[test]
fn clearance() {
    let mut random = Random::new(2);
    for _ in 0..100_000 {
        let (r, p) = (1 + random.below(20_000), 1 + random.below(1_000));
        let Ok(q) = planner::radius(r as u32, p as u32) else { continue };
        for e in [u64::from(q), u64::from(q) + 1, random.below(u64::from(q) + 1)] {
            assert_eq!(e * p * p > r * r, e > u64::from(q), "r {r}, p {p}, e {e}");
        }
    }
}
