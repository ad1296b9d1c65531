//! Splitting job files: document 01's job, every kind with every length, cut tails, and the limit of 65,536 bytes; and random files beside a
//! plain splitter.

use model::random::Random;
use planner::{split, Refused};

/// A record of a kind with fields of 16 bits.
fn record(kind: u16, fields: &[u16]) -> Vec<u8> {
    let length = 4 + 2 * fields.len() as u16;
    [length, kind].iter().chain(fields).flat_map(|n| n.to_le_bytes()).collect()
}

/// The kinds with the lengths of their records.
const KINDS: [(u16, u16); 9] = [(1, 8), (2, 12), (3, 12), (4, 6), (5, 12), (6, 8), (7, 4), (8, 8), (9, 8)];

/// Plain splitting, for comparison.
fn plain(mut job: &[u8]) -> Result<u32, Refused> {
    if job.len() > 65_536 {
        return Err(Refused::Job);
    }
    let mut records = 0;
    while !job.is_empty() {
        if job.len() < 4 {
            return Err(Refused::Job);
        }
        let length = u16::from_le_bytes([job[0], job[1]]);
        let kind = u16::from_le_bytes([job[2], job[3]]);
        if !KINDS.contains(&(kind, length)) || job.len() < usize::from(length) {
            return Err(Refused::Job);
        }
        job = &job[usize::from(length)..];
        records += 1;
    }
    Ok(records)
}

#[test]
fn empty() {
    assert_eq!(split(&[]), Ok(0));
}

#[test]
fn document_01() {
    let job = [
        record(1, &[4, 4]),
        record(2, &[3, 0, 1, 1]),
        record(2, &[0, 3, 1, 1]),
        record(2, &[2, 2, 1, 1]),
        record(4, &[3]),
        record(5, &[0, 0, 5, 0]),
        record(5, &[0, 0, 4, 0]),
        record(6, &[0, 1]),
        record(7, &[]),
    ];
    assert_eq!(job[0], [0x08, 0x00, 0x01, 0x00, 0x04, 0x00, 0x04, 0x00]);
    assert_eq!(split(&job.concat()), Ok(9));
}

#[test]
fn every_kind_with_every_length() {
    for kind in 0..300u16 {
        for length in 0..300u16 {
            let mut job = vec![0; 300];
            job[..2].copy_from_slice(&length.to_le_bytes());
            job[2..4].copy_from_slice(&kind.to_le_bytes());
            job.truncate(usize::from(length).max(4));
            let expected = if KINDS.contains(&(kind, length)) { Ok(1) } else { Err(Refused::Job) };
            assert_eq!(split(&job), expected, "kind {kind}, length {length}");
        }
    }
}

#[test]
fn kind_ten() {
    assert_eq!(split(&record(10, &[1, 1])), Err(Refused::Job));
    assert_eq!(split(&record(0x0100, &[1, 1])), Err(Refused::Job));
}

#[test]
fn cut_tails() {
    let job = [record(7, &[]), record(2, &[1, 1, 1, 1])].concat();
    for end in 0..=job.len() {
        let expected = match end {
            0 => Ok(0),
            4 => Ok(1),
            16 => Ok(2),
            _ => Err(Refused::Job),
        };
        assert_eq!(split(&job[..end]), expected, "{end} bytes");
    }
}

#[test]
fn limit() {
    let job = record(7, &[]).repeat(16_385);
    assert_eq!(split(&job[..65_536]), Ok(16_384));
    assert_eq!(split(&job[..65_540]), Err(Refused::Job));
    assert_eq!(split(&job[..65_537]), Err(Refused::Job));
}

#[test]
fn random_files() {
    let mut random = Random::new(3);
    for _ in 0..20_000 {
        let mut job = Vec::new();
        for _ in 0..random.below(8) {
            let (kind, length) = KINDS[random.below(9) as usize];
            let fields: Vec<u16> = (0..(length - 4) / 2).map(|_| random.next() as u16).collect();
            job.extend(record(kind, &fields));
        }
        assert_eq!(split(&job), plain(&job));
        if !job.is_empty() {
            let at = random.below(job.len() as u64) as usize;
            job[at] = random.next() as u8;
            assert_eq!(split(&job), plain(&job), "{job:?}");
            job.truncate(at);
            assert_eq!(split(&job), plain(&job), "{job:?}");
        }
    }
}
