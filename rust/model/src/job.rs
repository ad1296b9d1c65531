//! Job files, and what the program `mill` prints of one.

use crate::calls::Calls;
use crate::session::Fields;

/// The most pixels of a sheet of `mill`.
const PIXELS: usize = 8_192;
/// How many scratch numbers `mill` has, enough for every sheet.
const SCRATCH: usize = 8_192;

/// The records of a job, each with its kind and its bytes after that, or none if it does not split.
fn split(job: &[u8]) -> Option<Vec<(u16, &[u8])>> {
    if job.len() > 65_536 {
        return None;
    }
    let mut records = Vec::new();
    let mut rest = job;
    while !rest.is_empty() {
        let length = usize::from(short(rest.get(..2)?));
        let kind = short(rest.get(2..4)?);
        let right = match kind {
            7 => 4,
            4 => 6,
            1 | 6 | 8 | 9 => 8,
            2 | 3 | 5 => 12,
            _ => return None,
        };
        if length != right {
            return None;
        }
        records.push((kind, rest.get(4..length)?));
        rest = &rest[length..];
    }
    Some(records)
}

/// The number of records, or none if the job does not split.
pub fn count(job: &[u8]) -> Option<usize> {
    split(job).map(|records| records.len())
}

/// A little-endian number of any width.
fn number(bytes: &[u8]) -> u32 {
    bytes.iter().rev().fold(0, |high, &byte| 256 * high + u32::from(byte))
}

fn short(bytes: &[u8]) -> u16 {
    number(&bytes[..2]) as u16
}

/// What `mill` prints.
pub fn printed(job: &[u8]) -> String {
    let Some(records) = split(job) else { return "0 19\n".into() };
    let mut mill = Mill {
        session: Fields::FRESH,
        sheet: vec![0; PIXELS],
        map: vec![0; 2 * PIXELS],
        values: vec![0; PIXELS],
        scratch: vec![0; SCRATCH],
    };
    let answers = records.iter().map(|&(kind, fields)| mill.answer(kind, fields));
    answers.enumerate().map(|(at, answer)| format!("{} {answer}\n", at + 1)).collect()
}

struct Mill {
    session: Fields,
    sheet: Vec<u8>,
    map: Vec<i16>,
    values: Vec<u16>,
    scratch: Vec<i16>,
}

impl Mill {
    fn answer(&mut self, kind: u16, fields: &[u8]) -> u32 {
        let at = |place: usize| short(&fields[2 * place..]);
        let q = |place: usize| number(&fields[2 * place..]);
        let open = self.session;
        // of a sheet that does not fit only the opening hears, which is lent all that there is
        let pixels = |w: u16, h: u16| PIXELS.min(usize::from(w) * usize::from(h));
        let lent = match kind {
            1 => pixels(at(0), at(1)),
            _ => pixels(open.width, open.height),
        };
        let (sheet, map, values) = (&mut self.sheet[..lent], &mut self.map[..2 * lent], &mut self.values[..lent]);
        let scratch = &mut self.scratch[..];
        let (answer, session) = match kind {
            1 => open.open(sheet, at(0), at(1)),
            2 => open.paint(sheet, at(0), at(1), at(2), at(3)),
            3 => open.erase(sheet, at(0), at(1), at(2), at(3)),
            4 => open.build(sheet, map, values, scratch, at(0)),
            5 => open.place(map, values, at(0), at(1), q(2)),
            6 => open.run(map, values, at(0), at(1)),
            7 => open.lift(),
            8 => open.expand(sheet, map, scratch, q(0)),
            _ => open.shrink(sheet, map, scratch, q(0)),
        };
        self.session = session;
        answer
    }
}

#[cfg(test)]
mod tests {
    use super::*;

    /// Document 01's job.
    const JOB: &[u8] = &[
        8, 0, 1, 0, 4, 0, 4, 0, 12, 0, 2, 0, 3, 0, 0, 0, 1, 0, 1, 0, 12, 0, 2, 0, 0, 0, 3, 0, 1, 0, 1, 0, 12, 0, 2, 0, 2, 0, 2, 0, 1, 0, 1,
        0, 6, 0, 4, 0, 3, 0, 12, 0, 5, 0, 0, 0, 0, 0, 5, 0, 0, 0, 12, 0, 5, 0, 0, 0, 0, 0, 4, 0, 0, 0, 8, 0, 6, 0, 0, 0, 1, 0, 4, 0, 7, 0,
    ];

    #[test]
    fn document_01() {
        assert_eq!(printed(JOB), "1 0\n2 0\n3 0\n4 0\n5 0\n6 34\n7 0\n8 34\n9 0\n");
        assert_eq!(count(JOB), Some(9));
    }

    /// The sheet of document 01's job with a draft: in the corner the largest q that passes, and before it the next. Only 1 to 6 are engines.
    #[test]
    fn drafts() {
        let sheet = &JOB[..44];
        let build = |engine: u8| [6, 0, 4, 0, engine, 0];
        let place = |q: u8| [12, 0, 5, 0, 0, 0, 0, 0, q, 0, 0, 0];
        for (engine, most) in [(4, 4), (5, 3), (6, 6)] {
            let job = [sheet, &build(engine), &place(most + 1), &place(most)].concat();
            assert_eq!(printed(&job), "1 0\n2 0\n3 0\n4 0\n5 0\n6 34\n7 0\n", "engine {engine}");
            // an exact map after it and before it: the last one counts
            let job = [sheet, &build(engine), &build(1), &place(7), &build(engine), &place(7)].concat();
            assert_eq!(printed(&job), "1 0\n2 0\n3 0\n4 0\n5 0\n6 0\n7 0\n8 0\n9 34\n", "engine {engine}");
        }
        assert_eq!(printed(&[sheet, &build(0), &build(7)].concat()), "1 0\n2 0\n3 0\n4 0\n5 14\n6 14\n");
    }

    #[test]
    fn damaged() {
        for cut in 1..JOB.len() {
            let whole = [8, 20, 32, 44, 50, 62, 74, 82].contains(&cut);
            assert_eq!(count(&JOB[..cut]).is_some(), whole, "cut at {cut}");
        }
        assert_eq!(printed(&[4, 0, 10, 0]), "0 19\n");
        assert_eq!(printed(&[]), "");
        assert_eq!(count(&[4, 0, 7, 0].repeat(16_384)), Some(16_384));
        assert_eq!(count(&[4, 0, 7, 0].repeat(16_385)), None);
    }

    #[test]
    fn sheets_of_mill() {
        let open = |w: u16, h: u16| [&[8, 0, 1, 0][..], &w.to_le_bytes(), &h.to_le_bytes()].concat();
        assert_eq!(printed(&open(2_048, 4)), "1 0\n");
        assert_eq!(printed(&open(2_048, 5)), "1 12\n");
        assert_eq!(printed(&open(2_049, 1)), "1 11\n");
        // scratch is enough on the widest, however few rows they have
        let [build, expand, shrink] = [&[6, 0, 4, 0, 1, 0][..], &[8, 0, 8, 0, 1, 0, 0, 0], &[8, 0, 9, 0, 1, 0, 0, 0]];
        let draft = &[6, 0, 4, 0, 6, 0];
        for h in 1..=4 {
            assert_eq!(printed(&[&open(2_048, h), build, expand, shrink, draft].concat()), "1 0\n2 0\n3 0\n4 0\n5 0\n");
        }
    }
}
