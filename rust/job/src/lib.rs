//! Job files: the records as values, as bytes (document 01, "Job file") and as text that can be read and written by hand.
//!
//! A line of text is a record: its name and its numbers in the order of the file's fields. Directions and engines may be named, as in
//! `run east 3`, `build exact` and `build city-block`. What follows `#` is a comment, and empty lines count for nothing.
//!
//! ```
//! let records = job::parse("open 4 4   # a small board\npaint 3 0 1 1\nbuild 4SED\nrun south-west 2\n").unwrap();
//! assert_eq!(job::pack(&records)[..8], [8, 0, 1, 0, 4, 0, 4, 0]);
//! assert_eq!(job::text(&records), "open 4 4\npaint 3 0 1 1\nbuild 3\nrun south-west 2\n");
//! assert_eq!(job::unpack(&job::pack(&records)), Ok(records));
//!
//! let bad = job::parse("lift 3\nlift\nplace 1 2\n").unwrap_err();
//! assert_eq!(bad.to_string(), "line 1: `lift` takes nothing and not 1\nline 3: `place` takes x y q, 3 numbers and not 2");
//! ```

use std::fmt;

/// The longest job, in bytes.
pub const LONGEST: usize = 65_536;

/// The kinds of records, each with its number, its name, the names of its fields and how many bytes each has.
const KINDS: [Kind; 9] = [
    Kind { number: 1, name: "open", fields: &[("w", 2), ("h", 2)] },
    Kind { number: 2, name: "paint", fields: &[("x", 2), ("y", 2), ("w", 2), ("h", 2)] },
    Kind { number: 3, name: "erase", fields: &[("x", 2), ("y", 2), ("w", 2), ("h", 2)] },
    Kind { number: 4, name: "build", fields: &[("engine", 2)] },
    Kind { number: 5, name: "place", fields: &[("x", 2), ("y", 2), ("q", 4)] },
    Kind { number: 6, name: "run", fields: &[("direction", 2), ("count", 2)] },
    Kind { number: 7, name: "lift", fields: &[] },
    Kind { number: 8, name: "expand", fields: &[("q", 4)] },
    Kind { number: 9, name: "shrink", fields: &[("q", 4)] },
];

/// The directions, clockwise from east.
const DIRECTIONS: [&str; 8] = ["east", "south-east", "south", "south-west", "west", "north-west", "north", "north-east"];

/// The engines, from number 1 on.
const ENGINES: [&str; 6] = ["exact", "8sed", "4sed", "city-block", "chessboard", "chamfer"];

/// A kind of records.
#[derive(Debug, PartialEq, Eq)]
struct Kind {
    number: u16,
    name: &'static str,
    fields: &'static [(&'static str, usize)],
}

impl Kind {
    /// The length of such a record in bytes, its length and kind included.
    fn length(&self) -> usize {
        4 + self.fields.iter().map(|(_, bytes)| bytes).sum::<usize>()
    }
}

/// A record: its kind and the numbers in its fields.
#[derive(Clone, Debug, PartialEq, Eq)]
pub struct Record {
    kind: &'static Kind,
    numbers: Vec<u32>,
}

impl Record {
    /// The number of its kind, from 1 to 9.
    pub fn kind(&self) -> u16 {
        self.kind.number
    }

    /// The numbers in its fields.
    pub fn numbers(&self) -> &[u32] {
        &self.numbers
    }
}

/// Why a text is no job: all its bad lines, in their order.
#[derive(Debug, PartialEq, Eq)]
pub struct BadText {
    /// The bad lines, one at least.
    pub lines: Vec<BadLine>,
}

impl fmt::Display for BadText {
    fn fmt(&self, f: &mut fmt::Formatter<'_>) -> fmt::Result {
        let lines: Vec<String> = self.lines.iter().map(BadLine::to_string).collect();
        f.write_str(&lines.join("\n"))
    }
}

impl std::error::Error for BadText {}

/// A line that is no record of a job.
#[derive(Debug, PartialEq, Eq)]
pub struct BadLine {
    /// The number of the line, from 1.
    pub line: usize,
    /// What is wrong with it.
    pub reason: String,
}

impl fmt::Display for BadLine {
    fn fmt(&self, f: &mut fmt::Formatter<'_>) -> fmt::Result {
        write!(f, "line {}: {}", self.line, self.reason)
    }
}

/// Why bytes are no job: the first bad record.
#[derive(Debug, PartialEq, Eq)]
pub struct BadBytes {
    /// The number of the record, from 1.
    pub record: usize,
    /// The place of its first byte, from 0.
    pub at: usize,
    /// What is wrong with it.
    pub reason: String,
}

impl fmt::Display for BadBytes {
    fn fmt(&self, f: &mut fmt::Formatter<'_>) -> fmt::Result {
        write!(f, "record {} at byte {}: {}", self.record, self.at, self.reason)
    }
}

impl std::error::Error for BadBytes {}

/// The records of a text. A byte order mark at its start is skipped.
pub fn parse(text: &str) -> Result<Vec<Record>, BadText> {
    let (mut records, mut lines, mut length) = (Vec::new(), Vec::new(), 0);
    for (at, line) in text.strip_prefix('\u{feff}').unwrap_or(text).lines().enumerate() {
        let mut bad = |reason| lines.push(BadLine { line: at + 1, reason });
        let words: Vec<&str> = line.split('#').next().unwrap_or("").split_whitespace().collect();
        let Some((name, numbers)) = words.split_first() else { continue };
        match record(name, numbers) {
            Ok(record) => {
                let fitted = length <= LONGEST;
                length += record.kind.length();
                if fitted && length > LONGEST {
                    bad(format!("the job is longer than {LONGEST} bytes here"));
                }
                records.push(record);
            }
            Err(reason) => bad(reason),
        }
    }
    if lines.is_empty() {
        Ok(records)
    } else {
        Err(BadText { lines })
    }
}

/// The record that a line's words say.
fn record(name: &str, words: &[&str]) -> Result<Record, String> {
    let kind = KINDS.iter().find(|kind| kind.name == name).ok_or_else(|| {
        let names: Vec<&str> = KINDS.iter().map(|kind| kind.name).collect();
        format!("`{name}` is none of {}", names.join(", "))
    })?;
    if words.len() != kind.fields.len() {
        return Err(format!("`{name}` takes {} and not {}", takes(kind), words.len()));
    }
    let numbers = kind.fields.iter().zip(words).map(|(&field, word)| number(field, word)).collect::<Result<_, _>>()?;
    Ok(Record { kind, numbers })
}

/// What a kind takes, in words.
fn takes(kind: &Kind) -> String {
    let fields: Vec<&str> = kind.fields.iter().map(|(field, _)| *field).collect();
    match fields.len() {
        0 => "nothing".into(),
        1 => format!("{}, 1 number", fields[0]),
        count => format!("{}, {count} numbers", fields.join(" ")),
    }
}

/// The number that a word says in a field.
fn number((field, bytes): (&str, usize), word: &str) -> Result<u32, String> {
    let (names, first) = names(field);
    if let Some(at) = names.iter().position(|name| name.eq_ignore_ascii_case(word)) {
        return Ok(first + at as u32);
    }
    let most = if bytes == 2 { u32::from(u16::MAX) } else { u32::MAX };
    word.parse().ok().filter(|&number| number <= most).ok_or_else(|| {
        let names = if names.is_empty() { String::new() } else { format!("one of {} or ", names.join(", ")) };
        format!("`{word}` is no {field}, {names}a number from 0 to {most}")
    })
}

/// The names that numbers have in a field, and the number that the first of them stands for.
fn names(field: &str) -> (&'static [&'static str], u32) {
    match field {
        "direction" => (&DIRECTIONS, 0),
        "engine" => (&ENGINES, 1),
        _ => (&[], 0),
    }
}

/// The text of records, a line each.
pub fn text(records: &[Record]) -> String {
    records.iter().map(line).collect()
}

/// The line of a record.
fn line(Record { kind, numbers }: &Record) -> String {
    let mut line = kind.name.to_string();
    for (&(field, _), &number) in kind.fields.iter().zip(numbers) {
        match DIRECTIONS.get(number as usize) {
            Some(direction) if field == "direction" => line += &format!(" {direction}"),
            _ => line += &format!(" {number}"),
        }
    }
    line + "\n"
}

/// The bytes of records.
pub fn pack(records: &[Record]) -> Vec<u8> {
    let mut job = Vec::new();
    for Record { kind, numbers } in records {
        job.extend((kind.length() as u16).to_le_bytes());
        job.extend(kind.number.to_le_bytes());
        for ((_, bytes), number) in kind.fields.iter().zip(numbers) {
            job.extend(&number.to_le_bytes()[..*bytes]);
        }
    }
    job
}

/// The records of bytes.
pub fn unpack(job: &[u8]) -> Result<Vec<Record>, BadBytes> {
    let mut records = Vec::new();
    let mut rest = job;
    while !rest.is_empty() {
        let bad = |reason| BadBytes { record: records.len() + 1, at: job.len() - rest.len(), reason };
        if job.len() > LONGEST {
            return Err(bad(format!("the job has {} bytes, above {LONGEST}", job.len())));
        }
        let record = first(rest).map_err(bad)?;
        rest = &rest[record.kind.length()..];
        records.push(record);
    }
    Ok(records)
}

/// The first record of bytes.
fn first(job: &[u8]) -> Result<Record, String> {
    let [l0, l1, k0, k1, fields @ ..] = job else {
        return Err(format!("{} bytes are left, too few for a length and a kind", job.len()));
    };
    let (length, number) = (u16::from_le_bytes([*l0, *l1]), u16::from_le_bytes([*k0, *k1]));
    let kind = KINDS.iter().find(|kind| kind.number == number).ok_or_else(|| format!("there is no kind {number}"))?;
    if usize::from(length) != kind.length() {
        return Err(format!("`{}` has {} bytes and not {length}", kind.name, kind.length()));
    }
    if job.len() < kind.length() {
        return Err(format!("`{}` has {} bytes, and {} are left", kind.name, kind.length(), job.len()));
    }
    let mut rest = fields;
    let mut numbers = Vec::new();
    for (_, bytes) in kind.fields {
        let mut number = [0; 4];
        number[..*bytes].copy_from_slice(&rest[..*bytes]);
        numbers.push(u32::from_le_bytes(number));
        rest = &rest[*bytes..];
    }
    Ok(Record { kind, numbers })
}

#[cfg(test)]
mod tests {
    use super::*;

    /// Document 01's job.
    const DOCUMENT_01: &str =
        "open 4 4\npaint 3 0 1 1\npaint 0 3 1 1\npaint 2 2 1 1\nbuild 3\nplace 0 0 5\nplace 0 0 4\nrun east 1\nlift\n";

    #[test]
    fn document_01() {
        let records = parse(DOCUMENT_01).unwrap();
        let job = pack(&records);
        assert_eq!(job.len(), 8 + 3 * 12 + 6 + 2 * 12 + 8 + 4);
        assert_eq!(job[..8], [8, 0, 1, 0, 4, 0, 4, 0]);
        assert_eq!(text(&unpack(&job).unwrap()), DOCUMENT_01);
    }

    #[test]
    fn every_kind_and_number() {
        for kind in &KINDS {
            for value in [0, 1, 7, 8, 255, 256, 65_535, 65_536, u32::MAX] {
                let numbers = kind.fields.iter().map(|(_, bytes)| if *bytes == 2 { value & 0xffff } else { value }).collect();
                let records = [Record { kind, numbers }];
                assert_eq!(unpack(&pack(&records)).unwrap(), records);
                assert_eq!(parse(&text(&records)).unwrap(), records);
            }
        }
    }

    #[test]
    fn bad_lines() {
        let bad = |text: &str| parse(text).unwrap_err().to_string();
        assert_eq!(bad("\n# nothing\nlift\nsaw 3"), "line 4: `saw` is none of open, paint, erase, build, place, run, lift, expand, shrink");
        assert_eq!(bad("lift 1"), "line 1: `lift` takes nothing and not 1");
        assert_eq!(bad("open 4 -4"), "line 1: `-4` is no h, a number from 0 to 65535");
        assert_eq!(bad("open 65536 4"), "line 1: `65536` is no w, a number from 0 to 65535");
        assert_eq!(bad("expand 4294967296"), "line 1: `4294967296` is no q, a number from 0 to 4294967295");
        assert_eq!(bad("build"), "line 1: `build` takes engine, 1 number and not 0");
        assert_eq!(
            bad("run up 3"),
            "line 1: `up` is no direction, one of east, south-east, south, south-west, west, north-west, north, north-east \
             or a number from 0 to 65535"
        );
        let engines = "exact, 8sed, 4sed, city-block, chessboard, chamfer";
        assert_eq!(bad("build 6sed"), format!("line 1: `6sed` is no engine, one of {engines} or a number from 0 to 65535"));
        assert_eq!(bad("build city block"), "line 1: `build` takes engine, 1 number and not 2");
        assert_eq!(bad(&"lift\n".repeat(16_385)), "line 16385: the job is longer than 65536 bytes here");
        assert_eq!(parse(&"lift\n".repeat(16_384)).unwrap().len(), 16_384);
    }

    #[test]
    fn all_bad_lines() {
        let lines = |text: &str| parse(text).unwrap_err().lines.iter().map(|bad| bad.line).collect::<Vec<_>>();
        assert_eq!(lines("saw\nlift\nopen 4\n\nlift 1\nbuild 1\nrun up 3"), [1, 3, 5, 7]);
        assert_eq!(
            parse("lift 1\nlift\nopen 4 x").unwrap_err().to_string(),
            "line 1: `lift` takes nothing and not 1\nline 3: `x` is no h, a number from 0 to 65535"
        );
        // a job that is too long is named once, where it becomes so
        assert_eq!(lines(&("saw\n".to_string() + &"lift\n".repeat(16_387) + "saw\n")), [1, 16_386, 16_389]);
    }

    #[test]
    fn byte_order_mark() {
        assert_eq!(parse("\u{feff}lift\n"), parse("lift\n"));
        assert_eq!(parse("\u{feff}"), Ok(Vec::new()));
        assert!(parse("lift\n\u{feff}lift\n").is_err());
    }

    #[test]
    fn names_of_numbers() {
        let numbers = parse("build 1\nbuild 2\nbuild 3\nbuild 4\nbuild 5\nbuild 6\n");
        assert_eq!(parse("build exact\nbuild 8sed\nbuild 4sed\nbuild city-block\nbuild chessboard\nbuild chamfer\n"), numbers);
        assert_eq!(parse("build EXACT\nbuild 8SED\nbuild 4Sed\nbuild City-Block\nbuild CHESSBOARD\nbuild Chamfer\n"), numbers);
        assert_eq!(parse("run north-east 1\nrun East 1\n"), parse("run 7 1\nrun 0 1\n"));
    }

    #[test]
    fn bad_bytes() {
        let bad = |job: &[u8]| unpack(job).unwrap_err().to_string();
        assert_eq!(bad(&[4, 0, 7]), "record 1 at byte 0: 3 bytes are left, too few for a length and a kind");
        assert_eq!(bad(&[4, 0, 7, 0, 4, 0, 10, 0]), "record 2 at byte 4: there is no kind 10");
        assert_eq!(bad(&[6, 0, 7, 0, 0, 0]), "record 1 at byte 0: `lift` has 4 bytes and not 6");
        assert_eq!(bad(&[6, 0, 4, 0, 1]), "record 1 at byte 0: `build` has 6 bytes, and 5 are left");
        assert_eq!(bad(&[4, 0, 7, 0].repeat(16_385)), "record 1 at byte 0: the job has 65540 bytes, above 65536");
        assert_eq!(unpack(&[]), Ok(Vec::new()));
    }
}
