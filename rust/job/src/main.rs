//! `job pack` turns a job's text into the bytes that `mill` reads, `job unpack` turns bytes into text. Both read a file or standard input
//! and write standard output; bad lines and a bad record are named on standard error.

use cli::Stop;
use std::ffi::OsString;
use std::process::ExitCode;

const USE: &str = "\
use: job pack [FILE] > JOB       a job's text to the bytes that mill reads
     job unpack [FILE] > TEXT    the bytes back to text
     job -h | --help             these lines
Without FILE standard input is read. A line of text is a record, as in `run east 3`; what follows # is a comment.
An engine has a number or a name: 1 exact, 2 8sed, 3 4sed, 4 city-block, 5 chessboard, 6 chamfer, as in `build chamfer`.
";

fn main() -> ExitCode {
    cli::run(USE, turn)
}

/// What the words ask for: the bytes of a text, or the text of bytes.
fn turn(words: &[OsString]) -> Result<Vec<u8>, Stop> {
    let Some((way, file)) = words.split_first() else {
        return Err(Stop::Refused("`pack` or `unpack` is missing".into()));
    };
    match way.to_str() {
        Some("pack") => pack(&cli::input(file)?).map_err(Stop::Failed),
        Some("unpack") => unpack(&cli::input(file)?).map_err(Stop::Failed),
        _ => Err(cli::unknown(way)),
    }
}

fn pack(bytes: &[u8]) -> Result<Vec<u8>, String> {
    Ok(job::pack(&job::parse(text(bytes)?).map_err(|bad| bad.to_string())?))
}

/// Bytes as text, or the line that is none.
fn text(bytes: &[u8]) -> Result<&str, String> {
    std::str::from_utf8(bytes).map_err(|error| {
        let before = bytes[..error.valid_up_to()].iter().filter(|byte| **byte == b'\n').count();
        format!("line {}: this is no UTF-8", before + 1)
    })
}

fn unpack(bytes: &[u8]) -> Result<Vec<u8>, String> {
    Ok(job::text(&job::unpack(bytes).map_err(|bad| bad.to_string())?).into_bytes())
}
