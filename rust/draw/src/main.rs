//! Reads a job from a file or standard input and writes its picture on standard output. A job that does not split is named on standard
//! error, and so is one with nothing to draw.

use cli::Stop;
use std::ffi::OsString;
use std::process::ExitCode;

const USE: &str = "\
use: draw [FILE] > PICTURE.svg    the picture of a job
     draw -h | --help             these lines
Without FILE standard input is read.
";

fn main() -> ExitCode {
    cli::run(USE, draw)
}

/// The picture of the job that the words name.
fn draw(words: &[OsString]) -> Result<String, Stop> {
    let records = job::unpack(&cli::input(words)?).map_err(|bad| Stop::Failed(bad.to_string()))?;
    draw::picture(&records).ok_or_else(|| Stop::Failed("nothing to draw: the job is empty or only lifts the cutter".into()))
}
