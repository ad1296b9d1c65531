//! What the command lines of the tools have in common.
//!
//! A tool is a function from the words of its command line to what it writes on standard output; [`run`] does the rest. The exit status is
//! 0 if all is written, 1 if the work or the writing failed, and 2 if the command line was refused. Reasons go to standard error.
//!
//! ```no_run
//! const USE: &str = "use: shout [FILE]\n";
//!
//! fn main() -> std::process::ExitCode {
//!     cli::run(USE, |words| Ok(cli::input(words)?.to_ascii_uppercase()))
//! }
//! ```

pub mod trial;

use std::ffi::{OsStr, OsString};
use std::fmt::Display;
use std::fs;
use std::io::{self, Read, Write};
use std::ops::RangeInclusive;
use std::process::ExitCode;
use std::str::FromStr;

/// Why a tool stops before its work is done.
#[derive(Debug, PartialEq, Eq)]
pub enum Stop {
    /// The command line is not understood, with the reason: status 2.
    Refused(String),
    /// The work cannot be done, with the reason: status 1.
    Failed(String),
}

/// Runs a tool on the words of the command line, writes what it hands back, and says how it ended. With `-h` or `--help` among the words it
/// writes the use instead.
pub fn run<Output: Into<Vec<u8>>>(usage: &str, tool: impl FnOnce(&[OsString]) -> Result<Output, Stop>) -> ExitCode {
    let words: Vec<OsString> = std::env::args_os().skip(1).collect();
    let output = if asks_for_help(&words) { Ok(usage.into()) } else { tool(&words).map(Into::into) };
    match output.and_then(|bytes| write_to(&mut io::stdout().lock(), &bytes)) {
        Ok(()) => ExitCode::SUCCESS,
        Err(stop) => ExitCode::from(report(usage, &stop, &mut io::stderr())),
    }
}

/// The bytes of the one file that the words name, or of standard input if there are no words.
pub fn input(words: &[OsString]) -> Result<Vec<u8>, Stop> {
    no_options(words)?;
    match words {
        [] => standard_input(),
        [file] => fs::read(file).map_err(|error| Stop::Failed(format!("`{}` cannot be read: {error}", file.display()))),
        [_, more, ..] => Err(too_many(more)),
    }
}

/// The number within bounds that a word is. The refusal calls it by its name in the use.
pub fn number<Number>(name: &str, bounds: RangeInclusive<Number>, word: &OsStr) -> Result<Number, Stop>
where
    Number: FromStr + PartialOrd + Display,
{
    let number = word.to_str().and_then(|word| word.parse().ok()).filter(|number| bounds.contains(number));
    let (least, most) = (bounds.start(), bounds.end());
    number.ok_or_else(|| Stop::Refused(format!("{name} is a number from {least} to {most}, not `{}`", word.display())))
}

/// Whether a word is an option, known or not.
pub fn is_option(word: &OsStr) -> bool {
    word.as_encoded_bytes().starts_with(b"-")
}

/// Refuses the first option among the words, where the tool knows none.
pub fn no_options(words: &[OsString]) -> Result<(), Stop> {
    words.iter().find(|word| is_option(word)).map_or(Ok(()), |option| Err(unknown(option)))
}

/// The refusal of a word or an option that the tool does not know.
pub fn unknown(word: &OsStr) -> Stop {
    Stop::Refused(format!("unknown {} `{}`", kind(word), word.display()))
}

/// The refusal of a word or an option after all that the tool takes.
pub fn too_many(word: &OsStr) -> Stop {
    Stop::Refused(format!("`{}` is one {} too many", word.display(), kind(word)))
}

fn kind(word: &OsStr) -> &'static str {
    if is_option(word) {
        "option"
    } else {
        "word"
    }
}

fn asks_for_help(words: &[OsString]) -> bool {
    words.iter().any(|word| word == "-h" || word == "--help")
}

fn standard_input() -> Result<Vec<u8>, Stop> {
    let mut bytes = Vec::new();
    match io::stdin().read_to_end(&mut bytes) {
        Ok(_) => Ok(bytes),
        Err(error) => Err(Stop::Failed(format!("standard input cannot be read: {error}"))),
    }
}

/// What is still in a buffer is not yet written, so the flush counts as well.
fn write_to(out: &mut dyn Write, bytes: &[u8]) -> Result<(), Stop> {
    let written = out.write_all(bytes).and_then(|()| out.flush());
    written.map_err(|error| Stop::Failed(format!("standard output cannot be written: {error}")))
}

/// Writes the reason, and the use where the command line was refused. Returns the exit status.
fn report(usage: &str, stop: &Stop, out: &mut dyn Write) -> u8 {
    let (text, status) = match stop {
        Stop::Refused(reason) => (format!("{reason}\n{usage}"), 2),
        Stop::Failed(reason) => (format!("{reason}\n"), 1),
    };
    // where standard error cannot be written there is nobody left to tell, but the status
    let _ = out.write_all(text.as_bytes());
    status
}

#[cfg(test)]
mod tests {
    use super::*;

    const USE: &str = "use: tool [FILE]\n";

    fn words(words: &[&str]) -> Vec<OsString> {
        words.iter().map(OsString::from).collect()
    }

    fn refused(reason: &str) -> Result<Vec<u8>, Stop> {
        Err(Stop::Refused(reason.into()))
    }

    /// Takes every byte, and loses all at the flush, as a buffer before a full disk does.
    struct Full;

    impl Write for Full {
        fn write(&mut self, bytes: &[u8]) -> io::Result<usize> {
            Ok(bytes.len())
        }

        fn flush(&mut self) -> io::Result<()> {
            Err(io::Error::other("full"))
        }
    }

    #[test]
    fn help() {
        assert!(asks_for_help(&words(&["-h"])) && asks_for_help(&words(&["pack", "--help"])));
        assert!(!asks_for_help(&[]) && !asks_for_help(&words(&["help", "-help", "--h"])));
    }

    #[test]
    fn file() {
        let manifest = concat!(env!("CARGO_MANIFEST_DIR"), "/Cargo.toml");
        assert_eq!(input(&words(&[manifest])), Ok(fs::read(manifest).unwrap()));
    }

    #[test]
    fn no_file() {
        let Err(Stop::Failed(reason)) = input(&words(&["no/such/file"])) else { panic!("there is no such file") };
        assert!(reason.starts_with("`no/such/file` cannot be read: "), "{reason}");
    }

    #[test]
    fn refused_words() {
        assert_eq!(input(&words(&["--fast"])), refused("unknown option `--fast`"));
        assert_eq!(input(&words(&["a.job", "-x"])), refused("unknown option `-x`"));
        assert_eq!(input(&words(&["a.job", "b.job"])), refused("`b.job` is one word too many"));
        assert_eq!(unknown(OsStr::new("saw")), Stop::Refused("unknown word `saw`".into()));
        assert_eq!(too_many(OsStr::new("--slow")), Stop::Refused("`--slow` is one option too many".into()));
    }

    #[test]
    fn numbers() {
        let dozen = |word| number("DOZEN", 1..=12_u8, OsStr::new(word));
        assert_eq!([dozen("1"), dozen("12")], [Ok(1), Ok(12)]);
        for word in ["0", "13", "256", "2.5", "two", ""] {
            assert_eq!(dozen(word), Err(Stop::Refused(format!("DOZEN is a number from 1 to 12, not `{word}`"))));
        }
    }

    #[test]
    fn written() {
        let mut out = Vec::new();
        assert_eq!(write_to(&mut out, b"all"), Ok(()));
        assert_eq!(out, b"all");
        assert_eq!(write_to(&mut Full, b"all"), Err(Stop::Failed("standard output cannot be written: full".into())));
    }

    #[test]
    fn reports() {
        let reported = |stop| {
            let mut out = Vec::new();
            let status = report(USE, &stop, &mut out);
            (status, String::from_utf8(out).unwrap())
        };
        assert_eq!(reported(Stop::Refused("unknown word `saw`".into())), (2, format!("unknown word `saw`\n{USE}")));
        assert_eq!(reported(Stop::Failed("no".into())), (1, "no\n".into()));
    }
}
