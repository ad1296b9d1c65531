//! The words of the command line.

use crate::WHATS;
use cli::Stop;
use std::ffi::{OsStr, OsString};

/// What `-h` and `--help` write.
pub const USE: &str = "\
use: bench [ROUNDS [CALL...]]   times the calls of the library, or some alone, beside plain Rust
     bench --peers [ROUNDS]     times the exact map and the chamfer maps beside other libraries
     bench --memory [ROUNDS]    times nothing but going once through the slices that are lent
     bench --stack              measures how much of the stack each call takes
     bench -h | --help          these lines
ROUNDS is how often all boards are gone through, from 1; 10 if it is not given.
CALL is exact, 8SED, 4SED, city-block, chessboard, chamfer, expand, shrink, skeleton, rebuild, run, probe, probe-row,
store or read-back.
";

/// What is to be timed, in how many rounds, from 1, or to be measured.
#[derive(Debug, PartialEq, Eq)]
pub enum Command {
    /// The calls beside plain Rust, or those that are named alone.
    Table { rounds: usize, calls: Vec<&'static str> },
    /// The exact map and the chamfer maps beside other libraries.
    Peers { rounds: usize },
    /// A pass through the lent slices.
    Memory { rounds: usize },
    /// The stack that each call takes.
    Stack,
}

/// The options, all but those for help.
const OPTIONS: [&str; 3] = ["--peers", "--memory", "--stack"];

/// What the words ask for.
pub fn parse(words: &[OsString]) -> Result<Command, Stop> {
    let (options, words): (Vec<&OsStr>, Vec<&OsStr>) = words.iter().map(OsString::as_os_str).partition(|word| cli::is_option(word));
    if let Some(option) = options.iter().find(|&&option| OPTIONS.iter().all(|known| option != *known)) {
        return Err(cli::unknown(option));
    }
    if options == ["--stack"] {
        return words.first().map_or(Ok(Command::Stack), |more| Err(cli::too_many(more)));
    }
    let rounds = words.first().map_or(Ok(10), |word| cli::number("ROUNDS", 1..=usize::MAX, word))?;
    match (&options[..], words.get(1..).unwrap_or_default()) {
        ([], calls) => Ok(Command::Table { rounds, calls: calls.iter().map(|call| known(call)).collect::<Result<_, _>>()? }),
        ([option], []) if *option == "--peers" => Ok(Command::Peers { rounds }),
        ([_], []) => Ok(Command::Memory { rounds }),
        ([_], [more, ..]) | ([_, more, ..], _) => Err(cli::too_many(more)),
    }
}

/// The name of a call that is timed.
fn known(word: &OsStr) -> Result<&'static str, Stop> {
    let name = WHATS.iter().map(|what| what.name).find(|name| word == one_word(name).as_str());
    name.ok_or_else(|| {
        let names = WHATS.map(|what| one_word(what.name)).join(", ");
        Stop::Refused(format!("CALL is one of {names}, not `{}`", word.display()))
    })
}

/// A call's name as one word of the command line.
fn one_word(name: &str) -> String {
    name.replace(' ', "-")
}

#[cfg(test)]
mod tests {
    use super::*;

    fn taken(line: &str) -> Command {
        let words: Vec<OsString> = line.split_whitespace().map(OsString::from).collect();
        parse(&words).expect(line)
    }

    #[test]
    fn table() {
        assert_eq!(taken(""), Command::Table { rounds: 10, calls: vec![] });
        assert_eq!(taken("12"), Command::Table { rounds: 12, calls: vec![] });
        assert_eq!(taken("12 exact probe-row"), Command::Table { rounds: 12, calls: vec!["exact", "probe row"] });
        for call in WHATS.map(|what| what.name) {
            assert_eq!(taken(&format!("1 {}", one_word(call))), Command::Table { rounds: 1, calls: vec![call] });
            assert!(USE.contains(&one_word(call)));
        }
    }

    #[test]
    fn others() {
        assert_eq!(taken("--peers"), Command::Peers { rounds: 10 });
        assert_eq!(taken("--peers 5"), Command::Peers { rounds: 5 });
        assert_eq!(taken("20 --memory"), Command::Memory { rounds: 20 });
        assert_eq!(taken("--stack"), Command::Stack);
        assert!(OPTIONS.iter().all(|option| USE.contains(option)));
    }
}
