//! Makes random lists of calls of the library from a seed, checks each call, and writes the number of calls by answer.

use cli::Stop;
use soak::library::Library;
use soak::list::Answers;
use std::ffi::OsString;
use std::process::ExitCode;

const USE: &str = "\
use: soak SEED COUNT     makes random lists of calls of the library, checks each call, and tells how many calls had each answer
     soak -h | --help    these lines
SEED is a number; the same seed makes the same lists. COUNT is how many lists, from 1.
";

fn main() -> ExitCode {
    cli::run(USE, |words| {
        let (seed, count) = parse(words)?;
        Ok(make(seed, count))
    })
}

/// The seed and the count that the words name.
fn parse(words: &[OsString]) -> Result<(u64, usize), Stop> {
    cli::no_options(words)?;
    let [seed, words @ ..] = words else { return Err(Stop::Refused("SEED and COUNT are missing".into())) };
    let seed = cli::number("SEED", 0..=u64::MAX, seed)?;
    let [count, words @ ..] = words else { return Err(Stop::Refused("COUNT is missing".into())) };
    let count = cli::number("COUNT", 1..=usize::MAX, count)?;
    words.first().map_or(Ok((seed, count)), |more| Err(cli::too_many(more)))
}

/// Makes the lists. The text has a line for each answer: how many calls had it, and how many of each name.
fn make(seed: u64, count: usize) -> String {
    let mut answers = Answers::new();
    soak::lists::make::<Library>(seed, count, &mut answers);
    let mut text = format!("{count} lists\n");
    for (answer, calls) in answers {
        let by_name: Vec<String> = calls.iter().map(|(name, calls)| format!("{name} {calls}")).collect();
        text += &format!("{answer:>3} {:>10}: {}\n", calls.values().sum::<u64>(), by_name.join(", "));
    }
    text
}
