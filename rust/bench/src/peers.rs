//! The maps beside the libraries that a user might pick instead, where they are installed. The exact map has OpenCV's precise Euclidean
//! transform, which gives distances and no vectors, and scipy's indices. The chamfer maps have OpenCV's transforms with a mask of 3 by 3: L1,
//! with weights 1 and 2, C, with 1 and 1, and L2, with 0.955 and 1.3693. All run in Python, one thread each, on the same sheets and in the
//! same run.

use crate::cell;
use abi::session::Session;
use bench::plain_exact::scratch_need;
use model::boards::Board;
use std::fs;
use std::io::{self, BufRead, BufReader, Write};
use std::path::Path;
use std::process::{Child, Command, Stdio};
use std::time::{Duration, Instant};

/// The maps, in the order of OpenCV's times in a line of the script: the engine, its name and OpenCV's. Behind them stands scipy's time,
/// which goes with the first.
const MAPS: [(u16, &str, &str); 4] =
    [(1, "exact", "precise"), (4, "city block", "L1, 3 × 3"), (5, "chessboard", "C, 3 × 3"), (6, "chamfer", "L2, 3 × 3")];

/// The table.
pub fn table(rounds: usize, boards: impl Iterator<Item = (&'static str, Board)>) -> io::Result<String> {
    let folder = std::env::temp_dir().join(format!("pertskhuna-bench-{}", std::process::id()));
    fs::create_dir_all(&folder)?;
    let lines = lines(rounds, boards, &folder.join("sheet"));
    fs::remove_dir_all(&folder)?;
    let mut text =
        format!("ns a pixel, the shortest of {rounds} runs of each; a dash where a peer is not installed or has no such map\n\n");
    text += &format!("{:10}  {:11}  {:>4}  {:>7}  {:9}  {:>6}  {:>5}", "call", "board", "side", "library", "OpenCV's", "OpenCV", "ratio");
    text += &format!("  {:>6}  {:>5}\n", "scipy", "ratio");
    Ok(text + &lines?)
}

/// A line for each map and board. The sheets go to the peers by a file.
fn lines(rounds: usize, boards: impl Iterator<Item = (&'static str, Board)>, file: &Path) -> io::Result<String> {
    let mut python = start(rounds)?;
    let mut ask = python.stdin.take().expect("standard input is piped");
    let mut answers = BufReader::new(python.stdout.take().expect("standard output is piped")).lines();
    let mut texts = MAPS.map(|_| String::new());
    for (name, board) in boards {
        fs::write(file, &board.sheet)?;
        let times = MAPS.map(|(engine, ..)| library(rounds, &board, engine));
        writeln!(ask, "{} {} {}", file.display(), board.w, board.h)?;
        let answer = answers.next().ok_or_else(|| io::Error::other("python3 ended before its last answer"))??;
        let peer = |at: usize| answer.split(' ').nth(at)?.parse::<f64>().ok();
        for (at, text) in texts.iter_mut().enumerate() {
            let (_, call, opencv) = MAPS[at];
            *text += &format!("{call:10}  {name:11}  {:4}  {:7.2}  {opencv:9}", board.w, times[at]);
            for peer in [peer(at), peer(MAPS.len()).filter(|_| at == 0)] {
                *text += &format!("  {:>6}  {:>5}", cell(peer), cell(peer.map(|peer| times[at] / peer)));
            }
            *text += "\n";
        }
    }
    drop(ask);
    python.wait()?;
    Ok(texts.concat())
}

fn start(rounds: usize) -> io::Result<Child> {
    let script = concat!(env!("CARGO_MANIFEST_DIR"), "/src/peers.py");
    // Debian's Python, which has Debian's packages
    let mut python = Command::new("/usr/bin/python3");
    let child = python.arg(script).arg(rounds.to_string()).stdin(Stdio::piped()).stdout(Stdio::piped()).spawn();
    child.map_err(|error| io::Error::new(error.kind(), format!("python3 does not start: {error}")))
}

/// The library's shortest time for the map of an engine, in nanoseconds a pixel.
fn library(rounds: usize, board: &Board, engine: u16) -> f64 {
    let &Board { w, h, ref sheet } = board;
    let (width, height) = board.sides();
    let session = Session { opened: true, width, height, ..Session::fresh() };
    let (mut map, mut values, mut scratch) = (vec![0; 2 * w * h], vec![0; w * h], vec![0; scratch_need(w)]);
    let mut best = Duration::MAX;
    for _ in 0..rounds {
        let start = Instant::now();
        let reply = session.build(sheet, &mut map, &mut values, &mut scratch, engine);
        best = best.min(start.elapsed());
        assert_eq!(reply.answer, 0);
    }
    best.as_nanos() as f64 / (w * h) as f64
}
