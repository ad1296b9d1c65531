//! Boards as SVG, one below the other.

use crate::{Board, Map, Tool};
use std::fmt::Write;

/// Pixels of the picture to a pixel of a sheet, to a line of words, and the space around a sheet.
const CELL: usize = 14;
const LINE: usize = 18;
const SPACE: usize = 28;

/// The colours of copper, and of a place or run that was done or refused.
const COPPER: &str = "#b8672a";
const DONE: &str = "#12803c";
const REFUSED: &str = "#c4161c";

/// The picture of all boards.
pub(crate) fn svg(boards: &[Board]) -> String {
    let width = boards.iter().map(|board| board.w * CELL).max().unwrap_or(0).max(420) + 2 * SPACE;
    let height: usize = boards.iter().map(tall).sum::<usize>() + SPACE;
    let mut out = String::from("<svg xmlns=\"http://www.w3.org/2000/svg\" font-family=\"sans-serif\" font-size=\"12\"");
    out += &format!(" width=\"{width}\" height=\"{height}\">\n");
    out += "<rect width=\"100%\" height=\"100%\" fill=\"white\"/>\n";
    out += "<pattern id=\"none\" width=\"6\" height=\"6\" patternUnits=\"userSpaceOnUse\">";
    out += "<path d=\"M0 6L6 0\" stroke=\"#bbb\"/></pattern>\n";
    let mut top = SPACE;
    for board in boards {
        draw(&mut out, board, top).expect("a string takes any text");
        top += tall(board);
    }
    out + "</svg>\n"
}

/// The height of a board with its title and the words below.
fn tall(board: &Board) -> usize {
    board.h * CELL + LINE * (board.approaches.len() + board.notes.len()) + 2 * SPACE
}

/// A board with its title and the words below, from `top` down.
fn draw(out: &mut String, board: &Board, top: usize) -> std::fmt::Result {
    writeln!(out, "<text x=\"{SPACE}\" y=\"{}\">{}, {} × {}</text>", top - 8, board.title, board.w, board.h)?;
    writeln!(out, "<g transform=\"translate({SPACE} {top})\">")?;
    writeln!(out, "<g stroke=\"#ddd\">")?;
    pixels(out, board)?;
    writeln!(out, "</g>")?;
    dots(out, board)?;
    for tool in &board.tools {
        tool_path(out, tool)?;
    }
    let approaches = board.approaches.iter().map(|&approach| (DONE, words(board, approach)));
    let notes = board.notes.iter().map(|note| (REFUSED, note.clone()));
    for (line, (colour, text)) in approaches.chain(notes).enumerate() {
        writeln!(out, "<text x=\"0\" y=\"{}\" fill=\"{colour}\">{text}</text>", board.h * CELL + LINE * (line + 1))?;
    }
    writeln!(out, "</g>")
}

/// The closest approach of a placing in words, as a number of pixels. It is rounded down, so that no cutter seems farther off than it was. Of
/// a value it is the least distance at which copper can be.
fn words(board: &Board, (record, closest): (usize, Option<u32>)) -> String {
    let Some(size) = closest else { return format!("{record}: closest approach none: there is no copper") };
    let (least, times, value) = match board.map {
        Some(Map::Values { times, .. }) => ("at least ", times, format!(", value {}", size.isqrt())),
        _ => ("", 1, String::new()),
    };
    let hundredths = (10_000 * u64::from(size) / u64::from(times)).isqrt();
    format!("{record}: closest approach {least}{}.{:02} pixels{value}", hundredths / 100, hundredths % 100)
}

/// The sheet's pixels, each with its place and its size or value as a title.
fn pixels(out: &mut String, board: &Board) -> std::fmt::Result {
    let far = (0..board.w * board.h).filter_map(|at| size(board, at)).max().unwrap_or(0).max(1);
    let values = matches!(board.map, Some(Map::Values { .. }));
    for at in 0..board.w * board.h {
        let (x, y) = (at % board.w * CELL, at / board.w * CELL);
        let (fill, words) = match size(board, at) {
            _ if board.sheet[at] != 0 => (COPPER.into(), "copper".into()),
            Some(a) if values => (shade(a, far), format!("value {}", a.isqrt())),
            Some(a) => (shade(a, far), format!("size {a}")),
            None if board.map.is_some() => ("url(#none)".into(), "unlabelled".into()),
            None => ("#eee".into(), "bare".into()),
        };
        let cell = format!("M{x} {y}h{CELL}v{CELL}h-{CELL}z");
        writeln!(out, "<path d=\"{cell}\" fill=\"{fill}\"><title>({}, {}) {words}</title></path>", at % board.w, at / board.w)?;
    }
    Ok(())
}

/// The pixels that the skeleton keeps.
fn dots(out: &mut String, board: &Board) -> std::fmt::Result {
    let kept = board.kept.iter().flatten().enumerate().filter(|(_, &mark)| mark != 0);
    for (at, _) in kept {
        let (x, y) = (at % board.w * CELL + CELL / 2, at / board.w * CELL + CELL / 2);
        writeln!(out, "<circle cx=\"{x}\" cy=\"{y}\" r=\"2\" fill=\"#335\"/>")?;
    }
    Ok(())
}

/// The size at a pixel, if the board has a map and the pixel is labelled: dx² + dy², or the square of the value.
fn size(board: &Board, at: usize) -> Option<u64> {
    match board.map.as_ref()? {
        Map::Pairs(numbers) => match numbers[2 * at..2 * at + 2] {
            [i16::MIN, i16::MIN] => None,
            [dx, dy] => Some(u64::from(dx.unsigned_abs()).pow(2) + u64::from(dy.unsigned_abs()).pow(2)),
            _ => unreachable!("two numbers"),
        },
        Map::Values { numbers, .. } => Some(numbers[at]).filter(|&value| value != u16::MAX).map(|value| u64::from(value).pow(2)),
    }
}

/// The farther from copper, the lighter.
fn shade(a: u64, far: u64) -> String {
    let part = (a as f64 / far as f64).sqrt();
    let tone = |dark: f64| (dark + (250.0 - dark) * part) as u8;
    format!("rgb({} {} {})", tone(120.0), tone(160.0), tone(215.0))
}

/// A place as a disk, a run as a line, with the number of its record and a cross where the gate refused.
fn tool_path(out: &mut String, tool: &Tool) -> std::fmt::Result {
    let middle = |at: i32| at as f64 * CELL as f64 + CELL as f64 / 2.0;
    let (x, y) = (middle(tool.from.0), middle(tool.from.1));
    let (to_x, to_y) = (middle(tool.from.0 + tool.count * tool.step.0), middle(tool.from.1 + tool.count * tool.step.1));
    let colour = if tool.failed.is_some() { REFUSED } else { DONE };
    let dashes = if tool.failed.is_some() { " stroke-dasharray=\"5 3\"" } else { "" };
    if tool.count == 0 {
        let r = f64::from(tool.q).sqrt() * CELL as f64;
        writeln!(out, "<circle cx=\"{x}\" cy=\"{y}\" r=\"{r:.1}\" fill=\"none\" stroke=\"{colour}\"{dashes}/>")?;
        writeln!(out, "<circle cx=\"{x}\" cy=\"{y}\" r=\"3\" fill=\"{colour}\"/>")?;
    } else {
        writeln!(out, "<path d=\"M{x} {y}L{to_x} {to_y}\" stroke=\"{colour}\" stroke-width=\"2\"{dashes}/>")?;
        writeln!(out, "<circle cx=\"{to_x}\" cy=\"{to_y}\" r=\"2\" fill=\"{colour}\"/>")?;
    }
    if let Some((cross_x, cross_y)) = tool.failed {
        let (left, up) = (middle(cross_x) - 4.0, middle(cross_y) - 4.0);
        writeln!(out, "<path d=\"M{left} {up}l8 8m0 -8l-8 8\" stroke=\"{REFUSED}\" stroke-width=\"2\"/>")?;
    }
    let (text_x, text_y) = ((x + to_x) / 2.0 + 4.0, (y + to_y) / 2.0 - 4.0);
    let halo = "stroke=\"white\" stroke-width=\"3\" paint-order=\"stroke\"";
    writeln!(out, "<text x=\"{text_x}\" y=\"{text_y}\" fill=\"{colour}\" {halo}>{}</text>", tool.record)
}
