//! What the quorum program prints for a text: a heading, then a line for each line read.

use super::quorum::{nearest, Kind, ALL, NODES};

pub const HEADING: &str = "live read sum write sum";

/// A number as the program takes it: decimal digits alone, no leading zero but in `0` itself, at most `most`.
fn number(word: &[u8], most: u16) -> Option<u16> {
    let text = std::str::from_utf8(word).ok()?;
    if text.is_empty() || !text.chars().all(|letter| letter.is_ascii_digit()) {
        return None;
    }
    if text.starts_with('0') && text != "0" {
        return None;
    }
    // Without leading zeros, more than five digits are above any limit here.
    if text.len() > 5 {
        return None;
    }
    let value: u32 = text.parse().ok()?;
    if value > u32::from(most) {
        return None;
    }
    u16::try_from(value).ok()
}

/// What a good line says.
pub struct Line {
    live: u16,
    distances: [u16; NODES],
    asker: u8,
}

/// A live mask, thirteen distances and perhaps an asker, one space apart, and nothing else; none where the line is bad. "The quorum program reads it as a
/// fifteenth column. The marked cases stand with asker 0, and a line of fourteen columns is read so."
pub fn read_line(line: &[u8]) -> Option<Line> {
    let words: Vec<&[u8]> = line.split(|&byte| byte == b' ').collect();
    if words.len() != 1 + NODES && words.len() != 2 + NODES {
        return None;
    }
    let live = number(words[0], ALL)?;
    let mut distances = [0; NODES];
    for node in 0..NODES {
        distances[node] = number(words[1 + node], 65535)?;
    }
    let asker = match words.get(1 + NODES) {
        None => 0,
        Some(word) => number(word, NODES as u16 - 1)?,
    };
    Some(Line { live, distances, asker: asker as u8 })
}

/// The chosen mask and its sum, or a dash for each where there is no quorum.
fn columns(kind: Kind, line: &Line) -> String {
    match nearest(kind, line.live, &line.distances, line.asker) {
        None => String::from("- -"),
        Some((sum, mask)) => format!("{mask} {sum}"),
    }
}

/// What is printed for one line, without its newline.
pub fn print_line(line: &[u8]) -> String {
    match read_line(line) {
        None => String::from("bad"),
        Some(line) => format!("{} {} {}", line.live, columns(Kind::Read, &line), columns(Kind::Write, &line)),
    }
}

/// The lines of a text. A last line without its newline is a line; after the last newline there is none.
pub fn lines(text: &[u8]) -> Vec<&[u8]> {
    let mut lines: Vec<&[u8]> = text.split(|&byte| byte == b'\n').collect();
    if lines.last().is_some_and(|last| last.is_empty()) {
        lines.pop();
    }
    lines
}

/// All that the program prints for a text. The heading comes once, also for no input.
pub fn output(text: &[u8]) -> Vec<u8> {
    let mut printed = format!("{HEADING}\n").into_bytes();
    for line in lines(text) {
        printed.extend(print_line(line).into_bytes());
        printed.push(b'\n');
    }
    printed
}
