//! The quorum program: its whole output, byte by byte, against the model's for texts with good, damaged and very long lines.

pub mod child;
mod texts;

use crate::model::program as model;
use crate::model::quorum::NODES;
use crate::random::Random;
use crate::runner::{ensure, Runner, Verdict};
use child::{Child, Feed};
use std::collections::BTreeMap;
use std::path::Path;
use std::time::{Duration, Instant};

/// A million lines are read and printed within this time.
const MILLION_LIMIT: Duration = Duration::from_secs(60);

pub fn run(runner: &mut Runner, path: &Path) {
    let child = Child::new(path);
    runner.check("program: known texts", |_, _| known_texts(&child));
    runner.check("program: every byte at every place", |_, _| every_byte(&child));
    runner.check("program: good and damaged lines", |random, rounds| good_and_damaged(&child, random, rounds));
    runner.check("program: long lines", |random, _| long_lines(&child, random));
    runner.check("program: lines across buffer edges", |random, _| buffer_edges(&child, random));
    runner.check("program: a pipe in small pieces", |random, rounds| small_pieces(&child, random, rounds));
    runner.check("program: a million lines", |random, _| million_lines(&child, random));
}

/// Where two outputs part, in words: the line, what was printed and what the model prints, and the line that was read.
fn difference(text: &[u8], got: &[u8], expected: &[u8]) -> String {
    let short = |line: Option<&[u8]>| match line {
        None => String::from("nothing"),
        Some(line) => format!("{:?} ({} bytes)", String::from_utf8_lossy(&line[..line.len().min(120)]), line.len()),
    };
    let split = |bytes: &'_ [u8]| bytes.split(|&byte| byte == b'\n').map(<[u8]>::to_vec).collect::<Vec<_>>();
    let (got, expected) = (split(got), split(expected));
    let at = (0..).find(|&i| got.get(i) != expected.get(i)).unwrap_or(0);
    let printed = short(got.get(at).map(Vec::as_slice));
    let modelled = short(expected.get(at).map(Vec::as_slice));
    let read = short(at.checked_sub(1).and_then(|i| model::lines(text).get(i).copied()));
    format!("line {at} of the output is {printed}, but the model prints {modelled} for the line {read}")
}

/// Runs the program on a text and compares what it prints.
fn same(child: &Child, text: &[u8], feed: Feed) -> Result<(), String> {
    let expected = model::output(text);
    let got = child.run(text, feed)?;
    ensure!(got == expected, "{}", difference(text, &got, &expected));
    Ok(())
}

/// Texts whose output is written out here: document 01's own, the smallest ones, and lines of thirteen to sixteen numbers.
fn known_texts(child: &Child) -> Verdict {
    let heading = "live read sum write sum\n";
    let ones = " 1 1 1 1 1 1 1 1 1 1 1 1 1";
    let known = [
        (format!("8191{ones}\n8190{ones}\n"), "8191 1 1 439 7\n8190 6 2 - -\n"),
        (format!("8191{ones}\n8190{ones}"), "8191 1 1 439 7\n8190 6 2 - -\n"),
        (String::new(), ""),
        (String::from("\n"), "bad\n"),
        (String::from("\n\n"), "bad\nbad\n"),
        (String::from(" "), "bad\n"),
        (format!("\n0{ones}"), "bad\n0 - - - -\n"),
        (format!("8191{ones} \n8191{ones}\n"), "bad\n8191 1 1 439 7\n"),
        (format!("8191{ones}\r\n"), "bad\n"),
        (format!("8192{ones}\n"), "bad\n"),
        (String::from("8143 0 65535 65535 65535 65535 65535 65535 65535 65535 65535 65535 65535 65535\n"), "8143 1 0 3469 393210\n"),
        (format!("8191{}\n", " 65535".repeat(NODES)), "8191 1 65535 439 458745\n"),
        (format!("8191{} \n", " 65535".repeat(NODES)), "bad\n"),
        (format!("8191{}\n", " 0".repeat(NODES)), "8191 1 0 439 0\n"),
        (String::from("live read sum write sum\n"), "bad\n"),
        (format!("8190{ones} 3\n8190{ones} 0\n8190{ones}\n"), "8190 10 2 - -\n8190 6 2 - -\n8190 6 2 - -\n"),
        (format!("8191{ones} 12\n8191{ones} 12"), "8191 1 1 5179 7\n8191 1 1 5179 7\n"),
        (format!("8191{ones} 13\n8191{ones} 03\n8191{ones} 3 \n8191{ones}  3\n"), "bad\nbad\nbad\nbad\n"),
        (format!("8191{ones} 3 3\n8191{ones} 00\n8191{ones} 256\n8191{ones} 65536\n"), "bad\nbad\nbad\nbad\n"),
        (String::from("8191 1 1 1 1 1 1 1 1 1 1 1 1\n8190 1 1 1 5 1 1 1 1 1 1 1 1 1 3\n"), "bad\n8190 6 2 - -\n"),
    ];
    for (text, rows) in &known {
        let expected = format!("{heading}{rows}");
        for feed in [Feed::Pipe, Feed::File] {
            let got = child.run(text.as_bytes(), feed)?;
            ensure!(got == expected.as_bytes(), "{text:?}: {}", difference(text.as_bytes(), &got, expected.as_bytes()));
        }
        ensure!(model::output(text.as_bytes()) == expected.as_bytes(), "{text:?}: the model itself prints another text");
    }
    Ok(format!("{} texts", known.len()))
}

/// Good lines, short ones and the longest, without and with an asker, with each of the 256 bytes put in at each place, and put in place of each of their
/// bytes.
fn every_byte(child: &Child) -> Verdict {
    let longest = format!("8191{} 12", " 65535".repeat(NODES));
    let (short, without) = ("8190 0 9 10 65535 1 1 1 1 1 1 1 1 12 3", longest.trim_end_matches(" 12"));
    let mut text = Vec::new();
    for line in [short, short.trim_end_matches(" 3"), &longest, without].map(str::as_bytes) {
        for byte in 0..=255 {
            for at in 0..=line.len() {
                let (front, back) = line.split_at(at);
                text.extend([front, &[byte], back, b"\n"].concat());
                if !back.is_empty() {
                    text.extend([front, &[byte], &back[1..], b"\n"].concat());
                }
            }
        }
    }
    same(child, &text, Feed::Pipe)?;
    let lines = model::lines(&text);
    let good = lines.iter().filter(|line| model::read_line(line).is_some()).count();
    ensure!(good > 500 && lines.len() > 60_000, "{} lines with {good} good ones are too poor", lines.len());
    Ok(format!("{} lines, {good} of them good", lines.len()))
}

/// Several texts of random good lines and of every kind of damage, the last line with and without its newline.
fn good_and_damaged(child: &Child, random: &mut Random, rounds: usize) -> Verdict {
    let mut kinds: BTreeMap<&str, usize> = texts::DAMAGES.iter().map(|damage| (damage.name, 0)).collect();
    let (mut lines, mut good, mut asking) = (0, 0, 0);
    for size in [1, 2, 3, 10, 100, 1000, 5000, 20_000 * rounds] {
        for feed in [Feed::Pipe, Feed::File] {
            let mut text = Vec::new();
            for _ in 0..size {
                let (name, line) = texts::some_line(random);
                let fine = model::read_line(&line).is_some();
                ensure!(fine == name.is_none(), "the model reads {:?} otherwise than made: {name:?}", String::from_utf8_lossy(&line));
                match name {
                    None => {
                        good += 1;
                        asking += usize::from(line.iter().filter(|&&byte| byte == b' ').count() > NODES);
                    }
                    Some(name) => *kinds.entry(name).or_insert(0) += 1,
                }
                text.extend(line);
                text.push(b'\n');
            }
            lines += size;
            same(child, &text, feed)?;
            text.pop();
            same(child, &text, feed)?;
        }
    }
    let (rarest, least) = kinds.iter().map(|(&name, &count)| (name, count)).min_by_key(|&(_, count)| count).unwrap_or(("none", 0));
    let counted = format!(
        "{lines} lines, {good} good, {asking} of them with an asker, {} kinds of damage, the rarest ({rarest}) {least} times",
        kinds.len()
    );
    let rich = good * 3 > lines && good * 3 < 2 * lines && asking * 3 > good && asking * 3 < 2 * good && least >= 200;
    ensure!(rich, "the lines are too poor: {counted}");
    Ok(counted)
}

/// Lines of up to a megabyte, each between good lines and as the last line without a newline.
fn long_lines(child: &Child, random: &mut Random) -> Verdict {
    let long = texts::long_lines();
    let mut longest = 0;
    for line in &long {
        longest = longest.max(line.len());
        let mut text = [&texts::good_line(random)[..], b"\n", line, b"\n", &texts::good_line(random), b"\n", line].concat();
        same(child, &text, Feed::Pipe)?;
        text.extend(b"\n");
        text.extend(texts::good_line(random));
        same(child, &text, Feed::File)?;
    }
    ensure!(long.len() >= 30 && longest >= 1_000_000, "{} lines, the longest of {longest} bytes, are too poor", long.len());
    Ok(format!("{} lines, the longest of {longest} bytes", long.len()))
}

/// Texts in which a good line starts or ends at every place about a likely size of a buffer, and texts that end there.
fn buffer_edges(child: &Child, random: &mut Random) -> Verdict {
    let edges = [256, 512, 1024, 4096, 8192, 16384, 32768, 65536, 131_072];
    let mut count = 0;
    for edge in edges {
        let line = texts::good_line(random);
        for before in 0..=line.len() + 2 {
            let front = texts::filled(random, edge - before);
            let more = [&texts::good_line(random)[..], b"\n", &texts::good_line(random)].concat();
            let straddling = [&front[..], &line, b"\n", &more].concat();
            let ending = [&front[..], &line[..line.len().min(before)]].concat();
            for feed in [Feed::Pipe, Feed::File] {
                same(child, &straddling, feed)?;
                same(child, &ending, feed)?;
                count += 2;
            }
        }
    }
    ensure!(count > 1000, "{count} texts are too poor");
    Ok(format!("{count} texts about {} sizes", edges.len()))
}

/// The same text through a pipe byte by byte and in pieces of random sizes.
fn small_pieces(child: &Child, random: &mut Random, rounds: usize) -> Verdict {
    let mut pieces = 0;
    for (lines, most) in [(20, 1), (100, 3), (300, 40), (1000, 400), (3000, 9000)] {
        for _ in 0..rounds {
            let text = texts::some_text(random, lines);
            let sizes: Vec<usize> = (0..text.len()).map(|_| 1 + random.below(most)).collect();
            pieces += text.len() / most;
            same(child, &text, Feed::Pieces(&sizes))?;
        }
    }
    ensure!(pieces > 1000, "{pieces} pieces are too poor");
    Ok(format!("more than {pieces} pieces"))
}

fn million_lines(child: &Child, random: &mut Random) -> Verdict {
    let text = texts::some_text(random, 1_000_000);
    let expected = model::output(&text);
    let start = Instant::now();
    let got = child.run(&text, Feed::Pipe)?;
    let taken = start.elapsed();
    ensure!(got == expected, "{}", difference(&text, &got, &expected));
    ensure!(taken < MILLION_LIMIT, "a million lines took {} s", taken.as_secs());
    Ok(format!("1000000 lines, {} bytes, in {:.2} s", text.len(), taken.as_secs_f64()))
}
