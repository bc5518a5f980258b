//! The station program: its whole output, byte by byte, against the model's for scenarios as text, known, stored and random.

mod texts;

use crate::checks::program::child::{Child, Feed};
use crate::checks::station::scenario::{closing_step, next_step, some_style, Style};
use crate::checks::station::seen::{Case, Seen, STEPS};
use crate::model::coordinator::Call;
use crate::model::program::lines;
use crate::model::quorum::ALL;
use crate::model::script::{
    laid, laid_classes, laid_weights, output, read_line, Line, Program, Taken, LINE_NUMBERS, LIST_NUMBERS, LONGEST,
};
use crate::model::station::Step;
use crate::model::OBJECTS;
use crate::random::Random;
use crate::runner::{ensure, Runner, Verdict};
use std::collections::BTreeMap;
use std::fs;
use std::path::{Path, PathBuf};

/// The stored scenarios, NAME.txt with NAME.out beside it.
const STORED: &str = "tests/scenarios";

/// The program's sample: its input, and what it prints.
const SAMPLE: [&str; 2] = ["crates/station_program/stdin", "crates/station_program/stdout"];

pub fn run(runner: &mut Runner, path: &Path) {
    let child = Child::new(path);
    runner.check("station program: known texts", |_, _| known_texts(&child));
    runner.check("station program: clocks, lists and hours", |_, _| known_hours(&child));
    runner.check("station program: classes and batches", |_, _| known_classes(&child));
    runner.check("station program: who wrote last", |_, _| known_authors(&child));
    runner.check("station program: stored scenarios", |_, _| stored(&child));
    runner.check("station program: its sample", |_, _| sample(&child));
    runner.check("station program: every byte at every place", |_, _| every_byte(&child));
    runner.check("station program: random scenarios", |random, rounds| random_scenarios(&child, random, rounds));
    runner.check("station program: a pipe in small pieces", |random, rounds| small_pieces(&child, random, rounds));
}

/// Where two outputs part, in words.
fn difference(got: &[u8], expected: &[u8]) -> String {
    let (got, expected) = (lines(got), lines(expected));
    let at = (0..).find(|&i| got.get(i) != expected.get(i)).unwrap_or(0);
    let short = |list: &[&[u8]], at: usize| list.get(at).map_or(String::from("nothing"), |line| String::from_utf8_lossy(line).into_owned());
    let before: Vec<String> = (at.saturating_sub(4)..at).map(|i| short(&expected, i)).collect();
    format!("behind {before:?} it prints {:?}, but the model {:?}", short(&got, at), short(&expected, at))
}

fn same(child: &Child, text: &[u8], feed: Feed, expected: &[u8]) -> Result<(), String> {
    let got = child.run(text, feed)?;
    ensure!(got == expected, "{}", difference(&got, expected));
    Ok(())
}

/// The end of a scenario in which nothing was written.
const END: &str = "end\n  at rest yes\n  settled yes\n";

/// What is printed for a bad line.
fn bad(line: usize) -> String {
    format!("line {line}: no such step, nothing done\n")
}

/// The program prints this for a text, fed in either way, and so does the model.
fn known(child: &Child, text: &str, expected: &str) -> Result<(), String> {
    for feed in [Feed::Pipe, Feed::File] {
        same(child, text.as_bytes(), feed, expected.as_bytes()).map_err(|wrong| format!("{text:?}: {wrong}"))?;
    }
    ensure!(output(text.as_bytes())? == expected.as_bytes(), "{text:?}: the model itself prints another text");
    Ok(())
}

/// Texts whose output is written out here.
fn known_texts(child: &Child) -> Verdict {
    let texts = [
        (String::new(), String::new()),
        (String::from("\n"), String::new()),
        (String::from("# nothing\n   \n#"), String::new()),
        (String::from("blank 8191"), format!("1 blank 8191\n{END}")),
        (String::from("blank 8191\n"), format!("1 blank 8191\n{END}")),
        (String::from("\n blank  0 # none on\nblank 1"), format!("2  blank  0 # none on\n{END}3 blank 1\n{END}")),
        (String::from("blank 8192\n"), String::from("1 blank 8192\n  4 stranger\n")),
        (String::from("blank 8191\nblank 65535"), format!("1 blank 8191\n2 blank 65535\n  4 stranger\n{END}")),
        (String::from("blank 65536"), bad(1)),
        (String::from("blank"), bad(1)),
        (String::from("x\nY\n4\n-\n\t\nblank 1 1\n"), (1..=6).map(bad).collect()),
        (String::from("ask 4"), format!("1 ask 4\n  5 out of turn\n{END}")),
        (String::from("off 4\non 13\ndeliver 0\n"), format!("1 off 4\n  ok\n2 on 13\n  4 stranger\n3 deliver 0\n  5 out of turn\n{END}")),
        (
            String::from("begin 4 1 8191 9 1 1 1 1 1 1 1 1 1 1 1 1\nabort 4\nfound 4 7\n"),
            format!("1 begin 4 1 8191 9 1 1 1 1 1 1 1 1 1 1 1 1\n  ok quorum 6\n2 abort 4\n  ok\n3 found 4 7\n  5 out of turn\n{END}"),
        ),
        (format!("on 4{}\n", " ".repeat(LONGEST - 4)), format!("1 on 4{}\n  ok\n{END}", " ".repeat(LONGEST - 4))),
        (format!("on 4{}\n", " ".repeat(LONGEST - 3)), bad(1)),
    ];
    texts.iter().try_for_each(|(text, expected)| known(child, text, expected))?;
    Ok(format!("{} texts", texts.len()))
}

/// A text's lines, each with what is printed below it; a line without anything is printed alone, and one of `bad` in its place.
fn printed(lines: &[(&str, &str)], end: &str) -> (String, String) {
    let text = lines.iter().map(|(line, _)| format!("{line}\n")).collect();
    let below = |at: usize, line: &str, below: &str| match below {
        "bad" => bad(at),
        "" => format!("{at} {line}\n"),
        _ => format!("{at} {line}\n  {below}\n"),
    };
    let shown: String = (1..).zip(lines).map(|(at, (line, told))| below(at, line, told)).collect();
    (text, shown + end)
}

/// The words `clock`, `list` and `hours`, in texts whose output is written out here.
fn known_hours(child: &Child) -> Verdict {
    let begin = "begin 4 1 8191";
    let texts: &[(&[(&str, &str)], &str)] = &[
        // Neither a clock nor a list makes a scenario.
        (&[("clock 4294967295 65535", ""), (" list  # none", ""), ("list 1 2", ""), ("list -0 007", "")], ""),
        (&[("clock 1", "bad"), ("clock 4294967296 0", "bad"), ("clock 0 65536", "bad"), ("clock -1 0", "bad"), ("clock 1 2 3", "bad")], ""),
        (&[("list 4294967295", ""), ("list 4294967296", "bad"), ("list -1", "bad"), ("list 1 x", "bad"), ("hours 4", "bad")], ""),
        (&[("hours", "bad"), ("hours 256", "bad"), ("hours 4 5", "bad"), ("hours -4", "bad")], ""),
        // The table's numbers, the lowest first: 1, 2, 4, 5. The step empties the list each time.
        (&[("hours 4", "1 length"), ("list 0", ""), ("hours 13", "1 length"), ("list 1 5 5 0", ""), ("hours 13", "2 damaged")], END),
        (&[("list 0 0", ""), ("hours 13", "4 stranger"), ("hours 4", "1 length"), ("list 0 0", ""), ("hours 255", "4 stranger")], END),
        (&[("off 4", "ok"), ("list 0 0", ""), ("hours 4", "5 out of turn"), ("on 4", "ok"), ("hours 4", "1 length")], END),
        (&[("list 1 0 10080 0 7", ""), ("hours 4", "1 length"), ("list 1 0 10080", ""), ("hours 4", "1 length")], END),
        (&[("list 1 0 10081 0", ""), ("hours 4", "2 damaged"), ("list 1 10080 10080 0", ""), ("hours 4", "2 damaged")], END),
        // Too wide for its place: the list stays, until a `list` alone empties it.
        (&[("list 256", ""), ("hours 4", "bad"), ("hours 4", "bad"), ("list", ""), ("hours 4", "1 length")], END),
        (&[("list 1 65536 0", ""), ("hours 4", "bad"), ("list", ""), ("list 0 256", ""), ("hours 4", "bad")], ""),
        // A list over several lines; all hours are open before a table is loaded, and closed by one without a window.
        (
            &[
                (begin, "ok quorum 1"),
                ("abort 4", "ok"),
                ("list 0", ""),
                ("list 0", ""),
                ("hours 4", "ok"),
                ("begin 4 2 8191", "13 closed"),
            ],
            END,
        ),
        // 3 before any table and before 4, 13 last of all.
        (&[("clock 0 10080", ""), ("begin 13 0 0", "3 garbled"), ("clock 0 10079", ""), ("begin 13 0 0", "4 stranger")], END),
        (
            &[("list 0 0", ""), ("hours 4", "ok"), ("begin 4 1 0", "8 no quorum"), ("begin 4 0 0", "5 out of turn"), (begin, "13 closed")],
            END,
        ),
        // The clock goes with later begins. A `blank` that is accepted sets it back, empties the list and unloads the table; no other does.
        (
            &[
                ("list 1 360 840 1 7", ""),
                ("hours 4", "ok"),
                ("clock 8 359", ""),
                (begin, "13 closed"),
                ("clock 8 840", ""),
                (begin, "13 closed"),
                ("clock 7 400", ""),
                (begin, "13 closed"),
                ("clock 8 839", ""),
                (begin, "ok quorum 1"),
                ("abort 4", "ok"),
            ],
            END,
        ),
        (&[("clock 8 10080", ""), ("list 0 0", ""), ("blank 8192", "4 stranger"), (begin, "3 garbled"), ("hours 4", "ok")], END),
    ];
    for (lines, end) in texts {
        let (text, expected) = printed(lines, end);
        known(child, &text, &expected)?;
    }
    let (before, first) = printed(&[("list 0 0", ""), ("hours 4", "ok"), ("list 0", ""), ("clock 9 10080", "")], END);
    let behind = "blank 8191\nbegin 4 1 8191\nabort 4\nhours 4\n";
    known(
        child,
        &(before + behind),
        &format!("{first}5 blank 8191\n6 begin 4 1 8191\n  ok quorum 1\n7 abort 4\n  ok\n8 hours 4\n  1 length\n{END}"),
    )?;
    full_list(child)?;
    Ok(format!("{} texts", texts.len() + 2))
}

/// The words `classes` and `batch`, in texts whose output is written out here.
fn known_classes(child: &Child) -> Verdict {
    let loaded = ("classes 4", "ok");
    let texts: &[(&[(&str, &str)], &str)] = &[
        (&[("classes", "bad"), ("classes 256", "bad"), ("classes 4 5", "bad"), ("batch 4 1", "bad"), ("batch 4 1 65536", "bad")], ""),
        // The table's numbers in their order: 1, 4, 5, 6, 10, 14, 15. The step empties the list each time, and a refused table is none.
        (&[("classes 4", "1 length"), ("list 0", ""), ("classes 13", "1 length"), ("list 0 1 128", ""), ("classes 13", "4 stranger")], END),
        (&[("off 4", "ok"), ("list 0 1 128", ""), ("classes 4", "5 out of turn"), ("on 4", "ok"), ("classes 4", "1 length")], END),
        (&[("list 2 9 8 1 128", ""), ("classes 4", "6 no such tally"), ("list 2 9 8 3 1 1 2", ""), ("classes 4", "14 bounds")], END),
        (&[("list 1 9 2 5 5", ""), ("classes 4", "15 tally twice"), ("list 0 0", ""), ("classes 4", "14 bounds")], END),
        (&[("list 1 2000 2 5 6", ""), ("classes 4", "14 bounds"), ("list 1 0 2 5 6", ""), ("classes 4", "14 bounds")], END),
        (
            &[
                ("begin 4 1 8191", "ok quorum 1"),
                ("list 2 9 8 3 1 1 2", ""),
                ("classes 4", "10 busy"),
                ("abort 4", "ok"),
                ("list 2 1 1999 3 0 127 7", ""),
                loaded,
            ],
            "end\n  waiting 4 0 0 0\n  at rest yes\n  settled yes\n",
        ),
        // Too wide for its place: the list stays.
        (&[("list 256", ""), ("classes 4", "bad"), ("list", ""), ("list 1 65536 1 1", ""), ("classes 4", "bad"), ("classes 4", "bad")], ""),
        (&[("list 0 256", ""), ("classes 4", "bad"), ("list", ""), ("list 0 1 256", ""), ("classes 4", "bad")], ""),
        (&[("list 65536", ""), ("batch 4 1 8191", "bad"), ("list", ""), ("batch 4 1 8191", "5 out of turn")], END),
        // A batch's numbers: 3, 4, 10, 5, 8, 13. No weight is a batch too, and the count is not in the list.
        (&[("list 2000", ""), ("batch 13 0 0", "3 garbled"), ("list 1999", ""), ("batch 13 0 0", "4 stranger")], END),
        (&[("clock 0 10080", ""), ("batch 13 0 0", "3 garbled"), ("clock 0 10079", ""), ("batch 4 1 8192", "4 stranger")], END),
        (
            &[
                ("list 0 1 7", ""),
                loaded,
                ("batch 4 0 0", "5 out of turn"),
                ("batch 4 1 0", "8 no quorum"),
                ("list 0 0", ""),
                ("hours 4", "ok"),
                ("list 37", ""),
                ("batch 4 1 8191", "13 closed"),
                ("list 1 0 10080 0", ""),
                ("hours 4", "ok"),
                ("batch 4 1 8191", "ok quorum 1"),
                ("list 1 2", ""),
                ("batch 4 0 0", "10 busy"),
                ("write 4 8", "5 out of turn"),
                ("read 4 8", "5 out of turn"),
                ("set 4 7 1", "5 out of turn"),
                ("found 4 7", "11 not ready"),
                ("ask 4", "11 not ready"),
            ],
            "end\n  waiting 4 0\n  at rest no\n  settled yes\n",
        ),
        // Each node has its own table; a `blank` takes them all.
        (
            &[("list 0 1 7", ""), ("classes 12", "ok"), ("list 1 5 2 7 8", ""), ("classes 0", "ok"), ("batch 4 1 8191", "5 out of turn")],
            "end\n  waiting 0 0 0\n  waiting 12 0\n  at rest yes\n  settled yes\n",
        ),
    ];
    for (lines, end) in texts {
        let (text, expected) = printed(lines, end);
        known(child, &text, &expected)?;
    }
    let waits = "end\n  waiting 4 0\n  at rest yes\n  settled yes\n";
    let (before, first) = printed(&[("list 0 1 7", ""), loaded], waits);
    known(child, &(before + "blank 8191\nbatch 4 1 8191\n"), &format!("{first}3 blank 8191\n4 batch 4 1 8191\n  5 out of turn\n{END}"))?;
    full_batch(child)?;
    Ok(format!("{} texts", texts.len() + 2))
}

/// A booking of 500 grams for object 7 by node 4, as lines: up to the last yes, then each participant's commit and done.
fn booking() -> [Vec<String>; 3] {
    let there = |to: u8, object: u8| vec![format!("send 4 {to} {object}"), String::from("deliver 0"), String::from("deliver 0")];
    let words = |list: &[&str]| list.iter().map(|line| String::from(*line)).collect::<Vec<String>>();
    let open = [words(&["begin 4 1 8191", "write 4 7"]), there(0, 7), words(&["set 4 7 500", "ask 4"])].concat();
    let party = || [0, 1, 2, 4, 5, 7, 8].into_iter();
    [open, party().flat_map(|to| there(to, 0)).collect(), party().flat_map(|to| there(to, 0)).collect()]
}

/// The program prints a text that ends so, and so does the model.
fn ends_with(child: &Child, lines: &[String], end: &str) -> Result<(), String> {
    let text = lines.join("\n");
    let modelled = output(text.as_bytes())?;
    same(child, text.as_bytes(), Feed::Pipe, &modelled)?;
    ensure!(modelled.ends_with(end.as_bytes()), "behind {:?} the end is not {end:?}", lines.last());
    Ok(())
}

/// Who wrote last in the ending: nobody before the first commit has arrived, the booking after it, and nobody's name by one that was given up.
fn known_authors(child: &Child) -> Verdict {
    let [open, votes, commits] = booking();
    let committed = [open.clone(), votes.clone()].concat();
    ends_with(child, &committed, "end\n  object 7 version 0 value 0 nodes 8191 by - replay 500\n  at rest no\n  settled no\n")?;
    let first = [committed.clone(), commits[..2].to_vec()].concat();
    ends_with(child, &first, "end\n  object 7 version 1 value 500 nodes 1 by 4/1 replay 500\n  at rest no\n  settled no\n")?;
    let whole = [committed, commits].concat();
    let end = "end\n  object 7 version 1 value 500 nodes 439 by 4/1 replay 500\n  at rest yes\n  settled yes\n";
    ends_with(child, &whole, end)?;
    // The second booking is given up once node 0 holds its copy: what it would have written has left no name.
    let again: Vec<String> = open.iter().map(|line| line.replace("begin 4 1", "begin 4 2").replace("500", "9")).collect();
    let given_up = [whole, again, votes[..3].to_vec(), vec![String::from("abort 4")]].concat();
    ends_with(child, &given_up, &end.replace("rest yes", "rest no"))?;
    Ok(String::from("4 endings"))
}

/// A batch of 4,096 weights, and of one more.
fn full_batch(child: &Child) -> Result<(), String> {
    let sixteen = format!("list{}", " 1999".repeat(LINE_NUMBERS));
    let mut lines = vec![("list 0 1 7", ""), ("classes 4", "ok")];
    lines.extend(vec![(&sixteen[..], ""); LIST_NUMBERS / LINE_NUMBERS]);
    lines.extend([("list 0", ""), ("batch 4 1 8191", "3 garbled")]);
    lines.extend(vec![(&sixteen[..], ""); LIST_NUMBERS / LINE_NUMBERS]);
    lines.extend([("batch 4 1 8191", "ok quorum 1"), ("abort 4", "ok")]);
    let (text, expected) = printed(&lines, "end\n  waiting 4 0\n  at rest no\n  settled yes\n");
    known(child, &text, &expected)
}

/// A list of 4,097 numbers, and of one more.
fn full_list(child: &Child) -> Result<(), String> {
    let sixteen = format!("list{}", " 1".repeat(LINE_NUMBERS));
    let mut lines = vec![(&sixteen[..], ""); LIST_NUMBERS / LINE_NUMBERS];
    lines.extend([("list 1 1", "bad"), (&sixteen, "bad"), ("list 1", ""), ("list 1", "bad"), ("list", ""), ("list 1", ""), ("list", "")]);
    lines.extend(vec![(&sixteen[..], ""); LIST_NUMBERS / LINE_NUMBERS]);
    lines.extend([("list 1", ""), ("hours 4", "1 length"), (&sixteen, ""), ("list 1 1", "")]);
    let (text, expected) = printed(&lines, END);
    known(child, &text, &expected)
}

/// The stored scenarios: what is stored beside each is what the program prints and what the model prints.
fn stored(child: &Child) -> Verdict {
    let folder = fs::read_dir(STORED).map_err(|error| format!("{STORED}: {error}"))?;
    let paths: Vec<PathBuf> = folder.flatten().map(|entry| entry.path()).collect();
    let mut names: Vec<&PathBuf> = paths.iter().filter(|path| path.extension().is_some_and(|end| end == "txt")).collect();
    names.sort();
    let mut read = 0;
    for path in &names {
        let bytes = |path: &Path| fs::read(path).map_err(|error| format!("{}: {error}", path.display()));
        let (text, expected) = (bytes(path)?, bytes(&path.with_extension("out"))?);
        let named = |wrong: String| format!("{}: {wrong}", path.display());
        same(child, &text, Feed::File, &expected).map_err(named)?;
        let modelled = output(&text).map_err(named)?;
        ensure!(modelled == expected, "{}", named(difference(&expected, &modelled)));
        ensure!(lines(&text).iter().all(|line| read_line(line) != Line::Bad), "{}: a bad line", path.display());
        read += lines(&text).len();
    }
    ensure!(names.len() >= 15 && read > 2100, "{} scenarios of {read} lines are too few", names.len());
    Ok(format!("{} scenarios, {read} lines", names.len()))
}

/// The program's sample: what is stored is what the program prints and what the model prints, and it commits.
fn sample(child: &Child) -> Verdict {
    let [text, expected] = SAMPLE.map(|path| fs::read(path).map_err(|error| format!("{path}: {error}")));
    let (text, expected) = (text?, expected?);
    same(child, &text, Feed::File, &expected)?;
    let modelled = output(&text)?;
    ensure!(modelled == expected, "{}", difference(&expected, &modelled));
    let printed = lines(&expected);
    for line in ["  ok committed", "  ok finished", "  at rest yes", "  settled yes"] {
        ensure!(printed.contains(&line.as_bytes()), "no line {line:?}");
    }
    Ok(format!("{} lines", lines(&text).len()))
}

/// Lines of each kind, with each of the 256 bytes put in at each place and put in place of each of their bytes.
fn every_byte(child: &Child) -> Verdict {
    let good: [&[u8]; 13] = [
        b"begin 4 10 8191",
        b"reselect 12 8191 65535 9 1 1 1 1 1 1 1 1 1 1 1",
        b"set 4 127 -9223372036854775808",
        b"send 4 0 127",
        b"keep 255",
        b"blank 8191",
        b"write 4 127 # a-1",
        b"off 12",
        b"hours 4",
        b"clock 4294967295 10079",
        b"list 1 360 840 0",
        b"classes 4",
        b"batch 4 10 8191",
    ];
    let mut text = Vec::new();
    for line in good {
        for byte in 0..=255 {
            for at in 0..=line.len() {
                let (front, back) = line.split_at(at);
                text.extend([front, &[byte], back, b"\n"].concat());
                if !back.is_empty() {
                    text.extend([front, &[byte], &back[1..], b"\n"].concat());
                }
            }
        }
    }
    same(child, &text, Feed::Pipe, &output(&text)?)?;
    let all = lines(&text);
    let bad = all.iter().filter(|line| read_line(line) == Line::Bad).count();
    ensure!(all.len() > 60_000 && bad > 50_000 && all.len() - bad > 3000, "{} lines, {bad} of them bad, are too poor", all.len());
    Ok(format!("{} lines, {bad} of them bad", all.len()))
}

/// What the random texts had.
#[derive(Default)]
struct Counts {
    seen: Seen,
    scenarios: usize,
    quiet: usize,
    refused_blanks: usize,
    full_lines: usize,
    /// Values that were set: below 0, the lowest and the highest.
    negative: usize,
    extreme: usize,
    measured: usize,
    unmeasured: usize,
    clocks: usize,
    lists: usize,
    /// Lines of `hours`, `classes` and `batch` that are bad because a number of the list is too wide.
    wide: usize,
    bad: BTreeMap<&'static str, usize>,
    /// Scenarios' ends: at rest or not, settled or not.
    ends: BTreeMap<(bool, bool), usize>,
    /// Objects in ends that a transaction wrote last, and that are still nobody's.
    written: usize,
    unwritten: usize,
    bytes: usize,
}

/// A text that is being made, beside the model that takes its lines.
struct Writer<'a> {
    text: Vec<u8>,
    program: Program,
    counts: &'a mut Counts,
}

impl Writer<'_> {
    fn new(counts: &mut Counts) -> Writer<'_> {
        Writer { text: vec![], program: Program::new(), counts }
    }

    /// A line, which the model takes.
    fn line(&mut self, line: &[u8]) -> Result<Taken, String> {
        self.text.extend(line);
        self.text.push(b'\n');
        self.counts.full_lines += usize::from(line.len() == LONGEST);
        self.program.take(line)
    }

    /// A line that must be taken so.
    fn must(&mut self, random: &mut Random, words: &[String], taken: Taken) -> Result<(), String> {
        let line = texts::dressed(random, words);
        ensure!(self.line(&line)? == taken, "the model takes {:?} otherwise than made", String::from_utf8_lossy(&line));
        Ok(())
    }

    /// The clock that a begin needs, where it is another, and now and then again.
    fn clock(&mut self, random: &mut Random, clock: (u32, u16)) -> Result<(), String> {
        if self.program.clock() == clock && !random.once_in(8) {
            return Ok(());
        }
        self.counts.clocks += 1;
        self.must(random, &[String::from("clock"), clock.0.to_string(), clock.1.to_string()], Taken::Clock)
    }

    /// The list that a load needs, in some lines.
    fn list(&mut self, random: &mut Random, numbers: &[u32]) -> Result<(), String> {
        if !self.program.list().is_empty() || random.once_in(8) {
            self.must(random, &[String::from("list")], Taken::List)?;
        }
        for words in texts::list_lines(random, numbers) {
            self.counts.lists += 1;
            self.must(random, &words, Taken::List)?;
        }
        ensure!(self.program.list() == numbers, "the list is another");
        Ok(())
    }

    /// A list with a number that is too wide for its place, which no `hours`, `classes` or `batch` takes.
    fn too_wide(&mut self, random: &mut Random) -> Result<(), String> {
        let (byte, word) = (256 + random.next() as u32 % 1000, 65_536 + random.next() as u32 % 70_000);
        let hours = [vec![byte], vec![byte, 0, 0], vec![1, word, 9, 0], vec![1, 5, word], vec![0, byte], vec![1, 5, 9, byte, 7]];
        let classes = [vec![byte], vec![1, word], vec![1, word, 2, 5, 6], vec![0, byte], vec![1, 9, byte], vec![1, 9, 2, 5, byte]];
        let weights = [vec![word], vec![37, word], vec![word, 37, 64]];
        let (words, list, laid) = match random.below(3) {
            0 => (["hours", "4"].to_vec(), random.pick(&hours).clone(), laid as fn(&[u32]) -> Option<Vec<u8>>),
            1 => (["classes", "4"].to_vec(), random.pick(&classes).clone(), laid_classes as fn(&[u32]) -> Option<Vec<u8>>),
            _ => (["batch", "4", "1", "8191"].to_vec(), random.pick(&weights).clone(), laid_weights as fn(&[u32]) -> Option<Vec<u8>>),
        };
        ensure!(laid(&list).is_none(), "{list:?} is laid");
        self.list(random, &list)?;
        let words: Vec<String> = words.into_iter().map(String::from).collect();
        for _ in 0..=random.below(2) {
            self.must(random, &words, Taken::Bad)?;
            self.counts.wide += 1;
        }
        ensure!(self.program.list() == list, "the list does not stay");
        Ok(())
    }

    /// A step in some form; the model must read it as that step.
    fn step(&mut self, random: &mut Random, step: Step) -> Result<(), String> {
        let step = with_extremes(random, step);
        let Some(words) = texts::words_of(random, &step) else { return Ok(()) };
        let numbers = match &step {
            Step::Load { list, .. } => texts::hours_of(list),
            Step::LoadClasses { list, .. } => texts::classes_of(list),
            Step::Host { call: Call::Batch { list, .. }, .. } => texts::weights_of(list),
            _ => Some(vec![]),
        };
        let Some(numbers) = numbers else { return Ok(()) };
        if let Step::Host { call: Call::Begin { day, minute, .. } | Call::Batch { day, minute, .. }, .. } = &step {
            self.clock(random, (*day, *minute))?;
        }
        if let Step::Load { .. } | Step::LoadClasses { .. } | Step::Host { call: Call::Batch { .. }, .. } = &step {
            self.list(random, &numbers)?;
        }
        let before = self.program.station().clone();
        let line = texts::dressed(random, &words);
        let Taken::Step(event) = self.line(&line)? else {
            return Err(format!("the model takes {:?} otherwise than made", String::from_utf8_lossy(&line)));
        };
        ensure!(event.step == step, "the model reads {:?} as {:?}", String::from_utf8_lossy(&line), event.step);
        self.counts.seen.count(&before, &event);
        self.counts.seen.count_more(&before, &event, self.program.station());
        match step {
            Step::Host { call: Call::SetValue { value, .. }, .. } => {
                self.counts.negative += usize::from(value < 0);
                self.counts.extreme += usize::from(value == i64::MIN || value == i64::MAX);
            }
            Step::Host { call: Call::Begin { .. } | Call::Reselect { .. }, .. } if words.len() > 13 => self.counts.measured += 1,
            Step::Host { call: Call::Begin { .. } | Call::Reselect { .. }, .. } => self.counts.unmeasured += 1,
            _ => {}
        }
        Ok(())
    }

    /// A line that is no step: it says nothing, it is bad, or it is a `blank` that is refused.
    fn other(&mut self, random: &mut Random) -> Result<(), String> {
        if random.once_in(3) {
            let line = texts::quiet_line(random);
            ensure!(self.line(&line)? == Taken::Nothing, "{:?} says something", String::from_utf8_lossy(&line));
            self.counts.quiet += 1;
        } else if random.once_in(6) {
            let mask = 8192 + random.below(65_536 - 8192);
            let line = texts::dressed(random, &[String::from("blank"), mask.to_string()]);
            ensure!(self.line(&line)? == Taken::Blank(true), "{:?} is taken", String::from_utf8_lossy(&line));
            self.counts.refused_blanks += 1;
        } else if random.once_in(10) {
            self.too_wide(random)?;
        } else {
            let style = some_style(random);
            let some = next_step(random, self.program.station(), &style);
            let words = texts::words_of(random, &some).unwrap_or_else(|| vec![String::from("ask"), String::from("4")]);
            let (name, line) = texts::bad_line(random, words);
            ensure!(self.line(&line)? == Taken::Bad, "{name}: {:?} is taken", String::from_utf8_lossy(&line));
            *self.counts.bad.entry(name).or_insert(0) += 1;
        }
        Ok(())
    }

    /// A scenario of some length, brought to rest at its end or not.
    fn scenario(&mut self, random: &mut Random, style: &Style) -> Result<(), String> {
        let on = if random.once_in(4) { random.word() & ALL } else { ALL };
        let line = texts::dressed(random, &[String::from("blank"), on.to_string()]);
        ensure!(self.line(&line)? == Taken::Blank(false), "no new scenario");
        self.counts.seen.start();
        self.counts.scenarios += 1;
        for _ in 0..*random.pick(&[0, 20, 200, 500, 900]) {
            if random.once_in(20) {
                self.other(random)?;
            }
            let step = next_step(random, self.program.station(), style);
            self.step(random, step)?;
        }
        let closes = random.once_in(2);
        for _ in 0..5000 {
            match closing_step(random, self.program.station()).filter(|_| closes) {
                Some(step) => self.step(random, step)?,
                None => break,
            }
        }
        Ok(())
    }

    /// The text, its last line with or without its newline, and what the program must print for it.
    fn complete(mut self, random: &mut Random) -> (Vec<u8>, Vec<u8>) {
        self.program.end();
        if random.once_in(2) && self.text.len() > 1 && !self.text.ends_with(b"\n\n") {
            self.text.pop();
        }
        for &end in &self.program.ends {
            *self.counts.ends.entry(end).or_insert(0) += 1;
        }
        let shown = lines(&self.program.printed).into_iter().filter(|line| line.starts_with(b"  object "));
        let (unwritten, written): (Vec<&[u8]>, Vec<&[u8]>) = shown.partition(|line| line.windows(6).any(|part| part == b" by - "));
        self.counts.written += written.len();
        self.counts.unwritten += unwritten.len();
        self.counts.bytes += self.text.len();
        (self.text, self.program.printed)
    }
}

/// Little goes wrong, so that many transactions commit.
fn calm(mut style: Style) -> Style {
    style.owners.truncate(3);
    (style.most, style.calm, style.ask, style.again) = (2, 30, 1, 40);
    (style.keep, style.lose, style.switch, style.abort, style.reselect, style.wild) = (40, 100, 400, 200, 100, 100);
    style
}

/// Transactions open many objects, up to one too many.
fn wide(style: Style) -> Style {
    Style { first: 0, objects: OBJECTS, most: 10, ask: 12, write: 2, ..calm(style) }
}

/// Few transactions wait for long with what they found, and fetches come again.
fn late(style: Style) -> Style {
    let mut style = Style { objects: 1, most: 1, switch: 400, abort: 200, ..style.lingering() };
    style.owners.truncate(4);
    style
}

/// Messages are sent again and again and wait, up to a full pool.
fn crowded(mut style: Style) -> Style {
    (style.calm, style.keep, style.again, style.lose) = (400, 2, 1, 400);
    style
}

/// Tables of packing hours come often, and transactions are begun again and again.
fn by_the_hour(style: Style) -> Style {
    Style { load: 12, abort: 2, ..calm(style) }
}

/// A step whose value is an extreme one, now and then, whose distances are all 1, or that switches or loads at a node that is not there.
fn with_extremes(random: &mut Random, mut step: Step) -> Step {
    let seldom = if let Step::Load { .. } | Step::LoadClasses { .. } = step { 12 } else { 40 };
    if let Step::Switch { node, .. } | Step::Load { node, .. } | Step::LoadClasses { node, .. } = &mut step {
        *node = if random.once_in(seldom) { 13 + random.below(243) as u8 } else { *node };
    }
    let Step::Host { call, .. } = &mut step else { return step };
    match call {
        Call::SetValue { value, .. } if random.once_in(3) => {
            *value = *random.pick(&[i64::MIN, i64::MAX, i64::MIN + 1, -1, 0, 1, -500, 500]);
        }
        Call::Begin { distances, .. } | Call::Reselect { distances, .. } if random.once_in(3) => *distances = texts::ones(),
        // A line has no distances for a batch.
        Call::Batch { distances, .. } => *distances = texts::ones(),
        _ => {}
    }
    step
}

impl Counts {
    /// The rarest case, number of a step, kind of damage and kind of end.
    fn rarest(&self) -> (String, usize) {
        let reached: [&[usize]; 7] = [
            &[0, 3, 4, 5, 6, 7, 8, 10, 11, 13],
            &[0, 4, 5, 6, 12],
            &[0, 5, 12],
            &[0, 5],
            &[0, 4],
            &[0, 1, 2, 4, 5],
            &[0, 1, 4, 5, 6, 10, 14, 15],
        ];
        // Too rare for a floor: a newer copy that comes too late, which the stored scenario of the slips has, and these of the batches, which that of the
        // weight classes has.
        let rare = [Case::LateNewer, Case::BatchGivenUp, Case::BatchAgain, Case::ClassesOverTenths, Case::ClassesRefused];
        let cases = Case::ALL.into_iter().filter(|case| !rare.contains(case)).map(|case| (format!("{case:?}"), self.seen.of(case)));
        let numbers = (0..STEPS.len()).flat_map(|step| reached[step].iter().map(move |&number| (step, number)));
        let numbers = numbers.map(|(step, number)| (format!("step {step} number {number}"), self.seen.numbers[step][number]));
        let bad = texts::DAMAGES.iter().map(|it| (String::from(it.name), self.bad.get(it.name).copied().unwrap_or(0)));
        // At rest, every done is in: no scenario ends at rest and not settled.
        let ends =
            [(false, false), (false, true), (true, true)].map(|end| (format!("end {end:?}"), self.ends.get(&end).copied().unwrap_or(0)));
        cases.chain(numbers).chain(bad).chain(ends).min_by_key(|(_, count)| *count).expect("some case")
    }

    fn words(&self) -> String {
        let (case, least) = self.rarest();
        let [called, voted, yielded] = self.seen.aborts();
        let bad: usize = self.bad.values().sum();
        format!(
            "{} scenarios, {} bytes, {} steps, {} committed; aborted: {called} by a call, {voted} by a no, {yielded} by a yield; {}; \
             {bad} bad lines of {} kinds, {} that say nothing, {} refused blanks, {} of 160 bytes; {} negative values, {} extreme; \
             distances {} times, none {} times; {} clocks, {} lists, {} too wide; ends (at rest, settled) {:?}, \
             {} objects by a transaction, {} by nobody; the rarest ({case}) {least} times",
            self.scenarios,
            self.bytes,
            self.seen.steps(),
            self.seen.of(Case::Committed),
            crate::checks::station::seen::numbers_in_words(&self.seen.numbers),
            self.bad.len(),
            self.quiet,
            self.refused_blanks,
            self.full_lines,
            self.negative,
            self.extreme,
            self.measured,
            self.unmeasured,
            self.clocks,
            self.lists,
            self.wide,
            self.ends,
            self.written,
            self.unwritten
        )
    }
}

/// Random scenarios, many in one text, with bad lines between their steps: conflicts, repeats, losses, switches and refusals.
fn random_scenarios(child: &Child, random: &mut Random, rounds: usize) -> Verdict {
    let mut counts = Counts::default();
    for text in 0..44 * rounds {
        let mut writer = Writer::new(&mut counts);
        for _ in 0..=text % 10 {
            let point = *random.pick(&[
                |style| style,
                late,
                Style::slow_votes,
                calm,
                calm,
                wide,
                crowded,
                by_the_hour,
                Style::weighing,
                Style::weighing,
            ]);
            let style = point(some_style(random));
            writer.scenario(random, &style)?;
        }
        let (text, expected) = writer.complete(random);
        let feed = if random.once_in(2) { Feed::Pipe } else { Feed::File };
        same(child, &text, feed, &expected)?;
    }
    let counted = counts.words();
    let rich = [
        (counts.seen.steps(), 40_000),
        (counts.seen.of(Case::Committed), 150),
        (counts.scenarios, 150),
        (counts.quiet, 500),
        (counts.refused_blanks, 200),
        (counts.full_lines, 500),
        (counts.negative, 500),
        (counts.extreme, 80),
        (counts.measured.min(counts.unmeasured), 200),
        (counts.clocks, 500),
        (counts.lists, 200),
        (counts.wide, 20),
        (counts.written, 100),
        (counts.rarest().1, 1),
    ];
    ensure!(rich.iter().all(|&(count, floor)| count >= floor * rounds), "too poor: {counted}");
    Ok(counted)
}

/// Texts through a pipe in pieces of random sizes.
fn small_pieces(child: &Child, random: &mut Random, rounds: usize) -> Verdict {
    let mut counts = Counts::default();
    for _ in 0..4 * rounds {
        let mut writer = Writer::new(&mut counts);
        let style = some_style(random);
        for _ in 0..300 {
            let step = next_step(random, writer.program.station(), &style);
            writer.step(random, step)?;
        }
        let (text, expected) = writer.complete(random);
        let most = 1 + random.below(30);
        let sizes: Vec<usize> = (0..text.len()).map(|_| 1 + random.below(most)).collect();
        same(child, &text, Feed::Pieces(&sizes), &expected)?;
    }
    ensure!(counts.seen.steps() > 1000, "{} steps are too few", counts.seen.steps());
    Ok(format!("{} steps, {} bytes", counts.seen.steps(), counts.bytes))
}
