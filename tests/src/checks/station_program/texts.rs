//! Lines of scenarios: a step in any of the ways in which it may be written, lines that say nothing, and every kind of damage.

use crate::model::classes::read_weights;
use crate::model::coordinator::Call;
use crate::model::message::READ;
use crate::model::quorum::NODES;
use crate::model::script::{LINE_NUMBERS, LIST_NUMBERS, LONGEST};
use crate::model::station::Step;
use crate::random::Random;

/// The distances that a line leaves out.
const ONES: [u16; NODES] = [1; NODES];

/// Thirteen distances of 1, as bytes.
pub fn ones() -> Vec<u8> {
    ONES.iter().flat_map(|one| one.to_le_bytes()).collect()
}

/// The words of a host call; none where its distances are not thirteen.
fn words_of_call(random: &mut Random, node: u8, call: &Call) -> Option<Vec<String>> {
    let line = match call {
        Call::Begin { live, timestamp, .. } => format!("begin {node} {timestamp} {live}"),
        // A line has no distances for a batch: each is 1.
        Call::Batch { live, timestamp, distances, .. } if *distances == ones() => format!("batch {node} {timestamp} {live}"),
        Call::Batch { .. } => return None,
        Call::Open { object, mode: READ } => format!("read {node} {object}"),
        Call::Open { object, .. } => format!("write {node} {object}"),
        Call::SetValue { object, value } => format!("set {node} {object} {value}"),
        Call::Found { object } => format!("found {node} {object}"),
        Call::Reselect { live, .. } => format!("reselect {node} {live}"),
        Call::RequestCommit => format!("ask {node}"),
        Call::Abort => format!("abort {node}"),
    };
    let mut words: Vec<String> = line.split(' ').map(String::from).collect();
    if let Call::Begin { distances, .. } | Call::Reselect { distances, .. } = call {
        let list: Vec<u16> = distances.chunks(2).map(|two| u16::from_le_bytes([two[0], *two.get(1).unwrap_or(&0)])).collect();
        if call.misfits() {
            return None;
        }
        if list != ONES || random.once_in(2) {
            words.extend(list.iter().map(u16::to_string));
        }
    }
    Some(words)
}

/// The words of a step; none where a line cannot say it. The clock of a begin or a batch and the list of a load or a batch stand in lines before it.
pub fn words_of(random: &mut Random, step: &Step) -> Option<Vec<String>> {
    let line = match step {
        Step::Host { node, call } => return words_of_call(random, *node, call),
        Step::Load { node, .. } => format!("hours {node}"),
        Step::LoadClasses { node, .. } => format!("classes {node}"),
        Step::Send { node, to, object } => format!("send {node} {to} {object}"),
        Step::Deliver { at, kept: false } => format!("deliver {at}"),
        Step::Deliver { at, kept: true } => format!("keep {at}"),
        Step::Drop { at } => format!("drop {at}"),
        Step::Switch { node, on: true } => format!("on {node}"),
        Step::Switch { node, on: false } => format!("off {node}"),
    };
    Some(line.split(' ').map(String::from).collect())
}

/// The numbers of bytes that have so many each, by their places; none where they end within one.
fn numbers_by(bytes: &[u8], width: impl Fn(usize) -> usize) -> Option<Vec<u32>> {
    let (mut numbers, mut rest) = (Vec::new(), bytes);
    while !rest.is_empty() {
        let (number, behind) = rest.split_at_checked(width(numbers.len()))?;
        numbers.push(number.iter().rev().fold(0, |sum, &byte| sum << 8 | u32::from(byte)));
        rest = behind;
    }
    Some(numbers)
}

/// The list of a table of packing hours that is laid as these bytes; none where no list is.
pub fn hours_of(bytes: &[u8]) -> Option<Vec<u32>> {
    let last_of_windows = 2 * bytes.first().map_or(0, |&count| usize::from(count));
    numbers_by(bytes, |place| match place {
        0 => 1,
        _ if place <= last_of_windows => 2,
        _ if place == last_of_windows + 1 => 1,
        _ => 4,
    })
}

/// The same of a table of weight classes.
pub fn classes_of(bytes: &[u8]) -> Option<Vec<u32>> {
    let last_of_bounds = bytes.first().map_or(0, |&count| usize::from(count));
    numbers_by(bytes, |place| if place == 0 || place > last_of_bounds { 1 } else { 2 })
}

/// The same of a batch, whose count is not in the list; none also where there are more weights than a list has numbers.
pub fn weights_of(bytes: &[u8]) -> Option<Vec<u32>> {
    let weights = read_weights(bytes).ok().filter(|weights| weights.len() <= LIST_NUMBERS)?;
    Some(weights.into_iter().map(u32::from).collect())
}

/// `list` lines, in words, for some numbers: as many to a line as it may have, or fewer.
pub fn list_lines(random: &mut Random, numbers: &[u32]) -> Vec<Vec<String>> {
    let mut lines: Vec<Vec<String>> = Vec::new();
    let most = 1 + random.below(LINE_NUMBERS);
    for number in numbers {
        let word = number.to_string();
        let full = |line: &Vec<String>| line.len() > most || joined(line).len() + 1 + word.len() > LONGEST;
        if lines.last().is_none_or(full) {
            lines.push(vec![String::from("list")]);
        }
        lines.last_mut().expect("a line").push(word);
    }
    lines
}

/// Any bytes but the newline.
fn some_bytes(random: &mut Random, most: usize) -> Vec<u8> {
    let length = random.below(most + 1);
    random.bytes(length).into_iter().map(|byte| if byte == b'\n' { b' ' } else { byte }).collect()
}

/// Whether a word is a number.
fn is_number(word: &str) -> bool {
    word.bytes().all(|byte| byte == b'-' || byte.is_ascii_digit())
}

/// A number in another form of the same value: zeros before it, or a `-` before a 0.
fn other_form(random: &mut Random, word: &str) -> String {
    let zeros = "0".repeat(1 + random.below(3));
    match (word, word.strip_prefix('-')) {
        ("0", _) => String::from("-0"),
        (_, Some(digits)) => format!("-{zeros}{digits}"),
        _ => format!("{zeros}{word}"),
    }
}

/// A line in a plain form, most often; else with more spaces, zeros before numbers, a comment of any bytes, or at its full length.
pub fn dressed(random: &mut Random, words: &[String]) -> Vec<u8> {
    let plain = words.join(" ").into_bytes();
    if !random.once_in(4) {
        return plain;
    }
    let mut line = b" ".repeat(random.below(3));
    for (at, word) in words.iter().enumerate() {
        let word = if is_number(word) && random.once_in(4) { other_form(random, word) } else { word.clone() };
        line.extend(if at > 0 { b" ".repeat(1 + random.below(4) / 3) } else { vec![] });
        line.extend(word.bytes());
    }
    line.extend(b" ".repeat(random.below(3)));
    if random.once_in(3) {
        line.push(b'#');
        line.extend(some_bytes(random, 30));
    }
    if random.once_in(6) && line.len() < LONGEST {
        line.resize(LONGEST, b' ');
    }
    if line.len() > LONGEST {
        plain
    } else {
        line
    }
}

/// A line that says nothing: empty, spaces, or a comment; of its full length too.
pub fn quiet_line(random: &mut Random) -> Vec<u8> {
    match random.below(5) {
        0 => Vec::new(),
        1 => b" ".repeat(random.below(LONGEST + 1)),
        2 => b"#".repeat(LONGEST),
        3 => b"# begin 4 1 8191".to_vec(),
        _ => [b"  #", &some_bytes(random, LONGEST - 3)[..]].concat(),
    }
}

/// A way to make a line bad.
pub struct Damage {
    pub name: &'static str,
    make: fn(&mut Random, Vec<String>) -> Vec<u8>,
}

fn joined(words: &[String]) -> Vec<u8> {
    words.join(" ").into_bytes()
}

/// A good line with one of its numbers changed.
fn with_number(random: &mut Random, mut words: Vec<String>, change: impl Fn(&str) -> String) -> Vec<u8> {
    let at = 1 + random.below(words.len() - 1);
    words[at] = change(&words[at]);
    joined(&words)
}

/// A good line with a byte put in at any place.
fn with_byte(random: &mut Random, words: &[String], byte: u8) -> Vec<u8> {
    let mut line = joined(words);
    line.insert(random.below(line.len() + 1), byte);
    line
}

/// A line with a word and numbers of its own.
fn instead(random: &mut Random, lines: &[&str]) -> Vec<u8> {
    random.pick(lines).as_bytes().to_vec()
}

pub const DAMAGES: &[Damage] = &[
    Damage {
        name: "unknown word",
        make: |random, mut words| {
            let other = ["begi", "beginn", "open", "vote", "commit", "none", "x", "blanks", "re", "lost", "found7", "end", "ok", "takes"];
            let more =
                ["clocks", "cloc", "lists", "lis", "hour", "hourss", "table", "time", "class", "classess", "batc", "batchs", "weigh"];
            words[0] = String::from(*random.pick(&[&other[..], &more[..]].concat()));
            joined(&words)
        },
    },
    Damage {
        name: "a word of nine letters and more",
        make: |random, mut words| {
            words[0] = ["x", "reselects", "a"][random.below(3)].repeat(9);
            joined(&words)
        },
    },
    Damage {
        name: "a word that would be good but for its first letters",
        make: |random, mut words| {
            words[0] = format!("{}{}", "xblankwo".repeat(1 + random.below(2)), words[0]);
            joined(&words)
        },
    },
    Damage {
        name: "capital letter",
        make: |_, mut words| {
            words[0] = words[0].to_uppercase();
            joined(&words)
        },
    },
    Damage { name: "missing number", make: |_, words| joined(&words[..words.len() - 1 - usize::from(words.len() > 14)]) },
    Damage {
        name: "too long by its comment",
        make: |random, words| [&joined(&words)[..], b" #", &vec![b'x'; 161 + random.below(40)]].concat(),
    },
    Damage { name: "word alone", make: |_, words| words[0].clone().into_bytes() },
    Damage { name: "numbers alone", make: |_, words| joined(&words[1..]) },
    Damage { name: "word behind its numbers", make: |_, words| [&joined(&words[1..])[..], b" ", words[0].as_bytes()].concat() },
    Damage { name: "one number more", make: |_, words| [&joined(&words)[..], b" 1"].concat() },
    Damage { name: "a second word", make: |_, words| [&joined(&words)[..], b" ", words[0].as_bytes()].concat() },
    Damage { name: "two lines in one", make: |_, words| [&joined(&words)[..], b" ", &joined(&words)[..]].concat() },
    Damage { name: "many numbers", make: |random, words| [&joined(&words)[..], &b" 1".repeat(12 + random.below(30))].concat() },
    Damage {
        name: "distances, but not thirteen",
        make: |random, _| {
            let head = *random.pick(&["begin 4 1 8191", "reselect 4 8191"]);
            let count = *random.pick(&[1, 2, 11, 12, 14, 15, 26]);
            format!("{head}{}", " 1".repeat(count)).into_bytes()
        },
    },
    Damage {
        name: "distance above 65535",
        make: |random, _| {
            let mut list = [1u64; NODES];
            list[random.below(NODES)] = *random.pick(&[65_536, 65_537, 1 << 32, (1 << 63) - 1]);
            let head = *random.pick(&["begin 4 1 8191", "reselect 4 8191"]);
            format!("{head} {}", list.map(|number| number.to_string()).join(" ")).into_bytes()
        },
    },
    Damage {
        name: "negative distance",
        make: |random, _| {
            let mut list = [1; NODES];
            list[random.below(NODES)] = -1;
            format!("begin 4 1 8191 {}", list.map(|number: i32| number.to_string()).join(" ")).into_bytes()
        },
    },
    Damage {
        name: "above 8 bits",
        make: |random, _| {
            let lines = ["on 256", "off 260", "deliver 256", "keep 300", "drop 512", "read 256 1", "read 4 256", "write 4 263", "ask 260"];
            let more =
                ["abort 65540", "send 4 256 7", "send 4 0 263", "found 4 4294967303", "set 4 263 1", "set 260 7 1", "reselect 260 8191"];
            let tables = ["begin 260 1 8191", "hours 256", "hours 260", "classes 256", "classes 260", "batch 260 1 8191"];
            instead(random, &[&lines[..], &more[..], &tables[..]].concat())
        },
    },
    Damage {
        name: "above 16 bits",
        make: |random, _| {
            let lines =
                ["blank 65536", "blank 73727", "begin 4 1 65536", "begin 4 1 73727", "reselect 4 73727", "clock 0 65536", "clock 7 75615"];
            instead(random, &[&lines[..], &["batch 4 1 65536", "batch 4 1 73727"]].concat())
        },
    },
    Damage {
        name: "above 32 bits",
        make: |random, _| {
            let begins = ["begin 4 4294967296 8191", "begin 4 4294967300 8191", "batch 4 4294967296 8191"];
            instead(random, &[&begins[..], &["clock 4294967296 0", "list 4294967296", "list 0 0 4294967297", "list 8589934592 0"]].concat())
        },
    },
    Damage {
        name: "seventeen numbers in a list",
        make: |random, _| format!("list{}", " 7".repeat(LINE_NUMBERS + 1 + random.below(3) * random.below(20))).into_bytes(),
    },
    Damage {
        name: "a clock without its minute",
        make: |random, _| instead(random, &["clock", "clock 9", "clock 9 600 1", "clock 9 6 0 0"]),
    },
    Damage {
        name: "a batch or classes with other numbers",
        make: |random, _| {
            let lines = ["batch 4 1", "batch 4", "batch 4 1 8191 37", "classes", "classes 4 0 1 7", "classes 4 4"];
            let distances = format!("batch 4 1 8191{}", " 1".repeat(NODES));
            instead(random, &[&lines[..], &[&distances]].concat())
        },
    },
    Damage {
        name: "above 64 bits with a sign",
        make: |random, _| {
            let number = *random.pick(&["9223372036854775808", "-9223372036854775809", "18446744073709551616", "99999999999999999999"]);
            let longer = format!("{}{}", ["1", "-1"][random.below(2)], "0".repeat(19 + random.below(60)));
            format!("set 4 7 {}", [number, &longer][random.below(2)]).into_bytes()
        },
    },
    Damage {
        name: "negative where none may be",
        make: |random, _| {
            let lines = ["ask -1", "on -4", "blank -1", "begin 4 -1 8191", "begin 4 1 -1", "send 4 -1 7", "deliver -1", "set 4 -7 1"];
            let more = ["clock -1 0", "clock 0 -1", "list -1", "list 1 0 10080 -1", "hours -4", "classes -4", "batch 4 -1 8191"];
            instead(random, &[&lines[..], &more[..]].concat())
        },
    },
    Damage {
        name: "letter in a number",
        make: |random, words| {
            let letter = *random.pick(&["x", "e", "a", "O", "l", "_", ".", ",", "'"]);
            with_number(random, words, |word| format!("{word}{letter}1"))
        },
    },
    Damage { name: "minus alone", make: |random, words| with_number(random, words, |_| String::from("-")) },
    Damage { name: "two minus signs", make: |random, words| with_number(random, words, |word| format!("--{word}")) },
    Damage { name: "minus in a number", make: |random, words| with_number(random, words, |word| format!("{word}-1")) },
    Damage { name: "minus behind a number", make: |random, words| with_number(random, words, |word| format!("{word}-")) },
    Damage { name: "minus before a comment", make: |_, words| [&joined(&words)[..], b" -# 1"].concat() },
    Damage { name: "minus before the word", make: |_, words| [b"-", &joined(&words)[..]].concat() },
    Damage { name: "plus", make: |random, words| with_number(random, words, |word| format!("+{word}")) },
    Damage {
        name: "tab",
        make: |random, words| {
            let after = 1 + random.below(words.len() - 1);
            [&joined(&words[..after])[..], b"\t", &joined(&words[after..])].concat()
        },
    },
    Damage { name: "carriage return", make: |_, words| [&joined(&words)[..], b"\r"].concat() },
    Damage {
        name: "control byte",
        make: |random, words| {
            let byte = *random.pick(&[0, 1, 7, 8, 11, 12, 27, 31, 127]);
            with_byte(random, &words, byte)
        },
    },
    Damage {
        name: "byte above 127",
        make: |random, words| {
            let byte = 128 + random.below(128) as u8;
            with_byte(random, &words, byte)
        },
    },
    Damage {
        name: "beside the letters and digits",
        make: |random, words| {
            let byte = *random.pick(b"/:`{!\"$@[]");
            with_byte(random, &words, byte)
        },
    },
    Damage {
        name: "161 bytes",
        make: |_, words| {
            let mut line = joined(&words);
            line.resize(LONGEST + 1, b' ');
            line
        },
    },
    Damage { name: "161 spaces", make: |_, _| b" ".repeat(LONGEST + 1) },
    Damage {
        name: "161 bytes, the last of them a comment",
        make: |_, words| {
            let mut line = joined(&words);
            line.resize(LONGEST, b' ');
            line.push(b'#');
            line
        },
    },
    Damage { name: "161 bytes by zeros", make: |_, _| format!("on {:0>158}", 4).into_bytes() },
    Damage {
        name: "a very long line",
        make: |random, words| {
            let size = *random.pick(&[256, 1000, 5000, 40_000]);
            let filling = *random.pick(&[&b" "[..], b"0", b" 1", b"\xff", b"on 4 "]);
            [&filling.repeat(1 + size / filling.len())[..], b" ", &joined(&words)].concat()
        },
    },
    Damage { name: "bad before a comment", make: |_, words| [&joined(&words)[..], b" ? # fine"].concat() },
];

/// A bad line, and how it was made so from a good one.
pub fn bad_line(random: &mut Random, words: Vec<String>) -> (&'static str, Vec<u8>) {
    let damage = random.pick(DAMAGES);
    (damage.name, (damage.make)(random, words))
}
