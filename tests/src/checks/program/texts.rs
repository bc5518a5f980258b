//! Lines for the quorum program: good ones, and every kind of damage that makes a line bad.

use crate::checks::quorum::{some_asker, some_distances, some_live};
use crate::model::quorum::NODES;
use crate::random::Random;

/// How many words a good line has at least: a live mask and thirteen distances. It may have one more, the asker.
const FEWEST: usize = 1 + NODES;

/// The words of a good line, with an asker as often as without.
fn good_words(random: &mut Random) -> Vec<String> {
    let live = some_live(random);
    let distances = some_distances(random);
    let asker = random.once_in(2).then(|| u16::from(some_asker(random)));
    std::iter::once(live).chain(distances).chain(asker).map(|number| number.to_string()).collect()
}

fn joined(words: &[String]) -> Vec<u8> {
    words.join(" ").into_bytes()
}

pub fn good_line(random: &mut Random) -> Vec<u8> {
    joined(&good_words(random))
}

/// A way to make a good line bad.
pub struct Damage {
    pub name: &'static str,
    make: fn(&mut Random, Vec<String>) -> Vec<u8>,
}

/// A good line with a byte put in at any place.
fn with_byte(random: &mut Random, words: &[String], byte: u8) -> Vec<u8> {
    let mut line = joined(words);
    line.insert(random.below(line.len() + 1), byte);
    line
}

/// A good line with another text in place of one of its spaces.
fn with_gap(random: &mut Random, words: &[String], gap: &[u8]) -> Vec<u8> {
    let after = 1 + random.below(words.len() - 1);
    [&joined(&words[..after])[..], gap, &joined(&words[after..])].concat()
}

/// A good line with one of its words changed.
fn with_word(random: &mut Random, mut words: Vec<String>, change: impl Fn(&str) -> String) -> Vec<u8> {
    let at = random.below(words.len());
    words[at] = change(&words[at]);
    joined(&words)
}

/// A good line with this word for its asker, and more words behind it.
fn with_asker(words: &[String], asker: impl ToString, more: &[&str]) -> Vec<u8> {
    let mut line = words[..FEWEST].to_vec();
    line.push(asker.to_string());
    line.extend(more.iter().map(|word| String::from(*word)));
    joined(&line)
}

/// A good line in which one number has a power of two added to it, so that it is the same number where that is lost.
fn with_added(random: &mut Random, words: Vec<String>, bits: u32) -> Vec<u8> {
    with_word(random, words, |word| (word.parse::<u128>().expect("a number") + (1 << bits)).to_string())
}

/// The same for 2^128, whose decimal form is these two parts.
fn with_added_128(random: &mut Random, words: Vec<String>) -> Vec<u8> {
    with_word(random, words, |word| {
        let low: u32 = 768_211_456 + word.parse::<u32>().expect("a number");
        format!("340282366920938463463374607431{low}")
    })
}

pub const DAMAGES: &[Damage] = &[
    Damage { name: "two spaces", make: |random, words| with_gap(random, &words, b"  ") },
    Damage { name: "many spaces", make: |random, words| with_gap(random, &words, b"          ") },
    // Without its asker: two numbers of fifteen that become one may be a good line.
    Damage { name: "no space", make: |random, words| with_gap(random, &words[..FEWEST], b"") },
    Damage { name: "leading space", make: |_, words| [b" ", &joined(&words)[..]].concat() },
    Damage { name: "trailing space", make: |_, words| [&joined(&words)[..], b" "].concat() },
    Damage { name: "tab for a space", make: |random, words| with_gap(random, &words, b"\t") },
    Damage { name: "tab beside a space", make: |random, words| with_gap(random, &words, b" \t") },
    Damage { name: "comma for a space", make: |random, words| with_gap(random, &words, b",") },
    Damage {
        name: "other blank for a space",
        make: |random, words| {
            let blank = *random.pick(&[&b"\x0b"[..], b"\x0c", b"\xa0", b"\xc2\xa0", b"\xe2\x80\x83", b"\0", b"\r"]);
            with_gap(random, &words, blank)
        },
    },
    Damage { name: "empty word", make: |random, words| with_word(random, words, |_| String::new()) },
    Damage { name: "leading zero", make: |random, words| with_word(random, words, |word| format!("0{word}")) },
    Damage { name: "many leading zeros", make: |random, words| with_word(random, words, |word| format!("{word:0>300}")) },
    Damage { name: "plus", make: |random, words| with_word(random, words, |word| format!("+{word}")) },
    Damage { name: "minus", make: |random, words| with_word(random, words, |word| format!("-{word}")) },
    Damage {
        name: "letter",
        make: |random, words| {
            let letter = *random.pick(b"abcdefxzABCDEFXZ_");
            with_byte(random, &words, letter)
        },
    },
    Damage {
        name: "beside the digits",
        make: |random, words| {
            let byte = *random.pick(b"/:");
            with_byte(random, &words, byte)
        },
    },
    Damage { name: "other digits", make: |random, words| with_word(random, words, |_| String::from("\u{661}\u{ff11}")) },
    Damage {
        name: "other forms",
        make: |random, words| {
            let form = *random.pick(&["1.0", "1e3", "0x10", "1_000", "1,000", "1'000", "\"1\"", "(1)", "-", "+", "NaN", "bad"]);
            with_word(random, words, |_| String::from(form))
        },
    },
    Damage { name: "carriage return", make: |_, words| [&joined(&words)[..], b"\r"].concat() },
    Damage { name: "NUL", make: |random, words| with_byte(random, &words, 0) },
    Damage {
        name: "byte above 127",
        make: |random, words| {
            let byte = 128 + random.below(128) as u8;
            with_byte(random, &words, byte)
        },
    },
    Damage {
        name: "mask 8192",
        make: |_, mut words| {
            words[0] = String::from("8192");
            joined(&words)
        },
    },
    Damage {
        name: "mask above 8192",
        make: |random, mut words| {
            words[0] = (8193 + random.below(70_000)).to_string();
            joined(&words)
        },
    },
    Damage {
        name: "distance 65536",
        make: |random, mut words| {
            words[1 + random.below(NODES)] = String::from("65536");
            joined(&words)
        },
    },
    Damage {
        name: "distance above 65536",
        make: |random, mut words| {
            words[1 + random.below(NODES)] = (65537 + random.below(1_000_000)).to_string();
            joined(&words)
        },
    },
    Damage { name: "2^16 more", make: |random, words| with_added(random, words, 16) },
    Damage { name: "2^32 more", make: |random, words| with_added(random, words, 32) },
    Damage { name: "2^63 more", make: |random, words| with_added(random, words, 63) },
    Damage { name: "2^64 more", make: |random, words| with_added(random, words, 64) },
    Damage { name: "2^128 more", make: with_added_128 },
    Damage {
        name: "many digits",
        make: |random, words| {
            let digits = 7 + random.below(400);
            let ninth = b"123456789"[random.below(9)] as char;
            with_word(random, words, |_| ninth.to_string().repeat(digits))
        },
    },
    Damage {
        name: "power of ten",
        make: |random, words| {
            let zeros = *random.pick(&[5, 9, 10, 16, 19, 20, 32, 64, 128, 256]);
            with_word(random, words, |_| format!("1{}", "0".repeat(zeros)))
        },
    },
    Damage { name: "thirteen numbers", make: |_, words| joined(&words[..NODES]) },
    Damage { name: "asker 13", make: |_, words| with_asker(&words, 13, &[]) },
    Damage { name: "asker above 13", make: |random, words| with_asker(&words, 14 + random.below(70_000), &[]) },
    Damage { name: "asker 2^8 more", make: |random, words| with_asker(&words, 256 + random.below(NODES), &[]) },
    Damage { name: "asker with a leading zero", make: |random, words| with_asker(&words, format!("0{}", random.below(NODES)), &[]) },
    Damage { name: "empty asker", make: |_, words| with_asker(&words, "", &[]) },
    Damage { name: "empty asker and one", make: |_, words| with_asker(&words, "", &["3"]) },
    Damage { name: "space behind the asker", make: |random, words| with_asker(&words, some_asker(random), &[""]) },
    Damage { name: "sixteen numbers", make: |random, words| with_asker(&words, some_asker(random), &["1"]) },
    Damage { name: "few numbers", make: |random, words| joined(&words[..1 + random.below(NODES - 1)]) },
    Damage { name: "two lines in one", make: |_, words| [&joined(&words)[..], b" ", &joined(&words)].concat() },
    Damage {
        name: "256 numbers more",
        make: |_, words| {
            let more = vec![String::from("1"); 256];
            [&joined(&words)[..], b" ", &joined(&more)].concat()
        },
    },
    Damage { name: "empty line", make: |_, _| Vec::new() },
    Damage {
        name: "any bytes",
        make: |random, _| {
            let length = 1 + random.below(60);
            std::iter::once(b'x').chain((0..length).map(|_| [b' ', b'0', b'1', b'9', 0, 255, b'-'][random.below(7)])).collect()
        },
    },
];

/// A line, good as often as damaged, and how it was damaged.
pub fn some_line(random: &mut Random) -> (Option<&'static str>, Vec<u8>) {
    let words = good_words(random);
    if random.once_in(2) {
        return (None, joined(&words));
    }
    let damage = random.pick(DAMAGES);
    (Some(damage.name), (damage.make)(random, words))
}

/// A text of so many lines, each with its newline.
pub fn some_text(random: &mut Random, lines: usize) -> Vec<u8> {
    let mut text = Vec::new();
    for _ in 0..lines {
        text.extend(some_line(random).1);
        text.push(b'\n');
    }
    text
}

/// Lines of exactly so many bytes in all: random ones, then one bad line that fills up.
pub fn filled(random: &mut Random, length: usize) -> Vec<u8> {
    let mut text = Vec::new();
    loop {
        let line = some_line(random).1;
        if text.len() + line.len() + 1 > length {
            break;
        }
        text.extend(line);
        text.push(b'\n');
    }
    if text.len() < length {
        text.resize(length - 1, b'x');
        text.push(b'\n');
    }
    text
}

/// Very long lines. All are bad, and none is a good line to a reader that loses a part of it or whose count wraps.
pub fn long_lines() -> Vec<Vec<u8>> {
    let good: &[u8] = b"8191 1 1 1 1 1 1 1 1 1 1 1 1 1";
    let mut lines = Vec::new();
    for size in [4096, 65_536, 100_000, 1_000_000] {
        for byte in [b"1", b"0", b" ", b"\0", b"\xff"] {
            let many = byte.repeat(size);
            lines.push([&many[..], good].concat());
            lines.push([good, &many[..]].concat());
            lines.push(many);
        }
        lines.push(good.repeat(size / good.len()));
        lines.push([good, b" "].concat().repeat(size / good.len()));
        lines.push([good, b"\r"].concat().repeat(size / good.len()));
        lines.push([b"8191 ", &b"1".repeat(size)[..], b" 1 1 1 1 1 1 1 1 1 1 1 1"].concat());
        lines.push([b"8191 ", &b"0".repeat(size)[..], b"1 1 1 1 1 1 1 1 1 1 1 1 1"].concat());
        lines.push([good, b" ", &b"1".repeat(size)[..]].concat());
        lines.push([good, b" ", &b"0".repeat(size)[..], b"3"].concat());
        lines.push([good, b" 3", &b" ".repeat(size)[..]].concat());
    }
    for count in [256 + 14, 256 + 15, 65_536 + 14, 65_536 + 15] {
        lines.push([b"8191", &b" 1".repeat(count - 1)[..]].concat());
    }
    lines
}
