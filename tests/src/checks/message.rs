//! Messages: the check of received bytes and the write calls, against the model.

mod damages;
pub mod records;
mod writers;

use crate::ffi;
use crate::model::message::{self as model, kind, Message, Rule, ENTRIES, LAST, LONGEST, READ, SHORTEST, WRITE};
use crate::model::number;
use crate::random::Random;
use crate::runner::{ensure, in_four_threads, Runner, Verdict};
use damages::DAMAGES;
use records::Style;
use std::collections::{BTreeMap, BTreeSet};

pub fn run(runner: &mut Runner) {
    runner.check("messages of known bytes", |_, _| known_bytes());
    runner.check("messages of every kind and count", every_shape);
    runner.check("messages with every byte changed", every_byte);
    runner.check("messages with two bytes changed", two_bytes);
    runner.check("messages of every length", every_length);
    runner.check("messages that break each rule", each_rule);
    runner.check("messages of changed records", changed_records);
    runner.check("messages of random bytes", random_bytes);
    runner.check("messages in four threads", threads);
    writers::run(runner);
}

/// How many messages were taken, and how many refused with 1 and with 3.
#[derive(Default)]
struct Seen {
    accepted: usize,
    length: usize,
    garbled: usize,
}

impl Seen {
    /// The library's number for some bytes, checked against the model's, with the lent bytes as they were.
    fn compare(&mut self, bytes: &[u8]) -> Result<u8, String> {
        let lent = bytes.to_vec();
        let got = ffi::check_message(&lent);
        let expected = model::check_call(bytes);
        ensure!(got == expected, "{}: {got}, but the model says {expected}", described(bytes));
        ensure!(lent == bytes, "the message {bytes:?} became {lent:?}");
        match got {
            number::OK => self.accepted += 1,
            number::LENGTH => self.length += 1,
            _ => self.garbled += 1,
        }
        Ok(got)
    }

    fn all(&self) -> usize {
        self.accepted + self.length + self.garbled
    }

    fn words(&self) -> String {
        let Seen { accepted, length, garbled } = self;
        format!("{} messages, {accepted} accepted, {length} of another length, {garbled} garbled", self.all())
    }
}

/// Some bytes, with their record and the rules that it breaks where there is one.
fn described(bytes: &[u8]) -> String {
    match model::decode(bytes) {
        None => format!("the {} bytes {bytes:?}, which are no record", bytes.len()),
        Some(message) => format!("the {} bytes {bytes:?} of {message:?}, which breaks {:?}", bytes.len(), model::broken(&message)),
    }
}

/// Messages whose bytes are written out here, so that model and library cannot agree on other places or another order of bytes.
fn known_bytes() -> Verdict {
    let fetch = [1, 4, 7, 4, 0x44, 0x33, 0x22, 0x11, 0x88, 0x77, 0x66, 0x55, 1, 127, 1, 0, 0, 0, 0, 0, 0, 0, 0, 0, 0, 0, 0, 0, 0];
    let copy = [2, 9, 0, 0, 1, 0, 0, 0, 2, 0, 0, 0, 1, 5, 0, 4, 3, 2, 1, 0xfe, 255, 255, 255, 255, 255, 255, 255, 0, 0];
    let vote = [4, 12, 3, 3, 9, 0, 0, 0, 8, 0, 0, 0, 0, 2, 0, 1, 0, 0, 0, 11, 0, 1, 0, 0, 1, 1];
    let done = [6, 1, 1, 1, 255, 255, 255, 255, 1, 0, 0, 0, 0, 0, 0];
    let yields = [7, 2, 6, 2, 1, 0, 0, 0, 1, 0, 0, 0, 0, 1, 6, 0, 0, 0, 1, 0];
    let transaction = |owner, serial, stamp| model::Transaction { owner, serial, stamp };
    let entry = model::Entry { object: 5, mode: READ, version: 0x0102_0304, value: -2 };
    let rivals = vec![model::Rival { owner: 0, serial: 1 }, model::Rival { owner: 11, serial: 256 }];
    let known: [(&[u8], Message); 5] = [
        (&fetch, model::fetch(7, transaction(4, 0x1122_3344, 0x5566_7788), 127, WRITE)),
        (&copy, model::copy(9, transaction(0, 1, 2), entry)),
        (&vote, model::vote(12, transaction(3, 9, 8), rivals, model::YES)),
        (&done, model::done(1, transaction(1, LAST, 1))),
        (&yields, model::yields(transaction(2, 1, 1), model::Rival { owner: 6, serial: 1 << 24 })),
    ];
    for (bytes, message) in &known {
        ensure!(model::encode(message) == *bytes, "the model itself encodes {message:?} otherwise than as {bytes:?}");
        ensure!(model::decode(bytes).as_ref() == Some(message), "the model itself decodes {bytes:?} otherwise than as {message:?}");
        let got = ffi::check_message(bytes);
        ensure!(got == number::OK, "{}: {got}", described(bytes));
    }
    Ok(format!("{} messages", known.len()))
}

/// Every kind with every count that it allows, both words, reads and writes, the lowest and highest numbers, and many others: all are
/// well formed, and the record comes back from its bytes.
fn every_shape(random: &mut Random, rounds: usize) -> Verdict {
    let mut seen = Seen::default();
    let mut shapes = BTreeSet::new();
    let mut modes = BTreeSet::new();
    let (mut last_versions, mut least_values, mut lengths) = (0, 0, BTreeSet::new());
    for shape in records::shapes() {
        for style in records::STYLES {
            for _ in 0..if style == Style::Any { 1000 * rounds } else { 20 } {
                let message = records::formed(random, shape, style);
                let broken = model::broken(&message);
                ensure!(broken.is_empty(), "{message:?} was made to be well formed, but the model says it breaks {broken:?}");
                let bytes = model::encode(&message);
                ensure!(model::decode(&bytes).as_ref() == Some(&message), "the model's decode does not undo its encode: {message:?}");
                ensure!(seen.compare(&bytes)? == number::OK, "{}: refused", described(&bytes));
                shapes.insert((message.kind, message.entries.len(), message.rivals.len(), message.words.clone()));
                modes.extend(message.entries.iter().map(|entry| (message.kind, entry.mode)));
                last_versions += message.entries.iter().filter(|entry| entry.version == LAST).count();
                least_values += message.entries.iter().filter(|entry| entry.value == i64::MIN).count();
                lengths.insert(bytes.len());
            }
        }
    }
    let counted = format!(
        "{} messages of {} shapes and {} lengths, {last_versions} versions at the last, {least_values} values at the least",
        seen.all(),
        shapes.len(),
        lengths.len()
    );
    let rich = shapes.len() == 35 && modes.len() == 8 && last_versions > 500 && least_values > 500;
    let whole = lengths.first() == Some(&SHORTEST) && lengths.last() == Some(&LONGEST);
    ensure!(rich && whole, "the messages are too poor: {counted}");
    Ok(counted)
}

/// Every kind and count in three styles, with each of its bytes changed in turn to each of the 256 values: so each kind byte, each count
/// and each word too.
fn every_byte(random: &mut Random, _: usize) -> Verdict {
    let mut seen = Seen::default();
    for message in records::catalogue(random) {
        let bytes = model::encode(&message);
        for at in 0..bytes.len() {
            let mut changed = bytes.clone();
            for value in 0..=255 {
                changed[at] = value;
                seen.compare(&changed)?;
            }
        }
    }
    ensure!(seen.accepted > 300_000 && seen.garbled > 300_000 && seen.length == 0, "too poor: {}", seen.words());
    Ok(seen.words())
}

/// Two bytes changed at once, to values about the limits: the owner and a direction, a count and a kind, two objects.
fn two_bytes(random: &mut Random, rounds: usize) -> Verdict {
    let mut seen = Seen::default();
    let catalogue: Vec<Vec<u8>> = records::catalogue(random).iter().map(model::encode).collect();
    for _ in 0..300_000 * rounds {
        let mut bytes = random.pick(&catalogue).clone();
        for _ in 0..2 {
            let front = if random.once_in(2) { 16 } else { LONGEST };
            let at = random.below(bytes.len().min(front));
            bytes[at] = records::some_byte(random);
        }
        seen.compare(&bytes)?;
    }
    ensure!(seen.accepted * 10 > seen.all() && seen.garbled * 10 > seen.all(), "too poor: {}", seen.words());
    Ok(seen.words())
}

/// Every kind and count, cut short and padded with zeros or any bytes to every length from 0 to 200, and to some great ones.
fn every_length(random: &mut Random, _: usize) -> Verdict {
    let mut seen = Seen::default();
    let catalogue = records::catalogue(random);
    for message in &catalogue {
        let bytes = model::encode(message);
        for length in (0..=200).chain([255, 256, 256 + bytes.len(), 1207, 1527, 2935, 65536, 65536 + bytes.len()]) {
            for zeros in [true, false] {
                let mut other = bytes[..bytes.len().min(length)].to_vec();
                let more = length - other.len();
                other.extend(if zeros { vec![0; more] } else { random.bytes(more) });
                let got = seen.compare(&other)?;
                let expected = match length {
                    _ if length == bytes.len() => number::OK,
                    SHORTEST..=LONGEST => number::GARBLED,
                    _ => number::LENGTH,
                };
                ensure!(got == expected, "{} with another length: {got}, not {expected}", described(&bytes));
            }
        }
    }
    let count = catalogue.len();
    ensure!(count == 105 && seen.accepted == 2 * count && seen.length > 10_000 && seen.garbled > 10_000, "too poor: {}", seen.words());
    Ok(seen.words())
}

/// Each way to break a message: refused with 3 by library and model, and the model names the very rules that were meant.
fn each_rule(random: &mut Random, rounds: usize) -> Verdict {
    let tries = 2000 * rounds;
    let mut alone: BTreeMap<Rule, usize> = Rule::ALL.into_iter().map(|rule| (rule, 0)).collect();
    let mut no_record = 0;
    for damage in DAMAGES {
        let mut seen = Seen::default();
        for _ in 0..tries {
            let bytes = (damage.make)(random);
            let name = damage.name;
            match model::decode(&bytes) {
                None => ensure!(damage.breaks.is_empty(), "{name}: the bytes {bytes:?} are no record"),
                Some(message) => {
                    let broken = model::broken(&message);
                    let meant = !damage.breaks.is_empty() && broken == damage.breaks;
                    ensure!(meant, "{name}: {message:?} breaks {broken:?}, but {:?} was meant", damage.breaks);
                }
            }
            seen.compare(&bytes).map_err(|wrong| format!("{name}: {wrong}"))?;
        }
        ensure!(seen.garbled == tries, "{}: {} of {tries} refused with 3", damage.name, seen.garbled);
        match damage.breaks {
            [] => no_record += tries,
            [rule] => *alone.entry(*rule).or_insert(0) += tries,
            _ => {}
        }
    }
    let least = alone.values().copied().min().unwrap_or(0);
    let counted = format!(
        "{} ways, {tries} messages each; {} rules, each broken alone {least} times or more; {no_record} no record",
        DAMAGES.len(),
        alone.len()
    );
    ensure!(least >= tries && no_record >= 5 * tries, "the ways are too poor: {counted}");
    Ok(counted)
}

/// Records made by the model's encode: well formed, then changed in none to four fields.
fn changed_records(random: &mut Random, rounds: usize) -> Verdict {
    let mut seen = Seen::default();
    let mut refused_for: BTreeMap<Rule, usize> = Rule::ALL.into_iter().map(|rule| (rule, 0)).collect();
    for _ in 0..300_000 * rounds {
        let kind = 1 + random.below(7) as u8;
        let mut message = records::one_of(random, |shape| shape.kind == kind);
        for _ in 0..random.below(5) {
            records::change(random, &mut message);
        }
        if seen.compare(&model::encode(&message))? == number::GARBLED {
            for rule in model::broken(&message) {
                *refused_for.entry(rule).or_insert(0) += 1;
            }
        }
    }
    let (rarest, least) = refused_for.iter().min_by_key(|&(_, &count)| count).ok_or("no rule")?;
    let counted = format!("{}; the rarest rule broken ({rarest:?}) {least} times", seen.words());
    let rich = seen.accepted * 8 > seen.all() && seen.garbled * 8 > seen.all() && seen.length > 100 && *least > 200;
    ensure!(rich, "the records are too poor: {counted}");
    Ok(counted)
}

/// Any bytes of all lengths up to 200: plain ones, and ones with a likely header and likely counts.
fn random_bytes(random: &mut Random, rounds: usize) -> Verdict {
    let mut seen = Seen::default();
    let mut records = 0;
    for length in 0..=200 {
        for _ in 0..500 * rounds {
            let plain = random.bytes(length);
            seen.compare(&plain)?;
            let likely: Vec<u8> = plain.iter().map(|_| *random.pick(&[0, 0, 0, 1, 1, 2, 3, 4, 6, 7])).collect();
            seen.compare(&likely)?;
            records += usize::from(model::decode(&likely).is_some());
        }
    }
    for _ in 0..200_000 * rounds {
        let bytes = likely_bytes(random);
        seen.compare(&bytes)?;
        records += usize::from(model::decode(&bytes).is_some());
    }
    let counted = format!("{}, {records} likely ones are a record", seen.words());
    let rich =
        seen.accepted > 300 * rounds && seen.length > 50_000 * rounds && seen.garbled > 100_000 * rounds && records > 10_000 * rounds;
    ensure!(rich, "the bytes are too poor: {counted}");
    Ok(counted)
}

/// Small bytes in the order of a message, with counts that its length has room for.
fn likely_bytes(random: &mut Random) -> Vec<u8> {
    let owner = random.below(14) as u8;
    let other = random.below(14) as u8;
    let kind = 1 + random.below(8) as u8;
    let (from, to) = if [kind::COPY, kind::VOTE, kind::DONE].contains(&kind) { (other, owner) } else { (owner, other) };
    let mut bytes = vec![kind, from, to, owner];
    bytes.extend((0..8).map(|_| random.below(4) as u8));
    for (most, size) in [(ENTRIES, 14), (3, 5), (1, 1)] {
        let count = if random.once_in(2) { 0 } else { random.below(most + 1) };
        bytes.push(count as u8);
        bytes.extend((0..count * size).map(|at| if at % size == 0 { 4 * (at / size) as u8 + random.below(5) as u8 } else { 0 }));
        if random.once_in(3) {
            let last = bytes.len() - 1;
            bytes[last] = random.below(2) as u8;
        }
    }
    bytes
}

/// Re-entrant: four threads at once get the model's answers, each on its own messages, for the check and for a write call.
fn threads(random: &mut Random, rounds: usize) -> Verdict {
    let inputs = 20_000 * rounds;
    in_four_threads(random, |random| {
        let mut seen = Seen::default();
        for _ in 0..inputs {
            let mut message = records::one_of(random, |_| true);
            if random.once_in(2) {
                records::change(random, &mut message);
            }
            seen.compare(&model::encode(&message))?;
            writers::some_call(random)?;
        }
        Ok(())
    })?;
    Ok(format!("4 times {inputs} messages"))
}
