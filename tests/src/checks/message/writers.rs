//! The write calls: number, length, and every byte of the buffer after, against the model's message.

use super::records::{some_entries, some_node, some_serial, some_value, some_version, valid_object};
use crate::ffi::{self, Entries, Serials, Written};
use crate::model::message::{self as model, Entry, Message, Rival, Rule, Transaction, ENTRIES, LAST, READ, WRITE};
use crate::model::number;
use crate::model::quorum::NODES;
use crate::random::Random;
use crate::runner::{ensure, Runner, Verdict};
use std::collections::{BTreeMap, BTreeSet};

/// A write call with random arguments, good and bad.
struct Writer {
    name: &'static str,
    /// Calls it on a buffer; the message that it should write, and what it answers.
    call: fn(&mut Random, &mut [u8]) -> (Message, Written),
    /// The rules that its arguments can break alone.
    rules: &'static [Rule],
    /// The lengths of its messages.
    lengths: usize,
}

const WRITERS: [Writer; 7] = [
    Writer { name: "fetch", call: fetch, rules: &[Rule::Nodes, Rule::Serial, Rule::Stamp, Rule::Objects, Rule::Modes], lengths: 1 },
    Writer { name: "copy", call: copy, rules: &[Rule::Nodes, Rule::Serial, Rule::Stamp, Rule::Objects, Rule::Modes], lengths: 1 },
    Writer {
        name: "ask",
        call: ask,
        rules: &[
            Rule::Nodes,
            Rule::Serial,
            Rule::Stamp,
            Rule::Objects,
            Rule::Modes,
            Rule::EntriesAscend,
            Rule::EntryCount,
            Rule::ReadValue,
            Rule::WriteVersion,
        ],
        lengths: 8,
    },
    Writer {
        name: "vote",
        call: vote,
        rules: &[Rule::Nodes, Rule::Serial, Rule::Stamp, Rule::Words, Rule::VoteRival, Rule::NoAlone],
        lengths: 13,
    },
    Writer {
        name: "outcome",
        call: outcome,
        rules: &[
            Rule::Nodes,
            Rule::Serial,
            Rule::Stamp,
            Rule::Objects,
            Rule::Modes,
            Rule::EntriesAscend,
            Rule::Words,
            Rule::AbortEmpty,
            Rule::CommitFull,
            Rule::ReadValue,
            Rule::WriteVersion,
        ],
        lengths: 9,
    },
    Writer { name: "done", call: done, rules: &[Rule::Nodes, Rule::Serial, Rule::Stamp], lengths: 1 },
    Writer {
        name: "yield",
        call: yields,
        rules: &[Rule::Nodes, Rule::Serial, Rule::Stamp, Rule::RivalSerial, Rule::YieldRival],
        lengths: 1,
    },
];

/// Sizes of buffers, about the least that is taken.
const SIZES: [usize; 5] = [0, 127, 128, 129, 300];

pub fn run(runner: &mut Runner) {
    for writer in WRITERS {
        runner.check(&format!("write {}", writer.name), |random, rounds| written(&writer, random, rounds));
    }
    runner.check("write calls with every size of a buffer", every_size);
}

/// Now and then the bad one.
fn mostly<T>(random: &mut Random, good: T, bad: T) -> T {
    if random.once_in(20) {
        bad
    } else {
        good
    }
}

fn node(random: &mut Random) -> u8 {
    let (good, bad) = (some_node(random), 13 + random.below(243) as u8);
    let bad = *random.pick(&[13, bad]);
    mostly(random, good, bad)
}

fn serial(random: &mut Random) -> u32 {
    let good = some_serial(random);
    mostly(random, good, 0)
}

fn transaction(random: &mut Random) -> Transaction {
    Transaction { owner: node(random), serial: serial(random), stamp: serial(random) }
}

fn object(random: &mut Random) -> u8 {
    let (good, bad) = (valid_object(random), 128 + random.below(128) as u8);
    let bad = *random.pick(&[128, 255, bad]);
    mostly(random, good, bad)
}

/// A mode or a word.
fn bit(random: &mut Random) -> u8 {
    let (good, bad) = (random.below(2) as u8, 2 + random.below(254) as u8);
    let bad = *random.pick(&[2, bad]);
    mostly(random, good, bad)
}

/// Any entry, of any bytes.
fn any_entry(random: &mut Random) -> Entry {
    Entry { object: random.byte(), mode: random.byte(), version: random.next() as u32, value: random.next() as i64 }
}

/// Entries, well formed or with one of them changed, and anything behind those that are meant. A count above eight is too many.
fn entries(random: &mut Random) -> Entries {
    let count = random.below(ENTRIES + 1);
    let mut list = some_entries(random, count);
    if count > 0 && random.once_in(3) {
        let at = random.below(count);
        let before = list[at.saturating_sub(1)].object;
        match random.below(6) {
            0 => list[at].object = before,
            1 => list.swap(at, count - 1),
            2 => list[at].mode = bit(random).max(2),
            3 => list[at] = Entry { mode: READ, value: some_value(random), ..list[at] },
            4 => list[at] = Entry { mode: WRITE, version: LAST, ..list[at] },
            _ => list[count - 1].object = 128 + random.below(128) as u8,
        }
    }
    let mut entry: [Entry; ENTRIES] = std::array::from_fn(|_| any_entry(random));
    entry[..count].copy_from_slice(&list);
    let above = [9, 255, 9 + random.below(247) as u8];
    let count = if count == ENTRIES && random.once_in(2) { *random.pick(&above) } else { count as u8 };
    Entries { entry, count }
}

/// A serial for each of a random set of owners, mostly without the transaction's own.
fn serials(random: &mut Random, owner: u8) -> Serials {
    let mask = match random.below(4) {
        0 => 0,
        1 => random.word() | random.word(),
        2 => u16::MAX,
        _ => random.word() & random.word(),
    };
    let mut serial = std::array::from_fn(|node| if mask >> node & 1 == 1 { some_serial(random) } else { 0 });
    if usize::from(owner) < NODES && !random.once_in(10) {
        serial[usize::from(owner)] = 0;
    }
    Serials { serial }
}

fn fetch(random: &mut Random, out: &mut [u8]) -> (Message, Written) {
    let (to, transaction, object, mode) = (node(random), transaction(random), object(random), bit(random));
    (model::fetch(to, transaction, object, mode), ffi::write_fetch(out, to, transaction, object, mode))
}

fn copy(random: &mut Random, out: &mut [u8]) -> (Message, Written) {
    let (from, transaction) = (node(random), transaction(random));
    let entry = Entry { object: object(random), mode: bit(random), version: some_version(random), value: some_value(random) };
    (model::copy(from, transaction, entry), ffi::write_copy(out, from, transaction, entry))
}

fn ask(random: &mut Random, out: &mut [u8]) -> (Message, Written) {
    let (to, transaction, entries) = (node(random), transaction(random), entries(random));
    (model::ask(to, transaction, entries.meant()), ffi::write_ask(out, to, transaction, &entries))
}

fn vote(random: &mut Random, out: &mut [u8]) -> (Message, Written) {
    let (from, transaction, word) = (node(random), transaction(random), bit(random));
    let mut rivals = serials(random, transaction.owner);
    if word == model::NO && !random.once_in(4) {
        rivals = Serials { serial: [0; NODES] };
    }
    (model::vote(from, transaction, rivals.meant(), word), ffi::write_vote(out, from, transaction, &rivals, word))
}

fn outcome(random: &mut Random, out: &mut [u8]) -> (Message, Written) {
    let (to, transaction, word) = (node(random), transaction(random), bit(random));
    let mut entries = entries(random);
    if word == model::ABORT && !random.once_in(4) {
        entries.count = 0;
    }
    (model::outcome(to, transaction, entries.meant(), word), ffi::write_outcome(out, to, transaction, &entries, word))
}

fn done(random: &mut Random, out: &mut [u8]) -> (Message, Written) {
    let (from, transaction) = (node(random), transaction(random));
    (model::done(from, transaction), ffi::write_done(out, from, transaction))
}

fn yields(random: &mut Random, out: &mut [u8]) -> (Message, Written) {
    let transaction = transaction(random);
    let rival = Rival { owner: node(random), serial: serial(random) };
    (model::yields(transaction, rival), ffi::write_yield(out, transaction, rival))
}

/// One call on a buffer of `size` random bytes that stands between others: number, length, the bytes written, and all others as they
/// were. What was written is a message for the library's own check. The message, and the number.
fn compare(writer: &Writer, random: &mut Random, size: usize) -> Result<(Message, u8), String> {
    let margin = 1 + random.below(160);
    let before = random.bytes(size + 2 * margin);
    let mut after = before.clone();
    let (message, got) = (writer.call)(random, &mut after[margin..margin + size]);
    let name = writer.name;
    let mut expected = before;
    let answer = match model::write_call(size, &message) {
        Err(number) => Written { number, length: 0 },
        Ok(bytes) => {
            expected[margin..margin + bytes.len()].copy_from_slice(&bytes);
            Written { number: number::OK, length: bytes.len() as u8 }
        }
    };
    let broken = model::broken(&message);
    ensure!(got == answer, "{name} with {size} bytes of {message:?}, which breaks {broken:?}: {got:?}, but the model says {answer:?}");
    if let Some(at) = (0..after.len()).find(|&at| after[at] != expected[at]) {
        let place = at as i64 - margin as i64;
        let (byte, meant) = (after[at], expected[at]);
        return Err(format!("{name} with {size} bytes of {message:?} ({answer:?}): byte {place} is {byte}, but the model says {meant}"));
    }
    if got.number == number::OK {
        let number = ffi::check_message(&after[margin..margin + usize::from(got.length)]);
        ensure!(number == number::OK, "{name}: what was written of {message:?} is refused with {number}");
    }
    Ok((message, got.number))
}

/// A call of any of the writers, compared.
pub fn some_call(random: &mut Random) -> Result<u8, String> {
    let writer = random.pick(&WRITERS);
    let size = *random.pick(&SIZES);
    compare(writer, random, size).map(|(_, number)| number)
}

/// One of the writers: arguments good and bad in each way, with buffers of every size of the list.
fn written(writer: &Writer, random: &mut Random, rounds: usize) -> Verdict {
    let mut numbers = BTreeMap::from([(number::OK, 0), (number::LENGTH, 0), (number::GARBLED, 0)]);
    let mut alone: BTreeMap<Rule, usize> = writer.rules.iter().map(|&rule| (rule, 0)).collect();
    let mut lengths = BTreeSet::new();
    let mut calls = 0;
    for size in SIZES {
        for _ in 0..20_000 * rounds {
            let (message, number) = compare(writer, random, size)?;
            calls += 1;
            *numbers.entry(number).or_insert(0) += 1;
            match model::broken(&message)[..] {
                [] if number == number::OK => drop(lengths.insert(model::encode(&message).len())),
                [rule] if number == number::GARBLED => *alone.entry(rule).or_insert(0) += 1,
                _ => {}
            }
        }
    }
    let (rarest, least) = alone.iter().min_by_key(|&(_, &count)| count).ok_or("no rule")?;
    let counted = format!(
        "{calls} calls, {} written with {} lengths, {} buffers too small, {} garbled; {} rules broken alone, the rarest ({rarest:?}) {least} times",
        numbers[&number::OK],
        lengths.len(),
        numbers[&number::LENGTH],
        numbers[&number::GARBLED],
        alone.len()
    );
    let rich = numbers.values().all(|&count| count * 20 > calls) && numbers.len() == 3;
    let whole = lengths.len() == writer.lengths && alone.len() == writer.rules.len() && *least >= 50;
    ensure!(rich && whole, "the calls are too poor: {counted}");
    Ok(counted)
}

/// Every size of a buffer from 0 to 300, and some great ones, for every writer.
fn every_size(random: &mut Random, rounds: usize) -> Verdict {
    let (mut calls, mut written) = (0, 0);
    for size in (0..=300).chain([1207, 65_536, 65_536 + 127]) {
        for writer in &WRITERS {
            for _ in 0..20 * rounds {
                let (_, number) = compare(writer, random, size)?;
                ensure!((number == number::LENGTH) == (size < 128), "{} with {size} bytes: {number}", writer.name);
                calls += 1;
                written += usize::from(number == number::OK);
            }
        }
    }
    let counted = format!("{calls} calls, {written} written");
    ensure!(written * 4 > calls && written < calls, "the calls are too poor: {counted}");
    Ok(counted)
}
