//! The coordinator on the bytes of its record: each call compared with the model in number, answer, record and buffer.

mod damages;
pub mod records;
mod runs;
mod seen;

use crate::checks::message::records::{change, some_byte, some_node};
use crate::checks::station::{self, ends::Ends};
use crate::ffi::coordinator as ffi;
use crate::model::coordinator::Call;
use crate::model::message::{self, LONGEST};
use crate::model::record::{self, Clause, Record, RECORD};
use crate::model::settings::settings_of;
use crate::model::{number, quorum::NODES};
use crate::random::Random;
use crate::runner::{ensure, in_four_threads, Runner, Verdict};
use damages::DAMAGES;
use records::{lent_settings, some_call, some_message, some_object, some_record};
use seen::{Case, Seen, Try, What};
use std::collections::BTreeSet;

pub fn run(runner: &mut Runner) {
    runner.check("records: blank", blank);
    runner.check("records: known bytes", |_, _| known_bytes());
    runner.check("records: each clause broken", each_clause);
    runner.check("records: every byte changed", every_byte);
    runner.check("coordinator: one call on a record", one_call);
    runner.check("coordinator: any bytes as a message", any_bytes);
    runner.check("coordinator: every length", every_length);
    runner.check("coordinator: the lowest number of several", several_numbers);
    runner.check("coordinator: long runs of one record", runs::long_runs);
    runner.check("coordinator in four threads", threads);
    runner.check("coordinator: scenarios of the station", |random, rounds| station::scenarios(random, rounds, LIBRARY, 1));
}

/// The compiled coordinator's calls.
const LIBRARY: Ends =
    Ends { host: ffi::host_call, load: ffi::load_hours, load_classes: ffi::load_classes, receive: ffi::receive, due: ffi::due };

/// One call of each sort that meets a record, with the node itself most often, or another, or a stranger.
fn some_try(random: &mut Random, record: &Record, bytes: &[u8], me: u8, seen: &mut Seen) -> Result<Vec<u8>, String> {
    let caller = match random.below(24) {
        0 => some_byte(random),
        1 => NODES as u8,
        _ => me,
    };
    match random.below(8) {
        0..=2 => {
            let settings = lent_settings(random);
            let call = some_call(random, record, &settings);
            seen.compare(random, bytes, caller, Try::Host(&call, &settings))
        }
        3..=5 => {
            let to = if random.once_in(20) { some_node(random) } else { me };
            let message = some_message(random, record, to);
            let broken = message::broken(&message);
            ensure!(broken.is_empty(), "{message:?} was made to be well formed, but breaks {broken:?}");
            seen.compare(random, bytes, caller, Try::Receive(&message::encode(&message)))
        }
        _ => {
            let node = if random.once_in(12) { some_byte(random) } else { some_node(random) };
            let (object, size) = (some_object(random, record), LONGEST + random.below(2) * random.below(80));
            // A rival that is the owner comes from no vote.
            let node = if record.rivals.get(usize::from(caller)).is_some_and(|&serial| serial != 0) && node == caller { me } else { node };
            seen.compare(random, bytes, caller, Try::Due { node, object, size })
        }
    }
}

/// Calls and messages on records that they meet: every case of the rules, many times.
fn one_call(random: &mut Random, rounds: usize) -> Verdict {
    let mut seen = Seen::default();
    for _ in 0..20_000 * rounds {
        let me = some_node(random);
        let record = some_record(random, me);
        let broken = record::broken(&record);
        ensure!(broken.is_empty(), "{record:?} was made to be valid, but breaks {broken:?}");
        let bytes = record::encode(&record);
        for _ in 0..15 {
            let after = some_try(random, &record, &bytes, me, &mut seen)?;
            ensure!(ffi::check_record(&after) == number::OK, "a call on {record:?} left a damaged record");
        }
    }
    // The records are sound: a call is 2 for damaged settings alone, and those are lent to these.
    let lent = [What::Begin, What::Batch, What::OpenRead, What::OpenWrite, What::SetValue, What::RequestCommit];
    let met = |case: Case| match case {
        Case::Number(what, 2) => lent.contains(&what),
        Case::Number(what, 3) => [What::Begin, What::Batch].contains(&what),
        // Sums past the range have checks of their own.
        Case::Number(_, 1) | Case::GivenUp => false,
        _ => true,
    };
    let (case, least) = seen.rarest(met);
    let counted = format!("{}; the rarest case ({case:?}) {least} times", seen.words());
    let damaged: usize = lent.iter().map(|&what| seen.of(Case::Number(what, 2))).sum();
    ensure!(least > 20 * rounds && seen.numbers[2] == damaged, "too poor: {counted}");
    Ok(counted)
}

/// Messages with a thing or a byte changed: 3 and 4, or another message that may be taken.
fn any_bytes(random: &mut Random, rounds: usize) -> Verdict {
    let mut seen = Seen::default();
    for _ in 0..4000 * rounds {
        let me = some_node(random);
        let record = some_record(random, me);
        let bytes = record::encode(&record);
        let mut message = some_message(random, &record, me);
        change(random, &mut message);
        let other = if random.once_in(8) { some_byte(random) } else { me };
        seen.compare(random, &bytes, other, Try::Receive(&message::encode(&message)))?;
        let mut sent = message::encode(&some_message(random, &record, me));
        let at = random.below(sent.len());
        sent[at] = some_byte(random);
        seen.compare(random, &bytes, me, Try::Receive(&sent))?;
    }
    let rich = [0, 3, 4, 5].iter().all(|&number| seen.numbers[number] > 100 * rounds);
    ensure!(rich, "too poor: {}", seen.words());
    Ok(seen.words())
}

/// Each call once on these bytes, whatever they are.
fn every_call(random: &mut Random, record: &Record, bytes: &[u8], me: u8, size: usize, seen: &mut Seen) -> Result<(), String> {
    let distances = vec![1; 26];
    let object = some_object(random, record);
    let calls = [
        Call::Begin { live: 8191, distances: distances.clone(), timestamp: record.timestamp.saturating_add(1), day: 0, minute: 0 },
        Call::Batch {
            live: 8191,
            distances: distances.clone(),
            timestamp: record.timestamp.saturating_add(1),
            day: 0,
            minute: 0,
            list: vec![1, 0, 37, 0],
        },
        Call::Open { object, mode: 0 },
        Call::Open { object, mode: 1 },
        Call::SetValue { object, value: random.next() as i64 },
        Call::Found { object },
        Call::Reselect { live: 8191, distances },
        Call::RequestCommit,
        Call::Abort,
    ];
    for call in &calls {
        seen.compare(random, bytes, me, Try::Host(call, &settings_of(None)))?;
    }
    let message = message::encode(&some_message(random, record, me));
    seen.compare(random, bytes, me, Try::Receive(&message))?;
    let node = some_node(random);
    seen.compare(random, bytes, me, Try::Due { node, object, size }).map(|_| ())
}

/// Each clause broken, alone where that can be: 2 from the check and from every call, and nothing is altered.
fn each_clause(random: &mut Random, rounds: usize) -> Verdict {
    let tries = 25 * rounds;
    let mut seen = Seen::default();
    let mut clauses: BTreeSet<Clause> = BTreeSet::new();
    for damage in DAMAGES {
        for _ in 0..tries {
            let me = some_node(random);
            let record = damage.make(random, me)?;
            let bytes = record::encode(&record);
            let got = ffi::check_record(&bytes);
            ensure!(got == number::DAMAGED, "{}: {got} for {record:?}", damage.name);
            let sane = Record { count: record.count.min(8), ..record };
            every_call(random, &sane, &bytes, me, LONGEST, &mut seen).map_err(|wrong| format!("{}: {wrong}", damage.name))?;
        }
        clauses.extend(damage.breaks);
    }
    let missing: Vec<Clause> = Clause::ALL.into_iter().filter(|clause| !clauses.contains(clause)).collect();
    ensure!(missing.is_empty() && seen.numbers[2] == seen.all(), "too poor: {missing:?}, {}", seen.words());
    Ok(format!("{} ways; {}", DAMAGES.len(), seen.words()))
}

/// Each byte of a record changed in turn: the check agrees, and so does a call.
fn every_byte(random: &mut Random, rounds: usize) -> Verdict {
    let mut seen = Seen::default();
    let (mut taken, mut damaged) = (0, 0);
    for _ in 0..30 * rounds {
        let me = some_node(random);
        let record = some_record(random, me);
        let bytes = record::encode(&record);
        for at in 0..RECORD {
            let any = random.byte();
            for value in [0, 1, 2, 255, bytes[at] ^ 1, bytes[at] ^ 128, any] {
                let mut changed = bytes.clone();
                changed[at] = value;
                let (got, expected) = (ffi::check_record(&changed), record::check_call(&changed));
                ensure!(got == expected, "byte {at} of {record:?} as {value}: {got}, but the model says {expected}");
                taken += usize::from(got == number::OK);
                damaged += usize::from(got == number::DAMAGED);
            }
            let mut changed = bytes.clone();
            changed[at] = any;
            some_try(random, &record, &changed, me, &mut seen)?;
        }
    }
    let counted = format!("{taken} taken, {damaged} damaged; {}", seen.words());
    ensure!(taken > 1000 * rounds && damaged > 1000 * rounds, "too poor: {counted}");
    Ok(counted)
}

/// Records, distances, messages and buffers cut short and padded: all but the right lengths are 1, and nothing is touched.
fn every_length(random: &mut Random, rounds: usize) -> Verdict {
    let mut seen = Seen::default();
    for length in (0..400).chain([602, RECORD * 13, 65_536 + RECORD]) {
        let me = some_node(random);
        let record = some_record(random, me);
        let mut bytes = record::encode(&record);
        let mut message = message::encode(&some_message(random, &record, me));
        message.resize(length.min(300), 0);
        for _ in 0..rounds {
            let distances = vec![0; length];
            let (blank, settings) = (settings_of(None), vec![0; length]);
            seen.compare(random, &bytes, me, Try::Host(&Call::Reselect { live: 8191, distances: distances.clone() }, &blank))?;
            let begin = |distances| Call::Begin { live: 8191, distances, timestamp: 7, day: 0, minute: 0 };
            seen.compare(random, &bytes, me, Try::Host(&begin(distances), &blank))?;
            seen.compare(random, &bytes, me, Try::Host(&begin(vec![0; 26]), &settings))?;
            for call in [Call::Open { object: 1, mode: 1 }, Call::SetValue { object: 1, value: 1 }, Call::RequestCommit] {
                seen.compare(random, &bytes, me, Try::Host(&call, &settings))?;
            }
            seen.compare(random, &bytes, me, Try::Receive(&message))?;
            seen.compare(random, &bytes, me, Try::Due { node: 0, object: 0, size: length })?;
        }
        bytes.resize(length, 0);
        ensure!(ffi::check_record(&bytes) == record::check_call(&bytes), "a record of {length} bytes is checked otherwise");
        for _ in 0..rounds {
            every_call(random, &record, &bytes, me, LONGEST, &mut seen)?;
        }
    }
    let (case, least) = seen.rarest(|case| matches!(case, Case::Number(_, 1)));
    ensure!(least > 300 * rounds, "too poor: {case:?} {least} times");
    Ok(seen.words())
}

/// Several things wrong at once, in all combinations: the lowest number is given.
fn several_numbers(random: &mut Random, rounds: usize) -> Verdict {
    let mut seen = Seen::default();
    for faults in 0..64 {
        let wrong = |at: usize| faults >> at & 1 == 1;
        for _ in 0..40 * rounds {
            let me = some_node(random);
            let record = if wrong(0) { random.pick(DAMAGES).make(random, me)? } else { some_record(random, me) };
            let sane = Record { count: record.count.min(8), ..record.clone() };
            let mut bytes = record::encode(&record);
            bytes.truncate(if wrong(1) { random.below(RECORD) } else { RECORD });
            let caller = if wrong(2) { 13 + random.below(243) as u8 } else { me };
            let mut message = message::encode(&some_message(random, &sane, me));
            if wrong(3) {
                message[8..12].fill(0);
            }
            message.truncate(if wrong(4) { random.below(15) } else { LONGEST });
            let settings = lent_settings(random);
            let mut call = some_call(random, &sane, &settings);
            if let (Call::Begin { distances, .. } | Call::Batch { distances, .. } | Call::Reselect { distances, .. }, true) =
                (&mut call, wrong(5))
            {
                distances.truncate(random.below(26));
            }
            seen.compare(random, &bytes, caller, Try::Receive(&message))?;
            seen.compare(random, &bytes, caller, Try::Host(&call, &settings))?;
            let (node, object) = (if wrong(3) { some_byte(random) } else { some_node(random) }, some_object(random, &sane));
            let size = if wrong(5) { random.below(LONGEST) } else { LONGEST };
            if node != caller {
                seen.compare(random, &bytes, caller, Try::Due { node, object, size })?;
            }
        }
    }
    ensure!([1, 2, 3, 4].iter().all(|&number| seen.numbers[number] > 50 * rounds), "too poor: {}", seen.words());
    Ok(seen.words())
}

/// The blank record in place of random bytes, every byte of it; every other length is refused with all bytes as they were.
fn blank(random: &mut Random, _: usize) -> Verdict {
    let margin = 20;
    for length in (0..700).chain([RECORD * 13, 65_536 + RECORD]) {
        let before = random.bytes(length + 2 * margin);
        let (mut after, mut expected) = (before.clone(), before);
        let got = ffi::blank_record(&mut after[margin..margin + length]);
        let number = match record::blank_call(length) {
            Err(number) => number,
            Ok(bytes) => {
                expected[margin..margin + length].copy_from_slice(&bytes);
                number::OK
            }
        };
        ensure!(got == number && after == expected, "blank in {length} bytes: {got}, but the model says {number}, or other bytes");
        ensure!(got != number::OK || ffi::check_record(&after[margin..margin + length]) == number::OK, "the blank record is refused");
    }
    Ok(String::from("702 lengths"))
}

/// A record whose bytes are set here one by one, so that model and library cannot agree on other places or another order of bytes.
fn known_bytes() -> Verdict {
    let mut bytes = vec![0; RECORD];
    ensure!(ffi::check_record(&bytes) == number::OK, "all zeros are refused");
    // Node 3 begins its first transaction at 0x0102, all live and every distance 256 times its node: the root is nearest.
    let distances: Vec<u8> = (0..13).flat_map(|node| [0, node]).collect();
    let (mut blank, call) =
        (settings_of(None), Call::Begin { live: 8191, distances: distances.clone(), timestamp: 0x0102, day: 9, minute: 9 });
    let got = ffi::host_call(&mut bytes, &mut blank, 3, &call);
    let mut expected = vec![0; RECORD];
    (expected[0], expected[4], expected[5], expected[9]) = (1, 2, 1, 1);
    (expected[10], expected[11], expected[38]) = (255, 31, 1);
    expected[12..38].copy_from_slice(&distances);
    ensure!(got == (0, 1) && bytes == expected, "begin: {got:?}, {bytes:?}");
    // It opens object 127 to write, and sets -2.
    let opened = ffi::host_call(&mut bytes, &mut blank, 3, &Call::Open { object: 127, mode: 1 });
    let set = ffi::host_call(&mut bytes, &mut blank, 3, &Call::SetValue { object: 127, value: -2 });
    (expected[40], expected[42], expected[43], expected[44], expected[59]) = (1, 1, 127, 1, 1);
    expected[60..68].copy_from_slice(&[254, 255, 255, 255, 255, 255, 255, 255]);
    ensure!(opened == (0, 0) && set == (0, 0) && bytes == expected, "open and set: {opened:?}, {set:?}, {bytes:?}");
    // Node 0's copy: version 3, value 256. It is ready, and found.
    let own = message::Transaction { owner: 3, serial: 1, stamp: 0x0102 };
    let copy = message::copy(0, own, message::Entry { object: 127, mode: 1, version: 3, value: 256 });
    let ready = ffi::receive(&mut bytes, 3, &message::encode(&copy));
    let found = ffi::host_call(&mut bytes, &mut blank, 3, &Call::Found { object: 127 });
    (expected[45], expected[47], expected[52]) = (1, 3, 1);
    ensure!(ready == (0, 3) && found == (0, 256) && bytes == expected, "copy: {ready:?}, {found:?}, {bytes:?}");
    // Votes are asked for: nodes 0, 1, 2, 4, 5, 7 and 8. Node 8 says yes and names owner 12's transaction 513 as a rival.
    let asked = ffi::host_call(&mut bytes, &mut blank, 3, &Call::RequestCommit);
    let vote = message::vote(8, own, vec![message::Rival { owner: 12, serial: 513 }], message::YES);
    let nothing = ffi::receive(&mut bytes, 3, &message::encode(&vote));
    (expected[9], expected[243], expected[244], expected[246], expected[297], expected[298]) = (2, 183, 1, 1, 1, 2);
    ensure!(asked == (0, 439) && nothing == (0, 0) && bytes == expected, "votes: {asked:?}, {nothing:?}, {bytes:?}");
    Ok(String::from("a transaction up to its first yes"))
}

/// Re-entrant: four threads at once get the model's answers, each on its own records.
fn threads(random: &mut Random, rounds: usize) -> Verdict {
    let inputs = 3000 * rounds;
    in_four_threads(random, |random| {
        let mut seen = Seen::default();
        for _ in 0..inputs {
            let me = some_node(random);
            let record = some_record(random, me);
            some_try(random, &record, &record::encode(&record), me, &mut seen)?;
        }
        ensure!(seen.numbers[usize::from(number::OK)] > inputs / 4, "too poor: {}", seen.words());
        Ok(())
    })?;
    Ok(format!("4 times {inputs} calls"))
}
