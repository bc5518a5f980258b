//! Votes asked for on a batch: each new value is the one found and its grams, in 64 bits with a sign; past the range the batch is given up.

use super::{batch, same_call, with_table, PARTY};
use crate::checks::message::records::some_value;
use crate::ffi::coordinator as ffi;
use crate::model::classes::{encode_weights, Classes};
use crate::model::coordinator::{Brought, Call};
use crate::model::message::{self, Entry, Transaction, LAST, READ, WRITE};
use crate::model::number;
use crate::model::quorum::ALL;
use crate::model::record::{self, decided, phase, Opened, Record, RECORD};
use crate::model::settings::{self, kind, Settings};
use crate::random::Random;
use crate::runner::{ensure, Verdict};

/// An open record of some objects that are ready, each with the value found, and what is added to it; none is a read.
fn opened(amounts: &[(i64, Option<i64>)]) -> Record {
    let mut record = Record { serial: 1, timestamp: 1, phase: phase::OPEN, live: ALL, quorum: 1, ..Record::default() };
    (record.contacted, record.count) = (1, amounts.len() as u8);
    for (at, &(value, new)) in amounts.iter().enumerate() {
        let (mode, given) = if new.is_some() { (WRITE, 1) } else { (READ, 0) };
        record.opened[at] = Opened { object: at as u8, mode, came: 1, version: 5, value, given, new: new.unwrap_or(0) };
    }
    record
}

/// Settings of a kind, and nothing else.
fn of_kind(kind: u8) -> Vec<u8> {
    settings::encode(&Settings { kind, ..Settings::default() })
}

/// Votes asked for on such a record: what the library does is the model's, and it is what sums of 128 bits say.
fn asked(amounts: &[(i64, Option<i64>)]) -> Result<bool, String> {
    let sums: Vec<i128> = amounts.iter().map(|&(value, new)| i128::from(value) + i128::from(new.unwrap_or(0))).collect();
    let fits = sums.iter().all(|&sum| i64::try_from(sum).is_ok());
    let (mut bytes, mut settings) = (record::encode(&opened(amounts)), of_kind(kind::BATCH));
    let got = same_call(&mut bytes, &mut settings, 3, &Call::RequestCommit)?;
    ensure!(got == if fits { (number::OK, i64::from(PARTY)) } else { (number::USED_UP, Brought::Aborted as i64) }, "{amounts:?}: {got:?}");
    let after = record::load(&bytes).map_err(|number| format!("{amounts:?}: the record is {number}"))?;
    let values: Vec<i128> = after.objects().iter().map(|opened| i128::from(opened.new)).collect();
    let kept: Vec<i128> = amounts.iter().map(|&(_, new)| i128::from(new.unwrap_or(0))).collect();
    // What is read has no new value.
    let sums: Vec<i128> = sums.iter().zip(amounts).map(|(&sum, &(_, new))| if new.is_some() { sum } else { 0 }).collect();
    ensure!(values == *if fits { &sums } else { &kept }, "{amounts:?}: the new values are {values:?}");
    let stands = if fits { phase::VOTING } else { phase::FINISHING };
    ensure!(after.phase == stands && (fits || after.outcome == decided::ABORTED), "{amounts:?}: {after:?}");
    // The host's own transaction takes the values as they are.
    let (mut bytes, mut settings) = (record::encode(&opened(amounts)), of_kind(kind::OWN));
    let own = same_call(&mut bytes, &mut settings, 3, &Call::RequestCommit)?;
    let after = record::load(&bytes).map_err(|number| format!("{amounts:?}: the record is {number}"))?;
    ensure!(own == (number::OK, i64::from(PARTY)), "{amounts:?}: the host's own is {own:?}");
    ensure!(after.objects().iter().map(|opened| i128::from(opened.new)).eq(kept), "{amounts:?}: the host's own is {after:?}");
    Ok(fits)
}

/// Each edge of the range with each edge.
pub fn edges() -> Verdict {
    let near = |end: i64, inward: i64| [0, 1, 2, 9, 10, 255, 256, 818_791, 818_792, 1 << 32].map(|steps| end + inward * steps);
    let mut values: Vec<i64> = [near(i64::MAX, -1), near(i64::MIN, 1), near(0, 1), near(0, -1)].concat();
    values.extend([i64::MAX / 2, i64::MAX / 2 + 1, i64::MIN / 2, i64::MIN / 2 - 1]);
    let (mut fit, mut past) = (0, 0);
    for (&value, &new) in values.iter().flat_map(|value| values.iter().map(move |new| (value, new))) {
        if asked(&[(value, Some(new))])? {
            fit += 1;
        } else {
            past += 1;
        }
    }
    ensure!(fit > 100 && past > 100, "{fit} fit, {past} are past the range");
    Ok(format!("{fit} fit, {past} are past the range"))
}

/// Up to eight objects of any values, in any places, with reads among them.
pub fn any(random: &mut Random, rounds: usize) -> Verdict {
    let (mut fit, mut past) = (0, 0);
    for _ in 0..20_000 * rounds {
        let count = 1 + random.below(8);
        let small = random.once_in(2);
        let amounts: Vec<(i64, Option<i64>)> = (0..count)
            .map(|_| {
                let new = if small { random.below(818_792) as i64 } else { some_value(random) };
                (some_value(random), (!random.once_in(6)).then_some(new))
            })
            .collect();
        if asked(&amounts)? {
            fit += 1;
        } else {
            past += 1;
        }
    }
    ensure!(fit > 2000 * rounds && past > 2000 * rounds, "{fit} fit, {past} are past the range");
    Ok(format!("{fit} fit, {past} are past the range"))
}

/// A batch from its begin on: its tally stands at the range's end. It is given up, with the aborts due and what waits as it was; with a version that is used
/// up it stays open, and a fresh look does not help; one gram less, and it goes on.
pub fn given_up() -> Verdict {
    let table = Classes { bounds: vec![], objects: vec![7] };
    for (value, version, weights, expected) in [
        (i64::MAX, 4, vec![37, 64], (number::USED_UP, Brought::Aborted as i64)),
        (i64::MAX - 9, 4, vec![37, 64], (number::USED_UP, Brought::Aborted as i64)),
        (i64::MAX - 10, 4, vec![37, 64], (number::OK, i64::from(PARTY))),
        (i64::MAX, 4, vec![9], (number::OK, i64::from(PARTY))),
        (i64::MAX, LAST - 1, vec![10], (number::USED_UP, Brought::Aborted as i64)),
        (i64::MAX, LAST, vec![10], (number::USED_UP, 0)),
        (0, LAST, vec![10], (number::USED_UP, 0)),
        (i64::MIN, 4, vec![1999; 4096], (number::OK, i64::from(PARTY))),
    ] {
        let (mut bytes, mut settings) = (vec![0; RECORD], with_table(&table));
        same_call(&mut bytes, &mut settings, 3, &batch(1, encode_weights(&weights)))?;
        let own = Transaction { owner: 3, serial: 1, stamp: 1 };
        let early = same_call(&mut bytes, &mut settings, 3, &Call::RequestCommit)?;
        ensure!(early == (number::NOT_READY, 0), "before its copy came: {early:?}");
        let copy = message::copy(0, own, Entry { object: 7, mode: WRITE, version, value });
        ensure!(ffi::receive(&mut bytes, 3, &message::encode(&copy)) == (0, Brought::Ready as i64), "the copy is not taken");
        let before = (bytes.clone(), settings.clone());
        let got = same_call(&mut bytes, &mut settings, 3, &Call::RequestCommit)?;
        ensure!(got == expected && settings == before.1, "{value}, version {version}, {} weights: {got:?}", weights.len());
        let record = record::load(&bytes).map_err(|number| format!("the record is {number}"))?;
        if got == (number::USED_UP, 0) {
            ensure!(bytes == before.0 && record.phase == phase::OPEN, "a refusal changed the record");
            ensure!(same_call(&mut bytes, &mut settings, 3, &Call::Abort)? == (0, 0), "it cannot be given up by the host");
        } else if got.0 == number::USED_UP {
            let mut by_host = before.0.clone();
            ensure!(ffi::host_call(&mut by_host, &mut settings, 3, &Call::Abort) == (0, 0), "the host cannot give it up");
            ensure!(bytes == by_host, "it is not left as by the host's abort");
            let (number, length) = ffi::due(&bytes, 3, 0, 0, &mut [0; 128]);
            ensure!((number, length) == (0, 16), "the abort that is due: {number}, {length}");
        }
    }
    Ok(String::from("eight batches"))
}
