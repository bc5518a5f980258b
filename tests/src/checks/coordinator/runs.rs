//! Long runs of one record: one transaction after the other, with late, repeated and foreign messages at any time.

use super::records::{some_call, some_distances, some_message, some_object};
use super::seen::{Case, Seen, Try, What};
use crate::checks::classes::tables::some_batch;
use crate::checks::hours::hours_in;
use crate::checks::hours::tables::{some_clock, some_settings};
use crate::checks::message::records::{some_node, some_value};
use crate::checks::turns::{some_timestamp, Turn};
use crate::ffi::coordinator as ffi;
use crate::model::coordinator::{Brought, Call};
use crate::model::message::{self, kind, Message, LONGEST, WRITE};
use crate::model::quorum::ALL;
use crate::model::record::{self, phase, Opened, Record};
use crate::model::{number, settings};
use crate::random::Random;
use crate::runner::{ensure, Verdict};

/// The call that brings a transaction on.
fn next_call(random: &mut Random, record: &Record, settings: &[u8]) -> Call {
    let unset = record.objects().iter().find(|opened| opened.mode == WRITE && opened.given == 0);
    let known = settings::load(settings).ok();
    let batch = known.as_ref().is_some_and(|it| it.kind == settings::kind::BATCH);
    match (record.phase, unset) {
        (phase::IDLE, _) => {
            let timestamp = some_timestamp(random, record);
            let (day, minute) = some_clock(random, hours_in(settings).as_ref());
            let distances = some_distances(random);
            let classes = known.and_then(|it| it.classes);
            if classes.is_some() && random.once_in(2) {
                return Call::Batch { live: ALL, distances, timestamp, day, minute, list: some_batch(random, classes.as_ref(), 12) };
            }
            Call::Begin { live: ALL, distances, timestamp, day, minute }
        }
        (phase::OPEN, _) if batch && !random.once_in(12) => {
            if record.objects().iter().all(Opened::settled) {
                Call::RequestCommit
            } else {
                Call::Found { object: some_object(random, record) }
            }
        }
        (phase::OPEN, _) if record.count < 2 || random.once_in(12) => {
            Call::Open { object: some_object(random, record), mode: random.below(2) as u8 }
        }
        (phase::OPEN, Some(opened)) => Call::SetValue { object: opened.object, value: some_value(random) },
        (phase::OPEN, None) if record.objects().iter().all(Opened::settled) => Call::RequestCommit,
        _ => Call::Found { object: some_object(random, record) },
    }
}

/// A message, most often a new one that meets the record, or an old one again.
fn next_message(random: &mut Random, record: &Record, me: u8, old: &[Vec<u8>]) -> Vec<u8> {
    if !old.is_empty() && random.once_in(4) {
        return random.pick(old).clone();
    }
    let harsh = |message: &Message| message.kind == kind::YIELD || message.words == [message::NO];
    let mut message = some_message(random, record, me);
    while harsh(&message) && !random.once_in(12) {
        message = some_message(random, record, me);
    }
    message::encode(&message)
}

/// From blank, hundreds of calls and messages.
pub fn long_runs(random: &mut Random, rounds: usize) -> Verdict {
    let (runs, steps) = (150 * rounds, 600);
    let mut seen = Seen::default();
    let mut highest = 0;
    for _ in 0..runs {
        let me = some_node(random);
        let mut record = Record::default();
        let mut old: Vec<Vec<u8>> = Vec::new();
        let mut settings = some_settings(random);
        for _ in 0..steps {
            let bytes = record::encode(&record);
            let after = match random.below(12) {
                wild @ 0..=4 => {
                    // Other settings now and then, whatever the phase.
                    settings = if random.once_in(12) { some_settings(random) } else { settings };
                    let call = if wild == 0 { some_call(random, &record, &settings) } else { next_call(random, &record, &settings) };
                    let after = seen.compare(random, &bytes, me, Try::Host(&call, &settings))?;
                    settings = seen.settings.clone();
                    ensure!(ffi::check_settings(&settings) == number::OK, "settings are damaged in a run");
                    after
                }
                5 | 6 => {
                    let (node, object) = (some_node(random), some_object(random, &record));
                    seen.compare(random, &bytes, me, Try::Due { node, object, size: LONGEST })?
                }
                _ => {
                    old.push(next_message(random, &record, me, &old));
                    seen.compare(random, &bytes, me, Try::Receive(&old[old.len() - 1]))?
                }
            };
            ensure!(ffi::check_record(&after) == number::OK, "a record is damaged in a run");
            record = record::load(&after).map_err(|number| format!("a record in a run is refused with {number}"))?;
        }
        highest = highest.max(record.serial);
    }
    let commits = seen.of(Case::Brings(kind::VOTE, Brought::Committed));
    let finished = seen.of(Case::Brings(kind::DONE, Brought::Finished));
    let met = |turn: Turn| [What::Begin, What::Batch].map(|what| seen.of(Case::Turned(what, turn))).iter().sum();
    let turns: Vec<(Turn, usize)> = Turn::ALL.map(|turn| (turn, met(turn))).to_vec();
    let counted = format!("{runs} runs; {}; {commits} commits, {finished} finished, serials to {highest}; {turns:?}", seen.words());
    let rich = turns.iter().all(|&(turn, count)| count >= rounds * if turn == Turn::KeptAfterAbort { 100 } else { 1 });
    ensure!(rich && commits > 50 * rounds && finished > 200 * rounds && highest > 5, "too poor: {counted}");
    Ok(counted)
}
