//! Several things wrong at once, in every subset: which number is given. It is the first in the order of document 02, and it is the model's.

use super::tables::{damage_tail, garbled_batch, misfit_batch, some_weights};
use super::{same_call, same_load, same_step};
use crate::checks::hours::subsets::{counted, first, has, misfit, named, some_outcome, some_record, some_timestamp, Fault};
use crate::model::buffers::{self, Buffers};
use crate::model::classes::{encode, encode_weights, Classes};
use crate::model::coordinator::{Brought, Call};
use crate::model::hours::{Table, Window, LAST_END};
use crate::model::message::{LAST, WRITE};
use crate::model::quorum::{inside, is_quorum, only, Kind, ALL, DISTANCES, NODES};
use crate::model::record::{self, decided, phase, Opened, Record, RECORD};
use crate::model::settings::{self, kind, Settings};
use crate::model::station::{blank, Step};
use crate::model::{number, OBJECTS};
use crate::random::Random;
use crate::runner::{ensure, Verdict};

/// A batch's faults in the order of their numbers.
const BATCH: [Fault; 16] = [
    ("record's length", number::LENGTH),
    ("settings' length", number::LENGTH),
    ("distances' length", number::LENGTH),
    ("list's length", number::LENGTH),
    ("damaged record", number::DAMAGED),
    ("damaged settings", number::DAMAGED),
    ("weights", number::GARBLED),
    ("minute", number::GARBLED),
    ("no node", number::STRANGER),
    ("live", number::STRANGER),
    ("busy", number::BUSY),
    ("no table", number::OUT_OF_TURN),
    ("timestamp", number::OUT_OF_TURN),
    ("no quorum", number::NO_QUORUM),
    ("used up", number::USED_UP),
    ("closed", number::CLOSED),
];

/// The same at a station; distances and live are as at a lone node.
const STATION_BATCH: [Fault; 17] = [
    ("records' length", number::LENGTH),
    ("mask's length", number::LENGTH),
    ("settings' length", number::LENGTH),
    ("list's length", number::LENGTH),
    ("damaged mask", number::DAMAGED),
    ("damaged record", number::DAMAGED),
    ("damaged settings", number::DAMAGED),
    ("weights", number::GARBLED),
    ("minute", number::GARBLED),
    ("no node", number::STRANGER),
    ("busy", number::BUSY),
    ("off", number::OUT_OF_TURN),
    ("no table", number::OUT_OF_TURN),
    ("timestamp", number::OUT_OF_TURN),
    ("no quorum", number::NO_QUORUM),
    ("used up", number::USED_UP),
    ("closed", number::CLOSED),
];

/// A table that is loaded in these checks.
fn some_table(random: &mut Random) -> Classes {
    super::tables::classes_among(random, 8, OBJECTS)
}

/// The settings that a subset asks for: open from 600 to 699, with a table of classes or none, damaged or not, of any kind and with any tenths.
fn some_settings(random: &mut Random, wrong: &impl Fn(&str) -> bool) -> Vec<u8> {
    let hours = Some(Table { windows: vec![Window { start: 600, end: 700 }], dates: vec![20] });
    let classes = if wrong("no table") { None } else { Some(some_table(random)) };
    let tenths = std::array::from_fn(|_| random.below(10) as u8);
    let left = std::array::from_fn(|_| random.below(10) as u8);
    let kind = *random.pick(&[kind::OWN, kind::BATCH]);
    let mut bytes = settings::encode(&Settings { hours, classes, kind, waited: tenths, left });
    if wrong("damaged settings") {
        damage_tail(random, &mut bytes);
    }
    bytes
}

/// The call at a record with an outcome, with faults by their names; a name that the subset's list does not have is no fault.
fn some_call(random: &mut Random, outcome: u8, wrong: &impl Fn(&str) -> bool) -> Call {
    let live = match (wrong("live"), wrong("no quorum")) {
        (false, false) => ALL,
        (false, true) => *random.pick(&[0, 2, 2064]),
        (true, false) => *random.pick(&[ALL + 1 + 1, 65_535, 32_768 | ALL]),
        (true, true) => *random.pick(&[ALL + 1, 0xe000, 32_768]),
    };
    let minute = match (wrong("minute"), wrong("closed")) {
        (true, _) => *random.pick(&[LAST_END, LAST_END + 1, 32_768, 65_535]),
        (false, true) => *random.pick(&[0, 599, 700, LAST_END - 1]),
        (false, false) => *random.pick(&[600, 650, 699]),
    };
    let timestamp = some_timestamp(random, outcome, wrong("timestamp"));
    let mut distances = [1, 0].repeat(NODES);
    if wrong("distances' length") {
        distances.resize(*random.pick(&[0, DISTANCES - 1, DISTANCES + 1]), 0);
    }
    let count = random.below(6);
    let mut list = if wrong("weights") { garbled_batch(random) } else { encode_weights(&some_weights(random, None, count)) };
    if wrong("list's length") {
        list = if random.once_in(2) { misfit_batch(random) } else { [&list[..], &[0]].concat() };
    }
    Call::Batch { live, distances, timestamp, day: 1, minute, list }
}

pub fn batches(random: &mut Random, _: usize) -> Verdict {
    let mut numbers = [0; number::COUNT];
    for subset in 0..1 << BATCH.len() {
        let wrong = |name: &str| has(&BATCH, subset, name);
        let outcome = some_outcome(random);
        let (mut record, mut settings) = (some_record(random, outcome, &wrong), some_settings(random, &wrong));
        if wrong("record's length") {
            misfit(random, &mut record);
        }
        if wrong("settings' length") {
            misfit(random, &mut settings);
        }
        let me = if wrong("no node") { 13 + random.below(243) as u8 } else { random.below(NODES) as u8 };
        let (number, _) = same_call(&mut record, &mut settings, me, &some_call(random, outcome, &wrong))?;
        let expected = first(&BATCH, subset, |_| true);
        ensure!(number == expected, "{number}, not {expected}, with {:?}", named(&BATCH, subset));
        numbers[usize::from(number)] += 1;
    }
    counted(1 << BATCH.len(), &numbers, &[0, 1, 2, 3, 4, 5, 8, 9, 10, 13])
}

/// A blank station in the buffers that a host call is lent alone.
fn lent() -> Buffers {
    Buffers { images: vec![], pool: vec![], ..buffers::of(&blank(ALL)) }
}

/// A node's record and settings at a station, the mask, and lengths, as a subset asks for; the node that is called.
fn put(random: &mut Random, it: &mut Buffers, record: &[u8], settings: &[u8], wrong: &impl Fn(&str) -> bool) -> u8 {
    let at = random.below(NODES);
    it.records[at * RECORD..(at + 1) * RECORD].copy_from_slice(record);
    it.put_settings(at, settings);
    let on = if wrong("off") { ALL & !(1 << at) } else { *random.pick(&[ALL, 1 << at]) };
    it.own = (if wrong("damaged mask") { on | 0x2000 } else { on }).to_le_bytes().to_vec();
    let lengths = [("records' length", &mut it.records), ("mask's length", &mut it.own), ("settings' length", &mut it.settings)];
    for (name, buffer) in lengths {
        if wrong(name) {
            misfit(random, buffer);
        }
    }
    if wrong("no node") {
        13 + random.below(243) as u8
    } else {
        at as u8
    }
}

/// Whether a fault counts: where there is no such node, no record and no settings are looked at.
fn looked(no_node: bool) -> impl Fn(&str) -> bool {
    move |name| !(no_node && ["damaged record", "damaged settings"].contains(&name))
}

pub fn station_batches(random: &mut Random, _: usize) -> Verdict {
    let mut numbers = [0; number::COUNT];
    let sound = lent();
    for subset in 0..1 << STATION_BATCH.len() {
        let wrong = |name: &str| ["live", "distances' length"].iter().all(|other| *other != name) && has(&STATION_BATCH, subset, name);
        let mut it = sound.clone();
        let outcome = some_outcome(random);
        let (record, settings) = (some_record(random, outcome, &wrong), some_settings(random, &wrong));
        let node = put(random, &mut it, &record, &settings, &wrong);
        let number = same_step(&mut it, &Step::Host { node, call: some_call(random, outcome, &wrong) })?;
        let expected = first(&STATION_BATCH, subset, looked(wrong("no node")));
        ensure!(number == expected, "{number}, not {expected}, with {:?}", named(&STATION_BATCH, subset));
        numbers[usize::from(number)] += 1;
    }
    counted(1 << STATION_BATCH.len(), &numbers, &[0, 1, 2, 3, 4, 5, 8, 9, 10, 13])
}

/// A load's faults, and the same at a station.
const LOAD: [Fault; 10] = [
    ("record's length", number::LENGTH),
    ("settings' length", number::LENGTH),
    ("list's length", number::LENGTH),
    ("damaged record", number::DAMAGED),
    ("damaged settings", number::DAMAGED),
    ("no node", number::STRANGER),
    ("object", number::NO_SUCH_OBJECT),
    ("busy", number::BUSY),
    ("bounds", number::BOUNDS),
    ("twice", number::TALLY_TWICE),
];

const STATION_LOAD: [Fault; 13] = [
    ("records' length", number::LENGTH),
    ("mask's length", number::LENGTH),
    ("settings' length", number::LENGTH),
    ("list's length", number::LENGTH),
    ("damaged mask", number::DAMAGED),
    ("damaged record", number::DAMAGED),
    ("damaged settings", number::DAMAGED),
    ("no node", number::STRANGER),
    ("off", number::OUT_OF_TURN),
    ("object", number::NO_SUCH_OBJECT),
    ("busy", number::BUSY),
    ("bounds", number::BOUNDS),
    ("twice", number::TALLY_TWICE),
];

/// The table that a subset asks for: four classes, so that each fault has a place of its own.
fn some_list(random: &mut Random, wrong: &impl Fn(&str) -> bool) -> Vec<u8> {
    let mut table = Classes { bounds: super::tables::some_bounds(random, 3), objects: super::tables::some_objects(random, 4, OBJECTS) };
    if wrong("twice") {
        table.objects[1] = table.objects[0];
    }
    if wrong("object") {
        table.objects[3] = *random.pick(&[128, 129, 200, 255]);
    }
    if wrong("bounds") {
        match random.below(5) {
            0 => table.bounds[0] = 0,
            1 => table.bounds[2] = *random.pick(&[2000, 65_535]),
            2 => table.bounds[1] = table.bounds[0],
            3 => table.bounds.truncate(2),
            _ => table.bounds.swap(0, 2),
        }
    }
    let mut list = encode(&table);
    if wrong("list's length") {
        misfit(random, &mut list);
    }
    list
}

/// A name that a list of faults may not have.
fn in_load(subset: usize) -> impl Fn(&str) -> bool {
    move |name| LOAD.iter().any(|(other, _)| *other == name) && has(&LOAD, subset, name)
}

pub fn loads(random: &mut Random, rounds: usize) -> Verdict {
    let mut numbers = [0; number::COUNT];
    for subset in 0..1 << LOAD.len() {
        let wrong = in_load(subset);
        for _ in 0..10 * rounds {
            let outcome = some_outcome(random);
            let (mut record, mut settings) = (some_record(random, outcome, &wrong), some_settings(random, &wrong));
            if wrong("record's length") {
                misfit(random, &mut record);
            }
            if wrong("settings' length") {
                misfit(random, &mut settings);
            }
            let me = if wrong("no node") { 13 + random.below(243) as u8 } else { random.below(NODES) as u8 };
            let (number, _) = same_load(&record, &settings, me, &some_list(random, &wrong))?;
            let expected = first(&LOAD, subset, |_| true);
            ensure!(number == expected, "{number}, not {expected}, with {:?}", named(&LOAD, subset));
            numbers[usize::from(number)] += 1;
        }
    }
    counted(1 << LOAD.len(), &numbers, &[0, 1, 2, 4, 6, 10, 14, 15])
}

pub fn station_loads(random: &mut Random, rounds: usize) -> Verdict {
    let mut numbers = [0; number::COUNT];
    let sound = lent();
    for subset in 0..1 << STATION_LOAD.len() {
        let wrong = |name: &str| STATION_LOAD.iter().any(|(other, _)| *other == name) && has(&STATION_LOAD, subset, name);
        for _ in 0..2 * rounds {
            let mut it = sound.clone();
            let outcome = some_outcome(random);
            let (record, settings) = (some_record(random, outcome, &wrong), some_settings(random, &wrong));
            let node = put(random, &mut it, &record, &settings, &wrong);
            let number = same_step(&mut it, &Step::LoadClasses { node, list: some_list(random, &wrong) })?;
            let expected = first(&STATION_LOAD, subset, looked(wrong("no node")));
            ensure!(number == expected, "{number}, not {expected}, with {:?}", named(&STATION_LOAD, subset));
            numbers[usize::from(number)] += 1;
        }
    }
    counted(1 << STATION_LOAD.len(), &numbers, &[0, 1, 2, 4, 5, 6, 10, 14, 15])
}

/// The faults of a request for votes on a batch, and the same at a station.
const REQUEST: [Fault; 10] = [
    ("record's length", number::LENGTH),
    ("settings' length", number::LENGTH),
    ("damaged record", number::DAMAGED),
    ("damaged settings", number::DAMAGED),
    ("no node", number::STRANGER),
    ("not open", number::OUT_OF_TURN),
    ("not ready", number::NOT_READY),
    ("no quorum", number::NO_QUORUM),
    ("version", number::USED_UP),
    ("past the range", number::USED_UP),
];

const STATION_REQUEST: [Fault; 14] = [
    ("records' length", number::LENGTH),
    ("mask's length", number::LENGTH),
    ("settings' length", number::LENGTH),
    ("damaged mask", number::DAMAGED),
    ("damaged record", number::DAMAGED),
    ("damaged settings", number::DAMAGED),
    ("no node", number::STRANGER),
    ("off", number::OUT_OF_TURN),
    ("not open", number::OUT_OF_TURN),
    ("not ready", number::NOT_READY),
    ("no quorum", number::NO_QUORUM),
    ("version", number::USED_UP),
    ("past the range", number::USED_UP),
    ("two past the range", number::USED_UP),
];

/// A batch that is open with four objects: one may be not ready, one have its last version, one or two be past the range. Not open, it is finishing after
/// an abort, which keeps its objects.
fn some_batch(random: &mut Random, wrong: &impl Fn(&str) -> bool) -> Vec<u8> {
    let mut record = Record { serial: 3, timestamp: 9, phase: phase::OPEN, quorum: 1, contacted: 1, count: 4, ..Record::default() };
    record.outcome = random.below(3) as u8;
    record.live = if wrong("no quorum") { *random.pick(&[ALL - 1, 1, 0]) } else { ALL };
    let objects = super::tables::some_objects(random, 4, OBJECTS);
    for (opened, object) in record.opened.iter_mut().zip(objects) {
        let value = *random.pick(&[0, 7, -3, i64::MIN, i64::MAX - 1000]);
        *opened = Opened { object, mode: WRITE, came: 1, version: random.below(9) as u32, value, given: 1, new: random.below(1000) as i64 };
    }
    if wrong("not ready") {
        (record.opened[0].came, record.opened[0].version, record.opened[0].value) = (0, 0, 0);
    }
    if wrong("version") {
        record.opened[1].version = LAST;
    }
    for (name, place) in [("past the range", 2), ("two past the range", 3)] {
        if wrong(name) {
            (record.opened[place].value, record.opened[place].new) = *random.pick(&[(i64::MAX, 1), (i64::MAX - 5, 6), (i64::MIN, -1)]);
        }
    }
    if wrong("not open") {
        (record.phase, record.outcome) = (phase::FINISHING, decided::ABORTED);
    }
    let mut bytes = record::encode(&record);
    if wrong("damaged record") {
        let (place, value) = *random.pick(&[(8, 3), (9, 4), (42, 9), (11, 0x20)]);
        bytes[place] = value;
    }
    bytes
}

/// The settings of a batch.
fn batch_settings(random: &mut Random, wrong: &impl Fn(&str) -> bool) -> Vec<u8> {
    let mut known = Settings { classes: Some(some_table(random)), kind: kind::BATCH, ..Settings::default() };
    known.waited = std::array::from_fn(|_| random.below(10) as u8);
    let mut bytes = settings::encode(&known);
    if wrong("damaged settings") {
        damage_tail(random, &mut bytes);
    }
    bytes
}

/// The answer beside a number: participants, who are a write quorum with the node in it, for every distance is the same; 'aborted' where the batch is given
/// up, which is so where nothing but the range is wrong; else 0.
fn answer_fits(me: u8, number: u8, answer: i64, given_up: bool) -> bool {
    match number {
        number::OK => answer.count_ones() == 7 && is_quorum(Kind::Write, answer as u16) && inside(only(usize::from(me)), answer as u16),
        number::USED_UP if given_up => answer == Brought::Aborted as i64,
        _ => answer == 0,
    }
}

pub fn requests(random: &mut Random, rounds: usize) -> Verdict {
    let mut numbers = [0; number::COUNT];
    let mut given_up = 0;
    for subset in 0..1 << REQUEST.len() {
        let wrong = |name: &str| REQUEST.iter().any(|(other, _)| *other == name) && has(&REQUEST, subset, name);
        for _ in 0..20 * rounds {
            let (mut record, mut settings) = (some_batch(random, &wrong), batch_settings(random, &wrong));
            if wrong("record's length") {
                misfit(random, &mut record);
            }
            if wrong("settings' length") {
                misfit(random, &mut settings);
            }
            let me = if wrong("no node") { 13 + random.below(243) as u8 } else { random.below(NODES) as u8 };
            let before = (record.clone(), settings.clone());
            let (number, answer) = same_call(&mut record, &mut settings, me, &Call::RequestCommit)?;
            let expected = first(&REQUEST, subset, |_| true);
            let past = expected == number::USED_UP && !wrong("version");
            let changed = record != before.0;
            ensure!(number == expected && answer_fits(me, number, answer, past), "{number}, {answer}, with {:?}", named(&REQUEST, subset));
            ensure!(
                changed == (number == number::OK || past) && settings == before.1,
                "{number}, and bytes, with {:?}",
                named(&REQUEST, subset)
            );
            numbers[usize::from(number)] += 1;
            given_up += usize::from(past);
        }
    }
    ensure!(given_up > 0, "none is given up");
    counted(1 << REQUEST.len(), &numbers, &[0, 1, 2, 4, 5, 8, 9, 11])
}

pub fn station_requests(random: &mut Random, _: usize) -> Verdict {
    let mut numbers = [0; number::COUNT];
    let sound = lent();
    for subset in 0..1 << STATION_REQUEST.len() {
        let wrong = |name: &str| has(&STATION_REQUEST, subset, name);
        let mut it = sound.clone();
        let (record, settings) = (some_batch(random, &wrong), batch_settings(random, &wrong));
        let node = put(random, &mut it, &record, &settings, &wrong);
        let before = it.clone();
        let number = same_step(&mut it, &Step::Host { node, call: Call::RequestCommit })?;
        let expected = first(&STATION_REQUEST, subset, looked(wrong("no node")));
        let past = expected == number::USED_UP && !wrong("version");
        ensure!(number == expected, "{number}, not {expected}, with {:?}", named(&STATION_REQUEST, subset));
        let changed = (it.records != before.records) == (number == number::OK || past) && it.settings == before.settings;
        ensure!(changed, "{number}, and other bytes, with {:?}", named(&STATION_REQUEST, subset));
        numbers[usize::from(number)] += 1;
    }
    counted(1 << STATION_REQUEST.len(), &numbers, &[0, 1, 2, 4, 5, 8, 9, 11])
}
