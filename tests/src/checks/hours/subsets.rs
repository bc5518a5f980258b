//! Several things wrong at once, in every subset: which number is given. It is the first in the order of document 02, and it is the model's.

use super::tables::{damaged_settings, some_window, Damage, DAMAGES};
use super::{same_begin, same_load, same_step};
use crate::checks::classes::tables::some_tail;
use crate::model::buffers;
use crate::model::coordinator::Call;
use crate::model::hours::{encode, Table, Window, LAST_END};
use crate::model::message::LAST;
use crate::model::number;
use crate::model::quorum::{ALL, DISTANCES, NODES};
use crate::model::record::{self, decided, phase, Record, RECORD};
use crate::model::settings::{settings_of, HOURS};
use crate::model::station::{blank, Step};
use crate::random::Random;
use crate::runner::{ensure, Verdict};

/// A fault, and its number.
pub type Fault = (&'static str, u8);

/// Whether the fault of this name is in a subset.
pub fn has(faults: &[Fault], subset: usize, name: &str) -> bool {
    let at = faults.iter().position(|(other, _)| *other == name).unwrap_or_else(|| panic!("no fault {name}"));
    subset >> at & 1 == 1
}

/// The number of the first fault in a subset, of those that count; 0 for none.
pub fn first(faults: &[Fault], subset: usize, counts: impl Fn(&str) -> bool) -> u8 {
    let present = |(at, (name, _)): &(usize, &Fault)| subset >> at & 1 == 1 && counts(name);
    faults.iter().enumerate().find(present).map_or(number::OK, |(_, (_, number))| *number)
}

/// Which numbers were met, in words; each of them must be.
pub fn counted(subsets: usize, numbers: &[usize; number::COUNT], reached: &[usize]) -> Verdict {
    ensure!(reached.iter().all(|&number| numbers[number] > 0), "too poor: {numbers:?}");
    Ok(format!("{subsets} subsets, by number {numbers:?}"))
}

/// A begin's faults in the order of their numbers.
const BEGIN: [Fault; 14] = [
    ("record's length", number::LENGTH),
    ("settings' length", number::LENGTH),
    ("distances' length", number::LENGTH),
    ("damaged record", number::DAMAGED),
    ("damaged settings", number::DAMAGED),
    ("minute", number::GARBLED),
    ("no node", number::STRANGER),
    ("live", number::STRANGER),
    ("busy", number::BUSY),
    ("timestamp", number::OUT_OF_TURN),
    ("no quorum", number::NO_QUORUM),
    ("used up", number::USED_UP),
    ("closed minute", number::CLOSED),
    ("closed date", number::CLOSED),
];

/// The same at a station.
const STATION_BEGIN: [Fault; 17] = [
    ("records' length", number::LENGTH),
    ("mask's length", number::LENGTH),
    ("settings' length", number::LENGTH),
    ("distances' length", number::LENGTH),
    ("damaged mask", number::DAMAGED),
    ("damaged record", number::DAMAGED),
    ("damaged settings", number::DAMAGED),
    ("minute", number::GARBLED),
    ("no node", number::STRANGER),
    ("live", number::STRANGER),
    ("busy", number::BUSY),
    ("off", number::OUT_OF_TURN),
    ("timestamp", number::OUT_OF_TURN),
    ("no quorum", number::NO_QUORUM),
    ("used up", number::USED_UP),
    ("closed minute", number::CLOSED),
    ("closed date", number::CLOSED),
];

/// Bytes a little shorter or longer.
pub fn misfit(random: &mut Random, bytes: &mut Vec<u8>) {
    let length = bytes.len();
    bytes.resize(*random.pick(&[length - 1, length + 1, length - 1, 0]), 0);
}

/// What became of the last transaction: either is as likely.
pub fn some_outcome(random: &mut Random) -> u8 {
    *random.pick(&[decided::COMMITTED, decided::ABORTED])
}

/// A timestamp at a record whose last one is 9: 9 itself comes in turn after an abort alone.
pub fn some_timestamp(random: &mut Random, outcome: u8, wrong: bool) -> u32 {
    match (wrong, outcome) {
        (true, decided::ABORTED) => *random.pick(&[0, 1, 8]),
        (true, _) => *random.pick(&[0, 8, 9]),
        (false, decided::ABORTED) => *random.pick(&[9, 9, 10, LAST]),
        (false, _) => *random.pick(&[10, LAST]),
    }
}

/// The record that a subset asks for: idle or open, with a last serial of any kind or the last there is; the timestamp is 9.
pub fn some_record(random: &mut Random, outcome: u8, wrong: &impl Fn(&str) -> bool) -> Vec<u8> {
    let serial = if wrong("used up") { LAST } else { 1 + random.below(9) as u32 };
    let mut record = Record { serial, timestamp: 9, outcome, ..Record::default() };
    if wrong("busy") {
        (record.phase, record.live, record.quorum) = (phase::OPEN, ALL, 1);
    }
    let mut bytes = record::encode(&record);
    if wrong("damaged record") {
        let (place, value) = *random.pick(&[(8, 3), (9, 4), (42, 9), (11, 0x20)]);
        bytes[place] = value;
    }
    bytes
}

/// The settings: open from 600 to 699 but on day 20.
fn some_settings(random: &mut Random, wrong: &impl Fn(&str) -> bool) -> Vec<u8> {
    if wrong("damaged settings") {
        return damaged_settings(random);
    }
    let mut windows = vec![Window { start: 600, end: 700 }, Window { start: 650, end: 660 }];
    windows.truncate(1 + random.below(2));
    let mut settings = settings_of(Some(&Table { windows, dates: vec![3, 20] }));
    let noise = random.bytes(HOURS - 100);
    settings[100..HOURS].copy_from_slice(&noise);
    settings[HOURS..].copy_from_slice(&some_tail(random));
    settings
}

/// The call, at a record with an outcome.
fn some_begin(random: &mut Random, outcome: u8, wrong: &impl Fn(&str) -> bool) -> Call {
    let live = match (wrong("live"), wrong("no quorum")) {
        (false, false) => ALL,
        (false, true) => *random.pick(&[0, 2, 2064]),
        (true, false) => *random.pick(&[ALL + 1 + 1, 65_535, 32_768 | ALL]),
        (true, true) => *random.pick(&[ALL + 1, 0xe000, 32_768]),
    };
    let minute = match (wrong("minute"), wrong("closed minute")) {
        (true, _) => *random.pick(&[LAST_END, LAST_END + 1, 32_768, 65_535]),
        (false, true) => *random.pick(&[0, 599, 700, LAST_END - 1]),
        (false, false) => *random.pick(&[600, 650, 699]),
    };
    let day = if wrong("closed date") { *random.pick(&[3, 20]) } else { *random.pick(&[0, 4, 21, u32::MAX]) };
    let timestamp = some_timestamp(random, outcome, wrong("timestamp"));
    let mut distances = [1, 0].repeat(NODES);
    if wrong("distances' length") {
        distances.resize(*random.pick(&[0, DISTANCES - 1, DISTANCES + 1]), 0);
    }
    Call::Begin { live, distances, timestamp, day, minute }
}

pub fn begins(random: &mut Random, rounds: usize) -> Verdict {
    let mut numbers = [0; number::COUNT];
    for subset in 0..1 << BEGIN.len() {
        let wrong = |name: &str| has(&BEGIN, subset, name);
        for _ in 0..rounds {
            let outcome = some_outcome(random);
            let (mut record, mut settings) = (some_record(random, outcome, &wrong), some_settings(random, &wrong));
            if wrong("record's length") {
                misfit(random, &mut record);
            }
            if wrong("settings' length") {
                misfit(random, &mut settings);
            }
            let me = if wrong("no node") { 13 + random.below(243) as u8 } else { random.below(NODES) as u8 };
            let call = some_begin(random, outcome, &wrong);
            let number = same_begin(&record, &settings, me, &call)?;
            let expected = first(&BEGIN, subset, |_| true);
            ensure!(number == expected, "{number}, not {expected}, with {:?}", named(&BEGIN, subset));
            numbers[usize::from(number)] += 1;
        }
    }
    counted(1 << BEGIN.len(), &numbers, &[0, 1, 2, 3, 4, 5, 8, 9, 10, 13])
}

/// The names of a subset's faults.
pub fn named(faults: &[Fault], subset: usize) -> Vec<&'static str> {
    faults.iter().enumerate().filter(|(at, _)| subset >> at & 1 == 1).map(|(_, (name, _))| *name).collect()
}

pub fn station_begins(random: &mut Random, _: usize) -> Verdict {
    let mut numbers = [0; number::COUNT];
    let sound = buffers::of(&blank(ALL));
    for subset in 0..1 << STATION_BEGIN.len() {
        let wrong = |name: &str| has(&STATION_BEGIN, subset, name);
        let mut it = sound.clone();
        let (at, outcome) = (random.below(NODES), some_outcome(random));
        it.records[at * RECORD..(at + 1) * RECORD].copy_from_slice(&some_record(random, outcome, &wrong));
        it.put_settings(at, &some_settings(random, &wrong));
        let on = if wrong("off") { ALL & !(1 << at) } else { *random.pick(&[ALL, 1 << at]) };
        it.own = (if wrong("damaged mask") { on | 0x2000 } else { on }).to_le_bytes().to_vec();
        let lengths = [("records' length", &mut it.records), ("mask's length", &mut it.own), ("settings' length", &mut it.settings)];
        for (name, buffer) in lengths {
            if wrong(name) {
                misfit(random, buffer);
            }
        }
        let node = if wrong("no node") { 13 + random.below(243) as u8 } else { at as u8 };
        let step = Step::Host { node, call: some_begin(random, outcome, &wrong) };
        let number = same_step(&mut it, &step)?;
        // Where there is no such node, no record and no settings are looked at.
        let looked = |name: &str| !(wrong("no node") && ["damaged record", "damaged settings"].contains(&name));
        let expected = first(&STATION_BEGIN, subset, looked);
        ensure!(number == expected, "{number}, not {expected}, with {:?}", named(&STATION_BEGIN, subset));
        numbers[usize::from(number)] += 1;
    }
    counted(1 << STATION_BEGIN.len(), &numbers, &[0, 1, 2, 3, 4, 5, 8, 9, 10, 13])
}

/// A load's faults, and the same at a station.
const LOAD: [Fault; 4] = [
    ("settings' length", number::LENGTH),
    ("list's length", number::LENGTH),
    ("damaged settings", number::DAMAGED),
    ("faulty list", number::DAMAGED),
];

const STATION_LOAD: [Fault; 8] = [
    ("mask's length", number::LENGTH),
    ("settings' length", number::LENGTH),
    ("list's length", number::LENGTH),
    ("damaged mask", number::DAMAGED),
    ("damaged settings", number::DAMAGED),
    ("faulty list", number::DAMAGED),
    ("no node", number::STRANGER),
    ("off", number::OUT_OF_TURN),
];

/// The list that a subset asks for.
fn some_list(random: &mut Random, wrong: &impl Fn(&str) -> bool) -> Vec<u8> {
    let of = |number: u8| DAMAGES.iter().filter(|damage| damage.number == number).collect::<Vec<&Damage>>();
    let (misfits, faulty) = (of(number::LENGTH), of(number::DAMAGED));
    match (wrong("list's length"), wrong("faulty list")) {
        (false, false) => encode(&Table { windows: vec![some_window(random)], dates: vec![20] }),
        (false, true) => random.pick(&faulty).make(random),
        (true, false) => random.pick(&misfits).make(random),
        (true, true) => {
            let mut list = random.pick(&faulty).make(random);
            let length = list.len();
            list.resize(*random.pick(&[length - 1, length + 1]), 0);
            list
        }
    }
}

pub fn loads(random: &mut Random, rounds: usize) -> Verdict {
    let mut numbers = [0; number::COUNT];
    for subset in 0..1 << LOAD.len() {
        let wrong = |name: &str| has(&LOAD, subset, name);
        for _ in 0..400 * rounds {
            let mut settings = some_settings(random, &wrong);
            if wrong("settings' length") {
                misfit(random, &mut settings);
            }
            let (number, _) = same_load(&settings, &some_list(random, &wrong))?;
            let expected = first(&LOAD, subset, |_| true);
            ensure!(number == expected, "{number}, not {expected}, with {:?}", named(&LOAD, subset));
            numbers[usize::from(number)] += 1;
        }
    }
    counted(1 << LOAD.len(), &numbers, &[0, 1, 2])
}

pub fn station_loads(random: &mut Random, rounds: usize) -> Verdict {
    let mut numbers = [0; number::COUNT];
    let sound = buffers::of(&blank(ALL));
    for subset in 0..1 << STATION_LOAD.len() {
        let wrong = |name: &str| has(&STATION_LOAD, subset, name);
        for _ in 0..40 * rounds {
            let mut it = sound.clone();
            let at = random.below(NODES);
            it.put_settings(at, &some_settings(random, &wrong));
            let on = if wrong("off") { ALL & !(1 << at) } else { *random.pick(&[ALL, 1 << at]) };
            it.own = (if wrong("damaged mask") { on | 0x2000 } else { on }).to_le_bytes().to_vec();
            if wrong("mask's length") {
                misfit(random, &mut it.own);
            }
            if wrong("settings' length") {
                misfit(random, &mut it.settings);
            }
            let node = if wrong("no node") { 13 + random.below(243) as u8 } else { at as u8 };
            let number = same_step(&mut it, &Step::Load { node, list: some_list(random, &wrong) })?;
            let looked = |name: &str| !(wrong("no node") && name == "damaged settings");
            let expected = first(&STATION_LOAD, subset, looked);
            ensure!(number == expected, "{number}, not {expected}, with {:?}", named(&STATION_LOAD, subset));
            numbers[usize::from(number)] += 1;
        }
    }
    counted(1 << STATION_LOAD.len(), &numbers, &[0, 1, 2, 4, 5])
}
