//! Random steps that lead somewhere: each is chosen by looking at the station's bytes, so that transactions are begun, conflict, commit and
//! abort, while messages are kept, dropped and delayed, and nodes are switched off and on. Some steps are of any numbers at all.

use crate::library::{ALL, DISTANCES, WAITING};
use crate::random::Random;
use crate::station::{Station, Step};

/// Places in a record.
const TIMESTAMP: usize = 4;
const PHASE: usize = 9;
const QUORUM: usize = 38;
const CONTACTED: usize = 40;
const COUNT: usize = 42;
const OBJECTS: usize = 43;
const PARTICIPANTS: usize = 243;
const YES: usize = 245;
const DONE: usize = 247;

/// The objects that are opened often.
const OFTEN: usize = 40;

fn mask(record: &[u8], place: usize) -> u16 {
    u16::from_le_bytes([record[place], record[place + 1]])
}

/// One of the nodes of a mask, or any node where it is empty.
fn node_of(random: &mut Random, mask: u16) -> u8 {
    let nodes: Vec<u8> = (0..13).filter(|node| mask >> node & 1 == 1).collect();
    if nodes.is_empty() {
        random.below(13) as u8
    } else {
        *random.pick(&nodes)
    }
}

fn distances(random: &mut Random) -> [u8; DISTANCES] {
    let wide = random.once_in(2);
    std::array::from_fn(|i| if i % 2 == 1 && !wide { 0 } else { random.byte() >> if wide { 0 } else { 5 } })
}

fn live(random: &mut Random) -> u16 {
    match random.below(24) {
        0 => random.word() & ALL,
        1 => ALL & !1,
        2..=4 => random.word() & ALL | random.word() & ALL | 1,
        _ => ALL,
    }
}

/// A day and a minute, mostly those that every table has open.
fn clock(random: &mut Random) -> (u32, u16) {
    match random.below(16) {
        0 => (random.below(4) as u32, random.below(10_100) as u16),
        1..=3 => (u32::from(random.once_in(2)), *random.pick(&[599, 600, 649, 650, 651, 699, 700])),
        _ => (7, 650),
    }
}

/// An object that a record has opened, where it has any.
fn opened(random: &mut Random, record: &[u8]) -> u8 {
    match record[COUNT] {
        0 => random.below(OFTEN) as u8,
        count => record[OBJECTS + 25 * random.below(usize::from(count))],
    }
}

/// A step at an open record.
fn open_step(random: &mut Random, node: u8, record: &[u8]) -> Step {
    let object = opened(random, record);
    let more = record[COUNT] == 0 || random.once_in(6);
    match random.below(20) {
        0 | 1 if more => Step::OpenRead { node, object: random.below(OFTEN) as u8 },
        2 | 3 if more => Step::OpenWrite { node, object: random.below(OFTEN) as u8 },
        4..=6 => Step::SetValue { node, object, value: if random.once_in(4) { i64::MAX } else { random.next() as i64 } },
        7 => Step::Found { node, object },
        8 => Step::Reselect { node, live: live(random), distances: distances(random) },
        9..=11 => Step::RequestCommit { node },
        12 if random.once_in(6) => Step::Abort { node },
        _ => Step::Send { node, to: node_of(random, mask(record, QUORUM)), object },
    }
}

/// The timestamp of a record's last transaction.
pub fn last_timestamp(record: &[u8]) -> u32 {
    u32::from_le_bytes(std::array::from_fn(|i| record[TIMESTAMP + i]))
}

/// A step at a node, by the phase of its record.
fn node_step(random: &mut Random, station: &Station, node: u8) -> Step {
    let record = station.record(usize::from(node));
    let participants = mask(record, PARTICIPANTS);
    let awaited = if participants == 0 { mask(record, CONTACTED) } else { participants };
    let send = |random: &mut Random, to| Step::Send { node, to: node_of(random, to), object: 0 };
    match record[PHASE] {
        0 => {
            // One below the last, the last, and later ones.
            let timestamp = last_timestamp(record).wrapping_add(random.below(12) as u32).saturating_sub(1);
            let (day, minute) = clock(random);
            let (live, distances) = (live(random), distances(random));
            match random.below(8) {
                0 => Step::LoadClasses { node, table: random.byte() },
                1 | 2 => Step::Batch { node, live, distances, timestamp, day, minute, batch: random.byte() },
                _ => Step::Begin { node, live, distances, timestamp, day, minute },
            }
        }
        1 => open_step(random, node, record),
        2 if random.once_in(60) => Step::Abort { node },
        2 => send(random, participants & !mask(record, YES)),
        _ if random.once_in(10) => send(random, ALL),
        _ => send(random, awaited & !mask(record, DONE)),
    }
}

/// A step of any numbers.
fn any_step(random: &mut Random) -> Step {
    let (node, object) = (random.below(15) as u8, random.below(136) as u8);
    match random.below(15) {
        13 => Step::LoadClasses { node, table: random.byte() },
        14 => Step::Batch {
            node,
            live: random.word() >> random.below(4),
            distances: distances(random),
            timestamp: random.next() as u32 >> 20,
            day: 7,
            minute: random.word(),
            batch: random.byte(),
        },
        0 => Step::Begin {
            node,
            live: random.word() >> random.below(4),
            distances: distances(random),
            timestamp: random.next() as u32 >> 20,
            day: random.next() as u32 >> random.below(32),
            minute: random.word(),
        },
        1 => Step::Reselect { node, live: random.word() >> random.below(4), distances: distances(random) },
        2 => Step::OpenRead { node, object },
        3 => Step::OpenWrite { node, object },
        4 => Step::SetValue { node, object, value: random.next() as i64 },
        5 => Step::Found { node, object },
        6 => Step::RequestCommit { node },
        7 => Step::Abort { node },
        8 => Step::Send { node, to: random.below(15) as u8, object },
        9 => Step::Deliver { k: random.byte(), kept: random.byte() & 1 },
        10 => Step::Drop { k: random.byte() },
        11 => Step::LoadHours { node, table: random.byte() },
        _ => Step::Switch { node, up: random.byte() & 3 },
    }
}

/// A node that is off comes on again, most of the time; else one goes off.
fn switch_step(random: &mut Random, on: u16) -> Step {
    let off = ALL & !on;
    if off != 0 && !random.once_in(4) {
        return Step::Switch { node: node_of(random, off), up: 1 };
    }
    Step::Switch { node: random.below(13) as u8, up: u8::from(random.once_in(2)) }
}

/// The next step at a station. Where `eager` is high, few messages wait; where it is 0, the pool fills.
pub fn next(random: &mut Random, station: &Station, eager: usize) -> Step {
    let waiting = station.waiting().min(WAITING);
    match random.below(128) {
        0 => return any_step(random),
        1 | 2 => return switch_step(random, mask(&station.own, 0)),
        3 if waiting > 0 => return Step::Drop { k: random.below(waiting) as u8 },
        4 if random.once_in(8) => return Step::Abort { node: random.below(13) as u8 },
        5 => return Step::LoadHours { node: random.below(13) as u8, table: random.byte() },
        _ => {}
    }
    let crowded = random.below(WAITING) < eager * waiting;
    if waiting > 0 && (crowded || random.once_in(6)) {
        return Step::Deliver { k: random.below(waiting) as u8, kept: u8::from(random.once_in(10)) };
    }
    let node = [0, 1, 4, 7, 9, 12][random.below(6)];
    node_step(random, station, node)
}
