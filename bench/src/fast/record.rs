//! The record where it stands: its places, and its check, which makes one pass over the objects.

use super::bytes::{all_zero, get_u16, get_u32, get_u64};
use super::{number, quorum, LAST};
use crate::library::{ALL, RECORD};

pub type Record = [u8; RECORD];

/// Places of fields.
pub const SERIAL: usize = 0;
pub const TIMESTAMP: usize = 4;
pub const OUTCOME: usize = 8;
pub const PHASE: usize = 9;
pub const LIVE: usize = 10;
pub const DISTANCES: usize = 12;
pub const QUORUM: usize = 38;
pub const CONTACTED: usize = 40;
pub const COUNT: usize = 42;
pub const OBJECTS: usize = 43;
pub const OBJECT: usize = 25;
pub const PARTICIPANTS: usize = 243;
pub const YES: usize = 245;
pub const DONE: usize = 247;
pub const RIVALS: usize = 249;

/// Places in an object: its number, mode, the nodes whose copies came, version, value, whether a new value is given, new value.
pub const MODE: usize = 1;
pub const CAME: usize = 2;
pub const VERSION: usize = 4;
pub const VALUE: usize = 8;
pub const GIVEN: usize = 16;
pub const NEW: usize = 17;

/// Phases and outcomes.
pub const IDLE: u8 = 0;
pub const OPEN: u8 = 1;
pub const VOTING: u8 = 2;
pub const FINISHING: u8 = 3;
pub const COMMITTED: u8 = 1;
pub const ABORTED: u8 = 2;

type Object = [u8; OBJECT];

/// The opened objects of a record that is in order, in the order of opening.
#[inline(always)]
pub fn objects(record: &Record) -> &[Object] {
    &all_objects(record)[..usize::from(record[COUNT]).min(8)]
}

#[inline(always)]
pub fn objects_mut(record: &mut Record) -> &mut [Object] {
    let count = usize::from(record[COUNT]).min(8);
    &mut record[OBJECTS..PARTICIPANTS].as_chunks_mut().0[..count]
}

#[inline(always)]
fn all_objects(record: &Record) -> &[Object] {
    record[OBJECTS..PARTICIPANTS].as_chunks().0
}

/// Whose done ends finishing.
#[inline(always)]
pub fn awaited(record: &Record) -> u16 {
    let participants = get_u16(record, PARTICIPANTS);
    if participants == 0 {
        get_u16(record, CONTACTED)
    } else {
        participants
    }
}

#[inline(always)]
pub fn is_ready(object: &Object) -> bool {
    quorum::is_read(get_u16(object, CAME))
}

/// Votes may be asked for.
#[inline(always)]
pub fn is_settled(object: &Object) -> bool {
    is_ready(object) && object[MODE] == object[GIVEN]
}

#[inline(always)]
pub fn is_used_up(object: &Object) -> bool {
    object[MODE] == 1 && get_u32(object, VERSION) == LAST
}

#[inline(always)]
fn within(small: u16, large: u16) -> bool {
    small & !large == 0
}

/// Whether every clause of a record is kept.
#[inline(always)]
pub fn is_valid(record: &Record) -> bool {
    let (serial, timestamp, outcome) = (get_u32(record, SERIAL), get_u32(record, TIMESTAMP), record[OUTCOME]);
    let phase = record[PHASE];
    if serial == 0 {
        return timestamp == 0 && outcome == 0 && phase == IDLE && all_zero(&record[LIVE..]);
    }
    if timestamp == 0 || outcome > ABORTED || phase > FINISHING {
        return false;
    }
    if phase == IDLE {
        return all_zero(&record[LIVE..]);
    }
    are_nodes(record) && are_objects(record) && are_votes(record, phase, outcome)
}

/// Live nodes, the present quorum, the contacted nodes.
#[inline(always)]
fn are_nodes(record: &Record) -> bool {
    let (live, quorum, contacted) = (get_u16(record, LIVE), get_u16(record, QUORUM), get_u16(record, CONTACTED));
    let asked = if record[COUNT] == 0 { contacted == 0 } else { within(quorum, contacted) };
    live | quorum | contacted <= ALL && quorum::is_read(quorum) && asked
}

/// An opened object.
#[inline(always)]
fn is_object(object: &Object, contacted: u16) -> bool {
    let came = get_u16(object, CAME);
    let found = came != 0 || get_u32(object, VERSION) == 0 && get_u64(object, VALUE) == 0;
    let new = match object[GIVEN] {
        0 => get_u64(object, NEW) == 0,
        given => given == 1 && object[MODE] == 1,
    };
    object[0] < 128 && object[MODE] < 2 && within(came, contacted) && found && new
}

/// The opened objects, none of them twice, settled where votes are asked for; behind them there is nothing.
#[inline(always)]
fn are_objects(record: &Record) -> bool {
    let (contacted, asked) = (get_u16(record, CONTACTED), get_u16(record, PARTICIPANTS) != 0);
    let count = usize::from(record[COUNT]);
    if count > 8 {
        return false;
    }
    let mut seen = 0u128;
    for object in objects(record) {
        let bit = 1 << (object[0] & 127);
        if !is_object(object, contacted) || seen & bit != 0 || asked && (!is_settled(object) || is_used_up(object)) {
            return false;
        }
        seen |= bit;
    }
    all_zero(&record[OBJECTS + OBJECT * count..PARTICIPANTS])
}

/// The participants, their votes and their dones.
#[inline(always)]
fn are_votes(record: &Record, phase: u8, outcome: u8) -> bool {
    let (participants, contacted) = (get_u16(record, PARTICIPANTS), get_u16(record, CONTACTED));
    let (yes, done) = (get_u16(record, YES), get_u16(record, DONE));
    let asked = participants != 0;
    let party = if asked {
        participants <= ALL && quorum::is_write(participants) && within(contacted, participants) && record[COUNT] != 0
    } else {
        all_zero(&record[RIVALS..])
    };
    let agreed = asked && yes == participants;
    party
        && within(yes, participants)
        && match phase {
            OPEN => !asked && done == 0,
            VOTING => asked && !agreed && done == 0,
            _ => {
                let awaited = awaited(record);
                outcome == if agreed { COMMITTED } else { ABORTED } && within(done, awaited) && done != awaited
            }
        }
}

/// The number of bytes as a record: 0, 1 or 2.
#[inline(always)]
pub fn check(record: &[u8]) -> u8 {
    match record.try_into() {
        Err(_) => number::LENGTH,
        Ok(record) if is_valid(record) => 0,
        Ok(_) => number::DAMAGED,
    }
}

pub fn blank(record: &mut [u8]) -> u8 {
    let Ok(record): Result<&mut Record, _> = record.try_into() else { return number::LENGTH };
    record.fill(0);
    0
}
