//! The coordinator's calls and deliveries, on a record that was found in order. Each finds its refusal, then changes a few bytes.

use super::bytes::{get_u16, get_u32, get_u64, put_u16, put_u32, put_u64};
use super::classes;
use super::hours::{self, Settings};
use super::kind::{COPY, DONE, VOTE, YIELD};
use super::message::{self, SHORTEST};
use super::record::{self, Record, ABORTED, COMMITTED, FINISHING, IDLE, OPEN, VOTING};
use super::{number, quorum, Answer, LAST};
use crate::library::{BeginWith, ALL, DISTANCES, MESSAGE_MAX};

/// What a delivery brings about; 1 and 2 are the outcomes.
const NOTHING: u64 = 0;
const READY: u64 = 3;
const FINISHED: u64 = 4;

/// A record of lent bytes: 1 for another length, 2 where it is not in order.
#[inline(always)]
fn checked(record: &mut [u8]) -> Result<&mut Record, u8> {
    let record: &mut Record = record.try_into().map_err(|_| number::LENGTH)?;
    if record::is_valid(record) {
        Ok(record)
    } else {
        Err(number::DAMAGED)
    }
}

/// A call on a record's bytes.
#[inline(always)]
pub fn on_bytes(record: &mut [u8], call: impl FnOnce(&mut Record) -> Answer) -> Answer {
    call(checked(record)?)
}

/// A call on a record's bytes that takes distances.
#[inline(always)]
pub fn on_bytes_with(record: &mut [u8], distances: &[u8], call: impl FnOnce(&mut Record, &[u8; DISTANCES]) -> Answer) -> Answer {
    let distances = distances.try_into().map_err(|_| number::LENGTH)?;
    call(checked(record)?, distances)
}

/// A call on the bytes of a record and of settings, which is told whether the transaction is the host's own.
#[inline(always)]
pub fn on_both<T>(record: &mut [u8], settings: &[u8], call: impl FnOnce(&mut Record, bool) -> Result<T, u8>) -> Result<T, u8> {
    let settings: &Settings = settings.try_into().map_err(|_| number::LENGTH)?;
    let record = checked(record)?;
    if !hours::is_valid(settings) {
        return Err(number::DAMAGED);
    }
    call(record, settings[classes::KIND] == classes::OWN)
}

/// The first refusals of most calls: 4 for what is no node, 5 where it is off or the phase is another.
#[inline(always)]
fn turn(me: u8, on: bool, fits: bool) -> Result<(), u8> {
    if me > 12 {
        Err(number::STRANGER)
    } else if !on || !fits {
        Err(number::OUT_OF_TURN)
    } else {
        Ok(())
    }
}

/// Takes what the host says of the nodes, and the read quorum chosen from it.
#[inline(always)]
fn select(record: &mut Record, live: u16, distances: &[u8; DISTANCES], quorum: u16) {
    put_u16(record, record::LIVE, live);
    record[record::DISTANCES..record::QUORUM].copy_from_slice(distances);
    put_u16(record, record::QUORUM, quorum);
}

/// The weights of a batch, if it is one.
pub type Weights<'a> = Option<&'a [[u8; 2]]>;

/// A begin on the bytes of a record and of settings; with a list it is a batch.
#[inline(always)]
pub fn begin_call(record: &mut [u8], settings: &mut [u8], me: u8, with: BeginWith, list: Option<&[u8]>) -> Answer {
    let settings: &mut Settings = settings.try_into().map_err(|_| number::LENGTH)?;
    let weights = list.map(classes::weights).transpose()?;
    on_bytes_with(record, with.distances, |record, distances| {
        if !hours::is_valid(settings) {
            return Err(number::DAMAGED);
        }
        begin(record, settings, me, true, distances, with, weights)
    })
}

/// 3 of a begin or a batch, whatever its node.
#[inline(always)]
pub fn is_garbled(minute: u16, weights: Weights) -> bool {
    minute > hours::LAST_MINUTE || weights.is_some_and(classes::is_garbled)
}

/// Whether a timestamp comes too early: below the last one, and at it unless the last transaction was aborted.
#[inline(always)]
fn is_early(record: &Record, timestamp: u32) -> bool {
    let last = get_u32(record, record::TIMESTAMP);
    timestamp < last || (timestamp == last && record[record::OUTCOME] != ABORTED)
}

#[inline(always)]
pub fn begin(
    record: &mut Record,
    settings: &mut Settings,
    me: u8,
    on: bool,
    distances: &[u8; DISTANCES],
    with: BeginWith,
    weights: Weights,
) -> Answer {
    let BeginWith { live, timestamp, day, minute, .. } = with;
    if is_garbled(minute, weights) {
        return Err(number::GARBLED);
    }
    if me > 12 || live > ALL {
        return Err(number::STRANGER);
    }
    if record[record::PHASE] != IDLE {
        return Err(number::BUSY);
    }
    let no_table = || classes::kept(settings).is_none_or(|table| table.is_none());
    if !on || is_early(record, timestamp) || (weights.is_some() && no_table()) {
        return Err(number::OUT_OF_TURN);
    }
    let (quorum, _) = quorum::nearest_read(live, distances, me).ok_or(number::NO_QUORUM)?;
    let serial = get_u32(record, record::SERIAL);
    if serial == LAST {
        return Err(number::USED_UP);
    }
    if hours::is_closed(settings, day, minute) {
        return Err(number::CLOSED);
    }
    let waited = classes::tenths(record, settings);
    put_u32(record, record::SERIAL, serial + 1);
    put_u32(record, record::TIMESTAMP, timestamp);
    record[record::PHASE] = OPEN;
    select(record, live, distances, quorum);
    match weights.zip(classes::kept(settings)) {
        None => classes::settle(settings, classes::OWN, waited, [0; 8]),
        Some((weights, table)) => {
            let (grams, left) = table.split(waited, weights);
            record[record::COUNT] = table.objects.len() as u8;
            put_u16(record, record::CONTACTED, quorum);
            for ((opened, &object), grams) in record::objects_mut(record).iter_mut().zip(table.objects).zip(grams) {
                (opened[0], opened[record::MODE], opened[record::GIVEN]) = (object, 1, 1);
                put_u64(opened, record::NEW, grams);
            }
            classes::settle(settings, classes::BATCH, waited, left);
        }
    }
    Ok(u64::from(quorum))
}

#[inline(always)]
pub fn reselect(record: &mut Record, me: u8, on: bool, live: u16, distances: &[u8; DISTANCES]) -> Answer {
    if live > ALL {
        return Err(number::STRANGER);
    }
    turn(me, on, record[record::PHASE] == OPEN)?;
    let (quorum, _) = quorum::nearest_read(live, distances, me).ok_or(number::NO_QUORUM)?;
    select(record, live, distances, quorum);
    if record[record::COUNT] != 0 {
        contact(record, quorum);
    }
    Ok(u64::from(quorum))
}

#[inline(always)]
fn contact(record: &mut Record, nodes: u16) {
    let contacted = get_u16(record, record::CONTACTED);
    put_u16(record, record::CONTACTED, contacted | nodes);
}

#[inline(always)]
pub fn open(record: &mut Record, me: u8, on: bool, object: u8, mode: u8) -> Answer {
    turn(me, on, record[record::PHASE] == OPEN)?;
    if object > 127 || record::objects(record).iter().any(|opened| opened[0] == object) {
        return Err(number::NO_SUCH_OBJECT);
    }
    let count = usize::from(record[record::COUNT]);
    if count >= 8 {
        return Err(number::EIGHT_OPEN);
    }
    record[record::COUNT] = count as u8 + 1;
    let place = record::OBJECTS + record::OBJECT * count;
    (record[place], record[place + record::MODE]) = (object, mode);
    contact(record, get_u16(record, record::QUORUM));
    Ok(0)
}

#[inline(always)]
pub fn set_value(record: &mut Record, me: u8, on: bool, object: u8, value: i64) -> Answer {
    turn(me, on, record[record::PHASE] == OPEN)?;
    let opened = record::objects_mut(record).iter_mut().find(|opened| opened[0] == object);
    let opened = opened.filter(|opened| opened[record::MODE] == 1).ok_or(number::NO_SUCH_OBJECT)?;
    opened[record::GIVEN] = 1;
    put_u64(opened, record::NEW, value as u64);
    Ok(0)
}

#[inline(always)]
pub fn found(record: &Record, me: u8, on: bool, object: u8) -> Answer {
    turn(me, on, record[record::PHASE] != IDLE)?;
    let opened = record::objects(record).iter().find(|opened| opened[0] == object).ok_or(number::NO_SUCH_OBJECT)?;
    if record::is_ready(opened) {
        Ok(get_u64(opened, record::VALUE))
    } else {
        Err(number::NOT_READY)
    }
}

/// Participants; none where it is a batch that is given up.
#[inline(always)]
pub fn request_commit(record: &mut Record, me: u8, on: bool, own: bool) -> Result<Option<u64>, u8> {
    turn(me, on, record[record::PHASE] == OPEN)?;
    let objects = record::objects(record);
    if objects.is_empty() || !objects.iter().all(record::is_settled) {
        return Err(number::NOT_READY);
    }
    let distances = record[record::DISTANCES..record::QUORUM].try_into().expect("26 bytes");
    let (quorum, _) = quorum::nearest_write(get_u16(record, record::LIVE), distances, me).ok_or(number::NO_QUORUM)?;
    if objects.iter().any(record::is_used_up) {
        return Err(number::USED_UP);
    }
    if !own && !add(record) {
        give_up(record);
        return Ok(None);
    }
    let participants = quorum | get_u16(record, record::CONTACTED);
    record[record::PHASE] = VOTING;
    put_u16(record, record::PARTICIPANTS, participants);
    Ok(Some(u64::from(participants)))
}

/// Each amount of a batch becomes the value found and the amount; false where one is past the range, and then nothing has changed.
#[inline(always)]
fn add(record: &mut Record) -> bool {
    let sum = |opened: &[u8; record::OBJECT]| (get_u64(opened, record::VALUE) as i64).checked_add(get_u64(opened, record::NEW) as i64);
    let fits = record::objects(record).iter().all(|opened| sum(opened).is_some());
    if fits {
        for opened in record::objects_mut(record).iter_mut().filter(|opened| opened[record::MODE] == 1) {
            let sum = sum(opened).unwrap_or(0);
            put_u64(opened, record::NEW, sum as u64);
        }
    }
    fits
}

/// Only serial, timestamp and outcome stay.
#[inline(always)]
fn become_idle(record: &mut Record) {
    record[record::PHASE..].fill(0);
}

#[inline(always)]
fn give_up(record: &mut Record) {
    record[record::OUTCOME] = ABORTED;
    if record::awaited(record) == 0 {
        become_idle(record);
    } else {
        record[record::PHASE] = FINISHING;
    }
}

#[inline(always)]
pub fn abort(record: &mut Record, me: u8, on: bool) -> Answer {
    let phase = record[record::PHASE];
    turn(me, on, phase == OPEN || phase == VOTING)?;
    give_up(record);
    Ok(0)
}

/// The call: 1, 2, 3, 4, 5, or what the message brought about.
pub fn receive_call(record: &mut [u8], me: u8, message: &[u8]) -> Answer {
    if message.len() < SHORTEST || message.len() > MESSAGE_MAX {
        return Err(number::LENGTH);
    }
    let record = checked(record)?;
    match message::check(message) {
        0 if me > 12 || message[2] != me => Err(number::STRANGER),
        0 => receive(record, message),
        number => Err(number),
    }
}

/// A well-formed message at its own coordinator: 5, or what it brought about.
#[inline(always)]
pub fn receive(record: &mut Record, message: &[u8]) -> Answer {
    let ours = message::serial(message) == get_u32(record, record::SERIAL) && message::stamp(message) == get_u32(record, record::TIMESTAMP);
    let from = 1u16 << (message[1] & 15);
    Ok(match (message[0], record[record::PHASE]) {
        (COPY, OPEN) if ours && from & get_u16(record, record::CONTACTED) != 0 => take_copy(record, message, from),
        (VOTE, VOTING) if ours && from & get_u16(record, record::PARTICIPANTS) != 0 => take_vote(record, message, from),
        (DONE, FINISHING) if ours && from & record::awaited(record) != 0 => take_done(record, from),
        (YIELD, OPEN | VOTING) if get_u32(message, 15) == get_u32(record, record::SERIAL) => {
            give_up(record);
            u64::from(ABORTED)
        }
        (COPY | VOTE | DONE | YIELD, _) => NOTHING,
        _ => return Err(number::OUT_OF_TURN),
    })
}

/// A copy of an opened object in its mode counts until the object is ready.
#[inline(always)]
fn take_copy(record: &mut Record, message: &[u8], from: u16) -> u64 {
    let entry: &[u8; 14] = message[message::ENTRIES..].first_chunk().expect("an entry");
    let opened = record::objects_mut(record).iter_mut().find(|opened| opened[0] == entry[0]);
    let Some(opened) = opened.filter(|opened| opened[record::MODE] == entry[1]) else { return NOTHING };
    let (came, version) = (get_u16(opened, record::CAME), get_u32(entry, 2));
    if quorum::is_read(came) {
        return NOTHING;
    }
    if came == 0 || version > get_u32(opened, record::VERSION) {
        put_u32(opened, record::VERSION, version);
        put_u64(opened, record::VALUE, get_u64(entry, 6));
    }
    put_u16(opened, record::CAME, came | from);
    if quorum::is_read(came | from) {
        READY
    } else {
        NOTHING
    }
}

/// A no aborts; a yes counts with its rivals, and the last one commits.
#[inline(always)]
fn take_vote(record: &mut Record, message: &[u8], from: u16) -> u64 {
    if message::word(message) == 0 {
        give_up(record);
        return u64::from(ABORTED);
    }
    for rival in message::rivals(message) {
        let place = record::RIVALS + 4 * usize::from(rival[0]).min(12);
        let highest = get_u32(record, place).max(get_u32(rival, 1));
        put_u32(record, place, highest);
    }
    let yes = get_u16(record, record::YES) | from;
    put_u16(record, record::YES, yes);
    if yes != get_u16(record, record::PARTICIPANTS) {
        return NOTHING;
    }
    (record[record::PHASE], record[record::OUTCOME]) = (FINISHING, COMMITTED);
    u64::from(COMMITTED)
}

#[inline(always)]
fn take_done(record: &mut Record, from: u16) -> u64 {
    let done = get_u16(record, record::DONE) | from;
    if done == record::awaited(record) {
        become_idle(record);
        return FINISHED;
    }
    put_u16(record, record::DONE, done);
    NOTHING
}
