//! The message that is due to a node, written from the record's bytes.

use super::bytes::{get_u16, get_u32, get_u64};
use super::kind::{ASK, FETCH, OUTCOME, YIELD};
use super::message::{ENTRIES, ENTRY};
use super::number;
use super::record::{self, Record, COMMITTED, FINISHING, OPEN, VOTING};
use super::writers::{head, put_entry, put_nothing, put_single, put_word, put_yield};
use crate::library::{Transaction, MESSAGE_MAX};

type Buffer = [u8; MESSAGE_MAX];

/// What is due, before it is written.
#[derive(Clone, Copy)]
pub enum Due {
    Nothing,
    /// The object's mode.
    Fetch(u8),
    Ask,
    Commit,
    Abort,
    /// The rival's serial.
    Yield(u32),
}

/// What is due from a record in order of node `me` to a node, both below 13; 6 where an object is not opened, 3 where the record names its own
/// node as a rival, which no step leaves: a yield to oneself is no message.
#[inline(always)]
pub fn find(record: &Record, me: u8, node: u8, object: u8) -> Result<Due, u8> {
    let to = 1u16 << (node & 15);
    Ok(match record[record::PHASE] {
        OPEN => {
            let opened = record::objects(record).iter().find(|opened| opened[0] == object).ok_or(number::NO_SUCH_OBJECT)?;
            let wanted = to & get_u16(record, record::QUORUM) != 0 && !record::is_ready(opened);
            if wanted {
                Due::Fetch(opened[record::MODE])
            } else {
                Due::Nothing
            }
        }
        VOTING if to & get_u16(record, record::PARTICIPANTS) & !get_u16(record, record::YES) != 0 => Due::Ask,
        FINISHING => return finishing(record, me, node, to),
        _ => Due::Nothing,
    })
}

/// While finishing, an outcome goes before a yield.
#[inline(always)]
fn finishing(record: &Record, me: u8, node: u8, to: u16) -> Result<Due, u8> {
    let commits = record[record::OUTCOME] == COMMITTED;
    if to & record::awaited(record) & !get_u16(record, record::DONE) != 0 {
        return Ok(if commits { Due::Commit } else { Due::Abort });
    }
    match get_u32(record, record::RIVALS + 4 * usize::from(node).min(12)) {
        serial if !commits || serial == 0 => Ok(Due::Nothing),
        _ if node == me => Err(number::GARBLED),
        serial => Ok(Due::Yield(serial)),
    }
}

/// Writes what is due; its length, 0 where nothing is.
#[inline(always)]
pub fn write(due: Due, record: &Record, me: u8, node: u8, object: u8, out: &mut Buffer) -> usize {
    let of = Transaction { owner: me, serial: get_u32(record, record::SERIAL), stamp: get_u32(record, record::TIMESTAMP) };
    let kind = match due {
        Due::Nothing => return 0,
        Due::Fetch(_) => FETCH,
        Due::Ask => ASK,
        Due::Commit | Due::Abort => OUTCOME,
        Due::Yield(_) => YIELD,
    };
    head(out, kind, me, node, of);
    match due {
        Due::Nothing => 0,
        Due::Fetch(mode) => put_single(out, object, mode, 0, 0),
        Due::Ask => {
            let end = put_entries(record, out);
            out[end] = 0;
            end + 1
        }
        Due::Commit => {
            let end = put_entries(record, out);
            put_word(out, end, 1)
        }
        Due::Abort => {
            put_nothing(out);
            put_word(out, 14, 0)
        }
        Due::Yield(serial) => put_yield(out, node, serial),
    }
}

/// The entries, ascending by object, and no rival; where the words' count goes. A place is found by how many objects are lower.
#[inline(always)]
fn put_entries(record: &Record, out: &mut Buffer) -> usize {
    let objects = record::objects(record);
    let opened = objects.iter().fold(0u128, |opened, object| opened | 1 << (object[0] & 127));
    out[12] = objects.len() as u8;
    for object in objects {
        let lower = (opened & ((1 << (object[0] & 127)) - 1)).count_ones() as usize;
        let place = &mut out[ENTRIES + ENTRY * lower..];
        put_entry(place, object[0], object[record::MODE], get_u32(object, record::VERSION), get_u64(object, record::NEW));
    }
    let end = ENTRIES + ENTRY * objects.len();
    out[end] = 0;
    end + 1
}

/// The call: 1, 2, 4, 6, or the message's length.
pub fn call(record: &[u8], me: u8, node: u8, object: u8, out: &mut [u8]) -> Result<usize, u8> {
    let out = out.first_chunk_mut().ok_or(number::LENGTH)?;
    let record: &Record = record.try_into().map_err(|_| number::LENGTH)?;
    if !record::is_valid(record) {
        return Err(number::DAMAGED);
    }
    if me > 12 || node > 12 {
        return Err(number::STRANGER);
    }
    let due = find(record, me, node, object)?;
    Ok(write(due, record, me, node, object, out))
}
