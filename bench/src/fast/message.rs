//! Which bytes are a message: each kind has one layout, so its counts are looked at where they must stand.

use super::bytes::{get_u32, get_u64};
use super::kind::{ASK, COPY, DONE, FETCH, OUTCOME, VOTE, YIELD};
use super::{number, LAST};
use crate::library::MESSAGE_MAX;

/// Bytes of the shortest message, of an entry and of a rival; where entries start, and rivals where there are no entries.
pub const SHORTEST: usize = 15;
pub const ENTRY: usize = 14;
pub const RIVAL: usize = 5;
pub const ENTRIES: usize = 13;
pub const RIVALS: usize = 14;

/// The header's fields.
#[inline(always)]
pub fn serial(message: &[u8]) -> u32 {
    get_u32(message, 4)
}

#[inline(always)]
pub fn stamp(message: &[u8]) -> u32 {
    get_u32(message, 8)
}

/// The entries of a well-formed message.
#[inline(always)]
pub fn entries(message: &[u8]) -> impl Iterator<Item = &[u8; ENTRY]> {
    let count = usize::from(message[12]);
    message[ENTRIES..ENTRIES + ENTRY * count].as_chunks().0.iter()
}

/// The rivals of a well-formed vote or yield.
#[inline(always)]
pub fn rivals(message: &[u8]) -> impl Iterator<Item = &[u8; RIVAL]> {
    let count = usize::from(message[13]);
    message[RIVALS..RIVALS + RIVAL * count].as_chunks().0.iter()
}

/// The word of a well-formed vote or outcome is its last byte.
#[inline(always)]
pub fn word(message: &[u8]) -> u8 {
    message[message.len() - 1]
}

/// The number of bytes as a message: 0, 1 or 3.
#[inline(always)]
pub fn check(message: &[u8]) -> u8 {
    if message.len() < SHORTEST || message.len() > MESSAGE_MAX {
        number::LENGTH
    } else if is_formed(message) {
        0
    } else {
        number::GARBLED
    }
}

#[inline(always)]
fn is_formed(message: &[u8]) -> bool {
    let &[kind, from, to, owner, ..] = message else { return false };
    if from.max(to).max(owner) > 12 || serial(message) == 0 || stamp(message) == 0 {
        return false;
    }
    match kind {
        FETCH => from == owner && is_single(message) && get_u32(message, 15) == 0 && get_u64(message, 19) == 0,
        COPY => to == owner && is_single(message),
        ASK => from == owner && message[12] != 0 && has_entries(message, 0) && are_entries(message),
        VOTE => to == owner && is_vote(message, owner),
        OUTCOME => from == owner && is_outcome(message),
        DONE => to == owner && message.len() == SHORTEST && message[12] | message[13] | message[14] == 0,
        YIELD => from == owner && is_yield(message, to, owner),
        _ => false,
    }
}

/// One entry, no rival, no word; its object and mode.
#[inline(always)]
fn is_single(message: &[u8]) -> bool {
    let Ok(message): Result<&[u8; 29], _> = message.try_into() else { return false };
    message[12] == 1 && message[27] | message[28] == 0 && message[13] < 128 && message[14] < 2
}

/// At most eight entries, no rival, so many words, and nothing else.
#[inline(always)]
fn has_entries(message: &[u8], words: usize) -> bool {
    let count = usize::from(message[12]);
    let end = ENTRIES + ENTRY * count;
    count <= 8 && message.len() == end + 2 + words && message[end] == 0 && usize::from(message[end + 1]) == words
}

/// Objects below 128 that ascend strictly; a read without a value, a write with a version left.
#[inline(always)]
fn are_entries(message: &[u8]) -> bool {
    let mut next = 0;
    for entry in entries(message) {
        let fits = match entry[1] {
            0 => get_u64(entry, 6) == 0,
            1 => get_u32(entry, 2) != LAST,
            _ => false,
        };
        if !fits || entry[0] < next {
            return false;
        }
        next = entry[0].saturating_add(1);
    }
    next <= 128
}

#[inline(always)]
fn is_vote(message: &[u8], owner: u8) -> bool {
    let count = usize::from(message[13]);
    let end = RIVALS + RIVAL * count;
    if message[12] != 0 || count > 12 || message.len() != end + 2 || message[end] != 1 || message[end + 1] > 1 {
        return false;
    }
    (message[end + 1] == 1 || count == 0) && are_rivals(message, owner)
}

/// Nodes that ascend strictly, never the owner, each with a serial.
#[inline(always)]
fn are_rivals(message: &[u8], owner: u8) -> bool {
    let mut next = 0;
    for rival in rivals(message) {
        if rival[0] < next || rival[0] == owner || rival[0] > 12 || get_u32(rival, 1) == 0 {
            return false;
        }
        next = rival[0] + 1;
    }
    true
}

#[inline(always)]
fn is_outcome(message: &[u8]) -> bool {
    if !has_entries(message, 1) {
        return false;
    }
    match word(message) {
        0 => message[12] == 0,
        1 => message[12] != 0 && are_entries(message),
        _ => false,
    }
}

#[inline(always)]
fn is_yield(message: &[u8], to: u8, owner: u8) -> bool {
    let Ok(message): Result<&[u8; 20], _> = message.try_into() else { return false };
    message[12] | message[19] == 0 && message[13] == 1 && message[14] == to && to != owner && get_u32(message, 15) != 0
}
