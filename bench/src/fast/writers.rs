//! Messages written, each straight into the front of its buffer once nothing refuses it.

use super::bytes::{put_u32, put_u64};
use super::kind::{ASK, COPY, DONE, FETCH, OUTCOME, VOTE, YIELD};
use super::message::{ENTRIES, ENTRY, RIVAL, RIVALS};
use super::{number, LAST};
use crate::library::{Entries, Entry, Serials, Transaction, MESSAGE_MAX};

type Buffer = [u8; MESSAGE_MAX];

/// The front of a buffer, or 1 where it is too short; then 3 where a fact does not hold.
#[inline(always)]
fn front(out: &mut [u8], other: u8, of: Transaction, fits: bool) -> Result<&mut Buffer, u8> {
    let out = out.first_chunk_mut().ok_or(number::LENGTH)?;
    if other > 12 || of.owner > 12 || of.serial == 0 || of.stamp == 0 || !fits {
        return Err(number::GARBLED);
    }
    Ok(out)
}

/// The twelve bytes of the header.
#[inline(always)]
pub fn head(out: &mut Buffer, kind: u8, from: u8, to: u8, of: Transaction) {
    put_u32(out, 0, u32::from_le_bytes([kind, from, to, of.owner]));
    put_u32(out, 4, of.serial);
    put_u32(out, 8, of.stamp);
}

#[inline(always)]
pub fn put_entry(out: &mut [u8], object: u8, mode: u8, version: u32, value: u64) {
    let out: &mut [u8; ENTRY] = out.first_chunk_mut().expect("room for an entry");
    (out[0], out[1]) = (object, mode);
    put_u32(out, 2, version);
    put_u64(out, 6, value);
}

/// One entry and nothing else; the message's length.
#[inline(always)]
pub fn put_single(out: &mut Buffer, object: u8, mode: u8, version: u32, value: u64) -> usize {
    out[12] = 1;
    put_entry(&mut out[ENTRIES..], object, mode, version, value);
    (out[27], out[28]) = (0, 0);
    29
}

/// No section has anything; the message's length.
#[inline(always)]
pub fn put_nothing(out: &mut Buffer) -> usize {
    (out[12], out[13], out[14]) = (0, 0, 0);
    15
}

/// A word behind sections that end at a place; the message's length.
#[inline(always)]
pub fn put_word(out: &mut Buffer, end: usize, word: u8) -> usize {
    (out[end], out[end + 1]) = (1, word);
    end + 2
}

pub fn fetch(out: &mut [u8], to: u8, of: Transaction, object: u8, mode: u8) -> Result<usize, u8> {
    let out = front(out, to, of, object < 128 && mode < 2)?;
    head(out, FETCH, of.owner, to, of);
    Ok(put_single(out, object, mode, 0, 0))
}

pub fn copy(out: &mut [u8], from: u8, of: Transaction, entry: Entry) -> Result<usize, u8> {
    let out = front(out, from, of, entry.object < 128 && entry.mode < 2)?;
    head(out, COPY, from, of.owner, of);
    Ok(put_single(out, entry.object, entry.mode, entry.version, entry.value as u64))
}

/// The entries that are meant, of those that are there.
#[inline(always)]
fn meant(entries: &Entries) -> &[Entry] {
    &entries.entry[..usize::from(entries.count).min(8)]
}

/// Whether entries are those of an ask: at most eight, and not none.
#[inline(always)]
fn is_asked(entries: &Entries) -> bool {
    (1..=8).contains(&entries.count) && are_asked(meant(entries))
}

/// Whether entries are those of an ask, apart from their number.
#[inline(always)]
fn are_asked(entries: &[Entry]) -> bool {
    let mut next = 0;
    for entry in entries {
        let fits = match entry.mode {
            0 => entry.value == 0,
            1 => entry.version != LAST,
            _ => false,
        };
        if !fits || entry.object < next {
            return false;
        }
        next = entry.object.saturating_add(1);
    }
    next <= 128
}

/// The entries and no rival; where the words' count goes.
#[inline(always)]
fn put_entries(out: &mut Buffer, entries: &[Entry]) -> usize {
    out[12] = entries.len() as u8;
    for (entry, place) in entries.iter().zip(out[ENTRIES..].chunks_exact_mut(ENTRY)) {
        put_entry(place, entry.object, entry.mode, entry.version, entry.value as u64);
    }
    let end = ENTRIES + ENTRY * entries.len();
    out[end] = 0;
    end + 1
}

pub fn ask(out: &mut [u8], to: u8, of: Transaction, entries: &Entries) -> Result<usize, u8> {
    let out = front(out, to, of, is_asked(entries))?;
    head(out, ASK, of.owner, to, of);
    let end = put_entries(out, meant(entries));
    out[end] = 0;
    Ok(end + 1)
}

pub fn vote(out: &mut [u8], from: u8, of: Transaction, rivals: &Serials, word: u8) -> Result<usize, u8> {
    let count = rivals.serial.iter().filter(|&&serial| serial != 0).count();
    let owner_named = rivals.serial.get(usize::from(of.owner)).is_some_and(|&serial| serial != 0);
    let out = front(out, from, of, word < 2 && !owner_named && (word == 1 || count == 0))?;
    head(out, VOTE, from, of.owner, of);
    (out[12], out[13]) = (0, count as u8);
    let mut end = RIVALS;
    for (owner, &serial) in (0..).zip(&rivals.serial) {
        if serial != 0 {
            put_rival(out, end, owner, serial);
            end += RIVAL;
        }
    }
    Ok(put_word(out, end, word))
}

/// A rival at a place. There are at most twelve.
#[inline(always)]
pub fn put_rival(out: &mut Buffer, place: usize, owner: u8, serial: u32) {
    let out: &mut [u8; RIVAL] = out[place..].first_chunk_mut().expect("room for a rival");
    out[0] = owner;
    put_u32(out, 1, serial);
}

pub fn outcome(out: &mut [u8], to: u8, of: Transaction, entries: &Entries, word: u8) -> Result<usize, u8> {
    let fits = match word {
        0 => entries.count == 0,
        1 => is_asked(entries),
        _ => false,
    };
    let out = front(out, to, of, fits)?;
    head(out, OUTCOME, of.owner, to, of);
    let end = put_entries(out, meant(entries));
    Ok(put_word(out, end, word))
}

pub fn done(out: &mut [u8], from: u8, of: Transaction) -> Result<usize, u8> {
    let out = front(out, from, of, true)?;
    head(out, DONE, from, of.owner, of);
    Ok(put_nothing(out))
}

pub fn yields(out: &mut [u8], of: Transaction, rival: u8, rival_serial: u32) -> Result<usize, u8> {
    let out = front(out, rival, of, rival != of.owner && rival_serial != 0)?;
    head(out, YIELD, of.owner, rival, of);
    Ok(put_yield(out, rival, rival_serial))
}

/// One rival and nothing else; the message's length.
#[inline(always)]
pub fn put_yield(out: &mut Buffer, rival: u8, serial: u32) -> usize {
    (out[12], out[13]) = (0, 1);
    put_rival(out, RIVALS, rival, serial);
    out[19] = 0;
    20
}
