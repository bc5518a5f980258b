//! The pool where it stands: a count, then 128 slots of a length and 128 bytes.

use super::number;
use crate::library::{MESSAGE_MAX, POOL, SLOT, WAITING};

pub type Pool = [u8; POOL];

#[inline(always)]
pub fn count(pool: &Pool) -> usize {
    usize::from(pool[0])
}

/// 2 for an impossible count.
#[inline(always)]
pub fn check(pool: &Pool) -> Result<(), u8> {
    if count(pool) > WAITING {
        Err(number::DAMAGED)
    } else {
        Ok(())
    }
}

/// The k-th message, empty where its length is impossible; 5 where none waits.
#[inline(always)]
pub fn message(pool: &Pool, k: u8) -> Result<&[u8], u8> {
    let k = usize::from(k);
    if k >= count(pool) {
        return Err(number::OUT_OF_TURN);
    }
    let (length, message) = pool[1 + SLOT * k..][..SLOT].split_first().expect("a slot");
    Ok(message.get(..usize::from(*length)).unwrap_or_default())
}

/// Takes the k-th message out; those behind it move one slot down.
#[inline(always)]
pub fn remove(pool: &mut Pool, k: u8) {
    let (k, count) = (usize::from(k), count(pool));
    if k + 1 < count {
        pool.copy_within(1 + SLOT * (k + 1)..1 + SLOT * count, 1 + SLOT * k);
    }
    pool[0] = count as u8 - 1;
}

/// Lets a message be written straight into the slot behind the last; nothing is put where its length is 0. There must be room.
#[inline(always)]
pub fn put(pool: &mut Pool, write: impl FnOnce(&mut [u8; MESSAGE_MAX]) -> usize) {
    let count = count(pool);
    let (length, message) = pool[1 + SLOT * count..][..SLOT].split_first_mut().expect("a slot");
    let written = write(message.first_chunk_mut().expect("128 bytes"));
    if written != 0 {
        *length = written as u8;
        pool[0] = count as u8 + 1;
    }
}
