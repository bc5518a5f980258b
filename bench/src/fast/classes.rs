//! Weight classes where they stand: a table as it is lent and as settings keep it, a batch of weights, and what of it is booked.

use super::bytes::get_u16;
use super::hours::{self, Settings};
use super::record::{self, Record, COMMITTED, FINISHING, IDLE};
use super::{number, Answer};

/// Places in the settings: the table, the kind, the tenths that waited, and those that the last batch leaves over.
const TABLE: usize = 187;
pub const KIND: usize = 211;
const WAITED: usize = 212;
const LEFT: usize = 220;

pub const OWN: u8 = 0;
pub const BATCH: u8 = 1;

/// A weight or a bound from here on is none.
const TOO_HEAVY: u16 = 2000;
const WEIGHTS: usize = 4096;

/// The bounds, of two bytes each, and the objects of a table.
pub struct Table<'a> {
    bounds: &'a [[u8; 2]],
    pub objects: &'a [u8],
    /// Bytes behind it.
    rest: usize,
}

#[inline(always)]
fn front(bytes: &[u8]) -> Option<Table<'_>> {
    let (&count, bytes) = bytes.split_first()?;
    let (bounds, bytes) = bytes.split_at_checked(2 * usize::from(count))?;
    let (&count, bytes) = bytes.split_first()?;
    let (objects, bytes) = bytes.split_at_checked(usize::from(count))?;
    Some(Table { bounds: bounds.as_chunks().0, objects, rest: bytes.len() })
}

/// The table that settings keep.
#[inline(always)]
pub fn kept(settings: &Settings) -> Option<Table<'_>> {
    front(&settings[TABLE..KIND])
}

impl Table<'_> {
    #[inline(always)]
    pub fn is_none(&self) -> bool {
        self.bounds.is_empty() && self.objects.is_empty()
    }

    /// The number of its loading: 6, 10, 14, 15, else 0.
    #[inline(always)]
    fn number(&self, idle: bool) -> u8 {
        let rises = |bounds: &[[u8; 2]]| get_u16(&bounds[0], 0) < get_u16(&bounds[1], 0);
        let first = self.bounds.first().is_none_or(|bound| get_u16(bound, 0) > 0);
        let last = self.bounds.last().is_none_or(|bound| get_u16(bound, 0) < TOO_HEAVY);
        let fit = self.bounds.len() <= 7 && self.bounds.len() + 1 == self.objects.len();
        let seen = self.objects.iter().fold(0u128, |seen, &object| seen | 1 << (object & 127));
        if self.objects.iter().any(|&object| object > 127) {
            number::NO_SUCH_OBJECT
        } else if !idle {
            number::BUSY
        } else if !fit || !first || !last || !self.bounds.windows(2).all(rises) {
            number::BOUNDS
        } else if seen.count_ones() as usize != self.objects.len() {
            number::TALLY_TWICE
        } else {
            0
        }
    }

    /// The sums of a batch's weights by class, with the tenths that waited: as grams and the tenths left over.
    #[inline(always)]
    pub fn split(&self, waited: [u8; 8], weights: &[[u8; 2]]) -> ([u64; 8], [u8; 8]) {
        let mut bounds = [u16::MAX; 7];
        bounds.iter_mut().zip(self.bounds).for_each(|(bound, bytes)| *bound = get_u16(bytes, 0));
        let mut sums = waited.map(u32::from);
        for weight in weights {
            let weight = u16::from_le_bytes(*weight);
            let class: usize = bounds.iter().map(|&bound| usize::from(bound <= weight)).sum();
            sums[class & 7] += u32::from(weight);
        }
        (sums.map(|sum| u64::from(sum / 10)), sums.map(|sum| (sum % 10) as u8))
    }
}

/// Settings in order behind the hours.
#[inline(always)]
pub fn is_valid(settings: &Settings) -> bool {
    let table = kept(settings).is_some_and(|table| table.is_none() || table.number(true) == 0);
    table && settings[KIND] <= BATCH && settings[WAITED..].iter().all(|&tenths| tenths <= 9)
}

/// The weights of a batch as it is lent; 1 for another length.
#[inline(always)]
pub fn weights(list: &[u8]) -> Result<&[[u8; 2]], u8> {
    let (count, weights) = list.split_first_chunk().ok_or(number::LENGTH)?;
    if weights.len() == 2 * usize::from(u16::from_le_bytes(*count)) {
        Ok(weights.as_chunks().0)
    } else {
        Err(number::LENGTH)
    }
}

#[inline(always)]
pub fn is_garbled(weights: &[[u8; 2]]) -> bool {
    weights.len() > WEIGHTS || weights.iter().any(|weight| u16::from_le_bytes(*weight) >= TOO_HEAVY)
}

/// The tenths that wait, by a record and settings in order.
#[inline(always)]
pub fn tenths(record: &Record, settings: &Settings) -> [u8; 8] {
    let decided = record[record::OUTCOME] == COMMITTED && matches!(record[record::PHASE], IDLE | FINISHING);
    let place = if settings[KIND] == BATCH && decided { LEFT } else { WAITED };
    settings[place..place + 8].try_into().expect("eight bytes")
}

/// A transaction of a kind begins.
#[inline(always)]
pub fn settle(settings: &mut Settings, kind: u8, waited: [u8; 8], left: [u8; 8]) {
    settings[KIND] = kind;
    settings[WAITED..LEFT].copy_from_slice(&waited);
    settings[LEFT..].copy_from_slice(&left);
}

/// A table as it is lent; 1 for another length.
#[inline(always)]
pub fn lent(list: &[u8]) -> Result<Table<'_>, u8> {
    front(list).filter(|table| table.rest == 0).ok_or(number::LENGTH)
}

/// A table in place of the one before: 6, 10, 14, 15.
#[inline(always)]
pub fn load(settings: &mut Settings, idle: bool, table: &Table, list: &[u8]) -> Answer {
    match table.number(idle) {
        0 => {
            settings[TABLE..TABLE + list.len()].copy_from_slice(list);
            settings[TABLE + list.len()..].fill(0);
            Ok(0)
        }
        number => Err(number),
    }
}

pub fn load_call(settings: &mut [u8], record: &[u8], me: u8, list: &[u8]) -> Answer {
    let settings: &mut Settings = settings.try_into().map_err(|_| number::LENGTH)?;
    let record: &Record = record.try_into().map_err(|_| number::LENGTH)?;
    let table = lent(list)?;
    if !record::is_valid(record) || !hours::is_valid(settings) {
        return Err(number::DAMAGED);
    }
    if me > 12 {
        return Err(number::STRANGER);
    }
    load(settings, record[record::PHASE] == IDLE, &table, list)
}

pub fn waiting_call(record: &[u8], settings: &[u8], class: u8) -> Answer {
    let record: &Record = record.try_into().map_err(|_| number::LENGTH)?;
    let settings: &Settings = settings.try_into().map_err(|_| number::LENGTH)?;
    if !record::is_valid(record) || !hours::is_valid(settings) {
        return Err(number::DAMAGED);
    }
    match kept(settings) {
        Some(table) if usize::from(class) < table.objects.len() => Ok(u64::from(tenths(record, settings)[usize::from(class)])),
        _ => Err(number::NO_SUCH_OBJECT),
    }
}

pub fn kind_call(settings: &[u8]) -> Answer {
    let settings: &Settings = settings.try_into().map_err(|_| number::LENGTH)?;
    if !hours::is_valid(settings) {
        return Err(number::DAMAGED);
    }
    Ok(u64::from(settings[KIND]))
}
