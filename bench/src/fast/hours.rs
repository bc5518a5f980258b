//! Packing hours where they stand: a table as it is lent, and the settings that keep it.

use super::bytes::{get_u16, get_u32};
use super::{classes, number};
use crate::library::SETTINGS;

pub type Settings = [u8; SETTINGS];

/// The last minute of a week.
pub const LAST_MINUTE: u16 = 10_079;

/// Bytes of the settings that keep the hours: whether a table is loaded, and the table.
const KEPT: usize = 187;

/// The windows and the dates of a table, four bytes each.
struct Table<'a> {
    windows: &'a [[u8; 4]],
    dates: &'a [[u8; 4]],
    /// Bytes behind it.
    rest: usize,
}

/// The table at the front of some bytes; none where they end before it does.
#[inline(always)]
fn front(bytes: &[u8]) -> Option<Table<'_>> {
    let (&count, bytes) = bytes.split_first()?;
    let (windows, bytes) = bytes.split_at_checked(4 * usize::from(count))?;
    let (&count, bytes) = bytes.split_first()?;
    let (dates, bytes) = bytes.split_at_checked(4 * usize::from(count))?;
    Some(Table { windows: windows.as_chunks().0, dates: dates.as_chunks().0, rest: bytes.len() })
}

/// A window's end is above its start, and no window ends behind the week; so its start is within the week too.
#[inline(always)]
fn is_sound(table: &Table) -> bool {
    let sound = |window: &[u8; 4]| get_u16(window, 0) < get_u16(window, 2) && get_u16(window, 2) <= LAST_MINUTE + 1;
    table.windows.len() <= 14 && table.dates.len() <= 32 && table.windows.iter().all(sound)
}

/// Settings in order, behind the hours too.
#[inline(always)]
pub fn is_valid(settings: &Settings) -> bool {
    settings[0] <= 1 && front(&settings[1..KEPT]).is_some_and(|table| is_sound(&table)) && classes::is_valid(settings)
}

/// Whether settings that are valid are closed.
#[inline(always)]
pub fn is_closed(settings: &Settings, day: u32, minute: u16) -> bool {
    let Some(table) = front(&settings[1..KEPT]).filter(|_| settings[0] != 0) else { return false };
    let has = |window: &[u8; 4]| get_u16(window, 0) <= minute && minute < get_u16(window, 2);
    !table.windows.iter().any(has) || table.dates.iter().any(|date| get_u32(date, 0) == day)
}

/// The number of a table as it is lent: 0, 1 or 2.
#[inline(always)]
pub fn number(list: &[u8]) -> u8 {
    match front(list).filter(|table| table.rest == 0) {
        None => number::LENGTH,
        Some(table) if is_sound(&table) => 0,
        Some(_) => number::DAMAGED,
    }
}

/// A table that is sound takes the place of the one before.
#[inline(always)]
pub fn store(settings: &mut Settings, list: &[u8]) {
    settings[0] = 1;
    settings[1..1 + list.len()].copy_from_slice(list);
    settings[1 + list.len()..KEPT].fill(0);
}

#[inline(always)]
pub fn check(settings: &[u8]) -> u8 {
    match settings.try_into() {
        Err(_) => number::LENGTH,
        Ok(settings) if is_valid(settings) => 0,
        Ok(_) => number::DAMAGED,
    }
}

pub fn blank(settings: &mut [u8]) -> u8 {
    let Ok(settings): Result<&mut Settings, _> = settings.try_into() else { return number::LENGTH };
    settings.fill(0);
    0
}

pub fn load(settings: &mut [u8], list: &[u8]) -> u8 {
    let number = number(list);
    let Ok(settings): Result<&mut Settings, _> = settings.try_into() else { return number::LENGTH };
    if number == 0 && is_valid(settings) {
        store(settings, list);
        return 0;
    }
    if number == number::LENGTH {
        number::LENGTH
    } else {
        number::DAMAGED
    }
}
