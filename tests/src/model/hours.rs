//! Packing hours, from document 02's request 2.1: a table as it is lent, and when it is closed.

use super::bytes::Reader;
use super::number;

/// "A table of up to 14 weekly windows .. and up to 32 closed dates."
pub const WINDOWS: usize = 14;
pub const DATES: usize = 32;

/// "In minutes (0 to 10,079, Monday midnight is 0)."
pub const LAST_MINUTE: u16 = 10_079;

/// "The end may be 10,080."
pub const LAST_END: u16 = 10_080;

/// A weekly window, in minutes.
#[derive(Clone, Copy, Debug, PartialEq, Eq)]
pub struct Window {
    pub start: u16,
    pub end: u16,
}

impl Window {
    /// "A window's first minute is open and its end minute is closed."
    fn has(self, minute: u16) -> bool {
        (self.start..self.end).contains(&minute)
    }

    /// "The end may be 10,080; it must be above the start."
    fn sound(self) -> bool {
        self.start <= LAST_MINUTE && self.end <= LAST_END && self.start < self.end
    }
}

/// A table: its windows, and the closed dates "as 32-bit day numbers".
#[derive(Clone, Debug, Default, PartialEq, Eq)]
pub struct Table {
    pub windows: Vec<Window>,
    pub dates: Vec<u32>,
}

impl Table {
    /// "When the day is a closed date or no window has the minute."
    pub fn closed(&self, day: u32, minute: u16) -> bool {
        self.dates.contains(&day) || !self.windows.iter().any(|window| window.has(minute))
    }

    pub fn sound(&self) -> bool {
        self.windows.len() <= WINDOWS && self.dates.len() <= DATES && self.windows.iter().all(|window| window.sound())
    }
}

/// "A list lent .. is a one-byte count of entries, then little-endian numbers in 1, 2 or 4 bytes, as their range needs; a table's lists follow each
/// other as named."
pub fn encode(table: &Table) -> Vec<u8> {
    let mut bytes = vec![table.windows.len() as u8];
    bytes.extend(table.windows.iter().flat_map(|window| [window.start, window.end]).flat_map(u16::to_le_bytes));
    bytes.push(table.dates.len() as u8);
    bytes.extend(table.dates.iter().flat_map(|date| date.to_le_bytes()));
    bytes
}

/// The table at the front of some bytes; none where they end before it does.
pub fn front(reader: &mut Reader) -> Option<Table> {
    let mut table = Table::default();
    for _ in 0..reader.u8()? {
        table.windows.push(Window { start: reader.u16()?, end: reader.u16()? });
    }
    for _ in 0..reader.u8()? {
        table.dates.push(reader.u32()?);
    }
    Some(table)
}

/// A table as it is lent: "another length gives 1", then "a faulty table gives 2".
pub fn read(list: &[u8]) -> Result<Table, u8> {
    let mut reader = Reader::new(list);
    let table = front(&mut reader).filter(|_| reader.at_end()).ok_or(number::LENGTH)?;
    Some(table).filter(Table::sound).ok_or(number::DAMAGED)
}
