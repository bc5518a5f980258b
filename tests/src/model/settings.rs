//! A node's settings: its packing hours, its table of weight classes, and what it keeps of the transaction that it began last; their bytes, from
//! include/senna.h, and the calls that read or change nothing else.

use super::bytes::Reader;
use super::classes::{self, Classes, CLASSES};
use super::coordinator::{first, is_stranger};
use super::hours::{self, Table, DATES, WINDOWS};
use super::number;
use super::quorum::NODES;
use super::record::{self, decided, phase, Record};

/// Bytes of a node's settings, and of a station's, thirteen one after the other.
pub const SETTINGS: usize = 228;
pub const STATION_SETTINGS: usize = NODES * SETTINGS;

/// Where a node's have what: its hours (whether a table is loaded, then room for the longest table), its classes (room for the longest table), the kind,
/// the tenths that waited when the last transaction began, and those that it leaves over.
pub const HOURS: usize = 1 + (1 + 4 * WINDOWS) + (1 + 4 * DATES);
pub const KIND: usize = HOURS + 24;
pub const WAITED: usize = KIND + 1;
pub const LEFT: usize = WAITED + CLASSES;

/// Whose transaction it is: the host's own, or a batch.
pub mod kind {
    pub const OWN: u8 = 0;
    pub const BATCH: u8 = 1;
}

/// "Each booking end has its own table, in 2.2 too": those that were loaded last, if any.
#[derive(Clone, Debug, Default, PartialEq, Eq)]
pub struct Settings {
    pub hours: Option<Table>,
    pub classes: Option<Classes>,
    pub kind: u8,
    pub waited: [u8; CLASSES],
    pub left: [u8; CLASSES],
}

impl Settings {
    /// "The tenths left over .. wait for the next batch", from the commit decision on: the record says whether the last batch was committed.
    pub fn waiting(&self, record: &Record) -> [u8; CLASSES] {
        let decided = [phase::IDLE, phase::FINISHING].contains(&record.phase) && record.outcome == decided::COMMITTED;
        if self.kind == kind::BATCH && decided {
            self.left
        } else {
            self.waited
        }
    }

    /// A transaction of a kind begins, while so much waits; it leaves so much over.
    pub fn begin(&mut self, kind: u8, waiting: [u8; CLASSES], left: [u8; CLASSES]) {
        (self.kind, self.waited, self.left) = (kind, waiting, left);
    }

    /// A table of classes is loaded, which "leaves none waiting".
    pub fn load_classes(&mut self, classes: Classes) {
        *self = Settings { hours: self.hours.take(), classes: Some(classes), ..Settings::default() };
    }
}

/// The bytes. Before anything is loaded all of them are 0.
pub fn encode(settings: &Settings) -> Vec<u8> {
    let mut bytes = settings.hours.as_ref().map_or(vec![], |table| [&[1], &hours::encode(table)[..]].concat());
    bytes.resize(HOURS, 0);
    bytes.extend(settings.classes.as_ref().map_or(vec![], classes::encode));
    bytes.resize(KIND, 0);
    bytes.push(settings.kind);
    bytes.extend(settings.waited);
    bytes.extend(settings.left);
    bytes
}

/// Settings with packing hours alone.
pub fn settings_of(hours: Option<&Table>) -> Vec<u8> {
    encode(&Settings { hours: hours.cloned(), ..Settings::default() })
}

fn eight(bytes: &[u8]) -> [u8; CLASSES] {
    std::array::from_fn(|at| bytes[at])
}

/// The settings of some bytes: 1 for another length, then 2 where the first byte is neither 0 nor 1 or what follows it is no table of hours, where the
/// classes are none that loading accepts (two counts of 0 are no table), and where the kind or one of the tenths is none. What stands behind a table
/// does not matter.
pub fn load(bytes: &[u8]) -> Result<Settings, u8> {
    if bytes.len() != SETTINGS {
        return Err(number::LENGTH);
    }
    let hours = hours::front(&mut Reader::new(&bytes[1..HOURS])).filter(Table::sound).ok_or(number::DAMAGED)?;
    let table = classes::front(&mut Reader::new(&bytes[HOURS..KIND])).ok_or(number::DAMAGED)?;
    let classes = Some(table).filter(|table| *table != Classes::default());
    let (waited, left) = (eight(&bytes[WAITED..]), eight(&bytes[LEFT..]));
    let tenths = waited.iter().chain(&left).all(|&tenths| tenths <= 9);
    let sound = bytes[0] <= 1 && bytes[KIND] <= kind::BATCH && tenths && classes.as_ref().is_none_or(Classes::sound);
    let hours = Some(hours).filter(|_| bytes[0] == 1);
    Some(Settings { hours, classes, kind: bytes[KIND], waited, left }).filter(|_| sound).ok_or(number::DAMAGED)
}

/// The check call: the number alone.
pub fn check_call(bytes: &[u8]) -> u8 {
    load(bytes).err().unwrap_or(number::OK)
}

/// The call for blank settings in a buffer of `size` bytes: the bytes, or 1 for another size.
pub fn blank_call(size: usize) -> Result<Vec<u8>, u8> {
    if size != SETTINGS {
        return Err(number::LENGTH);
    }
    Ok(vec![0; SETTINGS])
}

/// What a table of hours that was loaded leaves of the bytes: those that keep the hours are new, the others as they were.
pub fn with_hours(bytes: &[u8], table: &Table) -> Vec<u8> {
    [&settings_of(Some(table))[..HOURS], &bytes[HOURS..]].concat()
}

/// The same of a table of classes: all behind the hours is new.
pub fn with_classes(bytes: &[u8], classes: &Classes) -> Vec<u8> {
    let mut loaded = Settings::default();
    loaded.load_classes(classes.clone());
    [&bytes[..HOURS], &encode(&loaded)[HOURS..]].concat()
}

/// The same of a begin: both tables are as they were.
pub fn with_begin(bytes: &[u8], after: &Settings) -> Vec<u8> {
    [&bytes[..KIND], &encode(after)[KIND..]].concat()
}

/// The lowest of some numbers that are given, if any is.
fn lowest(numbers: &[Option<u8>]) -> Result<(), u8> {
    numbers.iter().flatten().min().map_or(Ok(()), |&number| Err(number))
}

/// The call that loads a table of hours, on bytes: 1 for another length of the settings or the list, then 2 for damaged settings or a faulty table.
pub fn load_hours_call(bytes: &[u8], list: &[u8]) -> Result<Vec<u8>, u8> {
    lowest(&[load(bytes).err(), hours::read(list).err()])?;
    Ok(with_hours(bytes, &hours::read(list)?))
}

/// The call that loads a table of classes, on bytes: 1 for another length of the three, then 2 for a damaged record or settings, 4 for no such node, then
/// the table's own numbers.
pub fn load_classes_call(record: &[u8], bytes: &[u8], me: u8, list: &[u8]) -> Result<Vec<u8>, u8> {
    lowest(&[record::load(record).err(), load(bytes).err(), classes::read(list).err()])?;
    let (record, table) = (record::load(record)?, classes::read(list)?);
    first(&[(number::STRANGER, is_stranger(me))])?;
    first(&table.refusals(record.phase == phase::IDLE))?;
    Ok(with_classes(bytes, &table))
}

/// The call that tells what waits in a class, on bytes: 1, 2, then 6 for a class that the table does not have.
pub fn waiting_call(record: &[u8], bytes: &[u8], class: u8) -> Result<i64, u8> {
    lowest(&[record::load(record).err(), load(bytes).err()])?;
    let (record, settings) = (record::load(record)?, load(bytes)?);
    let has = settings.classes.as_ref().is_some_and(|table| usize::from(class) < table.objects.len());
    first(&[(number::NO_SUCH_OBJECT, !has)])?;
    Ok(i64::from(settings.waiting(&record)[usize::from(class)]))
}

/// The call that tells the kind, on bytes: 1, 2.
pub fn kind_call(bytes: &[u8]) -> Result<i64, u8> {
    load(bytes).map(|settings| i64::from(settings.kind))
}
