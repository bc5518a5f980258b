//! Tables of packing hours and settings, sound ones and every way in which one is not; days and minutes that meet them.

use crate::checks::classes::tables::{damage_tail, some_tail};
use crate::model::hours::{encode, Table, Window, DATES, LAST_END, LAST_MINUTE, WINDOWS};
use crate::model::number;
use crate::model::settings::{settings_of, HOURS};
use crate::random::Random;

/// Days that come often, so that a day is a closed date now and then.
const DAYS: [u32; 8] = [0, 1, 2, 255, 256, 65_536, 1 << 31, u32::MAX];

pub fn some_day(random: &mut Random) -> u32 {
    if random.once_in(8) {
        random.next() as u32
    } else {
        *random.pick(&DAYS)
    }
}

/// Any minute of the week.
fn some_minute(random: &mut Random) -> u16 {
    random.below(usize::from(LAST_END)) as u16
}

/// A sound window: of one minute, up to the week's end, or any.
pub fn some_window(random: &mut Random) -> Window {
    let any = some_minute(random);
    let start = *random.pick(&[any, any, 0, LAST_MINUTE]);
    let length = 1 + random.below(usize::from(LAST_END - start)) as u16;
    Window { start, end: *random.pick(&[start + length, start + length, start + 1, LAST_END]) }
}

fn list_of<T>(random: &mut Random, counts: &[usize], one: impl Fn(&mut Random) -> T) -> Vec<T> {
    (0..*random.pick(counts)).map(|_| one(random)).collect()
}

/// A sound table: of few windows and dates most often, of none, of as many as there may be.
pub fn some_table(random: &mut Random) -> Table {
    Table {
        windows: list_of(random, &[0, 1, 1, 2, 3, 7, WINDOWS - 1, WINDOWS], some_window),
        dates: list_of(random, &[0, 0, 1, 2, 5, DATES - 1, DATES], some_day),
    }
}

/// A way to make a table's bytes wrong; the number that loading then gives.
pub struct Damage {
    pub name: &'static str,
    pub number: u8,
    make: fn(&mut Random) -> Vec<u8>,
}

const fn damage(name: &'static str, number: u8, make: fn(&mut Random) -> Vec<u8>) -> Damage {
    Damage { name, number, make }
}

impl Damage {
    pub fn make(&self, random: &mut Random) -> Vec<u8> {
        (self.make)(random)
    }
}

/// The bytes of a table with so many windows and dates, whether there may be so many or not.
fn crowded(random: &mut Random, windows: usize, dates: usize) -> Vec<u8> {
    let table = Table { windows: list_of(random, &[windows], some_window), dates: list_of(random, &[dates], some_day) };
    encode(&table)
}

/// The bytes of a table in which one window is another.
fn with_window(random: &mut Random, start: u16, end: u16) -> Vec<u8> {
    let mut table = some_table(random);
    table.windows.truncate(WINDOWS - 1);
    let place = random.below(table.windows.len() + 1);
    table.windows.insert(place, Window { start, end });
    encode(&table)
}

/// The bytes of a sound table, some more of them or fewer.
fn resized(random: &mut Random, change: impl Fn(&mut Random, usize) -> usize) -> Vec<u8> {
    let mut bytes = encode(&some_table(random));
    let length = change(random, bytes.len());
    bytes.resize(length, 0);
    bytes
}

pub const DAMAGES: &[Damage] = &[
    damage("no byte", number::LENGTH, |_| vec![]),
    damage("a byte short", number::LENGTH, |r| resized(r, |_, length| length - 1)),
    damage("a byte long", number::LENGTH, |r| resized(r, |_, length| length + 1)),
    damage("cut anywhere", number::LENGTH, |r| resized(r, |r, length| r.below(length))),
    damage("far too long", number::LENGTH, |r| resized(r, |r, length| length + 1 + r.below(600))),
    damage("the windows alone", number::LENGTH, |r| {
        let mut bytes = crowded(r, 3, 0);
        bytes.pop();
        bytes
    }),
    damage("one window more by its count", number::LENGTH, |r| {
        let mut bytes = crowded(r, 2, 0);
        bytes[0] += 1;
        bytes
    }),
    damage("one date more by its count", number::LENGTH, |r| {
        let mut bytes = crowded(r, 2, 2);
        bytes[9] += 1;
        bytes
    }),
    damage("one date fewer by its count", number::LENGTH, |r| {
        let mut bytes = crowded(r, 2, 2);
        bytes[9] -= 1;
        bytes
    }),
    damage("fifteen windows and a byte short", number::LENGTH, |r| {
        let mut bytes = crowded(r, WINDOWS + 1, 1);
        bytes.pop();
        bytes
    }),
    damage("fifteen windows", number::DAMAGED, |r| crowded(r, WINDOWS + 1, 0)),
    damage("more than fifteen windows", number::DAMAGED, |r| {
        let windows = WINDOWS + 2 + r.below(255 - WINDOWS - 1);
        crowded(r, windows, 2)
    }),
    damage("33 dates", number::DAMAGED, |r| crowded(r, 1, DATES + 1)),
    damage("more than 33 dates", number::DAMAGED, |r| {
        let dates = DATES + 2 + r.below(255 - DATES - 1);
        crowded(r, 2, dates)
    }),
    damage("too many of both", number::DAMAGED, |r| crowded(r, 255, 255)),
    damage("a start at 10,080", number::DAMAGED, |r| with_window(r, LAST_END, LAST_END)),
    damage("a start from 10,080 on with its end above it", number::DAMAGED, |r| {
        let start = LAST_END + r.below(65_535 - usize::from(LAST_END)) as u16;
        with_window(r, start, start + 1)
    }),
    damage("an end at 10,081", number::DAMAGED, |r| with_window(r, LAST_MINUTE, LAST_END + 1)),
    damage("an end above 10,081", number::DAMAGED, |r| {
        let end = LAST_END + 2 + r.below(65_534 - usize::from(LAST_END)) as u16;
        with_window(r, 0, end)
    }),
    damage("an end at its start", number::DAMAGED, |r| {
        let start = some_minute(r);
        with_window(r, start, start)
    }),
    damage("an end before its start", number::DAMAGED, |r| {
        let start = 1 + r.below(usize::from(LAST_MINUTE)) as u16;
        let end = r.below(usize::from(start)) as u16;
        with_window(r, start, end)
    }),
    damage("an end that is above its start by its low byte alone", number::DAMAGED, |r| with_window(r, 0x0200, 0x01ff)),
];

/// A table as it is lent: sound, or not, once in so many times.
pub fn some_list(random: &mut Random, times: usize) -> Vec<u8> {
    if random.once_in(times) {
        random.pick(DAMAGES).make(random)
    } else {
        encode(&some_table(random))
    }
}

/// The settings of a node, sound ones: blank, with a table loaded, or with one that is not loaded. What stands behind a table may be anything. Behind the
/// hours there may be classes.
pub fn some_settings(random: &mut Random) -> Vec<u8> {
    if random.once_in(4) {
        return settings_of(None);
    }
    let table = some_table(random);
    let mut settings = settings_of(Some(&table));
    let used = 1 + encode(&table).len();
    if random.once_in(2) {
        let noise = random.bytes(HOURS - used);
        settings[used..HOURS].copy_from_slice(&noise);
    }
    settings[0] = u8::from(!random.once_in(6));
    if !random.once_in(3) {
        settings[HOURS..].copy_from_slice(&some_tail(random));
    }
    settings
}

/// Settings that are damaged, of the right length: the first byte, a count or a window; or something behind the hours. The rest is as in sound ones.
pub fn damaged_settings(random: &mut Random) -> Vec<u8> {
    let mut settings = some_settings(random);
    if random.once_in(2) {
        damage_tail(random, &mut settings);
        return settings;
    }
    let windows = usize::from(settings[1]);
    match random.below(4) {
        0 => settings[0] = 2 + random.below(254) as u8,
        1 => settings[1] = (WINDOWS + 1 + random.below(255 - WINDOWS)) as u8,
        2 => settings[2 + 4 * windows] = (DATES + 1 + random.below(255 - DATES)) as u8,
        _ => {
            // One window at least, so that there is one to spoil.
            settings[1] = windows.clamp(1, WINDOWS) as u8;
            let place = 2 + 4 * random.below(usize::from(settings[1]));
            let bad: [[u8; 4]; 4] = [[0; 4], [0, 0, 0x61, 0x27], [0x60, 0x27, 0x60, 0x27], [9, 9, 8, 9]];
            settings[place..place + 4].copy_from_slice(&bad[random.below(4)]);
        }
    }
    settings
}

/// A day and a minute that meet a table: open most often, else at an edge of a window, on a closed date or beside one, or any, above 10,079 too.
pub fn some_clock(random: &mut Random, table: Option<&Table>) -> (u32, u16) {
    let none = Table::default();
    let table = table.unwrap_or(&none);
    let any = Window { start: 0, end: LAST_END };
    let window = if table.windows.is_empty() { any } else { *random.pick(&table.windows) };
    let edges = [window.start.saturating_sub(1), window.start, window.end - 1, window.end, window.end.saturating_add(1)];
    let minute = match random.below(24) {
        0 => random.word(),
        1 => *random.pick(&[0, LAST_MINUTE, LAST_END, LAST_END + 1, u16::MAX]),
        2..=7 => *random.pick(&edges),
        8 => some_minute(random),
        _ => window.start + random.below(usize::from(window.end - window.start)) as u16,
    };
    let day = match random.below(12) {
        0 if !table.dates.is_empty() => *random.pick(&table.dates),
        1 if !table.dates.is_empty() => random.pick(&table.dates).wrapping_add(1),
        2 => some_day(random),
        _ => (3..).find(|day| !table.dates.contains(day)).expect("a day that is no date"),
    };
    (day, minute)
}
