//! Packing hours through the library's C functions, at a lone node and at a station: tables as they are lent, settings as they are kept, and begins at
//! every minute. Number, answer and every byte are the model's.

pub mod subsets;
pub mod tables;

use crate::checks::coordinator::records::some_in;
use crate::checks::station::ends::answered;
use crate::ffi::coordinator as ffi;
use crate::ffi::station as library;
use crate::model::buffers::{self, Buffers};
use crate::model::coordinator::{host_call, Call};
use crate::model::hours::{self, encode, Table, Window, LAST_END, LAST_MINUTE};
use crate::model::number;
use crate::model::quorum::{ALL, NODES};
use crate::model::record::{self, phase, Record, RECORD};
use crate::model::settings::{self, settings_of, HOURS, KIND, SETTINGS, WAITED};
use crate::model::station::{blank as blank_station, Step};
use crate::random::Random;
use crate::runner::{ensure, in_four_threads, Runner, Verdict};
use std::collections::BTreeMap;
use tables::{damaged_settings, some_clock, some_day, some_list, some_settings, some_table, DAMAGES};

pub fn run(runner: &mut Runner) {
    runner.check("hours: blank settings", |random, _| blank(random));
    runner.check("hours: known bytes", |_, _| known_bytes());
    runner.check("hours: every minute at every edge", |random, _| every_minute(random));
    runner.check("hours: every minute at thirteen nodes", |random, _| every_minute_at_a_station(random));
    runner.check("hours: closed dates", closed_dates);
    runner.check("hours: tables of every length", every_length);
    runner.check("hours: every byte of a table changed", every_byte_of_a_table);
    runner.check("hours: every byte of settings changed", every_byte_of_settings);
    runner.check("hours: every byte of a station's settings changed", every_byte_at_a_station);
    runner.check("hours: each damage of a table", each_damage);
    runner.check("hours: one table after another", one_after_another);
    runner.check("hours: loads in every phase", loads_in_every_phase);
    runner.check("hours: every subset of a begin's faults", subsets::begins);
    runner.check("hours: every subset of a begin's faults at a station", subsets::station_begins);
    runner.check("hours: every subset of a load's faults", subsets::loads);
    runner.check("hours: every subset of a load's faults at a station", subsets::station_loads);
    runner.check("hours in four threads", threads);
}

/// A begin at which nothing is wrong but, it may be, its clock.
fn begin(timestamp: u32, day: u32, minute: u16) -> Call {
    Call::Begin { live: ALL, distances: [1, 0].repeat(NODES), timestamp, day, minute }
}

/// The table of hours that some settings have, if any.
pub fn hours_in(bytes: &[u8]) -> Option<Table> {
    settings::load(bytes).ok().and_then(|it| it.hours)
}

/// What a begin at which nothing else is wrong gives by a table.
fn expected(table: Option<&Table>, day: u32, minute: u16) -> u8 {
    if minute > LAST_MINUTE {
        number::GARBLED
    } else if table.is_some_and(|table| table.closed(day, minute)) {
        number::CLOSED
    } else {
        number::OK
    }
}

/// The library's load on some settings against the model's: number and every byte; the settings after.
fn same_load(settings: &[u8], list: &[u8]) -> Result<(u8, Vec<u8>), String> {
    let (mut after, lent) = (settings.to_vec(), list.to_vec());
    let got = ffi::load_hours(&mut after, &lent);
    let (number, left) = match settings::load_hours_call(settings, list) {
        Err(number) => (number, settings.to_vec()),
        Ok(left) => (number::OK, left),
    };
    ensure!(got == number, "load {list:?} over {settings:?}: {got}, but the model says {number}");
    ensure!(after == left, "load {list:?} over {settings:?}: {got}, and other bytes than the model's: {after:?}");
    ensure!(lent == list, "load {list:?}: the list became {lent:?}");
    ensure!(got != number::OK || ffi::check_settings(&after) == number::OK, "load {list:?} leaves damaged settings");
    Ok((got, after))
}

/// The library's begin on a record and settings against the model's: number, answer and every byte.
pub fn same_begin(record: &[u8], settings: &[u8], me: u8, call: &Call) -> Result<u8, String> {
    let (mut after, mut kept) = (record.to_vec(), settings.to_vec());
    let got = ffi::host_call(&mut after, &mut kept, me, call);
    let (told, left) = match host_call(record, settings, me, call) {
        Err(number) => ((number, 0), (record.to_vec(), settings.to_vec())),
        Ok(left) => ((left.done.number, left.done.answer), (left.record, left.settings)),
    };
    ensure!(got == told, "{call:?} with settings {settings:?}: {got:?}, but the model says {told:?}");
    ensure!((after, kept) == left, "{call:?} with settings {settings:?}: {got:?}, and other bytes than the model's");
    Ok(got.0)
}

/// The library's step on a station's buffers against the model's: number, answer and every byte; its number. The buffers are as after it.
pub fn same_step(is: &mut Buffers, step: &Step) -> Result<u8, String> {
    let mut expected = is.clone();
    let told = expected.step(step);
    let got = library::step(is, step);
    ensure!(got == answered(&told), "{step:?}: the library says {got:?}, the model {told:?}");
    ensure!(*is == expected, "{step:?}: {got:?}, and other bytes than the model's");
    Ok(got.0)
}

/// The blank settings in place of random bytes, every byte of them; every other length is refused with all bytes as they were.
fn blank(random: &mut Random) -> Verdict {
    let margin = 20;
    for length in (0..700).chain([SETTINGS * NODES, 65_536 + SETTINGS]) {
        let before = random.bytes(length + 2 * margin);
        let (mut after, mut expected) = (before.clone(), before);
        let got = ffi::blank_settings(&mut after[margin..margin + length]);
        let number = match settings::blank_call(length) {
            Err(number) => number,
            Ok(bytes) => {
                expected[margin..margin + length].copy_from_slice(&bytes);
                number::OK
            }
        };
        ensure!(got == number && after == expected, "blank in {length} bytes: {got}, but the model says {number}, or other bytes");
        let checked = ffi::check_settings(&after[margin..margin + length]);
        ensure!(checked == settings::check_call(&after[margin..margin + length]), "the check of {length} bytes is {checked}");
    }
    Ok(String::from("702 lengths"))
}

/// Bytes that are set here one by one, so that model and library cannot agree on other places or another order of bytes.
fn known_bytes() -> Verdict {
    // Two windows, from 0x0102 to 0x0304 and from 0 to 10,080; two dates, 0x05060708 and 1.
    let list = [2, 2, 1, 4, 3, 0, 0, 0x60, 0x27, 2, 8, 7, 6, 5, 1, 0, 0, 0];
    let mut settings = vec![0xee; SETTINGS];
    ensure!(ffi::load_hours(&mut settings, &list) == number::DAMAGED, "settings of 238s take a table");
    // Zeros, but for what stands behind no classes, the kind of a batch, and tenths.
    settings[..HOURS + 2].fill(0);
    settings[KIND] = 1;
    settings[WAITED..].copy_from_slice(&[9, 1, 2, 3, 4, 5, 6, 7, 8, 9, 0, 1, 2, 3, 4, 9]);
    let behind = settings[HOURS..].to_vec();
    ensure!(ffi::check_settings(&settings) == number::OK, "zeros, with what may stand behind the hours, are refused");
    ensure!(ffi::load_hours(&mut settings, &list) == number::OK, "the table is refused");
    let mut expected = vec![0; SETTINGS];
    expected[0] = 1;
    expected[1..19].copy_from_slice(&list);
    expected[HOURS..].copy_from_slice(&behind);
    ensure!(settings == expected, "it is kept as {settings:?}");
    let table =
        Table { windows: vec![Window { start: 0x0102, end: 0x0304 }, Window { start: 0, end: 10_080 }], dates: vec![0x0506_0708, 1] };
    ensure!(settings::load(&settings).map(|it| it.hours) == Ok(Some(table)), "the model reads another table");
    let one_window = [1, 2, 1, 4, 3, 0];
    ensure!(ffi::load_hours(&mut settings, &one_window) == number::OK, "the second table is refused");
    let tries = [(0x0101, 13), (0x0102, 0), (0x0303, 0), (0x0304, 13), (0x0201, 0), (0x0403, 13), (10_079, 13), (10_080, 3), (65_535, 3)];
    for (minute, number) in tries {
        let mut bytes = vec![0; RECORD];
        let got = ffi::host_call(&mut bytes, &mut settings.clone(), 3, &begin(1, 1, minute));
        ensure!(got == (number, i64::from(number == 0)), "minute {minute}: {got:?}");
    }
    Ok(String::from("two tables, nine minutes"))
}

/// Tables that have each edge: of one window, of two that touch, overlap or lie apart, of many.
fn edge_tables(random: &mut Random) -> Vec<Table> {
    let edges = [0, 1, 2, 255, 256, 257, 359, 360, 1439, 1440, 5039, 5040, 8191, 8192, 9999, 10_078, 10_079, 10_080];
    let mut tables = vec![Table::default()];
    for (at, &start) in edges.iter().enumerate() {
        tables.extend(edges[at + 1..].iter().map(|&end| Table { windows: vec![Window { start, end }], dates: vec![9] }));
    }
    for _ in 0..30 {
        let mut edges: Vec<u16> = (0..4).map(|_| *random.pick(&edges[1..edges.len() - 1])).collect();
        edges.sort();
        let [a, b, c, d] = [edges[0], edges[1], edges[2], edges[3]];
        let (a, d) = (a - 1, d + 1);
        for windows in [[(a, b + 1), (b + 1, d)], [(a, c + 1), (b, d)], [(a, d), (b, c + 1)], [(c, d), (a, b + 1)]] {
            let windows = windows.iter().map(|&(start, end)| Window { start, end }).filter(|window| window.start < window.end).collect();
            tables.push(Table { windows, dates: vec![] });
        }
    }
    tables.extend((0..30).map(|_| some_table(random)));
    tables
}

/// Each of the 65,536 minutes, with each table: open, closed, or no minute of a week.
fn every_minute(random: &mut Random) -> Verdict {
    let tables = edge_tables(random);
    let mut numbers: BTreeMap<u8, usize> = BTreeMap::new();
    let (mut bytes, blank) = (vec![0; RECORD], vec![0; RECORD]);
    for table in tables.iter().map(Some).chain([None]) {
        let mut settings = settings_of(None);
        if let Some(table) = table {
            ensure!(ffi::load_hours(&mut settings, &encode(table)) == number::OK, "{table:?} is refused");
        }
        let lent = settings.clone();
        let day = 10;
        let mut call = begin(1, day, 0);
        for minute in 0..=u16::MAX {
            if let Call::Begin { minute: now, .. } = &mut call {
                *now = minute;
            }
            let (got, answer) = ffi::host_call(&mut bytes, &mut settings, 3, &call);
            let number = expected(table, day, minute);
            ensure!((got, answer) == (number, i64::from(number == 0)), "{table:?}, minute {minute}: {got}, but the model says {number}");
            ensure!((got == number::OK) == (bytes != blank), "{table:?}, minute {minute}: {got}, and the record changed or did not");
            bytes.fill(0);
            *numbers.entry(got).or_insert(0) += 1;
        }
        ensure!(settings == lent, "{table:?}: the settings became {settings:?}");
        let edges = table.iter().flat_map(|table| &table.windows).flat_map(|window| [window.start, window.end - 1, window.end]);
        for minute in edges.chain([0, LAST_MINUTE, LAST_END]) {
            same_begin(&blank, &settings, 3, &begin(1, day, minute))?;
        }
    }
    ensure!(numbers.values().all(|&count| count > 100_000) && numbers.len() == 3, "too poor: {numbers:?}");
    Ok(format!("{} tables, numbers {numbers:?}", tables.len() + 1))
}

/// Each of the 65,536 minutes at each node of a station, where each has a table of its own and one has none.
fn every_minute_at_a_station(random: &mut Random) -> Verdict {
    let mut it = buffers::of(&blank_station(ALL));
    let edges = edge_tables(random);
    let tables: Vec<Option<Table>> = (0..NODES).map(|node| (node != 6).then(|| random.pick(&edges).clone())).collect();
    for (node, table) in (0..).zip(&tables) {
        if let Some(table) = table {
            let number = same_step(&mut it, &Step::Load { node, list: encode(table) })?;
            ensure!(number == number::OK, "{table:?} is refused");
        }
    }
    let before = it.clone();
    for minute in 0..=u16::MAX {
        let call = begin(1, 10, minute);
        for (node, table) in (0..).zip(&tables) {
            let got = library::step(&mut it, &Step::Host { node, call: call.clone() });
            let number = expected(table.as_ref(), 10, minute);
            ensure!(got == (number, i64::from(number == 0)), "node {node}, {table:?}, minute {minute}: {got:?}");
            let at = usize::from(node) * RECORD;
            let begun = it.records[at..at + RECORD].iter().any(|&byte| byte != 0);
            ensure!(begun == (number == number::OK), "node {node}, {table:?}, minute {minute}: {got:?}, and the record changed or did not");
            it.records[at..at + RECORD].fill(0);
        }
        ensure!(it.records == before.records && it.settings == before.settings, "minute {minute}: bytes of another node changed");
    }
    ensure!(it == before, "another buffer changed");
    Ok(String::from("65,536 minutes, 13 nodes"))
}

/// Each date of a table, the days beside it, and any other day, at an open minute and at a closed one.
fn closed_dates(random: &mut Random, rounds: usize) -> Verdict {
    let mut numbers: BTreeMap<u8, usize> = BTreeMap::new();
    for _ in 0..30 * rounds {
        for count in 0..=hours::DATES {
            let dates: Vec<u32> = (0..count).map(|_| some_day(random)).collect();
            let table = Table { windows: vec![Window { start: 600, end: 700 }], dates };
            let mut settings = settings_of(Some(&table));
            let near = |date: &u32| [*date, date.wrapping_add(1), date.wrapping_sub(1), date ^ 0x100, date ^ 0x1_0000, date ^ 0x8000_0000];
            let days = table.dates.iter().flat_map(near).chain([0, 1, u32::MAX, random.next() as u32]);
            for (day, minute) in days.flat_map(|day| [(day, 600), (day, 700)]) {
                let mut bytes = vec![0; RECORD];
                let (got, _) = ffi::host_call(&mut bytes, &mut settings, 3, &begin(1, day, minute));
                let number = expected(Some(&table), day, minute);
                ensure!(got == number, "{table:?}, day {day}, minute {minute}: {got}, but the model says {number}");
                *numbers.entry(got).or_insert(0) += 1;
            }
        }
    }
    ensure!([0, 13].iter().all(|number| numbers[number] > 10_000 * rounds), "too poor: {numbers:?}");
    Ok(format!("numbers {numbers:?}"))
}

/// Tables cut short and padded at every length, and counts that ask for more or less than there is.
fn every_length(random: &mut Random, rounds: usize) -> Verdict {
    let mut numbers = [0; number::COUNT];
    for _ in 0..20 * rounds {
        let list = encode(&some_table(random));
        let settings = some_settings(random);
        for length in 0..list.len() + 300 {
            let mut resized = list.clone();
            resized.resize(length, 0);
            let (number, _) = same_load(&settings, &resized)?;
            ensure!((number == number::OK) == (length == list.len()), "{list:?} in {length} bytes: {number}");
            numbers[usize::from(number)] += 1;
        }
        for (windows, dates) in (0..=255).flat_map(|count| [(count, random.byte()), (random.byte(), count), (count & 15, count)]) {
            let size = 2 + 4 * usize::from(windows) + 4 * usize::from(dates);
            for length in [size - 1, size, size + 1] {
                let mut bytes = vec![0; length];
                // Windows of one minute each.
                for window in 0..usize::from(windows) {
                    bytes[3 + 4 * window] = 1;
                }
                bytes[0] = windows;
                if let Some(count) = bytes.get_mut(1 + 4 * usize::from(windows)) {
                    *count = dates;
                }
                let (number, _) = same_load(&settings, &bytes)?;
                numbers[usize::from(number)] += 1;
            }
        }
    }
    // Settings of every length.
    for length in (0..500).chain([SETTINGS * NODES, 65_536 + SETTINGS]) {
        let settings = vec![0; length];
        ensure!(ffi::check_settings(&settings) == settings::check_call(&settings), "settings of {length} bytes are checked otherwise");
        let (number, _) = same_load(&settings, &[0, 0])?;
        ensure!((number == number::OK) == (length == SETTINGS), "a load to settings of {length} bytes: {number}");
        same_load(&settings, &[0])?;
        same_begin(&vec![0; RECORD], &settings, 3, &begin(1, 0, 0))?;
    }
    ensure!([0, 1, 2].iter().all(|&number| numbers[number] > 10 * rounds), "too poor: {numbers:?}");
    Ok(format!("numbers 0, 1, 2: {:?}", &numbers[..3]))
}

/// Each byte of a table as each of the 256 values.
fn every_byte_of_a_table(random: &mut Random, rounds: usize) -> Verdict {
    let mut numbers = [0; number::COUNT];
    for _ in 0..4 * rounds {
        let full =
            Table { windows: (0..14).map(|_| tables::some_window(random)).collect(), dates: (0..32).map(|_| some_day(random)).collect() };
        let settings = some_settings(random);
        for list in [encode(&full), encode(&some_table(random)), vec![0, 0], vec![1, 0, 0, 1, 0, 0], vec![0, 1, 9, 0, 0, 0]] {
            for (at, value) in (0..list.len()).flat_map(|at| (0..=255).map(move |value| (at, value))) {
                let mut changed = list.clone();
                changed[at] = value;
                let (number, _) = same_load(&settings, &changed)?;
                numbers[usize::from(number)] += 1;
            }
        }
    }
    ensure!([0, 1, 2].iter().all(|&number| numbers[number] > 1000 * rounds), "too poor: {numbers:?}");
    Ok(format!("numbers 0, 1, 2: {:?}", &numbers[..3]))
}

/// Settings whose every byte is changed: blank, with as much as there may be, with little, and with lists that are not loaded.
fn settings_to_change(random: &mut Random) -> Vec<Vec<u8>> {
    let full =
        Table { windows: (0..14).map(|_| tables::some_window(random)).collect(), dates: (0..32).map(|_| some_day(random)).collect() };
    let small = Table { windows: vec![Window { start: 600, end: 700 }], dates: vec![7] };
    let mut unloaded = settings_of(Some(&some_table(random)));
    unloaded[0] = 0;
    vec![
        settings_of(None),
        settings_of(Some(&full)),
        settings_of(Some(&small)),
        settings_of(Some(&some_table(random))),
        unloaded,
        some_settings(random),
    ]
}

/// Each byte of some settings as each of the 256 values: the check agrees, and with some values a begin and a load.
fn every_byte_of_settings(random: &mut Random, rounds: usize) -> Verdict {
    let mut numbers = [0; number::COUNT];
    let mut begins = [0; number::COUNT];
    let (list, bytes) = (encode(&some_table(random)), vec![0; RECORD]);
    for _ in 0..2 * rounds {
        for settings in settings_to_change(random) {
            for at in 0..SETTINGS {
                let mut changed = settings.clone();
                for value in 0..=255 {
                    changed[at] = value;
                    let (got, expected) = (ffi::check_settings(&changed), settings::check_call(&changed));
                    ensure!(got == expected, "byte {at} of {settings:?} as {value}: {got}, but the model says {expected}");
                    numbers[usize::from(got)] += 1;
                }
                for value in [0, 1, 2, 14, 15, 32, 33, 255, settings[at] ^ 1, settings[at] ^ 128] {
                    changed[at] = value;
                    same_load(&changed, &list)?;
                    same_load(&changed, &list[1..])?;
                    let number = same_begin(&bytes, &changed, 3, &begin(1, 7, 650))?;
                    begins[usize::from(number)] += 1;
                }
            }
        }
    }
    ensure!(numbers[0] > 10_000 * rounds && numbers[2] > 10_000 * rounds, "too poor: {numbers:?}");
    ensure!([0, 2, 13].iter().all(|&number| begins[number] > 100 * rounds), "too poor: {begins:?}");
    Ok(format!("{} sound, {} damaged; begins {begins:?}", numbers[0], numbers[2]))
}

/// Each byte of a node's settings at a station as some values: a begin and a load there, and a begin next to it, which is never damaged by it.
fn every_byte_at_a_station(random: &mut Random, rounds: usize) -> Verdict {
    let mut numbers = [0; number::COUNT];
    let (node, list) = (7, encode(&some_table(random)));
    let steps = [
        Step::Host { node, call: begin(1, 7, 650) },
        Step::Load { node, list: list.clone() },
        Step::Load { node, list: list[1..].to_vec() },
        Step::Host { node: node - 1, call: begin(1, 7, 650) },
        Step::Host { node: node + 1, call: begin(1, 7, 650) },
        Step::Load { node: node + 1, list },
    ];
    let mut it = buffers::of(&blank_station(ALL));
    for settings in settings_to_change(random).into_iter().cycle().take(6 * rounds) {
        for at in 0..SETTINGS {
            for value in [0, 2, 15, 33, 255, settings[at] ^ 1] {
                let mut changed = settings.clone();
                changed[at] = value;
                for (place, step) in steps.iter().enumerate() {
                    it.put_settings(usize::from(node), &changed);
                    let number = same_step(&mut it, step)?;
                    ensure!(place < 3 || number != number::DAMAGED, "node {node}'s byte {at} as {value} damages another node's");
                    numbers[usize::from(number)] += 1;
                    // As it was before the step.
                    it.records.fill(0);
                    it.settings.fill(0);
                }
            }
        }
    }
    ensure!([0, 1, 2, 13].iter().all(|&number| numbers[number] > 50 * rounds), "too poor: {numbers:?}");
    Ok(format!("numbers {numbers:?}"))
}

/// Each way to make a table wrong: its number, and the settings stay, byte by byte.
fn each_damage(random: &mut Random, rounds: usize) -> Verdict {
    let mut it = buffers::of(&blank_station(ALL));
    for damage in DAMAGES {
        for _ in 0..100 * rounds {
            let (settings, list) = (some_settings(random), damage.make(random));
            let (number, after) = same_load(&settings, &list)?;
            ensure!(number == damage.number && after == settings, "{}: {number} for {list:?}", damage.name);
            let node = random.below(NODES) as u8;
            it.put_settings(usize::from(node), &settings);
            let before = it.settings.clone();
            let number = same_step(&mut it, &Step::Load { node, list })?;
            ensure!(number == damage.number && it.settings == before, "{}: {number} at a station", damage.name);
        }
    }
    Ok(format!("{} ways", DAMAGES.len()))
}

/// Tables loaded over each other, sound ones and others: the last one that was accepted counts.
fn one_after_another(random: &mut Random, rounds: usize) -> Verdict {
    let (mut begins, mut loads) = ([0; number::COUNT], [0; number::COUNT]);
    for _ in 0..200 * rounds {
        let mut settings = settings_of(None);
        let mut last: Option<Table> = None;
        for _ in 0..40 {
            let list = some_list(random, 3);
            let (number, after) = same_load(&settings, &list)?;
            settings = after;
            if number == number::OK {
                last = hours::read(&list).ok();
            }
            loads[usize::from(number)] += 1;
            for _ in 0..4 {
                let (day, minute) = some_clock(random, last.as_ref());
                let got = same_begin(&vec![0; RECORD], &settings, 3, &begin(1, day, minute))?;
                ensure!(got == expected(last.as_ref(), day, minute), "{last:?}, day {day}, minute {minute}: {got}");
                begins[usize::from(got)] += 1;
            }
        }
    }
    ensure!([0, 1, 2].iter().all(|&number| loads[number] > 100 * rounds), "too poor: {loads:?}");
    ensure!([0, 3, 13].iter().all(|&number| begins[number] > 500 * rounds), "too poor: {begins:?}");
    Ok(format!("loads 0, 1, 2: {:?}; begins {begins:?}", &loads[..3]))
}

/// Loads at a node whose transaction is in each phase, on and off: the record is not asked, and does not change.
fn loads_in_every_phase(random: &mut Random, rounds: usize) -> Verdict {
    let mut taken: BTreeMap<(u8, u8), usize> = BTreeMap::new();
    for _ in 0..100 * rounds {
        for phase in [phase::IDLE, phase::OPEN, phase::VOTING, phase::FINISHING] {
            let node = random.below(NODES) as u8;
            let record = some_in(random, node, phase);
            let mut it = buffers::of(&blank_station(if random.once_in(4) { ALL & !(1 << node) } else { ALL }));
            it.put_record(usize::from(node), &record);
            it.put_settings(usize::from(node), &some_settings(random));
            for _ in 0..3 {
                let number = same_step(&mut it, &Step::Load { node, list: some_list(random, 3) })?;
                *taken.entry((phase, number)).or_insert(0) += 1;
                ensure!(it.record(usize::from(node)) == record::encode(&record), "a load changed a record");
            }
            // Only a begin asks for the hours, and one that is busy is not told of them.
            let (day, minute) = some_clock(random, hours_in(it.settings(usize::from(node))).as_ref());
            same_step(&mut it, &Step::Host { node, call: begin(record.timestamp.saturating_add(1), day, minute) })?;
        }
    }
    let every = (0..4).flat_map(|phase| [0, 1, 2, 5].map(|number| (phase, number)));
    let least = every.map(|case| taken.get(&case).copied().unwrap_or(0)).min().unwrap_or(0);
    ensure!(least > 5 * rounds, "too poor: {taken:?}");
    Ok(format!("by phase and number {taken:?}"))
}

/// Re-entrant: four threads at once get the model's answers, each on its own bytes.
fn threads(random: &mut Random, rounds: usize) -> Verdict {
    let inputs = 2000 * rounds;
    in_four_threads(random, |random| {
        for _ in 0..inputs {
            let settings = if random.once_in(4) { damaged_settings(random) } else { some_settings(random) };
            same_load(&settings, &some_list(random, 3))?;
            let (day, minute) = some_clock(random, hours_in(&settings).as_ref());
            same_begin(&record::encode(&Record::default()), &settings, 3, &begin(1, day, minute))?;
        }
        Ok(())
    })?;
    Ok(format!("4 times {inputs} loads and begins"))
}
