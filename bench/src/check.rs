//! The baseline against the compiled library: number, answer and every byte of the buffers, after each of many random calls.

mod crafted;

use crate::fast::Fast;
use crate::library::{BeginWith, Entries, Entry, Library, Serials, Transaction, ALL, IMAGE, RECORD, SETTINGS, SLOT};
use crate::product::Product;
use crate::random::Random;
use crate::station::{longest_batch, longest_table, Station, Step, BATCHES, CLASSES, TABLES};
use crate::walk;
use std::fmt;

/// What was compared.
#[derive(Default)]
pub struct Counts {
    pub steps: usize,
    pub accepted: usize,
    pub damaged: usize,
    pub lengths: usize,
    pub calls: usize,
    pub committed: usize,
    /// How often each number was answered.
    pub numbers: [usize; 16],
}

impl fmt::Display for Counts {
    fn fmt(&self, to: &mut fmt::Formatter) -> fmt::Result {
        let Counts { steps, accepted, damaged, lengths, calls, committed, numbers } = self;
        write!(
            to,
            "{steps} steps ({accepted} accepted, {committed} commits, {damaged} on damaged bytes, {lengths} with another length), "
        )?;
        write!(to, "{calls} calls by themselves; the steps' numbers 0 to 15: {numbers:?}")
    }
}

type Verdict = Result<(), String>;

fn same<T: PartialEq + std::fmt::Debug>(what: impl std::fmt::Debug, product: T, rust: T) -> Verdict {
    if product == rust {
        Ok(())
    } else {
        Err(format!("{what:?}: the library {product:?}, the baseline {rust:?}"))
    }
}

/// One step at both stations.
fn step(product: &mut Station, rust: &mut Station, step: &Step, counts: &mut Counts) -> Verdict {
    let (one, other) = (product.take::<Product>(step), rust.take::<Fast>(step));
    same(step, one, other)?;
    counts.steps += 1;
    counts.accepted += usize::from(one.number == 0);
    counts.committed += usize::from(matches!(step, Step::Deliver { .. }) && one.answer == 1);
    counts.numbers[usize::from(one.number)] += 1;
    if product != rust {
        return Err(format!("{step:?}: the buffers differ"));
    }
    Ok(())
}

/// A byte that a step looks at, in some buffer, is replaced; or a serial or a version becomes the last number.
fn damage(random: &mut Random, station: &mut Station, step: &Step) {
    let byte = if random.once_in(2) { random.byte() } else { random.byte() & 15 };
    let mut node = random.below(13);
    let mut slot = random.below(128);
    match *step {
        Step::Deliver { k, .. } => {
            slot = usize::from(k).min(127);
            node = usize::from(station.pool[1 + SLOT * slot + 3]).min(12);
        }
        Step::Begin { node: n, .. } | Step::OpenRead { node: n, .. } | Step::OpenWrite { node: n, .. } => node = usize::from(n).min(12),
        Step::Send { node: n, .. } | Step::SetValue { node: n, .. } | Step::RequestCommit { node: n } => node = usize::from(n).min(12),
        Step::LoadHours { node: n, .. } | Step::LoadClasses { node: n, .. } | Step::Batch { node: n, .. } => node = usize::from(n).min(12),
        _ => {}
    }
    match random.below(20) {
        0 => station.own[random.below(2)] = random.byte(),
        1 => station.pool[0] = random.byte(),
        2..=5 => station.pool[1 + SLOT * slot + random.below(40)] = byte,
        6..=9 => station.images[IMAGE * node + random.below(IMAGE)] = byte,
        10 => station.images[IMAGE * node + 1410 + random.below(117)] = byte,
        16 | 17 => station.settings[SETTINGS * node + random.below(20)] = byte,
        18 | 19 => station.settings[SETTINGS * node + 187 + random.below(41)] = byte,
        11 => {
            let place = RECORD * node + [0, 47, 72, 97][random.below(4)];
            station.records[place..place + 4].fill(255);
        }
        _ => station.records[RECORD * node + random.below(RECORD)] = byte,
    }
}

/// A step over damaged bytes, or with a buffer of another length. Both stations are then as before.
fn troubled(random: &mut Random, product: &mut Station, rust: &mut Station, counts: &mut Counts) -> Verdict {
    let saved = rust.clone();
    let chosen = walk::next(random, rust, 8);
    if random.once_in(4) {
        let longer = random.once_in(2);
        let which = random.below(5);
        for station in [&mut *product, &mut *rust] {
            let Station { images, records, pool, own, settings } = station;
            let buffer = [images, records, pool, own, settings].into_iter().nth(which).expect("one of five");
            buffer.resize(if longer { buffer.len() + 1 } else { buffer.len() - 1 }, 0);
        }
        counts.lengths += 1;
    } else {
        for _ in 0..=random.below(2) {
            damage(random, rust, &chosen);
        }
        product.clone_from(rust);
        counts.damaged += 1;
    }
    let verdict = step(product, rust, &chosen, counts);
    product.clone_from(&saved);
    rust.clone_from(&saved);
    verdict
}

/// A call on both, each on bytes of its own; then the bytes are compared too.
macro_rules! both {
    ($bytes:ident, $counts:ident, $name:ident($($argument:expr),*)) => {{
        let (mut one, mut other) = ($bytes.clone(), $bytes.clone());
        same(stringify!($name), Product::$name(&mut one, $($argument),*), Fast::$name(&mut other, $($argument),*))?;
        same(concat!(stringify!($name), ": bytes"), one, other)?;
        $counts.calls += 1;
    }};
}

/// The same of a call that changes a record and settings.
macro_rules! both_of_two {
    ($record:ident, $settings:ident, $counts:ident, $name:ident($($argument:expr),*)) => {{
        let (mut one, mut other) = (($record.clone(), $settings.clone()), ($record.clone(), $settings.clone()));
        let told = Product::$name(&mut one.0, &mut one.1, $($argument),*);
        same(stringify!($name), told, Fast::$name(&mut other.0, &mut other.1, $($argument),*))?;
        same(concat!(stringify!($name), ": bytes"), one, other)?;
        $counts.calls += 1;
    }};
}

/// Some bytes of a length, sometimes cut, longer or with a byte replaced.
fn bent(random: &mut Random, bytes: &[u8]) -> Vec<u8> {
    let mut bytes = bytes.to_vec();
    match random.below(8) {
        0 => drop(bytes.pop()),
        1 => bytes.push(random.byte()),
        2 | 3 if !bytes.is_empty() => {
            let place = random.below(bytes.len());
            bytes[place] = random.byte() >> random.below(8);
        }
        _ => {}
    }
    bytes
}

/// The calls on a record by itself.
fn record_calls(random: &mut Random, station: &Station, counts: &mut Counts) -> Verdict {
    let node = random.below(13);
    let me = if random.once_in(8) { random.below(15) as u8 } else { node as u8 };
    let record = bent(random, station.record(node));
    let (object, live) = (random.below(136) as u8, if random.once_in(2) { ALL } else { random.word() >> random.below(5) });
    let size = random.mostly(26, 25);
    let distances = random.bytes(size);
    let last = walk::last_timestamp(station.record(node));
    let any = random.next() as u32 >> random.below(32);
    let timestamp = *random.pick(&[any, last, last.saturating_sub(1), last.saturating_add(1)]);
    let value = random.next() as i64;
    let settings = bent(random, station.settings(node));
    let (day, minute) = (random.below(3) as u32, *random.pick(&[0, 599, 600, 650, 699, 700, 10_079, 10_080, 65_535]));
    let with = BeginWith { live, distances: &distances, timestamp, day, minute };
    let list = some_batch(random);
    both_of_two!(record, settings, counts, begin(me, with));
    both_of_two!(record, settings, counts, batch(me, with, &list));
    both!(record, counts, reselect(me, live, &distances));
    for object in [object, object & 7] {
        both!(record, counts, open_read(&settings, me, object));
        both!(record, counts, open_write(&settings, me, object));
        both!(record, counts, set_value(&settings, me, object, value));
        both!(record, counts, found(me, object));
    }
    both!(record, counts, request_commit(&settings, me));
    let table: &[u8] = *random.pick(&CLASSES);
    let table = bent(random, table);
    both!(settings, counts, load_classes(&record, me, &table));
    for class in [0, 1, 7, 8, object] {
        same("waiting", Product::waiting(&record, &settings, class), Fast::waiting(&record, &settings, class))?;
    }
    both!(record, counts, abort(me));
    both!(record, counts, blank_record());
    same("check_record", Product::check_record(&record), Fast::check_record(&record))?;
    let out = vec![7; random.mostly(130, 127)];
    let to = random.below(15) as u8;
    let (mut one, mut other) = (out.clone(), out);
    same("due", Product::due(&record, me, to, object & 7, &mut one), Fast::due(&record, me, to, object & 7, &mut other))?;
    same("due: bytes", one, other)
}

/// A batch as it is lent: one of the steps', of any weights, or the longest; sometimes bent.
fn some_batch(random: &mut Random) -> Vec<u8> {
    let count = random.below(40);
    let any = [count as u8, 0].into_iter().chain((0..count).flat_map(|_| (random.below(2001) as u16).to_le_bytes())).collect();
    let list = match random.below(16) {
        0 => longest_batch(),
        1..=7 => random.pick(&BATCHES).to_vec(),
        _ => any,
    };
    bent(random, &list)
}

/// The calls on settings by themselves.
fn settings_calls(random: &mut Random, station: &Station, counts: &mut Counts) -> Verdict {
    let mut settings = station.settings(random.below(13)).to_vec();
    if random.once_in(2) {
        let place = random.below(SETTINGS);
        settings[place] = random.byte() >> random.below(8);
    }
    let settings = bent(random, &settings);
    let longest = longest_table();
    let list: &[u8] = if random.once_in(4) { &longest } else { *random.pick(&TABLES) };
    let list = bent(random, list);
    both!(settings, counts, load_hours(&list));
    both!(settings, counts, blank_settings());
    same("settings_kind", Product::settings_kind(&settings), Fast::settings_kind(&settings))?;
    same("check_settings", Product::check_settings(&settings), Fast::check_settings(&settings))
}

/// A waiting message at a replica and at a coordinator by themselves, and its check.
fn deliveries(random: &mut Random, station: &Station, counts: &mut Counts) -> Verdict {
    if station.waiting() == 0 {
        return Ok(());
    }
    let k = random.below(station.waiting());
    let message = bent(random, station.message(k));
    same("check_message", Product::check_message(&message), Fast::check_message(&message))?;
    let node = usize::from(message[2].min(12));
    let me = if random.once_in(8) { random.below(15) as u8 } else { node as u8 };
    let (image, record) = (bent(random, station.image(node)), bent(random, station.record(node)));
    both!(record, counts, receive(me, &message));
    same("check_image", Product::check_image(&image), Fast::check_image(&image))?;
    same("answers", Product::replica_answers(&image, me, &message), Fast::replica_answers(&image, me, &message))?;
    let size = random.mostly(130, 127);
    let (mut one, mut other, mut answer, mut answer2) = (image.clone(), image.clone(), vec![9; size], vec![9; size]);
    let received = Product::replica_receive(&mut one, me, &message, &mut answer);
    same("replica_receive", received, Fast::replica_receive(&mut other, me, &message, &mut answer2))?;
    same("replica_receive: image", one, other)?;
    same("replica_receive: answer", answer, answer2)?;
    both!(image, counts, blank_image());
    Ok(())
}

/// Every writer, with numbers that are mostly in order.
fn writers(random: &mut Random, counts: &mut Counts) -> Verdict {
    let node = |random: &mut Random| random.below_mostly(13, 15) as u8;
    let number = |random: &mut Random| random.next() as u32 >> random.below(32);
    let (other, rival) = (node(random), node(random));
    let of = Transaction { owner: node(random), serial: number(random), stamp: number(random) };
    let mut object = random.below(40) as u8;
    let mut entry = |random: &mut Random| {
        object += random.below(20) as u8;
        let (mode, version) = (random.below_mostly(2, 3) as u8, number(random));
        let value = if mode == 0 && !random.once_in(8) { 0 } else { random.next() as i64 };
        Entry { object, mode, version: if random.once_in(20) { u32::MAX } else { version }, value }
    };
    let entries = Entries { entry: std::array::from_fn(|_| entry(random)), count: random.below(10) as u8 };
    let sparse = random.below(3) as u32;
    let serials = Serials { serial: std::array::from_fn(|_| if random.below(4) < sparse as usize { number(random) } else { 0 }) };
    let word = random.below_mostly(2, 3) as u8;
    let out = vec![5; random.mostly(129, 127)];
    both!(out, counts, write_fetch(other, of, entries.entry[0].object, entries.entry[0].mode));
    both!(out, counts, write_copy(other, of, entries.entry[0]));
    both!(out, counts, write_ask(other, of, &entries));
    both!(out, counts, write_vote(other, of, &serials, word));
    both!(out, counts, write_outcome(other, of, &entries, word));
    both!(out, counts, write_outcome(other, of, &Entries { count: 0, ..entries }, word));
    both!(out, counts, write_done(other, of));
    both!(out, counts, write_yield(of, rival, of.stamp));
    Ok(())
}

/// The quorum functions, on every mask, and on random distances and askers.
fn quorums(random: &mut Random, counts: &mut Counts) -> Verdict {
    for mask in 0..=u16::MAX {
        same(mask, Product::is_read_quorum(mask), Fast::is_read_quorum(mask))?;
        same(mask, Product::is_write_quorum(mask), Fast::is_write_quorum(mask))?;
        let distances: Vec<u8> = match mask % 4 {
            0 => random.bytes(26),
            1 => random.bytes(26).iter().enumerate().map(|(i, byte)| if i % 2 == 0 { byte & 3 } else { 0 }).collect(),
            2 => vec![1; 26],
            _ => {
                let size = random.mostly(26, 27);
                random.bytes(size)
            }
        };
        let asker = random.below_mostly(13, 256) as u8;
        same((mask, asker), Product::nearest_read(mask, &distances, asker), Fast::nearest_read(mask, &distances, asker))?;
        same((mask, asker), Product::nearest_write(mask, &distances, asker), Fast::nearest_write(mask, &distances, asker))?;
        counts.calls += 4;
    }
    Ok(())
}

/// Some steps from a blank station, with the calls by themselves now and then.
fn run(random: &mut Random, steps: usize, counts: &mut Counts) -> Verdict {
    let on = if random.once_in(2) { ALL } else { random.word() & ALL | 1 };
    let (mut product, mut rust) = (Station::blank::<Product>(on), Station::blank::<Fast>(on));
    let eager = [8, 8, 2, 0][random.below(4)];
    for _ in 0..steps {
        if random.once_in(6) {
            troubled(random, &mut product, &mut rust, counts)?;
            continue;
        }
        let chosen = walk::next(random, &rust, eager);
        step(&mut product, &mut rust, &chosen, counts)?;
        if random.once_in(4) {
            deliveries(random, &rust, counts)?;
            crafted::at_coordinator(random, &rust, counts)?;
            crafted::at_replica(random, &rust, counts)?;
        }
        if random.once_in(16) {
            record_calls(random, &rust, counts)?;
            settings_calls(random, &rust, counts)?;
            writers(random, counts)?;
        }
    }
    Ok(())
}

/// All comparisons; what was compared, or the first difference.
pub fn all(seed: u64, steps: usize) -> Result<Counts, String> {
    let mut random = Random::new(seed, "check");
    let mut counts = Counts::default();
    quorums(&mut random, &mut counts)?;
    while counts.steps < steps {
        run(&mut random, 5_000, &mut counts)?;
    }
    Ok(counts)
}
