//! Weight classes through the library's C functions, at a lone node and at a station: tables and batches as they are lent, settings as they are kept, votes
//! asked for on a batch. Number, answer and every byte are the model's, and the tenths are counted once more in a ledger that never splits a weight.

mod lone;
mod subsets;
mod sums;
pub mod tables;

use crate::checks::coordinator::records::some_in;
use crate::checks::hours::same_step;
use crate::checks::hours::tables::some_settings;
use crate::ffi::coordinator as ffi;
use crate::model::buffers;
use crate::model::classes::{encode, encode_weights, Classes, CLASSES, HEAVIEST, WEIGHTS};
use crate::model::coordinator::{host_call, Call};
use crate::model::quorum::{ALL, NODES};
use crate::model::record::{self, phase, Record, RECORD};
use crate::model::settings::{self, kind, Settings, HOURS, KIND, LEFT, SETTINGS, WAITED};
use crate::model::station::{blank as blank_station, Step};
use crate::model::{number, OBJECTS};
use crate::random::Random;
use crate::runner::{ensure, in_four_threads, Runner, Verdict};
use std::collections::BTreeMap;
use tables::{damage_tail, some_batch, some_classes, some_list, some_tail, some_weights, DAMAGES};

pub fn run(runner: &mut Runner) {
    runner.check("classes: known bytes", |_, _| known_bytes());
    runner.check("classes: every weight at every bound", |random, _| every_weight(random));
    runner.check("classes: batches of none to 4,097 weights", |random, _| every_size(random));
    runner.check("classes: tables and batches of every length", every_length);
    runner.check("classes: every byte of a table changed", every_byte_of_a_table);
    runner.check("classes: every byte of settings changed", every_byte_of_settings);
    runner.check("classes: each damage of a table", each_damage);
    runner.check("classes: what waits, by record and settings", what_waits);
    runner.check("classes: loads in every phase", loads_in_every_phase);
    runner.check("classes: every subset of a batch's faults", subsets::batches);
    runner.check("classes: every subset of a batch's faults at a station", subsets::station_batches);
    runner.check("classes: every subset of a load's faults", subsets::loads);
    runner.check("classes: every subset of a load's faults at a station", subsets::station_loads);
    runner.check("classes: every subset of a request's faults", subsets::requests);
    runner.check("classes: every subset of a request's faults at a station", subsets::station_requests);
    runner.check("classes: sums at the range's ends", |_, _| sums::edges());
    runner.check("classes: sums of any values", sums::any);
    runner.check("classes: a batch given up, and its version used up first", |_, _| sums::given_up());
    runner.check("classes: tenths move at the commit decision", |_, _| lone::at_the_decision());
    runner.check("classes: aborted in every way, and booked again", |_, _| lone::aborted_and_again());
    runner.check("classes: the host's own calls on a batch", |_, _| lone::own_calls());
    runner.check("classes: batches and tables, one after another", lone::one_after_another);
    runner.check("classes in four threads", threads);
}

/// The participants of node 3's transactions when all are live and every distance is the same: 0, 1, 4, 5, the asker 3, 10 and 11.
const PARTY: u16 = 3131;

/// A batch at which nothing is wrong but, it may be, its weights.
fn batch(timestamp: u32, list: Vec<u8>) -> Call {
    Call::Batch { live: ALL, distances: [1, 0].repeat(NODES), timestamp, day: 0, minute: 0, list }
}

/// Settings in which a table of classes is loaded, and nothing waits.
fn with_table(table: &Classes) -> Vec<u8> {
    settings::with_classes(&settings::settings_of(None), table)
}

/// The library's load on a record and settings against the model's: number, answer and every byte; the settings after.
fn same_load(record: &[u8], settings: &[u8], me: u8, list: &[u8]) -> Result<(u8, Vec<u8>), String> {
    let (mut after, lent_record, lent) = (settings.to_vec(), record.to_vec(), list.to_vec());
    let got = ffi::load_classes(&lent_record, &mut after, me, &lent);
    let (number, left) = match settings::load_classes_call(record, settings, me, list) {
        Err(number) => (number, settings.to_vec()),
        Ok(left) => (number::OK, left),
    };
    ensure!(got == (number, 0), "load {list:?} over {settings:?}: {got:?}, but the model says {number}");
    ensure!(after == left, "load {list:?} over {settings:?}: {got:?}, and other bytes than the model's: {after:?}");
    ensure!(lent == list && lent_record == record, "load {list:?}: the list or the record became another");
    ensure!(number != number::OK || ffi::check_settings(&after) == number::OK, "load {list:?} leaves damaged settings");
    Ok((number, after))
}

/// The library's host call against the model's: number, answer and every byte of record and settings, which are as after it.
fn same_call(record: &mut Vec<u8>, settings: &mut Vec<u8>, me: u8, call: &Call) -> Result<(u8, i64), String> {
    let (told, left) = match host_call(record, settings, me, call) {
        Err(number) => ((number, 0), (record.clone(), settings.clone())),
        Ok(left) => ((left.done.number, left.done.answer), (left.record, left.settings)),
    };
    let before = (record::decode(record), settings.clone());
    let got = ffi::host_call(record, settings, me, call);
    ensure!(got == told, "{call:?} on {before:?}: {got:?}, but the model says {told:?}");
    ensure!((&*record, &*settings) == (&left.0, &left.1), "{call:?} on {before:?}: {got:?}, and other bytes than the model's");
    Ok(got)
}

/// What the library says of the tenths that wait in each class that there could be, and of the kind, against the model.
fn same_waiting(record: &[u8], settings: &[u8]) -> Result<(), String> {
    for class in (0..=CLASSES as u8 + 1).chain([64, 128, 255]) {
        let expected = settings::waiting_call(record, settings, class).map_or_else(|number| (number, 0), |tenths| (number::OK, tenths));
        let got = ffi::waiting(record, settings, class);
        ensure!(got == expected, "class {class} of {settings:?}: {got:?} wait, but the model says {expected:?}");
    }
    let expected = settings::kind_call(settings).map_or_else(|number| (number, 0), |kind| (number::OK, kind));
    let got = ffi::settings_kind(settings);
    ensure!(got == expected, "the kind of {settings:?} is {got:?}, but the model says {expected:?}");
    Ok(())
}

/// Bytes that are set here one by one, so that model and library cannot agree on other places or another order of bytes. The weights are those of
/// document 02's own sort: 3.7 g and 6.4 g in one class.
fn known_bytes() -> Verdict {
    // Bounds 0x0102 and 0x0530, objects 10, 127 and 0; what waited and what stood behind the hours is gone.
    let list = [2, 2, 1, 0x30, 5, 3, 10, 127, 0];
    let (record, mut settings) = (vec![0; RECORD], vec![0; SETTINGS]);
    settings[HOURS..HOURS + 2].copy_from_slice(&[0, 0]);
    settings[HOURS + 2..KIND].fill(0xee);
    settings[KIND..].copy_from_slice(&[1, 9, 8, 7, 6, 5, 4, 3, 2, 1, 2, 3, 4, 5, 6, 7, 8]);
    ensure!(ffi::load_classes(&record, &mut settings, 3, &list) == (0, 0), "the table is refused");
    let mut expected = vec![0; SETTINGS];
    expected[187..196].copy_from_slice(&list);
    ensure!(settings == expected, "it is kept as {settings:?}");
    ensure!(ffi::settings_kind(&settings) == (0, 0), "the kind of a batch stays");
    // 37 and 64 tenths in class 0, 0x0102 in class 1, 0x052f in class 1, 0x0530 in class 2.
    let weights = [5, 0, 37, 0, 64, 0, 2, 1, 0x2f, 5, 0x30, 5];
    let mut bytes = record.clone();
    let begun = ffi::host_call(&mut bytes, &mut settings, 3, &batch(0x0102, weights.to_vec()));
    (expected[211], expected[220], expected[221], expected[222]) = (1, 1, 5, 8);
    ensure!(begun == (0, 1) && settings == expected, "batch: {begun:?}, {settings:?}");
    let mut opened = vec![0; RECORD];
    (opened[0], opened[4], opened[5], opened[9]) = (1, 2, 1, 1);
    (opened[10], opened[11], opened[38], opened[40], opened[42]) = (255, 31, 1, 1, 3);
    opened[12..38].copy_from_slice(&[1, 0].repeat(NODES));
    // 10 grams and 1 tenth; 0x0102 + 0x052f = 1,585: 158 grams and 5 tenths; 0x0530 = 1,328: 132 grams and 8 tenths.
    for (place, (object, grams)) in [(10, 10), (127, 158), (0, 132)].into_iter().enumerate() {
        let at = 43 + 25 * place;
        (opened[at], opened[at + 1], opened[at + 16], opened[at + 17]) = (object, 1, 1, grams);
    }
    ensure!(bytes == opened, "batch: the record is {bytes:?}");
    // Nothing waits before the commit; an idle record with the outcome 1 is one that was committed.
    for (outcome, phase, waits) in [(0, 1, [0, 0, 0]), (1, 0, [1, 5, 8]), (2, 0, [0, 0, 0])] {
        let mut decided = bytes.clone();
        if phase == 0 {
            decided = vec![0; RECORD];
            (decided[0], decided[4]) = (1, 1);
        }
        decided[8] = outcome;
        let got: Vec<(u8, i64)> = (0..4).map(|class| ffi::waiting(&decided, &settings, class)).collect();
        let told: Vec<(u8, i64)> = waits.iter().map(|&tenths| (0, tenths)).chain([(6, 0)]).collect();
        ensure!(got == told, "outcome {outcome}, phase {phase}: {got:?} wait");
    }
    Ok(String::from("a table, a batch of five weights"))
}

/// The grams of each class that stand in a record right behind a batch, and the tenths that its settings leave over.
fn split_of(record: &[u8], settings: &[u8]) -> (Vec<i64>, Vec<u8>) {
    let count = usize::from(record[42]);
    let grams = (0..count).map(|place| i64::from_le_bytes(std::array::from_fn(|at| record[43 + 25 * place + 17 + at]))).collect();
    (grams, settings[LEFT..LEFT + count].to_vec())
}

/// One weight alone is in the class that the document says, and in no other.
fn one_weight(table: &Classes, settings: &[u8], weight: u16) -> Result<(), String> {
    let (mut bytes, mut kept) = (vec![0; RECORD], settings.to_vec());
    let got = ffi::host_call(&mut bytes, &mut kept, 3, &batch(1, encode_weights(&[weight])));
    ensure!(got == (number::OK, 1), "{table:?}, weight {weight}: {got:?}");
    let reached = table.bounds.iter().filter(|&&bound| bound <= weight).count();
    let of = |class: usize, amount: u16| if class == reached { amount } else { 0 };
    let expected = (0..table.objects.len()).map(|class| (i64::from(of(class, weight / 10)), of(class, weight % 10) as u8)).unzip();
    ensure!(split_of(&bytes, &kept) == expected, "{table:?}, weight {weight}: {:?}", split_of(&bytes, &kept));
    Ok(())
}

/// Each of the 2,000 weights alone, by tables of one to eight classes; and each bound, alone and among seven, with the weights beside it.
fn every_weight(random: &mut Random) -> Verdict {
    let mut weighed = 0;
    for count in (1..=CLASSES).flat_map(|count| [count; 4]) {
        let table = Classes { bounds: tables::some_bounds(random, count - 1), objects: tables::some_objects(random, count, OBJECTS) };
        let settings = with_table(&table);
        for weight in 0..=HEAVIEST {
            one_weight(&table, &settings, weight)?;
            weighed += 1;
        }
    }
    for bound in 1..=HEAVIEST {
        let alone = Classes { bounds: vec![bound], objects: vec![7, 8] };
        let mut bounds: Vec<u16> = (0..7).map(|step| bound.saturating_sub(3).clamp(1, HEAVIEST - 6) + step).collect();
        bounds.dedup();
        let among = Classes { objects: tables::some_objects(random, bounds.len() + 1, OBJECTS), bounds };
        for table in [alone, among] {
            let settings = with_table(&table);
            for weight in [0, bound - 1, bound, (bound + 1).min(HEAVIEST), HEAVIEST] {
                one_weight(&table, &settings, weight)?;
                weighed += 1;
            }
        }
    }
    Ok(format!("{weighed} weights"))
}

/// No weight, one, 4,096 and 4,097, light and as heavy as they may be; and 65,535, which two bytes can count.
fn every_size(random: &mut Random) -> Verdict {
    let table = some_classes(random);
    for waited in [0, 9] {
        for (count, weight) in
            [0, 1, 2, 255, 256, 257, WEIGHTS - 1, WEIGHTS].into_iter().flat_map(|count| [0, 1, 9, 10, HEAVIEST].map(|w| (count, w)))
        {
            let (mut bytes, mut kept) = (vec![0; RECORD], with_table(&table));
            kept[WAITED..WAITED + CLASSES].fill(waited);
            let got = same_call(&mut bytes, &mut kept, 3, &batch(1, encode_weights(&vec![weight; count])))?;
            ensure!(got == (number::OK, 1), "{count} weights of {weight}: {got:?}");
            let class = table.class_of(weight);
            let all = u64::from(waited) + count as u64 * u64::from(weight);
            let (grams, left) = split_of(&bytes, &kept);
            ensure!(
                grams[class] as u64 * 10 + u64::from(left[class]) == all && left[class] < 10,
                "{count} weights of {weight}: {grams:?}, {left:?}"
            );
        }
        for (count, weight) in
            [WEIGHTS + 1, WEIGHTS + 2, 2 * WEIGHTS, 65_535].into_iter().flat_map(|count| [0, HEAVIEST, 2000].map(|w| (count, w)))
        {
            let got = same_call(&mut vec![0; RECORD], &mut with_table(&table), 3, &batch(1, encode_weights(&vec![weight; count])))?;
            ensure!(got == (number::GARBLED, 0), "{count} weights: {got:?}");
        }
    }
    // One weight that is too heavy, at each place of a full batch.
    for place in (0..WEIGHTS).step_by(97).chain([1, WEIGHTS - 2, WEIGHTS - 1]) {
        let mut weights = some_weights(random, Some(&table), WEIGHTS);
        weights[place] = *random.pick(&[2000, 2001, 0x8000, 65_535]);
        let got = same_call(&mut vec![0; RECORD], &mut with_table(&table), 3, &batch(1, encode_weights(&weights)))?;
        ensure!(got == (number::GARBLED, 0), "a heavy weight at {place}: {got:?}");
    }
    // Every weight of two bytes, alone.
    for weight in 0..=u16::MAX {
        let got = ffi::host_call(&mut vec![0; RECORD], &mut with_table(&table), 3, &batch(1, encode_weights(&[weight])));
        ensure!(got == if weight <= HEAVIEST { (number::OK, 1) } else { (number::GARBLED, 0) }, "weight {weight}: {got:?}");
    }
    Ok(String::from("0, 1, 4,096 and 4,097, 65,536 weights alone"))
}

/// Tables and batches cut short and padded at every length, and counts that ask for more or less than there is.
fn every_length(random: &mut Random, rounds: usize) -> Verdict {
    let (mut loads, mut batches) = ([0; number::COUNT], [0; number::COUNT]);
    for _ in 0..20 * rounds {
        let (list, settings) = (encode(&some_classes(random)), some_settings(random));
        for length in 0..list.len() + 300 {
            let mut resized = list.clone();
            resized.resize(length, 0);
            let (number, _) = same_load(&vec![0; RECORD], &settings, 3, &resized)?;
            ensure!((number == number::OK) == (length == list.len()), "{list:?} in {length} bytes: {number}");
            loads[usize::from(number)] += 1;
        }
        for (bounds, objects) in (0..=255).flat_map(|count| [(count, random.byte()), (random.byte(), count), (count & 7, count & 15)]) {
            let size = 2 + 2 * usize::from(bounds) + usize::from(objects);
            for length in [size - 1, size, size + 1] {
                let mut bytes = vec![0; length];
                // Bounds and objects that rise by one.
                (0..usize::from(bounds)).for_each(|at| bytes[1 + 2 * at] = 1 + at as u8);
                (1..usize::from(objects)).for_each(|at| *bytes.get_mut(2 + 2 * usize::from(bounds) + at).unwrap_or(&mut 0) = at as u8);
                bytes[0] = bounds;
                *bytes.get_mut(1 + 2 * usize::from(bounds)).unwrap_or(&mut 0) = objects;
                let (number, _) = same_load(&vec![0; RECORD], &settings, 3, &bytes)?;
                loads[usize::from(number)] += 1;
            }
        }
        let count = random.below(40);
        let weights = encode_weights(&some_weights(random, None, count));
        let table = with_table(&some_classes(random));
        for length in 0..weights.len() + 100 {
            let mut resized = weights.clone();
            resized.resize(length, 0);
            let (number, _) = same_call(&mut vec![0; RECORD], &mut table.clone(), 3, &batch(1, resized))?;
            ensure!((number == number::OK) == (length == weights.len()), "{weights:?} in {length} bytes: {number}");
            batches[usize::from(number)] += 1;
        }
    }
    // Settings and records of every length.
    for length in (0..500).chain([SETTINGS * NODES, 65_536 + SETTINGS]) {
        let (settings, record) = (vec![0; length], vec![0; length]);
        for list in [&[0, 1, 5][..], &[0, 1]] {
            let (number, _) = same_load(&vec![0; RECORD], &settings, 3, list)?;
            ensure!((number == number::OK) == (length == SETTINGS && list.len() == 3), "a load to settings of {length} bytes: {number}");
            same_load(&record, &with_table(&some_classes(random)), 3, list)?;
        }
        same_waiting(&vec![0; RECORD], &settings)?;
        same_waiting(&record, &with_table(&some_classes(random)))?;
        same_call(&mut vec![0; RECORD], &mut settings.clone(), 3, &batch(1, vec![0, 0]))?;
        same_call(&mut record.clone(), &mut with_table(&some_classes(random)), 3, &batch(1, vec![0, 0]))?;
    }
    ensure!([0, 1, 6, 14].iter().all(|&number| loads[number] > 10 * rounds), "too poor: {loads:?}");
    ensure!([0, 1].iter().all(|&number| batches[number] > 10 * rounds), "too poor: {batches:?}");
    Ok(format!("loads {loads:?}, batches {batches:?}"))
}

/// Each byte of a table as each of the 256 values.
fn every_byte_of_a_table(random: &mut Random, rounds: usize) -> Verdict {
    let mut numbers = [0; number::COUNT];
    for _ in 0..8 * rounds {
        let full = Classes { bounds: tables::some_bounds(random, 7), objects: tables::some_objects(random, 8, OBJECTS) };
        let settings = some_settings(random);
        for list in [encode(&full), encode(&some_classes(random)), vec![0, 0], vec![0, 1, 9], vec![1, 9, 0, 2, 0, 1]] {
            for (at, value) in (0..list.len()).flat_map(|at| (0..=255).map(move |value| (at, value))) {
                let mut changed = list.clone();
                changed[at] = value;
                let (number, _) = same_load(&vec![0; RECORD], &settings, 3, &changed)?;
                numbers[usize::from(number)] += 1;
            }
        }
    }
    ensure!([0, 1, 6, 14, 15].iter().all(|&number| numbers[number] > 100 * rounds), "too poor: {numbers:?}");
    Ok(format!("by number {numbers:?}"))
}

/// Each byte behind the hours of some settings as each of the 256 values: the check agrees, and with some values each call that is lent them.
fn every_byte_of_settings(random: &mut Random, rounds: usize) -> Verdict {
    let mut numbers = [0; number::COUNT];
    let mut calls = [0; number::COUNT];
    let full = Classes { bounds: tables::some_bounds(random, 7), objects: tables::some_objects(random, 8, OBJECTS) };
    for _ in 0..2 * rounds {
        let mut with_noise = some_settings(random);
        with_noise[HOURS..].copy_from_slice(&some_tail(random));
        for settings in [with_table(&full), with_table(&some_classes(random)), settings::settings_of(None), with_noise] {
            for at in HOURS..SETTINGS {
                let mut changed = settings.clone();
                for value in 0..=255 {
                    changed[at] = value;
                    let (got, expected) = (ffi::check_settings(&changed), settings::check_call(&changed));
                    ensure!(got == expected, "byte {at} of {settings:?} as {value}: {got}, but the model says {expected}");
                    numbers[usize::from(got)] += 1;
                }
                for value in [0, 1, 2, 7, 8, 9, 10, 63, 64, 127, 128, 255, settings[at] ^ 1] {
                    changed[at] = value;
                    let number = every_lent_call(random, &changed)?;
                    calls[usize::from(number)] += 1;
                }
            }
        }
    }
    ensure!(numbers[0] > 10_000 * rounds && numbers[2] > 5_000 * rounds, "too poor: {numbers:?}");
    ensure!([0, 2, 5].iter().all(|&number| calls[number] > 10 * rounds), "too poor: {calls:?}");
    Ok(format!("{} sound, {} damaged; batches {calls:?}", numbers[0], numbers[2]))
}

/// Each call that is lent the settings, on a record that is idle or open; the number of a batch.
fn every_lent_call(random: &mut Random, settings: &[u8]) -> Result<u8, String> {
    let me = random.below(NODES) as u8;
    let idle = record::encode(&some_in(random, me, phase::IDLE));
    let open = record::encode(&some_in(random, me, phase::OPEN));
    same_waiting(&idle, settings)?;
    same_waiting(&open, settings)?;
    same_load(&idle, settings, me, &some_list(random, 4))?;
    for call in
        [Call::Open { object: 1, mode: 1 }, Call::Open { object: 2, mode: 0 }, Call::SetValue { object: 1, value: 5 }, Call::RequestCommit]
    {
        same_call(&mut open.clone(), &mut settings.to_vec(), me, &call)?;
    }
    let list = some_batch(random, None, 20);
    same_call(&mut vec![0; RECORD], &mut settings.to_vec(), me, &batch(1, list)).map(|(number, _)| number)
}

/// Each way to make a table wrong: its number, and the settings stay, byte by byte, with the tenths that wait.
fn each_damage(random: &mut Random, rounds: usize) -> Verdict {
    let mut it = buffers::of(&blank_station(ALL));
    for damage in DAMAGES {
        for _ in 0..100 * rounds {
            let (settings, list) = (some_settings(random), damage.make(random));
            let (number, after) = same_load(&vec![0; RECORD], &settings, 3, &list)?;
            ensure!(number == damage.number && after == settings, "{}: {number} for {list:?}", damage.name);
            let node = random.below(NODES) as u8;
            it.put_settings(usize::from(node), &settings);
            let before = it.settings.clone();
            let number = same_step(&mut it, &Step::LoadClasses { node, list })?;
            ensure!(number == damage.number && it.settings == before, "{}: {number} at a station", damage.name);
        }
    }
    Ok(format!("{} ways", DAMAGES.len()))
}

/// Any record with any settings, damaged ones too: what waits is told from both, and changes nothing.
fn what_waits(random: &mut Random, rounds: usize) -> Verdict {
    let mut cases: BTreeMap<(u8, u8, u8), usize> = BTreeMap::new();
    for _ in 0..4000 * rounds {
        let (me, phase) = (random.below(NODES) as u8, random.below(4) as u8);
        let record = some_in(random, me, phase);
        let mut settings = some_settings(random);
        settings[HOURS..].copy_from_slice(&some_tail(random));
        if random.once_in(8) {
            damage_tail(random, &mut settings);
        }
        let mut bytes = record::encode(&record);
        if random.once_in(8) {
            bytes[random.below(10)] = random.byte();
        }
        same_waiting(&bytes, &settings)?;
        if let (Ok(known), Ok(record)) = (settings::load(&settings), record::load(&bytes)) {
            let moved = known.kind == kind::BATCH && record.outcome == 1 && [phase::IDLE, phase::FINISHING].contains(&record.phase);
            ensure!(known.waiting(&record) == if moved { known.left } else { known.waited }, "{known:?} with {record:?} waits otherwise");
            *cases.entry((known.kind, record.outcome, record.phase)).or_insert(0) += 1;
        }
    }
    let all = (0..2).flat_map(|kind| (0..3).flat_map(move |outcome| (0..4).map(move |phase| (kind, outcome, phase))));
    // Finishing has an outcome.
    let least = all.filter(|&(_, outcome, phase)| phase != 3 || outcome != 0).map(|case| cases.get(&case).copied().unwrap_or(0)).min();
    ensure!(least.unwrap_or(0) > 10 * rounds, "too poor: {cases:?}");
    Ok(format!("by kind, outcome and phase {cases:?}"))
}

/// Loads at a node whose transaction is in each phase, on and off: "Loading needs idle, else 10", and the record does not change.
fn loads_in_every_phase(random: &mut Random, rounds: usize) -> Verdict {
    let mut taken: BTreeMap<(u8, u8), usize> = BTreeMap::new();
    for _ in 0..400 * rounds {
        for phase in [phase::IDLE, phase::OPEN, phase::VOTING, phase::FINISHING] {
            let node = random.below(NODES) as u8;
            let record = some_in(random, node, phase);
            let mut it = buffers::of(&blank_station(if random.once_in(4) { ALL & !(1 << node) } else { ALL }));
            it.put_record(usize::from(node), &record);
            it.put_settings(usize::from(node), &some_settings(random));
            for _ in 0..3 {
                let number = same_step(&mut it, &Step::LoadClasses { node, list: some_list(random, 2) })?;
                *taken.entry((phase, number)).or_insert(0) += 1;
                ensure!(it.record(usize::from(node)) == record::encode(&record), "a load changed a record");
                ensure!(phase == phase::IDLE || number != number::OK, "a load in phase {phase}");
                same_waiting(it.record(usize::from(node)), it.settings(usize::from(node)))?;
            }
        }
    }
    let idle = [0, 1, 5, 6, 14, 15].map(|number| (phase::IDLE, number));
    let others = [phase::OPEN, phase::VOTING, phase::FINISHING].into_iter().flat_map(|phase| [1, 5, 6, 10].map(|number| (phase, number)));
    let least = idle.into_iter().chain(others).map(|case| taken.get(&case).copied().unwrap_or(0)).min().unwrap_or(0);
    ensure!(least > 5 * rounds, "too poor: {taken:?}");
    Ok(format!("by phase and number {taken:?}"))
}

/// Re-entrant: four threads at once get the model's answers, each on its own bytes.
fn threads(random: &mut Random, rounds: usize) -> Verdict {
    let inputs = 2000 * rounds;
    in_four_threads(random, |random| {
        for _ in 0..inputs {
            let mut settings = some_settings(random);
            if random.once_in(6) {
                damage_tail(random, &mut settings);
            }
            let mut record = record::encode(&Record::default());
            let (number, after) = same_load(&record, &settings, 3, &some_list(random, 3))?;
            let mut kept = if number == number::OK { after } else { settings };
            let known: Option<Settings> = settings::load(&kept).ok();
            let list = some_batch(random, known.and_then(|known| known.classes).as_ref(), 8);
            same_call(&mut record, &mut kept, 3, &batch(1, list))?;
            same_waiting(&record, &kept)?;
        }
        Ok(())
    })?;
    Ok(format!("4 times {inputs} loads and batches"))
}
