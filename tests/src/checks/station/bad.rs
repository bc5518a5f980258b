//! Buffers that are no station, or no longer one: each length off, an impossible count or mask, a damaged record, image or settings, garbage among
//! the messages. Every step then has the model's number and leaves the model's bytes; a refused one leaves every byte as it was.

use super::ends::answered;
use super::scenario::{next_step, some_style, wild_step};
use super::seen::{numbers_in_words, place, Numbers, STEPS};
use crate::checks::hours::tables::damaged_settings;
use crate::ffi::station as library;
use crate::model::buffers::{self, Buffers, SLOTS};
use crate::model::image::IMAGE;
use crate::model::message::{self, LONGEST};
use crate::model::quorum::{ALL, NODES};
use crate::model::record::RECORD;
use crate::model::station::{blank, Station, Step, POOL};
use crate::model::{number, Fault};
use crate::random::Random;
use crate::runner::{ensure, Verdict};
use std::collections::BTreeMap;

/// What is wrong with the buffers.
#[derive(Clone, Copy, Debug, PartialEq, Eq, PartialOrd, Ord)]
enum Wrong {
    /// Nothing: so that a step is not refused for its buffers alone.
    Nothing,
    ImagesLength,
    RecordsLength,
    PoolLength,
    OwnLength,
    SettingsLength,
    Count,
    Mask,
    Record,
    Image,
    Settings,
    /// A message whose bytes are changed, one of any bytes, one of an impossible length.
    Message,
    Bytes,
    Slot,
    /// A message that is one, but that nobody would send.
    Odd,
    /// Two of these at once.
    Two,
}

const WRONGS: [Wrong; 16] = [
    Wrong::Nothing,
    Wrong::ImagesLength,
    Wrong::RecordsLength,
    Wrong::PoolLength,
    Wrong::OwnLength,
    Wrong::SettingsLength,
    Wrong::Count,
    Wrong::Mask,
    Wrong::Record,
    Wrong::Image,
    Wrong::Settings,
    Wrong::Message,
    Wrong::Bytes,
    Wrong::Slot,
    Wrong::Odd,
    Wrong::Two,
];

/// The numbers that each step has here, each of them often.
const REACHED: [&[usize]; 7] = [
    &[0, 1, 2, 3, 4, 5, 6, 8, 10, 11, 13],
    &[0, 1, 2, 4, 5, 6, 12],
    &[0, 1, 2, 3, 5, 12],
    &[0, 1, 2, 5],
    &[0, 1, 2, 4],
    &[0, 1, 2, 4, 5],
    &[0, 1, 2, 4, 5, 6, 10, 14, 15],
];

/// One byte shorter or longer.
fn misfit(random: &mut Random, buffer: &mut Vec<u8>) {
    let length = if random.once_in(2) { buffer.len() - 1 } else { buffer.len() + 1 };
    buffer.resize(length, random.byte());
}

/// A byte changed, within a part of a buffer.
fn spoil(random: &mut Random, bytes: &mut [u8]) {
    for _ in 0..1 + random.below(3) {
        let at = random.below(bytes.len());
        bytes[at] = *random.pick(&[0, 1, 2, 3, 13, 64, 127, 128, 255]);
    }
}

/// A message with one of its fields changed, so that it may still be well formed.
fn odd(random: &mut Random, bytes: &[u8]) -> Vec<u8> {
    let Some(mut it) = message::decode(bytes) else { return bytes.to_vec() };
    match random.below(6) {
        0 => it.transaction.serial = 1 + random.below(9) as u32,
        1 => it.transaction.stamp = 1 + random.below(9) as u32,
        2 => it.words.iter_mut().for_each(|word| *word = 1 - (*word & 1)),
        3 => it.entries.iter_mut().for_each(|entry| entry.version ^= 1),
        4 => it.from = random.below(NODES) as u8,
        _ => it.to = random.below(NODES) as u8,
    }
    message::encode(&it)
}

/// Makes something wrong with the buffers; what is wrong with a message needs one that waits.
fn spoil_as(random: &mut Random, wrong: Wrong, it: &mut Buffers) {
    let waits = it.waiting() > 0;
    let k = random.below(it.waiting().clamp(1, POOL));
    match wrong {
        Wrong::Nothing => {}
        Wrong::ImagesLength => misfit(random, &mut it.images),
        Wrong::RecordsLength => misfit(random, &mut it.records),
        Wrong::PoolLength => misfit(random, &mut it.pool),
        Wrong::OwnLength => misfit(random, &mut it.own),
        Wrong::SettingsLength => misfit(random, &mut it.settings),
        Wrong::Count => it.pool[0] = *random.pick(&[129, 130, 200, 255]),
        Wrong::Mask => it.own[1] |= *random.pick(&[0x20, 0x40, 0x80, 0xe0]),
        Wrong::Record => (0..NODES).for_each(|node| spoil(random, &mut it.records[node * RECORD..(node + 1) * RECORD])),
        Wrong::Image => (0..NODES).for_each(|node| spoil(random, &mut it.images[node * IMAGE..(node + 1) * IMAGE])),
        // Each node's spoilt anywhere, or broken for sure.
        Wrong::Settings => (0..NODES).for_each(|node| {
            let mut settings = it.settings(node).to_vec();
            spoil(random, &mut settings);
            let broken = damaged_settings(random);
            it.put_settings(node, if random.once_in(2) { &settings } else { &broken });
        }),
        Wrong::Message if waits => {
            let mut bytes = it.message(k).to_vec();
            spoil(random, &mut bytes);
            it.put_message(k, &bytes);
        }
        Wrong::Bytes if waits => {
            let length = random.below(LONGEST + 1);
            it.put_message(k, &random.bytes(length));
        }
        Wrong::Slot if waits => it.pool[1 + (1 + LONGEST) * k] = *random.pick(&[0, 14, 129, 200, 255]),
        Wrong::Odd if waits => {
            let bytes = odd(random, it.message(k));
            it.put_message(k, &bytes);
        }
        Wrong::Two => {
            // A length last, as the others are made within the buffers.
            let (content, length) = (WRONGS[6 + random.below(9)], WRONGS[1 + random.below(5)]);
            spoil_as(random, content, it);
            spoil_as(random, length, it);
        }
        Wrong::Message | Wrong::Bytes | Wrong::Slot | Wrong::Odd => {}
    }
}

/// A station on its way, in the model and as buffers.
fn under_way(random: &mut Random) -> (Station, Buffers) {
    let on = if random.once_in(4) { random.word() & ALL } else { ALL };
    let (mut station, style) = (blank(on), some_style(random));
    let mut it = buffers::of(&station);
    for _ in 0..random.below(400) {
        let step = next_step(random, &station, &style);
        let event = station.step(step, Fault::None);
        it.leave(&event, &station);
    }
    // Now and then the pool is full: what waits is there many times.
    if !station.pool.is_empty() && random.once_in(4) {
        while station.pool.len() < POOL {
            let again = random.pick(&station.pool).clone();
            it.add(&message::encode(&again));
            station.pool.push(again);
        }
    }
    (station, it)
}

/// One step on spoilt buffers; its number.
fn one_step(step: &Step, wrong: Wrong, is: &mut Buffers) -> Result<u8, String> {
    let before = is.clone();
    let mut expected = is.clone();
    let told = expected.step(step);
    let (number, answer) = library::step(is, step);
    ensure!((number, answer) == answered(&told), "{wrong:?}, {step:?}: the library says {number} and {answer}, the model {told:?}");
    ensure!(*is == expected, "{wrong:?}, {step:?}: other bytes, number {number}");
    // A batch that is given up says so.
    ensure!(number == number::OK || answer != 0 || *is == before, "{wrong:?}, {step:?}: refused with {number}, and a byte is altered");
    Ok(number)
}

/// What the library says of the messages that wait, of any bytes.
fn looks(is: &Buffers) -> Result<(), String> {
    let sound = is.pool.len() == SLOTS;
    let first = if !sound { number::LENGTH } else { u8::from(is.waiting() > POOL) * number::DAMAGED };
    let waits = if first == number::OK { is.waiting() } else { 0 };
    ensure!(library::waiting(&is.pool) == waits, "{waits} messages wait, the library says {}", library::waiting(&is.pool));
    for k in [0, 1, 127, 128, 255] {
        let told = library::message(&is.pool, k);
        let at = usize::from(k);
        let expected = match first {
            number::OK if at < waits => (number::OK, 2 + (1 + LONGEST) * at, is.message(at).len()),
            number::OK => (number::OUT_OF_TURN, 0, 0),
            refused => (refused, 0, 0),
        };
        ensure!(told == expected, "message {k}: the library says {told:?}, expected is {expected:?}");
    }
    Ok(())
}

pub fn bad_buffers(random: &mut Random, rounds: usize) -> Verdict {
    let mut numbers = Numbers::default();
    let mut wrongs: BTreeMap<Wrong, usize> = BTreeMap::new();
    for _ in 0..400 * rounds {
        let (station, sound) = under_way(random);
        let style = some_style(random);
        for wrong in WRONGS {
            let mut is = sound.clone();
            spoil_as(random, wrong, &mut is);
            looks(&is)?;
            for _ in 0..30 {
                let step = if random.once_in(3) { next_step(random, &station, &style) } else { wild_step(random, &station, &style) };
                let number = one_step(&step, wrong, &mut is)?;
                numbers[place(&step)][usize::from(number)] += 1;
                *wrongs.entry(wrong).or_insert(0) += usize::from(number != number::OK);
            }
        }
    }
    let all = (0..STEPS.len()).flat_map(|step| REACHED[step].iter().map(move |&number| (step, number)));
    let rarest = all.min_by_key(|&(step, number)| numbers[step][number]).expect("some number");
    let least = numbers[rarest.0][rarest.1];
    let steps: usize = numbers.iter().flatten().sum();
    let words = numbers_in_words(&numbers);
    let counted = format!("{steps} steps, {words}; refused {wrongs:?}; the rarest ({} {}) {least} times", STEPS[rarest.0], rarest.1);
    ensure!(least >= 20 * rounds && wrongs.values().all(|&count| count >= 200 * rounds), "too poor: {counted}");
    Ok(counted)
}
