//! Calls on records and images that are nearly in order, with messages that nearly fit them. Bytes changed at random are mostly refused at the
//! first look; these get further, to the rules that only few states reach.

use super::{same, Counts, Verdict};
use crate::fast::Fast;
use crate::library::{Entries, Entry, Library, Serials, Transaction, Written, IMAGE, OBJECTS as COUNT, OLDER_IMAGES, OLDER_OBJECTS};
use crate::product::Product;
use crate::random::Random;
use crate::station::Station;

/// The masks of a record: live, quorum, contacted, participants, yes, done.
const MASKS: [usize; 6] = [10, 38, 40, 243, 245, 247];
const OBJECTS: usize = 43;
const RIVALS: usize = 249;

/// An image's copies, and its owners.
const COPIES: usize = 1;
const COPY: usize = 22;
const OWNERS: usize = COPIES + COPY * COUNT + 1;

fn number(bytes: &[u8], place: usize) -> u32 {
    u32::from_le_bytes([bytes[place], bytes[place + 1], bytes[place + 2], bytes[place + 3]])
}

/// One field of a record becomes another that could be meant.
fn tweak_record(random: &mut Random, record: &mut [u8]) {
    let (mask, other) = (*random.pick(&MASKS), *random.pick(&MASKS));
    let object = OBJECTS + 25 * random.below(8);
    match random.below(10) {
        0 => record[9] = random.below(4) as u8,
        1 => record[8] = random.below(3) as u8,
        2 => record[42] = random.below(10) as u8,
        3 => (record[mask], record[mask + 1]) = (record[other], record[other + 1]),
        4 => record[mask + random.below(2)] ^= 1 << random.below(8),
        5 => record[RIVALS + 4 * random.below(13)] = random.below(4) as u8,
        6 => record[object + random.below(3)] ^= 1 << random.below(8),
        7 => record[object + [4, 8, 16, 17][random.below(4)]] ^= 1,
        8 => record[object + 4..object + 8].fill(255),
        _ => record[12 + random.below(26)] = random.byte(),
    }
}

/// One field of an image becomes another that could be meant.
fn tweak_image(random: &mut Random, image: &mut [u8]) {
    let (copy, owner) = (COPIES + COPY * random.below(COUNT), OWNERS + 9 * random.below(13));
    match random.below(8) {
        0 => image[owner + 4] = random.below(5) as u8,
        1 => image[owner] ^= 1,
        2 => image[owner + 5] = random.below(4) as u8,
        3 => image[copy + 12] = if random.once_in(2) { random.below(14) as u8 } else { 255 },
        4 => image[copy + 13 + random.below(4)] ^= 1 << random.below(8),
        5 => image[copy + 17] = *random.pick(&[0, 5, 12, 13, 200, 253, 254, 255]),
        6 => image[copy + 18 + random.below(4)] = random.below(2) as u8,
        _ => image[copy + 8] = random.below(4) as u8,
    }
}

/// A message as the baseline writes it; empty where it refuses.
fn message(write: impl FnOnce(&mut [u8]) -> Written) -> Vec<u8> {
    let mut out = vec![0; 128];
    let length = usize::from(write(&mut out).length);
    out.truncate(length);
    out
}

/// Once in four times, a byte of a message becomes that of another place, so that counts, nodes, objects and words are nearly right too.
fn bend(random: &mut Random, mut message: Vec<u8>) -> Vec<u8> {
    if !message.is_empty() && random.once_in(4) {
        let (place, other) = (random.below(message.len()), random.below(message.len()));
        message[place] = message[other];
    }
    message
}

/// A copy, vote, done or yield that nearly fits the record of a node.
fn answer_to(random: &mut Random, record: &[u8], me: u8) -> Vec<u8> {
    let bent = |random: &mut Random, x: u32| if random.once_in(12) { x.wrapping_add(1) } else { x };
    let of = Transaction { owner: me, serial: bent(random, number(record, 0)), stamp: bent(random, number(record, 4)) };
    let from = random.below(13) as u8;
    let opened = OBJECTS + 25 * random.below(8);
    match random.below(8) {
        0..=2 => {
            let version = random.below(4) as u32;
            let entry = Entry { object: record[opened], mode: record[opened + 1], version, value: random.next() as i64 };
            message(|out| Fast::write_copy(out, from, of, entry))
        }
        3 | 4 => {
            let mut serial = std::array::from_fn(|_| if random.once_in(4) { random.below(6) as u32 } else { 0 });
            serial[usize::from(me)] = 0;
            message(|out| Fast::write_vote(out, from, of, &Serials { serial }, 1))
        }
        5 => message(|out| Fast::write_vote(out, from, of, &Serials { serial: [0; 13] }, 0)),
        6 => message(|out| Fast::write_done(out, from, of)),
        _ => message(|out| Fast::write_yield(out, Transaction { owner: from, ..of }, me, of.serial)),
    }
}

/// A fetch, ask or outcome that nearly fits the image of a node.
fn order_to(random: &mut Random, image: &[u8], me: u8) -> Vec<u8> {
    let owner = random.below(13) as u8;
    let last = OWNERS + 9 * usize::from(owner);
    let serial = number(image, last).wrapping_add([0, 0, 0, 1, u32::MAX][random.below(5)]);
    let of = Transaction { owner, serial, stamp: if random.once_in(4) { 1 } else { number(image, last + 5) } };
    let mut object = random.below_mostly(6, 100) as u8;
    let mut entry = |random: &mut Random| {
        let mode = random.below(2) as u8;
        let version = number(image, COPIES + COPY * usize::from(object & 127) + 8);
        let version = if random.once_in(4) { version ^ 1 } else { version };
        let entry = Entry { object, mode, version, value: if mode == 0 { 0 } else { random.next() as i64 } };
        object += 1 + random.below(6) as u8;
        entry
    };
    let entries = Entries { entry: std::array::from_fn(|_| entry(random)), count: 1 + random.below(8) as u8 };
    match random.below(6) {
        0 => message(|out| Fast::write_fetch(out, me, of, entries.entry[0].object, entries.entry[0].mode)),
        1..=3 => message(|out| Fast::write_ask(out, me, of, &entries)),
        4 => message(|out| Fast::write_outcome(out, me, of, &entries, 1)),
        _ => message(|out| Fast::write_outcome(out, me, of, &Entries { count: 0, ..entries }, 0)),
    }
}

/// A record of the station, nearly in order: its check, what is due to each node, and three answers, one after the other.
pub fn at_coordinator(random: &mut Random, station: &Station, counts: &mut Counts) -> Verdict {
    let me = random.below(13) as u8;
    let mut record = station.record(usize::from(me)).to_vec();
    for _ in 0..random.below(3) {
        tweak_record(random, &mut record);
    }
    same("check_record", Product::check_record(&record), Fast::check_record(&record))?;
    let object = record[OBJECTS + 25 * random.below(8)];
    for node in 0..13 {
        let (mut one, mut other) = ([3; 128], [3; 128]);
        same("due", Product::due(&record, me, node, object, &mut one), Fast::due(&record, me, node, object, &mut other))?;
        same("due: bytes", one, other)?;
    }
    let (mut one, mut other) = (record.clone(), record.clone());
    let mut settings = station.settings(usize::from(me)).to_vec();
    settings[211] = random.below(2) as u8;
    let asked = Product::request_commit(&mut one, &settings, me);
    same("request_commit", asked, Fast::request_commit(&mut other, &settings, me))?;
    same("request_commit: bytes", one, other)?;
    for _ in 0..3 {
        let message = answer_to(random, &record, me);
        let message = bend(random, message);
        same("check_message", Product::check_message(&message), Fast::check_message(&message))?;
        let mut other = record.clone();
        same("receive", Product::receive(&mut record, me, &message), Fast::receive(&mut other, me, &message))?;
        same("receive: bytes", &record, &other)?;
    }
    counts.calls += 21;
    Ok(())
}

/// An image as an older one was, with half of its objects and copies of so many bytes.
fn cut(image: &[u8], width: usize) -> Vec<u8> {
    let mut old = vec![if image[0] == COUNT as u8 { OLDER_OBJECTS as u8 } else { image[0] }];
    image[COPIES..OWNERS - 1].chunks(COPY).take(OLDER_OBJECTS).for_each(|copy| old.extend(&copy[..width]));
    old.extend(&image[OWNERS - 1..]);
    old
}

/// An older image, of the oldest ones without authors or of the others; now and then with another length.
fn older(random: &mut Random, image: &[u8]) -> Vec<u8> {
    let (length, width) = *random.pick(&[(OLDER_IMAGES[0], 17), (OLDER_IMAGES[1], COPY)]);
    let mut old = cut(image, width);
    old.resize(random.mostly(length, length - 1), 0);
    old
}

/// An older image taken in, to a buffer that now and then has another length.
fn taking_in(random: &mut Random, image: &[u8]) -> Verdict {
    let old = older(random, image);
    let size = random.mostly(IMAGE, OLDER_IMAGES[1]);
    let (mut one, mut other) = (vec![7; size], vec![7; size]);
    same("take_in", Product::take_in(&mut one, &old), Fast::take_in(&mut other, &old))?;
    same("take_in: bytes", one, other)
}

/// The same of a station's thirteen images: one of them nearly in order, the others as they are.
fn taking_all_in(random: &mut Random, station: &Station, image: &[u8]) -> Verdict {
    let (width, odd) = (*random.pick(&[17, COPY]), random.below(14));
    let mut old: Vec<u8> = (0..13).flat_map(|node| cut(if node == odd { image } else { station.image(node) }, width)).collect();
    old.resize(random.mostly(old.len(), old.len() - 1), 0);
    let size = random.mostly(13 * IMAGE, 13 * IMAGE - 1);
    let (mut one, mut other) = (vec![7; size], vec![7; size]);
    same("station_take_in", Product::station_take_in(&mut one, &old), Fast::station_take_in(&mut other, &old))?;
    same("station_take_in: bytes", one, other)
}

/// An image of the station, nearly in order: its check, what it tells and becomes, and four orders, one after the other.
pub fn at_replica(random: &mut Random, station: &Station, counts: &mut Counts) -> Verdict {
    let me = random.below(13) as u8;
    let mut image = station.image(usize::from(me)).to_vec();
    for _ in 0..random.below(3) {
        tweak_image(random, &mut image);
    }
    same("check_image", Product::check_image(&image), Fast::check_image(&image))?;
    let object = random.below(136) as u8;
    same("image_author", Product::image_author(&image, object), Fast::image_author(&image, object))?;
    taking_in(random, &image)?;
    if random.once_in(16) {
        taking_all_in(random, station, &image)?;
    }
    for _ in 0..4 {
        let message = order_to(random, &image, me);
        let message = bend(random, message);
        same("check_message", Product::check_message(&message), Fast::check_message(&message))?;
        let (mut other, mut out, mut out2) = (image.clone(), [3; 128], [3; 128]);
        let received = Product::replica_receive(&mut image, me, &message, &mut out);
        same("replica_receive", received, Fast::replica_receive(&mut other, me, &message, &mut out2))?;
        same("replica_receive: image", &image, &other)?;
        same("replica_receive: answer", out, out2)?;
    }
    counts.calls += 11;
    Ok(())
}
