//! Images and messages that meet: few serials, stamps and versions, so that they are often equal, and often one apart.

use crate::checks::image::records::some_author;
use crate::checks::message::records::{other_node, some_entries, some_node, some_serial, some_value, valid_object};
use crate::model::image::{blank, state, Image, ObjectCopy, Owner, NOBODY};
use crate::model::message::{self, Entry, Message, Rival, Transaction, ABORT, COMMIT, ENTRIES, LAST, WRITE, YES};
use crate::model::quorum::{only, NODES};
use crate::model::OBJECTS;
use crate::random::Random;

/// A stamp or a serial from 1: small most often.
pub fn some_small(random: &mut Random) -> u32 {
    if random.once_in(12) {
        some_serial(random)
    } else {
        1 + random.below(4) as u32
    }
}

/// A version: small, or about the last.
fn some_near(random: &mut Random) -> u32 {
    *random.pick(&[0, 0, 1, 1, 2, 3, LAST - 1, LAST])
}

fn some_owner(random: &mut Random) -> Owner {
    let state = random.below(4) as u8;
    if state == state::OVER && random.once_in(3) {
        return Owner { serial: 0, state, stamp: 0 };
    }
    Owner { serial: some_small(random), state, stamp: some_small(random) }
}

/// The owners of a state, each with a chance of one in `times`, as a mask.
fn some_in(random: &mut Random, image: &Image, state: u8, times: usize) -> u16 {
    let fits = (0..NODES).filter(|&node| image.owners[node].state == state);
    fits.filter(|_| random.once_in(times)).fold(0, |mask, node| mask | only(node))
}

/// A valid image. How many copies are held and how many owners are on a list differs from image to image, so that every vote occurs.
pub fn some_image(random: &mut Random) -> Image {
    let mut image = blank();
    image.owners = std::array::from_fn(|_| some_owner(random));
    let (free, alone) = (random.below(3), 1 + random.below(12));
    let held: Vec<u8> = (0..13).filter(|&node| image.owners[usize::from(node)].state == state::HELD).collect();
    for object in 0..OBJECTS {
        let holder = if free == 0 || held.is_empty() || !random.once_in(10) { NOBODY } else { *random.pick(&held) };
        let readers = some_in(random, &image, state::LISTED, alone);
        let writers = some_in(random, &image, state::LISTED, alone);
        let (value, version, author) = (some_value(random), some_near(random), some_author(random));
        image.copies[object] = ObjectCopy { value, version, holder, readers, writers, author };
    }
    image
}

/// The transaction of an owner: its last one here most often, or one before it or after it, with the stored stamp or another.
fn some_transaction(random: &mut Random, image: &Image, owner: u8) -> Transaction {
    let last = image.owners[usize::from(owner)];
    let step = 1 + random.below(2) as u32;
    let serial = match random.below(8) {
        0 => last.serial.saturating_sub(step),
        1 | 2 => last.serial.saturating_add(step),
        3 => some_small(random),
        _ => last.serial,
    };
    let stamp = if random.once_in(2) { last.stamp } else { some_small(random) };
    Transaction { owner, serial: serial.max(1), stamp: stamp.max(1) }
}

/// Entries whose versions are those of the image, but for one now and then.
pub fn some_found(random: &mut Random, image: &Image) -> Vec<Entry> {
    let most = if random.once_in(2) { 2 } else { ENTRIES };
    let count = 1 + random.below(most);
    let mut entries = some_entries(random, count);
    for entry in &mut entries {
        let here = image.copies[usize::from(entry.object)].version;
        let version = match random.below(12) {
            0 => here.saturating_sub(1),
            1 => here.saturating_add(1),
            2 => some_near(random),
            _ => here,
        };
        entry.version = if entry.mode == WRITE { version.min(LAST - 1) } else { version };
    }
    entries
}

/// A message of a kind that is meant for the other end, to node `me`.
fn some_other(random: &mut Random, image: &Image, me: u8) -> Message {
    let own = some_transaction(random, image, me);
    let (from, other) = (some_node(random), other_node(random, me));
    match random.below(4) {
        0 => message::copy(from, own, some_found(random, image)[0]),
        1 => message::vote(from, own, vec![], YES),
        2 => message::done(from, own),
        _ => message::yields(some_transaction(random, image, other), Rival { owner: me, serial: own.serial }),
    }
}

/// A well-formed message to node `me` that meets the image.
pub fn some_message(random: &mut Random, image: &Image, me: u8) -> Message {
    let owner = some_node(random);
    let transaction = some_transaction(random, image, owner);
    match random.below(20) {
        0..=3 => message::fetch(me, transaction, valid_object(random), random.below(2) as u8),
        4..=11 => message::ask(me, transaction, some_found(random, image)),
        12..=14 => message::outcome(me, transaction, some_found(random, image), COMMIT),
        15..=17 => message::outcome(me, transaction, vec![], ABORT),
        _ => some_other(random, image, me),
    }
}
