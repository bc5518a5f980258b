//! Images to try: valid ones with all that an image can have, and records changed in a few fields.

use crate::checks::message::records::{some_serial, some_value, some_version};
use crate::model::image::{blank, state, Author, Image, ObjectCopy, Owner, NOBODY};
use crate::model::quorum::{only, NODES};
use crate::model::OBJECTS;
use crate::random::Random;

/// The nodes whose owner has this state.
pub fn in_state(image: &Image, state: u8) -> Vec<usize> {
    (0..NODES).filter(|&node| image.owners[node].state == state).collect()
}

/// A set of nodes with some of a list's.
fn some_of(random: &mut Random, list: &[usize]) -> u16 {
    list.iter().filter(|_| random.once_in(2)).fold(0, |mask, &node| mask | only(node))
}

/// An owner in a state. One that is over may never have had a transaction.
fn some_owner(random: &mut Random, state: u8) -> Owner {
    if state == state::OVER && random.once_in(2) {
        return Owner { serial: 0, state, stamp: 0 };
    }
    Owner { serial: some_serial(random), state, stamp: some_serial(random) }
}

/// An author: a transaction, nobody or unknown. Nothing ties it to the rest of the copy.
pub fn some_author(random: &mut Random) -> Author {
    match random.below(6) {
        0 => Author::NOBODY,
        1 => Author::UNKNOWN,
        _ => Author { owner: random.below(NODES) as u8, serial: some_serial(random) },
    }
}

/// A copy that one of the held owners may hold and some of the listed ones may want.
fn some_copy(random: &mut Random, held: &[usize], listed: &[usize]) -> ObjectCopy {
    let holder = if random.once_in(3) || held.is_empty() { NOBODY } else { *random.pick(held) as u8 };
    let (readers, writers) = (some_of(random, listed), some_of(random, listed));
    ObjectCopy { value: some_value(random), version: some_version(random), holder, readers, writers, author: some_author(random) }
}

/// A valid image with these states.
fn with_states(random: &mut Random, states: [u8; NODES]) -> Image {
    let mut image = blank();
    image.owners = states.map(|state| some_owner(random, state));
    let (held, listed) = (in_state(&image, state::HELD), in_state(&image, state::LISTED));
    image.copies = std::array::from_fn(|_| some_copy(random, &held, &listed));
    image
}

/// A valid image in which every state stands twice or more, with holders and lists at most copies.
pub fn busy(random: &mut Random) -> Image {
    let mut states: [u8; NODES] = std::array::from_fn(|at| if at < 8 { at as u8 % 4 } else { random.below(4) as u8 });
    for at in (1..NODES).rev() {
        states.swap(at, random.below(at + 1));
    }
    with_states(random, states)
}

/// A valid image of any states, all the same too.
pub fn some_valid(random: &mut Random) -> Image {
    let one = random.below(4) as u8;
    let same = random.once_in(4);
    let states = std::array::from_fn(|_| if same { one } else { random.below(4) as u8 });
    with_states(random, states)
}

/// A mask: of few nodes, of any, or of what no node is.
fn some_mask(random: &mut Random) -> u16 {
    match random.below(4) {
        0 => 0,
        1 => 1 << random.below(16),
        2 => random.word() & random.word() & random.word(),
        _ => random.word() & 8191,
    }
}

/// Changes one thing about an image, to something allowed or not.
pub fn change(random: &mut Random, image: &mut Image) {
    let copy = &mut image.copies[random.below(OBJECTS)];
    let owner = &mut image.owners[random.below(NODES)];
    match random.below(12) {
        0 => copy.holder = *random.pick(&[0, 1, 6, 11, 12, 13, 14, 254, 255]),
        1 => copy.holder = NOBODY,
        2 => copy.readers = some_mask(random),
        3 => copy.writers = some_mask(random),
        4 => copy.value = some_value(random),
        5 => copy.version = some_version(random),
        6 => owner.state = *random.pick(&[0, 1, 2, 3, 4, 255]),
        7 => owner.serial = some_version(random),
        8 => copy.author.owner = *random.pick(&[0, 1, 6, 11, 12, 13, 14, 253, 254, 255]),
        9 => copy.author.serial = some_version(random),
        10 => copy.author = some_author(random),
        _ => owner.stamp = some_version(random),
    }
}
