//! Messages to try: well-formed ones of every kind and count, and records changed in one field or a few.

use crate::model::message::{self as model, kind, Entry, Message, Rival, Transaction, ABORT, COMMIT, ENTRIES, LAST, NO, READ, WRITE, YES};
use crate::model::quorum::NODES;
use crate::model::OBJECTS;
use crate::random::Random;

/// What a kind leaves open about its sections.
#[derive(Clone, Copy, Debug)]
pub struct Shape {
    pub kind: u8,
    pub entries: usize,
    pub rivals: usize,
    /// Of a vote and an outcome; 0 for the others, which have none.
    pub word: u8,
}

/// Every kind with every count that it allows and every word.
pub fn shapes() -> Vec<Shape> {
    let shape = |kind, entries, rivals, word| Shape { kind, entries, rivals, word };
    let mut list = vec![shape(kind::FETCH, 1, 0, 0), shape(kind::COPY, 1, 0, 0), shape(kind::DONE, 0, 0, 0), shape(kind::YIELD, 0, 1, 0)];
    list.extend((1..=ENTRIES).map(|entries| shape(kind::ASK, entries, 0, 0)));
    list.push(shape(kind::VOTE, 0, 0, NO));
    list.extend((0..NODES).map(|rivals| shape(kind::VOTE, 0, rivals, YES)));
    list.push(shape(kind::OUTCOME, 0, 0, ABORT));
    list.extend((1..=ENTRIES).map(|entries| shape(kind::OUTCOME, entries, 0, COMMIT)));
    list
}

/// Which numbers a message has.
#[derive(Clone, Copy, Debug, PartialEq, Eq)]
pub enum Style {
    /// The lowest of every field.
    Least,
    /// The highest of every field, with the lowest value.
    Greatest,
    /// Any, with the extreme ones among them.
    Any,
}

pub const STYLES: [Style; 3] = [Style::Least, Style::Greatest, Style::Any];

/// A number of 32 bits from 1: extreme, small, or any, so that its bytes can be told apart.
pub fn some_serial(random: &mut Random) -> u32 {
    match random.below(4) {
        0 => *random.pick(&[1, 2, 255, 256, 65_535, 65_536, 1 << 24, 1 << 31, LAST - 1, LAST]),
        1 => 1 + random.below(300) as u32,
        _ => 1.max(random.next() as u32),
    }
}

/// A version from 0.
pub fn some_version(random: &mut Random) -> u32 {
    if random.once_in(4) {
        0
    } else {
        some_serial(random)
    }
}

pub fn some_value(random: &mut Random) -> i64 {
    match random.below(3) {
        0 => *random.pick(&[0, 1, -1, 255, 256, -256, 1 << 32, i64::MIN, i64::MIN + 1, i64::MAX]),
        1 => random.below(2000) as i64 - 1000,
        _ => random.next() as i64,
    }
}

pub fn some_node(random: &mut Random) -> u8 {
    random.below(NODES) as u8
}

/// A node that is not this one.
pub fn other_node(random: &mut Random, node: u8) -> u8 {
    (node + 1 + random.below(NODES - 1) as u8) % NODES as u8
}

pub fn some_transaction(random: &mut Random) -> Transaction {
    Transaction { owner: some_node(random), serial: some_serial(random), stamp: some_serial(random) }
}

/// `count` numbers below `limit`, ascending: spread, or next to each other.
fn ascending(random: &mut Random, count: usize, limit: usize) -> Vec<u8> {
    let mut left: Vec<u8> = (0..limit as u8).collect();
    if random.once_in(3) {
        let first = random.below(limit - count + 1);
        return left[first..first + count].to_vec();
    }
    while left.len() > count {
        left.remove(random.below(left.len()));
    }
    left
}

/// Entries with what an ask and an outcome say of reads and writes.
pub fn some_entries(random: &mut Random, count: usize) -> Vec<Entry> {
    let objects = ascending(random, count, OBJECTS);
    objects.into_iter().map(|object| found_or_new(random, object)).collect()
}

/// A read as found, of value 0, or a write with its new value and a version below the last.
fn found_or_new(random: &mut Random, object: u8) -> Entry {
    if random.once_in(2) {
        Entry { object, mode: READ, version: some_version(random), value: 0 }
    } else {
        Entry { object, mode: WRITE, version: some_version(random).min(LAST - 1), value: some_value(random) }
    }
}

/// Rivals that are not the owner.
pub fn some_rivals(random: &mut Random, owner: u8, count: usize) -> Vec<Rival> {
    let others = ascending(random, count, NODES - 1).into_iter().map(|node| node + u8::from(node >= owner));
    others.map(|node| Rival { owner: node, serial: some_serial(random) }).collect()
}

/// A well-formed message of a shape.
pub fn formed(random: &mut Random, shape: Shape, style: Style) -> Message {
    let any = made(random, shape);
    match style {
        Style::Any => any,
        Style::Least => restyled(any, false),
        Style::Greatest => restyled(any, true),
    }
}

/// A message of a shape, its numbers anything that is allowed.
fn made(random: &mut Random, shape: Shape) -> Message {
    let transaction = some_transaction(random);
    let node = some_node(random);
    match shape.kind {
        kind::FETCH => model::fetch(node, transaction, valid_object(random), random.below(2) as u8),
        kind::COPY => {
            let (object, mode) = (valid_object(random), random.below(2) as u8);
            model::copy(node, transaction, Entry { object, mode, version: some_version(random), value: some_value(random) })
        }
        kind::ASK => model::ask(node, transaction, some_entries(random, shape.entries)),
        kind::VOTE => model::vote(node, transaction, some_rivals(random, transaction.owner, shape.rivals), shape.word),
        kind::OUTCOME => model::outcome(node, transaction, some_entries(random, shape.entries), shape.word),
        kind::DONE => model::done(node, transaction),
        _ => model::yields(transaction, some_rivals(random, transaction.owner, 1)[0]),
    }
}

/// The same shape and modes with the lowest or the highest numbers.
fn restyled(any: Message, high: bool) -> Message {
    let (node, serial) = if high { (12, LAST) } else { (0, 1) };
    let transaction = Transaction { owner: node, serial, stamp: serial };
    // The first or the last of a list's places.
    let place = |at: usize, count: usize, limit: usize| if high { limit - count + at } else { at } as u8;
    let entry = |(at, entry): (usize, &Entry)| {
        let (object, mode) = (place(at, any.entries.len(), OBJECTS), entry.mode);
        let (version, value) = match (any.kind, mode) {
            _ if !high => (0, 0),
            (kind::FETCH, _) => (0, 0),
            (kind::COPY, _) => (LAST, i64::MIN),
            (_, READ) => (LAST, 0),
            _ => (LAST - 1, i64::MIN),
        };
        Entry { object, mode, version, value }
    };
    // The owner is the first or the last node, so the others lie above or below it.
    let other = |at: usize| Rival { owner: place(at, any.rivals.len(), NODES - 1) + u8::from(!high), serial };
    let entries = any.entries.iter().enumerate().map(entry).collect();
    let rivals: Vec<Rival> = (0..any.rivals.len()).map(other).collect();
    let to = if any.kind == kind::YIELD { rivals[0].owner } else { node };
    Message { kind: any.kind, from: node, to, transaction, entries, rivals, words: any.words }
}

/// A well-formed message of one of the shapes that fit.
pub fn one_of(random: &mut Random, fits: impl Fn(Shape) -> bool) -> Message {
    let list: Vec<Shape> = shapes().into_iter().filter(|&shape| fits(shape)).collect();
    let shape = *random.pick(&list);
    formed(random, shape, Style::Any)
}

/// Every shape in every style.
pub fn catalogue(random: &mut Random) -> Vec<Message> {
    let mut list = Vec::new();
    for shape in shapes() {
        for style in STYLES {
            list.push(formed(random, shape, style));
        }
    }
    list
}

/// An object that there is: any, or one at an end, also at those of the older limit.
pub fn valid_object(random: &mut Random) -> u8 {
    let any = random.below(OBJECTS) as u8;
    *random.pick(&[0, 63, 64, 127, any, any, any, any, any, any, any, any])
}

/// A byte that is about a limit of some field, or any.
pub fn some_byte(random: &mut Random) -> u8 {
    if random.once_in(4) {
        random.byte()
    } else {
        *random.pick(&[0, 1, 2, 3, 4, 5, 6, 7, 8, 9, 11, 12, 13, 14, 62, 63, 64, 65, 126, 127, 128, 129, 254, 255])
    }
}

/// A number of 32 bits about a limit, or any.
fn some_word(random: &mut Random) -> u32 {
    let any = random.next() as u32;
    *random.pick(&[0, 0, 1, 256, 1 << 24, LAST - 1, LAST, any])
}

/// Changes one thing about a record, most often to something that no message may have.
pub fn change(random: &mut Random, message: &mut Message) {
    let entry = random.below(message.entries.len().max(1));
    let rival = random.below(message.rivals.len().max(1));
    let count = random.below(NODES);
    match random.below(18) {
        0 => message.kind = random.below(9) as u8,
        1 => message.kind = random.byte(),
        2 => message.from = some_byte(random),
        3 => message.to = some_byte(random),
        4 => message.transaction.owner = some_byte(random),
        5 => message.transaction.serial = some_word(random),
        6 => message.transaction.stamp = some_word(random),
        7 => message.from = message.transaction.owner,
        8 => message.to = message.transaction.owner,
        9 => message.words = random.bytes(count % 3),
        10 => message.words.iter_mut().for_each(|word| *word = random.below(3) as u8),
        11 => message.entries = some_entries(random, count % (ENTRIES + 1)),
        12 => message.rivals = some_rivals(random, message.transaction.owner % 13, count),
        13 if !message.entries.is_empty() => {
            let extra = Entry { value: some_value(random), ..message.entries[entry] };
            message.entries.insert(random.below(message.entries.len() + 1), extra);
        }
        14 if !message.rivals.is_empty() => {
            let extra = Rival { owner: some_byte(random), ..message.rivals[rival] };
            message.rivals.insert(random.below(message.rivals.len() + 1), extra);
        }
        15 if !message.rivals.is_empty() => match random.below(3) {
            0 => message.rivals[rival].owner = some_byte(random),
            1 => message.rivals[rival].owner = message.to,
            _ => message.rivals[rival].serial = some_word(random),
        },
        _ if !message.entries.is_empty() => match random.below(4) {
            0 => message.entries[entry].object = some_byte(random),
            1 => message.entries[entry].mode = random.below(3) as u8,
            2 => message.entries[entry].version = some_word(random),
            _ => message.entries[entry].value = some_value(random),
        },
        _ => message.transaction.stamp = some_serial(random),
    }
}
