//! Records, calls and messages that meet: valid records of every phase, calls and messages that fit them or miss by one thing.

use crate::checks::classes::tables::some_batch;
use crate::checks::hours::hours_in;
use crate::checks::hours::tables::{damaged_settings, some_clock, some_settings};
use crate::checks::message::records::{other_node, some_byte, some_entries, some_node, some_rivals, some_serial, some_value, valid_object};
use crate::checks::turns::some_timestamp;
use crate::model::coordinator::Call;
use crate::model::message::{self, kind, Entry, Message, Rival, Transaction, ABORT, COMMIT, ENTRIES, LAST, NO, WRITE, YES};
use crate::model::quorum::{nodes, smallest, Kind, ALL, DISTANCES, NODES};
use crate::model::record::{decided, phase, Opened, Record};
use crate::model::settings::{self, SETTINGS};
use crate::model::OBJECTS;
use crate::random::Random;

/// Some of the nodes of a mask.
pub fn some_of(random: &mut Random, mask: u16) -> u16 {
    match random.below(4) {
        0 => 0,
        1 => mask & random.word() & random.word(),
        _ => mask & random.word(),
    }
}

/// Some of the nodes of a mask, but not all; nobody of an empty one.
fn short_of(random: &mut Random, mask: u16) -> u16 {
    let some = if random.once_in(3) { mask } else { some_of(random, mask) };
    if some == mask {
        some & !(1 << one_of(random, mask))
    } else {
        some
    }
}

/// A node of a mask, or any where it is empty.
pub fn one_of(random: &mut Random, mask: u16) -> u8 {
    let list: Vec<usize> = nodes(mask).collect();
    if list.is_empty() {
        some_node(random)
    } else {
        *random.pick(&list) as u8
    }
}

/// A number of 32 bits at another or next to it, or any.
fn some_near(random: &mut Random, other: u32) -> u32 {
    let any = some_serial(random);
    *random.pick(&[other, other, other.saturating_sub(1), other.saturating_add(1), 0, LAST - 1, LAST, any])
}

/// An object that came from some contacted nodes; settled, or in any state that an open transaction lets it have.
fn some_opened(random: &mut Random, object: u8, record: &Record, settled: bool) -> Opened {
    let mode = random.below(2) as u8;
    let came = some_of(random, record.contacted);
    let came = if settled || random.once_in(3) { came | record.quorum } else { came };
    let given = u8::from(mode == WRITE && (settled || random.once_in(2)));
    let mut opened = Opened { object, mode, came, given, ..Opened::default() };
    if came != 0 {
        (opened.version, opened.value) = (some_near(random, 1), some_value(random));
    }
    opened.new = if given == 1 { some_value(random) } else { 0 };
    opened
}

/// Opens `count` objects in any order.
fn open_some(random: &mut Random, record: &mut Record, count: usize, settled: bool) {
    let mut objects: Vec<u8> = some_entries(random, count).iter().map(|entry| entry.object).collect();
    record.count = count as u8;
    record.contacted = if count == 0 { 0 } else { record.quorum | some_of(random, ALL) };
    for at in 0..count {
        let object = objects.swap_remove(random.below(objects.len()));
        record.opened[at] = some_opened(random, object, record, settled);
    }
}

/// The record was asked for votes: participants, some yes and what rivals they named, never node `me`.
fn ask_some(random: &mut Random, record: &mut Record, me: u8) {
    record.participants = *random.pick(smallest(Kind::Write)) | record.contacted | some_of(random, ALL) & some_of(random, ALL);
    record.yes = short_of(random, record.participants);
    for opened in record.opened.iter_mut().filter(|opened| opened.mode == WRITE) {
        opened.version = opened.version.min(LAST - 1);
    }
    let times = 1 + random.below(6);
    for node in (0..NODES).filter(|&node| node != usize::from(me)) {
        record.rivals[node] = if random.once_in(times) { some_serial(random) } else { 0 };
    }
}

/// A valid record of node `me` in a phase, with all that one can have.
pub fn some_in(random: &mut Random, me: u8, phase: u8) -> Record {
    let mut record = Record { phase, outcome: random.below(3) as u8, ..Record::default() };
    if phase == phase::IDLE && random.once_in(4) {
        return Record::default();
    }
    (record.serial, record.timestamp) = (some_serial(random), some_serial(random));
    if random.once_in(4) {
        (record.serial, record.timestamp) = (*random.pick(&[1, LAST - 1, LAST]), 1 + random.below(3) as u32);
    }
    if phase == phase::IDLE {
        return record;
    }
    record.live = if random.once_in(3) { random.word() & ALL } else { ALL };
    record.distances = std::array::from_fn(|_| random.word() >> *random.pick(&[0, 12, 15]));
    record.quorum = *random.pick(smallest(Kind::Read)) | if random.once_in(4) { some_of(random, ALL) } else { 0 };
    let voted = phase == phase::VOTING || (phase == phase::FINISHING && !random.once_in(3));
    let least = usize::from(phase != phase::OPEN);
    let count = *random.pick(&[least, 1, 1, 2, 3, 7, ENTRIES]);
    let settled = voted || random.once_in(3);
    open_some(random, &mut record, count, settled);
    if voted {
        ask_some(random, &mut record, me);
    }
    if phase == phase::FINISHING {
        let commits = voted && random.once_in(2);
        record.yes = if commits { record.participants } else { record.yes };
        record.outcome = if commits { decided::COMMITTED } else { decided::ABORTED };
        record.done = short_of(random, record.awaited());
    }
    record
}

/// A valid record of node `me` in any phase.
pub fn some_record(random: &mut Random, me: u8) -> Record {
    let phase = random.below(4) as u8;
    some_in(random, me, phase)
}

/// An object that is opened, or another, or none at all.
pub fn some_object(random: &mut Random, record: &Record) -> u8 {
    match random.below(8) {
        0 => some_byte(random),
        1 | 2 => valid_object(random),
        _ if record.count > 0 => random.pick(record.objects()).object,
        _ => valid_object(random),
    }
}

/// A live mask: all most often, or any, or one with strangers.
fn some_live(random: &mut Random) -> u16 {
    match random.below(8) {
        0 => random.word(),
        1 => random.word() & random.word() & ALL,
        2 | 3 => random.word() & ALL,
        _ => ALL,
    }
}

/// Distances, seldom of another length.
pub fn some_distances(random: &mut Random) -> Vec<u8> {
    let length = if random.once_in(30) { random.below(60) } else { DISTANCES };
    let limit = *random.pick(&[1, 3, 255]);
    random.bytes(length).iter().map(|byte| byte % limit).collect()
}

/// Settings, sound ones most often; seldom damaged, or of another length.
pub fn lent_settings(random: &mut Random) -> Vec<u8> {
    let mut settings = if random.once_in(20) { damaged_settings(random) } else { some_settings(random) };
    if random.once_in(40) {
        let length = random.below(2 * SETTINGS);
        settings.resize(length, 0);
    }
    settings
}

/// A host call with arguments that meet a record and settings.
pub fn some_call(random: &mut Random, record: &Record, settings: &[u8]) -> Call {
    let object = some_object(random, record);
    match random.below(12) {
        begins @ (0 | 1 | 10 | 11) => {
            let near = some_near(random, record.timestamp);
            let timestamp = if random.once_in(2) { some_timestamp(random, record) } else { near };
            let (day, minute) = some_clock(random, hours_in(settings).as_ref());
            let (live, distances) = (some_live(random), some_distances(random));
            if begins < 10 {
                return Call::Begin { live, distances, timestamp, day, minute };
            }
            let list = some_batch(random, settings::load(settings).ok().and_then(|it| it.classes).as_ref(), 8);
            Call::Batch { live, distances, timestamp, day, minute, list }
        }
        2 | 3 => Call::Open { object, mode: random.below(2) as u8 },
        4 => Call::SetValue { object, value: some_value(random) },
        5 => Call::Found { object },
        6 => Call::Reselect { live: some_live(random), distances: some_distances(random) },
        7 | 8 => Call::RequestCommit,
        _ => Call::Abort,
    }
}

/// The transaction of a record, but for its serial or its stamp now and then.
fn some_own(random: &mut Random, record: &Record, me: u8) -> Transaction {
    let mut own = Transaction { owner: me, serial: record.serial, stamp: record.timestamp };
    match random.below(8) {
        0 => own.serial = some_near(random, own.serial),
        1 => own.stamp = some_near(random, own.stamp),
        _ => {}
    }
    Transaction { owner: me, serial: own.serial.max(1), stamp: own.stamp.max(1) }
}

/// A copy of an object that is opened, most often, from a contacted node and of a version near the one found.
fn some_copy(random: &mut Random, record: &Record, own: Transaction) -> Message {
    let object = some_object(random, record) % OBJECTS as u8;
    let opened = record.find(object).copied().unwrap_or_default();
    let mode = if random.once_in(6) { 1 - opened.mode % 2 } else { opened.mode % 2 };
    let value = if random.once_in(4) { opened.value } else { some_value(random) };
    let from = if random.once_in(6) { some_node(random) } else { one_of(random, record.contacted) };
    message::copy(from, own, Entry { object, mode, version: some_near(random, opened.version), value })
}

/// One of the nodes that are missing, most often, or one of all, or any.
fn some_sender(random: &mut Random, missing: u16, all: u16) -> u8 {
    match random.below(6) {
        0 => some_node(random),
        1 | 2 => one_of(random, all),
        _ => one_of(random, missing),
    }
}

/// A vote of a participant, most often one without a yes so far, and a yes. Its rivals may be known already.
fn some_vote(random: &mut Random, record: &Record, own: Transaction) -> Message {
    let missing = record.participants & !record.yes;
    let from = some_sender(random, missing, record.participants);
    if random.once_in(5) {
        return message::vote(from, own, vec![], NO);
    }
    let count = *random.pick(&[0, 0, 1, 2, 12]);
    let mut rivals = some_rivals(random, own.owner, count);
    for rival in &mut rivals {
        rival.serial = some_near(random, record.rivals[usize::from(rival.owner)]).max(1);
    }
    message::vote(from, own, rivals, YES)
}

/// A message to node `me` of a kind for a coordinator.
fn some_of_kind(random: &mut Random, record: &Record, me: u8, kind: u8) -> Message {
    let own = some_own(random, record, me);
    match kind {
        kind::COPY => some_copy(random, record, own),
        kind::VOTE => some_vote(random, record, own),
        kind::DONE => message::done(some_sender(random, record.awaited() & !record.done, record.awaited()), own),
        _ => {
            let owner = other_node(random, me);
            let transaction = Transaction { owner, serial: some_serial(random), stamp: some_serial(random) };
            message::yields(transaction, Rival { owner: me, serial: own.serial })
        }
    }
}

/// A message of a kind for a replica.
fn some_other(random: &mut Random, record: &Record, me: u8) -> Message {
    let owner = if random.once_in(2) { me } else { some_node(random) };
    let transaction = Transaction { owner, ..some_own(random, record, me) };
    let count = 1 + random.below(ENTRIES);
    match random.below(4) {
        0 => message::fetch(me, transaction, valid_object(random), random.below(2) as u8),
        1 => message::ask(me, transaction, some_entries(random, count)),
        2 => message::outcome(me, transaction, some_entries(random, count), COMMIT),
        _ => message::outcome(me, transaction, vec![], ABORT),
    }
}

/// A well-formed message to node `me` that meets its record: it fits, or misses by a thing or two.
pub fn some_message(random: &mut Random, record: &Record, me: u8) -> Message {
    let fits = match record.phase {
        phase::OPEN => kind::COPY,
        phase::VOTING => kind::VOTE,
        _ => kind::DONE,
    };
    match random.below(16) {
        0 => some_other(random, record, me),
        1 => some_of_kind(random, record, me, kind::YIELD),
        2 => some_of_kind(random, record, me, kind::COPY),
        3 => some_of_kind(random, record, me, kind::VOTE),
        4 => some_of_kind(random, record, me, kind::DONE),
        _ => some_of_kind(random, record, me, fits),
    }
}
