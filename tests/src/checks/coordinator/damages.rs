//! Ways to break a record, each with the clause that it breaks, so that no other clause can stand in for it.

use super::records::{one_of, some_of, some_record};
use crate::checks::message::records::{some_node, some_serial};
use crate::model::message::{ENTRIES, LAST};
use crate::model::quorum::{only, ALL, NODES};
use crate::model::record::{broken, phase, Clause, Opened, Record};
use crate::random::Random;

/// A change of a valid record; of those that it gives, the ones count that break just these clauses.
pub struct Damage {
    pub name: &'static str,
    pub breaks: &'static [Clause],
    change: fn(&mut Random, &mut Record),
}

const fn damage(name: &'static str, breaks: &'static [Clause], change: fn(&mut Random, &mut Record)) -> Damage {
    Damage { name, breaks, change }
}

impl Damage {
    /// A record of node `me` that is broken in this way, and in no other.
    pub fn make(&self, random: &mut Random, me: u8) -> Result<Record, String> {
        for _ in 0..20_000 {
            let mut record = some_record(random, me);
            (self.change)(random, &mut record);
            if broken(&record) == self.breaks {
                return Ok(record);
            }
        }
        Err(format!("no record is broken by '{}' alone", self.name))
    }
}

/// A bit that names no node.
fn strange_bit(random: &mut Random) -> u16 {
    *random.pick(&[1 << 13, 1 << 14, 1 << 15, 7 << 13])
}

/// One of the objects that are opened, changed.
fn opened(random: &mut Random, record: &mut Record, change: impl Fn(&mut Random, &mut Opened)) {
    let count = usize::from(record.count);
    if count > 0 {
        let at = random.below(count);
        change(random, &mut record.opened[at]);
    }
}

/// A place past the count, changed.
fn unused(random: &mut Random, record: &mut Record, change: impl Fn(&mut Opened)) {
    let count = usize::from(record.count);
    if count < ENTRIES {
        let at = count + random.below(ENTRIES - count);
        change(&mut record.opened[at]);
    }
}

/// A record of this phase with a change; others stay as they were.
fn while_in(phase: u8, record: &mut Record, change: impl FnOnce(&mut Record)) {
    if record.phase == phase {
        change(record);
    }
}

/// Every clause, and every field that one is about.
pub const DAMAGES: &[Damage] = &[
    damage("phase 4", &[Clause::Phase], |_, it| it.phase = 4),
    damage("a phase above 4", &[Clause::Phase], |r, it| it.phase = 5 + r.below(251) as u8),
    damage("outcome 3", &[Clause::Outcome], |_, it| it.outcome = 3),
    damage("an outcome above 3", &[Clause::Outcome], |r, it| it.outcome = 4 + r.below(252) as u8),
    damage("nine objects", &[Clause::Count], |_, it| it.count = if it.count == 8 { 9 } else { it.count }),
    damage("more than nine objects", &[Clause::Count], |r, it| it.count = if it.count == 8 { 10 + r.below(246) as u8 } else { it.count }),
    damage("a timestamp without a serial", &[Clause::Together], |_, it| it.serial = 0),
    damage("a serial without a timestamp", &[Clause::Together], |_, it| it.timestamp = 0),
    damage("not idle before any transaction", &[Clause::Unused], |_, it| (it.serial, it.timestamp, it.outcome) = (0, 0, it.outcome)),
    damage("an outcome before any transaction", &[Clause::Unused], |r, it| {
        let outcome = 1 + r.below(2) as u8;
        while_in(phase::IDLE, it, |it| (it.serial, it.timestamp, it.outcome) = (0, 0, outcome))
    }),
    damage("object 128", &[Clause::Objects], |r, it| opened(r, it, |_, one| one.object = 128)),
    damage("an object above 128", &[Clause::Objects], |r, it| opened(r, it, |r, one| one.object = 129 + r.below(127) as u8)),
    damage("mode 2", &[Clause::Modes], |r, it| opened(r, it, |_, one| one.mode = 2)),
    damage("a mode above 2", &[Clause::Modes], |r, it| opened(r, it, |r, one| one.mode = 3 + r.below(253) as u8)),
    damage("an object twice", &[Clause::Once], |r, it| {
        let object = it.opened[0].object;
        opened(r, it, |_, one| one.object = object)
    }),
    damage("a copy from a node that was not contacted", &[Clause::CameContacted], |r, it| {
        opened(r, it, |r, one| one.came |= only(r.below(NODES)))
    }),
    damage("a copy from no node", &[Clause::CameContacted], |r, it| opened(r, it, |r, one| one.came |= strange_bit(r))),
    damage("a version found without a copy", &[Clause::FoundCame], |r, it| {
        opened(r, it, |r, one| (one.came, one.version, one.value) = (0, some_serial(r), 0))
    }),
    damage("a value found without a copy", &[Clause::FoundCame], |r, it| {
        opened(r, it, |r, one| (one.came, one.version, one.value) = (0, 0, 1 << r.below(64)))
    }),
    damage("given 2", &[Clause::GivenByte], |r, it| opened(r, it, |_, one| one.given = 2)),
    damage("given above 2", &[Clause::GivenByte], |r, it| opened(r, it, |r, one| one.given = 3 + r.below(253) as u8)),
    damage("a new value for a read", &[Clause::GivenWritten], |r, it| opened(r, it, |_, one| one.given = 1)),
    damage("a new value that is not given", &[Clause::NewGiven], |r, it| {
        opened(r, it, |r, one| (one.given, one.new) = (0, 1 << r.below(64)))
    }),
    damage("an object past the count", &[Clause::PastCount], |r, it| unused(r, it, |one| one.object = 1)),
    damage("a mode past the count", &[Clause::PastCount], |r, it| unused(r, it, |one| one.mode = 1)),
    damage("copies past the count", &[Clause::PastCount], |r, it| unused(r, it, |one| one.came = 1)),
    damage("a version past the count", &[Clause::PastCount], |r, it| unused(r, it, |one| one.version = 1 << 31)),
    damage("a value past the count", &[Clause::PastCount], |r, it| unused(r, it, |one| one.value = i64::MIN)),
    damage("given past the count", &[Clause::PastCount], |r, it| unused(r, it, |one| one.given = 1)),
    damage("a new value past the count", &[Clause::PastCount], |r, it| unused(r, it, |one| one.new = i64::MIN)),
    damage("live above 8191", &[Clause::Masks], |r, it| it.live |= strange_bit(r)),
    damage("a quorum above 8191", &[Clause::Masks], |r, it| it.quorum |= strange_bit(r)),
    damage("contacted above 8191", &[Clause::Masks], |r, it| it.contacted |= strange_bit(r)),
    damage("participants above 8191", &[Clause::Masks], |r, it| it.participants |= strange_bit(r)),
    damage("participants above 8191 with their yes", &[Clause::Masks], |r, it| {
        let bit = strange_bit(r);
        (it.participants, it.yes) = (it.participants | bit, it.yes | bit)
    }),
    damage("live while idle", &[Clause::Idle], |r, it| while_in(phase::IDLE, it, |it| it.live = only(r.below(NODES)))),
    damage("a quorum while idle", &[Clause::Idle], |r, it| while_in(phase::IDLE, it, |it| it.quorum = only(r.below(NODES)))),
    damage("a distance while idle", &[Clause::Idle], |r, it| {
        while_in(phase::IDLE, it, |it| it.distances[r.below(NODES)] = 1 << r.below(16))
    }),
    damage("an object while idle", &[Clause::Idle], |_, it| while_in(phase::IDLE, it, |it| it.count = 1)),
    damage("no quorum", &[Clause::Quorum], |_, it| it.quorum = 0),
    damage("too small a quorum", &[Clause::Quorum], |r, it| it.quorum &= !only(usize::from(one_of(r, it.quorum)))),
    damage("contacted without an object", &[Clause::NobodyContacted], |r, it| {
        if it.count == 0 {
            it.contacted |= only(r.below(NODES));
        }
    }),
    damage("a quorum that is not contacted", &[Clause::QuorumContacted], |r, it| it.quorum |= only(r.below(NODES))),
    damage("rivals without participants", &[Clause::NoRivals], |r, it| it.rivals[r.below(NODES)] = some_serial(r)),
    damage("participants short of a write quorum", &[Clause::WriteQuorum], |r, it| it.participants &= !only(usize::from(some_node(r)))),
    damage("a contacted node that does not take part", &[Clause::ContactedTakePart], |r, it| {
        it.participants &= !only(usize::from(some_node(r)))
    }),
    damage("participants without an object", &[Clause::SomeObject], |_, it| {
        (it.count, it.contacted, it.opened) = (0, 0, [Opened::default(); ENTRIES])
    }),
    damage("an object that is not ready while voting", &[Clause::Settled], |r, it| opened(r, it, |r, one| one.came = some_of(r, one.came))),
    damage("a write without its new value while voting", &[Clause::Settled], |r, it| opened(r, it, |_, one| (one.given, one.new) = (0, 0))),
    damage("a write at the last version", &[Clause::VersionLeft], |r, it| opened(r, it, |_, one| one.version = LAST)),
    damage("participants while open", &[Clause::NotAsked], |_, it| while_in(phase::VOTING, it, |it| it.phase = phase::OPEN)),
    damage("participants while idle", &[Clause::SomeObject, Clause::NotAsked], |_, it| {
        while_in(phase::IDLE, it, |it| it.participants = ALL)
    }),
    damage("voting without participants", &[Clause::Asked, Clause::YesMissing], |_, it| {
        while_in(phase::OPEN, it, |it| it.phase = phase::VOTING)
    }),
    damage("a yes of no participant", &[Clause::YesInside], |r, it| it.yes |= only(r.below(NODES))),
    damage("a yes of no node", &[Clause::YesInside], |r, it| it.yes |= strange_bit(r)),
    damage("every yes while voting", &[Clause::YesMissing], |_, it| while_in(phase::VOTING, it, |it| it.yes = it.participants)),
    damage("another decision", &[Clause::Decided], |r, it| it.outcome = (it.outcome + 1 + r.below(2) as u8) % 3),
    damage("a yes missing after a commit", &[Clause::Decided], |r, it| it.yes &= !only(r.below(NODES))),
    damage("done before finishing", &[Clause::NotDone], |r, it| {
        if it.phase != phase::FINISHING {
            it.done = 1 << r.below(16);
        }
    }),
    damage("done of a node that is not awaited", &[Clause::DoneInside], |r, it| it.done |= 1 << r.below(16)),
    damage("every done", &[Clause::DoneMissing], |_, it| while_in(phase::FINISHING, it, |it| it.done = it.awaited())),
    damage("finishing with nobody awaited", &[Clause::Decided, Clause::DoneMissing], |_, it| {
        if it.phase == phase::OPEN && it.count == 0 {
            (it.phase, it.outcome) = (phase::FINISHING, 1);
        }
    }),
];
