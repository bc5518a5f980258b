//! A coordinator (document 01: booking end): the host's calls, a message in, what is due. Each sentence of 'Bookings' in its order.

use super::classes::{self, Classes, CLASSES};
use super::hours::LAST_MINUTE;
use super::message::{self, kind, Entry, Message, Rival, Transaction, ABORT, COMMIT, ENTRIES, LAST, LONGEST, NO, SHORTEST, WRITE};
use super::quorum::{distances_of, inside, nearest, nodes, only, Kind, ALL, DISTANCES, NODES};
use super::record::{self, decided, phase, Opened, Record, RECORD};
use super::settings::{self, Settings, SETTINGS};
use super::{number, Fault, OBJECTS};

/// A call of the host. Distances are bytes, as they are lent. Document 01 has for the last three: "a fresh live mask and distances may be
/// given", asking for votes, giving up. Document 02 at begin: "The host gives day and minute." A batch is a begin too, with its weights as they are lent.
#[derive(Clone, Debug, PartialEq, Eq)]
pub enum Call {
    Begin { live: u16, distances: Vec<u8>, timestamp: u32, day: u32, minute: u16 },
    Batch { live: u16, distances: Vec<u8>, timestamp: u32, day: u32, minute: u16, list: Vec<u8> },
    Open { object: u8, mode: u8 },
    SetValue { object: u8, value: i64 },
    Found { object: u8 },
    Reselect { live: u16, distances: Vec<u8> },
    RequestCommit,
    Abort,
}

impl Call {
    /// Whether a lent buffer has another length than it must.
    pub fn misfits(&self) -> bool {
        match self {
            Call::Begin { distances, .. } | Call::Reselect { distances, .. } => distances.len() != DISTANCES,
            Call::Batch { distances, list, .. } => distances.len() != DISTANCES || classes::read_weights(list).is_err(),
            _ => false,
        }
    }

    /// "A minute above 10,079 gives 3", whatever table there is; so does "a weight of 2,000 or more, or a longer batch".
    pub fn garbled(&self) -> bool {
        match self {
            Call::Begin { minute, .. } => *minute > LAST_MINUTE,
            Call::Batch { minute, list, .. } => {
                *minute > LAST_MINUTE || classes::read_weights(list).is_ok_and(|list| classes::garbled(&list))
            }
            _ => false,
        }
    }

    /// Whether the call begins a transaction, and so changes the settings.
    pub fn begins(&self) -> bool {
        matches!(self, Call::Begin { .. } | Call::Batch { .. })
    }

    /// Whether the settings are lent to the call.
    pub fn asks_settings(&self) -> bool {
        self.begins() || matches!(self, Call::Open { .. } | Call::SetValue { .. } | Call::RequestCommit)
    }
}

/// What a call that took place tells: its number, which is 0, or 9 where a batch was given up, and its answer.
#[derive(Clone, Copy, Debug, PartialEq, Eq)]
pub struct Done {
    pub number: u8,
    pub answer: i64,
}

impl Done {
    fn with(answer: i64) -> Done {
        Done { number: number::OK, answer }
    }

    /// "A new value past the 64-bit range gives 9 and the booking is given up."
    pub const GIVEN_UP: Done = Done { number: number::USED_UP, answer: Brought::Aborted as i64 };
}

/// Which node's coordinator is called, and whether it is on; a coordinator called by itself always is.
#[derive(Clone, Copy, Debug)]
pub struct At {
    pub me: u8,
    pub on: bool,
}

/// What a delivery brought about.
#[derive(Clone, Copy, Debug, PartialEq, Eq, PartialOrd, Ord)]
pub enum Brought {
    Nothing = 0,
    Committed = 1,
    Aborted = 2,
    Ready = 3,
    Finished = 4,
}

pub fn is_stranger(node: u8) -> bool {
    usize::from(node) >= NODES
}

/// The first number of a list whose condition holds.
pub fn first(refusals: &[(u8, bool)]) -> Result<(), u8> {
    refusals.iter().find(|(_, holds)| *holds).map_or(Ok(()), |(number, _)| Err(*number))
}

/// The mask of the nearest read quorum, if there is one. "Everything that begins, looks again or asks for votes passes the asker on": the node itself.
fn read_quorum(me: u8, live: u16, distances: &[u8]) -> Option<u16> {
    let distances = distances_of(distances)?;
    nearest(Kind::Read, live, &distances, me).map(|(_, mask)| mask)
}

/// The nearest write quorum by "the mask and distances last given", if there is one.
fn write_quorum(me: u8, record: &Record) -> Option<u16> {
    nearest(Kind::Write, record.live, &record.distances, me).map(|(_, mask)| mask)
}

/// "After an abort, begin takes the last stamp or any above it, and gives 5 for a lower one. After a commit the stamp must still rise." So it must before the
/// first transaction, whose last stamp is 0: no transaction carries 0.
pub fn in_turn(record: &Record, timestamp: u32) -> bool {
    match record.outcome {
        decided::ABORTED => timestamp >= record.timestamp,
        _ => timestamp > record.timestamp,
    }
}

/// The numbers of a call with their conditions, in the order in which they are tried; 13 is "given last at begin". On a batch "the host's own open or value
/// call gives 5", and so does "a batch before any table".
fn refusals(record: &Record, settings: &Settings, at: At, call: &Call) -> Vec<(u8, bool)> {
    let unsettled = record.count == 0 || !record.objects().iter().all(Opened::settled);
    let writes_last = record.objects().iter().any(|opened| opened.mode == WRITE && opened.version == LAST);
    let stranger = is_stranger(at.me);
    let unless = |fits: bool| (number::OUT_OF_TURN, !at.on || !fits);
    let open = record.phase == phase::OPEN;
    let own = settings.kind == settings::kind::OWN;
    match call {
        Call::Begin { live, distances, timestamp, day, minute } | Call::Batch { live, distances, timestamp, day, minute, .. } => vec![
            (number::GARBLED, call.garbled()),
            (number::STRANGER, stranger || *live > ALL),
            (number::BUSY, record.phase != phase::IDLE),
            unless(in_turn(record, *timestamp) && (matches!(call, Call::Begin { .. }) || settings.classes.is_some())),
            (number::NO_QUORUM, read_quorum(at.me, *live, distances).is_none()),
            (number::USED_UP, record.serial == LAST),
            (number::CLOSED, settings.hours.as_ref().is_some_and(|table| table.closed(*day, *minute))),
        ],
        Call::Open { object, .. } => vec![
            (number::STRANGER, stranger),
            unless(open && own),
            (number::NO_SUCH_OBJECT, usize::from(*object) >= OBJECTS || record.find(*object).is_some()),
            (number::EIGHT_OPEN, usize::from(record.count) == ENTRIES),
        ],
        Call::SetValue { object, .. } => vec![
            (number::STRANGER, stranger),
            unless(open && own),
            (number::NO_SUCH_OBJECT, record.find(*object).is_none_or(|opened| opened.mode != WRITE)),
        ],
        Call::Found { object } => vec![
            (number::STRANGER, stranger),
            unless(record.phase != phase::IDLE),
            (number::NO_SUCH_OBJECT, record.find(*object).is_none()),
            (number::NOT_READY, record.find(*object).is_some_and(|opened| !opened.ready())),
        ],
        Call::Reselect { live, distances } => vec![
            (number::STRANGER, stranger || *live > ALL),
            unless(open),
            (number::NO_QUORUM, read_quorum(at.me, *live, distances).is_none()),
        ],
        Call::RequestCommit => vec![
            (number::STRANGER, stranger),
            unless(open),
            (number::NOT_READY, unsettled),
            (number::NO_QUORUM, write_quorum(at.me, record).is_none()),
            (number::USED_UP, writes_last),
        ],
        Call::Abort => vec![(number::STRANGER, stranger), unless(open || record.phase == phase::VOTING)],
    }
}

/// Takes what the host says of the nodes, and chooses the present read quorum; its mask.
fn select(record: &mut Record, me: u8, live: u16, distances: &[u8]) -> u16 {
    record.live = live;
    record.distances = distances_of(distances).expect("26 bytes");
    record.quorum = read_quorum(me, live, distances).expect("a quorum");
    record.quorum
}

/// A transaction is aborted. "With nobody asked it ends directly."
fn give_up(record: &mut Record) {
    record.outcome = decided::ABORTED;
    record.phase = phase::FINISHING;
    if record.awaited() == 0 {
        become_idle(record);
    }
}

/// Only the lasting part stays.
fn become_idle(record: &mut Record) {
    *record = Record { serial: record.serial, timestamp: record.timestamp, outcome: record.outcome, ..Record::default() };
}

/// "It chooses a read quorum and takes the next serial."
fn begin(record: &mut Record, me: u8, live: u16, distances: &[u8], timestamp: u32) -> u16 {
    (record.serial, record.timestamp, record.phase) = (record.serial + 1, timestamp, phase::OPEN);
    select(record, me, live, distances)
}

/// "Open a tally once, to read or to write. .. The present read quorum joins the asked set."
fn open(record: &mut Record, opened: Opened) {
    record.opened[usize::from(record.count)] = opened;
    record.count += 1;
    record.contacted |= record.quorum;
}

/// "A batch .. is one booking that adds whole grams to each class's tally": every class's object is open to write from its begin on, with its grams for a
/// new value until votes are asked for. What it leaves over.
fn open_classes(record: &mut Record, classes: &Classes, waiting: [u8; CLASSES], list: &[u8]) -> [u8; CLASSES] {
    let (grams, left) = classes::book(classes, waiting, &classes::read_weights(list).expect("weights"));
    for (&object, grams) in classes.objects.iter().zip(grams) {
        open(record, Opened { object, mode: WRITE, given: 1, new: grams as i64, ..Opened::default() });
    }
    left
}

/// The new values of a batch: the value found and the grams; none where one is "past the 64-bit range".
fn sums(record: &Record) -> Option<Vec<i64>> {
    record.objects().iter().map(|opened| opened.value.checked_add(opened.new)).collect()
}

/// What a call that nothing refuses does; its answer, 0 where there is nothing to tell.
fn perform(record: &mut Record, settings: &mut Settings, me: u8, call: &Call) -> i64 {
    match *call {
        Call::Begin { live, ref distances, timestamp, .. } => {
            settings.begin(settings::kind::OWN, settings.waiting(record), [0; CLASSES]);
            i64::from(begin(record, me, live, distances, timestamp))
        }
        Call::Batch { live, ref distances, timestamp, ref list, .. } => {
            let waiting = settings.waiting(record);
            let quorum = begin(record, me, live, distances, timestamp);
            let left = open_classes(record, settings.classes.as_ref().expect("a table"), waiting, list);
            settings.begin(settings::kind::BATCH, waiting, left);
            i64::from(quorum)
        }
        Call::Open { object, mode } => {
            open(record, Opened { object, mode, ..Opened::default() });
            0
        }
        // "A written one's new value may be set while open, the last counting."
        Call::SetValue { object, value } => {
            let opened = record.find_mut(object).expect("opened");
            (opened.given, opened.new) = (1, value);
            0
        }
        Call::Found { object } => record.find(object).expect("opened").value,
        // "The new quorum then joins if some tally is open already."
        Call::Reselect { live, ref distances } => {
            let quorum = select(record, me, live, distances);
            if record.count > 0 {
                record.contacted |= quorum;
            }
            i64::from(quorum)
        }
        // "The party is the chosen write quorum and the asked set."
        Call::RequestCommit => {
            record.phase = phase::VOTING;
            record.participants = write_quorum(me, record).expect("a quorum") | record.contacted;
            i64::from(record.participants)
        }
        // "Giving up .. aborts while open or voting."
        Call::Abort => {
            give_up(record);
            0
        }
    }
}

/// A call of the host at a node, with its settings: a refusal's number, or what it tells.
pub fn call(record: &mut Record, settings: &mut Settings, at: At, call: &Call) -> Result<Done, u8> {
    first(&refusals(record, settings, at, call))?;
    if settings.kind == settings::kind::BATCH && *call == Call::RequestCommit {
        let Some(sums) = sums(record) else {
            give_up(record);
            return Ok(Done::GIVEN_UP);
        };
        let count = usize::from(record.count);
        for (opened, sum) in record.opened[..count].iter_mut().zip(sums).filter(|(opened, _)| opened.mode == WRITE) {
            opened.new = sum;
        }
    }
    Ok(Done::with(perform(record, settings, at.me, call)))
}

/// Why a message "changes nothing and has no number".
#[derive(Clone, Copy, Debug, PartialEq, Eq, PartialOrd, Ord)]
pub enum Misfit {
    /// It "doesn't fit the phase".
    Phase,
    /// Its "serial isn't this booking's (in a yield, the rival's serial)".
    Serial,
    /// "An answer with another stamp."
    Stamp,
    /// "From a controller not asked."
    Sender,
    /// "Or for a tally .. not asked."
    Object,
    /// "Or mode not asked."
    Mode,
}

/// All the ways in which a copy, vote, done or yield to this node does not fit.
pub fn misfits(record: &Record, message: &Message) -> Vec<Misfit> {
    let own = message.transaction;
    let (phases, serial, stamp, asked) = match message.kind {
        kind::COPY => (vec![phase::OPEN], own.serial, own.stamp, record.contacted),
        kind::VOTE => (vec![phase::VOTING], own.serial, own.stamp, record.participants),
        kind::DONE => (vec![phase::FINISHING], own.serial, own.stamp, record.awaited()),
        _ => (vec![phase::OPEN, phase::VOTING], message.rivals[0].serial, record.timestamp, ALL),
    };
    let wanted = if message.kind == kind::COPY { message.entries.first() } else { None };
    let opened = wanted.and_then(|entry| record.find(entry.object));
    let mut list = Vec::new();
    let mut add_if = |holds: bool, misfit: Misfit| list.extend(holds.then_some(misfit));
    add_if(!phases.contains(&record.phase), Misfit::Phase);
    add_if(serial != record.serial, Misfit::Serial);
    add_if(stamp != record.timestamp, Misfit::Stamp);
    add_if(!inside(only(usize::from(message.from)), asked), Misfit::Sender);
    add_if(wanted.is_some() && opened.is_none(), Misfit::Object);
    add_if(wanted.zip(opened).is_some_and(|(entry, opened)| entry.mode != opened.mode), Misfit::Mode);
    list
}

/// A copy that fits. "Its found value is the one with the highest version, the first such copy to come, and no later copy changes it."
fn take_copy(record: &mut Record, message: &Message, fault: Fault) -> Brought {
    let entry = message.entries[0];
    let opened = record.find_mut(entry.object).expect("opened");
    let was_ready = opened.ready();
    if was_ready && fault != Fault::TakesLateCopies {
        return Brought::Nothing;
    }
    if opened.came == 0 || entry.version > opened.version {
        (opened.version, opened.value) = (entry.version, entry.value);
    }
    opened.came |= only(usize::from(message.from));
    if opened.ready() && !was_ready {
        Brought::Ready
    } else {
        Brought::Nothing
    }
}

/// A vote that fits. "A no from a party member aborts. Yes from the whole party commits." A yes names rivals: "of several serials named for
/// one owner, the highest".
fn take_vote(record: &mut Record, message: &Message, fault: Fault) -> Brought {
    if message.words[0] == NO {
        give_up(record);
        return Brought::Aborted;
    }
    record.yes |= only(usize::from(message.from));
    for rival in &message.rivals {
        let highest = &mut record.rivals[usize::from(rival.owner)];
        *highest = rival.serial.max(*highest);
    }
    let majority = 2 * record.yes.count_ones() > record.participants.count_ones();
    if record.yes == record.participants || (fault == Fault::CommitsByMajority && majority) {
        (record.phase, record.outcome) = (phase::FINISHING, decided::COMMITTED);
        return Brought::Committed;
    }
    Brought::Nothing
}

/// A done that fits. "Finishing lasts until every party member .. says done."
fn take_done(record: &mut Record, message: &Message) -> Brought {
    record.done |= only(usize::from(message.from));
    if record.done != record.awaited() {
        return Brought::Nothing;
    }
    become_idle(record);
    Brought::Finished
}

/// A well-formed message at the coordinator of node `me`: 4, then 5, else what it brought about.
pub fn deliver(record: &mut Record, me: u8, message: &Message, fault: Fault) -> Result<Brought, u8> {
    let here = [kind::COPY, kind::VOTE, kind::DONE, kind::YIELD].contains(&message.kind);
    first(&[(number::STRANGER, is_stranger(me) || message.to != me), (number::OUT_OF_TURN, !here)])?;
    if !misfits(record, message).is_empty() {
        return Ok(Brought::Nothing);
    }
    Ok(match message.kind {
        kind::COPY => take_copy(record, message, fault),
        kind::VOTE => take_vote(record, message, fault),
        kind::DONE => take_done(record, message),
        // "Or a yield notice naming this booking, aborts while open or voting."
        _ => {
            give_up(record);
            Brought::Aborted
        }
    })
}

/// "In asks and outcomes versions are the ones found, a read's value is 0, a write's value is the new one." Ascending by object.
fn entries(record: &Record) -> Vec<Entry> {
    let told = |opened: &Opened| Entry { object: opened.object, mode: opened.mode, version: opened.version, value: opened.new };
    let mut list: Vec<Entry> = record.objects().iter().map(told).collect();
    list.sort_by_key(|entry| entry.object);
    list
}

/// What is due to a node (while open, for an object), if anything.
pub fn due(record: &Record, me: u8, node: u8, object: u8) -> Option<Message> {
    let to = usize::from(node);
    let own = Transaction { owner: me, serial: record.serial, stamp: record.timestamp };
    let (commits, rival) = (record.outcome == decided::COMMITTED, record.rivals[to]);
    match record.phase {
        // "Fetches to the present quorum for tallies not ready."
        phase::OPEN => {
            let wanted = record.find(object).filter(|opened| !opened.ready() && inside(only(to), record.quorum));
            wanted.map(|opened| message::fetch(node, own, object, opened.mode))
        }
        // "Asks to members without a vote."
        phase::VOTING if inside(only(to), record.participants & !record.yes) => Some(message::ask(node, own, entries(record))),
        // "Outcomes to members without a done." "An outcome goes before a yield."
        phase::FINISHING if inside(only(to), record.awaited() & !record.done) => Some(match commits {
            true => message::outcome(node, own, entries(record), COMMIT),
            false => message::outcome(node, own, vec![], ABORT),
        }),
        // "And after a commit a yield to each rival's owner until finishing ends." A rival is "never the owner".
        phase::FINISHING if commits && rival != 0 && node != me => Some(message::yields(own, Rival { owner: node, serial: rival })),
        _ => None,
    }
}

/// The numbers of a request for what is due: nodes above 12, a node that is off, and while open an object that is not opened.
pub fn due_refusals(record: &Record, at: At, node: u8, object: u8) -> Vec<(u8, bool)> {
    vec![
        (number::STRANGER, is_stranger(at.me) || is_stranger(node)),
        (number::OUT_OF_TURN, !at.on),
        (number::NO_SUCH_OBJECT, record.phase == phase::OPEN && record.find(object).is_none()),
    ]
}

/// What a call on the bytes of a record leaves: its answer, and the record's bytes.
#[derive(Clone, Debug, PartialEq, Eq)]
pub struct Left {
    pub answer: i64,
    pub record: Vec<u8>,
}

/// What a host call on the bytes of a record and of settings leaves: what it tells, and the bytes of both.
#[derive(Clone, Debug, PartialEq, Eq)]
pub struct HostLeft {
    pub done: Done,
    pub record: Vec<u8>,
    pub settings: Vec<u8>,
}

/// A host call on bytes: 1 for a length, 2 for a damaged record or settings, then the call's own numbers. The settings are lent only to calls that ask for
/// them, and changed only by those that begin.
pub fn host_call(bytes: &[u8], settings: &[u8], me: u8, asked: &Call) -> Result<HostLeft, u8> {
    let lent = asked.asks_settings();
    first(&[(number::LENGTH, bytes.len() != RECORD || asked.misfits()), (number::LENGTH, lent && settings.len() != SETTINGS)])?;
    let mut record = record::load(bytes)?;
    let mut known = if lent { settings::load(settings)? } else { Settings::default() };
    let done = call(&mut record, &mut known, At { me, on: true }, asked)?;
    let settings = if asked.begins() { settings::with_begin(settings, &known) } else { settings.to_vec() };
    Ok(HostLeft { done, record: record::encode(&record), settings })
}

/// A delivery on bytes: 1 for a length, 2 for a damaged record, 3 for a garbled message, then 4 and 5.
pub fn receive_call(bytes: &[u8], me: u8, message: &[u8]) -> Result<Left, u8> {
    let fits = (SHORTEST..=LONGEST).contains(&message.len());
    first(&[(number::LENGTH, bytes.len() != RECORD || !fits)])?;
    let mut record = record::load(bytes)?;
    let message = message::receive(message)?;
    let brought = deliver(&mut record, me, &message, Fault::None)?;
    Ok(Left { answer: brought as i64, record: record::encode(&record) })
}

/// A request for what is due on bytes, with a buffer of `size` bytes: the message's bytes, none where nothing is due.
pub fn due_call(bytes: &[u8], me: u8, node: u8, object: u8, size: usize) -> Result<Vec<u8>, u8> {
    first(&[(number::LENGTH, bytes.len() != RECORD || size < LONGEST)])?;
    let record = record::load(bytes)?;
    first(&due_refusals(&record, At { me, on: true }, node, object))?;
    Ok(due(&record, me, node, object).as_ref().map(message::encode).unwrap_or_default())
}

/// The rivals that a record knows, ascending by owner.
pub fn known_rivals(record: &Record) -> impl Iterator<Item = usize> + '_ {
    nodes(ALL).filter(|&node| record.rivals[node] != 0)
}
