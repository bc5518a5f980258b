//! Random scenarios (document 01: stories): which step comes next, from what the station is in and how rough the scenario is.

use crate::checks::classes::tables::{classes_among, some_batch, some_list as some_class_list};
use crate::checks::hours::tables::{some_clock, some_list};
use crate::checks::message::records::some_byte;
use crate::checks::turns::some_timestamp;
use crate::model::classes;
use crate::model::coordinator::{due, known_rivals, Call};
use crate::model::hours::{encode, Table, Window, LAST_END};
use crate::model::message::{kind, Message, WRITE};
use crate::model::quorum::{nodes, ALL, NODES};
use crate::model::record::{phase, Record};
use crate::model::settings::kind as kinds;
use crate::model::station::{Station, Step, POOL};
use crate::model::OBJECTS;
use crate::random::Random;

/// How rough a scenario is. Each of the fields after those of `slow` happens once in so many times.
pub struct Style {
    /// The nodes that begin transactions.
    pub owners: Vec<u8>,
    /// So many objects from the first one on are wanted, each transaction at most `most`.
    pub first: usize,
    pub objects: usize,
    pub most: usize,
    /// With more messages waiting than this, one is delivered rather than sent.
    pub calm: usize,
    /// Messages of this kind that belong to these owners' transactions are slow: others are delivered first, most often.
    pub slow: u8,
    pub slow_owners: Vec<u8>,
    /// A message that has waited long is delivered, rather than one of the newest.
    pub old: usize,
    /// A transaction that could ask for votes does so.
    pub ask: usize,
    /// What waits already is sent again.
    pub again: usize,
    pub keep: usize,
    pub lose: usize,
    pub switch: usize,
    pub abort: usize,
    pub reselect: usize,
    pub write: usize,
    pub wild: usize,
    /// A table of packing hours is loaded.
    pub load: usize,
    /// A node that is idle and has no table of classes loads one; one that has a table loads another; it begins a batch.
    pub first_classes: usize,
    pub classes: usize,
    pub batch: usize,
    /// A value that is set is at the range's end, or near it.
    pub brink: usize,
}

/// A style; what is wanted is few or many, and what goes wrong rare or frequent, independently of each other.
pub fn some_style(random: &mut Random) -> Style {
    let count = *random.pick(&[2, 3, 3, 4, 6, 13]);
    let mut owners: Vec<u8> = (0..NODES as u8).collect();
    while owners.len() > count {
        owners.remove(random.below(owners.len()));
    }
    // A gentle scenario has none of the frequent ones.
    let gentle = usize::from(random.once_in(2));
    let objects = *random.pick(&[1, 2, 2, 3, 5, 9, 12, OBJECTS]);
    Style {
        slow: *random.pick(&[kind::COPY, kind::VOTE, kind::VOTE, kind::OUTCOME, kind::DONE, kind::YIELD]),
        slow_owners: if random.once_in(3) { owners.clone() } else { vec![owners[0]] },
        owners,
        first: (*random.pick(&[0, 0, 0, 62, 63, 119])).min(OBJECTS - objects),
        objects,
        most: *random.pick(&[1, 2, 2, 3, 8, 9]),
        calm: *random.pick(&[4, 12, 30, 60, 126, 400][..4 + 2 * (1 - gentle)]),
        old: *random.pick(&[1, 4, 20, 60]),
        ask: *random.pick(&[1, 1, 4, 20]),
        again: *random.pick(&[2, 10, 40]),
        keep: *random.pick(&[2, 5, 20, 200][gentle..]),
        lose: *random.pick(&[15, 60, 400][gentle..]),
        switch: *random.pick(&[40, 400, 2000][gentle..]),
        abort: *random.pick(&[10, 60, 300][gentle..]),
        reselect: *random.pick(&[6, 30, 200][gentle..]),
        write: *random.pick(&[1, 2, 2, 3]),
        wild: *random.pick(&[20, 60, 200][gentle..]),
        load: *random.pick(&[30, 120, 600][gentle..]),
        first_classes: *random.pick(&[2, 8, 1000]),
        classes: *random.pick(&[6, 30, 200]),
        batch: *random.pick(&[1, 2, 4, 1000]),
        brink: *random.pick(&[2, 8, 1000]),
    }
}

impl Style {
    /// One of the objects that are wanted.
    fn object(&self, random: &mut Random) -> u8 {
        (self.first + random.below(self.objects)) as u8
    }

    /// No object but the first 64 is wanted, which is all that an older program had.
    pub fn older(mut self) -> Style {
        self.objects = self.objects.min(64);
        self.first = self.first.min(64 - self.objects);
        self
    }

    /// Transactions stay open for long, fetches are repeated, and yields are slow.
    pub fn lingering(mut self) -> Style {
        (self.ask, self.keep, self.again, self.old) = (12, 2, 2, 1);
        (self.slow, self.slow_owners) = (kind::YIELD, self.owners.clone());
        self
    }

    /// Batches, one after the other, in few objects that are set near the range's end now and then. Little goes wrong, so that many commit.
    pub fn weighing(mut self) -> Style {
        self.owners.truncate(3);
        (self.ask, self.keep, self.lose, self.switch, self.again, self.calm) = (1, 20, 400, 2000, 40, 30);
        (self.objects, self.first_classes, self.classes, self.batch) = (self.objects.min(3), 1, 20, 2);
        (self.brink, self.abort, self.wild, self.write, self.most) = (self.brink.min(3), 60, 60, 1, 2);
        self
    }

    /// Votes to one owner are slow.
    pub fn slow_votes(mut self) -> Style {
        (self.objects, self.most, self.keep, self.calm) = (2, 2, 20, 60);
        (self.slow, self.slow_owners) = (kind::VOTE, vec![self.owners[0]]);
        self
    }
}

/// Any mask of nodes: those that are on most often, or one with few nodes, or with more than there are.
fn some_live(random: &mut Random, station: &Station) -> u16 {
    match random.below(20) {
        0 => random.word() & ALL,
        1 => random.word() & random.word() & ALL,
        2..=6 => ALL,
        _ => station.on,
    }
}

/// Thirteen distances: all the same, few different ones, or any.
pub fn some_distances(random: &mut Random) -> Vec<u8> {
    let limit = *random.pick(&[1, 3, 20, 65_536]);
    (0..NODES).flat_map(|_| (random.below(limit) as u16).to_le_bytes()).collect()
}

fn one_of(random: &mut Random, mask: u16) -> u8 {
    let list: Vec<usize> = nodes(mask).collect();
    if list.is_empty() {
        random.below(NODES) as u8
    } else {
        *random.pick(&list) as u8
    }
}

/// A value that is set: any, or one that a batch may take past the range.
fn some_value(random: &mut Random, style: &Style) -> i64 {
    if random.once_in(style.brink) {
        let near = random.below(2000) as i64;
        return *random.pick(&[i64::MAX, i64::MAX - near, i64::MIN, i64::MIN + near]);
    }
    random.next() as i64
}

/// What the host of an open transaction does next. A batch has its objects and its amounts; an open or a value call is tried on it all the same, seldom.
fn while_open(random: &mut Random, station: &Station, style: &Style, node: u8) -> Step {
    let record = &station.records[usize::from(node)];
    let batch = station.settings[usize::from(node)].kind == kinds::BATCH;
    let host = |call| Step::Host { node, call };
    let object = style.object(random);
    let known = if record.count == 0 { object } else { random.pick(record.objects()).object };
    if random.once_in(style.abort * 2) {
        return host(Call::Abort);
    }
    if random.once_in(style.reselect) {
        return host(Call::Reselect { live: some_live(random, station), distances: some_distances(random) });
    }
    let opens = usize::from(record.count) < style.most && random.once_in(4) && (!batch || random.once_in(8));
    if record.count == 0 || opens {
        return host(Call::Open { object, mode: u8::from(random.once_in(style.write)) });
    }
    let unset = record.objects().iter().find(|opened| opened.mode == WRITE && opened.given == 0);
    if let (Some(opened), true) = (unset, random.once_in(3)) {
        return host(Call::SetValue { object: opened.object, value: some_value(random, style) });
    }
    if record.objects().iter().all(|opened| opened.settled()) {
        return host(match random.below(8) {
            0 if !batch || random.once_in(4) => Call::SetValue { object: known, value: some_value(random, style) },
            1 | 2 => Call::Found { object: known },
            _ if random.once_in(style.ask) => Call::RequestCommit,
            _ => Call::Found { object: known },
        });
    }
    let unready = record.objects().iter().find(|opened| !opened.ready());
    let (object, came) = unready.map_or((known, 0), |opened| (opened.object, opened.came));
    let missing = if random.once_in(6) { record.quorum } else { record.quorum & !came };
    Step::Send { node, to: one_of(random, missing), object }
}

/// A rival's owner, or a node that is still awaited.
fn while_finishing(random: &mut Random, record: &Record) -> u8 {
    let rivals: Vec<usize> = known_rivals(record).collect();
    if !rivals.is_empty() && random.once_in(3) {
        return *random.pick(&rivals) as u8;
    }
    one_of(random, record.awaited() & !record.done)
}

/// A table of classes as it is lent, sound most often, in the objects that are wanted.
fn some_table(random: &mut Random, style: &Style) -> Vec<u8> {
    if random.once_in(8) {
        return some_class_list(random, 2);
    }
    let most = *random.pick(&[1, 2, 3, 8]);
    let mut table = classes_among(random, most, style.objects);
    table.objects.iter_mut().for_each(|object| *object += style.first as u8);
    classes::encode(&table)
}

/// A table with the whole week in one window.
fn always_open() -> Vec<u8> {
    encode(&Table { windows: vec![Window { start: 0, end: LAST_END }], dates: vec![] })
}

/// What an owner does next: a host call, or a send of what is due.
fn owner_step(random: &mut Random, station: &Station, style: &Style) -> Step {
    let node = *random.pick(&style.owners);
    let record = &station.records[usize::from(node)];
    match record.phase {
        phase::IDLE => {
            let settings = &station.settings[usize::from(node)];
            let hours = settings.hours.as_ref();
            // A table without a window closes for good: it is replaced soon.
            if hours.is_some_and(|table| table.windows.is_empty()) && !random.once_in(4) {
                return Step::Load { node, list: always_open() };
            }
            let often = if settings.classes.is_some() { style.classes } else { style.first_classes };
            if random.once_in(often) {
                return Step::LoadClasses { node, list: some_table(random, style) };
            }
            let timestamp = some_timestamp(random, record);
            let (live, distances) = (some_live(random, station), some_distances(random));
            let (day, minute) = some_clock(random, hours);
            if random.once_in(style.batch) && (settings.classes.is_some() || random.once_in(20)) {
                let list = some_batch(random, settings.classes.as_ref(), 30);
                return Step::Host { node, call: Call::Batch { live, distances, timestamp, day, minute, list } };
            }
            Step::Host { node, call: Call::Begin { live, distances, timestamp, day, minute } }
        }
        phase::OPEN => while_open(random, station, style, node),
        phase::VOTING if random.once_in(style.abort * 4) => Step::Host { node, call: Call::Abort },
        phase::VOTING => Step::Send { node, to: one_of(random, record.participants & !record.yes), object: 0 },
        _ => Step::Send { node, to: while_finishing(random, record), object: 0 },
    }
}

/// Thirteen distances, or bytes of any length.
fn wild_distances(random: &mut Random) -> Vec<u8> {
    let length = *random.pick(&[0, 25, 27, 52]);
    if random.once_in(4) {
        random.bytes(length)
    } else {
        some_distances(random)
    }
}

/// A host call with any arguments, fitting or not.
fn wild_call(random: &mut Random, object: u8) -> Call {
    let (day, minute) = some_clock(random, None);
    match random.below(9) {
        8 => {
            let (live, timestamp, list) = (random.word(), random.below(400) as u32, some_batch(random, None, 2));
            Call::Batch { live: *random.pick(&[live, ALL]), distances: wild_distances(random), timestamp, day, minute, list }
        }
        0 => Call::Begin { live: random.word(), distances: wild_distances(random), timestamp: random.below(40) as u32, day, minute },
        1 => {
            let (live, timestamp) = (random.word() & ALL, random.below(900) as u32);
            Call::Begin { live, distances: wild_distances(random), timestamp, day, minute }
        }
        2 => Call::Open { object, mode: random.below(2) as u8 },
        3 => Call::SetValue { object, value: random.next() as i64 },
        4 => Call::Found { object },
        5 => Call::Reselect { live: random.word(), distances: wild_distances(random) },
        6 => Call::Reselect { live: random.word() & random.word() & ALL, distances: wild_distances(random) },
        _ => Call::RequestCommit,
    }
}

/// A step with any arguments.
pub fn wild_step(random: &mut Random, station: &Station, style: &Style) -> Step {
    let stranger = if random.once_in(8) { some_byte(random) } else { random.below(NODES) as u8 };
    let node = *random.pick(&[stranger, style.owners[0]]);
    let object = if random.once_in(6) { some_byte(random) } else { style.object(random) };
    let at = if random.once_in(10) { usize::from(random.byte()) } else { random.below(station.pool.len() + 2) };
    match random.below(14) {
        13 => Step::LoadClasses { node: stranger, list: some_class_list(random, 2) },
        0..=4 => Step::Host { node, call: wild_call(random, object) },
        5..=8 => Step::Send { node, to: if random.once_in(8) { some_byte(random) } else { random.below(NODES) as u8 }, object },
        9 => Step::Deliver { at, kept: random.once_in(2) },
        10 => Step::Drop { at },
        11 => Step::Load { node: stranger, list: some_list(random, 2) },
        _ => Step::Switch { node: stranger, on: random.once_in(2) },
    }
}

/// Which waiting message is delivered: one of the newest, or any; a slow one seldom, unless `must`. None where none should be.
fn some_place(random: &mut Random, station: &Station, style: &Style, must: bool) -> Option<usize> {
    let slow = |message: &Message| message.kind == style.slow && style.slow_owners.contains(&message.transaction.owner);
    let quick = |at: &usize| !slow(&station.pool[*at]);
    let all = 0..station.pool.len();
    let places: Vec<usize> = if random.once_in(40) { all.collect() } else { all.filter(quick).collect() };
    let waiting = places.len();
    if waiting == 0 {
        return must.then(|| random.below(station.pool.len()));
    }
    Some(if random.once_in(style.old) { *random.pick(&places) } else { places[waiting - 1 - random.below(waiting.min(3))] })
}

/// The next step of a scenario.
pub fn next_step(random: &mut Random, station: &Station, style: &Style) -> Step {
    let waiting = station.pool.len();
    if random.once_in(style.wild) {
        return wild_step(random, station, style);
    }
    if random.once_in(style.switch) || (station.on != ALL && random.once_in(12)) {
        let node = if random.once_in(3) { random.below(NODES) as u8 } else { one_of(random, ALL & !station.on) };
        return Step::Switch { node, on: !station.is_on(node) };
    }
    if random.once_in(style.load) {
        let node = if random.once_in(6) { random.below(NODES) as u8 } else { *random.pick(&style.owners) };
        return Step::Load { node, list: some_list(random, 5) };
    }
    if waiting > 0 && random.once_in(style.lose) {
        return Step::Drop { at: random.below(waiting) };
    }
    let step = owner_step(random, station, style);
    let crowded = waiting > style.calm;
    let often = random.below(5) < if style.calm < POOL { 3 } else { 1 };
    if waiting > 0 && (crowded || often || (waits(station, &step) && !random.once_in(style.again))) {
        let kept = random.once_in(style.keep) && (!crowded || random.once_in(4));
        if let Some(at) = some_place(random, station, style, crowded) {
            return Step::Deliver { at, kept };
        }
    }
    step
}

/// Whether a step would send what waits already.
fn waits(station: &Station, step: &Step) -> bool {
    let Step::Send { node, to, object } = *step else { return false };
    due(&station.records[usize::from(node)], node, to, object).is_some_and(|message| station.pool.contains(&message))
}

/// The next step towards rest, with all nodes on: open transactions are given up, what is due is sent, what waits is delivered.
pub fn closing_step(random: &mut Random, station: &Station) -> Option<Step> {
    if station.on != ALL {
        return Some(Step::Switch { node: one_of(random, ALL & !station.on), on: true });
    }
    if !station.pool.is_empty() {
        return Some(Step::Deliver { at: random.below(station.pool.len()), kept: false });
    }
    let busy: Vec<usize> = (0..NODES).filter(|&node| station.records[node].phase != phase::IDLE).collect();
    let node = *busy.first()? as u8;
    let record = &station.records[usize::from(node)];
    Some(match record.phase {
        phase::OPEN => Step::Host { node, call: Call::Abort },
        phase::VOTING => Step::Send { node, to: one_of(random, record.participants & !record.yes), object: 0 },
        _ => Step::Send { node, to: one_of(random, record.awaited() & !record.done), object: 0 },
    })
}
