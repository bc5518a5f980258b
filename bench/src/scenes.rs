//! The buffers that operations start from: moments of a transaction of node 4 at a station with all nodes on, after one that committed.

use crate::fast::Fast;
use crate::library::{BeginWith, Entries, Entry, Library, Serials, Transaction, ALL, MESSAGE_MAX, NODES, OBJECTS, OLDER_OBJECTS, SETTINGS};
use crate::stage::Stage;
use crate::station::{longest_batch, longest_table, Station, Step, LONGEST_CLASSES};
use crate::transaction::{self, nodes, DISTANCES_USED, OWNER, PARTICIPANTS};

/// A moment of the transaction. It has one object, or as many as the name says.
#[derive(Clone, Copy, PartialEq, Eq)]
pub enum Scene {
    Idle,
    Begun,
    Open,
    Open7,
    Ready,
    Ready8,
    Voting,
    Voting8,
    /// The asks wait.
    Asked,
    /// Every participant holds; the votes wait.
    Held,
    Committed,
    Aborted,
}

/// The station after one transaction of 8 objects that committed.
fn used() -> Station {
    let mut station = Station::blank::<Fast>(ALL);
    transaction::whole::<Fast>(&mut station, 8);
    station
}

/// The station at a moment.
pub fn station(scene: Scene) -> Station {
    let mut it = used();
    let objects = match scene {
        Scene::Begun => 0,
        Scene::Open7 => 7,
        Scene::Ready8 | Scene::Voting8 => 8,
        _ => 1,
    };
    if scene == Scene::Idle {
        return it;
    }
    transaction::open::<Fast>(&mut it, objects, 5);
    if matches!(scene, Scene::Begun | Scene::Open | Scene::Open7) {
        return it;
    }
    if scene == Scene::Aborted {
        it.must::<Fast>(Step::Abort { node: OWNER });
        return it;
    }
    transaction::send_fetches::<Fast>(&mut it, objects);
    transaction::deliver_all::<Fast>(&mut it, 0);
    if matches!(scene, Scene::Ready | Scene::Ready8) {
        return it;
    }
    it.must::<Fast>(Step::RequestCommit { node: OWNER });
    if matches!(scene, Scene::Voting | Scene::Voting8) {
        return it;
    }
    transaction::send_to_participants::<Fast>(&mut it);
    if scene == Scene::Asked {
        return it;
    }
    for _ in nodes(PARTICIPANTS) {
        it.must::<Fast>(Step::Deliver { k: 0, kept: 0 });
    }
    if scene == Scene::Committed {
        transaction::deliver_all::<Fast>(&mut it, 0);
    }
    it
}

/// Eight entries to write, objects 5, 12, 19, ..; rivals 2, 6 and 9; a transaction of node 4.
fn stage_of(station: Station) -> Stage {
    let entry = |i: usize| Entry { object: 5 + 7 * i as u8, mode: 1, version: 3, value: 1000 };
    let mut serial = [0; NODES];
    (serial[2], serial[6], serial[9]) = (4, 5, 6);
    Stage {
        image: station.image(1).to_vec(),
        record: station.record(usize::from(OWNER)).to_vec(),
        settings: station.settings(usize::from(OWNER)).to_vec(),
        table: longest_table(),
        classes: LONGEST_CLASSES.to_vec(),
        batch: longest_batch(),
        station,
        message: vec![],
        out: vec![0; MESSAGE_MAX],
        distances: DISTANCES_USED,
        of: Transaction { owner: OWNER, serial: 2, stamp: 5 },
        entries: Entries { entry: std::array::from_fn(entry), count: 8 },
        serials: Serials { serial },
        objects: 1,
    }
}

/// The buffers at a moment: the station, with node 1's image and node 4's record for calls on these alone.
pub fn stage(scene: Scene) -> Stage {
    stage_of(station(scene))
}

/// The same with the longest table of packing hours loaded, at the owner of the station too.
pub fn with_hours(scene: Scene) -> Stage {
    let mut stage = stage(scene);
    assert_eq!(Fast::load_hours(&mut stage.settings, &longest_table()), 0, "a table is loaded");
    let place = SETTINGS * usize::from(OWNER);
    stage.station.settings[place..place + SETTINGS].copy_from_slice(&stage.settings);
    stage
}

/// An idle moment with a table of weight classes loaded, at the owner of the station too, and a batch to be booked.
pub fn with_classes(classes: &[u8], batch: Vec<u8>) -> Stage {
    let mut stage = stage(Scene::Idle);
    assert_eq!(Fast::load_classes(&mut stage.settings, &stage.record, OWNER, classes).number, 0, "a table is loaded");
    let place = SETTINGS * usize::from(OWNER);
    stage.station.settings[place..place + SETTINGS].copy_from_slice(&stage.settings);
    Stage { batch, ..stage }
}

/// The longest batch of eight classes, whose objects are all ready.
pub fn batch_ready() -> Stage {
    let mut stage = with_classes(&LONGEST_CLASSES, longest_batch());
    let with = BeginWith { live: ALL, distances: &DISTANCES_USED, timestamp: 77, day: 0, minute: 600 };
    let told = Fast::station_batch(&mut stage.station.records, &stage.station.own, &mut stage.station.settings, OWNER, with, &stage.batch);
    assert_eq!(told.number, 0, "a batch begins");
    transaction::send_fetches::<Fast>(&mut stage.station, 8);
    transaction::deliver_all::<Fast>(&mut stage.station, 0);
    stage.record = stage.station.record(usize::from(OWNER)).to_vec();
    stage.settings = stage.station.settings(usize::from(OWNER)).to_vec();
    stage
}

/// An image of an older release in which every object has been written: copies of 17 bytes, without authors, or of 22.
pub fn older_image(width: usize) -> Vec<u8> {
    let image = stage(Scene::Held).image;
    let (copies, owners) = image.split_at(1 + 22 * OBJECTS);
    let mut old = vec![OLDER_OBJECTS as u8];
    for copy in copies[1..].chunks(22).take(OLDER_OBJECTS) {
        let version = old.len() + 8;
        old.extend(&copy[..width]);
        old[version] = 1;
    }
    old.extend(owners);
    old
}

pub fn with_message(message: Vec<u8>) -> Stage {
    Stage { message, ..stage(Scene::Idle) }
}

/// A message as a writer writes it.
fn written(write: impl FnOnce(&mut [u8]) -> crate::library::Written) -> Vec<u8> {
    let mut out = vec![0; MESSAGE_MAX];
    let told = write(&mut out);
    assert_eq!(told.number, 0, "a message is written");
    out.truncate(usize::from(told.length));
    out
}

/// A message of each kind.
pub fn messages() -> Vec<(&'static str, Vec<u8>)> {
    let Stage { of, entries, serials, .. } = stage(Scene::Idle);
    let none = Entries { count: 0, ..entries };
    vec![
        ("fetch", written(|out| Fast::write_fetch(out, 1, of, 5, 1))),
        ("copy", written(|out| Fast::write_copy(out, 1, of, entries.entry[0]))),
        ("ask, 8 entries", written(|out| Fast::write_ask(out, 1, of, &entries))),
        ("vote, 3 rivals", written(|out| Fast::write_vote(out, 1, of, &serials, 1))),
        ("commit, 8 entries", written(|out| Fast::write_outcome(out, 1, of, &entries, 1))),
        ("abort", written(|out| Fast::write_outcome(out, 1, of, &none, 0))),
        ("done", written(|out| Fast::write_done(out, 1, of))),
        ("yield", written(|out| Fast::write_yield(out, of, 1, 9))),
    ]
}

/// What a station at a moment would send to node 1, as a message.
fn due(station: &Station, node: u8, to: u8) -> Vec<u8> {
    written(|out| Fast::due(station.record(usize::from(node)), node, to, 0, out))
}

/// The entries of a transaction of one object, as the scenes have them: found at version 1, or at a version before it.
fn ask(station: &Station, version: u32) -> Vec<u8> {
    let mut message = due(station, OWNER, 1);
    message[15..19].copy_from_slice(&version.to_le_bytes());
    message
}

/// Deliveries at the replica of node 1, by kind.
pub fn replica() -> Vec<(&'static str, Stage)> {
    let with = |scene, message| Stage { message, ..stage(scene) };
    vec![
        ("fetch", with(Scene::Open, due(&station(Scene::Open), OWNER, 1))),
        ("ask voted yes", with(Scene::Voting, ask(&station(Scene::Voting), 1))),
        ("ask voted no", with(Scene::Voting, ask(&station(Scene::Voting), 0))),
        ("ask voted yes, 8 objects", with(Scene::Voting8, due(&station(Scene::Voting8), OWNER, 1))),
        ("commit", with(Scene::Held, due(&station(Scene::Committed), OWNER, 1))),
        ("abort", with(Scene::Held, due(&station(Scene::Aborted), OWNER, 1))),
        ("late ask", with(Scene::Idle, ask(&used_ask(), 1))),
    ]
}

/// A station whose transaction's messages are late at the idle one's replicas.
fn used_ask() -> Station {
    let mut station = Station::blank::<Fast>(ALL);
    transaction::open::<Fast>(&mut station, 1, 1);
    transaction::send_fetches::<Fast>(&mut station, 1);
    transaction::deliver_all::<Fast>(&mut station, 0);
    station.must::<Fast>(Step::RequestCommit { node: OWNER });
    station
}

/// Deliveries at the coordinator of node 4, by kind.
pub fn coordinator() -> Vec<(&'static str, Stage)> {
    let with = |scene, message| Stage { message, ..stage(scene) };
    let of = Transaction { owner: OWNER, serial: 2, stamp: 5 };
    let found = Entry { object: 0, mode: 1, version: 1, value: 1000 };
    let (none, rivals) = (Serials { serial: [0; NODES] }, stage(Scene::Idle).serials);
    vec![
        ("copy", with(Scene::Open, written(|out| Fast::write_copy(out, 1, of, found)))),
        ("yes", with(Scene::Voting, written(|out| Fast::write_vote(out, 1, of, &none, 1)))),
        ("yes, 3 rivals", with(Scene::Voting, written(|out| Fast::write_vote(out, 1, of, &rivals, 1)))),
        ("no", with(Scene::Voting, written(|out| Fast::write_vote(out, 1, of, &none, 0)))),
        ("done", with(Scene::Committed, written(|out| Fast::write_done(out, 1, of)))),
        ("yield", with(Scene::Open, written(|out| Fast::write_yield(out, Transaction { owner: 1, serial: 1, stamp: 1 }, OWNER, 2)))),
        ("late copy", with(Scene::Idle, written(|out| Fast::write_copy(out, 1, of, found)))),
    ]
}

/// Deliveries at a station with one message waiting.
pub fn deliveries() -> Vec<(&'static str, Stage)> {
    let name = |name| match name {
        "fetch" => Some("deliver a fetch"),
        "ask voted yes" => Some("deliver an ask voted yes"),
        "ask voted no" => Some("deliver an ask voted no"),
        "commit" => Some("deliver a commit"),
        "abort" => Some("deliver an abort"),
        "copy" => Some("deliver a copy"),
        "yes" => Some("deliver a yes"),
        "no" => Some("deliver a no"),
        "done" => Some("deliver a done"),
        "yield" => Some("deliver a yield"),
        _ => None,
    };
    let mut list = Vec::new();
    for (kind, mut stage) in replica().into_iter().chain(coordinator()) {
        if let Some(name) = name(kind) {
            stage.station.pool.fill(0);
            stage.station.put(&stage.message.clone());
            list.push((name, stage));
        }
    }
    list
}

/// The same, but the message is kept.
pub fn kept_deliveries() -> Vec<(&'static str, Stage)> {
    let name = |name| match name {
        "deliver a fetch" => Some("deliver a fetch, kept"),
        "deliver a copy" => Some("deliver a copy, kept"),
        _ => None,
    };
    deliveries().into_iter().filter_map(|(kind, stage)| name(kind).map(|name| (name, stage))).collect()
}

/// A station at rest with so many messages waiting, of all kinds in turn, and a number of objects to open.
pub fn with_waiting(objects: u8, count: usize) -> Stage {
    let mut it = stage(Scene::Idle);
    it.objects = objects;
    let kinds = messages();
    for i in 0..count {
        it.station.put(&kinds[i % kinds.len()].1);
    }
    it
}

/// A station with so many messages waiting, of which the first is a fetch that its replica answers.
pub fn crowded(count: usize) -> Stage {
    crowd(count, 0)
}

/// The same, but the fetch is the last.
pub fn crowded_before(count: usize) -> Stage {
    crowd(count, count - 1)
}

fn crowd(count: usize, fetch_at: usize) -> Stage {
    let mut it = stage(Scene::Open);
    let fetch = due(&it.station, OWNER, 1);
    let kinds = messages();
    for i in 0..count {
        it.station.put(if i == fetch_at { &fetch } else { &kinds[i % kinds.len()].1 });
    }
    it
}
