//! A whole transaction at a station, from begin to idle, step by step as a host takes them.

use crate::library::{Library, ALL, DISTANCES};
use crate::station::{Station, Step};

/// The root is far and every other node near, so that the read quorum is nodes 1 and 2 and the write quorum has seven nodes.
pub const DISTANCES_USED: [u8; DISTANCES] = {
    let mut distances = [0; DISTANCES];
    let mut node = 0;
    while node < 13 {
        distances[2 * node] = if node == 0 { 9 } else { 1 };
        node += 1;
    }
    distances
};

/// The node whose transaction it is; the quorums it then gets.
pub const OWNER: u8 = 4;
pub const READ_QUORUM: u16 = 6;
pub const PARTICIPANTS: u16 = 439;

/// The nodes of a mask, ascending.
pub fn nodes(mask: u16) -> impl Iterator<Item = u8> {
    (0..13).filter(move |node| mask >> node & 1 == 1)
}

/// Delivers what waits behind the first so many messages, with the answers, until nothing does; the last answer.
pub fn deliver_all<L: Library>(station: &mut Station, before: u8) -> u64 {
    let mut answer = 0;
    while station.waiting() > usize::from(before) {
        answer = station.must::<L>(Step::Deliver { k: before, kept: 0 });
    }
    answer
}

/// Begins, and opens objects 0, 7, 14, .. to write, each with its new value.
pub fn open<L: Library>(station: &mut Station, objects: u8, timestamp: u32) {
    let quorum = station.must::<L>(Step::Begin { node: OWNER, live: ALL, distances: DISTANCES_USED, timestamp, day: 0, minute: 600 });
    assert_eq!(quorum, u64::from(READ_QUORUM), "the chosen read quorum");
    for object in (0..objects).map(|i| 7 * i) {
        station.must::<L>(Step::OpenWrite { node: OWNER, object });
        station.must::<L>(Step::SetValue { node: OWNER, object, value: 1000 + i64::from(object) });
    }
}

/// Sends the fetches of every object.
pub fn send_fetches<L: Library>(station: &mut Station, objects: u8) {
    for object in (0..objects).map(|i| 7 * i) {
        for to in nodes(READ_QUORUM) {
            station.must::<L>(Step::Send { node: OWNER, to, object });
        }
    }
}

/// Sends what is due to each participant.
pub fn send_to_participants<L: Library>(station: &mut Station) {
    for to in nodes(PARTICIPANTS) {
        station.must::<L>(Step::Send { node: OWNER, to, object: 0 });
    }
}

/// The whole of it. So many messages wait before and are left waiting. The last answer says that it is finished.
pub fn whole<L: Library>(station: &mut Station, objects: u8) -> u64 {
    let before = station.waiting() as u8;
    let record = station.record(usize::from(OWNER));
    let timestamp = u32::from_le_bytes([record[4], record[5], record[6], record[7]]) + 1;
    open::<L>(station, objects, timestamp);
    for object in (0..objects).map(|i| 7 * i) {
        for to in nodes(READ_QUORUM) {
            station.must::<L>(Step::Send { node: OWNER, to, object });
        }
        deliver_all::<L>(station, before);
        station.must::<L>(Step::Found { node: OWNER, object });
    }
    let participants = station.must::<L>(Step::RequestCommit { node: OWNER });
    assert_eq!(participants, u64::from(PARTICIPANTS), "the participants");
    for wanted in [1, 4] {
        send_to_participants::<L>(station);
        assert_eq!(deliver_all::<L>(station, before), wanted, "committed, then finished");
    }
    4
}
