//! Short scenarios whose every number and message is written out here, from document 01's sentences.

use crate::model::coordinator::{Brought, Call};
use crate::model::image::Author;
use crate::model::message::{self, Entry, Message, Rival, Transaction, ABORT, COMMIT, LAST, NO, READ, WRITE, YES};
use crate::model::record::{decided, phase};
use crate::model::station::{blank, Station, Step, Told, POOL};
use crate::model::{number, Fault};
use crate::runner::{ensure, Verdict};

/// The nodes of the write quorum that nodes 4 and 5 choose when all are live and every distance is 1; both are in it.
const PARTY: [u8; 7] = [0, 1, 2, 4, 5, 7, 8];

fn take(station: &mut Station, step: Step) -> Result<Told, u8> {
    station.step(step, Fault::None).told
}

fn host(station: &mut Station, node: u8, call: Call) -> Result<i64, u8> {
    take(station, Step::Host { node, call }).map(|told| told.answer)
}

/// What a send puts into the pool.
fn send(station: &mut Station, node: u8, to: u8, object: u8) -> Result<Option<Message>, u8> {
    take(station, Step::Send { node, to, object }).map(|told| told.put)
}

/// Delivers the pool's last message; what it tells.
fn deliver(station: &mut Station) -> Result<Told, u8> {
    let at = station.pool.len() - 1;
    take(station, Step::Deliver { at, kept: false })
}

fn begin(station: &mut Station, node: u8, timestamp: u32) -> Result<i64, u8> {
    host(station, node, Call::Begin { live: 8191, distances: [1, 0].repeat(13), timestamp, day: 0, minute: 0 })
}

/// A node begins, opens an object, finds it at node 0, and asks for votes; the new value is given where it writes.
fn up_to_votes(station: &mut Station, node: u8, timestamp: u32, object: u8, new: Option<i64>) -> Result<i64, u8> {
    begin(station, node, timestamp)?;
    host(station, node, Call::Open { object, mode: if new.is_some() { WRITE } else { READ } })?;
    if let Some(value) = new {
        host(station, node, Call::SetValue { object, value })?;
    }
    fetch(station, node, object)?;
    host(station, node, Call::RequestCommit)
}

/// What is due to node 0 for an open object, there and back.
fn fetch(station: &mut Station, node: u8, object: u8) -> Result<(), u8> {
    send(station, node, 0, object)?;
    deliver(station)?;
    deliver(station)?;
    Ok(())
}

/// A send of what is due to a node, and its delivery there; what was answered.
fn there(station: &mut Station, node: u8, to: u8) -> Result<Option<Message>, u8> {
    send(station, node, to, 0)?;
    deliver(station).map(|told| told.put)
}

/// The delivery of an answer; what it brought about.
fn back(station: &mut Station) -> Result<i64, u8> {
    deliver(station).map(|told| told.answer)
}

/// A story's step that must not be refused.
fn taken<T>(told: Result<T, u8>) -> Result<T, String> {
    told.map_err(|number| format!("a step was refused with {number}"))
}

/// "Two equal stamps, owners 4 and 5, conflict: 4 is older." The younger is voted down where the older is listed; the older names it as a
/// rival, commits, and tells it to yield.
pub fn conflict() -> Verdict {
    let mut station = blank(8191);
    let it = &mut station;
    let four = Transaction { owner: 4, serial: 1, stamp: 9 };
    for node in [4, 5] {
        taken(begin(it, node, 9))?;
        taken(host(it, node, Call::Open { object: 7, mode: WRITE }))?;
        taken(host(it, node, Call::SetValue { object: 7, value: i64::from(node) }))?;
        taken(fetch(it, node, 7))?;
    }
    ensure!(host(it, 4, Call::RequestCommit) == Ok(439), "the party is another");
    let wrote = vec![Entry { object: 7, mode: WRITE, version: 0, value: 4 }];
    ensure!(send(it, 4, 0, 0) == Ok(Some(message::ask(0, four, wrote.clone()))), "another ask");
    let yes = message::vote(0, four, vec![Rival { owner: 5, serial: 1 }], YES);
    ensure!(taken(deliver(it))?.put == Some(yes), "node 0 does not say yes over the younger rival");
    ensure!(back(it) == Ok(Brought::Nothing as i64), "one yes of seven is enough");
    for node in PARTY.into_iter().skip(1) {
        ensure!(there(it, 4, node) == Ok(Some(message::vote(node, four, vec![], YES))), "node {node} does not say yes alone");
        let brought = if node == 8 { Brought::Committed } else { Brought::Nothing };
        ensure!(back(it) == Ok(brought as i64), "node {node}'s yes brings about another thing");
    }
    conflict_ends(it, wrote)?;
    younger_first(it)
}

/// The older has committed. Node 5 is in the party, so the outcome goes before the yield.
fn conflict_ends(it: &mut Station, wrote: Vec<Entry>) -> Result<(), String> {
    let (four, five) = (Transaction { owner: 4, serial: 1, stamp: 9 }, Transaction { owner: 5, serial: 1, stamp: 9 });
    ensure!(there(it, 4, 5) == Ok(Some(message::done(5, four))) && back(it) == Ok(0), "node 5 is not done");
    ensure!(send(it, 4, 5, 0) == Ok(Some(message::yields(four, Rival { owner: 5, serial: 1 }))), "no yield to node 5");
    ensure!(back(it) == Ok(Brought::Aborted as i64), "the yield does not abort the younger");
    ensure!(send(it, 5, 0, 0) == Ok(Some(message::outcome(0, five, vec![], ABORT))), "an abort is not due to node 0");
    ensure!(taken(deliver(it))?.put == Some(message::done(0, five)) && back(it) == Ok(Brought::Finished as i64), "node 5 does not finish");
    for node in [0, 1, 2, 4, 7, 8] {
        ensure!(send(it, 4, node, 0) == Ok(Some(message::outcome(node, four, wrote.clone(), COMMIT))), "no commit to node {node}");
        taken(deliver(it))?;
        let brought = if node == 8 { Brought::Finished } else { Brought::Nothing };
        ensure!(back(it) == Ok(brought as i64), "node {node}'s done brings about another thing");
    }
    let copies = it.images.iter().map(|image| (image.copies[7].version, image.copies[7].value, image.copies[7].author)).collect::<Vec<_>>();
    let (new, old) = ((1, 4, Author { owner: 4, serial: 1 }), (0, 0, Author { owner: 255, serial: 0 }));
    let expected: Vec<(u32, i64, Author)> = (0..13).map(|node| if PARTY.contains(&node) { new } else { old }).collect();
    ensure!(it.at_rest() && it.pool.is_empty() && copies == expected, "the copies are {copies:?}");
    Ok(())
}

/// The same again, with the younger asking first: node 0 says no, as the older is listed there; the older then commits without a rival.
fn younger_first(it: &mut Station) -> Verdict {
    for node in [4, 5] {
        taken(begin(it, node, 20))?;
        taken(host(it, node, Call::Open { object: 7, mode: if node == 4 { READ } else { WRITE } }))?;
        taken(fetch(it, node, 7))?;
        ensure!(host(it, node, Call::Found { object: 7 }) == Ok(4), "another value is found");
    }
    taken(host(it, 5, Call::SetValue { object: 7, value: 0 }))?;
    taken(host(it, 5, Call::RequestCommit))?;
    let five = Transaction { owner: 5, serial: 2, stamp: 20 };
    ensure!(there(it, 5, 0) == Ok(Some(message::vote(0, five, vec![], NO))), "a write over an older reader is not voted down");
    ensure!(back(it) == Ok(Brought::Aborted as i64) && it.records[5].outcome == decided::ABORTED, "a no does not abort");
    taken(host(it, 4, Call::RequestCommit))?;
    let four = Transaction { owner: 4, serial: 2, stamp: 20 };
    ensure!(there(it, 4, 0) == Ok(Some(message::vote(0, four, vec![], YES))), "node 0 names a rival that left all lists");
    Ok(String::from("4 before 5, both ways"))
}

/// "A send, or a kept delivery that has an answer, with 128 messages waiting" is 12.
pub fn full_pool() -> Verdict {
    let mut station = blank(8191);
    let it = &mut station;
    taken(begin(it, 3, 1))?;
    taken(host(it, 3, Call::Open { object: 0, mode: READ }))?;
    for _ in 0..POOL {
        taken(send(it, 3, 0, 0))?;
    }
    let full = it.clone();
    for to in [0, 1] {
        ensure!(send(it, 3, to, 0) == Err(number::POOL_FULL) && *it == full, "a send to {to} at 128");
    }
    ensure!(send(it, 3, 0, 1) == Err(number::NO_SUCH_OBJECT), "6 comes before 12");
    ensure!(take(it, Step::Deliver { at: 5, kept: true }) == Err(number::POOL_FULL) && *it == full, "a kept delivery at 128");
    ensure!(take(it, Step::Deliver { at: POOL, kept: true }) == Err(number::OUT_OF_TURN), "a delivery of no message");
    ensure!(take(it, Step::Drop { at: POOL }) == Err(number::OUT_OF_TURN), "a drop of no message");
    let told = taken(take(it, Step::Deliver { at: 5, kept: false }))?;
    ensure!(it.pool.len() == POOL && it.pool.last() == told.put.as_ref(), "the answer is not at the pool's end");
    ensure!(
        take(it, Step::Deliver { at: POOL - 1, kept: true }).map(|told| told.answer) == Ok(Brought::Ready as i64),
        "a kept copy does not fit"
    );
    taken(take(it, Step::Drop { at: 0 }))?;
    ensure!(send(it, 3, 0, 0) == Ok(None) && it.pool.len() == POOL - 1, "a fetch is due for an object that is ready");
    Ok(String::from("128 messages"))
}

/// 9: "last serial at begin, or a written version when votes are asked for, at 4,294,967,295". A read of that version is asked for.
pub fn last_numbers() -> Verdict {
    let mut station = blank(8191);
    let it = &mut station;
    (it.records[2].serial, it.records[2].timestamp) = (LAST, 1);
    ensure!(begin(it, 2, 1) == Err(number::OUT_OF_TURN), "5 comes before 9");
    ensure!(begin(it, 2, 2) == Err(number::USED_UP), "a begin after the last serial");
    (it.records[1].serial, it.records[1].timestamp) = (LAST - 1, LAST - 1);
    it.images.iter_mut().for_each(|image| image.copies[0].version = LAST);
    ensure!(up_to_votes(it, 1, LAST, 0, Some(1)) == Err(number::USED_UP), "a write after the last version");
    ensure!(it.records[1].phase == phase::OPEN && it.records[1].serial == LAST, "a refused request changed the phase");
    ensure!(up_to_votes(it, 6, 1, 0, None) == Ok(471), "a read of the last version, by nodes 0, 1, 2, 4, 7, 8 and the asker 6");
    ensure!(begin(it, 1, LAST) == Err(number::BUSY), "10 comes before 5 at begin");
    let live = Call::Begin { live: 8190, distances: [1, 0].repeat(13), timestamp: 3, day: 0, minute: 0 };
    ensure!(host(it, 12, live) == Ok(6), "live 8190 has the read quorum 6, for a set with node 12 is farther");
    taken(host(it, 12, Call::Open { object: 1, mode: READ }))?;
    for to in [1, 2] {
        taken(send(it, 12, to, 1))?;
        taken(deliver(it))?;
        taken(deliver(it))?;
    }
    ensure!(host(it, 12, Call::RequestCommit) == Err(number::NO_QUORUM), "live 8190 has no write quorum");
    Ok(String::from("serial and version"))
}

/// "A message delivered to a controller that is off does nothing there; a host call or send at one is 5. .. A repeated switch changes nothing."
pub fn off_and_on() -> Verdict {
    let mut station = blank(8191);
    let it = &mut station;
    taken(begin(it, 3, 1))?;
    taken(host(it, 3, Call::Open { object: 9, mode: WRITE }))?;
    taken(send(it, 3, 0, 9))?;
    for _ in 0..2 {
        taken(take(it, Step::Switch { node: 0, on: false }))?;
        ensure!(it.on == 8190, "node 0 is not off");
    }
    let before = it.clone();
    ensure!(take(it, Step::Deliver { at: 0, kept: true }) == Ok(Told::default()) && *it == before, "a kept message at a node that is off");
    ensure!(deliver(it) == Ok(Told::default()) && it.pool.is_empty(), "a message at a node that is off stays");
    ensure!(it.images == before.images && it.records == before.records, "a node that is off did something");
    taken(take(it, Step::Switch { node: 3, on: false }))?;
    ensure!(begin(it, 3, 9) == Err(number::BUSY), "10 comes before 5, off or on");
    ensure!(begin(it, 0, 9) == Err(number::OUT_OF_TURN), "a begin at a node that is off");
    ensure!(host(it, 3, Call::Found { object: 70 }) == Err(number::OUT_OF_TURN), "5 comes before 6");
    ensure!(send(it, 3, 1, 9) == Err(number::OUT_OF_TURN), "a send at a node that is off");
    ensure!(send(it, 3, 13, 9) == Err(number::STRANGER) && send(it, 13, 3, 9) == Err(number::STRANGER), "4 comes before 5");
    ensure!(begin(it, 13, 9) == Err(number::STRANGER), "a begin at no node");
    ensure!(take(it, Step::Switch { node: 13, on: true }) == Err(number::STRANGER), "no node is switched");
    taken(take(it, Step::Switch { node: 3, on: true }))?;
    let again = Call::Reselect { live: 8190, distances: [1, 0].repeat(13) };
    ensure!(
        host(it, 3, again) == Ok(10) && it.records[3].contacted == 11,
        "a fresh look does not join the contacted nodes, node 3 itself and hall 1"
    );
    ensure!(host(it, 3, Call::Found { object: 9 }) == Err(number::NOT_READY), "nothing came");
    for (to, brought) in [(3, Brought::Nothing), (1, Brought::Ready)] {
        taken(send(it, 3, to, 9))?;
        taken(deliver(it))?;
        ensure!(back(it) == Ok(brought as i64), "the copy of node {to} brings about another thing");
    }
    ensure!(host(it, 3, Call::Found { object: 9 }) == Ok(0), "the blank value is not found");
    Ok(String::from("nodes 0 and 3"))
}
