//! A lone node that books batches against a store of its own, message by message: when the tenths move, what an abort leaves, and the ledger's law over
//! many batches and tables.

use super::tables::{classes_among, some_list, some_weights};
use super::{batch, same_call, same_load, same_waiting, with_table, PARTY};
use crate::ffi::coordinator as ffi;
use crate::model::classes::{self, encode_weights, Classes, Ledger, CLASSES};
use crate::model::coordinator::{receive_call, Brought, Call};
use crate::model::message::{self, Entry, Message, Rival, Transaction, NO, READ, WRITE, YES};
use crate::model::number;
use crate::model::quorum::{nodes, ALL, NODES};
use crate::model::record::{self, phase, Record, RECORD};
use crate::model::settings::{self, kind};
use crate::random::Random;
use crate::runner::{ensure, Verdict};
use std::collections::BTreeMap;

const ME: u8 = 3;

/// What becomes of a batch.
#[derive(Clone, Copy, Debug, PartialEq, Eq, PartialOrd, Ord)]
enum Fate {
    Committed,
    /// Given up by the host: before any copy came, when all are ready, while votes are asked for.
    AbortedAtOnce,
    AbortedReady,
    AbortedVoting,
    /// By a no, and by a yield while open and while votes are asked for.
    No,
    YieldedOpen,
    YieldedVoting,
}

const FATES: [Fate; 7] =
    [Fate::Committed, Fate::AbortedAtOnce, Fate::AbortedReady, Fate::AbortedVoting, Fate::No, Fate::YieldedOpen, Fate::YieldedVoting];

/// A node, and the objects' values and versions as if all nodes kept them alike.
struct Node {
    record: Vec<u8>,
    settings: Vec<u8>,
    held: BTreeMap<u8, (u32, i64)>,
    ledger: Ledger,
}

impl Node {
    fn new(settings: Vec<u8>) -> Node {
        Node { record: vec![0; RECORD], settings, held: BTreeMap::new(), ledger: Ledger::default() }
    }

    fn known(&self) -> Result<Record, String> {
        record::load(&self.record).map_err(|number| format!("the record is {number}"))
    }

    fn own(&self) -> Result<Transaction, String> {
        let record = self.known()?;
        Ok(Transaction { owner: ME, serial: record.serial, stamp: record.timestamp })
    }

    fn call(&mut self, call: &Call) -> Result<(u8, i64), String> {
        same_call(&mut self.record, &mut self.settings, ME, call)
    }

    /// A message, taken by the library and by the model alike; what it brought about.
    fn take(&mut self, message: &Message) -> Result<i64, String> {
        let sent = message::encode(message);
        let expected = receive_call(&self.record, ME, &sent).map_err(|number| format!("{message:?} is {number}"))?;
        let got = ffi::receive(&mut self.record, ME, &sent);
        ensure!(got == (0, expected.answer) && self.record == expected.record, "{message:?}: {got:?}, and the model {expected:?}");
        Ok(got.1)
    }

    /// The tenths that wait, by the library, class by class.
    fn waiting(&self) -> Result<[u8; CLASSES], String> {
        same_waiting(&self.record, &self.settings)?;
        let known = settings::load(&self.settings).map_err(|number| format!("the settings are {number}"))?;
        Ok(known.waiting(&self.known()?))
    }

    /// Copies of every object that is open, from node 0, which is a read quorum.
    fn fetch(&mut self) -> Result<(), String> {
        let own = self.own()?;
        for opened in self.known()?.objects() {
            let (version, value) = self.held.get(&opened.object).copied().unwrap_or((0, 0));
            let entry = Entry { object: opened.object, mode: opened.mode, version, value };
            ensure!(self.take(&message::copy(0, own, entry))? == Brought::Ready as i64, "a copy of node 0 is not enough");
        }
        Ok(())
    }

    fn dones(&mut self) -> Result<(), String> {
        let (own, record) = (self.own()?, self.known()?);
        for node in nodes(record.awaited()) {
            self.take(&message::done(node as u8, own))?;
        }
        ensure!(self.known()?.phase == phase::IDLE, "it does not end");
        Ok(())
    }

    /// A batch from its begin to its last done. The tenths stand as they were until the last yes of a commit, and as they must from then on.
    fn book(&mut self, table: &Classes, weights: &[u16], fate: Fate) -> Result<(), String> {
        let before = self.waiting()?;
        let (timestamp, list) = (self.known()?.timestamp + 1, encode_weights(weights));
        ensure!(self.call(&batch(timestamp, list))? == (number::OK, 1), "the batch does not begin");
        let grams: Vec<i64> = self.known()?.objects().iter().map(|opened| opened.new).collect();
        let yields = message::yields(Transaction { owner: 9, serial: 1, stamp: 1 }, Rival { owner: ME, serial: self.own()?.serial });
        let mut brought = None;
        if fate != Fate::AbortedAtOnce {
            self.fetch()?;
        }
        match fate {
            Fate::AbortedAtOnce | Fate::AbortedReady => ensure!(self.call(&Call::Abort)? == (0, 0), "it is not given up"),
            Fate::YieldedOpen => brought = Some(self.take(&yields)?),
            _ => {
                ensure!(self.waiting()? == before, "a tenth moved before votes were asked for");
                ensure!(self.call(&Call::RequestCommit)? == (number::OK, i64::from(PARTY)), "votes cannot be asked for");
                ensure!(self.waiting()? == before, "a tenth moved when votes were asked for");
                match fate {
                    Fate::AbortedVoting => ensure!(self.call(&Call::Abort)? == (0, 0), "it is not given up"),
                    Fate::YieldedVoting => brought = Some(self.take(&yields)?),
                    _ => brought = Some(self.votes(before, fate == Fate::No)?),
                }
            }
        }
        let expected = if fate == Fate::Committed { Brought::Committed } else { Brought::Aborted };
        ensure!(brought.is_none_or(|brought| brought == expected as i64), "{fate:?}: {brought:?}");
        if fate == Fate::Committed {
            self.commit(table, weights, &grams)?;
        } else {
            ensure!(self.waiting()? == before, "{fate:?}: a tenth moved");
        }
        let decided = self.waiting()?;
        self.dones()?;
        ensure!(self.waiting()? == decided, "{fate:?}: a tenth moved after the decision");
        let astray = self.ledger.astray(decided);
        ensure!(astray.is_none(), "{fate:?}, class {astray:?}: {:?}, and {decided:?} wait", self.ledger);
        Ok(())
    }

    /// The participants vote; until the last of them nothing moves. What the last vote brought about.
    fn votes(&mut self, before: [u8; CLASSES], last_no: bool) -> Result<i64, String> {
        let own = self.own()?;
        let party: Vec<u8> = nodes(PARTY).map(|node| node as u8).collect();
        for &node in &party[..party.len() - 1] {
            ensure!(self.take(&message::vote(node, own, vec![], YES))? == 0, "node {node}'s yes decides");
            ensure!(self.waiting()? == before, "a tenth moved by node {node}'s yes");
        }
        self.take(&message::vote(party[party.len() - 1], own, vec![], if last_no { NO } else { YES }))
    }

    /// What a commit leaves: the commit's entries go to the store, and the ledger counts them.
    fn commit(&mut self, table: &Classes, weights: &[u16], grams: &[i64]) -> Result<(), String> {
        let mut out = [0; 128];
        let (number, length) = ffi::due(&self.record, ME, 0, 0, &mut out);
        let commit = message::receive(&out[..usize::from(length)]).map_err(|number| format!("the commit is {number}"))?;
        ensure!(number == number::OK && commit.entries.len() == table.objects.len(), "the commit is {commit:?}");
        for entry in &commit.entries {
            let (version, value) = self.held.get(&entry.object).copied().unwrap_or((0, 0));
            let class = table.objects.iter().position(|&object| object == entry.object).ok_or("an object of no class")?;
            ensure!(entry.version == version && entry.value == value + grams[class], "the commit writes {entry:?} over {value}");
            self.held.insert(entry.object, (version + 1, entry.value));
        }
        let mut booked = [0; CLASSES];
        booked.iter_mut().zip(grams).for_each(|(booked, &grams)| *booked = grams as u64);
        self.ledger.commit(table.weigh(weights), booked);
        Ok(())
    }
}

/// 3.7 g and 6.4 g in one class: 3 grams and 7 tenths, then 7 grams and 1 tenth; no tenth moves before the last yes, or after it.
pub fn at_the_decision() -> Verdict {
    let table = Classes { bounds: vec![], objects: vec![7] };
    let mut node = Node::new(with_table(&table));
    for (weight, value, waits) in [(37, 3, 7), (64, 10, 1), (9, 11, 0), (0, 11, 0), (9, 11, 9), (1, 12, 0)] {
        node.book(&table, &[weight], Fate::Committed)?;
        ensure!(node.held[&7].1 == value && node.waiting()?[0] == waits, "{weight}: {:?}, {:?} wait", node.held[&7], node.waiting()?);
    }
    Ok(String::from("six batches"))
}

/// Each way in which a batch is aborted: nothing is booked and no tenth moves, and the same weights are booked the next time.
pub fn aborted_and_again() -> Verdict {
    let table = Classes { bounds: vec![500, 600], objects: vec![9, 5, 60] };
    let mut node = Node::new(with_table(&table));
    let mut booked = 0;
    for fate in FATES {
        let weights = [37, 64, 500, 599, 600, 1999, 553];
        let held = node.held.clone();
        for _ in 0..2 {
            node.book(&table, &weights, fate)?;
            ensure!((node.held == held) == (fate != Fate::Committed), "{fate:?} has booked, or has not");
            if fate == Fate::Committed {
                break;
            }
        }
        if fate != Fate::Committed {
            node.book(&table, &weights, Fate::Committed)?;
        }
        booked += 1;
        let all: i64 = node.held.values().map(|(_, value)| value).sum();
        let tenths: i64 = node.waiting()?.iter().map(|&tenths| i64::from(tenths)).sum();
        let weighed: i64 = weights.iter().map(|&weight| i64::from(weight)).sum();
        ensure!(10 * all + tenths == booked * weighed, "{fate:?}: {all} grams and {tenths} tenths of {booked} batches");
    }
    Ok(format!("{} ways", FATES.len()))
}

/// On a batch the host's own open and value calls are 5, behind 4 and before 6 and 7; what is found, a fresh look and an abort are as ever. In every other
/// phase they are 5 as on any transaction, and on the next transaction of the host's own they work.
pub fn own_calls() -> Verdict {
    let table = Classes { bounds: vec![500], objects: vec![9, 5] };
    let mut node = Node::new(with_table(&table));
    ensure!(node.call(&batch(1, encode_weights(&[37, 640])))? == (0, 1), "the batch does not begin");
    let barred = |node: &mut Node| -> Result<(), String> {
        for object in [9, 5, 6, 63, 64, 127, 128, 255] {
            for call in [Call::Open { object, mode: READ }, Call::Open { object, mode: WRITE }, Call::SetValue { object, value: 1 }] {
                ensure!(node.call(&call)? == (number::OUT_OF_TURN, 0), "{call:?} is not barred");
                for stranger in [13, 255] {
                    let (mut record, mut settings) = (node.record.clone(), node.settings.clone());
                    let got = same_call(&mut record, &mut settings, stranger, &call)?;
                    ensure!(got == (number::STRANGER, 0), "{call:?} at no node: {got:?}");
                }
            }
        }
        Ok(())
    };
    barred(&mut node)?;
    ensure!(node.call(&Call::Found { object: 9 })? == (number::NOT_READY, 0), "what is found is barred");
    node.held.insert(9, (4, -70));
    node.fetch()?;
    ensure!(node.call(&Call::Found { object: 9 })? == (number::OK, -70), "what is found is another");
    let again = Call::Reselect { live: ALL - 1, distances: [1, 0].repeat(NODES) };
    ensure!(node.call(&again)? == (number::OK, 10), "a fresh look is barred");
    ensure!(node.call(&Call::Reselect { live: ALL, distances: [1, 0].repeat(NODES) })? == (number::OK, 1), "a fresh look is barred");
    barred(&mut node)?;
    ensure!(node.call(&Call::RequestCommit)? == (number::OK, i64::from(PARTY)), "votes cannot be asked for");
    barred(&mut node)?;
    ensure!(node.call(&Call::Abort)? == (number::OK, 0), "an abort is barred");
    barred(&mut node)?;
    node.dones()?;
    barred(&mut node)?;
    ensure!(settings::load(&node.settings).is_ok_and(|known| known.kind == kind::BATCH), "the kind changed");
    let begin = Call::Begin { live: ALL, distances: [1, 0].repeat(NODES), timestamp: 2, day: 0, minute: 0 };
    ensure!(node.call(&begin)? == (number::OK, 1), "the host's own does not begin");
    ensure!(node.call(&Call::Open { object: 9, mode: WRITE })? == (number::OK, 0), "an open is still barred");
    ensure!(node.call(&Call::SetValue { object: 9, value: 1 })? == (number::OK, 0), "a value is still barred");
    ensure!(node.call(&Call::Abort)? == (number::OK, 0), "it is not given up");
    Ok(String::from("six objects in each phase"))
}

/// Many batches at one node, committed and aborted, with the host's own transactions between and tables loaded anew, also while tenths wait: the law holds
/// after each, and the values held are what the batches added.
pub fn one_after_another(random: &mut Random, rounds: usize) -> Verdict {
    let mut fates: BTreeMap<Fate, usize> = BTreeMap::new();
    let (mut anew, mut refused, mut weighed) = (0, 0, 0);
    for _ in 0..60 * rounds {
        let mut table = classes_among(random, 8, 20);
        let mut node = Node::new(with_table(&table));
        for _ in 0..40 {
            match random.below(12) {
                0 => {
                    let waits = node.waiting()?;
                    table = classes_among(random, 8, 20);
                    let (number, after) = same_load(&node.record, &node.settings, ME, &classes::encode(&table))?;
                    ensure!(number == number::OK, "{table:?} is refused");
                    (node.settings, node.ledger) = (after, Ledger::default());
                    ensure!(node.waiting()? == [0; CLASSES], "a tenth waits behind a load");
                    anew += usize::from(waits != [0; CLASSES]);
                }
                1 => {
                    let (waits, list) = (node.waiting()?, some_list(random, 1));
                    let (number, after) = same_load(&node.record, &node.settings, ME, &list)?;
                    ensure!(number != number::OK && after == node.settings, "{list:?} is taken");
                    refused += usize::from(waits != [0; CLASSES]);
                }
                2 => own_transaction(random, &mut node)?,
                _ => {
                    let count = *random.pick(&[0, 1, 1, 2, 5, 30, 200]);
                    let weights = some_weights(random, Some(&table), count);
                    let fate = *random.pick(&[&FATES[..], &[Fate::Committed; 6]].concat());
                    node.book(&table, &weights, fate)?;
                    weighed += weights.len();
                    *fates.entry(fate).or_insert(0) += 1;
                }
            }
        }
    }
    let least = FATES.iter().map(|fate| fates.get(fate).copied().unwrap_or(0)).min().unwrap_or(0);
    let counted = format!("{weighed} weights, {fates:?}; {anew} tables over tenths, {refused} refused there");
    ensure!(least > 50 * rounds && anew > 20 * rounds && refused > 20 * rounds, "too poor: {counted}");
    Ok(counted)
}

/// A transaction of the host's own, committed or given up: no tenth moves.
fn own_transaction(random: &mut Random, node: &mut Node) -> Result<(), String> {
    let before = node.waiting()?;
    let timestamp = node.known()?.timestamp + 1;
    let begin = Call::Begin { live: ALL, distances: [1, 0].repeat(NODES), timestamp, day: 0, minute: 0 };
    ensure!(node.call(&begin)? == (number::OK, 1), "the host's own does not begin");
    ensure!(node.waiting()? == before, "a tenth moved by the host's own begin");
    let (object, value) = (random.below(20) as u8, random.below(1000) as i64);
    ensure!(node.call(&Call::Open { object, mode: WRITE })? == (0, 0), "an open is refused");
    ensure!(node.call(&Call::SetValue { object, value })? == (0, 0), "a value is refused");
    node.fetch()?;
    if random.once_in(3) {
        ensure!(node.call(&Call::Abort)? == (0, 0), "it is not given up");
    } else {
        ensure!(node.call(&Call::RequestCommit)? == (number::OK, i64::from(PARTY)), "votes cannot be asked for");
        ensure!(node.votes(before, false)? == Brought::Committed as i64, "it is not committed");
        let version = node.held.get(&object).map_or(0, |&(version, _)| version);
        node.held.insert(object, (version + 1, value));
    }
    node.dones()?;
    ensure!(node.waiting()? == before, "a tenth moved by the host's own transaction");
    Ok(())
}
