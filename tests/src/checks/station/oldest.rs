//! Document 02's "The oldest gets through" on the compiled station: wherever votes are asked for a transaction that nothing stands against, it is carried
//! through on a copy of the station, its messages in any order and other steps between them, and the deliveries are counted.

use super::compiled::Compiled;
use super::scenario::{next_step, Style};
use super::Run;
use crate::model::coordinator::{due, Brought, Call};
use crate::model::image::{state, NOBODY};
use crate::model::message::{kind, Message, YES};
use crate::model::quorum::{inside, nodes, only, NODES};
use crate::model::record::{decided, phase, Record};
use crate::model::settings::kind as kinds;
use crate::model::station::{for_replica, Event, Station, Step, POOL};
use crate::model::Fault;
use crate::random::Random;
use crate::runner::ensure;

/// "It is older than every booking listed at its party, nobody holds its tallies there, no copy there is newer than its own, all, its own controller
/// too, are up", of the transaction of a node for which votes were just asked.
fn unopposed(station: &Station, owner: u8) -> bool {
    let record = &station.records[usize::from(owner)];
    let younger = |other: usize, stamp: u32| (record.timestamp, usize::from(owner)) < (stamp, other);
    station.is_on(owner)
        && nodes(record.participants).all(|node| {
            let image = &station.images[node];
            let others = image.owners.iter().enumerate().filter(|&(other, _)| other != usize::from(owner));
            let oldest = others.filter(|(_, it)| it.state == state::LISTED).all(|(other, it)| younger(other, it.stamp));
            let copy = |object: u8| image.copies[usize::from(object)];
            let free = record.objects().iter().all(|opened| copy(opened.object).holder == NOBODY);
            let current = record.objects().iter().all(|opened| copy(opened.object).version <= opened.version);
            station.is_on(node as u8) && oldest && free && current
        })
}

/// A transaction whose votes were asked for, on a station of its own.
struct Waits {
    model: Station,
    library: Compiled,
    owner: u8,
    serial: u32,
    participants: u16,
    /// The participants whose ask and whose outcome were sent.
    asked: u16,
    told: u16,
    /// Its asks, votes, outcomes and dones that were delivered, by participant.
    delivered: [u16; 4],
    /// How many, and how many other steps were accepted between them.
    count: usize,
    others: usize,
}

impl Waits {
    fn new(model: &Station, library: &Compiled, owner: u8) -> Waits {
        let record = &model.records[usize::from(owner)];
        let (serial, participants) = (record.serial, record.participants);
        let (model, library) = (model.clone(), library.clone());
        Waits { model, library, owner, serial, participants, asked: 0, told: 0, delivered: [0; 4], count: 0, others: 0 }
    }

    /// Its record, as the library's bytes say it.
    fn record(&self) -> &Record {
        &self.library.shown().records[usize::from(self.owner)]
    }

    fn is_own(&self, message: &Message) -> bool {
        message.transaction.owner == self.owner && message.transaction.serial == self.serial
    }

    /// Whether it is one of those that are counted: its asks, votes, outcomes and dones.
    fn is_turn(&self, message: &Message) -> bool {
        self.is_own(message) && (kind::ASK..=kind::DONE).contains(&message.kind)
    }

    fn is_near(&self, node: u8) -> bool {
        node == self.owner || (usize::from(node) < NODES && inside(only(usize::from(node)), self.participants))
    }

    /// Whether a step that is not one of its own leaves it alone: its host does not give up, all that take part stay up, "no message but its own reaches
    /// the party or its controller". Its counted messages are sent and delivered once, by `own_step` alone; its late fetches, copies and yields may come.
    fn spares(&self, step: &Step) -> bool {
        match *step {
            Step::Host { node, ref call } => node != self.owner || *call != Call::Abort,
            Step::Switch { node, on } => on || !self.is_near(node),
            Step::Send { node, to, .. } if node == self.owner && usize::from(to) < NODES => {
                due(&self.model.records[usize::from(node)], node, to, 0).is_none_or(|message| message.kind == kind::YIELD)
            }
            Step::Deliver { at, .. } => {
                let message = self.model.pool.get(at);
                message.is_none_or(|message| !self.is_turn(message) && (!self.is_near(message.to) || self.is_own(message)))
            }
            Step::Drop { at } => self.model.pool.get(at).is_none_or(|message| !self.is_turn(message)),
            _ => true,
        }
    }

    /// One step by both stations; the library's event.
    fn take(&mut self, step: Step) -> Result<Event, String> {
        let event = self.model.step(step, Fault::None);
        self.library.follow(event, &self.model)
    }

    /// One of its own steps, at random: an ask, or once it is committed an outcome, is sent to a participant that was not sent one; or one of its messages
    /// that wait is delivered. None where the pool has no room.
    fn own_step(&self, random: &mut Random) -> Option<Step> {
        let committed = self.record().phase == phase::FINISHING;
        let missing: Vec<usize> = nodes(self.participants & !if committed { self.told } else { self.asked }).collect();
        let places: Vec<usize> = (0..self.model.pool.len()).filter(|&at| self.is_turn(&self.model.pool[at])).collect();
        if !missing.is_empty() && (places.is_empty() || random.once_in(2)) {
            let send = Step::Send { node: self.owner, to: *random.pick(&missing) as u8, object: 0 };
            return Some(send).filter(|_| self.model.pool.len() < POOL);
        }
        Some(Step::Deliver { at: *random.pick(&places), kept: false })
    }

    /// A step of the others that spares it, if one is found: any that a scenario may take; with a full pool, a message that is lost.
    fn other_step(&self, random: &mut Random, style: &Style) -> Option<Step> {
        if self.model.pool.len() == POOL {
            let at = random.below(POOL);
            return Some(Step::Drop { at }).filter(|step| self.spares(step));
        }
        // Room for its own next message is left.
        let fills = |step: &Step| matches!(step, Step::Send { .. } | Step::Deliver { kept: true, .. }) && self.model.pool.len() + 2 > POOL;
        let mut tries = (0..4).map(|_| next_step(random, &self.model, style));
        tries.find(|step| self.spares(step) && !fills(step))
    }

    /// One of its messages was delivered: it is counted, and what the delivery told is checked. "With p members it is committed after 2 × p deliveries and
    /// finished after 4 × p, each ask, vote, outcome and done delivered once."
    fn arrived(&mut self, message: &Message, answer: i64) -> Result<(), String> {
        let at = usize::from(message.kind - kind::ASK);
        let member = if for_replica(message) { message.to } else { message.from };
        let bit = only(usize::from(member));
        ensure!(self.delivered[at] & bit == 0 && inside(bit, self.participants), "{message:?} was delivered again");
        ensure!(message.kind != kind::VOTE || message.words == [YES], "a no: {message:?}");
        self.delivered[at] |= bit;
        self.count += 1;
        let party = self.participants.count_ones() as usize;
        let expected = match self.count {
            count if count == 2 * party => Brought::Committed,
            count if count == 4 * party => Brought::Finished,
            _ => Brought::Nothing,
        };
        ensure!(answer == expected as i64, "{message:?}, the {}th of {party} participants, brought {answer}", self.count);
        let [asks, votes, outcomes, dones] = self.delivered.map(|mask| mask == self.participants);
        let committed = asks && votes;
        ensure!(committed == (self.count >= 2 * party), "{} deliveries, but {:?}", self.count, self.delivered);
        ensure!((outcomes && dones) == (self.count == 4 * party), "{} deliveries, but {:?}", self.count, self.delivered);
        let (phase, outcome) = (self.record().phase, self.record().outcome);
        let expected = match (committed, outcomes && dones) {
            (false, _) => phase::VOTING,
            (true, false) => phase::FINISHING,
            (true, true) => phase::IDLE,
        };
        ensure!(phase == expected && (!committed || outcome == decided::COMMITTED), "after {} deliveries the phase is {phase}", self.count);
        Ok(())
    }

    /// On to its last done; whether it was committed. Of one that is opposed nothing is claimed: it ends where it is aborted.
    fn carry(&mut self, random: &mut Random, style: &Style, unopposed: bool) -> Result<bool, String> {
        let party = self.participants.count_ones() as usize;
        while self.count < 4 * party {
            let own = if random.once_in(4) { None } else { self.own_step(random) };
            let is_own = own.is_some();
            let Some(step) = own.or_else(|| self.other_step(random, style)) else { continue };
            let message = match step {
                Step::Deliver { at, .. } => self.model.pool.get(at).cloned(),
                Step::Send { to, .. } if is_own => {
                    let sent = if self.record().phase == phase::FINISHING { &mut self.told } else { &mut self.asked };
                    *sent |= only(usize::from(to));
                    None
                }
                _ => None,
            };
            let event = self.take(step)?;
            let Ok(told) = event.told else {
                ensure!(!is_own, "{:?} was refused", event.step);
                continue;
            };
            self.others += usize::from(!is_own);
            if !unopposed && self.record().outcome == decided::ABORTED && self.record().phase != phase::VOTING {
                return Ok(false);
            }
            if let Some(message) = message.filter(|message| self.is_turn(message)) {
                self.arrived(&message, told.answer)?;
            }
        }
        Ok(true)
    }
}

/// What was met.
#[derive(Default)]
pub struct Oldest {
    /// Transactions that nothing stood against, each carried through; of these batches, those with others listed at their participants, those that were
    /// sent back before and kept their timestamp, and those whose owner takes no part.
    through: usize,
    batches: usize,
    before_others: usize,
    sent_back: usize,
    apart: usize,
    /// Deliveries that were counted, and other steps between them.
    deliveries: usize,
    others: usize,
    /// Of those that something stood against, carried on in the same way: committed all the same, and voted down.
    lucky: usize,
    refused: usize,
}

impl Oldest {
    fn add(&mut self, station: &Station, waits: &Waits, sent_back: bool) {
        let owner = usize::from(waits.owner);
        let listed = |node: usize| (0..NODES).any(|other| other != owner && station.images[node].owners[other].state == state::LISTED);
        self.through += 1;
        self.batches += usize::from(station.settings[owner].kind == kinds::BATCH);
        self.before_others += usize::from(nodes(waits.participants).any(listed));
        self.sent_back += usize::from(sent_back);
        self.apart += usize::from(!inside(only(owner), waits.participants));
        self.deliveries += waits.count;
        self.others += waits.others;
    }

    /// Whether the scenarios met enough.
    pub fn rich(&self, rounds: usize) -> bool {
        let floors = [
            (self.through, 1000),
            (self.batches, 100),
            (self.before_others, 200),
            (self.sent_back, 100),
            (self.apart, 100),
            (self.others, 4000),
            (self.refused, 40),
        ];
        floors.iter().all(|&(count, floor)| count >= floor * rounds)
    }

    pub fn words(&self) -> String {
        let Oldest { through, batches, before_others, sent_back, apart, deliveries, others, lucky, refused } = self;
        format!(
            "{through} unopposed carried through in {deliveries} deliveries with {others} other steps between, {batches} of them batches, \
             {before_others} before others that were listed, {sent_back} sent back before, {apart} without their owner; of those opposed {refused} voted \
             down, {lucky} committed"
        )
    }
}

/// Whether all that take part in a transaction are up.
fn all_up(station: &Station, owner: u8) -> bool {
    inside(station.records[usize::from(owner)].participants | only(usize::from(owner)), station.on)
}

/// A scenario that began with a blank station has just asked for the votes of a node's transaction, which is carried on on a copy; one that is opposed
/// now and then.
pub fn carry_copy(random: &mut Random, run: &mut Run, owner: u8, style: &Style) -> Result<(), String> {
    let (Some(library), Some(_)) = (&run.compiled, &run.history) else { return Ok(()) };
    let clear = unopposed(&run.station, owner);
    if !clear && !(all_up(&run.station, owner) && random.once_in(32)) {
        return Ok(());
    }
    let mut waits = Waits::new(&run.station, library, owner);
    let committed = waits.carry(random, style, clear)?;
    ensure!(committed || !clear, "node {owner}'s transaction was not committed");
    let sent_back = run.seen.turns.is_sent_back(owner);
    let met = &mut run.seen.oldest;
    match (clear, committed) {
        (true, _) => met.add(&run.station, &waits, sent_back),
        (false, true) => met.lucky += 1,
        (false, false) => met.refused += 1,
    }
    Ok(())
}
