//! The turn rule at a station: begins with the last timestamp, by what aborted the transaction before them, and the other cases of the rule.

use crate::checks::turns::Turn;
use crate::model::coordinator::{Brought, Call};
use crate::model::message::kind;
use crate::model::number;
use crate::model::record::phase;
use crate::model::station::{Event, Station, Step};
use std::collections::BTreeMap;

/// What aborted a transaction.
#[derive(Clone, Copy, Debug, PartialEq, Eq, PartialOrd, Ord)]
pub enum Cause {
    No,
    Yield,
    /// The host gave it up: open, with nodes contacted; open, with nobody contacted, so that it ended at once; while votes were asked for.
    GivenUp,
    GivenUpAtOnce,
    GivenUpVoting,
    /// It was a batch, given up because a value would be past the range.
    PastTheRange,
}

impl Cause {
    const ALL: [Cause; 6] = [Cause::No, Cause::Yield, Cause::GivenUp, Cause::GivenUpAtOnce, Cause::GivenUpVoting, Cause::PastTheRange];

    /// What aborted the transaction of which node, if this event did.
    fn of(before: &Station, event: &Event) -> Option<(u8, Cause)> {
        let told = event.told.as_ref().ok()?;
        match event.step {
            Step::Host { node, .. } if told.number == number::USED_UP => Some((node, Cause::PastTheRange)),
            Step::Host { node, call: Call::Abort } => {
                let record = &before.records[usize::from(node)];
                Some(match (record.contacted, record.phase) {
                    (0, _) => (node, Cause::GivenUpAtOnce),
                    (_, phase::OPEN) => (node, Cause::GivenUp),
                    _ => (node, Cause::GivenUpVoting),
                })
            }
            Step::Deliver { at, .. } if told.answer == Brought::Aborted as i64 => {
                let message = &before.pool[at];
                Some((message.to, if message.kind == kind::YIELD { Cause::Yield } else { Cause::No }))
            }
            _ => None,
        }
    }
}

/// What was met of the rule.
#[derive(Default)]
pub struct Turns {
    /// What aborted each node's last transaction, and how often it began again with the same timestamp since its last commit or its last new one.
    causes: BTreeMap<u8, Cause>,
    tries: BTreeMap<u8, usize>,
    /// Begins that kept the timestamp, by that cause; of these batches.
    kept: BTreeMap<Cause, usize>,
    batches: usize,
    /// Every case of the rule.
    met: BTreeMap<Turn, usize>,
    /// Commits of transactions that were sent back twice or more, with their first timestamp.
    through: usize,
}

impl Turns {
    /// A new scenario.
    pub fn start(&mut self) {
        self.causes.clear();
        self.tries.clear();
    }

    /// One step, with the station before it.
    pub fn count(&mut self, before: &Station, event: &Event) {
        if let Step::Host { node, call: ref call @ (Call::Begin { timestamp, .. } | Call::Batch { timestamp, .. }) } = event.step {
            let number = event.told.as_ref().map_or_else(|number| *number, |told| told.number);
            let is_batch = matches!(call, Call::Batch { .. });
            if usize::from(node) < before.records.len() && before.is_on(node) {
                self.count_begin(before, node, timestamp, number, is_batch);
            }
        }
        if let Some((node, cause)) = Cause::of(before, event) {
            self.causes.insert(node, cause);
        }
        if let (Step::Deliver { at, .. }, Ok(told)) = (&event.step, &event.told) {
            if told.answer == Brought::Committed as i64 {
                let tries = self.tries.remove(&before.pool[*at].to).unwrap_or(0);
                self.through += usize::from(tries >= 2);
            }
        }
    }

    fn count_begin(&mut self, before: &Station, node: u8, timestamp: u32, number: u8, is_batch: bool) {
        let record = &before.records[usize::from(node)];
        let Some(turn) = Turn::of(record, timestamp).filter(|turn| record.phase == phase::IDLE && turn.number() == number) else { return };
        *self.met.entry(turn).or_insert(0) += 1;
        if turn == Turn::KeptAfterAbort {
            if let Some(&cause) = self.causes.get(&node) {
                *self.kept.entry(cause).or_insert(0) += 1;
            }
            self.batches += usize::from(is_batch);
            *self.tries.entry(node).or_insert(0) += 1;
        } else if number == number::OK {
            self.tries.remove(&node);
        }
    }

    /// Whether a node's transaction was sent back before, and carries the timestamp of its first try.
    pub fn is_sent_back(&self, node: u8) -> bool {
        self.tries.contains_key(&node)
    }

    /// How often the timestamp was kept after each cause.
    fn by_cause(&self) -> impl Iterator<Item = (Cause, usize)> + '_ {
        Cause::ALL.into_iter().map(|cause| (cause, self.kept.get(&cause).copied().unwrap_or(0)))
    }

    /// Whether the scenarios met enough: each cause, each case, and stamps that were kept twice and got through.
    pub fn rich(&self, least: usize) -> bool {
        let cases = Turn::ALL.into_iter().map(|turn| self.met.get(&turn).copied().unwrap_or(0));
        let counts = self.by_cause().map(|(_, count)| count).chain(cases).chain([self.batches, self.through]);
        counts.into_iter().all(|count| count >= least)
    }

    pub fn words(&self) -> String {
        let kept: Vec<(Cause, usize)> = self.by_cause().collect();
        let Turns { met, batches, through, .. } = self;
        format!("the last timestamp kept by abort {kept:?}, {batches} times by a batch, {through} sent back twice and committed; {met:?}")
    }
}
