//! Document 02's turn rule at a begin: timestamps that meet a record, and which case of the rule a begin is.

use crate::model::number;
use crate::model::record::{decided, Record};
use crate::random::Random;

/// The cases of the rule.
#[derive(Clone, Copy, Debug, PartialEq, Eq, PartialOrd, Ord)]
pub enum Turn {
    /// After an abort: the last timestamp and one above it are taken; one below it and 0 are refused.
    KeptAfterAbort,
    RaisedAfterAbort,
    BelowAfterAbort,
    ZeroAfterAbort,
    /// After a commit: one above the last is taken; the last itself, one below it and 0 are refused.
    RaisedAfterCommit,
    LastAfterCommit,
    BelowAfterCommit,
    ZeroAfterCommit,
    /// Before the first transaction: any but 0 is taken, and 0 is refused.
    First,
    ZeroAtFirst,
}

impl Turn {
    pub const ALL: [Turn; 10] = [
        Turn::KeptAfterAbort,
        Turn::RaisedAfterAbort,
        Turn::BelowAfterAbort,
        Turn::ZeroAfterAbort,
        Turn::RaisedAfterCommit,
        Turn::LastAfterCommit,
        Turn::BelowAfterCommit,
        Turn::ZeroAfterCommit,
        Turn::First,
        Turn::ZeroAtFirst,
    ];

    /// The number that the case has, where nothing else is wrong.
    pub fn number(self) -> u8 {
        match self {
            Turn::KeptAfterAbort | Turn::RaisedAfterAbort | Turn::RaisedAfterCommit | Turn::First => number::OK,
            _ => number::OUT_OF_TURN,
        }
    }

    /// The case of a timestamp at an idle record; none where it is further below the last than one, or where the record comes from no run.
    pub fn of(record: &Record, timestamp: u32) -> Option<Turn> {
        let last = record.timestamp;
        let case = match (record.outcome, timestamp) {
            (decided::ABORTED, 0) => Turn::ZeroAfterAbort,
            (decided::ABORTED, _) if timestamp == last => Turn::KeptAfterAbort,
            (decided::ABORTED, _) if timestamp > last => Turn::RaisedAfterAbort,
            (decided::ABORTED, _) if timestamp == last - 1 => Turn::BelowAfterAbort,
            (decided::COMMITTED, 0) => Turn::ZeroAfterCommit,
            (decided::COMMITTED, _) if timestamp == last => Turn::LastAfterCommit,
            (decided::COMMITTED, _) if timestamp > last => Turn::RaisedAfterCommit,
            (decided::COMMITTED, _) if timestamp == last - 1 => Turn::BelowAfterCommit,
            (decided::NONE, 0) if last == 0 => Turn::ZeroAtFirst,
            (decided::NONE, _) if last == 0 => Turn::First,
            _ => return None,
        };
        Some(case)
    }
}

/// A timestamp for a begin at a record: later than the last most often, but also the last, after an abort every second time, one below it, or 0.
pub fn some_timestamp(random: &mut Random, record: &Record) -> u32 {
    let last = record.timestamp;
    let aborted = record.outcome == decided::ABORTED;
    match random.below(24) {
        0 => 0,
        1 => last.saturating_sub(1),
        2 | 3 => last,
        4..=13 if aborted => last,
        14 => last.saturating_add(1),
        _ => last.saturating_add(1 + random.below(4) as u32),
    }
}
