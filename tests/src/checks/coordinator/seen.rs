//! One call by the library and by the model, compared byte by byte; and how often each case of the rules was met.

use crate::checks::turns::Turn;
use crate::ffi::coordinator as ffi;
use crate::model::coordinator::{due_call, host_call, in_turn, misfits, receive_call, Brought, Call, Done, HostLeft, Misfit};
use crate::model::message::{self, kind, Message, LONGEST, NO, WRITE, YES};
use crate::model::number;
use crate::model::quorum::{inside, only};
use crate::model::record::{self, decided, phase, Record};
use crate::model::settings::{self, Settings};
use crate::random::Random;
use crate::runner::ensure;
use std::collections::BTreeMap;

/// Bytes about the lent ones, which no call may touch.
const MARGIN: usize = 20;

/// What was called.
#[derive(Clone, Copy, Debug, PartialEq, Eq, PartialOrd, Ord)]
pub enum What {
    Begin,
    Batch,
    OpenRead,
    OpenWrite,
    SetValue,
    Found,
    Reselect,
    RequestCommit,
    Abort,
    Receive,
    Due,
}

/// Each call with the numbers that it can have.
const NUMBERS: [(What, &[u8]); 11] = [
    (What::Begin, &[0, 1, 2, 3, 4, 5, 8, 9, 10, 13]),
    (What::Batch, &[0, 1, 2, 3, 4, 5, 8, 9, 10, 13]),
    (What::OpenRead, &[0, 1, 2, 4, 5, 6, 7]),
    (What::OpenWrite, &[0, 1, 2, 4, 5, 6, 7]),
    (What::SetValue, &[0, 1, 2, 4, 5, 6]),
    (What::Found, &[0, 1, 2, 4, 5, 6, 11]),
    (What::Reselect, &[0, 1, 2, 4, 5, 8]),
    (What::RequestCommit, &[0, 1, 2, 4, 5, 8, 9, 11]),
    (What::Abort, &[0, 1, 2, 4, 5]),
    (What::Receive, &[0, 1, 2, 3, 4, 5]),
    (What::Due, &[0, 1, 2, 4, 6]),
];

/// The cases of the rules.
#[derive(Clone, Copy, Debug, PartialEq, Eq, PartialOrd, Ord)]
pub enum Case {
    Number(What, u8),
    /// What a message of a kind brought about.
    Brings(u8, Brought),
    /// A message of a kind that does not fit for this reason alone.
    Unfit(u8, Misfit),
    /// A fitting copy, newer than found, for an object that is ready.
    LateCopy,
    /// A second copy from a node while the object is not ready, of a higher version, and of the same or a lower one.
    AgainNewer,
    AgainOlder,
    /// A copy of the version found, with another value, from another node.
    SameVersion,
    /// A yes again, with rivals; a rival's serial that is higher than known, or lower.
    YesAgain,
    RivalHigher,
    RivalLower,
    /// A no of a node that said yes.
    NoAfterYes,
    /// A case of the turn rule at a begin or a batch, at an idle record.
    Turned(What, Turn),
    /// A batch before any table; an open or a value call on a batch; votes asked for on one, with its sums and with one past the range.
    NoTable,
    OpenBarred,
    SetBarred,
    Summed,
    GivenUp,
    /// A begin while the last batch's tenths wait by its commit, and one while they do not.
    TenthsMoved,
    TenthsStay,
    /// An abort by the host, or by a yield, with nobody contacted.
    AbortAtOnce,
    YieldAtOnce,
    /// What is due in a phase: the kind of the message, or 0.
    Owes(u8, u8),
    /// An outcome is due to a rival's owner, before the yield.
    OutcomeFirst,
    /// An ask or a commit is due whose objects were not opened in ascending order.
    Unordered,
}

/// Every case.
fn cases() -> Vec<Case> {
    use Case::*;
    let mut all = vec![LateCopy, AgainNewer, AgainOlder, SameVersion, YesAgain, RivalHigher, RivalLower, NoAfterYes];
    all.extend([AbortAtOnce, YieldAtOnce, OutcomeFirst, Unordered]);
    all.extend([NoTable, OpenBarred, SetBarred, Summed, GivenUp, TenthsMoved, TenthsStay]);
    all.extend([What::Begin, What::Batch].into_iter().flat_map(|what| Turn::ALL.map(|turn| Turned(what, turn))));
    all.extend(NUMBERS.iter().flat_map(|(what, numbers)| numbers.iter().map(|&number| Number(*what, number))));
    let nothing = [kind::COPY, kind::VOTE, kind::DONE, kind::YIELD].map(|kind| Brings(kind, Brought::Nothing));
    all.extend(nothing);
    all.extend([Brings(kind::COPY, Brought::Ready), Brings(kind::VOTE, Brought::Committed), Brings(kind::VOTE, Brought::Aborted)]);
    all.extend([Brings(kind::DONE, Brought::Finished), Brings(kind::YIELD, Brought::Aborted)]);
    for kind in [kind::COPY, kind::VOTE, kind::DONE] {
        all.extend([Misfit::Phase, Misfit::Serial, Misfit::Stamp, Misfit::Sender].map(|misfit| Unfit(kind, misfit)));
    }
    all.extend([Unfit(kind::COPY, Misfit::Object), Unfit(kind::COPY, Misfit::Mode)]);
    all.extend([Unfit(kind::YIELD, Misfit::Phase), Unfit(kind::YIELD, Misfit::Serial)]);
    all.extend([phase::IDLE, phase::OPEN, phase::VOTING, phase::FINISHING].map(|phase| Owes(phase, 0)));
    all.extend([Owes(phase::OPEN, kind::FETCH), Owes(phase::VOTING, kind::ASK)]);
    all.extend([Owes(phase::FINISHING, kind::OUTCOME), Owes(phase::FINISHING, kind::YIELD)]);
    all
}

/// A call to try on the bytes of a record.
#[derive(Clone, Copy)]
pub enum Try<'a> {
    /// A host call, and the settings, which are lent to those that ask for them.
    Host(&'a Call, &'a [u8]),
    Receive(&'a [u8]),
    Due {
        node: u8,
        object: u8,
        size: usize,
    },
}

impl Try<'_> {
    fn what(self) -> What {
        match self {
            Try::Host(Call::Begin { .. }, _) => What::Begin,
            Try::Host(Call::Batch { .. }, _) => What::Batch,
            Try::Host(Call::Open { mode: WRITE, .. }, _) => What::OpenWrite,
            Try::Host(Call::Open { .. }, _) => What::OpenRead,
            Try::Host(Call::SetValue { .. }, _) => What::SetValue,
            Try::Host(Call::Found { .. }, _) => What::Found,
            Try::Host(Call::Reselect { .. }, _) => What::Reselect,
            Try::Host(Call::RequestCommit, _) => What::RequestCommit,
            Try::Host(Call::Abort, _) => What::Abort,
            Try::Receive(_) => What::Receive,
            Try::Due { .. } => What::Due,
        }
    }

    /// For the words of a failure.
    fn described(self, me: u8, record: &[u8]) -> String {
        let call = match self {
            Try::Host(call, settings) if call.asks_settings() => format!("{call:?}, settings {:?} {settings:?}", settings::load(settings)),
            Try::Host(call, _) => format!("{call:?}"),
            Try::Receive(bytes) => message::decode(bytes).map_or(format!("{bytes:?}"), |message| format!("{message:?}")),
            Try::Due { node, object, size } => format!("what is due to {node} for object {object} in {size} bytes"),
        };
        format!("node {me}, {call}, record {:?}", record::decode(record))
    }
}

/// What a host call tells, and leaves of the record.
fn left_of(expected: &Result<HostLeft, u8>) -> Result<(Done, Vec<u8>), u8> {
    expected.clone().map(|left| (left.done, left.record))
}

/// Random bytes with some others in their middle.
fn framed(random: &mut Random, middle: &[u8]) -> Vec<u8> {
    [&random.bytes(MARGIN)[..], middle, &random.bytes(MARGIN)[..]].concat()
}

/// Where the two first differ, counted from the lent bytes on.
fn differ(got: &[u8], expected: &[u8]) -> Option<i64> {
    got.iter().zip(expected).position(|(one, other)| one != other).map(|at| at as i64 - MARGIN as i64)
}

#[derive(Default)]
pub struct Seen {
    cases: BTreeMap<Case, usize>,
    pub numbers: [usize; number::COUNT],
    /// The settings after the last host call.
    pub settings: Vec<u8>,
}

impl Seen {
    /// The library's call on a record's bytes against the model's: number, answer and every byte lent; the record after.
    pub fn compare(&mut self, random: &mut Random, record: &[u8], me: u8, asked: Try) -> Result<Vec<u8>, String> {
        let (number, after) = match asked {
            Try::Host(call, settings) => {
                let lent = call.clone();
                let expected = host_call(record, settings, me, call);
                let mut kept = framed(random, settings);
                let mut kept_after = kept.clone();
                if let Ok(left) = &expected {
                    kept_after[MARGIN..MARGIN + settings.len()].copy_from_slice(&left.settings);
                }
                let on_record = |record: &mut [u8]| ffi::host_call(record, &mut kept[MARGIN..MARGIN + settings.len()], me, &lent);
                let after = self.changed(random, record, &left_of(&expected), on_record, asked, me)?;
                ensure!(lent == *call, "{}: the distances or the list became {lent:?}", asked.described(me, record));
                let place = differ(&kept, &kept_after);
                ensure!(place.is_none(), "{}: byte {place:?} of the settings is another than the model's", asked.described(me, record));
                self.settings = kept[MARGIN..MARGIN + settings.len()].to_vec();
                self.count_host(record, settings, call, &expected);
                (expected.map_or_else(|number| number, |left| left.done.number), after)
            }
            Try::Receive(message) => {
                let lent = message.to_vec();
                let expected = receive_call(record, me, message);
                let taken = expected.clone().map(|left| (Done { number: number::OK, answer: left.answer }, left.record));
                let after = self.changed(random, record, &taken, |record| ffi::receive(record, me, &lent), asked, me)?;
                ensure!(lent == message, "{}: the message became {lent:?}", asked.described(me, record));
                (expected.err().unwrap_or(number::OK), after)
            }
            Try::Due { node, object, size } => {
                let expected = due_call(record, me, node, object, size);
                self.written(random, record, &expected, |record, out| ffi::due(record, me, node, object, out), asked, me)?;
                (expected.err().unwrap_or(number::OK), record.to_vec())
            }
        };
        self.numbers[usize::from(number)] += 1;
        self.add(Case::Number(asked.what(), number));
        if let (number::OK, Ok(before)) = (number, record::load(record)) {
            self.count(&before, me, asked);
        }
        Ok(after)
    }

    /// A call that may change the record.
    fn changed(
        &mut self,
        random: &mut Random,
        record: &[u8],
        expected: &Result<(Done, Vec<u8>), u8>,
        call: impl FnOnce(&mut [u8]) -> (u8, i64),
        asked: Try,
        me: u8,
    ) -> Result<Vec<u8>, String> {
        let mut bytes = framed(random, record);
        let mut after = bytes.clone();
        let (number, answer) = match expected {
            Ok((done, left)) => {
                after[MARGIN..MARGIN + record.len()].copy_from_slice(left);
                (done.number, done.answer)
            }
            Err(number) => (*number, 0),
        };
        let got = call(&mut bytes[MARGIN..MARGIN + record.len()]);
        ensure!(got == (number, answer), "{}: {got:?}, but the model says {:?}", asked.described(me, record), (number, answer));
        let place = differ(&bytes, &after);
        ensure!(place.is_none(), "{}: byte {place:?} of the record is another than the model's", asked.described(me, record));
        Ok(bytes[MARGIN..MARGIN + record.len()].to_vec())
    }

    /// A call that may write to a buffer.
    fn written(
        &mut self,
        random: &mut Random,
        record: &[u8],
        expected: &Result<Vec<u8>, u8>,
        call: impl FnOnce(&[u8], &mut [u8]) -> (u8, u8),
        asked: Try,
        me: u8,
    ) -> Result<(), String> {
        let Try::Due { size, .. } = asked else { return Err(String::from("only what is due is written")) };
        let (lent, noise) = (record.to_vec(), random.bytes(size));
        let mut out = framed(random, &noise);
        let mut after = out.clone();
        let message: &[u8] = expected.as_deref().unwrap_or_default();
        after[MARGIN..MARGIN + message.len()].copy_from_slice(message);
        let (number, length) = (expected.as_ref().err().copied().unwrap_or(number::OK), message.len() as u8);
        let got = call(&lent, &mut out[MARGIN..MARGIN + size]);
        ensure!(got == (number, length), "{}: {got:?}, but the model says {:?}", asked.described(me, record), (number, length));
        let place = differ(&out, &after);
        ensure!(place.is_none(), "{}: byte {place:?} of the buffer is another than the model's", asked.described(me, record));
        ensure!(lent == record, "{}: the record became {lent:?}", asked.described(me, record));
        Ok(())
    }

    fn add(&mut self, case: Case) {
        *self.cases.entry(case).or_insert(0) += 1;
    }

    fn add_if(&mut self, met: bool, case: Case) {
        if met {
            self.add(case);
        }
    }

    /// The cases of a host call that has to do with batches, with the record and the settings before it.
    fn count_host(&mut self, record: &[u8], settings: &[u8], call: &Call, expected: &Result<HostLeft, u8>) {
        let (Ok(record), Ok(settings)) = (record::load(record), settings::load(settings)) else { return };
        let batch = settings.kind == settings::kind::BATCH;
        let number = expected.as_ref().map_or_else(|number| *number, |left| left.done.number);
        self.count_turn(&record, call, number);
        match call {
            Call::Batch { timestamp, .. } if number == number::OUT_OF_TURN => {
                self.add_if(in_turn(&record, *timestamp) && settings.classes.is_none(), Case::NoTable);
            }
            Call::Open { .. } if number == number::OUT_OF_TURN => self.add_if(batch && record.phase == phase::OPEN, Case::OpenBarred),
            Call::SetValue { .. } if number == number::OUT_OF_TURN => self.add_if(batch && record.phase == phase::OPEN, Case::SetBarred),
            Call::RequestCommit if batch => {
                let done = expected.as_ref().ok().map(|left| left.done);
                self.add_if(done == Some(Done::GIVEN_UP), Case::GivenUp);
                self.add_if(done.is_some_and(|done| done.number == number::OK), Case::Summed);
            }
            Call::Begin { .. } | Call::Batch { .. } if number == number::OK => self.count_begin(&record, &settings),
            _ => {}
        }
    }

    /// A begin or a batch with the number that its timestamp alone would have.
    fn count_turn(&mut self, record: &Record, call: &Call, number: u8) {
        let (what, timestamp) = match call {
            Call::Begin { timestamp, .. } => (What::Begin, *timestamp),
            Call::Batch { timestamp, .. } => (What::Batch, *timestamp),
            _ => return,
        };
        let turn = Turn::of(record, timestamp).filter(|turn| record.phase == phase::IDLE && turn.number() == number);
        turn.into_iter().for_each(|turn| self.add(Case::Turned(what, turn)));
    }

    fn count_begin(&mut self, record: &Record, settings: &Settings) {
        if settings.kind == settings::kind::BATCH && settings.waited != settings.left {
            self.add(if settings.waiting(record) == settings.left { Case::TenthsMoved } else { Case::TenthsStay });
        }
    }

    /// The cases of a call that nothing refused, with the record before it.
    fn count(&mut self, before: &Record, me: u8, asked: Try) {
        match asked {
            Try::Host(Call::Abort, _) => self.add_if(before.contacted == 0, Case::AbortAtOnce),
            Try::Host(..) => {}
            Try::Receive(bytes) => {
                let left = receive_call(&record::encode(before), me, bytes);
                if let (Ok(message), Ok(left)) = (message::receive(bytes), left) {
                    self.count_message(before, &message, left.answer);
                }
            }
            Try::Due { node, object, .. } => {
                let sent = due_call(&record::encode(before), me, node, object, LONGEST).unwrap_or_default();
                let kind = sent.first().copied().unwrap_or(0);
                self.add(Case::Owes(before.phase, kind));
                let commits = kind == kind::OUTCOME && before.outcome == decided::COMMITTED;
                self.add_if(commits && before.rivals[usize::from(node)] != 0, Case::OutcomeFirst);
                let ascends = before.objects().windows(2).all(|two| two[0].object < two[1].object);
                self.add_if((commits || kind == kind::ASK) && !ascends, Case::Unordered);
            }
        }
    }

    /// The cases of a message that was taken.
    fn count_message(&mut self, before: &Record, message: &Message, answer: i64) {
        use Brought::{Aborted, Committed, Finished, Nothing, Ready};
        let brought = [Nothing, Committed, Aborted, Ready, Finished][answer as usize];
        self.add(Case::Brings(message.kind, brought));
        let misfits = misfits(before, message);
        if let [misfit] = misfits[..] {
            self.add(Case::Unfit(message.kind, misfit));
        }
        if !misfits.is_empty() {
            return;
        }
        match message.kind {
            kind::COPY => self.count_copy(before, message),
            kind::VOTE => self.count_vote(before, message),
            kind::YIELD => self.add_if(before.contacted == 0, Case::YieldAtOnce),
            _ => {}
        }
    }

    fn count_copy(&mut self, before: &Record, message: &Message) {
        let entry = message.entries[0];
        let Some(opened) = before.find(entry.object) else { return };
        let again = inside(only(usize::from(message.from)), opened.came);
        let newer = entry.version > opened.version;
        self.add_if(opened.ready() && newer, Case::LateCopy);
        self.add_if(!opened.ready() && again && newer, Case::AgainNewer);
        self.add_if(!opened.ready() && again && !newer, Case::AgainOlder);
        let same = opened.came != 0 && entry.version == opened.version && entry.value != opened.value;
        self.add_if(!opened.ready() && !again && same, Case::SameVersion);
    }

    fn count_vote(&mut self, before: &Record, message: &Message) {
        let again = inside(only(usize::from(message.from)), before.yes);
        self.add_if(message.words == [YES] && again && !message.rivals.is_empty(), Case::YesAgain);
        self.add_if(message.words == [NO] && again, Case::NoAfterYes);
        for rival in &message.rivals {
            let known = before.rivals[usize::from(rival.owner)];
            self.add_if(known != 0 && rival.serial > known, Case::RivalHigher);
            self.add_if(rival.serial < known, Case::RivalLower);
        }
    }

    pub fn of(&self, case: Case) -> usize {
        self.cases.get(&case).copied().unwrap_or(0)
    }

    /// The rarest case of all that fit, those never met too, with how often it was met.
    pub fn rarest(&self, fits: impl Fn(Case) -> bool) -> (Case, usize) {
        let counted = cases().into_iter().filter(|&case| fits(case)).map(|case| (case, self.of(case)));
        counted.min_by_key(|&(_, count)| count).expect("some case")
    }

    pub fn all(&self) -> usize {
        self.numbers.iter().sum()
    }

    pub fn words(&self) -> String {
        format!("{} calls, by number {:?}", self.all(), self.numbers)
    }
}
