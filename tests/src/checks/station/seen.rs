//! What the scenarios met: each step's number, and what became of transactions and why.

use super::authors::Authors;
use super::oldest::Oldest;
use super::turns::Turns;
use crate::model::classes::CLASSES;
use crate::model::coordinator::{in_turn, misfits, Brought, Call};
use crate::model::image::Image;
use crate::model::message::{kind, Message, NO, WRITE};
use crate::model::number;
use crate::model::record::{decided, phase};
use crate::model::replica::{enter, judge, Standing};
use crate::model::settings::kind as kinds;
use crate::model::station::{Event, Station, Step};
use std::collections::BTreeMap;

/// What a scenario should meet often.
#[derive(Clone, Copy, Debug, PartialEq, Eq, PartialOrd, Ord)]
pub enum Case {
    Begun,
    /// By a table that is loaded: a begin at a window's first minute, at its last, and outside; one on a closed date alone.
    BegunFirst,
    BegunLast,
    ClosedMinute,
    ClosedDate,
    /// A begin refused as closed at a window's end minute, and at the minute before its first.
    ClosedAtEnd,
    ClosedBefore,
    /// A table in place of another; one that is loaded while a transaction is under way.
    LoadedAgain,
    LoadedUnderWay,
    /// A table that is refused where another is loaded.
    LoadRefused,
    /// A batch that begins, with tenths that wait; one that commits, and leaves other tenths; one that is aborted, by its host, a no or a yield; one that
    /// is given up because a value would be past the range; one that begins again, right after that and with the same weights.
    BatchBegun,
    BatchOverTenths,
    BatchCommitted,
    BatchMovedTenths,
    BatchAborted,
    BatchGivenUp,
    BatchAgain,
    /// A batch before any table; the host's own open and value call on a batch.
    BatchWithoutTable,
    OpenOnBatch,
    SetOnBatch,
    /// A transaction of the host's own behind a batch, with tenths that wait.
    OwnOverTenths,
    /// A table of classes in place of another, and where tenths wait; one that is refused where tenths wait.
    ClassesAgain,
    ClassesOverTenths,
    ClassesRefused,
    Reselected,
    /// A look again while objects are open that brings nodes that were not contacted yet.
    ReselectedMore,
    Ready,
    Committed,
    CommittedReading,
    /// A commit whose votes named rivals.
    CommittedOverRivals,
    GivenUpOpen,
    GivenUpVoting,
    /// A transaction that contacted nobody is given up and is idle at once.
    GivenUpAtOnce,
    YieldedOpen,
    YieldedVoting,
    /// A no that aborted its transaction, by the first reason that it had.
    AbortedByHolder,
    AbortedByVersion,
    AbortedByOlderRival,
    Finished,
    /// A message that reached a node which is off.
    ReachedOff,
    /// A copy, vote, done or yield that brought nothing about.
    BroughtNothing,
    /// Of those, a copy of a higher version than found, for an object that is ready.
    LateNewer,
    /// A fetch or ask that came late and got no answer.
    Unanswered,
    KeptDelivery,
    SentYield,
    SentNothing,
}

impl Case {
    pub const ALL: [Case; 46] = [
        Case::Begun,
        Case::BegunFirst,
        Case::BegunLast,
        Case::ClosedMinute,
        Case::ClosedDate,
        Case::ClosedAtEnd,
        Case::ClosedBefore,
        Case::LoadedAgain,
        Case::LoadedUnderWay,
        Case::LoadRefused,
        Case::BatchBegun,
        Case::BatchOverTenths,
        Case::BatchCommitted,
        Case::BatchMovedTenths,
        Case::BatchAborted,
        Case::BatchGivenUp,
        Case::BatchAgain,
        Case::BatchWithoutTable,
        Case::OpenOnBatch,
        Case::SetOnBatch,
        Case::OwnOverTenths,
        Case::ClassesAgain,
        Case::ClassesOverTenths,
        Case::ClassesRefused,
        Case::Reselected,
        Case::ReselectedMore,
        Case::Ready,
        Case::Committed,
        Case::CommittedReading,
        Case::CommittedOverRivals,
        Case::GivenUpOpen,
        Case::GivenUpVoting,
        Case::GivenUpAtOnce,
        Case::YieldedOpen,
        Case::YieldedVoting,
        Case::AbortedByHolder,
        Case::AbortedByVersion,
        Case::AbortedByOlderRival,
        Case::Finished,
        Case::ReachedOff,
        Case::BroughtNothing,
        Case::LateNewer,
        Case::Unanswered,
        Case::KeptDelivery,
        Case::SentYield,
        Case::SentNothing,
    ];
}

/// The steps' names, in the order of their counts.
pub const STEPS: [&str; 7] = ["host", "send", "deliver", "drop", "switch", "load", "classes"];

/// For each step how often it had each number.
pub type Numbers = [[usize; number::COUNT]; STEPS.len()];

/// The numbers that each step can have in a run from blank.
const REACHED: [&[usize]; 7] = [
    &[0, 1, 3, 4, 5, 6, 7, 8, 9, 10, 11, 13],
    &[0, 4, 5, 6, 12],
    &[0, 5, 12],
    &[0, 5],
    &[0, 4],
    &[0, 1, 2, 4, 5],
    &[0, 1, 4, 5, 6, 10, 14, 15],
];

/// Which of the steps it is.
pub fn place(step: &Step) -> usize {
    match step {
        Step::Host { .. } => 0,
        Step::Send { .. } => 1,
        Step::Deliver { .. } => 2,
        Step::Drop { .. } => 3,
        Step::Switch { .. } => 4,
        Step::Load { .. } => 5,
        Step::LoadClasses { .. } => 6,
    }
}

#[derive(Default)]
pub struct Seen {
    pub numbers: Numbers,
    cases: BTreeMap<Case, usize>,
    /// Why a node voted no to a transaction: by owner, serial and node.
    reasons: BTreeMap<(u8, u32, u8), Case>,
    /// The weights of a node's last batch, as they were lent.
    batches: BTreeMap<u8, Vec<u8>>,
    /// Who wrote last.
    pub authors: Authors,
    /// Timestamps at begin.
    pub turns: Turns,
    /// Transactions that nothing stood against.
    pub oldest: Oldest,
}

impl Seen {
    pub fn add(&mut self, case: Case) {
        *self.cases.entry(case).or_insert(0) += 1;
    }

    fn add_if(&mut self, met: bool, case: Case) {
        if met {
            self.add(case);
        }
    }

    /// A new scenario: names of transactions come again.
    pub fn start(&mut self) {
        self.reasons.clear();
        self.batches.clear();
        self.turns.start();
    }

    /// One step, with the station before it.
    pub fn count(&mut self, before: &Station, event: &Event) {
        let number = event.told.as_ref().map_or_else(|number| *number, |told| told.number);
        self.numbers[place(&event.step)][usize::from(number)] += 1;
        self.count_hours(before, &event.step, number);
        self.count_classes(before, &event.step, number);
        self.turns.count(before, event);
        let Ok(told) = &event.told else { return };
        if told.number != number::OK {
            self.add(Case::BatchGivenUp);
            return;
        }
        match &event.step {
            Step::Host { node, call } => self.count_call(before, *node, call),
            Step::Deliver { at, kept } => {
                let message = &before.pool[*at];
                self.add_if(*kept, Case::KeptDelivery);
                self.add_if(!before.is_on(message.to), Case::ReachedOff);
                if before.is_on(message.to) {
                    self.count_delivery(before, message, told.answer, told.put.as_ref());
                }
            }
            Step::Send { .. } => {
                self.add_if(told.put.is_none(), Case::SentNothing);
                self.add_if(told.put.as_ref().is_some_and(|put| put.kind == kind::YIELD), Case::SentYield);
            }
            _ => {}
        }
    }

    /// What weight classes had to do with a host's step.
    fn count_classes(&mut self, before: &Station, step: &Step, number: u8) {
        let (Step::Host { node, .. } | Step::LoadClasses { node, .. }) = *step else { return };
        let Some(settings) = before.settings.get(usize::from(node)) else { return };
        let record = &before.records[usize::from(node)];
        let waits = before.waiting(usize::from(node)) != [0; CLASSES];
        let open_batch = settings.kind == kinds::BATCH && record.phase == phase::OPEN;
        match *step {
            Step::Host { call: Call::Batch { ref list, .. }, .. } if number == number::OK => {
                self.add(Case::BatchBegun);
                self.add_if(waits, Case::BatchOverTenths);
                let again = self.batches.insert(node, list.clone()).as_ref() == Some(list) && record.outcome == decided::ABORTED;
                self.add_if(again && settings.kind == kinds::BATCH, Case::BatchAgain);
            }
            Step::Host { call: Call::Batch { timestamp, .. }, .. } if number == number::OUT_OF_TURN => {
                let apart = before.is_on(node) && in_turn(record, timestamp);
                self.add_if(apart && settings.classes.is_none(), Case::BatchWithoutTable);
            }
            Step::Host { call: Call::Begin { .. }, .. } if number == number::OK => self.add_if(waits, Case::OwnOverTenths),
            Step::Host { call: Call::Open { .. }, .. } if number == number::OUT_OF_TURN => self.add_if(open_batch, Case::OpenOnBatch),
            Step::Host { call: Call::SetValue { .. }, .. } if number == number::OUT_OF_TURN => self.add_if(open_batch, Case::SetOnBatch),
            Step::Host { call: Call::Abort, .. } if number == number::OK => self.add_if(settings.kind == kinds::BATCH, Case::BatchAborted),
            Step::LoadClasses { .. } if number == number::OK => {
                self.add_if(settings.classes.is_some(), Case::ClassesAgain);
                self.add_if(waits, Case::ClassesOverTenths);
            }
            Step::LoadClasses { .. } => self.add_if(waits, Case::ClassesRefused),
            _ => {}
        }
    }

    /// What packing hours had to do with a step.
    fn count_hours(&mut self, before: &Station, step: &Step, number: u8) {
        let (Step::Host { node, .. } | Step::Load { node, .. }) = *step else { return };
        let Some(Some(table)) = before.settings.get(usize::from(node)).map(|settings| &settings.hours) else { return };
        match *step {
            Step::Host { call: Call::Begin { minute, .. } | Call::Batch { minute, .. }, .. } if number == number::OK => {
                self.add_if(table.windows.iter().any(|window| window.start == minute), Case::BegunFirst);
                self.add_if(table.windows.iter().any(|window| window.end - 1 == minute), Case::BegunLast);
            }
            Step::Host { call: Call::Begin { day, minute, .. } | Call::Batch { day, minute, .. }, .. } if number == number::CLOSED => {
                let open = table.windows.iter().any(|window| window.start <= minute && minute < window.end);
                self.add(if open { Case::ClosedDate } else { Case::ClosedMinute });
                let dated = table.dates.contains(&day);
                self.add_if(!dated && table.windows.iter().any(|window| window.end == minute), Case::ClosedAtEnd);
                self.add_if(!dated && table.windows.iter().any(|window| window.start == minute + 1), Case::ClosedBefore);
            }
            Step::Load { .. } if number == number::OK => {
                self.add(Case::LoadedAgain);
                self.add_if(before.records[usize::from(node)].phase != phase::IDLE, Case::LoadedUnderWay);
            }
            Step::Load { .. } => self.add(Case::LoadRefused),
            _ => {}
        }
    }

    fn count_call(&mut self, before: &Station, node: u8, call: &Call) {
        let record = &before.records[usize::from(node)];
        match call {
            Call::Begin { .. } | Call::Batch { .. } => self.add(Case::Begun),
            Call::Reselect { .. } => self.add(Case::Reselected),
            Call::Abort if record.contacted == 0 => self.add(Case::GivenUpAtOnce),
            Call::Abort if record.phase == phase::OPEN => self.add(Case::GivenUpOpen),
            Call::Abort => self.add(Case::GivenUpVoting),
            _ => {}
        }
    }

    fn count_delivery(&mut self, before: &Station, message: &Message, answer: i64, put: Option<&Message>) {
        let record = &before.records[usize::from(message.to)];
        let own = message.transaction;
        match message.kind {
            kind::ASK if put.is_some() => {
                let reason = reason(&before.images[usize::from(message.to)], message);
                reason.map(|case| self.reasons.entry((own.owner, own.serial, message.to)).or_insert(case));
            }
            kind::FETCH | kind::ASK => self.add_if(put.is_none(), Case::Unanswered),
            kind::OUTCOME => {}
            kind::COPY if misfits(record, message).is_empty() => {
                let entry = message.entries[0];
                let newer = record.find(entry.object).is_some_and(|opened| opened.ready() && entry.version > opened.version);
                self.add_if(newer, Case::LateNewer);
            }
            kind::YIELD if answer == Brought::Aborted as i64 => {
                self.add(if record.phase == phase::OPEN { Case::YieldedOpen } else { Case::YieldedVoting });
            }
            kind::VOTE if answer == Brought::Aborted as i64 && message.words == [NO] => {
                let reason = self.reasons.get(&(own.owner, own.serial, message.from)).copied();
                reason.into_iter().for_each(|case| self.add(case));
            }
            _ => {}
        }
        self.add_if(answer == Brought::Ready as i64, Case::Ready);
        self.add_if(answer == Brought::Finished as i64, Case::Finished);
        self.add_if(answer == Brought::Nothing as i64 && [2, 4, 6, 7].contains(&message.kind), Case::BroughtNothing);
        let settings = &before.settings[usize::from(message.to)];
        let batch = settings.kind == kinds::BATCH && [kind::VOTE, kind::YIELD].contains(&message.kind);
        self.add_if(batch && answer == Brought::Aborted as i64, Case::BatchAborted);
        if answer == Brought::Committed as i64 {
            self.add_if(batch, Case::BatchCommitted);
            self.add_if(batch && settings.waited != settings.left, Case::BatchMovedTenths);
            self.add(Case::Committed);
            self.add_if(record.objects().iter().all(|opened| opened.mode != WRITE), Case::CommittedReading);
            self.add_if(record.rivals.iter().any(|&serial| serial != 0) || !message.rivals.is_empty(), Case::CommittedOverRivals);
        }
    }

    /// What a look again brought: the station before it and after it.
    pub fn count_more(&mut self, before: &Station, event: &Event, after: &Station) {
        if let (Step::Host { node, call: Call::Reselect { .. } }, Ok(_)) = (&event.step, &event.told) {
            let at = usize::from(*node);
            self.add_if(before.records[at].contacted != after.records[at].contacted, Case::ReselectedMore);
        }
    }

    pub fn of(&self, case: Case) -> usize {
        self.cases.get(&case).copied().unwrap_or(0)
    }

    pub fn steps(&self) -> usize {
        self.numbers.iter().flatten().sum()
    }

    /// The rarest case and the rarest number that a step can have.
    pub fn rarest(&self) -> (String, usize) {
        let cases = Case::ALL.into_iter().map(|case| (format!("{case:?}"), self.of(case)));
        let numbers = (0..STEPS.len()).flat_map(|step| REACHED[step].iter().map(move |&number| (step, number)));
        let numbers = numbers.map(|(step, number)| (format!("{} {number}", STEPS[step]), self.numbers[step][number]));
        cases.chain(numbers).min_by_key(|(_, count)| *count).expect("some case")
    }

    pub fn words(&self) -> String {
        format!("{} steps, {}; {:?}", self.steps(), numbers_in_words(&self.numbers), self.cases)
    }

    /// How many transactions were aborted: by a call, by a no, by a yield.
    pub fn aborts(&self) -> [usize; 3] {
        let sum = |cases: &[Case]| cases.iter().map(|&case| self.of(case)).sum();
        [
            sum(&[Case::GivenUpOpen, Case::GivenUpVoting, Case::GivenUpAtOnce, Case::BatchGivenUp]),
            sum(&[Case::AbortedByHolder, Case::AbortedByVersion, Case::AbortedByOlderRival]),
            sum(&[Case::YieldedOpen, Case::YieldedVoting]),
        ]
    }
}

/// The same in words.
pub fn numbers_in_words(numbers: &Numbers) -> String {
    let words = |step: usize| {
        let met = (0..number::COUNT).filter(|&number| numbers[step][number] > 0);
        let met: Vec<String> = met.map(|number| format!("{number}: {}", numbers[step][number])).collect();
        format!("{} {{{}}}", STEPS[step], met.join(", "))
    };
    (0..STEPS.len()).map(words).collect::<Vec<String>>().join(", ")
}

/// Why an ask is voted down, if it is: the first reason that holds.
fn reason(image: &Image, message: &Message) -> Option<Case> {
    if ![Standing::Fresh, Standing::Listed].contains(&Standing::of(image, message.transaction)) {
        return None;
    }
    let mut image = image.clone();
    enter(&mut image, message.transaction);
    let judgement = judge(&image, message);
    let held = judgement.held.then_some(Case::AbortedByHolder);
    held.or(judgement.newer.then_some(Case::AbortedByVersion)).or(judgement.older.then_some(Case::AbortedByOlderRival))
}
