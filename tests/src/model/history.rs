//! Demand 3: what a run tells, the one-by-one running (here: replay) of the committed transactions, and what must hold between the two; with it who
//! wrote last.
//!
//! The history is fed with events. It keeps the pool, who is on and each owner's serial by itself; of the station it reads only what
//! demand 3 speaks of: what a record has found, and the copies in the images; and of a batch its grams, and the tenths that wait.

use super::classes::{self, Classes, Ledger, CLASSES};
use super::coordinator::{Brought, Call};
use super::hours::{self, Table, LAST_MINUTE};
use super::image::Author;
use super::message::{kind, Entry, Message, COMMIT, WRITE, YES};
use super::quorum::{inside, is_quorum, nodes, only, Kind, ALL, NODES};
use super::record::Opened;
use super::station::{Event, Station, Step, Told};
use super::{number, OBJECTS};
use crate::runner::ensure;
use std::collections::{BTreeMap, BTreeSet};
use std::sync::OnceLock;

/// A transaction's name.
#[derive(Clone, Copy, Debug, PartialEq, Eq, PartialOrd, Ord)]
pub struct Name {
    pub owner: u8,
    pub serial: u32,
}

/// What a transaction does to an object that it writes: it gives it a new value, if one was set, or "adds to the value held".
#[derive(Clone, Copy, Debug, PartialEq, Eq)]
enum Effect {
    Set(Option<i64>),
    Add(i64),
}

impl Effect {
    /// The value that is left of one that was held; none where it is "past the 64-bit range".
    fn on(self, held: i64) -> Option<i64> {
        match self {
            Effect::Set(new) => Some(new.unwrap_or(0)),
            Effect::Add(grams) => held.checked_add(grams),
        }
    }
}

/// An object of a transaction as the accepted host calls give it.
#[derive(Clone, Copy, Debug, PartialEq, Eq)]
struct Wanted {
    object: u8,
    mode: u8,
    effect: Effect,
}

/// A batch: what its weights are in tenths, and the grams that it adds, class by class.
#[derive(Clone, Copy, Debug, PartialEq, Eq)]
struct Batch {
    tenths: [u64; CLASSES],
    grams: [u64; CLASSES],
}

/// What the events tell of one transaction.
#[derive(Clone, Debug, Default)]
struct Story {
    wanted: Vec<Wanted>,
    batch: Option<Batch>,
    /// What an accepted request for votes answered; 0 before one.
    participants: u16,
    /// The participants whose yes was delivered.
    yes: u16,
    /// An abort call, a no of a participant or a yield came since the request.
    lost: bool,
    committed: bool,
    /// The nodes that put a done on a delivery of its commit.
    done: u16,
    /// Each value found for an object once it was ready: told to the host, or in the record after a step.
    found: BTreeMap<u8, BTreeSet<i64>>,
}

impl Story {
    /// The values that an object may get of what was found; all the same, as one was found.
    fn news(&self, wanted: &Wanted) -> Vec<Option<i64>> {
        match wanted.effect {
            Effect::Set(_) => vec![wanted.effect.on(0)],
            Effect::Add(_) => self.found.get(&wanted.object).into_iter().flatten().map(|&found| wanted.effect.on(found)).collect(),
        }
    }
}

/// What replay gives: what each transaction finds for its objects, the last values, and who wrote each object last.
struct Replayed {
    finds: BTreeMap<(Name, u8), i64>,
    last: [i64; OBJECTS],
    writers: [Option<Name>; OBJECTS],
}

/// In which order the committed transactions are replayed.
#[derive(Clone, Copy, Debug, PartialEq, Eq)]
pub enum Order {
    /// "In the order of controller 0's first yes to each."
    Log,
    /// In the order in which they were decided, which is wrong: the last of document 01's slips.
    Decisions,
    /// In the order of the log, but a batch's grams are set and not added, which is wrong.
    Setting,
}

pub struct History {
    pool: Vec<Message>,
    on: u16,
    serials: [u32; NODES],
    stories: BTreeMap<Name, Story>,
    /// The transactions in the order of node 0's first yes.
    log: Vec<Name>,
    /// The committed ones in the order of their decisions.
    pub committed: Vec<Name>,
    /// The tables that each node was told last, and its own account of what was weighed and booked by the second.
    hours: [Option<Table>; NODES],
    classes: [Option<Classes>; NODES],
    ledgers: [Ledger; NODES],
    /// The new values that committed transactions gave each object.
    given: [BTreeSet<i64>; OBJECTS],
    /// Those that were committed before the images were taken in from a layout without authors.
    forgotten: BTreeSet<Name>,
    /// Whether it is checked what 'committed' means; the tests of the other parts leave this one out.
    meaning: bool,
}

fn name_of(message: &Message) -> Name {
    Name { owner: message.transaction.owner, serial: message.transaction.serial }
}

fn is_commit(message: &Message) -> bool {
    message.kind == kind::OUTCOME && message.words == [COMMIT]
}

/// Every read quorum, larger sets too.
fn read_quorums() -> &'static [u16] {
    static LIST: OnceLock<Vec<u16>> = OnceLock::new();
    LIST.get_or_init(|| (0..=ALL).filter(|&mask| is_quorum(Kind::Read, mask)).collect())
}

impl History {
    pub fn new(on: u16, meaning: bool) -> History {
        History {
            pool: vec![],
            on,
            serials: [0; NODES],
            stories: BTreeMap::new(),
            log: vec![],
            committed: vec![],
            hours: std::array::from_fn(|_| None),
            classes: std::array::from_fn(|_| None),
            ledgers: std::array::from_fn(|_| Ledger::default()),
            given: std::array::from_fn(|_| BTreeSet::new()),
            forgotten: BTreeSet::new(),
            meaning,
        }
    }

    /// The transaction that an owner began last.
    fn current(&self, owner: u8) -> Name {
        Name { owner, serial: self.serials[usize::from(owner)] }
    }

    fn story(&mut self, name: Name) -> &mut Story {
        self.stories.entry(name).or_default()
    }

    /// One event more, with the station after it. What is wrong already is said at once.
    pub fn feed(&mut self, event: &Event, after: &Station) -> Result<(), String> {
        let Ok(told) = &event.told else { return Ok(()) };
        let touched = match event.step {
            Step::Host { node, call: Call::RequestCommit } if told.number != number::OK => {
                self.hear_given_up(node, told)?;
                Some(node)
            }
            Step::Host { node, ref call } => {
                self.hear_host(node, call, told, after)?;
                Some(node)
            }
            Step::Deliver { at, kept } => {
                let message = if kept { self.pool[at].clone() } else { self.pool.remove(at) };
                self.hear_delivery(&message, told)?;
                Some(message.to)
            }
            Step::Drop { at } => {
                self.pool.remove(at);
                None
            }
            Step::Switch { node, on } => {
                let bit = only(usize::from(node));
                self.on = if on { self.on | bit } else { self.on & !bit };
                None
            }
            Step::Load { node, ref list } => {
                let table = hours::read(list).map_err(|number| format!("(hours) node {node} took a table whose number is {number}"))?;
                self.hours[usize::from(node)] = Some(table);
                None
            }
            Step::LoadClasses { node, ref list } => {
                let table = classes::read(list).ok().filter(Classes::sound);
                self.classes[usize::from(node)] = Some(table.ok_or(format!("(weights) node {node} took {list:?} as a table"))?);
                self.ledgers[usize::from(node)] = Ledger::default();
                None
            }
            Step::Send { .. } => None,
        };
        if let Some(message) = &told.put {
            self.hear_put(message)?;
            self.pool.push(message.clone());
        }
        ensure!(self.pool.len() == after.pool.len() && self.on == after.on, "the events tell another pool, or others that are on");
        touched.map_or(Ok(()), |node| self.look(node, after))?;
        self.weigh_up(after)
    }

    /// "Ten times the grams booked plus the tenths waiting is the sum of all weights, class by class", at every node and after every step.
    fn weigh_up(&self, after: &Station) -> Result<(), String> {
        for (node, ledger) in self.ledgers.iter().enumerate() {
            let waiting = after.waiting(node);
            let astray = ledger.astray(waiting);
            ensure!(astray.is_none(), "(weights) node {node}, class {astray:?}: {ledger:?}, and {waiting:?} wait");
        }
        Ok(())
    }

    /// A transaction begins. "Bookings begun only in packing hours."
    fn hear_begin(&mut self, node: u8, day: u32, minute: u16) -> Result<Name, String> {
        let closed = self.hours[usize::from(node)].as_ref().is_some_and(|table| table.closed(day, minute));
        ensure!(!closed && minute <= LAST_MINUTE, "(hours) node {node} began on day {day} at minute {minute}");
        self.serials[usize::from(node)] += 1;
        Ok(self.current(node))
    }

    /// A batch begins. Its objects are those of the classes; its grams are read off the record, where they stand until votes are asked for.
    fn hear_batch(&mut self, name: Name, list: &[u8], after: &Station) -> Result<(), String> {
        let node = usize::from(name.owner);
        let table = self.classes[node].as_ref().ok_or(format!("(weights) {name:?} is a batch before any table"))?;
        let weights = classes::read_weights(list).ok().filter(|weights| !classes::garbled(weights));
        let tenths = table.weigh(&weights.ok_or(format!("(weights) {name:?} took {list:?} as weights"))?);
        let opened = after.records[node].objects();
        let same =
            opened.len() == table.objects.len() && opened.iter().zip(&table.objects).all(|(opened, &object)| opened.object == object);
        ensure!(same && opened.iter().all(|opened| opened.mode == WRITE), "(weights) {name:?} has {opened:?} open by {table:?}");
        let mut grams = [0; CLASSES];
        for (grams, opened) in grams.iter_mut().zip(opened) {
            *grams = u64::try_from(opened.new).map_err(|_| format!("(weights) {name:?} adds {}", opened.new))?;
        }
        let wanted = opened.iter().map(|opened| Wanted { object: opened.object, mode: WRITE, effect: Effect::Add(opened.new) }).collect();
        let story = self.story(name);
        (story.wanted, story.batch) = (wanted, Some(Batch { tenths, grams }));
        Ok(())
    }

    /// "A new value past the 64-bit range gives 9 and the booking is given up", and only then.
    fn hear_given_up(&mut self, node: u8, told: &Told) -> Result<(), String> {
        let name = self.current(node);
        let story = self.story(name);
        let past = story.wanted.iter().any(|wanted| story.news(wanted).contains(&None));
        ensure!(story.batch.is_some() && past, "(weights) {name:?} is given up, but no value of it is past the range");
        ensure!((told.number, told.answer) == (number::USED_UP, Brought::Aborted as i64), "{name:?} is given up with {told:?}");
        story.lost = true;
        Ok(())
    }

    /// An accepted host call.
    fn hear_host(&mut self, node: u8, call: &Call, told: &Told, after: &Station) -> Result<(), String> {
        let name = self.current(node);
        match *call {
            Call::Begin { day, minute, .. } => {
                self.hear_begin(node, day, minute)?;
            }
            Call::Batch { day, minute, ref list, .. } => {
                let name = self.hear_begin(node, day, minute)?;
                self.hear_batch(name, list, after)?;
            }
            // "On such a booking .. the host's own open or value call gives 5."
            Call::Open { .. } | Call::SetValue { .. } if self.story(name).batch.is_some() => {
                return Err(format!("(weights) {call:?} is accepted on the batch {name:?}"));
            }
            Call::Open { object, mode } => self.story(name).wanted.push(Wanted { object, mode, effect: Effect::Set(None) }),
            Call::SetValue { object, value } => {
                let mut wanted = self.story(name).wanted.iter_mut();
                wanted.find(|wanted| wanted.object == object).ok_or("a value was set for no object")?.effect = Effect::Set(Some(value));
            }
            Call::Found { object } => self.see(name, object, told.answer)?,
            Call::RequestCommit => {
                let story = self.story(name);
                let past = story.wanted.iter().any(|wanted| story.news(wanted).contains(&None));
                ensure!(!past, "(weights) votes are asked for {name:?}, and a value of it is past the range");
                story.participants = told.answer as u16;
            }
            Call::Abort => self.story(name).lost = true,
            Call::Reselect { .. } => {}
        }
        Ok(())
    }

    /// An accepted delivery. 'Committed' is answered exactly when the last yes of the participants comes and nothing spoke against it.
    fn hear_delivery(&mut self, message: &Message, told: &Told) -> Result<(), String> {
        if !inside(only(usize::from(message.to)), self.on) {
            ensure!(told.answer == 0 && told.put.is_none(), "a node that is off answered");
            return Ok(());
        }
        let name = self.current(message.to);
        let own = name_of(message) == name;
        let from = only(usize::from(message.from));
        let story = self.story(name);
        let takes_part = own && inside(from, story.participants);
        let mut commits = false;
        if message.kind == kind::VOTE && takes_part && message.words == [YES] {
            story.yes |= from;
            commits = !story.lost && !story.committed && story.yes == story.participants;
        }
        story.lost |= message.kind == kind::VOTE && takes_part && message.words != [YES];
        story.lost |= message.kind == kind::YIELD && message.rivals[0].serial == name.serial;
        let says = told.answer == Brought::Committed as i64;
        ensure!(commits == says || !self.meaning, "(committed) {name:?}: {message:?} was answered with {}", told.answer);
        if says {
            self.commit(name);
        }
        if is_commit(message) && told.put.as_ref().is_some_and(|put| put.kind == kind::DONE) {
            self.story(name_of(message)).done |= only(usize::from(message.to));
        }
        Ok(())
    }

    fn commit(&mut self, name: Name) {
        self.committed.push(name);
        self.story(name).committed = true;
        let story = &self.stories[&name];
        for wanted in story.wanted.iter().filter(|wanted| wanted.mode == WRITE) {
            self.given[usize::from(wanted.object)].extend(story.news(wanted).into_iter().flatten());
        }
        if let Some(Batch { tenths, grams }) = story.batch {
            self.ledgers[usize::from(name.owner)].commit(tenths, grams);
        }
    }

    /// A message put into the pool. (0): "its entries are those of every ask and commit put for it". A commit is put for committed ones only.
    fn hear_put(&mut self, message: &Message) -> Result<(), String> {
        let name = name_of(message);
        if message.kind == kind::VOTE && message.from == 0 && message.words == [YES] && !self.log.contains(&name) {
            self.log.push(name);
        }
        if message.kind == kind::ASK || is_commit(message) {
            let story = self.story(name);
            let mut wanted = story.wanted.clone();
            wanted.sort_by_key(|wanted| wanted.object);
            // A read is sent with the value 0, what is set with its value, what is added to with the sum.
            let fits = |(entry, wanted): (&Entry, &Wanted)| {
                (entry.object, entry.mode) == (wanted.object, wanted.mode) && story.news(wanted).contains(&Some(entry.value))
            };
            let sent = &message.entries;
            let same = sent.len() == wanted.len() && sent.iter().zip(&wanted).all(fits);
            ensure!(same, "(0) {name:?} sent {sent:?}, but the host wanted {wanted:?}, of {:?} found", story.found);
            ensure!(!is_commit(message) || self.story(name).committed, "(committed) a commit of {name:?}, which is not");
        }
        Ok(())
    }

    /// A value found for an object that is ready. (b): "0 or the new value that a transaction committed within that prefix gave the object".
    fn see(&mut self, name: Name, object: u8, value: i64) -> Result<(), String> {
        self.story(name).found.entry(object).or_default().insert(value);
        let known = value == 0 || self.given[usize::from(object)].contains(&value);
        ensure!(known, "(b) {name:?} found {value} for object {object}, which nobody committed gave it");
        Ok(())
    }

    /// What the record of a node has found after a step.
    fn look(&mut self, node: u8, after: &Station) -> Result<(), String> {
        let name = self.current(node);
        let ready: Vec<Opened> = after.records[usize::from(node)].objects().iter().copied().filter(Opened::ready).collect();
        ready.iter().try_for_each(|opened| self.see(name, opened.object, opened.value))
    }

    /// "For each committed transaction every participant put a done into the pool on a delivery of its commit."
    pub fn settled(&self) -> bool {
        self.committed.iter().map(|name| &self.stories[name]).all(|story| inside(story.participants, story.done))
    }

    /// "A booking finds the value held for each of its tallies, then its written ones take their new values"; where it is a batch, "the one-by-one running
    /// adds to the value held".
    fn replay(&self, order: Order) -> Replayed {
        let logged = self.log.iter().filter(|name| self.stories[name].committed);
        let names: Vec<Name> = match order {
            Order::Log | Order::Setting => logged.copied().collect(),
            Order::Decisions => self.committed.clone(),
        };
        let mut replayed = Replayed { finds: BTreeMap::new(), last: [0; OBJECTS], writers: [None; OBJECTS] };
        for name in names {
            for wanted in &self.stories[&name].wanted {
                let held = &mut replayed.last[usize::from(wanted.object)];
                replayed.finds.insert((name, wanted.object), *held);
                let held_for = if order == Order::Setting { 0 } else { *held };
                if wanted.mode == WRITE {
                    // Past the range only in an order that is wrong, where what is found shows it.
                    *held = wanted.effect.on(held_for).unwrap_or(*held);
                    replayed.writers[usize::from(wanted.object)] = Some(name);
                }
            }
        }
        replayed
    }

    /// The last values of the one-by-one running of the committed transactions.
    pub fn last_values(&self) -> [i64; OBJECTS] {
        self.replay(Order::Log).last
    }

    /// "The last writer in the newest copy is that of the one-by-one running": nobody where it has none, and unknown where it was committed before the
    /// images were taken in.
    fn author_of(&self, writer: Option<Name>) -> Author {
        match writer {
            None => Author::NOBODY,
            Some(name) if self.forgotten.contains(&name) => Author::UNKNOWN,
            Some(Name { owner, serial }) => Author { owner, serial },
        }
    }

    /// The author that every newest copy of each object must have, once all is settled.
    pub fn last_authors(&self) -> [Author; OBJECTS] {
        self.replay(Order::Log).writers.map(|writer| self.author_of(writer))
    }

    /// The images are taken in from a layout without authors, at rest. The running goes on.
    pub fn forget_authors(&mut self) {
        self.forgotten = self.committed.iter().copied().collect();
    }

    /// Demand 3 of the run so far: (0), (a), and where it is settled (c) and who wrote last. (b) and the rest were checked at each event.
    pub fn check(&self, station: &Station, order: Order) -> Result<(), String> {
        let replayed = self.replay(order);
        for name in &self.committed {
            ensure!(self.log.iter().filter(|other| *other == name).count() == 1, "(0) {name:?} is committed but not once in the log");
            let story = &self.stories[name];
            for wanted in &story.wanted {
                let found = story.found.get(&wanted.object);
                let replays = replayed.finds[&(*name, wanted.object)];
                let same = found.is_some_and(|found| found.iter().all(|&value| value == replays));
                ensure!(same, "(a) {name:?} found {found:?} for object {}, but replay gives {replays}", wanted.object);
            }
        }
        if self.settled() {
            (0..OBJECTS).try_for_each(|object| newest(station, object, replayed.last[object], self.author_of(replayed.writers[object])))?;
        }
        Ok(())
    }
}

/// (c) of one object, and who wrote it last: in every read quorum, each node whose version is the highest there has this value and this author.
fn newest(station: &Station, object: usize, value: i64, author: Author) -> Result<(), String> {
    let copies: [(u32, i64, Author); NODES] = std::array::from_fn(|node| {
        let copy = &station.images[node].copies[object];
        (copy.version, copy.value, copy.author)
    });
    if copies.iter().all(|&copy| copy == (copies[0].0, value, author)) {
        return Ok(());
    }
    for &mask in read_quorums() {
        let highest = nodes(mask).map(|node| copies[node].0).max().unwrap_or(0);
        let newest = || nodes(mask).filter(|&node| copies[node].0 == highest);
        let wrong = newest().find(|&node| copies[node].1 != value);
        ensure!(wrong.is_none(), "(c) in {mask} node {wrong:?} has {copies:?} of object {object}, but replay ends with {value}");
        let wrong = newest().find(|&node| copies[node].2 != author);
        ensure!(
            wrong.is_none(),
            "(author) in {mask} node {wrong:?} has {copies:?} of object {object}, but replay's last writer is {author:?}"
        );
    }
    Ok(())
}
