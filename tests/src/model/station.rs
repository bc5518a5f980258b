//! The station: thirteen replicas and thirteen coordinators, the pool of waiting messages, who is on, each node's settings, and the steps.

use super::classes::{self, CLASSES};
use super::coordinator::{self, due, due_refusals, first, is_stranger, At, Call};
use super::hours;
use super::image::{self, Image};
use super::message::{kind, Message};
use super::quorum::{inside, only, NODES};
use super::record::{phase, Record};
use super::replica;
use super::settings::Settings;
use super::{number, Fault};

/// "The pool lists up to 128 messages."
pub const POOL: usize = 128;

#[derive(Clone, Debug, PartialEq, Eq)]
pub struct Station {
    pub images: [Image; NODES],
    pub records: [Record; NODES],
    /// In sending order.
    pub pool: Vec<Message>,
    /// The nodes that are on.
    pub on: u16,
    /// "Each booking end has its own table, in 2.2 too."
    pub settings: [Settings; NODES],
}

/// "The station's steps are a host call, a send of what is due, a delivery of any waiting message (kept or not), a drop, and switching a
/// controller off or on." Document 02 has the loading of a table of packing hours, and of weight classes, as they are lent.
#[derive(Clone, Debug, PartialEq, Eq)]
pub enum Step {
    Host { node: u8, call: Call },
    Load { node: u8, list: Vec<u8> },
    LoadClasses { node: u8, list: Vec<u8> },
    Send { node: u8, to: u8, object: u8 },
    Deliver { at: usize, kept: bool },
    Drop { at: usize },
    Switch { node: u8, on: bool },
}

/// What a step that took place tells: its number, which is 0, or 9 where it gave a batch up, its answer, and the message that it put into the pool.
#[derive(Clone, Debug, Default, PartialEq, Eq)]
pub struct Told {
    pub number: u8,
    pub answer: i64,
    pub put: Option<Message>,
}

/// A step with what it tells, or with the number that refuses it.
#[derive(Clone, Debug, PartialEq, Eq)]
pub struct Event {
    pub step: Step,
    pub told: Result<Told, u8>,
}

/// "A station is blank when its 13 images are, no message waits, and every booking end is idle with last serial and stamp 0." No table is loaded.
pub fn blank(on: u16) -> Station {
    let (images, records) = (std::array::from_fn(|_| image::blank()), std::array::from_fn(|_| Record::default()));
    Station { images, records, pool: vec![], on, settings: std::array::from_fn(|_| Settings::default()) }
}

/// Whether a message is meant for a replica; otherwise it is for a coordinator.
pub fn for_replica(message: &Message) -> bool {
    [kind::FETCH, kind::ASK, kind::OUTCOME].contains(&message.kind)
}

impl Station {
    pub fn is_on(&self, node: u8) -> bool {
        inside(only(usize::from(node)), self.on)
    }

    /// "At rest, every booking end is idle."
    pub fn at_rest(&self) -> bool {
        self.records.iter().all(|record| record.phase == phase::IDLE)
    }

    /// "A host call .. at one [that is off] is 5."
    fn host(&mut self, node: u8, asked: &Call) -> Result<Told, u8> {
        first(&[(number::LENGTH, asked.misfits()), (number::GARBLED, asked.garbled()), (number::STRANGER, is_stranger(node))])?;
        let (at, place) = (At { me: node, on: self.is_on(node) }, usize::from(node));
        let done = coordinator::call(&mut self.records[place], &mut self.settings[place], at, asked)?;
        Ok(Told { number: done.number, answer: done.answer, put: None })
    }

    /// "A faulty table gives 2 on loading", another length 1. A loading is a host call too: 4 for no such node, 5 for one that is off. It asks for no
    /// phase, and the table takes the place of the one before.
    fn load(&mut self, node: u8, list: &[u8]) -> Result<Told, u8> {
        let table = hours::read(list)?;
        first(&[(number::STRANGER, is_stranger(node))])?;
        first(&[(number::OUT_OF_TURN, !self.is_on(node))])?;
        self.settings[usize::from(node)].hours = Some(table);
        Ok(Told::default())
    }

    /// "Loading needs idle, else 10, and leaves none waiting." As a host call it has 4 and 5 before its own numbers.
    fn load_classes(&mut self, node: u8, list: &[u8]) -> Result<Told, u8> {
        let table = classes::read(list)?;
        first(&[(number::STRANGER, is_stranger(node))])?;
        first(&[(number::OUT_OF_TURN, !self.is_on(node))])?;
        first(&table.refusals(self.records[usize::from(node)].phase == phase::IDLE))?;
        self.settings[usize::from(node)].load_classes(table);
        Ok(Told::default())
    }

    /// The tenths that wait at a node, class by class.
    pub fn waiting(&self, node: usize) -> [u8; CLASSES] {
        self.settings[node].waiting(&self.records[node])
    }

    /// "What is due to a named controller .. changes no state." 12 with 128 messages waiting, also where nothing is due.
    fn send(&mut self, node: u8, to: u8, object: u8) -> Result<Told, u8> {
        first(&[(number::STRANGER, is_stranger(node) || is_stranger(to))])?;
        let record = &self.records[usize::from(node)];
        first(&due_refusals(record, At { me: node, on: self.is_on(node) }, to, object))?;
        first(&[(number::POOL_FULL, self.pool.len() == POOL)])?;
        let put = due(record, node, to, object);
        self.pool.extend(put.clone());
        Ok(Told { put, ..Told::default() })
    }

    /// "A message delivered to a controller that is off does nothing there." "An answer goes to the pool's end."
    fn deliver(&mut self, at: usize, kept: bool, fault: Fault) -> Result<Told, u8> {
        let message = self.pool.get(at).ok_or(number::OUT_OF_TURN)?.clone();
        let to = usize::from(message.to);
        let mut told = Told::default();
        if self.is_on(message.to) && for_replica(&message) {
            let mut image = self.images[to].clone();
            told.put = replica::deliver(&mut image, message.to, &message, fault)?;
            first(&[(number::POOL_FULL, kept && told.put.is_some() && self.pool.len() == POOL)])?;
            self.images[to] = image;
        } else if self.is_on(message.to) {
            told.answer = coordinator::deliver(&mut self.records[to], message.to, &message, fault)? as i64;
        }
        if !kept {
            self.pool.remove(at);
        }
        self.pool.extend(told.put.clone());
        Ok(told)
    }

    /// "A delivery or drop of no waiting message" is 5.
    fn drop_message(&mut self, at: usize) -> Result<Told, u8> {
        first(&[(number::OUT_OF_TURN, at >= self.pool.len())])?;
        self.pool.remove(at);
        Ok(Told::default())
    }

    /// "A repeated switch changes nothing."
    fn switch(&mut self, node: u8, on: bool) -> Result<Told, u8> {
        first(&[(number::STRANGER, is_stranger(node))])?;
        let bit = only(usize::from(node));
        self.on = if on { self.on | bit } else { self.on & !bit };
        Ok(Told::default())
    }

    /// One step. A refused one leaves everything as it was.
    pub fn step(&mut self, step: Step, fault: Fault) -> Event {
        let told = match step {
            Step::Host { node, ref call } => self.host(node, call),
            Step::Load { node, ref list } => self.load(node, list),
            Step::LoadClasses { node, ref list } => self.load_classes(node, list),
            Step::Send { node, to, object } => self.send(node, to, object),
            Step::Deliver { at, kept } => self.deliver(at, kept, fault),
            Step::Drop { at } => self.drop_message(at),
            Step::Switch { node, on } => self.switch(node, on),
        };
        Event { step, told }
    }
}
