//! The station in its five buffers: what bytes a station has, what a step leaves of them, and a step on buffers of any bytes.
//!
//! "In the station's 15,691 bytes each controller's 1,207 bytes are lent onward from the middle", by document 02 38,155 and 2,935. The pool is a count and
//! 128 slots of a length and 128 bytes. Removing a message moves the slots behind it one place down, and leaves the last slot's bytes; adding one writes its
//! length and its bytes to the slot behind the last, and leaves the rest of the slot.

use super::classes;
use super::coordinator::first;
use super::hours;
use super::image::{self, IMAGE, OLDER};
use super::message::{self, Message, LONGEST};
use super::quorum::{ALL, NODES};
use super::record::{self, RECORD};
use super::settings::{self, SETTINGS, STATION_SETTINGS};
use super::station::{blank, for_replica, Event, Station, Step, Told, POOL};
use super::{number, Fault};

/// Bytes of a slot: its length and its message.
const SLOT: usize = 1 + LONGEST;

/// Bytes of each buffer.
pub const IMAGES: usize = NODES * IMAGE;
pub const RECORDS: usize = NODES * RECORD;
pub const SLOTS: usize = 1 + POOL * SLOT;
pub const OWN: usize = 2;

/// The images, the records, the pool, the mask of the nodes that are on, and the settings.
#[derive(Clone, Debug, PartialEq, Eq)]
pub struct Buffers {
    pub images: Vec<u8>,
    pub records: Vec<u8>,
    pub pool: Vec<u8>,
    pub own: Vec<u8>,
    pub settings: Vec<u8>,
}

/// A station in which no message waits.
pub fn of(station: &Station) -> Buffers {
    Buffers {
        images: station.images.iter().flat_map(image::encode).collect(),
        records: station.records.iter().flat_map(record::encode).collect(),
        pool: vec![0; SLOTS],
        own: station.on.to_le_bytes().to_vec(),
        settings: station.settings.iter().flat_map(settings::encode).collect(),
    }
}

/// The call that takes a station's thirteen older images in, to a buffer of `size` bytes: 1 where they are not thirteen of one older length or the buffer
/// has another length, then 2 where any is damaged. "A station converted whole."
pub fn take_in_call(old: &[u8], size: usize) -> Result<Vec<u8>, u8> {
    let layout = OLDER.into_iter().find(|layout| NODES * layout.length() == old.len());
    let layout = layout.filter(|_| size == IMAGES).ok_or(number::LENGTH)?;
    let images: Result<Vec<Vec<u8>>, u8> = old.chunks(layout.length()).map(|one| image::take_in_call(one, IMAGE)).collect();
    Ok(images?.concat())
}

impl Buffers {
    pub fn image(&self, node: usize) -> &[u8] {
        &self.images[node * IMAGE..(node + 1) * IMAGE]
    }

    pub fn record(&self, node: usize) -> &[u8] {
        &self.records[node * RECORD..(node + 1) * RECORD]
    }

    pub fn settings(&self, node: usize) -> &[u8] {
        &self.settings[node * SETTINGS..(node + 1) * SETTINGS]
    }

    pub fn on(&self) -> u16 {
        u16::from_le_bytes([self.own[0], self.own[1]])
    }

    /// How many messages wait, and the k-th of them. A length that is impossible is that of no byte.
    pub fn waiting(&self) -> usize {
        usize::from(self.pool[0])
    }

    pub fn message(&self, k: usize) -> &[u8] {
        let start = 2 + SLOT * k;
        let length = usize::from(self.pool[start - 1]);
        &self.pool[start..start + if length <= LONGEST { length } else { 0 }]
    }

    pub fn put_image(&mut self, node: usize, image: &image::Image) {
        self.images[node * IMAGE..(node + 1) * IMAGE].copy_from_slice(&image::encode(image));
    }

    pub fn put_record(&mut self, node: usize, record: &record::Record) {
        self.records[node * RECORD..(node + 1) * RECORD].copy_from_slice(&record::encode(record));
    }

    pub fn put_settings(&mut self, node: usize, settings: &[u8]) {
        self.settings[node * SETTINGS..(node + 1) * SETTINGS].copy_from_slice(settings);
    }

    /// Some bytes as the k-th message, whatever they are; they fit into the slot.
    pub fn put_message(&mut self, k: usize, bytes: &[u8]) {
        let start = 1 + SLOT * k;
        self.pool[start] = bytes.len() as u8;
        self.pool[start + 1..start + 1 + bytes.len()].copy_from_slice(bytes);
    }

    pub fn add(&mut self, bytes: &[u8]) {
        self.put_message(self.waiting(), bytes);
        self.pool[0] += 1;
    }

    pub fn remove(&mut self, k: usize) {
        let last = self.waiting() - 1;
        self.pool.copy_within(1 + SLOT * (k + 1)..1 + SLOT * (last + 1), 1 + SLOT * k);
        self.pool[0] = last as u8;
    }

    /// The station that these bytes are; none where some part of them is none.
    pub fn station(&self) -> Option<Station> {
        let mut station = blank(self.on());
        for node in 0..NODES {
            station.images[node] = image::load(self.image(node)).ok()?;
            station.records[node] = record::load(self.record(node)).ok()?;
            station.settings[node] = settings::load(self.settings(node)).ok()?;
        }
        station.pool = (0..self.waiting()).map(|k| message::receive(self.message(k)).ok()).collect::<Option<Vec<Message>>>()?;
        Some(station)
    }

    /// What a step leaves of the bytes, from the station after it: its node's image, record or settings, the pool, who is on.
    pub fn leave(&mut self, event: &Event, after: &Station) {
        let Ok(told) = &event.told else { return };
        match event.step {
            Step::Host { node, ref call } => {
                let at = usize::from(node);
                self.put_record(at, &after.records[at]);
                if call.begins() {
                    self.put_settings(at, &settings::with_begin(self.settings(at), &after.settings[at]));
                }
            }
            Step::Load { node, .. } => {
                let at = usize::from(node);
                let table = after.settings[at].hours.as_ref().expect("a table was loaded");
                self.put_settings(at, &settings::with_hours(self.settings(at), table));
            }
            Step::LoadClasses { node, .. } => {
                let at = usize::from(node);
                let table = after.settings[at].classes.as_ref().expect("a table was loaded");
                self.put_settings(at, &settings::with_classes(self.settings(at), table));
            }
            Step::Deliver { at, kept } => {
                let message = message::decode(self.message(at)).expect("a message");
                let to = usize::from(message.to);
                if after.is_on(message.to) && for_replica(&message) {
                    self.put_image(to, &after.images[to]);
                } else if after.is_on(message.to) {
                    self.put_record(to, &after.records[to]);
                }
                if !kept {
                    self.remove(at);
                }
            }
            Step::Drop { at } => self.remove(at),
            Step::Switch { .. } => self.own = after.on.to_le_bytes().to_vec(),
            Step::Send { .. } => {}
        }
        if let Some(put) = &told.put {
            self.add(&message::encode(put));
        }
    }

    /// The numbers of the buffers that a step is lent: 1 for a length, a list's too, 2 for a pool or a mask that is none.
    fn refusals(&self, step: &Step) -> Result<(), u8> {
        let misfits = match step {
            Step::Host { call, .. } => call.misfits(),
            Step::Load { list, .. } => hours::read(list) == Err(number::LENGTH),
            Step::LoadClasses { list, .. } => classes::read(list).is_err(),
            _ => false,
        };
        let (sorts, loads) = (matches!(step, Step::LoadClasses { .. }), matches!(step, Step::Load { .. } | Step::LoadClasses { .. }));
        let (host, deliver) = (matches!(step, Step::Host { .. } | Step::Send { .. }), matches!(step, Step::Deliver { .. }));
        let pool = deliver || matches!(step, Step::Send { .. } | Step::Drop { .. });
        let own = host || deliver || loads || matches!(step, Step::Switch { .. });
        let settings = loads || matches!(step, Step::Host { call, .. } if call.asks_settings());
        first(&[
            (number::LENGTH, misfits),
            (number::LENGTH, deliver && self.images.len() != IMAGES),
            (number::LENGTH, (host || deliver || sorts) && self.records.len() != RECORDS),
            (number::LENGTH, pool && self.pool.len() != SLOTS),
            (number::LENGTH, own && self.own.len() != OWN),
            (number::LENGTH, settings && self.settings.len() != STATION_SETTINGS),
        ])?;
        first(&[(number::DAMAGED, pool && self.waiting() > POOL), (number::DAMAGED, own && self.on() > ALL)])
    }

    /// The part of the station that a step needs: a node's image, record or settings, and so many messages waiting, of which only the k-th matters.
    fn part(&self, step: &Step) -> Result<Station, u8> {
        let mut station = blank(if self.own.len() == OWN { self.on() } else { 0 });
        match *step {
            Step::Host { node, ref call } if usize::from(node) < NODES => {
                let at = usize::from(node);
                station.records[at] = record::load(self.record(at))?;
                if call.asks_settings() {
                    station.settings[at] = settings::load(self.settings(at))?;
                }
            }
            Step::Load { node, .. } if usize::from(node) < NODES => {
                station.settings[usize::from(node)] = settings::load(self.settings(usize::from(node)))?;
            }
            Step::LoadClasses { node, .. } if usize::from(node) < NODES => {
                let at = usize::from(node);
                station.records[at] = record::load(self.record(at))?;
                station.settings[at] = settings::load(self.settings(at))?;
            }
            Step::Send { node, .. } if usize::from(node) < NODES => {
                station.records[usize::from(node)] = record::load(self.record(usize::from(node)))?;
            }
            Step::Deliver { at, .. } if at < self.waiting() => {
                let message = message::receive(self.message(at))?;
                let to = usize::from(message.to);
                if station.is_on(message.to) && for_replica(&message) {
                    station.images[to] = image::load(self.image(to))?;
                } else if station.is_on(message.to) {
                    station.records[to] = record::load(self.record(to))?;
                }
                station.pool = vec![message; self.waiting()];
            }
            _ => {}
        }
        if let (Step::Send { .. } | Step::Drop { .. }, true) = (step, self.pool.len() == SLOTS) {
            let any = message::done(0, message::Transaction { owner: 0, serial: 1, stamp: 1 });
            station.pool = vec![any; self.waiting()];
        }
        Ok(station)
    }

    /// A step on buffers of any bytes. Only its node's part and what it is lent are looked at; a refused one leaves every byte.
    pub fn step(&mut self, step: &Step) -> Result<Told, u8> {
        self.refusals(step)?;
        let mut station = self.part(step)?;
        let event = station.step(step.clone(), Fault::None);
        self.leave(&event, &station);
        event.told
    }
}
