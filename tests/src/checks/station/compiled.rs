//! The library's station, driven through its C functions beside the model's: after every step its number, its answer and every byte of its five
//! buffers are the model's, and the messages that wait are read back through the library.

use super::ends::answered;
use super::scenario::{next_step, some_style};
use crate::ffi;
use crate::ffi::coordinator as lone;
use crate::ffi::station as library;
use crate::model::buffers::{self, Buffers, IMAGES, OWN, RECORDS, SLOTS};
use crate::model::classes::CLASSES;
use crate::model::image::{Image, IMAGE};
use crate::model::quorum::ALL;
use crate::model::settings::{self, STATION_SETTINGS};
use crate::model::station::{blank, Event, Station, Step, Told};
use crate::model::{message, number, record, Fault};
use crate::random::Random;
use crate::runner::{ensure, Verdict};

#[derive(Clone)]
pub struct Compiled {
    /// The library's buffers.
    is: Buffers,
    /// What they must be.
    expected: Buffers,
    /// What the library's bytes say, as far as a step touched them: records, settings, who is on, the messages that wait.
    shown: Station,
}

impl Compiled {
    /// A station in which no message waits; a blank one is made by the library, over bytes of any kind.
    pub fn new(station: &Station) -> Compiled {
        let expected = buffers::of(station);
        let mut is = expected.clone();
        if *station == blank(station.on) {
            let any = |length: usize| vec![0xa5; length];
            let (images, records, pool) = (any(IMAGES), any(RECORDS), any(SLOTS));
            is = Buffers { images, records, pool, own: any(OWN), settings: any(STATION_SETTINGS) };
            library::blank(&mut is, station.on);
        }
        Compiled { is, expected, shown: station.clone() }
    }

    pub fn shown(&self) -> &Station {
        &self.shown
    }

    /// The last message that waits, read through the library.
    fn last(&self) -> Option<message::Message> {
        let k = library::waiting(&self.is.pool).checked_sub(1)?;
        let (number, place, length) = library::message(&self.is.pool, k as u8);
        let bytes = self.is.pool.get(place..place + length).filter(|_| number == number::OK)?;
        message::receive(bytes).ok()
    }

    /// The model took a step; the library takes it too. What it tells, read from its own bytes.
    pub fn follow(&mut self, event: Event, after: &Station) -> Result<Event, String> {
        let waited = library::waiting(&self.is.pool);
        let (number, answer) = library::step(&mut self.is, &event.step);
        ensure!((number, answer) == answered(&event.told), "{event:?}: the library says {number} and {answer}");
        self.expected.leave(&event, after);
        self.same().map_err(|name| format!("{event:?}: the library's {name} are other bytes"))?;
        self.tell(event.step, number, answer, waited)
    }

    /// The library's bytes are those that they must be; else the first buffer that is another.
    fn same(&self) -> Result<(), String> {
        let (is, expected) = (&self.is, &self.expected);
        ensure!(is.images == expected.images, "images");
        ensure!(is.records == expected.records, "records");
        ensure!(is.pool == expected.pool, "pool");
        ensure!(is.own == expected.own, "mask");
        ensure!(is.settings == expected.settings, "settings");
        Ok(())
    }

    /// The library takes the older images in, one by one or at once, to where its images are, which then has these.
    pub fn take_in(&mut self, old: &[Vec<u8>], images: &[Image], at_once: bool) -> Result<(), String> {
        let number = if at_once {
            library::take_in(&old.concat(), &mut self.is.images)
        } else {
            let parts = self.is.images.chunks_mut(IMAGE);
            parts.zip(old).map(|(part, old)| ffi::take_in(old, part)).max().unwrap_or(number::LENGTH)
        };
        ensure!(number == number::OK, "the library does not take the older images in: {number}");
        (0..).zip(images).for_each(|(node, image)| self.expected.put_image(node, image));
        self.same().map_err(|name| format!("the older images are taken in: the library's {name} are other bytes"))
    }

    /// The event as the library's station tells it.
    fn tell(&mut self, step: Step, number: u8, answer: i64, waited: usize) -> Result<Event, String> {
        // A batch that is given up is the one refusal that changes something, and its answer tells it.
        if number != number::OK && answer == 0 {
            return Ok(Event { step, told: Err(number) });
        }
        let waits = library::waiting(&self.is.pool);
        let mut touched = None;
        match step {
            Step::Host { node, .. } | Step::Load { node, .. } | Step::LoadClasses { node, .. } => touched = Some(node),
            Step::Deliver { at, kept } => {
                touched = Some(self.shown.pool[at].to);
                if !kept {
                    self.shown.pool.remove(at);
                }
            }
            Step::Drop { at } => {
                self.shown.pool.remove(at);
            }
            Step::Send { .. } | Step::Switch { .. } => {}
        }
        let left = self.shown.pool.len();
        ensure!(left <= waited && waits >= left && waits <= left + 1, "{waited} waited and {waits} wait");
        let put = if waits > left { Some(self.last().ok_or("what was put is no message")?) } else { None };
        self.shown.pool.extend(put.clone());
        self.shown.on = self.is.on();
        if let Some(node) = touched {
            let node = usize::from(node);
            self.shown.records[node] = record::load(self.is.record(node)).map_err(|number| format!("node {node}'s record is {number}"))?;
            self.shown.settings[node] =
                settings::load(self.is.settings(node)).map_err(|number| format!("node {node}'s settings are {number}"))?;
            self.told_waiting(node)?;
        }
        Ok(Event { step, told: Ok(Told { number, answer, put }) })
    }

    /// What the library tells of the tenths that wait at a node, and of the kind of its last transaction.
    fn told_waiting(&self, node: usize) -> Result<(), String> {
        let (record, settings) = (self.is.record(node), self.is.settings(node));
        let waiting = self.shown.waiting(node);
        let classes = self.shown.settings[node].classes.as_ref().map_or(0, |table| table.objects.len());
        for class in 0..=CLASSES as u8 {
            let got = lone::waiting(record, settings, class);
            let has = usize::from(class) < classes;
            let expected = if has { (number::OK, i64::from(waiting[usize::from(class)])) } else { (number::NO_SUCH_OBJECT, 0) };
            ensure!(got == expected, "node {node}, class {class}: the library says {got:?} wait, the model {expected:?}");
        }
        let kind = lone::settings_kind(settings);
        ensure!(kind == (number::OK, i64::from(self.shown.settings[node].kind)), "node {node}: the library says the kind {kind:?}");
        Ok(())
    }

    /// All that the library's bytes say, which is the model's station.
    pub fn whole(&self, model: &Station) -> Result<Station, String> {
        let station = self.is.station().ok_or("the library's bytes are no station")?;
        ensure!(
            station == *model
                && station.pool == self.shown.pool
                && station.records == self.shown.records
                && station.settings == self.shown.settings,
            "the bytes say another station"
        );
        for k in 0..=255u8 {
            let (number, place, length) = library::message(&self.is.pool, k);
            let waits = usize::from(k) < station.pool.len();
            let told =
                if waits { self.is.pool[place..place + length] == *self.is.message(usize::from(k)) } else { place == 0 && length == 0 };
            ensure!(told && number == if waits { number::OK } else { number::OUT_OF_TURN }, "message {k} is said to be at {place}");
        }
        Ok(station)
    }
}

/// The comparison notices any bit of the library's bytes that is another: how many were made so.
pub fn noticed(random: &mut Random) -> Verdict {
    let (mut model, style) = (blank(ALL), some_style(random));
    let mut compiled = Compiled::new(&model);
    for trial in 0..400 {
        for _ in 0..5 {
            let event = model.step(next_step(random, &model, &style), Fault::None);
            compiled.follow(event, &model)?;
        }
        let (name, bytes) = match trial % 5 {
            0 => ("images", &mut compiled.is.images),
            1 => ("records", &mut compiled.is.records),
            2 => ("pool", &mut compiled.is.pool),
            3 => ("settings", &mut compiled.is.settings),
            _ => ("mask", &mut compiled.is.own),
        };
        let (at, bit) = (random.below(bytes.len()), 1 << random.below(8));
        bytes[at] ^= bit;
        let same = compiled.same();
        ensure!(same == Err(String::from(name)), "bit {bit} of byte {at} of the {name} is not noticed: {same:?}");
        compiled.is = compiled.expected.clone();
    }
    Ok(String::from("400 bits"))
}

/// Makers of a blank station: every mask; each buffer a byte short or long; and what they leave.
pub fn blanks(random: &mut Random) -> Verdict {
    for on in 0..=65_535 {
        if on > ALL && on % 64 != 0 {
            continue;
        }
        let mut it = buffers::of(&blank(0));
        it.pool.fill(random.byte());
        it.records.fill(random.byte());
        it.images.fill(random.byte());
        it.settings.fill(random.byte());
        let before = it.clone();
        let number = library::blank(&mut it, on);
        let (expected, left) = if on <= ALL { (number::OK, buffers::of(&blank(on))) } else { (number::STRANGER, before) };
        ensure!(number == expected && it == left, "a blank station with {on} on has number {number}");
    }
    for which in 0..10 {
        let mut it = buffers::of(&blank(ALL));
        let all = [&mut it.images, &mut it.records, &mut it.pool, &mut it.own, &mut it.settings];
        let buffer = all.into_iter().nth(which / 2).expect("one of five");
        buffer.resize(if which % 2 == 0 { buffer.len() - 1 } else { buffer.len() + 1 }, 7);
        it.images.fill(9);
        it.settings.fill(9);
        let before = it.clone();
        for on in [0, ALL, ALL + 1] {
            let number = library::blank(&mut it, on);
            ensure!(number == number::LENGTH && it == before, "buffers of another length have number {number}");
        }
    }
    Ok(String::from("every mask, each length"))
}
