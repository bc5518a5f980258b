//! A station's five buffers, and its steps as data, so that one list of steps can be taken with either library.

use crate::library::{
    BeginWith, Lent, Library, Told, DISTANCES, IMAGE, IMAGES, OWN, POOL, RECORD, RECORDS, SETTINGS, SLOT, STATION_SETTINGS,
};

#[derive(Clone, PartialEq, Eq)]
pub struct Station {
    pub images: Vec<u8>,
    pub records: Vec<u8>,
    pub pool: Vec<u8>,
    pub own: Vec<u8>,
    pub settings: Vec<u8>,
}

/// A step of the station.
#[derive(Clone, Copy, Debug)]
pub enum Step {
    Begin {
        node: u8,
        live: u16,
        distances: [u8; DISTANCES],
        timestamp: u32,
        day: u32,
        minute: u16,
    },
    Reselect {
        node: u8,
        live: u16,
        distances: [u8; DISTANCES],
    },
    OpenRead {
        node: u8,
        object: u8,
    },
    OpenWrite {
        node: u8,
        object: u8,
    },
    SetValue {
        node: u8,
        object: u8,
        value: i64,
    },
    Found {
        node: u8,
        object: u8,
    },
    RequestCommit {
        node: u8,
    },
    Abort {
        node: u8,
    },
    Send {
        node: u8,
        to: u8,
        object: u8,
    },
    Deliver {
        k: u8,
        kept: u8,
    },
    Drop {
        k: u8,
    },
    Switch {
        node: u8,
        up: u8,
    },
    /// One of the tables below, by its place.
    LoadHours {
        node: u8,
        table: u8,
    },
    LoadClasses {
        node: u8,
        table: u8,
    },
    /// One of the batches below, by its place.
    Batch {
        node: u8,
        live: u16,
        distances: [u8; DISTANCES],
        timestamp: u32,
        day: u32,
        minute: u16,
        batch: u8,
    },
}

/// Tables of packing hours that steps load: the week in one window; minutes 600 to 699, with dates; two windows that overlap; three that are refused.
pub const TABLES: [&[u8]; 6] = [
    &[1, 0, 0, 0x60, 0x27, 0],
    &[1, 0x58, 0x02, 0xbc, 0x02, 3, 1, 0, 0, 0, 0, 1, 0, 0, 255, 255, 255, 255],
    &[2, 0x8a, 0x02, 0xbc, 0x02, 0, 0, 0x8b, 0x02, 0],
    &[1, 0, 0, 0x60, 0x27, 1],
    &[1, 0x58, 0x02, 0x58, 0x02, 0],
    &[1, 0, 0, 0x61, 0x27, 0],
];

/// Tables of weight classes that steps load: one class; two; eight; and those that are refused, with 1, 6, 14 and 15.
pub const CLASSES: [&[u8]; 8] = [
    &[0, 1, 7],
    &[1, 0x12, 0x02, 2, 14, 0],
    &LONGEST_CLASSES,
    &[1, 1, 0, 2, 21, 127],
    &[0, 2, 7],
    &[0, 1, 128],
    &[2, 9, 0, 9, 0, 3, 5, 6, 7],
    &[1, 9, 0, 2, 5, 5],
];

/// The longest table of classes: eight, in the objects 0, 7, 14, .., by bounds of 200, 400, .. tenths.
pub const LONGEST_CLASSES: [u8; 24] = [7, 200, 0, 0x90, 1, 0x58, 2, 0x20, 3, 0xe8, 3, 0xb0, 4, 0x78, 5, 8, 0, 7, 14, 21, 28, 35, 42, 49];

/// Batches that steps book: none, 3.7 g, 6.4 g, five weights; and those that are refused, with 1 and 3.
pub const BATCHES: [&[u8]; 6] =
    [&[0, 0], &[1, 0, 37, 0], &[1, 0, 64, 0], &[5, 0, 0, 0, 0x12, 2, 0x11, 2, 0xcf, 7, 9, 0], &[2, 0, 37, 0], &[1, 0, 0xd0, 7]];

/// The longest batch: 4,096 weights of all classes.
pub fn longest_batch() -> Vec<u8> {
    let weights = (0..4096u32).map(|i| (i * 1237 % 2000) as u16);
    [4096].into_iter().chain(weights).flat_map(u16::to_le_bytes).collect()
}

/// The longest table: fourteen windows, of which the last alone has minute 600, and 32 dates.
pub fn longest_table() -> Vec<u8> {
    let starts = (0..14u16).map(|i| if i < 13 { 700 + 100 * i } else { 600 });
    let windows = starts.flat_map(|start| [start, start + 50]).flat_map(u16::to_le_bytes);
    let dates = (0..32u32).flat_map(|i| (1000 + i).to_le_bytes());
    [14].into_iter().chain(windows).chain([32]).chain(dates).collect()
}

impl Station {
    /// A blank station whose nodes of a mask are on.
    pub fn blank<L: Library>(on: u16) -> Station {
        let (images, records, pool) = (vec![0; IMAGES], vec![0; RECORDS], vec![0; POOL]);
        let mut station = Station { images, records, pool, own: vec![0; OWN], settings: vec![0; STATION_SETTINGS] };
        assert_eq!(L::station_blank(station.lent(), on), 0, "a blank station");
        station
    }

    #[inline(always)]
    pub fn lent(&mut self) -> Lent<'_> {
        let Station { images, records, pool, own, settings } = self;
        Lent { images, records, pool, own, settings }
    }

    pub fn settings(&self, node: usize) -> &[u8] {
        &self.settings[SETTINGS * node..SETTINGS * (node + 1)]
    }

    pub fn record(&self, node: usize) -> &[u8] {
        &self.records[RECORD * node..RECORD * (node + 1)]
    }

    pub fn image(&self, node: usize) -> &[u8] {
        &self.images[IMAGE * node..IMAGE * (node + 1)]
    }

    pub fn waiting(&self) -> usize {
        usize::from(self.pool[0])
    }

    /// The k-th waiting message.
    pub fn message(&self, k: usize) -> &[u8] {
        let start = 1 + SLOT * k;
        &self.pool[start + 1..start + 1 + usize::from(self.pool[start])]
    }

    /// Puts some bytes at the pool's end.
    pub fn put(&mut self, message: &[u8]) {
        let start = 1 + SLOT * self.waiting();
        self.pool[start] = message.len() as u8;
        self.pool[start + 1..start + 1 + message.len()].copy_from_slice(message);
        self.pool[0] += 1;
    }

    /// One step with a library.
    pub fn take<L: Library>(&mut self, step: &Step) -> Told {
        let (records, own) = (&mut self.records[..], &self.own[..]);
        match *step {
            Step::Begin { node, live, ref distances, timestamp, day, minute } => {
                L::station_begin(records, own, &mut self.settings, node, BeginWith { live, distances, timestamp, day, minute })
            }
            Step::Batch { node, live, ref distances, timestamp, day, minute, batch } => {
                let (with, list) = (BeginWith { live, distances, timestamp, day, minute }, BATCHES[usize::from(batch) % BATCHES.len()]);
                L::station_batch(records, own, &mut self.settings, node, with, list)
            }
            Step::Reselect { node, live, ref distances } => L::station_reselect(records, own, node, live, distances),
            Step::OpenRead { node, object } => L::station_open_read(records, own, &self.settings, node, object),
            Step::OpenWrite { node, object } => L::station_open_write(records, own, &self.settings, node, object),
            Step::SetValue { node, object, value } => L::station_set_value(records, own, &self.settings, node, object, value),
            Step::Found { node, object } => L::station_found(records, own, node, object),
            Step::RequestCommit { node } => L::station_request_commit(records, own, &self.settings, node),
            Step::Abort { node } => L::station_abort(records, own, node),
            Step::Send { node, to, object } => L::station_send(records, &mut self.pool, own, node, to, object),
            Step::Deliver { k, kept } => L::station_deliver(self.lent(), k, kept),
            Step::Drop { k } => L::station_drop(&mut self.pool, k),
            Step::Switch { node, up } => L::station_switch(&mut self.own, node, up),
            Step::LoadHours { node, table } => {
                L::station_load_hours(own, &mut self.settings, node, TABLES[usize::from(table) % TABLES.len()])
            }
            Step::LoadClasses { node, table } => {
                L::station_load_classes(records, own, &mut self.settings, node, CLASSES[usize::from(table) % CLASSES.len()])
            }
        }
    }

    /// One step that must be accepted; its answer.
    pub fn must<L: Library>(&mut self, step: Step) -> u64 {
        let told = self.take::<L>(&step);
        assert_eq!(told.number, 0, "{step:?}");
        told.answer
    }
}
