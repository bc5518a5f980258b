//! What an operation is run on: the buffers it may be lent, and how they are put back to what they were.

use crate::library::{Entries, Serials, Transaction, DISTANCES};
use crate::station::Station;

/// The lent buffers, and arguments that are too long for an operation's text.
#[derive(Clone)]
pub struct Stage {
    pub station: Station,
    pub image: Vec<u8>,
    pub record: Vec<u8>,
    pub settings: Vec<u8>,
    /// A table of packing hours, a table of weight classes, a batch.
    pub table: Vec<u8>,
    pub classes: Vec<u8>,
    pub batch: Vec<u8>,
    pub message: Vec<u8>,
    pub out: Vec<u8>,
    pub distances: [u8; DISTANCES],
    pub of: Transaction,
    pub entries: Entries,
    pub serials: Serials,
    /// How many objects a whole transaction opens.
    pub objects: u8,
}

impl Stage {
    /// The buffers that a call may change.
    fn buffers(&self) -> [&Vec<u8>; 9] {
        let Station { images, records, pool, own, settings } = &self.station;
        [images, records, pool, own, settings, &self.image, &self.record, &self.settings, &self.out]
    }

    fn buffers_mut(&mut self) -> [&mut Vec<u8>; 9] {
        let Station { images, records, pool, own, settings } = &mut self.station;
        [images, records, pool, own, settings, &mut self.image, &mut self.record, &mut self.settings, &mut self.out]
    }

    /// Whether every buffer has the same bytes as another's.
    pub fn same_bytes(&self, other: &Stage) -> bool {
        self.buffers() == other.buffers()
    }
}

/// The bytes that a call changed, as they were: of each buffer all from the first that differs to the last.
pub struct Undo {
    parts: Vec<(usize, usize, Vec<u8>)>,
}

impl Undo {
    pub fn between(before: &Stage, after: &Stage) -> Undo {
        let mut parts = Vec::new();
        for (which, (old, new)) in before.buffers().into_iter().zip(after.buffers()).enumerate() {
            let differs = |place: &usize| old[*place] != new[*place];
            if let (Some(first), Some(last)) = ((0..old.len()).find(differs), (0..old.len()).rev().find(differs)) {
                parts.push((which, first, old[first..=last].to_vec()));
            }
        }
        Undo { parts }
    }

    pub fn restore(&self, stage: &mut Stage) {
        for (which, first, bytes) in &self.parts {
            let buffer = stage.buffers_mut().into_iter().nth(*which).expect("a buffer");
            buffer[*first..first + bytes.len()].copy_from_slice(bytes);
        }
    }
}
