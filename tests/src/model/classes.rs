//! Weight classes, from document 02's request 2.2: a table as it is lent, which class a weight is in, and a batch of weights.

use super::bytes::Reader;
use super::{number, OBJECTS};

/// "Up to seven bounds .. and a tally for each of the up to eight classes between them."
pub const BOUNDS: usize = 7;
pub const CLASSES: usize = 8;

/// "1 to 1,999 tenths of a gram"; "a weight of 2,000 or more" is too heavy.
pub const HEAVIEST: u16 = 1999;

/// "A batch of up to 4,096 weights."
pub const WEIGHTS: usize = 4096;

/// Tenths in a gram.
const GRAM: u64 = 10;

/// A table: its bounds, and the object of each class.
#[derive(Clone, Debug, Default, PartialEq, Eq)]
pub struct Classes {
    pub bounds: Vec<u16>,
    pub objects: Vec<u8>,
}

impl Classes {
    /// "A weight on a bound is in the upper class": the last class whose lower bound is not above the weight.
    pub fn class_of(&self, weight: u16) -> usize {
        (0..=self.bounds.len()).rev().find(|&class| class == 0 || self.bounds[class - 1] <= weight).unwrap_or(0)
    }

    /// The tenths that a batch has in each class.
    pub fn weigh(&self, weights: &[u16]) -> [u64; CLASSES] {
        let mut tenths = [0; CLASSES];
        for &weight in weights {
            tenths[self.class_of(weight)] += u64::from(weight);
        }
        tenths
    }

    /// "When they don't rise strictly, leave that range, are more than seven or not one fewer than the tallies."
    fn unbounded(&self) -> bool {
        let rise = self.bounds.windows(2).all(|two| two[0] < two[1]);
        let range = self.bounds.iter().all(|bound| (1..=HEAVIEST).contains(bound));
        !rise || !range || self.bounds.len() > BOUNDS || self.bounds.len() + 1 != self.objects.len()
    }

    fn twice(&self) -> bool {
        (1..self.objects.len()).any(|at| self.objects[..at].contains(&self.objects[at]))
    }

    /// The numbers of its loading behind those of the lengths and the node: "Loading needs idle, else 10"; "14 .., then 15".
    pub fn refusals(&self, idle: bool) -> Vec<(u8, bool)> {
        vec![
            (number::NO_SUCH_OBJECT, self.objects.iter().any(|&object| usize::from(object) >= OBJECTS)),
            (number::BUSY, !idle),
            (number::BOUNDS, self.unbounded()),
            (number::TALLY_TWICE, self.twice()),
        ]
    }

    pub fn sound(&self) -> bool {
        self.refusals(true).iter().all(|(_, holds)| !holds)
    }
}

/// "A one-byte count of entries .., then little-endian numbers in 1, 2 or 4 bytes, as their range needs; a table's lists follow each other as named."
pub fn encode(classes: &Classes) -> Vec<u8> {
    let mut bytes = vec![classes.bounds.len() as u8];
    bytes.extend(classes.bounds.iter().flat_map(|bound| bound.to_le_bytes()));
    bytes.push(classes.objects.len() as u8);
    bytes.extend(&classes.objects);
    bytes
}

/// The table at the front of some bytes, sound or not; none where they end before it does.
pub fn front(reader: &mut Reader) -> Option<Classes> {
    let mut classes = Classes::default();
    for _ in 0..reader.u8()? {
        classes.bounds.push(reader.u16()?);
    }
    for _ in 0..reader.u8()? {
        classes.objects.push(reader.u8()?);
    }
    Some(classes)
}

/// A table as it is lent, sound or not; "another length gives 1".
pub fn read(list: &[u8]) -> Result<Classes, u8> {
    let mut reader = Reader::new(list);
    front(&mut reader).filter(|_| reader.at_end()).ok_or(number::LENGTH)
}

/// "A one-byte count of entries (two for weights)."
pub fn encode_weights(weights: &[u16]) -> Vec<u8> {
    let count = weights.len() as u16;
    [count].iter().chain(weights).flat_map(|number| number.to_le_bytes()).collect()
}

/// The weights of a batch as it is lent, too heavy or not; 1 for another length.
pub fn read_weights(list: &[u8]) -> Result<Vec<u16>, u8> {
    let mut reader = Reader::new(list);
    let count = reader.u16().ok_or(number::LENGTH)?;
    let weights: Option<Vec<u16>> = (0..count).map(|_| reader.u16()).collect();
    weights.filter(|_| reader.at_end()).ok_or(number::LENGTH)
}

/// "A weight of 2,000 or more, or a longer batch, gives 3."
pub fn garbled(weights: &[u16]) -> bool {
    weights.len() > WEIGHTS || weights.iter().any(|&weight| weight > HEAVIEST)
}

/// "Adds whole grams to each class's tally. The tenths left over .. wait": egg by egg, whole grams go and tenths stay. The grams and the tenths of each
/// class, from the tenths that waited.
pub fn book(classes: &Classes, waiting: [u8; CLASSES], weights: &[u16]) -> ([u64; CLASSES], [u8; CLASSES]) {
    let mut grams = [0; CLASSES];
    let mut tenths = waiting.map(u64::from);
    for &weight in weights {
        let class = classes.class_of(weight);
        tenths[class] += u64::from(weight);
        grams[class] += tenths[class] / GRAM;
        tenths[class] %= GRAM;
    }
    (grams, tenths.map(|tenths| tenths as u8))
}

/// What was weighed and booked at a node since its table was loaded, class by class: tenths of committed batches, and grams. It never splits a weight.
#[derive(Clone, Debug, Default, PartialEq, Eq)]
pub struct Ledger {
    pub weighed: [u64; CLASSES],
    pub booked: [u64; CLASSES],
}

impl Ledger {
    /// A batch was committed.
    pub fn commit(&mut self, tenths: [u64; CLASSES], grams: [u64; CLASSES]) {
        for class in 0..CLASSES {
            self.weighed[class] += tenths[class];
            self.booked[class] += grams[class];
        }
    }

    /// "Ten times the grams booked plus the tenths waiting is the sum of all weights, class by class", and those are "0 to 9 a class". Else a class in
    /// which it is not so.
    pub fn astray(&self, waiting: [u8; CLASSES]) -> Option<usize> {
        let kept = |class: usize| GRAM * self.booked[class] + u64::from(waiting[class]) == self.weighed[class];
        (0..CLASSES).find(|&class| waiting[class] > 9 || !kept(class))
    }
}
