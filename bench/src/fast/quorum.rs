//! Quorums by tables of 8,192 bits, and the nearest one level by level over keys of one word each.

use super::bytes::get_u16;
use super::number;
use crate::library::{Chosen, ALL, DISTANCES};

type Table = [u64; 128];

const fn two_of(a: bool, b: bool, c: bool) -> bool {
    (a & b) | (a & c) | (b & c)
}

const fn has(mask: usize, node: usize) -> bool {
    mask >> node & 1 == 1
}

/// Whether a set has a quorum of the subtree at a node below the root.
const fn in_hall(write: bool, mask: usize, hall: usize) -> bool {
    let leaf = 3 * hall + 1;
    let pair = two_of(has(mask, leaf), has(mask, leaf + 1), has(mask, leaf + 2));
    if write {
        has(mask, hall) & pair
    } else {
        has(mask, hall) | pair
    }
}

const fn table(write: bool) -> Table {
    let mut table = [0; 128];
    let mut mask = 0;
    while mask < 8192 {
        let pair = two_of(in_hall(write, mask, 1), in_hall(write, mask, 2), in_hall(write, mask, 3));
        let is = if write { has(mask, 0) & pair } else { has(mask, 0) | pair };
        table[mask / 64] |= (is as u64) << (mask % 64);
        mask += 1;
    }
    table
}

static READ: Table = table(false);
static WRITE: Table = table(true);

/// Whether a set contains a read quorum; bits above node 12 do not matter.
#[inline(always)]
pub fn is_read(mask: u16) -> bool {
    let mask = usize::from(mask & ALL);
    READ[mask / 64] >> (mask % 64) & 1 == 1
}

/// Whether a set contains a write quorum; bits above node 12 do not matter.
#[inline(always)]
pub fn is_write(mask: u16) -> bool {
    let mask = usize::from(mask & ALL);
    WRITE[mask / 64] >> (mask % 64) & 1 == 1
}

/// A key is a sum of distances, below it how many nodes are behind the asker, below it the mask; so the lesser key is the nearer set, of equal sums one with
/// the asker, and then the lower mask. Keys of disjoint sets add up to the key of both.
const SUM: u64 = 1 << 18;

/// Each node but the asker is behind. In a read quorum a hall is so twice, for it stands for two leaves, and the root four times, for it stands for two
/// halls: of any two sets that are compared equally many are behind, but for the asker.
const BEHIND: u64 = 1 << 13;

/// A node that may not be chosen has a sum above all others.
const ABSENT: u64 = 1 << 40;

/// What is asked: the distances, and for each node whether it is behind and whether it is absent, as bits from these two on.
struct Asked<'a> {
    distances: &'a [u8; DISTANCES],
    marks: u64,
}

impl Asked<'_> {
    #[inline(always)]
    fn new(live: u16, distances: &[u8; DISTANCES], asker: u8) -> Asked<'_> {
        let others = !(1 << (asker & 15)) & ALL;
        Asked { distances, marks: u64::from(others) * BEHIND | u64::from(!live & ALL) * ABSENT }
    }

    /// The key of a node that stands for so many leaves.
    #[inline(always)]
    fn key(&self, node: usize, leaves: u64) -> u64 {
        let marks = self.marks >> node & (ABSENT | BEHIND);
        u64::from(get_u16(self.distances, 2 * node)) * SUM + marks * leaves + (1 << node)
    }

    #[inline(always)]
    fn leaves(&self, hall: usize) -> u64 {
        let leaf = 3 * hall + 1;
        best_pair(self.key(leaf, 1), self.key(leaf + 1, 1), self.key(leaf + 2, 1))
    }
}

/// A chosen set and its sum, or none.
#[inline(always)]
fn chosen(key: u64) -> Option<(u16, u32)> {
    (key < ABSENT).then_some((key as u16 & ALL, (key / SUM) as u32))
}

#[inline(always)]
fn best_pair(a: u64, b: u64, c: u64) -> u64 {
    (a + b).min(a + c).min(b + c)
}

/// The nearest read quorum of live nodes, of a mask of nodes, for a node that asks.
#[inline(always)]
pub fn nearest_read(live: u16, distances: &[u8; DISTANCES], asker: u8) -> Option<(u16, u32)> {
    let it = Asked::new(live, distances, asker);
    let hall = |hall| it.key(hall, 2).min(it.leaves(hall));
    chosen(it.key(0, 4).min(best_pair(hall(1), hall(2), hall(3))))
}

/// The nearest write quorum of live nodes, of a mask of nodes, for a node that asks. All have seven nodes.
#[inline(always)]
pub fn nearest_write(live: u16, distances: &[u8; DISTANCES], asker: u8) -> Option<(u16, u32)> {
    let it = Asked::new(live, distances, asker);
    let hall = |hall| it.key(hall, 1) + it.leaves(hall);
    chosen(it.key(0, 1) + best_pair(hall(1), hall(2), hall(3)))
}

/// A nearest call: 1, 4, 8, or the choice.
#[inline(always)]
pub fn nearest_call(live: u16, distances: &[u8], asker: u8, nearest: impl Fn(u16, &[u8; DISTANCES], u8) -> Option<(u16, u32)>) -> Chosen {
    let refused = |number| Chosen { number, mask: 0, sum: 0 };
    let Ok(distances) = distances.try_into() else { return refused(number::LENGTH) };
    if live > ALL || asker > 12 {
        return refused(number::STRANGER);
    }
    match nearest(live, distances, asker) {
        Some((mask, sum)) => Chosen { number: 0, mask, sum },
        None => refused(number::NO_QUORUM),
    }
}
