//! The tree of thirteen nodes, its quorums, and the nearest of them, by brute force over lists of sets.

use super::number;
use std::collections::BTreeSet;
use std::sync::OnceLock;

/// Nodes are 0 to 12. The children of i are 3i+1, 3i+2 and 3i+3; 4 to 12 are leaves.
pub const NODES: usize = 13;

/// The set of all nodes; a mask above it names a node that is not there.
pub const ALL: u16 = 8191;

/// Bytes of thirteen distances, two for each, little-endian.
pub const DISTANCES: usize = 26;

#[derive(Clone, Copy, Debug, PartialEq, Eq)]
pub enum Kind {
    Read,
    Write,
}

pub const KINDS: [Kind; 2] = [Kind::Read, Kind::Write];

/// What the nearest call answers: a number, and when it is 0 the chosen set and its sum of distances.
#[derive(Clone, Copy, Debug, PartialEq, Eq)]
pub struct Choice {
    pub number: u8,
    pub mask: u16,
    pub sum: u32,
}

/// The set of one node.
pub fn only(node: usize) -> u16 {
    1 << node
}

/// Whether every node of `small` is in `large`.
pub fn inside(small: u16, large: u16) -> bool {
    small & large == small
}

/// The nodes of a set, ascending.
pub fn nodes(mask: u16) -> impl Iterator<Item = usize> {
    (0..NODES).filter(move |&node| inside(only(node), mask))
}

/// The quorums that the sentences build for the subtree at `root`.
///
/// "A read quorum of a subtree is its root, or read quorums of two of the three child subtrees. A write quorum is its root
/// together with write quorums of two. For a leaf both are the leaf."
fn built(kind: Kind, root: usize) -> BTreeSet<u16> {
    let children = [3 * root + 1, 3 * root + 2, 3 * root + 3];
    if children[0] >= NODES {
        return BTreeSet::from([only(root)]);
    }
    let mut sets = BTreeSet::new();
    if kind == Kind::Read {
        sets.insert(only(root));
    }
    for (one, other) in [(0, 1), (0, 2), (1, 2)] {
        for a in built(kind, children[one]) {
            for b in built(kind, children[other]) {
                sets.insert(match kind {
                    Kind::Read => a | b,
                    Kind::Write => only(root) | a | b,
                });
            }
        }
    }
    sets
}

/// The smallest quorums of the whole tree, ascending by mask: those built that contain no other.
pub fn smallest(kind: Kind) -> &'static [u16] {
    static READ: OnceLock<Vec<u16>> = OnceLock::new();
    static WRITE: OnceLock<Vec<u16>> = OnceLock::new();
    let list = match kind {
        Kind::Read => &READ,
        Kind::Write => &WRITE,
    };
    list.get_or_init(|| {
        let sets = built(kind, 0);
        sets.iter().copied().filter(|&set| !sets.iter().any(|&other| other != set && inside(other, set))).collect()
    })
}

/// "A larger set that contains one counts as one too." Bits that name no node do not matter.
pub fn is_quorum(kind: Kind, mask: u16) -> bool {
    smallest(kind).iter().any(|&quorum| inside(quorum, mask))
}

/// The sum of the distances of a set's nodes.
pub fn sum(mask: u16, distances: &[u16; NODES]) -> u32 {
    nodes(mask).map(|node| u32::from(distances[node])).sum()
}

/// A set as the chooser compares it: its sum, whether it is without the asker, its mask. "Of equal sums, a set with the asker comes first, and the lowest
/// mask decides after that": triples are ordered in just this way. An asker that is no node is in no set.
pub type Rank = (u32, bool, u16);

pub fn rank(mask: u16, distances: &[u16; NODES], asker: u8) -> Rank {
    let without = !nodes(mask).any(|node| node == usize::from(asker));
    (sum(mask, distances), without, mask)
}

/// The smallest quorums inside `live`, each with its rank.
pub fn candidates(kind: Kind, live: u16, distances: &[u16; NODES], asker: u8) -> Vec<Rank> {
    smallest(kind).iter().filter(|&&quorum| inside(quorum, live)).map(|&quorum| rank(quorum, distances, asker)).collect()
}

/// "Of the smallest quorums inside the live mask the one with the least sum of distances is chosen", and of equal sums by its rank: its sum and mask.
pub fn nearest(kind: Kind, live: u16, distances: &[u16; NODES], asker: u8) -> Option<(u32, u16)> {
    candidates(kind, live, distances, asker).into_iter().min().map(|(sum, _, mask)| (sum, mask))
}

/// The thirteen distances of 26 bytes, or none for another length.
pub fn distances_of(bytes: &[u8]) -> Option<[u16; NODES]> {
    if bytes.len() != DISTANCES {
        return None;
    }
    Some(std::array::from_fn(|node| u16::from(bytes[2 * node]) + 256 * u16::from(bytes[2 * node + 1])))
}

/// The nearest call on bytes: 1 for another length than 26, then 4 for a mask that names a stranger or an asker that is one, then 8 for no quorum.
pub fn nearest_call(kind: Kind, live: u16, bytes: &[u8], asker: u8) -> Choice {
    let refused = |number| Choice { number, mask: 0, sum: 0 };
    let Some(distances) = distances_of(bytes) else {
        return refused(number::LENGTH);
    };
    if live > ALL || usize::from(asker) >= NODES {
        return refused(number::STRANGER);
    }
    match nearest(kind, live, &distances, asker) {
        None => refused(number::NO_QUORUM),
        Some((sum, mask)) => Choice { number: number::OK, mask, sum },
    }
}
