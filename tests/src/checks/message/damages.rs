//! Ways to break a well-formed message, each with the rules that it breaks: most break one alone, so that no other rule can stand in
//! for it.

use super::records::{one_of, other_node, some_entries, some_rivals, some_serial, some_value, some_version, Shape};
use crate::model::message::{encode, kind, Message, Rival, Rule, ABORT, COMMIT, ENTRIES, LAST, NO, READ, WRITE, YES};
use crate::model::quorum::NODES;
use crate::model::OBJECTS;
use crate::random::Random;

/// A way to break a message.
pub struct Damage {
    pub name: &'static str,
    /// Exactly the rules that are broken. None: the bytes are no record at all, since some are missing or left over.
    pub breaks: &'static [Rule],
    pub make: fn(&mut Random) -> Vec<u8>,
}

const fn damage(name: &'static str, breaks: &'static [Rule], make: fn(&mut Random) -> Vec<u8>) -> Damage {
    Damage { name, breaks, make }
}

/// A message of one of the shapes that fit, changed and then as bytes.
fn changed(random: &mut Random, fits: impl Fn(Shape) -> bool, change: impl Fn(&mut Random, &mut Message)) -> Vec<u8> {
    let mut message = one_of(random, fits);
    change(random, &mut message);
    encode(&message)
}

fn any(_: Shape) -> bool {
    true
}

fn fetches(shape: Shape) -> bool {
    shape.kind == kind::FETCH
}

fn copies(shape: Shape) -> bool {
    shape.kind == kind::COPY
}

fn asks(shape: Shape) -> bool {
    shape.kind == kind::ASK
}

fn votes(shape: Shape) -> bool {
    shape.kind == kind::VOTE
}

fn outcomes(shape: Shape) -> bool {
    shape.kind == kind::OUTCOME
}

fn dones(shape: Shape) -> bool {
    shape.kind == kind::DONE
}

fn yields(shape: Shape) -> bool {
    shape.kind == kind::YIELD
}

/// A message from the owner to any node.
fn requests(shape: Shape) -> bool {
    fetches(shape) || asks(shape) || outcomes(shape)
}

/// A message to the owner from any node.
fn answers(shape: Shape) -> bool {
    copies(shape) || votes(shape) || dones(shape)
}

fn commits(shape: Shape) -> bool {
    outcomes(shape) && shape.word == COMMIT
}

fn aborts(shape: Shape) -> bool {
    outcomes(shape) && shape.word == ABORT
}

fn asks_or_commits(shape: Shape) -> bool {
    asks(shape) || commits(shape)
}

fn has_word(shape: Shape) -> bool {
    votes(shape) || outcomes(shape)
}

fn has_no_word(shape: Shape) -> bool {
    !has_word(shape)
}

fn has_entries(shape: Shape) -> bool {
    shape.entries > 0
}

/// A yes that names a rival.
fn names_one(shape: Shape) -> bool {
    votes(shape) && shape.rivals >= 1
}

/// A yes that names two rivals or more.
fn names_two(shape: Shape) -> bool {
    votes(shape) && shape.rivals >= 2
}

/// A yes that names all others.
fn names_all(shape: Shape) -> bool {
    votes(shape) && shape.rivals == NODES - 1
}

/// A number above 12, mostly the first.
fn stranger(random: &mut Random) -> u8 {
    if random.once_in(2) {
        13
    } else {
        13 + random.below(243) as u8
    }
}

/// One of the entries, made a read or a write.
fn set_entry(random: &mut Random, message: &mut Message, mode: u8, version: u32, value: i64) {
    let at = random.below(message.entries.len());
    let entry = &mut message.entries[at];
    (entry.mode, entry.version, entry.value) = (mode, version, value);
}

/// A value that is not 0.
fn nonzero(random: &mut Random) -> i64 {
    match some_value(random) {
        0 => i64::MIN,
        value => value,
    }
}

/// A request that another node than the owner sends, at times to the owner.
fn not_from_owner(random: &mut Random, fits: fn(Shape) -> bool) -> Vec<u8> {
    changed(random, fits, |random, message| {
        let owner = message.transaction.owner;
        message.from = other_node(random, owner);
        message.to = *random.pick(&[owner, message.to]);
    })
}

/// An answer to another node than the owner, at times from the owner.
fn not_to_owner(random: &mut Random, fits: fn(Shape) -> bool) -> Vec<u8> {
    changed(random, fits, |random, message| {
        let owner = message.transaction.owner;
        message.to = other_node(random, owner);
        message.from = *random.pick(&[owner, message.from]);
    })
}

/// A read with a value that is not 0 among the entries. Its version may be any.
fn read_with_value(random: &mut Random, fits: fn(Shape) -> bool) -> Vec<u8> {
    changed(random, fits, |random, message| {
        let (version, value) = (some_version(random), nonzero(random));
        set_entry(random, message, READ, version, value);
    })
}

/// A write whose version is the last number among the entries.
fn write_at_last(random: &mut Random, fits: fn(Shape) -> bool) -> Vec<u8> {
    changed(random, fits, |random, message| {
        let value = some_value(random);
        set_entry(random, message, WRITE, LAST, value);
    })
}

/// The bytes of a message, cut short; a message of 15 bytes cannot be.
fn cut(random: &mut Random) -> Vec<u8> {
    let mut bytes = encode(&one_of(random, |shape| !dones(shape)));
    let length = 15 + random.below(bytes.len() - 15);
    bytes.truncate(length);
    bytes
}

/// The bytes of a message and some more, up to 128; one of 128 bytes cannot have more.
fn padded(random: &mut Random) -> Vec<u8> {
    let mut bytes = encode(&one_of(random, |shape| shape.entries < ENTRIES));
    let more = 1 + random.below(128 - bytes.len());
    let zeros = random.once_in(2);
    let extra = if zeros { vec![0; more] } else { random.bytes(more) };
    bytes.extend(extra);
    bytes
}

/// The bytes of a message with one of its three counts so high that bytes are missing.
fn miscounted(random: &mut Random, section: usize) -> Vec<u8> {
    let message = one_of(random, any);
    let mut bytes = encode(&message);
    let entries_end = 12 + 14 * message.entries.len();
    let rivals_end = entries_end + 1 + 5 * message.rivals.len();
    let place = [12, entries_end + 1, rivals_end + 1][section];
    bytes[place] = 250 - random.below(200) as u8;
    bytes
}

/// A message of a kind without rivals, with one or two; not the longest, which has no room for them.
fn with_rivals(random: &mut Random, fits: fn(Shape) -> bool) -> Vec<u8> {
    changed(
        random,
        |shape| fits(shape) && shape.entries < ENTRIES,
        |random, message| {
            let count = 1 + random.below(2);
            message.rivals = some_rivals(random, message.transaction.owner, count);
        },
    )
}

/// Two neighbours of a list, the second made equal to the first or both exchanged.
fn disordered<T: Copy>(random: &mut Random, list: &mut [T], weaken: impl Fn(T, &mut T)) {
    let at = random.below(list.len() - 1);
    if random.once_in(2) {
        list.swap(at, at + 1);
    } else {
        let first = list[at];
        weaken(first, &mut list[at + 1]);
    }
}

/// Every rule, and every place of a message that a rule is about.
pub const DAMAGES: &[Damage] = &[
    damage("kind 0", &[Rule::Kind], |r| changed(r, any, |_, m| m.kind = 0)),
    damage("kind 8", &[Rule::Kind], |r| changed(r, any, |_, m| m.kind = 8)),
    damage("kind above 8", &[Rule::Kind], |r| changed(r, any, |r, m| m.kind = 9 + r.below(247) as u8)),
    damage("an answer from node 13 or above", &[Rule::Nodes], |r| changed(r, answers, |r, m| m.from = stranger(r))),
    damage("a request to node 13 or above", &[Rule::Nodes], |r| changed(r, requests, |r, m| m.to = stranger(r))),
    damage("owner 13 or above of a request", &[Rule::Nodes], |r| {
        changed(r, requests, |r, m| {
            m.transaction.owner = stranger(r);
            m.from = m.transaction.owner;
        })
    }),
    damage("owner 13 or above of an answer", &[Rule::Nodes], |r| {
        changed(r, answers, |r, m| {
            m.transaction.owner = stranger(r);
            m.to = m.transaction.owner;
        })
    }),
    damage("owner 13 or above of a yield", &[Rule::Nodes], |r| {
        changed(r, yields, |r, m| {
            m.transaction.owner = stranger(r);
            m.from = m.transaction.owner;
        })
    }),
    damage("a yield to node 13 or above", &[Rule::Nodes], |r| {
        changed(r, yields, |r, m| {
            m.to = stranger(r);
            m.rivals[0].owner = m.to;
        })
    }),
    damage("rival 13 or above in a vote", &[Rule::Nodes], |r| {
        changed(r, names_one, |r, m| {
            let last = m.rivals.len() - 1;
            m.rivals[last].owner = stranger(r);
        })
    }),
    damage("serial 0", &[Rule::Serial], |r| changed(r, any, |_, m| m.transaction.serial = 0)),
    damage("stamp 0", &[Rule::Stamp], |r| changed(r, any, |_, m| m.transaction.stamp = 0)),
    damage("a rival's serial 0 in a vote", &[Rule::RivalSerial], |r| {
        changed(r, names_one, |r, m| {
            let at = r.below(m.rivals.len());
            m.rivals[at].serial = 0;
        })
    }),
    damage("a rival's serial 0 in a yield", &[Rule::RivalSerial], |r| changed(r, yields, |_, m| m.rivals[0].serial = 0)),
    damage("object 128", &[Rule::Objects], |r| {
        changed(r, has_entries, |_, m| {
            let last = m.entries.len() - 1;
            m.entries[last].object = OBJECTS as u8;
        })
    }),
    damage("object above 128", &[Rule::Objects], |r| {
        changed(r, has_entries, |r, m| {
            let last = m.entries.len() - 1;
            m.entries[last].object = 129 + r.below(127) as u8;
        })
    }),
    damage("mode 2", &[Rule::Modes], |r| {
        changed(r, has_entries, |r, m| {
            let at = r.below(m.entries.len());
            m.entries[at].mode = 2;
        })
    }),
    damage("mode above 2", &[Rule::Modes], |r| {
        changed(r, has_entries, |r, m| {
            let at = r.below(m.entries.len());
            m.entries[at].mode = 3 + r.below(253) as u8;
        })
    }),
    damage("entries of an ask not ascending", &[Rule::EntriesAscend], |r| {
        changed(r, |s| asks(s) && s.entries >= 2, |r, m| disordered(r, &mut m.entries, |first, second| second.object = first.object))
    }),
    damage("entries of a commit not ascending", &[Rule::EntriesAscend], |r| {
        changed(r, |s| outcomes(s) && s.entries >= 2, |r, m| disordered(r, &mut m.entries, |first, second| second.object = first.object))
    }),
    damage("an object twice, ascending only weakly", &[Rule::EntriesAscend], |r| {
        changed(
            r,
            |s| asks_or_commits(s) && s.entries >= 2,
            |r, m| {
                let at = r.below(m.entries.len() - 1);
                m.entries[at + 1].object = m.entries[at].object;
            },
        )
    }),
    damage("rivals not ascending", &[Rule::RivalsAscend], |r| {
        changed(r, names_two, |r, m| disordered(r, &mut m.rivals, |first, second| second.owner = first.owner))
    }),
    damage("a rival twice, ascending only weakly", &[Rule::RivalsAscend], |r| {
        changed(r, names_two, |r, m| {
            let at = r.below(m.rivals.len() - 1);
            m.rivals[at + 1].owner = m.rivals[at].owner;
        })
    }),
    damage("a fetch without its entry", &[Rule::EntryCount], |r| changed(r, fetches, |_, m| m.entries.clear())),
    damage("a copy without its entry", &[Rule::EntryCount], |r| changed(r, copies, |_, m| m.entries.clear())),
    damage("an ask without entries", &[Rule::EntryCount], |r| changed(r, asks, |_, m| m.entries.clear())),
    damage("a copy with two entries or more", &[Rule::EntryCount], |r| {
        changed(r, copies, |r, m| {
            let count = 2 + r.below(ENTRIES - 1);
            m.entries = some_entries(r, count);
        })
    }),
    damage("a fetch with two entries or more", &[Rule::EntryCount], |r| {
        changed(r, fetches, |r, m| {
            let count = 2 + r.below(ENTRIES - 1);
            m.entries = some_entries(r, count);
            m.entries.iter_mut().for_each(|entry| (entry.version, entry.value) = (0, 0));
        })
    }),
    damage("a done with entries", &[Rule::EntryCount], |r| {
        changed(r, dones, |r, m| {
            let count = 1 + r.below(ENTRIES);
            m.entries = some_entries(r, count);
        })
    }),
    damage("a vote with entries", &[Rule::EntryCount], |r| changed(r, votes, |r, m| m.entries = some_entries(r, 1 + m.rivals.len() % 3))),
    damage("a yield with entries", &[Rule::EntryCount], |r| {
        changed(r, yields, |r, m| {
            let count = 1 + r.below(7);
            m.entries = some_entries(r, count);
        })
    }),
    damage("a fetch with a rival", &[Rule::RivalCount], |r| with_rivals(r, fetches)),
    damage("a copy with a rival", &[Rule::RivalCount], |r| with_rivals(r, copies)),
    damage("an ask with a rival", &[Rule::RivalCount], |r| with_rivals(r, asks)),
    damage("an outcome with a rival", &[Rule::RivalCount], |r| with_rivals(r, outcomes)),
    damage("a done with a rival", &[Rule::RivalCount], |r| with_rivals(r, dones)),
    damage("a yield without its rival", &[Rule::RivalCount], |r| changed(r, yields, |_, m| m.rivals.clear())),
    damage("a yield with two rivals", &[Rule::RivalCount, Rule::ToRival], |r| {
        changed(r, yields, |r, m| {
            m.rivals = some_rivals(r, m.transaction.owner, 2);
            m.to = m.rivals[r.below(2)].owner;
        })
    }),
    damage("a vote with all thirteen as rivals", &[Rule::RivalCount, Rule::VoteRival], |r| {
        changed(r, names_all, |r, m| m.rivals = (0..NODES as u8).map(|owner| Rival { owner, serial: some_serial(r) }).collect())
    }),
    damage("a vote or an outcome without its word", &[Rule::WordCount], |r| changed(r, has_word, |_, m| m.words.clear())),
    damage("a vote with two words", &[Rule::WordCount], |r| changed(r, votes, |_, m| m.words = vec![YES, YES])),
    damage("a word where none belongs", &[Rule::WordCount], |r| changed(r, has_no_word, |r, m| m.words = vec![r.below(2) as u8])),
    damage("word 2 or above in a vote", &[Rule::Words], |r| changed(r, votes, |r, m| m.words = vec![*r.pick(&[2, 3, 128, 254, 255])])),
    damage("word 2 or above in an outcome", &[Rule::Words], |r| {
        changed(r, outcomes, |r, m| m.words = vec![*r.pick(&[2, 3, 128, 254, 255])])
    }),
    damage("a fetch's version not 0", &[Rule::FetchEmpty], |r| {
        changed(r, fetches, |r, m| m.entries[0].version = *r.pick(&[1, 256, 65_536, 1 << 24, LAST]))
    }),
    damage("a fetch's value not 0", &[Rule::FetchEmpty], |r| changed(r, fetches, |r, m| m.entries[0].value = nonzero(r))),
    damage("a rival that is the owner in a vote", &[Rule::VoteRival], |r| {
        changed(r, names_one, |r, m| {
            let at = r.below(m.rivals.len());
            let was = std::mem::replace(&mut m.transaction.owner, m.rivals[at].owner);
            m.to = m.transaction.owner;
            m.from = *r.pick(&[m.from, was]);
        })
    }),
    damage("a rival that is the owner in a yield", &[Rule::YieldRival], |r| {
        changed(r, yields, |_, m| {
            m.to = m.transaction.owner;
            m.rivals[0].owner = m.to;
        })
    }),
    damage("a no with rivals", &[Rule::NoAlone], |r| changed(r, names_one, |_, m| m.words = vec![NO])),
    damage("an abort with entries", &[Rule::AbortEmpty], |r| changed(r, commits, |_, m| m.words = vec![ABORT])),
    damage("a commit without entries", &[Rule::CommitFull], |r| changed(r, aborts, |_, m| m.words = vec![COMMIT])),
    damage("a fetch that is not from the owner", &[Rule::FromOwner], |r| not_from_owner(r, fetches)),
    damage("an ask that is not from the owner", &[Rule::FromOwner], |r| not_from_owner(r, asks)),
    damage("a commit that is not from the owner", &[Rule::FromOwner], |r| not_from_owner(r, commits)),
    damage("an abort that is not from the owner", &[Rule::FromOwner], |r| not_from_owner(r, aborts)),
    damage("a yield that is not from the owner", &[Rule::FromOwner], |r| {
        changed(r, yields, |r, m| m.from = other_node(r, m.transaction.owner))
    }),
    damage("a copy that is not to the owner", &[Rule::ToOwner], |r| not_to_owner(r, copies)),
    damage("a vote that is not to the owner", &[Rule::ToOwner], |r| not_to_owner(r, votes)),
    damage("a done that is not to the owner", &[Rule::ToOwner], |r| not_to_owner(r, dones)),
    damage("a yield that is not to the rival's owner", &[Rule::ToRival], |r| {
        changed(r, yields, |r, m| m.to = other_node(r, m.rivals[0].owner))
    }),
    damage("a read's value not 0 in an ask", &[Rule::ReadValue], |r| read_with_value(r, asks)),
    damage("a read's value not 0 in a commit", &[Rule::ReadValue], |r| read_with_value(r, commits)),
    damage("a write's version at the last in an ask", &[Rule::WriteVersion], |r| write_at_last(r, asks)),
    damage("a write's version at the last in a commit", &[Rule::WriteVersion], |r| write_at_last(r, commits)),
    damage("a count of entries that the bytes do not have", &[], |r| miscounted(r, 0)),
    damage("a count of rivals that the bytes do not have", &[], |r| miscounted(r, 1)),
    damage("a count of words that the bytes do not have", &[], |r| miscounted(r, 2)),
    damage("bytes missing", &[], cut),
    damage("bytes left over", &[], padded),
];
