//! A replica (document 01: copy end): one message in, an image changed, an answer or none. Each sentence of 'The copy end' in its order.

use super::image::{self, state, Author, Image, IMAGE, NOBODY};
use super::message::{self, kind, Entry, Message, Rival, Transaction, COMMIT, LONGEST, NO, READ, SHORTEST, WRITE, YES};
use super::quorum::{nodes, only, NODES};
use super::{number, Fault};

/// How a message's transaction stands to the last one of its owner.
#[derive(Clone, Copy, Debug, PartialEq, Eq, PartialOrd, Ord)]
pub enum Standing {
    /// A serial above the last, whose state is 0.
    Fresh,
    /// A serial above the last, whose state is another.
    Ahead,
    /// "A serial below the last."
    Below,
    /// "Or the last one when over."
    Over,
    /// The last one in each other state.
    Listed,
    Held,
    Refused,
}

impl Standing {
    pub const ALL: [Standing; 7] =
        [Standing::Fresh, Standing::Ahead, Standing::Below, Standing::Over, Standing::Listed, Standing::Held, Standing::Refused];

    pub fn of(image: &Image, transaction: Transaction) -> Standing {
        let last = image.owners[usize::from(transaction.owner)];
        if transaction.serial > last.serial {
            return if last.state == state::OVER { Standing::Fresh } else { Standing::Ahead };
        }
        if transaction.serial < last.serial {
            return Standing::Below;
        }
        match last.state {
            state::OVER => Standing::Over,
            state::LISTED => Standing::Listed,
            state::HELD => Standing::Held,
            _ => Standing::Refused,
        }
    }
}

/// Why a listed ask is voted down, or what a yes names.
#[derive(Clone, Debug, PartialEq, Eq)]
pub struct Judgement {
    /// "If any tally has another holder."
    pub held: bool,
    /// "If any copy here has a higher version."
    pub newer: bool,
    /// "If some rival is older by the stored stamps."
    pub older: bool,
    pub rivals: Vec<Rival>,
}

impl Judgement {
    pub fn no(&self) -> bool {
        self.held || self.newer || self.older
    }
}

/// "A smaller stamp is older; of equal stamps, the lower owner is older."
fn is_older(image: &Image, one: usize, other: usize) -> bool {
    (image.owners[one].stamp, one) < (image.owners[other].stamp, other)
}

/// The rivals at one entry, as a mask: "only at equal versions: a read's are the writers, a write's are readers and writers, never the owner".
fn rivals_at(image: &Image, owner: usize, entry: &Entry) -> u16 {
    let copy = image.copies[usize::from(entry.object)];
    if copy.version != entry.version {
        return 0;
    }
    let all = if entry.mode == READ { copy.writers } else { copy.readers | copy.writers };
    all & !only(owner)
}

/// How a listed transaction's ask is judged.
pub fn judge(image: &Image, message: &Message) -> Judgement {
    let owner = usize::from(message.transaction.owner);
    let here = |entry: &Entry| image.copies[usize::from(entry.object)];
    let rivals = message.entries.iter().fold(0, |mask, entry| mask | rivals_at(image, owner, entry));
    Judgement {
        held: message.entries.iter().any(|entry| here(entry).holder != NOBODY && usize::from(here(entry).holder) != owner),
        newer: message.entries.iter().any(|entry| here(entry).version > entry.version),
        older: nodes(rivals).any(|rival| is_older(image, rival, owner)),
        rivals: nodes(rivals).map(|rival| Rival { owner: rival as u8, serial: image.owners[rival].serial }).collect(),
    }
}

/// "A fetch or ask makes it listed with that stamp."
pub fn enter(image: &mut Image, transaction: Transaction) {
    if Standing::of(image, transaction) == Standing::Fresh {
        let owner = &mut image.owners[usize::from(transaction.owner)];
        (owner.serial, owner.stamp, owner.state) = (transaction.serial, transaction.stamp, state::LISTED);
    }
}

/// The owner is among no readers and no writers any more.
fn unlist(image: &mut Image, owner: u8) {
    for copy in &mut image.copies {
        copy.readers &= !only(usize::from(owner));
        copy.writers &= !only(usize::from(owner));
    }
}

/// "Fetch: listed, add the owner to readers or writers, answer the copy. Held or refused: as late."
fn fetch(image: &mut Image, me: u8, message: &Message) -> Result<Option<Message>, u8> {
    let transaction = message.transaction;
    match Standing::of(image, transaction) {
        Standing::Ahead => return Err(number::OUT_OF_TURN),
        Standing::Below | Standing::Over | Standing::Held | Standing::Refused => return Ok(None),
        Standing::Fresh | Standing::Listed => enter(image, transaction),
    }
    let wanted = message.entries[0];
    let copy = &mut image.copies[usize::from(wanted.object)];
    let list = if wanted.mode == READ { &mut copy.readers } else { &mut copy.writers };
    *list |= only(usize::from(transaction.owner));
    let found = Entry { version: copy.version, value: copy.value, ..wanted };
    Ok(Some(message::copy(me, transaction, found)))
}

/// "Held answers yes and refused answers no again, both naming no rivals. Listed is judged." A yes "names the rivals and holds the written
/// copies. Either way the owner leaves all lists."
fn ask(image: &mut Image, me: u8, message: &Message, fault: Fault) -> Result<Option<Message>, u8> {
    let transaction = message.transaction;
    let owner = transaction.owner;
    match Standing::of(image, transaction) {
        Standing::Ahead => return Err(number::OUT_OF_TURN),
        Standing::Below | Standing::Over => return Ok(None),
        Standing::Held => return Ok(Some(message::vote(me, transaction, vec![], YES))),
        Standing::Refused => return Ok(Some(message::vote(me, transaction, vec![], NO))),
        Standing::Fresh | Standing::Listed => enter(image, transaction),
    }
    let mut judgement = judge(image, message);
    judgement.held &= fault != Fault::IgnoresHolder;
    judgement.newer &= fault != Fault::IgnoresVersion;
    unlist(image, owner);
    if judgement.no() {
        image.owners[usize::from(owner)].state = state::REFUSED;
        return Ok(Some(message::vote(me, transaction, vec![], NO)));
    }
    image.owners[usize::from(owner)].state = state::HELD;
    for entry in message.entries.iter().filter(|entry| entry.mode == WRITE) {
        image.copies[usize::from(entry.object)].holder = owner;
    }
    Ok(Some(message::vote(me, transaction, judgement.rivals, YES)))
}

/// "Commit on held: the copy of each tally the message writes takes the message's value and the message's version plus 1. Abort in any
/// state. Both free the owner's copies, clear its list entries, set over and answer done. Commit on listed or refused, or on a serial above
/// the last, is 5. .. An early abort, in state 0, makes its serial last, with its stamp, and over." Late, an outcome gets done. A copy's last writer is
/// the commit that wrote it (2.5).
fn outcome(image: &mut Image, me: u8, message: &Message, fault: Fault) -> Result<Option<Message>, u8> {
    let transaction = message.transaction;
    let owner = transaction.owner;
    let done = Ok(Some(message::done(me, transaction)));
    match (Standing::of(image, transaction), message.words[0]) {
        (Standing::Below | Standing::Over, _) => return done,
        (Standing::Ahead, _) => return Err(number::OUT_OF_TURN),
        (Standing::Fresh | Standing::Listed | Standing::Refused, COMMIT) => return Err(number::OUT_OF_TURN),
        (Standing::Fresh, _) => {
            let last = &mut image.owners[usize::from(owner)];
            (last.serial, last.stamp) = (transaction.serial, transaction.stamp);
        }
        (Standing::Held, COMMIT) => {
            for entry in message.entries.iter().filter(|entry| entry.mode == WRITE) {
                let copy = &mut image.copies[usize::from(entry.object)];
                (copy.value, copy.version) = (entry.value, entry.version + 1);
                if fault != Fault::LeavesAuthor {
                    copy.author = Author { owner, serial: transaction.serial };
                }
            }
        }
        (Standing::Listed | Standing::Held | Standing::Refused, _) => {}
    }
    image.copies.iter_mut().filter(|copy| copy.holder == owner).for_each(|copy| copy.holder = NOBODY);
    unlist(image, owner);
    image.owners[usize::from(owner)].state = state::OVER;
    done
}

/// A message that is well formed at the replica of node `me`: 4, then 5, else the answer. A refused one may leave a half-changed image.
pub fn deliver(image: &mut Image, me: u8, message: &Message, fault: Fault) -> Result<Option<Message>, u8> {
    if usize::from(me) >= NODES || message.to != me {
        return Err(number::STRANGER);
    }
    match message.kind {
        kind::FETCH => fetch(image, me, message),
        kind::ASK => ask(image, me, message, fault),
        kind::OUTCOME => outcome(image, me, message, fault),
        // "So is a kind meant for the other end, at either end."
        _ => Err(number::OUT_OF_TURN),
    }
}

/// What a delivery that nothing refuses leaves: the image's bytes, and the answer's, none where there is no answer.
#[derive(Clone, Debug, PartialEq, Eq)]
pub struct Delivered {
    pub image: Vec<u8>,
    pub answer: Vec<u8>,
}

/// The call, with an answer buffer of `size` bytes: a number, 1 to 5, the lowest that fits; or what it leaves.
pub fn receive_call(image: &[u8], me: u8, message: &[u8], size: usize) -> Result<Delivered, u8> {
    if image.len() != IMAGE || size < LONGEST || message.len() < SHORTEST || message.len() > LONGEST {
        return Err(number::LENGTH);
    }
    let mut image = image::load(image)?;
    let message = message::receive(message)?;
    let answer = deliver(&mut image, me, &message, Fault::None)?;
    let answer = answer.as_ref().map(message::encode).unwrap_or_default();
    Ok(Delivered { image: image::encode(&image), answer })
}

/// The call that foretells whether a delivery into a buffer that is long enough is answered.
pub fn answers_call(image: &[u8], me: u8, message: &[u8]) -> bool {
    receive_call(image, me, message, LONGEST).is_ok_and(|delivered| !delivered.answer.is_empty())
}
