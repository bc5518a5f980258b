//! The replica: what a delivery does is planned before a byte is changed, then the image is changed, then the answer is written.

use super::bytes::{get_u32, get_u64, put_u32, put_u64};
use super::image::{self, Image, HELD, HOLDER, LISTED, LISTS, NOBODY, OVER, REFUSED};
use super::kind::{ASK, COPY, DONE, FETCH, OUTCOME, VOTE};
use super::message::{self, SHORTEST};
use super::number;
use super::writers::{head, put_nothing, put_rival, put_single, put_word};
use crate::library::{Transaction, MESSAGE_MAX};

/// What a delivery will do.
#[derive(Clone, Copy, PartialEq, Eq)]
pub enum Plan {
    Nothing,
    /// The owner joins a list; the copy is answered. True where its transaction is new here.
    Fetch(bool),
    /// An ask is judged. True where its transaction is new here.
    Judge(bool),
    /// A vote is given again.
    Again(u8),
    /// A late outcome: done is answered.
    Late,
    /// An outcome is carried out. True for a commit.
    Settle(bool),
}

/// The plan of a well-formed message at its own replica, or 5.
#[inline(always)]
pub fn plan(image: &Image, message: &[u8]) -> Result<Plan, u8> {
    let owner = message[3];
    let (last, state) = (image::serial(image, owner), image::state(image, owner));
    let serial = message::serial(message);
    let (above, late) = (serial > last, serial < last || serial == last && state == OVER);
    if above && state != OVER {
        return Err(number::OUT_OF_TURN);
    }
    let commits = message[0] == OUTCOME && message::word(message) == 1;
    Ok(match (message[0], above, late) {
        (FETCH, true, _) => Plan::Fetch(true),
        (FETCH, _, false) if state == LISTED => Plan::Fetch(false),
        (FETCH, ..) => Plan::Nothing,
        (ASK, true, _) => Plan::Judge(true),
        (ASK, _, true) => Plan::Nothing,
        (ASK, ..) if state == LISTED => Plan::Judge(false),
        (ASK, ..) => Plan::Again(u8::from(state == HELD)),
        (OUTCOME, _, true) => Plan::Late,
        (OUTCOME, false, _) if commits && state == HELD => Plan::Settle(true),
        (OUTCOME, ..) if !commits => Plan::Settle(false),
        _ => return Err(number::OUT_OF_TURN),
    })
}

/// An answer before it is written: a copy has an entry, a yes a mask of rivals.
#[derive(Clone, Copy)]
pub enum Reply {
    Silence,
    Copy { object: u8, mode: u8, version: u32, value: u64 },
    Vote { word: u8, rivals: u16 },
    Done,
}

/// The whole of a transaction as its message's header has it.
#[inline(always)]
pub fn transaction(message: &[u8]) -> Transaction {
    Transaction { owner: message[3], serial: message::serial(message), stamp: message::stamp(message) }
}

/// Carries a plan out.
#[inline(always)]
pub fn perform(image: &mut Image, message: &[u8], plan: Plan) -> Reply {
    let of = transaction(message);
    match plan {
        Plan::Nothing => Reply::Silence,
        Plan::Fetch(new) => fetch(image, of, new, message[13], message[14]),
        Plan::Judge(new) => ask(image, of, new, message),
        Plan::Again(word) => Reply::Vote { word, rivals: 0 },
        Plan::Late => Reply::Done,
        Plan::Settle(commits) => settle(image, of, commits, message),
    }
}

#[inline(always)]
fn fetch(image: &mut Image, of: Transaction, new: bool, object: u8, mode: u8) -> Reply {
    if new {
        image::set_last(image, of.owner, of.serial, of.stamp);
        image::set_state(image, of.owner, LISTED);
    }
    let copy = image::copy_mut(image, object);
    let lists = get_u32(copy, LISTS) | 1 << (of.owner + 16 * mode);
    put_u32(copy, LISTS, lists);
    Reply::Copy { object, mode, version: image::version(copy), value: image::value(copy) }
}

/// The rivals of an ask that is voted yes; none where it is voted no.
#[inline(always)]
fn judge(image: &Image, owner: u8, stamp: u32, message: &[u8]) -> Option<u16> {
    let mut rivals = 0;
    for entry in message::entries(message) {
        let copy = image::copy(image, entry[0]);
        let (asked, here) = (get_u32(entry, 2), image::version(copy));
        if copy[HOLDER] != NOBODY && copy[HOLDER] != owner || here > asked {
            return None;
        }
        if here == asked {
            rivals |= image::writers(copy) | if entry[1] == 1 { image::readers(copy) } else { 0 };
        }
    }
    rivals &= !(1 << owner);
    let mut rest = rivals;
    while rest != 0 {
        let rival = rest.trailing_zeros() as u8;
        if (image::stamp(image, rival), rival) < (stamp, owner) {
            return None;
        }
        rest &= rest - 1;
    }
    Some(rivals)
}

/// A listed owner leaves all lists; a new one is in none.
#[inline(always)]
fn ask(image: &mut Image, of: Transaction, new: bool, message: &[u8]) -> Reply {
    let stamp = if new { of.stamp } else { image::stamp(image, of.owner) };
    let judged = judge(image, of.owner, stamp, message);
    if new {
        image::set_last(image, of.owner, of.serial, of.stamp);
    } else {
        image::unlist(image, of.owner);
    }
    let Some(rivals) = judged else {
        image::set_state(image, of.owner, REFUSED);
        return Reply::Vote { word: 0, rivals: 0 };
    };
    image::set_state(image, of.owner, HELD);
    for entry in message::entries(message) {
        if entry[1] == 1 {
            image::copy_mut(image, entry[0])[HOLDER] = of.owner;
        }
    }
    Reply::Vote { word: 1, rivals }
}

/// In a valid image only a held owner holds copies, and only a listed one is in lists.
#[inline(always)]
fn settle(image: &mut Image, of: Transaction, commits: bool, message: &[u8]) -> Reply {
    if commits {
        for entry in message::entries(message) {
            if entry[1] == 1 {
                let copy = image::copy_mut(image, entry[0]);
                put_u64(copy, 0, get_u64(entry, 6));
                put_u32(copy, 8, get_u32(entry, 2) + 1);
                image::set_author(copy, of.owner, of.serial);
            }
        }
    }
    match image::state(image, of.owner) {
        OVER => image::set_last(image, of.owner, of.serial, of.stamp),
        LISTED => image::unlist(image, of.owner),
        HELD => image::free(image, of.owner),
        _ => {}
    }
    image::set_state(image, of.owner, OVER);
    Reply::Done
}

/// Writes an answer; its length, 0 where there is none.
#[inline(always)]
pub fn write(reply: Reply, image: &Image, me: u8, of: Transaction, out: &mut [u8; MESSAGE_MAX]) -> usize {
    match reply {
        Reply::Silence => 0,
        Reply::Copy { object, mode, version, value } => {
            head(out, COPY, me, of.owner, of);
            put_single(out, object, mode, version, value)
        }
        Reply::Vote { word, rivals } => {
            head(out, VOTE, me, of.owner, of);
            write_vote(image, rivals, word, out)
        }
        Reply::Done => {
            head(out, DONE, me, of.owner, of);
            put_nothing(out)
        }
    }
}

/// The sections of a vote; the message's length.
#[inline(always)]
fn write_vote(image: &Image, rivals: u16, word: u8, out: &mut [u8; MESSAGE_MAX]) -> usize {
    (out[12], out[13]) = (0, rivals.count_ones() as u8);
    let (mut end, mut rest) = (message::RIVALS, rivals);
    while rest != 0 {
        let rival = rest.trailing_zeros() as u8;
        put_rival(out, end, rival, image::serial(image, rival));
        end += message::RIVAL;
        rest &= rest - 1;
    }
    put_word(out, end, word)
}

/// The plan of a delivery, or its number: 1, 2, 3, 4, 5.
#[inline(always)]
fn planned(image: &[u8], me: u8, message: &[u8]) -> Result<Plan, u8> {
    if message.len() < SHORTEST || message.len() > MESSAGE_MAX {
        return Err(number::LENGTH);
    }
    let image: &Image = image.try_into().map_err(|_| number::LENGTH)?;
    if !image::is_valid(image) {
        return Err(number::DAMAGED);
    }
    match message::check(message) {
        0 if me > 12 || message[2] != me => Err(number::STRANGER),
        0 => plan(image, message),
        number => Err(number),
    }
}

/// The call: the answer's length, or a number.
pub fn receive(image: &mut [u8], me: u8, message: &[u8], answer: &mut [u8]) -> Result<usize, u8> {
    let answer = answer.first_chunk_mut().ok_or(number::LENGTH)?;
    let plan = planned(image, me, message)?;
    let image: &mut Image = image.try_into().expect("an image's length");
    let reply = perform(image, message, plan);
    Ok(write(reply, image, me, transaction(message), answer))
}

/// Whether a delivery will be answered.
pub fn answers(image: &[u8], me: u8, message: &[u8]) -> bool {
    planned(image, me, message).is_ok_and(|plan| plan != Plan::Nothing)
}
