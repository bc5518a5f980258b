//! The library's C functions as `include/senna.h` declares them, and safe wrappers over them.

pub mod coordinator;
pub mod station;

use crate::model::image::Author;
use crate::model::message::{Entry, Rival, Transaction, ENTRIES};
use crate::model::quorum::{Choice, Kind, NODES};

/// `senna_choice` of the header.
#[repr(C)]
struct SennaChoice {
    number: u8,
    mask: u16,
    sum: u32,
}

/// `senna_entry` of the header.
#[repr(C)]
#[derive(Clone, Copy)]
struct SennaEntry {
    object: u8,
    mode: u8,
    version: u32,
    value: i64,
}

/// `senna_entries` of the header.
#[repr(C)]
struct SennaEntries {
    entry: [SennaEntry; ENTRIES],
    count: u8,
}

/// `senna_serials` of the header.
#[repr(C)]
struct SennaSerials {
    serial: [u32; NODES],
}

/// `senna_written` of the header.
#[repr(C)]
struct SennaWritten {
    number: u8,
    length: u8,
}

/// `senna_called` of the header, and `senna_value`: their layout is one.
#[repr(C)]
struct SennaCalled {
    number: u8,
    answer: i64,
}

/// `senna_received` of the header.
#[repr(C)]
struct SennaReceived {
    number: u8,
    length: u8,
}

/// `senna_author` of the header.
#[repr(C)]
struct SennaAuthor {
    number: u8,
    owner: u8,
    serial: u32,
}

extern "C" {
    fn senna_is_read_quorum(mask: u16) -> u8;
    fn senna_is_write_quorum(mask: u16) -> u8;
    fn senna_nearest_read(live: u16, distances: *const u8, length: usize, asker: u8) -> SennaChoice;
    fn senna_nearest_write(live: u16, distances: *const u8, length: usize, asker: u8) -> SennaChoice;
    fn senna_check_message(message: *const u8, length: usize) -> u8;
    fn senna_check_image(image: *const u8, length: usize) -> u8;
    fn senna_blank_image(image: *mut u8, length: usize) -> u8;
    fn senna_take_in(old: *const u8, old_length: usize, image: *mut u8, length: usize) -> u8;
    fn senna_image_author(image: *const u8, length: usize, object: u8) -> SennaAuthor;
    fn senna_write_fetch(out: *mut u8, size: usize, to: u8, owner: u8, serial: u32, stamp: u32, object: u8, mode: u8) -> SennaWritten;
    fn senna_write_copy(out: *mut u8, size: usize, from: u8, owner: u8, serial: u32, stamp: u32, entry: SennaEntry) -> SennaWritten;
    fn senna_write_ask(out: *mut u8, size: usize, to: u8, owner: u8, serial: u32, stamp: u32, entries: SennaEntries) -> SennaWritten;
    fn senna_write_vote(
        out: *mut u8,
        size: usize,
        from: u8,
        owner: u8,
        serial: u32,
        stamp: u32,
        rivals: SennaSerials,
        word: u8,
    ) -> SennaWritten;
    fn senna_write_outcome(
        out: *mut u8,
        size: usize,
        to: u8,
        owner: u8,
        serial: u32,
        stamp: u32,
        entries: SennaEntries,
        word: u8,
    ) -> SennaWritten;
    fn senna_write_done(out: *mut u8, size: usize, from: u8, owner: u8, serial: u32, stamp: u32) -> SennaWritten;
    fn senna_write_yield(out: *mut u8, size: usize, owner: u8, serial: u32, stamp: u32, rival: u8, rival_serial: u32) -> SennaWritten;
    fn senna_replica_receive(
        image: *mut u8,
        image_length: usize,
        me: u8,
        message: *const u8,
        length: usize,
        answer: *mut u8,
        size: usize,
    ) -> SennaReceived;
    fn senna_replica_answers(image: *const u8, image_length: usize, me: u8, message: *const u8, length: usize) -> u8;
}

/// The library's membership test, its byte as it came: 1 yes, 0 no, and nothing else is right.
pub fn is_quorum_byte(kind: Kind, mask: u16) -> u8 {
    // SAFETY: the functions take a number and touch no memory of ours.
    unsafe {
        match kind {
            Kind::Read => senna_is_read_quorum(mask),
            Kind::Write => senna_is_write_quorum(mask),
        }
    }
}

/// The library's membership test as a truth value.
pub fn is_quorum(kind: Kind, mask: u16) -> bool {
    is_quorum_byte(kind, mask) == 1
}

/// The library's nearest quorum.
pub fn nearest(kind: Kind, live: u16, distances: &[u8], asker: u8) -> Choice {
    // SAFETY: the functions read at most `length` bytes at `distances`, which are lent for the call.
    let answer = unsafe {
        match kind {
            Kind::Read => senna_nearest_read(live, distances.as_ptr(), distances.len(), asker),
            Kind::Write => senna_nearest_write(live, distances.as_ptr(), distances.len(), asker),
        }
    };
    Choice { number: answer.number, mask: answer.mask, sum: answer.sum }
}

/// The library's number for the bytes of a message.
pub fn check_message(message: &[u8]) -> u8 {
    // SAFETY: the function reads at most `length` bytes at `message`, which are lent for the call.
    unsafe { senna_check_message(message.as_ptr(), message.len()) }
}

/// The library's number for the bytes of an image.
pub fn check_image(image: &[u8]) -> u8 {
    // SAFETY: the function reads at most `length` bytes at `image`, which are lent for the call.
    unsafe { senna_check_image(image.as_ptr(), image.len()) }
}

/// The library's blank image, written to a buffer; its number.
pub fn blank_image(image: &mut [u8]) -> u8 {
    // SAFETY: the function writes at most `length` bytes at `image`, which are lent for the call.
    unsafe { senna_blank_image(image.as_mut_ptr(), image.len()) }
}

/// The library takes an older image in, to a buffer; its number.
pub fn take_in(old: &[u8], image: &mut [u8]) -> u8 {
    // SAFETY: the function reads at most `old_length` bytes at `old` and writes at most `length` bytes at `image`, both lent for the call and apart from
    // each other.
    unsafe { senna_take_in(old.as_ptr(), old.len(), image.as_mut_ptr(), image.len()) }
}

/// Who wrote an object's copy last, as the library tells it; with its number.
pub fn image_author(image: &[u8], object: u8) -> (u8, Author) {
    // SAFETY: the function reads at most `length` bytes at `image`, which are lent for the call.
    let got = unsafe { senna_image_author(image.as_ptr(), image.len(), object) };
    (got.number, Author { owner: got.owner, serial: got.serial })
}

/// What a write call answers.
#[derive(Clone, Copy, Debug, PartialEq, Eq)]
pub struct Written {
    pub number: u8,
    pub length: u8,
}

impl From<SennaWritten> for Written {
    fn from(answer: SennaWritten) -> Written {
        Written { number: answer.number, length: answer.length }
    }
}

impl From<Entry> for SennaEntry {
    fn from(entry: Entry) -> SennaEntry {
        SennaEntry { object: entry.object, mode: entry.mode, version: entry.version, value: entry.value }
    }
}

/// Entries as the header has them: eight, of which the first `count` are meant.
#[derive(Clone, Debug)]
pub struct Entries {
    pub entry: [Entry; ENTRIES],
    pub count: u8,
}

impl Entries {
    /// As many as are meant; behind the eighth, of which nothing is known, blank ones.
    pub fn meant(&self) -> Vec<Entry> {
        let blank = Entry { object: 0, mode: 0, version: 0, value: 0 };
        self.entry.into_iter().chain(std::iter::repeat(blank)).take(usize::from(self.count)).collect()
    }

    fn passed(&self) -> SennaEntries {
        SennaEntries { entry: self.entry.map(SennaEntry::from), count: self.count }
    }
}

/// Rivals as the header has them: a serial for each owner, 0 where there is none.
#[derive(Clone, Debug)]
pub struct Serials {
    pub serial: [u32; NODES],
}

impl Serials {
    /// The rivals that are meant, ascending.
    pub fn meant(&self) -> Vec<Rival> {
        let all = (0..).zip(self.serial).map(|(owner, serial)| Rival { owner, serial });
        all.filter(|rival| rival.serial != 0).collect()
    }
}

// SAFETY, of each writer below: the function writes at most `size` bytes at `out`, which are lent for the call, and takes all else by value.

pub fn write_fetch(out: &mut [u8], to: u8, transaction: Transaction, object: u8, mode: u8) -> Written {
    let Transaction { owner, serial, stamp } = transaction;
    unsafe { senna_write_fetch(out.as_mut_ptr(), out.len(), to, owner, serial, stamp, object, mode).into() }
}

pub fn write_copy(out: &mut [u8], from: u8, transaction: Transaction, entry: Entry) -> Written {
    let Transaction { owner, serial, stamp } = transaction;
    unsafe { senna_write_copy(out.as_mut_ptr(), out.len(), from, owner, serial, stamp, entry.into()).into() }
}

pub fn write_ask(out: &mut [u8], to: u8, transaction: Transaction, entries: &Entries) -> Written {
    let Transaction { owner, serial, stamp } = transaction;
    unsafe { senna_write_ask(out.as_mut_ptr(), out.len(), to, owner, serial, stamp, entries.passed()).into() }
}

pub fn write_vote(out: &mut [u8], from: u8, transaction: Transaction, rivals: &Serials, word: u8) -> Written {
    let Transaction { owner, serial, stamp } = transaction;
    let rivals = SennaSerials { serial: rivals.serial };
    unsafe { senna_write_vote(out.as_mut_ptr(), out.len(), from, owner, serial, stamp, rivals, word).into() }
}

pub fn write_outcome(out: &mut [u8], to: u8, transaction: Transaction, entries: &Entries, word: u8) -> Written {
    let Transaction { owner, serial, stamp } = transaction;
    unsafe { senna_write_outcome(out.as_mut_ptr(), out.len(), to, owner, serial, stamp, entries.passed(), word).into() }
}

pub fn write_done(out: &mut [u8], from: u8, transaction: Transaction) -> Written {
    let Transaction { owner, serial, stamp } = transaction;
    unsafe { senna_write_done(out.as_mut_ptr(), out.len(), from, owner, serial, stamp).into() }
}

pub fn write_yield(out: &mut [u8], transaction: Transaction, rival: Rival) -> Written {
    let Transaction { owner, serial, stamp } = transaction;
    unsafe { senna_write_yield(out.as_mut_ptr(), out.len(), owner, serial, stamp, rival.owner, rival.serial).into() }
}

/// The library's delivery of a message to the replica of node `me`; its number and the answer's length.
pub fn replica_receive(image: &mut [u8], me: u8, message: &[u8], answer: &mut [u8]) -> (u8, u8) {
    let (image_length, length, size) = (image.len(), message.len(), answer.len());
    // SAFETY: the function reads and writes at most the given bytes at `image` and `answer` and reads those at `message`, all lent for the
    // call and apart from each other.
    let got = unsafe { senna_replica_receive(image.as_mut_ptr(), image_length, me, message.as_ptr(), length, answer.as_mut_ptr(), size) };
    (got.number, got.length)
}

/// The library's word on whether a delivery is answered, its byte as it came: 1 yes, 0 no, and nothing else is right.
pub fn replica_answers(image: &[u8], me: u8, message: &[u8]) -> u8 {
    // SAFETY: the function reads at most the given bytes at `image` and `message`, which are lent for the call.
    unsafe { senna_replica_answers(image.as_ptr(), image.len(), me, message.as_ptr(), message.len()) }
}
