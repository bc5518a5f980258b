//! Messages: a record, its bytes, and which records are well formed, each sentence of document 01 as one rule.
//!
//! The two ends exchange these records. An end's rules answer a record with a record; only here are there bytes.

use super::bytes::Reader;
use super::quorum::NODES;
use super::{number, OBJECTS};
use std::ops::RangeInclusive;

/// "The longest message has 128 bytes, the shortest 15."
pub const SHORTEST: usize = 15;
pub const LONGEST: usize = 128;

/// At most this many entries.
pub const ENTRIES: usize = 8;

/// The last number of 32 bits.
pub const LAST: u32 = 4_294_967_295;

/// The first byte of a message.
pub mod kind {
    pub const FETCH: u8 = 1;
    pub const COPY: u8 = 2;
    pub const ASK: u8 = 3;
    pub const VOTE: u8 = 4;
    pub const OUTCOME: u8 = 5;
    pub const DONE: u8 = 6;
    pub const YIELD: u8 = 7;
}
use kind::{ASK, COPY, DONE, FETCH, OUTCOME, VOTE, YIELD};

/// Modes.
pub const READ: u8 = 0;
pub const WRITE: u8 = 1;

/// Words of a vote.
pub const NO: u8 = 0;
pub const YES: u8 = 1;

/// Words of an outcome.
pub const ABORT: u8 = 0;
pub const COMMIT: u8 = 1;

/// A transaction (document 01: booking) as each of its messages has it: it is named by its owner and serial, and carries a stamp.
#[derive(Clone, Copy, Debug, PartialEq, Eq)]
pub struct Transaction {
    pub owner: u8,
    pub serial: u32,
    pub stamp: u32,
}

/// An object in a message, with what the kind says of it.
#[derive(Clone, Copy, Debug, PartialEq, Eq)]
pub struct Entry {
    pub object: u8,
    pub mode: u8,
    pub version: u32,
    pub value: i64,
}

/// Another transaction that a vote or a yield names.
#[derive(Clone, Copy, Debug, PartialEq, Eq)]
pub struct Rival {
    pub owner: u8,
    pub serial: u32,
}

/// A message, well formed or not. Its three sections are lists, as in the bytes.
#[derive(Clone, Debug, PartialEq, Eq)]
pub struct Message {
    pub kind: u8,
    pub from: u8,
    pub to: u8,
    pub transaction: Transaction,
    pub entries: Vec<Entry>,
    pub rivals: Vec<Rival>,
    pub words: Vec<u8>,
}

/// A message without sections, between two nodes.
fn bare(kind: u8, from: u8, to: u8, transaction: Transaction) -> Message {
    Message { kind, from, to, transaction, entries: vec![], rivals: vec![], words: vec![] }
}

pub fn fetch(to: u8, transaction: Transaction, object: u8, mode: u8) -> Message {
    let entries = vec![Entry { object, mode, version: 0, value: 0 }];
    Message { entries, ..bare(FETCH, transaction.owner, to, transaction) }
}

pub fn copy(from: u8, transaction: Transaction, entry: Entry) -> Message {
    Message { entries: vec![entry], ..bare(COPY, from, transaction.owner, transaction) }
}

pub fn ask(to: u8, transaction: Transaction, entries: Vec<Entry>) -> Message {
    Message { entries, ..bare(ASK, transaction.owner, to, transaction) }
}

pub fn vote(from: u8, transaction: Transaction, rivals: Vec<Rival>, word: u8) -> Message {
    Message { rivals, words: vec![word], ..bare(VOTE, from, transaction.owner, transaction) }
}

pub fn outcome(to: u8, transaction: Transaction, entries: Vec<Entry>, word: u8) -> Message {
    Message { entries, words: vec![word], ..bare(OUTCOME, transaction.owner, to, transaction) }
}

pub fn done(from: u8, transaction: Transaction) -> Message {
    bare(DONE, from, transaction.owner, transaction)
}

pub fn yields(transaction: Transaction, rival: Rival) -> Message {
    Message { rivals: vec![rival], ..bare(YIELD, transaction.owner, rival.owner, transaction) }
}

impl Message {
    /// Whether it is a message of this kind with this word.
    fn says(&self, kind: u8, word: u8) -> bool {
        self.kind == kind && self.words == [word]
    }
}

/// What a section's count may be.
struct Counts {
    entries: RangeInclusive<usize>,
    rivals: RangeInclusive<usize>,
    words: RangeInclusive<usize>,
}

const fn counts(entries: RangeInclusive<usize>, rivals: RangeInclusive<usize>, words: RangeInclusive<usize>) -> Counts {
    Counts { entries, rivals, words }
}

/// "The kind, 1 to 7, decides which counts are allowed": the table. Any for a kind that is none.
fn allowed(kind: u8) -> Counts {
    match kind {
        FETCH => counts(1..=1, 0..=0, 0..=0),
        COPY => counts(1..=1, 0..=0, 0..=0),
        ASK => counts(1..=ENTRIES, 0..=0, 0..=0),
        VOTE => counts(0..=0, 0..=12, 1..=1),
        OUTCOME => counts(0..=ENTRIES, 0..=0, 1..=1),
        DONE => counts(0..=0, 0..=0, 0..=0),
        YIELD => counts(0..=0, 1..=1, 0..=0),
        _ => counts(0..=255, 0..=255, 0..=255),
    }
}

/// The rules of a well-formed message. Each speaks only of the messages that it names and lets all others be.
#[derive(Clone, Copy, Debug, PartialEq, Eq, PartialOrd, Ord)]
pub enum Rule {
    /// "The kind, 1 to 7."
    Kind,
    /// No message names a node (document 01: controller) above 12: not as from, to, owner or a rival's owner.
    Nodes,
    /// A serial has "32 bits, from 1".
    Serial,
    /// A stamp has "32 bits, from 1".
    Stamp,
    /// So has a rival's serial.
    RivalSerial,
    /// Objects are 0 to 127: "from 128 on a message gives 3".
    Objects,
    /// "Mode 1 with 0 read and 1 write."
    Modes,
    /// Entries "ascend strictly", by object.
    EntriesAscend,
    /// Rivals "ascend strictly", by owner.
    RivalsAscend,
    /// The table's column of entries.
    EntryCount,
    /// The table's column of rivals.
    RivalCount,
    /// The table's column of words.
    WordCount,
    /// "0 no, 1 yes"; "0 abort, 1 commit".
    Words,
    /// A fetch has one entry, "version and value 0".
    FetchEmpty,
    /// A vote's rivals are "never the owner".
    VoteRival,
    /// A vote's rivals are "0 on no".
    NoAlone,
    /// An outcome's entries are "0 on abort".
    AbortEmpty,
    /// An outcome's entries are "1 to 8 on commit".
    CommitFull,
    /// A yield's rival is "not the owner".
    YieldRival,
    /// "Kinds 1, 3, 5, 7 come from the owner."
    FromOwner,
    /// "2, 4, 6 go to it."
    ToOwner,
    /// "A yield goes to the rival's owner."
    ToRival,
    /// "In asks and outcomes .. a read's value is 0."
    ReadValue,
    /// "In asks and outcomes .. a write's .. version is below 4,294,967,295."
    WriteVersion,
}

impl Rule {
    pub const ALL: [Rule; 24] = [
        Rule::Kind,
        Rule::Nodes,
        Rule::Serial,
        Rule::Stamp,
        Rule::RivalSerial,
        Rule::Objects,
        Rule::Modes,
        Rule::EntriesAscend,
        Rule::RivalsAscend,
        Rule::EntryCount,
        Rule::RivalCount,
        Rule::WordCount,
        Rule::Words,
        Rule::FetchEmpty,
        Rule::VoteRival,
        Rule::NoAlone,
        Rule::AbortEmpty,
        Rule::CommitFull,
        Rule::YieldRival,
        Rule::FromOwner,
        Rule::ToOwner,
        Rule::ToRival,
        Rule::ReadValue,
        Rule::WriteVersion,
    ];

    /// Whether a message keeps the rule.
    pub fn kept(self, message: &Message) -> bool {
        let Message { kind, from, to, transaction, entries, rivals, words } = message;
        let is_node = |node: u8| usize::from(node) < NODES;
        let owner = transaction.owner;
        match self {
            Rule::Kind => (1..=7).contains(kind),
            Rule::Nodes => is_node(*from) && is_node(*to) && is_node(owner) && rivals.iter().all(|rival| is_node(rival.owner)),
            Rule::Serial => transaction.serial >= 1,
            Rule::Stamp => transaction.stamp >= 1,
            Rule::RivalSerial => rivals.iter().all(|rival| rival.serial >= 1),
            Rule::Objects => entries.iter().all(|entry| usize::from(entry.object) < OBJECTS),
            Rule::Modes => entries.iter().all(|entry| entry.mode == READ || entry.mode == WRITE),
            Rule::EntriesAscend => entries.windows(2).all(|two| two[0].object < two[1].object),
            Rule::RivalsAscend => rivals.windows(2).all(|two| two[0].owner < two[1].owner),
            Rule::EntryCount => allowed(*kind).entries.contains(&entries.len()),
            Rule::RivalCount => allowed(*kind).rivals.contains(&rivals.len()),
            Rule::WordCount => allowed(*kind).words.contains(&words.len()),
            Rule::Words => words.iter().all(|&word| word <= 1),
            Rule::FetchEmpty => *kind != FETCH || entries.iter().all(|entry| entry.version == 0 && entry.value == 0),
            Rule::VoteRival => *kind != VOTE || rivals.iter().all(|rival| rival.owner != owner),
            Rule::NoAlone => !message.says(VOTE, NO) || rivals.is_empty(),
            Rule::AbortEmpty => !message.says(OUTCOME, ABORT) || entries.is_empty(),
            Rule::CommitFull => !message.says(OUTCOME, COMMIT) || !entries.is_empty(),
            Rule::YieldRival => *kind != YIELD || rivals.iter().all(|rival| rival.owner != owner),
            Rule::FromOwner => ![FETCH, ASK, OUTCOME, YIELD].contains(kind) || *from == owner,
            Rule::ToOwner => ![COPY, VOTE, DONE].contains(kind) || *to == owner,
            Rule::ToRival => *kind != YIELD || rivals.iter().all(|rival| rival.owner == *to),
            Rule::ReadValue => ![ASK, OUTCOME].contains(kind) || entries.iter().all(|entry| entry.mode != READ || entry.value == 0),
            Rule::WriteVersion => ![ASK, OUTCOME].contains(kind) || entries.iter().all(|entry| entry.mode != WRITE || entry.version < LAST),
        }
    }
}

/// The rules that a message breaks.
pub fn broken(message: &Message) -> Vec<Rule> {
    Rule::ALL.into_iter().filter(|rule| !rule.kept(message)).collect()
}

pub fn well_formed(message: &Message) -> bool {
    broken(message).is_empty()
}

/// Little-endian. Header of 12 bytes: kind, from, to, owner (one byte each), serial, stamp (four each). Then three sections, each after a
/// one-byte count: entries (object 1, mode 1, version 4, value 8), rivals (owner 1, serial 4), word (1).
pub fn encode(message: &Message) -> Vec<u8> {
    let count = |length: usize| u8::try_from(length).expect("a count of one byte");
    let transaction = message.transaction;
    let mut bytes = vec![message.kind, message.from, message.to, transaction.owner];
    bytes.extend(transaction.serial.to_le_bytes());
    bytes.extend(transaction.stamp.to_le_bytes());
    bytes.push(count(message.entries.len()));
    for entry in &message.entries {
        bytes.push(entry.object);
        bytes.push(entry.mode);
        bytes.extend(entry.version.to_le_bytes());
        bytes.extend(entry.value.to_le_bytes());
    }
    bytes.push(count(message.rivals.len()));
    for rival in &message.rivals {
        bytes.push(rival.owner);
        bytes.extend(rival.serial.to_le_bytes());
    }
    bytes.push(count(message.words.len()));
    bytes.extend(&message.words);
    bytes
}

/// The record of some bytes, well formed or not; none where bytes are missing or "bytes are left over".
pub fn decode(bytes: &[u8]) -> Option<Message> {
    let mut reader = Reader::new(bytes);
    let (kind, from, to) = (reader.u8()?, reader.u8()?, reader.u8()?);
    let transaction = Transaction { owner: reader.u8()?, serial: reader.u32()?, stamp: reader.u32()? };
    let mut message = bare(kind, from, to, transaction);
    for _ in 0..reader.u8()? {
        message.entries.push(Entry { object: reader.u8()?, mode: reader.u8()?, version: reader.u32()?, value: reader.i64()? });
    }
    for _ in 0..reader.u8()? {
        message.rivals.push(Rival { owner: reader.u8()?, serial: reader.u32()? });
    }
    for _ in 0..reader.u8()? {
        message.words.push(reader.u8()?);
    }
    reader.at_end().then_some(message)
}

/// The number of received bytes, and their message where it is 0: 1 for a length outside 15 to 128, then 3 for a broken rule.
pub fn receive(bytes: &[u8]) -> Result<Message, u8> {
    if bytes.len() < SHORTEST || bytes.len() > LONGEST {
        return Err(number::LENGTH);
    }
    decode(bytes).filter(well_formed).ok_or(number::GARBLED)
}

/// The check call: the number alone.
pub fn check_call(bytes: &[u8]) -> u8 {
    receive(bytes).err().unwrap_or(number::OK)
}

/// A write call: the bytes that fill the front of a buffer of `size` bytes, or 1 for a buffer under 128, then 3 for a message that is not
/// well formed.
pub fn write_call(size: usize, message: &Message) -> Result<Vec<u8>, u8> {
    if size < LONGEST {
        return Err(number::LENGTH);
    }
    if !well_formed(message) {
        return Err(number::GARBLED);
    }
    Ok(encode(message))
}
