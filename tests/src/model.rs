//! The second model: the rules once more, written from documents 01 and 02 and for plainness, to be compared with the library.
//!
//! A module for each part of the rules. Speed does not matter here; a reader compares each function with a sentence.

pub mod buffers;
mod bytes;
pub mod classes;
pub mod coordinator;
pub mod history;
pub mod hours;
pub mod image;
pub mod message;
pub mod program;
pub mod quorum;
pub mod record;
pub mod replica;
pub mod script;
pub mod settings;
pub mod station;

/// Objects (document 01: tallies) are 0 to 127: "sixty-four tallies are too few; the limit becomes 128". The model has the limit here alone.
pub const OBJECTS: usize = 128;

/// The numbers with which a call refuses. They are tried in the order in which a call lists them, mostly the lowest first.
pub mod number {
    pub const OK: u8 = 0;
    pub const LENGTH: u8 = 1;
    pub const DAMAGED: u8 = 2;
    pub const GARBLED: u8 = 3;
    pub const STRANGER: u8 = 4;
    pub const OUT_OF_TURN: u8 = 5;
    pub const NO_SUCH_OBJECT: u8 = 6;
    pub const EIGHT_OPEN: u8 = 7;
    pub const NO_QUORUM: u8 = 8;
    pub const USED_UP: u8 = 9;
    pub const BUSY: u8 = 10;
    pub const NOT_READY: u8 = 11;
    pub const POOL_FULL: u8 = 12;
    pub const CLOSED: u8 = 13;
    pub const BOUNDS: u8 = 14;
    pub const TALLY_TWICE: u8 = 15;

    /// How many there are, 0 too.
    pub const COUNT: usize = 16;
}

/// A rule broken on purpose, to see that the check of demand 3 notices. The model itself has none.
#[derive(Clone, Copy, Debug, PartialEq, Eq)]
pub enum Fault {
    None,
    /// A replica's vote does not mind that another holds an object.
    IgnoresHolder,
    /// A replica's vote does not mind that a copy here has a higher version.
    IgnoresVersion,
    /// A replica's commit leaves who wrote a copy last.
    LeavesAuthor,
    /// A coordinator commits with more than half of the participants' yes.
    CommitsByMajority,
    /// A coordinator lets a copy change what was found for an object that is ready.
    TakesLateCopies,
}
