//! A coordinator's record: its fields, its bytes, and the clauses of a valid one.

use super::bytes::Reader;
use super::message::{ENTRIES, LAST, WRITE};
use super::quorum::{inside, is_quorum, Kind, ALL, NODES};
use super::{number, OBJECTS};

/// Bytes of a record.
pub const RECORD: usize = 301;

/// "Phases at the booking end: idle, open, voting, finishing."
pub mod phase {
    pub const IDLE: u8 = 0;
    pub const OPEN: u8 = 1;
    pub const VOTING: u8 = 2;
    pub const FINISHING: u8 = 3;
}

/// What became of the last transaction that was decided.
pub mod decided {
    pub const NONE: u8 = 0;
    pub const COMMITTED: u8 = 1;
    pub const ABORTED: u8 = 2;
}

/// An object that the transaction has opened. One that is not opened yet is all zeros.
#[derive(Clone, Copy, Debug, Default, PartialEq, Eq)]
pub struct Opened {
    pub object: u8,
    pub mode: u8,
    /// The nodes whose copies came.
    pub came: u16,
    /// What was found: the first copy of the highest version that came.
    pub version: u32,
    pub value: i64,
    /// 1 where a new value was given, else 0.
    pub given: u8,
    pub new: i64,
}

impl Opened {
    /// "A tally is ready exactly when copies have come from a read quorum."
    pub fn ready(&self) -> bool {
        is_quorum(Kind::Read, self.came)
    }

    /// Votes may be asked for: ready, and where it is written, "with its new value".
    pub fn settled(&self) -> bool {
        self.ready() && (self.mode != WRITE || self.given == 1)
    }
}

/// All that a coordinator keeps, valid or not. Serial, timestamp (document 01: stamp) and outcome last; the rest is of one transaction.
#[derive(Clone, Debug, Default, PartialEq, Eq)]
pub struct Record {
    pub serial: u32,
    pub timestamp: u32,
    pub outcome: u8,
    pub phase: u8,
    pub live: u16,
    pub distances: [u16; NODES],
    /// The present read quorum.
    pub quorum: u16,
    /// Document 01: the asked set.
    pub contacted: u16,
    pub count: u8,
    /// In the order of opening.
    pub opened: [Opened; ENTRIES],
    /// Document 01: the party.
    pub participants: u16,
    pub yes: u16,
    pub done: u16,
    /// For each owner the highest serial that a yes named, 0 for none.
    pub rivals: [u32; NODES],
}

impl Record {
    /// Those that are opened.
    pub fn objects(&self) -> &[Opened] {
        &self.opened[..usize::from(self.count).min(ENTRIES)]
    }

    pub fn find(&self, object: u8) -> Option<&Opened> {
        self.objects().iter().find(|opened| opened.object == object)
    }

    pub fn find_mut(&mut self, object: u8) -> Option<&mut Opened> {
        let count = usize::from(self.count).min(ENTRIES);
        self.opened[..count].iter_mut().find(|opened| opened.object == object)
    }

    /// Whose done ends finishing: "every party member (when never voted: every asked one)".
    pub fn awaited(&self) -> u16 {
        if self.participants == 0 {
            self.contacted
        } else {
            self.participants
        }
    }
}

/// The clauses of a valid record. Each speaks only of what it names and lets all else be.
#[derive(Clone, Copy, Debug, PartialEq, Eq, PartialOrd, Ord)]
pub enum Clause {
    /// The phase is at most 3, the outcome at most 2, the count at most 8.
    Phase,
    Outcome,
    Count,
    /// Serial and timestamp are both 0 or neither is.
    Together,
    /// Both 0: idle, and nothing was decided.
    Unused,
    /// An opened object is below 128, its mode 0 or 1, and no object is opened twice.
    Objects,
    Modes,
    Once,
    /// Copies came from contacted nodes only; nothing was found while none came.
    CameContacted,
    FoundCame,
    /// A given byte is 0 or 1; a new value is given only to what is written; it is 0 where none is given.
    GivenByte,
    GivenWritten,
    NewGiven,
    /// Places past the count are all zeros.
    PastCount,
    /// Live, quorum, contacted and participants are masks of nodes.
    Masks,
    /// At idle live, quorum, distances and count are 0.
    Idle,
    /// Otherwise the present quorum is a read quorum.
    Quorum,
    /// No object open: nobody contacted. Else the present quorum is contacted.
    NobodyContacted,
    QuorumContacted,
    /// No participants: no rivals.
    NoRivals,
    /// Participants: they contain a write quorum and whoever was contacted, and there are objects, all settled, with a version left.
    WriteQuorum,
    ContactedTakePart,
    SomeObject,
    Settled,
    VersionLeft,
    /// No participants while idle or open, some while voting.
    NotAsked,
    Asked,
    /// Yes is said by participants; while voting some yes is missing.
    YesInside,
    YesMissing,
    /// Finishing: committed exactly when there are participants and all said yes, else aborted.
    Decided,
    /// Done is said while finishing only, by awaited nodes, and some is missing.
    NotDone,
    DoneInside,
    DoneMissing,
}

impl Clause {
    pub const ALL: [Clause; 33] = [
        Clause::Phase,
        Clause::Outcome,
        Clause::Count,
        Clause::Together,
        Clause::Unused,
        Clause::Objects,
        Clause::Modes,
        Clause::Once,
        Clause::CameContacted,
        Clause::FoundCame,
        Clause::GivenByte,
        Clause::GivenWritten,
        Clause::NewGiven,
        Clause::PastCount,
        Clause::Masks,
        Clause::Idle,
        Clause::Quorum,
        Clause::NobodyContacted,
        Clause::QuorumContacted,
        Clause::NoRivals,
        Clause::WriteQuorum,
        Clause::ContactedTakePart,
        Clause::SomeObject,
        Clause::Settled,
        Clause::VersionLeft,
        Clause::NotAsked,
        Clause::Asked,
        Clause::YesInside,
        Clause::YesMissing,
        Clause::Decided,
        Clause::NotDone,
        Clause::DoneInside,
        Clause::DoneMissing,
    ];

    /// Whether a record keeps the clause.
    pub fn kept(self, record: &Record) -> bool {
        let each = |holds: fn(&Opened) -> bool| record.objects().iter().all(holds);
        let unused = record.serial == 0 && record.timestamp == 0;
        match self {
            Clause::Phase => record.phase <= 3,
            Clause::Outcome => record.outcome <= 2,
            Clause::Count => usize::from(record.count) <= ENTRIES,
            Clause::Together => (record.serial == 0) == (record.timestamp == 0),
            Clause::Unused => !unused || (record.phase == phase::IDLE && record.outcome == decided::NONE),
            Clause::Objects => each(|opened| usize::from(opened.object) < OBJECTS),
            Clause::Modes => each(|opened| opened.mode <= 1),
            Clause::Once => {
                record.objects().iter().all(|one| record.objects().iter().filter(|other| other.object == one.object).count() == 1)
            }
            Clause::CameContacted => record.objects().iter().all(|opened| inside(opened.came, record.contacted)),
            Clause::FoundCame => each(|opened| opened.came != 0 || (opened.version == 0 && opened.value == 0)),
            Clause::GivenByte => each(|opened| opened.given <= 1),
            Clause::GivenWritten => each(|opened| opened.given == 0 || opened.mode == WRITE),
            Clause::NewGiven => each(|opened| opened.given != 0 || opened.new == 0),
            Clause::PastCount => record.opened.iter().skip(usize::from(record.count)).all(|opened| *opened == Opened::default()),
            Clause::Masks => [record.live, record.quorum, record.contacted, record.participants].iter().all(|&mask| mask <= ALL),
            _ => self.kept_by_phase(record),
        }
    }

    /// The clauses about the phase and the sets of nodes.
    fn kept_by_phase(self, record: &Record) -> bool {
        let Record { phase, live, quorum, contacted, count, participants, yes, done, .. } = *record;
        let (idle, finishing, asked) = (phase == phase::IDLE, phase == phase::FINISHING, participants != 0);
        let all_yes = asked && yes == participants;
        let writes_last = record.objects().iter().any(|opened| opened.mode == WRITE && opened.version == LAST);
        match self {
            Clause::Idle => !idle || (live == 0 && quorum == 0 && count == 0 && record.distances == [0; NODES]),
            Clause::Quorum => idle || is_quorum(Kind::Read, quorum),
            Clause::NobodyContacted => count != 0 || contacted == 0,
            Clause::QuorumContacted => count == 0 || inside(quorum, contacted),
            Clause::NoRivals => asked || record.rivals == [0; NODES],
            Clause::WriteQuorum => !asked || is_quorum(Kind::Write, participants),
            Clause::ContactedTakePart => !asked || inside(contacted, participants),
            Clause::SomeObject => !asked || count != 0,
            Clause::Settled => !asked || record.objects().iter().all(Opened::settled),
            Clause::VersionLeft => !asked || !writes_last,
            Clause::NotAsked => !(idle || phase == phase::OPEN) || !asked,
            Clause::Asked => phase != phase::VOTING || asked,
            Clause::YesInside => inside(yes, participants),
            Clause::YesMissing => phase != phase::VOTING || yes != participants,
            Clause::Decided => !finishing || record.outcome == if all_yes { decided::COMMITTED } else { decided::ABORTED },
            Clause::NotDone => finishing || done == 0,
            Clause::DoneInside => !finishing || inside(done, record.awaited()),
            _ => !finishing || done != record.awaited(),
        }
    }
}

/// The clauses that a record breaks.
pub fn broken(record: &Record) -> Vec<Clause> {
    Clause::ALL.into_iter().filter(|clause| !clause.kept(record)).collect()
}

pub fn valid(record: &Record) -> bool {
    Clause::ALL.into_iter().all(|clause| clause.kept(record))
}

/// Little-endian: serial 4, timestamp 4, outcome 1, phase 1, live 2, distances 13 times 2, present quorum 2, contacted 2, count 1, eight
/// objects (object 1, mode 1, came 2, version 4, value 8, given 1, new value 8), participants 2, yes 2, done 2, rivals 13 times 4.
pub fn encode(record: &Record) -> Vec<u8> {
    let mut bytes = Vec::with_capacity(RECORD);
    bytes.extend(record.serial.to_le_bytes());
    bytes.extend(record.timestamp.to_le_bytes());
    bytes.extend([record.outcome, record.phase]);
    bytes.extend(record.live.to_le_bytes());
    bytes.extend(record.distances.iter().flat_map(|distance| distance.to_le_bytes()));
    bytes.extend(record.quorum.to_le_bytes());
    bytes.extend(record.contacted.to_le_bytes());
    bytes.push(record.count);
    for opened in &record.opened {
        bytes.extend([opened.object, opened.mode]);
        bytes.extend(opened.came.to_le_bytes());
        bytes.extend(opened.version.to_le_bytes());
        bytes.extend(opened.value.to_le_bytes());
        bytes.push(opened.given);
        bytes.extend(opened.new.to_le_bytes());
    }
    bytes.extend([record.participants, record.yes, record.done].iter().flat_map(|mask| mask.to_le_bytes()));
    bytes.extend(record.rivals.iter().flat_map(|serial| serial.to_le_bytes()));
    bytes
}

/// The record of some bytes, valid or not; none where bytes are missing or left over.
pub fn decode(bytes: &[u8]) -> Option<Record> {
    let mut reader = Reader::new(bytes);
    let mut record = Record { serial: reader.u32()?, timestamp: reader.u32()?, ..Record::default() };
    (record.outcome, record.phase, record.live) = (reader.u8()?, reader.u8()?, reader.u16()?);
    for distance in &mut record.distances {
        *distance = reader.u16()?;
    }
    (record.quorum, record.contacted, record.count) = (reader.u16()?, reader.u16()?, reader.u8()?);
    for opened in &mut record.opened {
        let (object, mode, came) = (reader.u8()?, reader.u8()?, reader.u16()?);
        let (version, value) = (reader.u32()?, reader.i64()?);
        *opened = Opened { object, mode, came, version, value, given: reader.u8()?, new: reader.i64()? };
    }
    (record.participants, record.yes, record.done) = (reader.u16()?, reader.u16()?, reader.u16()?);
    for serial in &mut record.rivals {
        *serial = reader.u32()?;
    }
    reader.at_end().then_some(record)
}

/// The number of stored bytes, and their record where it is 0: 1 for another length, then 2 for a broken clause.
pub fn load(bytes: &[u8]) -> Result<Record, u8> {
    if bytes.len() != RECORD {
        return Err(number::LENGTH);
    }
    decode(bytes).filter(valid).ok_or(number::DAMAGED)
}

/// The check call: the number alone.
pub fn check_call(bytes: &[u8]) -> u8 {
    load(bytes).err().unwrap_or(number::OK)
}

/// The call for a blank record in a buffer of `size` bytes: the bytes, or 1 for another size.
pub fn blank_call(size: usize) -> Result<Vec<u8>, u8> {
    if size != RECORD {
        return Err(number::LENGTH);
    }
    Ok(encode(&Record::default()))
}
