//! The stored image of a replica: a record, its bytes in each layout, which images are valid, each sentence of documents 01 and 02 as one rule, and how
//! an image of an older layout is taken in.
//!
//! A replica's rules change the record; only here are there bytes.

use super::bytes::Reader;
use super::quorum::{nodes, ALL, NODES};
use super::{number, OBJECTS};

/// A layout of an image's bytes: how many copies it has, and how many bytes each of them.
#[derive(Clone, Copy, Debug, PartialEq, Eq)]
pub struct Layout {
    pub copies: usize,
    pub width: usize,
}

/// The present layout: "the image's first count becomes 128 and its length 2,935".
pub const TODAY: Layout = Layout { copies: OBJECTS, width: 22 };

/// Document 01's, without authors: "1,207 bytes".
pub const FIRST: Layout = Layout { copies: 64, width: 17 };

/// The first with authors: "the image becomes 1,527 bytes".
pub const SIGNED: Layout = Layout { copies: 64, width: 22 };

/// The layouts that are taken in, the oldest first.
pub const OLDER: [Layout; 2] = [FIRST, SIGNED];

/// Bytes of an owner.
const OWNER: usize = 9;

impl Layout {
    /// The layout that the next release had, or has: "one of 1,207 as in 2.5 first".
    pub fn next(self) -> Layout {
        let later = OLDER.into_iter().skip_while(|&older| older != self).nth(1);
        later.unwrap_or(TODAY)
    }

    /// Bytes of an image.
    pub const fn length(self) -> usize {
        self.owners_at() + OWNER * NODES
    }

    /// Where a copy stands, the count of the owners, and the first owner.
    pub const fn copy_at(self, object: usize) -> usize {
        1 + self.width * object
    }

    pub const fn count_at(self) -> usize {
        self.copy_at(self.copies)
    }

    pub const fn owners_at(self) -> usize {
        self.count_at() + 1
    }

    /// "A copy gains its last writer, owner and serial (5 bytes after its writers)."
    pub const fn has_authors(self) -> bool {
        self.width >= 22
    }
}

/// Bytes of an image in the present layout.
pub const IMAGE: usize = 2935;

const _: () = assert!(TODAY.length() == IMAGE && SIGNED.length() == 1527 && FIRST.length() == 1207);

/// The holder of a copy that nobody holds.
pub const NOBODY: u8 = 255;

/// The states of an owner at a replica: "0 over, 1 listed, 2 held, 3 refused".
pub mod state {
    pub const OVER: u8 = 0;
    pub const LISTED: u8 = 1;
    pub const HELD: u8 = 2;
    pub const REFUSED: u8 = 3;
}

/// Who wrote a copy last (document 02: its last writer).
#[derive(Clone, Copy, Debug, PartialEq, Eq)]
pub struct Author {
    pub owner: u8,
    pub serial: u32,
}

impl Author {
    /// "255 and 0 when unwritten or blank."
    pub const NOBODY: Author = Author { owner: 255, serial: 0 };

    /// "Unknown writers .., owner 254 and serial 0."
    pub const UNKNOWN: Author = Author { owner: 254, serial: 0 };

    /// Of a copy whose layout does not say: "unknown writers above version 0".
    fn untold(version: u32) -> Author {
        if version > 0 {
            Author::UNKNOWN
        } else {
            Author::NOBODY
        }
    }
}

/// "A copy is a signed 64-bit value in grams, a 32-bit version from 0, a holder (0 to 12, 255 for none), and two masks of potential readers
/// and writers." "A copy gains its last writer."
#[derive(Clone, Copy, Debug, PartialEq, Eq)]
pub struct ObjectCopy {
    pub value: i64,
    pub version: u32,
    pub holder: u8,
    pub readers: u16,
    pub writers: u16,
    pub author: Author,
}

/// "For each owner it has the last serial, its stamp and a state."
#[derive(Clone, Copy, Debug, PartialEq, Eq)]
pub struct Owner {
    pub serial: u32,
    pub state: u8,
    pub stamp: u32,
}

/// All that a replica keeps, valid or not.
#[derive(Clone, Debug, PartialEq, Eq)]
pub struct Image {
    pub copies: [ObjectCopy; OBJECTS],
    pub owners: [Owner; NODES],
}

/// "Blank is all zeros but the counts and holders", and the owners of last writers.
pub fn blank() -> Image {
    Image {
        copies: [ObjectCopy { value: 0, version: 0, holder: NOBODY, readers: 0, writers: 0, author: Author::NOBODY }; OBJECTS],
        owners: [Owner { serial: 0, state: state::OVER, stamp: 0 }; NODES],
    }
}

/// The rules of a valid image. Each speaks only of the owners and copies that it names and lets all others be.
#[derive(Clone, Copy, Debug, PartialEq, Eq, PartialOrd, Ord)]
pub enum Rule {
    /// "A state is 0 to 3."
    States,
    /// "And a mask at most 8,191."
    Masks,
    /// "A holder (0 to 12, 255 for none)."
    Holders,
    /// "An owner's serial and stamp are both 0 .. or neither is."
    Together,
    /// "Both 0, then in state 0."
    UnusedOver,
    /// "A holder's state must be 2."
    HolderHeld,
    /// "A listed bit's owner must have state 1."
    ListedListed,
    /// "An image with a writer's owner of 13 to 253 is damaged."
    Authors,
    /// "Or with a serial of 0 for an owner below 13."
    AuthorSerials,
    /// "Or above 0 for 254 or 255."
    NoAuthorSerials,
}

impl Rule {
    pub const ALL: [Rule; 10] = [
        Rule::States,
        Rule::Masks,
        Rule::Holders,
        Rule::Together,
        Rule::UnusedOver,
        Rule::HolderHeld,
        Rule::ListedListed,
        Rule::Authors,
        Rule::AuthorSerials,
        Rule::NoAuthorSerials,
    ];

    /// Whether the rule speaks of authors, which not every layout has.
    pub fn of_authors(self) -> bool {
        [Rule::Authors, Rule::AuthorSerials, Rule::NoAuthorSerials].contains(&self)
    }

    /// Whether an image keeps the rule.
    pub fn kept(self, image: &Image) -> bool {
        let Image { copies, owners } = image;
        match self {
            Rule::States => owners.iter().all(|owner| owner.state <= 3),
            Rule::Masks => copies.iter().all(|copy| copy.readers <= ALL && copy.writers <= ALL),
            Rule::Holders => copies.iter().all(|copy| copy.holder <= 12 || copy.holder == NOBODY),
            Rule::Together => owners.iter().all(|owner| (owner.serial == 0) == (owner.stamp == 0)),
            Rule::UnusedOver => owners.iter().all(|owner| owner.serial != 0 || owner.stamp != 0 || owner.state == state::OVER),
            Rule::HolderHeld => {
                copies.iter().all(|copy| owners.get(usize::from(copy.holder)).is_none_or(|owner| owner.state == state::HELD))
            }
            Rule::ListedListed => {
                copies.iter().all(|copy| nodes(copy.readers | copy.writers).all(|node| owners[node].state == state::LISTED))
            }
            Rule::Authors => copies.iter().all(|copy| !(13..=253).contains(&copy.author.owner)),
            Rule::AuthorSerials => copies.iter().all(|copy| copy.author.owner >= 13 || copy.author.serial != 0),
            Rule::NoAuthorSerials => copies.iter().all(|copy| copy.author.owner < 254 || copy.author.serial == 0),
        }
    }
}

/// The rules that an image breaks.
pub fn broken(image: &Image) -> Vec<Rule> {
    Rule::ALL.into_iter().filter(|rule| !rule.kept(image)).collect()
}

pub fn valid(image: &Image) -> bool {
    broken(image).is_empty()
}

/// An image is the count of the copies and the objects' copies (value 8, version 4, holder 1, readers 2, writers 2, in a layout with authors the
/// author's owner 1 and serial 4), then count 13 and the owners (last serial 4, state 1, stamp 4). Numbers are little-endian, as in messages.
pub fn encode_as(layout: Layout, image: &Image) -> Vec<u8> {
    let mut bytes = vec![layout.copies as u8];
    for copy in &image.copies[..layout.copies] {
        bytes.extend(copy.value.to_le_bytes());
        bytes.extend(copy.version.to_le_bytes());
        bytes.push(copy.holder);
        bytes.extend(copy.readers.to_le_bytes());
        bytes.extend(copy.writers.to_le_bytes());
        if layout.has_authors() {
            bytes.push(copy.author.owner);
            bytes.extend(copy.author.serial.to_le_bytes());
        }
    }
    bytes.push(13);
    for owner in &image.owners {
        bytes.extend(owner.serial.to_le_bytes());
        bytes.push(owner.state);
        bytes.extend(owner.stamp.to_le_bytes());
    }
    bytes
}

/// The same in the present layout.
pub fn encode(image: &Image) -> Vec<u8> {
    encode_as(TODAY, image)
}

/// The next copy of some bytes.
fn decode_copy(reader: &mut Reader, layout: Layout) -> Option<ObjectCopy> {
    let (value, version) = (reader.i64()?, reader.u32()?);
    let (holder, readers, writers) = (reader.u8()?, reader.u16()?, reader.u16()?);
    let author = if layout.has_authors() { Author { owner: reader.u8()?, serial: reader.u32()? } } else { Author::untold(version) };
    Some(ObjectCopy { value, version, holder, readers, writers, author })
}

/// The record of some bytes in a layout, valid or not; none where a count is another, or bytes are missing or left over. Copies that the layout does not
/// have are blank.
pub fn decode_as(layout: Layout, bytes: &[u8]) -> Option<Image> {
    let mut reader = Reader::new(bytes);
    let mut image = blank();
    if usize::from(reader.u8()?) != layout.copies {
        return None;
    }
    for copy in &mut image.copies[..layout.copies] {
        *copy = decode_copy(&mut reader, layout)?;
    }
    if reader.u8()? != 13 {
        return None;
    }
    for owner in &mut image.owners {
        *owner = Owner { serial: reader.u32()?, state: reader.u8()?, stamp: reader.u32()? };
    }
    reader.at_end().then_some(image)
}

/// The same in the present layout.
pub fn decode(bytes: &[u8]) -> Option<Image> {
    decode_as(TODAY, bytes)
}

/// The number of stored bytes, and their image where it is 0: 1 for another length than 2,935, then 2 for a broken rule.
pub fn load(bytes: &[u8]) -> Result<Image, u8> {
    if bytes.len() != IMAGE {
        return Err(number::LENGTH);
    }
    decode(bytes).filter(valid).ok_or(number::DAMAGED)
}

/// The check call: the number alone.
pub fn check_call(bytes: &[u8]) -> u8 {
    load(bytes).err().unwrap_or(number::OK)
}

/// The call for a blank image in a buffer of `size` bytes: the bytes, or 1 for another size.
pub fn blank_call(size: usize) -> Result<Vec<u8>, u8> {
    if size != IMAGE {
        return Err(number::LENGTH);
    }
    Ok(encode(&blank()))
}

/// The call that takes older bytes in, to a buffer of `size` bytes: the bytes of the present layout; 1 where either has another length, then 2 where the
/// older image breaks a rule of its layout. "An image of 1,207 bytes is taken in with unknown writers above version 0." "An image of 1,527 bytes is read with
/// tallies 64 to 127 blank .. and is written long from then on."
pub fn take_in_call(old: &[u8], size: usize) -> Result<Vec<u8>, u8> {
    let layout = OLDER.into_iter().find(|layout| layout.length() == old.len());
    let layout = layout.filter(|_| size == IMAGE).ok_or(number::LENGTH)?;
    let image = decode_as(layout, old).filter(valid).ok_or(number::DAMAGED)?;
    Ok(encode(&image))
}

/// Valid bytes of a layout as those of the next one.
pub fn forward(layout: Layout, old: &[u8]) -> Option<Vec<u8>> {
    decode_as(layout, old).filter(valid).map(|image| encode_as(layout.next(), &image))
}

/// The call that tells who wrote an object's copy last: 1, 2, then 6 for an object above 127.
pub fn author_call(bytes: &[u8], object: u8) -> Result<Author, u8> {
    let image = load(bytes)?;
    image.copies.get(usize::from(object)).map(|copy| copy.author).ok_or(number::NO_SUCH_OBJECT)
}
