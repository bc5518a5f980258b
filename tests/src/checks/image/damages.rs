//! Ways to break a valid image, each with the one rule that it breaks, so that no other rule can stand in for it.

use super::records::in_state;
use crate::checks::message::records::some_serial;
use crate::model::image::{encode_as, state, Author, Image, Layout, Owner, Rule};
use crate::model::quorum::only;
use crate::random::Random;

/// What a damage breaks.
#[derive(Clone, Copy, Debug, PartialEq, Eq)]
pub enum Breaks {
    /// This rule alone.
    Only(Rule),
    /// The count of the copies, or of the owners: the bytes are no image at all.
    CopyCount,
    OwnerCount,
}

/// A way to break an image in which every state stands twice or more.
pub struct Damage {
    pub name: &'static str,
    pub breaks: Breaks,
    make: Make,
}

/// Breaks an image at an object's copy, where it is about copies.
type Make = fn(&mut Random, Image, usize) -> Image;

const fn damage(name: &'static str, rule: Rule, make: Make) -> Damage {
    Damage { name, breaks: Breaks::Only(rule), make }
}

impl Damage {
    /// The bytes of an image that is broken so, in a layout.
    pub fn bytes(&self, random: &mut Random, layout: Layout, image: Image) -> Vec<u8> {
        let object = place(random, layout.copies);
        let bytes = encode_as(layout, &(self.make)(random, image, object));
        match self.breaks {
            Breaks::Only(_) => bytes,
            Breaks::CopyCount => miscounted(random, bytes, 0),
            Breaks::OwnerCount => miscounted(random, bytes, layout.count_at()),
        }
    }

    /// Whether a layout has what is broken.
    pub fn fits(&self, layout: Layout) -> bool {
        layout.has_authors() || !matches!(self.breaks, Breaks::Only(rule) if rule.of_authors())
    }
}

/// The ways to break an image of a layout.
pub fn damages_of(layout: Layout) -> Vec<&'static Damage> {
    DAMAGES.iter().filter(|damage| damage.fits(layout)).collect()
}

/// One of the owners in this state.
fn one_in(random: &mut Random, image: &Image, state: u8) -> usize {
    *random.pick(&in_state(image, state))
}

/// One of so many copies, those at the ends more often than others.
fn place(random: &mut Random, copies: usize) -> usize {
    let any = random.below(copies);
    *random.pick(&[0, 63, 64.min(copies - 1), copies - 1, any, any])
}

fn held_by(mut image: Image, object: usize, holder: u8) -> Image {
    image.copies[object].holder = holder;
    image
}

/// A copy held by an owner of another state.
fn held_in(random: &mut Random, image: Image, object: usize, state: u8) -> Image {
    let holder = one_in(random, &image, state) as u8;
    held_by(image, object, holder)
}

/// These bits among the readers or the writers of a copy.
fn listing(mut image: Image, object: usize, bits: u16, reads: bool) -> Image {
    let copy = &mut image.copies[object];
    if reads {
        copy.readers |= bits;
    } else {
        copy.writers |= bits;
    }
    image
}

/// An owner of another state among the readers or the writers of a copy.
fn listed_in(random: &mut Random, image: Image, object: usize, state: u8, reads: bool) -> Image {
    let bit = only(one_in(random, &image, state));
    listing(image, object, bit, reads)
}

/// A bit that names no node among the readers or the writers of a copy.
fn above_all(random: &mut Random, image: Image, object: usize, reads: bool) -> Image {
    let bit = *random.pick(&[1 << 13, 1 << 14, 1 << 15, 7 << 13]);
    listing(image, object, bit, reads)
}

/// An owner whom no copy names, with these fields.
fn owned(random: &mut Random, mut image: Image, owner: Owner) -> Image {
    let state = *random.pick(&[state::OVER, state::REFUSED]);
    let node = one_in(random, &image, state);
    image.owners[node] = owner;
    image
}

/// An owner of this state with serial 0, or with stamp 0, or with both.
fn emptied(random: &mut Random, mut image: Image, state: u8, serial: bool, stamp: bool) -> Image {
    let node = one_in(random, &image, state);
    let owner = &mut image.owners[node];
    owner.serial = if serial { 0 } else { some_serial(random) };
    owner.stamp = if stamp { 0 } else { some_serial(random) };
    image
}

/// An owner whom copies name, in another state.
fn left(random: &mut Random, mut image: Image, from: u8) -> Image {
    let node = one_in(random, &image, from);
    let other = (from + 1 + random.below(3) as u8) % 4;
    for copy in &mut image.copies[..4] {
        match from {
            state::HELD => copy.holder = node as u8,
            _ => copy.readers |= only(node),
        }
    }
    image.owners[node].state = other;
    image
}

/// A copy with this author.
fn written_by(mut image: Image, object: usize, owner: u8, serial: u32) -> Image {
    image.copies[object].author = Author { owner, serial };
    image
}

/// A serial with no byte but one.
fn some_lone_byte(random: &mut Random) -> u32 {
    (1 + random.below(255) as u32) << (8 * random.below(4))
}

/// Another byte in place of a count.
fn miscounted(random: &mut Random, mut bytes: Vec<u8>, at: usize) -> Vec<u8> {
    let any = 1 + random.below(255) as u8;
    let change = *random.pick(&[1, 255, 64, 128, 192, any]);
    bytes[at] = bytes[at].wrapping_add(change);
    bytes
}

/// Every rule, and every field that a rule is about.
pub const DAMAGES: &[Damage] = &[
    damage("holder 13", Rule::Holders, |_, i, at| held_by(i, at, 13)),
    damage("holder 254", Rule::Holders, |_, i, at| held_by(i, at, 254)),
    damage("holder between", Rule::Holders, |r, i, at| {
        let holder = 14 + r.below(240) as u8;
        held_by(i, at, holder)
    }),
    damage("a holder who is over", Rule::HolderHeld, |r, i, at| held_in(r, i, at, state::OVER)),
    damage("a holder who is listed", Rule::HolderHeld, |r, i, at| held_in(r, i, at, state::LISTED)),
    damage("a holder who is refused", Rule::HolderHeld, |r, i, at| held_in(r, i, at, state::REFUSED)),
    damage("a reader who is over", Rule::ListedListed, |r, i, at| listed_in(r, i, at, state::OVER, true)),
    damage("a reader who is held", Rule::ListedListed, |r, i, at| listed_in(r, i, at, state::HELD, true)),
    damage("a reader who is refused", Rule::ListedListed, |r, i, at| listed_in(r, i, at, state::REFUSED, true)),
    damage("a writer who is over", Rule::ListedListed, |r, i, at| listed_in(r, i, at, state::OVER, false)),
    damage("a writer who is held", Rule::ListedListed, |r, i, at| listed_in(r, i, at, state::HELD, false)),
    damage("a writer who is refused", Rule::ListedListed, |r, i, at| listed_in(r, i, at, state::REFUSED, false)),
    damage("an owner with copies no more held", Rule::HolderHeld, |r, i, _| left(r, i, state::HELD)),
    damage("an owner with list entries no more listed", Rule::ListedListed, |r, i, _| left(r, i, state::LISTED)),
    damage("readers above 8191", Rule::Masks, |r, i, at| above_all(r, i, at, true)),
    damage("writers above 8191", Rule::Masks, |r, i, at| above_all(r, i, at, false)),
    damage("state 4", Rule::States, |r, i, _| {
        let (serial, stamp) = (some_serial(r), some_serial(r));
        owned(r, i, Owner { serial, state: 4, stamp })
    }),
    damage("state above 4", Rule::States, |r, i, _| {
        let (serial, stamp, state) = (some_serial(r), some_serial(r), 5 + r.below(251) as u8);
        owned(r, i, Owner { serial, state, stamp })
    }),
    damage("serial 0 with a stamp, over", Rule::Together, |r, i, _| emptied(r, i, state::OVER, true, false)),
    damage("serial 0 with a stamp, listed", Rule::Together, |r, i, _| emptied(r, i, state::LISTED, true, false)),
    damage("serial 0 with a stamp, held", Rule::Together, |r, i, _| emptied(r, i, state::HELD, true, false)),
    damage("serial 0 with a stamp, refused", Rule::Together, |r, i, _| emptied(r, i, state::REFUSED, true, false)),
    damage("a serial with stamp 0, over", Rule::Together, |r, i, _| emptied(r, i, state::OVER, false, true)),
    damage("a serial with stamp 0, listed", Rule::Together, |r, i, _| emptied(r, i, state::LISTED, false, true)),
    damage("a serial with stamp 0, held", Rule::Together, |r, i, _| emptied(r, i, state::HELD, false, true)),
    damage("a serial with stamp 0, refused", Rule::Together, |r, i, _| emptied(r, i, state::REFUSED, false, true)),
    damage("both 0, listed", Rule::UnusedOver, |r, i, _| emptied(r, i, state::LISTED, true, true)),
    damage("both 0, held", Rule::UnusedOver, |r, i, _| emptied(r, i, state::HELD, true, true)),
    damage("both 0, refused", Rule::UnusedOver, |r, i, _| emptied(r, i, state::REFUSED, true, true)),
    damage("author 13", Rule::Authors, |r, i, at| {
        let serial = some_serial(r);
        written_by(i, at, 13, serial)
    }),
    damage("author 253", Rule::Authors, |_, i, at| written_by(i, at, 253, 0)),
    damage("author between", Rule::Authors, |r, i, at| {
        let (owner, serial) = (14 + r.below(239) as u8, some_lone_byte(r) * r.below(2) as u32);
        written_by(i, at, owner, serial)
    }),
    damage("an author with serial 0", Rule::AuthorSerials, |r, i, at| {
        let owner = r.below(13) as u8;
        written_by(i, at, owner, 0)
    }),
    damage("author 12 with serial 0", Rule::AuthorSerials, |_, i, at| written_by(i, at, 12, 0)),
    damage("nobody with a serial", Rule::NoAuthorSerials, |r, i, at| {
        let serial = some_lone_byte(r);
        written_by(i, at, 255, serial)
    }),
    damage("unknown with a serial", Rule::NoAuthorSerials, |r, i, at| {
        let serial = some_lone_byte(r);
        written_by(i, at, 254, serial)
    }),
    Damage { name: "another count of copies", breaks: Breaks::CopyCount, make: |_, i, _| i },
    Damage { name: "another count of owners", breaks: Breaks::OwnerCount, make: |_, i, _| i },
];
