//! The image where it stands: its check, and the few places that a delivery reads or changes.

use super::bytes::{get_u16, get_u32, get_u64, put_u32};
use super::number;
use crate::library::{Author, IMAGE, NODES, OBJECTS, OLDER_IMAGES, OLDER_OBJECTS};

pub type Image = [u8; IMAGE];

/// Sizes and places: a copy (value 8, version 4, holder 1, readers 2, writers 2, author's owner 1 and serial 4), the owners' count, an owner (serial 4,
/// state 1, stamp 4). A copy of the oldest image is without its author.
const COPY: usize = 22;
const OWNER_COUNT: usize = 1 + OBJECTS * COPY;
const OWNER: usize = 9;
const OLDEST_COPY: usize = 17;
pub const NOBODY: u8 = 255;
const UNKNOWN: u8 = 254;

/// States of an owner.
pub const OVER: u8 = 0;
pub const LISTED: u8 = 1;
pub const HELD: u8 = 2;
pub const REFUSED: u8 = 3;

#[inline(always)]
fn copies(image: &Image) -> &[[u8; COPY]] {
    image[1..OWNER_COUNT].as_chunks().0
}

#[inline(always)]
fn copies_mut(image: &mut Image) -> &mut [[u8; COPY]] {
    image[1..OWNER_COUNT].as_chunks_mut().0
}

#[inline(always)]
fn owners(image: &Image) -> &[[u8; OWNER]] {
    image[OWNER_COUNT + 1..].as_chunks().0
}

/// An object's copy; objects are below 128.
#[inline(always)]
pub fn copy(image: &Image, object: u8) -> &[u8; COPY] {
    &copies(image)[usize::from(object & 127)]
}

#[inline(always)]
pub fn copy_mut(image: &mut Image, object: u8) -> &mut [u8; COPY] {
    &mut copies_mut(image)[usize::from(object & 127)]
}

/// A copy's fields.
#[inline(always)]
pub fn value(copy: &[u8; COPY]) -> u64 {
    get_u64(copy, 0)
}

#[inline(always)]
pub fn version(copy: &[u8; COPY]) -> u32 {
    get_u32(copy, 8)
}

#[inline(always)]
pub fn readers(copy: &[u8; COPY]) -> u16 {
    get_u16(copy, 13)
}

#[inline(always)]
pub fn writers(copy: &[u8; COPY]) -> u16 {
    get_u16(copy, 15)
}

/// The places of a copy's holder, of its two lists, which are read and changed as one number, and of its author.
pub const HOLDER: usize = 12;
pub const LISTS: usize = 13;
const AUTHOR: usize = 17;
const AUTHOR_SERIAL: usize = 18;

/// A transaction wrote the copy last.
#[inline(always)]
pub fn set_author(copy: &mut [u8; COPY], owner: u8, serial: u32) {
    copy[AUTHOR] = owner;
    put_u32(copy, AUTHOR_SERIAL, serial);
}

/// Where an owner stands; owners are below 13.
#[inline(always)]
fn owner_place(owner: u8) -> usize {
    OWNER_COUNT + 1 + OWNER * usize::from(owner).min(NODES - 1)
}

#[inline(always)]
pub fn serial(image: &Image, owner: u8) -> u32 {
    get_u32(image, owner_place(owner))
}

#[inline(always)]
pub fn state(image: &Image, owner: u8) -> u8 {
    image[owner_place(owner) + 4]
}

#[inline(always)]
pub fn stamp(image: &Image, owner: u8) -> u32 {
    get_u32(image, owner_place(owner) + 5)
}

#[inline(always)]
pub fn set_state(image: &mut Image, owner: u8, state: u8) {
    image[owner_place(owner) + 4] = state;
}

/// A transaction becomes its owner's last.
#[inline(always)]
pub fn set_last(image: &mut Image, owner: u8, serial: u32, stamp: u32) {
    put_u32(image, owner_place(owner), serial);
    put_u32(image, owner_place(owner) + 5, stamp);
}

/// The owner leaves every list.
#[inline(always)]
pub fn unlist(image: &mut Image, owner: u8) {
    let both = !(0x0001_0001u32 << owner);
    for copy in copies_mut(image) {
        let lists = get_u32(copy, LISTS);
        put_u32(copy, LISTS, lists & both);
    }
}

/// The owner holds nothing any more.
#[inline(always)]
pub fn free(image: &mut Image, owner: u8) {
    for copy in copies_mut(image) {
        if copy[HOLDER] == owner {
            copy[HOLDER] = NOBODY;
        }
    }
}

/// The masks of the listed and of the held owners; none where an owner breaks a rule. The owners of each state are sixteen bits of one number.
#[inline(always)]
fn owners_in_order(image: &Image) -> Option<(u16, u16)> {
    let mut by_state = 0u64;
    for (i, owner) in owners(image).iter().enumerate() {
        let (serial, state, stamp) = (get_u32(owner, 0), owner[4], get_u32(owner, 5));
        if serial == 0 || stamp == 0 {
            if serial | stamp | u32::from(state) != 0 {
                return None;
            }
        } else if state > REFUSED {
            return None;
        }
        by_state |= 1 << (16 * state) << i;
    }
    Some(((by_state >> 16) as u16, (by_state >> 32) as u16))
}

/// Whether an author breaks a rule: it is an owner with a serial, or nobody or unknown without one. Counted from unknown on, these two are 0 and 1, the
/// owners 2 to 14.
#[inline(always)]
fn author_broken(copy: &[u8; COPY]) -> bool {
    let (kind, serial) = (copy[AUTHOR].wrapping_sub(UNKNOWN), get_u32(copy, AUTHOR_SERIAL));
    (kind > 14) | ((kind > 1) ^ (serial != 0))
}

/// Every list within the listed owners, every holder nobody or a held owner, every author in order. Lists and authors are gathered and looked at once.
#[inline(always)]
fn copies_in_order(image: &Image, listed: u16, held: u16) -> bool {
    let mut lists = 0u32;
    let mut broken = false;
    for copy in copies(image) {
        lists |= get_u32(copy, LISTS);
        broken |= author_broken(copy);
        let holder = copy[HOLDER];
        if holder != NOBODY && (holder > 12 || held >> holder & 1 == 0) {
            return false;
        }
    }
    !broken && (lists | lists >> 16) as u16 & !listed == 0
}

/// Whether every rule of the image is kept.
#[inline(always)]
pub fn is_valid(image: &Image) -> bool {
    if image[0] != OBJECTS as u8 || image[OWNER_COUNT] != 13 {
        return false;
    }
    owners_in_order(image).is_some_and(|(listed, held)| copies_in_order(image, listed, held))
}

/// The number of bytes as an image: 0, 1 or 2.
#[inline(always)]
pub fn check(image: &[u8]) -> u8 {
    match image.try_into() {
        Err(_) => number::LENGTH,
        Ok(image) if is_valid(image) => 0,
        Ok(_) => number::DAMAGED,
    }
}

/// Writes a blank image over an image's bytes.
pub fn make_blank(image: &mut Image) {
    image.fill(0);
    image[0] = OBJECTS as u8;
    image[OWNER_COUNT] = 13;
    for copy in copies_mut(image) {
        (copy[HOLDER], copy[AUTHOR]) = (NOBODY, NOBODY);
    }
}

pub fn blank(image: &mut [u8]) -> u8 {
    let Ok(image) = image.try_into() else { return number::LENGTH };
    make_blank(image);
    0
}

/// An older image, of copies of WIDTH bytes, as one of the present length: a copy without an author gets one, unknown above version 0, and there are more
/// copies, which are blank. Its rules are those of what it becomes.
fn longer<const WIDTH: usize>(old: &[u8]) -> Image {
    let mut image = [0; IMAGE];
    make_blank(&mut image);
    let (older, owners) = old[1..].split_at(OLDER_OBJECTS * WIDTH);
    for (copy, older) in copies_mut(&mut image).iter_mut().zip(older.as_chunks::<WIDTH>().0) {
        copy[..WIDTH].copy_from_slice(older);
        if WIDTH == OLDEST_COPY && get_u32(older, 8) != 0 {
            copy[AUTHOR] = UNKNOWN;
        }
    }
    image[OWNER_COUNT..].copy_from_slice(owners);
    image
}

/// What an older image becomes, or its number, 1 or 2.
fn taken(old: &[u8]) -> Result<Image, u8> {
    let taken = match OLDER_IMAGES.map(|length| length == old.len()) {
        [true, _] => longer::<OLDEST_COPY>(old),
        [_, true] => longer::<COPY>(old),
        _ => return Err(number::LENGTH),
    };
    let sound = usize::from(old[0]) == OLDER_OBJECTS && is_valid(&taken);
    if sound {
        Ok(taken)
    } else {
        Err(number::DAMAGED)
    }
}

/// Takes an older image in; its number, 0, 1 or 2.
pub fn take_in(old: &[u8], image: &mut [u8]) -> u8 {
    let Ok(image) = <&mut Image>::try_from(image) else { return number::LENGTH };
    match taken(old) {
        Ok(taken) => {
            *image = taken;
            0
        }
        Err(number) => number,
    }
}

/// Takes a station's older images in: none where one of them is damaged.
pub fn take_all_in(old: &[u8], images: &mut [u8]) -> u8 {
    let one = old.len() / NODES;
    if images.len() != NODES * IMAGE || old.len() != NODES * one || !OLDER_IMAGES.contains(&one) {
        return number::LENGTH;
    }
    if old.chunks(one).any(|old| taken(old).is_err()) {
        return number::DAMAGED;
    }
    images.chunks_mut(IMAGE).zip(old.chunks(one)).fold(0, |number, (image, old)| number | take_in(old, image))
}

/// Who wrote an object's copy last, or why it is not told.
pub fn author_call(image: &[u8], object: u8) -> Author {
    let refused = |number| Author { number, owner: 0, serial: 0 };
    let Ok(image) = <&Image>::try_from(image) else { return refused(number::LENGTH) };
    match copies(image).get(usize::from(object)) {
        _ if !is_valid(image) => refused(number::DAMAGED),
        None => refused(number::NO_SUCH_OBJECT),
        Some(copy) => Author { number: 0, owner: copy[AUTHOR], serial: get_u32(copy, AUTHOR_SERIAL) },
    }
}
