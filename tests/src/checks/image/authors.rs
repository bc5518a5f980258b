//! Who wrote a copy last: every owner with serials of every kind, and the call that tells it, against the model.

use super::records;
use crate::ffi;
use crate::model::image::{self as model, Author, Image, FIRST, IMAGE, SIGNED, TODAY};
use crate::model::{number, OBJECTS};
use crate::random::Random;
use crate::runner::{ensure, Runner, Verdict};

pub fn run(runner: &mut Runner) {
    runner.check("authors: every owner with serials", every_owner);
    runner.check("authors: every object", every_object);
    runner.check("authors: every length", every_length);
}

/// The library's author of an object's copy, checked against the model's, with the lent bytes as they were; its number.
pub fn compare(bytes: &[u8], object: u8) -> Result<u8, String> {
    let lent = bytes.to_vec();
    let got = ffi::image_author(&lent, object);
    let expected = match model::author_call(bytes, object) {
        Ok(author) => (number::OK, author),
        Err(number) => (number, Author { owner: 0, serial: 0 }),
    };
    ensure!(got == expected, "object {object} of {} bytes: {got:?}, but the model says {expected:?}", bytes.len());
    ensure!(lent == bytes, "an image became another");
    Ok(got.0)
}

/// Serials that have no byte, the first, the last number, each single byte set, and any.
fn some_serials(random: &mut Random) -> Vec<u32> {
    let any = random.next() as u32;
    [0, 1, u32::MAX, any].into_iter().chain((0..4).flat_map(|byte| [1 << (8 * byte), 128 << (8 * byte), 255 << (8 * byte)])).collect()
}

/// An author is laid by hand: its owner is 17 bytes behind the copy's first, its serial 18.
fn lay(bytes: &mut [u8], object: usize, owner: u8, serial: u32) {
    let at = TODAY.copy_at(object) + 17;
    bytes[at] = owner;
    bytes[at + 1..at + 5].copy_from_slice(&serial.to_le_bytes());
}

/// All owners with all those serials, at the first copies, the last and some between: damaged exactly by document 02's sentence, and told as they are.
fn every_owner(random: &mut Random, rounds: usize) -> Verdict {
    let (mut sound, mut damaged) = (0, 0);
    for _ in 0..rounds {
        let some = random.below(OBJECTS);
        for object in [0, 63, 64, 126, 127, some] {
            let mut bytes = model::encode(&records::busy(random));
            for (owner, serial) in (0..=255).flat_map(|owner| some_serials(random).into_iter().map(move |serial| (owner, serial))) {
                lay(&mut bytes, object, owner, serial);
                let wrong = (13..=253).contains(&owner) || (owner < 13 && serial == 0) || (owner >= 254 && serial > 0);
                let number = if wrong { number::DAMAGED } else { number::OK };
                let got = ffi::check_image(&bytes);
                ensure!(got == number, "object {object} with the author {owner}/{serial}: {got}, not {number}");
                ensure!(compare(&bytes, object as u8)? == number, "object {object}: the author {owner}/{serial} is told otherwise");
                let told = ffi::image_author(&bytes, object as u8).1;
                ensure!(wrong || told == Author { owner, serial }, "object {object}: {told:?} is told in place of {owner}/{serial}");
                sound += usize::from(!wrong);
                damaged += usize::from(wrong);
            }
        }
    }
    ensure!(sound > 500 * rounds && damaged > 10_000 * rounds, "{sound} sound and {damaged} damaged are too poor");
    Ok(format!("{sound} sound authors, {damaged} damaged ones"))
}

/// An image whose authors are all different, so that no object's can be told for another's.
fn all_different(random: &mut Random) -> Image {
    let mut image = records::busy(random);
    for (object, copy) in image.copies.iter_mut().enumerate() {
        copy.author = Author { owner: (object % 13) as u8, serial: 1 + ((object as u32) << (object % 24)) };
    }
    image
}

/// All 256 objects, on images that are valid, damaged, or of another length: 1, then 2, then 6 above object 127.
fn every_object(random: &mut Random, rounds: usize) -> Verdict {
    let mut numbers = [0; number::COUNT];
    for _ in 0..20 * rounds {
        let image = all_different(random);
        let bytes = model::encode(&image);
        let mut damaged = bytes.clone();
        lay(&mut damaged, random.below(OBJECTS), 13, 1);
        let mut longer = bytes.clone();
        longer.push(0);
        for object in 0..=255 {
            let [oldest, older] = [FIRST, SIGNED].map(|layout| model::encode_as(layout, &image));
            for bytes in [&bytes, &damaged, &longer, &oldest, &older, &bytes[..IMAGE - 1].to_vec()] {
                numbers[usize::from(compare(bytes, object)?)] += 1;
            }
            let told = ffi::image_author(&bytes, object);
            let expected = image.copies.get(usize::from(object)).map(|copy| (number::OK, copy.author));
            ensure!(expected.is_none_or(|expected| told == expected), "object {object}: {told:?}");
        }
    }
    let met = [0, 1, 2, 6].map(|number| numbers[number]);
    let expected = [128, 4 * 256, 256, 128].map(|count| count * 20 * rounds);
    ensure!(met == expected, "{met:?} calls with 0, 1, 2 and 6, not {expected:?}");
    Ok(format!("{met:?} calls with 0, 1, 2 and 6"))
}

/// Images cut short and padded to every length: only their own is told of.
fn every_length(random: &mut Random, _: usize) -> Verdict {
    let bytes = model::encode(&all_different(random));
    let lengths = super::some_lengths();
    let mut refused = 0;
    for &length in &lengths {
        let mut other = bytes.clone();
        other.resize(length, random.byte());
        for object in [0, 127, 128, 255] {
            refused += usize::from(compare(&other, object)? == number::LENGTH);
        }
    }
    ensure!(refused == 4 * (lengths.len() - 1), "{refused} of {} lengths refused", lengths.len());
    Ok(format!("{} lengths", lengths.len()))
}
