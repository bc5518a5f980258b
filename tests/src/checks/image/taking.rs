//! Older images taken in, against the model: number, every byte that is written, and every byte that must stay.

use super::damages::{damages_of, Breaks};
use super::{records, some_lengths, values_at, values_in_all};
use crate::ffi;
use crate::model::image::{self as model, Author, Image, Layout, FIRST, IMAGE, OLDER, SIGNED, TODAY};
use crate::model::{number, OBJECTS};
use crate::random::Random;
use crate::runner::{ensure, Runner, Verdict};

/// Bytes about the lent ones, which no call may touch.
const MARGIN: usize = 30;

pub fn run(runner: &mut Runner) {
    runner.check("taking in: known bytes", |random, _| known_bytes(random));
    runner.check("taking in: known bytes with authors", |random, _| known_authors(random));
    runner.check("taking in: valid ones", valid);
    runner.check("taking in: at once or step by step", step_by_step);
    runner.check("taking in: every byte changed", every_byte);
    runner.check("taking in: every length of both", every_length);
    runner.check("taking in: each rule broken", each_rule);
    runner.check("taking in: random bytes", random_bytes);
}

/// How many were taken in, and how many refused with 1 and with 2; and the copies that were written, by whom is then unknown, and those that were not.
#[derive(Default)]
pub struct Seen {
    taken: usize,
    length: usize,
    damaged: usize,
    unknown: usize,
    nobody: usize,
}

impl Seen {
    /// The library's number and every byte about and in a buffer of `size` bytes, filled with noise before, against the model's; what is then there.
    pub fn compare(&mut self, random: &mut Random, old: &[u8], size: usize) -> Result<(u8, Vec<u8>), String> {
        let lent = old.to_vec();
        let mut room = random.bytes(size + 2 * MARGIN);
        let mut expected = room.clone();
        let number = match model::take_in_call(old, size) {
            Err(number) => number,
            Ok(bytes) => {
                expected[MARGIN..MARGIN + size].copy_from_slice(&bytes);
                number::OK
            }
        };
        let got = ffi::take_in(&lent, &mut room[MARGIN..MARGIN + size]);
        ensure!(got == number, "{} bytes into {size}: {got}, but the model says {number}", old.len());
        let place = (0..room.len()).find(|&at| room[at] != expected[at]).map(|at| at as i64 - MARGIN as i64);
        ensure!(place.is_none(), "{} bytes into {size}, number {got}: byte {place:?} is another than the model's", old.len());
        ensure!(lent == old, "the older image became another");
        let image = room[MARGIN..MARGIN + size].to_vec();
        self.count(got, &image)?;
        Ok((got, image))
    }

    fn count(&mut self, number: u8, image: &[u8]) -> Result<(), String> {
        match number {
            number::OK => {
                self.taken += 1;
                let checked = ffi::check_image(image);
                ensure!(checked == number::OK, "what was taken in is refused with {checked}");
                let copies = model::decode(image).ok_or("what was taken in is no image")?.copies;
                self.unknown += copies.iter().filter(|copy| copy.author == Author::UNKNOWN).count();
                self.nobody += copies.iter().filter(|copy| copy.author == Author::NOBODY).count();
            }
            number::LENGTH => self.length += 1,
            _ => self.damaged += 1,
        }
        Ok(())
    }

    fn all(&self) -> usize {
        self.taken + self.length + self.damaged
    }

    fn words(&self) -> String {
        let Seen { taken, length, damaged, unknown, nobody } = self;
        let all = self.all();
        format!("{all} images, {taken} taken in, {length} of another length, {damaged} damaged; authors unknown {unknown} times, nobody {nobody} times")
    }
}

/// The blank image of today, laid here byte by byte.
fn blank_bytes() -> Vec<u8> {
    let mut image = vec![0; 2935];
    (image[0], image[2817]) = (128, 13);
    for object in 0..128 {
        (image[1 + 22 * object + 12], image[1 + 22 * object + 17]) = (255, 255);
    }
    image
}

/// An image of the first release and what it becomes, both laid here byte by byte.
fn known_bytes(random: &mut Random) -> Verdict {
    let mut old = vec![0; 1207];
    (old[0], old[1089]) = (64, 13);
    (0..64).for_each(|object| old[1 + 17 * object + 12] = 255);
    let mut image = blank_bytes();
    let mut seen = Seen::default();
    ensure!(seen.compare(random, &old, IMAGE)? == (number::OK, image.clone()), "a blank image becomes another");
    // Object 63 has value -2, version 256, holder 12, reader 0, writers 0 and 8; object 5 has a value and version 0. Owners 0 and 8 are listed, 12 held.
    let copy = [0xfe, 255, 255, 255, 255, 255, 255, 255, 0, 1, 0, 0, 12, 1, 0, 1, 1];
    old[1072..1089].copy_from_slice(&copy);
    image[1387..1404].copy_from_slice(&copy);
    image[1404] = 254;
    (old[1 + 17 * 5], image[1 + 22 * 5]) = (9, 9);
    for (owner, fields) in [(0, [1, 0, 0, 0, 1, 2, 0, 0, 0]), (8, [13, 12, 11, 10, 1, 4, 3, 2, 1]), (12, [0, 0, 0, 1, 2, 0, 0, 1, 0])] {
        old[1090 + 9 * owner..1099 + 9 * owner].copy_from_slice(&fields);
        image[2818 + 9 * owner..2827 + 9 * owner].copy_from_slice(&fields);
    }
    ensure!(seen.compare(random, &old, IMAGE)? == (number::OK, image), "an image becomes another than the one written here");
    ensure!((seen.unknown, seen.nobody) == (1, 255), "{}", seen.words());
    Ok(String::from("2 images"))
}

/// The same of an image with authors: they stay, and what stood at the owners' old place is not taken for copies.
fn known_authors(random: &mut Random) -> Verdict {
    let mut image = blank_bytes();
    let mut old = [&[64], &image[1..1409], &image[2817..]].concat();
    let mut seen = Seen::default();
    ensure!(seen.compare(random, &old, IMAGE)? == (number::OK, image.clone()), "a blank image becomes another");
    // Object 63 has value 1, version 2, nobody holding it, reader 8, no writer, and the author 7 with serial 0x05060708; who wrote object 1 is unknown.
    let copy = [1, 0, 0, 0, 0, 0, 0, 0, 2, 0, 0, 0, 255, 0, 1, 0, 0, 7, 8, 7, 6, 5];
    for bytes in [&mut old, &mut image] {
        bytes[1387..1409].copy_from_slice(&copy);
        bytes[40] = 254;
    }
    let owners = [1, 2, 3, 4, 1, 5, 6, 7, 8];
    old[1482..1491].copy_from_slice(&owners);
    image[2890..2899].copy_from_slice(&owners);
    ensure!(
        old.len() == 1527 && seen.compare(random, &old, IMAGE)? == (number::OK, image),
        "an image becomes another than the one written here"
    );
    ensure!((seen.unknown, seen.nobody) == (1, 254), "{}", seen.words());
    Ok(String::from("2 images"))
}

/// What must be after a taking in, said of the records: what the older layout has is as it was, but who wrote is told only where it said so; the rest is
/// blank.
fn is_taken(layout: Layout, before: &Image, after: &Image) -> bool {
    let untold = |version: u32| Author { owner: if version > 0 { 254 } else { 255 }, serial: 0 };
    let same = |object: usize| {
        let (old, new) = (before.copies[object], after.copies[object]);
        match layout.width {
            _ if object >= 64 => new == model::blank().copies[object],
            17 => new == model::ObjectCopy { author: untold(old.version), ..old },
            _ => new == old,
        }
    };
    before.owners == after.owners && (0..OBJECTS).all(same)
}

/// A valid image in which many copies have version 0.
fn half_written(random: &mut Random) -> Image {
    let mut image = if random.once_in(2) { records::busy(random) } else { records::some_valid(random) };
    for copy in &mut image.copies {
        copy.version = if random.once_in(2) { 0 } else { copy.version };
    }
    image
}

/// Valid older images of all states: taken in, with every copy and owner as it was. What the older layout does not have, authors or copies, does not matter.
fn valid(random: &mut Random, rounds: usize) -> Verdict {
    let images = 2500 * rounds;
    let mut words = vec![];
    for layout in OLDER {
        let mut seen = Seen::default();
        for _ in 0..images {
            let image = half_written(random);
            let (number, bytes) = seen.compare(random, &model::encode_as(layout, &image), IMAGE)?;
            let taken = model::decode(&bytes).filter(|_| number == number::OK);
            ensure!(taken.is_some_and(|taken| is_taken(layout, &image, &taken)), "a valid image is not taken in as it was");
            // What is taken in needs no taking in.
            ensure!(seen.compare(random, &bytes, IMAGE)?.0 == number::LENGTH, "an image of the present length is taken in");
        }
        let unknown = if layout == FIRST { 15 } else { 5 };
        let rich = seen.taken == images && seen.length == images && seen.unknown > unknown * images && seen.nobody > 70 * images;
        ensure!(rich, "too poor: {} bytes: {}", layout.length(), seen.words());
        words.push(format!("{} bytes: {}", layout.length(), seen.words()));
    }
    Ok(words.join("; "))
}

/// "One of 1,207 as in 2.5 first": taken in at once by the library is the same as by the model from each layout to the next, sound images and damaged ones.
fn step_by_step(random: &mut Random, rounds: usize) -> Verdict {
    let (mut same, mut refused) = (0, 0);
    for _ in 0..3000 * rounds {
        let mut image = half_written(random);
        (0..random.below(3)).for_each(|_| records::change(random, &mut image));
        let old = model::encode_as(FIRST, &image);
        let (mut layout, mut steps) = (FIRST, Some(old.clone()));
        while layout != TODAY {
            steps = steps.and_then(|bytes| model::forward(layout, &bytes));
            layout = layout.next();
        }
        let mut at_once = random.bytes(IMAGE);
        let number = ffi::take_in(&old, &mut at_once);
        match steps {
            Some(bytes) => {
                ensure!(number == number::OK && at_once == bytes, "number {number}: at once it becomes another image than step by step")
            }
            None => ensure!(number == number::DAMAGED, "number {number} at once, but step by step it is damaged"),
        }
        (same, refused) = (same + usize::from(number == number::OK), refused + usize::from(number == number::DAMAGED));
    }
    ensure!(FIRST.next() == SIGNED && SIGNED.next() == TODAY, "the layouts do not follow each other");
    ensure!(same > 1000 * rounds && refused > 200 * rounds, "{same} taken in and {refused} refused are too poor");
    Ok(format!("{same} images become the same, {refused} are damaged either way"))
}

/// Each byte of older images changed in turn.
fn every_byte(random: &mut Random, rounds: usize) -> Verdict {
    let mut seen = Seen::default();
    let mut expected = 0;
    for layout in OLDER {
        let mut images = vec![model::blank(), records::some_valid(random)];
        images.extend((0..2 * rounds).map(|_| records::busy(random)));
        for bytes in images.iter().map(|image| model::encode_as(layout, image)) {
            for at in 0..layout.length() {
                let mut changed = bytes.clone();
                for value in values_at(random, layout, at, bytes[at]) {
                    changed[at] = value;
                    seen.compare(random, &changed, IMAGE)?;
                }
            }
        }
        expected += images.len() * values_in_all(layout);
    }
    let all = seen.all();
    ensure!(all == expected && seen.taken * 10 > all && seen.damaged * 10 > all && seen.length == 0, "too poor: {}", seen.words());
    Ok(seen.words())
}

/// Older images, sound and damaged, cut short and padded to every length, into every length: 1 before 2, and only the right ones are taken.
fn every_length(random: &mut Random, _: usize) -> Verdict {
    let mut seen = Seen::default();
    let (lengths, others) = (some_lengths(), [0, 1207, 1208, 1527, 1528, IMAGE - 1, IMAGE, IMAGE + 1, 3191]);
    let image = records::busy(random);
    for (layout, broken) in OLDER.into_iter().flat_map(|layout| [(layout, false), (layout, true)]) {
        let mut old = model::encode_as(layout, &image);
        old[0] ^= u8::from(broken);
        for (long, size) in lengths.iter().flat_map(|&length| others.map(|other| [(length, other), (other, length)])).flatten() {
            let mut bytes = old.clone();
            bytes.resize(long, random.byte());
            let got = seen.compare(random, &bytes, size)?.0;
            let expected = match (long, size) {
                (1207 | 1527, 2935) if long == layout.length() => u8::from(broken) * number::DAMAGED,
                (1207 | 1527, 2935) => number::DAMAGED,
                _ => number::LENGTH,
            };
            ensure!(got == expected, "{long} bytes into {size}: {got}, not {expected}");
        }
    }
    // An image of the present layout, also where its count is that of an older one.
    let mut present = model::encode(&image);
    ensure!(seen.compare(random, &present, IMAGE)?.0 == number::LENGTH, "an image of the present length is taken in");
    present[0] = 64;
    for length in [1207, 1527] {
        ensure!(seen.compare(random, &present[..length], IMAGE)?.0 == number::DAMAGED, "the front of a present image is an older one");
    }
    ensure!(seen.taken == 4 && seen.damaged >= 10 && seen.length > 200_000, "too poor: {}", seen.words());
    Ok(seen.words())
}

/// Each way to break an image of an older layout: refused with 2, and nothing is written.
fn each_rule(random: &mut Random, rounds: usize) -> Verdict {
    let tries = 200 * rounds;
    let mut ways = 0;
    for layout in OLDER {
        for damage in damages_of(layout) {
            ways += 1;
            for _ in 0..tries {
                let image = records::busy(random);
                let bytes = damage.bytes(random, layout, image);
                let broken = model::decode_as(layout, &bytes).map(|image| model::broken(&image));
                let meant = match damage.breaks {
                    Breaks::Only(rule) => Some(vec![rule]),
                    Breaks::CopyCount | Breaks::OwnerCount => None,
                };
                ensure!(broken == meant, "{}: {broken:?} is broken, but {meant:?} was meant", damage.name);
                let (number, _) = Seen::default().compare(random, &bytes, IMAGE).map_err(|wrong| format!("{}: {wrong}", damage.name))?;
                ensure!(number == number::DAMAGED, "{}: number {number}", damage.name);
            }
        }
    }
    ensure!(ways > 60 && damages_of(TODAY).len() > damages_of(FIRST).len(), "{ways} ways are too poor");
    Ok(format!("{ways} ways, {tries} images each"))
}

/// Any bytes of an older length and others, with and without right counts; valid images changed in a few fields, or with a run of any bytes in them.
fn random_bytes(random: &mut Random, rounds: usize) -> Verdict {
    let mut seen = Seen::default();
    for _ in 0..5000 * rounds {
        let layout = *random.pick(&OLDER);
        let length = if random.once_in(10) { random.below(3100) } else { layout.length() };
        let mut bytes = random.bytes(length);
        seen.compare(random, &bytes, IMAGE)?;
        if length == layout.length() {
            (bytes[0], bytes[layout.count_at()]) = (64, 13);
            seen.compare(random, &bytes, IMAGE)?;
            let base = model::encode_as(layout, &records::some_valid(random));
            let from = random.below(length);
            let to = (from + 1 + random.below(6)).min(length);
            seen.compare(random, &[&base[..from], &bytes[from..to], &base[to..]].concat(), IMAGE)?;
        }
        let mut image = records::some_valid(random);
        (0..random.below(4)).for_each(|_| records::change(random, &mut image));
        seen.compare(random, &model::encode_as(layout, &image), IMAGE)?;
    }
    let rich = seen.taken > 2000 * rounds && seen.damaged > 5000 * rounds && seen.length > 200 * rounds;
    ensure!(rich, "too poor: {}", seen.words());
    Ok(seen.words())
}
