//! Stored images: the check of bytes and the blank image, against the model; who wrote a copy last, and older images taken in.

mod authors;
pub mod damages;
pub mod records;
mod taking;

use crate::ffi;
use crate::model::image::{self as model, state, Author, Image, Layout, Rule, IMAGE, NOBODY, TODAY};
use crate::model::quorum::{nodes, NODES};
use crate::model::{number, OBJECTS};
use crate::random::Random;
use crate::runner::{ensure, in_four_threads, Runner, Verdict};
use damages::{Breaks, DAMAGES};
use std::collections::BTreeMap;

pub fn run(runner: &mut Runner) {
    runner.check("images: blank", blank);
    runner.check("images: known bytes", |_, _| known_bytes());
    runner.check("images: valid ones", valid);
    runner.check("images: every byte changed", every_byte);
    runner.check("images: every length", every_length);
    runner.check("images: each rule broken", each_rule);
    runner.check("images: changed records", changed_records);
    runner.check("images: random bytes", random_bytes);
    runner.check("images in four threads", threads);
    authors::run(runner);
    taking::run(runner);
}

/// Lengths to try: every one up to 3000, and some great ones, those of older and of later images and of thirteen images among them.
fn some_lengths() -> Vec<usize> {
    (0..=3000).chain([3054, 3191, 5870, 15_691, 19_851, 38_155, 65_536 + 1207, 65_536 + 1527, 65_536 + IMAGE]).collect()
}

/// How many images were taken, and how many refused with 1 and with 2.
#[derive(Default)]
struct Seen {
    accepted: usize,
    length: usize,
    damaged: usize,
}

impl Seen {
    /// The library's number for some bytes, checked against the model's, with the lent bytes as they were.
    fn compare(&mut self, bytes: &[u8]) -> Result<u8, String> {
        let lent = bytes.to_vec();
        let got = ffi::check_image(&lent);
        let expected = model::check_call(bytes);
        ensure!(got == expected, "{}: {got}, but the model says {expected}", described(bytes));
        ensure!(lent == bytes, "the image {bytes:?} became {lent:?}");
        match got {
            number::OK => self.accepted += 1,
            number::LENGTH => self.length += 1,
            _ => self.damaged += 1,
        }
        Ok(got)
    }

    fn all(&self) -> usize {
        self.accepted + self.length + self.damaged
    }

    fn words(&self) -> String {
        let Seen { accepted, length, damaged } = self;
        format!("{} images, {accepted} accepted, {length} of another length, {damaged} damaged", self.all())
    }
}

/// What the model says of an image, without its 128 copies and more.
fn described(bytes: &[u8]) -> String {
    match model::decode(bytes) {
        None => format!("{} bytes that are no image", bytes.len()),
        Some(image) => {
            let busy = image.copies.iter().enumerate().filter(|(_, copy)| copy.holder != NOBODY || copy.readers | copy.writers != 0);
            let first: Vec<_> = busy.take(3).collect();
            format!("an image that breaks {:?}, with the owners {:?} and first the copies {first:?}", model::broken(&image), image.owners)
        }
    }
}

/// The blank image in place of random bytes, every byte of it; and every other length is refused with all bytes as they were. The bytes about the
/// buffer are as they were, too.
fn blank(random: &mut Random, rounds: usize) -> Verdict {
    let margin = 50;
    let (mut refused, mut written) = (0, 0);
    let lengths = some_lengths();
    for &length in &lengths {
        for _ in 0..if length == IMAGE { 200 * rounds } else { 3 } {
            let before = random.bytes(length + 2 * margin);
            let mut after = before.clone();
            let got = ffi::blank_image(&mut after[margin..margin + length]);
            let mut expected = before;
            let number = match model::blank_call(length) {
                Err(number) => number,
                Ok(bytes) => {
                    expected[margin..margin + length].copy_from_slice(&bytes);
                    number::OK
                }
            };
            ensure!(got == number, "blank in {length} bytes: {got}, but the model says {number}");
            let place = (0..after.len()).find(|&at| after[at] != expected[at]).map(|at| at as i64 - margin as i64);
            ensure!(place.is_none(), "blank in {length} bytes: byte {place:?} is another than the model's");
            if got == number::OK {
                let checked = ffi::check_image(&after[margin..margin + length]);
                ensure!(checked == number::OK, "the blank image is refused with {checked}");
                written += 1;
            } else {
                refused += 1;
            }
        }
    }
    ensure!(written >= 200 && refused == 3 * (lengths.len() - 1), "{written} written and {refused} refused are too poor");
    Ok(format!("{written} written, {refused} refused for their length"))
}

/// An image whose bytes are set here one by one, so that model and library cannot agree on other places or another order of bytes.
fn known_bytes() -> Verdict {
    let mut image = model::blank();
    let mut bytes = vec![0; IMAGE];
    bytes[0] = 128;
    bytes[2817] = 13;
    for object in 0..128 {
        bytes[1 + 22 * object + 12] = 255;
        bytes[1 + 22 * object + 17] = 255;
    }
    ensure!(model::encode(&image) == bytes, "the model's own blank image has other bytes");
    ensure!(ffi::check_image(&bytes) == number::OK, "the blank image is refused");
    // Object 127 has value -2, version 0x01020304, holder 12, reader 0, writers 0 and 8, author 7 with serial 0x05060708. Owner 0 is listed, owner 8 too,
    // owner 12 held. Who wrote object 0 is unknown.
    let author = Author { owner: 7, serial: 0x0506_0708 };
    image.copies[127] = model::ObjectCopy { value: -2, version: 0x0102_0304, holder: 12, readers: 1, writers: 257, author };
    image.copies[0].author = Author::UNKNOWN;
    image.owners[0] = model::Owner { serial: 1, state: state::LISTED, stamp: 2 };
    image.owners[8] = model::Owner { serial: 0x0a0b_0c0d, state: state::LISTED, stamp: 0x0102_0304 };
    image.owners[12] = model::Owner { serial: 1 << 24, state: state::HELD, stamp: 1 << 16 };
    bytes[18] = 254;
    bytes[2795..2817].copy_from_slice(&[0xfe, 255, 255, 255, 255, 255, 255, 255, 4, 3, 2, 1, 12, 1, 0, 1, 1, 7, 8, 7, 6, 5]);
    bytes[2818..2827].copy_from_slice(&[1, 0, 0, 0, 1, 2, 0, 0, 0]);
    bytes[2890..2899].copy_from_slice(&[0x0d, 0x0c, 0x0b, 0x0a, 1, 4, 3, 2, 1]);
    bytes[2926..2935].copy_from_slice(&[0, 0, 0, 1, 2, 0, 0, 1, 0]);
    ensure!(model::encode(&image) == bytes, "the model itself encodes an image otherwise than as the bytes written here");
    ensure!(model::decode(&bytes) == Some(image), "the model itself decodes the bytes written here to another image");
    let got = ffi::check_image(&bytes);
    ensure!(got == number::OK, "{}: {got}", described(&bytes));
    Ok(String::from("2 images"))
}

/// How much of all that an image can have was seen.
#[derive(Default)]
struct Busy {
    states: [usize; 4],
    unused: usize,
    held: usize,
    listed: usize,
    last_versions: usize,
    /// Copies written by a transaction, by nobody, and by whom is unknown.
    written: usize,
    unwritten: usize,
    unknown: usize,
}

impl Busy {
    fn add(&mut self, image: &Image) {
        for owner in &image.owners {
            self.states[usize::from(owner.state)] += 1;
            self.unused += usize::from(owner.serial == 0);
        }
        for copy in &image.copies {
            self.held += usize::from(copy.holder != NOBODY);
            self.listed += nodes(copy.readers).count() + nodes(copy.writers).count();
            self.last_versions += usize::from(copy.version == u32::MAX);
            self.written += usize::from(copy.author.serial != 0);
            self.unwritten += usize::from(copy.author == Author::NOBODY);
            self.unknown += usize::from(copy.author == Author::UNKNOWN);
        }
    }

    fn rich(&self, images: usize) -> bool {
        let states = self.states.iter().all(|&count| count > 2 * images);
        let authors = self.written > 30 * images && self.unwritten > 5 * images && self.unknown > 5 * images;
        authors && states && self.unused > images && self.held > 20 * images && self.listed > 100 * images && self.last_versions > images
    }
}

/// Valid images of all states, with holders, lists, and great versions and values: accepted, and the record comes back from its bytes.
fn valid(random: &mut Random, rounds: usize) -> Verdict {
    let images = 20_000 * rounds;
    let mut seen = Seen::default();
    let mut busy = Busy::default();
    for _ in 0..images {
        let image = if random.once_in(2) { records::busy(random) } else { records::some_valid(random) };
        let broken = model::broken(&image);
        ensure!(broken.is_empty(), "an image made to be valid breaks {broken:?} for the model");
        let bytes = model::encode(&image);
        ensure!(model::decode(&bytes).as_ref() == Some(&image), "the model's decode does not undo its encode");
        ensure!(seen.compare(&bytes)? == number::OK, "{}: refused", described(&bytes));
        busy.add(&image);
    }
    let Busy { states, unused, held, listed, last_versions, written, unwritten, unknown } = busy;
    let counted = format!(
        "{images} images, owners by state {states:?}, {unused} unused, {held} holders, {listed} listed bits, {last_versions} versions at the last, \
         {written} authors, {unwritten} nobody, {unknown} unknown"
    );
    ensure!(busy.rich(images), "the images are too poor: {counted}");
    Ok(counted)
}

/// Whether a byte of an image in a layout is of a value or a version, about which there is no rule.
fn is_free(layout: Layout, at: usize) -> bool {
    (1..layout.count_at()).contains(&at) && (at - 1) % layout.width < 12
}

/// Whether a byte belongs to a copy that is neither the first one, nor at the older limit, nor the last one.
fn is_inner(layout: Layout, at: usize) -> bool {
    let object = (at - at.min(1)) / layout.width;
    (1..layout.count_at()).contains(&at) && ![0, 62, 63, 64, layout.copies - 1].contains(&object)
}

/// How many values a byte of an image is changed to: all 256, but in most copies some, and where a copy has its value and version a few.
fn changes_at(layout: Layout, at: usize) -> usize {
    match (is_free(layout, at), is_inner(layout, at)) {
        (true, _) => 8,
        (_, true) => 40,
        _ => 256,
    }
}

/// What a byte of an image is changed to: the ends of every rule's ranges, each bit, and any.
fn values_at(random: &mut Random, layout: Layout, at: usize, byte: u8) -> Vec<u8> {
    let count = changes_at(layout, at);
    if count == 256 {
        return (0..=255).collect();
    }
    let few = [0, 1, byte ^ 1, byte ^ 128, 127, 254, 255];
    let more = [2, 3, 7, 12, 13, 14, 31, 32, 128, 253].into_iter().chain((1..7).map(|bit| byte ^ 1 << bit));
    let mut values: Vec<u8> = few.into_iter().chain(more.filter(|_| count > 8)).collect();
    values.resize_with(count, || random.byte());
    values
}

/// How many images are made of one so.
fn values_in_all(layout: Layout) -> usize {
    (0..layout.length()).map(|at| changes_at(layout, at)).sum()
}

/// Busy images and the blank one with each byte changed in turn.
fn every_byte(random: &mut Random, rounds: usize) -> Verdict {
    let mut seen = Seen::default();
    let mut images = vec![model::blank(), records::some_valid(random)];
    images.extend((0..2 * rounds).map(|_| records::busy(random)));
    let mut busy = Busy::default();
    images.iter().skip(2).for_each(|image| busy.add(image));
    ensure!(busy.states.iter().all(|&count| count > rounds) && busy.held > 40 * rounds && busy.listed > 200 * rounds, "too poor images");
    for image in &images {
        let bytes = model::encode(image);
        for at in 0..IMAGE {
            let mut changed = bytes.clone();
            for value in values_at(random, TODAY, at, bytes[at]) {
                changed[at] = value;
                seen.compare(&changed)?;
            }
        }
    }
    let all = seen.all();
    let expected = images.len() * ((2 + 10 * 5 + 9 * NODES) * 256 + 10 * (OBJECTS - 5) * 40 + 12 * OBJECTS * 8);
    ensure!(
        all == expected && expected == images.len() * values_in_all(TODAY) && seen.accepted * 10 > all && seen.damaged * 10 > all,
        "too poor: {}",
        seen.words()
    );
    Ok(seen.words())
}

/// Valid images cut short and padded to every length from 0 to 3000, and to some great ones: only their own is taken.
fn every_length(random: &mut Random, _: usize) -> Verdict {
    let mut seen = Seen::default();
    let lengths = some_lengths();
    for image in [model::blank(), records::busy(random)] {
        let bytes = model::encode(&image);
        for &length in &lengths {
            let mut other = bytes[..length.min(IMAGE)].to_vec();
            let more = length - other.len();
            other.extend(if random.once_in(2) { vec![0; more] } else { random.bytes(more) });
            let got = seen.compare(&other)?;
            let expected = if length == IMAGE { number::OK } else { number::LENGTH };
            ensure!(got == expected, "an image of {length} bytes: {got}, not {expected}");
        }
    }
    ensure!(seen.accepted == 2 && seen.length == 2 * (lengths.len() - 1) && seen.damaged == 0, "too poor: {}", seen.words());
    Ok(seen.words())
}

/// Each way to break an image: refused with 2 by library and model, and the model names the very rule that was meant.
fn each_rule(random: &mut Random, rounds: usize) -> Verdict {
    let tries = 500 * rounds;
    let mut alone: BTreeMap<Rule, usize> = Rule::ALL.into_iter().map(|rule| (rule, 0)).collect();
    for damage in DAMAGES {
        let name = damage.name;
        let mut seen = Seen::default();
        for _ in 0..tries {
            let image = records::busy(random);
            let bytes = damage.bytes(random, TODAY, image);
            let broken = model::decode(&bytes).map(|image| model::broken(&image));
            let meant = match damage.breaks {
                Breaks::Only(rule) => Some(vec![rule]),
                Breaks::CopyCount | Breaks::OwnerCount => None,
            };
            ensure!(broken == meant, "{name}: {broken:?} is broken, but {meant:?} was meant");
            seen.compare(&bytes).map_err(|wrong| format!("{name}: {wrong}"))?;
        }
        ensure!(seen.damaged == tries, "{name}: {} of {tries} refused with 2", seen.damaged);
        if let Breaks::Only(rule) = damage.breaks {
            *alone.entry(rule).or_insert(0) += tries;
        }
    }
    let least = alone.values().copied().min().unwrap_or(0);
    let counted = format!("{} ways, {tries} images each; {} rules, each broken alone {least} times or more", DAMAGES.len(), alone.len());
    ensure!(least >= 2 * tries && DAMAGES.len() > 30, "the ways are too poor: {counted}");
    Ok(counted)
}

/// Valid images changed in none to three fields, at times to something allowed.
fn changed_records(random: &mut Random, rounds: usize) -> Verdict {
    let mut seen = Seen::default();
    let mut refused_for: BTreeMap<Rule, usize> = Rule::ALL.into_iter().map(|rule| (rule, 0)).collect();
    for _ in 0..50_000 * rounds {
        let mut image = if random.once_in(4) { model::blank() } else { records::some_valid(random) };
        for _ in 0..random.below(4) {
            records::change(random, &mut image);
        }
        seen.compare(&model::encode(&image))?;
        for rule in model::broken(&image) {
            *refused_for.entry(rule).or_insert(0) += 1;
        }
    }
    let (rarest, least) = refused_for.iter().min_by_key(|&(_, &count)| count).ok_or("no rule")?;
    let counted = format!("{}; the rarest rule broken ({rarest:?}) {least} times", seen.words());
    let rich = seen.accepted * 6 > seen.all() && seen.damaged * 6 > seen.all() && *least > 200;
    ensure!(rich, "the images are too poor: {counted}");
    Ok(counted)
}

/// Any bytes of an image's length and others, with and without right counts; and a valid image with a run of any bytes in it.
fn random_bytes(random: &mut Random, rounds: usize) -> Verdict {
    let mut seen = Seen::default();
    let base = model::encode(&records::busy(random));
    for _ in 0..10_000 * rounds {
        let length = if random.once_in(10) { random.below(3100) } else { IMAGE };
        let mut bytes = random.bytes(length);
        seen.compare(&bytes)?;
        if length == IMAGE {
            (bytes[0], bytes[TODAY.count_at()]) = (128, 13);
            seen.compare(&bytes)?;
            let from = random.below(IMAGE);
            let to = (from + 1 + random.below(6)).min(IMAGE);
            let mixed = [&base[..from], &bytes[from..to], &base[to..]].concat();
            seen.compare(&mixed)?;
        }
    }
    let rich = seen.accepted > 2000 * rounds && seen.damaged > 10_000 * rounds && seen.length > 500 * rounds;
    ensure!(rich, "too poor: {}", seen.words());
    Ok(seen.words())
}

/// Re-entrant: four threads at once get the model's answers, each on its own images.
fn threads(random: &mut Random, rounds: usize) -> Verdict {
    let inputs = 2000 * rounds;
    in_four_threads(random, |random| {
        let mut seen = Seen::default();
        for _ in 0..inputs {
            let mut image = records::busy(random);
            if random.once_in(2) {
                records::change(random, &mut image);
            }
            seen.compare(&model::encode(&image))?;
            let mut bytes = random.bytes(IMAGE);
            ensure!(ffi::blank_image(&mut bytes) == number::OK, "the blank image is refused");
            ensure!(bytes == model::encode(&model::blank()), "the blank image is another");
            for layout in model::OLDER {
                taking::Seen::default().compare(random, &model::encode_as(layout, &image), IMAGE)?;
            }
            let object = random.below(OBJECTS + 6) as u8;
            authors::compare(&model::encode(&image), object)?;
        }
        Ok(())
    })?;
    Ok(format!("4 times {inputs} images"))
}
