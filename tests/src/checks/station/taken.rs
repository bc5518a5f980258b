//! Stations of older programs, with fewer objects and the oldest without authors, taken in at rest, that run on: the running is one.

use super::authors::Authors;
use super::scenario::{closing_step, next_step, Style};
use super::seen::{Case, Seen};
use super::{pointed_style, some_on, Run, Setup, SETUP};
use crate::checks::image::{damages::damages_of, records};
use crate::ffi;
use crate::ffi::station as library;
use crate::model::buffers::{take_in_call, IMAGES};
use crate::model::classes;
use crate::model::coordinator::Call;
use crate::model::image::{blank, encode_as, Author, Layout, IMAGE, OLDER, TODAY};
use crate::model::number;
use crate::model::quorum::NODES;
use crate::model::station::{Station, Step, POOL};
use crate::random::Random;
use crate::runner::{ensure, Verdict};

/// Whether a step names an object that a program with so many objects does not have. It refuses the step, and nothing changes.
fn is_beyond(step: &Step, objects: usize) -> bool {
    let beyond = |object: u8| usize::from(object) >= objects;
    match step {
        Step::Host { call: Call::Open { object, .. } | Call::SetValue { object, .. } | Call::Found { object }, .. } => beyond(*object),
        Step::Send { object, .. } => beyond(*object),
        Step::LoadClasses { list, .. } => classes::read(list).is_ok_and(|table| table.objects.into_iter().any(beyond)),
        _ => false,
    }
}

/// A program of a layout, and how many messages of earlier programs arrived at nodes that are on: of these transactions or before.
struct Program {
    layout: Layout,
    before: [u32; NODES],
    arrived: usize,
}

impl Program {
    /// A step, where this program has its objects.
    fn take(&mut self, run: &mut Run, step: Step) -> Result<(), String> {
        if is_beyond(&step, self.layout.copies) {
            return Ok(());
        }
        if let Some(message) = super::delivered(&run.station, &step) {
            let earlier = message.transaction.serial <= self.before[usize::from(message.transaction.owner)];
            self.arrived += usize::from(earlier && run.station.is_on(message.to));
        }
        run.take(step)
    }

    /// Steps of a scenario, and on to rest. Half of the time messages still wait then.
    fn to_rest(&mut self, random: &mut Random, style: &Style, run: &mut Run) -> Result<(), String> {
        for _ in 0..1500 {
            let step = next_step(random, &run.station, style);
            self.take(run, step)?;
        }
        let next = if random.once_in(2) { hasty_step } else { closing_step };
        for _ in 0..20_000 {
            match next(random, &run.station) {
                Some(step) => self.take(run, step)?,
                None => break,
            }
        }
        ensure!(run.station.at_rest(), "the station does not come to rest");
        run.check()
    }
}

/// A step towards rest that leaves messages waiting: deliveries are often kept, and what is due is sent whatever waits.
fn hasty_step(random: &mut Random, station: &Station) -> Option<Step> {
    let waiting = station.pool.len();
    if station.at_rest() {
        return None;
    }
    if waiting > 0 && random.once_in(2) {
        return Some(Step::Deliver { at: random.below(waiting), kept: waiting < POOL / 2 && random.once_in(2) });
    }
    closing_step(random, &Station { pool: if waiting < POOL - 10 { vec![] } else { station.pool.clone() }, ..station.clone() })
}

/// How many copies of a station are so.
fn copies(station: &Station, is: impl Fn(usize, Author, u32) -> bool) -> usize {
    let all = station.images.iter().flat_map(|image| image.copies.iter().enumerate());
    all.filter(|(object, copy)| is(*object, copy.author, copy.version)).count()
}

/// The conversion: all is as it was, but who wrote a copy is unknown where the layout does not say.
fn convert(run: &mut Run, layout: Layout, at_once: bool) -> Result<(), String> {
    let beyond =
        run.station.images.iter().flat_map(|image| &image.copies[layout.copies..]).filter(|&copy| *copy != blank().copies[0]).count();
    ensure!(beyond == 0, "{beyond} copies are written that the layout does not have");
    let before = run.station.clone();
    run.take_in(layout, at_once)?;
    let unknown = copies(&run.station, |_, author, _| author == Author::UNKNOWN);
    let written = copies(&before, |_, _, version| version > 0);
    if layout.has_authors() {
        ensure!(run.station == before, "a station with authors becomes another");
    } else {
        ensure!(unknown == written, "{unknown} authors are unknown, but {written} copies are written");
    }
    run.seen.authors.taken += unknown;
    run.check()?;
    run.stored()
}

/// Stations that ran under an older layout, taken in at rest, that run on with all objects while older messages still arrive.
fn from_layout(random: &mut Random, rounds: usize, layout: Layout) -> Verdict {
    let setup = Setup { library: true, ..SETUP };
    let mut seen = Seen::default();
    let (mut waited, mut arrived, mut added) = (0, 0, 0);
    for _ in 0..60 * rounds {
        let (style, on) = (pointed_style(random).older(), some_on(random));
        let mut run = Run::new(on, setup, &mut seen);
        Program { layout, before: [0; NODES], arrived: 0 }.to_rest(random, &style, &mut run)?;
        waited += usize::from(!run.station.pool.is_empty());
        convert(&mut run, layout, random.once_in(2))?;
        let style = if random.once_in(3) { style } else { pointed_style(random) };
        let mut today = Program { layout: TODAY, before: std::array::from_fn(|node| run.station.records[node].serial), arrived: 0 };
        today.to_rest(random, &style, &mut run)?;
        run.count_authors();
        arrived += today.arrived;
        added += copies(&run.station, |object, _, version| object >= layout.copies && version > 0);
    }
    let Authors { compared, written, nobody, unknown, taken, replaced } = seen.authors;
    let counted = format!(
        "from {} bytes: {} committed; {waited} with messages waiting, older messages arrived {arrived} times; {added} copies of new objects; {}",
        layout.length(),
        seen.of(Case::Committed),
        seen.authors.words()
    );
    let rich = [(compared, 7680), (written, 50), (nobody, 1000), (waited, 10), (arrived, 100), (added, 50)];
    let untold = [(unknown, 10), (taken, 200), (replaced, 40)];
    let known = layout.has_authors();
    ensure!(rich.iter().all(|&(count, floor)| count >= floor * rounds), "too poor: {counted}");
    ensure!(untold.iter().all(|&(count, floor)| if known { count == 0 } else { count >= floor * rounds }), "too poor: {counted}");
    Ok(counted)
}

pub fn taken_in(random: &mut Random, rounds: usize) -> Verdict {
    let told: Result<Vec<String>, String> = OLDER.into_iter().map(|layout| from_layout(random, rounds, layout)).collect();
    Ok(told?.join("; "))
}

/// Bytes about the lent ones, which no call may touch.
const MARGIN: usize = 30;

/// The library's number and every byte about and in a buffer of `size` bytes, filled with noise before, against the model's; what is then there.
fn compare(random: &mut Random, old: &[u8], size: usize) -> Result<(u8, Vec<u8>), String> {
    let lent = old.to_vec();
    let mut room = random.bytes(size + 2 * MARGIN);
    let mut expected = room.clone();
    let number = match take_in_call(old, size) {
        Err(number) => number,
        Ok(bytes) => {
            expected[MARGIN..MARGIN + size].copy_from_slice(&bytes);
            number::OK
        }
    };
    let got = library::take_in(&lent, &mut room[MARGIN..MARGIN + size]);
    ensure!(got == number, "{} bytes into {size}: {got}, but the model says {number}", old.len());
    ensure!(room == expected && lent == old, "{} bytes into {size}, number {got}: other bytes than the model's", old.len());
    Ok((got, room[MARGIN..MARGIN + size].to_vec()))
}

/// Thirteen sound images: each becomes what it becomes alone. With each one of them damaged: 2, and not one is taken in.
fn each_damaged(random: &mut Random, layout: Layout, counts: &mut [usize; 3]) -> Result<(), String> {
    let images: Vec<Vec<u8>> = (0..NODES).map(|_| encode_as(layout, &records::busy(random))).collect();
    let (number, together) = compare(random, &images.concat(), IMAGES)?;
    let mut alone = vec![0; IMAGES];
    alone.chunks_mut(IMAGE).zip(&images).for_each(|(part, old)| ensure_taken(old, part));
    ensure!(number == number::OK && together == alone, "number {number}: thirteen at once become others than one by one");
    counts[0] += 1;
    for node in 0..NODES {
        let mut broken = images.clone();
        let image = records::busy(random);
        broken[node] = random.pick(&damages_of(layout)).bytes(random, layout, image);
        let (number, _) = compare(random, &broken.concat(), IMAGES)?;
        ensure!(number == number::DAMAGED, "node {node}'s image is damaged, but the number is {number}");
        counts[2] += 1;
        // 1 comes before 2.
        let size = *random.pick(&[0, IMAGE, IMAGES - 1, IMAGES + 1]);
        ensure!(compare(random, &broken.concat(), size)?.0 == number::LENGTH, "{size} bytes of images are not refused with 1");
        counts[1] += 1;
    }
    Ok(())
}

/// One image taken in alone; a refusal leaves the part as no image is.
fn ensure_taken(old: &[u8], part: &mut [u8]) {
    if ffi::take_in(old, part) != number::OK {
        part.fill(0);
    }
}

/// Thirteen images at once: sound, each one damaged, of other lengths, of two older lengths mixed, and of the present one.
pub fn thirteen(random: &mut Random, rounds: usize) -> Verdict {
    let mut counts = [0; 3];
    for layout in OLDER {
        for _ in 0..20 * rounds {
            each_damaged(random, layout, &mut counts)?;
        }
        let whole: Vec<u8> = (0..NODES).flat_map(|_| encode_as(layout, &records::busy(random))).collect();
        let near = [NODES * 1207, NODES * 1527, NODES * IMAGE].into_iter().flat_map(|length| length - 3..length + 4);
        for length in near.chain([0, 1, 1207, 1527, IMAGE, 12 * 1207, 14 * 1207, 12 * 1527, 14 * 1527, 65_536 + 15_691, 65_536 + 19_851]) {
            let mut other = whole.clone();
            other.resize(length, random.byte());
            let (number, _) = compare(random, &other, IMAGES)?;
            let fits = [15_691, 19_851].contains(&length);
            ensure!((number == number::LENGTH) != fits, "{length} bytes are {number}");
            ensure!(length != whole.len() || number == number::OK, "thirteen sound images are refused with {number}");
            counts[usize::from(number)] += 1;
        }
        for size in [0, 1, 1207, 1527, IMAGE, 15_691, 19_851, 38_154, 38_156, 65_536 + 38_155] {
            ensure!(compare(random, &whole, size)?.0 == number::LENGTH, "{size} bytes of images are not refused with 1");
            counts[1] += 1;
        }
    }
    let [taken, length, damaged] = counts;
    ensure!(taken == 40 * rounds + 2 && length > 500 && damaged >= 520 * rounds, "{counts:?} with 0, 1 and 2 are too poor");
    Ok(format!("{taken} stations taken in, {length} of another length, {damaged} damaged"))
}
