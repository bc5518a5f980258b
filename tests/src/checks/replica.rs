//! The replica: deliveries compared with the model in number, length, image, answer buffer, and whether an answer was foretold.

mod records;
mod runs;
mod seen;

use crate::checks::image::damages::DAMAGES;
use crate::checks::image::records as images;
use crate::checks::message::records::{self as messages, some_byte, some_node};
use crate::model::image::{self, IMAGE, TODAY};
use crate::model::message::{self, LONGEST};
use crate::model::number;
use crate::random::Random;
use crate::runner::{ensure, in_four_threads, Runner, Verdict};
use seen::{whole, Seen, Try};

pub fn run(runner: &mut Runner) {
    runner.check("replica: one message on an image", one_message);
    runner.check("replica: messages to any node on any image", any_message);
    runner.check("replica: long runs of one image", runs::long_runs);
    runner.check("replica: every message again", runs::repeats);
    runner.check("replica: every byte of a message changed", every_message_byte);
    runner.check("replica: every byte of an image changed", every_image_byte);
    runner.check("replica: every length", every_length);
    runner.check("replica: damaged images", damaged_images);
    runner.check("replica: the lowest number of several", several_numbers);
    runner.check("replica in four threads", threads);
}

/// Messages and images that meet: every case of the rules, many times.
fn one_message(random: &mut Random, rounds: usize) -> Verdict {
    let mut seen = Seen::default();
    for _ in 0..8000 * rounds {
        let image = records::some_image(random);
        let bytes = image::encode(&image);
        for _ in 0..15 {
            let me = some_node(random);
            let message = records::some_message(random, &image, me);
            let broken = message::broken(&message);
            ensure!(broken.is_empty(), "{message:?} was made to be well formed, but breaks {broken:?}");
            let size = if random.once_in(2) { LONGEST } else { LONGEST + random.below(80) };
            seen.compare(random, Try { image: &bytes, me, message: &message::encode(&message), size })?;
        }
    }
    let (case, least) = seen.rarest();
    let counted = format!("{}; the rarest case ({case:?}) {least} times", seen.words());
    ensure!(least > 100 * rounds && seen.numbers[1..5].iter().all(|&count| count == 0), "too poor: {counted}");
    Ok(counted)
}

/// Images and messages of all that each can have, and nodes above 12: most are refused with 4 or 5.
fn any_message(random: &mut Random, rounds: usize) -> Verdict {
    let mut seen = Seen::default();
    for _ in 0..4000 * rounds {
        let bytes = image::encode(&images::some_valid(random));
        for _ in 0..8 {
            let message = messages::one_of(random, |_| true);
            let any = some_byte(random);
            let me = *random.pick(&[message.to, message.to, message.transaction.owner, any]);
            seen.compare(random, whole(&bytes, me, &message::encode(&message)))?;
        }
    }
    let rich = [0, 4, 5].iter().all(|&number| seen.numbers[number] > 1000 * rounds) && seen.answered > 1000 * rounds;
    ensure!(rich, "too poor: {}", seen.words());
    Ok(seen.words())
}

/// Each byte of a message changed in turn: another message that may be taken, or a refusal that leaves everything.
fn every_message_byte(random: &mut Random, rounds: usize) -> Verdict {
    let mut seen = Seen::default();
    for _ in 0..30 * rounds {
        let image = records::some_image(random);
        let bytes = image::encode(&image);
        let me = some_node(random);
        let message = message::encode(&records::some_message(random, &image, me));
        for at in 0..message.len() {
            let any = random.byte();
            for value in [0, 1, 2, 3, 5, 12, 13, 255, message[at] ^ 1, message[at].wrapping_add(1), any] {
                let mut changed = message.clone();
                changed[at] = value;
                seen.compare(random, whole(&bytes, me, &changed))?;
            }
        }
    }
    let rich = [0, 3, 4, 5].iter().all(|&number| seen.numbers[number] > 100 * rounds);
    ensure!(rich, "too poor: {}", seen.words());
    Ok(seen.words())
}

/// Each byte of an image changed in turn, with a message that an unchanged one takes.
fn every_image_byte(random: &mut Random, rounds: usize) -> Verdict {
    let mut seen = Seen::default();
    for _ in 0..4 * rounds {
        let image = records::some_image(random);
        let bytes = image::encode(&image);
        let me = some_node(random);
        for at in 0..IMAGE {
            let any = random.byte();
            for value in [0, 1, 2, 255, bytes[at] ^ 1, bytes[at] ^ 128, any] {
                let mut changed = bytes.clone();
                changed[at] = value;
                let message = message::encode(&records::some_message(random, &image, me));
                seen.compare(random, whole(&changed, me, &message))?;
            }
        }
    }
    let rich = [0, 2, 5].iter().all(|&number| seen.numbers[number] > 1000 * rounds);
    ensure!(rich, "too poor: {}", seen.words());
    Ok(seen.words())
}

/// Images, messages and answer buffers cut short and padded: all but the right lengths are 1, and nothing is touched.
fn every_length(random: &mut Random, rounds: usize) -> Verdict {
    let mut seen = Seen::default();
    for _ in 0..3 * rounds {
        let image = records::some_image(random);
        let bytes = image::encode(&image);
        let me = some_node(random);
        let message = message::encode(&records::some_message(random, &image, me));
        for length in (0..300).chain(1150..1260).chain(1470..1580).chain(2880..2990).chain([3054, 3191, 19_851, 38_155]) {
            let mut cut = bytes.clone();
            cut.resize(length, 0);
            seen.compare(random, whole(&cut, me, &message))?;
            let mut cut = message.clone();
            cut.resize(length.min(300), 0);
            seen.compare(random, whole(&bytes, me, &cut))?;
            seen.compare(random, Try { image: &bytes, me, message: &message, size: length })?;
        }
    }
    ensure!(seen.numbers[1] > 600 * rounds && seen.numbers[3] > 100 * rounds, "too poor: {}", seen.words());
    Ok(seen.words())
}

/// Each way to break an image: refused with 2 whatever the message is, as long as its length fits.
fn damaged_images(random: &mut Random, rounds: usize) -> Verdict {
    let tries = 60 * rounds;
    let mut seen = Seen::default();
    for damage in DAMAGES {
        for _ in 0..tries {
            let image = images::busy(random);
            let bytes = damage.bytes(random, TODAY, image.clone());
            let me = some_node(random);
            let message = message::encode(&records::some_message(random, &image, me));
            seen.compare(random, whole(&bytes, me, &message)).map_err(|wrong| format!("{}: {wrong}", damage.name))?;
        }
    }
    ensure!(seen.numbers[2] == DAMAGES.len() * tries, "too poor: {}", seen.words());
    Ok(format!("{} ways; {}", DAMAGES.len(), seen.words()))
}

/// Several things wrong at once, in all combinations: the lowest number is given.
fn several_numbers(random: &mut Random, rounds: usize) -> Verdict {
    let mut seen = Seen::default();
    for _ in 0..60 * rounds {
        for faults in 0..128 {
            let wrong = |at: usize| faults >> at & 1 == 1;
            let image = images::busy(random);
            let me = some_node(random);
            let mut message = records::some_message(random, &image, me);
            if wrong(0) {
                message = message::done(some_node(random), message::Transaction { owner: me, ..message.transaction });
            }
            let mut sent = message::encode(&message);
            if wrong(1) {
                sent[8..12].fill(0);
            }
            if wrong(2) {
                sent.truncate(random.below(15));
            }
            let damaged = if wrong(3) { random.pick(DAMAGES).bytes(random, TODAY, image) } else { image::encode(&image) };
            let kept = if wrong(4) { random.below(IMAGE) } else { IMAGE };
            let size = if wrong(5) { random.below(LONGEST) } else { LONGEST };
            let me = if wrong(6) { me + 1 + random.below(200) as u8 } else { me };
            seen.compare(random, Try { image: &damaged[..kept], me, message: &sent, size })?;
        }
    }
    let rich = seen.numbers.iter().all(|&count| count > 20 * rounds);
    ensure!(rich, "too poor: {}", seen.words());
    Ok(seen.words())
}

/// Re-entrant: four threads at once get the model's answers, each on its own images.
fn threads(random: &mut Random, rounds: usize) -> Verdict {
    let inputs = 1500 * rounds;
    in_four_threads(random, |random| {
        let mut seen = Seen::default();
        for _ in 0..inputs {
            let image = records::some_image(random);
            let me = some_node(random);
            let message = message::encode(&records::some_message(random, &image, me));
            seen.compare(random, whole(&image::encode(&image), me, &message))?;
        }
        ensure!(seen.numbers[usize::from(number::OK)] > inputs / 4, "too poor: {}", seen.words());
        Ok(())
    })?;
    Ok(format!("4 times {inputs} deliveries"))
}
