//! Long runs of one image: several owners, each with one transaction after the other, and old messages again at any time.

use super::records;
use super::seen::{whole, Seen};
use crate::checks::message::records::valid_object;
use crate::ffi;
use crate::model::image::{self, state, Image};
use crate::model::message::{self, Message, Transaction, ABORT, COMMIT, LAST, WRITE};
use crate::model::number;
use crate::random::Random;
use crate::runner::{ensure, Verdict};

/// The next message of an owner to node `me`, as its transaction's state here lets one expect, and at times as it does not.
fn next_message(random: &mut Random, image: &Image, me: u8, owner: u8) -> Message {
    let last = image.owners[usize::from(owner)];
    let next = Transaction { owner, serial: last.serial.saturating_add(1), stamp: records::some_small(random) };
    let same = Transaction { owner, serial: last.serial.max(1), stamp: last.stamp.max(1) };
    let fetch = |random: &mut Random, transaction| message::fetch(me, transaction, valid_object(random), random.below(2) as u8);
    match (last.state, random.below(12)) {
        (_, 0) => message::outcome(me, same, vec![], ABORT),
        (_, 1) => records::some_message(random, image, me),
        (state::OVER, 2) => message::outcome(me, next, vec![], ABORT),
        (state::OVER, 3) => message::ask(me, next, records::some_found(random, image)),
        (state::OVER, _) => fetch(random, next),
        (state::LISTED, 2..=7) => fetch(random, same),
        (state::LISTED, _) => message::ask(me, same, records::some_found(random, image)),
        (state::HELD, _) => message::outcome(me, same, held_by(random, image, owner), COMMIT),
        _ => message::outcome(me, same, vec![], ABORT),
    }
}

/// A commit of what an owner holds, at most eight; of one object where it holds none.
fn held_by(random: &mut Random, image: &Image, owner: u8) -> Vec<message::Entry> {
    let held = (0..).zip(&image.copies).filter(|(_, copy)| copy.holder == owner);
    let value = random.next() as i64;
    let write =
        |(object, copy): (u8, &image::ObjectCopy)| message::Entry { object, mode: WRITE, version: copy.version.min(LAST - 1), value };
    let entries: Vec<message::Entry> = held.map(write).take(8).collect();
    if entries.is_empty() {
        return vec![message::Entry { object: valid_object(random), mode: message::READ, version: 0, value: 0 }];
    }
    entries
}

/// From blank, hundreds of messages of up to thirteen owners; each is kept, and any of them may come again.
pub fn long_runs(random: &mut Random, rounds: usize) -> Verdict {
    let (runs, steps) = (100 * rounds, 500);
    let mut seen = Seen::default();
    let (mut late, mut commits, mut highest) = (0, 0, 0);
    for _ in 0..runs {
        let me = random.below(13) as u8;
        let owners = 1 + random.below(13);
        let mut bytes = image::encode(&image::blank());
        let mut sent: Vec<Vec<u8>> = Vec::new();
        for _ in 0..steps {
            let image = image::load(&bytes).map_err(|number| format!("an image in a run is refused with {number}"))?;
            let again = !sent.is_empty() && random.once_in(4);
            let owner = random.below(owners) as u8;
            let message = if again { random.pick(&sent).clone() } else { message::encode(&next_message(random, &image, me, owner)) };
            let after = seen.compare(random, whole(&bytes, me, &message))?;
            ensure!(ffi::check_image(&after) == number::OK, "an image is damaged after {message:?}");
            late += usize::from(again && after == bytes);
            commits += usize::from(message::decode(&message).is_some_and(|message| message.words == [COMMIT]) && after != bytes);
            bytes = after;
            sent.push(message);
        }
        let image = image::load(&bytes).map_err(|number| format!("the image after a run is refused with {number}"))?;
        highest = highest.max(image.copies.iter().map(|copy| copy.version).filter(|&version| version < LAST / 2).max().unwrap_or(0));
    }
    let counted = format!("{runs} runs; {}; {late} old ones that changed nothing, {commits} commits, versions to {highest}", seen.words());
    ensure!(late > 1000 * rounds && commits > 1000 * rounds && highest > 2 && seen.numbers[0] > 10_000 * rounds, "too poor: {counted}");
    Ok(counted)
}

/// A message that was taken, once more: the image stays, and it is taken again.
pub fn repeats(random: &mut Random, rounds: usize) -> Verdict {
    let mut seen = Seen::default();
    let mut repeated = 0;
    for _ in 0..8000 * rounds {
        let image = records::some_image(random);
        let bytes = image::encode(&image);
        let me = random.below(13) as u8;
        let message = message::encode(&records::some_message(random, &image, me));
        let refused = seen.numbers[0];
        let once = seen.compare(random, whole(&bytes, me, &message))?;
        if seen.numbers[0] == refused {
            continue;
        }
        let twice = seen.compare(random, whole(&once, me, &message))?;
        ensure!(once == twice && seen.numbers[0] == refused + 2, "{message:?}, repeated, was refused or changed the image");
        repeated += 1;
    }
    ensure!(repeated > 3000 * rounds, "{repeated} repeats are too poor");
    Ok(format!("{repeated} repeats; {}", seen.words()))
}
