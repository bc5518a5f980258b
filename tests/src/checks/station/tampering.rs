//! Each part of demand 3's check notices what is changed behind its back: a short run, and one stored number made another.

use super::seen::Seen;
use super::{Run, SETUP};
use crate::model::coordinator::Call;
use crate::model::image::Author;
use crate::model::message::{READ, WRITE};
use crate::model::quorum::{ALL, NODES};
use crate::model::station::Step;
use crate::random::Random;
use crate::runner::{ensure, Verdict};

const OBJECT: u8 = 7;

/// The participants of node 3's transactions when all are live and every distance is 1.
const PARTY: [u8; 7] = [0, 1, 3, 4, 5, 10, 11];

/// A node begins a transaction that opens the object, and its copy comes from node 0.
fn open(run: &mut Run, node: u8, mode: u8) -> Result<(), String> {
    let timestamp = run.station.records[usize::from(node)].timestamp + 1;
    run.take(Step::Host { node, call: Call::Begin { live: ALL, distances: [1, 0].repeat(13), timestamp, day: 0, minute: 0 } })?;
    run.take(Step::Host { node, call: Call::Open { object: OBJECT, mode } })?;
    run.take(Step::Send { node, to: 0, object: OBJECT })?;
    run.take(Step::Deliver { at: 0, kept: false })?;
    run.take(Step::Deliver { at: 0, kept: false })
}

/// A node writes the object, up to the request for votes.
fn write(run: &mut Run, node: u8, value: i64) -> Result<(), String> {
    open(run, node, WRITE)?;
    run.take(Step::Host { node, call: Call::SetValue { object: OBJECT, value } })?;
    run.take(Step::Host { node, call: Call::RequestCommit })
}

/// The check fails, and says which part does.
fn fails(part: &str, told: Result<(), String>) -> Result<(), String> {
    let wrong = told.err().unwrap_or_default();
    ensure!(wrong.starts_with(part), "{part} does not notice; said was '{wrong}'");
    Ok(())
}

pub fn tampering(random: &mut Random) -> Verdict {
    let mut seen = Seen::default();
    let mut run = Run::new(ALL, SETUP, &mut seen);
    // Node 3 writes 70. Another new value in its record is not what the host gave.
    write(&mut run, 3, 70)?;
    run.station.records[3].opened[0].new = 71;
    fails("(0)", run.take(Step::Send { node: 3, to: 0, object: 0 }))?;
    run.station.records[3].opened[0].new = 70;
    run.station.pool.clear();
    run.close(random)?;
    run.check()?;
    // At rest, each participant that has the newest version must have its value.
    for node in PARTY.map(usize::from) {
        run.station.images[node].copies[7].value = 0;
        fails("(c)", run.check())?;
        run.station.images[node].copies[7].value = 70;
    }
    authors(&mut run)?;
    // Node 5 finds 70. That it found what nobody wrote is seen at once; that it found the value before is seen when it has committed.
    open(&mut run, 5, READ)?;
    let found = Step::Host { node: 5, call: Call::Found { object: OBJECT } };
    run.station.records[5].opened[0].value = 700;
    fails("(b)", run.take(found.clone()))?;
    let mut seen = Seen::default();
    let mut run = Run::new(ALL, SETUP, &mut seen);
    write(&mut run, 3, 70)?;
    run.close(random)?;
    open(&mut run, 5, READ)?;
    run.station.records[5].opened[0].value = 0;
    run.take(found)?;
    run.take(Step::Host { node: 5, call: Call::RequestCommit })?;
    run.check()?;
    run.close(random)?;
    fails("(a)", run.check())?;
    Ok(String::from("(0), (a), (b), (c) and who wrote last"))
}

/// At rest, after node 3's first transaction wrote the object: each participant's copy must name it, and no copy of another object anybody.
fn authors(run: &mut Run) -> Result<(), String> {
    let wrote = Author { owner: 3, serial: 1 };
    for node in PARTY.map(usize::from) {
        for other in [Author::NOBODY, Author::UNKNOWN, Author { owner: 4, ..wrote }, Author { serial: 2, ..wrote }] {
            run.station.images[node].copies[7].author = other;
            fails("(author)", run.check())?;
        }
        run.station.images[node].copies[7].author = wrote;
    }
    for node in 0..NODES {
        for other in [Author::UNKNOWN, wrote] {
            run.station.images[node].copies[8].author = other;
            fails("(author)", run.check())?;
        }
        run.station.images[node].copies[8].author = Author::NOBODY;
    }
    run.check()
}

/// A batch of node 3, up to its last vote but one; the steps that are left.
fn up_to_the_last_vote(run: &mut Run) -> Result<Vec<Step>, String> {
    let deliver = Step::Deliver { at: 0, kept: false };
    let begin = Call::Batch { live: ALL, distances: [1, 0].repeat(13), timestamp: 1, day: 0, minute: 0, list: vec![1, 0, 37, 0] };
    run.take(Step::LoadClasses { node: 3, list: vec![0, 1, OBJECT] })?;
    run.take(Step::Host { node: 3, call: begin })?;
    run.take(Step::Send { node: 3, to: 0, object: OBJECT })?;
    run.take(deliver.clone())?;
    run.take(deliver.clone())?;
    run.take(Step::Host { node: 3, call: Call::RequestCommit })?;
    for to in PARTY {
        run.take(Step::Send { node: 3, to, object: 0 })?;
        run.take(deliver.clone())?;
        if to != PARTY[6] {
            run.take(deliver.clone())?;
        }
    }
    Ok(vec![deliver, Step::Switch { node: 9, on: true }])
}

/// The law of the weights is noticed to fail: tenths that move before the commit, others than it leaves, none at all, and more grams than were weighed.
pub fn weights() -> Verdict {
    let changes: [(&str, usize, fn(&mut Run)); 4] = [
        ("before", 0, |run| run.station.settings[3].waited[0] = 7),
        ("others", 1, |run| run.station.settings[3].left[0] = 8),
        ("none", 1, |run| run.station.settings[3].kind = 0),
        ("after", 2, |run| run.station.settings[3].left[0] = 0),
    ];
    for (name, accepted, change) in changes {
        let mut seen = Seen::default();
        let mut run = Run::new(ALL, SETUP, &mut seen);
        let mut steps = up_to_the_last_vote(&mut run)?.into_iter();
        // Before the last vote, so that it shows at the next step or at the commit; or behind the commit.
        if accepted == 2 {
            run.take(steps.next().ok_or("a vote")?)?;
        }
        change(&mut run);
        let step = if accepted == 0 { Step::Switch { node: 9, on: true } } else { steps.next().ok_or("a step")? };
        fails("(weights)", run.take(step)).map_err(|wrong| format!("{name}: {wrong}"))?;
    }
    // More grams than the weights say are no longer what the host wanted.
    let mut seen = Seen::default();
    let mut run = Run::new(ALL, SETUP, &mut seen);
    run.take(Step::LoadClasses { node: 3, list: vec![0, 1, OBJECT] })?;
    let begin = Call::Batch { live: ALL, distances: [1, 0].repeat(13), timestamp: 1, day: 0, minute: 0, list: vec![1, 0, 37, 0] };
    run.take(Step::Host { node: 3, call: begin })?;
    run.take(Step::Send { node: 3, to: 0, object: OBJECT })?;
    run.take(Step::Deliver { at: 0, kept: false })?;
    run.take(Step::Deliver { at: 0, kept: false })?;
    run.station.records[3].opened[0].new = 4;
    run.take(Step::Host { node: 3, call: Call::RequestCommit })?;
    fails("(0)", run.take(Step::Send { node: 3, to: 0, object: 0 }))?;
    Ok(String::from("tenths in four ways, and grams"))
}
