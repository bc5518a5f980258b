//! Random scenarios at a station: the model's own, with faults that the check of demand 3 must notice, and the library's beside the model's.

mod authors;
mod bad;
mod closing_time;
mod compiled;
pub mod ends;
mod oldest;
pub mod scenario;
pub mod seen;
mod stories;
mod taken;
mod tampering;
mod turns;

use crate::model::buffers::{take_in_call, IMAGES};
use crate::model::coordinator::Call;
use crate::model::history::{History, Order};
use crate::model::image::{Layout, IMAGE};
use crate::model::message::{Message, LAST};
use crate::model::quorum::ALL;
use crate::model::record::RECORD;
use crate::model::station::{blank, Event, Station, Step};
use crate::model::{image, number, record, Fault};
use crate::random::Random;
use crate::runner::{ensure, Runner, Verdict};
use compiled::Compiled;
use ends::{Ends, MODEL};
use scenario::{closing_step, next_step, some_style, Style};
use seen::{Case, Seen};

pub fn run(runner: &mut Runner) {
    runner.check("station model: scenarios", |random, rounds| scenarios(random, rounds, MODEL, 16));
    runner.check("station model: two conflict", |_, _| stories::conflict());
    runner.check("station model: a full pool", |_, _| stories::full_pool());
    runner.check("station model: last numbers", |_, _| stories::last_numbers());
    runner.check("station model: off and on", |_, _| stories::off_and_on());
    runner.check("station model: each part of demand 3 can fail", |random, _| tampering::tampering(random));
    runner.check("station model: the law of the weights can fail", |_, _| tampering::weights());
    runner.check("station library: scenarios", library_scenarios);
    runner.check("station library: taken in at rest", taken::taken_in);
    runner.check("station library: thirteen images taken in", taken::thirteen);
    runner.check("station library: bad buffers", bad::bad_buffers);
    runner.check("station library: closing time at every moment", |_, _| closing_time::at_every_moment());
    runner.check("station library: blank", |random, _| compiled::blanks(random));
    runner.check("station library: every bit is compared", |random, _| compiled::noticed(random));
    for slip in SLIPS {
        runner.check(&format!("station model: demand 3 notices {}", slip.name), |random, _| noticed(random, slip));
    }
}

/// What demand 3 must notice: a fault of the model, or a wrong order of its replay.
struct Slip {
    name: &'static str,
    fault: Fault,
    order: Order,
    /// Whether the history checks what 'committed' means, or only (0), (a), (b) and (c).
    meaning: bool,
    /// What makes a scenario likely to show it.
    point: fn(Style) -> Style,
}

const fn slip(name: &'static str, fault: Fault, order: Order, meaning: bool, point: fn(Style) -> Style) -> Slip {
    Slip { name, fault, order, meaning, point }
}

const SLIPS: &[Slip] = &[
    slip("a replica that ignores the holder", Fault::IgnoresHolder, Order::Log, true, |style| style),
    slip("a replica that ignores the version", Fault::IgnoresVersion, Order::Log, true, |style| style),
    slip("a commit that leaves who wrote last", Fault::LeavesAuthor, Order::Log, true, |style| style),
    slip("a commit by a majority", Fault::CommitsByMajority, Order::Log, true, |style| style),
    slip("a commit by a majority, by (0) to (c) alone", Fault::CommitsByMajority, Order::Log, false, |style| style),
    slip("a late copy that changes what was found", Fault::TakesLateCopies, Order::Log, true, Style::lingering),
    slip("the order of decisions", Fault::None, Order::Decisions, true, Style::slow_votes),
    slip("a running that sets what a batch adds", Fault::None, Order::Setting, true, Style::weighing),
];

/// What a scenario is run with: a fault or none, what its history checks, and which calls on bytes every how many steps are compared.
#[derive(Clone, Copy)]
struct Setup {
    fault: Fault,
    order: Order,
    meaning: bool,
    ends: Ends,
    every: usize,
    /// Whether the library's station takes each step too.
    library: bool,
}

/// The rules as they are.
const SETUP: Setup = Setup { fault: Fault::None, order: Order::Log, meaning: true, ends: MODEL, every: 16, library: false };

/// The waiting message that a step delivers.
fn delivered<'a>(station: &'a Station, step: &Step) -> Option<&'a Message> {
    match step {
        Step::Deliver { at, .. } => station.pool.get(*at),
        _ => None,
    }
}

/// One scenario under way.
struct Run<'a> {
    station: Station,
    /// What the events tell; none where the scenario does not begin with a blank station.
    history: Option<History>,
    compiled: Option<Compiled>,
    /// The node for whose transaction the last step asked for votes, where it was accepted.
    asked: Option<u8>,
    setup: Setup,
    seen: &'a mut Seen,
}

/// The node at which votes were asked for.
fn asks(event: &Event) -> Option<u8> {
    match (&event.step, &event.told) {
        (Step::Host { node, call: Call::RequestCommit }, Ok(told)) if told.number == number::OK => Some(*node),
        _ => None,
    }
}

impl Run<'_> {
    fn new(on: u16, setup: Setup, seen: &mut Seen) -> Run<'_> {
        seen.start();
        let station = blank(on);
        let compiled = setup.library.then(|| Compiled::new(&station));
        Run { station, history: Some(History::new(on, setup.meaning)), compiled, asked: None, setup, seen }
    }

    /// A scenario that begins with last serials and versions near their last number.
    fn worn<'a>(random: &mut Random, on: u16, setup: Setup, seen: &'a mut Seen) -> Run<'a> {
        let mut run = Run::new(on, setup, seen);
        for object in 0..4 {
            let version = LAST - random.below(4) as u32;
            run.station.images.iter_mut().for_each(|image| image.copies[object].version = version);
        }
        for record in &mut run.station.records {
            (record.serial, record.timestamp) = (LAST - random.below(8) as u32, 1 + random.below(9) as u32);
        }
        run.history = None;
        run.compiled = setup.library.then(|| Compiled::new(&run.station));
        run
    }

    /// One step, counted and fed to the history.
    fn take(&mut self, step: Step) -> Result<(), String> {
        let waiting = self.station.pool.len();
        let before = self.station.clone();
        let event = self.station.step(step, self.setup.fault);
        self.asked = asks(&event);
        self.seen.count(&before, &event);
        self.seen.count_more(&before, &event, &self.station);
        if let (Step::Deliver { at, .. }, Err(number), Fault::None) = (&event.step, &event.told, self.setup.fault) {
            let known = *number == number::POOL_FULL || (*number == number::OUT_OF_TURN && *at >= waiting);
            ensure!(known, "a delivery of {:?} gave {number}", before.pool[*at]);
        }
        ensure!(event.told.is_ok() || self.station == before, "{event:?} was refused and changed something");
        if self.setup.fault == Fault::None {
            self.seen.authors.replaced += authors::moved(&before, &event, &self.station)?;
        }
        if self.setup.fault == Fault::None && self.seen.steps() % self.setup.every == 0 {
            ends::same(self.setup.ends, &before, &event, &self.station)?;
        }
        // The events and the station that demand 3 is checked on are the library's, where it takes the steps too.
        let (event, after) = match &mut self.compiled {
            None => (event, &self.station),
            Some(compiled) => (compiled.follow(event, &self.station)?, compiled.shown()),
        };
        self.history.as_mut().map_or(Ok(()), |history| history.feed(&event, after))
    }

    /// Demand 3 of the run so far; of the library's station it is checked on what its bytes say.
    fn check(&self) -> Result<(), String> {
        let shown = self.compiled.as_ref().map(|compiled| compiled.whole(&self.station)).transpose()?;
        let station = shown.as_ref().unwrap_or(&self.station);
        self.history.as_ref().map_or(Ok(()), |history| history.check(station, self.setup.order))
    }

    /// Counts who wrote last, where the station is at rest and the check of demand 3 has compared it.
    fn count_authors(&mut self) {
        if let Some(history) = self.history.as_ref().filter(|_| self.station.at_rest()) {
            self.seen.authors.add(&history.last_authors());
        }
    }

    /// At rest, the images are taken in as an older program left them, in its layout, one by one or at once. The running goes on.
    fn take_in(&mut self, layout: Layout, at_once: bool) -> Result<(), String> {
        ensure!(self.station.at_rest(), "taken in while a transaction is under way");
        let old: Vec<Vec<u8>> = self.station.images.iter().map(|image| image::encode_as(layout, image)).collect();
        let taken = take_in_call(&old.concat(), IMAGES).map_err(|number| format!("the images are not taken in: {number}"))?;
        for (node, bytes) in taken.chunks(IMAGE).enumerate() {
            self.station.images[node] = image::load(bytes).map_err(|number| format!("what was taken in at node {node} is {number}"))?;
        }
        if let Some(compiled) = &mut self.compiled {
            compiled.take_in(&old, &self.station.images, at_once)?;
        }
        if let Some(history) = self.history.as_mut().filter(|_| !layout.has_authors()) {
            history.forget_authors();
        }
        Ok(())
    }

    /// All that is stored is valid, as bytes too.
    fn stored(&self) -> Result<(), String> {
        for node in 0..13 {
            let (stored, kept) = (&self.station.records[node], &self.station.images[node]);
            let bytes = record::encode(stored);
            ensure!(record::check_call(&bytes) == number::OK, "{stored:?} breaks {:?}", record::broken(stored));
            ensure!(record::decode(&bytes).as_ref() == Some(stored), "{stored:?} has other bytes");
            ensure!(image::valid(kept), "the image of node {node} breaks {:?}", image::broken(kept));
        }
        Ok(())
    }

    /// Steps until every coordinator is idle and no message waits; with a fault that may never be.
    fn close(&mut self, random: &mut Random) -> Result<(), String> {
        for _ in 0..20_000 {
            match closing_step(random, &self.station) {
                Some(step) => self.take(step)?,
                None => break,
            }
        }
        Ok(())
    }
}

/// One scenario, then on to rest, with demand 3 checked now and then and at the end.
fn one_scenario(random: &mut Random, style: &Style, mut run: Run) -> Result<(), String> {
    let fault = run.setup.fault;
    for at in 0..2000 {
        let step = next_step(random, &run.station, style);
        run.take(step)?;
        if let Some(owner) = run.asked {
            oldest::carry_copy(random, &mut run, owner, style)?;
        }
        if at % 100 == 0 {
            run.check()?;
        }
        if at % 100 == 50 && fault == Fault::None {
            run.stored()?;
        }
    }
    run.close(random)?;
    run.check()?;
    run.count_authors();
    ensure!(fault != Fault::None || run.station.at_rest(), "the station does not come to rest");
    ensure!(fault != Fault::None || run.history.is_none_or(|history| history.settled()), "the station is at rest, but not settled");
    Ok(())
}

/// The nodes that are on at a scenario's begin: all, or any.
fn some_on(random: &mut Random) -> u16 {
    if random.once_in(4) {
        random.word() & ALL
    } else {
        ALL
    }
}

/// How a scenario goes: any style, or one that dwells on what is rare.
fn pointed_style(random: &mut Random) -> Style {
    let point = *random.pick(&[|style| style, |style| style, Style::lingering, Style::slow_votes, Style::weighing]);
    point(some_style(random))
}

/// Heavy conflict, repeats, losses, switches, aborts and fresh looks: demand 3 holds after all of them. Every so many steps the calls on
/// bytes are compared with the step.
pub fn scenarios(random: &mut Random, rounds: usize, ends: Ends, every: usize) -> Verdict {
    let setup = Setup { ends, every, ..SETUP };
    let mut seen = Seen::default();
    let blank_bytes = record::blank_call(RECORD);
    ensure!(blank(0).records.iter().all(|it| Ok(record::encode(it)) == blank_bytes), "a blank station's record is not blank");
    for _ in 0..200 * rounds {
        let style = pointed_style(random);
        let on = some_on(random);
        one_scenario(random, &style, Run::new(on, setup, &mut seen))?;
    }
    let (case, least) = seen.rarest();
    let (authors, turns) = (seen.authors.words(), seen.turns.words());
    let counted = format!("{}; the rarest ({case}) {least} times; {authors}; {turns}", seen.words());
    let rich = least > 2 * rounds && seen.of(Case::Committed) > 600 * rounds;
    ensure!(rich && seen.authors.rich(rounds) && seen.turns.rich(2 * rounds), "too poor: {counted}");
    Ok(counted)
}

/// The library's station beside the model's, compared after every step; one scenario in ten begins near the last numbers. What is asked for and unopposed
/// is carried through on a copy. Floors on what was met keep the scenarios rich.
fn library_scenarios(random: &mut Random, rounds: usize) -> Verdict {
    let setup = Setup { library: true, ..SETUP };
    let mut seen = Seen::default();
    for scenario in 0..500 * rounds {
        let (style, on) = (pointed_style(random), some_on(random));
        let run = if scenario % 10 == 9 { Run::worn(random, on, setup, &mut seen) } else { Run::new(on, setup, &mut seen) };
        one_scenario(random, &style, run)?;
    }
    let (case, least) = seen.rarest();
    let (committed, [called, voted, yielded], used_up) = (seen.of(Case::Committed), seen.aborts(), seen.numbers[0][9]);
    let (closed, loaded) = (seen.numbers[0][usize::from(number::CLOSED)], seen.numbers[5][0]);
    let batches = [(seen.of(Case::BatchCommitted), 500), (seen.of(Case::BatchGivenUp), 40), (seen.of(Case::ClassesOverTenths), 40)];
    let counted = format!(
        "{}; {committed} committed; aborted: {called} by a call, {voted} by a no, {yielded} by a yield; the rarest ({case}) {least} times; {}; {}; {}",
        seen.words(),
        seen.authors.words(),
        seen.turns.words(),
        seen.oldest.words()
    );
    let rich = [(seen.steps(), 1_000_000), (committed, 2000), (called, 2000), (voted, 2000), (yielded, 200), (used_up, 200), (least, 10)];
    let rich = [&rich[..], &batches, &[(closed, 400), (loaded, 4000)]].concat();
    let rich = rich.iter().all(|&(count, floor)| count >= floor * rounds);
    ensure!(rich && seen.authors.rich(rounds), "too poor: {counted}");
    ensure!(seen.turns.rich(20 * rounds) && seen.oldest.rich(rounds), "too poor: {counted}");
    Ok(counted)
}

/// The check of demand 3 ends some scenario in which this is wrong.
fn noticed(random: &mut Random, slip: &Slip) -> Verdict {
    let mut seen = Seen::default();
    let setup = Setup { fault: slip.fault, order: slip.order, meaning: slip.meaning, ..SETUP };
    for scenario in 1..=400 {
        let style = (slip.point)(some_style(random));
        let on = some_on(random);
        if let Err(wrong) = one_scenario(random, &style, Run::new(on, setup, &mut seen)) {
            ensure!(wrong.starts_with('('), "another thing than demand 3 ended it: {wrong}");
            return Ok(format!("in scenario {scenario}, after {} commits: {wrong}", seen.of(Case::Committed)));
        }
    }
    Err(format!("never noticed in {} steps", seen.steps()))
}
