//! How the times grow: with the messages that wait, with the objects of a transaction, with the steps that were taken.

use crate::fast::Fast;
use crate::library::{Library, ALL};
use crate::ops::{Op, Run, Seen};
use crate::product::Product;
use crate::random::Random;
use crate::report::Report;
use crate::scenes;
use crate::stage::Stage;
use crate::station::{Station, Step};
use crate::timing::{self, Pair, Time};
use crate::transaction;
use crate::walk;
use std::hint::black_box;
use std::time::Instant;

const WAITING: [usize; 6] = [1, 16, 32, 64, 96, 128];
const STEPS: [usize; 7] = [1_000, 2_000, 5_000, 10_000, 20_000, 50_000, 100_000];

/// How many steps of a run are timed together.
const PART: usize = 100;

/// The first waiting message is delivered.
fn deliver_first<L: Library>(stages: &mut [Stage]) -> u64 {
    stages.iter_mut().fold(0, |sum, s| sum + L::station_deliver(s.station.lent(), black_box(0), 0).seen())
}

/// The last waiting message is delivered.
fn deliver_last<L: Library>(stages: &mut [Stage]) -> u64 {
    stages.iter_mut().fold(0, |sum, s| {
        let last = s.station.pool[0] - 1;
        sum + L::station_deliver(s.station.lent(), black_box(last), 0).seen()
    })
}

/// The first waiting message is dropped.
fn drop_first<L: Library>(stages: &mut [Stage]) -> u64 {
    stages.iter_mut().fold(0, |sum, s| sum + L::station_drop(&mut s.station.pool, black_box(0)).seen())
}

fn whole<L: Library>(stages: &mut [Stage]) -> u64 {
    stages.iter_mut().fold(0, |sum, s| sum + transaction::whole::<L>(&mut s.station, s.objects))
}

fn pair_of(stage: Stage, product: Run, rust: Run, batch: usize, rounds: usize) -> Pair {
    timing::time(&Op { group: "growth", name: "", stage, product, rust }, batch, rounds)
}

fn by_waiting(report: &mut Report, rounds: usize) {
    let unit = "messages waiting";
    let curves: [(&str, Run, Run, fn(usize) -> Stage); 3] = [
        ("a fetch delivered, the first that waits", deliver_first::<Product>, deliver_first::<Fast>, scenes::crowded),
        ("a fetch delivered, the last that waits", deliver_last::<Product>, deliver_last::<Fast>, scenes::crowded_before),
        ("a message dropped, the first that waits", drop_first::<Product>, drop_first::<Fast>, scenes::crowded),
    ];
    for (name, product, rust, stage) in curves {
        report.curve(name, unit);
        for count in WAITING {
            report.point(name, unit, count, pair_of(stage(count), product, rust, 16, rounds));
        }
    }
}

fn by_objects(report: &mut Report, rounds: usize) {
    let (name, unit) = ("a whole transaction", "objects");
    report.curve(name, unit);
    for objects in 1..=8 {
        let stage = scenes::with_waiting(objects, 0);
        report.point(name, unit, usize::from(objects), pair_of(stage, whole::<Product>, whole::<Fast>, 1, rounds));
    }
}

/// The steps of a random walk from a blank station; few messages wait.
fn walked(seed: u64, count: usize) -> Vec<Step> {
    let mut random = Random::new(seed, "growth");
    let mut station = Station::blank::<Fast>(ALL);
    (0..count)
        .map(|_| {
            let step = walk::next(&mut random, &station, 8);
            station.take::<Fast>(&step);
            step
        })
        .collect()
}

/// The nanoseconds of some steps.
fn taken<L: Library>(station: &mut Station, steps: &[Step]) -> f64 {
    let start = Instant::now();
    for step in steps {
        black_box(station.take::<L>(step));
    }
    start.elapsed().as_nanos() as f64
}

/// The times of a run, a hundred steps at a time, with both libraries in turn.
fn run_of(steps: &[Step]) -> Vec<(f64, f64)> {
    let (mut product, mut rust) = (Station::blank::<Product>(ALL), Station::blank::<Fast>(ALL));
    let times = steps.chunks(PART).map(|part| (taken::<Product>(&mut product, part), taken::<Fast>(&mut rust, part))).collect();
    assert!(product == rust, "both stations are the same after the run");
    times
}

/// The nanoseconds of one step over some parts of the run: of each part the median and the least of the rounds, added up. A part is so short that
/// the machine's other work seldom interrupts it.
fn stretch(parts: &[Pair]) -> Pair {
    let steps = (PART * parts.len()) as f64;
    let sum = |time: fn(&Pair) -> f64| parts.iter().map(time).sum::<f64>() / steps;
    let product = Time { median: sum(|part| part.product.median), least: sum(|part| part.product.least) };
    let rust = Time { median: sum(|part| part.rust.median), least: sum(|part| part.rust.least) };
    Pair { product, rust, ratio: product.median / rust.median }
}

/// A point for each stretch of the list: from the point before to this one.
fn by_steps(report: &mut Report, seed: u64) {
    let (name, unit) = ("a step of a random run, since the point before", "steps taken");
    let steps = walked(seed, STEPS[STEPS.len() - 1]);
    let runs: Vec<Vec<(f64, f64)>> = (0..21).map(|_| run_of(&steps)).collect();
    let parts: Vec<Pair> = (0..runs[0].len()).map(|i| Pair::of(&runs.iter().map(|run| run[i]).collect::<Vec<_>>())).collect();
    report.curve(name, unit);
    let mut from = 0;
    for to in STEPS {
        report.point(name, unit, to, stretch(&parts[from / PART..to / PART]));
        from = to;
    }
}

pub fn all(report: &mut Report, rounds: usize, seed: u64) {
    by_waiting(report, rounds);
    by_objects(report, rounds);
    by_steps(report, seed);
}
