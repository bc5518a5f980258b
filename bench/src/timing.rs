//! Times in nanoseconds: the median and the least of many rounds, the two libraries in turn.

use crate::ops::{Op, Run};
use crate::stage::{Stage, Undo};
use std::hint::black_box;
use std::time::Instant;

/// Nanoseconds of one call.
#[derive(Clone, Copy)]
pub struct Time {
    pub median: f64,
    pub least: f64,
}

/// Both libraries' times, and the median of the rounds' ratios. Two rounds that follow each other share what else the machine does, so this
/// ratio is steadier than either time.
#[derive(Clone, Copy)]
pub struct Pair {
    pub product: Time,
    pub rust: Time,
    pub ratio: f64,
}

impl Pair {
    /// From the times of rounds in turn.
    pub fn of(rounds: &[(f64, f64)]) -> Pair {
        let product = time_of(rounds.iter().map(|round| round.0).collect());
        let rust = time_of(rounds.iter().map(|round| round.1).collect());
        Pair { product, rust, ratio: time_of(rounds.iter().map(|round| round.0 / round.1).collect()).median }
    }
}

/// The one function within which instructions are counted.
#[inline(never)]
pub fn measured(run: Run, stages: &mut [Stage]) -> u64 {
    run(stages)
}

fn time_of(mut rounds: Vec<f64>) -> Time {
    rounds.sort_by(f64::total_cmp);
    Time { median: rounds[rounds.len() / 2], least: rounds[0] }
}

/// What a call changes, found by making it once.
fn undo_of(stage: &Stage, run: Run) -> Undo {
    let mut after = stage.clone();
    black_box(run(std::slice::from_mut(&mut after)));
    Undo::between(stage, &after)
}

/// One round: the stages put back, then the timed calls; nanoseconds of one.
fn round(run: Run, stages: &mut [Stage], undo: &Undo) -> f64 {
    stages.iter_mut().for_each(|stage| undo.restore(stage));
    let start = Instant::now();
    black_box(measured(run, black_box(stages)));
    let elapsed = start.elapsed();
    elapsed.as_nanos() as f64 / stages.len() as f64
}

/// An operation that does nothing: only the loop around it.
pub fn nothing(stages: &mut [Stage]) -> u64 {
    stages.iter().fold(0, |sum, stage| sum + u64::from(black_box(stage.objects)))
}

/// How long a round of nothing is, for one call of a batch: the clock and the loop.
fn clock(stages: &mut [Stage]) -> f64 {
    let undo = Undo::between(&stages[0], &stages[0]);
    time_of((0..200).map(|_| round(nothing, stages, &undo)).collect()).median
}

/// The times of an operation with both libraries. The clock's own time is taken off both alike.
pub fn time(op: &Op, batch: usize, rounds: usize) -> Pair {
    let mut stages = vec![op.stage.clone(); batch];
    let undo = undo_of(&op.stage, op.rust);
    let clock = clock(&mut stages);
    let mut taken = |run| (round(run, &mut stages, &undo) - clock).max(0.1);
    let rounds: Vec<(f64, f64)> = (0..rounds).map(|_| (taken(op.product), taken(op.rust))).collect();
    Pair::of(&rounds)
}
