//! Speed, measured: the compiled library against the same rules in Rust written for speed.
//!
//! Usage: bench [--check] [--save PATH] [--only WORDS] [--rounds K] [--seed S] [--list] [--stack] [--once LIBRARY]

#![deny(unsafe_code)]

mod check;
mod fast;
mod growth;
mod library;
mod ops;
#[allow(unsafe_code)]
mod product;
mod random;
mod report;
mod scenes;
#[allow(unsafe_code)]
mod stack;
mod stage;
mod station;
mod timing;
mod transaction;
mod walk;

use ops::Op;
use report::Report;
use std::hint::black_box;
use std::process::ExitCode;

const USAGE: &str = "usage: bench [--check] [--save PATH] [--only WORDS] [--rounds K] [--seed S] [--list] [--stack] [--once LIBRARY]";

/// What is wanted.
struct Options {
    /// Only the comparison, no times.
    check: bool,
    /// Only the operations whose titles have these words.
    only: String,
    rounds: usize,
    seed: u64,
    save: Option<String>,
    /// Only the operations' names.
    list: bool,
    /// Only the stack that each operation of the library needs.
    stack: bool,
    /// Each operation once, with the `product` or the `rust` library, for a count of its instructions.
    once: Option<String>,
}

fn options() -> Option<Options> {
    let mut options = Options { check: false, only: String::new(), rounds: 501, seed: 7, save: None, list: false, stack: false, once: None };
    let mut words = std::env::args().skip(1);
    while let Some(word) = words.next() {
        match word.as_str() {
            "--check" => options.check = true,
            "--list" => options.list = true,
            "--stack" => options.stack = true,
            "--only" => options.only = words.next()?,
            "--save" => options.save = Some(words.next()?),
            "--once" => options.once = Some(words.next().filter(|library| library == "product" || library == "rust")?),
            "--rounds" => options.rounds = words.next()?.parse().ok().filter(|&rounds| rounds > 0)?,
            "--seed" => options.seed = words.next()?.parse().ok()?,
            _ => return None,
        }
    }
    Some(options)
}

/// Each operation's answer and bytes on its own input, by both libraries.
fn same_results(ops: &[Op]) -> Result<(), String> {
    for op in ops {
        let (mut product, mut rust) = (op.stage.clone(), op.stage.clone());
        let one = timing::measured(op.product, std::slice::from_mut(&mut product));
        let other = timing::measured(op.rust, std::slice::from_mut(&mut rust));
        if one != other || !product.same_bytes(&rust) {
            return Err(format!("{}: {one} and {other}, or the bytes differ", op.title()));
        }
    }
    Ok(())
}

/// Nothing once, then each operation once.
fn once(library: &str, ops: &mut [Op]) {
    for (i, op) in ops.iter_mut().enumerate() {
        if i == 0 {
            black_box(timing::measured(timing::nothing, std::slice::from_mut(&mut op.stage)));
        }
        let run = if library == "product" { op.product } else { op.rust };
        black_box(timing::measured(run, std::slice::from_mut(&mut op.stage)));
    }
}

/// Prints what a comparison found; whether nothing differs.
fn say<T: std::fmt::Display>(what: &str, verdict: Result<T, String>) -> bool {
    match &verdict {
        Ok(counted) => println!("ok {what}: {counted}"),
        Err(wrong) => println!("FAILED {what}: {wrong}"),
    }
    verdict.is_ok()
}

/// The comparison, first of random steps and calls, then of the operations' own inputs, which are made with the baseline. Its last line is a
/// count of tests. The operations, where nothing differs.
fn compared(options: &Options) -> Option<Vec<Op>> {
    if !say("library and baseline agree", check::all(options.seed, 200_000)) {
        println!("0 passed, 1 failed");
        return None;
    }
    let ops = wanted(&options.only);
    let same = same_results(&ops).map(|()| format!("{} operations", ops.len()));
    let passed = 1 + usize::from(say("every operation's answer and bytes agree", same));
    println!("{passed} passed, {} failed", 2 - passed);
    (passed == 2).then_some(ops)
}

/// The operations whose titles have some words, or the one whose title they are.
fn wanted(words: &str) -> Vec<Op> {
    let mut ops = ops::all();
    let whole = ops.iter().any(|op| op.title() == words);
    ops.retain(|op| if whole { op.title() == words } else { op.title().contains(words) });
    ops
}

/// Prints the table, and saves it where a path is given.
fn measure(options: &Options, ops: &[Op]) -> std::io::Result<()> {
    let mut report = Report::new();
    report.operations(ops, options.rounds);
    if options.only.is_empty() {
        growth::all(&mut report, options.rounds, options.seed);
    }
    options.save.as_ref().map_or(Ok(()), |path| report.save(path))
}

fn main() -> ExitCode {
    let Some(options) = options() else {
        println!("{USAGE}\n0 passed, 1 failed");
        return ExitCode::FAILURE;
    };
    if options.list {
        wanted(&options.only).iter().for_each(|op| println!("{}", op.title()));
        return ExitCode::SUCCESS;
    }
    if options.stack {
        wanted(&options.only).iter().for_each(|op| println!("{:54} {:6}", op.title(), stack::needed(op)));
        return ExitCode::SUCCESS;
    }
    if let Some(library) = options.once {
        once(&library, &mut wanted(&options.only));
        return ExitCode::SUCCESS;
    }
    let Some(ops) = compared(&options) else { return ExitCode::FAILURE };
    if options.check {
        return ExitCode::SUCCESS;
    }
    match measure(&options, &ops) {
        Ok(()) => ExitCode::SUCCESS,
        Err(wrong) => {
            println!("FAILED to save: {wrong}");
            ExitCode::FAILURE
        }
    }
}
