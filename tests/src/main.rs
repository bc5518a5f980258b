//! The checks of the library and its programs against the second model.
//!
//! Usage, in the repository's root folder: checks [--seed S] [--rounds K] [--only WORDS] [--program PATH] [--station-program PATH]

#![deny(unsafe_code)]

mod checks;
#[allow(unsafe_code)]
mod ffi;
mod model;
mod random;
mod runner;

use runner::{Options, Runner};
use std::path::PathBuf;
use std::process::ExitCode;

const USAGE: &str = "usage: checks [--seed S] [--rounds K] [--only WORDS] [--program PATH] [--station-program PATH]";

/// The options, and where the quorum program and the station program are; none where the words are no options.
fn options() -> Option<(Options, PathBuf, PathBuf)> {
    let mut options = Options { seed: 13, rounds: 1, only: String::new() };
    let mut program = PathBuf::from("crates/quorum_program/out/quorum_program");
    let mut station_program = PathBuf::from("crates/station_program/out/station_program");
    let mut words = std::env::args().skip(1);
    while let Some(word) = words.next() {
        let value = words.next()?;
        match word.as_str() {
            "--program" => program = PathBuf::from(value),
            "--station-program" => station_program = PathBuf::from(value),
            "--only" => options.only = value,
            "--seed" => options.seed = value.parse().ok()?,
            "--rounds" => options.rounds = value.parse().ok().filter(|&rounds| rounds > 0)?,
            _ => return None,
        }
    }
    Some((options, program, station_program))
}

fn main() -> ExitCode {
    let Some((options, program, station_program)) = options() else {
        println!("{USAGE}\n0 passed, 1 failed");
        return ExitCode::FAILURE;
    };
    let mut runner = Runner::new(options);
    checks::quorum::run(&mut runner);
    checks::message::run(&mut runner);
    checks::image::run(&mut runner);
    checks::replica::run(&mut runner);
    checks::coordinator::run(&mut runner);
    checks::hours::run(&mut runner);
    checks::classes::run(&mut runner);
    checks::station::run(&mut runner);
    checks::program::run(&mut runner, &program);
    checks::station_program::run(&mut runner, &station_program);
    if runner.close() {
        ExitCode::SUCCESS
    } else {
        ExitCode::FAILURE
    }
}
