//! Runs named checks, prints a line for each with what it counted, and counts the checks.

use crate::random::Random;
use std::panic::{catch_unwind, AssertUnwindSafe};

/// What a check says at its end: what it counted, or what is wrong.
pub type Verdict = Result<String, String>;

/// Goes on when a fact holds, and ends the check with the words otherwise.
macro_rules! ensure {
    ($fact:expr, $($words:tt)+) => {
        if !$fact {
            return Err(format!($($words)+));
        }
    };
}
pub(crate) use ensure;

/// Runs some work in four threads at once, each with random numbers of its own; the first thing that is wrong, if any.
pub fn in_four_threads(random: &mut Random, work: impl Fn(&mut Random) -> Result<(), String> + Sync) -> Result<(), String> {
    let sources = [(); 4].map(|()| Random::new(random.next(), "thread"));
    let work = &work;
    std::thread::scope(|scope| {
        let running = sources.map(|mut random| scope.spawn(move || work(&mut random)));
        running.into_iter().try_for_each(|thread| thread.join().unwrap_or_else(|_| Err(String::from("a thread panicked"))))
    })
}

/// What a run may be given.
pub struct Options {
    /// Where the random numbers start.
    pub seed: u64,
    /// How many times as many random inputs as in the usual run.
    pub rounds: usize,
    /// Only the checks whose names have these words are run.
    pub only: String,
}

pub struct Runner {
    options: Options,
    passed: usize,
    failed: usize,
}

impl Runner {
    pub fn new(options: Options) -> Runner {
        Runner { options, passed: 0, failed: 0 }
    }

    /// Runs one check. A panic in it is a failure like any other.
    pub fn check(&mut self, name: &str, body: impl FnOnce(&mut Random, usize) -> Verdict) {
        if !name.contains(&self.options.only) {
            return;
        }
        let mut random = Random::new(self.options.seed, name);
        let rounds = self.options.rounds;
        let verdict = catch_unwind(AssertUnwindSafe(|| body(&mut random, rounds)));
        match verdict {
            Ok(Ok(counted)) => {
                self.passed += 1;
                println!("ok {name}: {counted}");
            }
            Ok(Err(wrong)) => {
                self.failed += 1;
                println!("FAILED {name}: {wrong}");
            }
            Err(_) => {
                self.failed += 1;
                println!("FAILED {name}: it panicked");
            }
        }
    }

    /// Prints the closing line; whether all passed.
    pub fn close(self) -> bool {
        println!("{} passed, {} failed", self.passed, self.failed);
        self.failed == 0
    }
}
