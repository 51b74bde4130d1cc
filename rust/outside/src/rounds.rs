//! Many rounds of one comparison, each from a seed of its own that is printed if the round fails.
//!
//! SENDOSHI_ROUNDS sets the number of rounds, SENDOSHI_SEED the seed of the first.

use crate::coverage::Coverage;
use crate::random::Random;
use std::panic::{catch_unwind, resume_unwind, AssertUnwindSafe};
use std::sync::atomic::{AtomicBool, Ordering::Relaxed};
use std::{env, thread};

const FIRST_SEED: u64 = 20_240_229;

/// The number of rounds to run where nothing else is asked for.
const USUAL: u64 = 200_000;

/// The number of rounds to run.
pub fn rounds() -> u64 {
    number("SENDOSHI_ROUNDS").unwrap_or(USUAL)
}

fn number(name: &str) -> Option<u64> {
    let text = env::var(name).ok()?;
    Some(text.parse().unwrap_or_else(|_| panic!("{name} is {text}, and no number")))
}

/// Runs the rounds on all processors and returns what they met. A failing round names its seed and stops the others.
pub fn run(rounds: u64, round: impl Fn(&mut Random, &mut Coverage) + Sync) -> Coverage {
    let first = number("SENDOSHI_SEED").unwrap_or(FIRST_SEED);
    let workers = thread::available_parallelism().map_or(1, |n| n.get());
    let failed = AtomicBool::new(false);
    let work = |worker: usize| {
        let mut coverage = Coverage::default();
        for at in (0..rounds).skip(worker).step_by(workers) {
            if failed.load(Relaxed) {
                break;
            }
            let seed = first.wrapping_add(at);
            let ran = catch_unwind(AssertUnwindSafe(|| round(&mut Random::new(seed), &mut coverage)));
            if let Err(failure) = ran {
                failed.store(true, Relaxed);
                eprintln!("the round with seed {seed} failed; to run it alone: SENDOSHI_SEED={seed} SENDOSHI_ROUNDS=1");
                resume_unwind(failure);
            }
        }
        coverage
    };
    thread::scope(|scope| {
        let work = &work;
        let running: Vec<_> = (0..workers).map(|worker| scope.spawn(move || work(worker))).collect();
        let mut all = Coverage::default();
        for worker in running {
            all.add(&worker.join().unwrap_or_else(|failure| resume_unwind(failure)));
        }
        all
    })
}
