//! Two jobs timed by turns.

use crate::clock::now;
use std::hint::black_box;

/// Medians, in seconds a call.
pub struct Measured {
    pub library: f64,
    pub plain: f64,
    pub ratio: f64,
    pub samples: usize,
}

/// Seconds spent on a pair of jobs, and on one sample of one job at least.
const BUDGET: f64 = 1.5;
const SAMPLE: f64 = 0.002;
const MOST_SAMPLES: usize = 201;
const LEAST_SAMPLES: usize = 3;

/// Times two jobs by turns until the budget is spent. A sample runs a job so often that the clock's grain does not matter.
pub fn measure<L, P>(mut library: impl FnMut() -> L, mut plain: impl FnMut() -> P) -> Measured {
    let start = now();
    let library_runs = runs(&mut library);
    let plain_runs = runs(&mut plain);
    let (mut libraries, mut plains, mut ratios) = (Vec::new(), Vec::new(), Vec::new());
    while libraries.len() < LEAST_SAMPLES || (libraries.len() < MOST_SAMPLES && now() - start < BUDGET) {
        // Each goes first every other time.
        let (l, p) = if libraries.len() % 2 == 0 {
            let l = sample(&mut library, library_runs);
            (l, sample(&mut plain, plain_runs))
        } else {
            let p = sample(&mut plain, plain_runs);
            (sample(&mut library, library_runs), p)
        };
        libraries.push(l);
        plains.push(p);
        ratios.push(l / p);
    }
    let samples = libraries.len();
    Measured { library: median(libraries), plain: median(plains), ratio: median(ratios), samples }
}

/// How often a job runs in one sample. The caller has run it before, so that caches are warm.
fn runs<T>(job: &mut impl FnMut() -> T) -> u32 {
    let once = sample(job, 1).max(1e-8);
    (SAMPLE / once).clamp(1.0, 100_000.0) as u32
}

fn sample<T>(job: &mut impl FnMut() -> T, runs: u32) -> f64 {
    let start = now();
    for _ in 0..runs {
        black_box(job());
    }
    (now() - start) / f64::from(runs)
}

fn median(mut values: Vec<f64>) -> f64 {
    values.sort_by(f64::total_cmp);
    values[values.len() / 2]
}
