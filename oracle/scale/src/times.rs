//! How long calls take: the best and the median of many samples.

use std::time::{Duration, Instant};

/// Microseconds of one run.
#[derive(Clone, Copy)]
pub struct Times {
    pub best: f64,
    pub median: f64,
}

/// A sample is as many runs as take this long, and the samples of all calls take turns, so that a busy moment meets all of them.
const SAMPLE: Duration = Duration::from_micros(200);
const SAMPLES: usize = 201;
/// A call whose samples have taken this long gets no more, but for some that it gets in any case.
const LONGEST: Duration = Duration::from_secs(2);
const FEWEST_SAMPLES: usize = 5;

/// Of each call.
pub fn times<const N: usize>(calls: [&mut dyn FnMut(); N]) -> [Times; N] {
    let mut calls = calls.map(Sampled::new);

    for _ in 0..SAMPLES {
        // One slow call leaves the others their samples. Without two, the rest would find more of their own in the cache than before.
        if calls.iter().filter(|call| call.has_enough()).count() > 1 {
            break;
        }
        calls.iter_mut().for_each(Sampled::sample);
    }
    calls.map(Sampled::times)
}

/// The best of so many samples of one call, in microseconds.
pub fn best_of(samples: usize, call: &mut dyn FnMut()) -> f64 {
    let mut sampled = Sampled::new(call);

    for _ in 0..samples {
        sampled.sample();
    }
    sampled.times().best
}

/// A call, with the samples taken of it.
struct Sampled<'a> {
    call: &'a mut dyn FnMut(),
    runs: usize,
    taken: Duration,
    samples: Vec<f64>,
}

impl<'a> Sampled<'a> {
    fn new(call: &'a mut dyn FnMut()) -> Self {
        Self {
            runs: runs_of_a_sample(call),
            call,
            taken: Duration::ZERO,
            samples: Vec::new(),
        }
    }

    fn has_enough(&self) -> bool {
        self.samples.len() >= FEWEST_SAMPLES && self.taken > LONGEST
    }

    fn sample(&mut self) {
        if self.has_enough() {
            return;
        }
        let time = time_of(self.call, self.runs);
        self.taken += time;
        self.samples
            .push(time.as_secs_f64() * 1e6 / self.runs as f64);
    }

    fn times(mut self) -> Times {
        self.samples.sort_by(f64::total_cmp);
        Times {
            best: self.samples[0],
            median: self.samples[self.samples.len() / 2],
        }
    }
}

fn runs_of_a_sample(call: &mut dyn FnMut()) -> usize {
    let mut runs = 1;
    while time_of(call, runs) < SAMPLE {
        runs *= 2;
    }
    runs
}

fn time_of(call: &mut dyn FnMut(), runs: usize) -> Duration {
    let began = Instant::now();
    for _ in 0..runs {
        call();
    }
    began.elapsed()
}
