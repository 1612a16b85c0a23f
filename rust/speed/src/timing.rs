//! Timing functions in turn.

use std::array;
use std::time::Instant;

/// The most samples that are taken of each function.
const MOST_SAMPLES: f64 = 201.0;
/// The fewest samples, however long one takes.
const LEAST_SAMPLES: f64 = 21.0;
/// About how long all samples of all functions may take, in nanoseconds.
const ALL_SAMPLES: f64 = 4e9;
/// About how long one sample of a function takes at least, in nanoseconds: many
/// calls of a short one, as the first finds the caches as another function left
/// them.
const ONE_SAMPLE: f64 = 200_000.0;

/// The median times of two functions in nanoseconds, measured in turn.
pub fn times(mut proved: impl FnMut(), mut reference: impl FnMut()) -> (f64, f64) {
    let [ours, theirs] = medians(|number| match number {
        0 => proved(),
        _ => reference(),
    });
    (ours, theirs)
}

/// The median times of `N` functions in nanoseconds. They are measured in turn,
/// so that what else the machine does falls on all of them alike. `call` is
/// given the number of the function to call, from 0.
pub fn medians<const N: usize>(mut call: impl FnMut(usize)) -> [f64; N] {
    let one_call: [f64; N] = array::from_fn(|number| time(4, || call(number)));
    let calls = one_call.map(|one| (ONE_SAMPLE / one).clamp(1.0, 20_000.0).floor());
    let one_of_each: f64 = (0..N).map(|number| calls[number] * one_call[number]).sum();
    let rounds = (ALL_SAMPLES / one_of_each).clamp(LEAST_SAMPLES, MOST_SAMPLES);
    let mut samples: [Vec<f64>; N] = array::from_fn(|_| Vec::new());
    for _ in 0..rounds as usize {
        for (number, samples) in samples.iter_mut().enumerate() {
            samples.push(time(calls[number] as u32, || call(number)));
        }
    }
    samples.map(median)
}

/// The time of one call, as the mean of so many.
fn time(calls: u32, mut function: impl FnMut()) -> f64 {
    let start = Instant::now();
    for _ in 0..calls {
        function();
    }
    start.elapsed().as_nanos() as f64 / f64::from(calls)
}

fn median(mut times: Vec<f64>) -> f64 {
    times.sort_by(f64::total_cmp);
    times[times.len() / 2]
}
