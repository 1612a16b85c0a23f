//! Times in processor time, the least of many samples.

use std::hint::black_box;
use std::sync::Mutex;
use std::time::{Duration, Instant};

use generate::Input;

use crate::abi;
use crate::abi::{RESULT_WORDS, WORK_WORDS};
use crate::formula::formula;
use crate::worst::Worst;

/// About how long the rounds of one sample take, in nanoseconds.
const SAMPLE: f64 = 1e6;
/// How many samples are taken of each call in one pass over all of them.
const SAMPLES: usize = 5;
/// How many passes are made: what else the machine does slows some of them.
const PASSES: usize = 60;
/// How long a sample is waited for while the clock is slow.
const PATIENCE: Duration = Duration::from_millis(20);
const GREATEST_BUDGET: usize = 1_000_000;

/// Something that is timed.
pub type Timed<'a> = Box<dyn FnMut() + 'a>;

/// The times of rounds: of a run of many, less that of a run of half as many.
pub fn times_of_rounds(worst: &[Worst]) -> Vec<f64> {
    let rounds: Vec<usize> = worst.iter().map(rounds_of_sample).collect();
    let runs = worst.iter().zip(&rounds).flat_map(|(worst, rounds)| {
        [*rounds, 2 * rounds].map(|rounds| run_timed(worst.rounds(rounds)))
    });
    let times = least(runs.collect());
    let pairs = times.chunks_exact(2).zip(&rounds);
    pairs
        .map(|(pair, rounds)| (pair[1] - pair[0]) / *rounds as f64)
        .collect()
}

/// So many rounds that they take about as long as a sample.
fn rounds_of_sample(worst: &Worst) -> usize {
    let most = GREATEST_BUDGET / worst.round.attempts / 2;
    let rounds = (SAMPLE / formula(&worst.round)) as usize;
    rounds.clamp(1, most)
}

/// A run over memories of its own.
pub fn run_timed(input: Input) -> Timed<'static> {
    let mut result = vec![u32::MAX; RESULT_WORDS];
    let mut work = vec![u32::MAX; WORK_WORDS];
    Box::new(move || {
        black_box(abi::run(black_box(&input), &mut result, &mut work));
    })
}

/// The least processor time of each call, in nanoseconds.
pub fn least(mut calls: Vec<Timed>) -> Vec<f64> {
    let mut least = vec![f64::INFINITY; calls.len()];
    for _ in 0..PASSES {
        for (call, least) in calls.iter_mut().zip(&mut least) {
            let samples = (0..SAMPLES).map(|_| sample(call));
            *least = samples.fold(*least, f64::min);
        }
    }
    least
}

/// The time of a call that is made while the clock is not far below its best, if
/// that comes soon: a machine that is shared may run at half its clock for seconds.
fn sample(call: &mut Timed) -> f64 {
    let begun = Instant::now();
    loop {
        let before = clock();
        let start = processor_time();
        call();
        let time = processor_time() - start;
        let steady = before.min(clock()) >= 0.8 * best_clock();
        if steady || begun.elapsed() > PATIENCE {
            return time;
        }
    }
}

/// What clock_gettime(2) fills.
#[repr(C)]
#[derive(Default)]
struct Timespec {
    seconds: i64,
    nanoseconds: i64,
}

extern "C" {
    fn clock_gettime(clock: i32, time: *mut Timespec) -> i32;
}

const CLOCK_THREAD_CPUTIME_ID: i32 = 3;

/// The processor time of this thread in nanoseconds: what else the machine runs
/// is not counted.
fn processor_time() -> f64 {
    let mut time = Timespec::default();
    // SAFETY: it writes the struct that it is passed.
    let status = unsafe { clock_gettime(CLOCK_THREAD_CPUTIME_ID, &mut time) };
    assert_eq!(status, 0, "the thread's clock can be read");
    time.seconds as f64 * 1e9 + time.nanoseconds as f64
}

/// The processor's clock in gigahertz, now: a loop of two instructions takes one
/// cycle.
fn clock() -> f64 {
    const TURNS: u64 = 50_000;
    let start = processor_time();
    // SAFETY: it changes only its register and the flags.
    unsafe {
        std::arch::asm!("2:", "dec {0}", "jnz 2b", inout(reg) TURNS => _, options(nomem, nostack));
    }
    TURNS as f64 / (processor_time() - start)
}

/// The middle one of so many readings of the clock.
fn middle_clock(count: usize) -> f64 {
    let mut readings: Vec<f64> = (0..count).map(|_| clock()).collect();
    readings.sort_by(f64::total_cmp);
    readings[count / 2]
}

/// The usual clock, in gigahertz.
pub fn usual_clock() -> f64 {
    middle_clock(20_001)
}

/// The clock at its best so far: the greatest middle reading of many, since some
/// readings are wrong.
fn best_clock() -> f64 {
    static BEST: Mutex<f64> = Mutex::new(0.0);
    let mut best = BEST.lock().expect("no thread has panicked");
    if clock() > *best {
        *best = best.max(middle_clock(21));
    }
    *best
}
