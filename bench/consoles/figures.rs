//! Figures of measures.
use std::io::Result;
use std::time::{Duration, Instant};

/// How often a measure is made of which the median is told: on a machine that others share single runs swing.
pub const RUNS: usize = 5;

/// A time in microseconds.
pub fn micros(time: Duration) -> f64 {
    time.as_secs_f64() * 1e6
}

/// The one in the middle of these, of which there is one at least.
pub fn median<T: PartialOrd>(mut values: Vec<T>) -> T {
    values.sort_by(|one, other| one.partial_cmp(other).expect("values that compare"));
    values.swap_remove(values.len() / 2)
}

/// How many calls are made before those that are measured, so that threads and memory are warm.
pub fn warm_up_of(calls: u32) -> u32 {
    calls / 10
}

/// How many calls a measure of so many makes in all.
pub fn made_by(calls: u32) -> u32 {
    warm_up_of(calls) + calls
}

/// The time of one of so many calls.
pub fn of_each(calls: u32, mut call: impl FnMut() -> Result<()>) -> Result<Duration> {
    for _ in 0..warm_up_of(calls) {
        call()?;
    }
    let start = Instant::now();
    for _ in 0..calls {
        call()?;
    }
    Ok(start.elapsed() / calls)
}
