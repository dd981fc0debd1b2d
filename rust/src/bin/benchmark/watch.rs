//! Processor time, measured in batches.

use std::fs;
use std::time::{Duration, Instant};

/// So many batches of each, unless a call is slow.
pub const ROUNDS: usize = 7;

/// A call of more milliseconds than these is slow: there is one batch of it.
const SLOW: f64 = 1_000.0;

/// The best mean of some batches, in milliseconds, or none yet.
#[derive(Default)]
pub struct Watch(pub Option<f64>);

impl Watch {
    /// One more batch, unless a call is slow.
    pub fn batch(&mut self, what: &str, call: impl FnMut()) {
        if self.0.is_none_or(|best| best <= SLOW) {
            eprintln!("{what} ...");
            let time = batch(call);
            self.0 = Some(self.0.map_or(time, |best| best.min(time)));
        }
    }
}

/// A number with three digits or more, or a dash.
pub fn shown(number: Option<f64>) -> String {
    match number {
        None => "-".to_string(),
        Some(number) if number < 1.0 => format!("{number:.3}"),
        Some(number) if number < 10.0 => format!("{number:.2}"),
        Some(number) if number < 100.0 => format!("{number:.1}"),
        Some(number) => format!("{number:.0}"),
    }
}

/// The processor time that this thread has had, or else the time of day. What the system tells is a few
/// milliseconds behind at times, so that short work is measured in batches.
fn clock(start: Instant) -> Duration {
    let told = fs::read_to_string("/proc/thread-self/schedstat").ok();
    let nanoseconds = told.and_then(|t| t.split(' ').next()?.parse().ok());
    nanoseconds.map_or_else(|| start.elapsed(), Duration::from_nanos)
}

/// The milliseconds of one call in a batch of at least half a second.
fn batch(mut call: impl FnMut()) -> f64 {
    let start = Instant::now();
    let before = clock(start);
    let mut calls = 0.0;
    let mut time = 0.0;
    while time < 500.0 {
        call();
        calls += 1.0;
        time = (clock(start) - before).as_secs_f64() * 1e3;
    }
    time / calls
}
