//! Measuring several sides by turns.

use std::time::{Duration, Instant};

const REPETITIONS: usize = 30;

/// One repetition lasts about so long: far longer than a look at the clock.
pub const SPAN: Duration = Duration::from_millis(1);

/// Nanoseconds for a call of each side, the best of all repetitions. The sides take turns, so that all meet the same
/// machine.
pub fn best<const SIDES: usize>(mut sides: [&mut dyn FnMut(); SIDES]) -> [f64; SIDES] {
    let calls = sides.each_mut().map(|side| calls_in_span(side));
    let mut best = [f64::INFINITY; SIDES];
    for _ in 0..REPETITIONS {
        for (side, call) in sides.iter_mut().enumerate() {
            best[side] = best[side].min(nanoseconds(call, calls[side]));
        }
    }
    best
}

/// Nanoseconds for a call, on the average of some calls.
fn nanoseconds(call: &mut impl FnMut(), calls: u32) -> f64 {
    let start = Instant::now();
    for _ in 0..calls {
        call();
    }
    start.elapsed().as_nanos() as f64 / f64::from(calls)
}

fn calls_in_span(call: &mut impl FnMut()) -> u32 {
    let mut calls = 1;
    while nanoseconds(call, calls) * f64::from(calls) < SPAN.as_nanos() as f64 {
        calls *= 2;
    }
    calls
}
