//! Time for a call: many calls a round, the sides in turn, and the best round of each.

use std::time::Instant;

/// A round takes at least so many nanoseconds.
const ROUND: f64 = 1e6;
const ROUNDS: usize = 15;

fn round(calls: usize, call: &mut impl FnMut()) -> f64 {
    let start = Instant::now();
    for _ in 0..calls {
        call();
    }
    start.elapsed().as_nanos() as f64
}

/// How many calls make a round.
fn calls(call: &mut impl FnMut()) -> usize {
    let mut calls = 1;
    while round(calls, call) < ROUND {
        calls *= 2;
    }
    calls
}

/// Nanoseconds for a call of each side, where they are below the best so far.
pub fn improve(best: &mut [f64; 2], mut one: impl FnMut(), mut other: impl FnMut()) {
    let counts = [calls(&mut one), calls(&mut other)];
    for _ in 0..ROUNDS {
        best[0] = best[0].min(round(counts[0], &mut one) / counts[0] as f64);
        best[1] = best[1].min(round(counts[1], &mut other) / counts[1] as f64);
    }
}
