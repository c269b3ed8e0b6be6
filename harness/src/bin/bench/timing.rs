//! Times of two programs on the same input, taken in turns in one run.

use std::hint::black_box;
use std::time::{Duration, Instant};

const ROUNDS: usize = 1_001;
const WARM_UP: Duration = Duration::from_millis(200);
/// A sample lasts at least this long, so that the clock's own cost does not count.
const SAMPLE: Duration = Duration::from_micros(40);

/// Nanoseconds a call: the median, and the 10th and 90th percentile.
#[derive(Clone, Copy)]
pub struct Times {
    pub tenth: f64,
    pub median: f64,
    pub ninetieth: f64,
}

/// A call that can be timed: an input and a lent buffer.
pub trait Timed: Copy {
    type Room: AsMut<[u8]>;

    fn room() -> Self::Room;

    /// Number, place and length.
    fn call(self, input: &[u8], lent: &mut [u8]) -> (u64, u64, u64);
}

/// The times of each of a pair.
pub fn measure<P: Timed>(pair: [P; 2], input: &[u8]) -> [Times; 2] {
    let calls = pair.map(|program| calls_in_a_sample(program, input));
    let mut samples = [Vec::new(), Vec::new()];
    for round in 0..ROUNDS {
        // Who is first changes each round: neither always finds the other's traces in the caches.
        for turn in 0..2 {
            let which = (round + turn) % 2;
            samples[which].push(sample(pair[which], input, calls[which]));
        }
    }
    samples.map(times)
}

/// Warms up, and answers how many calls last as long as a sample must.
fn calls_in_a_sample<P: Timed>(program: P, input: &[u8]) -> u32 {
    let start = Instant::now();
    let mut calls = 0;
    while start.elapsed() < WARM_UP {
        sample(program, input, 1);
        calls += 1;
    }
    let call = start.elapsed() / calls;
    1 + (SAMPLE.as_nanos() / call.as_nanos().max(1)) as u32
}

/// Nanoseconds a call, over so many calls.
fn sample<P: Timed>(program: P, input: &[u8], calls: u32) -> f64 {
    let mut room = P::room();
    let lent = room.as_mut();
    let start = Instant::now();
    for _ in 0..calls {
        black_box(program.call(black_box(input), black_box(&mut *lent)));
    }
    start.elapsed().as_nanos() as f64 / f64::from(calls)
}

fn times(mut samples: Vec<f64>) -> Times {
    samples.sort_by(f64::total_cmp);
    let at = |percent: usize| samples[(samples.len() - 1) * percent / 100];
    Times {
        tenth: at(10),
        median: at(50),
        ninetieth: at(90),
    }
}
