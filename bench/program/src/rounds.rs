//! Interleaved rounds and their medians.

use std::time::Instant;

/// A call that is timed. It is called with the number of the round.
pub type Call<'a> = Box<dyn FnMut(usize) + 'a>;

/// Nanoseconds of one call of each, the median of all rounds. In a round each of them is called `batch` times, one after
/// the other, so that all meet the same processor at nearly the same time. Then `compare` looks at what they made.
pub fn medians(rounds: usize, batch: usize, calls: &mut [Call], mut compare: impl FnMut()) -> Vec<f64> {
    let mut took = vec![Vec::with_capacity(rounds); calls.len()];
    // Round 0 warms up and is not counted.
    for round in 0..=rounds {
        for (call, times) in calls.iter_mut().zip(&mut took) {
            let start = Instant::now();
            for _ in 0..batch {
                call(round);
            }
            let spent = start.elapsed().as_secs_f64() * 1e9 / batch as f64;
            if round > 0 {
                times.push(spent);
            }
        }
        compare();
    }
    took.into_iter().map(median).collect()
}

pub fn median(mut times: Vec<f64>) -> f64 {
    times.sort_by(f64::total_cmp);
    times[times.len() / 2]
}
