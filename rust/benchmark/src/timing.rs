//! Medians over rounds in which the implementations take turns.

use crate::inputs::Input;
use std::time::{Duration, Instant};

/// An input is timed until this much time has passed and so many rounds were made.
const TIME: Duration = Duration::from_secs(6);
const LEAST_ROUNDS: usize = 15;
const MOST_ROUNDS: usize = 501;

/// A sample repeats the input for at least this long.
const SAMPLE: Duration = Duration::from_millis(1);

/// The median time of one pass over the input for each implementation.
pub fn medians<I: Input, const N: usize>(input: &I, calls: [I::Call; N]) -> [Duration; N] {
    let repetitions = calls.map(|call| repetitions(input, call));
    let mut samples = [const { Vec::new() }; N];
    let start = Instant::now();
    for round in 0..MOST_ROUNDS {
        if round >= LEAST_ROUNDS && start.elapsed() >= TIME {
            break;
        }
        for (k, &call) in calls.iter().enumerate() {
            let time = sample(input, call, repetitions[k]);
            samples[k].push(time / repetitions[k]);
        }
    }
    samples.map(median)
}

/// How many passes over the input make a sample.
fn repetitions<I: Input>(input: &I, call: I::Call) -> u32 {
    let mut repetitions = 1;
    while sample(input, call, repetitions) < SAMPLE {
        repetitions *= 2;
    }
    repetitions
}

/// The time of so many passes over the input.
fn sample<I: Input>(input: &I, call: I::Call, repetitions: u32) -> Duration {
    let start = Instant::now();
    for _ in 0..repetitions {
        input.pass(call);
    }
    start.elapsed()
}

fn median(mut samples: Vec<Duration>) -> Duration {
    samples.sort_unstable();
    samples[samples.len() / 2]
}

#[cfg(test)]
mod tests {
    use super::median;
    use std::time::Duration;

    #[test]
    fn the_median_is_in_the_middle() {
        let samples = [9, 1, 5, 7, 3].map(Duration::from_nanos);
        assert_eq!(median(samples.to_vec()), Duration::from_nanos(5));
    }
}
