//! Low percentiles over rounds in which all passes take turns.
//!
//! A pass is a single call, so other work on the machine lengthens many samples. The fast ones are
//! those that it left alone, and every pass has some, since the rounds are spread over the whole
//! time.

use std::time::{Duration, Instant};

/// Passes are timed until this much time has passed and so many rounds were made.
const TIME: Duration = Duration::from_secs(12);
const LEAST_ROUNDS: usize = 200;
const MOST_ROUNDS: usize = 4000;

/// The samples of a pass, and of a part of it.
#[derive(Clone, Default)]
struct Samples {
    whole: Vec<Duration>,
    part: Vec<Duration>,
}

/// For each of so many passes the 5th percentile of its times, less that of the times of a part.
/// `pass(k)` makes pass `k` and returns its time and that of the part, which may be zero.
pub fn low_times(
    passes: usize,
    mut pass: impl FnMut(usize) -> (Duration, Duration),
) -> Vec<Duration> {
    let mut samples = vec![Samples::default(); passes];
    let start = Instant::now();
    for round in 0..MOST_ROUNDS {
        if round >= LEAST_ROUNDS && start.elapsed() >= TIME {
            break;
        }
        for (k, samples) in samples.iter_mut().enumerate() {
            let (whole, part) = pass(k);
            samples.whole.push(whole);
            samples.part.push(part);
        }
    }
    let time = |samples: Samples| low(samples.whole).saturating_sub(low(samples.part));
    samples.into_iter().map(time).collect()
}

fn low(mut samples: Vec<Duration>) -> Duration {
    samples.sort_unstable();
    samples[samples.len() / 20]
}

#[cfg(test)]
mod tests {
    use super::{low, low_times};
    use std::time::Duration;

    #[test]
    fn the_5th_percentile_has_a_twentieth_below_it() {
        let samples = (0..200).rev().map(Duration::from_nanos);
        assert_eq!(low(samples.collect()), Duration::from_nanos(10));
    }

    #[test]
    fn a_part_is_taken_off() {
        let nanoseconds = Duration::from_nanos;
        let times = low_times(3, |k| (nanoseconds(7), nanoseconds(5 * k as u64)));
        assert_eq!(times, [7, 2, 0].map(nanoseconds));
    }
}
