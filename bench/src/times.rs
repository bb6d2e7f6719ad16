//! The times of many runs, and what is said of them.

use std::hint::black_box;
use std::time::{Duration, Instant};

/// The times, the shortest first; at least one.
pub struct Times(Vec<Duration>);

impl Times {
    pub fn of(mut times: Vec<Duration>) -> Self {
        assert!(!times.is_empty(), "no run was timed");
        times.sort_unstable();
        Times(times)
    }

    /// The run that was least disturbed.
    pub fn best(&self) -> Duration {
        self.0[0]
    }

    /// The time that half of the runs took no longer than.
    pub fn median(&self) -> Duration {
        self.quarter(2)
    }

    /// How far the middle half of the runs lies apart, in percent of the median.
    pub fn spread(&self) -> f64 {
        let width = self.quarter(3) - self.quarter(1);
        100.0 * width.as_secs_f64() / self.median().as_secs_f64().max(f64::MIN_POSITIVE)
    }

    fn quarter(&self, quarters: usize) -> Duration {
        self.0[(self.0.len() - 1) * quarters / 4]
    }
}

/// What the work answers, which is let go only after the clock has stopped, and how long it took.
pub fn time<A>(work: impl FnOnce() -> A) -> (A, Duration) {
    let start = Instant::now();
    let answer = black_box(work());
    (answer, start.elapsed())
}

#[cfg(test)]
mod tests {
    use super::{Duration, Times};

    fn of(times: &[u64]) -> Times {
        Times::of(
            times
                .iter()
                .map(|time| Duration::from_nanos(*time))
                .collect(),
        )
    }

    #[test]
    fn one_run_is_best_and_median() {
        let times = of(&[7]);
        assert_eq!(times.best(), Duration::from_nanos(7));
        assert_eq!(times.median(), Duration::from_nanos(7));
        assert_eq!(times.spread(), 0.0);
    }

    #[test]
    fn order_does_not_matter() {
        let times = of(&[900, 30, 10, 20, 40]);
        assert_eq!(times.best(), Duration::from_nanos(10));
        assert_eq!(times.median(), Duration::from_nanos(30));
    }

    #[test]
    fn spread_leaves_out_what_is_far() {
        // the middle half is 20 to 40, and the median 30
        let spread = of(&[900, 30, 10, 20, 40]).spread();
        assert!((spread - 100.0 * 20.0 / 30.0).abs() < 1e-9, "{spread}");
    }

    #[test]
    fn runs_of_no_time_have_no_spread() {
        assert_eq!(of(&[0, 0, 0, 0, 0]).spread(), 0.0);
    }
}
