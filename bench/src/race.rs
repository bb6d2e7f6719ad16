//! Two functions timed over the same text.

use crate::times::{self, Times};
use std::hint::black_box;
use std::time::Duration;

/// What two functions disagree on.
pub struct Unequal(pub &'static str);

type Work = fn(&str) -> u64;

pub struct Race<'a> {
    pub text: &'a str,
    pub name: &'static str,
    pub runs: u64,
}

fn time<A>(work: &mut impl FnMut(&str) -> A, text: &str) -> (A, Duration) {
    times::time(|| work(black_box(text)))
}

/// The ratio is that of the best runs.
pub fn print_head(other: &str) {
    let columns = "    best  median  spread";
    println!("{:<31}{:>24}{other:>24}", "megabytes a second", "proved");
    println!(
        "{:<14}{:<17}{columns}{columns}{:>8}",
        "text", "work", "ratio"
    );
}

/// Above 1 where the proved one is the faster.
pub fn ratio(proved: &Times, other: &Times) -> f64 {
    other.best().as_secs_f64() / proved.best().as_secs_f64()
}

impl Race<'_> {
    /// Prints the speeds of both, which have to answer the same.
    pub fn run(&self, work: &'static str, proved: Work, std: Work) -> Result<(), Unequal> {
        let timed = self.timed(proved, std, |proved, std| proved == std);
        let [proved, other] = timed.ok_or(Unequal(work))?;
        let ratio = ratio(&proved, &other);
        let (proved, other) = (self.speeds(&proved), self.speeds(&other));
        println!("{:<14}{work:<17}{proved}{other}{ratio:>8.3}", self.name);
        Ok(())
    }

    /// The times of both, or none where `same` says that two answers do not agree. They run by turns, so that a machine that
    /// slows down is slow for both, and the best of many runs is the one least disturbed.
    pub fn timed<P, O>(
        &self,
        mut proved: impl FnMut(&str) -> P,
        mut other: impl FnMut(&str) -> O,
        same: impl Fn(&P, &O) -> bool,
    ) -> Option<[Times; 2]> {
        let (mut proved_times, mut other_times) = (Vec::new(), Vec::new());
        for _ in 0..self.runs.max(1) {
            let (proved_answer, proved_time) = time(&mut proved, self.text);
            let (other_answer, other_time) = time(&mut other, self.text);
            if !same(&proved_answer, &other_answer) {
                return None;
            }
            proved_times.push(proved_time);
            other_times.push(other_time);
        }
        Some([proved_times, other_times].map(Times::of))
    }

    /// The times of one, where the other is not at hand.
    pub fn timed_alone<P>(&self, mut proved: impl FnMut(&str) -> P) -> Times {
        let times = (0..self.runs.max(1)).map(|_| time(&mut proved, self.text).1);
        Times::of(times.collect())
    }

    /// Best, median and spread, in megabytes a second.
    pub fn speeds(&self, times: &Times) -> String {
        let speed = |time: Duration| {
            let speed = self.text.len() as f64 / time.as_secs_f64() / 1e6;
            let places = if speed < 10.0 { 2 } else { 0 };
            format!("{speed:>8.places$}")
        };
        let (best, median) = (speed(times.best()), speed(times.median()));
        format!("{best}{median}{:>7.1}%", times.spread())
    }
}
