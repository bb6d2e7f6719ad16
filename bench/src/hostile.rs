//! Texts of many equal parts, timed at doubling lengths: where time is linear, a row stays at one number.

use crate::times::{self, Times};
use clumarief_compare::repeats;
use std::fmt::Display;
use std::hint::black_box;
use std::time::Duration;

/// A text of many equal parts.
pub struct Hostile {
    pub name: String,
    pub before: String,
    pub part: String,
    pub after: String,
}

impl Hostile {
    pub fn new(name: &str, before: &str, part: &str, after: &str) -> Self {
        let [name, before, part, after] = [name, before, part, after].map(str::to_owned);
        Hostile {
            name,
            before,
            part,
            after,
        }
    }

    /// As many parts as go into the length.
    pub fn text(&self, length: usize) -> String {
        repeats::repeated([&self.before, &self.part, &self.after], length)
    }
}

/// The usual lengths.
pub const KIBIBYTES: [usize; 5] = [64, 128, 256, 512, 1024];

pub fn print_head(head: &str, said: &str) {
    print_head_of(head, said, &KIBIBYTES);
}

/// The same for other lengths, in KiB.
pub fn print_head_of(head: &str, said: &str, lengths: &[usize]) {
    let lengths: String = lengths
        .iter()
        .map(|length| format!("{length:>9}"))
        .collect();
    println!("{head:<26}{said:<9}{lengths}   median  spread");
}

/// Prints a row: what is said of the text, the best time of a byte at each length in nanoseconds, and median and spread
/// at the last. `work` is given each text once, and answers what is timed.
pub fn print_row<A: Display, W: FnMut() -> A>(
    hostile: &Hostile,
    runs: u64,
    work: impl FnMut(Vec<u8>) -> W,
) {
    let text = |length| hostile.text(length).into_bytes();
    print_row_of(&hostile.name, &KIBIBYTES, runs, text, work);
}

/// The same for what `text` gives for each of the lengths.
pub fn print_row_of<A: Display, W: FnMut() -> A>(
    name: &str,
    lengths: &[usize],
    runs: u64,
    text: impl Fn(usize) -> Vec<u8>,
    mut work: impl FnMut(Vec<u8>) -> W,
) {
    let (mut said, mut row, mut last) = (String::new(), String::new(), String::new());
    for length in lengths {
        let text = text(length * 1024);
        let bytes = text.len() as f64;
        let mut work = work(text);
        let mut times = Vec::new();
        for _ in 0..runs.max(1) {
            let (answer, time) = times::time(|| black_box(work()));
            times.push(time);
            said = answer.to_string();
        }
        let times = Times::of(times);
        let of_byte = |time: Duration| time.as_secs_f64() * 1e9 / bytes;
        row += &format!("{:>9.3}", of_byte(times.best()));
        last = format!("{:>9.3}{:>7.1}%", of_byte(times.median()), times.spread());
    }
    println!("{name:<26}{said:<9}{row}{last}");
}
