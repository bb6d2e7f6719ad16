//! Mappings whose names share one mark of an index, which goes by the length, the first four bytes and the last twelve.

use crate::random::Random;

/// One of eight names that differ between their first four letters and their last twelve.
fn name(random: &mut Random) -> String {
    let between: String = (0..3).map(|_| *random.pick(&["a", "b"])).collect();
    format!("Same{between}TwelveLetter")
}

/// Ranges that mostly hold the lines from 1 to 9.
const RANGES: [(&str, &str); 5] = [
    ("", ""),
    ("1:9:", ":10:18"),
    ("1:4:", ":30:31"),
    ("5:9:", ""),
    ("3:3:", ":7"),
];

fn member(random: &mut Random) -> String {
    let (shown, raw, declared) = (name(random), name(random), name(random));
    if random.once_in(3) {
        return format!("    {declared} {shown} -> {raw}\n");
    }
    let (before, after) = *random.pick(&RANGES);
    let owner = if random.once_in(4) {
        name(random) + "."
    } else {
        String::new()
    };
    let argument = if random.once_in(2) {
        name(random)
    } else {
        String::new()
    };
    format!("    {before}{declared} {owner}{shown}({argument}){after} -> {raw}\n")
}

/// Up to 14 classes, so that some are asked one by one and some by an index; up to six members each.
pub fn alike(random: &mut Random) -> String {
    let mut text = String::new();
    for _ in 0..1 + random.below(14) {
        text += &format!("{} -> {}:\n", name(random), name(random));
        for _ in 0..random.below(7) {
            text += &member(random);
        }
    }
    text
}
