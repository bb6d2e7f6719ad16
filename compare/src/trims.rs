//! White space at the ends of a text and in it, judged by the methods of `str`.

use crate::case::Text;
use crate::every;
use crate::proved;
use crate::random::Random;
use crate::report::{Comparison, Held, Report, Settings, Subject};
use crate::texts::{self, SCRIPTS};
use crate::white::whites;
use std::str;

const TRIM: Subject<Text, [u64; 8]> = Subject {
    name: "trim",
    proved: |text| proved::trim(&text.0),
    judge: |text| str::from_utf8(&text.0).ok().map(judge_trim),
    outcome: |answer| match answer {
        [_, _, start, end, _, _, 0, _] if start != end => "no white space",
        [0, _, start, end, ..] if start != end => "start kept",
        [_, _, start, end, ..] if start != end => "start trimmed",
        _ => "nothing left",
    },
};

/// A place plus 1, or 0.
pub fn place_or_0(place: Option<usize>) -> u64 {
    place.map_or(0, |place| place as u64 + 1)
}

/// The eight places of `proved::trim`, by the methods of `str`.
pub fn judge_trim(text: &str) -> [u64; 8] {
    let (length, inner) = (text.len(), text.trim());
    let start = length - text.trim_start().len();
    let end = text.trim_end().len();
    // what is left of white space alone is an empty part, which is said to stand at the end
    let inner_start = match inner {
        "" => length,
        _ => inner.as_ptr() as usize - text.as_ptr() as usize,
    };
    [
        start as u64,
        end as u64,
        inner_start as u64,
        (inner_start + inner.len()) as u64,
        (length - text.trim_start_matches('\u{FEFF}').len()) as u64,
        u64::from(text.starts_with(char::is_whitespace)),
        place_or_0(text.find(char::is_whitespace)),
        place_or_0(text.rfind(char::is_whitespace)),
    ]
}

/// White space of each length in bytes, what lies next to it, and what is often taken for it.
const LETTERS: &str = "a \r\u{84}\u{85}\u{A0}\u{1680}\u{2003}\u{200B}\u{3000}\u{FEFF}\u{1F600}";

/// Not white space, and next to it by number, by bytes, or by name.
const NEAR: &str = "\u{8}\u{E}\u{1C}\u{1F}!\u{84}\u{86}\u{9F}\u{A1}\u{167F}\u{1681}\u{180E}\u{1FFF}\
    \u{200B}\u{200C}\u{2027}\u{202A}\u{202E}\u{2030}\u{205E}\u{2060}\u{2FFF}\u{3001}\u{FEFF}\
    \u{85}\u{10020}\u{E0020}";

/// Marks, then white space and near misses at both ends of a few words, some with white space between them.
fn padded(random: &mut Random, pads: &[char]) -> String {
    let pad = |random: &mut Random| -> String {
        let count = random.below(6);
        (0..count).map(|_| *random.pick(pads)).collect()
    };
    let mut text = "\u{FEFF}".repeat(random.below(8).saturating_sub(4));
    for _ in 0..random.below(4) {
        text += &pad(random);
        for _ in 0..random.below(5) {
            let script = random.pick(&SCRIPTS);
            text.push(texts::letter_of(random, script));
        }
    }
    text + &pad(random)
}

pub fn run(settings: &Settings, report: &mut Report) -> Held {
    let mut trim = Comparison::new(TRIM);
    every::text_of(LETTERS, settings.letters(6), &mut |text| trim.hold(text))?;
    let mut random = settings.random("trims");
    let whites = whites();
    let mixed: Vec<char> = whites.iter().copied().chain(NEAR.chars()).collect();
    for turn in settings.turns(800_000) {
        let pads = if turn % 2 == 0 { &whites } else { &mixed };
        trim.hold(&Text(padded(&mut random, pads).into_bytes()))?;
    }
    report.add(trim);
    Ok(())
}
