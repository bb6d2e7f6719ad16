//! Reading a number, judged by `u32::from_str`.

use crate::case::Text;
use crate::every;
use crate::proved;
use crate::random::Random;
use crate::report::{Comparison, Held, Report, Settings, Subject};
use std::str;

const NUMBER: Subject<Text, [u64; 2]> = Subject {
    name: "number",
    proved: |text| proved::number(&text.0),
    judge: |text| Some(judge_number(&text.0)),
    outcome: |answer| match answer {
        [0, _] => "does not read",
        _ => "reads",
    },
};

/// No text that is not UTF-8 reads as a number.
fn judge_number(text: &[u8]) -> [u64; 2] {
    let text = str::from_utf8(text).ok();
    match text.and_then(|text| text.parse::<u32>().ok()) {
        Some(number) => [1, u64::from(number)],
        None => [0, 0],
    }
}

const DIGITS: &[u8] = b"0123456789";

/// The last number that reads, the first that does not, those where ten times a number passes the end, and numbers
/// that are small again in 32 or 64 bits.
const EDGES: [&str; 16] = [
    "0",
    "9",
    "4294967294",
    "4294967295",
    "4294967296",
    "4294967297",
    "4294967299",
    "4294967300",
    "429496729",
    "429496730",
    "42949672950",
    "42949672960",
    "8589934592",
    "9999999999",
    "18446744073709551615",
    "18446744073709551616",
];

/// Texts that are no numbers though a careless reader may take them for one; the last two are digits of other scripts.
const ODD: [&str; 16] = [
    "", "+", "-", "++1", "+-1", "-+1", "--1", "-0", "-1", "+ 1", " 1", "1 ", "1+", "0x1",
    "\u{661}", "\u{FF11}",
];

/// A number near an edge, with or without a sign, and with zeros before it.
fn near_edge(random: &mut Random) -> String {
    let zeros = match random.below(4) {
        0 => random.below(1001),
        1 => random.below(12),
        _ => 0,
    };
    let sign = *random.pick(&["", "", "+", "-"]);
    let edge = *random.pick(&EDGES);
    let mut digits = "0".repeat(zeros) + edge;
    if random.once_in(3) {
        digits.pop();
        digits.push(char::from(*random.pick(DIGITS)));
    }
    format!("{sign}{digits}")
}

fn random_digits(random: &mut Random) -> String {
    let count = 1 + random.below(13);
    (0..count)
        .map(|_| char::from(*random.pick(DIGITS)))
        .collect()
}

/// A text near a number, one byte of which may be any.
fn random_text(random: &mut Random) -> Text {
    let text = if random.once_in(2) {
        near_edge(random)
    } else {
        random_digits(random)
    };
    let mut text = text.into_bytes();
    if random.once_in(4) {
        let at = random.below(text.len());
        text[at] = random.byte();
    }
    Text(text)
}

fn long_texts(settings: &Settings, number: &mut Comparison<Text, [u64; 2]>) -> Held {
    let long = if settings.quick { 1_000 } else { 1_000_000 };
    for digit in ["0", "1", "9"] {
        number.hold(&Text(digit.repeat(long).into_bytes()))?;
    }
    for edge in EDGES {
        number.hold(&Text(("0".repeat(long) + edge).into_bytes()))?;
        number.hold(&Text(
            ("+".to_owned() + &"0".repeat(long) + edge).into_bytes(),
        ))?;
    }
    Ok(())
}

pub fn run(settings: &Settings, report: &mut Report) -> Held {
    let mut number = Comparison::new(NUMBER);
    every::text_of("+-0123 49x:", settings.letters(6), &mut |text| {
        number.hold(text)
    })?;
    for text in EDGES.into_iter().chain(ODD) {
        number.hold(&Text(text.into()))?;
    }
    long_texts(settings, &mut number)?;
    let mut random = settings.random("numbers");
    for _ in settings.turns(1_000_000) {
        number.hold(&random_text(&mut random))?;
    }
    report.add(number);
    Ok(())
}
