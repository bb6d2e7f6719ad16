//! The ranges before and after a method. std reads their numbers; the rest is said here once more, with `str` alone.

use crate::case::Text;
use crate::every;
use crate::proved;
use crate::random::Random;
use crate::report::{Comparison, Held, Report, Settings, Subject};
use std::str;

const LEADING: Subject<Text, [u64; 4]> = Subject {
    name: "leading",
    proved: |text| proved::leading(&text.0),
    judge: |text| str::from_utf8(&text.0).ok().map(judge_leading),
    outcome: |answer| match answer {
        [1, ..] => "taken",
        _ => "not taken",
    },
};

const TRAILING: Subject<Text, [u64; 4]> = Subject {
    name: "trailing",
    proved: |text| proved::trailing(&text.0),
    judge: |text| str::from_utf8(&text.0).ok().map(judge_trailing),
    outcome: |answer| match answer {
        [0, ..] => "not taken",
        [.., 1] => "second part does not read",
        _ => "taken",
    },
};

fn number(text: &str) -> Option<u64> {
    text.parse::<u32>().ok().map(u64::from)
}

/// "If the text before the first colon and that between the first and second both read as numbers".
fn judge_leading(text: &str) -> [u64; 4] {
    let parts: Vec<&str> = text.splitn(3, ':').collect();
    let [first, second, rest] = parts[..] else {
        return [0; 4];
    };
    match (number(first), number(second)) {
        (Some(start), Some(end)) => [1, start, end, (text.len() - rest.len()) as u64],
        _ => [0; 4],
    }
}

/// "A colon, a number, and optionally a colon and a number"; "a second part that is missing or does not read equals the
/// first".
pub fn judge_trailing(text: &str) -> [u64; 4] {
    let mut parts = text.split(':');
    let (Some(""), Some(first)) = (parts.next(), parts.next()) else {
        return [0; 4];
    };
    let Some(start) = number(first) else {
        return [0; 4];
    };
    match parts.next().map(number) {
        None => [1, start, start, 0],
        Some(None) => [1, start, start, 1],
        Some(Some(end)) => [1, start, end, 0],
    }
}

const PARTS: [&str; 20] = [
    "",
    "0",
    "1",
    "7",
    "+7",
    "10",
    "0012",
    "500",
    "4294967295",
    "4294967296",
    "+",
    "-1",
    "x",
    " 3",
    "3 ",
    "void run",
    "é",
    "\u{661}",
    "\u{A0}",
    "99999999999999999999",
];

/// Parts with colons between them, the first perhaps after a colon.
fn random_range(random: &mut Random) -> Text {
    let mut text = String::from(*random.pick(&["", ":", ":", "::"]));
    for turn in 0..random.below(5) {
        if turn > 0 {
            text.push(':');
        }
        text += *random.pick(&PARTS);
    }
    if random.once_in(8) {
        text += &"0".repeat(random.below(300));
    }
    Text(text.into_bytes())
}

pub fn run(settings: &Settings, report: &mut Report) -> Held {
    let (mut leading, mut trailing) = (Comparison::new(LEADING), Comparison::new(TRAILING));
    let mut hold = |text: &Text| {
        leading.hold(text)?;
        trailing.hold(text)
    };
    every::text_of("+01:x", settings.letters(9), &mut hold)?;
    let mut random = settings.random("ranges");
    for _ in settings.turns(1_000_000) {
        hold(&random_range(&mut random))?;
    }
    report.add(leading);
    report.add(trailing);
    Ok(())
}
