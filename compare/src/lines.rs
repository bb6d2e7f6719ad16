//! The line at a place and the walk over all lines, judged by `str::lines` without the CR at the ends.

use crate::case::{Place, Text};
use crate::every;
use crate::proved;
use crate::random::Random;
use crate::report::{Comparison, Held, Report, Settings, Subject};
use crate::synthetic::{self, Form};
use crate::texts;
use std::str;

/// 1, start, end and the start of the following line; or zeros for no line.
type Line = [u64; 4];

const LINE: Subject<Place, Line> = Subject {
    name: "line",
    proved: |place| proved::line(&place.text, place.at),
    judge: |place| {
        let text = str::from_utf8(&place.text).ok()?;
        judge_line(text, place.at)
    },
    outcome: |answer| match answer {
        [0, ..] => "no line",
        [_, start, end, _] if start == end => "empty",
        _ => "with text",
    },
};

const LINES: Subject<Text, Vec<Line>> = Subject {
    name: "lines",
    proved: |text| walk(&text.0),
    judge: |text| {
        let text = str::from_utf8(&text.0).ok()?;
        Some(judge_lines(text).chain([[0; 4]]).collect())
    },
    outcome: |answer| match answer.len() {
        0 | 1 => "no line",
        2 => "one line",
        _ => "more lines",
    },
};

/// The proved lines from the start on, and the answer that ends the walk.
fn walk(text: &[u8]) -> Vec<Line> {
    let mut found = vec![proved::line(text, 0)];
    // a text has no more lines than bytes, so a longer walk is wrong and would perhaps not end
    while let Some([1, _, _, next]) = found.last().filter(|_| found.len() <= text.len()) {
        found.push(proved::line(text, *next as usize));
    }
    found
}

fn judge_lines(text: &str) -> impl Iterator<Item = Line> + '_ {
    let start = |line: &str| line.as_ptr() as u64 - text.as_ptr() as u64;
    let nexts = text.lines().skip(1).map(start);
    let nexts = nexts.chain([text.len() as u64]);
    text.lines().zip(nexts).map(move |(line, next)| {
        let kept = line.trim_end_matches('\r');
        [1, start(line), start(line) + kept.len() as u64, next]
    })
}

fn judge_line(text: &str, at: usize) -> Option<Line> {
    if at >= text.len() {
        return Some([0; 4]);
    }
    let [_, _, end, next] = judge_lines(text.get(at..)?).next()?;
    let at = at as u64;
    Some([1, at, at + end, at + next])
}

/// Holds the line at every place of the text and a little beyond its end.
fn hold_places(line: &mut Comparison<Place, Line>, text: &[u8]) -> Held {
    let text = text.to_vec();
    let mut place = Place { text, at: 0 };
    for at in 0..place.text.len() + 2 {
        place.at = at;
        line.hold(&place)?;
    }
    place.at = usize::MAX;
    line.hold(&place)
}

/// Lines of a mapping file and of many scripts, with more CR and LF than they had.
fn broken_lines(random: &mut Random) -> String {
    let length = random.below(300);
    let text = if random.once_in(2) {
        let form = *random.pick(&Form::ALL);
        synthetic::mapping(random, form, length)
    } else {
        texts::words(random, length)
    };
    let often = 2 + random.below(60);
    let mut broken = String::new();
    for letter in text.chars() {
        if random.once_in(often) {
            broken += *random.pick(&["\n", "\r", "\r\n", "\r\r\n", "\n\n", "\n\r", "\r\r"]);
        }
        broken.push(letter);
    }
    broken
}

pub fn run(settings: &Settings, report: &mut Report) -> Held {
    let (mut line, mut lines) = (Comparison::new(LINE), Comparison::new(LINES));
    every::text_of("a\r\né", settings.letters(9), &mut |text| {
        lines.hold(text)?;
        hold_places(&mut line, &text.0)
    })?;
    let mut random = settings.random("lines");
    for _ in settings.turns(20_000) {
        let mut text = Text(broken_lines(&mut random).into_bytes());
        text.0.truncate(random.below(400));
        lines.hold(&text)?;
        hold_places(&mut line, &text.0)?;
    }
    report.add(line);
    report.add(lines);
    Ok(())
}
