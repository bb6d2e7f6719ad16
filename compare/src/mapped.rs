//! What a line is and what its parts are, judged by the original's own functions.

use crate::case::{Place, Text};
use crate::every;
use crate::original::doors;
use crate::part_texts;
use crate::parts::{self, Line, Reading};
use crate::proved;
use crate::random::Random;
use crate::reading::Sound;
use crate::report::{Comparison, Held, Report, Settings, Subject};
use crate::synthetic::{self, Form};
use crate::texts;
use std::str;

const PARTS: Subject<Text, Reading> = Subject {
    name: "line parts",
    proved: |text| match str::from_utf8(&text.0) {
        Ok(line) => parts::proved_line(line),
        Err(_) => Err("not UTF-8"),
    },
    judge: |text| str::from_utf8(&text.0).ok().map(parts::judge_line),
    outcome: |answer| match answer {
        Ok(Line::Blank) => "blank",
        Ok(Line::Comment(Some(_))) => "comment with brace",
        Ok(Line::Comment(None)) => "comment",
        Ok(Line::Class { .. }) => "class",
        Ok(Line::Field { .. }) => "field",
        Ok(Line::Method { short: true, .. }) => "method, second part unread",
        Ok(Line::Method { owner: Some(_), .. }) => "method with owner",
        Ok(Line::Method {
            raw_range: Some(_), ..
        }) => "method with range",
        Ok(Line::Method { .. }) => "method",
        Ok(Line::Refused(3)) => "refused 3",
        Ok(Line::Refused(5)) => "refused 5",
        Ok(Line::Refused(6)) => "refused 6",
        Ok(Line::Refused(_)) => "refused 7",
        Err(_) => "wrong",
    },
};

const ARGUMENTS: Subject<Place, Sound<Vec<String>>> = Subject {
    name: "arguments",
    proved: |place| match str::from_utf8(&place.text) {
        Ok(text) => parts::proved_arguments(text, place.at),
        Err(_) => Err("not UTF-8"),
    },
    judge: |place| parts::judge_arguments(str::from_utf8(&place.text).ok()?, place.at),
    outcome: |answer| match answer.as_deref() {
        Ok([]) => "none",
        Ok([_]) => "one",
        Ok(_) => "more",
        Err(_) => "wrong",
    },
};

/// 1, start, end and the place of the rest; or zeros.
const LEADING: Subject<Text, [u64; 4]> = Subject {
    name: "raw range",
    proved: |text| proved::leading(&text.0),
    judge: |text| {
        let text = str::from_utf8(&text.0).ok()?;
        Some(match doors::leading_range(text) {
            (Some((start, end)), rest) => {
                let rest = text.len() - rest.len();
                [1, start.into(), end.into(), rest as u64]
            }
            (None, _) => [0; 4],
        })
    },
    outcome: |answer| if answer[0] == 1 { "taken" } else { "not taken" },
};

/// 1, start and end; or zeros.
const TRAILING: Subject<Text, [u64; 3]> = Subject {
    name: "show range",
    proved: |text| {
        let [taken, start, end, _] = proved::trailing(&text.0);
        [taken, start, end]
    },
    judge: |text| {
        let text = str::from_utf8(&text.0).ok()?;
        let range = doors::trailing_range(text);
        Some(range.map_or([0; 3], |(start, end)| [1, start.into(), end.into()]))
    },
    outcome: |answer| if answer[0] == 1 { "taken" } else { "not taken" },
};

/// Bytes that are not UTF-8, of which the original says nothing: the proved functions end, and their parts lie in
/// the line.
const BYTES: Subject<Text, bool> = Subject {
    name: "line bytes",
    proved: |text| parts::lies(&text.0) && walk_ends(&text.0),
    judge: |text| str::from_utf8(&text.0).is_err().then_some(true),
    outcome: |_| "ended",
};

fn walk_ends(text: &[u8]) -> bool {
    let mut at = 0;
    for _ in 0..text.len() + 2 {
        match proved::argument(text, at) {
            [1, _, _, next] => at = next as usize,
            _ => return true,
        }
    }
    false
}

struct Lines {
    parts: Comparison<Text, Reading>,
    arguments: Comparison<Place, Sound<Vec<String>>>,
    leading: Comparison<Text, [u64; 4]>,
    trailing: Comparison<Text, [u64; 3]>,
    bytes: Comparison<Text, bool>,
}

impl Lines {
    fn line(&mut self, line: String) -> Held {
        self.parts.hold(&Text(line.into_bytes()))
    }

    fn place(&mut self, text: &str, at: usize) -> Held {
        let text = text.as_bytes().to_vec();
        self.arguments.hold(&Place { text, at })
    }
}

/// Text before a hole, after it, the letters that fill it, and how many.
type Frame = (&'static str, &'static str, &'static [&'static str], usize);

const ANY: [&str; 12] = [
    " ", "a", "->", ":", "(", ")", ".", ",", "#", "1", "\u{3000}", "\r",
];
const SIDES: [&str; 9] = [" ", "a", "->", "-", ">", ":", "#", "\u{A0}", "\r"];
const SIGNATURE: [&str; 8] = [" ", "a", "(", ")", ".", ":", "1", "\u{3000}"];
const RANGES: [&str; 6] = [":", "1", "+", "x", " ", "4294967295"];
const LISTS: [&str; 7] = [",", " ", "a", "\u{3000}", "\r", "é", ")"];

const FRAMES: [Frame; 10] = [
    ("", "", &ANY, 6),
    (" ", "", &ANY, 5),
    ("", ":", &SIDES, 6),
    ("\t", "", &SIDES, 6),
    (" ", " -> b", &SIGNATURE, 6),
    (" a b", " -> b", &SIGNATURE, 6),
    (" ", "void a() -> b", &RANGES, 6),
    (" void a()", " -> b", &RANGES, 6),
    (" void a(", ") -> b", &LISTS, 6),
    ("#", "", &["{", "}", " ", "a", "#", "->"], 6),
];

fn every_text(settings: &Settings, held: &mut Lines) -> Held {
    for (before, after, letters, most) in FRAMES {
        let letters: Vec<&[u8]> = letters.iter().map(|letter| letter.as_bytes()).collect();
        let mut line = Text::default();
        every::text_after(
            before.as_bytes(),
            &letters,
            settings.letters(most),
            &mut |text| {
                line.0.clone_from(&text.0);
                line.0.extend_from_slice(after.as_bytes());
                held.parts.hold(&line)
            },
        )?;
    }
    let lists: Vec<&[u8]> = LISTS.iter().map(|letter| letter.as_bytes()).collect();
    every::text_after(b"", &lists, settings.letters(5), &mut |text| {
        let mut place = Place {
            text: text.0.clone(),
            at: 0,
        };
        for at in 0..=text.0.len() + 1 {
            place.at = at;
            held.arguments.hold(&place)?;
        }
        Ok(())
    })?;
    let ranges: Vec<&[u8]> = RANGES.iter().map(|letter| letter.as_bytes()).collect();
    every::text_after(b"", &ranges, settings.letters(7), &mut |text| {
        held.leading.hold(text)?;
        held.trailing.hold(text)
    })
}

/// The line cut at every place, from either side.
fn every_cut(held: &mut Lines, line: &str) -> Held {
    for (at, _) in line.char_indices() {
        held.line(line[..at].to_owned())?;
        held.line(line[at..].to_owned())?;
    }
    Ok(())
}

/// Every character of the line changed to each of some marks.
fn every_change(held: &mut Lines, line: &str) -> Held {
    for (at, old) in line.char_indices() {
        for mark in [
            " ", "(", ")", ":", ".", ",", "-", ">", "#", "\u{3000}", "\r", "",
        ] {
            let after = &line[at + old.len_utf8()..];
            held.line([&line[..at], mark, after].concat())?;
        }
    }
    Ok(())
}

fn real_lines(settings: &Settings, held: &mut Lines) -> Held {
    let mut random = settings.random("real lines");
    for _ in settings.turns(150) {
        let form = *random.pick(&Form::ALL);
        let lines = synthetic::mapping(&mut random, form, 2_000);
        for (turn, line) in lines.lines().enumerate() {
            held.line(line.to_owned())?;
            if turn % 4 == 0 {
                every_cut(held, line)?;
                every_change(held, line)?;
            }
        }
    }
    Ok(())
}

fn random_bytes(random: &mut Random, held: &mut Lines, line: &str) -> Held {
    let mut bytes = Text(line.as_bytes().to_vec());
    for _ in 0..1 + random.below(3) {
        texts::damage(random, &mut bytes.0);
    }
    held.bytes.hold(&bytes)?;
    held.parts.hold(&bytes)
}

fn random_lines(settings: &Settings, held: &mut Lines) -> Held {
    let mut random = settings.random("line parts");
    for turn in settings.turns(1_500_000) {
        let mut line = part_texts::line(&mut random);
        held.line(line.clone())?;
        if turn % 200 == 0 {
            every_cut(held, &line)?;
        }
        random_bytes(&mut random, held, &line)?;
        for _ in 0..2 {
            line = part_texts::damage(&mut random, &line);
            held.line(line.clone())?;
        }
        if turn % 4 == 0 {
            let between = part_texts::between(&mut random);
            held.place(&between, 0)?;
            let at = random.below(between.len() + 3);
            held.place(&between, at)?;
        }
    }
    Ok(())
}

pub fn run(settings: &Settings, report: &mut Report) -> Held {
    let mut held = Lines {
        parts: Comparison::new(PARTS),
        arguments: Comparison::new(ARGUMENTS),
        leading: Comparison::new(LEADING),
        trailing: Comparison::new(TRAILING),
        bytes: Comparison::new(BYTES),
    };
    every_text(settings, &mut held)?;
    real_lines(settings, &mut held)?;
    random_lines(settings, &mut held)?;
    report.add(held.parts);
    report.add(held.arguments);
    report.add(held.leading);
    report.add(held.trailing);
    report.add(held.bytes);
    Ok(())
}
