//! The check of a whole text and the sequence at one place, judged by `std::str::from_utf8`.

use crate::case::{Place, Text};
use crate::every;
use crate::proved;
use crate::report::{Comparison, Held, Report, Settings, Subject};
use crate::texts::{self, TELLING};
use std::str::{self, Utf8Error};

type Check = Comparison<Text, [u64; 3]>;
type Sequence = Comparison<Place, [u64; 3]>;

const CHECK: Subject<Text, [u64; 3]> = Subject {
    name: "check",
    proved: |text| proved::check(&text.0),
    judge: |text| Some(judge_check(&text.0)),
    outcome: |answer| match answer {
        [0, ..] => "valid",
        [_, _, 0] => "cut short",
        [_, _, 1] => "broken by 1",
        [_, _, 2] => "broken by 2",
        _ => "broken by 3",
    },
};

const SEQUENCE: Subject<Place, [u64; 3]> = Subject {
    name: "sequence",
    proved: |place| proved::sequence(&place.text, place.at),
    judge: |place| Some(judge_sequence(&place.text, place.at)),
    outcome: |answer| match answer {
        [0, ..] => "end",
        [1, _, 1] => "good of 1",
        [1, _, 2] => "good of 2",
        [1, _, 3] => "good of 3",
        [1, ..] => "good of 4",
        [_, _, 0] => "cut short",
        [_, _, 1] => "broken by 1",
        [_, _, 2] => "broken by 2",
        _ => "broken by 3",
    },
};

fn broken_length(error: &Utf8Error) -> u64 {
    error.error_len().map_or(0, |length| length as u64)
}

fn judge_check(text: &[u8]) -> [u64; 3] {
    match str::from_utf8(text) {
        Ok(_) => [0, 0, 0],
        Err(error) => [1, error.valid_up_to() as u64, broken_length(&error)],
    }
}

fn judge_sequence(text: &[u8], at: usize) -> [u64; 3] {
    let rest = text.get(at..).unwrap_or_default();
    let (valid, broken) = match str::from_utf8(rest) {
        Ok(valid) => (valid, [0, 0, 0]),
        Err(error) => {
            let valid = str::from_utf8(&rest[..error.valid_up_to()]);
            (valid.unwrap_or_default(), [2, 0, broken_length(&error)])
        }
    };
    match valid.chars().next() {
        Some(first) => [1, u64::from(u32::from(first)), first.len_utf8() as u64],
        None => broken,
    }
}

/// Holds the sequence at every place of the text, and where it has ended.
fn hold_places(sequence: &mut Sequence, place: &mut Place, text: &[u8]) -> Held {
    place.text.clear();
    place.text.extend_from_slice(text);
    for at in 0..=text.len() {
        place.at = at;
        sequence.hold(place)?;
    }
    Ok(())
}

fn every_three_bytes(settings: &Settings, check: &mut Check, sequence: &mut Sequence) -> Held {
    let bytes: Vec<[u8; 1]> = (0..=u8::MAX).map(|byte| [byte]).collect();
    let letters: Vec<&[u8]> = bytes.iter().map(|byte| byte.as_slice()).collect();
    let mut place = Place::default();
    let most = if settings.quick { 2 } else { 3 };
    every::text_after(&[], &letters, most, &mut |text| {
        check.hold(text)?;
        hold_places(sequence, &mut place, &text.0)
    })
}

/// Every first and second byte, with up to three telling bytes after them. Of a quick run all five are telling.
fn every_pair(settings: &Settings, check: &mut Check, sequence: &mut Sequence) -> Held {
    let letters: Vec<&[u8]> = TELLING.chunks(1).collect();
    let mut place = Place::default();
    let is_held = |byte: &u8| !settings.quick || TELLING.contains(byte);
    for first in (0..=u8::MAX).filter(is_held) {
        for second in (0..=u8::MAX).filter(is_held) {
            every::text_after(&[first, second], &letters, 3, &mut |text| {
                check.hold(text)?;
                // a fifth byte belongs to no sequence at the start
                if text.0.len() > 4 {
                    return Ok(());
                }
                place.text.clone_from(&text.0);
                sequence.hold(&place)
            })?;
        }
    }
    Ok(())
}

fn random_texts(settings: &Settings, check: &mut Check, sequence: &mut Sequence) -> Held {
    let mut random = settings.random("utf8");
    let mut place = Place::default();
    for turn in settings.turns(40_000) {
        let length = random.below(400);
        let text = match turn % 3 {
            0 => texts::words(&mut random, length),
            1 => texts::edges(&mut random, length / 3),
            _ => texts::mostly_ascii(&mut random, length),
        };
        let mut text = Text(text.into_bytes());
        check.hold(&text)?;
        for _ in 0..6 {
            texts::damage(&mut random, &mut text.0);
            check.hold(&text)?;
        }
        hold_places(sequence, &mut place, &text.0)?;
        place.at = text.0.len().saturating_add(random.draw() as usize);
        sequence.hold(&place)?;
    }
    Ok(())
}

pub fn run(settings: &Settings, report: &mut Report) -> Held {
    let (mut check, mut sequence) = (Comparison::new(CHECK), Comparison::new(SEQUENCE));
    every_three_bytes(settings, &mut check, &mut sequence)?;
    every_pair(settings, &mut check, &mut sequence)?;
    random_texts(settings, &mut check, &mut sequence)?;
    report.add(check);
    report.add(sequence);
    Ok(())
}
