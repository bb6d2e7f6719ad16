//! Places of bytes and equality of texts, judged by the methods of slices.

use crate::case::{Search, Two};
use crate::every;
use crate::proved;
use crate::random::Random;
use crate::report::{Comparison, Held, Report, Settings, Subject};
use crate::trims::place_or_0;

const BYTES: Subject<Search, [u64; 3]> = Subject {
    name: "bytes",
    proved: |search| proved::bytes(&search.text, search.first, search.second),
    judge: |search| Some(judge_bytes(search)),
    outcome: |answer| match answer {
        [0, ..] => "none",
        [first, last, 0] if first == last => "once",
        [_, _, 0] => "often",
        _ => "with the pair",
    },
};

const SAME: Subject<Two, u32> = Subject {
    name: "same",
    proved: |two| proved::same(&two.left, &two.right),
    judge: |two| Some(u32::from(two.left == two.right)),
    outcome: |answer| match answer {
        1 => "same",
        _ => "different",
    },
};

fn judge_bytes(search: &Search) -> [u64; 3] {
    let Search {
        text,
        first,
        second,
    } = search;
    let pair = text.windows(2).position(|pair| pair == [*first, *second]);
    [
        place_or_0(text.iter().position(|byte| byte == first)),
        place_or_0(text.iter().rposition(|byte| byte == first)),
        place_or_0(pair),
    ]
}

/// Now and then a long text; most are short, so that every length is met often.
fn length(random: &mut Random) -> usize {
    let most = if random.once_in(1000) { 20_000 } else { 200 };
    let most = 1 + random.below(most);
    random.below(most)
}

/// Bytes out of one to four, each of which may be any.
fn letters(random: &mut Random) -> Vec<u8> {
    let count = 1 + random.below(4);
    (0..count).map(|_| random.byte()).collect()
}

fn random_search(random: &mut Random) -> Search {
    let letters = letters(random);
    let count = length(random);
    let mut text: Vec<u8> = (0..count).map(|_| *random.pick(&letters)).collect();
    let (first, second) = (random.byte(), *random.pick(&letters));
    // half of the searches are for bytes of the text, the others for one that stands there perhaps once
    if random.once_in(2) {
        let first = *random.pick(&letters);
        return Search {
            text,
            first,
            second,
        };
    }
    if !text.is_empty() && random.once_in(2) {
        let at = random.below(text.len());
        text[at] = first;
    }
    Search {
        text,
        first,
        second,
    }
}

fn random_two(random: &mut Random) -> Two {
    let letters = letters(random);
    let count = length(random);
    let left: Vec<u8> = (0..count).map(|_| *random.pick(&letters)).collect();
    let mut right = left.clone();
    let at = random.below(right.len() + 1);
    match random.below(5) {
        0 if at < right.len() => right[at] ^= 1 << random.below(8),
        1 => right.insert(at, *random.pick(&letters)),
        2 => right.truncate(at),
        3 => right.rotate_left(at),
        _ => {}
    }
    if random.once_in(2) {
        return Two {
            left: right,
            right: left,
        };
    }
    Two { left, right }
}

fn every_search(settings: &Settings, bytes: &mut Comparison<Search, [u64; 3]>) -> Held {
    every::text_of("abc", settings.letters(8), &mut |text| {
        for pair in [b"aa", b"ab", b"ba", b"cb", b"bd", b"da"] {
            let (text, [first, second]) = (text.0.clone(), *pair);
            bytes.hold(&Search {
                text,
                first,
                second,
            })?;
        }
        Ok(())
    })
}

fn every_two(same: &mut Comparison<Two, u32>) -> Held {
    every::text_of("ab", 6, &mut |left| {
        every::text_of("ab", 6, &mut |right| {
            let (left, right) = (left.0.clone(), right.0.clone());
            same.hold(&Two { left, right })
        })
    })
}

pub fn run(settings: &Settings, report: &mut Report) -> Held {
    let (mut bytes, mut same) = (Comparison::new(BYTES), Comparison::new(SAME));
    every_search(settings, &mut bytes)?;
    every_two(&mut same)?;
    let mut random = settings.random("bytes");
    for _ in settings.turns(600_000) {
        bytes.hold(&random_search(&mut random))?;
        same.hold(&random_two(&mut random))?;
    }
    report.add(bytes);
    report.add(same);
    Ok(())
}
