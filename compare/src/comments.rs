//! Comments and the strings in them, judged by `serde_json` as the original calls it.

use crate::case::{Place, Text};
use crate::comment_texts;
use crate::every;
use crate::random::Random;
use crate::reading::{self, Reading, Stands, StringAt};
use crate::report::{Comparison, Held, Report, Settings, Subject};

const COMMENT: Subject<Text, Reading> = Subject {
    name: "comment",
    proved: |text| reading::proved_comment(&text.0),
    judge: |text| reading::judge_comment(&text.0),
    outcome: |answer| match answer {
        Ok(Some([Stands::Text(id), Stands::Text(_)])) if id.residual => "residual signature",
        Ok(Some([Stands::Text(id), _])) if id.residual => "residual without signature",
        Ok(Some([Stands::Text(_), _])) => "other id",
        Ok(Some([Stands::Other, _])) => "id no string",
        Ok(Some([Stands::Missing, _])) => "no id",
        _ => "unreadable",
    },
};

const STRING: Subject<Place, StringAt> = Subject {
    name: "string",
    proved: |place| reading::proved_string(&place.text, place.at),
    judge: |place| reading::judge_string(&place.text, place.at),
    outcome: |answer| match answer {
        Ok(Some(decoded)) if decoded.residual => "residual",
        Ok(Some(decoded)) if decoded.bytes.is_empty() => "empty",
        Ok(Some(_)) => "text",
        _ => "no string",
    },
};

/// Numbers of any length, with any exponent. Those that `serde_json` refuses for their size or misreads, the grammar
/// decides alone, and it looks at no more of a row of digits than whether there are one or two.
const FAR: Subject<Text, Reading> = Subject {
    name: "far number",
    proved: |number| reading::proved_comment(&with_id(&number.0)),
    judge: |number| reading::judge_comment(&with_id(&near(&number.0)?)),
    outcome: |answer| match answer {
        Ok(Some(_)) => "reads",
        _ => "does not read",
    },
};

fn with_id(value: &[u8]) -> Vec<u8> {
    [b"{\"id\":", value, b"}"].concat()
}

/// The number with the first two of each row of digits: as well formed as it was, and near. `None` where it has other
/// letters than a number's.
fn near(number: &[u8]) -> Option<Vec<u8>> {
    let mut near = Vec::new();
    let mut row = 0;
    for byte in number {
        row = if byte.is_ascii_digit() { row + 1 } else { 0 };
        if !byte.is_ascii_digit() && !b"+-.eE".contains(byte) {
            return None;
        }
        if row <= 2 {
            near.push(*byte);
        }
    }
    Some(near)
}

type Comments = Comparison<Text, Reading>;
type Strings = Comparison<Place, StringAt>;

/// A text with a hole in it.
type Frame = (&'static str, &'static str);

/// Holds the comment with every text of the letters in the frame's hole.
fn every_in(comments: &mut Comments, frame: Frame, letters: &[&[u8]], most: usize) -> Held {
    let (before, after) = frame;
    let mut comment = Text::default();
    every::text_after(before.as_bytes(), letters, most, &mut |text| {
        comment.0.clone_from(&text.0);
        comment.0.extend_from_slice(after.as_bytes());
        comments.hold(&comment)
    })
}

const PARTS: [&str; 10] = ["{", "}", "[", "]", ",", ":", "\"id\"", "\"a\"", "1", " "];
const VALUES: &[u8] = b"\"\\u0d8{}[],:1 -.e";
const STRINGS: [&str; 10] = [
    "\\ud8", "\\uDC", "\\u", "00", "fF", "\\", "n", "\"", "/", "\u{E9}",
];
const NUMBERS: &[u8] = b"-+.eE019";

/// A hole for every byte, and for every two, at each place where another kind of text stands.
const FRAMES: [Frame; 16] = [
    ("", "{}"),
    ("{", "}"),
    ("{\"id\"", "1}"),
    ("{\"id\"", ":1}"),
    ("{\"id\":", "1}"),
    ("{\"id\":1", "}"),
    ("{\"id\":1}", ""),
    ("{\"id\":1", "\"signature\":\"x\"}"),
    ("{\"id\":1,", "\"signature\":\"x\"}"),
    ("{\"id\":\"", "\"}"),
    ("{\"id\":\"\\", "\"}"),
    ("{\"id\":\"\\u00", "\"}"),
    ("{\"id\":\"\\ud800", "\\udc00\"}"),
    ("{\"i", "\":\"x\"}"),
    ("{\"id\":t", "ue}"),
    ("{\"id\":[1", "1]}"),
];

/// Every short text of some letters, and every byte and two of them in each frame.
fn every_text(settings: &Settings, comments: &mut Comments) -> Held {
    let letters = |parts: &'static [&str]| -> Vec<&[u8]> {
        parts.iter().map(|part| part.as_bytes()).collect()
    };
    let values: Vec<&[u8]> = VALUES.chunks(1).collect();
    let numbers: Vec<&[u8]> = NUMBERS.chunks(1).collect();
    let most = |usual| settings.letters(usual);
    every_in(comments, ("{", ""), &letters(&PARTS), most(6))?;
    every_in(comments, ("{\"id\":", "}"), &values, most(5))?;
    every_in(comments, ("{\"id\":\"", "\"}"), &letters(&STRINGS), most(6))?;
    every_in(comments, ("{\"id\":", "}"), &numbers, most(6))?;
    let two = if settings.quick { 1 } else { 2 };
    let bytes: Vec<u8> = (0..=u8::MAX).collect();
    let bytes: Vec<&[u8]> = bytes.chunks(1).collect();
    for frame in FRAMES {
        every_in(comments, frame, &bytes, two)?;
    }
    Ok(())
}

/// Every `\u` escape, alone, after a high surrogate and before a low one.
fn every_escape(settings: &Settings, comments: &mut Comments) -> Held {
    // of a quick run the ends of each 64 alone
    let is_held = |unit: &u16| !settings.quick || matches!(unit % 64, 0 | 63);
    for unit in (0..=u16::MAX).filter(is_held) {
        for digits in [format!("{unit:04x}"), format!("{unit:04X}")] {
            for (before, after) in [("", ""), ("\\uD834", ""), ("", "\\uDD1E")] {
                let comment = format!("{{\"id\":\"{before}\\u{digits}{after}\"}}");
                comments.hold(&Text(comment.into_bytes()))?;
            }
        }
    }
    Ok(())
}

/// So many levels around the inner text, in each four of them so many arrays.
fn nested(levels: usize, arrays: usize, inner: &str) -> String {
    let (mut text, mut ends) = (String::from("{\"id\":"), String::from("}"));
    for level in 1..levels {
        let array = level % 4 < arrays;
        text += if array { "[" } else { "{\"\":" };
        ends.insert(0, if array { ']' } else { '}' });
    }
    text + inner + &ends
}

/// Every depth up to a little more than is read, of objects, arrays and both, whole and without the last character.
fn every_depth(comments: &mut Comments) -> Held {
    let inners = ["1", "[]", "{}", "[[],{}]", "{\"\":{},\"\":[]}", ""];
    for (levels, inner) in (1..140).flat_map(|levels| inners.map(|inner| (levels, inner))) {
        for arrays in 0..=4 {
            let mut text = Text(nested(levels, arrays, inner).into_bytes());
            comments.hold(&text)?;
            text.0.pop();
            comments.hold(&text)?;
        }
    }
    Ok(())
}

/// Every start of the text.
fn every_cut(comments: &mut Comments, text: &Text) -> Held {
    let mut cut = text.clone();
    while cut.0.pop().is_some() {
        comments.hold(&cut)?;
    }
    Ok(())
}

/// Holds the strings at a few places: any, after a quotation mark, and beyond the end.
fn some_places(random: &mut Random, strings: &mut Strings, text: &Text) -> Held {
    let text = text.0.clone();
    let any = random.below(text.len() + 4);
    let rest = text.get(any..).unwrap_or_default();
    let marked = rest.iter().position(|byte| *byte == b'"');
    let mut place = Place { text, at: any };
    strings.hold(&place)?;
    if let Some(marked) = marked {
        place.at = any + marked + 1;
        strings.hold(&place)?;
    }
    if random.once_in(10) {
        place.at = place.text.len().saturating_add(random.draw() as usize);
        strings.hold(&place)?;
    }
    Ok(())
}

fn random_comments(settings: &Settings, comments: &mut Comments, strings: &mut Strings) -> Held {
    let mut random = settings.random("comments");
    for turn in settings.turns(700_000) {
        let mut text = Text(comment_texts::comment(&mut random).into_bytes());
        comments.hold(&text)?;
        some_places(&mut random, strings, &text)?;
        if turn % 200 == 0 {
            every_cut(comments, &text)?;
        }
        for _ in 0..2 {
            comment_texts::damage(&mut random, &mut text.0);
            comments.hold(&text)?;
        }
        some_places(&mut random, strings, &text)?;
        let bytes = Text(comment_texts::any_bytes(&mut random));
        comments.hold(&bytes)?;
        some_places(&mut random, strings, &bytes)?;
    }
    Ok(())
}

/// A number whose rows of digits are long, or one with a byte of it changed.
fn random_far(random: &mut Random) -> Text {
    let mut number = Vec::new();
    for part in ["-", "", ".", "e", "+"] {
        if !part.is_empty() && random.once_in(2) {
            number.extend_from_slice(part.as_bytes());
        }
        let most = *random.pick(&[3, 3, 3, 400]);
        for _ in 0..random.below(most) {
            number.push(b'0' + random.byte() % 10);
        }
    }
    if !number.is_empty() && random.once_in(4) {
        let at = random.below(number.len());
        number[at] = *random.pick(b"0+-.eE");
    }
    Text(number)
}

pub fn run(settings: &Settings, report: &mut Report) -> Held {
    let (mut comments, mut strings) = (Comparison::new(COMMENT), Comparison::new(STRING));
    let mut far = Comparison::new(FAR);
    every_text(settings, &mut comments)?;
    every_escape(settings, &mut comments)?;
    every_depth(&mut comments)?;
    random_comments(settings, &mut comments, &mut strings)?;
    let mut random = settings.random("far numbers");
    for _ in settings.turns(200_000) {
        far.hold(&random_far(&mut random))?;
    }
    report.add(comments);
    report.add(strings);
    report.add(far);
    Ok(())
}
