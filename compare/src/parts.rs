//! What a line is: as the proved functions answer it, and as the original's own functions do.

use crate::original::doors::{self, Range};
use crate::proved;
use crate::ranges::judge_trailing;
use crate::reading::Sound;
use std::ops;
use std::str;

/// A part by its place and its text.
#[derive(Clone, Debug, PartialEq)]
pub struct Part {
    start: usize,
    text: String,
}

impl Part {
    fn new(start: usize, text: String) -> Self {
        Part { start, text }
    }
}

/// The original gives places where it gives slices, and texts alone where it copies them.
#[derive(Debug, PartialEq)]
pub enum Line {
    Blank,
    /// the place of its `{`
    Comment(Option<usize>),
    Class {
        display: Part,
        raw: Part,
    },
    Field {
        declared: String,
        name: String,
        raw: Part,
    },
    Method {
        returned: String,
        owner: Option<String>,
        name: String,
        arguments: Vec<String>,
        raw: Part,
        raw_range: Range,
        display_range: Range,
        /// the display range has a second part that does not read
        short: bool,
    },
    /// the number of the refusal
    Refused(u64),
}

pub type Reading = Sound<Line>;

/// The numbers of a part as a range of places.
fn places(start: u64, end: u64) -> ops::Range<usize> {
    start as usize..end as usize
}

fn text_at(line: &str, start: u64, end: u64) -> Sound<&str> {
    line.get(places(start, end))
        .ok_or("a part that does not lie in the line, or cuts a character")
}

fn part_at(line: &str, start: u64, end: u64) -> Sound<Part> {
    let text = text_at(line, start, end)?.to_owned();
    Ok(Part::new(start as usize, text))
}

fn is_white(line: &str, start: u64, end: u64) -> bool {
    let between = line.get(places(start, end));
    between.is_some_and(|between| between.trim().is_empty())
}

fn range_of(numbers: [u64; 3]) -> Sound<Range> {
    let number = |number: u64| u32::try_from(number).map_err(|_| "a line beyond 32 bits");
    match numbers {
        [0, 0, 0] => Ok(None),
        [1, start, end] => Ok(Some((number(start)?, number(end)?))),
        _ => Err("no such answer about a range"),
    }
}

/// What the proved function says of a line, without numbers where no part is.
pub fn proved_line(line: &str) -> Reading {
    let answer = proved::line_parts(line.as_bytes());
    let used = match answer[0] {
        0 => 1,
        1 | 5 => 2,
        2 => 5,
        3 => 7,
        _ => 19,
    };
    if answer[used..].iter().any(|number| *number != 0) {
        return Err("a number where the kind has none");
    }
    match answer {
        [0, ..] => Ok(Line::Blank),
        [1, 0, ..] => Ok(Line::Comment(None)),
        [1, brace, ..] => Ok(Line::Comment(Some(brace as usize - 1))),
        [2, start, end, raw_start, raw_end, ..] => Ok(Line::Class {
            display: part_at(line, start, end)?,
            raw: part_at(line, raw_start, raw_end)?,
        }),
        [3, start, end, name_start, name_end, raw_start, raw_end, ..] => {
            let gaps = [(0, start), (end, name_start)];
            if !gaps.iter().all(|(from, to)| is_white(line, *from, *to)) || name_end > raw_start {
                return Err("parts of a field out of place");
            }
            Ok(Line::Field {
                declared: text_at(line, start, end)?.to_owned(),
                name: text_at(line, name_start, name_end)?.to_owned(),
                raw: part_at(line, raw_start, raw_end)?,
            })
        }
        [5, number, ..] => Ok(Line::Refused(number)),
        [4, ..] => proved_method(line, &answer),
        _ => Err("no such kind of line"),
    }
}

/// Where the parts of a method start and end, and 1 where it has an owner.
struct Places {
    returned: [u64; 2],
    owned: u64,
    owner: [u64; 2],
    name: [u64; 2],
    arguments: [u64; 2],
    raw: [u64; 2],
}

fn places_of(answer: &[u64; 20]) -> Places {
    let part = |at: usize| [answer[at], answer[at + 1]];
    Places {
        returned: part(1),
        owned: answer[3],
        owner: part(4),
        name: part(6),
        arguments: part(8),
        raw: part(10),
    }
}

/// The marks around a method's parts fix their places, also where a part is empty.
fn marked(line: &str, places: &Places) -> bool {
    let number = |part: [u64; 2]| part.map(|number| number as usize);
    let [start, returned] = number(places.returned);
    let [owner, owner_end] = number(places.owner);
    let [name, name_end] = number(places.name);
    let [arguments, arguments_end] = number(places.arguments);
    let byte = |place: usize| line.as_bytes().get(place).copied();
    let follows = if places.owned == 1 {
        owner_end + 1 == name && byte(owner_end) == Some(b'.') && owner > returned
    } else {
        name > returned
    };
    let white = line
        .get(returned..)
        .is_some_and(|rest| rest.starts_with(char::is_whitespace));
    let before = line.get(..start).unwrap_or("-");
    let begins = before.trim_start().is_empty() || before.ends_with(':');
    begins
        && follows
        && white
        && name_end + 1 == arguments
        && byte(name_end) == Some(b'(')
        && byte(arguments_end) == Some(b')')
        && places.arguments[1] < places.raw[0]
}

fn proved_method(line: &str, answer: &[u64; 20]) -> Reading {
    let places = places_of(answer);
    let text = |[start, end]: [u64; 2]| text_at(line, start, end);
    let owner = match (places.owned, places.owner) {
        (0, [0, 0]) => None,
        (1, part) => Some(text(part)?.to_owned()),
        _ => return Err("no such answer about an owner"),
    };
    if !marked(line, &places) {
        return Err("a part of a method not between its marks");
    }
    Ok(Line::Method {
        returned: text(places.returned)?.to_owned(),
        owner,
        name: text(places.name)?.to_owned(),
        arguments: proved_arguments(text(places.arguments)?, 0)?,
        raw: part_at(line, places.raw[0], places.raw[1])?,
        raw_range: range_of([answer[12], answer[13], answer[14]])?,
        display_range: range_of([answer[15], answer[16], answer[17]])?,
        short: match answer[18] {
            0 => false,
            1 => true,
            _ => return Err("no such answer about a second part"),
        },
    })
}

/// The arguments from the place on, one after another.
pub fn proved_arguments(text: &str, mut at: usize) -> Sound<Vec<String>> {
    let mut found = Vec::new();
    loop {
        match proved::argument(text.as_bytes(), at) {
            [0, 0, 0, 0] => return Ok(found),
            [1, start, end, next] => {
                if !between_commas(text, at, places(start, end), next as usize) {
                    return Err("an argument not between its commas");
                }
                found.push(text_at(text, start, end)?.to_owned());
                at = next as usize;
            }
            _ => return Err("no such answer about an argument"),
        }
    }
}

/// Only blank arguments stand between the place and the argument, and `next` is the place after its comma, or the end of
/// the text. So each argument ends the search later than the one before, and the walk over them ends.
fn between_commas(text: &str, at: usize, argument: ops::Range<usize>, next: usize) -> bool {
    let (before, after) = (text.get(at..argument.start), text.get(argument.end..next));
    let (Some(before), Some(after)) = (before, after) else {
        return false;
    };
    let ends = match after.strip_suffix(',') {
        Some(white) => white.trim().is_empty(),
        None => after.trim().is_empty() && next == text.len(),
    };
    ends && next > at && before.split(',').all(|blank| blank.trim().is_empty())
}

/// The original's loop over lines decides which of its functions is asked; that alone is said here once more.
pub fn judge_line(line: &str) -> Reading {
    let kept = line.trim_end_matches('\r');
    let trimmed = kept.trim();
    let place = |part: &str| part.as_ptr() as usize - line.as_ptr() as usize;
    if trimmed.is_empty() {
        return Ok(Line::Blank);
    }
    if trimmed.starts_with('#') {
        let brace = trimmed.find('{');
        return Ok(Line::Comment(brace.map(|brace| place(trimmed) + brace)));
    }
    if !kept.starts_with(char::is_whitespace) {
        // the class line has the texts, and the arrow in it their places
        let sides = trimmed.strip_suffix(':').and_then(doors::arrow);
        return match (doors::class_line(trimmed), sides) {
            (Some((display, raw)), Some((left, right))) => Ok(Line::Class {
                display: Part::new(place(left), display),
                raw: Part::new(place(right), raw),
            }),
            (None, None) => Ok(Line::Refused(3)),
            _ => Err("the original's class line and arrow differ"),
        };
    }
    let Some((left, raw)) = doors::arrow(trimmed) else {
        return Ok(Line::Refused(5));
    };
    if left.contains('(') {
        let method = doors::method(left, raw);
        return Ok(method.map_or(Line::Refused(6), |method| Line::Method {
            returned: method.returned,
            owner: method.owner,
            name: method.name,
            arguments: method.arguments,
            raw: Part::new(place(raw), method.raw),
            raw_range: method.raw_range,
            display_range: method.display_range,
            short: is_short(left),
        }));
    }
    let field = doors::field(left, raw);
    Ok(field.map_or(Line::Refused(7), |field| Line::Field {
        declared: field.declared,
        name: field.name,
        raw: Part::new(place(raw), field.raw),
    }))
}

/// The original has no word for this, so the ranges' own judge decides.
fn is_short(left: &str) -> bool {
    let after = left.rsplit(')').next().unwrap_or_default();
    judge_trailing(after.trim())[3] == 1
}

/// The original's arguments of a method with that text between its parentheses.
pub fn judge_arguments(text: &str, at: usize) -> Option<Sound<Vec<String>>> {
    let rest = if at > text.len() { "" } else { text.get(at..)? };
    let method = doors::method(&format!("a b({rest})"), "c")?;
    Some(Ok(method.arguments))
}

/// Whether every part lies in the line, for bytes of which nothing else is said.
pub fn lies(line: &[u8]) -> bool {
    let answer = proved::line_parts(line);
    let spans: &[usize] = match answer[0] {
        2 => &[1, 3],
        3 => &[1, 3, 5],
        4 => &[1, 4, 6, 8, 10],
        _ => &[],
    };
    let lies = |at: &usize| line.get(places(answer[*at], answer[*at + 1])).is_some();
    answer[0] <= 5 && spans.iter().all(lies)
}
