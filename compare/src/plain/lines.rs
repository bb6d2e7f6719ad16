//! Document 01 "Text and lines": what one line is, with its parts.

use super::characters::{around_last_white, at_first_white, first_white, trim};

pub type Range = Option<(u32, u32)>;

/// What a line is. Parts are as they stand in it.
pub enum Line<'a> {
    Blank,
    /// the JSON, from the first `{` on
    Comment(Option<&'a [u8]>),
    Class {
        display: &'a [u8],
        raw: &'a [u8],
    },
    Field {
        declared: &'a [u8],
        name: &'a [u8],
        raw: &'a [u8],
    },
    Method {
        method: Method<'a>,
        raw: &'a [u8],
    },
}

pub struct Method<'a> {
    pub returned: &'a [u8],
    pub owner: Option<&'a [u8]>,
    pub name: &'a [u8],
    /// what stands between the parentheses
    pub between: &'a [u8],
    pub raw_range: Range,
    pub display_range: Range,
    /// "whose display range has a second part that does not read"
    pub short: bool,
}

/// The line, or the number of its refusal. `has_class`: whether a class line stands before it.
pub fn line_of(line: &[u8], has_class: bool) -> Result<Line<'_>, u32> {
    let trimmed = trim(line);
    if trimmed.is_empty() {
        return Ok(Line::Blank);
    }
    if trimmed.starts_with(b"#") {
        let brace = first_of(trimmed, b"{");
        return Ok(Line::Comment(brace.map(|brace| &trimmed[brace..])));
    }
    if first_white(line).is_none() {
        let (display, raw) = class_sides(trimmed).ok_or(3_u32)?;
        return Ok(Line::Class { display, raw });
    }
    if !has_class {
        return Err(4);
    }
    let (left, raw) = sides(trimmed).ok_or(5_u32)?;
    if left.contains(&b'(') {
        let method = method_of(left).ok_or(6_u32)?;
        return Ok(Line::Method { method, raw });
    }
    let (declared, name) = around_last_white(left).ok_or(7_u32)?;
    Ok(Line::Field {
        declared,
        name,
        raw,
    })
}

/// The first place of a part in a text.
fn first_of(text: &[u8], part: &[u8]) -> Option<usize> {
    text.windows(part.len()).position(|window| window == part)
}

/// The text before the first such part, and after it.
fn split_at_first<'a>(text: &'a [u8], part: &[u8]) -> Option<(&'a [u8], &'a [u8])> {
    let at = first_of(text, part)?;
    Some((&text[..at], &text[at + part.len()..]))
}

/// "Class: ends with `:`, which goes".
fn class_sides(trimmed: &[u8]) -> Option<(&[u8], &[u8])> {
    sides(trimmed.strip_suffix(b":")?)
}

/// "The first `->` splits; both sides, trimmed, are not empty."
fn sides(text: &[u8]) -> Option<(&[u8], &[u8])> {
    let (left, right) = split_at_first(text, b"->")?;
    let (left, right) = (trim(left), trim(right));
    (!left.is_empty() && !right.is_empty()).then_some((left, right))
}

/// The paragraph "Method", sentence by sentence.
fn method_of(left: &[u8]) -> Option<Method<'_>> {
    let (raw_range, left) = leading_range(left);
    let (returned, rest) = at_first_white(left)?;
    let rest = trim(rest);
    let open = rest.iter().position(|byte| *byte == b'(')?;
    let close = rest.iter().rposition(|byte| *byte == b')')?;
    if close < open {
        return None;
    }
    let qualified = &rest[..open];
    let (owner, name) = match qualified.iter().rposition(|byte| *byte == b'.') {
        Some(dot) => (Some(&qualified[..dot]), &qualified[dot + 1..]),
        None => (None, qualified),
    };
    let (display_range, short) = trailing_range(trim(&rest[close + 1..]));
    Some(Method {
        returned,
        owner,
        name,
        between: &rest[open + 1..close],
        raw_range,
        display_range: display_range.or(raw_range),
        short,
    })
}

/// "Arguments split at commas, trimmed, blank ones dropped."
pub fn arguments(between: &[u8]) -> impl Iterator<Item = &[u8]> {
    let parts = between.split(|byte| *byte == b',').map(trim);
    parts.filter(|part| !part.is_empty())
}

/// "A number is an optional `+` and at least one digit, up to 4294967295".
pub fn number(text: &[u8]) -> Option<u32> {
    let digits = text.strip_prefix(b"+").unwrap_or(text);
    if digits.is_empty() {
        return None;
    }
    let mut number = 0_u64;
    for digit in digits {
        if !digit.is_ascii_digit() {
            return None;
        }
        number = (number * 10 + u64::from(digit - b'0')).min(1 << 32);
    }
    u32::try_from(number).ok()
}

/// "If the text before the first colon and that between the first and second both read as numbers, they are the raw
/// range and go."
pub fn leading_range(text: &[u8]) -> (Range, &[u8]) {
    let parts: Vec<&[u8]> = text.splitn(3, |byte| *byte == b':').collect();
    if let [first, second, rest] = parts[..]
        && let (Some(start), Some(end)) = (number(first), number(second))
    {
        return (Some((start, end)), rest);
    }
    (None, text)
}

/// "A colon, a number, and optionally a colon and a number make the display range; a second part that is missing or
/// does not read equals the first." And whether there is a second part that does not read.
pub fn trailing_range(text: &[u8]) -> (Range, bool) {
    let parts: Vec<&[u8]> = text.splitn(4, |byte| *byte == b':').collect();
    let [[], first, ..] = parts[..] else {
        return (None, false);
    };
    let Some(start) = number(first) else {
        return (None, false);
    };
    let second = parts.get(2).map(|second| number(second));
    let end = second.flatten().unwrap_or(start);
    (Some((start, end)), second == Some(None))
}
