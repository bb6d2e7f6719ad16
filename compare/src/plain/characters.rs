//! Document 01 "Text and lines": characters, white space, lines. All of it over bytes.

/// A byte that stands after the first one of a sequence.
const TAIL: (u8, u8) = (0x80, 0xBF);

/// RFC 3629, section 4: what the bytes of a good sequence lie between.
const GOOD: [&[(u8, u8)]; 9] = [
    &[(0x00, 0x7F)],
    &[(0xC2, 0xDF), TAIL],
    &[(0xE0, 0xE0), (0xA0, 0xBF), TAIL],
    &[(0xE1, 0xEC), TAIL, TAIL],
    &[(0xED, 0xED), (0x80, 0x9F), TAIL],
    &[(0xEE, 0xEF), TAIL, TAIL],
    &[(0xF0, 0xF0), (0x90, 0xBF), TAIL, TAIL],
    &[(0xF1, 0xF3), TAIL, TAIL, TAIL],
    &[(0xF4, 0xF4), (0x80, 0x8F), TAIL, TAIL],
];

/// The length of the good sequence that the text begins with. Else that of "the longest start of a good sequence, at
/// least 1; 0 if the text ends in one".
pub fn first_sequence(text: &[u8]) -> Result<usize, usize> {
    let mut longest = 1;
    for good in GOOD {
        let fits = |(byte, (least, most)): &(&u8, &(u8, u8))| least <= byte && *byte <= most;
        let start = text.iter().zip(good).take_while(fits).count();
        if start == good.len() {
            return Ok(start);
        }
        if start > 0 && start == text.len() {
            return Err(0);
        }
        longest = longest.max(start);
    }
    Err(longest)
}

/// "Text not UTF-8": the valid bytes before it, and its length.
pub fn not_utf8(text: &[u8]) -> Option<(usize, usize)> {
    let mut at = 0;
    while at < text.len() {
        match first_sequence(&text[at..]) {
            Ok(length) => at += length,
            Err(length) => return Some((at, length)),
        }
    }
    None
}

/// The first character of a text, by its code point and its length.
pub fn first_character(text: &[u8]) -> Option<(u32, usize)> {
    let (first, rest) = text.split_first()?;
    let Ok(length) = first_sequence(text) else {
        return None;
    };
    // the bits that the first byte has to give after its leading ones
    let bits = if length == 1 { 7 } else { 7 - length };
    let mut code = u32::from(*first) & ((1 << bits) - 1);
    for tail in &rest[..length - 1] {
        code = code << 6 | u32::from(*tail) & 0x3F;
    }
    Some((code, length))
}

/// "White space is ten ranges".
const WHITE: [(u32, u32); 10] = [
    (0x9, 0xD),
    (0x20, 0x20),
    (0x85, 0x85),
    (0xA0, 0xA0),
    (0x1680, 0x1680),
    (0x2000, 0x200A),
    (0x2028, 0x2029),
    (0x202F, 0x202F),
    (0x205F, 0x205F),
    (0x3000, 0x3000),
];

pub fn is_white(code: u32) -> bool {
    let holds = |(least, most): &(u32, u32)| *least <= code && code <= *most;
    WHITE.iter().any(holds)
}

/// The length of the white space character that the text begins with.
pub fn first_white(text: &[u8]) -> Option<usize> {
    let (code, length) = first_character(text)?;
    is_white(code).then_some(length)
}

/// Where the last character of a text starts.
fn last_start(text: &[u8]) -> usize {
    let is_tail = |byte: &&u8| TAIL.0 <= **byte && **byte <= TAIL.1;
    let tails = text.iter().rev().take_while(is_tail).count();
    text.len().saturating_sub(tails + 1)
}

pub fn trim(text: &[u8]) -> &[u8] {
    trim_end(trim_start(text))
}

pub fn trim_start(mut text: &[u8]) -> &[u8] {
    while let Some(length) = first_white(text) {
        text = &text[length..];
    }
    text
}

pub fn trim_end(mut text: &[u8]) -> &[u8] {
    while first_white(&text[last_start(text)..]).is_some() {
        text = &text[..last_start(text)];
    }
    text
}

/// The text before its first white space character, and from it on.
pub fn at_first_white(text: &[u8]) -> Option<(&[u8], &[u8])> {
    let mut at = 0;
    while at < text.len() {
        if first_white(&text[at..]).is_some() {
            return Some(text.split_at(at));
        }
        at += first_character(&text[at..]).map_or(1, |(_, length)| length);
    }
    None
}

/// The text before its last white space character, and after it.
pub fn around_last_white(text: &[u8]) -> Option<(&[u8], &[u8])> {
    let mut end = text.len();
    while end > 0 {
        let start = last_start(&text[..end]);
        if first_white(&text[start..end]).is_some() {
            return Some((&text[..start], &text[end..]));
        }
        end = start;
    }
    None
}

/// "`parse` drops every leading U+FEFF."
pub fn without_marks(mut text: &[u8]) -> &[u8] {
    while let Some((0xFEFF, length)) = first_character(text) {
        text = &text[length..];
    }
    text
}

/// "Lines end at LF; a final LF opens no further line; all CR at a line's end go."
pub fn lines(text: &[u8]) -> Vec<&[u8]> {
    let mut lines: Vec<&[u8]> = text.split(|byte| *byte == b'\n').collect();
    // what stands after the last LF is a line if there is something
    if lines.last().is_some_and(|last| last.is_empty()) {
        lines.pop();
    }
    for line in &mut lines {
        while let Some(shorter) = line.strip_suffix(b"\r") {
            *line = shorter;
        }
    }
    lines
}
