//! What a comment says: as the proved functions answer it, and as `serde_json` does through the original's own calls.

use crate::comment_parts::RESIDUAL;
use crate::proved;
use serde_json::{Deserializer, Error, Value};
use std::borrow::Cow;
use std::fmt::{self, Debug, Formatter};
use std::str;

/// What the characters of a string stand for, and whether that is the id of a residual signature.
#[derive(PartialEq)]
pub struct Decoded {
    pub bytes: Vec<u8>,
    pub residual: bool,
}

impl Debug for Decoded {
    fn fmt(&self, formatter: &mut Formatter<'_>) -> fmt::Result {
        let residual = if self.residual { " (residual)" } else { "" };
        write!(formatter, "\"{}\"{residual}", self.bytes.escape_ascii())
    }
}

/// What stands under a name.
#[derive(Debug, PartialEq)]
pub enum Stands {
    Missing,
    /// a value that is no string
    Other,
    Text(Decoded),
}

/// An answer, or what is wrong with it whatever the text is. No judge gives the second.
pub type Sound<A> = Result<A, &'static str>;

/// What stands under `id` and under `signature`; `None` for a comment that does not read.
pub type Reading = Sound<Option<[Stands; 2]>>;

/// The string at a place, if there is one.
pub type StringAt = Sound<Option<Decoded>>;

pub fn proved_comment(text: &[u8]) -> Reading {
    match proved::comment(text) {
        [0, 0, 0, 0, 0] => Ok(None),
        [1, id, id_place, signature, signature_place] => {
            let id = proved_stands(text, id, id_place)?;
            let signature = proved_stands(text, signature, signature_place)?;
            Ok(Some([id, signature]))
        }
        _ => Err("no such answer about a comment"),
    }
}

/// The place is judged by what is decoded from it, and by what stands before it.
fn proved_stands(text: &[u8], kind: u64, place: u64) -> Sound<Stands> {
    let start = place as usize;
    match (kind, place) {
        (0, 0) => Ok(Stands::Missing),
        (1, 0) => Ok(Stands::Other),
        (2, _) if !follows_colon(text, start) => Err("not the place of a member's value"),
        (2, _) => match proved_string(text, start)? {
            Some(decoded) => Ok(Stands::Text(decoded)),
            None => Err("no string at the place of one"),
        },
        _ => Err("no such answer about a value"),
    }
}

/// A quotation mark stands before the place, and a colon before that.
fn follows_colon(text: &[u8], start: usize) -> bool {
    let before = text.get(..start).unwrap_or_default();
    let before = before.strip_suffix(b"\"").unwrap_or_default();
    before.trim_ascii_end().ends_with(b":")
}

pub fn proved_string(text: &[u8], start: usize) -> StringAt {
    let residual = proved::residual(text, start);
    match (proved::decoded_length(text, start), residual) {
        ([0, 0], 0) => no_string(text, start),
        ([1, length], 0 | 1) if length <= text.len() as u64 => {
            let bytes = decode_often(text, start, length as usize)?;
            let residual = residual == 1;
            Ok(Some(Decoded { bytes, residual }))
        }
        _ => Err("no such answers about a string"),
    }
}

/// Bytes around a room, which nothing may be written to.
const GUARD: usize = 8;

/// What stands in a room before the call, and in the guards around it.
fn rubbish(length: usize) -> Vec<u8> {
    let guarded = 0..GUARD + length + GUARD;
    guarded.map(|place| place as u8 ^ 0xA5).collect()
}

/// The answer for a room of the length, with the room and its guards after the call.
fn decode_guarded(text: &[u8], start: usize, length: usize, at: usize) -> ([u64; 2], Vec<u8>) {
    let mut guarded = rubbish(length);
    let room = &mut guarded[GUARD..GUARD + length];
    (proved::decode(text, start, room, at), guarded)
}

fn no_string(text: &[u8], start: usize) -> StringAt {
    for (length, at) in [(0, 0), (4, 0), (4, 2), (4, 5)] {
        if decode_guarded(text, start, length, at) != ([0, 0], rubbish(length)) {
            return Err("decoded where no string is");
        }
    }
    Ok(None)
}

/// The string's bytes, of which there are `length`, after a look at rooms of many lengths and places in them.
fn decode_often(text: &[u8], start: usize, length: usize) -> Sound<Vec<u8>> {
    let (_, exact) = decode_guarded(text, start, length, 0);
    let bytes = &exact[GUARD..GUARD + length];
    let rooms = [
        (length, 0),
        (length + 5, 0),
        (length + 3, 3),
        (length + 9, 4),
        // one byte too short
        (length + 2, 3),
        (length.saturating_sub(1), 0),
        // places beyond the room
        (length, length + 1),
        (length, usize::MAX),
    ];
    for (room, at) in rooms {
        let mut expected = ([2, 0], rubbish(room));
        let end = at.checked_add(length).filter(|end| *end <= room);
        if let Some(end) = end {
            expected.0 = [1, end as u64];
            expected.1[GUARD + at..GUARD + end].copy_from_slice(bytes);
        }
        if decode_guarded(text, start, room, at) != expected {
            return Err("wrong about a room");
        }
    }
    Ok(bytes.to_vec())
}

/// A JSON text that is no object is unreadable: a comment's text begins with `{`.
pub fn judge_comment(text: &[u8]) -> Option<Reading> {
    let text = Characters::of(text)?;
    if has_misread_number(&text.0) {
        return None;
    }
    match serde_json::from_str::<Value>(&text.0) {
        Ok(value) if value.is_object() => {
            let stands = |name| text.stands(value.get(name));
            Some(Ok(Some(["id", "signature"].map(stands))))
        }
        Err(error) if out_of_range(&error) && has_far_number(&text.0) => None,
        _ => Some(Ok(None)),
    }
}

/// The first value of the text that begins with a quotation mark and goes on from the place.
pub fn judge_string(text: &[u8], start: usize) -> Option<StringAt> {
    let Some(rest) = text.get(start..) else {
        return Some(Ok(None));
    };
    let quoted = [b"\"", rest].concat();
    let text = Characters::of(&quoted)?;
    let mut values = Deserializer::from_str(&text.0).into_iter::<String>();
    let first = values.next().and_then(Result::ok);
    Some(Ok(first.map(|string| text.decoded(&string))))
}

fn out_of_range(error: &Error) -> bool {
    error.to_string().starts_with("number out of range")
}

/// Whether a number may have over 200 characters or an exponent beyond -99 to 99. Equality is not claimed there.
fn has_far_number(text: &str) -> bool {
    let is_part = |character: char| matches!(character, '0'..='9' | '+' | '-' | '.' | 'e' | 'E');
    let far_exponent = |part: &str| part.trim_start_matches(['+', '-', '0']).len() > 2;
    text.split(|character| !is_part(character))
        .any(|number| number.len() > 200 || number.split(['e', 'E']).skip(1).any(far_exponent))
}

/// Whether a number may be one that `serde_json` itself misreads (1.0.87 does): beyond 64 bits, with no digit after its
/// point, it is read; with one digit there, it may be refused.
fn has_misread_number(text: &str) -> bool {
    let digits = |part: &mut dyn Iterator<Item = u8>| part.take_while(u8::is_ascii_digit).count();
    text.match_indices('.').any(|(point, _)| {
        let (mut before, mut after) = (text[..point].bytes().rev(), text[point + 1..].bytes());
        digits(&mut before) >= 20 && digits(&mut after) <= 1
    })
}

/// A text as `serde_json` takes it, which takes `str` alone. In one that is not UTF-8, and then is owned here, a private
/// character stands in for each byte from 80 on: the rule takes such bytes as they are in strings, and nowhere else.
struct Characters<'a>(Cow<'a, str>);

/// The stand-in for a byte is this plus the byte.
const STAND_INS: u32 = 0xF_0000;

/// What every stand-in's escape starts with. A text that is not UTF-8 and has that is not judged.
const STAND_IN_ESCAPE: &[u8] = b"\\udb80";

impl<'a> Characters<'a> {
    fn of(text: &'a [u8]) -> Option<Self> {
        if let Ok(text) = str::from_utf8(text) {
            return Some(Characters(Cow::Borrowed(text)));
        }
        let mut windows = text.windows(STAND_IN_ESCAPE.len());
        if windows.any(|window| window.eq_ignore_ascii_case(STAND_IN_ESCAPE)) {
            return None;
        }
        let character = |byte: &u8| match byte {
            0..=0x7F => Some(char::from(*byte)),
            _ => char::from_u32(STAND_INS + u32::from(*byte)),
        };
        let text = text.iter().map(character);
        text.collect::<Option<String>>()
            .map(|text| Characters(Cow::Owned(text)))
    }

    fn stands(&self, value: Option<&Value>) -> Stands {
        match (value, value.and_then(Value::as_str)) {
            (None, _) => Stands::Missing,
            (Some(_), None) => Stands::Other,
            (Some(_), Some(string)) => Stands::Text(self.decoded(string)),
        }
    }

    fn decoded(&self, string: &str) -> Decoded {
        let bytes = match self.0 {
            Cow::Borrowed(_) => string.into(),
            Cow::Owned(_) => without_stand_ins(string),
        };
        let residual = bytes == RESIDUAL.as_bytes();
        Decoded { bytes, residual }
    }
}

/// The string's bytes, and for each stand-in the byte that it stands for.
fn without_stand_ins(string: &str) -> Vec<u8> {
    let mut bytes = Vec::with_capacity(string.len());
    for character in string.chars() {
        let byte = u32::from(character).wrapping_sub(STAND_INS);
        match u8::try_from(byte) {
            Ok(byte) => bytes.push(byte),
            Err(_) => bytes.extend_from_slice(character.encode_utf8(&mut [0; 4]).as_bytes()),
        }
    }
    bytes
}
