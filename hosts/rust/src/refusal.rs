//! Why a call was refused.

use std::error::Error;
use std::fmt::{self, Display, Formatter};

/// A refusal: its number, and what the answer says besides.
///
/// ```
/// let refusal = clumarief::Mapping::parse(b"a -> b").unwrap_err();
/// assert_eq!((refusal.number(), refusal.line()), (3, Some(1)));
/// assert_eq!(refusal.to_string(), "refused 3 at line 1: invalid class mapping");
/// ```
#[derive(Clone, Copy, Debug, PartialEq, Eq)]
pub struct Refusal {
    number: u32,
    place: u32,
    length: u32,
}

const NOT_UTF8: u32 = 2;
/// The pool is too small.
pub(crate) const SHORT_POOL: u32 = 11;
/// The output is too small.
pub(crate) const NO_ROOM: u32 = 13;

impl Refusal {
    pub(crate) fn new(number: u32, place: u32, length: u32) -> Self {
        Refusal {
            number,
            place,
            length,
        }
    }

    /// Document 01's number, 1 to 14.
    pub fn number(&self) -> u32 {
        self.number
    }

    /// At 2 how many valid bytes stand before the bad sequence, at 3 to 7 the line, counted from 1, else 0.
    pub fn place(&self) -> u32 {
        self.place
    }

    /// At 2 the length of the bad sequence, 0 where the text is cut short in it; else 0.
    pub fn length(&self) -> u32 {
        self.length
    }

    /// The faulty line, counted from 1, where one is named.
    pub fn line(&self) -> Option<u32> {
        (3..=7).contains(&self.number).then_some(self.place)
    }

    /// The place of the first byte that is not UTF-8, where that is the reason.
    pub fn byte(&self) -> Option<u32> {
        (self.number == NOT_UTF8).then_some(self.place)
    }

    /// The reason in words.
    pub fn words(&self) -> &'static str {
        match self.number {
            1 => "the text is over 1,048,576 bytes, or the tree file over 4,194,304",
            2 => "the text is not UTF-8",
            3 => "invalid class mapping",
            4 => "member mapping has no class",
            5 => "invalid member mapping",
            6 => "invalid method mapping",
            7 => "invalid field mapping",
            8 => "the mapping contains no classes",
            9 => "too few class rows",
            10 => "too few member rows",
            11 => "the name pool is too small",
            12 => "the tree file is malformed",
            13 => "the output is too small, or over 4,194,304 bytes are needed",
            14 => "the tables are malformed",
            _ => "no such number",
        }
    }
}

impl Display for Refusal {
    fn fmt(&self, out: &mut Formatter<'_>) -> fmt::Result {
        write!(out, "refused {}", self.number)?;
        if let Some(line) = self.line() {
            write!(out, " at line {line}")?;
        }
        if let Some(byte) = self.byte() {
            write!(out, " at byte {byte}, length {}", self.length)?;
        }
        write!(out, ": {}", self.words())
    }
}

impl Error for Refusal {}
