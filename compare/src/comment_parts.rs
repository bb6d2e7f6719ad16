//! Parts that random comments are written with, good and bad.

use std::ops::RangeInclusive;

/// White space of JSON.
pub const SPACES: [&str; 6] = [" ", "\t", "\n", "\r", "  ", "\r\n"];

/// White space elsewhere, and not in JSON.
pub const OTHER_SPACES: [&str; 7] = [
    "\u{B}", "\u{C}", "\u{A0}", "\u{FEFF}", "\u{85}", "\u{2028}", "\0",
];

/// Plain parts of strings.
pub const WORDS: [&str; 14] = [
    "La/b;",
    "(I)V",
    "id",
    "signature",
    "a",
    "Z",
    "0",
    " ",
    "/",
    "\u{7F}",
    "{}",
    "[,]",
    "'",
    "com.android.tools.r8",
];

/// The escapes of two characters.
pub const SHORT_ESCAPES: [&str; 8] = ["\\\"", "\\\\", "\\/", "\\b", "\\f", "\\n", "\\r", "\\t"];

/// Characters that are written as one `\u` escape, and as two.
pub const ESCAPED: [RangeInclusive<u32>; 2] = [0x0..=0x7F, 0x1_0000..=0x10_FFFF];

/// What may not stand in a string: surrogates that are alone, reversed or doubled, and escapes that are none.
pub const BAD_PIECES: [&str; 26] = [
    "\\uD834",
    "\\udd1e",
    "\\udd1e\\ud834",
    "\\uD834\\uD834\\uDD1E",
    "\\uD834\\uDD1E\\uDD1E",
    "\\uD834\\u0041",
    "\\uD834 \\uDD1E",
    "\\uD834\\n",
    "\\uD834\\",
    "\\uD834\\u",
    "\\uDBFF\\uE000",
    "\\uDBFF\\uDBFF",
    "\\uD7FF\\uDC00",
    "\\uDC00\\uDC00",
    "\\u",
    "\\u1",
    "\\u123",
    "\\u12G4",
    "\\U0041",
    "\\u+123",
    "\\u 123",
    "\\v",
    "\\x41",
    "\\'",
    "\\0",
    "\\",
];

/// Edges of what the lengths in UTF-8 and the surrogates divide.
pub const UNITS: [u16; 16] = [
    0x0, 0x1F, 0x20, 0x22, 0x2F, 0x5C, 0x7F, 0x80, 0x7FF, 0x800, 0xD7FF, 0xE000, 0xFEFF, 0xFFFD,
    0xFFFE, 0xFFFF,
];

/// Names that are nearly those asked for.
pub const NEAR_KEYS: [&str; 12] = [
    "",
    "i",
    "ID",
    "Id",
    "id ",
    " id",
    "idd",
    "i\\u0064\\u0000",
    "signatur",
    "Signature",
    "signature\\n",
    "\\/id",
];

/// What a careless reader takes for numbers.
pub const BAD_NUMBERS: [&str; 30] = [
    "00",
    "01",
    "-01",
    "-00",
    "1.",
    "-1.",
    ".5",
    "-.5",
    "+1",
    "+0",
    "1e",
    "1E+",
    "1e-",
    "-",
    "--1",
    "-+1",
    "0x1F",
    "1.e1",
    "1.5.5",
    "1e1e1",
    "1e1.5",
    "1_0",
    "1 1",
    "0e",
    "1,5",
    "\u{661}",
    "NaN",
    "Infinity",
    "-Infinity",
    "0b1",
];

/// What no value is.
pub const BAD_VALUES: [&str; 16] = [
    "tru",
    "truee",
    "True",
    "TRUE",
    "nul",
    "nulll",
    "nil",
    "fals",
    "falsey",
    "undefined",
    "'a'",
    "a",
    "",
    "()",
    "<1>",
    "t\\u0072ue",
];

/// What may not follow the object, other than white space.
pub const TRAILERS: [&str; 12] = [
    "x", "}", "{}", ",", "]", "\"\"", "#", "//", "1", "null", ";", "\\",
];

/// The id that makes a comment count.
pub const RESIDUAL: &str = "com.android.tools.r8.residualsignature";

/// A comment that gives the signature, as R8 writes it.
pub fn residual_comment(signature: &str) -> String {
    format!("# {{\"id\":\"{RESIDUAL}\",\"signature\":\"{signature}\"}}")
}

/// Bytes with a meaning in JSON, and some without.
pub const TELLING: &[u8] =
    b"\"\"\\\\u{}[],:0123456789+-.eEabtfnrl/ \t\n\r\x00\x0B\x0C\x1F\x7F\x80\xC3\xA9\xFF";
