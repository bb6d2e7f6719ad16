//! Random texts: of many scripts, at the edges of the encoding, and damaged.

use crate::random::Random;
use std::ops::RangeInclusive;

/// Letters of scripts whose characters take two, three and four bytes.
pub const SCRIPTS: [RangeInclusive<u32>; 12] = [
    0x61..=0x7A,       // Latin
    0xC0..=0x17F,      // Latin with accents
    0x391..=0x3C9,     // Greek
    0x410..=0x44F,     // Cyrillic
    0x5D0..=0x5EA,     // Hebrew
    0x627..=0x64A,     // Arabic
    0x905..=0x939,     // Devanagari
    0xE01..=0xE2E,     // Thai
    0x3041..=0x3096,   // Hiragana
    0x4E00..=0x9FA5,   // CJK
    0xAC00..=0xD7A3,   // Hangul
    0x1F600..=0x1F64F, // emoji
];

/// Where the length of a sequence or the bounds of its second byte change.
const EDGES: [u32; 18] = [
    0x0, 0x7F, 0x80, 0x7FF, 0x800, 0xFFF, 0x1000, 0xCFFF, 0xD000, 0xD7FF, 0xE000, 0xFFFD, 0xFFFF,
    0x10000, 0x3FFFF, 0x40000, 0xFFFFF, 0x10FFFF,
];

/// A character of the range; the range holds no surrogates, and U+FFFD would stand for one.
pub fn letter_of(random: &mut Random, script: &RangeInclusive<u32>) -> char {
    let width = (script.end() - script.start()) as usize + 1;
    let code = script.start() + random.below(width) as u32;
    char::from_u32(code).unwrap_or(char::REPLACEMENT_CHARACTER)
}

/// Words of one script each, with spaces between, of at least `length` bytes.
pub fn words(random: &mut Random, length: usize) -> String {
    let mut text = String::with_capacity(length + 64);
    while text.len() < length {
        let script = random.pick(&SCRIPTS);
        for _ in 0..=random.below(9) {
            text.push(letter_of(random, script));
        }
        text.push(' ');
    }
    text
}

/// Characters at the edges of the encoding, of at most `most` characters.
pub fn edges(random: &mut Random, most: usize) -> String {
    let count = random.below(most + 1);
    (0..count)
        .filter_map(|_| char::from_u32(*random.pick(&EDGES)))
        .collect()
}

/// ASCII with now and then another character, for readers that go over ASCII in strides.
pub fn mostly_ascii(random: &mut Random, most: usize) -> String {
    let count = random.below(most + 1);
    let letter = |_| {
        if random.once_in(40) {
            let script = random.pick(&SCRIPTS);
            letter_of(random, script)
        } else {
            char::from(random.byte() & 0x7F)
        }
    };
    (0..count).map(letter).collect()
}

/// Bytes with a meaning in UTF-8: the ends of what may stand first, second and later, and what lies next to them.
pub const TELLING: [u8; 18] = [
    0x00, 0x7F, 0x80, 0x8F, 0x90, 0x9F, 0xA0, 0xBF, 0xC0, 0xC2, 0xDF, 0xE0, 0xED, 0xEF, 0xF0, 0xF4,
    0xF5, 0xFF,
];

/// Changes, drops or puts in one byte, or cuts the text there.
pub fn damage(random: &mut Random, text: &mut Vec<u8>) {
    let at = random.below(text.len() + 1);
    let byte = if random.once_in(2) {
        *random.pick(&TELLING)
    } else {
        random.byte()
    };
    match random.below(4) {
        0 if at < text.len() => text[at] = byte,
        1 if at < text.len() => {
            text.remove(at);
        }
        2 => text.truncate(at),
        _ => text.insert(at, byte),
    }
}
