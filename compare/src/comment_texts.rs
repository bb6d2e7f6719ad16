//! Random comments: JSON of every form, with slips in it, and damaged.

use crate::comment_parts::{
    BAD_NUMBERS, BAD_PIECES, BAD_VALUES, ESCAPED, NEAR_KEYS, OTHER_SPACES, RESIDUAL, SHORT_ESCAPES,
    SPACES, TELLING, TRAILERS, UNITS, WORDS,
};
use crate::random::Random;
use crate::texts::{self, SCRIPTS};

/// Writes one text. Where `slips` is not 0, one in so many of its parts is written wrong.
struct Writer<'a> {
    random: &'a mut Random,
    text: String,
    slips: usize,
}

impl Writer<'_> {
    fn slip(&mut self) -> bool {
        self.slips > 0 && self.random.once_in(self.slips)
    }

    fn one_of(&mut self, parts: &[&str]) {
        self.text += *self.random.pick(parts);
    }

    fn space(&mut self) {
        if self.random.once_in(8) {
            self.one_of(&SPACES);
        }
        if self.slip() {
            self.one_of(&OTHER_SPACES);
        }
    }

    /// The part, which a slip leaves out or writes twice.
    fn mark(&mut self, part: &str) {
        let times = if self.slip() {
            2 * self.random.below(2)
        } else {
            1
        };
        for _ in 0..times {
            self.text += part;
        }
    }

    /// A `\u` escape with its digits in either case.
    fn unit(&mut self, unit: u16) {
        self.text += "\\u";
        for digit in format!("{unit:04x}").chars() {
            let upper = self.random.once_in(2);
            self.text.push(if upper {
                digit.to_ascii_uppercase()
            } else {
                digit
            });
        }
    }

    /// Each character of the word plain, or one in `often` escaped.
    fn escaped(&mut self, word: &str, often: usize) {
        for character in word.chars() {
            let mut units = [0; 2];
            if self.random.once_in(often) {
                for unit in character.encode_utf16(&mut units) {
                    self.unit(*unit);
                }
            } else {
                self.text.push(character);
            }
        }
    }

    fn piece(&mut self) {
        if self.slip() {
            return self.bad_piece();
        }
        match self.random.below(9) {
            0..=2 => self.one_of(&WORDS),
            3 => {
                let script = self.random.pick(&SCRIPTS);
                self.text.push(texts::letter_of(self.random, script));
            }
            4 | 5 => self.one_of(&SHORT_ESCAPES),
            6 => {
                let unit = *self.random.pick(&UNITS);
                self.unit(unit);
            }
            _ => {
                let range = self.random.pick(&ESCAPED);
                let character = texts::letter_of(self.random, range);
                self.escaped(character.encode_utf8(&mut [0; 4]), 1);
            }
        }
    }

    fn bad_piece(&mut self) {
        if self.random.once_in(2) {
            self.one_of(&BAD_PIECES);
        } else {
            self.text.push(char::from(self.random.byte() & 0x1F));
        }
    }

    fn string(&mut self) {
        self.mark("\"");
        let most = if self.random.once_in(50) { 200 } else { 6 };
        for _ in 0..self.random.below(most) {
            self.piece();
        }
        self.mark("\"");
    }

    fn quoted(&mut self, word: &str) {
        self.mark("\"");
        match self.random.below(4) {
            0 => self.escaped(word, 1),
            1 => self.escaped(word, 9),
            _ => self.text += word,
        }
        self.mark("\"");
    }

    fn key(&mut self) {
        match self.random.below(9) {
            0..=2 => self.quoted("id"),
            3..=5 => self.quoted("signature"),
            6 => {
                let near = *self.random.pick(&NEAR_KEYS);
                self.text += &format!("\"{near}\"");
            }
            _ => self.string(),
        }
    }

    /// The id of a residual signature, or a text that is that but for one character.
    fn residual(&mut self) {
        let mut id = String::from(RESIDUAL);
        let at = self.random.below(id.len());
        match self.random.below(16) {
            0 => id.truncate(at),
            1 => id.push('x'),
            2 => id.insert(at, '.'),
            3 => id.replace_range(at..=at, "_"),
            4 => id.replace_range(at..=at, ""),
            5 => id = id.to_uppercase(),
            6 => id.push('\u{E9}'),
            7 => id += RESIDUAL,
            _ => {}
        }
        self.quoted(&id);
    }

    fn digits(&mut self, most: usize) {
        for _ in 0..=self.random.below(most) {
            self.text.push(char::from(b'0' + self.random.byte() % 10));
        }
    }

    /// A number of at most 200 characters with an exponent from -99 to 99.
    fn number(&mut self) {
        if self.slip() {
            return self.one_of(&BAD_NUMBERS);
        }
        let most = if self.random.once_in(30) { 96 } else { 4 };
        self.one_of(&["", "", "-"]);
        if self.random.once_in(3) {
            self.text.push('0');
        } else {
            self.text.push(char::from(b'1' + self.random.byte() % 9));
            self.digits(most + 1);
        }
        if self.random.once_in(3) {
            self.text.push('.');
            self.digits(most);
        }
        if self.random.once_in(3) {
            self.one_of(&["e", "E", "e+", "E+", "e-", "E-"]);
            self.digits(2);
        }
    }

    fn value(&mut self, levels: usize) {
        if self.slip() {
            return self.one_of(&BAD_VALUES);
        }
        let kinds = if levels == 0 { 7 } else { 9 };
        match self.random.below(kinds) {
            0..=2 => self.string(),
            3 => self.residual(),
            4 | 5 => self.number(),
            6 => self.one_of(&["true", "false", "null"]),
            7 => self.array(levels - 1),
            _ => self.object(levels - 1),
        }
    }

    fn separated(&mut self, count: usize, mut part: impl FnMut(&mut Self)) {
        for turn in 0..count {
            if turn > 0 {
                self.mark(",");
            }
            self.space();
            part(self);
            self.space();
        }
        if self.slip() {
            self.text.push(',');
        }
    }

    fn array(&mut self, levels: usize) {
        self.mark("[");
        self.space();
        let count = self.random.below(4);
        self.separated(count, |writer| writer.value(levels));
        self.mark("]");
    }

    fn member(&mut self, levels: usize) {
        self.key();
        self.space();
        self.mark(":");
        self.space();
        self.value(levels);
    }

    fn object(&mut self, levels: usize) {
        self.text.push('{');
        self.space();
        let count = self.random.below(5);
        self.separated(count, |writer| writer.member(levels));
        self.mark("}");
    }

    /// As R8 writes it, more or less.
    fn residual_comment(&mut self) {
        self.text.push('{');
        self.separated(1, |writer| {
            writer.quoted("id");
            writer.mark(":");
            writer.residual();
        });
        self.mark(",");
        self.separated(1, |writer| {
            writer.quoted("signature");
            writer.mark(":");
            writer.string();
        });
        self.mark("}");
    }

    /// Levels around the 127 that are read, of objects, of arrays or of both.
    fn deep_comment(&mut self) {
        let levels = 120 + self.random.below(12);
        let arrays = *self.random.pick(&[0, 50, 100]);
        let mut ends = Vec::new();
        for level in 0..levels {
            if level > 0 && self.random.below(100) < arrays {
                self.text.push('[');
                ends.push("]");
            } else {
                self.text.push('{');
                self.key();
                self.text.push(':');
                ends.push("}");
            }
        }
        let more = usize::from(self.random.once_in(4));
        self.value(more);
        for end in ends.into_iter().rev() {
            self.mark(end);
        }
    }
}

/// A comment's text from its `{` on; one in two has slips.
pub fn comment(random: &mut Random) -> String {
    let slips = if random.once_in(2) {
        12 + random.below(60)
    } else {
        0
    };
    let text = String::new();
    let mut writer = Writer {
        random,
        text,
        slips,
    };
    if writer.random.once_in(8) {
        writer.space();
    }
    match writer.random.below(32) {
        0 => writer.deep_comment(),
        1..=11 => writer.residual_comment(),
        _ => writer.object(3),
    }
    writer.space();
    if writer.slip() {
        writer.one_of(&TRAILERS);
    }
    writer.text
}

/// Any bytes where a value should stand, most often between quotation marks.
pub fn any_bytes(random: &mut Random) -> Vec<u8> {
    let (before, after) = *random.pick(&[
        ("{\"id\":\"", "\"}"),
        ("{\"id\":\"", "\"}"),
        ("{\"id\":", "}"),
    ]);
    let count = random.below(12);
    let bytes: Vec<u8> = (0..count).map(|_| random.byte()).collect();
    [before.as_bytes(), &bytes, after.as_bytes()].concat()
}

/// Changes, drops or puts in a byte, cuts the text, or drops, repeats or swaps parts of it.
pub fn damage(random: &mut Random, text: &mut Vec<u8>) {
    let (one, two) = (random.below(text.len() + 1), random.below(text.len() + 1));
    let (start, end) = (one.min(two), one.max(two).min(one.min(two) + 20));
    let byte = *random.pick(TELLING);
    match random.below(9) {
        0 | 1 if start < text.len() => text[start] = byte,
        2 if start < text.len() => {
            text.remove(start);
        }
        3 => text.truncate(start),
        4 => drop(text.drain(start..end)),
        5 => {
            let part = text[start..end].to_vec();
            text.splice(start..start, part);
        }
        6 => {
            let middle = start + random.below(end - start + 1);
            text[start..end].rotate_left(middle - start);
        }
        7 => texts::damage(random, text),
        _ => text.insert(start, byte),
    }
}
