//! Random mapping texts: good ones, such as stand near the edges of the rules, and damaged ones.

use crate::comment_parts::residual_comment;
use crate::comment_texts;
use crate::load_parts::{
    ARGUMENT_LISTS, BROKEN, CLASS_NAMES, COMMENTS, IDS, INDENTS, LEADING, LINE_ENDS, MEMBER_NAMES,
    ODD_CLASS_NAMES, ODD_TYPES, SIGNATURES, TRAILING, WORD_TYPES,
};
use crate::part_texts;
use crate::random::Random;
use crate::texts;

/// Writes one text. Where `slips` is not 0, one in so many of its parts is an odd one.
struct Writer<'a> {
    random: &'a mut Random,
    text: String,
    slips: usize,
    /// the class names of this text: few, so that they meet again, before their class line as after it
    names: Vec<&'static str>,
}

impl Writer<'_> {
    fn slip(&mut self) -> bool {
        self.slips > 0 && self.random.once_in(self.slips)
    }

    /// The part, or the odd one.
    fn mark(&mut self, part: &str, odd: &str) {
        let slip = self.slip();
        self.text += if slip { odd } else { part };
    }

    fn one_of(&mut self, parts: &[&str]) {
        self.text += *self.random.pick(parts);
    }

    fn class_name(&mut self) {
        if self.slip() {
            return self.one_of(&ODD_CLASS_NAMES);
        }
        self.text += *self.random.pick(&self.names);
    }

    fn end(&mut self) {
        if self.slip() {
            self.one_of(&LINE_ENDS);
        } else {
            self.text.push('\n');
        }
    }

    fn indent(&mut self) {
        if self.slip() {
            self.one_of(&INDENTS);
        } else {
            self.one_of(&["    ", "  ", " ", "\t"]);
        }
    }

    fn arrow(&mut self) {
        if self.slip() {
            self.one_of(&["->", " ->", "-> ", " - > ", "->->", "\u{A0}->\u{3000}", " "]);
        } else {
            self.text += " -> ";
        }
    }

    fn class_line(&mut self) {
        if self.slip() {
            self.one_of(&INDENTS);
        }
        self.class_name();
        self.arrow();
        self.class_name();
        if self.slip() {
            self.one_of(&["", "::", " :", ":\u{3000}", ": ", ":x"]);
        } else {
            self.text.push(':');
        }
        self.end();
    }

    fn declared(&mut self) {
        if self.slip() {
            return self.one_of(&ODD_TYPES);
        }
        if self.random.once_in(2) {
            self.one_of(&WORD_TYPES);
        } else {
            self.class_name();
        }
        for _ in 0..self.random.below(8) / 5 {
            self.text += "[]";
        }
    }

    fn member_name(&mut self) {
        let odd = self.slip();
        let plain = &MEMBER_NAMES[..4];
        self.one_of(if odd { &MEMBER_NAMES } else { plain });
    }

    fn field_line(&mut self) {
        self.indent();
        self.declared();
        self.mark(" ", "");
        self.member_name();
        self.arrow();
        self.member_name();
        self.end();
    }

    fn arguments(&mut self) {
        if self.slip() {
            return self.one_of(&ARGUMENT_LISTS);
        }
        for turn in 0..self.random.below(4) {
            if turn > 0 {
                self.text.push(',');
            }
            self.declared();
        }
    }

    fn method_line(&mut self) {
        self.indent();
        let odd = self.slip();
        self.one_of(if odd { &LEADING } else { &LEADING[..5] });
        self.declared();
        self.mark(" ", "\u{3000} ");
        if self.random.once_in(3) {
            self.class_name();
            self.text.push('.');
        }
        self.member_name();
        self.mark("(", ")(");
        self.arguments();
        self.mark(")", "");
        let odd = self.random.once_in(3) || self.slip();
        self.one_of(if odd { &TRAILING } else { &TRAILING[..5] });
        self.arrow();
        self.member_name();
        self.end();
    }

    fn signature(&mut self) -> &'static str {
        let plain = self.random.once_in(3) && !self.slip();
        let among: &[&str] = if plain { &SIGNATURES[..4] } else { &SIGNATURES };
        self.random.pick::<&str>(among)
    }

    fn comment_line(&mut self) {
        if self.random.once_in(4) {
            self.indent();
        }
        match self.random.below(12) {
            0 => {
                let comment = comment_texts::comment(self.random);
                self.text += "# ";
                self.text += &comment;
            }
            1 => self.one_of(&COMMENTS),
            2 | 3 => self.odd_residual(),
            _ => {
                let signature = self.signature();
                self.text += &residual_comment(signature);
            }
        }
        self.end();
    }

    /// A residual comment with its members in any number and order.
    fn odd_residual(&mut self) {
        self.one_of(&["# {", "#{", "# x {", "# { ", "#\u{3000}{\t"]);
        for turn in 0..1 + self.random.below(4) {
            if turn > 0 {
                self.text.push(',');
            }
            match self.random.below(6) {
                0 | 1 => {
                    self.one_of(&["\"id\":\"", "\"id\" : \"", "\"i\\u0064\":\""]);
                    self.one_of(&IDS);
                    self.text.push('"');
                }
                2 | 3 => {
                    self.one_of(&["\"signature\":\"", "\"sign\\u0061ture\": \""]);
                    let signature = self.signature();
                    self.text += signature;
                    self.text.push('"');
                }
                4 => self.one_of(&["\"signature\":1", "\"id\":null", "\"signature\":[\"I\"]"]),
                _ => self.one_of(&["\"a\":{\"id\":\"b\"}", "\"\":[1e5,true]", "\"ID\":\"\""]),
            }
        }
        self.one_of(&["}", "}", "}", "}", " }", "} ", "}x", "", "}}"]);
    }

    fn blank_line(&mut self) {
        self.one_of(&[
            "",
            "",
            " ",
            "\t",
            "\r",
            "\u{A0}",
            "\u{3000} \u{85}",
            "\u{2028}",
        ]);
        self.end();
    }

    fn member_line(&mut self) {
        match self.random.below(16) {
            0 => self.blank_line(),
            1..=4 => self.comment_line(),
            5..=8 => self.field_line(),
            9 if self.slips > 0 => {
                let line = part_texts::line(self.random);
                self.text += &line;
                self.end();
            }
            _ => self.method_line(),
        }
    }

    fn text(&mut self) {
        if self.random.once_in(12) {
            self.one_of(&["\u{FEFF}", "\u{FEFF}\u{FEFF}", "\u{FEFF} ", " \u{FEFF}"]);
        }
        if self.random.once_in(6) {
            self.comment_line();
        }
        if self.slip() {
            self.member_line();
        }
        for _ in 0..1 + self.random.below(3) {
            if !self.slip() {
                self.class_line();
            }
            for _ in 0..self.random.below(5) {
                self.member_line();
            }
        }
        // the last line without its end
        if self.random.once_in(4) {
            self.text.pop();
        }
    }
}

/// Text with no class line, most often.
fn classless(random: &mut Random) -> String {
    let lines = [
        "",
        "#",
        "# {}",
        "\u{FEFF}",
        "\r",
        " ",
        "\u{3000}",
        "#\u{A0}{\"id\":1}",
    ];
    let mut text = String::new();
    for _ in 0..random.below(5) {
        text += *random.pick(&lines);
        text += *random.pick(&["\n", "\n", "\r\n", ""]);
    }
    text
}

/// A text of a few lines.
fn whole(random: &mut Random) -> String {
    if random.once_in(40) {
        return classless(random);
    }
    let slips = if random.once_in(2) {
        0
    } else {
        20 + random.below(80)
    };
    let names = (0..2 + random.below(3)).map(|_| *random.pick(&CLASS_NAMES));
    let names = names.collect();
    let text = String::new();
    let mut writer = Writer {
        random,
        text,
        slips,
        names,
    };
    writer.text();
    writer.text
}

/// Drops, doubles, swaps or cuts a line.
fn damage_lines(random: &mut Random, text: &[u8]) -> Vec<u8> {
    let mut lines: Vec<&[u8]> = text.split_inclusive(|byte| *byte == b'\n').collect();
    if lines.is_empty() {
        return Vec::new();
    }
    let (one, two) = (random.below(lines.len()), random.below(lines.len()));
    match random.below(4) {
        0 => drop(lines.remove(one)),
        1 => lines.insert(two, lines[one]),
        2 => lines.swap(one, two),
        _ => lines[one] = &lines[one][..random.below(lines[one].len() + 1)],
    }
    lines.concat()
}

/// Changes, drops, doubles or swaps bytes or lines.
pub fn damage(random: &mut Random, text: &mut Vec<u8>) {
    match random.below(5) {
        0 if random.once_in(2) => {
            let at = random.below(text.len() + 1);
            let broken = *random.pick(&BROKEN);
            text.splice(at..at, broken.iter().copied());
        }
        0 => texts::damage(random, text),
        1 | 2 => *text = damage_lines(random, text),
        3 => {
            let (one, two) = (random.below(text.len()), random.below(text.len()));
            if !text.is_empty() {
                text.swap(one, two);
            }
        }
        _ => comment_texts::damage(random, text),
    }
}

/// A text, one in three of them damaged.
pub fn text(random: &mut Random) -> Vec<u8> {
    let mut text = whole(random).into_bytes();
    if random.once_in(3) {
        for _ in 0..1 + random.below(2) {
            damage(random, &mut text);
        }
    }
    text
}
