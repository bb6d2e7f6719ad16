//! Random mappings with runs of lines that name nothing between class lines and members: blank ones, and comments of all kinds.

use crate::comment_parts::residual_comment;
use crate::comment_texts;
use crate::load_parts::{COMMENTS, SIGNATURES};
use crate::random::Random;

const CLASSES: [&str; 4] = ["a.Main -> x:", "b -> y:", "a.Main->b:", "c -> x:"];

const MEMBERS: [&str; 6] = [
    "    int n -> c",
    " a.Main n -> c",
    "\tb[] n -> d",
    "    1:9:void run(int,a.Main):10:19 -> d",
    " b c.run(b,b) -> c",
    "\u{3000}void run():7:x -> d",
];

/// Blank lines that are no run of one character.
const BLANK: [&str; 6] = ["", "\r", "\r\r", " \t", "\u{A0}\u{85}", "\u{3000} \u{2028}"];

/// How many kinds of lines `idle_line` knows.
const KINDS: usize = 10;

fn white(random: &mut Random, character: char, most: usize) -> String {
    character.to_string().repeat(1 + random.below(most))
}

/// A line of the kind, without its end.
fn idle_line(random: &mut Random, kind: usize) -> String {
    match kind {
        0 => String::new(),
        1 => (*random.pick(&BLANK)).to_owned(),
        2 => white(random, ' ', 100),
        3 => white(random, '\u{3000}', 40),
        4 => "#".to_owned(),
        5 => white(random, ' ', 8) + "#",
        6 => (*random.pick(&COMMENTS)).to_owned(),
        7 => format!("    {}", random.pick(&COMMENTS)),
        8 => {
            let json = comment_texts::comment(random);
            // white space of JSON may end a line
            format!("# {}", json.replace('\n', " "))
        }
        _ => residual_comment(random.pick::<&str>(&SIGNATURES)),
    }
}

/// None, or up to a few dozen; once in a while many more.
fn run_length(random: &mut Random) -> usize {
    match random.below(200) {
        0 => random.below(2_000),
        1..60 => 0,
        60..120 => random.below(5),
        _ => random.below(40),
    }
}

struct Writer<'a> {
    random: &'a mut Random,
    text: String,
    end: &'static str,
}

impl Writer<'_> {
    fn line(&mut self, line: &str) {
        self.text += line;
        self.text += self.end;
    }

    /// Lines of one kind, or of any.
    fn run(&mut self) {
        let one = self.random.once_in(2);
        let first = self.random.below(KINDS);
        for _ in 0..run_length(self.random) {
            let kind = if one { first } else { self.random.below(KINDS) };
            let line = idle_line(self.random, kind);
            self.line(&line);
        }
    }

    fn class(&mut self) {
        let line = *self.random.pick(&CLASSES);
        self.line(line);
        self.run();
        for _ in 0..self.random.below(5) {
            let line = *self.random.pick(&MEMBERS);
            self.line(line);
            self.run();
        }
    }
}

pub fn mapping(random: &mut Random) -> String {
    let end = *random.pick(&["\n", "\n", "\r\n"]);
    let text = String::new();
    let mut writer = Writer { random, text, end };
    if writer.random.once_in(3) {
        writer.run();
    }
    for _ in 0..1 + writer.random.below(3) {
        writer.class();
    }
    // the last line without its end, or with half of it
    if writer.random.once_in(4) {
        writer.text.pop();
    }
    writer.text
}
