//! Random mappings in which many class lines have one name, and many members one name and descriptor: the last one answers.

use crate::comment_parts::residual_comment;
use crate::random::Random;
use crate::shared_marks;

const PLAIN: [&str; 4] = ["a.A", "b", "a.A$B", "A"];

/// A few names, which share one mark or are plain ones.
fn few_names(random: &mut Random) -> Vec<String> {
    let alike = random.once_in(2);
    let name = |at: usize| {
        if alike {
            shared_marks::name(at, 2)
        } else {
            PLAIN[at].to_owned()
        }
    };
    (0..1 + random.below(4)).map(name).collect()
}

/// The names on one side of the class lines.
struct Side {
    /// what most lines share; where there are none, each line has a name of its own
    few: Vec<String>,
    /// what the names of their own begin with
    own: &'static str,
}

impl Side {
    fn name(&self, random: &mut Random, line: usize) -> String {
        if self.few.is_empty() {
            format!("{}{line}", self.own)
        } else {
            random.pick(&self.few).clone()
        }
    }
}

struct Writer<'a> {
    random: &'a mut Random,
    text: String,
    display: Side,
    raw: Side,
    /// how many class lines there are
    lines: usize,
}

impl Writer<'_> {
    fn class_line(&mut self, line: usize) {
        let display = self.display.name(self.random, line);
        let raw = self.raw.name(self.random, line);
        self.text += &format!("{display} -> {raw}:\n");
    }

    /// The display name of some class line, before or after this one, or seldom of none.
    fn display(&mut self) -> String {
        let line = self.random.below(self.lines + 1);
        self.display.name(self.random, line)
    }

    fn declared(&mut self) -> String {
        match self.random.below(8) {
            0 => "int".to_owned(),
            1 => self.display() + "[]",
            _ => self.display(),
        }
    }

    fn method_line(&mut self, raw: &str) {
        let returned = self.declared();
        let owner = if self.random.once_in(4) {
            self.display() + "."
        } else {
            String::new()
        };
        let name = *self.random.pick(&["m", "n"]);
        let count = self.random.below(3);
        let arguments: Vec<String> = (0..count).map(|_| self.declared()).collect();
        let arguments = arguments.join(",");
        let range = *self.random.pick(&["", "1:3:", "4:9:"]);
        let shown = *self.random.pick(&["", ":10", ":10:12"]);
        self.text += &format!(" {range}{returned} {owner}{name}({arguments}){shown} -> {raw}\n");
    }

    fn field_line(&mut self, raw: &str) {
        let declared = self.declared();
        let name = *self.random.pick(&["m", "n"]);
        self.text += &format!(" {declared} {name} -> {raw}\n");
    }

    /// A signature of few, so that other members come to the same.
    fn residual(&mut self, method: bool) {
        let line = self.random.below(self.lines.min(3));
        let name = self.raw.name(self.random, line).replace('.', "/");
        let signature = if method {
            format!("(L{name};)V")
        } else {
            format!("L{name};")
        };
        self.text += &format!("  {}\n", residual_comment(&signature));
    }

    fn member(&mut self) {
        let method = self.random.once_in(2);
        let raw = *self.random.pick(&["a", "b"]);
        if method {
            self.method_line(raw);
        } else {
            self.field_line(raw);
        }
        // none, or up to two, of which the last one counts
        for _ in 0..self.random.below(6) / 3 + self.random.below(6) / 5 {
            self.residual(method);
        }
    }
}

/// So many class lines, and up to so many members after each.
pub fn mapping(random: &mut Random, lines: usize, members: usize) -> String {
    let (displays, raws) = (few_names(random), few_names(random));
    let (displays, raws) = match random.below(3) {
        0 => (displays, Vec::new()),
        1 => (Vec::new(), raws),
        _ => (displays, raws),
    };
    let side = |few, own| Side { few, own };
    let mut writer = Writer {
        random,
        text: String::new(),
        display: side(displays, "a.C"),
        raw: side(raws, "c"),
        lines,
    };
    for line in 0..lines {
        writer.class_line(line);
        for _ in 0..writer.random.below(members + 1) {
            writer.member();
        }
    }
    writer.text
}
