//! Random lines of mapping files: as they stand there, with odd parts, and damaged.

use crate::random::Random;

const SPACES: [&str; 24] = [
    " ",
    " ",
    " ",
    " ",
    "  ",
    "\t",
    "    ",
    "\r",
    "\u{A0}",
    "\u{2003}",
    "\u{3000}",
    "\u{85}",
    "\u{B}",
    "\u{C}",
    "\u{1680}",
    "\u{2028}",
    "\u{202F}",
    "\u{205F}",
    " \u{3000} ",
    "",
    "",
    "\u{200B}",
    "\u{FEFF}",
    "\u{1C}",
];

const ARROWS: [&str; 20] = [
    " -> ",
    " -> ",
    " -> ",
    "->",
    " ->",
    "-> ",
    "\u{3000}->\u{A0}",
    "-->",
    "->->",
    "->>",
    " -> -> ",
    " - > ",
    "=>",
    "-",
    ">",
    "",
    ">-",
    " ->\r",
    "\u{85}->",
    " -> a -> ",
];

const NAMES: [&str; 34] = [
    "a",
    "b",
    "a.b.C",
    "com.example.Main",
    "<init>",
    "<clinit>",
    "void",
    "int",
    "byte[]",
    "java.lang.String[][]",
    "lambda$run$0",
    "é",
    "\u{4E00}\u{4E8C}",
    "\u{1F600}",
    "",
    "",
    ".",
    "..",
    "a.",
    ".a",
    "a..b",
    "-",
    ">",
    ":",
    "#",
    "{",
    "}",
    "(",
    ")",
    ",",
    "[]",
    "a b",
    "a.b c.d",
    "$",
];

const NUMBERS: [&str; 22] = [
    "0",
    "1",
    "7",
    "10",
    "12",
    "900",
    "4294967295",
    "4294967296",
    "42949672950",
    "+7",
    "+",
    "-1",
    "",
    "x",
    " 3",
    "3 ",
    "0012",
    "\u{661}",
    "1x",
    "0x1",
    "++1",
    "99999999999999999999",
];

const TRAILERS: [&str; 22] = [
    "",
    "",
    "",
    "",
    ":10",
    ":10:12",
    ":10:x",
    ":x:10",
    ":1:2:3",
    ":",
    "::",
    ":10:",
    "::10",
    " :10",
    ":10 ",
    ": 10",
    ":+7:+9",
    ":4294967295",
    ":4294967296",
    ":7:4294967296",
    "10",
    "x:10",
];

const MARKS: [&str; 26] = [
    "->", "->", " ", " ", ":", ":", "(", ")", ".", ",", "#", "{", "}", "a", "b", "1", "23", "\r",
    "\u{3000}", "\u{A0}", "\u{85}", "\u{2003}", "-", ">", "é", "\t",
];

fn space(random: &mut Random) -> &'static str {
    random.pick::<&str>(&SPACES)
}

fn name(random: &mut Random) -> &'static str {
    random.pick::<&str>(&NAMES)
}

/// A name, mostly a plain one.
fn plain(random: &mut Random) -> &'static str {
    if random.once_in(3) {
        name(random)
    } else {
        random.pick::<&str>(&NAMES[..14])
    }
}

fn arrow(random: &mut Random) -> &'static str {
    if random.once_in(3) {
        random.pick::<&str>(&ARROWS)
    } else {
        " -> "
    }
}

fn class_line(random: &mut Random) -> String {
    let end = *random.pick(&[
        ":",
        ":",
        ":",
        ":",
        "",
        "::",
        " :",
        ": ",
        ":\r",
        ":\u{3000}",
        ":a",
        ";",
    ]);
    format!("{}{}{}{end}", plain(random), arrow(random), plain(random))
}

fn arguments(random: &mut Random) -> String {
    let mut text = String::new();
    for turn in 0..random.below(5) {
        if turn > 0 {
            text += *random.pick(&[",", ",", ",", ", ", " ,", ",,", ", ,", ",\u{3000},"]);
        }
        text += plain(random);
        if random.once_in(6) {
            text += space(random);
        }
    }
    text
}

fn leading(random: &mut Random) -> String {
    let (first, second) = (*random.pick(&NUMBERS), *random.pick(&NUMBERS));
    match random.below(8) {
        0..=2 => String::new(),
        3..=5 => format!("{first}:{second}:"),
        6 => format!("{first}:"),
        _ => format!(
            "{first}:{second}:{}",
            random.pick(&[":", " ", "3:", "\u{A0}", "a:"])
        ),
    }
}

fn method_line(random: &mut Random) -> String {
    let mut text = leading(random);
    text += plain(random);
    text += if random.once_in(4) {
        space(random)
    } else {
        " "
    };
    text += plain(random);
    if random.once_in(3) {
        text += ".";
        text += plain(random);
    }
    text += *random.pick(&["(", "(", "(", "(", "(", "(", ")(", "((", " (", "(("]);
    text += &arguments(random);
    text += *random.pick(&[")", ")", ")", ")", ")", ")", "", "))", ")(", ") "]);
    text += *random.pick(&TRAILERS);
    text += arrow(random);
    text + plain(random)
}

fn field_line(random: &mut Random) -> String {
    let between = if random.once_in(3) {
        space(random)
    } else {
        " "
    };
    format!(
        "{}{between}{}{}{}",
        plain(random),
        plain(random),
        arrow(random),
        plain(random)
    )
}

fn soup(random: &mut Random) -> String {
    (0..random.below(14))
        .map(|_| *random.pick(&MARKS))
        .collect()
}

/// A line of any kind.
pub fn line(random: &mut Random) -> String {
    let indent = if random.once_in(3) {
        space(random)
    } else {
        "    "
    };
    let end = if random.once_in(6) { space(random) } else { "" };
    match random.below(12) {
        0 | 1 => class_line(random),
        2 => format!("{indent}{}", class_line(random)),
        3 | 4 => format!("{indent}{}{end}", field_line(random)),
        5..=8 => format!("{indent}{}{end}", method_line(random)),
        9 => format!(
            "{}#{}{end}",
            if random.once_in(2) { indent } else { "" },
            soup(random)
        ),
        10 => format!("{indent}{}", soup(random)),
        _ => soup(random),
    }
}

/// What stands between the parentheses of a method.
pub fn between(random: &mut Random) -> String {
    if random.once_in(3) {
        soup(random)
    } else {
        arguments(random)
    }
}

/// Changes, drops or puts in one character, or cuts the text there.
pub fn damage(random: &mut Random, text: &str) -> String {
    let mut letters: Vec<char> = text.chars().collect();
    let at = random.below(letters.len() + 1);
    let mark = random.pick(&MARKS).chars().next().unwrap_or(' ');
    match random.below(4) {
        0 if at < letters.len() => letters[at] = mark,
        1 if at < letters.len() => {
            letters.remove(at);
        }
        2 => letters.truncate(at),
        _ => letters.insert(at, mark),
    }
    letters.into_iter().collect()
}
