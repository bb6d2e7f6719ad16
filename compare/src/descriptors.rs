//! Descriptors of class names, of types and of raw signatures, and descriptors with their class pieces turned, judged
//! by the original's own functions.

use crate::case::Text;
use crate::every;
use crate::original::doors;
use crate::proved::{self, Rooms};
use crate::random::Random;
use crate::reading::Sound;
use crate::report::{Comparison, Held, Report, Settings, Subject};
use std::str;

type Written = Sound<Vec<u8>>;

const CLASS: Subject<Text, Written> = Subject {
    name: "class",
    proved: |name| {
        written(name.0.len() + 2, |room, at| {
            proved::class(&name.0, room, at)
        })
    },
    judge: |name| Some(Ok(doors::class_descriptor(utf8(name)?).into_bytes())),
    outcome: |_| "written",
};

const TYPE: Subject<Text, Written> = Subject {
    name: "type",
    proved: |text| shaped(&text.0),
    judge: |text| Some(Ok(doors::type_descriptor(utf8(text)?).into_bytes())),
    outcome: |answer| match answer.as_deref() {
        Ok([b'[', ..]) => "array",
        Ok([b'L', ..]) => "class",
        Ok(_) => "word",
        Err(_) => "wrong",
    },
};

const FIELD: Subject<Text, Written> = Subject {
    name: "field sig.",
    proved: |text| settled(&text.0, false),
    judge: |text| Some(Ok(doors::raw_signature(utf8(text)?, false).into_bytes())),
    outcome: |_| "written",
};

const METHOD: Subject<Text, Written> = Subject {
    name: "method sig.",
    proved: |text| settled(&text.0, true),
    judge: |text| Some(Ok(doors::raw_signature(utf8(text)?, true).into_bytes())),
    outcome: |_| "written",
};

/// The raw descriptor of a field with that type, in a mapping of some classes.
const TURNED: Subject<Text, Written> = Subject {
    name: "turned",
    proved: |text| turned(&text.0),
    judge: |text| {
        let text = utf8(text).filter(|text| is_field_type(text))?;
        let descriptor = doors::type_descriptor(text);
        Some(Ok(doors::turned(&descriptor, look).into_bytes()))
    },
    outcome: |answer| match answer {
        Ok(descriptor) if descriptor.contains(&b'q') => "with a piece known",
        _ => "with none",
    },
};

fn utf8(text: &Text) -> Option<&str> {
    str::from_utf8(&text.0).ok()
}

/// What stands in a room before anything is written.
const RUBBISH: u8 = 0xA5;

/// What is written stands behind so many bytes.
const FRONT: usize = 3;

/// What is written, in a large room, an exact one and one a byte too small; at most `most` bytes.
fn written(most: usize, write: impl Fn(&mut [u8], usize) -> [u64; 2]) -> Written {
    let mut room = vec![RUBBISH; FRONT + most + 5];
    let [1, end] = write(&mut room, FRONT) else {
        return Err("no room in a large one");
    };
    let end = end as usize;
    let outside = room
        .iter()
        .enumerate()
        .any(|(at, byte)| (at < FRONT || end <= at) && *byte != RUBBISH);
    if end < FRONT || outside {
        return Err("written outside");
    }
    let bytes = room[FRONT..end].to_vec();
    let mut exact = vec![!RUBBISH; end];
    if write(&mut exact, FRONT) != [1, end as u64] || exact[FRONT..] != bytes {
        return Err("other in an exact room");
    }
    if end > FRONT && write(&mut vec![0; end - 1], FRONT) != [0, 0] {
        return Err("room though a byte is missing");
    }
    if write(&mut [0; 2], usize::MAX) != [0, 0] {
        return Err("room beyond the end");
    }
    Ok(bytes)
}

/// A signature settled where it stands.
fn settled(text: &[u8], method: bool) -> Written {
    written(text.len() + 2, |room, at| {
        let Some(end) = at.checked_add(text.len()).filter(|end| *end <= room.len()) else {
            return [0, 0];
        };
        room[at..end].copy_from_slice(text);
        proved::signature(room, at, end, method)
    })
}

/// "A class name becomes `L`, the name with dots as slashes, `;`."
fn class_of(name: &str) -> String {
    format!("L{};", name.replace('.', "/"))
}

/// A type's descriptor, put together by what the proved function says of its shape.
fn shaped(text: &[u8]) -> Written {
    let [brackets, start, end, kind, letter] = proved::type_shape(text);
    let text = str::from_utf8(text).map_err(|_| "not UTF-8")?;
    let (start, end) = (start as usize, end as usize);
    let parts = (text.get(..start), text.get(start..end), text.get(end..));
    let (Some(before), Some(base), Some(after)) = parts else {
        return Err("a base that does not lie in the text, or cuts a character");
    };
    let after = after.trim_end();
    if !before.trim().is_empty() || after.len() as u64 != 2 * brackets {
        return Err("more around the base than white space and brackets");
    }
    if after.as_bytes().chunks(2).any(|pair| pair != b"[]") {
        return Err("no brackets after the base");
    }
    let mut descriptor = vec![b'['; brackets as usize];
    match (kind, u8::try_from(letter)) {
        (0, Ok(letter)) if b"VZBCSIJFD".contains(&letter) => descriptor.push(letter),
        (1, Ok(0)) => descriptor.extend(base.bytes()),
        (2, Ok(0)) => descriptor.extend(class_of(base).bytes()),
        _ => return Err("no such shape"),
    }
    Ok(descriptor)
}

/// Display and raw names of the classes: such as the texts have in them, and raw names with a letter that no text has. One
/// display name stands twice, and the last counts; one raw name is a display name, and is not turned again.
const CLASSES: [(&str, &str); 18] = [
    ("a.Main", "q"),
    ("I", "q.s"),
    ("L", "q0"),
    (".", "q.v.w"),
    ("[", "q1"),
    ("]", "q2"),
    (")", "q3"),
    ("I", "q4"),
    ("a.MainI", "a.Main"),
    ("L.", "q5"),
    (".I", "q6"),
    ("I.", "q7"),
    ("II", "q8"),
    ("LI", "q9"),
    ("I ]", "qa"),
    ("[I", "qb"),
    (")L", "qc"),
    ("int", "qd"),
];

/// What a class piece is turned to: the last class with that display.
fn look(piece: &str) -> Option<String> {
    let mut last_first = CLASSES.iter().rev();
    let known = last_first.find(|(display, _)| class_of(display) == piece);
    known.map(|(_, raw)| class_of(raw))
}

/// Whether a field line can have the text as its type.
fn is_field_type(text: &str) -> bool {
    let trimmed = text.trim();
    !trimmed.is_empty()
        && !trimmed.starts_with('#')
        && !text.contains(['(', '\n'])
        && !text.contains("->")
}

/// The raw descriptor of the one member, out of the pool of a load.
fn turned(text: &[u8]) -> Written {
    let classes: String = CLASSES
        .iter()
        .map(|(display, raw)| format!("{display} -> {raw}:\n"))
        .collect();
    let mapping = [classes.as_bytes(), b" ", text, b" n -> c\n"].concat();
    // a piece has two bytes at least, and no raw descriptor more than seven
    let mut pool = vec![0; 2 * mapping.len() + 5 * text.len() + 64];
    let (mut classes, mut members) = ([[0; 4]; CLASSES.len()], [[0; 15]; 1]);
    let rooms = Rooms {
        classes: &mut classes,
        members: &mut members,
        pool: &mut pool,
    };
    if proved::load(&mapping, true, rooms)[0] != 0 {
        return Err("not loaded");
    }
    let (start, length) = (members[0][4] as usize, members[0][5] as usize);
    let descriptor = start
        .checked_add(length)
        .and_then(|end| pool.get(start..end));
    descriptor
        .map(<[u8]>::to_vec)
        .ok_or("a descriptor that does not lie in the pool")
}

struct Descriptors {
    class: Comparison<Text, Written>,
    typed: Comparison<Text, Written>,
    field: Comparison<Text, Written>,
    method: Comparison<Text, Written>,
    turned: Comparison<Text, Written>,
}

impl Descriptors {
    fn hold(&mut self, text: &Text) -> Held {
        self.class.hold(text)?;
        self.typed.hold(text)?;
        self.field.hold(text)?;
        self.method.hold(text)?;
        // with a `(` in it the line would be a method's
        let without = text
            .0
            .iter()
            .map(|byte| if *byte == b'(' { b'I' } else { *byte });
        self.turned.hold(&Text(without.collect()))
    }
}

const LETTERS: [&str; 9] = ["L", ";", "[", "]", "[]", ".", ")", " ", "I"];

const WORDS: [&str; 24] = [
    "void",
    "boolean",
    "byte",
    "char",
    "short",
    "int",
    "long",
    "float",
    "double",
    "V",
    "Z",
    "J",
    "D",
    "L",
    ";",
    "[",
    "[]",
    ".",
    "(",
    ")",
    " ",
    "\u{A0}",
    "a.Main",
    "é\u{3000}",
];

fn random_text(random: &mut Random) -> String {
    (0..random.below(9)).map(|_| *random.pick(&WORDS)).collect()
}

pub fn run(settings: &Settings, report: &mut Report) -> Held {
    let mut held = Descriptors {
        class: Comparison::new(CLASS),
        typed: Comparison::new(TYPE),
        field: Comparison::new(FIELD),
        method: Comparison::new(METHOD),
        turned: Comparison::new(TURNED),
    };
    let letters: Vec<&[u8]> = LETTERS.iter().map(|letter| letter.as_bytes()).collect();
    every::text_after(b"", &letters, settings.letters(6), &mut |text| {
        held.hold(text)
    })?;
    let mut random = settings.random("descriptors");
    for _ in settings.turns(700_000) {
        held.hold(&Text(random_text(&mut random).into_bytes()))?;
    }
    report.add(held.class);
    report.add(held.typed);
    report.add(held.field);
    report.add(held.method);
    report.add(held.turned);
    Ok(())
}
