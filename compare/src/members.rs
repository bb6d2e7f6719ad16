//! Names and lines of members: over mappings that were loaded, judged by the original, and over damaged tables, by the plain
//! program.

use crate::case::{self, Case};
use crate::comment_parts::residual_comment;
use crate::lookup_tables::{self, LentTables};
#[cfg(original)]
use crate::original::doors;
use crate::plain::{self, MemberRow};
use crate::proved;
use crate::random::Random;
use crate::report::{Comparison, Held, Report, Settings, Subject};

/// What a member is asked for by: the raw descriptor of its class, its raw name, its raw descriptor; and a raw line.
#[derive(Clone)]
struct Key {
    owner: Vec<u8>,
    name: Vec<u8>,
    descriptor: Vec<u8>,
    line: u32,
}

impl Key {
    fn plain(&self) -> plain::Key<'_> {
        plain::Key {
            owner: &self.owner,
            name: &self.name,
            descriptor: &self.descriptor,
        }
    }

    fn show(&self) -> String {
        let [owner, name, descriptor] = [
            ("owner", &self.owner),
            ("name", &self.name),
            ("descriptor", &self.descriptor),
        ]
        .map(|(said, text)| case::show_bytes(said, text));
        format!("{owner}{name}{descriptor}  line: {}\n", self.line)
    }
}

/// A member asked for in tables.
#[derive(Clone)]
struct Asked {
    lent: LentTables,
    key: Key,
}

impl Case for Asked {
    fn simpler(&self) -> Box<dyn Iterator<Item = Self> + '_> {
        let fewer = self.lent.fewer().map(|lent| Asked {
            lent,
            ..self.clone()
        });
        Box::new(fewer.into_iter())
    }

    fn show(&self) -> String {
        self.key.show() + &self.lent.show()
    }
}

/// All answers: of a field, of a method, of a line, and the row of the method by an index.
type Answers = ([u32; 5], [u32; 5], [u32; 4], u64);

fn proved_answers(lent: &LentTables, key: &Key) -> Answers {
    let tables = lent.tables();
    let (owner, name, descriptor) = (&key.owner, &key.name, &key.descriptor);
    (
        proved::display_field_name(&tables, owner, name, descriptor),
        proved::display_method_name(&tables, owner, name, descriptor),
        proved::display_line(&tables, owner, name, descriptor, key.line),
        proved::method_row(&tables, owner, name, descriptor),
    )
}

fn plain_answers(lent: &LentTables, key: &Key) -> Answers {
    let (lookup, line, key) = (lent.lookup(), key.line, key.plain());
    if lookup.is_malformed() {
        return ([14, 0, 0, 0, 0], [14, 0, 0, 0, 0], [14, 0, 0, 0], 0);
    }
    let name = |found: Option<[u32; 3]>| {
        found.map_or([0; 5], |[row, place, length]| [0, 1, row, place, length])
    };
    let method = lookup.display_method_name(key);
    let shown = lookup.display_line(key, line);
    (
        name(lookup.display_field_name(key)),
        name(method),
        shown.map_or([0; 4], |[row, line]| [0, 1, row, line]),
        method.map_or(1, |[row, ..]| u64::from(row) + 2),
    )
}

/// What is found of a field, a method and a line.
fn outcome(found: [bool; 3]) -> &'static str {
    match found {
        [true, true, _] => "field and method",
        [true, ..] => "field",
        [_, true, true] => "method and line",
        [_, true, _] => "method",
        _ => "unknown",
    }
}

const TABLES: Subject<Asked, Answers> = Subject {
    name: "members in any tables",
    proved: |asked| proved_answers(&asked.lent, &asked.key),
    judge: |asked| Some(plain_answers(&asked.lent, &asked.key)),
    outcome: |(field, method, line, _)| match field[0] {
        14 => "malformed",
        _ => outcome([field[1] == 1, method[1] == 1, line[1] == 1]),
    },
};

/// A member asked for in the mapping of a text.
#[cfg(original)]
#[derive(Clone)]
struct Looked {
    text: Vec<u8>,
    key: Key,
}

#[cfg(original)]
impl Case for Looked {
    fn simpler(&self) -> Box<dyn Iterator<Item = Self> + '_> {
        let texts = case::simpler_bytes(&self.text).map(|text| Looked {
            text,
            ..self.clone()
        });
        Box::new(texts)
    }

    fn show(&self) -> String {
        case::show_bytes("text", &self.text) + &self.key.show()
    }
}

/// The names of a field and of a method as texts, and a line.
#[cfg(original)]
type Found = (Option<Vec<u8>>, Option<Vec<u8>>, Option<u32>);

#[cfg(original)]
fn proved_found(looked: &Looked) -> Option<Found> {
    let loaded = lookup_tables::loaded(&looked.text)?;
    let (field, method, line, _) = proved_answers(&loaded, &looked.key);
    let name = |answer: [u32; 5]| {
        let [_, found, _, place, length] = answer;
        (found == 1).then(|| loaded.text(place, length).to_vec())
    };
    let [_, found, _, shown] = line;
    Some((name(field), name(method), (found == 1).then_some(shown)))
}

#[cfg(original)]
fn original_found(looked: &Looked) -> Option<Option<Found>> {
    let text = |bytes| std::str::from_utf8(bytes).ok();
    let key = &looked.key;
    let asked = doors::Key::new(text(&key.owner)?, text(&key.name)?, text(&key.descriptor)?);
    Some(doors::parse(&looked.text).map(|kept| {
        let [field, method] = [
            kept.display_field_name(&asked),
            kept.display_method_name(&asked),
        ]
        .map(|name| name.map(|name| name.as_bytes().to_vec()));
        (field, method, kept.display_line(&asked, key.line))
    }))
}

#[cfg(original)]
const LOADED: Subject<Looked, Option<Found>> = Subject {
    name: "members after a load",
    proved: proved_found,
    judge: original_found,
    outcome: |found| match found {
        None => "no mapping",
        Some((field, method, line)) => outcome([field.is_some(), method.is_some(), line.is_some()]),
    },
};

// Few names, so that members meet.
const CLASSES: [&str; 4] = ["a", "b", "a.b", "\u{E9}"];
const RAW_CLASSES: [&str; 3] = ["x", "y", "a"];
const SHOWN: [&str; 5] = ["f", "g", "run", "\u{4E2D}", "c"];
const RAWS: [&str; 3] = ["c", "d", "\u{E9}"];
const TYPES: [&str; 5] = ["int", "a", "b", "int[]", "void"];
const ARGUMENTS: [&str; 5] = ["", "", "int", "a", "a,int"];
const SIGNATURES: [&str; 6] = ["()V", "()I", "(I)V", "I", "Lx;", "(Lx;)x"];
const RAW_RANGES: [&str; 12] = [
    "",
    "",
    "1:3:",
    "2:4:",
    "1:9:",
    "5:5:",
    "6:2:",
    "0:0:",
    "+3:7:",
    "x:3:",
    "4294967290:4294967295:",
    "0:4294967295:",
];
const SHOWN_RANGES: [&str; 14] = [
    "",
    "",
    ":2",
    ":3:5",
    ":10:12",
    ":10:19",
    ":12:10",
    ":10:x",
    ":x",
    ":x:4",
    ":0",
    ":4294967295",
    ":4294967290:4294967295",
    ":0:4294967295",
];

fn member(random: &mut Random, own: &str) -> String {
    let (shown, raw) = (random.pick(&SHOWN), random.pick(&RAWS));
    let declared = random.pick(&TYPES);
    let mut line = if random.once_in(3) {
        format!("    {declared} {shown} -> {raw}\n")
    } else {
        let owner = match random.below(4) {
            0 => format!("{own}."),
            1 => format!("{}.", random.pick(&CLASSES)),
            _ => String::new(),
        };
        let between = random.pick(&ARGUMENTS);
        let (before, after) = (random.pick(&RAW_RANGES), random.pick(&SHOWN_RANGES));
        format!("    {before}{declared} {owner}{shown}({between}){after} -> {raw}\n")
    };
    if random.once_in(4) {
        let signature = *random.pick(&SIGNATURES);
        line += &residual_comment(signature);
        line.push('\n');
    }
    line
}

/// A small mapping in which members meet.
pub fn mapping(random: &mut Random) -> String {
    let mut text = String::new();
    for _ in 0..1 + random.below(4) {
        let (class, raw) = (random.pick(&CLASSES), random.pick(&RAW_CLASSES));
        text += &format!("{class} -> {raw}:\n");
        for _ in 0..random.below(5) {
            text += &member(random, class);
        }
    }
    text
}

/// A line inside of the ranges of a row, at their edges, outside of them, or any.
pub fn near_line(random: &mut Random, row: &MemberRow) -> u32 {
    let edge = row[11 + random.below(4)];
    match random.below(8) {
        0 => edge.wrapping_add(1),
        1 => edge.wrapping_sub(1),
        2 => row[11].wrapping_add(random.below(6) as u32),
        3 => row[13].wrapping_add(random.below(6) as u32),
        4 => random.below(12) as u32,
        5 => row[11].wrapping_add(random.draw() as u32 % row[12].wrapping_sub(row[11]).max(1)),
        _ => edge,
    }
}

/// The key of one of the members that the plain program reads, or of a member of the text's names.
fn key_of(random: &mut Random, loaded: &plain::Loaded) -> Key {
    let text = |place: u32, length: u32| {
        let start = place as usize;
        loaded.pool[start..start + length as usize].to_vec()
    };
    let row = match loaded.members.len() {
        0 => [0; 15],
        count => loaded.members[random.below(count)],
    };
    let class = loaded.classes[row[1] as usize];
    Key {
        owner: text(class[0], class[1]),
        name: text(row[2], row[3]),
        descriptor: text(row[4], row[5]),
        line: near_line(random, &row),
    }
}

/// A key of the mapping's own; every third has one part off.
fn near_key(random: &mut Random, loaded: &plain::Loaded) -> Key {
    let (mut key, other) = (key_of(random, loaded), key_of(random, loaded));
    if random.once_in(3) {
        match random.below(6) {
            0 => key.owner = other.owner,
            1 => key.name = other.name,
            2 => key.descriptor = other.descriptor,
            3 => key.owner = format!("L{};", random.pick(&CLASSES)).into_bytes(),
            4 => key.name = random.pick(&RAWS).as_bytes().to_vec(),
            _ => key.descriptor = random.pick(&SIGNATURES).as_bytes().to_vec(),
        }
    }
    key
}

/// Keys that are asked for in each mapping.
const KEYS: usize = 5;

struct Members {
    #[cfg(original)]
    loaded: Comparison<Looked, Option<Found>>,
    tables: Comparison<Asked, Answers>,
}

impl Members {
    /// A key in the text's mapping, and in its tables.
    fn key(&mut self, _text: &str, lent: &LentTables, key: Key) -> Held {
        #[cfg(original)]
        self.loaded.hold(&Looked {
            text: _text.as_bytes().to_vec(),
            key: key.clone(),
        })?;
        let lent = lent.clone();
        self.tables.hold(&Asked { lent, key })
    }
}

pub fn run(settings: &Settings, report: &mut Report) -> Held {
    let mut random = settings.random("members");
    let mut held = Members {
        #[cfg(original)]
        loaded: Comparison::new(LOADED),
        tables: Comparison::new(TABLES),
    };
    for turn in settings.turns(250_000) {
        let text = mapping(&mut random);
        let read = plain::read(text.as_bytes(), true);
        let Some(read) = read.ok().and_then(|read| read.fit(plain::LIMITS).ok()) else {
            continue;
        };
        let Some(mut lent) = lookup_tables::loaded(text.as_bytes()) else {
            continue;
        };
        for _ in 0..KEYS {
            held.key(&text, &lent, near_key(&mut random, &read))?;
        }
        let key = near_key(&mut random, &read);
        if turn % 250 == 0 {
            lookup_tables::every_number(&lent, &mut |lent| {
                let key = key.clone();
                held.tables.hold(&Asked { lent, key })
            })?;
        }
        for _ in 0..1 + random.below(2) {
            lookup_tables::damage(&mut random, &mut lent);
            let (lent, key) = (lent.clone(), key.clone());
            held.tables.hold(&Asked { lent, key })?;
        }
    }
    #[cfg(original)]
    report.add(held.loaded);
    report.add(held.tables);
    Ok(())
}
