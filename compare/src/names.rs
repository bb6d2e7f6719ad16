//! Class names: over mappings that were loaded, judged by the original, and over damaged tables, by the plain program.

use crate::case::{self, Case};
use crate::lookup_tables::{self, LentTables};
#[cfg(original)]
use crate::original::doors;
use crate::proved;
use crate::random::Random;
use crate::report::{Comparison, Held, Report, Settings, Subject};
#[cfg(original)]
use std::iter;

/// A name asked for in tables.
#[derive(Clone)]
struct Asked {
    lent: LentTables,
    name: Vec<u8>,
}

impl Case for Asked {
    fn simpler(&self) -> Box<dyn Iterator<Item = Self> + '_> {
        let names = case::simpler_bytes(&self.name).map(|name| Asked {
            name,
            ..self.clone()
        });
        let fewer = self.lent.fewer().map(|lent| Asked {
            lent,
            ..self.clone()
        });
        Box::new(fewer.into_iter().chain(names))
    }

    fn show(&self) -> String {
        case::show_bytes("name", &self.name) + &self.lent.show()
    }
}

/// All three answers: by the raw descriptor, by the display descriptor, and what is mapped.
type Answers = ([u32; 4], [u32; 4], [u32; 3]);

const TABLES: Subject<Asked, Answers> = Subject {
    name: "class names in any tables",
    proved: |asked| {
        let tables = asked.lent.tables();
        (
            proved::display_class_name(&tables, &asked.name),
            proved::raw_class_name(&tables, &asked.name),
            proved::mapped_class_name(&tables, &asked.name),
        )
    },
    judge: |asked| {
        let lookup = asked.lent.lookup();
        if lookup.is_malformed() {
            return Some(([14, 0, 0, 0], [14, 0, 0, 0], [0; 3]));
        }
        let found = |found: Option<(u32, u32)>| found.map_or([0; 4], |(at, size)| [0, 1, at, size]);
        let display = found(lookup.display_class_name(&asked.name));
        let raw = found(lookup.raw_class_name(&asked.name));
        Some((display, raw, [display[1], display[2], display[3]]))
    },
    outcome: |(display, raw, _)| match (display, raw) {
        ([14, ..], _) => "malformed",
        ([_, 1, ..], [_, 1, ..]) => "both",
        ([_, 1, ..], _) => "display",
        (_, [_, 1, ..]) => "raw",
        _ => "unknown",
    },
};

/// A name asked for in the mapping of a text.
#[cfg(original)]
#[derive(Clone)]
struct Looked {
    text: Vec<u8>,
    name: String,
}

#[cfg(original)]
impl Case for Looked {
    fn simpler(&self) -> Box<dyn Iterator<Item = Self> + '_> {
        let name = &self.name;
        let texts = case::simpler_bytes(&self.text).map(move |text| Looked {
            text,
            name: name.clone(),
        });
        Box::new(texts)
    }

    fn show(&self) -> String {
        format!(
            "{}  name: {:?}\n",
            case::show_bytes("text", &self.text),
            self.name
        )
    }
}

/// Display, raw and mapped name as texts.
#[cfg(original)]
type Names = (Option<Vec<u8>>, Option<Vec<u8>>, Vec<u8>);

#[cfg(original)]
fn proved_names(looked: &Looked) -> Option<Names> {
    let loaded = lookup_tables::loaded(&looked.text)?;
    let (tables, name) = (loaded.tables(), looked.name.as_bytes());
    let text = |place: u32, length: u32| loaded.text(place, length).to_vec();
    let found = |answer: [u32; 4]| (answer[1] == 1).then(|| text(answer[2], answer[3]));
    let [out_of_pool, place, length] = proved::mapped_class_name(&tables, name);
    Some((
        found(proved::display_class_name(&tables, name)),
        found(proved::raw_class_name(&tables, name)),
        if out_of_pool == 1 {
            text(place, length)
        } else {
            name.to_vec()
        },
    ))
}

#[cfg(original)]
const NAMES: Subject<Looked, Option<Names>> = Subject {
    name: "class names after a load",
    proved: proved_names,
    judge: |looked| Some(doors::parse(&looked.text).map(|kept| kept.names(&looked.name))),
    outcome: |names| match names {
        Some((Some(_), Some(_), _)) => "both",
        Some((Some(_), None, _)) => "display",
        Some((None, Some(_), _)) => "raw",
        Some((None, None, _)) => "unknown",
        None => "no mapping",
    },
};

/// Names that are near each other.
const NAMES_NEAR: [&str; 14] = [
    "a", "b", "ab", "a.b", "a.c", "a/b", "a.b.c", "A", "La;", "a$b", "\u{E9}", "\u{EA}", "a;", "L",
];

fn mapping(random: &mut Random) -> String {
    let mut text = String::new();
    for _ in 0..1 + random.below(6) {
        let (display, raw) = (random.pick(&NAMES_NEAR), random.pick(&NAMES_NEAR));
        text += &format!("{display} -> {raw}:\n");
        if random.once_in(4) {
            text += &format!("    int {display} -> {raw}\n");
        }
        if random.once_in(4) {
            text += &format!("    1:3:void {display}():4:6 -> {raw}\n");
        }
    }
    text
}

/// A descriptor of one of the names, or what is near it: with dots for slashes, without an end, one byte off, bare.
fn near(random: &mut Random) -> String {
    let name = random.pick(&NAMES_NEAR);
    let descriptor = format!("L{};", name.replace('.', "/"));
    match random.below(8) {
        0 => format!("L{name};"),
        1 => (*name).to_owned(),
        2 => descriptor.trim_end_matches(';').to_owned(),
        3 => format!("{descriptor};"),
        4 => format!("[{descriptor}"),
        _ => descriptor,
    }
}

pub fn run(settings: &Settings, report: &mut Report) -> Held {
    let mut random = settings.random("names");
    let mut tables = Comparison::new(TABLES);
    lookup_tables::at_the_limits(&mut |lent| {
        let name = b"a".to_vec();
        tables.hold(&Asked { lent, name })
    })?;
    #[cfg(original)]
    let mut names = Comparison::new(NAMES);
    for turn in settings.turns(500_000) {
        let text = mapping(&mut random);
        #[cfg(original)]
        for name in iter::repeat_with(|| near(&mut random)).take(5) {
            names.hold(&Looked {
                text: text.clone().into_bytes(),
                name,
            })?;
        }
        let Some(lent) = lookup_tables::loaded(text.as_bytes()) else {
            continue;
        };
        let name = near(&mut random).into_bytes();
        let mut asked = Asked { lent, name };
        tables.hold(&asked)?;
        if turn % 500 == 0 {
            lookup_tables::every_number(&asked.lent, &mut |lent| {
                let name = asked.name.clone();
                tables.hold(&Asked { lent, name })
            })?;
        }
        for _ in 0..1 + random.below(2) {
            lookup_tables::damage(&mut random, &mut asked.lent);
            tables.hold(&asked)?;
        }
    }
    #[cfg(original)]
    report.add(names);
    report.add(tables);
    Ok(())
}
