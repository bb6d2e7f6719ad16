//! Mappings of four kinds, damaged too: a file in other forms, names that share a mark, equal names, and runs of lines that name
//! nothing. How many texts of each kind were held is said.

use crate::equal_names;
use crate::file_forms;
use crate::idle_runs;
use crate::load_files;
use crate::load_held::Loading;
use crate::plain::LONGEST;
use crate::report::{Disagreement, Held, Settings};
use crate::shared_marks::{self, Side};
use crate::synthetic::{self, Form};

type Kind = fn(&Settings, &mut Loading) -> Held;

const KINDS: [(&str, Kind); 4] = [
    ("forms of a file", forms),
    ("names of one mark", names_of_one_mark),
    ("equal names", names_that_are_equal),
    ("runs of idle lines", runs_of_idle_lines),
];

/// Forms of a synthetic file, and of the real one if it is named.
fn forms(settings: &Settings, loading: &mut Loading) -> Held {
    let mut random = settings.random("file forms");
    let [length, longest] = if settings.quick {
        [10_000, 100_000]
    } else {
        [100_000, LONGEST]
    };
    let synthetic = synthetic::mapping(&mut random, Form::ProGuard, length);
    let real = load_files::real_text(settings).ok();
    let real = real.and_then(|text| String::from_utf8(text).ok());
    for text in [Some(synthetic), real].into_iter().flatten() {
        let r8 = file_forms::as_r8(&text);
        let forms = [
            file_forms::crlf(&text),
            file_forms::crlf(&r8),
            file_forms::long_comments(&text, longest),
            r8,
        ];
        for form in forms {
            let damaged = settings.turns(10).end;
            load_files::hold(&mut random, loading, form.into_bytes(), damaged)?;
        }
    }
    Ok(())
}

const COUNTS: [usize; 4] = [512, 1_024, 2_048, 4_096];

fn names_of_one_mark(settings: &Settings, loading: &mut Loading) -> Held {
    let mut random = settings.random("names of one mark");
    let (counts, length) = if settings.quick {
        (&COUNTS[..2], 100_000)
    } else {
        (&COUNTS[..], LONGEST)
    };
    for (side, count) in counts
        .iter()
        .flat_map(|count| Side::ALL.map(|side| (side, *count)))
    {
        let text = shared_marks::mapping(side, count, length).into_bytes();
        load_files::hold(&mut random, loading, text, settings.turns(4).end)?;
    }
    Ok(())
}

/// Class lines, and members after each at most.
const LARGE: [(usize, usize); 4] = [(200, 8), (4_096, 1), (1_000, 4), (3, 3_000)];

fn names_that_are_equal(settings: &Settings, loading: &mut Loading) -> Held {
    let mut random = settings.random("equal names");
    for _ in settings.turns(4_000) {
        let (lines, members) = (1 + random.below(40), random.below(8));
        let text = equal_names::mapping(&mut random, lines, members).into_bytes();
        load_files::hold(&mut random, loading, text, 2)?;
    }
    let large = if settings.quick { &LARGE[..1] } else { &LARGE };
    for _ in settings.turns(8) {
        for (lines, members) in large {
            let text = equal_names::mapping(&mut random, *lines, *members).into_bytes();
            load_files::hold(&mut random, loading, text, 1)?;
        }
    }
    Ok(())
}

fn runs_of_idle_lines(settings: &Settings, loading: &mut Loading) -> Held {
    let mut random = settings.random("idle runs");
    for _ in settings.turns(20_000) {
        let text = idle_runs::mapping(&mut random).into_bytes();
        load_files::hold(&mut random, loading, text, 2)?;
    }
    Ok(())
}

/// How many texts of each kind were held.
pub fn run(settings: &Settings, loading: &mut Loading) -> Result<String, Disagreement> {
    let mut counts = Vec::new();
    for (name, kind) in KINDS {
        let before = loading.texts();
        kind(settings, loading)?;
        counts.push(format!("{name} {}", loading.texts() - before));
    }
    Ok(counts.join(", "))
}
