//! The largest inputs of a load, and the first ones beyond them.

use crate::comment_parts::{RESIDUAL, residual_comment};
use crate::load_held::Loading;
use crate::load_rooms::{Load, Room};
use crate::plain::{self, LIMITS, LONGEST};
use crate::report::{Held, Settings};

const ROOMS: &[Room] = &[
    Room::Exact,
    Room::FewerClasses,
    Room::FewerMembers,
    Room::ShorterPool,
    Room::Larger(3),
    Room::BeyondLimits,
];

const FEW_ROOMS: &[Room] = &[Room::Exact, Room::Larger(2)];

fn hold(loading: &mut Loading, text: String, rooms: &'static [Room]) -> Held {
    let text = text.into_bytes();
    for marks in [true, false] {
        let text = text.clone();
        loading.hold(&Load { text, marks, rooms })?;
    }
    Ok(())
}

/// The text, filled up to the length with the part, again and again, before its end.
fn filled(start: &str, part: &str, end: &str, length: usize) -> String {
    let room = length.saturating_sub(start.len() + end.len());
    let parts = part.repeat(room / part.len());
    // what does not hold a whole part any more
    let rest = "\n".repeat(room % part.len());
    [start, &parts, &rest, end].concat()
}

/// Start, part and end of texts that are filled up to the greatest length.
const FILLED: [(&str, &str, &str); 22] = [
    ("", "\n", ""),
    ("a->b:", "\n", ""),
    ("#", "a", ""),
    ("#", "{", ""),
    ("", "{", ""),
    ("# ", "{\"a\":", ""),
    ("a->b:\n a b->c\n# {\"id\":[", "[],", "0]}"),
    ("a->b:\n a b->c\n# {\"id\":\"", "a", "\"}"),
    ("", "a", "->b:"),
    ("a->", "b", ":"),
    ("", "a", ""),
    ("", "\u{FEFF}", "a->b:"),
    ("a->b:\n", "\r", "\n a"),
    ("a->b:\n", "\u{3000}", "int n->c"),
    ("a->b:\n int ", "n", "->c"),
    ("a->b:\n ", "[]", " n->c"),
    ("a->b:\n int n(", "a,", ")->c"),
    ("a->b:\n int n(", ",", ")->c"),
    ("a->b:\n ", "1", ":2:int n()->c"),
    ("a->b:\n", "# {}\n", " a->b"),
    ("a->b:\n", "  \n", " a b c"),
    ("a->b:\n", "#\n", "\u{E9} -> \u{1F600}:"),
];

fn longest(settings: &Settings, loading: &mut Loading) -> Held {
    let step = if settings.quick { 8 } else { 1 };
    for (start, part, end) in FILLED.into_iter().step_by(step) {
        hold(loading, filled(start, part, end, LONGEST), ROOMS)?;
        hold(loading, filled(start, part, end, LONGEST + 1), FEW_ROOMS)?;
    }
    Ok(())
}

/// 1 before all others: texts that are too long, and faulty or not UTF-8 besides.
fn too_long(settings: &Settings, loading: &mut Loading) -> Held {
    let most = if settings.quick { 1 } else { 39 };
    for more in 1..=most {
        for start in ["a->b:\n", " a b->c\n", "a\n", ""] {
            hold(
                loading,
                filled(start, " a b->c\n", "", LONGEST + more),
                FEW_ROOMS,
            )?;
        }
        let text = vec![0xFF; LONGEST + more];
        let (marks, rooms) = (more % 2 == 0, FEW_ROOMS);
        loading.hold(&Load { text, marks, rooms })?;
    }
    Ok(())
}

/// What is not UTF-8, at the last bytes of the longest text.
fn broken_at_end(loading: &mut Loading) -> Held {
    let ends: [&[u8]; 5] = [
        b"\xFF",
        b"\xE2\x82",
        b"\xF0\x90\x80",
        b"\xE2\x82 ",
        b"\xC0\x80",
    ];
    for end in ends {
        let mut text = filled("a->b:\n", " a b->c\n", "", LONGEST - end.len()).into_bytes();
        text.extend_from_slice(end);
        let (marks, rooms) = (true, FEW_ROOMS);
        loading.hold(&Load { text, marks, rooms })?;
    }
    Ok(())
}

/// Class lines and member lines, as many as count and one more.
fn most_rows(loading: &mut Loading) -> Held {
    for count in [LIMITS.classes - 1, LIMITS.classes, LIMITS.classes + 1] {
        let line = |at: usize| format!("a.C{at} -> b{}:\n", at % 4000);
        let classes: String = (0..count).map(line).collect();
        hold(loading, classes.clone(), ROOMS)?;
        hold(loading, classes + " a.C4095 f(a.C1,a.C4096[])->g\n", ROOMS)?;
        hold(loading, "a->a:\n".repeat(count) + " a a->a", ROOMS)?;
    }
    for count in [LIMITS.members - 1, LIMITS.members, LIMITS.members + 1] {
        hold(
            loading,
            "a->b:\n".to_owned() + &" a b->c\n".repeat(count),
            ROOMS,
        )?;
        let line = |at: usize| format!(" {at}:9:a b{at}():1->c\n");
        let methods: String = (0..count).map(line).collect();
        hold(loading, format!("c->d:\na->b:\n{methods}"), ROOMS)?;
    }
    // both too many, and a faulty line behind them
    let classes = "a->a:\n".repeat(LIMITS.classes + 1);
    let members = " a b->c\n".repeat(LIMITS.members + 1);
    hold(loading, format!("{classes}{members}"), ROOMS)?;
    hold(loading, format!("{classes}{members} a"), ROOMS)
}

/// A pool of the greatest length and of one byte more: every method's owner is the display name of its class.
fn longest_pool(loading: &mut Loading) -> Held {
    let methods = " a b()->c\n".repeat(80);
    let text = |filler: usize| {
        let (display, name) = ("a.".repeat(25_000), "n".repeat(filler));
        format!("{display}->b:\n{methods} int {name}->c\n")
    };
    let short = plain::read(text(1).as_bytes(), true).map(|mapping| mapping.needed().pool);
    let filler = 1 + LIMITS.pool.saturating_sub(short.unwrap_or(0));
    for filler in [filler - 1, filler, filler + 1] {
        hold(loading, text(filler), ROOMS)?;
    }
    Ok(())
}

/// Texts that need far more than there can be: by owners, by arguments, by types of fields.
fn far_pools(loading: &mut Loading) -> Held {
    let long = "a".repeat(20_000);
    let owners = " a b()->c\n".repeat(30_000);
    hold(loading, format!("{long}->b:\n{owners}"), ROOMS)?;
    let arguments = "a,".repeat(400_000);
    hold(
        loading,
        format!("a->{long}:\n a b({arguments})->c\n"),
        ROOMS,
    )?;
    let fields = " a b->c\n".repeat(30_000);
    hold(loading, format!("a->{long}:\n{fields}"), ROOMS)?;
    let signature = "b".repeat(500_000);
    let comment = residual_comment(&signature) + "\n";
    hold(
        loading,
        format!("a->c:\n a b->c\n{comment}{comment}"),
        ROOMS,
    )
}

/// Every depth around the one that is still read.
fn depths(loading: &mut Loading) -> Held {
    for levels in [1, 2, 64, 126, 127, 128, 129, 1000, 100_000] {
        for [open, close] in [["[", "]"], ["{\"a\":", "}"]] {
            let nested = open.repeat(levels - 1) + "1" + &close.repeat(levels - 1);
            let object = format!("\"id\":\"{RESIDUAL}\",\"signature\":\"I\",\"a\":{nested}");
            hold(loading, format!("a->b:\n x y->z\n# {{{object}}}\n"), ROOMS)?;
        }
    }
    Ok(())
}

pub fn run(settings: &Settings, loading: &mut Loading) -> Held {
    longest(settings, loading)?;
    too_long(settings, loading)?;
    broken_at_end(loading)?;
    most_rows(loading)?;
    longest_pool(loading)?;
    if !settings.quick {
        far_pools(loading)?;
    }
    depths(loading)
}
