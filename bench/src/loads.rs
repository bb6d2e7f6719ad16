//! Loading: a real mapping file, synthetic ones and such as are made to be slow, beside the original's `Mapping::parse`; and how
//! the time grows with the length of those made to be slow.

use crate::buffers::{self, Buffers};
use crate::hostile::{self, KIBIBYTES};
use crate::load_table::{LoadTable, Row};
use crate::load_texts;
use crate::race::Unequal;
use clumarief_compare::file_forms;
use clumarief_compare::plain::{self, LIMITS};
use clumarief_compare::random::Random;
use clumarief_compare::shared_marks::{self, Side};
use clumarief_compare::synthetic::{self, Form};
use clumarief_compare::timing;
use std::fs;
use std::path::Path;

const MEGABYTE: usize = 1_000_000;

const SMALL: &str = include_str!("../../examples/small.map");

/// The text of the real file, or why there is none.
fn real_text(path: Option<&Path>) -> Result<String, String> {
    let path = path.ok_or("no real file is named, see run --real")?;
    fs::read_to_string(path).map_err(|error| error.to_string())
}

const fn row(name: &'static str, to_reach: &'static str) -> Row {
    Row { name, to_reach }
}

type Maker = fn(&str) -> String;

/// What is made of the real file.
const REAL: [(Row, Maker); 4] = [
    (row("real file", "5"), str::to_owned),
    (row("real file as R8", "3"), file_forms::as_r8),
    (row("real file, 16 KB comments", "1"), |text| {
        file_forms::long_comments(text, MEGABYTE)
    }),
    (row("real file, CRLF", "1"), file_forms::crlf),
];

fn real(table: &mut LoadTable, path: Option<&Path>) -> Result<(), Unequal> {
    let text = real_text(path);
    for (row, made) in REAL {
        match &text {
            Ok(text) => table.row(row, &made(text), buffers::rounded)?,
            Err(why) => table.leave_out(row, why),
        }
    }
    Ok(())
}

/// The same texts for the same seed.
fn synthetic(table: &mut LoadTable, seed: u64) -> Result<(), Unequal> {
    for (form, row) in [
        (Form::ProGuard, row("as ProGuard", "near 3")),
        (Form::R8, row("as R8", "-")),
    ] {
        let mut random = Random::new(seed, row.name);
        let text = synthetic::mapping(&mut random, form, MEGABYTE);
        table.row(row, &text, buffers::rounded)?;
    }
    Ok(())
}

fn idle(table: &mut LoadTable) -> Result<(), Unequal> {
    for (name, text) in load_texts::idle_lines() {
        table.row(row(name, "1"), &text.text(MEGABYTE), buffers::rounded)?;
    }
    Ok(())
}

/// Names that share one mark: no slower than the original's hash maps, however many they are.
const COLLIDING: [(&str, Side, usize); 8] = [
    ("512 alike", Side::Display, 512),
    ("1,024 alike", Side::Display, 1_024),
    ("2,048 alike", Side::Display, 2_048),
    ("4,096 alike", Side::Display, 4_096),
    ("512 raw alike", Side::Raw, 512),
    ("1,024 raw alike", Side::Raw, 1_024),
    ("2,048 raw alike", Side::Raw, 2_048),
    ("4,096 raw alike", Side::Raw, 4_096),
];

fn colliding(table: &mut LoadTable) -> Result<(), Unequal> {
    for (name, side, count) in COLLIDING {
        let text = shared_marks::mapping(side, count, MEGABYTE);
        table.row(row(name, "1"), &text, buffers::rounded)?;
    }
    Ok(())
}

/// What is lent is zeroed where it is not used, so that the time of a small text is that of what is lent.
fn small(table: &mut LoadTable) -> Result<(), Unequal> {
    table.row(row("small file", "-"), SMALL, buffers::rounded)?;
    table.row(row("small file, most lent", "stated"), SMALL, |_| LIMITS)
}

/// Prints the table; what is given back names the rows that fall short of the ratio to reach.
pub fn run(seed: u64, runs: u64, path: Option<&Path>) -> Result<Vec<String>, Unequal> {
    let mut table = LoadTable::new(runs);
    real(&mut table, path)?;
    synthetic(&mut table, seed)?;
    idle(&mut table)?;
    colliding(&mut table)?;
    small(&mut table)?;
    if !timing::AT_HAND {
        println!("The original's source is not at hand, see run --source.");
    }
    println!(
        "Most lent are {} class rows, {} member rows and {} bytes of pool: a load zeroes what it does not use.",
        LIMITS.classes, LIMITS.members, LIMITS.pool
    );
    Ok(table.end())
}

/// Loads again and again, with a little more lent than is needed.
fn loads(text: Vec<u8>) -> impl FnMut() -> u32 {
    let needed = plain::read(&text, true).map(|mapping| mapping.needed());
    let mut buffers = Buffers::of(buffers::rounded(needed.unwrap_or(LIMITS)));
    move || buffers.load(&text)
}

type LongMaker = fn(&str, usize) -> String;

/// Loads of texts made to be slow; a load takes longer than the other works, so there are fewer runs.
pub fn run_hostile(runs: u64, path: Option<&Path>) {
    let runs = runs.min(20);
    hostile::print_head("hostile load", "answer");
    for (_, text) in load_texts::idle_lines() {
        hostile::print_row(&text, runs, loads);
    }
    let made: [(&str, LongMaker); 2] = [
        ("real file, 16 KB comments", file_forms::long_comments),
        ("real file, CRLF", file_forms::crlf_again),
    ];
    for (name, made) in made {
        match real_text(path) {
            Ok(real) => {
                let text = |length| made(&real, length).into_bytes();
                hostile::print_row_of(name, &KIBIBYTES, runs, text, loads);
            }
            Err(why) => println!("{name:<26}left out: {why}"),
        }
    }
    for text in load_texts::hostile_lines() {
        hostile::print_row(&text, runs, loads);
    }
}
