//! Holds the proved functions against Rust's standard library, `serde_json`, and the original where it was built with its source.
//! What it is asked by and what its status says stands in usage.txt.

use clumarief_compare::report::{Disagreement, Held, Report, Settings};
use clumarief_compare::{
    applying, arguments, bytes, comments, lines, loading, mapped, members, names, numbers, ranges,
    trees, trims, utf8, white,
};
use std::env;
use std::process::ExitCode;

type Part = fn(&Settings, &mut Report) -> Held;

const PARTS: &[(&str, Part)] = &[
    ("utf8", utf8::run),
    ("white", white::run),
    ("trims", trims::run),
    ("lines", lines::run),
    ("bytes", bytes::run),
    ("numbers", numbers::run),
    ("ranges", ranges::run),
    ("comments", comments::run),
    ("mapped", mapped::run),
    #[cfg(original)]
    ("descriptors", clumarief_compare::descriptors::run),
    ("loading", loading::run),
    ("names", names::run),
    ("members", members::run),
    ("trees", trees::run),
    ("applying", applying::run),
];

const USAGE: &str = include_str!("../usage.txt");

/// The chosen parts, or all where none is.
fn compare(settings: &Settings, chosen: &[String]) -> Result<u64, Disagreement> {
    let mut report = Report::default();
    for (name, part) in PARTS {
        if chosen.is_empty() || chosen.iter().any(|word| word == name) {
            part(settings, &mut report)?;
        }
    }
    Ok(report.cases)
}

/// What is to be done, and the chosen parts.
fn asked() -> Option<(Settings, Vec<String>)> {
    let names = PARTS.iter().map(|(name, _)| *name);
    let alone: Vec<&str> = names.chain(["--quick"]).collect();
    let words = env::args().skip(1);
    let asked = arguments::asked(words, ["--seed", "--more"], [1, 1], &alone)?;
    let is_quick = |word: &String| word == "--quick";
    let (quick, chosen): (Vec<_>, Vec<_>) = asked.alone.into_iter().partition(is_quick);
    let settings = Settings {
        seed: asked.numbers[0],
        more: asked.numbers[1],
        quick: !quick.is_empty(),
        real: asked.real,
    };
    Some((settings, chosen))
}

fn main() -> ExitCode {
    if env::args().any(|word| word == "--help") {
        print!("{USAGE}");
        return ExitCode::SUCCESS;
    }
    let Some((settings, chosen)) = asked() else {
        eprint!("{USAGE}");
        return ExitCode::from(2);
    };
    let said = settings.say();
    println!("{said}");
    match compare(&settings, &chosen) {
        Ok(cases) => {
            println!("compare: {cases} cases, 0 disagreements");
            ExitCode::SUCCESS
        }
        Err(Disagreement(disagreement)) => {
            println!("{disagreement}  {said}");
            ExitCode::FAILURE
        }
    }
}
