//! Times the proved functions beside Rust's standard library and the original, in one process, and alone on texts made to be
//! slow. What it is asked by and what its status says stands in usage.txt.

mod apply_trees;
mod applying;
mod buffers;
mod hostile;
mod hostile_trees;
mod load_table;
mod load_texts;
mod loads;
mod lookups;
mod parts;
mod race;
mod shared_marks;
mod times;
mod trees;

use clumarief_compare::arguments::{self, Asked};
use clumarief_compare::random::Random;
use clumarief_compare::synthetic::{self, Form};
use clumarief_compare::trims::judge_trim;
use clumarief_compare::{proved, texts, timing};
use race::{Race, Unequal};
use std::env;
use std::process::ExitCode;
use std::str;

const MEGABYTE: usize = 1_000_000;

const USAGE: &str = include_str!("../usage.txt");

/// 0 for a valid text, as all are that are timed.
fn proved_check(text: &str) -> u64 {
    proved::check(text.as_bytes())[0]
}

fn std_check(text: &str) -> u64 {
    u64::from(str::from_utf8(text.as_bytes()).is_err())
}

/// The sum of `of` over the proved lines.
fn over_proved_lines(text: &str, of: fn(&[u8]) -> u64) -> u64 {
    let text = text.as_bytes();
    let (mut sum, mut at) = (0, 0);
    while let [1, start, end, next] = proved::line(text, at) {
        let line = text.get(start as usize..end as usize);
        sum += line.map_or(0, of);
        at = next as usize;
    }
    sum
}

fn over_std_lines(text: &str, of: fn(&str) -> u64) -> u64 {
    let lines = text.lines().map(|line| line.trim_end_matches('\r'));
    lines.map(of).sum()
}

fn proved_lines(text: &str) -> u64 {
    over_proved_lines(text, |line| line.len() as u64)
}

fn std_lines(text: &str) -> u64 {
    over_std_lines(text, |line| line.len() as u64)
}

fn proved_trim(text: &str) -> u64 {
    over_proved_lines(text, |line| {
        let [_, _, start, end, ..] = proved::trim(line);
        end.wrapping_sub(start)
    })
}

fn std_trim(text: &str) -> u64 {
    over_std_lines(text, |line| line.trim().len() as u64)
}

fn proved_places(text: &str) -> u64 {
    over_proved_lines(text, |line| proved::trim(line).iter().sum())
}

fn std_places(text: &str) -> u64 {
    over_std_lines(text, |line| judge_trim(line).iter().sum())
}

fn races(seed: u64, runs: u64) -> Result<(), Unequal> {
    let mut random = Random::new(seed, "bench");
    let mapping = synthetic::mapping(&mut random, Form::ProGuard, MEGABYTE);
    let scripts = texts::words(&mut random, MEGABYTE);
    let race = |text, name| Race { text, name, runs };
    let (lines, scripts) = (
        race(&mapping, "mapping file"),
        race(&scripts, "many scripts"),
    );
    race::print_head("std");
    lines.run("check", proved_check, std_check)?;
    scripts.run("check", proved_check, std_check)?;
    lines.run("lines", proved_lines, std_lines)?;
    lines.run("lines, trim", proved_trim, std_trim)?;
    lines.run("lines, 8 places", proved_places, std_places)
}

/// The loads whose ratio is below the one to reach.
fn print_short(short: &[String]) {
    let rows = match short {
        [] => "none".to_owned(),
        rows => rows.join("; "),
    };
    println!("\nrows that fall short: {rows}");
}

/// All tables.
fn bench(asked: &Asked<2>) -> Result<(), String> {
    let [seed, runs] = asked.numbers;
    println!(
        "seed {seed}, {runs} runs each, by turns; spread: the middle half of the runs, in percent of the median\n"
    );
    races(seed, runs).map_err(|Unequal(name)| format!("proved and std disagree on {name}"))?;
    println!(
        "The proved trim gives 8 places in one call: \"trim\" sets it beside `str::trim` alone,\n\
         \"8 places\" beside the methods of `str` for all of them.\n"
    );
    let short = loads::run(seed, runs, asked.real.as_deref()).map_err(|Unequal(name)| {
        format!("proved, plain program and original disagree on loading: {name}")
    })?;
    lookups::run(runs, asked.real.as_deref())
        .map_err(|Unequal(name)| format!("proved and original disagree on a {name}"))?;
    applying::run(runs, asked.real.as_deref())
        .map_err(|Unequal(name)| format!("proved and original disagree on applying: {name}"))?;
    shared_marks::run(runs);
    println!("\nnanoseconds a byte: best at lengths in KiB; median and spread at the last");
    loads::run_hostile(runs, asked.real.as_deref());
    parts::run(runs);
    trees::run(seed, runs);
    hostile_trees::run(runs);
    if timing::AT_HAND {
        print_short(&short);
    }
    Ok(())
}

fn main() -> ExitCode {
    if env::args().any(|word| word == "--help") {
        print!("{USAGE}");
        return ExitCode::SUCCESS;
    }
    let words = env::args().skip(1);
    let Some(asked) = arguments::asked(words, ["--seed", "--runs"], [1, 100], &[]) else {
        eprint!("{USAGE}");
        return ExitCode::from(2);
    };
    match bench(&asked) {
        Ok(()) => ExitCode::SUCCESS,
        Err(said) => {
            println!("bench: {said}");
            ExitCode::FAILURE
        }
    }
}
