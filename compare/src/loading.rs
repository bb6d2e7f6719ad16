//! Loading, over examples, every short text, whole files, random texts, mappings of four kinds and the largest ones.

use crate::every;
use crate::load_examples;
use crate::load_files;
use crate::load_held::Loading;
use crate::load_kinds;
use crate::load_largest;
use crate::load_rooms::{Load, Room};
use crate::load_texts;
use crate::report::{Disagreement, Held, Report, Settings};
use std::thread;

/// What is lent for one text after the other.
const ROOMS: [&[Room]; 4] = [
    &[
        Room::Exact,
        Room::FewerClasses,
        Room::FewerMembers,
        Room::ShorterPool,
        Room::Larger(1),
    ],
    &[Room::Exact, Room::FewerOfAll, Room::Larger(2)],
    &[Room::Exact, Room::FewerMembersShorterPool, Room::Larger(5)],
    &[Room::Larger(40), Room::FewerClasses, Room::ShorterPool],
];

/// Every short text over these, a line or more of them.
const LETTERS: [&str; 9] = ["a", " ", "->", ":", "\n", "(", ")", "\u{A0}", "\r"];

/// What stands before each of them.
const STARTS: [&str; 5] = [
    "",
    "a->b:\n",
    "a->b:\n a b()",
    "a->b:\n a b():1:",
    "a->b:\n a b->c\n",
];

fn every_text(settings: &Settings, loading: &mut Loading) -> Held {
    let letters: Vec<&[u8]> = LETTERS.iter().map(|letter| letter.as_bytes()).collect();
    for start in STARTS {
        every::text_after(
            start.as_bytes(),
            &letters,
            settings.letters(5),
            &mut |text| {
                let (text, marks) = (text.0.clone(), true);
                let rooms = ROOMS[0];
                loading.hold(&Load { text, marks, rooms })
            },
        )?;
    }
    Ok(())
}

const BEYOND: &[Room] = &[Room::BeyondLimits];

/// One in so many texts is loaded with longer slices lent than count.
const OFTEN_BEYOND: u64 = 5_000;

fn random_texts(settings: &Settings, loading: &mut Loading) -> Held {
    let mut random = settings.random("loading");
    for turn in settings.turns(3_000_000) {
        let text = load_texts::text(&mut random);
        let rooms = if turn % OFTEN_BEYOND == 0 {
            BEYOND
        } else {
            ROOMS[(turn / 2 % 4) as usize]
        };
        let marked = text.starts_with("\u{FEFF}".as_bytes());
        let marks = turn % 2 == 0;
        let mut load = Load { text, marks, rooms };
        loading.hold(&load)?;
        if marked {
            load.marks = !marks;
            loading.hold(&load)?;
        }
    }
    Ok(())
}

/// What the stack of a thread may be: a load has to do with that.
const STACK: usize = 2 << 20;

pub fn run(settings: &Settings, report: &mut Report) -> Held {
    thread::scope(|scope| {
        let thread = thread::Builder::new().stack_size(STACK);
        let work = thread.spawn_scoped(scope, || run_in_thread(settings, report));
        match work.map(|work| work.join()) {
            Ok(Ok(held)) => held,
            _ => Err(Disagreement("loading: its thread failed\n".to_owned())),
        }
    })
}

fn run_in_thread(settings: &Settings, report: &mut Report) -> Held {
    let mut loading = Loading::default();
    let examples = load_examples::run()?;
    every_text(settings, &mut loading)?;
    load_files::run(settings, &mut loading)?;
    random_texts(settings, &mut loading)?;
    let kinds = load_kinds::run(settings, &mut loading)?;
    load_largest::run(settings, &mut loading)?;
    println!("  examples with answers of their own: {examples}");
    println!("  texts of four kinds    {kinds}");
    loading.say(report)
}
