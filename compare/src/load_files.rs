//! Whole mapping files: a real one, if one is named, and such as are like one. Cut and damaged too.

use crate::load_held::Loading;
use crate::load_rooms::{Load, Room};
use crate::load_texts;
use crate::plain::LONGEST;
use crate::random::Random;
use crate::report::{Held, Settings};
use crate::synthetic::{self, Form};
use std::fs;

const ROOMS: &[Room] = &[Room::Exact, Room::ShorterPool, Room::Larger(100)];

/// Lengths of texts that are like a file.
const LENGTHS: [usize; 4] = [1_000, 10_000, 100_000, 400_000];

/// The text, and so many damaged copies.
pub fn hold(random: &mut Random, loading: &mut Loading, text: Vec<u8>, damaged: u64) -> Held {
    let (marks, rooms) = (true, ROOMS);
    let mut load = Load { text, marks, rooms };
    loading.hold(&load)?;
    let whole = load.text.clone();
    for _ in 0..damaged {
        load.text.clone_from(&whole);
        load_texts::damage(random, &mut load.text);
        // a long line may have been doubled
        load.text.truncate(LONGEST);
        loading.hold(&load)?;
    }
    Ok(())
}

/// The text of the real file, or why there is none.
pub fn real_text(settings: &Settings) -> Result<Vec<u8>, String> {
    let path = settings.real.as_ref();
    let path = path.ok_or("none is named, see run --real")?;
    fs::read(path).map_err(|error| error.to_string())
}

pub fn run(settings: &Settings, loading: &mut Loading) -> Held {
    let mut random = settings.random("mapping files");
    let lengths = if settings.quick {
        &LENGTHS[..2]
    } else {
        &LENGTHS
    };
    for _ in settings.turns(4) {
        for (form, length) in lengths
            .iter()
            .flat_map(|length| Form::ALL.map(|form| (form, length)))
        {
            let text = synthetic::mapping(&mut random, form, *length).into_bytes();
            hold(&mut random, loading, text, 2)?;
        }
    }
    match real_text(settings) {
        Ok(text) => hold(&mut random, loading, text, settings.turns(40).end),
        Err(why) => {
            println!("a real mapping file is left out: {why}");
            Ok(())
        }
    }
}
