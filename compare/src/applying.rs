//! Applying a mapping to a tree: over mappings that were loaded, judged by the original, and over any tables and tree files, by
//! the plain program.

use crate::apply_every;
use crate::apply_held::Applying;
use crate::apply_limits;
use crate::apply_mappings;
use crate::apply_trees::{self, Words};
use crate::members;
use crate::plain;
use crate::random::Random;
use crate::report::{Held, Report, Settings};
use crate::synthetic::{self, Form};
use crate::{lookup_tables, tree_damage};
use std::fs;
use std::rc::Rc;

/// Trees of each small mapping, of each one as shrinkers write them, and of a real one.
const TREES: usize = 20;
const LONG_TREES: usize = 400;
const REAL_TREES: u64 = 2_000;

/// What is read of a mapping by the plain program, whose names trees are made of.
fn words(text: &str) -> Option<Words> {
    let read = plain::read(text.as_bytes(), true).ok()?;
    read.fit(plain::LIMITS)
        .ok()
        .map(|loaded| Words::of(&loaded))
}

/// Trees of a mapping's names.
fn trees(random: &mut Random, held: &mut Applying, text: &str, count: usize) -> Held {
    let (Some(words), true) = (words(text), held.load(text)) else {
        return Ok(());
    };
    for _ in 0..count {
        let class = words.class(random);
        let tree = apply_trees::tree(random, &words, &class);
        held.tree(random, &class, &tree)?;
    }
    Ok(())
}

/// Every number and every length of a tree file, and of its tables, as another.
fn damaged(random: &mut Random, held: &mut Applying, text: &str) -> Held {
    let (Some(words), true) = (words(text), held.load(text)) else {
        return Ok(());
    };
    let class = words.class(random);
    let mut tree = apply_trees::tree(random, &words, &class);
    tree.nodes.truncate(8);
    let mut hold = |file| held.file(&class, file);
    hold(tree_damage::counts_beyond(&tree))?;
    tree_damage::every_number(random, &tree, &mut hold)?;
    tree_damage::every_name_byte(random, &tree, &mut hold)?;
    tree_damage::every_length(random, &tree.written(), &mut hold)?;
    let lent = held.lent();
    let file = tree.written();
    // a class given that is not UTF-8 is known to no tables; and next to no output
    for class in [&b"\xFF"[..], b"Lx;\xC3", b""] {
        held.any(Rc::new(lent.clone()), class, &file, 4 * file.len())?;
        held.any(Rc::new(lent.clone()), class, &file, class.len())?;
    }
    lookup_tables::every_number(&lent, &mut |lent| held.tables(lent, &class, &file))?;
    for _ in 0..20 {
        let mut lent = lent.clone();
        for _ in 0..1 + random.below(2) {
            lookup_tables::damage(random, &mut lent);
            held.tables(lent.clone(), &class, &file)?;
        }
        let mut other = tree.clone();
        tree_damage::damage(random, &mut other);
        held.file(&class, other.written())?;
        held.tables(lent, &class, &other.written())?;
    }
    Ok(())
}

/// Trees of all mappings.
fn all(settings: &Settings, random: &mut Random, held: &mut Applying) -> Held {
    for _ in settings.turns(150_000) {
        let text = members::mapping(random);
        trees(random, held, &text, TREES)?;
    }
    for _ in settings.turns(20_000) {
        let text = apply_mappings::alike(random);
        trees(random, held, &text, TREES)?;
    }
    for turn in settings.turns(300) {
        let form = Form::ALL[turn as usize % 2];
        let length = 500 + random.below(8_000);
        let text = synthetic::mapping(random, form, length);
        trees(random, held, &text, LONG_TREES)?;
    }
    let real = settings.real.as_ref().map(fs::read_to_string);
    if let Some(Ok(text)) = real {
        let count = settings.turns(REAL_TREES).end as usize;
        trees(random, held, &text, count)?;
    }
    Ok(())
}

pub fn run(settings: &Settings, report: &mut Report) -> Held {
    let mut random = settings.random("applying");
    let mut held = Applying::default();
    apply_every::run(settings, &mut held)?;
    all(settings, &mut random, &mut held)?;
    for _ in settings.turns(500) {
        let text = members::mapping(&mut random);
        damaged(&mut random, &mut held, &text)?;
    }
    apply_limits::run(&mut held)?;
    held.report(report);
    Ok(())
}
