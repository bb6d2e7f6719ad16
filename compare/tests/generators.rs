//! The makers of cases, with no proved library at hand.

use clumarief_compare::case::{Case, Text};
use clumarief_compare::comment_texts;
use clumarief_compare::equal_names;
use clumarief_compare::every;
use clumarief_compare::idle_runs;
use clumarief_compare::load_texts;
use clumarief_compare::plain::{self, LIMITS, LONGEST, Loaded, Mapping};
use clumarief_compare::random::Random;
use clumarief_compare::report::{Disagreement, Held, Settings};
use clumarief_compare::synthetic::{self, Form};
use std::collections::BTreeSet;

fn draws(seed: u64, user: &str) -> Vec<u64> {
    let mut random = Random::new(seed, user);
    (0..50).map(|_| random.draw()).collect()
}

#[test]
fn a_seed_gives_the_same_again() {
    assert_eq!(draws(1, "a"), draws(1, "a"));
    assert_ne!(draws(1, "a"), draws(2, "a"));
    assert_ne!(draws(1, "a"), draws(1, "b"));
}

#[test]
fn splitmix64_as_published() {
    // the first numbers for the state 1234567
    let mut random = Random::new(1_234_567, "");
    assert_eq!(random.draw(), 6_457_827_717_110_365_317);
    assert_eq!(random.draw(), 3_203_168_211_198_807_973);
}

#[test]
fn numbers_stay_below_their_bound() {
    let mut random = Random::new(1, "below");
    let seen: BTreeSet<usize> = (0..1_000).map(|_| random.below(7)).collect();
    assert_eq!(seen, (0..7).collect());
    assert_eq!(random.below(0), 0);
}

#[test]
fn every_text_is_made_once() {
    let mut texts = Vec::new();
    let held: Held = every::text_of("aé", 3, &mut |text| {
        texts.push(text.0.clone());
        Ok(())
    });
    assert!(held.is_ok());
    // 1 and 2 and 4 and 8
    assert_eq!(texts.len(), 15);
    let each: BTreeSet<Vec<u8>> = texts.into_iter().collect();
    assert_eq!(each.len(), 15);
}

#[test]
fn a_disagreement_ends_the_walk() {
    let mut count = 0;
    let held = every::text_of("ab", 3, &mut |_| {
        count += 1;
        if count == 4 {
            return Err(Disagreement(String::new()));
        }
        Ok(())
    });
    assert!(held.is_err());
    assert_eq!(count, 4);
}

#[test]
fn simpler_texts_are_shorter_or_plainer() {
    let text = Text(b"(x\xC3\xA9)".to_vec());
    let mut simpler = text.simpler().peekable();
    assert!(simpler.peek().is_some());
    assert!(simpler.all(|simpler| simpler.0.len() <= text.0.len() && simpler.0 != text.0));
    assert_eq!(Text(b"".to_vec()).simpler().count(), 0);
}

#[test]
fn a_quick_run_has_fewer_cases() {
    let settings = |quick| Settings {
        seed: 1,
        more: 2,
        quick,
        real: None,
    };
    assert_eq!(settings(false).turns(1_000), 0..2_000);
    assert_eq!(settings(true).turns(1_000), 0..20);
    assert_eq!(settings(true).turns(1), 0..2);
    assert_eq!(
        (settings(false).letters(6), settings(true).letters(6)),
        (6, 4)
    );
}

fn read(text: &str) -> Mapping<'_> {
    plain::read(text.as_bytes(), true).expect("a mapping as a shrinker writes it")
}

#[test]
fn synthetic_mappings_load() {
    for form in Form::ALL {
        for length in [0, 1, 300, 2_000, 100_000, 1_000_000] {
            let text = synthetic::mapping(&mut Random::new(3, "test"), form, length);
            assert!(text.is_ascii());
            assert!(length <= text.len() && text.len() < length + 1_000);
            let loaded = read(&text).fit(LIMITS).expect("within the limits");
            let fates = loaded.fates;
            assert_eq!(fates.short, 0);
            match form {
                Form::ProGuard => assert_eq!((fates.applied, fates.idle), (0, 0)),
                // a comment for each member, and one for each class but for those of the head
                Form::R8 => {
                    assert_eq!(fates.applied, fates.field + fates.method);
                    assert_eq!(fates.idle, fates.class + 5);
                }
            }
        }
    }
}

/// A residual signature is what the display types stand for, so that leaving it out changes no descriptor.
#[test]
fn residual_signatures_are_right() {
    let text = synthetic::mapping(&mut Random::new(4, "test"), Form::R8, 50_000);
    let lines = text
        .lines()
        .filter(|line| !line.contains("residualsignature"));
    let bare: String = lines.map(|line| format!("{line}\n")).collect();
    let [with, without] = [&text, &bare].map(|text| read(text).fit(LIMITS).expect("good"));
    assert_eq!(with.pool, without.pool);
    assert_eq!(with.members, without.members);
}

fn load(text: &str) -> Loaded {
    assert!(text.len() <= LONGEST);
    read(text).fit(LIMITS).expect("within the limits")
}

/// How many of the rows have a text of their own at the place.
fn texts_at<const N: usize>(loaded: &Loaded, rows: &[[u32; N]], at: usize) -> usize {
    let text = |row: &[u32; N]| {
        let start = row[at] as usize;
        loaded.pool[start..start + row[at + 1] as usize].to_vec()
    };
    rows.iter().map(text).collect::<BTreeSet<_>>().len()
}

#[test]
fn equal_names_are_of_one_side_or_both() {
    let mut random = Random::new(1, "test");
    let mut sides = BTreeSet::new();
    for _ in 0..50 {
        let loaded = load(&equal_names::mapping(&mut random, 100, 3));
        assert_eq!(loaded.classes.len(), 100);
        let own = [0, 2].map(|at| texts_at(&loaded, &loaded.classes, at) == 100);
        sides.insert(own);
        assert!(texts_at(&loaded, &loaded.members, 2) <= 2);
    }
    let known = [[true, false], [false, true], [false, false]];
    assert_eq!(sides, BTreeSet::from(known));
}

#[test]
fn equal_names_load_where_they_are_many() {
    let mut random = Random::new(2, "test");
    for (lines, members) in [(4_096, 1), (1_000, 4), (3, 3_000)] {
        for _ in 0..6 {
            let loaded = load(&equal_names::mapping(&mut random, lines, members));
            assert_eq!(loaded.classes.len(), lines);
        }
    }
}

#[test]
fn idle_runs_load_and_are_of_every_fate() {
    let mut random = Random::new(1, "test");
    let mut longest = 0;
    for _ in 0..2_000 {
        let fates = load(&idle_runs::mapping(&mut random)).fates;
        assert!((1..4).contains(&fates.class));
        longest = longest.max(fates.blank.min(fates.applied).min(fates.idle));
    }
    assert!(longest > 12, "{longest}");
}

#[test]
fn random_texts_are_of_every_kind() {
    let mut random = Random::new(1, "test");
    let mut numbers = BTreeSet::new();
    for _ in 0..5_000 {
        let text = load_texts::text(&mut random);
        let read = plain::read(&text, true);
        numbers.insert(read.map_or_else(|refused| refused.number, |_| 0));
    }
    assert_eq!(numbers, BTreeSet::from([0, 2, 3, 4, 5, 6, 7, 8]));
}

#[test]
fn random_comments_read_and_do_not() {
    let mut random = Random::new(1, "test");
    let is_read = |_| {
        let comment = comment_texts::comment(&mut random);
        serde_json::from_str::<serde_json::Value>(&comment).is_ok()
    };
    let read = (0..1_000).map(is_read).filter(|read| *read).count();
    assert!((300..900).contains(&read), "{read}");
}
