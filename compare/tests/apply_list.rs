//! The stored list of crates/apply_cases is the one that is made here, and plain program and original agree on it.

use clumarief_compare::apply_list::{ListCase, cases};
use clumarief_compare::timing;
use std::collections::BTreeSet;

const STDIN: &str = include_str!("../../crates/apply_cases/stdin");
const STDOUT: &str = include_str!("../../crates/apply_cases/stdout");

fn all() -> Vec<ListCase> {
    cases().expect("every case reads")
}

#[test]
fn the_stored_cases_are_these() {
    let made: String = all().iter().map(ListCase::asked).collect();
    assert_eq!(made, STDIN);
}

#[test]
fn the_stored_answers_are_these() {
    let made: String = all().iter().map(ListCase::answer).collect();
    assert_eq!(made, STDOUT);
}

#[test]
fn plain_program_and_original_agree() {
    let mut judged = 0;
    for case in all() {
        if let Some(applied) = case.by_original() {
            assert_eq!(case.by_plain(), applied, "{}", case.name);
            judged += 1;
        }
    }
    assert_eq!(timing::AT_HAND, judged > 40, "{judged}");
}

#[test]
fn each_name_stands_once() {
    let names: BTreeSet<&str> = all().iter().map(|case| case.name).collect();
    assert_eq!(names.len(), all().len());
    assert!(names.len() > 50);
}
