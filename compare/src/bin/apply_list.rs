//! apply_list cases|answers: prints what crates/apply_cases reads from standard input, or what it has to write.

use clumarief_compare::apply_list::{self, ListCase};
use std::env;
use std::process::ExitCode;

fn main() -> ExitCode {
    let said = match env::args().nth(1).as_deref() {
        Some("cases") => ListCase::asked,
        Some("answers") => ListCase::answer,
        _ => {
            eprintln!("usage: apply_list cases|answers");
            return ExitCode::from(2);
        }
    };
    match apply_list::cases() {
        Ok(cases) => {
            cases.iter().for_each(|case| print!("{}", said(case)));
            ExitCode::SUCCESS
        }
        Err(record) => {
            eprintln!("apply_list: this case does not read: {record}");
            ExitCode::FAILURE
        }
    }
}
