//! In place of the proved libraries: the same C functions, over a copy of the plain program. One fault may be planted in it,
//! to see that the comparison finds it; with none it has to agree.

use std::env;
use std::process;
use std::sync::OnceLock;

/// The copy, in which build.rs sets each fault beside what is right.
#[allow(dead_code, unused_parens, unused_imports, clippy::all)]
mod faulty {
    include!(concat!(env!("OUT_DIR"), "/faulty.rs"));
}

/// The fault is named by this variable of the environment, which `faults/run` sets.
const FAULT: &str = "CLUMARIEF_FAULT";

/// Whether the fault of that number is planted.
pub fn on(number: usize) -> bool {
    static PLANTED: OnceLock<Option<usize>> = OnceLock::new();
    *PLANTED.get_or_init(planted) == Some(number)
}

fn planted() -> Option<usize> {
    let name = env::var(FAULT).ok().filter(|name| !name.is_empty())?;
    let number = faulty::FAULTS.iter().position(|known| *known == name);
    if number.is_none() {
        eprintln!("compare: there is no fault {name}");
        process::exit(2);
    }
    number
}
