//! The table of loads, beside the original's `Mapping::parse`: ratios first, each with the one to reach, and the rows that fall
//! short of it.

use crate::buffers::Buffers;
use crate::race::{self, Race, Unequal};
use clumarief_compare::load_held::Loading;
use clumarief_compare::load_rooms::{Load, Room};
use clumarief_compare::plain::{self, LIMITS, Lent, Refusal};
use clumarief_compare::report::Disagreement;
use clumarief_compare::timing;
use std::panic;

/// What a row is called, and the ratio to reach, which is judged where it is a number.
#[derive(Clone, Copy)]
pub struct Row {
    pub name: &'static str,
    pub to_reach: &'static str,
}

impl Row {
    /// The ratio that it falls short below.
    fn least(self) -> Option<f64> {
        self.to_reach.parse().ok()
    }
}

/// What a text needs, if it loads.
fn needed(text: &str) -> Result<Lent, Refusal> {
    let mapping = plain::read(text.as_bytes(), true)?;
    mapping.fit(LIMITS)?;
    Ok(mapping.needed())
}

/// Whether the proved load leaves what the plain program says, and the original's tables are the same; not so where it panics.
fn agree(text: &str) -> bool {
    let load = Load {
        text: text.as_bytes().to_vec(),
        marks: true,
        rooms: &[Room::Exact],
    };
    match panic::catch_unwind(|| Loading::default().hold(&load)) {
        Ok(Ok(())) => true,
        Ok(Err(Disagreement(said))) => {
            println!("{said}");
            false
        }
        Err(_) => false,
    }
}

pub struct LoadTable {
    runs: u64,
    /// how long the texts are and what they need, which is said at the end
    sizes: Vec<String>,
    /// the rows that fall short
    short: Vec<String>,
}

impl LoadTable {
    /// Prints the head.
    pub fn new(runs: u64) -> Self {
        let columns = "    best  median  spread";
        println!(
            "{:<46}{:>24}{:>24}",
            "megabytes a second", "proved", "original"
        );
        println!(
            "{:<28}{:>8}{:>10}{columns}{columns}",
            "load", "ratio", "to reach"
        );
        LoadTable {
            runs,
            sizes: Vec::new(),
            short: Vec::new(),
        }
    }

    /// Prints a row that is not timed.
    pub fn leave_out(&mut self, row: Row, why: &str) {
        println!("{:<28}left out: {why}", row.name);
        if row.least().is_some() {
            self.short.push(format!("{} (left out)", row.name));
        }
    }

    /// Prints the row of a text, of which both have to make the same tables; `lent` says what is lent for what is needed.
    pub fn row(&mut self, row: Row, text: &str, lent: fn(Lent) -> Lent) -> Result<(), Unequal> {
        match needed(text) {
            Ok(_) if !agree(text) => Err(Unequal(row.name)),
            Ok(needed) => {
                self.sizes.push(format!(
                    "{:<28}{} bytes, {} classes, {} members, {} pool bytes",
                    row.name,
                    text.len(),
                    needed.classes,
                    needed.members,
                    needed.pool
                ));
                self.timed_row(row, text, Buffers::of(lent(needed)))
            }
            Err(refused) => {
                self.leave_out(row, &format!("it is refused, {refused:?}"));
                Ok(())
            }
        }
    }

    fn timed_row(&mut self, row: Row, text: &str, mut buffers: Buffers) -> Result<(), Unequal> {
        let (Row { name, to_reach }, runs) = (row, self.runs);
        let race = Race { text, name, runs };
        let proved = |text: &str| buffers.load(text.as_bytes());
        if !timing::AT_HAND {
            let speeds = race.speeds(&race.timed_alone(proved));
            println!("{name:<28}{:>8}{to_reach:>10}{speeds}", "-");
            return Ok(());
        }
        let original = |text: &str| timing::parse(text.as_bytes());
        let timed = race.timed(proved, original, |number, mapping| {
            *number == 0 && mapping.is_some()
        });
        let [proved, other] = timed.ok_or(Unequal(name))?;
        let ratio = race::ratio(&proved, &other);
        let short = row.least().is_some_and(|least| ratio < least);
        let mark = if short { "  short" } else { "" };
        let (proved, other) = (race.speeds(&proved), race.speeds(&other));
        println!("{name:<28}{ratio:>8.3}{to_reach:>10}{proved}{other}{mark}");
        if short {
            self.short
                .push(format!("{name} ({ratio:.3} of {to_reach})"));
        }
        Ok(())
    }

    /// Prints how long the texts are and what they need. What is given back names the rows that fall short.
    pub fn end(self) -> Vec<String> {
        for size in self.sizes {
            println!("{size}");
        }
        self.short
    }
}

#[cfg(test)]
mod tests {
    use super::{Row, agree, needed};

    #[test]
    fn only_a_number_is_judged() {
        let least = |to_reach| {
            Row {
                name: "a",
                to_reach,
            }
            .least()
        };
        assert_eq!(least("5"), Some(5.0));
        for other in ["-", "near 3", "stated"] {
            assert_eq!(least(other), None);
        }
    }

    #[test]
    fn what_is_refused_needs_nothing() {
        assert!(needed("a\n").is_err());
        let members = " a b->c\n".repeat(32_769);
        assert!(needed(&format!("a->b:\n{members}")).is_err());
    }

    #[test]
    fn all_agree_on_a_mapping() {
        assert!(agree("a -> b:\n int n -> c\n"));
    }
}
