//! Both comparisons of loading: the plain program held against the original, and the proved one against the plain program.

use crate::load_rooms::{self, Calls, Load};
#[cfg(original)]
use crate::load_tables;
use crate::report::{Comparison, Disagreement, Held, Report, Subject};
#[cfg(original)]
use crate::tables::Answer;

const LOAD: Subject<Load, Calls> = Subject {
    name: "load",
    proved: load_rooms::proved_calls,
    judge: |load| Some(load_rooms::plain_calls(load)),
    outcome: |calls| match calls.first() {
        Some(Ok(left)) if left.answer[0] == 0 => "accepted",
        Some(Ok(_)) => "refused",
        _ => "wrong",
    },
};

#[cfg(original)]
const TABLES: Subject<Load, Answer> = Subject {
    name: "plain",
    proved: |load| load_tables::plain_tables(&load.text, load.marks),
    judge: |load| load_tables::original_tables(&load.text, load.marks),
    outcome: |answer| match answer {
        Ok(_) => "accepted",
        Err((0, message)) if message.starts_with("mapping is not") => "not UTF-8",
        Err((0, _)) => "no classes",
        Err(_) => "faulty line",
    },
};

/// Every number that a load can answer, and what the accepted ones count.
#[derive(Default)]
struct Seen {
    numbers: [u64; 12],
    fates: [u64; 8],
    others: u64,
}

const FATES: [&str; 8] = [
    "lines", "blank", "applied", "idle", "class", "field", "method", "short",
];

impl Seen {
    fn count(&mut self, calls: &Calls) {
        for left in calls.iter().flatten() {
            match self.numbers.get_mut(left.answer[0] as usize) {
                Some(count) => *count += 1,
                None => self.others += 1,
            }
            for (sum, count) in self.fates.iter_mut().zip(&left.answer[3..11]) {
                *sum += u64::from(*count);
            }
        }
    }

    /// Says what was seen. A run in which some answer was never seen compares too little.
    fn say(&self) -> Held {
        let numbers = self.numbers.iter().enumerate();
        let numbers: Vec<String> = numbers
            .map(|(at, count)| format!("{at}: {count}"))
            .collect();
        println!("  answers of all calls   {}", numbers.join(", "));
        let fates = FATES.iter().zip(self.fates);
        let fates: Vec<String> = fates.map(|(name, sum)| format!("{name} {sum}")).collect();
        println!("  fates of all lines     {}", fates.join(", "));
        if self.numbers.contains(&0) || self.fates.contains(&0) || self.others > 0 {
            let said = "loading: an answer or a fate was never seen\n".to_owned();
            return Err(Disagreement(said));
        }
        Ok(())
    }
}

/// Both comparisons.
pub struct Loading {
    load: Comparison<Load, Calls>,
    #[cfg(original)]
    tables: Comparison<Load, Answer>,
    seen: Seen,
    texts: u64,
}

impl Default for Loading {
    fn default() -> Self {
        Loading {
            load: Comparison::new(LOAD),
            #[cfg(original)]
            tables: Comparison::new(TABLES),
            seen: Seen::default(),
            texts: 0,
        }
    }
}

impl Loading {
    pub fn hold(&mut self, load: &Load) -> Held {
        self.texts += 1;
        #[cfg(original)]
        self.tables.hold(load)?;
        let seen = &mut self.seen;
        self.load.hold_seen(load, |calls| seen.count(calls))
    }

    /// How many texts were held so far.
    pub fn texts(&self) -> u64 {
        self.texts
    }

    /// Says what was held.
    pub fn say(self, report: &mut Report) -> Held {
        #[cfg(original)]
        report.add(self.tables);
        report.add(self.load);
        self.seen.say()
    }
}
