//! Holding a function against its judge: counts, and what is said at a disagreement.

use crate::case::Case;
use crate::random::Random;
use std::fmt::Debug;
use std::ops::Range;
use std::path::PathBuf;
use std::time::{Duration, Instant};

/// What a run is asked to do.
pub struct Settings {
    pub seed: u64,
    /// how many times as many random cases
    pub more: u64,
    /// a small share of the cases
    pub quick: bool,
    /// a real mapping file
    pub real: Option<PathBuf>,
}

/// A quick run has one in so many of the random cases, and leaves out so many letters of every text.
const QUICK: (u64, usize) = (100, 2);

impl Settings {
    pub fn random(&self, user: &str) -> Random {
        Random::new(self.seed, user)
    }

    /// The turns of a random part that has `usual` of them.
    pub fn turns(&self, usual: u64) -> Range<u64> {
        let share = if self.quick { QUICK.0 } else { 1 };
        0..usual.div_ceil(share).saturating_mul(self.more)
    }

    /// How many letters every text of a part has that has up to `usual`.
    pub fn letters(&self, usual: usize) -> usize {
        if self.quick {
            usual.saturating_sub(QUICK.1)
        } else {
            usual
        }
    }

    /// The settings as words of the command line.
    pub fn say(&self) -> String {
        let quick = if self.quick { " --quick" } else { "" };
        format!("settings: --seed {} --more {}{quick}", self.seed, self.more)
    }
}

/// The whole report of a disagreement but for the seed.
pub struct Disagreement(pub String);

pub type Held = Result<(), Disagreement>;

/// A function and its judge.
pub struct Subject<C, A> {
    pub name: &'static str,
    /// The proved function; where the plain program is held against the original, that program.
    pub proved: fn(&C) -> A,
    /// `None` where the judge has no answer, as for a text that is not UTF-8.
    pub judge: fn(&C) -> Option<A>,
    /// The kind of outcome that a case is counted under.
    pub outcome: fn(&A) -> &'static str,
}

/// A subject with the cases counted so far.
pub struct Comparison<C, A> {
    subject: Subject<C, A>,
    outcomes: Vec<(&'static str, u64)>,
}

impl<C: Case, A: PartialEq + Debug> Comparison<C, A> {
    pub fn new(subject: Subject<C, A>) -> Self {
        let outcomes = Vec::new();
        Comparison { subject, outcomes }
    }

    pub fn hold(&mut self, case: &C) -> Held {
        self.hold_seen(case, |_| {})
    }

    /// The same, and `seen` gets what both answered.
    pub fn hold_seen(&mut self, case: &C, seen: impl FnOnce(&A)) -> Held {
        let Some(judged) = (self.subject.judge)(case) else {
            return Ok(());
        };
        if (self.subject.proved)(case) != judged {
            return Err(self.subject.disagreement(case));
        }
        seen(&judged);
        let kind = (self.subject.outcome)(&judged);
        match self.outcomes.iter_mut().find(|(known, _)| *known == kind) {
            Some((_, count)) => *count += 1,
            None => self.outcomes.push((kind, 1)),
        }
        Ok(())
    }
}

impl<C: Case, A: PartialEq + Debug> Subject<C, A> {
    fn differs(&self, case: &C) -> bool {
        (self.judge)(case).is_some_and(|judged| (self.proved)(case) != judged)
    }

    fn disagreement(&self, case: &C) -> Disagreement {
        let least = self.shrink(case);
        let (proved, judged) = ((self.proved)(&least), (self.judge)(&least));
        let mut said = format!("disagreement: {}\n{}", self.name, least.show());
        said += &format!("  answer: {proved:?}\n");
        if let Some(judged) = judged {
            said += &format!("  judge:  {judged:?}\n");
        }
        Disagreement(said)
    }

    /// The simplest case found that differs. A long text could be made simpler for hours, so there is an end to it.
    fn shrink(&self, case: &C) -> C {
        let end = Instant::now() + Duration::from_secs(10);
        let mut least = case.clone();
        loop {
            let in_time = |_: &C| Instant::now() < end;
            let simpler = least
                .simpler()
                .take_while(in_time)
                .find(|simpler| self.differs(simpler));
            match simpler {
                Some(simpler) => least = simpler,
                None => return least,
            }
        }
    }
}

/// What has been printed so far.
#[derive(Default)]
pub struct Report {
    pub cases: u64,
}

impl Report {
    /// Prints a line for a subject that held.
    pub fn add<C, A>(&mut self, comparison: Comparison<C, A>) {
        let Comparison {
            subject,
            mut outcomes,
        } = comparison;
        outcomes.sort_unstable();
        let cases: u64 = outcomes.iter().map(|(_, count)| count).sum();
        let kinds: Vec<String> = outcomes
            .iter()
            .map(|(kind, count)| format!("{kind} {count}"))
            .collect();
        println!("{:<10} {cases:>11}   {}", subject.name, kinds.join(", "));
        self.cases += cases;
    }
}
