//! A load with rows and bytes of many sizes lent: as the proved functions leave them, and as the plain program says.

use crate::case::{self, Case};
use crate::plain::{self, ClassRow, Lent, Loaded, MemberRow, Refusal};
use crate::proved::{self, Rooms};
use crate::reading::Sound;
use std::fmt::{self, Debug, Formatter};

/// How much is lent, beside what the text needs. A refused text needs nothing.
#[derive(Clone, Copy, Debug)]
pub enum Room {
    Exact,
    FewerClasses,
    FewerMembers,
    ShorterPool,
    /// both too short
    FewerMembersShorterPool,
    /// all three too short
    FewerOfAll,
    Larger(usize),
    /// longer than what counts
    BeyondLimits,
}

impl Room {
    fn lent(self, needed: Lent) -> Lent {
        let mut lent = needed;
        let fewer = Lent {
            classes: needed.classes.saturating_sub(1),
            members: needed.members.saturating_sub(1),
            pool: needed.pool.saturating_sub(1),
        };
        match self {
            Room::Exact => {}
            Room::FewerClasses => lent.classes = fewer.classes,
            Room::FewerMembers => lent.members = fewer.members,
            Room::ShorterPool => lent.pool = fewer.pool,
            Room::FewerMembersShorterPool => {
                lent = fewer;
                lent.classes = needed.classes;
            }
            Room::FewerOfAll => lent = fewer,
            Room::Larger(by) => {
                lent.classes += by;
                lent.members += 2 * by;
                lent.pool += 7 * by;
            }
            Room::BeyondLimits => {
                lent.classes = plain::LIMITS.classes + 3;
                lent.members = plain::LIMITS.members + 2;
                lent.pool = plain::LIMITS.pool + 5;
            }
        }
        // far more may be needed than counts, and than there is
        lent.pool = lent.pool.min(plain::LIMITS.pool + 100);
        lent
    }
}

/// A text, which function loads it, and what is lent, one call after the other.
#[derive(Clone)]
pub struct Load {
    pub text: Vec<u8>,
    /// as `parse` does, which drops leading marks
    pub marks: bool,
    pub rooms: &'static [Room],
}

impl Case for Load {
    fn simpler(&self) -> Box<dyn Iterator<Item = Self> + '_> {
        let calls = if self.rooms.len() > 1 {
            self.rooms
        } else {
            &[]
        };
        let one_call = calls.chunks(1).map(|rooms| Load {
            text: self.text.clone(),
            rooms,
            ..*self
        });
        let texts = case::simpler_bytes(&self.text).map(|text| Load { text, ..*self });
        Box::new(one_call.chain(texts))
    }

    fn show(&self) -> String {
        let name = if self.marks { "parse" } else { "parse_str" };
        let text = case::show_bytes("text", &self.text);
        format!("{text}  function: {name}, lent: {:?}\n", self.rooms)
    }
}

/// What a load answers, and all that was lent, after it.
#[derive(PartialEq)]
pub struct Left {
    pub answer: [u32; 24],
    pub classes: Vec<ClassRow>,
    pub members: Vec<MemberRow>,
    pub pool: Vec<u8>,
}

/// At a disagreement this many rows and bytes are said.
const SHOWN: usize = 6;

impl Debug for Left {
    fn fmt(&self, formatter: &mut Formatter<'_>) -> fmt::Result {
        let rows = (self.classes.len(), self.members.len(), self.pool.len());
        let pool = &self.pool[..rows.2.min(40 * SHOWN)];
        write!(
            formatter,
            "\n    {:?} lent {rows:?} {:?} {:?} \"{}\"",
            &self.answer[..12],
            &self.classes[..rows.0.min(SHOWN)],
            &self.members[..rows.1.min(SHOWN)],
            pool.escape_ascii()
        )
    }
}

/// What is left of each of the calls.
pub type Calls = Vec<Sound<Left>>;

/// The lent sizes of a case, each once.
fn sizes(load: &Load, needed: Lent) -> Vec<Lent> {
    let mut sizes = Vec::new();
    for room in load.rooms {
        let lent = room.lent(needed);
        if !sizes.contains(&lent) {
            sizes.push(lent);
        }
    }
    sizes
}

const NOTHING: Lent = Lent {
    classes: 0,
    members: 0,
    pool: 0,
};

pub fn proved_calls(load: &Load) -> Calls {
    let needed = plain::read(&load.text, load.marks).map_or(NOTHING, |mapping| mapping.needed());
    let calls = sizes(load, needed).into_iter();
    calls.map(|lent| proved_call(load, lent)).collect()
}

pub fn plain_calls(load: &Load) -> Calls {
    let read = plain::read(&load.text, load.marks);
    let needed = read.as_ref().map_or(NOTHING, |mapping| mapping.needed());
    let calls = sizes(load, needed).into_iter();
    let left = calls.map(|lent| match &read {
        Ok(mapping) => left(mapping.fit(lent), lent),
        Err(refused) => left(Err(*refused), lent),
    });
    left.map(Ok).collect()
}

/// "A refused load zeroes all lent rows and pool bytes and returns zero counts; a success zeroes what it does not use."
fn left(load: Result<Loaded, Refusal>, lent: Lent) -> Left {
    let mut left = Left {
        answer: [0; 24],
        classes: Vec::new(),
        members: Vec::new(),
        pool: Vec::new(),
    };
    match load {
        Ok(loaded) => {
            let fates = loaded.fates;
            let counts = [
                fates.lines,
                fates.blank,
                fates.applied,
                fates.idle,
                fates.class,
                fates.field,
                fates.method,
                fates.short,
                loaded.pool.len() as u32,
            ];
            left.answer[3..12].copy_from_slice(&counts);
            (left.classes, left.members) = (loaded.classes, loaded.members);
            left.pool = loaded.pool;
        }
        Err(refused) => {
            left.answer[0] = refused.number;
            left.answer[1] = refused.place as u32;
            left.answer[2] = refused.length as u32;
        }
    }
    left.classes.resize(lent.classes, [0; 4]);
    left.members.resize(lent.members, [0; 15]);
    left.pool.resize(lent.pool, 0);
    left
}

/// Rows and bytes on both sides of what is lent, which nothing may be written to.
const GUARD: usize = 2;

/// What stands in rows and bytes before the call.
const RUBBISH: u32 = 0xA5A5_A5A5;

/// The rubbish, with the guards around it.
fn guarded<T: Clone>(rubbish: T, lent: usize) -> Vec<T> {
    vec![rubbish; GUARD + lent + GUARD]
}

/// What was lent, taken out of its guards, if those are as they were.
fn unguarded<T: PartialEq>(mut guarded: Vec<T>, rubbish: &T) -> Sound<Vec<T>> {
    let end = guarded.split_off(guarded.len() - GUARD);
    let lent = guarded.split_off(GUARD);
    if guarded.iter().chain(&end).any(|guard| guard != rubbish) {
        return Err("written outside of what was lent");
    }
    Ok(lent)
}

fn proved_call(load: &Load, lent: Lent) -> Sound<Left> {
    let rubbish = ([RUBBISH; 4], [RUBBISH; 15], RUBBISH as u8);
    let mut classes = guarded(rubbish.0, lent.classes);
    let mut members = guarded(rubbish.1, lent.members);
    let mut pool = guarded(rubbish.2, lent.pool);
    let rooms = Rooms {
        classes: &mut classes[GUARD..GUARD + lent.classes],
        members: &mut members[GUARD..GUARD + lent.members],
        pool: &mut pool[GUARD..GUARD + lent.pool],
    };
    let answer = proved::load(&load.text, load.marks, rooms);
    Ok(Left {
        answer,
        classes: unguarded(classes, &rubbish.0)?,
        members: unguarded(members, &rubbish.1)?,
        pool: unguarded(pool, &rubbish.2)?,
    })
}
