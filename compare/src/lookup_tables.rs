//! Tables that are lent to a look-up: as a load leaves them, and damaged.

use crate::case;
use crate::plain::{self, ClassRow, LIMITS, Lookup, MemberRow};
use crate::proved::{self, Tables};
use crate::random::Random;
use crate::report::Held;

/// Tables, and how much of them is used: class rows, member rows, pool bytes.
#[derive(Clone)]
pub struct LentTables {
    pub classes: Vec<ClassRow>,
    pub members: Vec<MemberRow>,
    pub pool: Vec<u8>,
    pub used: [u32; 3],
}

impl LentTables {
    /// As the proved functions take them.
    pub fn tables(&self) -> Tables<'_> {
        Tables {
            classes: &self.classes,
            members: &self.members,
            pool: &self.pool,
            used: self.used,
        }
    }

    /// As the plain program takes them.
    pub fn lookup(&self) -> Lookup<'_> {
        Lookup {
            classes: &self.classes,
            members: &self.members,
            pool: &self.pool,
            used: self.used,
        }
    }

    /// A text of the pool.
    pub fn text(&self, place: u32, length: u32) -> &[u8] {
        let start = place as usize;
        &self.pool[start..start + length as usize]
    }

    /// The same with the last member row unused, if there is one.
    pub fn fewer(&self) -> Option<Self> {
        let mut fewer = self.clone();
        fewer.used[1] = self.used[1].checked_sub(1)?;
        Some(fewer)
    }

    pub fn show(&self) -> String {
        format!(
            "{}  used: {:?} of {}, {}, {}\n  classes: {:?}\n  members: {:?}\n",
            case::show_bytes("pool", &self.pool),
            self.used,
            self.classes.len(),
            self.members.len(),
            self.pool.len(),
            self.classes,
            self.members,
        )
    }
}

/// The tables that the proved load of a text leaves, or none where it is refused.
pub fn loaded(text: &[u8]) -> Option<LentTables> {
    let needed = plain::read(text, true).ok()?.needed();
    let mut classes = vec![[0; 4]; needed.classes];
    let mut members = vec![[0; 15]; needed.members];
    let mut pool = vec![0; needed.pool];
    let rooms = proved::Rooms {
        classes: &mut classes,
        members: &mut members,
        pool: &mut pool,
    };
    let answer = proved::load(text, true, rooms);
    (answer[0] == 0).then(|| LentTables {
        used: [answer[7], answer[8] + answer[9], answer[11]],
        classes,
        members,
        pool,
    })
}

/// A number near the ends of what there may be, or any.
fn number(random: &mut Random, near: u32) -> u32 {
    match random.below(6) {
        0 => near.wrapping_add(1),
        1 => near.wrapping_sub(1),
        2 => u32::MAX - random.below(3) as u32,
        3 => random.below(4) as u32,
        4 => random.draw() as u32,
        _ => near,
    }
}

/// A length of at most this one.
fn shorter(random: &mut Random, length: usize) -> usize {
    random.below(length + 1)
}

/// One number of a row, a count, or a lent length is another, or a byte of the pool.
pub fn damage(random: &mut Random, lent: &mut LentTables) {
    match random.below(7) {
        0 => {
            let at = random.below(3);
            lent.used[at] = number(random, lent.used[at]);
        }
        1 => lent.pool.truncate(shorter(random, lent.pool.len())),
        2 => lent.classes.truncate(shorter(random, lent.classes.len())),
        3 => lent.members.truncate(shorter(random, lent.members.len())),
        4 => {
            let at = random.below(lent.pool.len());
            if let Some(byte) = lent.pool.get_mut(at) {
                *byte = random.byte();
            }
        }
        5 => {
            let (row, at) = (random.below(lent.classes.len()), random.below(4));
            if let Some(row) = lent.classes.get_mut(row) {
                row[at] = number(random, row[at]);
            }
        }
        _ => {
            let (row, at) = (random.below(lent.members.len()), random.below(15));
            if let Some(row) = lent.members.get_mut(row) {
                row[at] = number(random, row[at]);
            }
        }
    }
}

/// Every number of every row, and every count: one past and one short, and at its largest.
pub fn every_number(lent: &LentTables, hold: &mut impl FnMut(LentTables) -> Held) -> Held {
    let others = |number: u32| [number.wrapping_sub(1), number.wrapping_add(1), 3, u32::MAX];
    for (row, at) in (0..lent.classes.len()).flat_map(|row| (0..4).map(move |at| (row, at))) {
        for other in others(lent.classes[row][at]) {
            let mut damaged = lent.clone();
            damaged.classes[row][at] = other;
            hold(damaged)?;
        }
    }
    for (row, at) in (0..lent.members.len()).flat_map(|row| (0..15).map(move |at| (row, at))) {
        for other in others(lent.members[row][at]) {
            let mut damaged = lent.clone();
            damaged.members[row][at] = other;
            hold(damaged)?;
        }
    }
    for (at, other) in (0..3).flat_map(|at| others(lent.used[at]).map(|other| (at, other))) {
        let mut damaged = lent.clone();
        damaged.used[at] = other;
        hold(damaged)?;
    }
    Ok(())
}

/// Counts at the most there may be, and one more, with more lent than counts.
pub fn at_the_limits(hold: &mut impl FnMut(LentTables) -> Held) -> Held {
    let most = [LIMITS.classes, LIMITS.members, LIMITS.pool].map(|count| count as u32);
    let lent = LentTables {
        classes: vec![[0, 1, 1, 1]; LIMITS.classes + 2],
        members: vec![[0; 15]; LIMITS.members + 2],
        pool: vec![b'a'; LIMITS.pool + 2],
        used: [1, 0, 2],
    };
    for (at, more) in (0..3).flat_map(|at| [(at, 0), (at, 1), (at, 2)]) {
        let mut asked = lent.clone();
        asked.used[at] = most[at] + more;
        hold(asked)?;
    }
    Ok(())
}
