//! Rows and bytes that are lent to one load after the other.

use clumarief_compare::plain::Lent;
use clumarief_compare::proved::{self, Rooms};

pub struct Buffers {
    classes: Vec<[u32; 4]>,
    members: Vec<[u32; 15]>,
    pool: Vec<u8>,
}

impl Buffers {
    pub fn of(lent: Lent) -> Self {
        Buffers {
            classes: vec![[0; 4]; lent.classes],
            members: vec![[0; 15]; lent.members],
            pool: vec![0; lent.pool],
        }
    }

    /// The number that the load answers.
    pub fn load(&mut self, text: &[u8]) -> u32 {
        let rooms = Rooms {
            classes: &mut self.classes,
            members: &mut self.members,
            pool: &mut self.pool,
        };
        proved::load(text, true, rooms)[0]
    }
}

/// What is needed, rounded up a little.
pub fn rounded(needed: Lent) -> Lent {
    Lent {
        classes: needed.classes.next_multiple_of(64),
        members: needed.members.next_multiple_of(256),
        pool: needed.pool.next_multiple_of(4_096),
    }
}
