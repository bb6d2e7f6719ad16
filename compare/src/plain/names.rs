//! Class names out of tables that may be anything.

use super::characters::not_utf8;
use super::{ClassRow, LIMITS, MemberRow};

/// What is lent to a look-up, and the three counts: class rows, member rows and pool bytes that are used.
#[derive(Clone, Copy)]
pub struct Lookup<'a> {
    pub classes: &'a [ClassRow],
    pub members: &'a [MemberRow],
    pub pool: &'a [u8],
    pub used: [u32; 3],
}

/// The place and the length of a descriptor in the pool.
pub type Found = (u32, u32);

impl Lookup<'_> {
    /// "a text reaching past the used pool, .. or a named text not UTF-8"
    fn text_is_bad(&self, place: u32, length: u32) -> bool {
        let end = u64::from(place) + u64::from(length);
        if end > u64::from(self.used[2]) {
            return true;
        }
        not_utf8(&self.pool[place as usize..end as usize]).is_some()
    }

    fn class_is_bad(&self, row: &ClassRow) -> bool {
        self.text_is_bad(row[0], row[1]) || self.text_is_bad(row[2], row[3])
    }

    /// "a class row, kind or flag out of range", and its four texts
    fn member_is_bad(&self, row: &MemberRow) -> bool {
        let numbers = row[0] > 1 || row[1] >= self.used[0] || row[10] > 2;
        numbers
            || (2..10)
                .step_by(2)
                .any(|at| self.text_is_bad(row[at], row[at + 1]))
    }

    /// "a count above the rows or pool lent", where a longer slice counts as the most there may be
    fn counts_are_bad(&self) -> bool {
        let [classes, members, pool] = self.used.map(|count| count as usize);
        classes > self.classes.len().min(LIMITS.classes)
            || members > self.members.len().min(LIMITS.members)
            || pool > self.pool.len().min(LIMITS.pool)
    }

    /// "tables malformed"
    pub fn is_malformed(&self) -> bool {
        let [classes, members, _] = self.used.map(|count| count as usize);
        self.counts_are_bad()
            || self.classes[..classes]
                .iter()
                .any(|row| self.class_is_bad(row))
            || self.members[..members]
                .iter()
                .any(|row| self.member_is_bad(row))
    }

    /// A text of tables that are not malformed.
    pub fn text(&self, place: u32, length: u32) -> &[u8] {
        let start = place as usize;
        &self.pool[start..start + length as usize]
    }

    /// "The last class row with a given raw (or display) descriptor answers": the other descriptor of that row.
    fn last(&self, asked: usize, answer: usize, name: &[u8]) -> Option<Found> {
        let text = |row: &ClassRow, at: usize| self.text(row[at], row[at + 1]);
        let rows = self.classes[..self.used[0] as usize].iter();
        let row = rows.rev().find(|row| text(row, asked) == name)?;
        Some((row[answer], row[answer + 1]))
    }

    pub fn display_class_name(&self, raw: &[u8]) -> Option<Found> {
        self.last(0, 2, raw)
    }

    pub fn raw_class_name(&self, display: &[u8]) -> Option<Found> {
        self.last(2, 0, display)
    }
}
