//! Names and lines of members out of tables that may be anything.

use super::MemberRow;
use super::names::Lookup;

/// What a member is asked for by: the raw descriptor of its class, its raw name and its raw descriptor.
#[derive(Clone, Copy)]
pub struct Key<'a> {
    pub owner: &'a [u8],
    pub name: &'a [u8],
    pub descriptor: &'a [u8],
}

/// "kind (0 field, 1 method)"
const FIELD: u32 = 0;
const METHOD: u32 = 1;

/// The number of a member row, and the row.
type Numbered<'a> = (usize, &'a MemberRow);

/// The number of a member row, and the place and the length of its display name.
pub type Named = [u32; 3];

fn named((at, row): &Numbered) -> Named {
    [*at as u32, row[6], row[7]]
}

impl Lookup<'_> {
    /// "Member rows of class lines with the same raw descriptor belong together and match by raw name and raw
    /// descriptor": those of a kind.
    fn matches(&self, kind: u32, key: Key) -> Vec<Numbered<'_>> {
        let is_match = |row: &MemberRow| {
            let class = &self.classes[row[1] as usize];
            row[0] == kind
                && self.text(class[0], class[1]) == key.owner
                && self.text(row[2], row[3]) == key.name
                && self.text(row[4], row[5]) == key.descriptor
        };
        let rows = self.members[..self.used[1] as usize].iter().enumerate();
        rows.filter(|(_, row)| is_match(row)).collect()
    }

    /// The matching methods "whose display owner is the class's display (of the last class row with that raw)".
    fn owner_matches(&self, key: Key) -> Vec<Numbered<'_>> {
        let shown = self.display_class_name(key.owner);
        let shown = shown.map(|(place, length)| self.text(place, length));
        let mut matches = self.matches(METHOD, key);
        matches.retain(|(_, row)| Some(self.text(row[8], row[9])) == shown);
        matches
    }

    /// "the last matching field answers"
    pub fn display_field_name(&self, key: Key) -> Option<Named> {
        let matches = self.matches(FIELD, key);
        matches.last().map(named)
    }

    /// "A method's name comes from the last match whose display owner is the class's display .., else the last match."
    pub fn display_method_name(&self, key: Key) -> Option<Named> {
        let (owned, any) = (self.owner_matches(key), self.matches(METHOD, key));
        owned.last().or(any.last()).map(named)
    }

    /// "A line uses the last such owner match whose raw range holds it": the number of that row, and the display line.
    pub fn display_line(&self, key: Key, line: u32) -> Option<[u32; 2]> {
        let owned = self.owner_matches(key);
        // "range flag (0 none, 1 display only, 2 both)"
        let holds = |row: &MemberRow| row[10] == 2 && (row[11] <= line && line <= row[12]);
        let (at, row) = owned.iter().rfind(|(_, row)| holds(row))?;
        Some([*at as u32, shown_line(row, line)])
    }
}

/// "display start plus the lesser of (line - raw start) and (display end - display start, at least 0)"
fn shown_line(row: &MemberRow, line: u32) -> u32 {
    let [raw_start, start, end] = [row[11], row[13], row[14]].map(u64::from);
    let (within, most) = (
        u64::from(line).saturating_sub(raw_start),
        end.saturating_sub(start),
    );
    (start + within.min(most)) as u32
}
