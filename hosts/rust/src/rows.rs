//! Rows of tables, and what they say.

/// A class row: place and length of the raw descriptor in the pool, then of the display descriptor.
pub type ClassRow = [u32; 4];

/// A member row: kind, class row, place and length of raw name, raw descriptor, display name and display owner, range flag, raw range,
/// display range.
pub type MemberRow = [u32; 15];

/// A class of a mapping.
#[derive(Clone, Copy, Debug, PartialEq, Eq)]
pub struct Class<'a> {
    /// Its row, counted from 0.
    pub row: usize,
    /// Its raw descriptor, as `Lx;`.
    pub raw: &'a str,
    /// Its display descriptor, as `La/Main;`.
    pub display: &'a str,
}

/// A range of lines, both ends included.
#[derive(Clone, Copy, Debug, PartialEq, Eq)]
pub struct Range {
    /// The first line.
    pub start: u32,
    /// The last line.
    pub end: u32,
}

/// What only a field or a method has.
#[derive(Clone, Copy, Debug, PartialEq, Eq)]
pub enum MemberKind<'a> {
    /// A field.
    Field,
    /// A method.
    Method {
        /// The display descriptor of the class that it stood in.
        owner: &'a str,
        /// Its lines in the file that was shrunk.
        raw_lines: Option<Range>,
        /// Its lines in the source.
        display_lines: Option<Range>,
    },
}

/// A member of a mapping.
#[derive(Clone, Copy, Debug, PartialEq, Eq)]
pub struct Member<'a> {
    /// Its row, counted from 0.
    pub row: usize,
    /// The row of its class.
    pub class: usize,
    /// Its raw name.
    pub raw_name: &'a str,
    /// Its raw descriptor.
    pub descriptor: &'a str,
    /// Its display name.
    pub name: &'a str,
    /// Field or method.
    pub kind: MemberKind<'a>,
}

/// A text of the pool. Of tables that are not malformed every one is there and is UTF-8.
pub(crate) fn text(pool: &[u8], place: u32, length: u32) -> &str {
    let start = place as usize;
    let bytes = &pool[start..start + length as usize];
    std::str::from_utf8(bytes).expect("texts of checked tables are UTF-8")
}

pub(crate) fn class<'a>(pool: &'a [u8], row: usize, numbers: &ClassRow) -> Class<'a> {
    Class {
        row,
        raw: text(pool, numbers[0], numbers[1]),
        display: text(pool, numbers[2], numbers[3]),
    }
}

pub(crate) fn member<'a>(pool: &'a [u8], row: usize, numbers: &MemberRow) -> Member<'a> {
    let range = |present: bool, at: usize| {
        present.then_some(Range {
            start: numbers[at],
            end: numbers[at + 1],
        })
    };
    let kind = match numbers[0] {
        0 => MemberKind::Field,
        _ => MemberKind::Method {
            owner: text(pool, numbers[8], numbers[9]),
            raw_lines: range(numbers[10] == 2, 11),
            display_lines: range(numbers[10] >= 1, 13),
        },
    };
    Member {
        row,
        class: numbers[1] as usize,
        raw_name: text(pool, numbers[2], numbers[3]),
        descriptor: text(pool, numbers[4], numbers[5]),
        name: text(pool, numbers[6], numbers[7]),
        kind,
    }
}
