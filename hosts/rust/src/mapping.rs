//! A mapping that is loaded, owned by the caller.

use crate::ffi::{self, Key, LoadNumbers, Marks, Tables};
use crate::refusal::{NO_ROOM, SHORT_POOL};
use crate::rows::{self, Class, ClassRow, Member, MemberRow};
use crate::{Refusal, MOST_CLASSES, MOST_MEMBERS, MOST_POOL, MOST_TREE};

/// What became of the lines of a text that was loaded. The counts behind `lines`, but for `short`, add up to it.
#[derive(Clone, Copy, Debug, Default, PartialEq, Eq)]
pub struct Fates {
    /// All lines.
    pub lines: u32,
    /// Blank lines.
    pub blank: u32,
    /// Comments that replaced the raw signature of a member.
    pub applied: u32,
    /// All other comments.
    pub idle: u32,
    /// Class lines.
    pub class: u32,
    /// Fields.
    pub field: u32,
    /// Methods.
    pub method: u32,
    /// Methods whose display range has a second part that does not read.
    pub short: u32,
}

/// The display name of a member, and the row that answers.
#[derive(Clone, Copy, Debug, PartialEq, Eq)]
pub struct NamedMember<'a> {
    /// The row, counted from 0: see [`Mapping::member`].
    pub row: usize,
    /// The display name.
    pub name: &'a str,
}

/// The display line of a raw line, and the row that answers.
#[derive(Clone, Copy, Debug, PartialEq, Eq)]
pub struct ShownLine {
    /// The row, counted from 0: see [`Mapping::member`].
    pub row: usize,
    /// The display line.
    pub line: u32,
}

/// A mapping: its class rows, its member rows and its pool of names, as the proved load has left them, and no more of them than are used.
#[derive(Clone, Debug, PartialEq, Eq)]
pub struct Mapping {
    classes: Vec<ClassRow>,
    members: Vec<MemberRow>,
    pool: Vec<u8>,
    fates: Fates,
}

impl Mapping {
    /// Loads the mapping of a text, without the marks (U+FEFF) that it begins with.
    pub fn parse(text: &[u8]) -> Result<Self, Refusal> {
        Self::load(Marks::Go, text)
    }

    /// The same, but a mark that the text begins with stays, as a character of its first line.
    pub fn parse_str(text: &[u8]) -> Result<Self, Refusal> {
        Self::load(Marks::Stay, text)
    }

    /// Tables of an earlier load, as they were stored. They are refused with 14 where they are malformed. The counts of lines are not known
    /// of them.
    pub fn from_tables(
        classes: Vec<ClassRow>,
        members: Vec<MemberRow>,
        pool: Vec<u8>,
    ) -> Result<Self, Refusal> {
        let mapping = Mapping {
            classes,
            members,
            pool,
            fates: Fates::default(),
        };
        let lengths = [
            mapping.classes.len(),
            mapping.members.len(),
            mapping.pool.len(),
        ];
        let most = [MOST_CLASSES, MOST_MEMBERS, MOST_POOL];
        let malformed = lengths
            .iter()
            .zip(most)
            .any(|(length, most)| *length > most)
            || mapping.tables().display_class_name(b"")[0] != 0;
        if malformed {
            return Err(Refusal::new(14, 0, 0));
        }
        Ok(mapping)
    }

    /// A row for each line is enough, and mostly the pool needs no more than four times the text.
    fn load(marks: Marks, text: &[u8]) -> Result<Self, Refusal> {
        let lines = text.iter().filter(|&&byte| byte == b'\n').count() + 1;
        let mut classes = vec![[0; 4]; lines.min(MOST_CLASSES)];
        let mut members = vec![[0; 15]; lines.min(MOST_MEMBERS)];
        let mut pool = vec![0; text.len().saturating_mul(4).min(MOST_POOL)];
        let mut answer = ffi::load(marks, text, &mut classes, &mut members, &mut pool);
        if answer[0] == SHORT_POOL && pool.len() < MOST_POOL {
            pool.resize(MOST_POOL, 0);
            answer = ffi::load(marks, text, &mut classes, &mut members, &mut pool);
        }
        if answer[0] != 0 {
            return Err(Refusal::new(answer[0], answer[1], answer[2]));
        }
        let fates = fates(&answer);
        classes.truncate(fates.class as usize);
        members.truncate((fates.field + fates.method) as usize);
        pool.truncate(answer[11] as usize);
        classes.shrink_to_fit();
        members.shrink_to_fit();
        pool.shrink_to_fit();
        Ok(Mapping {
            classes,
            members,
            pool,
            fates,
        })
    }

    /// What became of the lines of the text.
    pub fn fates(&self) -> Fates {
        self.fates
    }

    /// Class rows, member rows and pool, to be stored.
    pub fn rows(&self) -> (&[ClassRow], &[MemberRow], &[u8]) {
        (&self.classes, &self.members, &self.pool)
    }

    /// How many bytes of names there are.
    pub fn names(&self) -> usize {
        self.pool.len()
    }

    /// The classes, in the order of the text.
    ///
    /// ```
    /// let mapping = clumarief::Mapping::parse(b"a -> x:\nb -> y:\n")?;
    /// let shown: Vec<_> = mapping.classes().map(|class| class.display).collect();
    /// assert_eq!(shown, ["La;", "Lb;"]);
    /// # Ok::<(), clumarief::Refusal>(())
    /// ```
    pub fn classes(&self) -> impl ExactSizeIterator<Item = Class<'_>> {
        self.classes
            .iter()
            .enumerate()
            .map(|(row, numbers)| rows::class(&self.pool, row, numbers))
    }

    /// The members, in the order of the text.
    pub fn members(&self) -> impl ExactSizeIterator<Item = Member<'_>> {
        self.members
            .iter()
            .enumerate()
            .map(|(row, numbers)| rows::member(&self.pool, row, numbers))
    }

    /// The class of a row.
    pub fn class(&self, row: usize) -> Option<Class<'_>> {
        self.classes
            .get(row)
            .map(|numbers| rows::class(&self.pool, row, numbers))
    }

    /// The member of a row.
    pub fn member(&self, row: usize) -> Option<Member<'_>> {
        self.members
            .get(row)
            .map(|numbers| rows::member(&self.pool, row, numbers))
    }

    /// The display descriptor of a class, by its raw one: that of the last class line with it.
    pub fn display_class_name(&self, raw: &str) -> Option<&str> {
        self.class_name(self.tables().display_class_name(raw.as_bytes()))
    }

    /// The raw descriptor of a class, by its display one.
    pub fn raw_class_name(&self, display: &str) -> Option<&str> {
        self.class_name(self.tables().raw_class_name(display.as_bytes()))
    }

    /// What a raw descriptor shows as: its display descriptor, or itself where the class is unknown.
    pub fn mapped_class_name<'a>(&'a self, raw: &'a str) -> &'a str {
        self.display_class_name(raw).unwrap_or(raw)
    }

    /// The display name of a field, by the raw descriptor of its class, its raw name and its raw descriptor.
    pub fn display_field_name(
        &self,
        class: &str,
        name: &str,
        descriptor: &str,
    ) -> Option<NamedMember<'_>> {
        self.member_name(
            self.tables()
                .display_field_name(key(class, name, descriptor)),
        )
    }

    /// The display name of a method, by the same three.
    pub fn display_method_name(
        &self,
        class: &str,
        name: &str,
        descriptor: &str,
    ) -> Option<NamedMember<'_>> {
        self.member_name(
            self.tables()
                .display_method_name(key(class, name, descriptor)),
        )
    }

    /// The display line of a raw line of a method.
    pub fn display_line(
        &self,
        class: &str,
        name: &str,
        descriptor: &str,
        line: u32,
    ) -> Option<ShownLine> {
        let [_, found, row, line] = self
            .tables()
            .display_line(key(class, name, descriptor), line);
        (found == 1).then_some(ShownLine {
            row: row as usize,
            line,
        })
    }

    /// Applies the mapping to a tree file, for a class by its raw descriptor: see [`tree`](crate::tree). Mostly names make a file no longer
    /// than three times as long.
    pub fn apply(&self, class: &str, tree: &[u8]) -> Result<Vec<u8>, Refusal> {
        let mut output = vec![0; tree.len().saturating_mul(3).min(MOST_TREE)];
        let [mut number, mut length] = self.tables().apply(class.as_bytes(), tree, &mut output);
        if number == NO_ROOM && output.len() < MOST_TREE {
            output.resize(MOST_TREE, 0);
            [number, length] = self.tables().apply(class.as_bytes(), tree, &mut output);
        }
        if number != 0 {
            return Err(Refusal::new(number, 0, 0));
        }
        output.truncate(length as usize);
        output.shrink_to_fit();
        Ok(output)
    }

    fn tables(&self) -> Tables<'_> {
        Tables {
            classes: &self.classes,
            members: &self.members,
            pool: &self.pool,
            used: [
                self.classes.len() as u32,
                self.members.len() as u32,
                self.pool.len() as u32,
            ],
        }
    }

    fn class_name(&self, [_, found, place, length]: [u32; 4]) -> Option<&str> {
        (found == 1).then(|| rows::text(&self.pool, place, length))
    }

    fn member_name(&self, [_, found, row, place, length]: [u32; 5]) -> Option<NamedMember<'_>> {
        (found == 1).then(|| NamedMember {
            row: row as usize,
            name: rows::text(&self.pool, place, length),
        })
    }
}

fn key<'a>(class: &'a str, name: &'a str, descriptor: &'a str) -> Key<'a> {
    Key {
        owner: class.as_bytes(),
        name: name.as_bytes(),
        descriptor: descriptor.as_bytes(),
    }
}

fn fates(answer: &LoadNumbers) -> Fates {
    Fates {
        lines: answer[3],
        blank: answer[4],
        applied: answer[5],
        idle: answer[6],
        class: answer[7],
        field: answer[8],
        method: answer[9],
        short: answer[10],
    }
}
