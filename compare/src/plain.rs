//! A plain program for loading, look-ups and applying, written to document 01 with the original and the rules at hand: the second
//! opinion that the proved one is held against.
//!
//! It takes its time and its memory as it likes, but for the pool, of which it makes no more than was lent.

pub mod applying;
mod characters;
mod descriptors;
mod json;
mod lines;
mod members;
mod names;
pub mod trees;

use descriptors::{class_descriptor, parts, raw_signature, type_descriptor};
use lines::{Line, Method, Range, arguments, line_of};
pub use members::Key;
pub use names::Lookup;
use std::collections::HashMap;

pub type ClassRow = [u32; 4];
pub type MemberRow = [u32; 15];

/// How many rows and bytes are lent, or needed.
#[derive(Clone, Copy, Debug, PartialEq)]
pub struct Lent {
    pub classes: usize,
    pub members: usize,
    pub pool: usize,
}

/// "Class rows number at most 4,096, member rows 32,768, pool bytes 4,194,304; a longer lent slice counts as that."
pub const LIMITS: Lent = Lent {
    classes: 4_096,
    members: 32_768,
    pool: 4_194_304,
};

/// "Mapping text over 1,048,576 bytes".
pub const LONGEST: usize = 1_048_576;

#[derive(Clone, Copy, Debug, PartialEq)]
pub struct Refusal {
    pub number: u32,
    pub place: usize,
    pub length: usize,
}

fn refusal(number: u32, place: usize) -> Refusal {
    Refusal {
        number,
        place,
        length: 0,
    }
}

/// "Accepted loads count lines, blank, applied and idle comments, class, field, method"; and `short`.
#[derive(Clone, Copy, Debug, Default, PartialEq)]
pub struct Fates {
    pub lines: u32,
    pub blank: u32,
    pub applied: u32,
    pub idle: u32,
    pub class: u32,
    pub field: u32,
    pub method: u32,
    pub short: u32,
}

/// What an accepted load leaves in the rows and bytes that it uses.
#[derive(Debug)]
pub struct Loaded {
    pub fates: Fates,
    pub classes: Vec<ClassRow>,
    pub members: Vec<MemberRow>,
    pub pool: Vec<u8>,
}

struct Class {
    raw: Vec<u8>,
    display: Vec<u8>,
}

struct Member<'a> {
    class: usize,
    raw: &'a [u8],
    /// the residual signature
    signature: Option<Vec<u8>>,
    shape: Shape<'a>,
}

enum Shape<'a> {
    Field { declared: &'a [u8], name: &'a [u8] },
    Method(Method<'a>),
}

/// A text that has been read, before it is known whether what is lent holds it.
pub struct Mapping<'a> {
    fates: Fates,
    classes: Vec<Class>,
    members: Vec<Member<'a>>,
    /// whether the last class line has a member
    has_member: bool,
}

/// `parse` where `marks` says that leading marks are dropped, else `parse_str`: refusals 1 to 8.
pub fn read(text: &[u8], marks: bool) -> Result<Mapping<'_>, Refusal> {
    if text.len() > LONGEST {
        return Err(refusal(1, 0));
    }
    if let Some((place, length)) = characters::not_utf8(text) {
        return Err(Refusal {
            number: 2,
            place,
            length,
        });
    }
    let text = if marks {
        characters::without_marks(text)
    } else {
        text
    };
    let mut mapping = Mapping {
        fates: Fates::default(),
        classes: Vec::new(),
        members: Vec::new(),
        has_member: false,
    };
    for (before, line) in characters::lines(text).into_iter().enumerate() {
        let line = line_of(line, !mapping.classes.is_empty());
        mapping.add(line.map_err(|number| refusal(number, before + 1))?);
    }
    if mapping.classes.is_empty() {
        return Err(refusal(8, 0));
    }
    Ok(mapping)
}

impl<'a> Mapping<'a> {
    fn add(&mut self, line: Line<'a>) {
        self.fates.lines += 1;
        match line {
            Line::Blank => self.fates.blank += 1,
            Line::Comment(json) => self.add_comment(json),
            Line::Class { display, raw } => {
                self.fates.class += 1;
                self.classes.push(Class {
                    raw: class_descriptor(raw),
                    display: class_descriptor(display),
                });
                self.has_member = false;
            }
            Line::Field {
                declared,
                name,
                raw,
            } => {
                self.fates.field += 1;
                self.add_member(raw, Shape::Field { declared, name });
            }
            Line::Method { method, raw } => {
                self.fates.method += 1;
                self.fates.short += u32::from(method.short);
                self.add_member(raw, Shape::Method(method));
            }
        }
    }

    fn add_member(&mut self, raw: &'a [u8], shape: Shape<'a>) {
        self.members.push(Member {
            class: self.classes.len() - 1,
            raw,
            signature: None,
            shape,
        });
        self.has_member = true;
    }

    /// "A string `signature` replaces the raw signature of the last member of the current class, if there is one.
    /// Everything else is idle."
    fn add_comment(&mut self, json: Option<&[u8]>) {
        let signature = json.and_then(json::signature);
        match (signature, self.members.last_mut()) {
            (Some(signature), Some(member)) if self.has_member => {
                member.signature = Some(signature);
                self.fates.applied += 1;
            }
            _ => self.fates.idle += 1,
        }
    }

    /// What has to be lent for this mapping.
    pub fn needed(&self) -> Lent {
        Lent {
            classes: self.classes.len(),
            members: self.members.len(),
            pool: self.written(0).2.needed,
        }
    }

    /// Refusals 9 to 11, or what is left.
    pub fn fit(&self, lent: Lent) -> Result<Loaded, Refusal> {
        if self.classes.len() > lent.classes.min(LIMITS.classes) {
            return Err(refusal(9, 0));
        }
        if self.members.len() > lent.members.min(LIMITS.members) {
            return Err(refusal(10, 0));
        }
        let room = lent.pool.min(LIMITS.pool);
        let (classes, members, pool) = self.written(room);
        if pool.needed > room {
            return Err(refusal(11, 0));
        }
        Ok(Loaded {
            fates: self.fates,
            classes,
            members,
            pool: pool.bytes,
        })
    }

    /// "The pool holds, unshared, each class row's raw then display, then each member's texts in row order."
    fn written(&self, room: usize) -> (Vec<ClassRow>, Vec<MemberRow>, Pool) {
        let mut pool = Pool {
            bytes: Vec::new(),
            needed: 0,
            room,
        };
        let mut classes = Vec::new();
        for class in &self.classes {
            let [raw, display] = [&class.raw, &class.display].map(|text| pool.text(text));
            classes.push([raw[0], raw[1], display[0], display[1]]);
        }
        let known = self.classes.iter();
        let known: HashMap<&[u8], &[u8]> = known
            .map(|class| (&class.display[..], &class.raw[..]))
            .collect();
        let members = self.members.iter();
        let members = members.map(|member| self.member_row(member, &known, &mut pool));
        (classes, members.collect(), pool)
    }

    /// "Kind (0 field, 1 method), class row, place and length of raw name, raw descriptor, display name, display owner
    /// (0, 0 for a field), range flag (0 none, 1 display only, 2 both), raw range, display range".
    fn member_row(
        &self,
        member: &Member,
        known: &HashMap<&[u8], &[u8]>,
        pool: &mut Pool,
    ) -> MemberRow {
        let mut row = [0; 15];
        row[1] = member.class as u32;
        row[2..4].copy_from_slice(&pool.text(member.raw));
        row[4..6].copy_from_slice(&descriptor(member, known, pool));
        match &member.shape {
            Shape::Field { name, .. } => row[6..8].copy_from_slice(&pool.text(name)),
            Shape::Method(method) => {
                row[0] = 1;
                row[6..8].copy_from_slice(&pool.text(method.name));
                let owner = method.owner.map(class_descriptor);
                let own = &self.classes[member.class].display;
                row[8..10].copy_from_slice(&pool.text(owner.as_ref().unwrap_or(own)));
                row[10..15].copy_from_slice(&ranges(method.raw_range, method.display_range));
            }
        }
        row
    }
}

/// "Absent ranges are zeros."
fn ranges(raw: Range, display: Range) -> [u32; 5] {
    match (raw, display) {
        (Some((start, end)), Some((from, to))) => [2, start, end, from, to],
        (_, Some((from, to))) => [1, 0, 0, from, to],
        _ => [0; 5],
    }
}

/// The place and length of a member's raw descriptor.
fn descriptor(member: &Member, known: &HashMap<&[u8], &[u8]>, pool: &mut Pool) -> [u32; 2] {
    let start = pool.needed;
    match (&member.signature, &member.shape) {
        (Some(signature), Shape::Field { .. }) => pool.put(&raw_signature(signature, false)),
        (Some(signature), Shape::Method(_)) => pool.put(&raw_signature(signature, true)),
        (None, Shape::Field { declared, .. }) => put_raw_type(declared, known, pool),
        (None, Shape::Method(method)) => {
            pool.put(b"(");
            for argument in arguments(method.between) {
                put_raw_type(argument, known, pool);
            }
            pool.put(b")");
            put_raw_type(method.returned, known, pool);
        }
    }
    pool.since(start)
}

/// "Raw descriptors come from display types, each class piece turned to raw."
fn put_raw_type(text: &[u8], known: &HashMap<&[u8], &[u8]>, pool: &mut Pool) {
    for (piece, part) in parts(&type_descriptor(characters::trim(text))) {
        let raw = known.get(part).filter(|_| piece);
        pool.put(raw.copied().unwrap_or(part));
    }
}

/// What is written and how long it would be: nothing is written beyond the room.
struct Pool {
    bytes: Vec<u8>,
    needed: usize,
    room: usize,
}

impl Pool {
    fn put(&mut self, text: &[u8]) {
        self.needed += text.len();
        if self.needed <= self.room {
            self.bytes.extend_from_slice(text);
        }
    }

    /// Writes a text, and gives its place and its length.
    fn text(&mut self, text: &[u8]) -> [u32; 2] {
        let start = self.needed;
        self.put(text);
        self.since(start)
    }

    fn since(&self, start: usize) -> [u32; 2] {
        [start as u32, (self.needed - start) as u32]
    }
}
