//! Tree files: the smali tree of a class, to which a [`Mapping`](crate::Mapping) is applied. Built and read here without
//! knowing the layout.
//!
//! ```
//! use clumarief::tree::{Token, Tree};
//!
//! let mut tree = Tree::new();
//! let class = tree.name("Lx;");
//! tree.node(None, &[Token::Descriptor { raw: class, display: class }]);
//! let mapping = clumarief::Mapping::parse(b"a.Main -> x:\n")?;
//! let applied = Tree::read(&mapping.apply("Lx;", &tree.written())?).expect("what comes out is well formed");
//! let Token::Descriptor { raw, display } = applied.nodes()[0].tokens[0] else { panic!("tokens keep their kind") };
//! assert_eq!((applied.text(raw), applied.text(display)), ("Lx;", "La/Main;"));
//! # Ok::<(), clumarief::Refusal>(())
//! ```

use std::str;

/// The number that stands for the parent of the first node.
const NO_PARENT: u32 = u32::MAX;

/// A name of a tree, by its number.
#[derive(Clone, Copy, Debug, PartialEq, Eq, PartialOrd, Ord, Hash)]
pub struct Name(pub u32);

/// A token of a node.
#[derive(Clone, Copy, Debug, PartialEq, Eq)]
pub enum Token {
    /// Anything that is no name and no line; its numbers are the caller's.
    Other(u32, u32),
    /// The name of a member.
    MemberName {
        /// As it stands in the shrunk file.
        raw: Name,
        /// As it is shown.
        display: Name,
    },
    /// A descriptor.
    Descriptor {
        /// As it stands in the shrunk file.
        raw: Name,
        /// As it is shown.
        display: Name,
    },
    /// A line of source.
    SourceLine {
        /// As it stands in the shrunk file.
        raw: u32,
        /// As it is shown.
        display: u32,
    },
}

/// A node: its parent's row, none for the first, and its tokens.
#[derive(Clone, Debug, PartialEq, Eq)]
pub struct Node {
    /// The row of its parent, a lower one.
    pub parent: Option<u32>,
    /// Its tokens.
    pub tokens: Vec<Token>,
}

/// A tree. Name rows and name bytes are kept as they are, so that what is read is written again to the byte.
#[derive(Clone, Debug, Default, PartialEq, Eq)]
pub struct Tree {
    nodes: Vec<Node>,
    names: Vec<[u32; 2]>,
    bytes: Vec<u8>,
}

/// Numbers of a file, one after the other.
struct Numbers<'a>(&'a [u8]);

impl Numbers<'_> {
    fn next(&mut self) -> Option<u32> {
        let (four, rest) = self.0.split_first_chunk::<4>()?;
        self.0 = rest;
        Some(u32::from_le_bytes(*four))
    }

    fn pair(&mut self) -> Option<[u32; 2]> {
        Some([self.next()?, self.next()?])
    }
}

impl Tree {
    /// A tree without nodes: it has to get one before it is a file that can be read.
    pub fn new() -> Self {
        Tree::default()
    }

    /// A tree of its parts; none where they would not be read again.
    pub fn of_parts(nodes: Vec<Node>, names: Vec<[u32; 2]>, bytes: Vec<u8>) -> Option<Self> {
        let tree = Tree {
            nodes,
            names,
            bytes,
        };
        tree.is_sound().then_some(tree)
    }

    /// A further name.
    pub fn name(&mut self, text: &str) -> Name {
        self.names
            .push([self.bytes.len() as u32, text.len() as u32]);
        self.bytes.extend(text.as_bytes());
        Name(self.names.len() as u32 - 1)
    }

    /// A further node, and its row.
    pub fn node(&mut self, parent: Option<u32>, tokens: &[Token]) -> u32 {
        self.nodes.push(Node {
            parent,
            tokens: tokens.to_vec(),
        });
        self.nodes.len() as u32 - 1
    }

    /// The nodes, in the order of their rows.
    pub fn nodes(&self) -> &[Node] {
        &self.nodes
    }

    /// The place of each name among the name bytes, and its length.
    pub fn names(&self) -> &[[u32; 2]] {
        &self.names
    }

    /// The name bytes.
    pub fn bytes(&self) -> &[u8] {
        &self.bytes
    }

    /// The text of a name; nothing where there is no such name.
    pub fn text(&self, name: Name) -> &str {
        self.find(name).unwrap_or_default()
    }

    fn find(&self, Name(number): Name) -> Option<&str> {
        let [place, length] = *self.names.get(number as usize)?;
        let end = place.checked_add(length)?;
        str::from_utf8(self.bytes.get(place as usize..end as usize)?).ok()
    }

    /// The file.
    pub fn written(&self) -> Vec<u8> {
        let tokens = || self.nodes.iter().flat_map(|node| &node.tokens);
        let counts = [
            self.nodes.len(),
            tokens().count(),
            self.names.len(),
            self.bytes.len(),
        ];
        let mut numbers = counts.map(|count| count as u32).to_vec();
        for node in &self.nodes {
            numbers.extend([node.parent.unwrap_or(NO_PARENT), node.tokens.len() as u32]);
        }
        numbers.extend(tokens().flat_map(token_row));
        numbers.extend(self.names.iter().flatten());
        let mut file: Vec<u8> = numbers.into_iter().flat_map(u32::to_le_bytes).collect();
        file.extend(&self.bytes);
        file
    }

    /// Reads a file; none where it is malformed, as refusal 12 has it.
    pub fn read(file: &[u8]) -> Option<Self> {
        let mut numbers = Numbers(file);
        let [nodes, tokens] = numbers.pair()?;
        let [names, bytes] = numbers.pair()?;
        let length = 16
            + 8 * u64::from(nodes)
            + 12 * u64::from(tokens)
            + 8 * u64::from(names)
            + u64::from(bytes);
        if length != file.len() as u64 {
            return None;
        }
        let rows: Vec<[u32; 2]> = (0..nodes).map(|_| numbers.pair()).collect::<Option<_>>()?;
        if rows.iter().map(|row| u64::from(row[1])).sum::<u64>() != u64::from(tokens) {
            return None;
        }
        let mut read = Vec::with_capacity(rows.len());
        for [parent, count] in rows {
            let tokens = (0..count)
                .map(|_| token([numbers.next()?, numbers.next()?, numbers.next()?]))
                .collect::<Option<_>>()?;
            read.push(Node {
                parent: (parent != NO_PARENT).then_some(parent),
                tokens,
            });
        }
        let rows = (0..names).map(|_| numbers.pair()).collect::<Option<_>>()?;
        Tree::of_parts(read, rows, numbers.0.to_vec())
    }

    /// Parents are lower rows, names of tokens are there, lie in the name bytes and are UTF-8.
    fn is_sound(&self) -> bool {
        let names = self.names.len() as u64;
        let parents = self
            .nodes
            .iter()
            .enumerate()
            .all(|(row, node)| match node.parent {
                None => row == 0,
                Some(parent) => (parent as usize) < row,
            });
        let known = |name: Name| u64::from(name.0) < names;
        let tokens = self
            .nodes
            .iter()
            .flat_map(|node| &node.tokens)
            .all(|token| match *token {
                Token::MemberName { raw, display } | Token::Descriptor { raw, display } => {
                    known(raw) && known(display)
                }
                Token::Other(..) | Token::SourceLine { .. } => true,
            });
        !self.nodes.is_empty() && parents && tokens && self.texts_are_utf8()
    }

    /// Names may overlap, so each is asked by two look-ups and none is read.
    fn texts_are_utf8(&self) -> bool {
        let reach = reaches(&self.bytes);
        self.names.iter().all(|&[place, length]| {
            let (start, end) = (place as usize, place as usize + length as usize);
            let starts_character =
                |at: usize| self.bytes.get(at).is_none_or(|byte| byte & 0xC0 != 0x80);
            end <= self.bytes.len()
                && (length == 0 || (reach[start] as usize >= end && starts_character(end)))
        })
    }
}

/// For each byte the place up to which the bytes from there on are UTF-8.
fn reaches(bytes: &[u8]) -> Vec<u32> {
    let mut reach = vec![bytes.len() as u32; bytes.len() + 1];
    for at in (0..bytes.len()).rev() {
        let length = match bytes[at] {
            0x00..=0x7F => 1,
            0xC0..=0xDF => 2,
            0xE0..=0xEF => 3,
            _ => 4,
        };
        let good = bytes
            .get(at..at + length)
            .is_some_and(|character| str::from_utf8(character).is_ok());
        reach[at] = if good { reach[at + length] } else { at as u32 };
    }
    reach
}

fn token([kind, a, b]: [u32; 3]) -> Option<Token> {
    match kind {
        0 => Some(Token::Other(a, b)),
        1 => Some(Token::MemberName {
            raw: Name(a),
            display: Name(b),
        }),
        2 => Some(Token::Descriptor {
            raw: Name(a),
            display: Name(b),
        }),
        3 => Some(Token::SourceLine { raw: a, display: b }),
        _ => None,
    }
}

fn token_row(token: &Token) -> [u32; 3] {
    match *token {
        Token::Other(a, b) => [0, a, b],
        Token::MemberName { raw, display } => [1, raw.0, display.0],
        Token::Descriptor { raw, display } => [2, raw.0, display.0],
        Token::SourceLine { raw, display } => [3, raw, display],
    }
}
