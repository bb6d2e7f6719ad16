//! A tree as text.

use std::collections::HashMap;
use std::fmt::Write;

use clumarief::tree::{Name, Node, Token, Tree};

use super::{Path, DEEPEST, LONG};

/// A text in quotation marks.
fn quoted(text: &str) -> String {
    let mut out = String::from("\"");
    for c in text.chars() {
        match c {
            '"' | '\\' => out.extend(['\\', c]),
            c if c.is_control() => {
                write!(out, "\\u{{{:X}}}", c as u32).expect("a string takes all")
            }
            c => out.push(c),
        }
    }
    out + "\""
}

/// The names of a token, in the order in which they get numbers.
fn names_of(token: &Token) -> Option<[Name; 2]> {
    match *token {
        Token::MemberName { raw, display } | Token::Descriptor { raw, display } => {
            Some([raw, display])
        }
        Token::Other(..) | Token::SourceLine { .. } => None,
    }
}

fn is_long(tree: &Tree, name: Name) -> bool {
    tree.names()[name.0 as usize][1] > LONG
}

/// The first name with each text, but for long ones.
fn first_names(tree: &Tree) -> HashMap<&str, Name> {
    let mut first = HashMap::new();
    for name in (0..tree.names().len() as u32)
        .map(Name)
        .filter(|name| !is_long(tree, *name))
    {
        first.entry(tree.text(name)).or_insert(name);
    }
    first
}

/// Whether the names of a tree have the numbers and bytes that they get by first use.
fn is_plain(tree: &Tree) -> bool {
    let mut plain = Tree::new();
    let mut numbers = HashMap::new();
    let used = tree
        .nodes()
        .iter()
        .flat_map(|node| &node.tokens)
        .filter_map(names_of)
        .flatten();
    for name in used {
        if is_long(tree, name) {
            return false;
        }
        let text = tree.text(name);
        let number = *numbers.entry(text).or_insert_with(|| plain.name(text));
        if number != name {
            return false;
        }
    }
    plain.names() == tree.names() && plain.bytes() == tree.bytes()
}

/// The lines that say what names there are.
fn put_names(tree: &Tree, out: &mut String) {
    let mut end = 0;
    for (number, &[place, length]) in tree.names().iter().enumerate() {
        let place = place as usize;
        if place > end {
            put_bytes(&tree.bytes()[end..place], out);
            end = place;
        }
        if place == end {
            let text = tree.text(Name(number as u32));
            writeln!(out, "name {}", quoted(text)).expect("a string takes all");
            end += length as usize;
        } else {
            writeln!(out, "name @{place}+{length}").expect("a string takes all");
        }
    }
    put_bytes(&tree.bytes()[end..], out);
}

fn put_bytes(bytes: &[u8], out: &mut String) {
    match std::str::from_utf8(bytes) {
        Ok("") => {}
        Ok(text) => writeln!(out, "bytes {}", quoted(text)).expect("a string takes all"),
        Err(_) => {
            let digits: String = bytes.iter().map(|byte| format!("{byte:02X}")).collect();
            writeln!(out, "bytes x{digits}").expect("a string takes all");
        }
    }
}

/// A tree, and the first name with each text.
struct Writer<'a> {
    tree: &'a Tree,
    first: HashMap<&'a str, Name>,
}

impl Writer<'_> {
    /// A name by its text, with its number where the text alone would mean another.
    fn name(&self, name: Name) -> String {
        if is_long(self.tree, name) {
            return format!("#{}", name.0);
        }
        let text = self.tree.text(name);
        if self.first[text] == name {
            return quoted(text);
        }
        format!("{}#{}", quoted(text), name.0)
    }

    /// A name as it is, and as it is shown where that is another.
    fn both(&self, kind: char, raw: Name, display: Name) -> String {
        if raw == display {
            return format!("{kind}{}", self.name(raw));
        }
        format!("{kind}{}={}", self.name(raw), self.name(display))
    }

    fn token(&self, token: &Token) -> String {
        match *token {
            Token::Other(a, b) => format!(".{a}:{b}"),
            Token::MemberName { raw, display } => self.both('m', raw, display),
            Token::Descriptor { raw, display } => self.both('d', raw, display),
            Token::SourceLine { raw, display } if raw == display => format!("@{raw}"),
            Token::SourceLine { raw, display } => format!("@{raw}={display}"),
        }
    }

    fn tokens(&self, node: &Node) -> String {
        if node.tokens.is_empty() {
            return "-".into();
        }
        let tokens: Vec<String> = node.tokens.iter().map(|token| self.token(token)).collect();
        tokens.join(" ")
    }
}

/// The text of a tree.
pub fn text_of(tree: &Tree) -> String {
    let mut out = String::new();
    if !is_plain(tree) {
        put_names(tree, &mut out);
    }
    let writer = Writer {
        tree,
        first: first_names(tree),
    };
    let mut path = Path::default();
    let mut depths: Vec<usize> = Vec::new();
    for (row, node) in tree.nodes().iter().enumerate() {
        let depth = node.parent.map_or(0, |parent| depths[parent as usize] + 1);
        depths.push(depth);
        let indent = 2 * depth.min(DEEPEST);
        out.extend(std::iter::repeat_n(' ', indent));
        if path.parent(indent) != node.parent {
            write!(out, "^{} ", node.parent.unwrap_or_default()).expect("a string takes all");
        }
        path.enter(indent, row as u32);
        out += &writer.tokens(node);
        out.push('\n');
    }
    out
}
