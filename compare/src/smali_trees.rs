//! A tree file as a tree of the original's, and back. What was replaced in it is told by the identity of its shared strings, so
//! that a name counts as replaced where it is equal.

use crate::java_asm::StrRef;
pub use crate::java_asm::smali::SmaliNode;
use crate::java_asm::smali::{MappedName, SmaliToken};
use crate::plain::trees::is_well_formed;
use crate::tree_files::TreeFile;
use std::sync::Arc;

/// A tree file, and a shared string for each of its names.
pub struct SmaliTree {
    file: TreeFile,
    names: Vec<StrRef>,
}

/// A token of "kind 0 anything else": one of the original's others, with texts that would be known in other tokens.
fn other(number: u32) -> SmaliToken {
    let text = || StrRef::from("Lx;");
    match number % 9 {
        0 => SmaliToken::SourceInfo(text()),
        1 => SmaliToken::Raw("Lx;"),
        2 => SmaliToken::Op("c"),
        3 => SmaliToken::LineStartOffsetMarker {
            offset: Some(number),
            raw: "Lx;".to_owned(),
        },
        4 => SmaliToken::Offset {
            relative: -1,
            absolute: number,
        },
        5 => SmaliToken::Register(number as u16),
        6 => SmaliToken::RegisterRange(1, number as u16),
        7 => SmaliToken::Literal(text()),
        _ => SmaliToken::Other(text()),
    }
}

/// Appended names: the number that the next one gets, and what is put behind the file's own.
struct Appended {
    next: usize,
    rows: Vec<[u32; 2]>,
    bytes: Vec<u8>,
}

impl SmaliTree {
    /// None where the file is malformed.
    pub fn of(file: &TreeFile) -> Option<Self> {
        if !is_well_formed(&file.written()) {
            return None;
        }
        let name = |row: &[u32; 2]| {
            let [place, length] = row.map(|number| number as usize);
            let text = std::str::from_utf8(&file.bytes[place..place + length]);
            text.ok().map(StrRef::from)
        };
        let names = file.names.iter().map(name).collect::<Option<_>>()?;
        let file = file.clone();
        Some(SmaliTree { file, names })
    }

    fn token(&self, [kind, a, b]: [u32; 3]) -> SmaliToken {
        let name = || MappedName {
            raw_name: Arc::clone(&self.names[a as usize]),
            display_name: Arc::clone(&self.names[b as usize]),
        };
        match kind {
            1 => SmaliToken::MemberName(name()),
            2 => SmaliToken::Descriptor(name()),
            3 => SmaliToken::SourceLine {
                raw_line: a,
                display_line: b,
            },
            _ => other(a),
        }
    }

    /// The original's tree. Children are of higher rows, so that the last row is whole first.
    pub fn node(&self) -> SmaliNode {
        let rows = self.file.nodes.iter();
        let mut nodes: Vec<SmaliNode> = rows
            .map(|(_, tokens)| SmaliNode {
                content: tokens.iter().map(|token| self.token(*token)).collect(),
                ..SmaliNode::default()
            })
            .collect();
        for (parent, _) in self.file.nodes[1..].iter().rev() {
            if let Some(mut node) = nodes.pop() {
                node.children.reverse();
                nodes[*parent as usize].children.push(node);
            }
        }
        let mut root = nodes.pop().unwrap_or_default();
        root.children.reverse();
        root
    }

    /// The nodes of a tree that was made here, in row order: a parent's children are in the order of their rows.
    fn rows<'a>(&self, root: &'a SmaliNode) -> Vec<&'a SmaliNode> {
        let mut rows = vec![root];
        let mut seen = vec![0; self.file.nodes.len()];
        for (parent, _) in &self.file.nodes[1..] {
            let parent = *parent as usize;
            rows.push(&rows[parent].children[seen[parent]]);
            seen[parent] += 1;
        }
        rows
    }

    /// The display number or line that a token has now.
    fn display(&self, was: [u32; 3], token: &SmaliToken, appended: &mut Appended) -> u32 {
        let [_, _, b] = was;
        match token {
            SmaliToken::MemberName(name) | SmaliToken::Descriptor(name) => {
                if Arc::ptr_eq(&name.display_name, &self.names[b as usize]) {
                    return b;
                }
                let (body, place) = (name.display_name.as_bytes(), self.file.bytes.len());
                let place = (place + appended.bytes.len()) as u32;
                appended.rows.push([place, body.len() as u32]);
                appended.bytes.extend_from_slice(body);
                appended.next += 1;
                (appended.next - 1) as u32
            }
            SmaliToken::SourceLine { display_line, .. } => *display_line,
            _ => b,
        }
    }

    /// The file of a tree that was made here: "same rows; for each replaced name, in token order, one name row and body
    /// appended, even if equal, its number put in b; a replaced line goes into b".
    pub fn written(&self, root: &SmaliNode) -> Vec<u8> {
        let mut file = self.file.clone();
        let mut appended = Appended {
            next: file.names.len(),
            rows: Vec::new(),
            bytes: Vec::new(),
        };
        for ((_, tokens), node) in file.nodes.iter_mut().zip(self.rows(root)) {
            for (row, token) in tokens.iter_mut().zip(&node.content) {
                row[2] = self.display(*row, token, &mut appended);
            }
        }
        file.names.extend(appended.rows);
        file.bytes.extend(appended.bytes);
        file.written()
    }
}
