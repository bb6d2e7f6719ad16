//! Document 01 "Tree file (added)": what applying a mapping makes of a tree.

use super::descriptors::parts;
use super::members::Key;
use super::names::Lookup;
use super::trees::{self, Signature, Tree};
use std::fmt;

/// "tree file over 4,194,304", and "more than 4,194,304 needed"
pub const LONGEST_TREE: usize = 4_194_304;

/// "3 source line (raw, display)"
const SOURCE_LINE: u32 = 3;
const DESCRIPTOR: u32 = 2;

/// What applying answers, and all of the output that was lent.
#[derive(Clone, PartialEq)]
pub struct Applied {
    pub number: u32,
    pub length: u32,
    pub output: Vec<u8>,
}

impl fmt::Debug for Applied {
    fn fmt(&self, to: &mut fmt::Formatter<'_>) -> fmt::Result {
        let shown = &self.output[..self.output.len().min(400)];
        let hex: String = shown.iter().map(|byte| format!(" {byte:02x}")).collect();
        let (number, length, room) = (self.number, self.length, self.output.len());
        write!(to, "{number}, length {length}; output of {room}:{hex}")
    }
}

/// What becomes of a token.
enum Change {
    Stays,
    Name(Vec<u8>),
    Line(u32),
}

/// A mapping and the class given.
struct Given<'a> {
    tables: &'a Lookup<'a>,
    class: &'a [u8],
}

/// "Starting `(` means method."
fn is_method(key: &Key) -> bool {
    key.descriptor.starts_with(b"(")
}

impl Given<'_> {
    /// What a node's signature names, by raw names.
    fn key<'a>(&'a self, tree: &'a Tree, signature: Signature) -> Key<'a> {
        Key {
            owner: match signature.owner {
                Some(owner) => tree.raw_name(owner),
                None => self.class,
            },
            name: tree.raw_name(signature.member),
            descriptor: tree.raw_name(signature.descriptor),
        }
    }

    fn display_name(&self, key: Key) -> Option<Vec<u8>> {
        let found = if is_method(&key) {
            self.tables.display_method_name(key)
        } else {
            self.tables.display_field_name(key)
        };
        found.map(|[_, place, length]| self.tables.text(place, length).to_vec())
    }

    /// "A descriptor is replaced if one piece is known."
    fn display_descriptor(&self, raw: &[u8]) -> Option<Vec<u8>> {
        let (mut shown, mut known) = (Vec::new(), false);
        for (piece, part) in parts(raw) {
            let found = self.tables.display_class_name(part).filter(|_| piece);
            known = known || found.is_some();
            shown.extend_from_slice(match found {
                Some((place, length)) => self.tables.text(place, length),
                None => part,
            });
        }
        known.then_some(shown)
    }

    /// What becomes of the token `at` of a node with that signature and that line context.
    fn change(
        &self,
        tree: &Tree,
        at: usize,
        signature: Option<Signature>,
        context: Option<Key>,
    ) -> Change {
        let [kind, raw, _] = tree.tokens[at];
        if let Some(signature) = signature.filter(|signature| signature.member == at) {
            let name = self.display_name(self.key(tree, signature));
            return name.map_or(Change::Stays, Change::Name);
        }
        match kind {
            DESCRIPTOR => {
                let shown = self.display_descriptor(tree.raw_name(at));
                shown.map_or(Change::Stays, Change::Name)
            }
            SOURCE_LINE => {
                let line = context.and_then(|key| self.tables.display_line(key, raw));
                line.map_or(Change::Stays, |[_, line]| Change::Line(line))
            }
            _ => Change::Stays,
        }
    }

    /// The changes of all tokens, in their order.
    fn changes(&self, tree: &Tree, mut put: impl FnMut(usize, Change)) {
        let mut contexts: Vec<Option<Key>> = Vec::new();
        let mut first = 0;
        for [parent, count] in &tree.nodes[..] {
            let count = *count as usize;
            let signature = tree.signature(first, count);
            let named = signature.map(|signature| self.key(tree, signature));
            // "A method whose owner is the class given becomes the line context of the node itself and all below; otherwise
            // the parent's holds."
            let own = named.filter(|key| is_method(key) && key.owner == self.class);
            let above = contexts.get(*parent as usize).copied().flatten();
            let context = own.or(above);
            for at in first..first + count {
                put(at, self.change(tree, at, signature, context));
            }
            contexts.push(context);
            first += count;
        }
    }
}

/// "Output: same rows; for each replaced name, in token order, one name row and body appended, even if equal, its number put
/// in b; a replaced line goes into b." No more is kept than may be needed.
struct Output<'a> {
    tree: &'a Tree<'a>,
    tokens: Vec<[u32; 3]>,
    names: Vec<[u32; 2]>,
    bytes: Vec<u8>,
    needed: usize,
}

impl Output<'_> {
    fn put(&mut self, at: usize, change: Change) {
        match change {
            Change::Stays => {}
            Change::Line(line) => self.tokens[at][2] = line,
            Change::Name(body) => {
                self.needed += 8 + body.len();
                if self.needed <= LONGEST_TREE {
                    let row = [self.bytes.len(), body.len()].map(|number| number as u32);
                    self.tokens[at][2] = self.names.len() as u32;
                    self.names.push(row);
                    self.bytes.extend_from_slice(&body);
                }
            }
        }
    }

    fn written(&self) -> Vec<u8> {
        let counts = [
            self.tree.nodes.len(),
            self.tokens.len(),
            self.names.len(),
            self.bytes.len(),
        ];
        let mut numbers = counts.map(|count| count as u32).to_vec();
        numbers.extend(self.tree.nodes.iter().flatten());
        numbers.extend(self.tokens.iter().flatten());
        numbers.extend(self.names.iter().flatten());
        let mut file: Vec<u8> = numbers.into_iter().flat_map(u32::to_le_bytes).collect();
        file.extend_from_slice(&self.bytes);
        file
    }
}

/// "Apply: 14, 1, 12, 13.": the number, or the file that is written to an output of so many bytes.
pub fn apply(tables: &Lookup, class: &[u8], file: &[u8], room: usize) -> Result<Vec<u8>, u32> {
    if tables.is_malformed() {
        return Err(14);
    }
    if file.len() > LONGEST_TREE {
        return Err(1);
    }
    let tree = trees::read(file).filter(|tree| tree.is_well_formed());
    let tree = tree.ok_or(12u32)?;
    let mut output = Output {
        tree: &tree,
        tokens: tree.tokens.clone(),
        names: tree.names.clone(),
        bytes: tree.bytes.to_vec(),
        needed: file.len(),
    };
    Given { tables, class }.changes(&tree, |at, change| output.put(at, change));
    if output.needed > room.min(LONGEST_TREE) {
        return Err(13);
    }
    Ok(output.written())
}

/// "A refused load zeroes all lent rows and pool bytes ..; a success zeroes what it does not use. Apply treats its output
/// likewise." and "An accepted apply returns the output's length."
pub fn answered(applied: Result<Vec<u8>, u32>, room: usize) -> Applied {
    let (number, mut output) = match applied {
        Ok(written) => (0, written),
        Err(number) => (number, Vec::new()),
    };
    let length = output.len() as u32;
    output.resize(room, 0);
    Applied {
        number,
        length,
        output,
    }
}
