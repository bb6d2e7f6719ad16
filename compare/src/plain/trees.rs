//! Document 01 "Tree file (added)": whether a file is well formed, and the signature of a node.

use super::characters::not_utf8;
use std::array;

/// "N node rows (parent, token count); T token rows (kind, a, b) in node order; S name rows (place among the name bytes,
/// length); B name bytes."
pub struct Tree<'a> {
    pub nodes: Vec<[u32; 2]>,
    pub tokens: Vec<[u32; 3]>,
    pub names: Vec<[u32; 2]>,
    pub bytes: &'a [u8],
}

/// A member name and a descriptor, and as owner a descriptor or the class given; all by the numbers of tokens in the file.
#[derive(Clone, Copy, Debug, PartialEq)]
pub struct Signature {
    pub member: usize,
    pub descriptor: usize,
    pub owner: Option<usize>,
}

/// "row 0's parent is FFFFFFFF"
const NO_PARENT: u32 = 0xFFFF_FFFF;

/// "kind 1 member name and 2 descriptor"
const MEMBER_NAME: u32 = 1;
const DESCRIPTOR: u32 = 2;

/// The bytes of four counts.
const HEAD: usize = 16;

/// Rows of so many "32-bit little-endian numbers".
fn rows<const NUMBERS: usize>(bytes: &[u8]) -> Vec<[u32; NUMBERS]> {
    let number =
        |row: &[u8], at: usize| u32::from_le_bytes(array::from_fn(|byte| row[4 * at + byte]));
    let rows = bytes.chunks_exact(4 * NUMBERS);
    rows.map(|row| array::from_fn(|at| number(row, at)))
        .collect()
}

/// "counts N, T, S, B" and what they count. "The length must agree": none where it does not.
pub fn read(file: &[u8]) -> Option<Tree<'_>> {
    let counts = rows(file.get(..HEAD)?).pop()?;
    let [nodes, tokens, names, bytes] = counts.map(u64::from);
    let length = HEAD as u64 + 8 * nodes + 12 * tokens + 8 * names + bytes;
    if file.len() as u64 != length {
        return None;
    }
    let (nodes, rest) = file[HEAD..].split_at(8 * nodes as usize);
    let (tokens, rest) = rest.split_at(12 * tokens as usize);
    let (names, bytes) = rest.split_at(8 * names as usize);
    Some(Tree {
        nodes: rows(nodes),
        tokens: rows(tokens),
        names: rows(names),
        bytes,
    })
}

impl Tree<'_> {
    /// "N is at least 1; row 0's parent is FFFFFFFF"
    fn root_is_fine(&self) -> bool {
        self.nodes.first().is_some_and(|root| root[0] == NO_PARENT)
    }

    /// "any other's a lower row"
    fn parents_are_lower(&self) -> bool {
        let mut others = self.nodes.iter().enumerate().skip(1);
        others.all(|(row, node)| (node[0] as usize) < row)
    }

    /// "token counts sum to T"
    fn counts_sum(&self) -> bool {
        let sum: u64 = self.nodes.iter().map(|node| u64::from(node[1])).sum();
        sum == self.tokens.len() as u64
    }

    /// "kind 1 member name and 2 descriptor (raw name, display name, below S), 3 source line (raw, display), 0 anything
    /// else, its a and b not read, no other kind"
    fn token_is_fine(&self, token: &[u32; 3]) -> bool {
        let [kind, raw, display] = *token;
        let is_name = |name: u32| (name as usize) < self.names.len();
        match kind {
            0 | 3 => true,
            MEMBER_NAME | DESCRIPTOR => is_name(raw) && is_name(display),
            _ => false,
        }
    }

    /// "names inside B": the bytes of one that is.
    fn name(&self, row: &[u32; 2]) -> Option<&[u8]> {
        let [place, length] = row.map(|number| number as usize);
        self.bytes.get(place..place + length)
    }

    /// "and UTF-8"
    fn name_is_fine(&self, row: &[u32; 2]) -> bool {
        self.name(row).is_some_and(|name| not_utf8(name).is_none())
    }

    /// "Checked in this order, all rows at a time."
    pub fn is_well_formed(&self) -> bool {
        self.root_is_fine()
            && self.parents_are_lower()
            && self.counts_sum()
            && self.tokens.iter().all(|token| self.token_is_fine(token))
            && self.names.iter().all(|row| self.name_is_fine(row))
    }

    /// The raw name of a token that has one.
    pub fn raw_name(&self, at: usize) -> &[u8] {
        let row = self.names.get(self.tokens[at][1] as usize);
        row.and_then(|row| self.name(row)).unwrap_or_default()
    }

    /// A descriptor "not starting `(`", by its raw name.
    fn is_owner(&self, token: &[u32; 3]) -> bool {
        let name = self.names.get(token[1] as usize);
        let name = name.and_then(|row| self.name(row)).unwrap_or_default();
        token[0] == DESCRIPTOR && !name.starts_with(b"(")
    }

    /// "A node's signature: its first member name, the first descriptor after it, and as owner the nearest earlier
    /// descriptor not starting `(`, else the class given." None where the file has no such tokens.
    pub fn signature(&self, first: usize, count: usize) -> Option<Signature> {
        let tokens = self.tokens.get(first..first.checked_add(count)?)?;
        let member = tokens.iter().position(|token| token[0] == MEMBER_NAME)?;
        let (before, after) = (&tokens[..member], &tokens[member + 1..]);
        let descriptor = after.iter().position(|token| token[0] == DESCRIPTOR)?;
        let owner = before.iter().rposition(|token| self.is_owner(token));
        Some(Signature {
            member: first + member,
            descriptor: first + member + 1 + descriptor,
            owner: owner.map(|owner| first + owner),
        })
    }
}

/// Whether a file is a tree file that is not malformed.
pub fn is_well_formed(file: &[u8]) -> bool {
    read(file).is_some_and(|tree| tree.is_well_formed())
}
