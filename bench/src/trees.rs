//! The check of tree files: a usual tree, and files made to be slow, all of them well formed.

use crate::hostile;
use clumarief_compare::proved;
use clumarief_compare::random::Random;
use clumarief_compare::tree_files::{self, TreeFile};

/// In KiB, up to the longest that a tree file may be.
const LENGTHS: [usize; 4] = [512, 1_024, 2_048, 4_096];

/// The four counts and the root's row.
const HEAD: usize = 24;

/// The root alone, with no token.
fn root() -> (u32, Vec<[u32; 3]>) {
    (u32::MAX, Vec::new())
}

/// One node, half the file name bytes of equal parts and half name rows of one kind, of which `row` says what they are for
/// so many bytes.
fn halves(length: usize, part: &[u8], row: fn(u32) -> [u32; 2]) -> TreeFile {
    let bytes = part.repeat((length - HEAD) / 2 / part.len());
    TreeFile {
        nodes: vec![root()],
        names: vec![row(bytes.len() as u32); (length - HEAD - bytes.len()) / 8],
        bytes,
    }
}

/// Every name is the whole of the name bytes.
fn overlapping(length: usize) -> TreeFile {
    halves(length, b"a", |bytes| [0, bytes])
}

/// The same for all but the first byte and the last, so that no name starts or ends where a group does.
fn overlapping_within(length: usize) -> TreeFile {
    halves(length, b"a", |bytes| [1, bytes - 2])
}

fn overlapping_wide(length: usize) -> TreeFile {
    halves(length, "\u{1F600}".as_bytes(), |bytes| [4, bytes - 8])
}

/// Few name bytes, of characters of all lengths, and name rows that all start and end inside of a group.
fn rows_alone(length: usize) -> TreeFile {
    let bytes = "a\u{E9}\u{4E2D}\u{1F600}".repeat(25).into_bytes();
    TreeFile {
        nodes: vec![root()],
        names: vec![[10, bytes.len() as u32 - 20]; (length - HEAD - bytes.len()) / 8],
        bytes,
    }
}

/// The first name byte is bad, and no name has it.
fn bad_in_front(length: usize) -> TreeFile {
    let mut tree = halves(length, b"a", |bytes| [1, bytes - 1]);
    tree.bytes[0] = 0xFF;
    tree
}

/// All name bytes are bad, and every name is empty.
fn all_bad(length: usize) -> TreeFile {
    halves(length, &[0x80], |bytes| [bytes / 2 + 1, 0])
}

/// One name of four-byte characters.
fn wide(length: usize) -> TreeFile {
    let bytes = "\u{1F600}".repeat((length - HEAD - 8) / 4).into_bytes();
    TreeFile {
        nodes: vec![root()],
        names: vec![[0, bytes.len() as u32]],
        bytes,
    }
}

/// Each node below the one before it.
fn all_nodes(length: usize) -> TreeFile {
    let below = |row: usize| (row as u32, Vec::new());
    let others = (0..(length - HEAD) / 8).map(below);
    TreeFile {
        nodes: [root()].into_iter().chain(others).collect(),
        ..TreeFile::default()
    }
}

fn all_tokens(length: usize) -> TreeFile {
    TreeFile {
        nodes: vec![(u32::MAX, vec![[2, 0, 0]; (length - HEAD - 8) / 12])],
        names: vec![[0, 0]],
        bytes: Vec::new(),
    }
}

type Maker = fn(usize) -> TreeFile;

const MADE: [(&str, Maker); 9] = [
    ("names overlapping", overlapping),
    ("overlapping within", overlapping_within),
    ("overlapping, four bytes", overlapping_wide),
    ("name rows", rows_alone),
    ("a bad byte in front", bad_in_front),
    ("bad bytes alone", all_bad),
    ("four-byte characters", wide),
    ("node rows", all_nodes),
    ("token rows", all_tokens),
];

fn well_formed(file: &[u8]) -> &'static str {
    if proved::tree(file) == 1 { "yes" } else { "no" }
}

/// A long file is timed fewer times than a short text.
pub fn run(seed: u64, runs: u64) {
    let runs = runs.min(20);
    hostile::print_head_of("hostile tree", "formed", &LENGTHS);
    let row = |name: &str, file: &dyn Fn(usize) -> TreeFile| {
        let file = |length| file(length).written();
        hostile::print_row_of(name, &LENGTHS, runs, file, |file| {
            move || well_formed(&file)
        });
    };
    row("a usual tree", &|length| {
        // what the last node may go beyond
        tree_files::usual(&mut Random::new(seed, "usual tree"), length - 1_024)
    });
    for (name, file) in MADE {
        row(name, &file);
    }
}
