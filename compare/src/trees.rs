//! Tree files: whether one is well formed, and the signatures of its nodes, judged by the plain program.

use crate::case::{self, Case, Text};
use crate::plain::trees;
use crate::proved;
use crate::random::Random;
use crate::report::{Comparison, Held, Report, Settings, Subject};
use crate::tree_damage;
use crate::tree_files::{self, TreeFile};

const FILES: Subject<Text, u32> = Subject {
    name: "tree files",
    proved: |file| proved::tree(&file.0),
    judge: |file| Some(u32::from(trees::is_well_formed(&file.0))),
    outcome: |answer| match answer {
        1 => "well formed",
        _ => "malformed",
    },
};

/// Those with many name bytes are counted by themselves.
const LONG_FILES: Subject<Text, u32> = Subject {
    name: "long tree files",
    ..FILES
};

/// The tokens of a node in a tree file.
#[derive(Clone)]
struct Tokens {
    file: Vec<u8>,
    first: usize,
    count: usize,
}

impl Case for Tokens {
    fn simpler(&self) -> Box<dyn Iterator<Item = Self> + '_> {
        let counts = [self.count / 2, self.count.saturating_sub(1)];
        let counts = counts.into_iter().filter(|count| *count < self.count);
        Box::new(counts.map(|count| Tokens {
            count,
            ..self.clone()
        }))
    }

    fn show(&self) -> String {
        let file = case::show_bytes("file", &self.file);
        format!("{file}  tokens: {} from {} on\n", self.count, self.first)
    }
}

const SIGNATURES: Subject<Tokens, [u64; 5]> = Subject {
    name: "signatures of nodes",
    proved: |tokens| proved::node_signature(&tokens.file, tokens.first, tokens.count),
    judge: |tokens| {
        let tree = trees::read(&tokens.file).filter(|tree| tree.is_well_formed());
        let found = tree.and_then(|tree| tree.signature(tokens.first, tokens.count));
        Some(found.map_or([0; 5], |found| {
            let [given, owner] = found.owner.map_or([0; 2], |owner| [1, owner as u64]);
            [
                1,
                found.member as u64,
                found.descriptor as u64,
                given,
                owner,
            ]
        }))
    },
    outcome: |answer| match answer {
        [1, _, _, 1, _] => "with owner",
        [1, ..] => "of the class given",
        _ => "none",
    },
};

struct Trees {
    files: Comparison<Text, u32>,
    long: Comparison<Text, u32>,
    signatures: Comparison<Tokens, [u64; 5]>,
}

impl Trees {
    fn file(&mut self, file: Vec<u8>) -> Held {
        self.files.hold(&Text(file))
    }

    fn long_file(&mut self, tree: &TreeFile) -> Held {
        self.long.hold(&Text(tree.written()))
    }

    /// The tokens of every node, and those from any token on.
    fn every_node(&mut self, random: &mut Random, tree: &TreeFile) -> Held {
        let (file, mut first) = (tree.written(), 0);
        let mut hold = |first: usize, count: usize| {
            let file = file.clone();
            self.signatures.hold(&Tokens { file, first, count })
        };
        for (_, tokens) in &tree.nodes {
            hold(first, tokens.len())?;
            first += tokens.len();
        }
        hold(0, first)?;
        hold(random.below(first + 2), random.below(first + 2))?;
        hold(first, usize::MAX)?;
        hold(usize::MAX, random.below(3))
    }
}

/// Random small trees, and what is near them.
fn small(settings: &Settings, held: &mut Trees) -> Held {
    let mut random = settings.random("trees");
    for turn in settings.turns(200_000) {
        let tree = tree_files::small(&mut random);
        let file = tree.written();
        held.every_node(&mut random, &tree)?;
        held.file(file.clone())?;
        held.file(tree_damage::counts_beyond(&tree))?;
        if turn % 20 == 0 {
            let mut hold = |file| held.file(file);
            tree_damage::every_number(&mut random, &tree, &mut hold)?;
            tree_damage::every_name_byte(&mut random, &tree, &mut hold)?;
            tree_damage::every_length(&mut random, &file, &mut hold)?;
        }
        let mut damaged = tree;
        for _ in 0..1 + random.below(2) {
            tree_damage::damage(&mut random, &mut damaged);
            held.file(damaged.written())?;
        }
        held.every_node(&mut random, &damaged)?;
    }
    Ok(())
}

/// Files of about the least length, of a few bytes each; every other has counts that agree with its length.
fn smallest(settings: &Settings, held: &mut Trees) -> Held {
    let mut random = settings.random("smallest trees");
    for _ in settings.turns(200_000) {
        let length = *random.pick(&[15, 16, 16, 17, 24, 24, 24, 25, 32, 36]);
        let letters = [0, 0, 0, 0, 0, 1, 1, 8, 0xFF, 0xFF, 0x80];
        let mut file: Vec<u8> = (0..length).map(|_| *random.pick(&letters)).collect();
        if random.once_in(2) {
            let nodes = random.below(2);
            let rest = file.len().saturating_sub(16 + 8 * nodes) as u32;
            let counts = [[rest, 0, 0], [0, rest / 8, 0], [0, 0, rest / 12]];
            let [bytes, names, tokens] = *random.pick(&counts);
            let head = [nodes as u32, tokens, names, bytes, u32::MAX, tokens];
            let head = head.into_iter().flat_map(u32::to_le_bytes);
            for (byte, other) in file.iter_mut().zip(head.take(16 + 8 * nodes)) {
                *byte = other;
            }
        }
        held.file(file)?;
    }
    Ok(())
}

/// The proved check keeps how far the name bytes are UTF-8 for each of so many of them.
const GROUP: usize = 128;

/// What spoils a text, and what may stand before the rest of a sequence.
const SPOILING: [u8; 10] = [b'a', 0x80, 0xBF, 0xC0, 0xC3, 0xE2, 0xED, 0xF0, 0xF4, 0xFF];

/// A place within four bytes of a multiple of a group's width.
fn near_group(random: &mut Random, length: usize) -> usize {
    let group = GROUP * random.below(length / GROUP + 1);
    (group + random.below(9)).saturating_sub(4)
}

/// Names that start and end near the groups' edges, and bytes that spoil them there.
fn long(settings: &Settings, held: &mut Trees) -> Held {
    let mut random = settings.random("long trees");
    for _ in settings.turns(250_000) {
        let length = *random.pick(&[100, 250, 256, 300, 500, 1_000, 1_000, 2_000]);
        let mut tree = tree_files::long(&mut random, length);
        let there = tree.bytes.len();
        held.long_file(&tree)?;
        if random.once_in(2) {
            let name = random.below(tree.names.len());
            let (one, two) = (
                near_group(&mut random, there),
                near_group(&mut random, there),
            );
            tree.names[name] = [one.min(two) as u32, one.abs_diff(two) as u32];
            held.long_file(&tree)?;
        }
        let at = near_group(&mut random, there);
        if let Some(byte) = tree.bytes.get_mut(at) {
            *byte = *random.pick(&SPOILING);
            held.long_file(&tree)?;
        }
    }
    Ok(())
}

/// The most bytes that a tree file may have, around which the proved check's table ends.
const MOST: usize = 4_194_304;

/// Name bytes of about as many as there may be, and more: a good text, and one that is spoilt near its end.
fn largest(settings: &Settings, held: &mut Trees) -> Held {
    let mut random = settings.random("largest trees");
    for more in [0, 1, GROUP, 10_000] {
        let bytes = MOST + more;
        for _ in settings.turns(4) {
            let mut tree = TreeFile {
                nodes: vec![(u32::MAX, Vec::new())],
                names: vec![[0, bytes as u32]],
                bytes: "\u{E9}".repeat(bytes / 2 + 1).into_bytes(),
            };
            tree.bytes.truncate(bytes);
            let from = bytes - random.below(3 * GROUP);
            tree.names.push([from as u32, (bytes - from) as u32]);
            held.long_file(&tree)?;
            tree.names.remove(0);
            held.long_file(&tree)?;
            let at = bytes - 1 - random.below(2 * GROUP);
            tree.bytes[at] = *random.pick(&SPOILING);
            held.long_file(&tree)?;
        }
    }
    Ok(())
}

pub fn run(settings: &Settings, report: &mut Report) -> Held {
    let mut held = Trees {
        files: Comparison::new(FILES),
        long: Comparison::new(LONG_FILES),
        signatures: Comparison::new(SIGNATURES),
    };
    small(settings, &mut held)?;
    smallest(settings, &mut held)?;
    long(settings, &mut held)?;
    largest(settings, &mut held)?;
    report.add(held.files);
    report.add(held.long);
    report.add(held.signatures);
    Ok(())
}
