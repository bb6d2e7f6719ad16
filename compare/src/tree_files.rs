//! Tree files that are well formed: as a shrinker's reader would get them, with names that overlap, and made to be slow.

use crate::plain::trees;
use crate::random::Random;
use crate::texts;

/// What a tree file is written from.
#[derive(Clone, Default)]
pub struct TreeFile {
    /// parent and tokens
    pub nodes: Vec<(u32, Vec<[u32; 3]>)>,
    /// place and length
    pub names: Vec<[u32; 2]>,
    pub bytes: Vec<u8>,
}

impl TreeFile {
    pub fn written(&self) -> Vec<u8> {
        let tokens = || self.nodes.iter().flat_map(|(_, tokens)| tokens);
        let counts = [
            self.nodes.len(),
            tokens().count(),
            self.names.len(),
            self.bytes.len(),
        ];
        let mut numbers = counts.map(|count| count as u32).to_vec();
        for (parent, tokens) in &self.nodes {
            numbers.extend([*parent, tokens.len() as u32]);
        }
        numbers.extend(tokens().flatten());
        numbers.extend(self.names.iter().flatten());
        let mut file: Vec<u8> = numbers.into_iter().flat_map(u32::to_le_bytes).collect();
        file.extend(&self.bytes);
        file
    }

    /// How many tokens there are.
    pub fn tokens(&self) -> usize {
        self.nodes.iter().map(|(_, tokens)| tokens.len()).sum()
    }

    /// What a file that is well formed is written from.
    pub fn read(file: &[u8]) -> Option<Self> {
        let tree = trees::read(file).filter(trees::Tree::is_well_formed)?;
        let mut tokens = tree.tokens.iter().copied();
        let node = |[parent, count]: &[u32; 2]| {
            let own = tokens.by_ref().take(*count as usize);
            (*parent, own.collect())
        };
        Some(TreeFile {
            nodes: tree.nodes.iter().map(node).collect(),
            names: tree.names.clone(),
            bytes: tree.bytes.to_vec(),
        })
    }

    /// The same without a node, whose children go to its parent.
    fn without_node(&self, row: usize) -> Self {
        let mut tree = self.clone();
        let (parent, _) = tree.nodes.remove(row);
        for (other, _) in &mut tree.nodes[row..] {
            if *other as usize == row {
                *other = parent;
            } else if *other as usize > row {
                *other -= 1;
            }
        }
        tree
    }

    /// The same with the names alone that tokens have, side by side.
    fn compact(&self) -> Self {
        let mut tree = TreeFile {
            nodes: self.nodes.clone(),
            ..TreeFile::default()
        };
        let mut numbers = vec![None; self.names.len()];
        let tokens = tree.nodes.iter_mut().flat_map(|(_, tokens)| tokens);
        for token in tokens.filter(|token| token[0] == 1 || token[0] == 2) {
            for name in &mut token[1..] {
                let at = *name as usize;
                *name = *numbers[at].get_or_insert_with(|| {
                    let [place, length] = self.names[at].map(|number| number as usize);
                    let row = [tree.bytes.len() as u32, length as u32];
                    tree.names.push(row);
                    tree.bytes.extend(&self.bytes[place..place + length]);
                    tree.names.len() as u32 - 1
                });
            }
        }
        tree
    }

    /// Smaller trees: without a node, without a token, without what no token names.
    pub fn simpler(&self) -> impl Iterator<Item = Self> + use<> {
        let tree = self.clone();
        let rows = (1..self.nodes.len()).rev();
        let nodes = rows.map({
            let tree = tree.clone();
            move |row| tree.without_node(row)
        });
        let places = self.nodes.iter().enumerate();
        let places: Vec<(usize, usize)> = places
            .flat_map(|(row, (_, tokens))| (0..tokens.len()).map(move |at| (row, at)))
            .collect();
        let tokens = places.into_iter().map({
            let tree = tree.clone();
            move |(row, at)| {
                let mut tree = tree.clone();
                tree.nodes[row].1.remove(at);
                tree
            }
        });
        let compact = Some(tree.compact()).filter(|compact| {
            compact.names.len() < tree.names.len() || compact.bytes.len() < tree.bytes.len()
        });
        compact.into_iter().chain(nodes).chain(tokens)
    }

    /// The rows, and the texts of the names.
    pub fn show(&self) -> String {
        let mut said = String::new();
        for (row, (parent, tokens)) in self.nodes.iter().enumerate() {
            said += &format!("  node {row} below {parent}: {tokens:?}\n");
        }
        for (at, row) in self.names.iter().enumerate() {
            let [place, length] = row.map(|number| number as usize);
            let text = self.bytes.get(place..place + length).unwrap_or_default();
            said += &format!("  name {at}: {:?}\n", String::from_utf8_lossy(text));
        }
        said
    }
}

/// A character of one, two, three or four bytes.
const CHARACTERS: [&str; 12] = [
    "a",
    "b",
    "(",
    ";",
    "L",
    "/",
    "\u{E9}",
    "\u{7FF}",
    "\u{4E2D}",
    "\u{FFFD}",
    "\u{10000}",
    "\u{1F600}",
];

/// At least so many bytes of characters.
pub fn characters(random: &mut Random, length: usize) -> String {
    let mut text = String::new();
    while text.len() < length {
        // now and then the same character many times, as a script has
        let times = if random.once_in(8) {
            random.below(40)
        } else {
            1
        };
        text += &random.pick(&CHARACTERS).repeat(times);
    }
    text
}

/// Two places of a text at which characters start or it ends, in their order.
fn part(random: &mut Random, text: &str) -> [u32; 2] {
    let mut place = || {
        let near = random.below(text.len() + 1);
        (0..=near)
            .rfind(|at| text.is_char_boundary(*at))
            .unwrap_or(0)
    };
    let (one, two) = (place(), place());
    [one.min(two) as u32, one.abs_diff(two) as u32]
}

/// So many names in a text, that may overlap and be empty.
pub fn names(random: &mut Random, text: &str, count: usize) -> Vec<[u32; 2]> {
    (0..count).map(|_| part(random, text)).collect()
}

/// A token of any kind, whose names are below `names`.
fn token(random: &mut Random, names: usize) -> [u32; 3] {
    let kinds = if names == 0 {
        &[0, 3][..]
    } else {
        &[0, 1, 1, 2, 2, 2, 3]
    };
    let kind = *random.pick(kinds);
    let number = |random: &mut Random| match kind {
        1 | 2 => random.below(names) as u32,
        _ => random.draw() as u32,
    };
    [kind, number(random), number(random)]
}

/// So many nodes, each with up to `most` tokens.
pub fn nodes(
    random: &mut Random,
    count: usize,
    most: usize,
    names: usize,
) -> Vec<(u32, Vec<[u32; 3]>)> {
    let node = |row: usize| {
        let parent = if row == 0 {
            u32::MAX
        } else {
            random.below(row) as u32
        };
        let tokens = random.below(most + 1);
        (parent, (0..tokens).map(|_| token(random, names)).collect())
    };
    (0..count).map(node).collect()
}

/// A small tree: one to six nodes, up to five names in a few bytes.
pub fn small(random: &mut Random) -> TreeFile {
    let length = random.below(24);
    let text = characters(random, length);
    let count = random.below(6);
    let (names, nodes_there) = (names(random, &text, count), 1 + random.below(6));
    TreeFile {
        nodes: nodes(random, nodes_there, 5, count),
        names,
        bytes: text.into_bytes(),
    }
}

/// One node, and names in many bytes.
pub fn long(random: &mut Random, length: usize) -> TreeFile {
    let text = characters(random, length);
    let count = 1 + random.below(3);
    TreeFile {
        nodes: nodes(random, 1, 2, count),
        names: names(random, &text, count),
        bytes: text.into_bytes(),
    }
}

/// A tree of many nodes with names side by side, of at least so many bytes without its last node.
pub fn usual(random: &mut Random, length: usize) -> TreeFile {
    let mut tree = TreeFile::default();
    let mut written = 0;
    while written < length {
        for _ in 0..4 {
            let (place, width) = (tree.bytes.len() as u32, 4 + random.below(28));
            let name = texts::words(random, width);
            tree.names.push([place, name.len() as u32]);
            tree.bytes.extend(name.bytes());
            written += 8 + name.len();
        }
        let row = tree.nodes.len();
        let parent = if row == 0 {
            u32::MAX
        } else {
            random.below(row) as u32
        };
        let tokens: Vec<[u32; 3]> = (0..6).map(|_| token(random, tree.names.len())).collect();
        written += 8 + 12 * tokens.len();
        tree.nodes.push((parent, tokens));
    }
    tree
}
