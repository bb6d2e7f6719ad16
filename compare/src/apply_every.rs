//! Every tree of one node with up to five tokens, and of two nodes with up to three each, out of eight tokens.

use crate::apply_held::Applying;
use crate::random::Random;
use crate::report::{Held, Settings};
use crate::tree_files::TreeFile;

/// Two classes with a field and methods of one name, one of them with another owner; two ranges that hold line 4.
const MAPPING: &str = "a.A -> x:
    int f -> m
    1:5:void one(a.A):11:15 -> m
    6:9:void b.B.far(a.A):20:23 -> m
    3:9:void two(a.A):30:31 -> m
b.B -> y:
    int g -> m
    2:4:void go(a.A):40:42 -> m
";

const NAMES: [&str; 6] = ["Lx;", "Ly;", "(Lx;)V", "m", "I", "shown"];

/// Each name with another display name; lines 1 and 4; and a token of kind 0.
const TOKENS: [[u32; 3]; 8] = [
    [2, 0, 5],
    [2, 1, 5],
    [2, 2, 5],
    [1, 3, 5],
    [2, 4, 5],
    [3, 1, 7],
    [3, 4, 7],
    [0, 3, 3],
];

/// Every list of tokens up to a length.
fn lists(most: usize) -> Vec<Vec<[u32; 3]>> {
    let mut lists = vec![Vec::new()];
    let mut start = 0;
    for _ in 0..most {
        let end = lists.len();
        for at in start..end {
            for token in TOKENS {
                let mut list: Vec<[u32; 3]> = lists[at].clone();
                list.push(token);
                lists.push(list);
            }
        }
        start = end;
    }
    lists
}

fn tree(nodes: Vec<(u32, Vec<[u32; 3]>)>) -> TreeFile {
    let mut tree = TreeFile {
        nodes,
        ..TreeFile::default()
    };
    for name in NAMES {
        let place = tree.bytes.len() as u32;
        tree.names.push([place, name.len() as u32]);
        tree.bytes.extend(name.bytes());
    }
    tree
}

pub fn run(settings: &Settings, held: &mut Applying) -> Held {
    let mut random: Random = settings.random("every tree");
    assert!(held.load(MAPPING), "a mapping that loads");
    for tokens in lists(settings.letters(5)) {
        let tree = tree(vec![(u32::MAX, tokens)]);
        for class in ["Lx;", "Ly;", "La/A;"] {
            held.tree(&mut random, class, &tree)?;
        }
    }
    let lists = lists(settings.letters(4).min(3));
    for above in &lists {
        for below in &lists {
            let tree = tree(vec![(u32::MAX, above.clone()), (0, below.clone())]);
            held.tree(&mut random, "Lx;", &tree)?;
        }
    }
    Ok(())
}
